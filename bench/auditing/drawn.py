"""Drawn changes of a text."""
from auditing.texts import change_of, whole


class Drawn:
    """A text as blocks of lines, the opening's first, and changes of it."""

    def __init__(self, site, text, draw):
        self.site, self.draw = site, draw
        self.first, *lines = text.splitlines()
        self.last = int(lines.pop().split(" ")[1])
        self.blocks = [(0, [])]
        for line in lines:
            words = line.split(" ")
            if words[0] == "tick":
                self.blocks.append((int(words[1]), []))
            else:
                self.blocks[-1][1].append(line)
        self.blocks = [(tick, list(lines)) for tick, lines in self.blocks]

    def text(self):
        lines = [self.first]
        for tick, block in self.blocks:
            lines += ([f"tick {tick}"] if tick else []) + block
        return "\n".join(lines + [f"end {self.last}"]) + "\n"

    def place(self, line):
        words = line.split(" ")
        if words[0] == "op":
            return 1, whole(words[1]) or 0
        if words[0] == "store":
            return (3,)
        panel = whole(words[0]) or 0
        if words[1] == "busy":
            return 2, panel
        found = change_of(self.site, panel, words[1:])
        return (0, panel) + (found[0] if found else (99,))

    def some_line(self):
        places = [(b, i) for b, (_, lines) in enumerate(self.blocks) for i in range(len(lines))]
        return self.draw.choice(places) if places else None

    def put(self, tick, line):
        """A line into the block of a tick, at its place there."""
        for b, (other, lines) in enumerate(self.blocks):
            if other == tick:
                lines.append(line)
                lines.sort(key=self.place)
                return
        self.blocks.append((tick, [line]))
        self.blocks.sort(key=lambda block: block[0])

    def take(self, b, i):
        line = self.blocks[b][1].pop(i)
        if b and not self.blocks[b][1]:
            del self.blocks[b]
        return line

    def change(self):
        kind = self.draw.choice(["drop", "double", "tick", "turn", "panel", "answer", "name", "swap", "move", "move", "move", "late", "early",
                                 "end", "thing", "thing", "number"])
        at = self.some_line()
        if at is None:
            self.last += self.draw.choice([-1, 1])
            return
        b, i = at
        lines = self.blocks[b][1]
        line, words = lines[i], lines[i].split(" ")
        tick = self.blocks[b][0]
        if kind == "drop":
            del lines[i]
        elif kind == "double":
            lines.insert(i, line)
        elif kind == "tick":
            self.blocks[b] = (max(0, tick + self.draw.choice([-1, 1])), lines)
        elif kind == "turn":
            lines[i] = " ".join(words[:-1] + [{"on": "off", "off": "on"}.get(words[-1], words[-1])])
        elif kind == "panel":
            lines[i] = " ".join([str(self.draw.randint(1, self.site.panels + 1))] + words[1:])
        elif kind == "answer":
            lines[i] = " ".join(words[:2] + [self.draw.choice(["done", "waiting", "already", "store", "denied needs 2 has 1"])])
        elif kind == "name":
            names = list(self.site.zones) + list(self.site.outputs)
            lines[i] = " ".join(words[:-2] + [self.draw.choice(names), words[-1]])
        elif kind == "swap":
            j = self.draw.randrange(len(lines))
            lines[i], lines[j] = lines[j], lines[i]
        elif kind in ("move", "late", "early"):
            far = self.draw.choice([1, 2, 3, 8, 21, 60])
            sign = {"move": self.draw.choice([-1, 1]), "late": 1, "early": -1}[kind]
            goal = min(max(1, tick + sign * far), max(1, self.last))
            self.put(goal, self.take(b, i))
        elif kind == "end":
            self.last = max(0, self.last + self.draw.choice([-1, 1]))
        elif kind == "thing":
            # all that is told of one thing is left out
            if words[0] in ("op", "store") or words[1] == "busy":
                return
            key = words[:-1]
            for c in range(len(self.blocks) - 1, -1, -1):
                kept = [other for other in self.blocks[c][1] if other.split(" ")[:-1] != key]
                self.blocks[c] = (self.blocks[c][0], kept)
            self.blocks = [block for k, block in enumerate(self.blocks) if k == 0 or block[1]]
        elif kind == "number" and words[0] == "op":
            lines[i] = " ".join(["op", str(max(0, (whole(words[1]) or 0) + self.draw.choice([-1, 1, 5])))] + words[2:])
