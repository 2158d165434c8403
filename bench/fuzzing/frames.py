"""What comes to a panel by itself: drawn frames and blocks and changed ones, and what docs/node.md says of each, read without the program."""
from .changes import changed
from .records import Reading, Refused, drawn_line, is_number, read_line

FRAME, HEAD, WORD = 136, 36, 25
MOST = 65_536


class Ring:
    """What a panel keeps of the words that came."""

    def __init__(self, site, panel):
        self.site, self.panel, self.tick = site, panel, 0
        self.words = {other: bytes(WORD) for other in range(1, 9)}
        self.zones = {other: 0 for other in range(1, 9)}
        for zone in site.zones.values():
            self.zones[zone["panel"]] |= 1 << (zone["number"] - 1)

    def neighbours(self):
        beside = {(self.panel - 2) % self.site.panels + 1, self.panel % self.site.panels + 1}
        return sorted(beside) if self.site.panels > 1 else []

    def groups(self):
        return 1 if self.site.panels <= 4 else 2

    def is_word(self, panel, word):
        """Whether a frame may have these bytes of a panel."""
        if panel > self.site.panels or not any(word[:8]):
            return not any(word)
        masks = (int.from_bytes(word[at:at + 4], "big") for at in (8, 12, 16, 20))
        return word[24] <= 1 and all(mask & ~self.zones[panel] == 0 for mask in masks)

    def refusal(self, frame):
        """The number by which a frame is refused; 0 where it isn't."""
        if len(frame) != FRAME:
            return 1
        if frame[:2] != b"FW":
            return 2
        if frame[2:34] != self.site.digest:
            return 3
        if frame[34] not in self.neighbours():
            return 4
        if frame[35] >= self.groups():
            return 5
        return 0 if all(self.is_word(panel, word) for panel, word in self.words_in(frame)) else 6

    def words_in(self, frame):
        first = 4 * frame[35] + 1
        return [(first + place, frame[HEAD + WORD * place:HEAD + WORD * (place + 1)]) for place in range(4)]

    def take(self, frame):
        for panel, word in self.words_in(frame):
            if panel != self.panel and word[:8] > self.words[panel][:8]:
                self.words[panel] = word

    def is_frame(self, told):
        """Whether what the panel hands on has the words that it keeps; of its own no more is known than the tick in which it was made."""
        group = 0 if self.groups() == 1 or self.tick % 2 == 1 else 1
        if len(told) != FRAME or told[:HEAD] != b"FW" + self.site.digest + bytes([self.panel, group]):
            return False
        for panel, word in self.words_in(told):
            if panel == self.panel:
                if int.from_bytes(word[:8], "big") != self.tick or not self.is_word(panel, word):
                    return False
            elif word != self.words[panel]:
                return False
        return True

    def is_own(self, line):
        """Whether a line that the site accepts is an event of this panel."""
        kind, *rest = line.decode().split(" ")
        if kind in ("point", "routing"):
            return self.site.panel_of("point" if kind == "point" else "output", rest[0]) == self.panel
        return kind in ("cable", "supply", "op") and int(rest[0]) == self.panel

    def block_refusal(self, body):
        """The line and the number by which a block is refused, or the tick that it begins."""
        reading, at, number, found = Reading(self.site), 0, 1, None
        while at < len(body) or number == 1:
            piece = body[at:at + 513]
            end = piece.find(b"\n")
            line = piece if end < 0 else piece[:end]
            try:
                if any(not 32 <= byte <= 126 for byte in line[:512]):
                    raise Refused("7")
                if len(line) > 512:
                    raise Refused("6")
                is_tick = line[:5] == b"tick " and is_number(line[5:])
                if end < 0 or line == b"end" or number > 1 and is_tick:
                    raise Refused("1")
                if is_tick:
                    read_line(reading, b"tick 1")
                    found = int(line[5:])
                else:
                    reading.ordered = False
                    try:
                        read_line(reading, line)
                    except Refused as refused:
                        # an order is none of its lines, whatever it gives
                        raise Refused("3") if str(refused).startswith("5") else refused
                    if not self.is_own(line):
                        raise Refused("3")
            except Refused as refused:
                return (number, int(str(refused).split(" ")[0])), None
            at, number = at + end + 1, number + 1
        return None, found


def drawn_frame(draw, ring):
    """A frame, mostly of a neighbour and with words that are newer than those before."""
    senders = ring.neighbours() or [1]
    sender = draw.choice(senders) if draw.random() < 0.95 else draw.randrange(10)
    group = draw.randrange(ring.groups()) if draw.random() < 0.95 else draw.choice([1, 2, 255])
    frame = b"FW" + (ring.site.digest if draw.random() < 0.97 else bytes(32)) + bytes([sender, group])
    for place in range(4):
        panel = 4 * (group % 2) + 1 + place
        stamp = max(0, draw.choice([0, ring.tick, ring.tick + 1, ring.tick - draw.randrange(100), draw.randrange(2**64)]))
        if panel > ring.site.panels or stamp == 0:
            word = bytes(WORD)
        else:
            masks = [ring.zones[panel] & draw.randrange(2**32) for _ in range(4)]
            word = stamp.to_bytes(8, "big") + b"".join(mask.to_bytes(4, "big") for mask in masks) + bytes([draw.randrange(2)])
        if draw.random() < 0.02:
            at = draw.randrange(WORD)
            word = word[:at] + bytes([draw.randrange(256)]) + word[at + 1:]
        frame += word
    if draw.random() < 0.1:
        frame = changed(draw, frame)
    return frame


def drawn_block(draw, ring):
    """A block, mostly of the tick that comes next and with lines of this panel."""
    expected = ring.tick + 1
    tick = expected if draw.random() < 0.9 else draw.choice([0, 1, expected - 1, expected + 1, 2**64 - 1, 2**64])
    lines = [f"tick {tick}"]
    for _ in range(draw.choice([0, 0, 1, 2, 5])):
        line = drawn_line(draw, ring.site)
        if draw.random() < 0.05 or not line.startswith(("order", "link")) and is_about(ring, line):
            lines.append(line)
    body = "".join(f"{line}\n" for line in lines).encode()
    return changed(draw, body) if draw.random() < 0.1 else body


def is_about(ring, line):
    try:
        return ring.is_own(line.encode())
    except ValueError:
        return False


def drawn_input(draw, ring):
    """Bytes that come to a panel."""
    kind = draw.random()
    if kind < 0.15:
        return b""
    if kind < 0.5:
        return drawn_frame(draw, ring)
    if kind < 0.99:
        return drawn_block(draw, ring)
    return draw.choice([b"F" * draw.choice([1, 136, MOST, MOST + 1]), b"t" * draw.choice([MOST, MOST + 1]), bytes(draw.randrange(256) for _ in range(200))])


def answer_to(ring, body):
    """What is to be answered to these bytes, None where it is the frame or a tick's text; what the panel takes of it is noted."""
    if not body:
        return None
    if body.startswith(b"F"):
        number = ring.refusal(body)
        if number:
            return b"refused frame %d\n" % number
        ring.take(body)
        return None
    if len(body) > MOST:
        return b"refused long\n"
    refused, found = ring.block_refusal(body)
    if refused:
        return b"refused line %d %d\n" % refused
    if found != ring.tick + 1:
        return b"expected %d found %d\n" % (ring.tick + 1, found)
    ring.tick += 1
    return None
