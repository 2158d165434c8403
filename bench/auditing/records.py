"""A record that no line of is refused: what points, cables and links are at by the end of each tick, and what is asked for."""
import functools

NEVER = 1 << 60
NEEDS = {"mute": 1, "override": 1, "silence": 2, "resound": 2, "reset": 2, "cancel": 2, "disable": 2, "enable": 2, "delays": 2,
         "test": 3, "untest": 3, "clear": 4}


class Record:
    """The states of each tick, and the operations asked for."""

    def __init__(self, site, text):
        self.site = site
        self.ticks = 0
        self.asked = []  # (tick, panel, level, action words), in order
        point = {p: "quiet" for p in site.points}
        piece = {(p, l, k): "sound" for (p, l), row in site.loops.items() for k in range(row["last"] + 1)}
        link = {n: "up" for n in range(1, site.links + 1)}
        self.point, self.reached, self.link = [None], [None], [None]

        def close():
            if self.ticks:
                self.point.append(dict(point))
                self.link.append(dict(link))
                if changed or len(self.reached) == 1:
                    self.reached.append({p: is_reached(site, piece, p) for p in site.points})
                else:
                    self.reached.append(self.reached[-1])

        changed = False
        for line in text.splitlines():
            words = line.split(" ")
            if words[0] in ("tick", "end"):
                close()
                changed = False
                if words[0] == "end":
                    break
                self.ticks += 1
                assert int(words[1]) == self.ticks
            elif words[0] == "point":
                point[words[1]] = words[2]
            elif words[0] == "cable":
                piece[tuple(int(w) for w in words[1:4])] = words[4]
                changed = True
            elif words[0] == "link":
                link[int(words[1])] = words[2]
            elif words[0] == "op":
                self.asked.append((self.ticks, int(words[1]), site.level(words[2]), tuple(words[3:])))
            else:
                assert words[0] in ("supply", "routing", "order"), line

    @functools.cached_property
    def ways_up(self):
        """For two panels, by tick: since when each of the two ways round the ring has been up without a break."""
        site, ways = self.site, {}
        for a in range(1, site.panels + 1):
            for b in range(a + 1, site.panels + 1):
                inner = list(range(a, b))
                outer = [n for n in range(1, site.links + 1) if n not in inner]
                since = []
                for way in (inner, outer):
                    run, runs = NEVER, [NEVER]
                    for tick in range(1, self.ticks + 1):
                        up = all(self.link[tick][n] == "up" for n in way)
                        run = min(run, tick) if up else NEVER
                        runs.append(run)
                    since.append(runs)
                ways[a, b] = ways[b, a] = since
        return ways

    def joined(self, p, q, first, last):
        """One way round the ring has all its links up in each of these ticks."""
        return p == q or any(way[last] <= first for way in self.ways_up[p, q])


def is_reached(site, piece, name):
    """Whether an address is reached: its section holds no short, and from one end no piece up to it is open or lies in a section
    that holds a short."""
    point = site.points[name]
    key = point["panel"], point["loop"]
    loop, address = site.loops[key], point["address"]
    last = loop["last"]
    places = [0] + list(loop.get("isolators", [])) + [last]
    sections = list(zip(places, places[1:]))
    state = {k: piece[key + (k,)] for k in range(last + 1)}

    def pieces_of(section):
        return range(section[0], section[1] + (section == sections[-1]))

    section_of = {k: s for s in sections for k in pieces_of(s)}
    own = next(s for s in sections if s[0] + 1 <= address <= s[1])
    shorted = {s for s in sections if any(state[k] == "short" for k in pieces_of(s))}
    if own in shorted:
        return False
    return any(all(state[k] != "open" and section_of[k] not in shorted for k in way) for way in (range(address), range(address, last + 1)))
