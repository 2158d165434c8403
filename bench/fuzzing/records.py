"""Records: drawn ones and changed ones, and what docs/record.md says of each, read without the program."""
import re

from .calls import Call, Unexpected
from .changes import LIMITS, changed

NUMBER = re.compile(rb"0|[1-9][0-9]{0,19}")
STATES, SUPPLIES = (b"quiet", b"alarm", b"gone"), (b"mains", b"standby", b"voltage", b"charger")
SINGLE = (b"mute", b"override", b"silence", b"resound", b"reset", b"clear")

class Refused(Exception):
    """A line of the record is refused by this number, with what is told behind it."""


class Reading:
    """A record as far as it is read."""

    def __init__(self, site):
        self.site, self.tick, self.ordered = site, 0, False


def is_number(text):
    return NUMBER.fullmatch(text) is not None and int(text) < 2**64


def form_of(fields):
    """The numbers of a line by docs/record.md, and what it names: kind, name and, of an operation, the panel. None where no row has it."""
    word, rest = fields[0], fields[1:]
    if word == b"tick" and len(rest) == 1:
        return rest, None
    if word == b"point" and len(rest) == 2 and rest[1] in STATES:
        return [], ("point", rest[0], None)
    if word == b"cable" and len(rest) == 4 and rest[3] in (b"sound", b"open", b"short"):
        return rest[:3], ("cable", rest[:3], None)
    if word == b"supply" and len(rest) == 3 and rest[1] in SUPPLIES and rest[2] in (b"ok", b"bad"):
        return rest[:1], ("panel", rest[0], None)
    if word == b"link" and len(rest) == 2 and rest[1] in (b"up", b"down"):
        return rest[:1], ("link", rest[0], None)
    if word == b"routing" and len(rest) == 2 and rest[1] == b"confirmed":
        return [], ("routing", rest[0], None)
    if word == b"order" and rest and all(seat == b"k" or seat[:1] in (b"p", b"d", b"s", b"o", b"h", b"l", b"e", b"r") and seat for seat in rest):
        return [seat[1:] for seat in rest if seat != b"k"], ("order", rest, None)
    if word == b"end" and not rest:
        return [], None
    if word == b"op" and len(rest) >= 3 and re.fullmatch(rb"-|[a-z0-9]{1,16}", rest[1]):
        action = rest[2:]
        if len(action) == 1 and action[0] in SINGLE or action in ([b"delays", b"on"], [b"delays", b"off"]):
            return rest[:1], ("panel", rest[0], None)
        if len(action) == 2 and action[0] in (b"cancel", b"test", b"untest"):
            return rest[:1], ("zone", action[1], rest[0])
        if len(action) == 3 and action[0] in (b"disable", b"enable") and action[1] in (b"point", b"zone", b"output"):
            return rest[:1], (action[1].decode(), action[2], rest[0])
    return None


def is_there(site, kind, name, panel):
    if kind == "cable":
        at, loop, piece = map(int, name)
        return (at, loop) in site.loops and piece <= site.loops[at, loop]
    if kind == "panel":
        return 1 <= int(name) <= site.panels
    if kind == "link":
        return site.panels > 1 and 1 <= int(name) <= site.panels
    if kind == "routing":
        return site.outputs.get(name.decode(), {}).get("kind") in ("routing", "protection")
    found = site.panel_of(kind, name.decode())
    return found is not None and (panel is None or found == int(panel))


def wrong_place(reading, seats):
    """The place at which an order is wrong, None where it is right."""
    if reading.ordered:
        return 0
    texts, taken = [seat.decode() for seat in seats], set()
    for place, seat in enumerate(texts, 1):
        if seat not in reading.site.seats or seat in taken:
            return place
        taken.add(seat)
    return None if len(texts) == len(reading.site.seats) else len(texts) + 1


def read_line(reading, line):
    """A whole line; True at the end of the record."""
    fields = line.split(b" ")
    form = form_of(fields)
    if form is None:
        raise Refused("1")
    numbers, named = form
    if reading.tick == 0 and fields[0] not in (b"tick", b"end"):
        raise Refused("8")
    if not all(map(is_number, numbers)):
        raise Refused("2")
    if named and named[0] != "order" and not is_there(reading.site, *named):
        raise Refused("3")
    if fields[0] == b"tick":
        if int(fields[1]) != reading.tick + 1:
            raise Refused(f"4 expected {reading.tick + 1} found {int(fields[1])}")
        reading.tick, reading.ordered = reading.tick + 1, False
    if fields[0] == b"order":
        place = wrong_place(reading, named[1])
        if place is not None:
            raise Refused(f"5 {place}")
        reading.ordered = True
    return fields[0] == b"end"


def read_record(site, data):
    """The status and the last line of a run over a record, and the number of its operations."""
    reading, at, number, operations = Reading(site), 0, 1, 0
    while True:
        piece = data[at:at + 513]
        end = piece.find(b"\n")
        line = piece if end < 0 else piece[:end]
        strange = next((place for place, byte in enumerate(line[:512]) if not 32 <= byte <= 126), None)
        try:
            if strange is not None:
                raise Refused("7")
            if len(line) > 512:
                raise Refused("6")
            if end < 0:
                raise Refused("9")
            if read_line(reading, line):
                return 0, f"end {reading.tick}", operations
        except Refused as refused:
            return 4, f"refused line {number} {refused}", operations
        operations += line.startswith(b"op ")
        at, number = at + end + 1, number + 1


def expect_run(call, status, text):
    site, record = call.expected
    wanted, last, operations = read_record(site, record)
    lines = text.split(b"\n")
    if status != wanted or lines[-2:] != [last.encode(), b""]:
        raise Unexpected(f"status {status} and the last line {lines[-2:-1]}, wanted {wanted} and {last}")
    if lines[0] != f"site {site.name} panels {site.panels}".encode():
        raise Unexpected("another first line")
    answers = sum(line.startswith(b"op ") for line in lines)
    if answers > operations:
        raise Unexpected(f"{answers} answers to {operations} operations")


def drawn_line(draw, site):
    """A line that the record's grammar has, mostly of things of the site."""
    point, zone, output = (draw.choice(list(them) or ["x"]) for them in (site.points, site.zones, site.outputs))
    panel = draw.randrange(1, site.panels + 1) if draw.random() < 0.97 else draw.choice(LIMITS)
    where = draw.choice(list(site.loops) or [(1, 1)])
    piece = draw.randrange(site.loops.get(where, 1) + 1 + (draw.random() < 0.05))
    code = draw.choice(["-", "1234", "1234", "abc", "hello", "hello", "0"])
    item = draw.choice([f"point {point}", f"zone {zone}", f"output {output}"])
    home = site.panel_of(*item.split(" ")) or panel
    at = site.panel_of("zone", zone) or panel
    return draw.choice([
        lambda: f"point {point} {draw.choice(['quiet', 'alarm', 'alarm', 'gone'])}",
        lambda: f"point {point} {draw.choice(['quiet', 'alarm', 'alarm', 'gone'])}",
        lambda: f"cable {where[0]} {where[1]} {piece} {draw.choice(['sound', 'open', 'short'])}",
        lambda: f"supply {panel} {draw.choice(['mains', 'standby', 'voltage', 'charger'])} {draw.choice(['ok', 'bad'])}",
        lambda: f"link {panel} {draw.choice(['up', 'down'])}" if site.panels > 1 else "op 1 - mute",
        lambda: f"op {panel} {code} {draw.choice(['mute', 'override', 'silence', 'resound', 'reset', 'clear', 'delays on', 'delays off'])}",
        lambda: f"op {at} {code} {draw.choice(['cancel', 'test', 'untest'])} {zone}",
        lambda: f"op {home} {code} {draw.choice(['disable', 'enable'])} {item}",
        lambda: f"op {home} {code} {draw.choice(['disable', 'enable'])} {item}",
        lambda: "order " + " ".join(draw.sample(site.seats, len(site.seats))),
    ])()


def drawn_record(draw, site):
    lines, busy = [], draw.choice([0, 0, 1, 2, 5])
    for tick in range(1, draw.choice([2, 5, 20, 60, 150]) + 1):
        lines.append(f"tick {tick}")
        lines += [drawn_line(draw, site) for _ in range(busy if busy else draw.random() < 0.2)]
    ordered = []
    for line in lines:
        if not (line.startswith("order") and any(it.startswith("order") for it in ordered)) or draw.random() < 0.01:
            ordered.append(line)
        if line.startswith("tick"):
            kept = ordered[:-1]
            yield from kept
            ordered = [line]
    yield from ordered
    yield "end"


def record(draw, seeds):
    sites, records = seeds.sites, seeds.records
    if draw.random() < 0.4:
        site = draw.choice(sites)
        data = "".join(f"{line}\n" for line in drawn_record(draw, site)).encode()
        if draw.random() < 0.3:
            data = changed(draw, data)
    else:
        site, data = draw.choice(records)
        data = changed(draw, data)
    yield Call(["run", "SITE", "JOURNAL"], site.bytes, data, None, (site, data)), expect_run
    if draw.random() < 0.1:
        yield Call(["run", "SITE", "JOURNAL"], site.bytes, b"tick 1\nend\n", "left", (site, b"tick 1\nend\n")), expect_run
