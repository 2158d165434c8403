"""Moves of journals to other sites: what docs/moving.md says of each, and what the two journals open to then, read without the program."""
import re

from .calls import Call, Unexpected, held_in
from .changes import changed, cut_off, cut_out, double, flip, other_byte
from .journals import drawn_journal, kept_in, opened, opening_lines
from .seeds import Site
from .sites import is_refusal, refusal_of

WORDS = ["move", "SITE", "OTHER", "JOURNAL", "TARGET"]
NOTHING = bytes(906)


class Move:
    """Two sites, each None where its file is no document, what the old journal held, and what the file of the new one did."""

    def __init__(self, old, new, journal, target):
        self.old, self.new, self.journal, self.target = old, new, journal, target
        self.kept, self.is_refused, self.is_followed = None, False, False


def site_in(data):
    """The site of a file that is accepted up to its cycles, None of any other."""
    return Site(data) if refusal_of(data) == b"" else None


def carried(old, new, kept):
    """What a new site takes of what was kept of an old one."""
    points, zones, outputs, tests, delays, counters = kept

    def names(things, numbers, of):
        return {name for name, it in things.items() if of(it) in numbers}

    def place(it):
        return it["panel"], it["loop"], it["address"]

    def number(it):
        return it["panel"], it["number"]

    def taken(things, held, of):
        return {of(it) for name, it in things.items() if name in held}

    return (taken(new.points, names(old.points, points, place), place), taken(new.zones, names(old.zones, zones, number), number),
            taken(new.outputs, names(old.outputs, outputs, number), number), taken(new.zones, names(old.zones, tests, number), number),
            {panel for panel in delays if panel <= new.panels}, {panel: counters[panel] if panel <= new.panels else 0 for panel in counters})


def moved_text(old, new, kept):
    """The text of a move."""
    points, zones, outputs, tests, delays, counters = kept
    lines = [f"dropped point {name}" for name, it in old.points.items()
             if (it["panel"], it["loop"], it["address"]) in points and name not in new.points]
    for word, numbers, olds, news in [("zone", zones, old.zones, new.zones), ("output", outputs, old.outputs, new.outputs),
                                      ("test", tests, old.zones, new.zones)]:
        lines += [f"dropped {word} {name}" for name, it in olds.items() if (it["panel"], it["number"]) in numbers and name not in news]
    gone = range(new.panels + 1, old.panels + 1)
    lines += [f"dropped delays {panel}" for panel in gone if panel in delays]
    lines += [f"dropped counter {panel} {counters[panel]}" for panel in gone if counters[panel]]
    numbers = [len(them) for them in carried(old, new, kept)[:4]]
    return "\n".join([*lines, "moved points {} zones {} outputs {} tests {}\n".format(*numbers)]).encode()


def refused_site(call, status, text):
    """Whether one of the two sites is refused rightly; None where none is told to be."""
    if status != 3:
        return None
    if text.startswith(b"refused old site "):
        return is_refusal(call.site, text.replace(b"refused old ", b"refused ", 1))
    return refusal_of(call.site) in (None, b"") and is_refusal(call.other, text)


def expect_move(call, status, text):
    move = call.expected
    is_refused = refused_site(call, status, text)
    if is_refused is False or is_refused is None and (refusal_of(call.site) or refusal_of(call.other)):
        raise Unexpected(f"status {status} and {text[:200]}, wanted {refusal_of(call.site)}, {refusal_of(call.other)}")
    move.is_refused = bool(is_refused)
    if is_refused:
        return
    if move.old is None or move.new is None:
        if status not in (0, 5) or not re.fullmatch(rb"refused (journal [123]|target) .*\n|(dropped .*\n)*moved points .*\n", text):
            raise Unexpected(f"status {status} and {text[:200]}")
        return
    kept = opened(move.old, move.journal) if move.journal else kept_in(NOTHING, False)
    if isinstance(kept, str):
        wanted = 5, f"refused journal {kept}\n".encode()
    elif move.target:
        wanted = 5, b"refused target %d\n" % len(move.target)
    else:
        wanted, move.kept = (0, moved_text(move.old, move.new, kept)), kept
    if (status, text) != wanted:
        raise Unexpected(f"status {status} and {text[:400]}, wanted {wanted}")


def look_at(move):
    """What looks at the two journals behind a move."""
    def look(journal, target):
        left, made = held_in(journal), held_in(target)
        if (move.journal or move.is_refused) and left != move.journal:
            raise Unexpected("the old journal was written to")
        if move.kept is None:
            # a run behind a move that made nothing makes a journal of its own
            if not move.is_followed and (made or b"") != (move.target or b""):
                raise Unexpected(f"the file of the new journal was {move.target and move.target[:40]}, is {made and made[:40]}")
            return
        if opened(move.old, left) != move.kept:
            raise Unexpected("the old journal opens to something else")
        if opened(move.new, made) != carried(move.old, move.new, move.kept):
            raise Unexpected("the new journal opens to something else")
    return look


def expect_opening(call, status, text):
    """A run that ends at once over the new journal, where the move made one."""
    move = call.expected
    if move.kept is not None:
        wanted = opening_lines(move.new, carried(move.old, move.new, move.kept))
        if (status, text) != (0, wanted):
            raise Unexpected(f"a run over the new journal tells status {status} and {text[:400]}, wanted {wanted[:400]}")


def renamed(draw, site):
    """The file of a site in which things have other names, numbers, places or kinds, one is left out or the format is another."""
    data, names = site.bytes, [*site.points, *site.zones, *site.outputs]
    for _ in range(draw.choice([0, 1, 1, 2, 4])):
        kind, name = draw.random(), (draw.choice(names) if names else "x").encode()
        word = rb"(?<![a-z0-9-])" + re.escape(name) + rb"(?![a-z0-9-])"
        if kind < 0.5:
            data = re.sub(word, draw.choice([b"loft", b"n" * 16, name + b"2" if len(name) < 16 else b"n", name]), data)
        elif kind < 0.7:
            data = re.sub(rb"\n[^\n]*name = \"" + re.escape(name) + rb"\"[^\n]*", b"", data)
        elif kind < 0.8:
            data = re.sub(rb"(?m)^format = \d+", b"format = %d" % draw.choice([1, 2]), data)
        elif kind < 0.9:
            other = (draw.choice(names) if names else "x").encode()
            data = re.sub(word, b"\0", data)
            data = re.sub(rb"(?<![a-z0-9-])" + re.escape(other) + rb"(?![a-z0-9-])", name, data).replace(b"\0", other)
        else:
            data = re.sub(rb"(?m)^site = \"[^\"]*\"", b"site = \"moved\"", data)
    return data


def held_by(draw, site):
    """A journal of a site, or what is none."""
    if draw.random() < 0.15:
        return draw.choice([None, b"", b"FPANEL01"])
    data = drawn_journal(draw, site)
    for _ in range(draw.choice([0, 0, 0, 0, 1, 2])):
        data = draw.choice([flip, flip, other_byte, cut_off, cut_out, double])(draw, data)
    return data


def move(draw, seeds):
    old = draw.choice(seeds.sites)
    other = renamed(draw, old) if draw.random() < 0.7 else draw.choice(seeds.sites).bytes
    first = old.bytes
    if draw.random() < 0.05:
        other = changed(draw, draw.choice(seeds.files))
    elif draw.random() < 0.05:
        first = changed(draw, first)
    journal = held_by(draw, old)
    target = draw.choice([None, None, None, b"", b"hello", bytes(2_048)]) if draw.random() < 0.3 else None
    expected = Move(site_in(first), site_in(other), journal, target)
    expected.is_followed = expected.new is not None and draw.random() < 0.3
    yield Call(WORDS, first, b"", journal, expected, other, target, look_at(expected)), expect_move
    if expected.is_followed:
        yield Call(["run", "SITE", "JOURNAL"], other, b"end\n", "moved", expected), expect_opening
