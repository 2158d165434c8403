"""Site files up to and past the greatest length, of one thing again and again: deep, wide, and with many keys."""
from .calls import Call
from .sites import expect_form

HEAD = 'format = 1\nsite = "large"\npanels = 1\n'
LONGEST = 1_048_576
# what is repeated, between its front and its end; `#` stands for a number that rises
WIDE = [
    ('{},', 'zone = [', ']\n'),
    ('[],', 'zone = [', ']\n'),
    ('{a={}},', 'zone = [', ']\n'),
    ('{a=1,b=2},', 'zone = [', ']\n'),
    ('1.5e300,', 'zone = [', ']\n'),
    ('{name="z#",panel=1,number=1},', 'zone = [', ']\n'),
    ('{name="p#",panel=1,loop=1,address=1,zone="z"},', 'point = [', ']\n'),
    ('1,', 'loop = [{panel=1,loop=1,last=96,isolators=[', ']}]\n'),
    ('"zone:a",', 'marker = [{name="m",kind="any",terms=[', ']}]\n'),
    ('{name="m#",kind="any",terms=["marker:m#"]},', 'marker = [', ']\n'),
    ('"' + "0" * 64 + '",', "level2 = [", "]\n"),
    ('k# = 1\n', '', ''),
    ('a#.b.c = 1\n', '', ''),
    ("a#" + ".b" * 75 + " = 1\n", "", ""),
    ('[a#.b#.c#]\n', '', ''),
    ('[[zone]]\n', '', ''),
    ("[[zone]]\nname = 'z#'\n", '', ''),
    ('a = 1\n', '', ''),
    ('\n', '', ''),
    ('\r\n', '', ''),
    ('\x00', '', ''),
    ('\\u0041', 'text = "', '"\n'),
    ('"\n', 'text = """', '"""\n'),
    ('x', 'text = "', '"\n'),
]
DEEP = [("[", "]", "zone = "), ("{a=", "}", "zone = "), ("a.", "", "")]


def wide(draw, size):
    """A front, a thing again and again, and an end, of so many bytes where comments can fill them up."""
    unit, front, end = draw.choice(WIDE)
    room, parts, number = size - len(HEAD) - len(front) - len(end), [], 0
    rises = "#" in unit
    while True:
        part = unit.replace("#", str(number)) if rises else unit
        if len(part) > room:
            break
        if not rises:
            parts.append(unit * (room // len(unit)))
            room %= len(unit)
            break
        parts.append(part)
        room -= len(part)
        number += 1
    text = HEAD + front + "".join(parts) + end
    return text + "#" * (size - len(text))


def deep(draw):
    begin, end, front = draw.choice(DEEP)
    depth = draw.choice([1, 2, 40, 78, 79, 80, 81, 82, 126, 127, 128, 1_000, 100_000])
    return HEAD + front + begin * depth + ("" if end == "]" else "a = 1" if not end else "1") + end * depth + "\n"


def large(draw, seeds):
    size = draw.choice([100, 4_096, 65_536, 262_144, LONGEST - 1, LONGEST, LONGEST, LONGEST + 1, LONGEST + 4_096])
    text = deep(draw) if draw.random() < 0.3 else wide(draw, size)
    yield Call(["check", "SITE"], text.encode(), b"", None, None), expect_form
