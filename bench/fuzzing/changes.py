"""Changes of bytes: a bit, a span, a line, a number at a limit, a word of the formats."""
import re

LIMITS = [0, 1, 2, 3, 4, 5, 7, 8, 9, 11, 12, 24, 31, 32, 33, 64, 65, 95, 96, 97, 120, 127, 128, 191, 192, 193, 255, 256, 257, 600, 1200,
          1201, 3600, 3601, 7200, 65_535, 65_536, 999_999_999, 1_000_000_000, 1_000_000_001, 2**31 - 1, 2**31, 2**32 - 1, 2**32,
          2**63 - 1, 2**63, 2**64 - 1, 2**64, 10**30]
TOKENS = [
    *b"tick point cable supply link routing op order end quiet alarm gone sound open short mains standby voltage charger ok bad up down "
    b"confirmed mute override silence resound reset clear delays on off cancel test untest disable enable zone output - k p1 d1 s1 o1 h1 "
    b"l1 e1 r1 1234 abc hello format site panels level2 level3 level4 mains_wait standby_wait loop marker panel last isolators name number "
    b"type verify within partner address kind detector manual when delay count terms all any atleast sounder protection relay none a b c "
    b"zone: manual: fault: marker: [[ ]] [ ] { } = , . # true false inf nan 1e9 0x10 0b1 -1 +1 1979-05-27 07:32:00 '''".split(),
    b'"', b'"""', b"\n", b"\r\n", b" ", b"  ", b"\t", b"\0", b"\x7f", b"\xc8", b"\xff", b"\xef\xbb\xbf", b"\\u0000", b"\\", b"a" * 17,
    b"a" * 511, b"a" * 512, b"a" * 513, b"[" * 90, b"{a=" * 90,
]

def changed(draw, data):
    """Bytes with one to four changes, half of the time of whole words, numbers and lines alone."""
    changes = draw.choice([CHANGES, GENTLE])
    for _ in range(draw.choice([1, 1, 1, 2, 2, 3, 4])):
        data = draw.choice(changes)(draw, data)
    return data


def span(draw, data):
    start = draw.randrange(len(data) + 1)
    return start, min(len(data), start + draw.choice([0, 1, 1, 2, 4, 16, 100]))


def flip(draw, data):
    if not data:
        return data
    at = draw.randrange(len(data))
    return data[:at] + bytes([data[at] ^ 1 << draw.randrange(8)]) + data[at + 1:]


def other_byte(draw, data):
    start, end = span(draw, data)
    return data[:start] + bytes([draw.randrange(256)]) + data[end:]


def cut_out(draw, data):
    start, end = span(draw, data)
    return data[:start] + data[end:]


def cut_off(draw, data):
    return data[:draw.randrange(len(data) + 1)]


def double(draw, data):
    start, end = span(draw, data)
    return data[:end] + data[start:end] * draw.choice([1, 1, 2, 40]) + data[end:]


def number_at_limit(draw, data):
    found = list(re.finditer(rb"[0-9]+", data))
    if not found:
        return data
    it = draw.choice(found)
    near = int(it[0][:40]) + draw.choice([-1, 1])
    text = draw.choice([str(draw.choice(LIMITS)), str(near), "0" + it[0].decode()])
    return data[:it.start()] + text.encode() + data[it.end():]


def swap_lines(draw, data):
    lines = data.split(b"\n")
    one, other = draw.randrange(len(lines)), draw.randrange(len(lines))
    lines[one], lines[other] = lines[other], lines[one]
    return b"\n".join(lines)


def drop_line(draw, data):
    lines = data.split(b"\n")
    del lines[draw.randrange(len(lines))]
    return b"\n".join(lines)


def double_line(draw, data):
    lines = data.split(b"\n")
    at = draw.randrange(len(lines))
    return b"\n".join(lines[:at] + [lines[at]] * 2 + lines[at + 1:])


def token(draw, data):
    start, end = span(draw, data)
    return data[:start] + draw.choice(TOKENS) + data[draw.choice([start, end]):]


def other_word(draw, data):
    found = list(re.finditer(rb"[a-z0-9-]+", data))
    if not found:
        return data
    it = draw.choice(found)
    return data[:it.start()] + draw.choice([draw.choice(TOKENS), draw.choice(found)[0]]) + data[it.end():]


GENTLE = [number_at_limit, number_at_limit, swap_lines, drop_line, double_line, other_word, other_word]
CHANGES = [flip, other_byte, cut_out, cut_off, double, token, *GENTLE]
