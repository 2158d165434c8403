"""The words of a call, and what docs/program.md says of them."""
import re

from .calls import Call, Unexpected
from .changes import LIMITS
from .records import is_number

COMMANDS = [b"check", b"matrix", b"run", b"drill", b"serve", b"node", b"import", b"move", b"audit", b"", b"-", b"--help", b"SITE", b"JOURNAL",
            b"OTHER", b"TARGET", b"/dev/null", b"/nonexistent/x", b"0", b"1", b"01", b"+1", b"-1", b"100", b"100001", b"18446744073709551615",
            b"18446744073709551616", b"a" * 5_000, b"\xff", b"\xc8\x20", b"\n", b"check ", b"Check"]

# how many words a command has, and its statuses
SHAPES = {b"check": (2, {0, 3, 6}), b"matrix": (2, {0, 3, 6}), b"run": (3, {0, 3, 4, 5, 6, 8}), b"import": (4, {0, 3, 6, 13, 14, 15}),
          b"move": (5, {0, 3, 5, 6, 8}), b"audit": (4, {0, 3, 4, 6, 12, 13})}


def is_text(word):
    """Words that are no UTF-8 are none."""
    try:
        word.decode()
    except UnicodeDecodeError:
        return False
    return True


def expect_words(call, status, text):
    words = [word if isinstance(word, bytes) else word.encode() for word in call.words]
    usage = text.startswith(b"panel ") or text.startswith(b"usage")
    are_text = all(is_text(word) for word in words)
    numbers = len(words) == 3 and words[0] == b"drill" and all(map(is_number, words[1:])) and 1 <= int(words[2]) <= 100_000
    count, statuses = SHAPES.get(words[0] if words else b"", (0, set()))
    known = numbers or are_text and len(words) == count > 0
    if known == (status == 2):
        raise Unexpected(f"status {status} for known words" if known else f"status {status} for unknown words")
    if status == 2 and not usage:
        raise Unexpected(f"no usage: {text[:100]}")
    if numbers and not re.fullmatch(rb"drill seed %s ticks %s zones \d+ outputs \d+ counter \d+\n" % (words[1], words[2]), text):
        raise Unexpected(f"another line of a drill: {text[:100]}")
    if known and not numbers and status not in statuses:
        raise Unexpected(f"status {status}")


def words(draw, seeds):
    count = draw.choice([0, 1, 2, 2, 3, 3, 3, 4, 4, 5, 5, 6])
    them = [draw.choice(COMMANDS) for _ in range(count)]
    if them and draw.random() < 0.7:
        them[0] = draw.choice([b"check", b"matrix", b"run", b"drill", b"import", b"move", b"audit"])
    if them[:1] == [b"serve"]:
        # one with a port and a count would serve
        them[3:4] = [b"0"] * (count > 3)
    if them and them[0] == b"drill":
        them[1:] = [draw.choice([str(draw.choice(LIMITS)).encode(), str(draw.randrange(2**64)).encode(), it]) for it in them[1:]]
        if len(them) == 3 and is_number(them[2]) and 100 < int(them[2]) <= 100_000:
            them[2] = b"50"
    yield Call(them, draw.choice(seeds.sites).bytes, b"end\n", None, None), expect_words
