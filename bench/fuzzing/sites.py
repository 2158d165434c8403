"""Site files: drawn ones and changed ones, and what docs/site-file.md says of each."""
import re

from . import site_judge
from .calls import Call, Unexpected
from .changes import LIMITS, TOKENS, changed

REFUSALS = re.compile(rb"refused site (1|10|[234] \S+|5 \S+ -?[0-9]+|[6-9] \S+( \S+)*|11( [a-z][a-z0-9-]*)+)\n")

def expect_form(call, status, text):
    """What holds of each answer to a site file, whatever is in it."""
    if status == 3 and not REFUSALS.fullmatch(text) or status not in (0, 3):
        raise Unexpected(f"status {status}, a refusal of no form: {text[:200]}")
    if (text == b"refused site 10\n") != (len(call.site) > 1_048_576):
        raise Unexpected(f"another refusal by the length: {text[:200]}")


def refusal_of(data):
    """The line that refuses a site file, an empty one where it is accepted up to its cycles, None where it isn't known."""
    found = site_judge.parsed(data)
    if found is None or deepest(found) >= 79 or has_strange_values(found) or len(data) > 1_048_576:
        return None
    judged = site_judge.judged(found)
    return judged if judged is None else f"refused site {judged}\n".encode() if judged else b""


def is_refusal(data, text):
    """Whether a text is the refusal of a site file, as far as that is known."""
    wanted = refusal_of(data)
    is_cycle = text.startswith(b"refused site 11 ")
    if not REFUSALS.fullmatch(text) or (text == b"refused site 10\n") != (len(data) > 1_048_576):
        return False
    return wanted in (None, text) or wanted == b"" and is_cycle and site_judge.has_cycle(site_judge.parsed(data))


def expect_site(call, status, text):
    expect_form(call, status, text)
    refusal = refusal_of(call.site)
    if refusal is None:
        return
    found = site_judge.parsed(call.site)
    if refusal:
        wanted = refusal
    elif text.startswith(b"refused site 11 ") and site_judge.has_cycle(found):
        return
    elif call.words[0] == "check":
        counts = [len(found.get(key, [])) for key in ("point", "zone", "output", "marker")]
        wanted = "ok panels {} points {} zones {} outputs {} markers {}\n".format(found["panels"], *counts).encode()
    else:
        if status == 0 and [row.split(b" ")[0].decode() for row in text.splitlines()] != [it["name"] for it in found.get("zone", [])]:
            raise Unexpected("a matrix of other zones")
        wanted = text if status == 0 else b"a matrix"
    if text != wanted:
        raise Unexpected(f"{text[:200]}, wanted {wanted[:200]}")


def deepest(value):
    if isinstance(value, dict):
        return 1 + max(map(deepest, value.values()), default=0)
    if isinstance(value, list):
        return 1 + max(map(deepest, value), default=0)
    return 0


def has_strange_values(value):
    """Numbers past 64 bits and bare returns, which Python's reader lets through."""
    if isinstance(value, dict):
        return any(map(has_strange_values, value.values())) or any("\r" in key for key in value)
    if isinstance(value, list):
        return any(map(has_strange_values, value))
    return isinstance(value, int) and not -2**63 <= value < 2**63 or not isinstance(value, (int, str, bool))


def drawn_site(draw):
    """A small site, with a value at or past its limits here and there."""
    wild = draw.choice([0, 0, 0.01, 0.05])
    format = draw.choice([1, 2])

    def number(low, high):
        return draw.choice([low - 1, high + 1, low, high, draw.choice(LIMITS)]) if draw.random() < wild else draw.randint(low, high)

    def one_of(*words):
        return draw.choice(TOKENS[:110]).decode() if draw.random() < wild else draw.choice(words)

    def table(**keys):
        pairs = [(key, value) for key, value in keys.items() if value is not None and draw.random() >= wild / 2]
        if draw.random() < wild / 2:
            pairs.append((draw.choice(["colour", "panel2", "within", "count"]), 1))
        draw.shuffle(pairs)
        return "{ " + ", ".join(f"{key} = {spelled(value)}" for key, value in pairs) + " }"

    def spelled(value):
        if isinstance(value, list):
            return "[" + ", ".join(map(spelled, value)) + "]"
        return f'"{value}"' if isinstance(value, str) else str(value)

    panels = draw.choice([1, 1, 1, 2, 3, 8])
    loops, zones, points, outputs, markers = [], [], [], [], []
    for panel in range(1, panels + 1):
        for loop in range(1, draw.choice([1, 1, 2, 4]) + 1):
            last = draw.randint(8, 96 * format)
            bounds = sorted(draw.sample(range(1, last), draw.randint(0, 3)))
            loops.append(table(panel=panel, loop=loop, last=number(last, last), isolators=bounds))
            for place, first in enumerate([0, *bounds]):
                name = f"z{panel}-{loop}-{place}"
                kind = one_of("none", "none", "a", "b", "c")
                least = draw.randint(12 * format, 120 * format)
                verify = number(least, least) if kind == "a" else None
                low = least + 24 * format if kind == "a" else 600 * format
                within = number(low, 3600 * format) if kind in ("a", "b") else None
                partner = draw.choice(zones)[0] if zones and draw.random() < wild else None
                zones.append((name, table(name=name, panel=panel, number=number(len(zones) % 32 + 1, len(zones) % 32 + 1), type=kind,
                                          verify=verify, within=within, partner=partner)))
                following = [*bounds, last][place]
                # a section holds the addresses above its isolator, and the first one those from 1
                for address in draw.sample(range(first + 1, following + 1), min(draw.randint(0, 3), following - first)):
                    points.append(table(name=f"p{panel}-{loop}-{address}", panel=panel, loop=loop, address=number(address, address),
                                        zone=name, kind=one_of("detector", "detector", "manual")))
        for place in range(draw.choice([0, 1, 2])):
            marker, some = f"m{panel}-{place}", [zone for zone, _ in zones]
            terms = [f"zone:{draw.choice(some)}" for _ in range(draw.randint(1, 4))] + [one_of(f"fault:{panel}", f"manual:{some[0]}")]
            if draw.random() < 0.3 and len(markers) > 0:
                terms.append(f"marker:m{draw.randint(1, panel)}-{draw.randint(0, place)}")
            kind = one_of("any", "all", "atleast")
            markers.append(table(name=marker, kind=kind, count=number(1, len(terms)) if kind == "atleast" else None, terms=terms))
            outputs.append(table(name=f"o{panel}-{place}", panel=panel, number=place + 1, when=marker, delay=number(0, 1200 * format),
                                 kind=one_of("sounder", "routing", "protection", "relay")))
    lists = {"loop": loops, "zone": [zone for _, zone in zones], "point": points, "output": outputs, "marker": markers}
    head = [f"format = {number(format, format)}", f'site = "{one_of("drawn", "d")}"', f"panels = {number(panels, panels)}"]
    head += [f"{key} = {number(0, 1800 * format)}" for key in ("mains_wait", "standby_wait", "voltage_wait") if draw.random() < 0.3]
    text = "\n".join(line for line in head if draw.random() >= wild / 3) + "\n"
    return (text + "".join(f"{key} = [\n  " + ",\n  ".join(rows) + ",\n]\n" for key, rows in lists.items() if rows)).encode()


def site(draw, seeds):
    data = drawn_site(draw) if draw.random() < 0.4 else draw.choice(seeds.files)
    if draw.random() < 0.7:
        data = changed(draw, data)
    word = "matrix" if draw.random() < 0.25 else "check"
    yield Call([word, "SITE"], data, b"", None, None), expect_site
