"""What docs/site-file.md says of a site file, read with Python's own TOML: the refusal as `check` tells it, or none. Shares nothing with the program.

`judged` gives the words behind `refused site`, an empty text for a site that is accepted up to its cycles, and None where it has no opinion.
"""
import re
import tomllib

NAME = re.compile(r"[a-z][a-z0-9-]{0,15}")
DIGEST = re.compile(r"[0-9a-f]{64}")
NUMBER = re.compile(r"0|[1-9][0-9]{0,19}")
LISTS = ("loop", "zone", "point", "output", "marker")
LEVELS = ("level2", "level3", "level4")
WAITS = {"mains_wait": 3600, "voltage_wait": 3600, "charger_wait": 3600, "standby_wait": 1800}
TOP = {"format": "number", "site": "name", "panels": "number"} | {key: "digests" for key in LEVELS} | {key: "number" for key in WAITS}
TABLES = {
    "loop": {"panel": "number", "loop": "number", "last": "number", "isolators": "numbers"},
    "zone": {"name": "name", "panel": "number", "number": "number", "type": ("none", "a", "b", "c"), "verify": "number", "within": "number",
             "partner": "name"},
    "point": {"name": "name", "panel": "number", "loop": "number", "address": "number", "zone": "name", "kind": ("detector", "manual")},
    "output": {"name": "name", "panel": "number", "number": "number", "kind": ("sounder", "routing", "protection", "relay"), "when": "name",
               "delay": "number"},
    "marker": {"name": "name", "kind": ("all", "any", "atleast"), "count": "number", "terms": "terms"},
}
OPTIONAL = {"loop": {"isolators"}, "zone": {"type", "partner", "verify", "within"}, "point": {"kind"}, "output": {"delay"}, "marker": {"count"}}


class Refused(Exception):
    """A site file is refused, in these words."""


class NoOpinion(Exception):
    """The page doesn't say which of two findings comes first, or Python reads other TOML."""


def is_int(value):
    return isinstance(value, int) and not isinstance(value, bool)


def word(table, key, allowed, default):
    value = table.get(key)
    return value if isinstance(value, str) and value in allowed else default


def needed(kind, table):
    keys = set(TABLES[kind]) - OPTIONAL[kind]
    if kind == "zone":
        keys |= {"a": {"verify", "within"}, "b": {"within"}}.get(word(table, "type", TABLES["zone"]["type"], "none"), set())
    if kind == "marker" and word(table, "kind", TABLES["marker"]["kind"], "any") == "atleast":
        keys.add("count")
    return keys


def known(kind, table):
    keys = set(TABLES[kind])
    if kind == "zone":
        which = word(table, "type", TABLES["zone"]["type"], "none")
        keys -= {"none": {"verify", "within", "partner"}, "a": {"partner"}, "b": {"verify"}, "c": {"verify", "within"}}[which]
    if kind == "marker" and word(table, "kind", TABLES["marker"]["kind"], "any") != "atleast":
        keys.discard("count")
    return keys


def tables(found):
    """Each table of the lists with its kind and the front of its keys."""
    for kind in LISTS:
        for place, table in enumerate(found.get(kind, []), 1):
            yield kind, f"{kind}[{place}].", table


def in_order(keys):
    return sorted(keys, key=str.encode)


def is_term(text):
    kind, _, name = text.partition(":")
    if kind == "fault":
        return NUMBER.fullmatch(name) is not None and int(name) < 2**64
    return kind in ("zone", "manual", "marker") and NAME.fullmatch(name) is not None


def look_at_kind(key, form, value):
    """Whether a value is of the kind of its key."""
    if form == "number":
        if not is_int(value):
            raise Refused(f"3 {key}")
    elif form == "name":
        if not isinstance(value, str) or not NAME.fullmatch(value):
            raise Refused(f"3 {key}")
    elif isinstance(form, tuple):
        if value not in form or not isinstance(value, str):
            raise Refused(f"3 {key}")
    else:
        if not isinstance(value, list):
            raise Refused(f"3 {key}")
        fits = {"numbers": is_int, "digests": lambda it: isinstance(it, str) and DIGEST.fullmatch(it),
                "terms": lambda it: isinstance(it, str) and is_term(it)}[form]
        for place, item in enumerate(value, 1):
            if not fits(item):
                raise Refused(f"3 {key}[{place}]")


def look_at_forms(found):
    """The passes 2 to 4."""
    for key in in_order({"format", "site", "panels"} - set(found)):
        raise Refused(f"2 {key}")
    if any(not isinstance(found.get(kind, []), list) or not all(isinstance(it, dict) for it in found.get(kind, [])) for kind in LISTS):
        raise NoOpinion
    for kind, front, table in tables(found):
        for key in in_order(needed(kind, table) - set(table)):
            raise Refused(f"2 {front}{key}")
    for key in in_order(set(found) & set(TOP)):
        look_at_kind(key, TOP[key], found[key])
    for kind, front, table in tables(found):
        for key in in_order(set(table) & set(TABLES[kind])):
            if key not in known(kind, table):
                continue
            look_at_kind(front + key, TABLES[kind][key], table[key])
    for key in in_order(set(found) - set(TOP) - set(LISTS)):
        raise Refused(f"4 {key}")
    for kind, front, table in tables(found):
        for key in in_order(set(table) - known(kind, table)):
            raise Refused(f"4 {front}{key}")


def look_at_range(key, value, low, high):
    if not low <= value <= high:
        raise Refused(f"5 {key} {value}")


def look_at_numbers(found, f):
    """Pass 5, as far as the numbers that it goes by are right themselves."""
    panels = found["panels"]
    for key in in_order(found):
        value = found[key]
        if key == "format":
            look_at_range(key, value, 1, 2)
        elif key == "panels":
            look_at_range(key, value, 1, 8)
        elif key in WAITS:
            look_at_range(key, value, 0, WAITS[key] * f)
        elif key in LEVELS and len(value) > 16:
            raise Refused(f"5 {key} {len(value)}")
        elif key == "marker" and len(value) > 256:
            raise Refused(f"5 {key} {len(value)}")
    for kind, front, table in tables(found):
        for key in in_order(table):
            look_at_number(kind, front + key, key, table, f, panels)


def look_at_number(kind, name, key, table, f, panels):
    value = table[key]
    if key == "isolators":
        if value and not 1 <= table["last"] <= 96 * f:
            raise NoOpinion
        before = 0
        for place, item in enumerate(value, 1):
            look_at_range(f"{name}[{place}]", item, before + 1, table["last"] - 1)
            before = item
    elif key == "terms":
        if not 1 <= len(value) <= 64:
            raise Refused(f"5 {name} {len(value)}")
    elif key == "within":
        if table["type"] == "a" and not 12 * f <= table["verify"] <= 120 * f:
            raise NoOpinion
        look_at_range(name, value, table["verify"] + 24 * f if table["type"] == "a" else 600 * f, 3600 * f)
    elif key == "count":
        if not 1 <= len(table["terms"]) <= 64:
            raise NoOpinion
        look_at_range(name, value, 1, len(table["terms"]))
    elif is_int(value):
        most = {"panel": panels, "loop": 4, "last": 96 * f, "address": 96 * f, "number": 32, "delay": 1200 * f, "verify": 120 * f}[key]
        look_at_range(name, value, {"delay": 0, "verify": 12 * f}.get(key, 1), most)


def look_at_repeats(found):
    """Pass 6."""
    names, claimed = set(), set()
    for kind, front, table in tables(found):
        if kind != "loop":
            if table["name"] in names:
                raise Refused(f"6 {table['name']}")
            names.add(table["name"])
        claim = {"loop": ("loop", "panel", "loop"), "zone": ("zone", "panel", "number"), "point": ("point", "panel", "loop", "address"),
                 "output": ("output", "panel", "number"), "marker": None}[kind]
        if claim:
            it = (kind, *(table[key] for key in claim[1:]))
            if it in claimed:
                raise Refused(f"6 {front + 'loop' if kind == 'loop' else table['name']}")
            claimed.add(it)


def look_at_names(found):
    """Pass 7."""
    zones = {it["name"]: it for it in found.get("zone", [])}
    markers = {it["name"] for it in found.get("marker", [])}
    loops = {(it["panel"], it["loop"]): it for it in found.get("loop", [])}
    for kind, _, table in tables(found):
        if kind == "zone" and "partner" in table and table["partner"] not in zones:
            raise Refused(f"7 {table['partner']}")
        if kind == "point":
            line = loops.get((table["panel"], table["loop"]))
            if line is None or table["address"] > line["last"]:
                raise Refused(f"7 {table['name']}")
            if zones.get(table["zone"], {}).get("panel") != table["panel"]:
                raise Refused(f"7 {table['zone']}")
        if kind == "output" and table["when"] not in markers:
            raise Refused(f"7 {table['when']}")
        for term in table.get("terms", []):
            which, _, name = term.partition(":")
            if which == "fault" and not 1 <= int(name) <= found["panels"]:
                raise Refused(f"7 {term}")
            if which != "fault" and name not in (markers if which == "marker" else zones):
                raise Refused(f"7 {name}")
    if any("partner" in it and zones[it["partner"]]["panel"] != it["panel"] for it in zones.values()):
        raise NoOpinion


def look_at_sections(found):
    """Passes 8 and 9."""
    for line in found.get("loop", []):
        sections = {}
        for point in found.get("point", []):
            if (point["panel"], point["loop"]) == (line["panel"], line["loop"]):
                begin = max([0, *(it for it in line.get("isolators", []) if it < point["address"])])
                sections.setdefault(begin, set()).add(point["zone"])
        for begin in sorted(sections):
            if len(sections[begin]) > 1:
                raise Refused(f"8 {line['panel']} {line['loop']} {begin}")
    zones = {it["name"]: it for it in found.get("zone", [])}
    for zone in found.get("zone", []):
        if "partner" in zone:
            partner = zones[zone["partner"]]
            if partner is zone or partner.get("partner") != zone["name"] or partner.get("type") != zone.get("type"):
                raise Refused(f"9 {zone['name']}")


def has_cycle(found):
    """Whether some marker depends on itself."""
    below = {it["name"]: {term[7:] for term in it["terms"] if term.startswith("marker:")} for it in found.get("marker", [])}
    while True:
        done = [name for name, others in below.items() if not others & set(below)]
        if not done:
            return bool(below)
        for name in done:
            del below[name]


def parsed(data):
    """The document, None where Python refuses it."""
    try:
        return tomllib.loads(data.decode())
    except (tomllib.TOMLDecodeError, UnicodeDecodeError, RecursionError, ValueError):
        return None


def judged(found):
    try:
        look_at_forms(found)
        look_at_numbers(found, found["format"] if found["format"] in (1, 2) else 1)
        look_at_repeats(found)
        look_at_names(found)
        look_at_sections(found)
    except Refused as refused:
        return str(refused)
    except NoOpinion:
        return None
    return ""
