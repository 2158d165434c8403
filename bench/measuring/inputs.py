"""The sites and records that are measured: what stands in a record is drawn from a seed."""
import random
import tomllib

STATES = ["quiet", "alarm", "gone"]
LEVEL_2 = 'level2 = ["03ac674216f3e15c761ee1a5e255f067953623c8b388b4459e13f978d7c846f4"]\n'


def seats(panels):
    return [f"{task}{panel}" for panel in range(1, panels + 1) for task in "pdsohler"] + ["k"]


def rows(rows):
    return "[\n  " + ",\n  ".join(rows) + ",\n]"


def site(name, panels, more="", **lists):
    return f'format = 1\nsite = "{name}"\npanels = {panels}\n{more}' + "".join(f"{key} = {rows(list)}\n" for key, list in lists.items())


def small_site():
    zones = ['{ name = "hall", panel = 1, number = 1 }', '{ name = "lab", panel = 1, number = 2 }']
    points = [f'{{ name = "d{a}", panel = 1, loop = 1, address = {a}, zone = "{z}" }}' for a, z in [(1, "hall"), (2, "hall"), (9, "hall"), (17, "lab")]]
    loops = ["{ panel = 1, loop = 1, last = 96, isolators = [16] }"]
    return site("small", 1, LEVEL_2, loop=loops, zone=zones, point=points), ["d1", "d2", "d9", "d17"]


def large_site(panels, outputs=False, last=96, loops_of=(1, 2, 3, 4)):
    """Panels with loops, eight zones a loop, a point at each address to `last`; with an output each that any of the panel's zones asks for."""
    loops, zones, points, names, bells, markers = [], [], [], [], [], []
    for panel in range(1, panels + 1):
        for line in loops_of:
            loops.append(f"{{ panel = {panel}, loop = {line}, last = 96, isolators = [12, 24, 36, 48, 60, 72, 84] }}")
            for number in range(8 * line - 7, 8 * line + 1):
                zones.append(f'{{ name = "z{panel}-{number}", panel = {panel}, number = {number} }}')
            for address in range(1, last + 1):
                zone = 8 * (line - 1) + (address - 1) // 12 + 1
                names.append(f"p{panel}-l{line}-a{address}")
                points.append(f'{{ name = "{names[-1]}", panel = {panel}, loop = {line}, address = {address}, zone = "z{panel}-{zone}" }}')
        terms = ", ".join(f'"zone:z{panel}-{number}"' for number in range(8 * loops_of[0] - 7, 8 * loops_of[-1] + 1))
        markers.append(f'{{ name = "any-{panel}", kind = "any", terms = [{terms}] }}')
        bells.append(f'{{ name = "bells-{panel}", panel = {panel}, number = 1, kind = "sounder", when = "any-{panel}" }}')
    lists = {"loop": loops, "zone": zones, "point": points}
    if outputs:
        lists |= {"output": bells, "marker": markers}
    return site("large", panels, **lists), names


def marker_site():
    """Two halves of markers: each has the faults of four panels as terms, and the up to 60 markers of its half before it."""
    outputs, markers = [], []
    for place in range(256):
        half = place // 128
        terms = [f"fault:{panel}" for panel in range(4 * half + 1, 4 * half + 5)]
        terms += [f"marker:m{before}" for before in range(max(128 * half, place - 60), place)]
        markers.append(f'{{ name = "m{place}", kind = "any", terms = [{", ".join(f"{chr(34)}{term}{chr(34)}" for term in terms)}] }}')
        outputs.append(f'{{ name = "o{place}", panel = {place // 32 + 1}, number = {place % 32 + 1}, kind = "relay", when = "m{place}" }}')
    return site("marked", 8, output=outputs, marker=markers)


def draws(names, every, panels=0):
    """An event every so many ticks, and with panels a drawn order in each."""
    places = seats(panels) if panels else []

    def lines(draw, tick):
        said = f"point {draw.choice(names)} {draw.choice(STATES)}\n" if tick % every == 0 else ""
        if places:
            draw.shuffle(places)
            said += "order " + " ".join(places) + "\n"
        return said

    return lines


def toggles(_, tick):
    """The mains of panel 1 change in odd ticks, in which its word is carried, and those of panel 5 in even ones."""
    return f"supply {1 if tick % 2 else 5} mains {'bad' if tick % 4 in (1, 2) else 'ok'}\n"


def commits(_, tick):
    return f"op 1 1234 {'disable' if tick % 2 else 'enable'} zone lab\n"


def rests(_, __):
    return ""


def inputs():
    """Each input's name, title, site, lines of a tick, ticks that are timed, and the two numbers of ticks whose instructions are counted."""
    small, few = small_site()
    one, names = large_site(1)
    eight, many = large_site(8, outputs=True)
    return [
        ("a", "4 points, an event every 1,000 ticks", small, draws(few, 1_000), 1_000_000, (2_000, 12_000)),
        ("b", "384 points, an event every 4 ticks, drawn orders", one, draws(names, 4, 1), 100_000, (2_000, 12_000)),
        ("c", "8 panels, 3,072 points, an event every 4 ticks, canonical orders", eight, draws(many, 4), 20_000, (500, 2_500)),
        ("d", "8 panels, 3,072 points, an event every 4 ticks, drawn orders", eight, draws(many, 4, 8), 20_000, (500, 2_500)),
        ("e", "256 markers, of which 128 change at each panel in each tick", marker_site(), toggles, 10_000, (200, 1_200)),
        ("f", "a commit in each tick", small, commits, 1_000, (500, 1_500)),
    ]


def record(path, seed, lines, ticks):
    draw = random.Random(seed)
    with open(path, "w") as out:
        for tick in range(1, ticks + 1):
            out.write(f"tick {tick}\n{lines(draw, tick)}")
        out.write("end\n")


def plain_site(text):
    """A site's text in the short form that the plain program reads, with the number of terms that a marker needs."""
    found = tomllib.loads(text)
    markers = {marker["name"]: place for place, marker in enumerate(found.get("marker", []))}
    lines = [found["site"], f"panels {found['panels']}"]
    lines += ["code 1234"] * ("level2" in found)
    lines += [f"zone {zone['name']} {zone['panel']} {zone['number']}" for zone in found.get("zone", [])]
    lines += [f"point {it['name']} {it['panel']} {it['loop']} {it['address']} {it['zone']}" for it in found.get("point", [])]
    for marker in found.get("marker", []):
        needed = {"any": 1, "all": len(marker["terms"]), "atleast": marker.get("count", 1)}[marker["kind"]]
        terms = [f"marker:{markers[term[7:]]}" if term.startswith("marker:") else term for term in marker["terms"]]
        lines.append(f"marker {needed} {' '.join(terms)}")
    lines += [f"output {it['name']} {it['panel']} {it['number']} {markers[it['when']]}" for it in found.get("output", [])]
    return "\n".join(lines) + "\n"
