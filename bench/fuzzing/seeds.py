"""The sites, records and site files that stand in the repository."""
import collections
import hashlib
import pathlib
import tomllib

from .calls import Call, held_in

TOP = pathlib.Path(__file__).resolve().parent.parent.parent
LARGEST_SEED = 8_192
# the sites, records of them, site files, tables to import, and registers that imports made
Seeds = collections.namedtuple("Seeds", "sites records files tables registers")


class Site:
    """What a record and a journal may name of a site that is read with Python's own TOML."""

    def __init__(self, data):
        self.bytes = data
        self.digest = hashlib.sha256(self.bytes).digest()
        found = tomllib.loads(self.bytes.decode())
        self.name, self.format, self.panels = found["site"], found["format"], found["panels"]
        self.loops = {(it["panel"], it["loop"]): it["last"] for it in found.get("loop", [])}
        self.points = {it["name"]: it for it in found.get("point", [])}
        self.zones = {it["name"]: it for it in found.get("zone", [])}
        self.outputs = {it["name"]: it for it in found.get("output", [])}
        self.markers = len(found.get("marker", []))
        self.seats = [f"{task}{panel}" for panel in range(1, self.panels + 1) for task in "pdsohler"] + ["k"]

    def panel_of(self, kind, name):
        """The panel of a thing, None where the site has none of that name."""
        return {"point": self.points, "zone": self.zones, "output": self.outputs}[kind].get(name, {}).get("panel")


def stored(caller):
    """The sites, with the small records that stand beside each, and every site file, whole ones and refused ones."""
    sites, records, files = {}, [], []
    paths = [(path, path) for path in sorted(TOP.glob("examples/*.toml"))]
    for folder in sorted(path for path in TOP.glob("cases/**") if path.is_dir()):
        own, above = folder / "site.toml", folder.parent / "site.toml"
        if own.exists() or above.exists():
            paths.append((own if own.exists() else above, folder))
    for path, folder in paths:
        data = path.read_bytes()
        if len(data) > LARGEST_SEED:
            continue
        if data not in sites:
            files.append(data)
            try:
                sites[data] = Site(data)
            except (tomllib.TOMLDecodeError, UnicodeDecodeError, KeyError, TypeError):
                sites[data] = None
        near = [file for file in sorted(folder.glob("record*")) if file.is_file()] if folder.is_dir() else []
        for record in near:
            text = record.read_bytes()
            if sites[data] and len(text) <= LARGEST_SEED and text:
                records.append((sites[data], text))
    morning, day = (TOP / "examples" / name for name in ("morning.record", "day.record"))
    for record, name in [(morning, "mill.toml"), (day, "hotel.toml")]:
        records.append((sites[(TOP / "examples" / name).read_bytes()], record.read_bytes()))
    accepted = [site for site in sites.values() if site and is_accepted(site, caller)]
    records = [(site, text) for site, text in records if site in accepted]
    tables = stored_tables()
    return Seeds(accepted, records, files, tables, [made_register(caller, site) for site in accepted[:4]])


def stored_tables():
    """The tables to import that stand in the repository."""
    paths = [*TOP.glob("cases/**/*.csv"), *TOP.glob("crates/trials/data/*/*.csv")]
    return sorted({path.read_bytes() for path in paths if path.stat().st_size <= LARGEST_SEED})


def made_register(caller, site):
    """The register of a site in which the first two points were tested in one visit."""
    rows = "".join(f"7,20000,kim,{name}\n" for name in list(site.points)[:2])
    made = []
    call = Call(["import", "SITE", "OTHER", "TARGET"], site.bytes, b"", None, None, f"visit,day,engineer,point\n{rows}".encode(), None,
                lambda journal, target: made.append(held_in(target)))
    [(desk, call)] = caller.begin([call])
    caller.answer(desk, call)
    call.look(desk.paths["JOURNAL"], desk.paths["TARGET"])
    return made[0] or b""


def is_accepted(site, caller):
    """Whether the program reads a stored site; the cases beside it say so too."""
    [(desk, call)] = caller.begin([Call(["check", "SITE"], site.bytes, b"", None, None)])
    status, text = caller.answer(desk, call)
    return status == 0 and text.startswith(b"ok ")
