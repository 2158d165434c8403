"""A site file, as the rules of an audit need it."""
import hashlib
import tomllib


class Site:
    def __init__(self, text):
        data = tomllib.loads(text)
        self.format, self.name, self.panels = data["format"], data["site"], data["panels"]
        self.codes = [set(data.get(f"level{level}", [])) for level in (2, 3, 4)]
        self.loops = {(row["panel"], row["loop"]): row for row in data.get("loop", [])}
        self.zones = {row["name"]: row for row in data.get("zone", [])}
        self.points = {row["name"]: row for row in data.get("point", [])}
        self.outputs = {row["name"]: row for row in data.get("output", [])}
        self.markers = {row["name"]: row for row in data.get("marker", [])}
        self.has_fault_terms = any(term.startswith("fault:") for row in self.markers.values() for term in row["terms"])
        self.links = 0 if self.panels == 1 else self.panels
        self.round = 12 * self.format
        # zones and outputs in the order in which breaches are told
        self.zone_order = sorted(self.zones, key=lambda z: (self.zones[z]["panel"], self.zones[z]["number"]))
        self.output_order = sorted(self.outputs, key=lambda o: (self.outputs[o]["panel"], self.outputs[o]["number"]))
        self.points_of = {z: [p for p in self.points if self.points[p]["zone"] == z] for z in self.zones}

    def level(self, code):
        if code == "-":
            return 1
        digest = hashlib.sha256(code.encode()).hexdigest()
        return max([1] + [level for level, codes in zip((2, 3, 4), self.codes) if digest in codes])

    def is_manual(self, point):
        return self.points[point].get("kind", "detector") == "manual"

    def type(self, zone):
        return self.zones[zone].get("type", "none")

    def truths(self, zones, manuals, faults):
        """The markers that are true where these zones, manual terms and panels with a fault are so."""
        known = {}

        def true(name):
            if name not in known:
                marker = self.markers[name]
                count = sum(term_true(term) for term in marker["terms"])
                needed = {"all": len(marker["terms"]), "any": 1, "atleast": marker.get("count")}[marker["kind"]]
                known[name] = count >= needed
            return known[name]

        def term_true(term):
            kind, what = term.split(":")
            if kind == "zone":
                return what in zones
            if kind == "manual":
                return what in manuals
            if kind == "fault":
                return int(what) in faults
            return true(what)

        return {name for name in self.markers if true(name)}
