"""What a text shows and answers, or its first bad line."""
import re

SUPPLIES = ["mains", "standby", "voltage", "charger"]


class BadLine(Exception):
    pass


class Text:
    """What a text shows after each tick, and what it answers. Raises BadLine with the first line that no text has there."""

    def __init__(self, site, text):
        self.site = site
        self.shown = [set() for _ in range(site.panels + 1)]  # by panel: ("zone", name), ("fault", ..), ("output", name), ...
        self.values = [{} for _ in range(site.panels + 1)]    # and every value that was told
        self.steps = []   # (tick, shown of each panel, answers)
        self.opened = None
        self.last = None
        lines = text.split("\n")
        number = 0
        tick, place, answers, told = 0, (), [], True

        def close():
            if tick == 0:
                self.opened = [set(s) for s in self.shown]
            else:
                self.steps.append((tick, [set(s) for s in self.shown], answers))

        for number, line in enumerate(lines, 1):
            if number == len(lines):
                raise BadLine(number)  # the text ends, or its last line has no end
            if number == 1:
                if line != f"site {site.name} panels {site.panels}":
                    raise BadLine(1)
                continue
            words = line.split(" ")
            if words[0] in ("tick", "end") and len(words) == 2:
                value = whole(words[1])
                if value is None or not told or (value <= tick if words[0] == "tick" else value < tick):
                    raise BadLine(number)
                close()
                if words[0] == "end":
                    self.last = value
                    if lines[number:] != [""]:
                        raise BadLine(number + 1)
                    return
                tick, place, answers, told = value, (), [], False
                continue
            here = self.line(words, tick, answers)
            if here is None or here <= place:
                raise BadLine(number)
            place, told = here, True
        raise BadLine(number)

    def line(self, words, tick, answers):
        """The place of a line among those of its tick, or None where it can't stand there."""
        if words == ["store", "failed"]:
            return (3,) if tick else None
        if words[0] == "op":
            number = whole(words[1]) if len(words) > 1 else None
            denied = re.fullmatch(r"denied needs ([234]) has ([0123])", " ".join(words[2:]))
            if denied and int(denied[2]) < int(denied[1]):
                answer = "denied"
            elif len(words) == 3 and words[2] in ("done", "waiting", "already", "store"):
                answer = words[2]
            else:
                return None
            if number is None or not tick or len(answers) == 64:
                return None
            answers.append((number, answer))
            return 1, number
        panel = whole(words[0])
        if panel is None or not 1 <= panel <= self.site.panels:
            return None
        if len(words) == 3 and words[1] == "busy":
            count = whole(words[2])
            return (2, panel) if count and tick else None
        change = self.change(panel, words[1:])
        return None if change is None else (0, panel) + change

    def change(self, panel, words):
        """The place of a change that tells what isn't so yet."""
        found = change_of(self.site, panel, words)
        if found is None:
            return None
        place, what, value = found
        now = self.values[panel]
        if now.get(what, UNCHANGED.get(what, False)) == value:
            return None
        now[what] = value
        if what not in UNCHANGED:
            (self.shown[panel].add if value else self.shown[panel].remove)(what)
        return place


UNCHANGED = {("buzzer",): "off", ("counter",): 0, ("delays",): "on"}


def change_of(site, panel, words):
    """The place of a change among those of its panel, what changes, and to what; None where no text has the line."""
    if len(words) == 2 and words[0] == "buzzer":
        return ((13,), ("buzzer",), words[1]) if words[1] in ("off", "fault", "fire") else None
    if len(words) == 2 and words[0] == "counter":
        count = whole(words[1])
        return None if count is None or count > 999_999 else ((14,), ("counter",), count)
    if len(words) == 2 and words[0] == "delays":
        return ((12,), ("delays",), words[1]) if words[1] in ("on", "off") else None
    if len(words) < 3 or words[-1] not in ("on", "off"):
        return None
    what = words[:-1]
    name = what[-1]
    zone, output, point = site.zones.get(name), site.outputs.get(name), site.points.get(name)

    def own(thing):
        return thing is not None and thing["panel"] == panel

    place = None
    if len(what) == 2 and what[0] in ("zone", "first") and zone:
        place = (0 if what[0] == "zone" else 1, zone["panel"], zone["number"])
    elif len(what) == 2 and what[0] in ("output", "confirmed") and own(output):
        place = (7 if what[0] == "output" else 8, output["number"])
    elif len(what) == 2 and what[0] == "test" and own(zone):
        place = (11, zone["number"])
    elif len(what) == 3 and what[:2] == ["disabled", "point"] and own(point):
        place = (9, 0, point["loop"], point["address"])
    elif len(what) == 3 and what[:2] == ["disabled", "zone"] and own(zone):
        place = (9, 1, zone["number"])
    elif len(what) == 3 and what[:2] == ["disabled", "output"] and own(output):
        place = (9, 2, output["number"])
    elif what[0] == "fault":
        place = fault_place(site, panel, what[1:])
    return None if place is None else (place, tuple(what), words[-1] == "on")


def fault_place(site, panel, what):
    if len(what) == 1 and what[0] in SUPPLIES:
        return 3, SUPPLIES.index(what[0])
    if len(what) != 2:
        return None
    point, output, number = site.points.get(what[1]), site.outputs.get(what[1]), whole(what[1])
    if what[0] == "missing" and point and point["panel"] == panel:
        return 2, 0, point["loop"], point["address"]
    if what[0] in ("broken", "shorted") and (panel, number) in site.loops:
        return 2, 1 if what[0] == "broken" else 2, number
    if what[0] == "silent" and number is not None and 1 <= number <= site.panels:
        return 5, 0, number
    if what[0] == "link" and number is not None and 1 <= number <= site.links:
        return 5, 1, number
    if what[0] == "unconfirmed" and output and output["panel"] == panel:
        return 6, output["number"]
    return None


def whole(word):
    """A number of the record's form, below 2^64."""
    if not re.fullmatch(r"0|[1-9][0-9]*", word, re.ASCII) or int(word) >= 1 << 64:
        return None
    return int(word)
