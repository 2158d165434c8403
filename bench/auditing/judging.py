"""The verdict on a text."""
import collections

from auditing.accounts import Done
from auditing.records import NEEDS
from auditing.rules import Rules
from auditing.texts import BadLine, Text


def judge(site, record, text):
    """The verdict on a text."""
    try:
        told = Text(site, text)
    except BadLine as bad:
        return f"refused text {bad.args[0]}"
    if told.last != record.ticks:
        return f"failed tick {told.last} rule length panel 0 number 0"
    operations, unfounded, answered = [], None, set()
    for tick, shown, answers in told.steps:
        for number, answer in answers:
            request = record.asked[number - 1] if 1 <= number <= len(record.asked) else None
            if unfounded is None and (request is None or request[0] > tick or number in answered
                                      or (answer == "done" and request[2] < NEEDS[request[3][0]])):
                unfounded = tick
            if answer == "done" and request is not None:
                operations.append((tick, request[1], request[3]))
        answered |= {number for number, _ in answers}
    opened = set()
    for panel in range(1, site.panels + 1):
        for thing in told.opened[panel]:
            if thing[0] == "disabled":
                opened.add(thing[1:])
            elif thing[0] == "test":
                opened.add(thing)
    rules = rules_of(site, record, frozenset(opened), tuple(operations))
    return first_breach(site, record, rules, told, unfounded) or f"passed ticks {record.ticks}"


RULES = {}


def forget():
    RULES.clear()


def rules_of(site, record, opened, operations):
    key = id(site), id(record), opened, operations
    if key not in RULES:
        RULES[key] = Rules(site, record, Done(site, record, opened, operations)), {}
    return RULES[key]


def first_breach(site, record, rules, told, unfounded):
    rules, heard = rules
    seen = {}

    def look(face):
        """Of each panel the zones that it shows, in their order; the outputs that are on; the panels that show a fault."""
        zones = {p: [z for z in site.zone_order if ("zone", z) in face[p]] for p in range(1, site.panels + 1)}
        on = [o for o in site.output_order if ("output", o) in face[site.outputs[o]["panel"]]]
        return zones, on, {p for p in range(1, site.panels + 1) if any(t[0] == "fault" for t in face[p])}

    now = look(told.opened)
    looks, steps = [now], collections.deque(told.steps)
    for tick in range(1, record.ticks + 1):
        while steps and steps[0][0] <= tick:
            now = look(steps.popleft()[1])
        looks.append(now)
    for tick in range(1, record.ticks + 1):
        if unfounded == tick:
            return f"failed tick {tick} rule answer panel 0 number 0"
        zones, on, _ = looks[tick]
        for p in range(1, site.panels + 1):
            due = rules.due["any", p][tick]
            for z in site.zone_order if due else ():
                if z in due and z not in zones[p]:
                    return failed(tick, "indication", p, site.zones[z])
        for o in site.output_order if rules.due_on[tick] else ():
            if o in rules.due_on[tick] and o not in on:
                return failed(tick, "output", site.outputs[o]["panel"], site.outputs[o])
        for p in range(1, site.panels + 1):
            for z in zones[p]:
                home = site.zones[z]["panel"]
                if not (rules.caused[z][tick][0] if p == home else rules.can_be_heard(rules.caused[z], p, home, tick)):
                    return failed(tick, "zone", p, site.zones[z])
        for o in on:
            if not can_be_on(site, rules, heard, looks, site.outputs[o], tick):
                return failed(tick, "cause", site.outputs[o]["panel"], site.outputs[o])
    return None


def failed(tick, rule, panel, row):
    return f"failed tick {tick} rule {rule} panel {panel} number {row['number']}"


def can_be_on(site, rules, heard, looks, row, tick):
    p, reach = row["panel"], 40 * site.format
    faults = set()
    for q in range(1, site.panels + 1) if site.has_fault_terms else ():
        joined = rules.record.joined(p, q, max(1, tick - reach + 1), tick)
        if any(q in looks[u][2] for u in range(max(0, tick - reach) if joined else 0, tick + 1)):
            faults.add(q)
    key = p, tick, frozenset(faults)
    if key not in heard:
        zones = {z for z in site.zones if rules.can_be_heard(rules.caused[z], p, site.zones[z]["panel"], tick)}
        manuals = {z for z in site.zones if rules.can_be_heard(rules.caused_by_hand[z], p, site.zones[z]["panel"], tick)}
        heard[key] = site.truths(zones, manuals, faults)
    return row["when"] in heard[key]
