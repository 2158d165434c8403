"""What was done, by a text, and what that blocks."""
import collections
import functools


class Done:
    """The operations done in each tick, and the settings at opening."""

    def __init__(self, site, record, opened, operations):
        self.site, self.record = site, record
        self.opened, self.operations = opened, operations   # operations: (tick, panel, action), oldest first

    @functools.cached_property
    def settings(self):
        """Of each setting its value at opening and the changes (tick, value)."""
        changes = collections.defaultdict(list)
        for tick, panel, action in self.operations:
            if action[0] in ("disable", "enable"):
                changes[action[1:]].append((tick, action[0] == "disable"))
            elif action[0] in ("test", "untest"):
                changes["test", action[1]].append((tick, action[0] == "test"))
        return changes

    def in_force(self, setting, tick):
        value = setting in self.opened
        for done, on in self.settings.get(setting, []):
            if done < tick:
                value = on
        return value

    @functools.cached_property
    def floors(self):
        """By zone the ticks in which its floor moves."""
        floors = {z: set() for z in self.site.zones}
        for tick, panel, action in self.operations:
            if action[0] == "reset":
                for z, row in self.site.zones.items():
                    if row["panel"] == panel:
                        floors[z].add(tick)
            elif action[:2] == ("disable", "zone"):
                floors[action[2]].add(tick)
            elif action[0] == "test":
                floors[action[1]].add(tick)
        return floors

    @functools.cached_property
    def cancels(self):
        cancels = {z: set() for z in self.site.zones}
        for tick, panel, action in self.operations:
            if action[0] == "cancel":
                cancels[action[1]].add(tick)
        return cancels

    def silenced(self, panel, tick):
        """The last silence or resound of a panel that was done before a tick is a silence."""
        last = [action[0] for done, p, action in self.operations if p == panel and done < tick and action[0] in ("silence", "resound")]
        return bool(last) and last[-1] == "silence"

    @functools.cached_property
    def blocked(self):
        """By point, for each tick."""
        ticks = range(self.record.ticks + 2)
        values = {}

        def by_tick(setting):
            if setting not in values:
                value, row, changes = setting in self.opened, [], collections.deque(self.settings.get(setting, []))
                for tick in ticks:
                    while changes and changes[0][0] < tick:
                        value = changes.popleft()[1]
                    row.append(value)
                values[setting] = row
            return values[setting]

        result = {}
        for p, row in self.site.points.items():
            parts = [by_tick(("point", p)), by_tick(("zone", row["zone"])), by_tick(("test", row["zone"]))]
            result[p] = [any(values) for values in zip(*parts)]
        return result


def last_before(ticks, tick):
    return max((t for t in ticks if t < tick), default=0)
