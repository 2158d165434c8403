"""What is due and what can be caused, by the rules of docs/rules.md."""
import bisect
import functools
import itertools

from auditing.accounts import last_before


class Rules:
    """By tick: the zones due at each panel, the outputs due, the zones that can be shown and those that can be heard."""

    def __init__(self, site, record, done):
        self.site, self.record, self.done = site, record, done
        self.signal_at = {p: [False] + [record.point[t][p] == "alarm" and record.reached[t][p] and not done.blocked[p][t]
                                        for t in range(1, record.ticks + 1)] for p in site.points}
        self.find_signals()
        self.find_due()
        self.find_causes()

    # -- signals

    def held_starts(self, point, length):
        """The ticks from which a point signals so many ticks on end."""
        starts, run = [], 0
        for tick in range(1, self.record.ticks + 1):
            run = run + 1 if self.signal_at[point][tick] else 0
            if run >= length:
                starts.append(tick - length + 1)
        return starts

    def find_signals(self):
        """By zone and kind the pairs (a, s) of Signal, SignalOut and SignalHand, the zone's own floors since a apart."""
        site, f, r = self.site, self.site.format, self.site.round
        held = {p: self.held_starts(p, r) for p in site.points}
        self.signals = {kind: {z: [] for z in site.zones} for kind in ("any", "out", "hand")}

        def pair(z, kind, within, partners_too, points_ok, cancels_too):
            zone = site.zones[z]
            zones = [z] + ([zone["partner"]] if partners_too and "partner" in zone else [])
            points = [p for other in zones for p in site.points_of[other] if points_ok(p)]
            for d, e in itertools.permutations(points, 2):
                if z not in (site.points[d]["zone"], site.points[e]["zone"]):
                    continue
                others = {site.points[d]["zone"], site.points[e]["zone"]} - {z}
                for b in held[e]:
                    before = [a for a in held[d] if a <= b]
                    if not before:
                        continue
                    a = before[-1]   # a later start of the first signal meets each condition that an earlier one meets
                    if within is not None and b + r - 1 - a > within:
                        continue
                    span = range(a, b + r)
                    if any(self.done.floors[o] & set(span) for o in others):
                        continue
                    if cancels_too and any(self.done.cancels[o] & set(span) for o in others | {z}):
                        continue
                    self.signals[kind][z].append((a, b))

        for z, zone in site.zones.items():
            kind = site.type(z)
            manual = [p for p in site.points_of[z] if site.is_manual(p)]
            detectors = [p for p in site.points_of[z] if not site.is_manual(p)]
            by_hand = [(a, a) for p in manual for a in held[p]]
            self.signals["hand"][z] += by_hand
            self.signals["any"][z] += by_hand
            if kind in ("none", "c"):
                self.signals["any"][z] += [(a, a) for p in detectors for a in held[p]]
            if kind == "a":
                verify = zone["verify"]
                for p in detectors:
                    self.signals["any"][z] += [(a, a + verify + r) for a in self.held_starts(p, verify + 2 * r - 1)]
                pair(z, "any", zone["within"], False, lambda p: not site.is_manual(p), False)
            if kind == "b":
                pair(z, "any", zone["within"], True, lambda p: not site.is_manual(p), True)
            if kind == "c":
                self.signals["out"][z] += by_hand
                pair(z, "out", None, True, lambda p: True, False)
            else:
                self.signals["out"][z] = self.signals["any"][z]

    # -- due

    def find_due(self):
        site, record, f = self.site, self.record, self.site.format
        self.due = {}       # (kind, panel) -> by tick the set of zones
        pairs = [(z, p) for z in site.zones for p in range(1, site.panels + 1)]
        for kind in ("any", "out", "hand"):
            for p in range(1, site.panels + 1):
                self.due[kind, p] = [set() for _ in range(record.ticks + 1)]
            for z, p in pairs:
                home = site.zones[z]["panel"]
                signals = self.signals[kind][z]
                if not signals:
                    continue
                floor, least = None, None
                for tick in range(1, record.ticks + 1):
                    now = last_before(self.done.floors[z], tick)
                    if now != floor:
                        floor = now
                        least = min((s for a, s in signals if a > floor), default=None)
                    if least is None:
                        continue
                    if p == home:
                        is_due = tick - least >= 20 * f
                    else:
                        is_due = self.is_due_elsewhere(p, home, least, tick)
                    if is_due:
                        self.due[kind, p][tick].add(z)
        self.find_due_outputs()

    def is_due_elsewhere(self, p, q, s, tick):
        f = self.site.format
        first = max(s + 16 * f, 1)
        key = p, q
        if key not in self.windows:
            length = 24 * f
            starts = [c for c in range(1, self.record.ticks - length + 2) if self.record.joined(p, q, c, c + length - 1)]
            self.windows[key] = starts
        behind = bisect.bisect_right(self.windows[key], tick - 24 * f)
        return behind > 0 and self.windows[key][behind - 1] >= first

    @functools.cached_property
    def windows(self):
        return {}

    def find_due_outputs(self):
        site, record = self.site, self.record
        self.due_on = [set() for _ in range(record.ticks + 1)]
        truths = functools.lru_cache(None)(lambda zones, manuals: site.truths(zones, manuals, frozenset()))
        for o, row in site.outputs.items():
            p, delay = row["panel"], row.get("delay", 0)
            asked_since = None
            for tick in range(1, record.ticks + 1):
                out, hand = frozenset(self.due["out", p][tick]), frozenset(self.due["hand", p][tick])
                asked = row["when"] in truths(out, hand)
                by_hand = row["when"] in truths(hand, hand)
                asked_since = (tick if asked_since is None else asked_since) if asked else None
                if not by_hand and (asked_since is None or tick - delay < asked_since):
                    continue
                if self.done.in_force(("output", o), tick):
                    continue
                if row["kind"] == "sounder" and self.done.silenced(p, tick):
                    continue
                self.due_on[tick].add(o)

    # -- causes

    def find_causes(self):
        site, record, done = self.site, self.record, self.done
        self.asked = {}      # by point: its answers (tick, counted)
        for p, row in site.points.items():
            when = (row["address"] - 1) // 8
            answers = []
            for tick in range(1, record.ticks + 1):
                if tick % site.round == when:
                    alarm = record.point[tick][p] == "alarm" and record.reached[tick][p]
                    answers.append((tick, alarm and not done.blocked[p][tick]))
            self.asked[p] = answers
        self.caused, self.caused_by_hand = {}, {}
        for z in site.zones:
            confirmed, by_hand = self.confirmed(z)
            self.caused[z] = self.caused_at(z, confirmed)
            self.caused_by_hand[z] = self.caused_at(z, by_hand)

    def confirmed(self, z):
        """The stamps at which a zone is confirmed, and those at which it is so by hand."""
        site, done = self.site, self.done
        zone, kind = site.zones[z], site.type(z)
        confirmed, by_hand = set(), set()
        for p in site.points_of[z]:
            if site.is_manual(p):
                by_hand |= {x for x, counted in self.asked[p] if counted}
        confirmed |= by_hand
        detectors = [p for p in site.points_of[z] if not site.is_manual(p)]
        partner = zone.get("partner") if kind == "b" else None
        others = [p for p in (site.points_of[partner] if partner else []) if not site.is_manual(p)]
        for d in detectors + others:
            for x, counted in self.asked[d]:
                if counted and self.confirms(z, kind, d, x, detectors, others):
                    confirmed.add(x)
        return confirmed, by_hand

    def confirms(self, z, kind, d, x, detectors, others):
        site, done = self.site, self.done
        zone = site.zones[z]
        if kind in ("none", "c"):
            return d in detectors
        if kind == "a":
            floor = last_before(done.floors[z], x)
            run = []
            for y, counted in reversed([a for a in self.asked[d] if a[0] <= x]):
                if not counted:
                    break
                run.append(y)
            if any(y > floor and x - y >= zone["verify"] for y in run):
                return True
            return any(floor < y <= x and x - y <= zone["within"] for e in detectors if e != d for y, counted in self.asked[e] if counted)
        for e in detectors + others:
            if e == d or (d in others and e in others):
                continue
            home = site.points[e]["zone"]
            bound = max(last_before(done.floors[home], x), last_before(done.cancels[home], x))
            if any(counted and bound < y <= x and x - y <= zone["within"] for y, counted in self.asked[e]):
                return True
        return False

    def caused_at(self, z, stamps):
        """By tick: whether there is a stamp by then, with no floor in any tick from it to the one before; and the latest such tick."""
        result, caused, latest = [(False, -1)], False, -1
        for tick in range(1, self.record.ticks + 1):
            caused = (caused and tick - 1 not in self.done.floors[z]) or tick in stamps
            latest = tick if caused else latest
            result.append((caused, latest))
        return result

    def can_be_heard(self, caused, p, q, tick):
        """Some stamp by now at which it was so, and where the two panels were joined for the network's ticks, one as late as that."""
        latest = caused[tick][1]
        reach = 40 * self.site.format
        return latest >= 0 and (latest >= tick - reach or not self.record.joined(p, q, max(1, tick - reach + 1), tick))
