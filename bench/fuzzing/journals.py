"""Journals written byte by byte, and what docs/journal.md says that each opens to."""
from .calls import Call, Unexpected
from .changes import cut_off, cut_out, double, flip, other_byte

FRONT, CELL, CELLS, WHOLE, SLOTS = 2_048, 592, 64, 39_937, (64, 1_024)

def drawn_slot(draw, site, number):
    """A slot with things of the site disabled."""
    slot = bytearray(906)
    slot[0], slot[1:9] = draw.choice([1, 1, 1, 0, 2, 255]), number.to_bytes(8, "big")
    if draw.random() < 0.5:
        for place in draw.sample(range(9, 490), 12):
            slot[place] = draw.randrange(256)
    slot[458:490] = b"".join(min(draw.choice([0, 0, 1, 77, 999_999, 999_999, draw.randrange(1_000_000)]), 999_999).to_bytes(4, "big")
                             for _ in range(8))
    if draw.random() < 0.5:
        for place in draw.sample(range(490, 906), 12):
            slot[place] = draw.randrange(256)
    if draw.random() < 0.1:
        at = 458 + 4 * draw.randrange(8)
        slot[at:at + 4] = draw.choice([1_000_000, 2**32 - 1, 1_000_001]).to_bytes(4, "big")
    return bytes(slot)


def drawn_change(draw, site):
    kind = draw.randint(1, 7)
    panel = draw.randint(1, 8)
    last = 192 if site.format == 2 else 96
    loop = draw.randint(1, 4) if kind == 1 else 0
    number = draw.randint(1, last) if kind == 1 else draw.randint(1, 32) if kind in (2, 3, 7) else 0
    value = draw.choice([0, 1, 5, 2**32 - 1]) if kind == 5 else 0 if kind == 6 else draw.randint(0, 1)
    change = bytearray([kind, panel, loop, number]) + value.to_bytes(4, "big")
    if draw.random() < 0.01:
        change[draw.randrange(8)] = draw.randrange(256)
    return bytes(change)


def drawn_journal(draw, site):
    first = draw.choice([1, 1, 2, 9, 2**62, 2**63, 2**63 + 1, 2**64 - 1]) if draw.random() < 0.3 else draw.randint(1, 1_000)
    front = bytearray(FRONT)
    front[:8] = b"FPANEL01"
    front[8:40] = site.digest if draw.random() < 0.97 else bytes(draw.randrange(256) for _ in range(32))
    front[40] = draw.choice([1, 1, 1, 1, 0, 3])
    other = max(0, min(first + draw.choice([-65, -1, 0, 1, 64]), 2**64 - 1))
    for at, number in zip(SLOTS, draw.sample([first, other], 2)):
        front[at:at + 906] = drawn_slot(draw, site, number)
    if front[40] != 1 and draw.random() < 0.5:
        return bytes(front)
    cells, counted = bytearray(WHOLE - FRONT), draw.choice([0, 1, 2, 5, 63, 64])
    for cell in range(counted):
        at, length = CELL * cell, draw.choice([1, 1, 2, 3, 72]) if draw.random() < 0.99 else draw.choice([0, 73, 255])
        changes = b"".join(drawn_change(draw, site) for _ in range(min(length, 72)))
        number = max(first, other) + 1 + cell if draw.random() < 0.99 else first
        body = bytes([1 if draw.random() < 0.99 else 2]) + (number % 2**64).to_bytes(8, "big") + bytes([length]) + changes
        cells[at:at + len(body)] = body
    return bytes(front + cells)


def points_in(data):
    """The loops, from 0, and the addresses that bits stand for, 12 bytes a loop, bit 0 of the first byte being address 1."""
    return {(place // 12, 8 * (place % 12) + bit + 1) for place, byte in enumerate(data) if byte for bit in range(8) if byte >> bit & 1}


def numbers_in(data):
    """The panels and numbers that bits stand for, four bytes a panel with the greatest first, bit 0 being number 1."""
    masks = [int.from_bytes(data[at:at + 4], "big") for at in range(0, 32, 4)]
    return {(panel, number) for panel, mask in enumerate(masks, 1) for number in range(1, 33) if mask >> (number - 1) & 1}


def kept_in(slot, wide):
    """What a slot holds: disabled points, zones, outputs and zones in test, panels without delays, counters."""
    points = {(loop // 4 + 1, loop % 4 + 1, address) for loop, address in points_in(slot[9:393])}
    if wide:
        points |= {(loop // 4 + 1, loop % 4 + 1, 96 + address) for loop, address in points_in(slot[490:874])}
    masks = [numbers_in(slot[at:at + 32]) for at in (393, 425, 874)]
    delays = {panel for panel in range(1, 9) if slot[457] >> (panel - 1) & 1}
    counters = {panel: int.from_bytes(slot[454 + 4 * panel:458 + 4 * panel], "big") for panel in range(1, 9)}
    return points, *masks, delays, counters


def wrong_byte(change, wide):
    """The place of a change's first byte that is out of its form, None where it is right."""
    kind, panel, loop, number = change[:4]
    if not 1 <= kind <= 7:
        return 0
    if not 1 <= panel <= 8:
        return 1
    if not (1 <= loop <= 4 if kind == 1 else loop == 0):
        return 2
    most = {1: 192 if wide else 96, 2: 32, 3: 32, 7: 32}.get(kind)
    if not (1 <= number <= most if most else number == 0):
        return 3
    if kind == 5:
        return None
    wrong = next((place for place in (4, 5, 6) if change[place]), None)
    return wrong if wrong is not None else 7 if change[7] > (kind != 6) else None


def applied(change, state):
    points, zones, outputs, tests, delays, counters = state
    kind, panel, loop, number = change[:4]
    value = int.from_bytes(change[4:], "big")
    if kind == 5:
        counters[panel] = min(counters[panel] + value, 999_999)
    elif kind == 6:
        counters[panel] = 0
    else:
        them = {1: points, 2: zones, 3: outputs, 4: delays, 7: tests}[kind]
        item = {1: (panel, loop, number), 4: panel}.get(kind, (panel, number))
        (them.add if value else them.discard)(item)


def opened(site, data):
    """What a journal opens to, or the refusal as it is told."""
    wide = site.format == 2
    if data[:8].ljust(8, b"\0") != b"FPANEL01":
        return f"1 {data[:8].ljust(8, bytes(1)).hex()}"
    if len(data) < FRONT or data[40] == 1 and len(data) < WHOLE:
        return f"3 {len(data)} 0"
    if data[8:40] != site.digest:
        return f"2 {data[8:40].hex()} {site.digest.hex()}"
    slots = [(int.from_bytes(data[at + 1:at + 9], "big"), -at) for at in SLOTS if data[at] == 1]
    if not slots:
        return f"3 64 {data[64]}"
    number, at = max(slots)
    slot = data[-at:-at + 906]
    if number > 2**63:
        return f"3 {-at + 1} {slot[1]}"
    state = kept_in(slot, wide)
    for panel, counter in state[-1].items():
        if counter > 999_999:
            return f"3 {-at + 454 + 4 * panel} {slot[454 + 4 * panel]}"
    for cell in range(CELLS if data[40] == 1 else 0):
        begin = FRONT + CELL * cell
        if data[begin] != 1 or int.from_bytes(data[begin + 1:begin + 9], "big") != number + 1 + cell:
            break
        length = data[begin + 9]
        if not 1 <= length <= 72:
            return f"3 {begin + 9} {length}"
        for place in range(begin + 10, begin + 10 + 8 * length, 8):
            wrong = wrong_byte(data[place:place + 8], wide)
            if wrong is not None:
                return f"3 {place + wrong} {data[place + wrong]}"
            applied(data[place:place + 8], state)
    return state


def opening_lines(site, state):
    """The text of a run that opens to a state and ends at once."""
    points, zones, outputs, tests, delays, counters = state
    lines = [f"site {site.name} panels {site.panels}"]
    for panel in range(1, site.panels + 1):
        def of(things):
            return sorted((it["number"], name) for name, it in things.items() if it["panel"] == panel)

        addressed = sorted((it["loop"], it["address"], name) for name, it in site.points.items() if it["panel"] == panel)
        lines += [f"{panel} disabled point {name} on" for loop, address, name in addressed if (panel, loop, address) in points]
        lines += [f"{panel} disabled zone {name} on" for number, name in of(site.zones) if (panel, number) in zones]
        lines += [f"{panel} disabled output {name} on" for number, name in of(site.outputs) if (panel, number) in outputs]
        lines += [f"{panel} test {name} on" for number, name in of(site.zones) if (panel, number) in tests]
        lines += [f"{panel} delays off"] * (panel in delays)
        lines += [f"{panel} counter {counters[panel]}"] * (counters[panel] != 0)
    return "\n".join([*lines, "end 0", ""]).encode()


def expect_opening(call, status, text):
    site, data = call.expected
    state = opened(site, data) if data else kept_in(bytes(906), False)
    wanted = (5, f"refused journal {state}\n".encode()) if isinstance(state, str) else (0, opening_lines(site, state))
    if (status, text) != wanted:
        raise Unexpected(f"status {status} and {text[:400]}, wanted {wanted[0]} and {wanted[1][:400]}")


def journal(draw, seeds):
    site = draw.choice(seeds.sites)
    data = drawn_journal(draw, site)
    for _ in range(draw.choice([0, 0, 1, 1, 2])):
        data = draw.choice([flip, flip, other_byte, cut_off, cut_out, double])(draw, data)
    yield Call(["run", "SITE", "JOURNAL"], site.bytes, b"end\n", data, (site, data)), expect_opening
