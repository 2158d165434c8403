"""Tables to import: drawn ones and changed ones, what docs/program.md says of each, and what a register holds then, read without the program."""
import os
import re
import sqlite3

from .calls import Call, Unexpected
from .changes import LIMITS, changed, cut_off, cut_out, double, flip, other_byte
from .records import is_number
from .sites import is_refusal, refusal_of

HEADER, MARK, LONGEST = [b"visit", b"day", b"engineer", b"point"], b"\xef\xbb\xbf", 1_048_576
NAME = re.compile(rb"[a-z][a-z0-9-]{0,15}")
TEXTS = re.compile(rb"imported visits \d+ tests \d+\n|refused row \d+ [1-5]\n|fault keeper\n")


class Register:
    """What is known of a register over the calls that have it in hand; None where its bytes were drawn."""

    def __init__(self, is_known=True):
        self.visits, self.tests, self.is_known = {}, set(), is_known

    def take(self, rows):
        for visit, day, engineer, point in rows:
            self.visits[visit] = (day, engineer)
            self.tests.add((visit, point))


def fields_of(data):
    """The rows of a table: fields between commas, in quotes or without, rows between line ends of any kind, none for an empty line."""
    data, rows, row, field, at = data.removeprefix(MARK), [], [], bytearray(), 0
    begins_row = begins_field = True
    is_quoted = False
    while at < len(data):
        byte, at = data[at:at + 1], at + 1
        if is_quoted:
            if byte != b'"':
                field += byte
            elif data[at:at + 1] == b'"':
                field += byte
                at += 1
            else:
                is_quoted = False
        elif byte in b"\r\n":
            if not begins_row:
                rows.append([*row, bytes(field)])
            row, field, begins_row, begins_field = [], bytearray(), True, True
        elif byte == b",":
            row.append(bytes(field))
            field, begins_row, begins_field = bytearray(), False, True
        else:
            is_quoted = begins_field and byte == b'"'
            field += b"" if is_quoted else byte
            begins_row = begins_field = False
    return rows if begins_row else [*rows, [*row, bytes(field)]]


def small(text):
    return is_number(text) and int(text) < 2**32


def wrong_in(site, fields, visits, kept):
    """Why a row is refused, None where it isn't."""
    if len(fields) != 4:
        return 1
    visit, day, engineer, point = fields
    if not small(visit) or not small(day):
        return 2
    if not NAME.fullmatch(engineer):
        return 3
    if point.decode("latin") not in site.points:
        return 4
    others = [them[int(visit)] for them in (visits, kept) if int(visit) in them]
    return 5 if any(other != (int(day), engineer) for other in others) else None


def judged(site, data, kept):
    """The rows of a table, or the number of the first that is refused and why."""
    rows = fields_of(data)
    if not rows or rows[0] != HEADER:
        return 0, 1
    visits, told = {}, []
    for number, fields in enumerate(rows[1:], 1):
        why = wrong_in(site, fields, visits, kept)
        if why:
            return number, why
        row = int(fields[0]), int(fields[1]), fields[2], fields[3]
        visits[row[0]] = row[1:3]
        told.append(row)
    return told


def expect_import(call, status, text):
    site, data, register = call.expected
    if data is None or len(data) > LONGEST:
        if status != 13 or not re.fullmatch(rb"refused file \S+\n", text):
            raise Unexpected(f"status {status} and {text[:200]}, wanted 13")
        return
    found = judged(site, data, register.visits)
    if isinstance(found, tuple):
        wanted = 14, b"refused row %d %d\n" % found
    else:
        wanted = 0, b"imported visits %d tests %d\n" % (len({row[0] for row in found}), len({(row[0], row[3]) for row in found}))
    if not register.is_known:
        if status not in (0, 14, 15) or not TEXTS.fullmatch(text) or status == 0 and (status, text) != wanted:
            raise Unexpected(f"over a drawn register status {status} and {text[:200]}, without it {wanted}")
        return
    if (status, text) != wanted:
        raise Unexpected(f"status {status} and {text[:200]}, wanted {wanted}")
    if status == 0:
        register.take(found)


def holds(register, path):
    """Whether a register that was left has these rows and no others."""
    if not os.path.exists(path):
        visits, tests, told = [], [], [("ok",)]
    else:
        with sqlite3.connect(f"file:{path}?mode=ro", uri=True) as file:
            told = file.execute("PRAGMA integrity_check").fetchall()
            visits = file.execute("SELECT number, day, engineer FROM visits").fetchall()
            tests = file.execute("SELECT visit, point FROM tests").fetchall()
        file.close()
    wanted = {(number, day, engineer.decode()) for number, (day, engineer) in register.visits.items()}
    if told != [("ok",)] or set(visits) != wanted or len(visits) != len(wanted):
        raise Unexpected(f"the register is {told} and has the visits {visits[:20]}, wanted {sorted(wanted)[:20]}")
    if set(tests) != {(visit, point.decode()) for visit, point in register.tests} or len(tests) != len(register.tests):
        raise Unexpected(f"the register has the tests {tests[:20]}, wanted {sorted(register.tests)[:20]}")


def drawn_table(draw, site):
    """A table in its form, mostly of points of the site, with a value at its limits here and there."""
    wild = draw.choice([0, 0, 0.01, 0.1])
    visits = [(draw.choice([*range(12), 2**32 - 1]), draw.choice([0, 1, 20_000, 2**32 - 1, draw.randrange(2**32)]),
               draw.choice(["kim", "lee", "a", "a" * 16, "a-b"])) for _ in range(draw.choice([1, 1, 2, 5]))]
    end, lines = draw.choice(["\n", "\n", "\r\n", "\r"]), ["visit,day,engineer,point"]
    for _ in range(draw.choice([0, 1, 2, 3, 10, 60])):
        visit, day, engineer = draw.choice(visits)
        fields = [visit, day, engineer, draw.choice(list(site.points) or ["d1"])]
        if draw.random() < wild:
            fields[draw.randrange(2)] = draw.choice([*LIMITS, "07", "+7", "", " 7", "7 ", "-1"])
        if draw.random() < wild:
            fields[2] = draw.choice(["", "Kim", "kim lee", "a" * 17, "0kim", "kim-"])
        if draw.random() < wild:
            fields[3] = draw.choice([*list(site.zones), "none", "", "d1 "])
        if draw.random() < wild:
            fields = draw.choice([fields[:3], [*fields, ""], [], fields[:1]])
        lines.append(",".join(f'"{field}"' if draw.random() < wild else str(field) for field in fields))
    return (end.join(lines) + draw.choice([end, end, end, ""])).encode()


def wide_table(draw):
    """A table at or past the greatest length."""
    unit, size = draw.choice([b"\n", b",", b"a", b"\"", b"7,20000,kim,d2\n"]), draw.choice([65_536, LONGEST - 1, LONGEST, LONGEST + 1])
    return (b"visit,day,engineer,point\n" + unit * (size // len(unit) + 1))[:size]


def table_of(draw, seeds, site):
    if draw.random() < 0.01:
        return wide_table(draw) if draw.random() < 0.8 else None
    data = drawn_table(draw, site) if draw.random() < 0.7 else draw.choice(seeds.tables)
    return changed(draw, data) if draw.random() < 0.4 else data


def call_of(site, data, register, target, look=None):
    return Call(["import", "SITE", "OTHER", "TARGET"], site.bytes, b"", None, (site, data, register), data, target, look), expect_import


def table(draw, seeds):
    kind = draw.random()
    if kind < 0.05:
        # a site file that may be refused: nothing else is looked at then
        data = changed(draw, draw.choice(seeds.files))
        yield Call(["import", "SITE", "OTHER", "TARGET"], data, b"", None, None, b"", None), expect_no_site
        return
    site = draw.choice(seeds.sites)
    if kind < 0.2:
        target = draw.choice([*seeds.registers, b"", bytes(draw.randrange(256) for _ in range(64))])
        for _ in range(draw.choice([1, 1, 2, 4])):
            target = draw.choice([flip, flip, other_byte, cut_off, cut_out, double])(draw, target)
        yield call_of(site, table_of(draw, seeds, site), Register(not target), target)
        return
    register, count = Register(), draw.choice([1, 1, 2, 3])
    for number in range(count):
        look = (lambda journal, target: holds(register, target)) if number + 1 == count else None
        yield call_of(site, table_of(draw, seeds, site), register, "left" if number else None, look)


def expect_no_site(call, status, text):
    """The site's refusal, or that the table, which is empty, has no header."""
    is_read = (status, text) == (14, b"refused row 0 1\n") and not refusal_of(call.site)
    if not is_read and not (status == 3 and is_refusal(call.site, text)):
        raise Unexpected(f"status {status} and {text[:200]}, wanted {refusal_of(call.site)} or a row")
