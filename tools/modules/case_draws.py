"""Cases drawn from a seed: sound ones, damaged ones, ones cut off, and hostile ones."""
import random

import brackets, cases, paper01
from case_form import MOST_RECORDS, MOST_SUMMARIES, Case, judging, total, type_count, within
from case_parts import FAR
from case_tables import trees

# what lies past a drawn table that is too long, the same each time
TAILS = {levels: trees(1366, levels=levels) for levels in (6, 8)}


class Draws(random.Random):
    """Draws made of random() alone, whose numbers Python keeps from version to version, of cases of one width."""

    def __new__(cls, seed, levels=6):
        return super().__new__(cls, seed)

    def __init__(self, seed, levels=6):
        super().__init__(seed)
        self.levels, self.row_length, self.entry_length = levels, paper01.row_length(levels), paper01.entry_length(levels)

    def randrange(self, start, stop=None):
        low, high = (0, start) if stop is None else (start, stop)
        return low + int(self.random() * (high - low))

    def randint(self, low, high):
        return self.randrange(low, high + 1)

    def choice(self, several):
        return several[self.randrange(len(several))]

    def sample(self, several, count):
        rest = list(several)
        return [rest.pop(self.randrange(len(rest))) for _ in range(count)]

    def randbytes(self, count):
        return bytes(self.randrange(256) for _ in range(count))


# ---- what a drawn case is made of
def far_row(rng):
    """Rows whose place in bytes passes 64 bits are among them."""
    return rng.choice((FAR, 2**32, 2**61, 2**64 // rng.row_length + 1, 2**64 - 1))


def value(rng, row):
    few = rng.choice((0, 1, -1, 100 * row, 100 * row, 100 * row, -row, 2**31, 2**63 - 1, -2**63))
    return few.to_bytes(8, "little", signed=True) if rng.random() < 0.9 else rng.randbytes(8)


def written(rng, rows, entries):
    table = b"".join(cases.row_bytes(d, l, value(rng, i), rng.levels) for i, (d, l) in enumerate(rows))
    return Case(table, brackets.shape(*entries, levels=rng.levels), levels=rng.levels)


def asked(rng, case):
    """The case with a row, and with a room and summaries around what it needs, or a few where it is refused."""
    rows = len(case.table) // rng.row_length
    row = rng.choice((0, rows, rows + 1, far_row(rng), *[rng.randrange(rows + 1)] * 6))
    n = total(case) or rng.randint(1, 9)
    records, places = n + rng.choice((-1, 0, 0, 0, 1, 1, 2, 5)), n + rng.choice((-1, 0, 0, 0, 1, 1, 2, 30))
    room = within(0, records, MOST_RECORDS - 1), rng.choice((0, 0, 1, 12, rng.row_length - 1)), within(0, places, MOST_RECORDS)
    types = type_count(case) or 3
    summaries = types + rng.choice((-1, 0, 0, 0, 1, 3)) if rng.random() < 0.8 else rng.choice((0, 64, 65))
    return case._replace(row=row, room=room, summaries=within(0, summaries, MOST_SUMMARIES))


def ordinary(rng):
    """A small table and a shape that are accepted."""
    while True:
        grown, rows, entries = rng.random() < 0.35, rng.choice((4, 8, 14, 14, 20)), rng.choice((3, 4, 6, 6, 9))
        case = written(rng, *cases.ordinary(rng, grown, rows, entries, rng.levels))
        if judging(case.table, case.shape, case.levels)[0] == 0:
            return case


def in_either(rng, case, change):
    """The case with its table or its shape changed."""
    if rng.random() < 0.6:
        return case._replace(table=change(rng, case.table, rng.row_length))
    return case._replace(shape=change(rng, case.shape, rng.entry_length))


# ---- sound, damaged, cut off
def sound(rng, each=260):
    """Until each verdict has come up so often."""
    left = {verdict: each for verdict in range(4)}
    while any(left.values()):
        case = ordinary(rng)
        verdict = judging(case.table, case.shape, case.levels)[2][0]
        if left[verdict]:
            left[verdict] -= 1
            yield asked(rng, case)


def with_other_byte(rng, data, width):
    """One byte changed, seldom one of a row's value."""
    if not data:
        return data
    at = width * rng.randrange(len(data) // width) + rng.randrange(rng.entry_length if rng.random() < 0.9 else width)
    was = data[at]
    return brackets.with_byte(data, at, rng.choice([x for x in (0, 1, 2, 3, 7, 255, was ^ 1, (was + 1) % 256, rng.randrange(256)) if x != was]))


def damaged(rng, count=560):
    """One byte changed, or now and then some."""
    for _ in range(count):
        case = ordinary(rng)
        for _ in range(rng.choice((1, 1, 1, 1, 2, 3))):
            case = in_either(rng, case, with_other_byte)
        yield asked(rng, case)


def cut(rng, data, width):
    """Cut off anywhere, or after some whole records, or with some bytes too many."""
    way = rng.random()
    if way < 0.5:
        return data[:rng.randrange(len(data) + 1)]
    if way < 0.75:
        return data[:width * rng.randrange(len(data) // width + 1)]
    return data + bytes(rng.randrange(4) for _ in range(rng.randrange(1, width)))


def cut_off(rng, count=360):
    for _ in range(count):
        yield asked(rng, in_either(rng, ordinary(rng), cut))


# ---- hostile
def copies(rng):
    """Many lines for few rows: a chain that goes up and down between a row and the many beneath it, or types that multiply."""
    if rng.random() < 0.5:
        rows, entries = cases.hostile(rng, rng.levels)
    else:
        sizes = [rng.randint(1, 40) for _ in range(rng.randint(2, 3))]
        rows = brackets.nested(f"1[{' '.join(f'{label} ' * n for label, n in enumerate(sizes, 2))}]")
        entries = [(l, (1, rng.randrange(2, 2 + len(sizes)))) for l in range(1, rng.randint(3, rng.levels + 1))]
    case = asked(rng, written(rng, rows, entries))
    some = [rng.choice((0, 1, 9, 4095, 4096, MOST_RECORDS)) for _ in range(2)]
    return case._replace(room=(some[0], 0, some[1])) if rng.random() < 0.3 else case


def deep(rng):
    """All levels of rows and of entries."""
    count, names = rng.randint(rng.levels, 30), [[x] for x in rng.sample(range(1, 9), rng.levels)]
    rows = cases.forest(rng, count, names, rng.levels, rng.levels)
    kinds = cases.types(rows)
    return asked(rng, written(rng, rows, [(l, rng.choice(kinds)) for l in range(1, rng.levels + 1)]))


def many_types(rng):
    names = [x for x in range(1, rng.randint(62, 67)) for _ in range(rng.choice((1, 1, 1, 2)))]
    rows = [((1,), 1)] + [((1, i), x) for i, x in enumerate(names, 1)]
    return asked(rng, written(rng, rows, cases.shape(rng, cases.types(rows), 3, rng.levels)))


def many_entries(rng):
    rows = cases.regular(rng, 8, rng.levels)
    return asked(rng, written(rng, rows, cases.shape(rng, cases.types(rows), rng.randint(15, 18), rng.levels)))


def too_deep(rng):
    """A level or a type's length past the last, in some record."""
    def raise_level(rng, data, width):
        at = width * rng.randrange(len(data) // width) + (rng.randrange(2) if width == rng.entry_length else 0)
        return brackets.with_byte(data, at, rng.choice((rng.levels + 1, rng.levels + 1, rng.levels + 2, 128, 255)))
    return asked(rng, in_either(rng, ordinary(rng), raise_level))


def too_long(rng):
    """A sound table with a tail that fills all of 1,024 rows, or more."""
    case = ordinary(rng)
    row, full = rng.row_length, 1024 * rng.row_length
    length = rng.choice((full, full + 1, full + row - 1, full + row, full + row + 1, full + 2 * row, full + 424, 32760, 32768))
    return asked(rng, case._replace(table=case.table + TAILS[rng.levels][len(case.table):length]))


def absent(rng):
    """A type that no row has, near to one that some row has."""
    case = ordinary(rng)
    at = rng.entry_length * rng.randrange(len(case.shape) // rng.entry_length)
    size = case.shape[at + 1]
    kind = [int.from_bytes(case.shape[at + 4 + 2 * k:at + 6 + 2 * k], "little") for k in range(size)]
    way = rng.randrange(4)
    if way == 0:
        kind[rng.randrange(size)] = rng.choice((1, 2, 3, 99, 257))
    elif way == 1:
        kind = kind[1:] or kind + [9]
    elif way == 2:
        kind = (kind + kind)[:rng.levels]
    else:
        kind = kind[::-1]
    entry = brackets.shape((case.shape[at], kind), levels=rng.levels)
    return asked(rng, case._replace(shape=case.shape[:at] + entry + case.shape[at + rng.entry_length:]))


def noise(rng):
    """Bytes that are no table or no shape at all."""
    def any_bytes(rng, data, width):
        return bytes(rng.choice((0, 0, 1, 1, 2, rng.randrange(256))) for _ in range(width * rng.randrange(1, 9) + rng.choice((0, 0, 0, 1))))
    return asked(rng, in_either(rng, ordinary(rng), any_bytes))


def two_faults(rng):
    """A fault in the table and one in the shape."""
    case = ordinary(rng)
    table = rng.choice((with_other_byte, cut))(rng, case.table, rng.row_length)
    return asked(rng, case._replace(table=table, shape=rng.choice((with_other_byte, cut))(rng, case.shape, rng.entry_length)))


def no_room(rng):
    """Nothing lent, or too little of one thing and enough of the others; and a row that is far off."""
    case = asked(rng, ordinary(rng))
    n = total(case)
    past = rng.row_length - 1
    room = rng.choice(((0, 0, 0), (0, past, 0), (0, past, n), (n, 0, 0), (n - 1, past, n), (n, 0, n - 1), (n - 1, 0, MOST_RECORDS)))
    return case._replace(row=far_row(rng), room=room, summaries=rng.choice((0, max(type_count(case) - 1, 0))))


WAYS = (copies, deep, many_types, many_entries, too_deep, too_long, absent, noise, two_faults, no_room)


def hostile(rng, each=55):
    for _ in range(each):
        for way in WAYS:
            yield way(rng)


DRAWN = {"sound": sound, "damaged": damaged, "cut off": cut_off, "hostile": hostile}
