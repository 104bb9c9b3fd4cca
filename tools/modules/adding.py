"""The calls of include/totals.h, made as C makes them and held to totals.py. Used by tools/compare_archive, which has the libraries."""
import collections, ctypes, itertools

import cases, tapes, totals

Number = ctypes.c_size_t


class Total(ctypes.Structure):
    _fields_ = [("shown", ctypes.c_int64), ("unshown", ctypes.c_int64), ("tapes", Number)]


class TapeSums(ctypes.Structure):
    _fields_ = [("number", Number), ("place", Number), ("shown", ctypes.c_int64), ("unshown", ctypes.c_int64)]


class TakenIn(ctypes.Structure):
    _fields_ = [("number", Number), ("place", Number), ("total", Total)]


ANSWERS = dict(sum_tape=TapeSums, take_in=TakenIn)


def add_differs(library, total, tape):
    """What is said of a tape that a library does not add up as totals.py does, by itself or to the total; nothing where it does both."""
    given = tape.table, tape.shape, tape.entry
    number, place, after = totals.take_in(total, tape)
    if library("sum_tape", *given) != list(totals.sum_tape(tape)):
        wrong = "sum_tape"
    elif library("take_in", Total(*total), *given) != [number, place, list(after)]:
        wrong = "take_in"
    else:
        return None
    return f"{library.prefix}{wrong}\n  table {tape.table.hex()}\n  shape {tape.shape.hex()}\n  entry {tape.entry}, total {total}"


def totals_at_ends():
    """Totals whose sums are at an end of what so many tapes can have, one within it or one past it."""
    for count in (0, 1, 2, 500, 998, 999, 1000, 1001, 2**32 + 5, 2**63, 2**64 - 1):
        most = min(count, 1001) * totals.MOST_SUM
        several = sorted({0, *(sign * (most + more) for sign in (1, -1) for more in (-1, 0, 1)), -2**63, 2**63 - 1})
        yield from (totals.Total(shown, unshown, count) for shown, unshown in itertools.product(several, repeat=2))


def one_type(value, levels, rows=1):
    """A tape of some rows of one type, all with this value, and all shown."""
    table = b"".join(cases.row_bytes((row,), 1, value.to_bytes(8, "little", signed=True), levels) for row in range(1, rows + 1))
    return totals.Tape(table, cases.entry_bytes(1, (1,), levels), 0, levels)


def values_at_ends(levels):
    """Tapes whose values are at an end of what is added or of what there is, or one past it: of one row, and of as many as there may be, each with a
    total of no tapes or of one that is at the end too."""
    most, sign = totals.MOST_VALUE, (1, -1)
    ends = [0, *(s * value for s in sign for value in (1, most - 1, most, most + 1, 2**32, 2**63 - 1)), -2**63]
    yield from ((totals.NOTHING, one_type(value, levels)) for value in ends)
    for s, last in itertools.product(sign, (0, 1)):
        yield totals.Total(s * 999 * totals.MOST_SUM, -s * 999 * totals.MOST_SUM, 999), one_type(s * (most + last), levels, rows=1024)


def history_differs(library, rng):
    """What is said of 1,100 tapes, some of them refused, that a library does not take in one after the other as totals.py does."""
    several = [one_type(rng.choice([tapes.in_range(rng)] * 30 + [tapes.off_range(rng)]), library.levels) for _ in range(1100)]
    left, counted = Total(0, 0, 0), collections.Counter()
    for tape, (number, place, after) in zip(several, totals.history(several)):
        answer = library("take_in", left, tape.table, tape.shape, tape.entry)
        if answer != [number, place, list(after)]:
            return f"{library.prefix}take_in, a history\n  tape {after.tapes}: {answer}, and it is {number, place, after}"
        left = Total(*answer[2])
        counted[number] += 1
    return None if counted[0] == 1000 and counted[17] and counted[18] else f"a history with {counted}"


def ends_differ(library, rng):
    """What is said of the first tape or total at an end that differs."""
    tape = one_type(-5, library.levels)
    found = (add_differs(library, total, tape) for total in totals_at_ends())
    found = itertools.chain(found, (add_differs(library, total, tape) for total, tape in values_at_ends(library.levels)))
    return next(filter(None, found), None) or history_differs(library, rng)


def differs(libraries, levels, rng, seen):
    """What is said of a drawn tape and total that some library does not add up as totals.py does; and counts the answers."""
    tape = tapes.tape(rng, levels=levels, most_rows=rng.choice([6, 14, 30]), most_entries=rng.choice([3, 6, 16]))
    total = tapes.total(rng)
    for answer in (totals.sum_tape(tape)[0], totals.take_in(total, tape)[0]):
        seen[f"refusal {answer}" if answer else "accepted"] += 1
    seen["with rows not shown"] += totals.sum_tape(tape)[3] != 0
    return next(filter(None, (add_differs(library, total, tape) for library in libraries)), None)
