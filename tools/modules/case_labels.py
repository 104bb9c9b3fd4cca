"""Cases about converting labels: a table and a shape on the old range with a list of pairs, and what the converter answers and leaves.

Converting is asked of every case, with the bytes lent that widening and narrowing are lent too; most have an empty list. An answer of it by hand
is a refusal's number and place, or the counts of rows and entries.
"""
import sys

import cases, paper01
from brackets import children, shape, with_byte
from case_draws import Draws
from case_form import MOST_NUMBERS, OTHER, Case
from case_parts import nested_table, table
from case_shapes import GOOD_SHAPE, GOOD_TABLE

# old labels whose bytes differ in the lower alone, in the higher alone, and in both
BOTH_BYTES = (100, 255, 256, 257, 356, 511, 512, 612, 999)
# the rooms lent beside a table and a shape: just enough and more, then a byte too few for the one, for the other and for both
ENOUGH, SHORT = ((0, 0), (1, 33), (29, 0)), ((-1, 0), (0, -1), (-1, -1), (-1, 40), (40, -1))


def lent(case, more=0, more_shape=0):
    """The case with so many bytes more than its table and its shape have, or fewer."""
    return case._replace(moved=(max(0, len(case.table) + more), max(0, len(case.shape) + more_shape)))


def answered(case, hand):
    """The case, if paper01.py converts it to what is said by hand, with room enough."""
    reply = paper01.convert(case.table, case.shape, case.numbers, case.table, case.shape, case.levels)[0]
    said = "refused {} {}".format(*reply) if reply[0] else "{} rows, {} entries".format(*reply[2:])
    if hand != said:
        sys.exit(f"table {case.table.hex()}, shape {case.shape.hex()}, list {case.numbers}: {hand} by hand, {said} by paper01.py")
    return case if case.moved else lent(case)


def each_width(text, entries, numbers, hand):
    """A table in brackets and a shape of levels and types, at both widths."""
    for levels in OTHER:
        yield answered(Case(nested_table(text, levels), shape(*entries, levels=levels), levels=levels, numbers=tuple(numbers)), hand)


def each_list(text, entries, answers):
    for numbers, hand in answers.items():
        yield from each_width(text, entries, numbers, hand)


def run(old, new, count):
    """The numbers of so many pairs, whose old and new labels go up one by one."""
    return tuple(x for k in range(count) for x in (old + k, new + k))


# ---- accepted
def converted():
    """Types of old labels, in trees and in a shape; labels that occur nowhere; the same labels at every level; all lent and some more."""
    for text, entries, numbers, hand in (
            ("1[100[999] 100[999 999]]", ((1, (1, 100, 999)), (2, (1, 100))), (100, 21, 500, 7, 999, 99), "6 rows, 2 entries"),
            ("999[999[999[999[999[999]]]]]", ((1, (999,) * 6), (2, (999,))), (999, 1), "6 rows, 2 entries"),
            ("99[98] 100", ((1, (99, 98)), (2, (99,))), (100, 97), "3 rows, 2 entries"), ("99", ((1, (1,)),), (), "1 rows, 1 entries"),
            ("1[2]", ((1, (1,)),), (100, 3, 999, 4), "2 rows, 1 entries"), ("", ((1, (100, 5)),), (100, 1), "0 rows, 1 entries"),
            ("1", ((1, (300, 1, 301)),), (301, 2, 300, 3), "1 rows, 1 entries")):
        for case in each_width(text, entries, numbers, hand):
            yield from (lent(case, *more) for more in ENOUGH)
    # the same list turned round converts alike
    both = " ".join(map(str, BOTH_BYTES))
    pairs = list(zip(BOTH_BYTES, range(11, 20)))
    for turned in (pairs, pairs[::-1]):
        yield from each_width(f"1[{both}] 100[1[{both}]]", ((1, BOTH_BYTES[:6]), (2, BOTH_BYTES[3:]), (3, (1,))),
                              [x for pair in turned for x in pair], "21 rows, 3 entries")


def most():
    """1,024 rows of old labels and 16 entries, of which the last has one not in the list or none; 65 types, and types that no row has, which
    converting does not look at."""
    for levels in OTHER:
        rows = table([((i // 2 + 1,) + (1,) * (i % 2), 100 + i % 99) for i in range(1024)], levels=levels)
        for last, hand in ((198, "1024 rows, 16 entries"), (199, "refused 26 15")):
            entries = shape((1, (100,) * levels), *((2, (101 + k, 198 - k)) for k in range(14)), (2, (101, last)), levels=levels)
            yield answered(Case(rows, entries, levels=levels, numbers=run(100, 1, 99)), hand)
    yield from each_width(" ".join(map(str, range(100, 165))), ((1, (999,)),), (*run(100, 1, 65), 999, 99), "65 rows, 1 entries")


# ---- refused
def pairs():
    """Each rule of 25: both bounds of an old label and of a new one, a new label that occurs in the table alone or in the shape alone, an old
    one twice, a new one twice, of which the later is at fault; half a pair; and of several faults the first."""
    yield from each_list("5", ((1, (6, 7)),), {
        (100, 1): "1 rows, 1 entries", (999, 99): "1 rows, 1 entries", (99, 1): "refused 25 0", (1000, 1): "refused 25 0", (100, 0): "refused 25 0",
        (100, 100): "refused 25 0", (0, 1): "refused 25 0", (65535, 1): "refused 25 0", (100, 65535): "refused 25 0", (356, 257): "refused 25 0",
        (1, 100): "refused 25 0", (100, 5): "refused 25 0", (100, 6): "refused 25 0", (100, 7): "refused 25 0", (100, 8, 101, 7): "refused 25 1",
        (100, 1, 101, 2, 100, 3): "refused 25 2", (100, 1, 101, 2, 102, 1): "refused 25 2", (100, 1, 100, 1): "refused 25 1",
        (100, 1, 356, 2, 612, 3): "1 rows, 1 entries", (100,): "refused 25 0", (5,): "refused 25 0", (100, 1, 101): "refused 25 1",
        (100, 1, 101, 2, 102): "refused 25 2", (100, 1, 101, 1, 102): "refused 25 1", (100, 1, 99, 2, 100, 3): "refused 25 1",
        (100, 1, 100, 2, 101, 0): "refused 25 1"})


def many_pairs():
    """As many pairs as there are new labels, and one more; beside a label that takes one of them; and long lists, that go on past a fault."""
    yield from each_list("300", ((1, (300,)),), {
        run(300, 1, 99): "1 rows, 1 entries", run(300, 1, 99)[::-1]: "refused 25 0", (*run(300, 1, 99), 400): "refused 25 99",
        (*run(300, 1, 99), 400, 99): "refused 25 99", (*run(300, 1, 98), 400, 98): "refused 25 98", run(300, 1, 500): "refused 25 99",
        run(300, 1, 99) * 5: "refused 25 99", (*run(100, 1, 50), *[0] * (MOST_NUMBERS - 100)): "refused 25 50", (1,) * (MOST_NUMBERS - 1): "refused 25 0"})
    yield from each_list("1", ((1, (99,)),), {
        run(100, 2, 97): "1 rows, 1 entries", run(100, 2, 98): "refused 25 97", run(100, 2, 500): "refused 25 97", run(100, 1, 99): "refused 25 0"})


def not_listed():
    """26 with a row, first and last; with an entry, for the first and the last label of its type; the row, though an entry before it is at fault
    too. A label that differs in one byte alone from one of the list is not in it."""
    for text, entries, numbers, hand in (
            ("100", ((1, (1,)),), (), "refused 26 0"), ("1[2[100]] 3", ((1, (1,)),), (101, 4), "refused 26 2"),
            ("1 2 999", ((1, (1,)),), (100, 4), "refused 26 2"), ("1 999 100", ((1, (1,)),), (999, 4), "refused 26 2"),
            ("356", ((1, (1,)),), (100, 4), "refused 26 0"), ("257", ((1, (356,)),), (256, 4), "refused 26 0"),
            ("1", ((1, (100,)),), (), "refused 26 0"), ("1", ((1, (1,)), (2, (1, 2, 100))), (), "refused 26 1"),
            ("100", ((1, (100,)), (2, (100, 1)), (2, (1, 1, 1, 1, 1, 356))), (100, 4), "refused 26 2"),
            ("1 2 100", ((1, (999,)),), (101, 4), "refused 26 2"), ("100", ((1, (1,)), (2, (999, 100))), (100, 2), "refused 26 1")):
        yield from each_width(text, entries, numbers, hand)


def rooms():
    """29: a byte too few for the table, for the shape and for both; nothing lent; and all that comes before it."""
    for case in each_width("1[100]", ((1, (1, 100)),), (100, 99), "2 rows, 1 entries"):
        yield from (lent(case, *more) for more in (*SHORT, (-len(case.table), 0), (0, -len(case.shape)), (-999, -999)))
    for case in each_width("", ((1, (100,)),), (100, 99), "0 rows, 1 entries"):
        yield from (lent(case, *more) for more in ((0, -1), (0, 0)))
    for numbers, hand in {(100,): "refused 25 0", (100, 3): "refused 26 2"}.items():
        yield from (lent(case, -999, -999) for case in each_width("1[100 101]", ((1, (1,)),), numbers, hand))


def earlier():
    """1, 2, 3, 5 and 6, on the old range, each before the next and all before 25; a label of 1,000 is past the range, in a row and in an entry."""
    good, bad_list = shape((1, (1,))), (1,)
    for t, s, hand in (
            (nested_table("1 " * 1025), b"", "refused 1 0"), (GOOD_TABLE[:-1], b"", "refused 2 0"), (GOOD_TABLE * 2, b"", "refused 3 9"),
            (nested_table("1 1000"), b"", "refused 3 1"), (nested_table("1 999[65535]"), good, "refused 3 2"), (nested_table("0"), good, "refused 3 0"),
            (GOOD_TABLE, b"", "refused 5 0"), (GOOD_TABLE, GOOD_SHAPE + b"\0", "refused 5 0"), (GOOD_TABLE, GOOD_SHAPE * 6, "refused 5 0"),
            (GOOD_TABLE, GOOD_SHAPE * 2, "refused 6 3"), (nested_table("100"), shape((1, (1,)), (2, (1, 1000))), "refused 6 1"),
            (GOOD_TABLE, shape((1, (0,))), "refused 6 0"), (GOOD_TABLE, with_byte(GOOD_SHAPE, 47, 4), "refused 6 2"),
            (GOOD_TABLE, GOOD_SHAPE, "refused 25 0"), (table(children(65)), good, "refused 25 0")):
        yield answered(Case(t, s, numbers=bad_list), hand)


# ---- drawn
def drawn(levels, count=170):
    """Drawn tables, shapes and lists, which fit each other or nearly, with bytes lent around what is written."""
    rng = Draws(100 + levels, levels)
    for _ in range(count):
        t, s, numbers = cases.conversion(rng, rng.choice((6, 14, 20)), rng.choice((3, 6, 9)), levels)
        if len(t) <= 32768:
            yield lent(Case(t, s, levels=levels, numbers=tuple(numbers)), *rng.choice(((0, 0), (0, 0), (0, 0), (0, 0), (3, 5), *SHORT)))


LABELS = (converted, most, pairs, many_pairs, not_listed, rooms, earlier)
