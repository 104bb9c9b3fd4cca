"""Cases about tables: document 01's row rules and their limits, look-up, the number of types and their summaries. Those that a width changes
are of six levels or of as many as are said."""
import itertools

import cases, paper01
from brackets import A, children, shape, with_byte
from case_form import Case
from case_parts import FAR, bracketed, nested_table, table

SMALL_ROWS = (((1,), 1), ((1, 1), 58), ((1, 1, 1), 3), ((2,), 99))
SMALL = table(SMALL_ROWS)
SMALL_SHAPE = shape((1, (1, 58)), (2, (1,)), (2, (1, 58, 3)))


def trees(n, names=paper01.MOST_LABEL, levels=6):
    """A sound table of n rows, each a tree with one child, so both ways to follow are taken; the labels come round after `names`."""
    return table([((i // 2 + 1,) + (1,) * (i % 2), i % names + 1) for i in range(n)], levels=levels)


def look_ups(levels=6):
    """Rows at both ends of a table and past them, and rows whose place in bytes passes 64 bits: 24 × 2^61 is three times 2^64, and 28 × 2^62
    seven times."""
    small, row_length = table(SMALL_ROWS, levels=levels), paper01.row_length(levels)
    past_64_bits = (2**32, 2**61, 2**61 + 1, 2**63, 2**64 // row_length, 2**64 // row_length + 1, 2**64 - 1)
    for row in (0, 1, FAR, *past_64_bits):
        yield Case(b"", row=row, levels=levels)
    for row in (0, 1, 3, 4, 5, 255, 256, FAR, *past_64_bits):
        yield Case(small, row=row, levels=levels)
    for row in (0, 3, FAR, *past_64_bits):
        yield Case(with_byte(small, 2 * row_length, 0), row=row, levels=levels)
        yield Case(small[:-1], row=row, levels=levels)


def most_rows(levels=6):
    full = trees(1024, levels=levels)
    for row in (0, 1023, 1024, 2**61):
        yield Case(full, row=row, levels=levels)
    yield Case(with_byte(full, paper01.row_length(levels) * 1023 + 1, 1), row=0, levels=levels)
    yield Case(trees(1025, levels=levels), row=1024, levels=levels)
    yield Case(full + b"\0", row=0, levels=levels)
    yield Case(full[:-1], row=0, levels=levels)
    yield Case(with_byte(full + b"\0", 0, 0), row=0, levels=levels)
    yield Case(trees(1024, 64, levels), shape((1, (63,)), (2, (63, 64)), levels=levels), row=1024, levels=levels)


def depths(levels=6):
    """A chain of rows down to the last level, and past it."""
    down = tuple(range(1, levels + 1))
    chain = [((1,) * k, k) for k in down]
    past = with_byte(cases.row_bytes((1,) * levels, 7, bytes(8), levels), 0, levels + 1)
    deepest = shape((1, down), levels=levels)
    first = table(chain[:1], levels=levels)
    chain = table(chain, levels=levels)
    for row in (0, levels - 1, levels):
        yield Case(chain, deepest, row, levels=levels)
        yield Case(chain + past, deepest, row, levels=levels)
    yield Case(with_byte(first, 0, levels + 1), row=0, levels=levels)
    yield Case(with_byte(first, 0, 0), row=0, levels=levels)


def labels(levels=6):
    """Both ends and past them; of 256, 257 and 355 the lower byte alone is 0, or within them."""
    for label in (0, 1, 99, 100, 255, 256, 257, 355, 999, 65535):
        yield Case(table([((1,), label)], levels=levels), shape((1, (label,)), levels=levels), 0, levels=levels)
        yield Case(table([((1,), 1), ((1, 1), label)], levels=levels), shape((1, (1, label)), (2, (1,)), levels=levels), 1, levels=levels)


def most_types():
    for n in (64, 65):
        for summaries in (0, 63, 64, 65):
            yield Case(table([((i + 1,), i + 1) for i in range(n)]), shape((1, (n,))), n - 1, summaries=summaries)
    full = children(64)
    last = shape((1, (1, 1)), (2, (1, 63)), (2, (1,)))
    yield Case(table(full), last, 63)
    yield Case(table(full + [((1, 63, 1), 1)]), last, 64)
    # the 64 types again, and then the 65th, with rows of old types and a 66th type after it
    again = full + [((1, 64), 63), ((2,), 1), ((2, 1), 5), ((2, 2), 5)]
    yield Case(table(again), last, 67)
    yield Case(table(again + [((2, 2, 1), 5), ((2, 3), 5), ((2, 4), 99), ((3,), 1)]), last, 68)
    # a bad row after the 65th type is refused first
    yield Case(table(full + [((1, 64), 64), ((1, 66), 64)]), last, 0)


def order_of_refusals():
    yield Case(b"\0" * 25, row=0)
    yield Case(b"\0" * 48, row=FAR)


def following():
    """After 1, 1.1, 1.2 and 1.2.1: every number of up to four components from 1 to 3."""
    before = ((1,), (1, 1), (1, 2), (1, 2, 1))
    for size in range(1, 5):
        for dewey in itertools.product((1, 2, 3), repeat=size):
            yield Case(table([(d, 1) for d in before + (dewey,)]), shape((1, (1, 1)), (2, (1, 1, 1)), (2, (1,))), 4)


def cuts(levels=6):
    """Every length of a table of three rows."""
    whole = table([((1,), 1), ((1, 1), 2), ((1, 2), 3)], levels=levels)
    for length in range(len(whole) + 1):
        yield Case(whole[:length], shape((1, (1,)), (2, (1, 2)), levels=levels), 0, levels=levels)
        yield Case(whole[:length], row=1, levels=levels)


def changed_bytes():
    for at in range(len(SMALL)):
        for value in (0, 1, 7, 255):
            yield Case(with_byte(SMALL, at, value), SMALL_SHAPE, at // 24)


def summaries_lent():
    """Every number of summaries around the types of a table, and around none; a refused table comes before them."""
    for text, count in ((A, 4), ("", 0), ("7", 1), ("1[2 3[4]] 5", 5)):
        for summaries in sorted({0, max(count - 1, 0), count, count + 1, 64, 65}):
            yield Case(nested_table(text), summaries=summaries)
    for data in (SMALL[:-1], with_byte(SMALL, 48, 0), table(children(65))):
        for summaries in (0, 3, 65):
            yield Case(data, summaries=summaries)


def counts():
    """Document 01's table A; two root types, with parents of none, one and many; one label list over many parents; a chain."""
    yield bracketed(A, "2[3[4]]", "verdict 0")
    yield Case(nested_table("7 7[8] 9[8] 7[8 7 8 8]"), shape((1, (7,)), (2, (7, 8)), (3, (7, 7))))
    yield Case(nested_table("1[1[1 2 1] 1 2[1]] 1[2]"), shape((1, (1, 1)), (2, (1, 1, 1)), (2, (1, 2))))


LIMITS = (most_rows, depths, labels, most_types)
# those that are made of wide tables too
OF_EITHER_WIDTH = (most_rows, depths, labels, look_ups, cuts)
OTHERS = (look_ups, order_of_refusals, following, cuts, changed_bytes, summaries_lent, counts)
