"""Cases about shapes: document 01's rules for entries and their limits, types that no row has, and the order of all refusals. Those that a
width changes are of six levels or of as many as are said."""
import itertools

import paper01
from brackets import A, children, nested, shape, wanted, with_byte
from case_form import Case
from case_parts import nested_table, room, table
from case_tables import SMALL

GOOD_TABLE = nested_table(A)
GOOD_SHAPE = wanted("3[2 4]", nested(A))


def shape_lengths(levels=6):
    """Lengths of 0 to 17 entries and between; 257 entries are one where entries are counted in a byte."""
    endless, e = shape((1, (1,)), *[(2, (1,))] * 256, levels=levels), paper01.entry_length(levels)
    around = (0, 1, e - 1, e, e + 1, e + 8, 2 * e - 1, 2 * e, 2 * e + 1, 15 * e, 16 * e - 1, 16 * e, 16 * e + 1, 16 * e + 8)
    for length in (*around, 17 * e - 1, 17 * e, 17 * e + 1, 32 * e, 257 * e):
        yield Case(nested_table("1 1", levels), endless[:length], levels=levels)


def at_either(entry, levels):
    """A shape's bytes of one entry and of two, with this one last."""
    return entry, shape((1, (1,)), levels=levels) + with_byte(entry, 0, 2)


def shape_fields(levels=6):
    """Sizes and labels at their limits and past them, in the first entry and in a later one."""
    down = tuple(range(1, levels + 2))
    chain = table([(d, l) for d, l in zip(((1,) * k for k in down), down[:-1])], levels=levels)
    for size in range(levels + 2):
        for s in at_either(shape((1, down[:size]), levels=levels), levels):
            yield Case(chain, s, levels=levels)
    # the size of another type, with the labels as they are
    for size, said in itertools.product((1, levels), (0, 1, 2, levels - 1, levels, levels + 1, 255)):
        yield Case(chain, with_byte(shape((1, down[:size]), levels=levels), 1, said), levels=levels)
    for place, label in itertools.product((0, levels - 1), (0, 1, 99, 100, 257, 999, 65535)):
        for s in at_either(shape((1, down[:place] + (label,) + down[place + 1:levels]), levels=levels), levels):
            yield Case(chain, s, levels=levels)
    for label in (0, 1, 98, 99, 100, 256, 257, 355, 999, 65535):
        yield Case(nested_table("1 98 99", levels), shape((1, (label,)), levels=levels), levels=levels)


def shape_levels(levels=6):
    """After levels 1 to k, and after a step up: every level up to one past the last; and one far off."""
    two_roots = nested_table("1 1", levels)
    for before in [*(list(range(1, k + 1)) for k in range(levels + 1)), [1, 2, 3, 4, 2]]:
        for level in range(levels + 2):
            yield Case(two_roots, shape(*((l, (1,)) for l in before + [level]), levels=levels), levels=levels)
    yield Case(two_roots, shape((255, (1,)), levels=levels), levels=levels)
    yield Case(two_roots, shape((1, (1,)), (255, (1,)), (0, (1,)), levels=levels), levels=levels)


def changed_shapes():
    for at in range(len(GOOD_SHAPE)):
        for value in (0, 3, 255):
            if GOOD_SHAPE[at] != value:
                yield Case(GOOD_TABLE, with_byte(GOOD_SHAPE, at, value))


def cut_shapes():
    """Every length of a shape of three entries."""
    for length in range(len(GOOD_SHAPE) + 1):
        yield Case(GOOD_TABLE, GOOD_SHAPE[:length])


def types_named():
    """Types that no row has, though rows have most of their labels, each by itself; then two of them, of which the first decides."""
    absent = ((2,), (4,), (57,), (99,), (1, 1), (1, 3), (1, 58), (2, 3), (1, 2, 2), (1, 2, 4), (1, 3, 3), (2, 2, 3), (3, 2, 1),
              (1, 2, 3, 3), (2, 2, 3, 4), (1, 2, 3, 4, 4), (1, 2, 3, 4, 5, 6))
    for kind in absent:
        yield Case(GOOD_TABLE, shape((1, kind)))
    # labels that differ in their high byte alone from those of a row break a rule, and others
    for kind in ((1, 2), (1, 58, 4), (1, 58, 3, 3), (98,), (2, 58), (1, 314), (1, 58, 259), (355,)):
        yield Case(SMALL, shape((1, (1, 58)), (2, kind)))
    for first, then in itertools.permutations(((1, 2), (1, 3), (2, 3)), 2):
        yield Case(GOOD_TABLE, shape((1, (1,)), (2, first), (2, then), (3, (9,))))


# ---- two faults and more
def order_with_shapes():
    """Every fault of a table beside every fault of a shape, and shapes with two faults."""
    bad = shape((1, (1,)), (2, ()))
    shapes = (b"", shape((1, (1,))) + b"\0", shape((1, (1,)), *[(2, (1,))] * 16), bad, shape((1, (1,)), (2, (9,))), shape((1, (1,))))
    for t in (b"", GOOD_TABLE[:-1], with_byte(GOOD_TABLE, 24, 7), table(children(65)), GOOD_TABLE):
        for s in shapes:
            yield Case(t, s)
    for s in (bad + b"\0", shape((1, (9,)), (1, (1,))), shape((2, (9,)), (2, (9,))), shape((1, (9,)), (2, (1,)), (4, (1,))),
              shape((1, (1,)), (2, (0,)), (4, (1,)))):
        yield Case(GOOD_TABLE, s)


def table_faults():
    """A table for each way to refusals 2, 3 and 4, and P4's."""
    return GOOD_TABLE[:-1], with_byte(GOOD_TABLE, 24, 7), GOOD_TABLE + GOOD_TABLE, table(children(65)), GOOD_TABLE


def shape_faults():
    """A shape for each way to refusals 5, 6 and 7, and P4's."""
    good = GOOD_SHAPE
    return (b"", good + b"\0", good * 6, with_byte(good, 0, 2), with_byte(good, 47, 1), good + shape((4, (1,))),
            good + shape((2, (9,))), shape((1, (2,))), good)


def refusals():
    """Every fault of a table beside every fault of a shape, with room for nine lines; each by itself with nothing lent; and a table
    that is too long and has the other faults too."""
    for t, s in itertools.product(table_faults(), shape_faults()):
        yield room(Case(t, s), 9, 7, 10)
    for t in table_faults():
        yield room(Case(t, shape_faults()[-1], summaries=0), 0, 0, 0)
    for s in shape_faults():
        yield room(Case(table_faults()[-1], s, summaries=0), 0, 0, 0)
    for s in (b"", shape_faults()[-1]):
        yield room(Case(bytes(24577), s), 9, 7, 10)


def raised_bytes():
    """P4 with each byte of its table and of its shape raised by one: refusals, other rows, other values."""
    t, s = GOOD_TABLE, GOOD_SHAPE
    for at in range(len(t)):
        yield room(Case(with_byte(t, at, (t[at] + 1) % 256), s), 10, 5, 11)
    for at in range(len(s)):
        yield room(Case(t, with_byte(s, at, (s[at] + 1) % 256)), 10, 5, 11)


LIMITS = (shape_lengths, shape_fields, shape_levels)
# those that are made of wide shapes too
OF_EITHER_WIDTH = LIMITS
OTHERS = (changed_shapes, cut_shapes, types_named, order_with_shapes, refusals, raised_bytes)
