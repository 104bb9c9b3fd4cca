"""Chains: what a case's own reshape leaves is reshaped once more, to a second shape, with no test of the new table in between.

An answer by hand is what the second reshape says (`refused 7 0`), the rows that it leaves, in brackets, how many they are (`1024 lines`), or
`none`, where the first leaves no table or more than 1,024 lines.
"""
import cases, paper01, samples as folders
from brackets import A, CHAIN, children, nested, shape, wanted, with_byte
from case_draws import Draws, ordinary, with_other_byte
from case_form import Case, lines_of, reshaping, reshaping_again, total
from case_parts import bracketed, far_more, lent, many, nested_table, room, table
from case_samples import VALUES, expect, leases
from case_shapes import GOOD_SHAPE, GOOD_TABLE

P4_BY_LESSEE = """\
verdict 0
1 0 lessee 1 100
1.1 1 lease 0 200
1.1.1 2 asset 2 300
1.1.2 2 asset 3 400
2 0 lessee 5 100
2.1 1 lease 4 500
2.1.1 2 asset 6 600
3 0 lessee 8 700
3.1 1 lease 7 800
edge 1 1 1 1 1
edge 2 0 2 1 1
"""


def rows_of(lines, levels=6):
    return [(row.dewey, row.label) for row in paper01.keep_row_rules(lines, levels, paper01.MOST_LABEL)]


def said(case):
    """What the second reshape says, how many lines it leaves, and their rows."""
    second = reshaping_again(case)
    if second is None:
        return ["none"]
    number, place, count = second[0]
    return [f"refused {number} {place}"] if number else [f"{count} lines", rows_of(lines_of(case, *second), case.levels)]


def chain(first, again, hand):
    """The case with a second shape, in bytes, or in brackets and of the types of the new table."""
    first = first if first.room else lent(first)
    if not isinstance(again, bytes):
        again = wanted(again, rows_of(lines_of(first, *reshaping(first)), first.levels), first.levels)
    case = first._replace(again=again)
    of_rows = not any(word in hand for word in ("refused", "lines", "none"))
    if (nested(hand) if of_rows else hand) not in said(case):
        raise SystemExit(f"table {case.table.hex()}, shape {case.shape.hex()}, then {case.again.hex()}: {hand} by hand, {said(case)} by paper01.py")
    return case


def each_again(first, answers):
    return [chain(first, again, hand) for again, hand in answers.items()]


# ---- by hand
def fans():
    """A seller's tape to the other tree and on to its own, from either tape. The tape by lessee becomes the tape by asset; the tape by
    asset becomes itself again, since it has a lessee and a lease for each asset already."""
    both = folders.by_name()
    by_lessee, by_asset = (both[name][:2] for name in ("fans_by_lessee", "fans_by_asset"))
    there = chain(far_more(Case(*by_lessee)), by_asset[1], "1011 lines")
    expect("the tape by lessee, reshaped", by_asset[0], lines_of(there, *reshaping(there)))
    back = chain(room(Case(*by_asset), 1011, 0, 1011), by_lessee[1], "1011 lines")
    expect("the tape by asset, there and back", by_asset[0], lines_of(back, *reshaping_again(back)))
    return there, back


def after_p4():
    """P4, and on from there: the lessee of two leases is two rows of the new table, and no reshape makes them one again."""
    for case in (lent(leases(), 0, 0, 0), lent(leases()), far_more(leases())):
        case = chain(case, "2[3[4]]", "2[3[4 4]] 2[3[4]] 2[3]")
        expect("P4 by lessee", P4_BY_LESSEE, folders.listing(lines_of(case, *reshaping(case)), case.again))
        yield case
    yield from each_again(leases(), {
        "3[2 4]": "3[2 4 4] 3[2 4] 3[2]", "3[4 2]": "3[4 4 2] 3[4 2] 3[2]", "2[4]": "2[4 4] 2[4] 2", "4[3[2]]": many("4[3[2]]", 3),
        "4[2 3 4]": many("4[2 3 4]", 3)})
    yield chain(bracketed(A, "3[2[1] 4]", values=VALUES), "1[3[2 4]]", "1[3[2 4 4]] 1[3[2 4]] 1[3[2]]")
    yield chain(bracketed(CHAIN, "6[5[4[3[2[1]]]]]"), CHAIN, CHAIN)


def not_kept():
    """The first loses a lease, or makes links up: the second takes the new table as it is."""
    yield chain(bracketed(A, "4[3[2]]", "verdict 1 1 8", VALUES), "2[3[4]]", many("2[3[4]]", 3))
    yield chain(bracketed(A, "1[2 4]", "verdict 2 1 2", VALUES), "2[4]", many("2[4 4 4]", 2))
    yield chain(bracketed("2 3", "2[3]", "verdict 1 1 1"), "2", "2")


def fewer_types():
    """Entries beneath one entry whose types end with one label are one type of the new table."""
    twice = bracketed(A, "1[3 3]", "verdict 2 1 2", VALUES)
    yield from each_again(twice, {"1[3]": f"1[{many(3, 6)}]", "3[1]": many("3[1]", 6)})
    yield chain(Case(nested_table("1[2[4] 3[4]]"), shape((1, (1,)), (2, (1, 2, 4)), (2, (1, 3, 4)))), "4[1]", many("4[1]", 2))
    yield chain(bracketed(A, "3[3]", "verdict 0", VALUES), shape((1, (3, 3)), (2, (3,))), many("3[3]", 3))


def refused_again():
    """Every fault of a second shape. That it names types of the source, which the new table lacks, is the likeliest."""
    own = shape((1, (3,)), (2, (3, 2)), (2, (3, 4)))
    yield from each_again(leases(), {
        own[:-1]: "refused 5 0", own + shape(*[(2, (3, 4))] * 14): "refused 5 0", with_byte(own, 0, 2): "refused 6 0",
        shape((1, (3,)), (2, (100,))): "refused 6 1", own + shape((4, (3, 4))): "refused 6 3", GOOD_SHAPE: "refused 7 0",
        shape((1, (3,)), (2, (2,))): "refused 7 1", own + shape((2, (3, 4, 4))): "refused 7 3"})


def most_lines():
    """1,024 lines are a source, 1,025 are none; and a second reshape to 4,096 lines and to one more."""
    both = folders.by_name()
    full, over = (Case(*both[name][:2]) for name in ("lines_1024", "lines_1025"))
    own = shape((1, (1,)), (2, (1, 2)), (3, (1, 2, 1)), (4, (1, 2, 1, 2)))
    for case in (room(full, 1024, 0, 1024), far_more(full)):
        yield chain(case, own, "1024 lines")
    yield chain(full, shape((1, (1, 2, 1, 2)), (2, (1, 2))), f"{2 * 961} lines")
    yield chain(room(over, 1025, 0, 1025), own, "none")
    yield chain(room(over, 1024, 23, 1025), own, "none")
    yield chain(bracketed(f"1[{many(2, 1023)}]", "1[2]", "1 1023"), "2[1]", "2046 lines")
    few = bracketed(f"1[{many(2, 15)}]", "1[2]", "1 15")
    yield from each_again(few, {"1[2[1[2[1[2]] 2]] 2]": "4096 lines", "1[2[1[2[1[2]] 2]] 2 1]": "refused 8 0"})
    yield chain(far_more(bracketed(f"1[{many(2, 15)}]", "1[2[1[2[1[2]] 2]] 2]")), shape((1, (1,))), "none")


def first_refused():
    """Each refusal of the first reshape: there is no second."""
    tables = (bytes(24600), GOOD_TABLE[:-1], with_byte(GOOD_TABLE, 24, 7), table(children(65)))
    shapes = (b"", with_byte(GOOD_SHAPE, 0, 2), shape((1, (2,))))
    short = Case(GOOD_TABLE, GOOD_SHAPE, room=(9, 0, 8))
    for number, first in enumerate([*(Case(t, GOOD_SHAPE) for t in tables), *(Case(GOOD_TABLE, s) for s in shapes), short], 1):
        case = chain(first, shape((1, (3,))), "none")
        expect("the first reshape's refusal", number, reshaping(case)[0][0])
        yield case


# ---- drawn
def drawn(count=16):
    """A drawn case that is accepted, and a shape drawn from the types of its new table, now and then with a byte changed."""
    rng = Draws(5)
    while count:
        case = ordinary(rng)
        if 1 < total(case) <= paper01.MOST_ROWS:
            case = rng.choice((lent, far_more))(case)
            rows = rows_of(lines_of(case, *reshaping(case)))
            again = shape(*cases.shape(rng, cases.types(rows), rng.randint(2, 6), seldom=cases.scarce(rows)))
            yield case._replace(again=with_other_byte(rng, again, 16) if count % 4 == 0 else again)
            count -= 1


CHAINS = (fans, after_p4, not_kept, fewer_types, refused_again, most_lines, first_refused, drawn)
