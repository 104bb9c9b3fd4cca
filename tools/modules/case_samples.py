"""Document 01's samples P1 to P10, with its values, and what it says of them."""
import itertools, sys

import paper01, samples as folders
from brackets import A
from case_form import Case, adorning
from case_parts import around, bracketed, each_shape, far_more, lent, nested_table

P4 = """\
verdict 0
1 0 lease 2 200
1.1 1 lessee 1 100
1.2 2 asset 3 300
1.3 2 asset 4 400
2 0 lease 5 500
2.1 1 lessee 1 100
2.2 2 asset 6 600
3 0 lease 8 800
3.1 1 lessee 7 700
edge 1 1 1 1 2
edge 2 0 2 1 1
"""

# row k has value 100 × k
VALUES = range(0, 1000, 100)

P8_TABLE = "1[2[3] 2[4]]"

# these folders are about what the program prints, which no call gives, or reports, or reads; case_verdicts.py has the hidden ones
OF_TEXT = "labels_22a", "labels_22b", "cut_off", "label_100", "hidden_by_1", "hidden_by_3", "source8_missing", "both_trees"


def expect(what, hand, said):
    if hand != said:
        sys.exit(f"{what}: {hand} by document 01, {said} by paper01.py")


def leases():
    """P4, for which the listing is document 01's too."""
    case = bracketed(A, "3[2 4]", "verdict 0, 3 3 3, copies 0 1 0, different 3 2 3", VALUES)
    expect("P4", P4, folders.listing(case.table, case.shape))
    return case


def meetings(text, wanted_rows, wanted_types):
    """P3 and P8: where rows meet, and where their types meet and at what distance."""
    rows = paper01.read_rows(nested_table(text))
    kinds = paper01.types_of_rows(rows)
    for (a, b), hand in wanted_rows.items():
        expect(f"rows {a} and {b} of {text}", hand, paper01.meet(rows[a].dewey, rows[b].dewey))
    for (a, b), hand in wanted_types.items():
        pairs = itertools.product(*([r.dewey for r, k in zip(rows, kinds) if k == kinds[x]] for x in (a, b)))
        level = max(paper01.meet(*pair) for pair in pairs)
        expect(f"the types of rows {a} and {b} of {text}", hand, (level, len(kinds[a]) + len(kinds[b]) - 2 * level))


def summaries_of_a():
    """P2: the number of types, and the children counts of lessee, lease and asset."""
    reply, summaries = adorning(nested_table(A), 65, 6)
    expect("P2", (4, [(2, 2), (1, 2), (0, 2)]), (reply[2], [s[4:] for s in summaries[1:4]]))


def samples():
    """P1, P4 to P7, P9 and P10, each with just the room, with more, and with far more; what P2, P3 and P8 say is tested."""
    summaries_of_a()
    meetings(A, {(3, 4): 3, (3, 6): 2, (3, 8): 1}, {(1, 3): (2, 2)})
    meetings(P8_TABLE, {}, {(2, 4): (1, 4)})
    nothing = bracketed("", "3[2 4]", "refused 7 0")
    yield from around(nothing)
    yield far_more(nothing)
    # P2 with a summary for each type, with one too few, and with more than enough
    for summaries in (4, 3, 65):
        yield lent(bracketed(A, "3[2 4]", "verdict 0", VALUES))._replace(summaries=summaries)
    lost = "verdict 1 1 8, 3 3 3, rows 3 3 2, copies 0 1 2, different 3 2 1"
    marked = [leases(), *each_shape(A, {"4[3[2]]": lost, "1[2 4]": "verdict 2 1 2, 1 2 3"}, VALUES),
              bracketed("1[3[4] 3 5]", "3[4[5]]", "verdict 3 0 2, 2 1 1", VALUES),
              *each_shape(A, {"3[3]": "verdict 0, 3 3", "1[3 3]": "verdict 2 1 2, 1 3 3"}, VALUES),
              bracketed("2 3", "2[3]", "verdict 1 1 1, 1 0, rows 1 1, copies 0 0, different 1 0", VALUES)]
    for case in marked:
        yield lent(case, 0, 0, 0)
        yield lent(case)
        yield far_more(case)


def meeting_at_1():
    """P8's table with shapes of ours: the label lists agree further than the rows meet."""
    yield from map(lent, each_shape(P8_TABLE, {
        "3[4]": "verdict 0, 1 1", "4[3]": "verdict 0", "1[3 4]": "verdict 0", "2[3 4]": "verdict 2 1 2, 2 1 1", "2[4 3]": "verdict 2 1 2",
        "3[2[4]]": "verdict 1 1 3, 1 1 0", "4[2[3]]": "verdict 1 1 1", "3[1[4]]": "verdict 0", "1[2[3] 4]": "verdict 2 1 3",
        "4[3 2]": "1 1 1"}, VALUES))


def sample_files():
    """The tables and shapes of samples/ but the later ones, with the program's room and with 4,096 lines."""
    for name, table, shape, levels in folders.samples():
        for room in (folders.ROOM, paper01.MOST_LINES) if name not in OF_TEXT + folders.LATER and levels == 6 else ():
            yield Case(table, shape, room=(room, 0, room))


SAMPLES = (samples, meeting_at_1, sample_files)
