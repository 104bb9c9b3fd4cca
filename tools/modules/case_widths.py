"""Cases about the two widths: wide tables and shapes by hand, narrow ones widened, and what widening and narrowing answer and leave.

Widening and narrowing are asked of every case. An answer of theirs by hand is a refusal's number and place, or the count of records.
"""
import sys

import case_chains, case_figures, case_lines, case_shapes, case_tables, case_verdicts, paper01, promises, samples as folders
from brackets import shape, with_byte
from case_form import OTHER, Case, to_move
from case_parts import bracketed, each_shape, far_more, lent, many, nested_table, room, table

WIDE = 8
# these folders are about how much of a file the program reads, or about what it prints; the limits of wide files are among the cases by hand
OF_TEXT = "rows8_1024", "bytes8_28673", "entries8_16", "entries8_17", "types_deep"
DEEP = "1[2[3[4[5[6[7[8]]]]]]]"


# ---- narrow cases, widened
def whole(case):
    return len(case.table) % case.row_length == 0 and (len(case.shape) + len(case.again)) % case.entry_length == 0


def widened(case):
    """The case with its table and its shapes widened, whether they are sound or not."""
    shapes = {name: promises.widened_shape(data, 6, WIDE) for name, data in (("shape", case.shape), ("again", case.again))}
    return case._replace(table=promises.widened_table(case.table, 6, WIDE), levels=WIDE, **shapes)


def all_widened(most=200):
    """Those by hand that are about lines, verdicts, the second answer, figures and chains, and have few rows."""
    groups = (*case_lines.OTHERS, *case_verdicts.OTHERS, *case_verdicts.SECOND, *case_figures.FIGURES, *case_chains.CHAINS)
    for group in groups:
        yield from (widened(case) for case in group() if whole(case) and len(case.table) <= most * case.row_length)


# ---- wide tables and shapes
def either_width():
    """What is at a limit, and past it, on eight levels."""
    for group in (*case_tables.OF_EITHER_WIDTH, *case_shapes.OF_EITHER_WIDTH):
        yield from group(WIDE)


def deep_chains():
    """Rows and entries on all eight levels."""
    one = " ".join(["1"] * 8)
    yield from map(lent, each_shape(DEEP, {
        DEEP: f"verdict 0, {one}", "8[7[6[5[4[3[2[1]]]]]]]": f"verdict 0, {one}", "8[8[8[8[8[8[8[8]]]]]]]": f"verdict 0, {one}",
        "8[1 2 3 4 5 6 7]": f"verdict 0, {one}", "4[5[6[7[8]]] 3[2[1]]]": f"verdict 0, {one}", "1[8[2[7[3[6[4[5]]]]]]]": f"verdict 2 1 3, {one}",
        "7[8]": "verdict 0, 1 1", "1[8 7]": "verdict 2 1 2, no, 1 1 1", "8": "verdict 0, 1"}, levels=WIDE))
    yield from map(lent, each_shape("1[2[3[4[5[6[7[8] 7]]]]]]", {
        "6[7[8]]": "verdict 0, 1 2 1", "7[8[1]]": "verdict 3 0 2, 2 1 1", "8[7]": "verdict 1 1 8, 1 1", "7[6[8]]": "2 2 2, copies 0 1 1"}, levels=WIDE))
    yield from map(lent, each_shape("1[2[3[4[5[6[7[8]]]]]] 2[3[4[5[6[7]]]]]]", {
        DEEP: "verdict 0, 1 2 2 2 2 2 2 1", "8[7[6[5[4[3[2[1]]]]]]]": f"verdict 1 1 13, {one}", "2[8]": "verdict 0, 2 1"}, levels=WIDE))
    up_and_down = {"2[1[2[1[2[1[2[1]]]]]]]": "3 3 9 9 27 27 81 81", "1[2[1[2[1[2[1[2]]]]]]]": "1 3 3 9 9 27 27 81"}
    yield from map(lent, each_shape("1[2 2 2]", up_and_down, levels=WIDE))


def last_level():
    """Rows that meet on levels 7 and 8 alone, and rows that differ there alone."""
    siblings = "1[2[3[4[5[6[7[8 8 9] 7[9 8]]]]]]]"
    yield from map(lent, each_shape(siblings, {
        "8[9]": "verdict 0, 3 3", "7[8 9]": "verdict 0, 2 3 2", "9[8[7]]": "verdict 0, 2 3 3", "6[8 9]": "verdict 2 1 2, 1 3 2",
        "8[8]": "verdict 0, 3 3", "8[7[9]]": "verdict 0, 3 3 3"}, levels=WIDE))


def most_rows():
    """1,024 rows on eight levels: 128 chains, in several shapes, with just the room, and with a record or a place short."""
    yield from map(lent, each_shape(f"{DEEP} " * 128, {DEEP: " ".join(["128"] * 8), "8[1]": "128 128", "7[8 6[5]]": "128 128 128 128"}, levels=WIDE))
    full = bracketed(f"{DEEP} " * 128, DEEP, levels=WIDE)
    yield lent(full, 0, 0, 0)
    yield lent(full, -1, 27, 0)
    yield lent(full, 0, 0, -1)
    yield bracketed(f"{DEEP} " * 128 + "1", "8", "refused 1 0", levels=WIDE)


def most_lines():
    """4,096 lines of 28 bytes, and one more."""
    beneath = f"1[{many(2, 15)}]"
    full = bracketed(beneath, "1[2[1[2[1[2]] 2]] 2]", "1 15 15 225 225 3375 225 15", levels=WIDE)
    yield lent(full, 0, 0, 0)
    yield lent(full, -1, 27, 0)
    yield far_more(full)
    yield far_more(bracketed(beneath, "1[2[1[2[1[2]] 2]] 2 1]", "refused 8 0", levels=WIDE))
    # more lines than any room has, eight entries deep
    yield room(bracketed(f"1[{many(2, 20)}{many(3, 20)}]", "2[3[2[3[2[3[2[3]]]]]]]", "refused 8 0", levels=WIDE), 7, 11, 9)


def narrow_read_as_wide():
    """A file of the one width where the other is said: lengths that both take, and lengths that only one takes."""
    for levels, other in OTHER.items():
        for count in (1, 2, 6, 7, 12, 14):
            data = table([((1,) * (k % 6 + 1) if k < 6 else (k - 4,), 1) for k in range(count)], levels=levels)
            yield Case(data, shape((1, (1,)), levels=levels), levels=other)
        for count in (1, 4, 5, 10):
            yield Case(nested_table("1[2]", other), shape((1, (1,)), *[(2, (1, 2))] * (count - 1), levels=levels), levels=other)


def sample_files():
    """The wide tables and shapes of samples/ but the later ones, with the program's room and with 4,096 lines."""
    for name, t, s, levels in folders.samples():
        for most in (folders.ROOM, paper01.MOST_LINES) if name not in OF_TEXT + folders.LATER and levels == WIDE else ():
            yield Case(t, s, room=(most, 0, most), levels=WIDE)


# ---- widening and narrowing
def answered(case, of_table=None, of_shape=None):
    """The case, if paper01.py answers of its table and its shape in the other width what is said by hand, with room enough."""
    calls = {"table": (paper01.move_table, case.table, of_table), "shape": (paper01.move_shape, case.shape, of_shape)}
    for what, (move, data, hand) in calls.items():
        number, place, count = move(data, bytes(40000), OTHER[case.levels], case.levels)[0]
        said = f"refused {number} {place}" if number else f"{count} records"
        if hand not in (None, said):
            sys.exit(f"{what} {data.hex()} in the other width: {hand} by hand, {said} by paper01.py")
    return case


def each_room(case, of_table=None, of_shape=None):
    """Nothing lent, a byte too few, just enough, a byte more and some; for one of them enough and for the other too few."""
    case = answered(case, of_table, of_shape)
    t, s = to_move(case)
    for rooms in ((0, 0), (t - 1, s), (t, s - 1), (t, s), (t + 1, s + 1), (t + 33, s + 21), (t // 2, s // 2)):
        yield case._replace(moved=tuple(max(0, lent) for lent in rooms))


def tables_and_shapes():
    """Sound ones: nothing, one record, values of all bytes, two-byte components, the largest labels, 1,024 rows and 16 entries."""
    for levels in OTHER:
        yield from each_room(Case(b"", b"", levels=levels), "0 records", "refused 5 0")
        yield from each_room(bracketed("7", "7", levels=levels), "1 records", "1 records")
        yield from each_room(bracketed("1[2[3[4 4] 3[4]] 2[3]]", "3[2 4]", values=(-1, 2**63 - 1, -2**63), levels=levels), "9 records", "3 records")
        yield from each_room(bracketed(f"97[{many(98, 257)}99]", "99[98]", levels=levels), "259 records", "2 records")
        flat = " ".join(map(str, range(3, 18)))
        sixteen = bracketed(f"1[2 {flat}]", f"2[{flat}]", levels=levels)
        yield from each_room(sixteen, "17 records", "16 records")
        full = Case(case_tables.trees(1024, levels=levels), sixteen.shape, levels=levels)
        yield from each_room(full, "1024 records", "16 records")


def refused():
    """The refusals before 24, in both widths, with enough lent and with nothing."""
    for levels in OTHER:
        good = bracketed("1[2[3]]", "3[2[1]]", levels=levels)
        t, s, row, entry = good.table, good.shape, good.row_length, good.entry_length
        tables = {
            case_tables.trees(1025, levels=levels): "refused 1 0", t[:-1]: "refused 2 0", t + b"\0": "refused 2 0", t + t: "refused 3 3",
            with_byte(t, row + 1, 1): "refused 3 1", with_byte(t, 2 * row, levels + 1): "refused 3 2"}
        shapes = {
            s + shape(*[(2, (1,))] * 14, levels=levels): "refused 5 0", s[:-1]: "refused 5 0", s + b"\0": "refused 5 0", s + s: "refused 6 3",
            with_byte(s, entry, 1): "refused 6 1", with_byte(s, 2 * entry + 1, levels + 1): "refused 6 2"}
        for (t, of_table), (s, of_shape) in zip(tables.items(), shapes.items()):
            case = answered(good._replace(table=t, shape=s), of_table, of_shape)
            yield case
            yield case._replace(moved=(0, 0))


def too_deep():
    """24: rows on level 7 or 8, first, in between and last; entries whose level alone is too deep, whose type alone, and both. The first of
    several decides, what breaks a rule comes before, and too little lent after."""
    six, seven = "1[2[3[4[5[6]]]]]", "1[2[3[4[5[6[7]]]]]]"
    for text, hand in {six: "6 records", seven: "refused 24 6", DEEP: "refused 24 6", f"{six} {seven}": "refused 24 12",
                       f"{seven} {DEEP}": "refused 24 6", "1[2[3[4[5[6[7[8] 7] 6]]]]] 1": "refused 24 6", f"1 {seven} 1": "refused 24 7"}.items():
        yield from each_room(Case(nested_table(text, WIDE), shape((1, (1,)), levels=WIDE), levels=WIDE), hand, "1 records")
    down = tuple(range(1, 9))
    chain = [(level, (1,)) for level in down]
    for entries, hand in {
            tuple(chain[:6]): "6 records", tuple(chain[:7]): "refused 24 6", tuple(chain): "refused 24 6", ((1, down[:6]),): "1 records",
            ((1, down[:7]),): "refused 24 0", ((1, down),): "refused 24 0", ((1, (1,)), (2, down[:7]), (2, down)): "refused 24 1",
            ((1, (1,)), (2, down[:6]), (2, down)): "refused 24 2", (*chain[:6], (2, down[:7])): "refused 24 6",
            (*chain[:6], (7, down[:7])): "refused 24 6", (*chain[:5], (6, down), *chain[6:]): "refused 24 5"}.items():
        yield from each_room(Case(nested_table(DEEP, WIDE), shape(*entries, levels=WIDE), levels=WIDE), "refused 24 6", hand)
    # what breaks a rule, further on too, comes first
    deep = nested_table(DEEP, WIDE)
    yield answered(Case(deep + table([((3,), 1)], levels=WIDE), levels=WIDE), "refused 3 8")
    yield answered(Case(deep, shape((1, down), (2, (0,)), levels=WIDE), levels=WIDE), "refused 24 6", "refused 6 1")


def there_and_back():
    """A wide file made of a narrow one, and the other way round, so that each narrows or widens to the other."""
    for case in case_lines.numbering():
        yield answered(widened(case), f"{len(case.table) // 24} records", f"{len(case.shape) // 16} records")


WIDE_ONES = (either_width, deep_chains, last_level, most_rows, most_lines, narrow_read_as_wide, sample_files)
MOVES = (tables_and_shapes, refused, too_deep, there_and_back)
