"""Cases about a summary's figures: copies are lines less different source rows, each entry by itself, and a missing row hides none."""
from brackets import A
from case_parts import bracketed, each_shape, each_table, lent, many


def hidden():
    """As many lines as rows, or fewer, and copies all the same: rows that stand in several lines beside rows that stand in none."""
    yield from map(lent, each_shape(A, {
        "4[3]": "3 3, rows 3 3, copies 0 1, different 3 2", "4[3[2[1]]]": "3 3 3 3, rows 3 3 2 1, copies 0 1 2 2, different 3 2 1 1",
        "4[2]": "3 3, rows 3 2, copies 0 2, different 3 1", "4[3[4]]": "3 3 5, rows 3 3 3, copies 0 1 2, different 3 2 3"}))
    # the missing rows are the first of their type, between others, the last, and more than the lines
    yield from map(lent, each_table("2[3]", {
        "1[3 3] 1[2 2 3]": "2 2, rows 2 3, copies 0 1, different 2 1", "1[2 2 3] 1[3 3] 1[2 3]": "3 3, rows 3 4, copies 0 1, different 3 2",
        "1[2 2 3] 1[3]": "2 2, rows 2 2, copies 0 1, different 2 1", "1[2 2 3] 1[3 3 3 3]": "2 2, rows 2 5, copies 0 1, different 2 1"}))
    # copies that stand apart: the lines show two rows in turn
    yield lent(bracketed("1[2 2 3 3 3] 1[2]", "3[2]", "3 6, rows 3 3, copies 0 4, different 3 2"))


def of_one_type():
    """Two entries of one type that show different rows, so that each needs a count of its own; either of them comes first."""
    yield from map(lent, each_shape(A, {
        "3[4[3]]": "3 3 3, rows 3 3 3, copies 0 0 1, different 3 3 2", "2[3 4[3]]": "2 3 3 3, copies 0 0 0 1, different 2 3 3 2",
        "2[4[3] 3]": "2 3 3 3, copies 0 0 1 0, different 2 3 2 3", "4[3[4[3[4[3]]]]]": "3 3 5 5 9 9, copies 0 1 2 3 6 7, different 3 2 3 2 3 2"}))
    # no row that the one shows stands in a line of the other
    yield lent(bracketed("1[2 3 3] 1[3 4 4]", "1[2[3] 4[3]]", "2 1 2 2 2, rows 2 1 3 2 3, copies 0 0 0 0 1, different 2 1 2 2 1"))


def most_entries():
    """16 entries: each has other figures than the rest, and as many lines as rows; the last two alone copy; the last two alone lack rows."""
    some = range(1, 16)
    shown, missing = ("".join(many(k + 2, times * k) for k in some) for times in (1, 2))
    lines, copies, different = (" ".join(map(str, x)) for x in ((3, *(3 * k for k in some)), (0, *(2 * k for k in some)), (3, *some)))
    flat = " ".join(str(k + 2) for k in some)
    yield lent(bracketed(f"1[2 2 2 {shown}] 1[{missing}]", f"2[{flat}]", f"{lines}, rows {lines}, copies {copies}, different {different}"))
    first = " ".join(map(str, range(3, 15)))
    ones, noughts = many(1, 13), many(0, 13)
    yield lent(bracketed(f"1[2 2 {first} 15]", f"1[{first} 2[15 1]]", f"{ones}2 2 2, rows {ones}2 1 1, copies {noughts}0 1 1, different {ones}2 1 1"))
    lacking = f"{ones}1 1 1, rows {ones}1 2 3, copies {noughts}0 0 0, different {ones}1 1 1"
    yield lent(bracketed(f"1[2 {first} 15 16 17] 1[16 17 17]", f"2[{first} 15 16[17]]", lacking))


def most_rows():
    """1,024 rows: the first and the last stand in every line of an entry; those of a type are missing but for the last, which stands in every
    line."""
    yield lent(bracketed(f"1[{many(2, 1022)}3]", "2[1 3]", "1022 1022 1022, rows 1022 1 1, copies 0 1021 1021, different 1022 1 1"))
    yield lent(bracketed(f"1[{many(3, 511)}] 1[{many(2, 510)}3]", "2[3]", "510 510, rows 510 512, copies 0 509, different 510 1"))


def most_lines():
    """4,096 lines, most of them copies; and more lines, of which there are no figures."""
    shape = "3[2[1 1 1 3]]"
    yield lent(bracketed(f"1[{many(2, 819)}3]", shape, "1 819 819 819 819 819, copies 0 0 818 818 818 818, different 1 819 1 1 1 1"))
    yield lent(bracketed(f"1[{many(2, 820)}3]", shape, "refused 8 0"))


FIGURES = (hidden, of_one_type, most_entries, most_rows, most_lines)
