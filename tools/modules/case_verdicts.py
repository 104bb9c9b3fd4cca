"""Cases about the verdict: rows without a partner, types that meet elsewhere than on their path, edges that are not full. And about the second
answer, which is yes exactly when no pair of entries would earn a 2."""
import itertools

from brackets import A, children, shape
from case_form import Case
from case_parts import bracketed, by_hand, each_shape, each_table, nested_table, table


def runs():
    """Two runs of rows, each with none, one or both of two types in either order: as two trees, and in one."""
    for one, two in itertools.product(("", "2", "3", "2 3", "3 2"), repeat=2):
        yield bracketed(f"1[{one}] 1[{two}]", "2[3]")
        yield bracketed(f"9[1[{one}] 1[{two}]]", "2[3]")


def without_partner():
    """Verdict 1: partners above, beneath and beside; the first entry decides, and then its first row."""
    yield from each_shape("1[2[3] 4]", {"2[3]": "verdict 0", "3[2]": "verdict 0", "2[4]": "verdict 0", "4[3]": "verdict 0"})
    # the root entry's rows need no partner
    yield from each_shape("1[2 3] 1[2]", {"2[3]": "verdict 0", "3[2]": "verdict 1 1 4"})
    # the first row of a table, the last, and one between
    yield bracketed("1 1[2]", "2[1]", "verdict 1 1 0")
    yield bracketed("1[2] 1", "2[1]", "verdict 1 1 2")
    yield bracketed("1[3[4] 3[4] 3] 1[3]", "4[3]", "verdict 1 1 5")
    # two rows of one entry; two entries, the later with the earlier row; an entry beneath another
    yield bracketed("1[2 3] 1[3] 1[3 3]", "2[3]", "verdict 1 1 4")
    yield from each_shape("1[2 3 4] 1[4] 1[3]", {
        "1[2 3 4]": "verdict 0", "2[3 4]": "verdict 1 1 7", "2[4 3]": "verdict 1 1 5", "1[3[2] 2[4]]": "verdict 1 4 5",
        "1[2[3] 4]": "verdict 1 2 7", "3[2[4]]": "verdict 1 2 5"})
    # a row of the parent's type in the same tree is not enough: it has to be closest
    yield from each_shape("1[2[3 4] 2[4]]", {"2[3 4]": "verdict 0", "3[4]": "verdict 1 1 5"})
    yield from each_shape("1[2[3[4] 3] 2[3[4]] 2]", {"4[3]": "verdict 1 1 4", "4[2]": "verdict 1 1 8", "4[1[2]]": "verdict 2 0 2"})
    # partners far before and far after
    yield from each_shape("1[2 4 4 4[5 5] 4 3] 1[2 4 3]", {
        "2[3]": "verdict 0", "3[2]": "verdict 0", "3[5]": "verdict 0", "5[3]": "verdict 1 1 12"})


def most_rows_judged():
    """1,024 rows, of which the last is the one without a partner."""
    yield bracketed(f"1[{'2 ' * 1022}] 1", "2[1]", "verdict 1 1 1023")


def parents():
    """Types that meet, but not in each tree: beneath another parent some row has no partner. Steps up by one level and by more."""
    yield from each_shape("1[2 3 5 7] 1[2 4 6] 1[2 3 4 5 6 7]", {
        "2[3[5] 4[6]]": "verdict 0", "2[3[6] 4[5]]": "verdict 1 2 8", "2[3[5] 4[5]]": "verdict 1 4 3", "2[3 4[6]]": "verdict 0",
        "2[3 4[5]]": "verdict 1 3 3", "2[3[5 4]]": "verdict 1 3 7", "2[3[5[7]] 4[6]]": "verdict 0", "2[3[5[7]] 4[7]]": "verdict 1 5 4",
        "2[4[6] 3[5[7]]]": "verdict 0", "2[3[5[7]] 4[6] 1]": "verdict 0"})


def apart():
    """Verdict 2: types that meet above the least level of their path, below it, or not at all; the first pair by e, then by f."""
    yield from each_shape("1[2[4] 3[5]]", {
        "1[2[4] 3[5]]": "verdict 0", "4[2[1[3[5]]]]": "verdict 0", "1[2 4 3 5]": "verdict 2 1 2", "1[2 3 4 5]": "verdict 2 1 3",
        "1[2 3 5 4]": "verdict 2 1 4", "1[2 5 3 4]": "verdict 2 1 4", "1[3 2 4 5]": "verdict 2 1 4", "2[4 1[3 5]]": "verdict 2 3 4",
        "2[1[2]]": "verdict 2 0 2", "4[2[4]]": "verdict 2 0 2", "2[4 4]": "verdict 2 1 2"})
    yield bracketed("1[2 3] 1[2 4]", "2[3 4]", "verdict 2 1 2")
    # Dewey components that differ in their second byte alone
    yield bracketed(f"1[2[3] {'2 ' * 255} 2[4]]", "2[3 4]", "verdict 2 1 2")
    # verdict 1 comes first
    yield bracketed(A, "1[2 4[3]]", "verdict 1 3 8")


def unsure():
    """Verdict 3: which of the edges on a path have to be full."""
    yield from each_shape("1[3[4] 3 5]", {
        "1[3[4[5]]]": "verdict 3 1 3", "3[4[1]]": "verdict 3 0 2", "1[3[4[1]]]": "verdict 3 1 3", "3[4 5]": "verdict 0",
        "5[3[4]]": "verdict 0", "3[5[4]]": "verdict 2 0 2"})
    # the row that leaves the edge short is the first, between others, or not there
    yield from each_table("3[4[5]]", {
        "1[3 3[4] 5]": "verdict 3 0 2", "1[3[4] 3 3[4] 5]": "verdict 3 0 2", "1[3[4] 3[4] 5]": "verdict 0"})
    # of two edges of the least level the first has none between it and the fork
    yield bracketed("1[3 4 5] 1[3]", "3[4[5]]", "verdict 0")
    # edges of levels 3, 2 and 1: all full, the first not, the second not, the third not
    yield from each_table("4[5[6[7]]]", {
        "1[2[3[4 5] 6] 7]": "verdict 0", "1[2[3[4 5] 3[4] 6] 7]": "verdict 3 0 2",
        "1[2[3[4 5] 6] 2[3[4 5]] 7]": "verdict 3 0 3", "1[2[3[4 5] 6] 7] 1[2[3[4 5] 6]]": "verdict 0"})
    # edges of levels 2, 1 and 2, likewise
    yield from each_table("3[4[6[7]]]", {
        "1[2[3 4] 5[6 7]]": "verdict 0", "1[2[3 4] 2[3] 5[6 7]]": "verdict 3 0 2",
        "1[2[3 4] 5[6 7]] 1[2[3 4]]": "verdict 0", "1[2[3 4] 5[6 7] 5[6]]": "verdict 0"})
    # edges of levels 2, 3 and 1, likewise
    yield from each_table("3[4[5[6]]]", {
        "1[2[3 4[5]] 6]": "verdict 0", "1[2[3 4[5]] 2[3] 6]": "verdict 3 0 3",
        "1[2[3 4[5] 4] 6]": "verdict 3 0 3", "1[2[3 4[5]] 6] 1[2[3 4[5]]]": "verdict 0"})
    # two branches: all full, an edge of the first not, an edge of the second not
    yield from each_table("3[4[6] 5[7]]", {
        "1[2[3 4 5] 6 7]": "verdict 0", "1[2[3 4 5] 2[3 5] 6 7]": "verdict 3 0 2",
        "1[2[3 4 5] 2[3 4] 6 7]": "verdict 3 0 4"})
    # the edge above the fork is not on the path
    yield bracketed("1[2[3 4 5] 6 7]", "6[3[4 5]]", "verdict 0")


def first_of_several():
    """A pair of one kind before and after one of the other, and verdict 1 before both."""
    yield from each_shape("1[3[4] 3 5]", {
        "1[3[4[5]] 3]": "verdict 3 1 3", "1[3 3[4[5]]]": "verdict 2 1 2", "5[3[4[1] 5]]": "verdict 2 0 4", "3[4[5 3]]": "verdict 1 3 3"})
    yield from each_shape("1[2[3 4 5] 2[3 4] 6 7]", {"3[4 4 5[7]]": "verdict 3 0 4", "3[5[7] 4[3]]": "verdict 3 0 2"})


def most_entries():
    """16 entries, of which the last decide; the last of 64 types."""
    flat = " ".join(map(str, range(3, 18)))
    yield bracketed(f"1[2 {flat}] 1[17]", f"2[{flat}]", "verdict 1 15 18")
    yield bracketed(f"1[2 {flat}]", f"2[{flat[:-2]}16]", "verdict 2 14 15")
    others = "5 6 7 8 9 10 11 12 13 14 15 17"
    yield bracketed(f"1[2 {others} 3[4] 3 16]", f"2[{others} 3[4[16]]]", "verdict 3 13 15")
    for last, hand in ((63, "verdict 0"), (62, "verdict 2 14 15")):
        yield by_hand(Case(table(children(64)), shape((1, (1, 48)), *((2, (1, k)) for k in (*range(49, 63), last)))), hand)


# ---- the second answer
def each_verdict():
    """Every verdict with each second answer that it can have."""
    yield from each_shape(A, {
        "3[2 4]": "verdict 0, yes", "1[2[3[4]]]": "verdict 0, yes", "3[3]": "verdict 0, yes", "4": "verdict 0, yes",
        "4[3[2]]": "verdict 1 1 8, yes", "4[3[2[1]]]": "verdict 1 1 8, yes", "1[2 4[3]]": "verdict 1 3 8, no", "4[3[2[3]]]": "verdict 1 1 8, no",
        "1[2 4]": "verdict 2 1 2, no", "1[3 3]": "verdict 2 1 2, no"})
    yield from each_shape("1[3[4 6] 3 5]", {
        "3[4[5]]": "verdict 3 0 2, yes", "3[4[5] 6]": "verdict 3 0 2, yes", "1[3[4[5]] 6]": "verdict 3 1 3, no", "3[4[5] 5]": "verdict 3 0 2, no"})


def named_elsewhere():
    """A pair that would earn a 2, before and after what the verdict names: the row's entry, and the pair that earns a 3."""
    # the pair before the entry of the row, with it, and after it
    yield from each_shape("1[2 3 5] 1[3 4]", {
        "1[5 5 4[3]]": "verdict 1 4 2, no", "2[3 1[3]]": "verdict 1 1 5, no", "2[3 5 5]": "verdict 1 1 5, no", "2[3 5]": "verdict 1 1 5, yes"})
    # two pairs that would; one that begins with the entry of the pair that earns a 3; and a 3 behind verdict 1, which is no 2
    yield from each_shape("1[3[4] 3 5]", {
        "1[3[4[5]] 3 3]": "verdict 3 1 3, no", "3[4[5[3]]]": "verdict 3 0 2, no", "1[3[4[5]] 4]": "verdict 3 1 3, no",
        "3[4[5 3]]": "verdict 1 3 3, yes", "1[3[4[5]]]": "verdict 3 1 3, yes", "3[4[1 5]]": "verdict 3 0 2, yes"})


def not_met():
    """Types that do not meet: a pair whose path has an edge of level 0 earns a 2 only where its types meet."""
    yield bracketed("2 3", "2[3]", "verdict 1 1 1, yes, 1 0")
    yield from each_shape("2[3] 4[5]", {
        "2[3 4]": "verdict 1 2 2, yes", "2[4[5]]": "verdict 1 1 2, yes", "4[2 5]": "verdict 1 1 0, yes", "4[2 3]": "verdict 1 1 0, no, 1 0 0",
        "2[4[3]]": "verdict 1 1 2, no, 1 0 0"})
    # they do not meet, and the edges of their path have level 1
    yield bracketed("1[2 3] 1[2 4]", "2[3 4]", "verdict 2 1 2, no, 2 1 1")
    yield bracketed("1[2 3] 1[2 4] 1[3]", "2[3 4]", "verdict 1 1 7, no, 2 1 1")


def holds_one_way():
    """`no` does not say that something is made up: of one row of a type nothing is, of two rows something is."""
    yield from each_table("1[2 2]", {"1[2]": "verdict 2 1 2, no, 1 1 1", "1[2 2]": "verdict 2 1 2, no, 1 2 2"})
    yield from each_table("1[2]", {"1[2]": "verdict 0, yes, 1 1", "1[2 2]": "verdict 0, yes, 1 2"})


def last_pair():
    """16 entries, of which the last two would earn a 2, or none: beside verdict 0 or 2, after verdict 1, and after verdict 3."""
    flat = " ".join(map(str, range(3, 16)))
    for last, other, second in ((16, "verdict 2 14 15", "no"), (17, "verdict 0", "yes")):
        yield bracketed(f"1[2 {flat} 16 17]", f"2[{flat} 16 {last}]", f"{other}, {second}")
        yield bracketed(f"1[2 {flat} 16 17] 1[3]", f"2[{flat} 16 {last}]", f"verdict 1 1 18, {second}")
        yield bracketed(f"1[2 {flat} 16 17] 1[{last}]", f"2[{flat} 16 {last}]", f"verdict 1 {14 if last == 16 else 15} 18, {second}")
    others = " ".join(map(str, range(6, 18)))
    for last, second in ((17, "no"), (18, "yes")):
        yield bracketed(f"1[3[4] 3 5 {others} 18]", f"3[4[5] {others} {last}]", f"verdict 3 0 2, {second}")


def most_rows_apart():
    """1,024 rows, of which the last alone decide where two types meet."""
    first = "1[2[3] 2[4]] " * 204
    yield from each_shape(first + "1[2[3 4]]", {"1[3 4]": "verdict 2 1 2, no", "2[3 4]": "verdict 0, yes", "4[3]": "verdict 1 1 2, yes"})
    yield from each_shape(first + "1[2[3] 2]", {"1[3 4]": "verdict 0, yes", "2[3 4]": "verdict 2 1 2, no", "4[3]": "verdict 1 1 1022, yes"})


def refused_to_judge():
    """A refused judging answers no, where the same table and shape without the fault give yes."""
    good = bracketed(A, "3[2 4]", "verdict 0, yes")
    bad_entry = shape((1, (1, 2, 3)), (3, (1, 2)))
    yield by_hand(good._replace(table=nested_table("1 " * 1025)), "refused 1 0, no")
    yield by_hand(good._replace(table=good.table[:-1]), "refused 2 0, no")
    yield by_hand(good._replace(table=good.table[24:]), "refused 3 0, no")
    yield by_hand(good._replace(table=table(children(65))), "refused 4 64, no")
    yield by_hand(good._replace(shape=b""), "refused 5 0, no")
    yield by_hand(good._replace(shape=bad_entry), "refused 6 1, no")
    yield by_hand(good._replace(table=b""), "refused 7 0, no")


LIMITS = (most_rows_judged, most_entries)
OTHERS = (runs, without_partner, parents, apart, unsure, first_of_several)
SECOND = (each_verdict, named_elsewhere, not_met, holds_one_way, last_pair, most_rows_apart, refused_to_judge)
