"""Cases about the new table: the room for it, its numbering and its values, many lines, and where its lines come from."""
import itertools

from brackets import A, CHAIN, children, shape
from case_form import MOST_RECORDS, Case
from case_parts import around, bracketed, by_hand, each_shape, far_more, lent, many, room, table
from case_samples import leases


def rooms():
    """Every room around the lines of a table: nine lines, four, one, and one line for each of two rows."""
    yield from around(leases(), past=(0, 1, 12, 23))
    yield from around(bracketed("1[3[4] 3 5]", "3[4[5]]", "2 1 1"), past=(0, 23))
    yield from around(bracketed("7", "7", "1"), past=(0, 1, 23))
    yield from around(bracketed("2 2 3", "2[3]", "2 0"), past=(0, 23))
    yield room(leases(), 9, 0, MOST_RECORDS)
    yield room(leases(), MOST_RECORDS, 0, 9)


def most_lines():
    """4,096 lines and one more, from one table that goes up and down and from one of two types that multiply; room for them, for
    one less, and for one more, which no call uses."""
    up_and_down = "1[2[1[2[1[2]] 2]] 2%s]"
    beneath = f"1[{many(2, 15)}]"
    figures = "1 15 15 225 225 3375 225 15, copies 0 0 14 210 224 3360 210 0, different 1 15 1 15 1 15 15 15"
    full = bracketed(beneath, up_and_down % "", figures)
    over = bracketed(beneath, up_and_down % " 1", "refused 8 0")
    product = bracketed(f"1[{many(2, 64)}{many(3, 63)}]", "2[3]", "64 4032")
    past_product = bracketed(f"1[{many(2, 64)}{many(3, 63)}] 1[2]", "2[3]", "refused 8 0")
    yield lent(full, 0, 0, 0)
    yield lent(product, 1, 23, 4)
    for case, (records, places) in itertools.product((full, product), ((4095, 4096), (4096, 4095), (4095, 4095), (0, 4096), (4096, 0))):
        yield room(case, records, 23, places)
    for case, (records, places) in itertools.product((over, past_product), ((4096, 4096), (4097, 4097), (MOST_RECORDS, MOST_RECORDS), (0, 0), (9, 9))):
        yield room(case, records, 0, places)


def most_rows():
    """1,024 rows: leases of 147 lessees, in several shapes; one tree a row; one row over all others. Then 1,025."""
    lessees = f"1[{'2[3[4 4] 3[4] 3] ' * 146}2]"
    for case in each_shape(lessees, {"3[2 4]": "438 438 438", "4[3[2]]": "438 438 438", "1[2[3[4]]]": "1 147 438 438"}):
        yield lent(case)
    whole = bracketed(lessees, "3[2 4]", "438 438 438")
    yield lent(whole, -1, 23, 0)
    yield lent(whole, 0, 0, -1)
    yield lent(bracketed(many(1, 1024), "1", "1024, copies 0, different 1024"))
    yield lent(bracketed(f"1[{many(2, 1023)}]", "1[2]", "1 1023"), 0, 0, 0)
    yield lent(bracketed(f"1[{many(2, 1023)}]", "2[1]", "1023 1023"), 0, 23, 1)
    yield far_more(bracketed(many(1, 1025), "1", "refused 1 0"))


def many_lines():
    """Tables that ask for more lines than any room has, by depth (15,625,000,000,000,000 and more) and by breadth; and one whose rows
    have 15 entries beneath them to look for and nothing closest."""
    halves = f"1[{many(2, 500)}{many(3, 500)}]"
    deep = bracketed(halves, "2[3[2[3[2[3]]]]]", "refused 8 0")
    for records, places in ((0, 0), (7, 9), (MOST_RECORDS - 1, MOST_RECORDS)):
        yield room(deep, records, 11, places)
    yield room(bracketed(halves, f"2[{many(3, 15)}]", "refused 8 0"), 100, 0, MOST_RECORDS)
    yield room(bracketed(halves, "1[2 3[2[3[2[3]]]]]", "refused 8 0"), MOST_RECORDS, 0, 2000)
    yield far_more(bracketed(f"1[{many(2, 1023)}]", "2[1[2[1[2[1]]]]]", "refused 8 0"))
    others = " ".join(map(str, range(3, 18)))
    yield lent(bracketed(f"1[2 {others}] 1[{many(2, 1006)}]", f"2[{others}]", " ".join(["1007"] + ["1"] * 15)))


def values():
    """Every sign and every byte of a value, each in a table of its own and all of them in one."""
    some = (0, 1, -1, 127, 128, 255, 256, -256, 2**31, -2**31, 2**32, 2**63 - 1, -2**63, 0x0102030405060708, -0x0102030405060708)
    for value in some:
        yield lent(bracketed("1[2 3]", "3[2]", "1 1", [value]))
    for turned in range(3):
        yield lent(bracketed(A, "3[2 4]", "3 3 3", some[turned:] + some[:turned]))
    yield lent(bracketed(A, "4[3[2[1]]]", "3 3 3 3", [-1, -2**63, 2**63 - 1]))


def large_numbers():
    """The largest labels, and rows, components and entries that take two bytes."""
    yield from map(lent, each_shape("96[97 98[99]]", {"99[98[97] 96]": "1 1 1 1", "97[99]": "1 1", "96[97[98[99]]]": "1 1 1 1"}))
    wide = f"1[{many(2, 257)}3 4]"
    yield from map(lent, each_shape(wide, {"1[2 3]": "1 257 1", "3[2 4]": "1 257 1", "2[4]": "257 257", "3[4 2[3]]": "1 1 257 257"}))


def numbering():
    """Positions are counted on across child entries, and rows stand in table order within one entry."""
    yield from map(lent, each_shape("1[2 3 2 3 3 2]", {
        "1[2 3]": "1 3 3", "1[3 2]": "1 3 3", "1[3 2 3]": "1 3 3 3", "2[3]": "3 9", "3[2[1]]": "3 9 9", "1[2[3] 3[2]]": "1 3 9 3 9"}))
    yield from map(lent, each_shape("1[2[3 4] 2[4 3] 2[3]]", {
        "2[3 4]": "3 3 2", "2[4 3]": "3 2 3", "4[3[2] 2]": "2 2 2 2", "1[4[3] 2[3] 3]": "1 2 2 3 3 3", "3[4[1] 1[2] 2]": "3 2 2 3 9 3"}))


def several_trees():
    yield from map(lent, each_shape("1[2] 1[3]", {
        "2[3]": "verdict 1 1 3, 1 0", "3[2]": "1 0", "1[2 3]": "verdict 2 1 2, 2 1 1", "1[2[1]]": "verdict 1 2 2, 2 1 1", "2[3[1]]": "1 0 0"}))
    yield from map(lent, each_shape("1[2] 3[4]", {
        "3[4]": "verdict 0, 1 1", "2[4]": "verdict 1 1 3, 1 0", "1[3]": "verdict 1 1 2, 1 0", "4[1]": "verdict 1 1 0, 1 0",
        "1[3[4] 2]": "1 0 0 1"}))
    yield from map(lent, each_shape("1 2 1", {
        "1": "2", "1[1]": "verdict 0, 2 2", "1[1[1]]": "verdict 0, 2 2 2", "1[2]": "verdict 1 1 1, 2 0", "2[1]": "verdict 1 1 0, 1 0"}))
    yield from map(lent, each_shape("1[2 3] 1[2] 1[3 2]", {
        "1[2 3]": "verdict 0, 3 3 2", "2[3]": "verdict 0, 3 2", "3[2]": "verdict 1 1 4, 2 2", "3[1[2]]": "verdict 1 1 3, 2 2 2"}))
    yield from map(lent, each_shape("1[2 3] 4[5[6]]", {
        "2[3]": "verdict 0, 1 1", "5[6]": "verdict 0", "6[5[4]]": "verdict 0, 1 1 1", "2[3 5]": "verdict 1 2 4, 1 1 0", "5[6 4[2]]": "1 1 1 0"}))


def deep_chains():
    one = "1 1 1 1 1 1"
    yield from map(lent, each_shape(CHAIN, {
        CHAIN: f"verdict 0, {one}", "6[5[4[3[2[1]]]]]": f"verdict 0, {one}", "6[6[6[6[6[6]]]]]": f"verdict 0, {one}",
        "6[1 2 3 4 5]": f"verdict 0, {one}", "3[4[5[6]] 2[1]]": f"verdict 0, {one}", "1[6[2[5[3[4]]]]]": f"verdict 2 1 3, {one}",
        "1[6 5 4 3 2]": "verdict 2 1 2"}))
    yield from map(lent, each_shape("1[2[3[4[5[6] 5]]]]", {"4[5[6]]": "verdict 0", "5[6[1]]": "verdict 3 0 2", "6[5]": "verdict 1 1 6"}))
    yield from map(lent, each_shape("1[2[3[4[5[6]]]] 2[3[4[5]]] 2[3[4]]]", {
        CHAIN: "verdict 0, 1 3 3 3 2 1", "6[5[4[3[2[1]]]]]": f"verdict 1 1 9, {one}", "6[4]": "verdict 1 1 8",
        "2[3[4[5[1]]]]": "verdict 3 0 4, 3 3 3 2 2", "5[6[5]]": "2 1 1", "4[2[6]]": "3 3 1"}))
    yield from map(lent, each_shape("1[2 2 2]", {"2[1[2[1[2[1]]]]]": "3 3 9 9 27 27, copies 0 2 6 8 24 26", "1[2[1[2[1[2]]]]]": "1 3 3 9 9 27"}))


def most_entries():
    """16 entries: beside each other, in chains, of one type; and 17."""
    flat = " ".join(map(str, range(3, 18)))
    ones = " ".join(["1"] * 16)
    yield from map(lent, each_shape(f"1[2 {flat}]", {
        f"2[{flat}]": f"verdict 0, {ones}", "2[3[4[5[6[7]]]] 8[9[10[11[12]]]] 13[14[15[16[17]]]]]": f"verdict 0, {ones}",
        f"17[{many(2, 15)}]": ones, f"2[{flat} 1]": "refused 5 0"}))
    yield from around(bracketed(f"1[2 {flat} 17 17]", f"2[{flat}]", "1 1 1 1 1 1 1 1 1 1 1 1 1 1 1 3"))
    yield lent(bracketed("1[2 2]", f"1[{many(2, 15)}]", " ".join(["1"] + ["2"] * 15)))
    # the last of 64 types
    yield lent(by_hand(Case(table(children(64)), shape((1, (1,)), (2, (1, 63)), (2, (1, 62)), (3, (1, 63)))), "1 1 1 1"))


def one_type_twice():
    """Two entries of one type, beside each other, one under the other, and apart. Within its type a row is closest to itself alone."""
    yield from map(lent, each_shape("1[2 2 3]", {
        "2[2]": "2 2", "2[2 2]": "2 2 2", "2[3 3]": "2 2 2", "1[2 2]": "1 2 2", "3[2 2]": "1 2 2", "2[3[2]]": "2 2 4", "1[2[3] 2[3]]": "1 2 2 2 2"}))


def nothing_closest():
    """Rows without closest rows, so that an entry has fewer lines than its type has rows, or none; and entries under one with none."""
    yield from map(lent, each_shape("1[2 3] 1[3] 1[3 3]", {"2[3]": "1 1", "2[1[3]]": "1 1 1", "3[2]": "4 1", "3[2[3]]": "4 1 1"}))
    yield from map(lent, each_shape("2 3", {"2[3[2]]": "1 0 0", "3[2[3[2]]]": "1 0 0 0", "2[3 3[3]]": "1 0 0 0", "2[2 3]": "1 1 0"}))
    yield from map(lent, each_shape("1[2[3[4] 3] 2[3[4]] 2]", {"4[3]": "2 2", "3[4]": "3 2", "4[2]": "2 2", "2[4]": "3 2", "2[3[4[2]]]": "3 3 2 2"}))
    yield from around(bracketed("1[2 3] 1[3] 1[3 3]", "2[3]", "1 1"))


LIMITS = (most_lines, most_rows, most_entries)
OTHERS = (rooms, many_lines, values, large_numbers, numbering, several_trees, deep_chains, one_type_twice, nothing_closest)
