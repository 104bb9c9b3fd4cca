"""Cases about how many partners there are: for each edge the least and the greatest number of children under a row of the parent entry's type, and
of parents of a row of the entry's own."""
from brackets import A, children, shape
from case_parts import bracketed, by_hand, each_shape, each_table, many, nested_table, table
from case_widths import WIDE, widened


def trees(*pairs):
    """A tree for each pair of numbers: so many rows of label 2, then so many of label 3."""
    return " ".join(f"1[{many(2, twos)}{many(3, threes)}]" for twos, threes in pairs)


def turned(*pairs):
    """The same with the rows of label 3 before those of label 2."""
    return " ".join(f"1[{many(3, threes)}{many(2, twos)}]" for twos, threes in pairs)


def each_verdict():
    """All edges have their numbers whatever the verdict, those behind the entry or the pair that it names too."""
    yield from each_shape(A, {
        "3[2 4]": "verdict 0, edges 1 1 1 2 / 0 2 1 1", "1[2[3[4]]]": "verdict 0, edges 2 2 1 1 / 1 2 1 1 / 0 2 1 1",
        "4": "verdict 0, edges", "4[3[2[1]]]": "verdict 1 1 8, edges 1 1 0 2 / 1 1 1 2 / 1 1 2 2", "2[4]": "verdict 0, edges 0 3 1 1",
        "4[2]": "verdict 1 1 7, edges 1 1 0 3", "1[2 4]": "verdict 2 1 2, edges 2 2 1 1 / 3 3 1 1",
        "1[4 2[3]]": "verdict 2 1 2, edges 3 3 1 1 / 2 2 1 1 / 1 2 1 1"})
    yield from each_shape("1[3[4 6] 3 5]", {
        "3[4[5]]": "verdict 3 0 2, edges 0 1 1 1 / 1 1 1 1", "1[3[4[5]] 6]": "verdict 3 1 3, edges 2 2 1 1 / 0 1 1 1 / 1 1 1 1 / 1 1 1 1"})
    yield bracketed("1[2 3 4 4] 1[3] 1[2 4]", "2[3 4]", "verdict 1 1 6, edges 0 1 0 1 / 1 2 1 1")


def unshown():
    """Rows that no line shows count: in table A lessee 7 and lease 8; and those that alone have the least number and the greatest."""
    yield from each_shape(A, {"4[3[2]]": "edges 1 1 0 2 / 1 1 1 2, different 3 2 1", "4[3[2[3]]]": "edges 1 1 0 2 / 1 1 1 2 / 1 2 1 1"})
    yield bracketed("1[2[3] 4] 1[2[3 3 3]] 1[2]", "4[2[3]]", "verdict 1 1 5, edges 1 1 0 1 / 0 3 1 1, 1 1 1")


def without_any():
    """0 as the least number: one way, the other, both; and types that do not meet, above and beneath those that do."""
    yield from each_table("2[3]", {
        trees((1, 2), (1, 0), (1, 1)): "verdict 0, edges 0 2 1 1", trees((1, 2), (0, 1), (1, 1)): "verdict 1 1 5, edges 1 2 0 1",
        trees((1, 0), (1, 1), (0, 1)): "verdict 1 1 6, edges 0 1 0 1", trees((0, 4), (5, 0)): "verdict 1 1 1, edges 0 0 0 0",
        "2 3": "verdict 1 1 1, edges 0 0 0 0"})
    yield from each_shape("2[3] 4[5 5]", {
        "2[3 4]": "edges 1 1 1 1 / 0 0 0 0", "2[4[5]]": "edges 0 0 0 0 / 2 2 1 1", "4[2 3]": "edges 0 0 0 0 / 0 0 0 0",
        "5[4[2] 3]": "edges 1 1 2 2 / 0 0 0 0 / 0 0 0 0"})


def of_one_type():
    """An entry of its parent's type, whose rows have themselves alone; two entries of one type, under one entry and under two."""
    yield from each_shape(A, {
        "3[3]": "verdict 0, edges 1 1 1 1", "1[3[3[3]]]": "edges 3 3 1 1 / 1 1 1 1 / 1 1 1 1", "1[3 3]": "edges 3 3 1 1 / 3 3 1 1",
        "3[4[3]]": "edges 0 2 1 1 / 1 1 0 2", "2[3 4[3]]": "edges 1 2 1 1 / 0 3 1 1 / 1 1 0 2", "4[3[4[3]]]": "edges 1 1 0 2 / 0 2 1 1 / 1 1 0 2"})
    yield bracketed(many(1, 3), "1[1]", "verdict 0, edges 1 1 1 1")


def which_run():
    """Many runs, of which the first, the last or one in the middle alone has the least number, or the greatest: both ways, and in one tree."""
    for least, greatest in ((0, 29), (29, 0), (14, 15)):
        counts = [{least: 1, greatest: 5}.get(at, 2) for at in range(30)]
        text = trees(*((1, count) for count in counts))
        yield from each_shape(text, {"2[3]": "edges 1 5 1 1", "3[2]": "edges 1 1 1 5"})
        yield bracketed(f"9[{text}]", "2[3 9]", "edges 1 5 1 1 / 1 1 30 30")
    # a run without a child, or without a parent, first and last; and what such a run has of the other is no number of it
    for twos, threes, hand in ((5, 0, "edges 0 3 2 2"), (0, 4, "edges 3 3 0 2")):
        for text in (trees((twos, threes), (2, 3)), trees((2, 3), (twos, threes)), turned((2, 3), (twos, threes), (2, 3))):
            yield bracketed(text, "2[3]", hand)
    yield bracketed(trees((2, 3), (0, 4), (5, 0), (1, 1)), "2[3]", "edges 0 3 0 2")


def children_first():
    """Children that stand before their parents in the table, between them, and deeper."""
    yield from each_table("2[3]", {
        turned((1, 1), (1, 2)): "edges 1 2 1 1", "1[3 2 3 2]": "edges 2 2 2 2", "1[3 3 2 3] 1[2 3 2]": "edges 1 3 1 2",
        "1[4[3 3] 2] 1[4[3] 2 2]": "edges 1 2 1 2", "1[3 4[2 2]] 1[3 3 4[2]]": "edges 1 2 1 2"})


def grown(level, last):
    """A chain of labels down to the last level that branches once on each level, the deepest first; one more label beneath the first branch."""
    chain = f"{last}"
    for label in range(last - 1, level - 1, -1):
        chain = f"{label}[{chain}]"
    return f"{level}[{grown(level + 1, last)}] {chain}" if level < last - 1 else f"{level}[{last} {last + 1}] {chain}"


def every_level(last=6):
    """Edges that meet on each level, down to the last."""
    above = range(1, last)
    up = " / ".join(f"1 1 1 {last - k}" for k in above)
    yield from each_shape(grown(1, last), {
        f"{last}[{' '.join(map(str, above))} {last + 1} {last}]": f"edges {up} / 0 1 1 1 / 1 1 1 1",
        **{f"{k}[{last}]": f"edges 1 {last - k} 1 1" for k in above}, f"{last + 1}[{last}]": "edges 1 1 0 1",
        f"1[{last + 1}]": "edges 0 1 1 1"}, levels=WIDE if last > 6 else 6)


def deepest():
    """The same down to level 8."""
    yield from every_level(WIDE)


def most_entries():
    """16 entries: each edge has other numbers; three of them alone, in either half, have a second run; the last ones alone lack a parent; and
    edges that go from the first half to the second."""
    some = range(1, 16)
    flat = " ".join(str(e + 2) for e in some)
    shown = "".join(many(e + 2, e) for e in some)
    yield bracketed(f"1[2 2 2 {shown}]", f"2[{flat}]", f"edges {' / '.join(f'{e} {e} 3 3' for e in some)}")
    more = {1: 4, 8: 5, 15: 6}
    second = "".join(many(e + 2, times) for e, times in more.items())
    numbers = (f"1 {more[e]} 1 2" if e in more else "0 1 1 1" for e in some)
    yield bracketed(f"1[2 {flat}] 1[2 2 {second}]", f"2[{flat}]", f"edges {' / '.join(numbers)}")
    for lacking in ((8, 15), (15,), (7, 8)):
        numbers = ("1 1 0 1" if e in lacking else "1 1 1 1" for e in some)
        beside = " ".join(str(e + 2) for e in lacking)
        yield bracketed(f"1[2 {flat}] 1[{beside}]", f"2[{flat}]", f"verdict 1 {lacking[0]} 18, edges {' / '.join(numbers)}")
    yield bracketed(
        "1[2 2[3[4 4 4[5[6 6]]]] 7 7 7[8[9 9[10] 9]] 11[12 12[13[14[15 16 16 16]]]]]", "1[2[3[4[5[6]]]] 7[8[9[10]]] 11[12[13[14[15 16]]]]]",
        "verdict 0, edges 2 2 1 1 / 0 1 1 1 / 3 3 1 1 / 0 1 1 1 / 2 2 1 1 / 3 3 1 1 / 0 1 1 1 / 3 3 1 1 / 0 1 1 1 / 1 1 1 1 / 2 2 1 1 / 0 1 1 1 / "
        "1 1 1 1 / 1 1 1 1 / 3 3 1 1")


def most_rows():
    """1,024 rows: 1,023 children of one row and parents of one, 1,022 beside it, 511 of either; numbers around 256; 256 runs."""
    yield from each_shape(f"1[{many(2, 1023)}]", {"1[2]": "edges 1023 1023 1 1", "2[1]": "edges 1 1 1023 1023"})
    yield from each_shape(f"1[2 {many(3, 1022)}]", {"2[3]": "edges 1022 1022 1 1", "3[2]": "edges 1 1 1022 1022", "1[3 2]": "edges 1022 1022 1 1 / 1 1 1 1"})
    yield bracketed(f"1[{many(3, 1021)}2] 1", "2[3 1]", "edges 1021 1021 1 1 / 1 1 0 1")
    yield bracketed(trees((511, 511)), "2[3]", "edges 511 511 511 511, refused 8 0")
    yield from each_shape(trees((1, 255), (1, 256), (1, 257)), {"2[3]": "edges 255 257 1 1", "3[2]": "edges 1 1 255 257"})
    yield from each_shape(trees(*[(1, 2)] * 255, (1, 1)), {"2[3]": "edges 1 2 1 1", "3[2 1]": "edges 1 1 1 2 / 1 1 1 2"})


def refused():
    """Zeros, where the same table and shape without the fault have numbers."""
    good = bracketed(A, "3[2 4]", "edges 1 1 1 2 / 0 2 1 1")
    zeros = "edges 0 0 0 0 / 0 0 0 0"
    yield by_hand(good._replace(table=nested_table("1 " * 1025)), f"refused 1 0, {zeros}")
    yield by_hand(good._replace(table=good.table[:-1]), f"refused 2 0, {zeros}")
    yield by_hand(good._replace(table=good.table[24:]), f"refused 3 0, {zeros}")
    yield by_hand(good._replace(table=table(children(65))), f"refused 4 64, {zeros}")
    yield by_hand(good._replace(shape=good.shape[:-1]), "refused 5 0, edges 0 0 0 0")
    yield by_hand(good._replace(shape=good.shape + shape((4, (1, 2)))), f"refused 6 3, {zeros} / 0 0 0 0")
    yield by_hand(good._replace(shape=good.shape + shape((2, (2,)))), f"refused 7 3, {zeros} / 0 0 0 0")


def all_widened():
    """Those that have few rows and are not about runs, widened."""
    for group in (each_verdict, unshown, without_any, of_one_type, children_first, every_level, most_entries):
        yield from map(widened, group())


PARTNERS = (each_verdict, unshown, without_any, of_one_type, which_run, children_first, every_level, most_entries, most_rows, refused, all_widened, deepest)
