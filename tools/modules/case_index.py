"""Cases about an index beside the table: what the builder answers and leaves, and what judging, reshaping and summarising do with two lists that are
the table's, or are not.

The builder is lent as many places as the lists have. An answer by hand is of the builder both lists, with `-` for no row and a stroke between them
(`1 1 2 / 2 - -`), or a refusal; of judging with the lists it is a verdict or a refusal (`refused 15 3`).
"""
import sys

import case_figures, case_lines, case_partners, case_samples, case_verdicts, cases, indexed, paper01
from brackets import A, CHAIN, children, nested, shape, with_byte
from case_draws import Draws
from case_form import MOST_PLACES, OTHER, Case
from case_parts import bracketed, lent, many, nested_table, table
from case_widths import DEEP, WIDE, widened
from indexed import NO_ROW

LAST, NEXT = 0, 1
# places more than there are rows in either list: enough, and too few
ENOUGH, SHORT = ((0, 0), (1, 0), (0, 1), (5, 9)), ((-1, 0), (0, -1), (-1, -1), (-9, 0), (0, -9), (20, -1), (-1, 20))
# what lies past the rows in a list that is lent for reading
REST = (0, NO_ROW, 1, 9, 1024, 5, 5, 40000) * 10


# ---- lists, and answers by hand
def lists_of(case):
    """The lists of the case's table, which keeps the row rules."""
    return indexed.index_of(paper01.read_rows(case.table, case.levels))


def with_room(case, more=(0, 0)):
    """The case with its table's lists and so many places more, or fewer."""
    both = ((*numbers, *REST)[:max(0, len(numbers) + k)] for numbers, k in zip(lists_of(case), more))
    return case._replace(index=tuple(both))


def changed(case, *changes):
    """The case with some places of its lists changed: of which list, at which row, to what."""
    both = [list(numbers) for numbers in case.index or lists_of(case)]
    for which, row, value in changes:
        both[which][row] = value
    return case._replace(index=tuple(map(tuple, both)))


def expect(case, hand, said):
    if hand != said:
        sys.exit(f"table {case.table.hex()}, shape {case.shape.hex()}, lists {case.index}: {hand} by hand, {said} by indexed.py")
    return case


def refused(number, place, *_):
    return f"refused {number} {place}" if number else None


def numbered(*both):
    """Two lists in words."""
    return " / ".join(" ".join("-" if x == NO_ROW else str(x) for x in numbers) for numbers in both)


def built_to(case, hand):
    """The case, if indexed.py builds both lists as they are said by hand, or refuses so."""
    reply, *both = indexed.build_index(case.table, *([7777] * len(numbers) for numbers in case.index), case.levels)
    return expect(case, hand, refused(*reply) or numbered(*(numbers[:reply[2]] for numbers in both)))


def judged_to(case, hand):
    """The case, if indexed.py says so of judging with its lists."""
    answer = indexed.judge_with_index(case.table, case.shape, *case.index, case.levels)
    return expect(case, hand, refused(*answer) or " ".join(map(str, ("verdict", *answer[2]))))


def first_type(rows, levels):
    """A case of rows, (Dewey number, label), and of the shape of their first row's type."""
    return Case(table(rows, levels=levels), shape((1, (rows[0][1] if rows else 1,)), levels=levels), levels=levels)


def of_text(text, levels):
    return first_type(nested(text), levels)


# ---- built
BUILT = {
    A: "8 6 4 3 4 6 6 8 8 / - 7 5 4 6 8 - - -", "7": "0 / -", "1 1 1": "0 1 2 / 1 2 -", "1 2 1 2": "0 1 2 3 / 2 3 - -",
    "1[2] 1[2] 1": "1 1 3 3 4 / 2 3 4 - -", CHAIN: "5 5 5 5 5 5 / - - - - - -",
    # one label on several levels, and beneath rows of several types, is of several types
    "1[1[1[1]] 1]": "4 3 3 3 4 / - 4 - - -", "1[3] 2[3] 1[3]": "1 1 3 3 5 5 / 4 5 - - - -",
    # up by one level, by several, and to the next tree from the deepest
    "1[2[3] 2 2[3 3] 4[3]]": "8 2 2 3 6 5 6 8 8 / - 3 5 4 - 6 - - -",
    "1[2[3[4[5[6 6]]]]] 1[2[3[4[5[6]]]]]": "6 6 6 6 6 5 6 12 12 12 12 12 12 / 7 8 9 10 11 6 12 - - - - - -",
    # several trees, of which the first and the last are one row
    "5 6[5[5]] 6 5": "0 3 3 3 4 5 / 5 4 - - - -"}


def builds():
    """Both lists by hand, at both widths, with just the places, with more, and one short."""
    for levels in OTHER:
        for at, (text, hand) in enumerate(BUILT.items()):
            case = of_text(text, levels)
            yield from (built_to(with_room(case, more), hand) for more in (ENOUGH if text == A else ENOUGH[at % 3::3]))
            yield from (built_to(with_room(case, more), "refused 14 0") for more in (SHORT if text == A else SHORT[at % 3:at % 3 + 1]))
        # an empty table has the lists of no rows, and no list is too short for it
        yield from (built_to(with_room(of_text("", levels), more), " / ") for more in ENOUGH)
    yield built_to(with_room(of_text(DEEP, WIDE)), "7 7 7 7 7 7 7 7 / - - - - - - - -")
    yield built_to(with_room(of_text(f"{DEEP} {DEEP}", WIDE), (1, 1)), numbered([7] * 8 + [15] * 8, [*range(8, 16), *[NO_ROW] * 8]))


def many_types():
    """More than 64 types are built, and refused 4 where the lists are read; 1,024 rows of as many types."""
    for levels in OTHER:
        # a root and its 64 children, and the same again
        twice = [((tree, *dewey[1:]), label) for tree in (1, 2) for dewey, label in children(65)]
        hand = numbered([64, *range(1, 65), 129, *range(66, 130)], [*range(65, 130), *[NO_ROW] * 65])
        for more in ENOUGH[::3]:
            yield judged_to(built_to(with_room(first_type(twice, levels), more), hand), "refused 4 64")
        # 64 types are no more than there may be
        yield judged_to(with_room(first_type(children(64), levels)), "verdict 0")
    # ten trees of a row and 99 beneath it, and an eleventh of 24 rows: each row has a type of its own
    each_own = [((tree,) + (k,) * (k > 0), k or tree) for tree in range(1, 12) for k in range(100 if tree < 11 else 24)]
    lasts = [r if r % 100 else min(r + 99, 1023) for r in range(1024)]
    for more in ENOUGH[::3]:
        yield judged_to(built_to(with_room(first_type(each_own, 6), more), numbered(lasts, [NO_ROW] * 1024)), "refused 4 64")
    yield built_to(with_room(first_type(each_own, 6), (-1, 0)), "refused 14 0")


def most_rows():
    """1,024 rows: of one type, in one tree, in chains; one place short, just enough and all the room; and a row too many."""
    rows = range(1024)
    flat = [*range(1, 1024), NO_ROW]
    both = {
        many(1, 1024): (rows, flat), f"1[{many(2, 1023)}]": ([1023, *rows[1:]], [NO_ROW, *flat[1:]]),
        "1[2[3[4]]] " * 256: ([r | 3 for r in rows], [*rows[4:], *[NO_ROW] * 4])}
    for at, (text, hand) in enumerate(both.items()):
        case = built_to(with_room(of_text(text, (6, WIDE, 6)[at])), numbered(*hand))
        yield judged_to(case, "verdict 0")
        yield built_to(with_room(case, [(-1, 0), (0, -1)][at % 2]), "refused 14 0")
        # wrong in the last row alone, in the one before it too, and far in
        yield judged_to(changed(case, (at % 2, 1023, 1022)), "refused 15 1023")
        yield judged_to(changed(case, (NEXT, 1023, 0), (LAST, 1022, 1024)), "refused 15 1022")
        yield judged_to(changed(case, (LAST, 512, 0), (NEXT, 511, 511)), "refused 15 511")
    full = with_room(of_text(many(1, 1024), 6), [MOST_PLACES - 1024] * 2)
    yield judged_to(built_to(full, numbered(rows, flat)), "verdict 0")
    over = full._replace(table=nested_table(many(1, 1025)))
    yield judged_to(built_to(over, "refused 1 0"), "refused 1 0")
    yield judged_to(over._replace(index=((), ())), "refused 1 0")


# ---- lists that are not the table's
def each_place():
    """Table A with one place of one list wrong: 15 with its row, first and last and all between; some with places past the rows."""
    case = bracketed(A, "3[2 4]")
    for r in range(9):
        for which, numbers in enumerate(lists_of(case)):
            for other in ((numbers[r] + 1) % 65536, 0 if numbers[r] == NO_ROW else numbers[r] - 1 if (r + which) % 2 else NO_ROW):
                yield judged_to(changed(with_room(case, ENOUGH[r % 4]), (which, r, other)), f"refused 15 {r}")


# one list or both of table A with some places changed, and the row that 15 names
CHANGES = {
    # a row short; the parent's; one past the rows; itself; the first child; another higher byte
    ((LAST, 1, 5),): 1, ((LAST, 2, 6),): 2, ((LAST, 0, 9),): 0, ((LAST, 0, 0),): 0, ((LAST, 1, 2),): 1, ((LAST, 8, 264),): 8, ((LAST, 7, 65288),): 7,
    # a row skipped; none where there is one; 0 for none; the row itself; one before it; one of another type; one past the rows; other bytes of none
    ((NEXT, 2, 8),): 2, ((NEXT, 3, 6),): 3, ((NEXT, 4, NO_ROW),): 4, ((NEXT, 6, 0),): 6, ((NEXT, 5, 5),): 5, ((NEXT, 8, 5),): 8, ((NEXT, 5, 6),): 5,
    ((NEXT, 8, 9),): 8, ((NEXT, 7, 255),): 7, ((NEXT, 0, 65534),): 0, ((NEXT, 1, 263),): 1,
    # both lists, and one list at two rows
    ((LAST, 6, 5), (NEXT, 3, 5)): 3, ((LAST, 3, 2), (NEXT, 6, 8)): 3, ((LAST, 4, 3), (NEXT, 4, 5)): 4, ((LAST, 8, 7), (NEXT, 0, 8)): 0,
    ((LAST, 0, 7), (NEXT, 8, 0)): 0, ((LAST, 7, 0), (LAST, 5, 0)): 5, ((NEXT, 7, 0), (NEXT, 5, 0)): 5}


def wrong_numbers():
    """Numbers that some other rule would give; and of two faults the lesser row."""
    for levels in OTHER:
        case = with_room(bracketed(A, "3[2 4]", levels=levels))
        for changes, row in [*CHANGES.items()][::1 if levels == 6 else 4]:
            yield judged_to(changed(case, *changes), f"refused 15 {row}")


def wrong_lists():
    """Lists swapped, shifted, all of one number, and of another table."""
    for levels in OTHER:
        case, other = (bracketed(text, "3[2 4]", levels=levels) for text in (A, "1[2[3[4] 3[4 4]] 2[3]]"))
        (lasts, nexts), (other_lasts, other_nexts) = map(lists_of, (case, other))
        for both, hand in (
                ((nexts, lasts), "refused 15 0"), (([9] * 9, [9] * 9), "refused 15 0"), (([0] * 9, nexts), "refused 15 0"),
                ((lasts, [NO_ROW] * 9), "refused 15 1"), ((lasts[1:] + [8], nexts), "refused 15 0"), ((range(9), nexts), "refused 15 0"),
                ((lasts, range(1, 10)), "refused 15 0"), ((other_lasts, other_nexts), "refused 15 2"), ((lasts, other_nexts), "refused 15 2"),
                ((other_lasts, nexts), "refused 15 2"), ((lasts, nexts), "verdict 0")):
            yield judged_to(case._replace(index=tuple(map(tuple, both))), hand)


def wrong_types():
    """The next row of the label alone, on the level alone, or with the parent's label alone; and descendants of the next row, or none."""
    for at, (text, change) in enumerate((
            ("1[3] 2[3] 1[3]", (NEXT, 1, 3)), ("1[3] 2[3] 1[3]", (NEXT, 3, 5)), ("1[1[1]]", (NEXT, 0, 1)), ("1[1[1]]", (NEXT, 1, 2)),
            ("1[2 3]", (NEXT, 1, 2)), ("1[2[4] 3[4]]", (NEXT, 2, 4)), ("5[2[3]] 6[2[3]]", (NEXT, 2, 5)), ("1 1 1", (NEXT, 0, 2)), ("1 1 1", (LAST, 0, 2)),
            ("1[2] 1[2]", (LAST, 0, 3)), ("1[2] 1[2]", (LAST, 2, 2)), (CHAIN, (LAST, 4, 4)), (CHAIN, (LAST, 5, 6)))):
        yield judged_to(changed(with_room(of_text(text, (6, 6, WIDE)[at % 3])), change), f"refused 15 {change[1]}")


# ---- the order of refusals
def in_order():
    """1 to 4 before 14, 14 before 15, and 15 before 5, 6, 7 and 8: each with lists that are right, wrong, too short, or both."""
    for levels in OTHER:
        good = lent(bracketed(A, "3[2 4]", levels=levels), -1)
        row = good.row_length
        right, short, wrong = with_room(good).index, with_room(good, (0, -1)).index, changed(good, (NEXT, 0, 0)).index
        for bad, hand in (
                (nested_table(many(1, 1025), levels), "refused 1 0"), (good.table[:-1], "refused 2 0"), (good.table[row:], "refused 3 0"),
                (good.table * 2, "refused 3 9"), (with_byte(good.table, 8 * row + 1, 1), "refused 3 8")):
            for both in (wrong, short, ((), ())):
                yield judged_to(built_to(good._replace(table=bad, index=both), hand), hand)
        past = good._replace(table=table(children(65), levels=levels))
        for more in ((0, 0), (-1, 0), (0, -99)):
            yield judged_to(with_room(past, more), "refused 4 64")
        yield judged_to(changed(with_room(past), (LAST, 0, 0)), "refused 4 64")
        missing = good.shape + shape((2, (2,)), levels=levels)
        for s, hand in ((b"", "refused 5 0"), (good.shape * 2, "refused 6 3"), (missing, "refused 7 3"), (good.shape, "verdict 0")):
            case = good._replace(shape=s)
            yield judged_to(case._replace(index=right), hand)
            yield judged_to(case._replace(index=wrong), "refused 15 0")
            for both in (short, (wrong[0][:-1], wrong[1])):
                yield judged_to(case._replace(index=both), "refused 14 0")


def out_of_room():
    """8 after 15: a record or a place short, in reshaping; and more lines than a new table has, in summarising too."""
    for levels in OTHER:
        few = bracketed(A, "4[3[2]]", levels=levels)
        lines = bracketed(f"1[{many(2, 20)}{many(3, 20)}]", "2[3[2[3[2]]]]", "refused 8 0", levels=levels)
        for case in (lent(few, -1, 0, 5), lent(few, 0, 0, -1), lent(few, 0, 0, 0), lent(lines)):
            yield from (with_room(case), changed(with_room(case), (NEXT, 2, 1)), with_room(case, (-1, 3)))


# ---- used
USED = (case_samples.samples, case_verdicts.parents, case_verdicts.each_verdict, case_verdicts.last_pair, case_lines.several_trees,
        case_lines.deep_chains, case_figures.hidden, case_figures.of_one_type, case_figures.most_rows, case_figures.most_lines, case_partners.which_run,
        case_partners.children_first, case_partners.every_level, case_partners.deepest)


def used():
    """Cases about verdicts, lines, figures and partners with the lists of their tables, every third of the narrow ones widened."""
    several = {(case.table, case.shape): case for group in USED for case in group()}
    for at, case in enumerate(several.values()):
        yield with_room(widened(case) if case.levels == 6 and at % 3 == 0 else case, ENOUGH[at % 4])


# ---- drawn
def drawn(levels, count=30):
    """Drawn tables and shapes, with their lists, or with some that are nearly theirs; a table that breaks a rule has zeros."""
    rng = Draws(300 + levels, levels)
    for _ in range(count):
        t, s = cases.case(rng, rng.choice((6, 14, 20)), rng.choice((3, 6, 9)), levels, harm=0.1)
        zeros = [0] * (len(t) // paper01.row_length(levels))
        yield Case(t, s, levels=levels, index=tuple(map(tuple, cases.index(rng, *indexed.build_index(t, zeros, zeros, levels)[1:]))))


INDEX = (builds, many_types, most_rows, each_place, wrong_numbers, wrong_lists, wrong_types, in_order, out_of_room, used)
