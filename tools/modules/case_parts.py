"""What the lists of cases are written with: tables and shapes in brackets, answers by hand, and the room lent.

An answer by hand is document 01's or worked out by hand: what judging says (`verdict 2 1 2`, `refused 7 0`), its second answer (`yes` or
`no`), the numbers of each edge (`edges 1 1 1 2 / 0 2 1 1`: least and greatest children of entry 1, least and greatest parents, then of entry 2),
the lines of each entry (`3 3 3`, or the summary's refusal) or another figure of each (`rows 3 3 2`, `copies 0 1 2`, `different 3 2 1`), or some of
these with commas between. The tools stop if paper01.py says something else.
"""
import itertools, sys

import brackets, cases
from case_form import MOST_RECORDS, Case, judging, summary, total

FAR = 65535


# ---- tables
def table(rows, values=None, levels=6):
    """Rows given as (Dewey number, label). Each value has eight bytes of its own, or the values come in turn."""
    own = (bytes((37 * i + 11 * k + 200) % 256 for k in range(8)) for i in itertools.count())
    given = (v.to_bytes(8, "little", signed=True) for v in itertools.cycle(values or [0]))
    return b"".join(cases.row_bytes(d, l, v, levels) for (d, l), v in zip(rows, given if values else own))


def nested_table(text, levels=6):
    return table(brackets.nested(text), levels=levels)


def many(label, count):
    return f"{label} " * count


# ---- answers by hand
def edges_said(edges, entries):
    """The four numbers of each entry but the first."""
    return " ".join(["edges", " / ".join(" ".join(map(str, four)) for four in [*zip(*edges)][1:entries])]).strip()


def said(case):
    """What judging says in the words of document 01's program, its second answer, the numbers of each edge, and the lines of each entry, or the
    summary's refusal. Where it is not refused, the other figures too."""
    number, place, verdict, none_apart, edges = judging(case.table, case.shape, case.levels)
    judged = f"refused {number} {place}" if number else " ".join(map(str, ("verdict", *verdict)))
    number, place, figures = summary(case.table, case.shape, case.levels)
    entries = len(case.shape) // case.entry_length
    lines, *others = (" ".join(map(str, x[:entries])) for x in figures)
    shown = [f"refused {number} {place}"] if number else [lines, *map(" ".join, zip(("rows", "copies", "different"), others))]
    return judged, "yes" if none_apart else "no", edges_said(edges, entries), *shown


def by_hand(case, hand):
    """The case, if paper01.py gives it the answers that it has by hand."""
    if not set(hand.split(", ")) <= set(said(case)):
        sys.exit(f"table {case.table.hex()}, shape {case.shape.hex()}: {hand} by hand, {said(case)} by paper01.py")
    return case


def bracketed(table_text, shape_text, hand=None, values=None, levels=6):
    """A case from a table and a shape in brackets."""
    rows = brackets.nested(table_text)
    case = Case(table(rows, values, levels), brackets.wanted(shape_text, rows, levels), levels=levels)
    return by_hand(case, hand) if hand else case


def each_shape(table_text, answers, values=None, levels=6):
    """One table with several shapes, and the answers of each."""
    return [bracketed(table_text, shape_text, hand, values, levels) for shape_text, hand in answers.items()]


def each_table(shape_text, answers):
    """One shape with several tables, and the answers of each."""
    return [bracketed(table_text, shape_text, hand) for table_text, hand in answers.items()]


# ---- what is lent
def room(case, records, past, places):
    return case._replace(room=(records, past, places))


def lent(case, records=1, past=5, places=2):
    """The case with room for so many more lines than there are, and some bytes past the last whole record."""
    n = total(case)
    return room(case, min(max(n + records, 0), MOST_RECORDS), past, min(max(n + places, 0), MOST_RECORDS))


def far_more(case):
    return room(case, MOST_RECORDS, 0, MOST_RECORDS)


def around(case, past=(0,)):
    """Exactly enough room; a record short, whatever bytes lie past the last; a place short; one of either more; nothing of either."""
    n = total(case)
    near = sorted({0, max(n - 1, 0), n, n + 1})
    for records, more, places in itertools.product(near, past, near):
        yield room(case, records, more, places)
