"""Request 4 of document 02: an index beside the table, built and used, written from the papers alone.

Plain and slow on purpose, as paper01.py is. An index is two lists of 16-bit numbers, one place a row: `lasts`, the row's last descendant, itself
where it has none, and `nexts`, the next row of the same type, or `NO_ROW`. Where the lists are this table's, a call with them answers what the call
without does, and so it is made.
"""
import paper01
from paper01 import Refused, in_lists, read_rows, read_types, types_of_rows

NO_ROW = 65535


# ---- the two lists
def is_under(row, other):
    """Does the row's Dewey number begin with the other's?"""
    return row.dewey[:len(other.dewey)] == other.dewey


def last_descendants(rows):
    """Of each row the last that is under it; a row is under itself."""
    return [max(s for s, row in enumerate(rows) if is_under(row, other)) for other in rows]


def next_rows(kinds):
    """Of each row the first behind it that is of the same type."""
    return [kinds.index(kind, r + 1) if kind in kinds[r + 1:] else NO_ROW for r, kind in enumerate(kinds)]


def index_of(rows):
    """The two lists of a table's rows, of however many types they are."""
    return last_descendants(rows), next_rows(types_of_rows(rows))


# ---- 14 and 15
def long_enough(rows, lasts, nexts):
    """Refusal 14: either list has fewer places than there are rows."""
    if len(lasts) < len(rows) or len(nexts) < len(rows):
        raise Refused(14)


def right_lists(rows, lasts, nexts):
    """Refusal 15: either list is wrong at some row, of which the least is named. What lies past the rows is not looked at."""
    for r, (last, following) in enumerate(zip(*index_of(rows))):
        if lasts[r] != last or nexts[r] != following:
            raise Refused(15, r)


def fits(table, lasts, nexts, levels, labels):
    """Refusals 1 to 4, 14 and 15."""
    rows = read_rows(table, levels, labels)
    read_types(rows)
    long_enough(rows, lasts, nexts)
    right_lists(rows, lasts, nexts)


# ---- the four calls: the answer, and what the lent things hold afterwards
def at_front(made, lent):
    """What a lent list holds afterwards: what is made, and the rest as it was."""
    return made + list(lent[len(made):])


def build_index(table, lasts, nexts, levels=6, labels=paper01.MOST_LABEL):
    """Number, place and the count of rows; and both lists, with the index at their front."""
    try:
        rows = read_rows(table, levels, labels)
        long_enough(rows, lasts, nexts)
        return (0, 0, len(rows)), *map(at_front, index_of(rows), (lasts, nexts))
    except Refused as no:
        return (no.number, no.place, 0), list(lasts), list(nexts)


def refusal_of(table, lasts, nexts, levels, labels):
    """The number and place with which a table and its lists are refused, none where they pass."""
    try:
        fits(table, lasts, nexts, levels, labels)
    except Refused as no:
        return no.number, no.place


def judge_with_index(table, shape, lasts, nexts, levels=6, labels=paper01.MOST_LABEL):
    """What paper01.judge gives, with the refusals of the index between 4 and 5."""
    refusal = refusal_of(table, lasts, nexts, levels, labels)
    return (*refusal, (0,), False, in_lists([])) if refusal else paper01.judge(table, shape, levels=levels, labels=labels)


def reshape_with_index(table, shape, lasts, nexts, new, sources, levels=6, labels=paper01.MOST_LABEL):
    """What paper01.reshape gives, with the refusals of the index between 4 and 5."""
    refusal = refusal_of(table, lasts, nexts, levels, labels)
    return ((*refusal, 0), bytes(new), list(sources)) if refusal else paper01.reshape(table, shape, new, sources, levels, labels)


def summarise_with_index(table, shape, lasts, nexts, levels=6, labels=paper01.MOST_LABEL):
    """What paper01.summarise gives, with the refusals of the index between 4 and 5."""
    refusal = refusal_of(table, lasts, nexts, levels, labels)
    return (*refusal, in_lists([])) if refusal else paper01.summarise(table, shape, levels=levels, labels=labels)
