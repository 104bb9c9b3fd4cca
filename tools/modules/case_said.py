"""Cases about the number that says the width to C: 8 says eight levels, and every other number six.

Every call for C that takes the number answers otherwise where six levels are taken for eight, and the tools stop if one does not.
"""
import sys

from brackets import A, shape
from case_form import MOST_SAID, MOST_SUMMARIES, Case, told
from case_index import with_room
from case_parts import bracketed, lent, nested_table
from case_widths import WIDE

# none, those beside 6 and beside 8, some that have 8 among their bits, and the greatest
SAID = 0, 7, 9, 1, 5, 10, 24, 72, 136, 248, MOST_SAID
# the parts of a line that no number of C is said for
IN_RATTLE = "reading", "moving a table", "moving a shape"
# bytes lent for the table and for the shape with their labels converted, and for the shape of a text and for a printed line
MOVED, TYPED = (1000, 400), (320, 1536)


def asked():
    """Cases with all that a call takes. The first has lengths that six levels take alone; the others have lengths that both widths take: 7 rows are 168
    bytes, 6 rows of 28, and 5 entries are 80 bytes, 4 of 20."""
    numbers, text = (100, 51, 999, 3), b"lease [ lessee asset ]"
    yield bracketed(A, "3[2 4]", "verdict 0")._replace(numbers=numbers, text=text)
    for rows in ("1[2[3[4 4]] 2[3]]", "1[2[3[4[5[6] 5]]]]"):
        yield Case(nested_table(rows), shape(*[(level, (1, 2, 3)) for level in (1, 2, 3, 3, 2)]), numbers=numbers, text=text[:5])


def told_apart(case):
    """The case, if eight levels in place of six change what each call for C answers or leaves."""
    wide = told(case._replace(levels=WIDE))
    same = [part for part, pieces in told(case).items() if part not in IN_RATTLE and wide[part] == pieces]
    if same:
        sys.exit(f"table {case.table.hex()}, shape {case.shape.hex()}: at eight levels as at six: {', '.join(same)}")
    return case


def other_numbers():
    for case in asked():
        case = lent(with_room(case))._replace(row=2, summaries=MOST_SUMMARIES, moved=MOVED, typed=TYPED)
        yield from (told_apart(case)._replace(said=said) for said in SAID)


SAID_OTHERWISE = (other_numbers,)
