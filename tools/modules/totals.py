"""Request 6 of document 02: the values of an entry's source rows added up, and a running total over tapes, written from the papers alone.

Plain and slow on purpose, as paper01.py is. A tape is a table, a shape, the entry whose values are added, and the levels of its files, 6 or 8.
"""
import typing

import paper01, samples
from paper01 import MOST_LINES, Refused, Work

# a value lies from -10^12 to 10^12; a total has 1,000 tapes at most, and a sum of at most 1.024 x 10^15 a tape either way
MOST_VALUE, MOST_TAPES, MOST_SUM = 10**12, 1000, 1_024_000_000_000_000


class Tape(typing.NamedTuple):
    table: bytes
    shape: bytes
    entry: int
    levels: int = 6


class Total(typing.NamedTuple):
    """Both sums over the tapes that were taken in, and how many these are."""
    shown: int
    unshown: int
    tapes: int


NOTHING = Total(0, 0, 0)


# ---- one tape
def value_of(row):
    return int.from_bytes(row.value, "little", signed=True)


def values(work, entry):
    """Refusals 16 and 17, then the value of each row of the entry's type, by its row."""
    if entry >= len(work.entries):
        raise Refused(16)
    found = {r: value_of(work.rows[r]) for r in work.by_type[work.entries[entry].type]}
    for r in sorted(found):
        if not -MOST_VALUE <= found[r] <= MOST_VALUE:
            raise Refused(17, r)
    return found


def both_sums(tape):
    """Refusals 1 to 8 as for a summary, 16 and 17; then the sum over the rows that some line of the entry shows, and over the other rows of its type."""
    work = Work(tape.table, tape.shape, tape.levels)
    lines = work.lines(MOST_LINES)
    found = values(work, tape.entry)
    seen = {r for e, r, _ in lines if e == tape.entry}
    return sum(found[r] for r in seen), sum(found[r] for r in found.keys() - seen)


def sum_tape(tape):
    """Number, place and both sums, which are 0 where the tape is refused."""
    try:
        return (0, 0, *both_sums(tape))
    except Refused as no:
        return (no.number, no.place, 0, 0)


# ---- a running total
def can_be(total):
    """Is it a total of so many tapes that one more can be taken in?"""
    most = total.tapes * MOST_SUM
    return total.tapes < MOST_TAPES and max(abs(total.shown), abs(total.unshown)) <= most


def take_in(total, tape):
    """Number, place and the total with this tape; as it was handed in where the tape is refused, or the total itself, with 18."""
    try:
        shown, unshown = both_sums(tape)
        if not can_be(total):
            raise Refused(18)
        return (0, 0, Total(total.shown + shown, total.unshown + unshown, total.tapes + 1))
    except Refused as no:
        return (no.number, no.place, total)


def history(tapes, total=NOTHING):
    """The answer to each of some tapes, taken in one after the other."""
    answers = []
    for tape in tapes:
        answers.append(take_in(total, tape))
        total = answers[-1][2]
    return answers


# ---- what ./intake --total prints
def of_folder(folder, entry):
    """The tape of a folder, as the program reads it, and the refusal of its typed tree, zeros where it has none."""
    table, wanted, levels = samples.read(folder)
    *refusal, shape = samples.shaped(table, wanted, levels)
    return Tape(*samples.cut(table, shape, levels), entry, levels), refusal


def told(entry, named):
    """What ./intake --total ENTRY FOLDER... prints for some folders, each with the name that it is given by: a line for each, and the total last; and
    whether any of them was refused."""
    total, lines = NOTHING, []
    for name, folder in named:
        tape, (number, place) = of_folder(folder, entry)
        if not number:
            number, place, total_after = take_in(total, tape)
        if number:
            lines.append(f"{name}: refused {number} {place}, not counted")
        else:
            lines.append(f"{name}: shown {total_after.shown - total.shown}, not shown {total_after.unshown - total.unshown}")
            total = total_after
    lines.append(f"total: shown {total.shown}, not shown {total.unshown}, tapes {total.tapes}")
    return "".join(f"{line}\n" for line in lines), len(lines) > total.tapes + 1
