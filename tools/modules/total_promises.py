"""What is promised of the sums of a tape and of a running total, held to the second reading's own answers: request 6 of document 02."""
import itertools, struct, sys

import paper01, tapes, totals
from totals import MOST_SUM, MOST_TAPES, MOST_VALUE, NOTHING, Tape


# ---- one tape
def labelled_values(tape):
    """(labels from the root down, value) of each row of a sound table, read once more: its fields, and the last label on each level above it."""
    form, way = f"<BBH{2 * tape.levels}xq", []
    for level, _, label, value in struct.iter_unpack(form, tape.table):
        way[level - 1:] = [label]
        yield tuple(way), value


def of_type(tape):
    """The rows of the entry's type with their values."""
    size, *labels = struct.unpack_from(f"<xBxx{tape.levels}H", tape.shape, tape.entry * (4 + 2 * tape.levels))
    return {row: value for row, (way, value) in enumerate(labelled_values(tape)) if way == tuple(labels[:size])}


def refusal_wanted(tape):
    """As for a summary; then 16 where the shape has fewer entries; then 17 with the first row of its type that is out of range."""
    number, place, _ = paper01.summarise(tape.table, tape.shape, levels=tape.levels)
    if number:
        return number, place
    if tape.entry >= len(tape.shape) // (4 + 2 * tape.levels):
        return 16, 0
    off = [row for row, value in of_type(tape).items() if abs(value) > MOST_VALUE]
    return (17, min(off)) if off else (0, 0)


def with_changed(tape, change):
    """The tape with each value of the entry's type changed, and with the least that there is in all other rows."""
    own = of_type(tape)
    changed = (change(own[row]) if row in own else -2**63 for row in range(len(tape.table)))
    return tape._replace(table=tapes.with_values(tape.table, tape.levels, lambda: next(changed)))


def broken_sums(tape, shown, unshown):
    """The promises that the sums of an accepted tape do not keep, in words."""
    found, entry = of_type(tape), tape.entry
    if shown + unshown != sum(found.values()):
        yield "the two sums together are not the sum over all rows of the type"
    _, rows, _, different = (figures[entry] for figures in paper01.summarise(tape.table, tape.shape, levels=tape.levels)[2])
    if totals.sum_tape(with_changed(tape, lambda value: 1)) != (0, 0, different, rows - different):
        yield "where each value is 1, the sums are not the different rows of the summary and the other rows of the type"
    if totals.sum_tape(with_changed(tape, lambda value: -value)) != (0, 0, -shown, -unshown):
        yield "where each value is negated, the sums are not"
    if (entry == 0 or paper01.judge(tape.table, tape.shape, levels=tape.levels)[2] == (0,)) and unshown:
        yield "every row is shown, and the second sum is not 0"
    if max(abs(shown), abs(unshown)) > len(found) * MOST_VALUE or len(found) * MOST_VALUE > MOST_SUM:
        yield "a sum is beyond what so many values can be"


def widened(tape):
    table = paper01.move_table(tape.table, bytes(2 * len(tape.table)), 8, tape.levels)
    shape = paper01.move_shape(tape.shape, bytes(2 * len(tape.shape)), 8, tape.levels)
    return Tape(table[1][:table[0][2] * paper01.row_length(8)], shape[1][:shape[0][2] * paper01.entry_length(8)], tape.entry, 8)


def broken_tape(tape):
    """The promises that the sums of a tape do not keep, in words."""
    number, place, *sums = totals.sum_tape(tape)
    if (number, place) != refusal_wanted(tape):
        yield "a tape is not refused as for a summary, then with 16, then with 17"
    elif number and sums != [0, 0]:
        yield "a refused tape has sums"
    elif not number:
        yield from broken_sums(tape, *sums)
        if tape.levels == 6 and totals.sum_tape(widened(tape)) != (0, 0, *sums):
            yield "the widened tape has other sums"


# ---- a running total
def broken_take_in(total, tape):
    """The promises that a tape does not keep with some total handed in, in words."""
    number, place, after = totals.take_in(total, tape)
    refused, at, *sums = totals.sum_tape(tape)
    too_far = total.tapes >= MOST_TAPES or any(abs(each) > total.tapes * MOST_SUM for each in total[:2])
    if (number, place) != ((refused, at) if refused else (18, 0) if too_far else (0, 0)):
        yield "a tape is not refused as its sums are, then with 18"
    elif number and after != total:
        yield "a refused tape does not leave the total as it was"
    elif not number and after != (total.shown + sums[0], total.unshown + sums[1], total.tapes + 1):
        yield "a tape that is taken in does not add its sums to the total"


def total_after(several):
    """The total that some tapes leave, taken in from nothing."""
    return [NOTHING, *(total for _, _, total in totals.history(several))][-1]


def broken_history(several):
    """The promises that some tapes do not keep, taken in from nothing one after the other, in words."""
    answers, end = totals.history(several), total_after(several)
    counted = [tape for tape, answer in zip(several, answers) if not answer[0]]
    parts = [totals.sum_tape(tape)[2:] for tape in counted]
    if end != (sum(shown for shown, _ in parts), sum(unshown for _, unshown in parts), len(counted)):
        yield "the total is not, for each sum, the sum over the tapes taken in"
    if end.shown + end.unshown != sum(sum(of_type(tape).values()) for tape in counted):
        yield "both sums of a total together are not the sum over all rows of the entries' types"
    before = (sum(not answer[0] for answer in answers[:at]) for at in range(len(answers)))
    if any((number == 18) != (taken >= MOST_TAPES and totals.sum_tape(tape)[0] == 0)
           for tape, (number, _, _), taken in zip(several, answers, before)):
        yield "18 comes before the thousandth tape is in, or does not come behind it"
    if len(counted) < MOST_TAPES:
        for order in (several[::-1], several[1:] + several[:1], sorted(several)):
            if total_after(order) != end:
                yield "the total is another in another order"
                return
        if total_after(counted) != end:
            yield "the total is another without the tapes that are refused"


def hold(several, total=NOTHING):
    """Stops where a promise is broken: of each tape, with a total handed in too, and of all of them as a history."""
    each = itertools.chain.from_iterable((*broken_tape(tape), *broken_take_in(total, tape)) for tape in several)
    for words in itertools.chain(each, broken_history(several)):
        sys.exit(f"tapes {several}, total {total}: {words}")
