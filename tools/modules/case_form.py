"""A case of the program cases: what it holds, how it is written, and the line that it must give by paper01.py, typed_trees.py and indexed.py.

crates/cases/src/main.rt says what the bytes and the line are.
"""
import functools, typing

import indexed, paper01, typed_trees

# the program's rooms: some records and places more than a reshape uses, a summary more than there are types, some bytes more than a table, the
# numbers of a list of pairs, the bytes of a text, and some places more than a table has rows
MOST_RECORDS, MOST_SUMMARIES, MOST_MOVED, MOST_NUMBERS, MOST_HELD, MOST_PLACES = 4100, 65, 30000, 1024, 4096, 1100

# the greatest number that C can say
MOST_SAID = 2**32 - 1

# a narrow file is widened, and a wide one narrowed
OTHER = {6: 8, 8: 6}

# what a lent summary holds before the call
MARK = (7777,) * 6


class Case(typing.NamedTuple):
    """What a case leaves open, `filled` chooses. The room is of whole records, of bytes past them, and of places. Where there is a shape of
    a second reshape, the case is a chain. `moved` is the bytes lent for the table and for the shape in the other width, and as many for both with
    their labels converted. The numbers are a list of pairs of labels. `typed` is the bytes lent for the shape of a text and for a printed line. Where
    there is an index, its two lists are lent for reading, and as many places of each for building. The width is said to C by a number, which is
    that of the levels where no other is said."""
    table: bytes
    shape: bytes = b""
    row: typing.Optional[int] = None
    room: typing.Optional[typing.Tuple[int, int, int]] = None
    summaries: typing.Optional[int] = None
    again: bytes = b""
    levels: int = 6
    moved: typing.Optional[typing.Tuple[int, int]] = None
    numbers: typing.Tuple[int, ...] = ()
    text: bytes = b""
    typed: typing.Optional[typing.Tuple[int, int]] = None
    index: typing.Optional[typing.Tuple[typing.Tuple[int, ...], typing.Tuple[int, ...]]] = None
    said: typing.Optional[int] = None

    @property
    def row_length(self):
        return paper01.row_length(self.levels)

    @property
    def entry_length(self):
        return paper01.entry_length(self.levels)


# ---- what paper01.py says, once for each table and shape
@functools.lru_cache(None)
def judging(table, shape, levels):
    return paper01.judge(table, shape, levels=levels)


@functools.lru_cache(None)
def summary(table, shape, levels):
    return paper01.summarise(table, shape, levels=levels)


@functools.lru_cache(None)
def adorning(table, lent, levels):
    return paper01.adorn(table, [MARK] * lent, levels=levels)


def typing_in(case, text, lent):
    return typed_trees.read_tree(case.table, text, lent, case.levels)


def printing(case, lent):
    return typed_trees.print_tree(case.shape, lent, case.levels)


def total(case):
    """The number of lines; 0 where the summary is refused."""
    return sum(summary(case.table, case.shape, case.levels)[2][0])


def type_count(case):
    return adorning(case.table, MOST_SUMMARIES, case.levels)[0][2]


# ---- what a case leaves open
def within(low, x, high):
    return min(max(low, x), high)


def to_move(case):
    """The bytes that the whole records of the table and of the shape have in the other width."""
    to = OTHER[case.levels]
    return len(case.table) // case.row_length * paper01.row_length(to), len(case.shape) // case.entry_length * paper01.entry_length(to)


def to_type(case):
    """The bytes of the text's shape, or where it has none of the case's own, and those of the shape's line."""
    entries = typing_in(case, case.text, bytes(MOST_MOVED))[0][2] if case.text else 0
    return case.entry_length * entries or len(case.shape), printing(case, bytes(MOST_MOVED))[0][2]


def filled(case, at):
    """The case with a row, rooms and summaries that change from case to case: enough, just enough, and one short."""
    row, room, summaries, moved, typed = case.row, case.room, case.summaries, case.moved, case.typed
    if row is None:
        row = at % (len(case.table) // case.row_length + 2)
    if room is None:
        n, most = total(case) or 4, case.row_length - 1
        records, past, places = ((1, 5, 2), (0, 0, 0), (-1, most, 0), (0, most, 0), (0, 0, -1), (2, 1, 30))[at % 6]
        room = within(0, n + records, MOST_RECORDS - 1), past, within(0, n + places, MOST_RECORDS)
    if summaries is None:
        n = type_count(case) or 3
        summaries = within(0, (n, n - 1, n + 1, MOST_SUMMARIES, 0, n + 2, 64)[at % 7], MOST_SUMMARIES)
    if moved is None:
        more = ((0, 0), (1, 3), (-1, 0), (7, -1), (0, 20))[at % 5]
        moved = tuple(within(0, n + k, MOST_MOVED) for n, k in zip(to_move(case), more))
    if typed is None:
        more = ((0, 0), (1, 3), (0, -1), (0, 0), (-1, 0), (30, 1), (0, 50))[at % 7]
        typed = tuple(within(0, n + k, MOST_MOVED) for n, k in zip(to_type(case), more))
    return case._replace(row=row, room=room, summaries=summaries, moved=moved, typed=typed)


# ---- how cases are written
def changes(held, start, data):
    """Makes what is held from `start` on the data's, and gives the changes: runs of up to 255 bytes, of which at most three are as before."""
    out, at = [], 0
    while at < len(data):
        if held[start + at] == data[at]:
            at += 1
            continue
        end = last = at
        while end < len(data) and end - at < 255 and end - last <= 3:
            end += 1
            last = end if held[start + end - 1] != data[end - 1] else last
        out.append((start + at).to_bytes(2, "little") + bytes([last - at]) + data[at:last])
        held[start + at:start + last] = data[at:last]
        at = last
    return out


def in_bytes(numbers):
    """16-bit numbers."""
    return paper01.written(numbers, len(numbers))


def width_byte(case):
    """The byte of the number that says the width: 255 stands for the greatest number."""
    said = case.levels if case.said is None else case.said
    assert said < 255 or said == MOST_SAID, "a number that has no byte"
    assert (said == 8) == (case.levels == 8), "8 says eight levels, and every other number six"
    return min(said, 255)


def packed(all_cases):
    """The bytes of all cases, each as what differs from those before."""
    held = bytearray(65536)
    for case in all_cases:
        records, past, places = case.room
        assert case.row_length * records + past <= case.row_length * MOST_RECORDS and places <= MOST_RECORDS, "more lent than there is"
        assert case.summaries <= MOST_SUMMARIES and max(case.moved + case.typed) <= MOST_MOVED, "more lent than there is"
        assert max(len(case.table), 4 * len(case.shape), 4 * len(case.again)) <= 32768, "more bytes than the program holds"
        assert len(case.numbers) <= MOST_NUMBERS and len(case.text) <= MOST_HELD, "a longer list or text than there is room for"
        lists = case.index or ((), ())
        assert max(map(len, lists)) <= MOST_PLACES, "a longer list of an index than there is room for"
        parts = ((0, case.table), (32768, case.shape), *zip((40960, 45056), map(in_bytes, lists)), (49152, case.again),
                 (57344, in_bytes(case.numbers)), (61440, case.text))
        made = [change for start, data in parts for change in changes(held, start, data)]
        lengths = ((len(made), 2), (len(case.table), 2), (len(case.shape), 2))
        fields = (*lengths, (case.row, 8), (records, 2), (past, 1), (case.summaries, 1), (places, 2), (len(case.again), 2), (width_byte(case), 1),
                  *((lent, 2) for lent in case.moved), (len(case.numbers), 2), (len(case.text), 2), *((lent, 2) for lent in case.typed),
                  (int(case.index is not None), 1), *((len(numbers), 2) for numbers in lists))
        yield b"".join(x.to_bytes(size, "little") for x, size in fields) + b"".join(made)


# ---- the line that a case must give
def folded(total, numbers):
    """The program's sum, gone on by some numbers."""
    for x in numbers:
        total = (1000003 * total + x) % 2147483647
    return total


@functools.lru_cache(None)
def read(table, levels):
    """The rows that the reader hands out, and the sum over all parts: at each place, two past the last row, the row there and the next."""
    places = range(len(table) // paper01.row_length(levels) + 2)
    parts = [paper01.hand_out(table, x, levels) for at in places for x in (at, paper01.read_on(table, at, levels))]
    return sum(1 for x in parts[::2] if x), functools.reduce(lambda total, x: folded(total, [len(x), *x]), parts, 1)


def adorned(case):
    reply, summaries = adorning(case.table, case.summaries, case.levels)
    count = reply[2]
    return [reply, *summaries[:count], *(("summary", k, *x) for k, x in enumerate(summaries) if k >= count and x != MARK)]


def byte_before(i):
    return (7 * i + 13) % 251


def place_before(i):
    return 1000003 + i


def row_before(i):
    return 20000 + i


def bytes_lent(count):
    return bytes(map(byte_before, range(count)))


def lend(levels, records, past, places):
    """The bytes and the places lent for a reshape, as they are before it."""
    return bytes_lent(paper01.row_length(levels) * records + past), list(map(place_before, range(places)))


def reshaping(case):
    """The reply, the bytes and the places that reshaping leaves."""
    return paper01.reshape(case.table, case.shape, *lend(case.levels, *case.room), case.levels)


def lines_of(case, reply, new, _sources):
    """The lines that a reshape leaves."""
    return new[:case.row_length * reply[2]]


def reshaping_again(case):
    """The same of the second reshape, whose table is the lines that the first leaves; nothing where those are no source."""
    first = reshaping(case)
    number, _, lines = first[0]
    if number == 0 and lines <= paper01.MOST_ROWS:
        return paper01.reshape(lines_of(case, *first), case.again, *lend(case.levels, MOST_RECORDS, 0, MOST_RECORDS), case.levels)


def reshaped(reply, new, sources):
    return [reply, ("sum", folded(1, [*new, *sources]))]


def chained(case):
    second = reshaping_again(case)
    return reshaped(*second) if second else [("none",)]


def by_entry(lists):
    """Four lists as a piece for each entry that has a number that is not 0."""
    return [(e, *four) for e, four in enumerate(zip(*lists)) if any(four)]


def judged(number, place, verdict, none_apart, edges):
    """The answer, and the numbers of each entry that has any."""
    return [(number, place, *(*verdict, 0, 0)[:3], int(none_apart)), *by_entry(edges)]


def looked_up(case):
    """The bytes handed back, and where they start in the table and how many they are, which the call for C says."""
    number, place, part = paper01.look_up(case.table, case.row, case.levels)
    return [(number, place, part.hex()), (number, place, 0 if number else case.row * case.row_length, len(part))]


def summarised(number, place, entries):
    return [(number, place), *by_entry(entries)]


def moved(move, data, lent, levels):
    """What widening, or narrowing, answers, and the sum over all that was lent."""
    reply, left = move(data, bytes_lent(lent), OTHER[levels], levels)
    return [reply, ("sum", folded(1, left))]


def converted(case):
    """What converting answers, and the sum over all that was lent, the table's bytes first."""
    lent = map(bytes_lent, case.moved)
    reply, table, shape = paper01.convert(case.table, case.shape, case.numbers, *lent, case.levels)
    return [reply, ("sum", folded(1, table + shape))]


def typed(case, text):
    """What reading a text answers, and the sum over all that was lent."""
    reply, left = typing_in(case, text, bytes_lent(case.typed[0]))
    return [reply, ("sum", folded(1, left))]


def printed(case):
    """What printing the shape answers, and the sum over all that was lent; then what reading the line back does, an empty one where there is none."""
    reply, left = printing(case, bytes_lent(case.typed[1]))
    return {"printing": [reply, ("sum", folded(1, left))], "reading back": typed(case, left[:reply[2]])}


def built(case):
    """What building an index answers, and the sum over all that was lent, the last descendants first."""
    reply, lasts, nexts = indexed.build_index(case.table, *([row_before(i) for i in range(len(numbers))] for numbers in case.index), case.levels)
    return [reply, ("sum", folded(1, lasts + nexts))]


def with_index(case):
    """The parts of the calls that have an index; those of the ones that are lent it for reading are as without one."""
    given = case.table, case.shape, *case.index
    return {"building": built(case), "judging with": judged(*indexed.judge_with_index(*given, case.levels)),
            "reshaping with": reshaped(*indexed.reshape_with_index(*given, *lend(case.levels, *case.room), case.levels)),
            "summarising with": summarised(*indexed.summarise_with_index(*given, case.levels))}


def told(case):
    """The parts of a case's line, each a list of pieces."""
    parts = {
        "examining": [paper01.examine(case.table, levels=case.levels)], "reading": [read(case.table, case.levels)],
        "look-up": looked_up(case), "adorning": adorned(case), "judging": judged(*judging(case.table, case.shape, case.levels)),
        "reshaping": reshaped(*reshaping(case)), "summarising": summarised(*summary(case.table, case.shape, case.levels)),
        "moving a table": moved(paper01.move_table, case.table, case.moved[0], case.levels),
        "moving a shape": moved(paper01.move_shape, case.shape, case.moved[1], case.levels), "converting": converted(case),
        "reading a text": typed(case, case.text), **printed(case)}
    return {**parts, **(with_index(case) if case.index else {}), **({"again": chained(case)} if case.again else {})}


def line(parts):
    return ": ".join("; ".join(" ".join(map(str, piece)) for piece in part) for part in parts.values()) + "\n"
