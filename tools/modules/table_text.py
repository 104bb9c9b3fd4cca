"""Tables and shapes as text, for people who have no gateway: an indented list, a row or an entry on each line.

A row is a label and a value (0 where none is said), `lease 200`. An entry is a type, `/portfolio/lessee/lease`. A level is two spaces
or one tab; what follows a # is passed over, and so is a line that says nothing. Dewey numbers come from the position. Records are
written by cases.py; limits are those of paper01.py. A file is narrow, with six levels, or wide, with eight: `levels` says which.
"""
import re, sys, typing

import cases, paper01
from paper01 import MOST_ENTRIES, MOST_LINES, MOST_ROWS, entry_length, row_length, u16

NAMES = ("portfolio lessee lease asset payment meter guarantor invoice site insurance deposit vendor schedule residual tax service "
         "reading contact currency document").split()
NARROW, WIDE = 6, 8
LABELS, PLACE = paper01.MOST_LABEL, 4
LEAST_VALUE, GREATEST_VALUE = -2**63, 2**63 - 1


class Most(typing.NamedTuple):
    """The most bytes of a file, and why it has no more."""
    size: int
    why: str


def a_table(levels):
    return Most(row_length(levels) * MOST_ROWS, f"a table has at most {MOST_ROWS:,} rows (a new one, with its source list, {MOST_LINES:,})")


def a_shape(levels):
    return Most(entry_length(levels) * MOST_ENTRIES, f"a shape has at most {MOST_ENTRIES} entries")


def a_new_table(levels):
    return Most(row_length(levels) * MOST_LINES, f"a new table has at most {MOST_LINES:,} lines")


A_SOURCE_LIST = Most(PLACE * MOST_LINES, f"a source list has at most {MOST_LINES:,} places")
A_TEXT = Most(2**20, "no more is read of a text")


class Wrong(Exception):
    """What is wrong with a text, and the number of its line; 0 for the text as a whole."""

    def __init__(self, line, what):
        super().__init__(line, what)
        self.line, self.what = line, what


# ---- words
def whole(word):
    """The number that a word says, or None. Numbers of more than 20 digits are out of every range, and stay so when cut."""
    if not re.fullmatch(r"[+-]?[0-9]+", word):
        return None
    digits = word.lstrip("+-").lstrip("0")[:20] or "0"
    return -int(digits) if word[0] == "-" else int(digits)


def name(label):
    return NAMES[label - 1] if 1 <= label <= len(NAMES) else str(label)


def path(kind):
    """A type as its labels from the root."""
    return "".join("/" + name(label) for label in kind)


def read_label(line, word):
    if word in NAMES:
        return NAMES.index(word) + 1
    number = whole(word)
    if number is None:
        raise Wrong(line, f'unknown label "{word}": a label is a number from 1 to {LABELS}, or one of {", ".join(NAMES)}')
    if not 1 <= number <= LABELS:
        raise Wrong(line, f"label {word} is out of range: labels are 1 to {LABELS}")
    return number


def read_value(line, word):
    number = whole(word)
    if number is None:
        raise Wrong(line, f'"{word}" is no value: a value is a whole number')
    if not LEAST_VALUE <= number <= GREATEST_VALUE:
        raise Wrong(line, f"value {word} is out of range: values are {LEAST_VALUE} to {GREATEST_VALUE}")
    return number


def read_type(line, word, kinds, levels):
    """A type from its labels: all of them where there is a slash or no table, and otherwise the last."""
    labels = tuple(read_label(line, part) for part in word[word.startswith("/"):].split("/"))
    if len(labels) > levels:
        raise Wrong(line, f"{word} has {len(labels)} labels: a type has at most {levels}{or_wide(levels)}")
    if "/" in word or kinds is None:
        return labels
    ending = [k for k in kinds if k[-1] == labels[0]]
    if not ending:
        raise Wrong(line, f"no type of the table ends with {word}")
    if len(ending) > 1:
        raise Wrong(line, f"{len(ending)} types of the table end with {word}: write {' or '.join(map(path, ending))}")
    return ending[0]


# ---- from text
def or_wide(levels):
    """What is said beside a limit of narrow files that wide ones do not have."""
    return f", and {WIDE} in a wide file" if levels == NARROW else ""


def read_level(line, said):
    indent = said[:len(said) - len(said.lstrip())]
    if not re.fullmatch("(\t|  )*", indent):
        raise Wrong(line, "the indent is no whole number of levels: a level is two spaces or one tab")
    return len(indent.replace("  ", "\t")) + 1


def items(text, levels):
    """The line number, level and words of each line that says something."""
    before = 0
    for line, words in enumerate(text.split("\n"), 1):
        said = words.split("#")[0]
        if not said.strip():
            continue
        level = read_level(line, said)
        if level > before + 1:
            raise Wrong(line, f"the indent is too deep: level {level}, where {before + 1} is the deepest that can follow")
        if level > levels:
            raise Wrong(line, f"more than {levels} levels{or_wide(levels)}")
        yield line, level, said.split()
        before = level


def table_from(text, levels=NARROW):
    """The bytes of a table."""
    rows, dewey = [], ()
    for line, level, words in items(text, levels):
        if len(rows) == MOST_ROWS:
            raise Wrong(line, f"more than {MOST_ROWS:,} rows")
        if len(words) > 2:
            raise Wrong(line, f'a row is a label and a value, and "{words[2]}" is neither')
        label, value = read_label(line, words[0]), read_value(line, (words + ["0"])[1])
        dewey = dewey[:level - 1] + ((dewey + (0,) * level)[level - 1] + 1,)
        rows.append(cases.row_bytes(dewey, label, value.to_bytes(8, "little", signed=True), levels))
    return b"".join(rows)


def shape_from(text, kinds=None, plain=lambda line, label: None, levels=NARROW):
    """The bytes of a shape. Where the types of a table are given, a type may be named by its last label alone; otherwise `plain` is told
    of each label without a slash, which is then a type of one label."""
    entries = []
    for line, level, words in items(text, levels):
        if len(entries) == MOST_ENTRIES:
            raise Wrong(line, f"more than {MOST_ENTRIES} entries")
        if entries and level == 1:
            raise Wrong(line, "a shape is one tree: every entry but the first is indented")
        if len(words) > 1:
            raise Wrong(line, f'an entry is a type, and "{words[1]}" is one word too many')
        entries.append(cases.entry_bytes(level, read_type(line, words[0], kinds, levels), levels))
        if kinds is None and "/" not in words[0]:
            plain(line, words[0])
    if not entries:
        raise Wrong(0, f"no entry: a shape has 1 to {MOST_ENTRIES}")
    return b"".join(entries)


# ---- from bytes: what is sound, then what is wrong with the rest, or None
def components(record, levels):
    return tuple(u16(record, 4 + 2 * k) for k in range(levels))


def dotted(dewey):
    return ".".join(map(str, dewey))


def follows(dewey, before):
    return dewey == before + (1,) or any(dewey == before[:k] + (before[k] + 1,) for k in range(len(before)))


def row_fault(record, before, levels):
    """The row rule that a record breaks after a row of the Dewey number `before`, () for none."""
    level, label, numbers = record[0], u16(record, 2), components(record, levels)
    if not 1 <= level <= levels:
        return f"its level is {level}, and levels are 1 to {levels}"
    if record[1]:
        return f"its byte 1 is {record[1]}, and must be zero"
    if not 1 <= label <= LABELS:
        return f"its label is {label}, and labels are 1 to {LABELS}"
    if any(numbers[level:]):
        return f"its Dewey number {dotted(numbers)} goes on past its level, {level}"
    if not follows(numbers[:level], before):
        return f"its Dewey number {dotted(numbers[:level])} does not follow {dotted(before)}" if before else \
            f"its Dewey number is {dotted(numbers[:level])}, and the first row has 1"
    return None


def entry_fault(record, before, levels):
    """The rule that a shape's record breaks after an entry of the level `before`, 0 for none."""
    level, size, names = record[0], record[1], components(record, levels)
    if not 1 <= level <= levels:
        return f"its level is {level}, and levels are 1 to {levels}"
    if not 1 <= size <= levels:
        return f"its type has the length {size}, and lengths are 1 to {levels}"
    if u16(record, 2):
        return "its bytes 2 and 3 must be zero"
    if not all(1 <= label <= LABELS for label in names[:size]):
        return f"a label of its type is not 1 to {LABELS}"
    if any(names[size:]):
        return f"it has labels past the length of its type, {size}"
    if not before:
        return None if level == 1 else f"its level is {level}, and the first entry has level 1"
    if not 2 <= level <= before + 1:
        return f"its level is {level}, and 2 to {before + 1} can follow"
    return None


def too_long(data, most):
    """What is wrong with a file that is longer than the most that it may have."""
    return f"longer than {most.size:,} bytes: {most.why}" if len(data) > most.size else None


def cut_off(data, width, what):
    """What is wrong with a length that is no whole number of records."""
    return f"the last {len(data) % width} bytes are no whole {what} of {width} bytes" if len(data) % width else None


def rows_of(data, levels):
    """(Dewey number, label, value) of each row before the first that breaks a rule."""
    rows, before, length = [], (), row_length(levels)
    for i in range(len(data) // length):
        record = data[length * i:length * (i + 1)]
        fault = row_fault(record, before, levels)
        if fault:
            return rows, f"row {i} breaks a rule: {fault}"
        before = components(record, levels)[:record[0]]
        rows.append((before, u16(record, 2), int.from_bytes(record[-8:], "little", signed=True)))
    return rows, cut_off(data, length, "row")


def entries_of(data, levels):
    """(level, type) of each entry before the first that breaks a rule."""
    entries, before, length = [], 0, entry_length(levels)
    for i in range(len(data) // length):
        record = data[length * i:length * (i + 1)]
        fault = entry_fault(record, before, levels)
        if fault:
            return entries, f"entry {i} breaks a rule: {fault}"
        before = record[0]
        entries.append((before, components(record, levels)[:record[1]]))
    return entries, cut_off(data, length, "entry")


def kinds_of(data, levels=NARROW):
    """The types of a table, for naming them in a shape."""
    return cases.types([(dewey, label) for dewey, label, _ in rows_of(data, levels)[0]])


# ---- to text
def item(level, said, remarks):
    return "  " * (level - 1) + said + ("  # " + ", ".join(remarks) if remarks else "") + "\n"


def show_table(data, numbers=False, sources=None, levels=NARROW):
    """A table as text, and what is wrong with it. With a source list it is a new table, and each line says its entry and source row."""
    most = a_table(levels) if sources is None else a_new_table(levels)
    rows, fault = rows_of(data[:most.size], levels)
    marks = [int.from_bytes(sources[PLACE * i:PLACE * (i + 1)], "little") for i in range(len(sources) // PLACE)] if sources else []
    lines = []
    for i, (dewey, label, value) in enumerate(rows):
        remarks = [f"row {i}", dotted(dewey)] if numbers else []
        remarks += [f"entry {marks[i] >> 16}", f"source row {marks[i] & 65535}"] if i < len(marks) else []
        lines.append(item(len(dewey), f"{name(label)} {value}", remarks))
    if not fault and sources is not None and len(sources) != PLACE * len(rows):
        fault = f"a source list of {len(sources)} bytes for {len(rows)} lines: {PLACE} bytes a line are {PLACE * len(rows)}"
    return "".join(lines), too_long(data, most) or fault


def show_shape(data, numbers=False, levels=NARROW):
    """A shape as text, and what is wrong with it."""
    most = a_shape(levels)
    entries, fault = entries_of(data[:most.size], levels)
    if not data:
        fault = f"no entry: a shape has 1 to {MOST_ENTRIES}"
    lines = [item(level, path(kind), [f"entry {i}"] if numbers else []) for i, (level, kind) in enumerate(entries)]
    return "".join(lines), too_long(data, most) or fault


# ---- the width, for the commands
def add_width(words):
    """The words that say a width."""
    one = words.add_mutually_exclusive_group()
    one.add_argument("--wide", dest="levels", action="store_const", const=WIDE, help=f"{WIDE} levels; said by a file's name that ends with 8.tab too")
    one.add_argument("--narrow", dest="levels", action="store_const", const=NARROW, help=f"{NARROW} levels, whatever the file's name is")


def levels_said(said, *files):
    """The levels that were said, or else those that the names of the files say."""
    return said.levels or (WIDE if any(file.endswith("8.tab") for file in files if file) else NARROW)


# ---- files, for the commands; "-" is standard input or output
def read_bytes(file, most):
    """At most one byte more than the most that the file may have, so that what has no end is not read to it."""
    if file == "-":
        return sys.stdin.buffer.read(most.size + 1)
    with open(file, "rb") as f:
        return f.read(most.size + 1)


def read_text(file):
    data = read_bytes(file, A_TEXT)
    if too_long(data, A_TEXT):
        raise Wrong(0, too_long(data, A_TEXT))
    try:
        return data.decode("utf-8-sig")
    except UnicodeDecodeError as e:
        raise Wrong(data.count(b"\n", 0, e.start) + 1, "this is no text in UTF-8")


def write_bytes(file, data):
    if file == "-":
        sys.stdout.buffer.write(data)
        return
    with open(file, "wb") as f:
        f.write(data)


def place(file, line=0):
    """A file, and the line in it where there is one, before what is said of it."""
    return f"{'standard input' if file == '-' else file}:{f'{line}:' if line else ''}"


def stop(file, what, line=0):
    """Ends the command with one plain line that names the file."""
    sys.exit(f"{place(file, line)} {what}")


def convert(text_file, data_file, make):
    """Makes bytes from a text; nothing is written where the text is wrong."""
    try:
        data = make(read_text(text_file))
        write_bytes(data_file, data)
    except Wrong as e:
        stop(text_file, e.what, e.line)
    except OSError as e:
        stop(e.filename or data_file, e.strerror)
