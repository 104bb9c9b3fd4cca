"""What the program reports of an answer for ./intake --explain, and what the command says, read from docs/HELP.md: a second reading.

`levels` is 6 for narrow files and 8 for wide ones.
"""
import pathlib, re, struct

import paper01, samples, table_text, typed_trees

PAGE = pathlib.Path(__file__).resolve().parents[2] / "docs" / "HELP.md"
# the names of labels for several rows, and the names that take `an`
SEVERAL = dict(zip(table_text.NAMES, (
    "portfolios lessees leases assets payments meters guarantors invoices sites insurances deposits vendors schedules residuals taxes services "
    "readings contacts currencies documents").split()))
WITH_AN = "asset", "invoice", "insurance"


def unpacked(form, held, at):
    return struct.unpack_from(form, held, struct.calcsize(form) * at)


def fields_of_row(table, at, levels):
    """Level, zero byte, label, a component for each level, value."""
    level, zero, label, *components, value = unpacked(f"<BBH{levels}Hq", table, at)
    return level, zero, label, components, value


def fields_of_entry(shape, at, levels):
    """Level, length of the type, zero bytes, a label for each level."""
    level, size, zero, *labels = unpacked(f"<BBH{levels}H", shape, at)
    return level, size, zero, labels


def names(labels):
    return " ".join(map(table_text.name, labels))


def row(table, _shape, at, levels):
    """A sound row: the labels from the root down are those of the rows whose Dewey numbers begin its own."""
    fields = [fields_of_row(table, i, levels) for i in range(at + 1)]
    deweys = [components[:level] for level, _, _, components, _ in fields]
    own = deweys[at]
    labels = [fields[deweys.index(own[:n])][2] for n in range(1, len(own) + 1)]
    return [f"row {at}: {table_text.dotted(own)}, {names(labels)}, value {fields[at][4]}"]


def broken_row(table, shape, at, levels):
    level, zero, label, components, value = fields_of_row(table, at, levels)
    own = f"row {at}: level {level}, zero byte {zero}, label {label}, number {table_text.dotted(components)}, value {value}"
    return (row(table, shape, at - 1, levels) if at else []) + [own]


def entry(_table, shape, at, levels):
    _, size, _, labels = fields_of_entry(shape, at, levels)
    return [f"entry {at}: {names(labels[:size])}"]


def broken_entry(_table, shape, at, levels):
    level, size, zero, labels = fields_of_entry(shape, at, levels)
    return [f"entry {at}: level {level}, length of its type {size}, zero bytes {zero}, labels {table_text.dotted(labels)}"]


def marked(text, at):
    """A typed tree on one line, and a mark under its byte `at`, or behind the last."""
    if len(text) > typed_trees.MOST_TEXT:
        return ["tree: more than 1,536 bytes"]
    return ["tree: " + "".join(chr(byte) if 32 <= byte < 127 else "?" for byte in text), " " * (len("tree: ") + at) + "^"]


def word_of_entry(text, at):
    """Where the word of an entry begins."""
    return [place for word, place in typed_trees.tokens(text) if word not in (b"[", b"]")][at]


def faults_of_text(text, number, place):
    """What a refusal names in a typed tree: a place, or an entry."""
    return marked(text, place if number == 12 else word_of_entry(text, place))


# what the numbers of an answer are, past its first two words
NAMED = {
    "verdict 1": (entry, row), "verdict 2": (entry, entry), "verdict 3": (entry, entry),
    "refused 3": (broken_row,), "refused 4": (row,), "refused 6": (broken_entry,), "refused 7": (entry,),
}


def facts(table, wanted, answer, levels):
    """What an answer names, a line each."""
    kind, places = " ".join(answer.split(" ")[:2]), answer.split(" ")[2:]
    *refusal, shape = samples.shaped(table, wanted, levels)
    if refusal[0] in (6, 12, 13):
        return faults_of_text(wanted.text, *refusal)
    return [line for tell, place in zip(NAMED.get(kind, ()), places) for line in tell(table, shape, int(place), levels)]


def second(table, wanted, answer, levels):
    """The second answer in the program's words, in a list; none beside a refusal."""
    if answer.startswith("refused"):
        return []
    none_apart = paper01.judge(table, samples.shaped(table, wanted, levels)[2], levels=levels)[3]
    return ["none apart" if none_apart else "some apart"]


def edges(table, wanted, answer, levels):
    """Of each entry but the first: the entry, the label of the entry above it, its own, and its four numbers; none beside a refusal."""
    if answer.startswith("refused"):
        return []
    work = paper01.Work(table, samples.shaped(table, wanted, levels)[2], levels)
    labels = [table_text.name(entry.type[-1]) for entry in work.entries]
    return [(e, labels[work.parent[e]], labels[e], *work.partner_numbers(e)) for e in range(1, len(labels))]


def reported(table, wanted, levels=6):
    """The answer, what it names, the second answer, and the edges, a line each."""
    answer = samples.listing(table, wanted, levels).split("\n")[0]
    given = table, wanted, answer, levels
    return [answer, *facts(*given), *second(*given), *(" ".join(map(str, ("edge", *edge))) for edge in edges(*given))]


def helped(answer):
    """What docs/HELP.md says of an answer, and what to do next, with its numbers in place of the letters."""
    words = answer.split(" ")
    for line in PAGE.read_text().split("\n"):
        cells = [cell.strip() for cell in line.split("|")]
        key = cells[1].strip("`").split(" ") if len(cells) == 5 else []
        if key[:2] == words[:2]:
            letters = {letter: number for letter, number in zip(key[2:], words[2:]) if letter.isupper()}
            return [re.sub(r"(?<![A-Za-z])[A-Z](?![A-Za-z])", lambda m: letters.get(m[0], m[0]), cell) for cell in cells[2:4]]
    raise ValueError(f"{PAGE.name} has nothing on {answer!r}")


# ---- how many belong together, in words
def so_many(label, least, greatest):
    """So many rows with a label, or a range of them."""
    one, several = (f"row labelled {label}", f"rows labelled {label}") if label.isdigit() else (label, SEVERAL[label])
    number = str(least) if least == greatest else f"{least} to {greatest}"
    return f"{number} {one if number == '1' else several}"


def each_has(label, other, least, greatest):
    """How many rows with another label belong to a row with this one."""
    row_of = f"a row labelled {label}" if label.isdigit() else f"{'an' if label in WITH_AN else 'a'} {label}"
    return f"{row_of} has {so_many(other, least, greatest)}"


def in_words(e, above, own, least_children, greatest_children, least_parents, greatest_parents):
    return f"edge {e}: {each_has(above, own, least_children, greatest_children)}, {each_has(own, above, least_parents, greatest_parents)}"


def tried_seconds():
    """(sample, tree, answer, second answer) of each row of the table in docs/HELP.md that shows the second answer."""
    return re.findall(r"(?m)^\| (\w+) \| (\S.*?) \| `(verdict .*?)` \| `((?:none|some) apart)` \|", PAGE.read_text())


def explained(table, wanted, levels=6):
    """What ./intake --explain says on standard error."""
    answer = reported(table, wanted, levels)[0]
    found = [helped(each) for each in (answer, *second(table, wanted, answer, levels))]
    lines = [answer, f"What it means: {found[0][0]}", *(f"  {fact}" for fact in facts(table, wanted, answer, levels))]
    lines += [f"Second answer: {means}" for means, _ in found[1:]]
    told = [f"  {in_words(*edge)}" for edge in edges(table, wanted, answer, levels)]
    lines += ["How many belong together:", *told] if told else []
    return "\n".join([*lines, f"What to do next: {' '.join(then for _, then in found)}"]) + "\n"
