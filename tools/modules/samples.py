"""The folders of samples/, and the texts of the program by paper01.py and typed_trees.py: listing, summary, types and the printed tree."""
import pathlib, re, typing

import paper01, table_text, typed_trees

FOLDER = pathlib.Path(__file__).resolve().parents[2] / "samples"
# the program's room for lines
ROOM = 1024
# the words of a summary's figures, for one and for several
FIGURES = ("line", "lines"), ("row", "rows"), ("copy", "copies"), ("different row", "different rows")


# the file of a typed tree, which is read where there is no shape file
TREE = "shape.txt"
# folders that came when what the gate runs the programs cases and folders on had landed: what a crate's gate run is given does not change by a sample that
# comes later, and one more among the cases would have those behind it lend other rooms. The program histories takes them in
LATER = "credits", "credits_wide", "value_beyond"


class Typed(typing.NamedTuple):
    """A wanted tree that is a text and no shape."""
    text: bytes


def folders():
    return sorted(path.parent for path in FOLDER.glob("*/listing"))


def read_files(folder):
    """The files of a folder that the program may read."""
    return [*folder.glob("*.tab"), *folder.glob(TREE)]


def line_of(file):
    """What a file says on its line: all of it, without one newline, or carriage return and newline, at its end."""
    return re.sub(rb"\r?\n\Z", b"", file)


def read(folder):
    """The table, the wanted tree and the levels that the program reads: the wide files where there is a wide table, and none of the others
    then; a typed tree where there is one and no shape file."""
    mark, levels = ("8", table_text.WIDE) if (folder / "source8.tab").exists() else ("", table_text.NARROW)
    source, shape = (folder / f"{name}{mark}.tab" for name in ("source", "shape"))
    table = source.read_bytes() if source.exists() else b""
    if (folder / TREE).exists() and not shape.exists():
        return table, Typed(line_of((folder / TREE).read_bytes())), levels
    return table, shape.read_bytes() if shape.exists() else b"", levels


def every():
    """(name, table, wanted tree, levels) of each folder."""
    for folder in folders():
        yield folder.name, *read(folder)


def samples():
    """(name, table, shape, levels) of each folder whose wanted tree is not typed."""
    return (sample for sample in every() if not isinstance(sample[2], Typed))


def by_name():
    """The table, the wanted tree and the levels of each folder, by its name."""
    return {name: sample for name, *sample in every()}


def shaped(table, wanted, levels):
    """The number and the place of a typed tree's refusal, zeros where it has none, and the shape; any other wanted tree is its own shape."""
    if not isinstance(wanted, Typed):
        return 0, 0, wanted
    lent = bytes(table_text.a_shape(levels).size)
    (number, place, entries), shape = typed_trees.read_tree(cut(table, b"", levels)[0], wanted.text, lent, levels)
    return number, place, shape[:entries * paper01.entry_length(levels)]


def of_shape(screen):
    """A screen of a table and a shape as one of a wanted tree of either kind: a typed tree is refused, or read first."""
    def of_wanted(table, wanted, levels=table_text.NARROW):
        number, place, shape = shaped(table, wanted, levels)
        return f"refused {number} {place}\n" if number else screen(table, shape, levels)
    of_wanted.__doc__ = screen.__doc__
    return of_wanted


def cut(table, shape, levels):
    """As much of each file as the program reads: a byte more than it may have."""
    return table[:table_text.a_table(levels).size + 1], shape[:table_text.a_shape(levels).size + 1]


@of_shape
def listing(table, shape, levels):
    """What the program prints: the verdict, the lines, and of each entry but the first how many belong together."""
    table, shape = cut(table, shape, levels)
    (number, place, _), _, _ = paper01.reshape(table, shape, bytes(paper01.row_length(levels) * ROOM), [0] * ROOM, levels)
    if number:
        return f"refused {number} {place}\n"
    work = paper01.Work(table, shape, levels)
    lines = [" ".join(map(str, ("verdict", *work.verdict())))]
    for entry, row, dewey in work.lines(ROOM):
        value = int.from_bytes(work.rows[row].value, "little", signed=True)
        lines.append(f"{table_text.dotted(dewey)} {entry} {table_text.name(work.entries[entry].type[-1])} {row} {value}")
    lines += [f"edge {entry} {' '.join(map(str, work.partner_numbers(entry)))}" for entry in range(1, len(work.entries))]
    return "\n".join(lines) + "\n"


def counted(number, one, several):
    return f"{number} {one if number == 1 else several}"


@of_shape
def summary(table, shape, levels):
    """A line for each entry, indented by its level: its number and label, lines, source rows, copies and different rows."""
    number, place, figures = paper01.summarise(table, shape, levels=levels)
    if number:
        return f"refused {number} {place}\n"
    text = ""
    for at, (entry, *four) in enumerate(zip(paper01.read_shape(shape, levels), *figures)):
        said = (counted(figure, *words) for figure, words in zip(four, FIGURES))
        text += f"{'  ' * (entry.level - 1)}{at} {table_text.name(entry.type[-1])}: {', '.join(said)}\n"
    return text


@of_shape
def printed(table, shape, levels):
    """The wanted tree as a line of text."""
    (number, place, size), line = typed_trees.print_tree(cut(table, shape, levels)[1], bytes(typed_trees.MOST_TEXT), levels)
    return f"refused {number} {place}\n" if number else f"{line[:size].decode()}\n"


def types(table, levels=table_text.NARROW):
    """A line for each type, indented by its level and with the types beneath it behind: its label and rows, and how many of them a row of
    the type above has at least and at most."""
    (number, place, count), found = paper01.adorn(table, [None] * paper01.MOST_TYPES, levels=levels)
    if number:
        return f"refused {number} {place}\n"

    def beneath(parent):
        return "".join(line(*found[k]) + beneath(k) for k in range(count) if found[k][0] == parent)

    def line(parent, label, level, rows, least, greatest):
        said = f"{'  ' * (level - 1)}{table_text.name(label)} {counted(rows, 'row', 'rows')}"
        if level > 1:
            above = table_text.name(found[parent][1])
            said += f", {least}..{greatest} under {'an' if above[0] in 'aeiou' else 'a'} {above}"
        return said + "\n"

    return beneath(paper01.MOST_TYPES)
