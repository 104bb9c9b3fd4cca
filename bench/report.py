"""
Turns the figures of bench/driver.c, bench/trees.c, bench/index.c and bench/totals.c into tables: report.py FIGURES TREES INDEX TOTALS MACHINE COMPILER
[PAGE]. Prints them, and writes PAGE if named.
"""
import sys

CALLS = "examine", "judge", "reshape", "summarise"
PROGRAMS = "Silmezga", "former", "plain"
USUAL = "book", "fan", "sixteen", "64 types", "random", "one tree", "siblings"
HOSTILE = "many lines", "vain searches"
TAPES = USUAL + HOSTILE
DEEP = "eight levels", "siblings on 8"  # wide tapes that no narrow one is like
BARRED = tuple(tape for tape in TAPES if tape != "siblings")  # the tapes that the bars were set on
MANY_LINES = sum(341 ** level for level in range(1, 7))

# The largest ratio that is wanted at 1,024 rows, by call and tape, and the largest growth from 128 rows to 1,024.
BARS = {
    "judge": {"book": 1.0, "fan": 1.0, "sixteen": 1.6},
    "reshape": {"book": 1.0, "fan": 1.0, "sixteen": 1.6, "many lines": 1.0, "vain searches": 1.0},
    "summarise": {tape: 1.2 if tape == "sixteen" else 1.0 for tape in BARRED},
}
MOST_GROWTH = 9.0
# The most that judging with verdict 1 may take, for one with verdict 0 on the same table.
MOST_MISSING = 1.0
# The most that reading a typed tree of 16 entries may take, for examining and typing the table.
MOST_READING = 1.5
# The most that a call may take with an index, for the one without; and that testing an index may take, for building one.
MOST_WITH = 1.10
MOST_TESTING = 1.0
INDEXED = CALLS[1:]  # the calls that take an index
TEN = "ten trees"  # over one table
SPREAD = 0.05  # what the ratios of two runs of the same code differ by
KEPT, MISSING = ", verdict 0", ", verdict 1"  # how the names of such a table's two tapes end

ABOUT = """# Bench

Written by `bench/run --write`; the figures are of one run, on the machine beside them. Each is the processor time of one call: the median
of 11 rounds, in each of which every call is measured on every tape by a batch of about 2 ms or more. All are compiled for x86-64 at -O3,
Silmezga by the kit, the others by {compiler}. Before a tape is measured, every answer and every lent byte and
place of the three are held to each other; the run stops if any differs.

Silmezga stands beside two programs in plain C, with nothing proved. `bench/former.c` is the one that the bars were set on: one linear pass
over the table, sets of types, and lines that are walked to be counted. `bench/plain.c` is the best plain C that we can write: better
algorithms, and no machine-word tricks. Both are compiled once for each width, with the number of levels as a constant, so that neither
width costs the other anything; Silmezga has one body for both. Tables are narrow, and the bars are on narrow ones, where nothing else is said.

The figures of judging include, in all three programs, the numbers of every edge, whatever the verdict: the least and the greatest number of
children under a row of the parent entry's type, and of parents of a row of the entry's own.

{passed}

| tape | what it is | shape |
|---|---|---|
| book | a portfolio of lessees with three leases of three assets each | lease[lessee asset] |
| fan | a portfolio with one lessee, all leases under it, an asset each | lease[lessee asset] |
| sixteen | the book | 16 entries on 6 levels: lease[lessee lease[lease[..]] ..] |
| 64 types | trees of 64 rows, each of its own type: as many types as there may be | 8 entries on 3 levels, over types of 4 levels |
| random | a forest of a fixed seed: 6 levels, two labels on each but the first | 8 entries on 4 levels, over the most frequent types |
| one tree | one root, 6 levels, two rows below most rows | 6 entries, one below the other: the levels upside down |
| siblings | one way down to level 5, all other rows on level 6 beneath it: numbers that differ in the last component only, and no bar | meter[payment asset] |
| many lines | hostile: 1,024 rows that ask for {many:,} lines | 6 entries, one below the other |
| vain searches | hostile: 4 lines a row, which just fit, nearly each with 14 searches of its tree that find nothing | 16 entries |
| lone lease | the book, its last row a lease without an asset; judged, and added up, only | lease[lessee asset] for verdict 0, asset[lessee lease] for verdict 1 |
| lone sixteen | the same table; judged only | 16 entries on 6 levels: asset[lessee asset[asset[..]] ..] for verdict 0, a lease as the last entry for verdict 1 |
| eight levels | wide only: one root, two rows below each row down to level 7, one below each of those | 8 entries: the levels upside down |
| siblings on 8 | wide only: one way down to level 7, all other rows on level 8 beneath it | 3 entries: level 8, and beneath it levels 7 and 6 |
| long names | one way down to the last level, all other rows there beneath it, every row labelled insurance; typed only | 16 entries of the last type |
| same ends | hostile: ways down of documents under different roots, 60 types, wide 64; typed only | 16 entries of the types on the last level |
"""

GOES = """
## Where the time goes

Where a row meets the next is found when a table is examined, component by component in the lent bytes, up to the first that differs; on tape
"siblings" that is the sixth. No record is copied.

Silmezga names a run, the rows that agree to a level, by its first row. Lines are counted by runs, in at most two walks of all rows for each
entry, however many lines there are. When lines are written, the first and the next closest row are looked up, and each line asks every
child entry for them. A row's type is tried first where it was last found after a row of the same type, then at a place that its parent type and
its label give, and else searched for among the types listed so far.

Judging counts along eight edges in one walk of all rows, each edge in a place of its own, so that shapes of more than eight entries take two
walks. Every row ends the runs of some edges or of none, without a branch; rows deeper than where any run begins are only counted. The walks are the same
with every verdict. With verdict 1 the search for the row without a partner begins in its run; then the pairs of entries are looked at for a 2
only, for which full edges do not matter.

A call with an index examines and types the table as one without, and then holds the lists to it in two walks of all rows, back from the last: one over
the levels for the last descendants, one over the types for the next rows. That is what it takes more; reshaping takes less of it, since the lent next
rows stand for those that it finds itself without an index. Building compares the labels of each row with those of the rows behind it up to the next of
its type, because a table may have more types than are numbered elsewhere. So it is dear where rows of one type lie far apart, as on tape "64 types".

`bench/plain.c` is quicker because it does less. It numbers the labels, so that a type is looked up. It lists the rows of each type, and
the rows of the ancestor type that an edge's two types share cut their lists into runs, so that the numbers of an edge and the lines of an
entry are counted by a walk of these lists and not of all rows; for the numbers, two types are walked once, however many edges join them. And beneath a
line it walks only the child entries that have lines.
"""


SAME_TABLE = f"""One table, judged with two shapes of as many entries. Verdict 1 is to cost no more than verdict 0, also where it comes at the last entry and names
the last row, as here. The ratios of two runs of the same code differ by up to {SPREAD}, which the bar allows for."""

TREES = """Each tree has 16 entries on all levels of its width, of the table's deepest types, all that there are up to 16. Whole paths are the line that is printed of the shape;
the shortest names are as many last labels as tell the types apart. Examining and typing the table is what reading an empty text takes. The bar
is for every tape."""

INDEX = """An index is built by `build_index`, and lent to judging, reshaping and summarising, which test it. Before a tape is measured, the lists that are
built are held to plain C straight from their definition, and the answers with the index to those without, with every lent byte and place; the run stops
if any differs. All figures here are of `bench/index.c`, with and without the index in turns.

Testing is what judging an empty shape takes more with an index, since it is refused after the index is tested. Building is what `build_index` takes more
than examining. Testing is to take no more than building."""
INDEX_RATIOS = "The calls with a right index beside those without. The bar is for every tape."
INDEX_TREES = """Ten trees of two to six entries over one table, each judged and reshaped: twenty calls without an index, and the same with one that is built
once, the building counted. There is no bar."""
INDEX_GOES = """Where that time goes, by the figures above, each as often as there are calls. Every call examines, building too; typing is what judging an empty
shape takes more than examining; the rest is what the others leave: reading the shape, judging and writing lines."""

TOTALS = """A thousand tapes of so many rows are taken in one after the other, by `take_in`, which adds the values of the last entry of the shape. They are in memory, and
all of one kind and one shape, each with values of its own; no file is read. Before a kind is measured, every answer is held to that of the plain program. The
library of totals takes of the one below it only what that promises, so that it has each tape summarised, and reshaped to the entry alone for all rows of its type; where
the entry shows some of these and not others, also to its shape. `bench/plain.c` reads a tape once, counts the lines and writes none. There is no bar."""

WIDE = """The same tapes widened, and two that are eight levels deep. The ratio to narrow is the time over that on the narrow tape."""
MOVES = """The plain program tests the table with `bench/plain.c`, and copies record by record."""


def read(path):
    """The nanoseconds of each program, and the answer, by tape, rows and call, of narrow tables and of wide ones."""
    figures = {"narrow": {}, "wide": {}}
    for line in open(path):
        tape, width, rows, call, *measured, answer = line.rstrip("\n").split("\t")
        found = {program: float(ns) for program, ns in zip(PROGRAMS, measured) if ns != "-"}
        figures[width][tape, int(rows), call] = dict(found, answer=answer)
    return figures["narrow"], figures["wide"]


def read_trees(path):
    """Of each typed tree: tape, width, names, bytes of the text, and the nanoseconds of examining and typing and of reading."""
    lines = [line.rstrip("\n").split("\t") for line in open(path)]
    return [(tape, width, names, int(size), float(typing), float(reading)) for tape, width, names, size, typing, reading in lines]


def read_index(path):
    """The nanoseconds of each task of bench/index.c, by tape, width and rows."""
    figures = {}
    for line in open(path):
        tape, width, rows, task, ns = line.rstrip("\n").split("\t")
        figures.setdefault((tape, width, int(rows)), {})[task] = float(ns)
    return figures


def read_totals(path):
    """Of each kind of tape: tape, width, rows, the nanoseconds of Silmezga and of the plain program for a thousand of them, and the answer."""
    lines = [line.rstrip("\n").split("\t") for line in open(path)]
    return [(tape, width, int(rows), float(own), float(plain), answer) for tape, width, rows, own, plain, answer in lines]


def time(ns):
    if ns < 0:
        return "-" + time(-ns)
    for unit, size in ("ms", 1e6), ("µs", 1e3):
        if ns >= size:
            return f"{ns / size:.3g} {unit}"
    return f"{ns:.3g} ns"


def times(ratio):
    return f"{ratio:.2f}×" if ratio < 10 else f"{ratio:.0f}×"


def table(head, rows):
    return ["| " + " | ".join(r) + " |" for r in [head, ["---"] * len(head)] + rows]


def beside(figures, machine, wanted, narrow=None):
    """
    A row for each tape and call: the times, the ratios to the two programs, and the answer. Where the figures of narrow tables are named, the
    ratio of Silmezga's time to that on the narrow tape too, if there is one.
    """
    rows = []
    for tape, n in wanted:
        for call in CALLS:
            found = figures[tape, n, call]
            measured = [time(found["Silmezga"])]
            for program in PROGRAMS[1:]:
                measured += [time(found[program]), times(found["Silmezga"] / found[program])]
            if narrow is not None:
                on_narrow = narrow.get((tape, n, call))
                measured.append(times(found["Silmezga"] / on_narrow["Silmezga"]) if on_narrow else "")
            rows.append([tape, f"{n:,}", call] + measured + [found["answer"], machine])
    ratios = ["Silmezga", "former", "ratio to former", "plain", "ratio to plain"] + ["ratio to narrow"] * (narrow is not None)
    return table(["tape", "rows", "call", *ratios, "answer", "machine"], rows)


def moves(narrow, wide, machine):
    """A row for each tape of 1,024 rows that is widened or narrowed: the times of Silmezga and of the plain program, and their ratio."""
    rows = []
    for figures, call in (narrow, "widen"), (wide, "narrow"):
        for tape in TAPES + DEEP:
            if (tape, 1024, call) in figures:
                found = figures[tape, 1024, call]
                measured = [time(found["Silmezga"]), time(found["plain"]), times(found["Silmezga"] / found["plain"])]
                rows.append([tape, call] + measured + [found["answer"], machine])
    return table(["tape", "call", "Silmezga", "plain", "ratio to plain", "answer", "machine"], rows)


def grown(figures, tape, call, program):
    """The time at 1,024 rows over that at 128."""
    return figures[tape, 1024, call][program] / figures[tape, 128, call][program]


def growth(figures, machine):
    """A row for each tape and call: the growth of each program."""
    rows = [[tape, call] + [times(grown(figures, tape, call, p)) for p in PROGRAMS] + [machine] for tape in TAPES for call in CALLS]
    return table(["tape", "call", *PROGRAMS, "machine"], rows)


def held(found, bar):
    return [times(found), "pass" if found <= bar else "MISS"]


def ratio_bars(figures, machine):
    """A row for each bar on a ratio: the most that is wanted, and for each program what was measured and whether the bar is passed."""
    rows = []
    for call in BARS:
        for tape, bar in BARS[call].items():
            found = figures[tape, 1024, call]
            row = [tape, call, times(bar)]
            for program in PROGRAMS[1:]:
                row += held(found["Silmezga"] / found[program], bar)
            rows.append(row + [machine])
    return rows


def growth_bars(figures, machine):
    """A row for each tape: the call of Silmezga that grows most, the most that is wanted, and whether the bar is passed."""
    rows = []
    for tape in BARRED:
        most, call = max((grown(figures, tape, call, "Silmezga"), call) for call in CALLS)
        rows.append([tape, call, times(MOST_GROWTH)] + held(most, MOST_GROWTH) + [machine])
    return rows


def verdicts(figures, machine):
    """A row for each table that is judged with two shapes: the times with verdict 0 and with verdict 1, and their ratio for each program."""
    rows = []
    for name, n in sorted((tape.removesuffix(MISSING), n) for tape, n, _ in figures if tape.endswith(MISSING)):
        kept, missing = figures[name + KEPT, n, "judge"], figures[name + MISSING, n, "judge"]
        own, *others = [missing[program] / kept[program] for program in PROGRAMS]
        measured = [time(kept["Silmezga"]), time(missing["Silmezga"]), times(MOST_MISSING + SPREAD)] + held(own, MOST_MISSING + SPREAD)
        rows.append([name, f"{n:,}"] + measured + [times(ratio) for ratio in others] + [f"{kept['answer']}; {missing['answer']}", machine])
    programs = ["Silmezga, verdict 0", "verdict 1", "at most", "ratio", "", "ratio of former", "ratio of plain"]
    return table(["tape", "rows", *programs, "answers", "machine"], rows)


def tree_bars(trees, machine):
    """A row for each typed tree: the times, the most that is wanted, the ratio, and whether the bar is passed."""
    return [[tape, width, names, f"{size:,}", time(typing), time(reading), times(MOST_READING)] + held(reading / typing, MOST_READING) + [machine]
            for tape, width, names, size, typing, reading in trees]


def index_parts(ns):
    """What is no call of its own, of the figures of one table: building, testing, and typing the table."""
    return ns["build"] - ns["examine"], ns["empty with"] - ns["empty"], ns["empty"] - ns["examine"]


def testing_bars(index, machine):
    """A row for each table: the times of building and testing and what they are the differences of, the most that is wanted, and whether the bar is passed."""
    rows = []
    for (tape, width, n), ns in index.items():
        if "build" in ns:
            building, testing, _ = index_parts(ns)
            built = [time(ns["examine"]), time(ns["build"]), time(building)]
            tested = [time(ns["empty"]), time(ns["empty with"]), time(testing)]
            rows.append([tape, width, f"{n:,}"] + built + tested + [times(MOST_TESTING)] + held(testing / building, MOST_TESTING) + [machine])
    return rows


def beside_index(ns, task):
    """The times of a task without and with an index, and how many times the first the second is."""
    without, indexed = ns[task], ns[task + " with"]
    return [time(without), time(indexed)], indexed / without


def index_bars(index, machine):
    """A row for each table and call that takes an index: the times without and with it, the most that is wanted, the ratio, and whether the bar is passed."""
    rows = []
    for (tape, width, n), ns in index.items():
        for call in INDEXED:
            if call in ns:
                measured, ratio = beside_index(ns, call)
                rows.append([tape, width, f"{n:,}", call] + measured + [times(MOST_WITH)] + held(ratio, MOST_WITH) + [machine])
    return rows


def ten_trees(index, machine):
    """A row for each table that has ten trees: the times without and with an index, and their ratio."""
    rows = []
    for (tape, width, n), ns in index.items():
        if TEN in ns:
            measured, ratio = beside_index(ns, TEN)
            rows.append([tape, width, f"{n:,}"] + measured + [times(ratio), machine])
    return rows


def goes(whole, parts):
    """Where the time goes: the whole, each part of it with its share, and what they leave."""
    return [time(whole)] + [f"{time(part)}, {part / whole:.0%}" if part else "" for part in parts + [whole - sum(parts)]]


def ten_trees_parts(index, machine):
    """Two rows for each such table, without and with an index: where the time goes."""
    rows, calls = [], 2 * 10  # each of ten trees is judged and reshaped
    for (tape, width, n), ns in index.items():
        if TEN in ns:
            building, testing, typing = index_parts(ns)
            without = [calls * ns["examine"], calls * typing, 0, 0]
            indexed = [(calls + 1) * ns["examine"], calls * typing, building, calls * testing]
            for name, task, parts in ("without", TEN, without), ("with", TEN + " with", indexed):
                rows.append([tape, width, f"{n:,}", name] + goes(ns[task], parts) + [machine])
    return rows


def with_index(index, tested, indexed, machine):
    """The tables of the calls with an index, with what they say between them."""
    place = ["tape", "width", "rows"]
    built = ["examine", "build_index", "building", "judging an empty shape", "the same with an index", "testing"]
    shares = ["index", "whole", "examining", "typing", "building", "testing", "the rest", "machine"]
    lines = [INDEX, ""] + table([*place, *built, "at most", "testing to building", "", "machine"], tested) + [""]
    lines += [INDEX_RATIOS, ""] + table([*place, "call", "without", "with", "at most", "ratio", "", "machine"], indexed) + [""]
    lines += [INDEX_TREES, ""] + table([*place, "without", "with, built once", "ratio", "machine"], ten_trees(index, machine)) + [""]
    return lines + [INDEX_GOES, ""] + table([*place, *shares], ten_trees_parts(index, machine))


def thousand_tapes(totals, machine):
    """A row for each kind of tape: the times of a thousand of them and of one, of Silmezga and of the plain program, and the ratio."""
    rows = []
    for tape, width, n, own, plain, answer in totals:
        measured = [time(own), time(own / 1000), time(plain), time(plain / 1000), times(own / plain)]
        rows.append([tape, width, f"{n:,}"] + measured + [answer, machine])
    return table(["tape", "width", "rows", "Silmezga", "a tape", "plain", "a tape", "ratio to plain", "answer", "machine"], rows)


def count_passed(rows):
    return sum("pass" in row for row in rows)


def passed(ratios, growths, typed, tested, indexed):
    """How many bars are passed, in sentences."""
    former, plain = [sum(row[at] == "pass" for row in ratios) for at in (4, 6)]
    return (f"Of the {len(ratios)} bars on ratios Silmezga passes {former} against the former program, on which they were set, and {plain} "
            f"against the best plain C.\nOf the {len(growths)} bars on its own growth it passes {count_passed(growths)}, of the {len(typed)} on reading typed "
            f"trees {count_passed(typed)}, of the {len(indexed)} on calls with an index {count_passed(indexed)},\nof the {len(tested)} on testing an index "
            f"{count_passed(tested)}.")


def section(title, rows):
    return ["## " + title, ""] + rows + [""]


def main():
    path, trees, index, totals, machine, compiler, *page = sys.argv[1:]
    figures, wide = read(path)
    typed = tree_bars(read_trees(trees), machine)
    index = read_index(index)
    tested, indexed = testing_bars(index, machine), index_bars(index, machine)
    ratios, growths = ratio_bars(figures, machine), growth_bars(figures, machine)
    parts = section("Bars: ratios at 1,024 rows", table(["tape", "call", "at most", "to former", "", "to plain", "", "machine"], ratios))
    parts += section("Bars: greatest growth, 128 to 1,024 rows", table(["tape", "call", "at most", "Silmezga", "", "machine"], growths))
    parts += section("Judging with verdict 1 beside verdict 0", [SAME_TABLE, ""] + verdicts(figures, machine))
    head = ["tape", "width", "names", "bytes of text", "examining and typing", "reading", "at most", "ratio", "", "machine"]
    parts += section("Reading a typed tree over 1,024 rows", [TREES, ""] + table(head, typed))
    parts += section("With an index", with_index(index, tested, indexed, machine))
    parts += section("Totals over 1,000 tapes", [TOTALS, ""] + thousand_tapes(read_totals(totals), machine))
    parts += section("At 1,024 rows", beside(figures, machine, [(tape, 1024) for tape in USUAL]))
    parts += section("Wide tables at 1,024 rows", [WIDE, ""] + beside(wide, machine, [(tape, 1024) for tape in TAPES + DEEP], figures))
    parts += section("Widening and narrowing 1,024 rows", [MOVES, ""] + moves(figures, wide, machine))
    parts += section("Growth from 128 to 1,024 rows, 8 times as many", growth(figures, machine))
    parts += section("Hostile tables", beside(figures, machine, [(tape, 1024) for tape in HOSTILE]))
    parts += section("The other sizes", beside(figures, machine, [(tape, n) for tape in TAPES for n in (128, 256, 512)]))
    text = "\n".join(parts)
    print(text)
    if page:
        with open(page[0], "w") as out:
            out.write(ABOUT.format(compiler=compiler, many=MANY_LINES, passed=passed(ratios, growths, typed, tested, indexed)) + "\n" + text + GOES)


main()
