"""What is promised of a new table, of a summary, of the numbers of an edge, of a widened file, of a converted one, of a typed tree, of a printed line
and of an index, held to the second reading's own answers: demand 3 of the order, and requests 1, 3, 4, 5, 9, 10 and 12 of document 02."""
import collections, itertools, sys

import indexed, paper01, typed_trees


def links_kept(work, lines):
    """Demand 3: for each two entries, the pairs shown are the closest pairs."""
    return all(shown == wanted for shown, wanted in (work.pairs(lines, e, f) for e, f in work.pairs_of_entries()))


def is_made_up(work, lines):
    """Is there a pair of lines that request 12 rules out where the second answer is yes?"""
    return next(work.made_up(lines), None) is not None


def broken_figures(work, lines):
    """The promises that an entry's figures do not keep, in words."""
    verdict = work.verdict()
    for e, (shown, rows, copies, different) in enumerate(zip(*work.figures(lines))):
        if different > shown:
            yield f"entry {e} has more different rows than lines"
        if different > rows:
            yield f"entry {e} has more different rows than its type has rows"
        if copies + different != shown:
            yield f"entry {e} has copies and different rows that do not make its lines"
        if verdict[0] == 0 and different != rows:
            yield f"verdict 0, and entry {e} has not as many different rows as rows"


# ---- request 5: how many partners
def numbers_around(work, kind, other):
    """How many rows of another type each row of a type has in the tree around it, on the level where the two types meet."""
    level = work.types_meet(kind, other)
    trees = collections.Counter(work.rows[s].dewey[:level] for s in work.by_type[other])
    return {r: trees[work.rows[r].dewey[:level]] if level else 0 for r in work.by_type[kind]}


def is_range(numbers, least, greatest):
    """Does every number lie between the two, and is each of them reached?"""
    return all(least <= number <= greatest for number in numbers) and {least, greatest} <= set(numbers)


def broken_edge(work, e, children, least_children, greatest_children, least_parents, greatest_parents):
    """The promises that the numbers of an edge do not keep, in words. The children are those of each row of the parent entry's type."""
    parents = numbers_around(work, work.entries[e].type, work.entries[work.parent[e]].type)
    if not is_range(children.values(), least_children, greatest_children):
        yield f"edge {e} has a row with another number of children than between the two, or does not reach them"
    if not is_range(parents.values(), least_parents, greatest_parents):
        yield f"edge {e} has a row with another number of parents than between the two, or does not reach them"
    if work.full(e) != (least_children > 0):
        yield f"edge {e} is full with 0 as its least number of children, or not full with another"


def broken_beneath(work, lines, children):
    """The promise that the lines do not keep, in words: beneath each line stand of each child entry as many as its source row has children."""
    beneath = collections.Counter((dewey[:-1], e) for e, _, dewey in lines)
    for at, r, dewey in lines:
        for e, above in enumerate(work.parent):
            if above == at and beneath[dewey, e] != children[e][r]:
                yield f"a line of entry {at} has not as many lines of entry {e} beneath it as its source row has children"
                return


def broken_edges(work, lines):
    """The promises that the numbers of the edges do not keep, in words."""
    edges, verdict, used = work.edges(), work.verdict(), range(1, len(work.entries))
    children = {e: numbers_around(work, work.entries[work.parent[e]].type, work.entries[e].type) for e in used}
    for e, four in enumerate(zip(*edges)):
        if e in used:
            yield from broken_edge(work, e, children[e], *four)
        elif any(four):
            yield f"entry {e} has no edge, and numbers that are not 0"
    first = next((e for e in used if edges[2][e] == 0), None)
    if first != (verdict[1] if verdict[0] == 1 else None):
        yield "verdict 1 names another entry than the first whose least number of parents is 0, or one of the two is not there"
    yield from broken_beneath(work, lines, children)


def broken(work, lines):
    """The promises that the lines, their figures and the numbers of the edges do not keep, in words."""
    verdict, none = work.verdict(), work.none_apart()
    if verdict[0] == 0 and not links_kept(work, lines):
        yield "verdict 0, and a link is missing or made up"
    if none and is_made_up(work, lines):
        yield "the second answer is yes, and a link is made up"
    if verdict[0] == 1 and work.shows(lines, *verdict[1:]):
        yield "verdict 1 names a row that stands in a line of its entry"
    if verdict[0] == 0 and not none:
        yield "verdict 0, and the second answer is no"
    if verdict[0] == 2 and none:
        yield "verdict 2, and the second answer is yes"
    yield from broken_figures(work, lines)
    yield from broken_edges(work, lines)


# ---- request 9: a file and the same on more levels, whether it is sound or not
def longer(data, length, at, more):
    """Each record of so many bytes, with zeros put in at a byte of it."""
    return b"".join(data[i:i + at] + bytes(more) + data[i + at:i + length] for i in range(0, len(data), length))


def widened_table(table, levels, to):
    return longer(table, paper01.row_length(levels), paper01.entry_length(levels), 2 * (to - levels))


def widened_shape(shape, levels, to):
    return longer(shape, paper01.entry_length(levels), paper01.entry_length(levels), 2 * (to - levels))


def broken_moves(move, data, wide, levels, to):
    """What widening says of the one, and narrowing of the other, each with the bytes lent that it writes."""
    there, back = move(data, bytes(len(wide)), to, levels), move(wide, bytes(len(data)), levels, to)
    if there[0][0] == 0 and there[1] != wide:
        yield "widening does not put zeros behind the components or labels, or nothing else"
    if there[0][0] == 0 and back != (there[0], data):
        yield "narrowing a widened file does not restore it"
    if back[0][0] == 0 and there != (back[0], wide):
        yield "widening a narrowed file does not restore it"


def broken_table(table, wide, levels, to):
    """A table of whole rows."""
    if paper01.examine(table, levels=levels) != paper01.examine(wide, levels=to):
        yield "a widened table is not accepted, or refused, as the table is"
    elif paper01.examine(table, levels=levels)[0] == 0 and paper01.read_rows(table, levels) != paper01.read_rows(wide, to):
        yield "a widened table has other rows"
    lent = [(9,) * 6] * (paper01.MOST_TYPES + 1)
    if paper01.adorn(table, lent, levels=levels) != paper01.adorn(wide, lent, levels=to):
        yield "a widened table has other types or other children counts"
    places = [7] * (len(table) // paper01.row_length(levels))
    if indexed.build_index(table, places, places, levels) != indexed.build_index(wide, places, places, to):
        yield "a widened table has another index"
    yield from broken_moves(paper01.move_table, table, wide, levels, to)


def is_shape(shape, levels):
    try:
        return bool(paper01.read_shape(shape, levels))
    except paper01.Refused:
        return False


def broken_lines(table, shape, wide, wide_shape, levels, to):
    """A table of whole rows and a shape that is accepted."""
    if paper01.judge(table, shape, levels=levels) != paper01.judge(wide, wide_shape, levels=to):
        yield "a widened table and shape are judged otherwise"
    if paper01.summarise(table, shape, levels=levels) != paper01.summarise(wide, wide_shape, levels=to):
        yield "a widened table and shape have another summary"
    room, places = paper01.MOST_LINES, [7] * paper01.MOST_LINES
    reply, new, sources = paper01.reshape(table, shape, bytes(room * paper01.row_length(levels)), places, levels)
    if paper01.reshape(wide, wide_shape, bytes(room * paper01.row_length(to)), places, to) != (reply, widened_table(new, levels, to), sources):
        yield "the lines of a widened table and shape are not the lines, widened, with the same source list"


def broken_widths(table, shape, levels, to, lines=True):
    """The promises of request 9 that the table and the shape on more levels do not keep, in words. Many lines take long to compare."""
    whole = len(table) % paper01.row_length(levels) == 0
    wide = widened_table(table, levels, to) if whole else b""
    if whole:
        yield from broken_table(table, wide, levels, to)
    if len(shape) % paper01.entry_length(levels) == 0:
        wide_shape = widened_shape(shape, levels, to)
        yield from broken_moves(paper01.move_shape, shape, wide_shape, levels, to)
        if lines and whole and is_shape(shape, levels):
            yield from broken_lines(table, shape, wide, wide_shape, levels, to)


# ---- request 10: a table and a shape on the old range, and the same converted
def old_range(levels):
    return dict(levels=levels, labels=paper01.MOST_OLD_LABEL)


def same_where(these, those):
    """Are two of the ones equal exactly where the same two of the others are?"""
    return [these.index(x) for x in these] == [those.index(x) for x in those]


def renamed(names, new_of):
    """Labels with those that are in the list replaced."""
    return tuple(new_of.get(name, name) for name in names)


def with_new_labels(lines, new_of, levels):
    """Rows or lines on the old range, written with their new labels."""
    rows = paper01.keep_row_rules(lines, **old_range(levels))
    return b"".join(paper01.row_record(paper01.Row(row.dewey, *renamed([row.label], new_of), row.value), levels) for row in rows)


def closest_pairs(work):
    return {(r, s) for r in range(len(work.rows)) for s in range(r) if work.closest(r, s)}


def broken_files(table, shape, new, new_shape, new_of, levels):
    """What is wrong with the converted table and shape by themselves."""
    if paper01.examine(new, levels=levels)[0] or not is_shape(new_shape, levels):
        yield "a converted table or shape breaks a rule of the new range"
        return
    if new != with_new_labels(table, new_of, levels):
        yield "a converted table has other bytes than new labels for old ones"
    entries, after = paper01.read_shape(shape, **old_range(levels)), paper01.read_shape(new_shape, levels)
    if after != [paper01.Entry(entry.level, renamed(entry.type, new_of)) for entry in entries]:
        yield "a converted shape has other entries than new labels for old ones"
    rows, rows_after = paper01.read_rows(table, **old_range(levels)), paper01.read_rows(new, levels)
    kinds, kinds_after = ([*paper01.types_of_rows(r), *(entry.type for entry in e)] for r, e in ((rows, entries), (rows_after, after)))
    if not same_where(kinds, kinds_after):
        yield "types are equal that were not, or are not that were"
    if indexed.index_of(rows) != indexed.index_of(rows_after):
        yield "a converted table has another index"


def broken_new_lines(table, shape, new, new_shape, new_of, levels):
    """A table and a shape of its types."""
    if closest_pairs(paper01.Work(table, shape, **old_range(levels))) != closest_pairs(paper01.Work(new, new_shape, levels)):
        yield "closest rows do not stay closest, or others are"
    if paper01.summarise(table, shape, **old_range(levels)) != paper01.summarise(new, new_shape, levels=levels):
        yield "a converted table and shape have another summary"
    lent = bytes(paper01.MOST_LINES * paper01.row_length(levels)), [7] * paper01.MOST_LINES
    reply, written, sources = paper01.reshape(table, shape, *lent, **old_range(levels))
    size = reply[2] * paper01.row_length(levels)
    lines = with_new_labels(written[:size], new_of, levels) + written[size:]
    if paper01.reshape(new, new_shape, *lent, levels) != (reply, lines, sources):
        yield "the lines of a converted table and shape are not the lines, converted, with the same source list"


def broken_conversion(table, shape, numbers, levels=6, lines=True):
    """The promises of request 10 that a table and a shape do not keep where this list is accepted, in words. Many lines take long to compare."""
    reply, new, new_shape = paper01.convert(table, shape, numbers, bytes(len(table)), bytes(len(shape)), levels)
    if reply[0]:
        return
    given = table, shape, new, new_shape, dict(zip(numbers[::2], numbers[1::2])), levels
    yield from broken_files(*given)
    judged = paper01.judge(table, shape, **old_range(levels))
    if judged != paper01.judge(new, new_shape, levels=levels):
        yield "a converted table and shape are judged otherwise"
    elif judged[0] == 0 and lines:
        yield from broken_new_lines(*given)


# ---- request 1: a text read over a table, and a shape printed
def table_of(kinds, levels):
    """A table that holds these types, each in a tree of its own."""
    rows = [((tree, *[1] * k), kind[k]) for tree, kind in enumerate(kinds, 1) for k in range(len(kind))]
    return b"".join(paper01.row_record(paper01.Row(dewey, label, bytes(8)), levels) for dewey, label in rows)


def broken_line(table, shape, **width):
    """The promises of a printed line that a shape whose types the table holds does not keep, in words."""
    (number, _, size), line = typed_trees.print_tree(shape, bytes(typed_trees.MOST_TEXT), **width)
    if number:
        yield f"a shape is refused {number} as a line"
    elif typed_trees.read_tree(table, line[:size], shape, **width) != ((0, 0, len(shape) // paper01.entry_length(width["levels"])), shape):
        yield "a printed line does not read back to its shape"


def broken_typed(table, text, shape, **width):
    """The promises of request 1 that a text over a table, and a shape, do not keep, in words."""
    room = paper01.MOST_ENTRIES * paper01.entry_length(width["levels"])
    (number, _, count), read = typed_trees.read_tree(table, text, bytes(room), **width)
    if number == 0:
        read = read[:count * paper01.entry_length(width["levels"])]
        if paper01.judge(table, read, **width)[0]:
            yield "a typed tree is accepted, and its shape is refused"
        else:
            yield from broken_line(table, read, **width)
    try:
        holding = table_of(dict.fromkeys(entry.type for entry in paper01.read_shape(shape, **width)), width["levels"])
        paper01.Work(holding, shape, **width)
    except paper01.Refused:
        return
    yield from broken_line(holding, shape, **width)


# ---- request 4: an index beside the table
def broken_lists(rows, lasts, nexts):
    """What the two lists of some rows do not keep, in words: by their levels alone, and from the first row of a type on to its last."""
    levels = [len(row.dewey) for row in rows]
    deeper = (itertools.takewhile(lambda level, own=own: level > own, levels[r + 1:]) for r, own in enumerate(levels))
    if lasts != [r + len(list(those)) for r, those in enumerate(deeper)]:
        yield "a last descendant is not the last of the rows right behind a row that are deeper"
    by_type = collections.defaultdict(list)
    for r, kind in enumerate(paper01.types_of_rows(rows)):
        by_type[kind].append(r)
    if any([nexts[r] for r in several] != [*several[1:], indexed.NO_ROW] for several in by_type.values()):
        yield "going on to the next row does not come to all rows of a type in turn"


def three_calls(table, shape, lent, width):
    """What judging, summarising and reshaping answer, and leave of what is lent."""
    return (paper01.judge(table, shape, **width), paper01.summarise(table, shape, **width), paper01.reshape(table, shape, *lent, **width))


def three_with_index(table, shape, lists, lent, width):
    """The same of the calls with an index."""
    return (indexed.judge_with_index(table, shape, *lists, **width), indexed.summarise_with_index(table, shape, *lists, **width),
            indexed.reshape_with_index(table, shape, *lists, *lent, **width))


def refused_so(answers, number, place, lent):
    """Is this what the three calls refuse, with zeros elsewhere and nothing lent changed?"""
    zeros = paper01.in_lists([])
    return answers == ((number, place, (0,), False, zeros), (number, place, zeros), ((number, place, 0), *lent))


def with_other(numbers, at, value):
    return numbers[:at] + [value] + numbers[at + 1:]


def with_changes(lists, few):
    """The lists with one place changed, at each of the few rows and in each list; and with both changed, at two rows. The least changed row
    comes with them."""
    lasts, nexts = lists
    for r in few:
        for other in {lasts[r] ^ 1, lasts[r] ^ 256, 0} - {lasts[r]}:
            yield r, (with_other(lasts, r, other), nexts)
        for other in {nexts[r] ^ 1, nexts[r] ^ 256, 0} - {nexts[r]}:
            yield r, (lasts, with_other(nexts, r, other))
    for r, s in zip(few, few[::-1]):
        yield min(r, s), (with_other(lasts, r, lasts[r] ^ 1), with_other(nexts, s, nexts[s] ^ 2))


def too_short(lists, rows):
    """The lists cut to the rows, with a place fewer in the one or in the other; nothing where there are no rows."""
    fitting = [numbers[:rows] for numbers in lists]
    yield from ((fitting[0][:-1], fitting[1]), (fitting[0], fitting[1][:-1])) if rows else ()


def broken_built(table, lists, reply, **width):
    """What the builder does not keep, in words, where it is lent these lists and answers so."""
    number, place, rows = paper01.examine(table, **width)
    if reply[0] != (number, place, rows):
        yield "an index is not built, or refused, as the table is examined"
    elif number and reply[1:] != lists:
        yield "a builder that refuses changes what is lent"
    elif not number and [made[rows:] for made in reply[1:]] != [lent[rows:] for lent in lists]:
        yield "the builder writes past the rows"
    elif not number:
        yield from broken_lists(paper01.read_rows(table, **width), *(made[:rows] for made in reply[1:]))
        for short in too_short(reply[1:], rows):
            if indexed.build_index(table, *short, **width) != ((14, 0, 0), *short):
                yield "a list one place short is not refused 14 by the builder, or is changed"


def broken_use(table, shape, lists, few, **width):
    """What the calls with an index do not keep, in words: these lists are the table's, with some places more."""
    row, rows = paper01.row_length(width["levels"]), len(table) // paper01.row_length(width["levels"])
    lent = bytes(range(256)) * (row * paper01.MOST_LINES // 256), [7] * paper01.MOST_LINES
    answers = three_calls(table, shape, lent, width)
    other_rest = [numbers[:rows] + rest for numbers, rest in zip(lists, ([], [0, 9]))]
    if any(three_with_index(table, shape, each, lent, width) != answers for each in (lists, other_rest)):
        yield "with the index of its table a call answers something else than without"
    if answers[0][0] in (1, 2, 3, 4):
        return
    if not all(refused_so(three_with_index(table, shape, short, lent, width), 14, 0, lent) for short in too_short(lists, rows)):
        yield "a list one place short is not refused 14"
    for at, changed in with_changes(lists, few):
        if not refused_so(three_with_index(table, shape, changed, lent, width), 15, at, lent):
            yield f"lists that are wrong at row {at} first are not refused 15 with it"


def broken_index(table, shape, most=30, **width):
    """The promises of request 4 that a table and a shape do not keep, in words. Of more rows than the most, the last is changed alone."""
    rows = paper01.examine(table, **width)[2]
    lists = [5] * (rows + 2), [6] * (rows + 1)
    reply = indexed.build_index(table, *lists, **width)
    yield from broken_built(table, lists, reply, **width)
    few = range(rows) if rows <= most else [rows - 1]
    yield from broken_use(table, shape, reply[1:], few, **width)


# ---- all of them
def stop_at(broken, table, shape):
    for words in broken:
        sys.exit(f"table {table.hex()}, shape {shape.hex()}: {words}")


def hold_widths(table, shape, levels=6, lines=True):
    """Stops where a promise on widths is broken, with two levels more."""
    stop_at(broken_widths(table, shape, levels, levels + 2, lines), table, shape)


def hold_conversion(table, shape, numbers, levels=6, lines=True):
    """Stops where a promise on converted files is broken."""
    stop_at(broken_conversion(table, shape, numbers, levels, lines), table, shape)


def hold_typed(table, text, shape, **width):
    """Stops where a promise on typed trees and printed lines is broken."""
    for words in broken_typed(table, text, shape, **width):
        sys.exit(f"table {table.hex()}, text {text}, shape {shape.hex()}: {words}")


def hold_index(table, shape, **width):
    """Stops where a promise on an index is broken."""
    stop_at(broken_index(table, shape, **width), table, shape)


def hold(table, shape, **width):
    """Stops where a promise is broken. Of a call that is refused, or has more lines than a new table, nothing is promised."""
    try:
        work = paper01.Work(table, shape, **width)
        lines = work.lines(paper01.MOST_LINES)
    except paper01.Refused:
        return
    stop_at(broken(work, lines), table, shape)
