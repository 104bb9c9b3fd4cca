"""Random tables and shapes from a seed: sound, damaged, cut off, hostile, and at the limits. Used to compare readings of document 01.

A table is given as Dewey numbers with labels, a shape as levels with types; `case` gives both as bytes. The width of the files is
given by `levels` and the largest label by `labels`.
"""


def row_bytes(dewey, label, value, levels=6):
    out = bytes([len(dewey), 0]) + label.to_bytes(2, "little")
    out += b"".join(x.to_bytes(2, "little") for x in (tuple(dewey) + (0,) * levels)[:levels])
    return out + value


def entry_bytes(level, kind, levels=6):
    out = bytes([level, len(kind), 0, 0])
    return out + b"".join(x.to_bytes(2, "little") for x in (tuple(kind) + (0,) * levels)[:levels])


# ---- tables
def forest(rng, rows, names, levels=6, deep=None):
    """A random sound table: each row goes on from the one before."""
    deep = deep or rng.randint(1, levels)
    out = []
    for _ in range(rows):
        if not out:
            dewey = (1,)
        else:
            before = out[-1][0]
            cut = rng.randint(0, len(before))
            if cut == len(before) and cut < deep:
                dewey = before + (1,)
            else:
                cut = min(max(cut, 1), len(before)) - 1 if rng.random() < 0.15 else rng.randint(max(0, len(before) - 2), len(before) - 1)
                dewey = before[:cut] + (before[cut] + 1,)
        # few labels a level, so that types repeat
        out.append((dewey, rng.choice(names[(len(dewey) - 1) % len(names)])))
    return out


def regular(rng, rows, levels=6):
    """A sound table whose rows of one type have children of the same types, with a few left out, or each of one type alone."""
    kinds = [(rng.randint(1, 9),)]
    last = rng.choice([1, 3, 3, 3])
    for _ in range(rng.randint(2, 5) if last > 1 else levels - 1):
        above = rng.choice([k for k in kinds[-last:] if len(k) < levels] or kinds[:1])
        kinds.append(above + (rng.randint(1, 9),))
    kinds = list(dict.fromkeys(kinds))
    most = {k: rng.choice([1, 2, 3, 3]) for k in kinds}
    left_out = {k: rng.choice([0, 0.3, 0.6]) for k in kinds}
    alone = rng.random() < 0.4
    out = []

    def put(kind, dewey):
        out.append((dewey, kind[-1]))
        beneath = [k for k in kinds if k[:-1] == kind]
        beneath = [rng.choice(beneath)] if alone and beneath else beneath
        beneath = [k for k in beneath for _ in range(rng.randint(1, most[k])) if rng.random() >= left_out[k]]
        for at, k in enumerate(beneath, 1):
            put(k, dewey + (at,))

    for tree in range(rng.choice([1, 1, 2, 3])):
        put(kinds[0], (tree + 1,))
    return out[:rows]


def kinds_of(rows):
    """Each row's type, by its Dewey number."""
    label = dict(rows)
    return {d: tuple(label[d[:i]] for i in range(1, len(d) + 1)) for d in label}


def types(rows):
    """The types by first row."""
    return list(dict.fromkeys(kinds_of(rows).values()))


def scarce(rows):
    """The types of which some row of the type above has no child."""
    kind = kinds_of(rows)
    parents = {(d[:-1], k) for d, k in kind.items()}
    return [k for k in types(rows) if any(j == k[:-1] and (d, k) not in parents for d, j in kind.items())]


# ---- shapes
def near(rng, kinds, k):
    """A type right beneath k, above it, or right beneath the type above it."""
    ways = [[j for j in kinds if j[:-1] == k], [k[:i] for i in range(1, len(k))], [j for j in kinds if j != k and j[:-1] == k[:-1]]]
    return rng.choice(rng.choice([w for w in ways if w] or [kinds]))


def shape(rng, kinds, entries, levels=6, seldom=()):
    """A sound shape with siblings and with chains that go down and up the tree of the types."""
    out = [(1, rng.choice(kinds))]
    k = rng.choice(seldom or kinds)
    beside = [j for j in seldom if j != k and j[:-1] == k[:-1]]
    if beside and rng.random() < 0.7:
        # two types beneath one that seldom has both
        out = [(1, k[:-1]), (2, k), (2, rng.choice(beside))]
    elif len(k) > 2 and rng.random() < 0.9:
        # down to a type that some rows lack, then up past where the chain began
        top = rng.randint(1, len(k) - 2)
        out = [(1, k[:rng.randint(top + 1, len(k) - 1)]), (2, k), (3, k[:top])]
    while len(out) < entries:
        level = rng.choice([min(out[-1][0] + 1, levels), rng.randint(2, min(out[-1][0] + 1, levels))])
        parent = [k for l, k in out if l == level - 1][-1]
        out.append((level, near(rng, kinds, parent) if rng.random() < 0.8 else rng.choice(kinds)))
    return out[:entries]


# ---- both
def hostile(rng, levels=6):
    """A table and a shape of many lines: many rows beneath one, and a chain that goes up and down between them."""
    a, b = (1,), (1, 2)
    rows = [((1,), 1)] + [((1, i + 1), 2) for i in range(rng.randint(3, 15 if levels < 8 else 7))]
    entries = [(l, b if l % 2 else a) for l in range(1, rng.randint(3, levels) + 1)]
    return rows, entries + [(rng.randint(2, 3), rng.choice([a, b])) for _ in range(rng.randint(0, 3))]


def limit(rng, levels=6):
    """A table and a shape at one of document 01's limits, or one past it."""
    past = rng.randint(0, 1)
    which = rng.choice(["rows", "types", "levels", "entries", "lines"])
    if which == "rows":
        # so many rows take long to check, so one of the first breaks a rule
        rows = [((i + 1,), 1) for i in range(1024 + past)]
        rows[rng.randint(0, 9)] = ((2, 2), 1)
        return rows, [(1, (1,))]
    if which == "types":
        names = [x for x in range(1, 64 + past * rng.randint(1, 4)) for _ in range(rng.choice([1, 1, 2]))]
        rows = [((1,), 1)] + [((1, i), x) for i, x in enumerate(names, 1)]
        return rows, shape(rng, types(rows), 3, levels)
    if which == "levels":
        names = [rng.randint(1, 9) for _ in range(levels + 1)]
        rows = [((1,) * i, names[i - 1]) for i in range(1, levels + 1 + past * rng.randint(0, 1))]
        entries = [(i, tuple(names[:rng.randint(1, levels)])) for i in range(1, levels + 1 + past * rng.randint(0, 1))]
        return rows, entries[:-1] + [(entries[-1][0], tuple(names[:levels + past * rng.randint(0, 1)]))]
    if which == "entries":
        rows = regular(rng, 8, levels)
        return rows, shape(rng, types(rows), 16 + past, levels)
    # 1 + 15 + 15 + 225 + 225 + 3,375 lines, then 225 and 15 more: 4,096
    a, b = (1,), (1, 2)
    rows = [((1,), 1)] + [((1, i + 1), 2) for i in range(15)]
    return rows, [(1, a), (2, b), (3, a), (4, b), (5, a), (6, b), (4, b), (2, b)] + [(2, a)] * past


def damaged(rng, data):
    """One to three bytes changed, or the end cut off or lengthened."""
    data = bytearray(data)
    way = rng.random()
    if way < 0.2 and data:
        return bytes(data[:rng.randrange(len(data))])
    if way < 0.3:
        return bytes(data) + bytes(rng.randrange(4) for _ in range(rng.randrange(1, 30)))
    for _ in range(rng.randint(1, 3)):
        if data:
            i = rng.randrange(len(data))
            data[i] = rng.choice([0, 1, 2, 3, 7, 255, data[i] ^ 1, (data[i] + 1) % 256, rng.randrange(256)])
    return bytes(data)


def ordinary(rng, grown, most_rows=14, most_entries=6, levels=6, labels=99):
    """A table, grown row by row or a regular one, and a shape of its types; now and then with a label, a type or a level that is off."""
    if grown:
        names = [rng.sample(range(1, 9), rng.choice([1, 1, 2])) for _ in range(levels)]
        rows = forest(rng, rng.randint(1, most_rows) if rng.random() > 0.05 else 0, names, levels)
    else:
        rows = regular(rng, most_rows, levels)
    if rng.random() < 0.1:
        # the largest label, or one past it, in place of some other
        new = {rng.randint(1, 9): rng.choice([labels, labels, labels + 1, labels + 256])}
        rows = [(d, new.get(l, l)) for d, l in rows]
    kinds = types(rows) or [(1,)]
    if rng.random() < 0.08:
        kinds = kinds + [(rng.choice([rng.randint(1, 9), labels, labels + 1]),)]
    entries = shape(rng, kinds, rng.randint(3, most_entries) if rng.random() > 0.1 else 1, levels, scarce(rows))
    if rng.random() < 0.08:
        i = rng.randrange(len(entries))
        entries[i] = (rng.randint(0, levels + 1), entries[i][1])
    return rows, entries


def case(rng, most_rows=14, most_entries=6, levels=6, labels=99, harm=0.35):
    """A table and a shape as bytes."""
    sort = rng.random()
    if sort < 0.06:
        rows, entries = limit(rng, levels)
    elif sort < 0.11:
        rows, entries = hostile(rng, levels)
    else:
        rows, entries = ordinary(rng, sort < 0.36, most_rows, most_entries, levels, labels)
    table = b"".join(row_bytes(d, l, rng.randbytes(8), levels) for d, l in rows)
    wanted = b"".join(entry_bytes(l, k, levels) for l, k in entries)
    if sort < 0.06:
        # now and then a byte more
        return table + bytes(rng.random() < 0.2), wanted + bytes(rng.random() < 0.1)
    if sort >= 0.11 and rng.random() < harm:
        if rng.random() < 0.6:
            table = damaged(rng, table)
        else:
            wanted = damaged(rng, wanted)
    return table, wanted


# ---- request 10: a table and a shape on the old range, and a list of pairs
def with_labels(data, width, at, count, other):
    """Whole records with their labels, so many from a byte on, replaced; zeros stay."""
    data = bytearray(data)
    for start in range(0, len(data) - len(data) % width, width):
        for i in range(start + at, start + at + 2 * count, 2):
            label = int.from_bytes(data[i:i + 2], "little")
            data[i:i + 2] = other.get(label, label).to_bytes(2, "little")
    return bytes(data)


def occurring(table, shape, levels=6):
    """The labels of whole records, and zeros."""
    places = [(table, i + 2) for i in range(0, len(table), 12 + 2 * levels)]
    places += [(shape, i + 4 + 2 * k) for i in range(0, len(shape), 4 + 2 * levels) for k in range(levels)]
    return {int.from_bytes(data[i:i + 2], "little") for data, i in places}


def off(rng, numbers, *used):
    """The numbers of a list with an old label or a new one that breaks a rule, a pair twice, or a number too few or too many."""
    at = rng.randrange(len(numbers)) if numbers else 0
    bad = [*numbers[at % 2:at:2], 0, 65535] + ([100, 263, *used] if at % 2 else [99, 1000])
    way = rng.random()
    if way < 0.7:
        return numbers[:at] + [rng.choice(bad)] + numbers[at + 1:]
    return numbers + [rng.randint(100, 999)] if way < 0.8 else numbers[:at] if way < 0.9 else numbers + numbers[:2]


def conversion(rng, most_rows=14, most_entries=6, levels=6, harm=0.2):
    """A table, a shape, and the numbers of a list that fits them, or nearly."""
    table, wanted = case(rng, most_rows, most_entries, levels, 999, harm)
    few = [x for x in range(1, 10) if rng.random() < 0.6]
    old = {**dict(zip(few, rng.sample(range(100, 1000), len(few)))), 9: rng.choice([100, 255, 256, 999])}
    # now and then a label stands in the table alone, and another in the shape alone
    other = {rng.randint(1, 9): rng.randint(1, 99)} if rng.random() < 0.3 else {}
    table = with_labels(table, 12 + 2 * levels, 2, 1, {**old, **other})
    wanted = with_labels(wanted, 4 + 2 * levels, 4, levels, old)
    in_table, in_shape = occurring(table, b"", levels), occurring(b"", wanted, levels)
    used = in_table | in_shape
    free = rng.sample([x for x in range(1, 100) if x not in used], 15)
    listed = {x: None for x in sorted(used) if 100 <= x <= 999 and rng.random() < 0.94}
    listed.update({rng.randint(100, 999): None for _ in range(rng.choice([0, 0, 1, 2]))})
    numbers = [x for pair in zip(rng.sample(list(listed), len(listed)), free) for x in pair]
    return table, wanted, off(rng, numbers, *sorted(in_table ^ in_shape or used)) if rng.random() < 0.4 else numbers


# ---- request 4: the two lists of an index
def index(rng, lasts, nexts):
    """The lists of a table as they are, with some places changed, or with one of them too short; some with places past the rows."""
    both, rows, way = [list(lasts), list(nexts)], len(lasts), rng.random()
    for _ in range(rng.randint(1, 3) if rows and way < 0.25 else 0):
        numbers, at = rng.choice(both), rng.randrange(rows)
        numbers[at] = rng.choice([0, 65535, numbers[at] ^ 1, numbers[at] ^ 256, at, rows, rng.randrange(rows)])
    both = [numbers + [rng.randrange(65536) for _ in range(rng.choice([0, 0, 1, 4]))] for numbers in both]
    if rows and way > 0.9:
        short = rng.randrange(2)
        both[short] = both[short][:rng.choice([rows - 1, rows - 1, rng.randrange(rows)])]
    return both
