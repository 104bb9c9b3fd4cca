"""Typed trees from a seed, good and bad, with tables to read them over. Used to compare readings of request 1.

A text is made as tokens, then written with spaces between them, then harmed as bytes where it is to be. The width of the files is given by `levels`
and the largest label by `labels`, as in cases.py.
"""
import cases
from typed_trees import MOST_TEXT, NAMES, bracketed, matches, spelled

BRACKETS = b"[", b"]"
# words that are no names, whatever the largest label up to 999
NO_NAMES = (
    *b"foo leas leasee LEASE Lease portfoli portfolios 0 00 1 7 20 021 1000 1021 65557 4294967317 +21 -21 21a 2l 0x21".split(),
    *b". .. ... ..asset lease. .lease. lease..asset .7 7.lease lease.7 lease.foo.asset lease,asset lease/asset (lease) lease{".split(),
    b"\tlease", b"lease\t", b"lease\n", b"lessee\r\n", b"\n", b"\0", b"\0lease", b"lease\0", b"lease\xff", b"\xecease", b"\x80", b"\xa0")


# ---- names
def fitting(name, kinds):
    return [kind for kind in kinds if matches(name, kind)]


def shortest(kind, kinds):
    """The fewest labels at its end that fit no other type, or the whole list."""
    endings = [(False, kind[i:]) for i in range(len(kind) - 1, -1, -1)]
    return next((name for name in endings if len(fitting(name, kinds)) == 1), (True, kind))


def good_name(rng, kind, kinds):
    """A name that this type alone has: short, or as long as can be, or something between."""
    ways = [(False, kind[i:]) for i in range(len(kind))]
    ways = [name for name in ways if len(fitting(name, kinds)) == 1]
    return rng.choice([shortest(kind, kinds), (True, kind), rng.choice(ways or [(True, kind)])])


def other_name(rng, kind, levels, labels):
    """A name that several types may have, or none: an end of the type, with a dot or not, with a label changed, taken out or put in, or
    about as long as a type can be and longer."""
    cut = kind[rng.randrange(len(kind)):]
    at, some = rng.randrange(len(kind)), rng.choice((rng.randint(1, 9), 20, 21, labels, rng.randint(1, labels)))
    return rng.choice((
        (False, cut), (False, kind[-1:]), (True, cut), (rng.random() < 0.5, kind[:at] + (some,) + kind[at + 1:]),
        (rng.random() < 0.5, kind[:at] + kind[at + 1:] or kind), (rng.random() < 0.5, kind[:at] + (some,) + kind[at:]),
        (rng.random() < 0.5, (kind * levels)[:rng.randint(levels, levels + 3)])))


# ---- tokens
def typed(rng, entries, kinds, levels, labels):
    """The tokens of entries given as levels and types; all names of some texts are good, and a few of the others."""
    careful = rng.random() < 0.65
    names = [good_name(rng, kind, kinds) if careful or rng.random() < 0.7 else other_name(rng, kind, levels, labels) for _, kind in entries]
    return bracketed((level, spelled(*name)) for (level, _), name in zip(entries, names))


def with_one(rng, words, several):
    """One more token somewhere."""
    at = rng.randrange(len(words) + 1)
    return words[:at] + [rng.choice(several)] + words[at:]


def without_one(rng, words):
    at = rng.randrange(len(words))
    return words[:at] + words[at + 1:]


def with_other(rng, words, several):
    """Another token in the place of some one."""
    at = rng.randrange(len(words))
    return words[:at] + [rng.choice(several)] + words[at + 1:]


def turned(rng, words):
    """Two tokens side by side change their places."""
    at = rng.randrange(len(words))
    return words[:at] + words[at:at + 2][::-1] + words[at + 2:]


def harmed(rng, words, labels):
    """The tokens with a fault: a word that is no name, brackets that are empty, too many or too few, two roots, an early end."""
    way, some = rng.random(), list(NAMES)
    if way < 0.4:
        return with_other(rng, words, (*NO_NAMES, b"%d" % (labels + 1), b"%d" % (labels + 1000), b".%d" % (labels + 1)))
    if way < 0.5:
        return with_one(rng, words, BRACKETS)
    if way < 0.6:
        at = rng.randrange(len(words) + 1)
        return words[:at] + [*BRACKETS] + words[at:]
    if way < 0.7:
        return words + rng.choice([words, [rng.choice(some)], [rng.choice(some), b"[", rng.choice(some), b"]"], [b"["], [b"]"]])
    if way < 0.8:
        return words[:rng.choice((-1, rng.randrange(len(words))))]
    if way < 0.9:
        return without_one(rng, words)
    return turned(rng, words) if way < 0.95 else with_other(rng, words, [*BRACKETS, rng.choice(some)])


# ---- bytes
def spaced(rng, words):
    """The tokens with spaces between them: one, as few as can be, or some; now and then in front and behind too."""
    few, most = rng.choice(((1, 1), (1, 1), (0, 0), (0, 1), (0, 3), (1, 4)))
    needed = [before not in BRACKETS and word not in BRACKETS for before, word in zip(words, words[1:])]
    gaps = [b" " * max(one, rng.randint(few, most)) for one in needed]
    front, behind = (b" " * rng.choice((0, 0, 0, 1, 3)) for _ in range(2))
    return front + b"".join(word + gap for word, gap in zip(words, [*gaps, b""])) + behind


def with_bytes(rng, text):
    """Some byte more, other or fewer: tabs, newlines, NUL and bytes above 127 among them."""
    at, some = rng.randrange(len(text) + 1), bytes([rng.choice((0, 9, 10, 13, 32, 46, 46, 48, 91, 93, 127, 128, 160, 255, rng.randrange(256)))])
    way = rng.random()
    if way < 0.2:
        return text[:at]
    return text[:at] + some + text[at + (way < 0.6):] if way < 0.9 else text[:at] + text[at + 1:]


def long(rng, text):
    """About as many bytes as a text may have, or a few more, mostly spaces."""
    size = MOST_TEXT + rng.choice((0, 0, 0, 0, 1, 1, -1, 2, 100))
    more = max(size - len(text), 0)
    if rng.random() < 0.2:
        return text + b" " * max(more - 1, 0) + rng.choice((b"]", b"x", b"["))
    front = rng.choice((0, more, rng.randint(0, more)))
    return b" " * front + text + b" " * (more - front)


# ---- trees
def many(rng, kinds, levels):
    """As many entries as a shape may have, or more; some of them too deep."""
    return cases.shape(rng, kinds, rng.choice((16, 16, 17, 17, 18, 25)), levels + (rng.random() < 0.3))


def deep(rng, kinds, levels):
    """Entries down to the last level, or past it."""
    to = levels + rng.choice((0, 1, 1, 2))
    return [(level, rng.choice(kinds)) for level in range(1, to + 1)] + [(rng.randint(2, to), rng.choice(kinds)) for _ in range(rng.choice((0, 0, 1, 3, 12)))]


def relabelled(rng, rows, entries, labels):
    """Other labels for 1 to 9, so that all names and numbers come up, those around the bounds more often."""
    few = (1, 2, 3, 7, 10, 19, 20, 21, 22, labels - 1, labels)
    new = dict(zip(range(1, 10), rng.sample(rng.choice((few, range(1, labels + 1), range(1, 21))), 9)))
    return [(d, new.get(l, l)) for d, l in rows], [(l, tuple(new.get(x, x) for x in k)) for l, k in entries]


def tree(rng, levels=6, labels=99, most_rows=14, most_entries=6):
    """Rows, the types that names are made for, and entries: ordinary ones for most, and at a limit or past it."""
    way = rng.random()
    if way < 0.04:
        rows, entries = cases.limit(rng, levels)
        return rows, [kind for _, kind in entries], entries
    rows, entries = relabelled(rng, *cases.ordinary(rng, rng.random() < 0.4, most_rows, most_entries, levels, labels), labels)
    kinds = cases.types(rows) or [(1,)]
    if way < 0.12:
        entries = many(rng, kinds, levels)
    elif way < 0.18:
        entries = deep(rng, kinds, levels)
    return rows, kinds, entries


def reading(rng, levels=6, labels=99, harm=0.35, **most):
    """A table and a text, as bytes."""
    rows, kinds, entries = tree(rng, levels, labels, **most)
    words = typed(rng, entries, kinds, levels, labels)
    text = spaced(rng, harmed(rng, words, labels) if rng.random() < harm else words)
    way = rng.random()
    text = with_bytes(rng, text) if way < harm / 4 else long(rng, text) if way < harm / 4 + 0.04 else text
    table = b"".join(cases.row_bytes(d, l, rng.randbytes(8), levels) for d, l in rows)
    return cases.damaged(rng, table) if rng.random() < 0.06 else table, text


def printing(rng, levels=6, labels=99, harm=0.25, **most):
    """A shape as bytes."""
    _, _, entries = tree(rng, levels, labels, **most)
    shape = b"".join(cases.entry_bytes(l, k, levels) for l, k in entries)
    return cases.damaged(rng, shape) if rng.random() < harm else shape
