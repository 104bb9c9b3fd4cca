"""Request 1 of document 02: wanted trees as a line of text, read and printed, written from the papers alone.

Plain and slow on purpose, as paper01.py is. Whether tokens are a tree is found by putting one sign for each bracketed tree, innermost first, until
nothing changes; the first token that no tree has is found by trying what could still follow.
"""
import re

import table_text
from paper01 import MOST_ENTRIES, MOST_LABEL, Entry, Refused, entry_record, read_rows, read_shape, read_types

MOST_TEXT = 1536
NAMES = {name.encode(): label for label, name in enumerate(table_text.NAMES, 1)}


# ---- words and tokens
def parts_by_name(labels):
    """The label of each part that a name may have: the twenty names, and the numbers past them without leading zeros."""
    return {**NAMES, **{b"%d" % label: label for label in range(len(NAMES) + 1, labels + 1)}}


def name_of(word, labels):
    """Whether a word begins with a dot, and its labels; nothing where it is no name."""
    known, parts = parts_by_name(labels), word.split(b".")
    whole = len(parts) > 1 and parts[0] == b""
    parts = parts[whole:]
    return (whole, tuple(known[part] for part in parts)) if all(part in known for part in parts) else None


def tokens(text):
    """Each token with the place of its first byte."""
    return [(found.group(), found.start()) for found in re.finditer(rb"[\[\]]|[^ \[\]]+", text)]


# ---- the grammar
def sign(word, labels):
    """A bracket as it is, n for a name, and a question mark for what no tree has."""
    return word.decode() if word in (b"[", b"]") else "n" if name_of(word, labels) else "?"


def is_tree(signs):
    """Are these the signs of one whole tree?"""
    before, now = None, re.sub(r"n(?!\[)", "t", signs)
    while now != before:
        before, now = now, re.sub(r"n\[t+\]", "t", now)
    return now == "t"


def begins_tree(signs):
    """Can the signs go on to a tree? What brings them there soonest is a name or nothing, and the brackets that are not closed."""
    closing = "]" * (signs.count("[") - signs.count("]"))
    return any(is_tree(signs + more + closing) for more in ("", "n"))


def read_words(text, labels):
    """Refusal 12, then the words and brackets of a tree."""
    if len(text) > MOST_TEXT:
        raise Refused(12, MOST_TEXT)
    found = tokens(text)
    signs = "".join(sign(word, labels) for word, _ in found)
    if not is_tree(signs):
        wrong = (at for n, (_, at) in enumerate(found, 1) if not begins_tree(signs[:n]))
        raise Refused(12, next(wrong, len(text)))
    return [word for word, _ in found]


# ---- reading
def read_names(words, levels, labels):
    """Refusals 5 and 6, then the level of each entry and its name."""
    out = []
    for n, word in enumerate(words):
        if word not in (b"[", b"]"):
            out.append((1 + words[:n].count(b"[") - words[:n].count(b"]"), name_of(word, labels)))
    if len(out) > MOST_ENTRIES:
        raise Refused(5)
    for i, (level, _) in enumerate(out):
        if level > levels:
            raise Refused(6, i)
    return out


def matches(name, kind):
    """Does a type end so; is it so, where the name begins with a dot?"""
    whole, labels = name
    return kind == labels if whole else kind[-len(labels):] == labels


def find_types(named, kinds):
    """Refusal 13, then the entries."""
    entries = []
    for i, (level, name) in enumerate(named):
        fitting = [kind for kind in kinds if matches(name, kind)]
        if len(fitting) != 1:
            raise Refused(13, i)
        entries.append(Entry(level, fitting[0]))
    return entries


def laid(out, lent):
    """Refusal 29, then all that was lent, with what is written at its front."""
    if len(lent) < len(out):
        raise Refused(29)
    return out + bytes(lent[len(out):])


def read_tree(table, text, lent, levels=6, labels=MOST_LABEL):
    """The number, the place and the count of entries, and what is lent for the shape afterwards."""
    try:
        _, kinds = read_types(read_rows(table, levels, labels))
        entries = find_types(read_names(read_words(text, labels), levels, labels), kinds)
        return (0, 0, len(entries)), laid(b"".join(entry_record(entry, levels) for entry in entries), lent)
    except Refused as no:
        return (no.number, no.place, 0), bytes(lent)


# ---- printing
def spelled(whole, labels):
    """A name as a word."""
    return b"." * whole + b".".join(table_text.name(label).encode() for label in labels)


def bracketed(several):
    """The words and the brackets of (level, word), each word with those of deeper levels behind it in brackets."""
    out, level = [], 1
    for deep, word in several:
        out += [b"["] * (deep - level) + [b"]"] * (level - deep) + [word]
        level = deep
    return out + [b"]"] * (level - 1)


def printed(entries):
    """Whole dotted paths and brackets, with single spaces between them."""
    return b" ".join(bracketed((entry.level, spelled(True, entry.type)) for entry in entries))


def print_tree(shape, lent, levels=6, labels=MOST_LABEL):
    """The number, the place and the count of bytes, and what is lent for the line afterwards."""
    try:
        line = printed(read_shape(shape, levels, labels))
        return (0, 0, len(line)), laid(line, lent)
    except Refused as no:
        return (no.number, no.place, 0), bytes(lent)
