"""Tables and shapes written by hand, in brackets or entry by entry. Used by the tools that make the cases of a program."""
import re

import cases


def shape(*entries, levels=6):
    """Entries given as (level, type)."""
    return b"".join(cases.entry_bytes(l, k, levels) for l, k in entries)


def with_byte(data, at, value):
    return data[:at] + bytes([value]) + data[at + 1:]


def nested(text):
    """The rows of a forest of labels, each with its children in brackets behind it: 1[2 3[4]] has 1:1, 1.1:2, 1.2:3 and 1.2.1:4."""
    rows, at = [], [0]
    for word in re.findall(r"\d+|\[|\]", text):
        if word == "[":
            at.append(0)
        elif word == "]":
            at.pop()
        else:
            at[-1] += 1
            rows.append((tuple(at), int(word)))
    return rows


def wanted(text, rows, levels=6):
    """A shape in brackets, in which a label stands for the one type that ends with it, or, where there is none, for itself alone."""
    kinds = cases.types(rows)
    ending = {k[-1]: k for k in kinds}
    assert len(ending) == len(kinds), "two types end with one label"
    return shape(*((len(d), ending.get(l, (l,))) for d, l in nested(text)), levels=levels)


def children(n):
    """Row by row, n types: a root and its children, each with a label of its own."""
    return [((1,), 1)] + [((1, i), i) for i in range(1, n)]


def indented(text):
    """A tree of names in brackets, lease[lessee asset], as a text for to_shape: a name a line, indented by two spaces a level."""
    lines, level = [], 0
    for word in re.findall(r"\w+|\[|\]", text):
        if word in "[]":
            level += 1 if word == "[" else -1
        else:
            lines.append("  " * level + word)
    return "\n".join(lines) + "\n"


CHAIN = "1[2[3[4[5[6]]]]]"
A = "1[2[3[4 4] 3[4]] 2[3]]"
