"""Cases about typed trees: a text read over a table, and a shape printed as a line, which is read over the table too.

Reading and printing are asked of every case; most have an empty text. An answer of reading by hand is a refusal's number and place, or the count
of entries; one of printing is a refusal, or the line.
"""
import sys

import brackets, paper01, texts
from brackets import with_byte
from case_draws import Draws
from case_form import MOST_MOVED, OTHER, Case, printing, to_type, typing_in, within
from case_parts import nested_table, table
from case_tables import trees
from table_text import name

ROOM = bytes(MOST_MOVED)
P4 = (1, (1, 2, 3)), (2, (1, 2)), (2, (1, 2, 3, 4))
P4_LINE = b".portfolio.lessee.lease [ .portfolio.lessee .portfolio.lessee.lease.asset ]"
# the rooms lent beside what is written: just enough and more, then a byte too few for the one, for the other and for both
ROOMS = (0, 0), (1, 33), (29, 0), (-1, 0), (0, -1), (-1, -1), (40, -1)


# ---- answers by hand
def read_to(case, hand):
    """The case, if typed_trees.py reads its text to what is said by hand, with room enough."""
    reply = typing_in(case, case.text, ROOM)[0]
    said = "refused {} {}".format(*reply) if reply[0] else f"{reply[2]} entries"
    if hand != said:
        sys.exit(f"table {case.table.hex()}, text {case.text}: {hand} by hand, {said} by typed_trees.py")
    return case


def printed_to(case, hand):
    """The case, if typed_trees.py prints its shape to what is said by hand, with room enough."""
    reply, left = printing(case, ROOM)
    said = "refused {} {}".format(*reply) if reply[0] else left[:reply[2]].decode()
    if hand != said:
        sys.exit(f"shape {case.shape.hex()}: {hand} by hand, {said} by typed_trees.py")
    return case


def typed(case, hand):
    """The case with the shape that its text is read to, so that printing it and reading the line back give the same, or with document 01's P4."""
    case = read_to(case, hand)
    reply, left = typing_in(case, case.text, ROOM)
    return case._replace(shape=left[:case.entry_length * reply[2]] or brackets.shape(*P4, levels=case.levels))


def each_text(rows, answers, widths=tuple(OTHER)):
    """One table in brackets and several texts, at both widths or those that are said."""
    for levels in widths:
        yield from (typed(Case(nested_table(rows, levels), levels=levels, text=text), hand) for text, hand in answers.items())


def each_room(case, rooms=ROOMS):
    """Bytes around what the text's shape and the line need."""
    yield from (case._replace(typed=tuple(within(0, n + k, MOST_MOVED) for n, k in zip(to_type(case), more))) for more in rooms)


# ---- accepted
def spellings():
    """Document 02's tree over table A, short and long, with as few spaces as can be and with many; all that is lent and some more."""
    three = (b"asset [ lease [ lessee ] ]", b"asset[lease[lessee]]", b"  asset  [lease[ lessee]  ]   ", b"lease.asset[lessee.lease[lessee]]",
             b".portfolio.lessee.lease.asset[portfolio.lessee.lease[.portfolio.lessee]]")
    for case in each_text(brackets.A, dict.fromkeys(three, "3 entries")):
        yield from each_room(case)
    yield from each_text(brackets.A, {
        b"lessee.lease": "1 entries", b"portfolio": "1 entries", b".portfolio": "1 entries", b"lease [ asset [ lessee ] asset ] ": "4 entries",
        b"lease[asset[lessee]asset]": "4 entries", b"lease[lease[lease]lease[lease]]": "5 entries", b"lease[asset asset  asset]": "4 entries",
        b"asset[asset[asset]lease[lease]lessee]": "6 entries"})


def every_name():
    """All labels from 1 to 99, sixteen a text; over a table that has them, and over one that has them twice."""
    for first in (1, 36):
        labels = range(first, first + 64)
        rows = " ".join(map(str, labels))
        for some in (labels[k:k + 16] for k in range(0, 64, 16)):
            words = [name(label).encode() for label in some]
            text = words[0] + b"[" + b" ".join(words[1:]) + b"]"
            yield from each_text(rows, {text: "16 entries"})
            yield from each_text(f"{rows[:-2]} {some[5]}[{some[2]}]", {text: "refused 13 2"})


def matches():
    """What one type alone has, several have and none has: ends of types, whole types, types within others, numbers at both bounds."""
    yield from each_text("1[2[2] 21[2 99]] 20[21]", {
        b"lessee": "refused 13 0", b"lessee.lessee": "1 entries", b"portfolio.lessee": "1 entries", b".portfolio.lessee": "1 entries",
        b"21": "refused 13 0", b"document.21": "1 entries", b"21.lessee": "1 entries", b"99": "1 entries", b"document": "1 entries",
        b"99[document lessee 5]": "refused 12 19", b"99[document lessee]": "refused 13 2", b"portfolio.21[21.99[.document.21]document]": "4 entries"})
    none = (b"21", b"99", b"lease.21", b".lease", b"asset.lease", b"document", b".21", b"portfolio.lease", b"lease.lease", b".lessee.lease.asset",
            b".portfolio.lessee.lease.asset.asset", b".".join([b"asset"] * 9), b"." + b".".join([b"asset"] * 200))
    yield from each_text(brackets.A, dict.fromkeys(none, "refused 13 0"))
    yield from each_text(brackets.A, {b"lease[ " + word + b"]": "refused 13 1" for word in none[:8]})
    # types that end so too, as far down as they go; the last of 64 types
    yield from each_text("1[1[1[1[1[1]]]]]", {
        b"portfolio": "refused 13 0", b".portfolio": "1 entries", b"portfolio" + b".portfolio" * 4: "refused 13 0", b".portfolio" * 5: "1 entries",
        b"portfolio" + b".portfolio" * 5: "1 entries", b"portfolio" + b".portfolio" * 6: "refused 13 0"})
    yield from each_text("1[2[3[4[5[6[7[8]]]]]]]", {
        b"invoice": "1 entries", b"guarantor[invoice]": "2 entries", b".portfolio.lessee.lease.asset.payment.meter.guarantor.invoice": "1 entries",
        b"portfolio.lessee.lease.asset.payment.meter.guarantor.invoice": "1 entries", b"lessee.lease.asset.payment.meter.guarantor.invoice": "1 entries",
        b".lessee.lease.asset.payment.meter.guarantor.invoice": "refused 13 0", b"invoice[meter[21]]": "refused 13 2"}, (8,))
    yield from each_text(" ".join(map(str, range(1, 65))), {b"portfolio": "1 entries", b"64[63 portfolio]": "3 entries", b"65": "refused 13 0"})
    yield from each_text("", {b"lease": "refused 13 0", b"lease[asset]": "refused 13 0", b"lease [": "refused 12 7", b"": "refused 12 0"})


# ---- refused
def words():
    """What is no name, as the first token, in the middle and as the last: 12 at its first byte."""
    for before, after in ((b"", b""), (b"lease[asset[", b" lessee]]"), (b"lease [ asset ", b"")):
        hand = f"refused 12 {len(before)}"
        some = texts.NO_NAMES if not before else texts.NO_NAMES[len(before) % 2::2]
        yield from each_text(brackets.A, {before + word + after: hand for word in some})
    yield from each_text("99 98", {b"100": "refused 12 0", b"999": "refused 12 0", b"98.100": "refused 12 0", b"098": "refused 12 0", b"99": "1 entries"})


def grammar():
    """The first token that no tree has there, and an early end, with spaces behind it or not."""
    yield from each_text(brackets.A, {
        b"": "refused 12 0", b" ": "refused 12 1", b"   ": "refused 12 3", b"[": "refused 12 0", b" ]": "refused 12 1", b"lease [": "refused 12 7",
        b"lease [ ": "refused 12 8", b"lease [ asset": "refused 12 13", b"lease [ asset  ": "refused 12 15", b"lease [ ]": "refused 12 8",
        b"lease[]": "refused 12 6", b"lease [ [ asset ] ]": "refused 12 8", b"lease ]": "refused 12 6", b"lease [ asset ] ]": "refused 12 16",
        b"lease asset": "refused 12 6", b"lease [ asset ] lessee": "refused 12 16", b"lease [ asset ] [ lessee ]": "refused 12 16",
        b"[ lease ]": "refused 12 0", b"lease [ asset ] foo": "refused 12 16", b"foo [ ] ]": "refused 12 0", b"lease [ asset [ ] foo": "refused 12 16",
        b"lease\n": "refused 12 0", b"lease [ asset ]\n": "refused 12 15", b"lease\t[ asset ]": "refused 12 0", b"lease [ asset ] \0": "refused 12 16",
        b"lease[asset[lessee]": "refused 12 19", b"lease[asset]lessee[asset]": "refused 12 12", b"lease [ asset ] . ": "refused 12 16"})


def text_limits():
    """1,536 bytes and one more; 16 entries and 17; the last level and one past it."""
    yield from each_text(brackets.A, {
        b" " * 1531 + b"lease": "1 entries", b" " * 1532 + b"lease": "refused 12 1536", b"lease" + b" " * 1531: "1 entries",
        b"lease" + b" " * 1532: "refused 12 1536", b"foo" + b" " * 1600: "refused 12 1536", b" " * 1536: "refused 12 1536",
        b" " * 1537: "refused 12 1536", b" " * 1533 + b"foo": "refused 12 1533", b"lease" * 306 + b"123456": "refused 12 0",
        b" " * 1535 + b"]": "refused 12 1535", b"[" * 1536: "refused 12 0", b"x" * 1537: "refused 12 1536", b"x" * 1536: "refused 12 0",
        b"lease [ " * 192: "refused 12 1536", b"lease[" * 255 + b"lease": "refused 12 1535", b"." * 1536: "refused 12 0",
        b"lease[" * 139 + b"lease" + b"]" * 139 + b" " * 558: "refused 5 0", b"lease[" + b" lease" * 15 + b"]": "16 entries",
        b"lease[" + b" lease" * 16 + b"]": "refused 5 0", b"lease[" + b" 21" * 16 + b"]": "refused 5 0", b"lease[" + b" 21" * 250 + b"]": "refused 5 0",
        b"lease[" + b" lease" * 16 + b" foo]": "refused 12 103", b"lease[" + b" 21" * 254 + b"]": "refused 5 0"})
    for levels in OTHER:
        chain, over = (b"lease[" * (n - 1) + b"lease" + b"]" * (n - 1) for n in (levels, levels + 1))
        yield from each_text(brackets.A, {
            chain: f"{levels} entries", over: f"refused 6 {levels}", b"21[lease " + over + b"]": f"refused 6 {levels + 1}",
            over + b"]": f"refused 12 {len(over)}", over[:-1]: f"refused 12 {len(over) - 1}", b"lease[" + over + b" lease" * 16 + b"]": "refused 5 0",
            b"lease[asset " + chain + b"]": f"refused 6 {levels + 1}", b"lease[" * 15 + b"lease" + b"]" * 15: f"refused 6 {levels}"}, (levels,))


def in_order():
    """1 to 4 before 12, then 5, 6, 13 and 29: each with all that come after it at fault too, with enough lent and with nothing."""
    over = b"lease[" * 9 + b"21" + b"]" * 9
    for levels in OTHER:
        good, most, past = nested_table(brackets.A, levels), *(table(brackets.children(n), levels=levels) for n in (64, 65))
        for t, text, hand in (
                (trees(1025, levels=levels) + b"\0", b"foo", "refused 1 0"), (good[:-1], b"foo", "refused 2 0"), (good * 2, b"foo", "refused 3 9"),
                (with_byte(good, paper01.row_length(levels) + 1, 1), b"]", "refused 3 1"), (past, b"", "refused 4 64"),
                (most, b"", "refused 12 0"), (good, over + b"[" + b" 21" * 16, f"refused 12 {len(over)}"),
                (good, b"21[" + over + b" 21" * 16 + b"]", "refused 5 0"), (good, b"21[" + over + b"]", f"refused 6 {levels}"),
                (good, b"lease[lessee 21]", "refused 13 2"), (good, b"lease[lessee asset]", "3 entries")):
            case = typed(Case(t, levels=levels, text=text), hand)
            yield case
            yield case._replace(typed=(0, 0))


# ---- printed
def lines():
    """P4's line with bytes around it; entries down and up again; names and numbers at their bounds; the longest line; and read back over a table
    that has not all types."""
    for levels in OTHER:
        p4 = Case(nested_table(brackets.A, levels), brackets.shape(*P4, levels=levels), levels=levels, text=b"lease[lessee asset]")
        yield from each_room(printed_to(p4, P4_LINE.decode()), (*ROOMS, (0, -20), (0, -75), (0, 1461)))
        up = (1, (20,)), (2, (21, 99)), (3, (1,)), (4, (2,)), (2, (19, 20)), (3, (98,))
        line = ".document [ .21.99 [ .portfolio [ .lessee ] ] .currency.document [ .98 ] ]"
        for rows in ("20 21[99] 1 2 19[20] 98", "20 21[99] 1 2 19[20]", "20 21[99] 2 19[20[98]] 98[1]", ""):
            yield printed_to(Case(nested_table(rows, levels), brackets.shape(*up, levels=levels), levels=levels, text=line.encode()), line)
        longest = [(1, (1,) * levels)] + [(level, (1,) * levels) for _ in range(3) for level in range(2, levels + 1)]
        chain = table([((1,) * k, 1) for k in range(1, levels + 1)], levels=levels)
        full = Case(chain, brackets.shape(*longest[:16], levels=levels), levels=levels, text=b".portfolio")
        yield from each_room(full, ((320, 0), (320, -1), (320, 99)))
        for level in range(1, levels + 1):
            down = [(k, (1,) * k) for k in range(1, levels + 1)] + [(max(level, 2), (1,) * level)]
            yield Case(chain, brackets.shape(*down, levels=levels), levels=levels, text=b".portfolio" * level)


def bad_shapes():
    """5 and 6, before 29: lengths, levels, types, labels; with enough lent and with nothing."""
    for levels in OTHER:
        s, e = brackets.shape(*P4, levels=levels), paper01.entry_length(levels)
        for bad, hand in (
                (b"", "refused 5 0"), (s[:-1], "refused 5 0"), (s + b"\0", "refused 5 0"), (s + s[-e:] * 14, "refused 5 0"), (s + s, "refused 6 3"),
                (with_byte(s, 0, 2), "refused 6 0"), (with_byte(s, e, levels + 1), "refused 6 1"), (with_byte(s, 2 * e, 1), "refused 6 2"),
                (with_byte(s, 2 * e + 1, levels + 1), "refused 6 2"), (with_byte(s, 1, 0), "refused 6 0"), (with_byte(s, e + 2, 1), "refused 6 1"),
                (with_byte(s, 4, 100), "refused 6 0"), (with_byte(s, 5, 1), "refused 6 0"), (with_byte(s, 2 * e - 1, 1), "refused 6 1")):
            case = printed_to(Case(nested_table(brackets.A, levels), bad, levels=levels, text=b"lease[" * len(bad) + b"foo"), hand)
            yield case._replace(typed=(100, 1400))
            yield case._replace(typed=(0, 0))


# ---- drawn
def drawn(levels, count=320):
    """Drawn tables and texts, with the text's own shape to print where it has one and with another where not, and bytes lent around them."""
    rng = Draws(200 + levels, levels)
    for _ in range(count):
        t, text = texts.reading(rng, levels, most_rows=rng.choice((6, 14, 20)), most_entries=rng.choice((3, 6, 9)))
        case = Case(t, levels=levels, text=text)
        reply, left = typing_in(case, text, ROOM)
        case = case._replace(shape=left[:case.entry_length * reply[2]] or texts.printing(rng, levels))
        yield from each_room(case, (rng.choice((*[(0, 0)] * 6, *ROOMS)),))


TEXTS = (spellings, every_name, matches, words, grammar, text_limits, in_order, lines, bad_shapes)
