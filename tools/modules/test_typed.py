"""Tests of the reader and the printer of trees in typed_trees.py, of the texts of texts.py, and of what is promised of both, on the second reading's
own answers."""
import collections, functools, itertools, random, unittest, unittest.mock

import brackets, paper01, promises, texts, typed_trees
from case_parts import nested_table, table

# lease[lessee asset] of table A, in document 01's words
P4 = (1, (1, 2, 3)), (2, (1, 2)), (2, (1, 2, 3, 4))
P4_LINE = b".portfolio.lessee.lease [ .portfolio.lessee .portfolio.lessee.lease.asset ]"


def said(text, rows=brackets.A, levels=6, room=320):
    """Number and place, or the count of entries."""
    number, place, count = typed_trees.read_tree(nested_table(rows, levels), text, bytes(room), levels)[0]
    return (number, place) if number else count


class Reader(unittest.TestCase):
    def each(self, answers, *given, **more):
        for text, answer in answers.items():
            with self.subTest(text=text):
                self.assertEqual(said(text, *given, **more), answer)

    def test_by_hand(self):
        """The records of document 02's tree, short and long, and what lies past them stays; at both widths."""
        for levels in (6, 8):
            rows, shape = nested_table(brackets.A, levels), brackets.shape((1, (1, 2, 3, 4)), (2, (1, 2, 3)), (3, (1, 2)), levels=levels)
            for text in (b"asset [ lease [ lessee ] ]", b"asset[lease[lessee]]", b"  asset  [lease[ lessee]  ]   ", b"lease.asset[lessee.lease[lessee]]",
                         b".portfolio.lessee.lease.asset[portfolio.lessee.lease[.portfolio.lessee]]"):
                self.assertEqual(typed_trees.read_tree(rows, text, shape[::-1] + b"\7\7", levels), ((0, 0, 3), shape + b"\7\7"))
                short = shape[::-1][1:]
                self.assertEqual(typed_trees.read_tree(rows, text, short, levels), ((29, 0, 0), short))

    def test_words(self):
        """What is no name is 12 at its first byte; what is one and no type's is 13."""
        self.each({b"lease [ " + word: (12, 8) for word in texts.NO_NAMES})
        self.each({word: (13, 0) for word in (b"21", b"99", b"lease.21", b".lease", b"asset.lease", b"document", b".21", b"portfolio.lease", b"lease.lease",
                                              b".lessee.lease.asset", b".portfolio.lessee.lease.asset.asset", b".".join([b"asset"] * 200))})
        self.each({b"100": (12, 0), b"999": (12, 0), b"lease.100": (12, 0), b"lessee.lease": 1, b"portfolio": 1, b".portfolio": 1})
        rows = "1[2[2] 21[2 99]] 20[21]"
        self.each({b"lessee": (13, 0), b"lessee.lessee": 1, b"portfolio.lessee": 1, b".portfolio.lessee": 1, b"21": (13, 0), b"document.21": 1,
                   b"21.lessee": 1, b"99": 1, b"document": 1, b"99[document lessee 5]": (12, 19), b"99[document lessee]": (13, 2)}, rows)

    def test_grammar(self):
        """The first token that no tree has there, and an early end."""
        self.each({b"": (12, 0), b"   ": (12, 3), b"[": (12, 0), b" ]": (12, 1), b"lease [": (12, 7), b"lease [ ": (12, 8), b"lease [ asset": (12, 13),
                   b"lease [ ]": (12, 8), b"lease[]": (12, 6), b"lease [ [ asset ] ]": (12, 8), b"lease ]": (12, 6), b"lease [ asset ] ]": (12, 16),
                   b"lease asset": (12, 6), b"lease [ asset ] lessee": (12, 16), b"lease [ asset ] [ lessee ]": (12, 16), b"[ lease ]": (12, 0),
                   b"lease [ asset ] foo": (12, 16), b"foo [ ] ]": (12, 0), b"lease [ asset [ ] foo": (12, 16), b"lease\n": (12, 0),
                   b"lease [ asset ]\n": (12, 15), b"lease [ asset [ lessee ] asset ] ": 4, b"lease[asset[lessee]asset]": 4})

    def test_limits(self):
        """1,536 bytes and one more; 16 entries and 17; the last level and one past it; and the order of 12, 5, 6, 13 and 29."""
        self.each({b" " * 1531 + b"lease": 1, b" " * 1532 + b"lease": (12, 1536), b"lease" + b" " * 1531: 1, b"lease" + b" " * 1532: (12, 1536),
                   b"foo" + b" " * 1600: (12, 1536), b" " * 1536: (12, 1536), b" " * 1537: (12, 1536), b" " * 1533 + b"foo": (12, 1533)})
        for levels in (6, 8):
            chain = b"lease[" * (levels - 1) + b"lease" + b"]" * (levels - 1)
            over = b"lease[" * levels + b"lease" + b"]" * levels
            self.each({chain: levels, over: (6, levels), b"21[lease " + over + b"]": (6, levels + 1), over + b"]": (12, len(over)),
                       over[:-1]: (12, len(over) - 1), b"lease[" + b" lease" * 15 + b"]": 16, b"lease[" + b" lease" * 16 + b"]": (5, 0), b"lease[" + b" 21" * 16 + b"]": (5, 0),
                       b"lease[" + over + b" lease" * 16 + b"]": (5, 0), b"lease[" + b" lease" * 16 + b" foo]": (12, 103)}, levels=levels)
        self.each({b"21 [ lease ]": (13, 0), b"lease [ 21 ]": (13, 1), b"lease [ lease ]": (29, 0)}, room=31)
        self.each({b"lease [ lease ]": 2}, room=32)
        self.each({b"lease": (13, 0), b"lease [": (12, 7)}, "")
        self.assertEqual(typed_trees.read_tree(bytes(23), b"", b""), ((2, 0, 0), b""))
        self.assertEqual(typed_trees.read_tree(table(brackets.children(65)), b"", b""), ((4, 64, 0), b""))


class Grammar(unittest.TestCase):
    def test_all_short(self):
        """Trees, and what begins one, among all signs of up to six tokens, against all trees of up to eleven, built from the grammar."""
        @functools.lru_cache(None)
        def lists(size):
            return {first + rest for n in range(1, size + 1) for first in trees(n) for rest in (lists(size - n) if n < size else {""})}

        @functools.lru_cache(None)
        def trees(size):
            return {"n"} if size == 1 else {f"n[{beneath}]" for beneath in lists(size - 3)} if size > 3 else set()

        whole = set().union(*map(trees, range(1, 12)))
        begun = {tree[:n] for tree in whole for n in range(7)}
        for size in range(7):
            for signs in map("".join, itertools.product("n[]?", repeat=size)):
                self.assertEqual(typed_trees.is_tree(signs), signs in whole, signs)
                self.assertEqual(typed_trees.begins_tree(signs), signs in begun, signs)


class Printer(unittest.TestCase):
    def test_by_hand(self):
        """P4's shape, with what lies past the line; just enough lent and a byte too few; at both widths."""
        for levels in (6, 8):
            shape = brackets.shape(*P4, levels=levels)
            self.assertEqual(typed_trees.print_tree(shape, b"\7" * 80, levels), ((0, 0, 75), P4_LINE + b"\7" * 5))
            self.assertEqual(typed_trees.print_tree(shape, bytes(75), levels), ((0, 0, 75), P4_LINE))
            self.assertEqual(typed_trees.print_tree(shape, bytes(74), levels), ((29, 0, 0), bytes(74)))
            self.assertEqual(typed_trees.print_tree(shape[:-1], bytes(74), levels), ((5, 0, 0), bytes(74)))
            self.assertEqual(typed_trees.print_tree(shape + shape, bytes(74), levels), ((6, 3, 0), bytes(74)))
        up = brackets.shape((1, (20,)), (2, (21, 99)), (3, (1,)), (4, (2,)), (2, (19, 20)), (3, (98,)))
        line = b".document [ .21.99 [ .portfolio [ .lessee ] ] .currency.document [ .98 ] ]"
        self.assertEqual(typed_trees.print_tree(up, bytes(len(line))), ((0, 0, len(line)), line))

    def test_longest(self):
        """Of all trees of 16 entries the one with the most brackets, each of the longest name: it fits a text, at both widths."""
        for levels, size in ((6, 1027), (8, 1347)):
            entries = [(1, (1,) * levels)] + [(level, (1,) * levels) for _ in range(3) for level in range(2, levels + 1)]
            line = typed_trees.print_tree(brackets.shape(*entries[:16], levels=levels), bytes(1536), levels)
            self.assertEqual(line[0], (0, 0, size))


class Drawn(unittest.TestCase):
    def test_promises(self):
        """Every promise is kept, and every refusal comes up."""
        rng, seen = random.Random(1), collections.Counter()
        for levels in (6, 8) * 800:
            (rows, text), shape = texts.reading(rng, levels), texts.printing(rng, levels)
            self.assertEqual(list(promises.broken_typed(rows, text, shape, levels=levels, labels=99)), [])
            seen["read", typed_trees.read_tree(rows, text, bytes(256), levels)[0][0]] += 1
            seen["printed", typed_trees.print_tree(shape, bytes(256), levels)[0][0]] += 1
        self.assertEqual({number for call, number in seen if call == "read"}, {0, 1, 2, 3, 4, 5, 6, 12, 13, 29})
        self.assertEqual({number for call, number in seen if call == "printed"}, {0, 5, 6, 29})

    def test_broken_ones_are_found(self):
        """A line without its leading dots, one too long, and a reader that gives a type that no row has."""
        rows, shape = nested_table("1[1]"), brackets.shape((1, (1,)))
        width = dict(levels=6, labels=99)
        self.assertEqual(list(promises.broken_typed(rows, b".portfolio", shape, **width)), [])
        with unittest.mock.patch.object(typed_trees, "spelled", lambda whole, labels: b"portfolio"):
            self.assertEqual(list(promises.broken_typed(rows, b".portfolio", shape, **width)), ["a printed line does not read back to its shape"])
        with unittest.mock.patch.object(typed_trees, "MOST_TEXT", 9):
            self.assertEqual(list(promises.broken_typed(rows, b"foo", shape, **width)), ["a shape is refused 29 as a line"])
        with unittest.mock.patch.object(typed_trees, "find_types", lambda named, kinds: [paper01.Entry(1, (3,))]), self.assertRaises(SystemExit):
            promises.hold_typed(rows, b".portfolio", b"", **width)
