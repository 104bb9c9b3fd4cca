"""Tests of the converter of labels in paper01.py, and of what is promised of a converted table and shape, on the second reading's own answers."""
import collections, random, unittest, unittest.mock

import brackets, cases, paper01, promises
from case_parts import nested_table

TABLE, SHAPE = "1[100[999] 100[999 999]]", ((1, (1, 100, 999)), (2, (1, 100)))
THREE = [100, 21, 500, 7, 999, 99]


def files(table_text, entries, levels=6):
    return nested_table(table_text, levels), brackets.shape(*entries, levels=levels)


def one(label, other=None):
    """A table of one row, and a shape of one entry."""
    return files(str(label), [(1, (label if other is None else other,))])


def said(table, shape, numbers, levels=6):
    """Number and place, with just enough lent; or the counts."""
    number, place, rows, entries = paper01.convert(table, shape, numbers, bytes(len(table)), bytes(len(shape)), levels)[0]
    return (number, place) if number else f"{rows} rows, {entries} entries"


class Converter(unittest.TestCase):
    def test_by_hand(self):
        """The labels change, byte by byte, and what lies past both stays; at both widths."""
        for levels in (6, 8):
            table, shape = files(TABLE, SHAPE, levels)
            new, new_shape = files("1[21[99] 21[99 99]]", [(1, (1, 21, 99)), (2, (1, 21))], levels)
            answer = paper01.convert(table, shape, THREE, b"\7" * (len(table) + 3), b"\5" * (len(shape) + 1), levels)
            self.assertEqual(answer, ((0, 0, 6, 2), new + b"\7\7\7", new_shape + b"\5"))
        row = bytes([1, 0, 232, 3, 1, 0]) + bytes(10) + bytes(range(8))
        old, new = row.replace(b"\xe8\3", b"\xe7\3"), row.replace(b"\xe8\3", b"\x58\0")
        self.assertEqual(paper01.convert(old, one(1)[1], [999, 88], bytes(24), bytes(16))[1], new)
        self.assertEqual(said(row, one(1)[1], [999, 88]), (3, 0))

    def test_few(self):
        """No row; no list; a list of labels that occur nowhere; every label old, so that 99 pairs are right."""
        self.assertEqual(said(b"", one(100)[1], [100, 1]), "0 rows, 1 entries")
        self.assertEqual(said(*one(99, 1), []), "1 rows, 1 entries")
        self.assertEqual(said(*one(99, 1), [100, 2, 999, 3]), "1 rows, 1 entries")
        most = [x for i in range(1, 100) for x in (100 + i, i)]
        self.assertEqual(said(*one(199), most), "1 rows, 1 entries")
        self.assertEqual(said(*one(199), most + [999, 1]), (25, 99))
        self.assertEqual(said(*one(99), most), (25, 98))

    def test_pairs(self):
        """Each rule of 25, and a half pair; of two pairs that clash the later, and the first of several faults."""
        for numbers, place in (
                ([100, 2, 99, 3], 1), ([999, 2, 1000, 3], 1), ([100, 0], 0), ([100, 99, 101, 100], 1), ([100, 65535], 0), ([0, 2], 0),
                ([100, 7, 101, 5], 1), ([100, 7, 101, 6], 1), ([100, 2, 101, 3, 100, 4], 2), ([100, 2, 100, 2], 1), ([100, 2, 101, 3, 102, 2], 2),
                ([100], 0), ([100, 2, 101, 3, 102], 2), ([100, 2, 101, 2, 102], 1), ([2, 100], 0), ([612, 1, 356, 257], 1)):
            self.assertEqual(said(*one(5, 6), numbers), (25, place), numbers)

    def test_labels_not_listed(self):
        """The first row, though an entry before it is at fault too; else the first entry, whatever label of its type it is."""
        table, shape = files(TABLE, SHAPE)
        self.assertEqual(said(table, shape, [100, 2]), (26, 2))
        self.assertEqual(said(table, shape, [999, 2]), (26, 1))
        self.assertEqual(said(table, brackets.shape((1, (1,)), (2, (1, 500, 1))), THREE[:2] + [999, 3]), (26, 1))
        self.assertEqual(said(table, brackets.shape((1, (500,))), [100, 2]), (26, 2))

    def test_order(self):
        """1 to 3, 5 and 6 on the old range, then 25, 26 and 29; a refused call changes nothing lent, and 4 and 7 are not used."""
        table, shape = files(TABLE, SHAPE)
        for t, s, numbers, wanted in (
                (bytes(24577), b"", [1], (1, 0)), (bytes(25), b"", [1], (2, 0)), (one(1)[0] * 2, b"", [1], (3, 1)), (*one(1000), [], (3, 0)),
                (table, b"", [1], (5, 0)), (table, shape * 2, [1], (6, 2)), (*one(1, 1000), [], (6, 0)), (table, shape, [1], (25, 0)),
                (*one(500), [], (26, 0)), (nested_table(" ".join(map(str, range(1, 66)))), one(99)[1], [], (0, 0))):
            lent = rooms = b"\7" * len(t), b"\5" * len(s)
            reply, *left = paper01.convert(t, s, numbers, *lent)
            self.assertEqual(reply[:2], wanted)
            self.assertEqual(tuple(left), rooms if wanted[0] else (t, s))
        for short in ((-1, 0), (0, -1), (-1, 5), (-len(table), 0)):
            lent = tuple(b"\7" * (len(data) + k) for data, k in zip((table, shape), short))
            self.assertEqual(paper01.convert(table, shape, THREE, *lent), ((29, 0, 0, 0), *lent))
        self.assertEqual(paper01.convert(table, shape, [], b"", b"")[0], (26, 1, 0, 0))


class Promises(unittest.TestCase):
    def test_drawn(self):
        """Every promise is kept at both widths; each refusal, each verdict with each second answer that it can have, and 4 and 7 come up."""
        rng, seen = random.Random(11), collections.Counter()
        for at in range(1500):
            levels = (6, 8)[at % 2]
            table, shape, numbers = cases.conversion(rng, levels=levels)
            self.assertEqual(list(promises.broken_conversion(table, shape, numbers, levels)), [])
            (number, *_), new, new_shape = paper01.convert(table, shape, numbers, bytes(len(table)), bytes(len(shape)), levels)
            seen[number] += 1
            if number == 0:
                after, _, verdict, none_apart, _ = paper01.judge(new, new_shape, levels=levels)
                seen["after", after or (verdict[0], none_apart)] += 1
        after = {key[1] for key in seen if isinstance(key, tuple)}
        self.assertEqual({key for key in seen if isinstance(key, int)}, {0, 1, 2, 3, 5, 6, 25, 26})
        self.assertEqual(after, {4, 7, (0, True), (1, True), (1, False), (2, False), (3, True), (3, False)})

    def broken_where(self, change):
        """What is found broken where the converter's outputs are changed."""
        convert = paper01.convert

        def wrong(*given):
            reply, new, new_shape = convert(*given)
            return reply, *(change(new, new_shape) if reply[0] == 0 else (new, new_shape))

        with unittest.mock.patch.object(paper01, "convert", wrong):
            return set(promises.broken_conversion(*files("1[100[999] 200[999] 200[7]]", [(1, (1, 200)), (2, (1, 200, 7))]), [100, 2, 200, 3, 999, 4]))

    def test_broken_ones_are_found(self):
        """An old label left; two labels made one; another value; the shape not converted, so that its types are gone."""
        self.assertEqual(self.broken_where(lambda t, s: (t, s)), set())
        rule, other = "a converted table or shape breaks a rule of the new range", "a converted table has other bytes than new labels for old ones"
        self.assertIn(rule, self.broken_where(lambda t, s: (brackets.with_byte(t, 2, 100), s)))
        self.assertIn(rule, self.broken_where(lambda t, s: (t, brackets.with_byte(s, 7, 1))))
        self.assertEqual(self.broken_where(lambda t, s: (brackets.with_byte(t, 23, 9), s)), {other})
        merged = self.broken_where(lambda t, s: (brackets.with_byte(t, 26, 3), s))
        self.assertIn("types are equal that were not, or are not that were", merged)
        self.assertIn("closest rows do not stay closest, or others are", merged)
        gone = self.broken_where(lambda t, s: (t, brackets.with_byte(s, 6, 5)))
        self.assertIn("a converted table and shape are judged otherwise", gone)
        self.assertIn("a converted shape has other entries than new labels for old ones", gone)
        with self.assertRaises(SystemExit), unittest.mock.patch.object(paper01, "judge", lambda *data, **width: width):
            promises.hold_conversion(*one(100), [100, 1])
