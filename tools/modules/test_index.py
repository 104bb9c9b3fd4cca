"""Tests of the index in indexed.py, of the lists of cases.py, and of what is promised of an index, on the second reading's own answers."""
import collections, random, unittest, unittest.mock

import brackets, cases, indexed, paper01, promises
from case_parts import bracketed, many, nested_table, table

NONE = indexed.NO_ROW
A_LASTS, A_NEXTS = [8, 6, 4, 3, 4, 6, 6, 8, 8], [NONE, 7, 5, 4, 6, 8, NONE, NONE, NONE]
P4 = bracketed(brackets.A, "3[2 4]")
ZEROS = [[0] * 16] * 4


def lists_of(text, levels=6):
    return indexed.index_of(paper01.read_rows(nested_table(text, levels), levels))


def refusal(lasts, nexts, case=P4):
    """The one number and place of the three calls; nothing where they are not refused alike."""
    given, width = (case.table, case.shape, lasts, nexts), dict(levels=case.levels)
    said = {indexed.judge_with_index(*given, **width)[:2], indexed.summarise_with_index(*given, **width)[:2],
            indexed.reshape_with_index(*given, bytes(9999), [7] * 99, **width)[0][:2]}
    return said.pop() if len(said) == 1 else None


def refuse_unless(good, *refusal):
    if not good:
        raise paper01.Refused(*refusal)


class Builder(unittest.TestCase):
    def test_by_hand(self):
        """Table A, at both widths, with what lies past the rows as it was; one label of several types; no row; one."""
        for levels in (6, 8):
            built = indexed.build_index(nested_table(brackets.A, levels), [1] * 11, [2] * 10, levels)
            self.assertEqual(built, ((0, 0, 9), A_LASTS + [1, 1], A_NEXTS + [2]))
        self.assertEqual(lists_of("1[3] 2[3] 1[3 3]"), ([1, 1, 3, 3, 6, 5, 6], [4, 5, NONE, NONE, NONE, 6, NONE]))
        self.assertEqual(lists_of("1[1[1] 1] 1"), ([3, 2, 2, 3, 4], [4, 3, NONE, NONE, NONE]))
        self.assertEqual(indexed.build_index(b"", [], []), ((0, 0, 0), [], []))
        self.assertEqual(indexed.build_index(b"", [3], []), ((0, 0, 0), [3], []))
        self.assertEqual(indexed.build_index(nested_table("7"), [3], [4]), ((0, 0, 1), [0], [NONE]))

    def test_refused(self):
        """1 to 3, then 14 for either list, with nothing lent changed; 4 is not among them."""
        good = nested_table(brackets.A)
        for t, lent, wanted in (
                (nested_table(many(1, 1025)), 0, (1, 0, 0)), (good[:-1], 0, (2, 0, 0)), (good[24:], 0, (3, 0, 0)), (good * 2, 20, (3, 9, 0)),
                (good, 8, (14, 0, 0)), (good, 0, (14, 0, 0))):
            for enough in (0, 2000):
                for lists in (([5] * lent, [6] * max(lent, enough)), ([5] * max(lent, enough), [6] * lent)):
                    self.assertEqual(indexed.build_index(t, *lists), (wanted, *lists))
        many_types = table(brackets.children(80))
        self.assertEqual(indexed.build_index(many_types, [0] * 80, [0] * 80), ((0, 0, 80), [79, *range(1, 80)], [NONE] * 80))

    def test_drawn(self):
        """Row by row: who is under whom, and who is of whose type."""
        rng = random.Random(8)
        for _ in range(60):
            rows = paper01.read_rows(b"".join(cases.row_bytes(d, l, bytes(8)) for d, l in cases.regular(rng, 40)))
            kinds = paper01.types_of_rows(rows)
            for r, (last, following) in enumerate(zip(*indexed.index_of(rows))):
                self.assertEqual([s for s, row in enumerate(rows) if row.dewey[:len(rows[r].dewey)] == rows[r].dewey], [*range(r, last + 1)])
                self.assertEqual([s for s in range(r + 1, len(rows)) if kinds[s] == kinds[r]][:1], [following] if following != NONE else [])


class Refusals(unittest.TestCase):
    def test_wrong_lists(self):
        """15 with the least row at which either list is wrong; places past the rows are not looked at."""
        self.assertEqual(refusal(A_LASTS, A_NEXTS), (0, 0))
        self.assertEqual(refusal(A_LASTS + [0, 70], A_NEXTS + [9]), (0, 0))
        for lasts, nexts, place in (
                ({0: 7}, {}, 0), ({8: 7}, {}, 8), ({}, {0: 0}, 0), ({}, {8: 0}, 8), ({1: 5}, {}, 1), ({}, {3: 6}, 3), ({}, {1: NONE}, 1),
                ({3: 4}, {6: 0}, 3), ({6: 4}, {3: 0}, 3), ({2: 3, 1: 5}, {}, 1), ({}, {5: 0, 4: 0}, 4), ({4: 260}, {}, 4)):
            lists = ([changed.get(r, right) for r, right in enumerate(those)] for those, changed in ((A_LASTS, lasts), (A_NEXTS, nexts)))
            self.assertEqual(refusal(*lists), (15, place), (lasts, nexts))
        self.assertEqual(refusal(A_NEXTS, A_LASTS), (15, 0))

    def test_short_lists(self):
        """14 for either, before 15."""
        self.assertEqual(refusal(A_LASTS[:-1], A_NEXTS), (14, 0))
        self.assertEqual(refusal(A_LASTS, A_NEXTS[:-1]), (14, 0))
        self.assertEqual(refusal([0] * 8, [0] * 100), (14, 0))
        self.assertEqual(refusal([], []), (14, 0))

    def test_order(self):
        """1 to 4 before 14; 14 and 15 before 5, 6 and 7."""
        t, s = P4.table, P4.shape
        for bad, wanted in ((nested_table(many(1, 1025)), (1, 0)), (t[:-1], (2, 0)), (t[24:], (3, 0)), (table(brackets.children(65)), (4, 64))):
            self.assertEqual(refusal([], [], P4._replace(table=bad)), wanted)
            self.assertEqual(refusal([0] * 1025, [0] * 1025, P4._replace(table=bad)), wanted)
        for bad, wanted in ((b"", (5, 0)), (s * 2, (6, 3)), (s + brackets.shape((2, (2,))), (7, 3))):
            case = P4._replace(shape=bad)
            self.assertEqual(refusal(A_LASTS, A_NEXTS, case), wanted)
            self.assertEqual(refusal(A_LASTS, [0] * 9, case), (15, 0))
            self.assertEqual(refusal(A_LASTS, [0] * 8, case), (14, 0))

    def test_room(self):
        """15 before 8; a refused call has zeros, and leaves what it is lent."""
        lent, wrong = (b"\7" * 30, [9] * 3), [0] * 9
        self.assertEqual(indexed.reshape_with_index(P4.table, P4.shape, A_LASTS, A_NEXTS, *lent), ((8, 0, 0), *lent))
        self.assertEqual(indexed.reshape_with_index(P4.table, P4.shape, A_LASTS, wrong, *lent), ((15, 0, 0), *lent))
        self.assertEqual(indexed.judge_with_index(P4.table, P4.shape, wrong, A_NEXTS), (15, 0, (0,), False, ZEROS))
        self.assertEqual(indexed.summarise_with_index(P4.table, P4.shape, A_LASTS[1:], A_NEXTS), (14, 0, ZEROS))

    def test_as_without(self):
        """Table A with its lists: what the calls answer without them."""
        lent = b"\7" * 999, [9] * 99
        self.assertEqual(indexed.judge_with_index(P4.table, P4.shape, A_LASTS, A_NEXTS), paper01.judge(P4.table, P4.shape))
        self.assertEqual(indexed.summarise_with_index(P4.table, P4.shape, A_LASTS, A_NEXTS), paper01.summarise(P4.table, P4.shape))
        self.assertEqual(indexed.reshape_with_index(P4.table, P4.shape, A_LASTS, A_NEXTS, *lent), paper01.reshape(P4.table, P4.shape, *lent))


class Drawn(unittest.TestCase):
    def test_lists(self):
        """Lists that are right, wrong, too short and longer come up, and each refusal of the two."""
        rng, seen = random.Random(6), collections.Counter()
        for _ in range(200):
            lists = cases.index(rng, A_LASTS, A_NEXTS)
            seen[refusal(*lists)[0], max(map(len, lists)) > 9] += 1
        self.assertEqual(set(seen), {(number, longer) for number in (0, 14, 15) for longer in (False, True)})
        self.assertLess(max(len(x) for x in cases.index(rng, [], [])), 5)

    def test_promises(self):
        """Every promise is kept, at both widths."""
        rng = random.Random(5)
        for levels in (6, 8):
            for _ in range(40):
                t, s = cases.case(rng, levels=levels)
                self.assertEqual(list(promises.broken_index(t, s, levels=levels)), [])


class Broken(unittest.TestCase):
    def broken_where(self, name, wrong):
        """What is found broken of table A and P4's shape where a function of indexed.py is another."""
        with unittest.mock.patch.object(indexed, name, wrong):
            return set(promises.broken_index(P4.table, P4.shape, levels=6))

    def test_lists(self):
        """The rows right beneath a row alone; the next row of the label alone; a next row that is the first of its type."""
        last = "a last descendant is not the last of the rows right behind a row that are deeper"
        following = "going on to the next row does not come to all rows of a type in turn"
        self.assertEqual(self.broken_where("is_under", lambda row, other: row == other or row.dewey[:-1] == other.dewey), {last})
        self.assertEqual(self.broken_where("next_rows", lambda kinds: [kinds.index(kind) for kind in kinds]), {following})
        rows = paper01.read_rows(nested_table("1[3] 2[3]"))
        self.assertEqual(list(promises.broken_lists(rows, [1, 1, 3, 3], [NONE, 3, NONE, NONE])), [following])
        self.assertEqual(list(promises.broken_lists(rows, [1, 1, 3, 3], [NONE] * 4)), [])

    def test_builder(self):
        """Another count; a place past the rows written; another place with 14."""
        build = indexed.build_index
        self.assertEqual(self.broken_where("build_index", build), set())
        self.assertIn("an index is not built, or refused, as the table is examined",
                      self.broken_where("build_index", lambda *given, **width: ((0, 0, 8), *build(*given, **width)[1:])))
        self.assertIn("the builder writes past the rows", self.broken_where(
            "build_index", lambda t, *lists, **width: (build(t, *lists, **width)[0], *(x[:-1] + [0] for x in build(t, *lists, **width)[1:]))))
        self.assertEqual(self.broken_where("long_enough", lambda rows, *lists: refuse_unless(min(map(len, lists)) >= len(rows), 14, 1)),
                         {"a list one place short is not refused 14 by the builder, or is changed", "a list one place short is not refused 14"})

    def test_use(self):
        """Lists that are not looked at; that are looked at past the rows; another row named."""
        wrong = "lists that are wrong at row {} first are not refused 15 with it"
        self.assertEqual(self.broken_where("right_lists", lambda *given: None), set(map(wrong.format, range(9))))
        self.assertIn("with the index of its table a call answers something else than without",
                      self.broken_where("right_lists", lambda rows, *lists: refuse_unless(len(lists[0]) == len(rows), 15)))
        for name in ("judge_with_index", "summarise_with_index"):
            call = getattr(indexed, name)
            self.assertEqual(self.broken_where(name, lambda *given, call=call, **width: (call(*given, **width)[0], 0, *call(*given, **width)[2:])),
                             set(map(wrong.format, range(1, 9))))
        with self.assertRaises(SystemExit), unittest.mock.patch.object(indexed, "right_lists", lambda *given: None):
            promises.hold_index(P4.table, P4.shape, levels=6)
