"""Tests of the second answer, of the figures, of the numbers of an edge and of widening and narrowing in paper01.py, and of what is promised of a
new table, of a summary, of the numbers of an edge and of a widened file, on the second reading's own answers."""
import collections, itertools, random, unittest, unittest.mock

import brackets, cases, paper01, promises
from case_parts import bracketed


def work_of(table_text, shape_text):
    case = bracketed(table_text, shape_text)
    work = paper01.Work(case.table, case.shape)
    return work, work.lines(paper01.MOST_LINES)


def drawn(count, seed):
    """Works of drawn tables and shapes that are accepted, with their lines."""
    rng = random.Random(seed)
    while count:
        table, shape = cases.case(rng, most_rows=rng.choice([6, 14, 30]), most_entries=rng.choice([3, 6, 16]), harm=0)
        try:
            work = paper01.Work(table, shape)
            yield work, work.lines(paper01.MOST_LINES)
            count -= 1
        except paper01.Refused:
            pass


class Promises(unittest.TestCase):
    def test_drawn(self):
        """Every promise is kept, and every verdict comes up with each second answer that it can have."""
        seen = collections.Counter()
        for work, lines in drawn(600, 12):
            self.assertEqual(list(promises.broken(work, lines)), [])
            seen[work.verdict()[0], work.none_apart(), promises.is_made_up(work, lines)] += 1
        self.assertEqual(set(seen), {(0, True, False), (1, True, False), (3, True, False), *((v, False, up) for v in (1, 2, 3) for up in (False, True))})

    def test_broken_ones_are_found(self):
        """A second answer that is always yes, a verdict that is always 0, and one that names a row that is shown."""
        work, lines = work_of(brackets.A, "1[2 4[3]]")
        self.assertEqual(list(promises.broken(work, lines)), [])
        with unittest.mock.patch.object(work, "none_apart", lambda: True):
            self.assertEqual(list(promises.broken(work, lines)), ["the second answer is yes, and a link is made up"])
        with unittest.mock.patch.object(work, "verdict", lambda: (0,)):
            self.assertEqual(list(promises.broken(work, lines)), [
                "verdict 0, and a link is missing or made up", "verdict 0, and the second answer is no",
                "verdict 0, and entry 3 has not as many different rows as rows", Edges.NOT_FIRST])
        with unittest.mock.patch.object(work, "verdict", lambda: (1, 3, 2)):
            self.assertEqual(list(promises.broken(work, lines)), ["verdict 1 names a row that stands in a line of its entry"])
        case = bracketed(brackets.A, "1[2 4]")
        with unittest.mock.patch.object(paper01.Work, "none_apart", lambda self: True), self.assertRaises(SystemExit):
            promises.hold(case.table, case.shape)


class Figures(unittest.TestCase):
    def broken_with(self, table_text, shape_text, e, *four):
        """What is found broken where an entry has these figures."""
        work, lines = work_of(table_text, shape_text)
        self.assertEqual(list(promises.broken(work, lines)), [])
        figures = work.figures(lines)
        for of_all, figure in zip(figures, four):
            of_all[e] = figure
        with unittest.mock.patch.object(work, "figures", lambda lines: figures):
            return list(promises.broken(work, lines))

    def test_broken_ones_are_found(self):
        """Each law by itself, in table A: in asset[lease[lessee]], whose entry 1 has 3, 3, 1, 2, and in lease[lessee asset], whose entry 1 has
        3, 2, 1, 2."""
        not_lines = "entry 1 has copies and different rows that do not make its lines"
        too_many = "entry 1 has more different rows than its type has rows"
        self.assertEqual(self.broken_with(brackets.A, "4[3[2]]", 1, 3, 3, 0, 2), [not_lines])
        self.assertEqual(self.broken_with(brackets.A, "4[3[2]]", 1, 3, 3, 1, 3), [not_lines])
        self.assertEqual(self.broken_with(brackets.A, "4[3[2]]", 1, 3, 1, 1, 2), [too_many])
        self.assertEqual(self.broken_with(brackets.A, "4[3[2]]", 1, 1, 3, -1, 2), ["entry 1 has more different rows than lines"])
        self.assertEqual(self.broken_with(brackets.A, "4[3[2]]", 1, 3, 3, 2, 1), [])
        not_all = "verdict 0, and entry 1 has not as many different rows as rows"
        self.assertEqual(self.broken_with(brackets.A, "3[2 4]", 1, 3, 2, 2, 1), [not_all])
        self.assertEqual(self.broken_with(brackets.A, "3[2 4]", 1, 3, 2, 0, 3), [too_many, not_all])
        # of an entry that the shape does not have too
        self.assertEqual(self.broken_with(brackets.A, "4[3[2]]", 15, 0, 1, 1, 0), [not_lines.replace("entry 1", "entry 15")])

    def test_hold(self):
        """The rule of document 01, which lets a missing row hide a copy, does not pass."""
        by_document_01 = [3, 3, 3] + [0] * 13, [3, 3, 2] + [0] * 13, [0, 0, 1] + [0] * 13, [3, 2, 1] + [0] * 13
        case = bracketed(brackets.A, "4[3[2]]")
        promises.hold(case.table, case.shape)
        with unittest.mock.patch.object(paper01.Work, "figures", lambda self, lines: by_document_01), self.assertRaises(SystemExit):
            promises.hold(case.table, case.shape)

    def test_by_hand(self):
        """Request 3's example; two entries of one type, of which one lacks a row; rows of two trees that do not meet; and a refusal."""
        wanted = {
            (brackets.A, "4[3[2]]"): ([3, 3, 3], [3, 3, 2], [0, 1, 2], [3, 2, 1]),
            (brackets.A, "3[4[3]]"): ([3, 3, 3], [3, 3, 3], [0, 0, 1], [3, 3, 2]), ("2 3", "2[3]"): ([1, 0], [1, 1], [0, 0], [1, 0])}
        for texts, four in wanted.items():
            case = bracketed(*texts)
            self.assertEqual(paper01.summarise(case.table, case.shape), (0, 0, [x + [0] * (16 - len(x)) for x in four]), texts)
        self.assertEqual(paper01.summarise(b"", b""), (5, 0, [[0] * 16] * 4))

    def test_line_by_line(self):
        """A copy is a line whose row an earlier line of its entry shows, and a missing row is one that no line of the entry shows; there is
        one exactly where the verdict is 1."""
        seen = set()
        for work, lines in drawn(300, 5):
            shown, rows, copies, different = work.figures(lines)
            self.assertEqual(sum(shown), len(lines))
            lacking = False
            for e, entry in enumerate(work.entries):
                again = sum(1 for i, line in enumerate(lines) if line[0] == e and any(line[:2] == other[:2] for other in lines[:i]))
                missing = sum(1 for r, kind in enumerate(work.kinds) if kind == entry.type and not work.shows(lines, e, r))
                self.assertEqual((copies[e], rows[e] - different[e]), (again, missing))
                seen.add((again > 0, missing > 0))
                lacking = lacking or missing > 0
            self.assertEqual(lacking, work.verdict()[0] == 1)
        self.assertEqual(len(seen), 4)


class Edges(unittest.TestCase):
    NOT_FIRST = "verdict 1 names another entry than the first whose least number of parents is 0, or one of the two is not there"
    CHILDREN, PARENTS = (f"edge %s has a row with another number of {those} than between the two, or does not reach them" for those in ("children", "parents"))
    NOT_FULL = "edge %s is full with 0 as its least number of children, or not full with another"

    def test_by_hand(self):
        """Document 01's samples; a refusal, and a shape of one entry, have zeros alone."""
        wanted = {
            (brackets.A, "3[2 4]"): [(1, 1, 1, 2), (0, 2, 1, 1)], (brackets.A, "4[3[2]]"): [(1, 1, 0, 2), (1, 1, 1, 2)],
            (brackets.A, "1[2 4]"): [(2, 2, 1, 1), (3, 3, 1, 1)], ("1[3[4] 3 5]", "3[4[5]]"): [(0, 1, 1, 1), (1, 1, 1, 1)],
            (brackets.A, "3[3]"): [(1, 1, 1, 1)], (brackets.A, "1[3 3]"): [(3, 3, 1, 1)] * 2, ("2 3", "2[3]"): [(0, 0, 0, 0)], (brackets.A, "4"): []}
        for texts, numbers in wanted.items():
            case = bracketed(*texts)
            edges = [(0, 0, 0, 0), *numbers] + [(0, 0, 0, 0)] * (15 - len(numbers))
            self.assertEqual(list(zip(*paper01.judge(case.table, case.shape)[4])), edges, texts)
        self.assertEqual(paper01.judge(b"", b"")[4], [[0] * 16] * 4)

    def test_row_by_row(self):
        """Over all rows of the table: who is closest to whom. Each kind of edge comes up."""
        seen = set()
        for work, _ in drawn(200, 9):
            for e, four in list(enumerate(zip(*work.edges())))[1:len(work.entries)]:
                above, own = ([r for r, kind in enumerate(work.kinds) if kind == work.entries[at].type] for at in (work.parent[e], e))
                children, parents = ([sum(work.closest(r, s) for s in there) for r in here] for here, there in ((above, own), (own, above)))
                self.assertEqual(four, (min(children), max(children), min(parents), max(parents)))
                seen.add(tuple(min(number, 2) for number in four))
        self.assertLessEqual({(0, 0, 0, 0), (1, 1, 1, 1), (0, 1, 1, 1), (1, 1, 0, 2), (0, 2, 1, 1), (2, 2, 2, 2), (1, 2, 1, 2)}, seen)

    def broken_with(self, e, *four):
        """What is found broken of table A and asset[lease[lessee]] where an entry has these numbers."""
        work, lines = work_of(brackets.A, "4[3[2]]")
        self.assertEqual(list(promises.broken(work, lines)), [])
        edges = work.edges()
        for of_all, number in zip(edges, four):
            of_all[e] = number
        with unittest.mock.patch.object(work, "edges", lambda: edges):
            return list(promises.broken(work, lines))

    def test_broken_ones_are_found(self):
        """Each law by itself: entry 1 has 1, 1, 0, 2, and entry 2 has 1, 1, 1, 2, where lessee 7 and lease 8, which no line shows, count."""
        for e, four, words in (
                (1, (1, 2, 0, 2), [self.CHILDREN]), (1, (0, 1, 0, 2), [self.CHILDREN, self.NOT_FULL]), (1, (1, 1, 0, 1), [self.PARENTS]),
                (1, (1, 1, 1, 2), [self.PARENTS, self.NOT_FIRST]), (2, (1, 1, 2, 2), [self.PARENTS]), (2, (1, 1, 0, 2), [self.PARENTS]),
                (2, (2, 2, 1, 2), [self.CHILDREN])):
            self.assertEqual(self.broken_with(e, *four), [each % e if "%s" in each else each for each in words], (e, four))
        for e in (0, 3, 15):
            self.assertEqual(self.broken_with(e, 0, 0, 0, 1), [f"entry {e} has no edge, and numbers that are not 0"])

    def test_lines_beneath(self):
        """A new table that lacks a line, or has one too many, beneath some line."""
        work, lines = work_of(brackets.A, "3[2 4]")
        said = ["a line of entry 0 has not as many lines of entry 2 beneath it as its source row has children"]
        self.assertEqual(list(promises.broken_edges(work, lines)), [])
        self.assertEqual(list(promises.broken_edges(work, [line for line in lines if line[2] != (1, 3)])), said)
        self.assertEqual(list(promises.broken_edges(work, [*lines, (2, 6, (3, 2))])), said)

    def test_hold(self):
        """Numbers of the shown rows alone do not pass."""
        case = bracketed(brackets.A, "4[3[2]]")
        promises.hold(case.table, case.shape)
        of_shown = [[0, number, other] + [0] * 13 for number, other in ((1, 1), (1, 1), (1, 2), (2, 2))]
        with unittest.mock.patch.object(paper01.Work, "edges", lambda self: of_shown), self.assertRaises(SystemExit):
            promises.hold(case.table, case.shape)


class MadeUp(unittest.TestCase):
    def made_up(self, table_text, shape_text):
        work, lines = work_of(table_text, shape_text)
        return work.none_apart(), sorted(work.made_up(lines))

    def hang_under(self, z, *lines):
        """Do they hang under line z, or are they it?"""
        return all(dewey[:len(z[2])] == z[2] for _, _, dewey in lines)

    def test_by_hand(self):
        # document 01: P6 makes up three pairs
        self.assertEqual(self.made_up(brackets.A, "1[2 4]"), (False, [(1, 2, 7, 3), (1, 2, 7, 4), (1, 2, 7, 6)]))
        self.assertEqual(self.made_up(brackets.A, "3[2 4]"), (True, []))
        # after verdict 1 and after verdict 3
        self.assertEqual(self.made_up(brackets.A, "4[3[2]]"), (True, []))
        self.assertEqual(self.made_up("1[3[4] 3 5]", "3[4[5]]"), (True, []))
        # a line and one further down beneath it: a lease comes to stand beneath another
        self.assertEqual(self.made_up("1[3[4] 3 5]", "3[5[3]]"), (False, [(0, 2, 1, 3), (0, 2, 3, 1)]))

    def test_one_way(self):
        """`no` does not say that something is made up."""
        self.assertEqual(self.made_up("1[2]", "1[2 2]"), (False, []))
        self.assertEqual(self.made_up("1[2 2]", "1[2 2]"), (False, [(1, 2, 1, 2), (1, 2, 2, 1)]))

    def test_as_the_request_says_it(self):
        """Over any three lines, of which two hang under the third, or are it, and this is of their fork entry."""
        for work, lines in drawn(200, 3):
            if len(lines) <= 40:
                said = {(x[0], y[0], x[1], y[1]) for x, y, z in itertools.product(lines, repeat=3)
                        if x[0] < y[0] and z[0] == work.fork(x[0], y[0]) and self.hang_under(z, x, y) and not work.closest(x[1], y[1])}
                self.assertEqual(set(work.made_up(lines)), said)


class Second(unittest.TestCase):
    def test_refused(self):
        self.assertEqual(paper01.judge(b"", b"")[:4], (5, 0, (0,), False))
        case = bracketed(brackets.A, "3[2 4]")
        self.assertEqual(paper01.judge(case.table, case.shape)[:4], (0, 0, (0,), True))
        self.assertEqual(paper01.judge(case.table[:-1], case.shape)[:4], (2, 0, (0,), False))

    def test_earned_by_each_pair(self):
        """The verdict, where it is no 1, is the first that a pair earns; the second answer looks at all of them."""
        for work, _ in drawn(200, 7):
            earned = [work.earns(e, f) for e, f in work.pairs_of_entries()]
            self.assertEqual(work.none_apart(), 2 not in earned)
            if work.verdict()[0] != 1:
                self.assertEqual(work.verdict()[0], next(filter(None, earned), 0))


class Widths(unittest.TestCase):
    A_WIDE = bracketed(brackets.A, "3[2 4]", levels=8)
    DEEP = bracketed("1[2[3[4[5[6[7[8]]]]]]]", "8[7]", levels=8)

    def test_by_hand(self):
        """A row of each width, byte by byte; an entry; what lies past them stays."""
        narrow = bytes([2, 0, 98, 0, 1, 0, 5, 0]) + bytes(8) + bytes(range(8))
        wide = bytes([2, 0, 98, 0, 1, 0, 5, 0]) + bytes(12) + bytes(range(8))
        first = bytes([1, 0, 1, 0, 1, 0]) + bytes(10) + bytes(8), bytes([1, 0, 1, 0, 1, 0]) + bytes(14) + bytes(8)
        rows = [b"".join((one, *(brackets.with_byte(two, 6, k) for k in range(1, 6)))) for one, two in zip(first, (narrow, wide))]
        self.assertEqual(paper01.move_table(rows[0], b"\7" * 170, 8), ((0, 0, 6), rows[1] + b"\7\7"))
        self.assertEqual(paper01.move_table(rows[1], b"\7" * 144, 6, 8), ((0, 0, 6), rows[0]))
        entries = bytes([1, 2, 0, 0, 9, 0, 98, 0]) + bytes(8), bytes([1, 2, 0, 0, 9, 0, 98, 0]) + bytes(12)
        self.assertEqual(paper01.move_shape(entries[0], b"\7" * 21, 8), ((0, 0, 1), entries[1] + b"\7"))
        self.assertEqual(paper01.move_shape(entries[1], b"\7" * 17, 6, 8), ((0, 0, 1), entries[0] + b"\7"))

    def test_refused(self):
        """Nothing lent changes; 24 comes after 3 and 6, and before 29."""
        table, shape = self.DEEP.table, self.DEEP.shape
        chain = brackets.shape(*((level, (1,)) for level in range(1, 9)), levels=8)
        for call, data, lent, to, levels, wanted in (
                (paper01.move_table, table, b"", 6, 8, (24, 6, 0)), (paper01.move_table, table + table, b"", 6, 8, (3, 8, 0)),
                (paper01.move_table, table[:-1], b"", 6, 8, (2, 0, 0)), (paper01.move_table, bytes(28 * 1025), b"", 6, 8, (1, 0, 0)),
                (paper01.move_table, b"", b"\7", 6, 8, (0, 0, 0)), (paper01.move_shape, b"", b"\7", 6, 8, (5, 0, 0)),
                (paper01.move_shape, shape, b"\7", 6, 8, (24, 0, 0)), (paper01.move_shape, chain, b"\7" * 999, 6, 8, (24, 6, 0)),
                (paper01.move_shape, shape + shape, b"\7", 6, 8, (6, 2, 0)), (paper01.move_shape, chain[:120], b"\7" * 95, 6, 8, (29, 0, 0)),
                (paper01.move_table, self.A_WIDE.table, b"\7" * 215, 6, 8, (29, 0, 0)), (paper01.move_table, table, b"", 8, 8, (29, 0, 0))):
            self.assertEqual(call(data, lent, to, levels), (wanted, lent))

    def test_drawn(self):
        """Every promise is kept, over several numbers of levels."""
        rng = random.Random(4)
        for levels, to in ((6, 8), (6, 7), (5, 9), (8, 10)):
            for _ in range(60):
                table, shape = cases.case(rng, levels=levels)
                self.assertEqual(list(promises.broken_widths(table, shape, levels, to)), [])

    def broken_where(self, name, wrong):
        """What is found broken of table A and P4's shape where a function of paper01.py is another."""
        case = bracketed(brackets.A, "3[2 4]")
        with unittest.mock.patch.object(paper01, name, wrong):
            return set(promises.broken_widths(case.table, case.shape, 6, 8))

    def test_broken_ones_are_found(self):
        """Zeros in front; a call that answers otherwise of wide files; narrowing that forgets what it wrote."""
        zeros = "widening does not put zeros behind the components or labels, or nothing else"
        self.assertIn(zeros, self.broken_where("written", lambda numbers, levels: bytes(2 * (levels - len(numbers))) + bytes(2 * len(numbers))))
        for name, words in (
                ("examine", "a widened table is not accepted, or refused, as the table is"),
                ("judge", "a widened table and shape are judged otherwise"),
                ("summarise", "a widened table and shape have another summary")):
            call = getattr(paper01, name)
            self.assertEqual(self.broken_where(name, call), set())
            self.assertEqual(self.broken_where(name, lambda *data, levels: (levels, *call(*data, levels=levels))), {words})
        move = paper01.move_table

        def forgets(data, lent, to, levels):
            reply, left = move(data, lent, to, levels)
            return reply, left if levels < to else lent

        self.assertEqual(self.broken_where("move_table", forgets), {"narrowing a widened file does not restore it"})
        with self.assertRaises(SystemExit), unittest.mock.patch.object(paper01, "examine", lambda data, levels: levels):
            promises.hold_widths(b"", b"")
