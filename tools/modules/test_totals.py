"""Tests of the sums and totals in totals.py, of the draws of tapes.py, and of what is promised of both, on the second reading's own answers."""
import collections, random, re, unittest, unittest.mock

import brackets, explained, paper01, samples, tapes, total_promises, totals
from case_parts import bracketed, many, table
from paper01 import Refused
from testing import InFolder
from totals import MOST_SUM, NOTHING, Tape, Total

MOST, ROWS = totals.MOST_VALUE, paper01.MOST_ROWS
# table A: portfolio, lessee, lease, asset, asset, lease, asset, lessee, lease
VALUES = [1, 20, 300, -4000, 50000, -600000, 7000000, -80000000, 900000000]


def tape_of(table_text, shape_text, entry, values=VALUES, levels=6):
    case = bracketed(table_text, shape_text, values=values, levels=levels)
    return Tape(case.table, case.shape, entry, levels)


def a_tape(shape_text, entry, values=VALUES, levels=6):
    return tape_of(brackets.A, shape_text, entry, values, levels)


ONE = tape_of("1", "1", 0, [5])


class Sums(unittest.TestCase):
    def test_by_hand(self):
        """Rows that several lines show, rows that none shows, at both widths; two entries of one type, of which one lacks a row."""
        wanted = {
            # asset[lease[lessee]]: lease 2 stands in two lines and lease 8 in none; lessee 1 in three and lessee 7 in none
            ("4[3[2]]", 0): (-4000 + 50000 + 7000000, 0), ("4[3[2]]", 1): (300 - 600000, 900000000), ("4[3[2]]", 2): (20, -80000000),
            ("3[2 4]", 0): (300 - 600000 + 900000000, 0), ("3[2 4]", 1): (20 - 80000000, 0), ("1[2]", 0): (1, 0),
            # lease[asset[lease]]: entry 0 shows every lease, entry 2 those that have an asset
            ("3[4[3]]", 0): (300 - 600000 + 900000000, 0), ("3[4[3]]", 2): (300 - 600000, 900000000),
            # a row is closest, within its own type, to itself only
            ("2[2]", 1): (20 - 80000000, 0)}
        for (shape_text, entry), sums in wanted.items():
            for levels in (6, 8):
                self.assertEqual(totals.sum_tape(a_tape(shape_text, entry, levels=levels)), (0, 0, *sums), (shape_text, entry))
        self.assertEqual(totals.sum_tape(tape_of("2 3 3", "2[3]", 1, [9, -7, 5])), (0, 0, 0, -2))

    def test_refused(self):
        """As for a summary, then 16 and 17; zeros elsewhere."""
        good, beyond = a_tape("3[2 4]", 2), a_tape("3[2 4]", 3)
        short = good.table[:-1]
        for tape, refusal in (
                (good, (0, 0)), (beyond, (16, 0)), (beyond._replace(entry=2**64 - 1), (16, 0)), (beyond._replace(table=short), (2, 0)),
                (beyond._replace(shape=b""), (5, 0)), (beyond._replace(table=good.table * 2), (3, 9)), (beyond._replace(shape=good.shape * 2), (6, 3)),
                (beyond._replace(shape=good.shape + brackets.shape((2, (9,)))), (7, 3)),
                (good._replace(table=table([((i + 1,), 1) for i in range(ROWS + 1)])), (1, 0)), (good._replace(table=table(brackets.children(65))), (4, 64)),
                # 64 + 64 + 64 × 64 lines
                (tape_of(f"1[{many(2, 64)}]", "2[1[2]]", 5, [2**63 - 1]), (8, 0)),
                # 17 after 16, and with the first row of the type, shown or not
                (a_tape("4[3[2]]", 3, [2**62]), (16, 0)), (a_tape("4[3[2]]", 1, [2**62]), (17, 2)),
                (a_tape("4[3[2]]", 1, VALUES[:8] + [MOST + 1]), (17, 8)), (a_tape("4[3[2]]", 2, VALUES[:7] + [-MOST - 1, 0]), (17, 7)),
                (a_tape("4[3[2]]", 0, VALUES[:3] + [0, 0, 2**63 - 1, -2**63, 0, 0]), (17, 6)), (a_tape("4[3[2]]", 0, VALUES[:8] + [2**63 - 1]), (0, 0))):
            self.assertEqual(totals.sum_tape(tape)[:2], refusal)
            self.assertTrue(totals.sum_tape(tape)[2:] == (0, 0) or refusal == (0, 0))

    def test_ends(self):
        """-10^12 and 10^12 are in range, and as many of them as there may be add up to 1.024 × 10^15."""
        for value in (MOST, -MOST):
            self.assertEqual(totals.sum_tape(a_tape("4[3[2]]", 1, [value])), (0, 0, 2 * value, value))
            self.assertEqual(totals.sum_tape(tape_of(many(1, ROWS), "1", 0, [value])), (0, 0, ROWS * value, 0))
            self.assertEqual(totals.sum_tape(a_tape("4[3[2]]", 1, [value + value // MOST])), (17, 2, 0, 0))
        self.assertEqual(ROWS * MOST, MOST_SUM)


class Totals(unittest.TestCase):
    def refusal(self, *total, tape=ONE):
        number, place, after = totals.take_in(Total(*total), tape)
        self.assertEqual(after, Total(*total) if number else Total(total[0] + 5, total[1], total[2] + 1))
        return number, place

    def test_ends(self):
        """18 for 1,000 tapes, and for a sum one beyond so many tapes; nothing else is asked of a total."""
        for tapes_in in (0, 1, 500, 999):
            most = tapes_in * MOST_SUM
            for shown, unshown in ((0, 0), (most, most), (-most, most), (most, -most), (-most, -most)):
                self.assertEqual(self.refusal(shown, unshown, tapes_in), (0, 0))
                self.assertEqual(self.refusal(shown, most + 1, tapes_in), (18, 0))
                self.assertEqual(self.refusal(shown, -most - 1, tapes_in), (18, 0))
                self.assertEqual(self.refusal(most + 1, unshown, tapes_in), (18, 0))
                self.assertEqual(self.refusal(-most - 1, unshown, tapes_in), (18, 0))
        for tapes_in in (1000, 1001, 2**32, 2**64 - 1):
            self.assertEqual(self.refusal(0, 0, tapes_in), (18, 0))

    def test_refused_tapes(self):
        """Each refusal of a tape comes before 18, and leaves the total as it was."""
        for tape, refusal in ((ONE._replace(table=b"x"), (2, 0)), (ONE._replace(entry=1), (16, 0)), (tape_of("1 1", "1", 0, [0, MOST + 1]), (17, 1))):
            for total in (NOTHING, (3, -4, 1), (2**62, 0, 1000)):
                self.assertEqual(self.refusal(*total, tape=tape), refusal)

    def test_history(self):
        """A thousand tapes are taken in, however far their sums go, and refused ones between them leave the total as it was; the next is refused 18."""
        far, bad = tape_of(many(1, 3), "1", 0, [-MOST]), ONE._replace(entry=1)
        answers = totals.history([far, bad] * 500 + [ONE] * 500 + [ONE, bad, far])
        self.assertEqual(collections.Counter(number for number, _, _ in answers), {0: 1000, 16: 501, 18: 2})
        self.assertEqual([answer for answer in answers[-4:]], [(number, 0, Total(-1500 * MOST + 2500, 0, 1000)) for number in (0, 18, 16, 18)])
        self.assertEqual(list(total_promises.broken_history([far, bad] * 500 + [ONE] * 503)), [])
        self.assertEqual(totals.history([]), [])


class Drawn(unittest.TestCase):
    def test_promises(self):
        """Every promise is kept, at both widths; each refusal comes up, and sums of both kinds."""
        rng, seen = random.Random(6), collections.Counter()
        for at in range(300):
            levels = 8 if at % 3 == 0 else 6
            several = [tapes.tape(rng, levels=levels, most_rows=rng.choice([6, 14, 30])) for _ in range(rng.randint(1, 4))]
            total = tapes.total(rng)
            for tape in several:
                self.assertEqual([*total_promises.broken_tape(tape), *total_promises.broken_take_in(total, tape)], [], (tape, total))
                number, _, shown, unshown = totals.sum_tape(tape)
                seen[number, levels] += 1
                seen[bool(shown), bool(unshown)] += 1
                seen["taken in", totals.take_in(total, tape)[0], total.tapes == 999] += 1
            self.assertEqual(list(total_promises.broken_history(several)), [], several)
        self.assertFalse({(number, levels) for number in (0, 2, 3, 5, 6, 7, 16, 17) for levels in (6, 8)} - set(seen))
        taken = {("taken in", number, at_end) for number in (0, 18) for at_end in (True, False)}
        self.assertFalse({(True, False), (False, True), (True, True), *taken} - set(seen))

    def test_totals(self):
        """Those that may be a total and those that may not, by either sum and by the tapes; at both ends."""
        rng, seen = random.Random(2), collections.Counter()
        for _ in range(2000):
            shown, unshown, count = total = tapes.total(rng)
            self.assertTrue(all(-2**63 <= each < 2**63 for each in total[:2]) and 0 <= count < 2**64)
            for each, name in ((shown, "shown"), (unshown, "unshown")):
                seen[name, 0 if count >= 1000 else each - count * MOST_SUM] += 1
                seen[name, "below", 0 if count >= 1000 else each + count * MOST_SUM] += 1
            seen[count] += 1
        for name in ("shown", "unshown"):
            self.assertTrue(seen[name, 0] and seen[name, 1] and seen[name, "below", 0] and seen[name, "below", -1])
        self.assertTrue(seen[999] and seen[1000] and seen[0])


# ---- wrong readings
def sums_where(pick):
    """Another reading of the two sums: what it picks of the rows' values and of the entry's lines."""
    def both_sums(tape):
        work = paper01.Work(tape.table, tape.shape, tape.levels)
        lines = work.lines(paper01.MOST_LINES)
        return pick(totals.values(work, tape.entry), lines, tape.entry, work)
    return both_sums


def rows_in(lines, entry):
    return [r for e, r, _ in lines if e == entry]


def by_lines(found, lines, entry, work):
    return sum(found[r] for r in rows_in(lines, entry)), sum(found[r] for r in found if r not in rows_in(lines, entry))


def shown_alone(found, lines, entry, work):
    return sum(found[r] for r in set(rows_in(lines, entry))), 0


def by_type(found, lines, entry, work):
    """A row of another entry of the same type is taken for shown."""
    seen = {r for e, r, _ in lines if work.entries[e].type == work.entries[entry].type}
    return sum(found[r] for r in seen), sum(found[r] for r in found if r not in seen)


def within(least, most):
    """Another range of values."""
    def values(work, entry):
        found = {r: totals.value_of(work.rows[r]) for r in work.by_type[work.entries[entry].type]}
        for r, value in found.items():
            if not least <= value <= most:
                raise Refused(17, r)
        return found
    return values


class Broken(unittest.TestCase):
    """Each wrong reading that the must-fail edits are about is found by a promise."""

    def broken_where(self, name, wrong, *several, total=NOTHING):
        """What is found broken of some tapes where a function of totals.py is another."""
        with unittest.mock.patch.object(totals, name, wrong):
            found = [words for tape in several for words in (*total_promises.broken_tape(tape), *total_promises.broken_take_in(total, tape))]
            return {*found, *total_promises.broken_history(list(several))}

    TOGETHER = "the two sums together are not the sum over all rows of the type"
    ONES = "where each value is 1, the sums are not the different rows of the summary and the other rows of the type"
    REFUSED = "a tape is not refused as for a summary, then with 16, then with 17"
    OUT_OF_RANGE = a_tape("4[3[2]]", 1, VALUES[:8] + [MOST + 1])

    def test_sums(self):
        twice, apart = a_tape("4[3[2]]", 1), a_tape("3[4[3]]", 2)
        self.assertEqual(self.broken_where("sum_tape", totals.sum_tape, twice, apart), set())
        self.assertLess({self.TOGETHER, self.ONES}, self.broken_where("both_sums", sums_where(by_lines), twice))
        self.assertLess({self.TOGETHER, self.ONES}, self.broken_where("both_sums", sums_where(shown_alone), twice))
        self.assertEqual(self.broken_where("both_sums", sums_where(by_type), twice), set())
        self.assertEqual(self.broken_where("both_sums", sums_where(by_type), apart), {self.ONES})
        right = totals.both_sums
        swapped = self.broken_where("both_sums", lambda tape: right(tape)[::-1], twice)
        self.assertEqual(swapped, {self.ONES})
        self.assertLess({"every row is shown, and the second sum is not 0"}, self.broken_where("both_sums", lambda tape: right(tape)[::-1], ONE))

    def test_range(self):
        least, most = a_tape("4[3[2]]", 1, [-MOST]), a_tape("4[3[2]]", 1, [MOST])
        for values, tape in ((within(1 - MOST, MOST), least), (within(-MOST, MOST - 1), most), (within(-MOST, MOST + 1), self.OUT_OF_RANGE),
                             (within(-2**63, MOST), a_tape("4[3[2]]", 1, [-MOST - 1]))):
            self.assertIn(self.REFUSED, self.broken_where("values", values, tape))
        self.assertEqual(self.broken_where("values", within(-MOST, MOST), least, most, self.OUT_OF_RANGE), set())

    def test_total(self):
        wanted = "a tape is not refused as its sums are, then with 18"
        for most, tapes_in in ((999, 999), (1001, 1000)):
            self.assertEqual(self.broken_where("can_be", lambda total, most=most: total.tapes < most, ONE, total=Total(0, 0, tapes_in)), {wanted})
        self.assertEqual(self.broken_where("can_be", lambda total: total.tapes < 1000, ONE, total=Total(0, 1, 0)), {wanted})
        history = [ONE] * 1001
        with unittest.mock.patch.object(totals, "can_be", lambda total: total.tapes < 999):
            self.assertIn("18 comes before the thousandth tape is in, or does not come behind it", list(total_promises.broken_history(history)))
        right = totals.take_in

        def counts(total, tape):
            number, place, after = right(total, tape)
            return number, place, after._replace(tapes=total.tapes + 1)

        found = self.broken_where("take_in", counts, ONE, self.OUT_OF_RANGE)
        self.assertLess({"a refused tape does not leave the total as it was", "the total is another without the tapes that are refused"}, found)
        with unittest.mock.patch.object(totals, "take_in", counts), self.assertRaises(SystemExit):
            total_promises.hold([self.OUT_OF_RANGE])

    def test_order(self):
        """A total that forgets what stood before the last tape."""
        right = totals.take_in
        found = self.broken_where("take_in", lambda total, tape: right(NOTHING, tape), ONE, a_tape("4[3[2]]", 1))
        self.assertIn("the total is another in another order", found)


class Told(InFolder):
    def test_by_hand(self):
        """A line a folder, and the total last; a folder that is refused, by its table, its entry, a value or its typed tree, is not counted."""
        names = "p5", "typed", "cut_off", "typed_none", "p10", "labels_22a", "level_8"
        named = [(f"samples/{name}", samples.FOLDER / name) for name in names]
        text, refused = totals.told(1, named)
        self.assertTrue(refused)
        self.assertEqual(text.splitlines(), [
            "samples/p5: shown 700, not shown 800", "samples/typed: shown 800, not shown 0", "samples/cut_off: refused 2 0, not counted",
            "samples/typed_none: refused 13 2, not counted", "samples/p10: shown 0, not shown 100", "samples/labels_22a: refused 17 3, not counted",
            "samples/level_8: shown 600, not shown 0", "total: shown 2100, not shown 900, tapes 4"])
        self.assertEqual(totals.told(2, named[:1]), ("samples/p5: shown 100, not shown 700\ntotal: shown 100, not shown 700, tapes 1\n", False))
        self.assertEqual(totals.told(0, []), ("total: shown 0, not shown 0, tapes 0\n", False))
        self.assertEqual(totals.told(3, named[:1])[0], "samples/p5: refused 16 0, not counted\ntotal: shown 0, not shown 0, tapes 0\n")

    # of each entry: the sums, or the refusal
    SAMPLES = {
        "credits": ["shown 202500, not shown 0", "shown 75500, not shown 97000", "shown 120000, not shown -3000", "shown 115000, not shown -70000"],
        "credits_wide": ["shown 0, not shown 0", "shown 15000, not shown 9000", "shown -15000, not shown -9000", "shown -7000, not shown 0"],
        "value_beyond": ["shown 250, not shown 0", "shown -1000000000000, not shown 1000000000000", "refused 17 6, not counted"]}

    def test_samples(self):
        """Each entry by hand; each has a value below 0, and all but the first a row not shown; the page on the samples has three of them."""
        page = (samples.FOLDER / "README.md").read_text()
        for name, entries in self.SAMPLES.items():
            for entry, line in enumerate([*entries, "refused 16 0, not counted"]):
                self.assertEqual(totals.told(entry, [(name, samples.FOLDER / name)])[0].splitlines()[0], f"{name}: {line}")
            work = paper01.Work(*samples.read(samples.FOLDER / name))
            self.assertLess(min(map(totals.value_of, work.rows)), 0)
        for name, entry in (("credits", 3), ("credits_wide", 2)):
            self.assertRegex(page, rf"(?m)^\| {name} \|.*Entry {entry}: {self.SAMPLES[name][entry]} \|$")

    def test_help_screen(self):
        """docs/HELP.md shows a total, and has a row for each kind of line that it has."""
        page, names = explained.PAGE.read_text(), ("credits", "credits_wide", "value_beyond")
        text, refused = totals.told(3, [(f"samples/{name}", samples.FOLDER / name) for name in names])
        shown = "".join(f"    {line}\n" for line in text.splitlines())
        self.assertTrue(refused)
        self.assertIn(f"\n    $ ./intake --total 3 {' '.join(f'samples/{name}' for name in names)}\n{shown}\n", page)
        rows = [re.escape(row) for row in re.findall(r"(?m)^\| `((?:FOLDER|total): .*?)` \|", page)]
        kinds = [re.sub(r"\b([SUPNK])\b", "-?[0-9]+", row.replace("FOLDER", "samples/\\w+")) for row in rows]
        self.assertEqual(len(kinds), 3)
        for line in text.splitlines():
            self.assertEqual(sum(bool(re.fullmatch(kind, line)) for kind in kinds), 1, line)

    def test_the_thousand_and_first(self):
        tape = bracketed("1", "1", values=[-5])
        self.put("source.tab", tape.table)
        self.put("shape.tab", tape.shape)
        *lines, last, total = totals.told(0, [("here", self.folder)] * 1001)[0].splitlines()
        self.assertEqual((set(lines), last), ({"here: shown -5, not shown 0"}, "here: refused 18 0, not counted"))
        self.assertEqual(total, "total: shown -5000, not shown 0, tapes 1000")
