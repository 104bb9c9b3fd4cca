"""Tests of table_text.py and of the commands to_table, to_shape and show."""
import os, random, resource, unittest

import brackets, cases, paper01, promises, samples, table_text
from table_text import Wrong
from testing import InFolder, run

A = """\
portfolio
  lessee 100
    lease 200
      asset 300
      asset 400
    lease 500
      asset 600
  lessee 700
    lease 800
"""
A_BYTES = b"".join(cases.row_bytes(d, l, (100 * i).to_bytes(8, "little")) for i, (d, l) in enumerate(brackets.nested(brackets.A)))
CHAIN = "".join("  " * i + f"{i + 1}\n" for i in range(6))
WIDE_CHAIN = "".join("  " * i + f"{i + 1}\n" for i in range(8))


def value(n):
    return n.to_bytes(8, "little", signed=True)


class FromText(unittest.TestCase):
    def test_table(self):
        self.assertEqual(table_text.table_from(A), A_BYTES)
        self.assertEqual(table_text.table_from(""), b"")
        self.assertEqual(table_text.table_from("# nothing\n\n   \n"), b"")

    def test_indents_and_remarks(self):
        same = "# first\nportfolio\r\n\tlessee 100 # lessee 5\n\n  \tlease +200\n\t    asset 0300\n\t  \t4 400\n"
        same += "    3 500\n      asset 600\n# x\n\t2 700\n\t\t3 800"
        self.assertEqual(table_text.table_from(same), A_BYTES)

    def test_values(self):
        ends = table_text.table_from(f"1 {-2**63}\n99 {2**63 - 1}\n")
        self.assertEqual(ends, cases.row_bytes((1,), 1, value(-2**63)) + cases.row_bytes((2,), 99, value(2**63 - 1)))

    def test_names(self):
        self.assertEqual(len(table_text.NAMES), 20)
        for i, label in enumerate(table_text.NAMES, 1):
            self.assertEqual(table_text.table_from(label), table_text.table_from(str(i)))

    def test_limits(self):
        self.assertEqual(len(table_text.table_from("1\n" * 1024)), 24576)
        self.assertEqual(len(table_text.shape_from("1\n" + "  1\n" * 15)), 256)
        self.assertEqual(len(table_text.table_from(CHAIN)), 6 * 24)

    def test_wide(self):
        """Two places more in each record, and two levels more; the other limits stay."""
        self.assertEqual(table_text.table_from(A, 8), promises.widened_table(A_BYTES, 6, 8))
        self.assertEqual(table_text.shape_from("/1/2\n  /1\n", levels=8), brackets.shape((1, (1, 2)), (2, (1,)), levels=8))
        self.assertEqual(len(table_text.table_from("1\n" * 1024, 8)), 28672)
        self.assertEqual(len(table_text.shape_from("1\n" + "  1\n" * 15, levels=8)), 320)
        chain = table_text.table_from(WIDE_CHAIN, 8)
        self.assertEqual(chain, b"".join(cases.row_bytes((1,) * k, k, bytes(8), 8) for k in range(1, 9)))
        self.assertEqual(table_text.kinds_of(chain, 8)[-1], tuple(range(1, 9)))
        deepest = "".join("  " * i + "/1/2/3/4/5/6/7/8\n" for i in range(8))
        self.assertEqual(table_text.shape_from(deepest, levels=8), brackets.shape(*((k, tuple(range(1, 9))) for k in range(1, 9)), levels=8))
        for text, line, what in (
                (WIDE_CHAIN + "                9\n", 9, "more than 8 levels"), ("1\n" * 1025, 1025, "more than 1,024 rows")):
            self.wrong(lambda t: table_text.table_from(t, 8), text, line, what)
        for text, line, what in (
                ("/1/2/3/4/5/6/7/8/9", 1, "a type has at most 8"), ("".join("  " * i + "/1\n" for i in range(9)), 9, "more than 8 levels"),
                ("/1\n" + "  /1\n" * 16, 17, "more than 16 entries")):
            self.wrong(lambda t: table_text.shape_from(t, levels=8), text, line, what)
        # a narrow file says that there are wide ones
        self.wrong(table_text.table_from, WIDE_CHAIN, 7, "more than 6 levels, and 8 in a wide file")
        self.wrong(table_text.shape_from, "/1/2/3/4/5/6/7", 1, "a type has at most 6, and 8 in a wide file")

    def wrong(self, make, text, line, what):
        with self.assertRaises(Wrong) as caught:
            make(text)
        self.assertEqual(caught.exception.line, line, text)
        self.assertIn(what, caught.exception.what)

    def test_wrong_tables(self):
        for text, line, what in (
                ("portfolio\n\n  leese 3\n", 3, 'unknown label "leese"'),
                ("Portfolio\n", 1, 'unknown label "Portfolio"'),
                ("# x\n100\n", 2, "label 100 is out of range: labels are 1 to 99"),
                ("1\n0\n", 2, "label 0 is out of range"),
                ("-1\n", 1, "label -1 is out of range"),
                ("9" * 5000, 1, "out of range"),
                ("lease 9223372036854775808", 1, "value 9223372036854775808 is out of range"),
                ("lease\n  asset -9223372036854775809", 2, "out of range"),
                ("lease " + "1" * 5000, 1, "out of range"),
                ("lease 1.5", 1, '"1.5" is no value'),
                ("lease 1_000", 1, '"1_000" is no value'),
                ("lease ٣", 1, "is no value"),
                ("lease 1 2", 1, '"2" is neither'),
                ("  lease", 1, "too deep: level 2, where 1"),
                ("lease\n    asset", 2, "too deep: level 3, where 2"),
                ("lease\n   asset", 2, "no whole number of levels"),
                ("lease\n \tasset", 2, "no whole number of levels"),
                (CHAIN + "            7\n", 7, "more than 6 levels"),
                ("1\n" * 1024 + "# not a row\n1\n", 1026, "more than 1,024 rows")):
            self.wrong(table_text.table_from, text, line, what)

    def test_shape(self):
        entries = ((1, (1, 2, 3)), (2, (1, 2)), (2, (1, 2, 3, 4)))
        text = "/portfolio/lessee/lease # whole\n  portfolio/2\n\t/1/2/3/asset\n"
        self.assertEqual(table_text.shape_from(text), brackets.shape(*entries))
        kinds = table_text.kinds_of(A_BYTES)
        self.assertEqual(table_text.shape_from("lease\n  lessee\n  asset", kinds), brackets.shape(*entries))
        # without a table a label is a type of its own, and with one a slash says so
        self.assertEqual(table_text.shape_from("lease"), brackets.shape((1, (3,))))
        self.assertEqual(table_text.shape_from("/lease", kinds), brackets.shape((1, (3,))))

    def test_wrong_shapes(self):
        kinds = table_text.kinds_of(table_text.table_from("portfolio\n  lease\n  lessee\n    lease\n"))
        for text, line, what in (
                ("", 0, "no entry"),
                ("# none\n", 0, "no entry"),
                ("lessee\n  lease", 2, "2 types of the table end with lease: write /portfolio/lease or /portfolio/lessee/lease"),
                ("lessee\n\n  asset", 3, "no type of the table ends with asset"),
                ("/portfolio/leese", 1, 'unknown label "leese"'),
                ("/portfolio//lease", 1, 'unknown label ""'),
                ("/", 1, 'unknown label ""'),
                ("/1/100", 1, "label 100 is out of range"),
                ("/1/2/3/4/5/6/7", 1, "a type has at most 6"),
                ("lessee\nportfolio", 2, "one tree"),
                ("lessee portfolio", 1, '"portfolio" is one word too many'),
                ("lessee\n    portfolio", 2, "too deep"),
                ("".join("  " * i + "/1\n" for i in range(7)), 7, "more than 6 levels"),
                ("/1\n" + "  /1\n" * 16, 17, "more than 16 entries")):
            self.wrong(lambda t: table_text.shape_from(t, kinds), text, line, what)


class Shown(unittest.TestCase):
    def test_back(self):
        """What is sound reads back; what is not is said of the row or entry that paper01.py finds."""
        for levels in (6, 8):
            self.hold_drawn(random.Random(1), levels)

    def hold_drawn(self, rng, levels):
        broken, sound = 0, 0
        for _ in range(300):
            table, shape = cases.case(rng, levels=levels)
            for data, show, read, make, refusal in (
                    (table, table_text.show_table, paper01.read_rows, table_text.table_from, 3),
                    (shape, table_text.show_shape, paper01.read_shape, table_text.shape_from, 6)):
                text, fault = show(data, levels=levels)
                try:
                    read(data, levels)
                    self.assertIsNone(fault)
                    self.assertEqual(make(text, levels=levels), data)
                    sound += 1
                except paper01.Refused as no:
                    self.assertIsNotNone(fault)
                    if no.number == refusal:
                        self.assertRegex(fault, f"^(row|entry) {no.place} breaks a rule: ")
                        self.assertEqual(text.count("\n"), no.place)
                        broken += 1
        self.assertGreater(min(broken, sound), 50)

    def test_faults(self):
        def damaged(data, at, byte):
            return brackets.with_byte(data, at, byte)

        shape = brackets.shape((1, (1, 2, 3)), (2, (1, 2)))
        for fault, what in (
                (table_text.show_table(damaged(A_BYTES, 48, 7))[1], "row 2 breaks a rule: its level is 7"),
                (table_text.show_table(damaged(A_BYTES, 49, 1))[1], "row 2 breaks a rule: its byte 1 is 1"),
                (table_text.show_table(damaged(A_BYTES, 50, 0))[1], "row 2 breaks a rule: its label is 0"),
                (table_text.show_table(damaged(A_BYTES, 48, 2))[1], "row 2 breaks a rule: its Dewey number 1.1.1.0.0.0 goes on past"),
                (table_text.show_table(damaged(A_BYTES, 54, 2))[1], "row 2 breaks a rule: its Dewey number 1.2.1 does not follow 1.1"),
                (table_text.show_table(damaged(A_BYTES, 4, 2))[1], "row 0 breaks a rule: its Dewey number is 2, and the first row has 1"),
                (table_text.show_table(A_BYTES[:-1])[1], "the last 23 bytes are no whole row"),
                (table_text.show_table(A_BYTES, sources=bytes(32))[1], "a source list of 32 bytes for 9 lines"),
                (table_text.show_shape(b"")[1], "no entry"),
                (table_text.show_shape(damaged(shape, 0, 2))[1], "entry 0 breaks a rule: its level is 2, and the first entry has level 1"),
                (table_text.show_shape(damaged(shape, 16, 3))[1], "entry 1 breaks a rule: its level is 3, and 2 to 2 can follow"),
                (table_text.show_shape(damaged(shape, 16, 1))[1], "entry 1 breaks a rule: its level is 1"),
                (table_text.show_shape(damaged(shape, 17, 0))[1], "entry 1 breaks a rule: its type has the length 0"),
                (table_text.show_shape(damaged(shape, 18, 1))[1], "entry 1 breaks a rule: its bytes 2 and 3"),
                (table_text.show_shape(damaged(shape, 17, 1))[1], "entry 1 breaks a rule: it has labels past"),
                (table_text.show_shape(damaged(shape, 17, 3))[1], "entry 1 breaks a rule: a label of its type"),
                (table_text.show_shape(shape[:-3])[1], "the last 13 bytes are no whole entry")):
            self.assertIn(what, str(fault))

    def test_new_table(self):
        """A new table of more than 1,024 lines with its source list, and each line's numbers."""
        table, shape = samples.FOLDER / "lines_1025/source.tab", samples.FOLDER / "lines_1025/shape.tab"
        reply, new, marks = paper01.reshape(table.read_bytes(), shape.read_bytes(), bytes(24 * 1025), [0] * 1025)
        self.assertEqual(reply, (0, 0, 1025))
        sources = b"".join(m.to_bytes(4, "little") for m in marks)
        text, fault = table_text.show_table(new, True, sources)
        self.assertIsNone(fault)
        self.assertEqual(text.splitlines()[2], "    portfolio 0  # row 2, 1.1.1, entry 2, source row 0")
        self.assertEqual(text.splitlines()[1024], "  portfolio 0  # row 1024, 1.32, entry 4, source row 0")
        text, fault = table_text.show_table(new)
        self.assertEqual(text.count("\n"), 1024)
        self.assertTrue(fault.startswith("longer than 24,576 bytes: a table has at most 1,024 rows"), fault)


class Commands(InFolder):
    # what reads all of a file without an end has no room for it
    LITTLE = dict(timeout=60, preexec_fn=lambda: resource.setrlimit(resource.RLIMIT_AS, (2**30, 2**30)))

    def test_there_and_back(self):
        text, table, shape = self.put("a b.txt", A.encode()), self.folder / "a b.tab", self.folder / "shape.tab"
        self.assertEqual(run("to_table", text, table), (0, b"", ""))
        self.assertEqual(table.read_bytes(), A_BYTES)
        self.assertEqual(run("show", table)[:2], (0, A.replace("portfolio", "portfolio 0").encode()))
        self.assertEqual(run("to_shape", "--table", table, "-", shape, given=b"asset\n  lease\n"), (0, b"", ""))
        self.assertEqual(run("show", "--shape", "--numbers", shape)[1],
                         b"/portfolio/lessee/lease/asset  # entry 0\n  /portfolio/lessee/lease  # entry 1\n")
        self.assertEqual(run("to_shape", "-", "-", given=run("show", "--shape", shape)[1])[1], shape.read_bytes())

    def test_wide_there_and_back(self):
        """By a file's name, or by a word, which comes before the name."""
        text, table, shape = self.put("a.txt", WIDE_CHAIN), self.folder / "a8.tab", self.folder / "b8.tab"
        wide = table_text.table_from(WIDE_CHAIN, 8)
        self.assertEqual((run("to_table", text, table), table.read_bytes()), ((0, b"", ""), wide))
        self.assertEqual(run("to_table", "--wide", text, "-"), (0, wide, ""))
        self.assertEqual(run("to_table", "--narrow", text, table), (1, b"", f"{text}:7: more than 6 levels, and 8 in a wide file\n"))
        self.assertEqual(run("show", table)[1], run("show", "--wide", "-", given=wide)[1])
        self.assertEqual(run("to_table", "--wide", "-", "-", given=run("show", table)[1])[1], wide)
        wanted = brackets.shape((1, tuple(range(1, 9))), (2, (1,)), levels=8)
        self.assertEqual(run("to_shape", "--table", table, "-", shape, given=b"8\n  1\n"), (0, b"", ""))
        self.assertEqual(shape.read_bytes(), wanted)
        # the table's name says the width of a shape that has none
        self.assertEqual(run("to_shape", "--table", table, "-", "-", given=b"8\n  1\n")[1], wanted)
        self.assertEqual(run("show", "--shape", "--numbers", shape)[1].splitlines()[1], b"  /portfolio  # entry 1")
        self.assertEqual(run("show", "--narrow", table)[::2], (1, f"{table}: row 1 breaks a rule: its level is 0, and levels are 1 to 6\n"))
        self.assertEqual(run("show", "--narrow", "--wide", table)[0], 2)

    def test_wide_with_a_source_list(self):
        (_, _, lines), new, marks = paper01.reshape(
            table_text.table_from(WIDE_CHAIN, 8), brackets.shape((1, tuple(range(1, 9))), (2, (1,)), levels=8), bytes(56), [0, 0], 8)
        table, sources = self.put("new8.tab", new), self.put("list", b"".join(mark.to_bytes(4, "little") for mark in marks))
        self.assertEqual((lines, run("show", "--sources", sources, table)),
                         (2, (0, b"invoice 0  # entry 0, source row 7\n  portfolio 0  # entry 1, source row 0\n", "")))

    def test_wrong(self):
        text, out = self.put("x.txt", b"lease\n  leese\n"), self.folder / "x.tab"
        status, wrote, said = run("to_table", text, out)
        self.assertEqual((status, wrote, said.startswith(f"{text}:2: unknown label")), (1, b"", True))
        self.assertFalse(out.exists())
        self.assertEqual(run("to_table", self.put("x.txt", b"1\n\n\xff\n"), out), (1, b"", f"{text}:3: this is no text in UTF-8\n"))
        self.assertEqual(run("to_shape", self.put("x.txt", b"#\n"), out), (1, b"", f"{text}: no entry: a shape has 1 to 16\n"))
        self.assertIn("standard input:1: ", run("to_table", "-", out, given=b"x")[2])

    def test_no_file(self):
        nowhere = self.folder / "nowhere"
        for words in (("to_table", nowhere, "-"), ("to_shape", nowhere, "-"), ("to_shape", "--table", nowhere, "-", "-"),
                      ("show", nowhere), ("show", "--sources", nowhere, "-")):
            status, wrote, said = run(*words)
            self.assertEqual((status, wrote, said), (1, b"", f"{nowhere}: No such file or directory\n"))
        self.assertIn(f"{self.folder}: Is a directory", run("to_table", "-", self.folder)[2])

    def test_bad_table_beside_a_shape(self):
        bad = self.put("bad.tab", A_BYTES[:-1])
        self.assertEqual(run("to_shape", "--table", bad, "-", "-")[0::2], (1, f"{bad}: the last 23 bytes are no whole row of 24 bytes\n"))

    def test_plain_labels_without_a_table(self):
        """They are types of one label, and each is said so, with its line; with a slash or a table nothing is said."""
        note = "without --table, {0} is read as a type of one label, /{0} (roots only); ./intake answers refused 7 where no root has it\n"
        text, shape = self.put("x.txt", b"# x\nlease\n  /lessee\n  4\n"), self.folder / "x.tab"
        self.assertEqual(run("to_shape", text, shape), (0, b"", f"{text}:2: {note.format('lease')}{text}:4: {note.format('4')}"))
        self.assertEqual(shape.read_bytes(), brackets.shape((1, (3,)), (2, (2,)), (2, (4,))))
        self.assertEqual(run("to_shape", "-", "-", given=b"/lease\n")[2], "")
        table = self.put("a.tab", A_BYTES)
        self.assertEqual(run("to_shape", "--table", table, "-", "-", given=b"lease\n")[1:], (brackets.shape((1, (1, 2, 3))), ""))
        # what is wrong further on is said after it
        status, _, said = run("to_shape", "-", "-", given=b"lease\n  leese\n")
        self.assertEqual((status, said.startswith(f"standard input:1: {note.format('lease')}standard input:2: unknown label")), (1, True))
        self.assertIn("roots alone", run("to_shape", "--help")[1].decode())

    def test_without_end(self):
        """Of a file that is too long, no more is read than tells so."""
        table, huge = self.put("a.tab", A_BYTES), self.put("huge", b"")
        os.truncate(huge, 2**33)
        for file in ("/dev/zero", huge):
            for words, what in (
                    (("show", file), "longer than 24,576 bytes: a table has at most 1,024 rows"),
                    (("show", "--shape", file), "longer than 256 bytes: a shape has at most 16 entries"),
                    (("show", "--sources", file, table), "longer than 16,384 bytes: a source list has at most 4,096 places"),
                    (("show", "--sources", table, file), "longer than 98,304 bytes: a new table has at most 4,096 lines"),
                    (("to_shape", "--table", file, "-", "-"), "longer than 24,576 bytes: a table has at most 1,024 rows"),
                    (("to_shape", file, "-"), "longer than 1,048,576 bytes: no more is read of a text"),
                    (("to_table", file, "-"), "longer than 1,048,576 bytes: no more is read of a text")):
                status, wrote, said = run(*words, **self.LITTLE)
                self.assertEqual((status, wrote, said.startswith(f"{file}: {what}")), (1, b"", True), said)

    def test_at_the_limits(self):
        """The longest files are read, from standard input too, and a byte more is told; what stands before it is shown."""
        lines = b"".join(cases.row_bytes((i + 1,), 1, bytes(8)) for i in range(4096))
        for words, data, past in (
                (("show",), table_text.table_from("1\n" * 1024), "longer than 24,576 bytes"),
                (("show", "--shape"), table_text.shape_from("/1\n" + "  /1\n" * 15), "longer than 256 bytes"),
                (("show", "--wide"), table_text.table_from("1\n" * 1024, 8), "longer than 28,672 bytes"),
                (("show", "--wide", "--shape"), table_text.shape_from("/1\n" + "  /1\n" * 15, levels=8), "longer than 320 bytes"),
                (("show", "--sources", self.put("list", bytes(4 * 4096))), lines, "longer than 98,304 bytes")):
            status, shown, said = run(*words, "-", given=data)
            self.assertEqual((status, said), (0, ""), words)
            self.assertEqual(run(*words, "-", given=data + b"\0")[:2], (1, shown))
            self.assertIn(past, run(*words, self.put("longer", data + b"\0"))[2])
        text = b"1" + b"\n" * (2**20 - 1)
        self.assertEqual(run("to_table", "-", "-", given=text)[::2], (0, ""))
        self.assertIn("standard input: longer than 1,048,576 bytes", run("to_table", "-", "-", given=text + b"\n")[2])

    def test_standard_input_once(self):
        self.assertEqual(run("show", "--sources", "-", "-")[0], 2)
        self.assertEqual(run("to_shape", "--table", "-", "-", "-")[0], 2)

    def test_show_stops_at_the_row(self):
        bad = self.put("bad.tab", brackets.with_byte(A_BYTES, 48, 9))
        status, wrote, said = run("show", bad)
        self.assertEqual((status, wrote), (1, b"portfolio 0\n  lessee 100\n"))
        self.assertEqual(said, f"{bad}: row 2 breaks a rule: its level is 9, and levels are 1 to 6\n")
