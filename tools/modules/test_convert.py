"""Tests of tools/convert_labels with a program in place of the one that makes the call: what it is given, what is said and written."""
import contextlib, io, os, pathlib, struct, sys, unittest, unittest.mock

import archive, brackets, cases, conversion, explained, table_text, usage
from testing import ROOT, InFolder, loaded


def table(rows, levels=6):
    return b"".join(cases.row_bytes(dewey, label, bytes(8), levels) for dewey, label in rows)


# a portfolio over two machines, labels 400 and 77
TABLE = table(brackets.nested("1[400 77]"))
SHAPE = brackets.shape((1, (1, 400)), (2, (1,)))
# keeps what it is given and the words, and answers what the test says
PROGRAM = '#!/bin/sh\ncd "$(dirname "$0")"\ncat >given\necho "$*" >words\ncat answer\nexit "$(cat status)"\n'


class Lists(unittest.TestCase):
    def test_pairs(self):
        for text, numbers, lines in (
                ("", [], []),
                ("400 21", [400, 21], [1]),
                ("# none\n\n400 21 # machines\r\n\t517\t22\n \n0 65535\n", [400, 21, 517, 22, 0, 65535], [3, 4, 6]),
                ("400 21\n# the last is half a pair\n517\n\n", [400, 21, 517], [1, 3])):
            self.assertEqual(conversion.read_list(text), (numbers, lines), text)

    def test_wrong(self):
        for text, line, what in (
                ("400 21\n\n517 # none\n600 22\n", 3, "old label 517 has no new one beside it"),
                ("517\nx\n", 1, "old label 517 has no new one beside it"),
                ("# x\n400 21 22\n", 2, '"22" is one word too many'),
                ("400 21\nlease 22\n", 2, '"lease" is no label'),
                ("400 -1\n", 1, '"-1" is no label'),
                ("65536 1\n", 1, '"65536" is no label'),
                ("400 2.5\n", 1, '"2.5" is no label'),
                (f"{'9' * 5000} 1\n", 1, "is no label: a line is an old label and its new one, two numbers of at most 65535")):
            with self.assertRaises(table_text.Wrong) as wrong:
                conversion.read_list(text)
            self.assertEqual(wrong.exception.line, line, text)
            self.assertIn(what, wrong.exception.what)


class Command(InFolder):
    def setUp(self):
        super().setUp()
        self.command = loaded("convert_labels")
        self.new, self.stored = self.folder / "new", self.folder / "stored"
        standing = unittest.mock.patch.object(conversion, "program", lambda: [str(self.program("bin/program", PROGRAM))])
        standing.start()
        self.addCleanup(standing.stop)
        self.list = self.put("list.txt", "# a list\n\n400 21   # machines\n\n517 22\n")
        self.put("stored/source.tab", TABLE)
        self.put("stored/shape.tab", SHAPE)
        self.answer("0 0 3 2 none 0", TABLE[::-1] + SHAPE[::-1])

    def answer(self, line, files=b"", status=0):
        self.put("bin/answer", f"{line}\n".encode() + files)
        self.put("bin/status", str(status))

    def convert(self, *words):
        """The status, and what was written to standard output and error."""
        words = [str(word) for word in words or (self.list, self.stored, self.new)]
        out, error = io.StringIO(), io.StringIO()
        with unittest.mock.patch.object(sys, "argv", ["convert_labels", *words]), contextlib.redirect_stdout(out), contextlib.redirect_stderr(error):
            try:
                status = self.command.main() or 0
            except SystemExit as end:
                status = end.code
        return status, out.getvalue(), error.getvalue()

    def refused(self, *wanted, words=(), status=1):
        """Something is said on standard error alone, each of the texts in it, and nothing is written or left."""
        before = self.held()
        got, out, error = self.convert(*words)
        self.assertEqual((got, out), (status, ""), error)
        for text in wanted:
            self.assertIn(text, error)
        self.assertEqual(self.held(), before)
        return error

    def held(self):
        """Every file of the test's folder but the program's, with its bytes; None for what is no plain file."""
        files = {path: path.read_bytes() if path.is_file() and os.access(path, os.R_OK) else None for path in self.folder.rglob("*")}
        return {path: held for path, held in files.items() if "bin" not in path.parts}

    def was_run(self):
        return (self.folder / "bin/given").exists()

    def test_converted(self):
        """The call is given both files and the numbers; what it gives back stands in the new folder."""
        before = self.held()
        status, out, error = self.convert()
        self.assertEqual((status, out, error), (0, f"{self.new}: source.tab of 3 rows and shape.tab of 2 entries, converted\n", ""))
        self.assertEqual((self.folder / "bin/given").read_bytes(), TABLE + SHAPE + struct.pack("<4H", 400, 21, 517, 22))
        self.assertEqual((self.folder / "bin/words").read_text(), f"6 {len(TABLE)} {len(SHAPE)}\n")
        made = {self.new: None, self.new / "source.tab": TABLE[::-1], self.new / "shape.tab": SHAPE[::-1]}
        self.assertEqual(self.held(), {**before, **made})
        self.assertEqual(self.new.stat().st_mode & 0o777, self.stored.stat().st_mode & 0o777)

    def test_wide(self):
        """The wide files where there is a wide table, and then not the narrow ones; a wide shape alone is not read."""
        wide_table, shape = table([((1,), 400)], 8), brackets.shape((1, (400,)), levels=8)
        self.put("stored/shape8.tab", shape)
        alone = f"convert_labels: '{self.stored}' has shape8.tab and no wide table, source8.tab; shape8.tab is not converted\n"
        self.assertEqual(self.convert()[::2], (0, alone))
        self.put("stored/source8.tab", wide_table)
        self.answer("0 0 1 1 none 0", wide_table + shape)
        wide = self.folder / "wide"
        self.assertEqual(self.convert(self.list, self.stored, wide), (
            0, f"{wide}: source8.tab of 1 row and shape8.tab of 1 entry, converted\n",
            f"convert_labels: '{self.stored}' has a wide table, source8.tab; source.tab and shape.tab are not converted\n"))
        self.assertEqual((self.folder / "bin/words").read_text(), f"8 {len(wide_table)} {len(shape)}\n")
        self.assertEqual({path.name: path.read_bytes() for path in wide.iterdir()}, {"source8.tab": wide_table, "shape8.tab": shape})

    def test_refused_by_the_call(self):
        """The file at fault, in the list with its line, and what docs/HELP.md says."""
        labels, source, shape = "  labels of both files: 1 77 400\n", self.stored / "source.tab", self.stored / "shape.tab"
        self.put("list.txt", "# a list\n\n400 21   # machines\n\n517 22\n600\n")
        for number, place, fault, first, facts in (
                (1, 0, "none 0", f"{source}: ", ""), (2, 0, "none 0", f"{source}: ", ""), (5, 0, "none 0", f"{shape}: ", ""),
                (3, 1, "none 0", f"{source}: ",
                 "  row 0: 1, portfolio, value 0\n  row 1: level 2, zero byte 0, label 400, number 1.1.0.0.0.0, value 0\n"),
                (6, 1, "none 0", f"{shape}: ", "  entry 1: level 2, length of its type 1, zero bytes 0, labels 1.0.0.0.0.0\n"),
                (25, 0, "none 0", f"{self.list}:3: ", f"  pair 0: old label 400, new label 21\n{labels}"),
                (25, 1, "none 0", f"{self.list}:5: ", f"  pair 1: old label 517, new label 22\n{labels}"),
                (25, 2, "none 0", f"{self.list}:6: ", f"  pair 2: old label 600, and no new one\n{labels}"),
                (26, 1, "row 400", f"{source}: ", f"  row 1: label 400\n{labels}"),
                (26, 0, "entry 400", f"{shape}: ", f"  entry 0: label 400\n{labels}")):
            self.answer(f"{number} {place} 0 0 {fault}")
            means, then = explained.helped(f"refused {number} {place}")
            said = f"{first}refused {number} {place}\nWhat it means: {means}\n{facts}What to do next: {then}\nNothing is written.\n"
            self.assertEqual(self.refused(), said)

    def test_new_that_is_there(self):
        self.put("new/other", "x")
        self.refused(f"'{self.new}' is there already, and is not empty\n", status=2)
        self.refused("is there already, and is not empty", words=(self.list, self.stored, self.stored), status=2)
        self.refused(f"'{self.list}' is there already, and is no folder\n", words=(self.list, self.stored, self.list), status=2)
        self.refused("there is no folder", words=(self.list, self.stored, self.folder / "nowhere/new"), status=2)
        self.assertFalse(self.was_run())
        empty = self.folder / "empty"
        empty.mkdir()
        self.assertEqual(self.convert(self.list, self.stored, empty)[0], 0)
        self.assertEqual((empty / "shape.tab").read_bytes(), SHAPE[::-1])

    def test_files_that_cannot_be_read(self):
        shape, source = self.stored / "shape.tab", self.stored / "source.tab"
        shape.unlink()
        self.refused(f"there is no {shape} (the shape)", status=2)
        shape.mkdir()
        self.refused(f"{shape} (the shape) is no plain file\n", status=2)
        source.unlink()
        os.mkfifo(source)
        self.refused(f"{source} (the table) is no plain file\n", status=2)
        self.refused("there is no folder", words=(self.list, self.folder / "nowhere", self.new), status=2)
        self.refused(f"{self.folder / 'nowhere'}: No such file or directory\n", words=(self.folder / "nowhere", self.stored, self.new), status=2)
        self.refused("Is a directory", words=(self.stored, self.stored, self.new), status=2)
        self.assertFalse(self.was_run())

    def test_file_that_may_not_be_read(self):
        source = self.stored / "source.tab"
        denied = PermissionError(13, "Permission denied", source)
        with unittest.mock.patch.object(table_text, "read_bytes", side_effect=[self.list.read_bytes(), denied]):
            self.refused(f"{source}: Permission denied\n", status=2)
        # a folder that may not be entered, and one whose contents may not be seen
        for call in ("exists", "iterdir"):
            self.new.mkdir(exist_ok=True)
            with unittest.mock.patch.object(pathlib.Path, call, side_effect=PermissionError(13, "Permission denied", self.stored)):
                self.assertEqual(self.convert(), (2, "", f"{self.stored}: Permission denied\nNothing is written.\n"))

    def test_list_that_is_wrong(self):
        for text, said in (("400 21\n517\n600 22\n", ":2: old label 517 has no new one"), ("\n400 x\n", ':2: "x" is no label'),
                           (b"400 21\n\xff\n", ":2: this is no text in UTF-8"), (b"#" * (2**20 + 1), ": longer than 1,048,576 bytes")):
            self.put("list.txt", text)
            self.refused(f"{self.list}{said}", status=2)
        self.assertFalse(self.was_run())

    def test_words(self):
        for words in (("x",), (self.list, self.stored), (self.list, "", self.new), (self.list, self.stored, ""), (self.list, self.stored, self.new, "x")):
            self.refused("usage: ", words=words, status=2)

    def test_long_files(self):
        """Of a longer table or shape, no more is read and given than tells so."""
        self.put("stored/source.tab", bytes(10**6))
        self.put("stored/shape.tab", bytes(10**6))
        self.answer("1 0 0 0 none 0")
        self.refused("refused 1 0")
        self.assertEqual((self.folder / "bin/words").read_text(), "6 24577 257\n")

    def test_answer_that_is_cut_off(self):
        """What the program writes is taken whole or not at all."""
        for line, files, status in (("0 0 3 2 none 0", TABLE[:-1], 0), ("0 0 3 2 none 0", TABLE + SHAPE, 1), ("0 0 3 2 none 0", TABLE + SHAPE + b"x", 0),
                                    ("", b"", 0), ("0 0", b"", 0), ("25 0 0 0 none 0", b"x", 0), ("x 0 0 0 none 0", b"", 0)):
            self.answer(line, files, status)
            self.refused("the program that makes the call", "Nothing is written.\n")

    def test_disk_that_is_full(self):
        """Where the second file cannot be written, the first is not there either."""
        write = self.command.write

        def full(file, data):
            if file.name == "shape.tab":
                raise OSError(28, "No space left on device")
            write(file, data)
        self.command.write = full
        self.refused(f"{self.new}: No space left on device\nNothing is written.\n", status=2)

    def test_new_that_comes_meanwhile(self):
        """What another puts there before the files are whole stays."""
        with unittest.mock.patch.object(self.command, "look_at", lambda new: None):
            self.put("new/source.tab", "x")
            self.refused("Directory not empty", "Nothing is written.\n", status=2)


class Program(InFolder):
    """The program that makes the call, compiled by a compiler that is made up here."""

    def setUp(self):
        super().setUp()
        for file in ("tools/modules/x86_64.sh", "tools/modules/convert_labels.c", "include/silmezga.h"):
            self.put(file, (ROOT / file).read_bytes())
        for file in ("crates.txt", "crates/one/src/lib.rt"):
            self.put(file, "")
        self.library = self.put(archive.LIBRARY, "")
        for path in self.folder.rglob("*"):
            os.utime(path, (path.stat().st_mtime - 1000,) * 2)
        for command in ("bash", "sh", "cat", "dirname", "mkdir", "readlink"):
            (self.folder / "bin").mkdir(exist_ok=True)
            (self.folder / "bin" / command).symlink_to(f"/bin/{command}" if os.path.exists(f"/bin/{command}") else f"/usr/bin/{command}")
        self.program("bin/uname", "#!/bin/sh\necho x86_64\n")
        for patch in (unittest.mock.patch.object(archive, "ROOT", self.folder), unittest.mock.patch.dict(os.environ, PATH=f"{self.folder}/bin")):
            patch.start()
            self.addCleanup(patch.stop)

    def compiler(self, text):
        self.program("bin/cc", f'#!/bin/sh\nwhile [ "$1" != -o ]; do shift; done\n{text}\n')

    def test_compiled_where_it_must(self):
        self.compiler('echo x >>count; cat count >"$2"')
        made = self.folder / "target/convert_labels/convert_labels"
        for changed, compiled in ((None, 1), (None, 1), (self.library, 2), (None, 2), (self.folder / "include/silmezga.h", 3), (None, 3)):
            if changed:
                os.utime(made, (made.stat().st_mtime - 100,) * 2)
                os.utime(changed, (made.stat().st_mtime + 50,) * 2)
            self.assertEqual(conversion.program(), [str(made)])
            self.assertEqual(made.read_text(), "x\n" * compiled)
        self.assertEqual([path.name for path in made.parent.iterdir()], ["convert_labels"])

    def test_not_compiled(self):
        self.compiler('echo wrong; exit 1')
        with self.assertRaisesRegex(conversion.Failed, "wrong\n.*convert_labels.c is not compiled"):
            conversion.program()

    def test_without_a_compiler(self):
        error = io.StringIO()
        with contextlib.redirect_stderr(error), self.assertRaises(SystemExit) as end:
            conversion.program()
        self.assertEqual((end.exception.code, error.getvalue()[:22]), (usage.NOT_RUN, "NOT RUN: no C compiler"))
