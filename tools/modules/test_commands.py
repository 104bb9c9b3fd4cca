"""Tests of what the commands of tools/, bench/ and examples/ need, write and leave."""
import contextlib, io, itertools, os, pathlib, re, shutil, struct, subprocess, sys, tempfile, unittest.mock

import archive, usage
from testing import ROOT, TOOLS, InFolder, loaded, run

COMMANDS = sorted(path for path in TOOLS.iterdir() if path.is_file())
MODULES_LINE = 'sys.path.insert(0, str(pathlib.Path(__file__).resolve().parent / "modules"))'


class Called(InFolder):
    def test_from_another_folder_by_a_link(self):
        for i, command in enumerate([*COMMANDS, ROOT / "bench/run", ROOT / "examples/run"]):
            link = self.folder / f"{command.name} {i}"
            link.symlink_to(command)
            done = subprocess.run([str(link), "--help"], cwd=self.folder, stdout=subprocess.PIPE, stderr=subprocess.PIPE, text=True)
            self.assertEqual((done.returncode, done.stderr, done.stdout[:6]), (0, "", "usage:"), command.name)

    def test_modules_apart(self):
        """tools/ has commands alone, and each that needs the modules finds them by the same line."""
        self.assertIn(TOOLS / "make_samples", COMMANDS)
        for command in COMMANDS:
            self.assertTrue(os.access(command, os.X_OK) and not command.suffix, command.name)
            if command.name != "test_intake":
                self.assertIn(f"\n{MODULES_LINE}\n", command.read_text(), command.name)
        self.assertFalse([at.name for at in (TOOLS / "modules").iterdir() if at.is_file() and os.access(at, os.X_OK)])


class Bench(InFolder):
    """bench/run, with a toolchain and a compiler that are made up here, writes its page only when it is told to."""
    TAPES = "book", "fan", "sixteen", "64 types", "random", "one tree", "siblings", "many lines", "vain searches"
    DEEP = "eight levels", "siblings on 8"
    CALLS = "examine", "judge", "reshape", "summarise"

    def setUp(self):
        super().setUp()
        for file in ("bench/run", "bench/report.py", "tools/modules/x86_64.sh", "tools/staticlib", "tools/modules/archive.py", "tools/modules/usage.py"):
            self.program(file, (ROOT / file).read_text())
        for crate in (archive.CALLS, archive.TOTALS):
            self.put(f"crates/{archive.thin(crate)}/out/lib{archive.thin(crate)}.a", "")
        self.page = self.put("docs/BENCH.md", "as it was\n")
        narrow = itertools.product(self.TAPES, ["narrow"], (128, 256, 512, 1024), self.CALLS)
        wide = itertools.product(self.TAPES + self.DEEP, ["wide"], [1024], self.CALLS)
        figures = "".join(f"{tape}\t{width}\t{n}\t{call}\t{n}\t{2 * n}\t{n}\tanswer\n" for tape, width, n, call in (*narrow, *wide))
        figures += "book\tnarrow\t1024\twiden\t1\t-\t2\tanswer\nbook\twide\t1024\tnarrow\t1\t-\t4\tanswer\n"
        trees = "book\tnarrow\twhole paths\t500\t1000\t1500\nbook\twide\twhole paths\t500\t1000\t1600\n"
        tasks = {"examine": 100, "build": 300, "empty": 150, "empty with": 250, "judge": 1000, "judge with": 1200, "ten trees": 8000, "ten trees with": 6000}
        index = "".join(f"book\tnarrow\t1024\t{task}\t{ns}\n" for task, ns in tasks.items())
        totals = "book\tnarrow\t1024\t40000000\t16000000\t1000 tapes, entry 2\nmany lines\twide\t1024\t4000\t8000\trefusal 8\n"
        for program, printed in ("driver", figures), ("trees", trees), ("index", index), ("totals", totals):
            self.program(program, f"#!/bin/sh\ncat <<'END'\n{printed}END\n")
        self.program("bin/uname", "#!/bin/sh\necho x86_64\n")
        self.program("bin/rt", "#!/bin/sh\n[ \"$*\" = lib ] || exit 2\n")
        self.program("bin/cc", "#!/bin/sh\nif [ \"$*\" = --version ]; then echo cc of a test; else cp driver trees index totals target/bench; fi\n")
        (self.folder / "bin/python3").symlink_to(sys.executable)

    def bench(self, *words):
        """The status of a run, and what it wrote to standard output and error."""
        done = subprocess.run([str(self.folder / "bench/run"), *words], cwd="/", env={"PATH": f"{self.folder}/bin:/usr/bin:/bin"},
                              stdout=subprocess.PIPE, stderr=subprocess.PIPE, text=True)
        return done.returncode, done.stdout, done.stderr

    def test_page(self):
        status, printed, said = self.bench()
        self.assertEqual((status, said, self.page.read_text()), (0, "", "as it was\n"))
        self.assertIn("## Hostile tables", printed)
        self.assertIn("| book | widen | 1 ns | 2 ns | 0.50× |", printed)
        self.assertIn("| book | narrow | 1 ns | 4 ns | 0.25× |", printed)
        self.assertIn("| book | narrow | whole paths | 500 | 1 µs | 1.5 µs | 1.50× | 1.50× | pass |", printed)
        self.assertIn("| book | wide | whole paths | 500 | 1 µs | 1.6 µs | 1.50× | 1.60× | MISS |", printed)
        self.assertIn("| book | narrow | 1,024 | 100 ns | 300 ns | 200 ns | 150 ns | 250 ns | 100 ns | 1.00× | 0.50× | pass |", printed)
        self.assertIn("| book | narrow | 1,024 | judge | 1 µs | 1.2 µs | 1.10× | 1.20× | MISS |", printed)
        self.assertIn("| book | narrow | 1,024 | 8 µs | 6 µs | 0.75× |", printed)
        self.assertIn("| book | narrow | 1,024 | 40 ms | 40 µs | 16 ms | 16 µs | 2.50× | 1000 tapes, entry 2 |", printed)
        self.assertIn("| many lines | wide | 1,024 | 4 µs | 4 ns | 8 µs | 8 ns | 0.50× | refusal 8 |", printed)
        self.assertEqual(self.bench("--write"), (0, printed, ""))
        self.assertTrue(self.page.read_text().startswith("# Bench\n\nWritten by `bench/run --write`;"))
        self.assertIn(printed[printed.index("## Bars"):].strip(), self.page.read_text())

    def test_words(self):
        for words in (["--wrote"], [""], ["--write", "--write"], ["--write", ""], ["docs/BENCH.md"]):
            status, out, said = self.bench(*words)
            self.assertEqual((status, out, said[:27]), (2, "", "usage: bench/run [--write]\n"), words)
        status, out, said = self.bench("--help")
        self.assertEqual((status, out[:27], said), (0, "usage: bench/run [--write]\n", ""))
        self.assertEqual(self.page.read_text(), "as it was\n")


class Examples(InFolder):
    def test_without_a_toolchain(self):
        for file in ("examples/run", "tools/modules/x86_64.sh"):
            self.program(file, (ROOT / file).read_text())
        (self.folder / "bin").mkdir()
        for command in ("bash", "cat", "dirname", "mkdir", "readlink"):
            (self.folder / "bin" / command).symlink_to(shutil.which(command))
        self.program("bin/uname", "#!/bin/sh\necho x86_64\n")
        for words, wanted in (((), (usage.NOT_RUN, "examples: NOT RUN: no command rt")), (["x"], (2, "")), (["--help"], (0, "usage: "))):
            done = subprocess.run([str(self.folder / "examples/run"), *words], env={"PATH": f"{self.folder}/bin"},
                                  stdout=subprocess.PIPE, stderr=subprocess.PIPE, text=True)
            self.assertEqual((done.returncode, done.stdout[:len(wanted[1])]), wanted, done.stderr)


class RustExample(InFolder):
    def git(self, *words, at=None):
        return subprocess.run(["git", *words], cwd=at or self.folder, stdout=subprocess.PIPE, check=True, text=True).stdout

    def build_by_hand(self):
        """Over libraries that have nothing in them, which is enough for the crate itself."""
        for crate in (archive.CALLS, archive.TOTALS):
            library = self.put(f"target/lib{crate}.a", b"!<arch>\n")
        usual = {name: value for name, value in os.environ.items() if not name.endswith("TARGET_DIR")}
        subprocess.run(["cargo", "build", "--quiet", "--offline"], cwd=self.folder / "examples/rust", check=True,
                       env={**usual, "SILMEZGA_LIB": str(library.parent)})

    def test_nothing_is_left_untracked(self):
        """A build by hand leaves nothing beside what is committed that git does not pass over, and changes nothing."""
        for command in ("cargo", "git"):
            if not shutil.which(command):
                print(f"\ntest_tools: NOT RUN: the Rust example by hand: no command {command}", file=sys.stderr)
                self.skipTest(f"no {command}")
        for file in (".gitignore", *self.git("ls-files", "examples/rust", at=ROOT).split()):
            self.put(file, (ROOT / file).read_bytes())
        self.git("init", "--quiet")
        self.git("add", "--all")
        self.assertIn("examples/rust/Cargo.toml", self.git("ls-files"))
        self.build_by_hand()
        self.assertTrue((self.folder / "examples/rust/target").exists())
        self.assertEqual((self.git("ls-files", "--others", "--exclude-standard"), self.git("diff", "--name-only")), ("", ""))


def printed(do):
    """What it returns or ends with, and what it prints."""
    with contextlib.redirect_stdout(io.StringIO()) as said, contextlib.redirect_stderr(said):
        try:
            ended = do()
        except SystemExit as end:
            ended = end.code
    return ended, said.getvalue()


class CheckAll(InFolder):
    def setUp(self):
        super().setUp()
        self.command = loaded("check_all")

    def check_all(self, checks, *words):
        """The status, and the lines without their times."""
        self.command.ROOT = self.folder
        self.command.CHECKS = [self.command.Check(name, command, needs, "") for name, command, needs in checks]
        with unittest.mock.patch.object(sys, "argv", ["check_all", *words]):
            status, said = printed(self.command.main)
        return status, re.sub(r"[ (]*(\d+ min )?[0-9.]+ s\)?$", "", said, flags=re.M).splitlines()

    def test_outcomes(self):
        self.program("good", "#!/bin/sh\necho not shown\n")
        self.program("bad", "#!/bin/sh\necho shown\necho too >&2\nexit 3\n")
        self.program("left", "#!/bin/sh\necho left: NOT RUN: no wheel\nexit 3\n")
        self.program("part", "#!/bin/sh\necho part: one: good\necho part: other: NOT RUN: no door\n")
        self.program("wrong", "#!/bin/sh\necho wrong: other: NOT RUN: no door\nexit 1\n")
        names = "good", "bad", "left", "part", "wrong"
        checks = [*((name, f"./{name}", "") for name in names), ("lacking", "./good", "no-such-command"), ("gone", "./gone", "")]
        status, lines = self.check_all(checks)
        self.assertEqual((status, lines), (1, [
            "good: passed", "bad: FAILED", "shown", "too", "left: NOT RUN: no wheel", "part: NOT RUN: in part: other: no door",
            "wrong: FAILED", "wrong: other: NOT RUN: no door", "lacking: NOT RUN: no command no-such-command on the path",
            "gone: FAILED", "./gone: No such file or directory", "check_all: 1 passed, 3 failed, 3 not run,"]))

    def test_words(self):
        self.program("good", "#!/bin/sh\n[ $# = 2 ] && [ \"$PWD\" = \"$(readlink -f .)\" ] && [ -f good ]\n")
        checks = [(name, "./good a b", "") for name in ("one", "two", "three")]
        status, lines = self.check_all(checks, "three", "one")
        self.assertEqual((status, lines), (0, ["one: passed", "three: passed", "check_all: 2 passed, 0 failed, 0 not run,"]))
        status, lines = self.check_all(checks, "one", "four")
        self.assertEqual((status, lines[-1]), (2, "check_all: error: there is no check four"))

    def test_times(self):
        self.assertEqual([self.command.told(t) for t in (0.04, 59.4, 59.6, 192.2)], ["0.0 s", "59.4 s", "1 min 0 s", "3 min 12 s"])

    def test_all_are_there(self):
        """Every command of tools/ that tests or compares is in the list."""
        run = {check.command.split()[0] for check in self.command.CHECKS}
        checking = {f"tools/{path.name}" for path in COMMANDS if path.name.startswith(("check_", "compare_", "test_"))}
        self.assertEqual(run, checking - {"tools/check_all"} | {"examples/run"})


class CheckLayout(InFolder):
    """tools/check_layout, with a toolchain that is made up here: it lays files out by a line at their end, and cannot read those that are named bad."""

    def test_layout(self):
        command = loaded("check_layout")
        command.ROOT = self.folder
        self.program("bin/rt", "#!/bin/sh\n[ \"$*\" = fmt ] || exit 2\nfor file in $(find . -name '*.rt' -o -name '*.antt'); do\n"
                               "grep -q laid $file || echo laid >>$file\ndone\n[ ! -e src/bad.rt ] || { echo bad; exit 1; }\n")
        for file in ("crates/one/src/lib.rt", "crates/one/specs/A.antt", "crates/two/src/lib.rt", "crates/two/proofs/f/Proof.antt"):
            self.put(file, "laid\n")
        for file in ("crates/one/out/rlib/x.rt", "crates/one/must-fail/x.edit", "crates/two/stdout", "crates/gone/out/x.rt", "docs/x.rt"):
            self.put(file, "not\n")
        self.assertEqual(self.check(command), (0, "4 files, 0 of them not laid out\n"))
        proof = self.put("crates/two/proofs/f/Proof.antt", "not\n")
        said = "crates/two/proofs/f/Proof.antt is not laid out as rt fmt lays it out\n"
        self.assertEqual(self.check(command), (1, f"{said}4 files, 1 of them not laid out\n"))
        self.assertEqual(proof.read_text(), "not\n")
        self.put("crates/one/src/bad.rt", "laid\n")
        self.assertEqual(self.check(command), (1, f"bad\n{said}5 files, 2 of them not laid out\n"))
        (self.folder / "bin/rt").unlink()
        self.assertEqual(self.check(command, "/nowhere")[0], usage.NOT_RUN)

    def check(self, command, path="/usr/bin:/bin"):
        with unittest.mock.patch.object(sys, "argv", ["check_layout"]), unittest.mock.patch.dict(os.environ, PATH=f"{self.folder}/bin:{path}"):
            return printed(command.main)


class CheckMade(InFolder):
    def test_differences(self):
        """What is made is compared, and the project stays as it is."""
        command = loaded("check_made")
        at_root = "#!/bin/sh\ncd \"$(dirname \"$0\")/..\"\n"
        self.program("tools/make_other", at_root + "cp samples/made crates/cases/stdin\nrm -f crates/cases/old\n")
        self.program("tools/make_samples", at_root + "echo made >samples/made\n")
        for file in ("samples/made", "crates/cases/stdin", "crates/cases/old", "crates/cases/out/x"):
            self.put(file, "made\n")
        for crate in ("folders", "histories"):
            (self.folder / "crates" / crate).mkdir()
        before = command.held(self.folder)
        self.assertEqual(self.made(command, before), ["crates/cases/old would not be there"])
        (self.folder / "crates/cases/old").unlink()
        (self.folder / "samples/made").unlink()
        self.put("crates/cases/stdin", "other\n")
        before = command.held(self.folder)
        self.assertEqual(self.made(command, before), ["crates/cases/stdin would differ", "samples/made would be new"])
        self.assertEqual(command.held(self.folder), before)
        self.program("tools/make_other", "#!/bin/sh\necho why\nexit 1\n")
        self.assertEqual(printed(lambda: self.made(command, before))[0], "why\ntools/make_other ended with status 1")

    def made(self, command, before):
        with tempfile.TemporaryDirectory() as copy:
            return list(command.differing(before, command.made(self.folder, pathlib.Path(copy))))


class CheckDocs(InFolder):
    def test_missing(self):
        command = loaded("check_docs")
        for file in ("tools/show", "crates/one/src/lib.rt", ".ci/run", "target/x", "docs/PAGE.md", "samples/p4/listing"):
            self.put(file, "")
        self.put("README.md", "See `tools/show --shape`, **docs/PAGE.md.** docs/, .ci/run and crates/*/src/.\n"
                              "Not tools/shown, target/y, x/tools/z or ../docs/z.\n")
        self.put("docs/OTHER.md", "crates/*/lib, crates/one/src/lib.rt.\n\n`samples/p5/`: (samples/p4)\n")
        found = list(command.paths(self.folder))
        self.assertEqual(len(found), 10)
        self.assertEqual([(str(page), line, path) for page, line, path in command.missing(self.folder, found)],
                         [("README.md", 2, "tools/shown"), ("docs/OTHER.md", 1, "crates/*/lib"), ("docs/OTHER.md", 3, "samples/p5/")])


class Archive(InFolder):
    """The libraries are built with a toolchain that is made up here."""

    def setUp(self):
        super().setUp()
        root = unittest.mock.patch.object(archive, "ROOT", self.folder)
        root.start()
        self.addCleanup(root.stop)
        self.code = self.put("crates/one/src/lib.rt", "")
        self.put("crates.txt", "")
        for crate in (archive.CALLS, archive.TOTALS):
            self.put(f"crates/{archive.thin(crate)}/out/kept", "")
        path = unittest.mock.patch.dict(os.environ, PATH=f"{self.folder}/bin")
        path.start()
        self.addCleanup(path.stop)

    def rt(self, crate, text):
        """It is run in the thin crate above the one that is named."""
        self.program("bin/rt", f"#!/bin/sh\n[ \"$*\" = lib ] && [ \"$PWD\" = '{self.folder}/crates/{archive.thin(crate)}' ] || exit 2\n{text}\n")

    def test_built_where_it_must(self):
        for crate in (archive.CALLS, archive.TOTALS):
            os.utime(self.code, (1, 1))
            self.rt(crate, f"echo made >out/lib{archive.thin(crate)}.a")
            self.assertTrue(archive.needs_building(crate))
            self.assertEqual(printed(lambda: archive.build_where_needed(crate)), (None, f"building target/staticlib/lib{crate}.a: tools/staticlib {crate}\n"))
            self.assertEqual((self.folder / archive.library(crate)).read_text(), "made\n")
            self.assertFalse(archive.needs_building(crate))
            self.assertEqual(printed(lambda: archive.build_where_needed(crate)), (None, ""))
            later = (self.folder / archive.library(crate)).stat().st_mtime + 5
            os.utime(self.code, (later, later))
            self.assertTrue(archive.needs_building(crate))

    def test_not_built(self):
        status, said = printed(archive.build_where_needed)
        self.assertEqual(status, usage.NOT_RUN)
        self.assertIn("NOT RUN: target/staticlib/libsilmezga_c.a is not there or is older than the code, and there is no command rt", said)
        self.rt("totals_c", "echo wrong; exit 1")
        self.assertIn("wrong\nthe library is not built", printed(lambda: archive.build(archive.TOTALS))[0])
        self.assertFalse((self.folder / archive.library(archive.TOTALS)).exists())

    def test_command(self):
        """It says what the toolchain says, and ends as that does."""
        command, there = loaded("staticlib"), self.folder / archive.library(archive.CALLS)
        self.rt(archive.CALLS, f"echo made >out/lib{archive.thin(archive.CALLS)}.a")
        for words, wanted in ((["silmezga_c"], 0), (["totals_c"], 2), (["silmezga_c_c"], 2), ([], 2), (["silmezga_c", "totals_c"], 2)):
            there.unlink(missing_ok=True)
            with unittest.mock.patch.object(sys, "argv", ["staticlib", *words]):
                self.assertEqual(printed(command.main)[0], wanted, words)
            self.assertEqual(there.exists(), wanted == 0)
        (self.folder / "bin/rt").unlink()
        with unittest.mock.patch.object(sys, "argv", ["staticlib", "silmezga_c"]):
            self.assertEqual(printed(command.main), (usage.NOT_RUN, "NOT RUN: there is no command rt on the path\n"))


class Thin(unittest.TestCase):
    """The crates that are built as libraries for C, each over the crate that it is named after."""

    def exports(self, crate):
        """What stands before the body of each exported call, its comment too."""
        text = (ROOT / "crates" / crate / "src/lib.rt").read_text(encoding="utf-8")
        return dict((name, head) for head, name in re.findall(r"(?m)^((?://.*\n)*#\[unsafe\(no_mangle\)\]\npub extern \"C\" fn (\w+)(?:.*\n)+?)\{$", text))

    def test_same_promises(self):
        """They export what the header declares, each call with the same words and clauses as the crate below has, which it calls with what it is given."""
        for crate, header in ((archive.CALLS, "silmezga.h"), (archive.TOTALS, "totals.h")):
            said = self.exports(archive.thin(crate))
            declared = re.findall(rf"(?m)^\w+ ({header[:-2]}_\w+)\(", (ROOT / "include" / header).read_text())
            self.assertEqual(sorted(said), sorted(declared))
            self.assertEqual(said, self.exports(crate))
            text = (ROOT / "crates" / archive.thin(crate) / "src/lib.rt").read_text(encoding="utf-8")
            bodies = re.findall(r"(?m)^\{\n    (.*)\n\}$", text)
            given = [", ".join(re.findall(r"(\w+): ", head.partition("fn ")[2].partition(" -> ")[0])) for head in said.values()]
            self.assertEqual(bodies, [f"{crate}::{name}({words})" for name, words in zip(said, given)])


class Gate(InFolder):
    """.ci/run, with a toolchain that is made up here."""

    def gate(self, said, status=0):
        """The status, and what is written to standard output and error, where rt says this."""
        self.program(".ci/run", (ROOT / ".ci/run").read_text())
        self.program("bin/rt", f"#!/bin/sh\n[ \"$*\" = version ] && exec cat version\n[ \"$*\" = ci ] && [ -f crates.txt ] || exit 9\ncat said\nexit {status}\n")
        for file, text in (("said", said), ("crates.txt", ""), ("toolchain.txt", "a kit\n")):
            self.put(file, text)
        done = subprocess.run([self.folder / ".ci/run"], cwd="/", env={"PATH": f"{self.folder}/bin:/usr/bin:/bin"},
                              stdout=subprocess.PIPE, stderr=subprocess.PIPE, text=True)
        return done.returncode, done.stdout, done.stderr

    def test_outcomes(self):
        self.put("version", "a kit\n")
        ok, ended = "rt: ok; handles allowed: none; must-fail edits: 180 refused", "; every proof and must-fail edit was done in this run\n214 passed, 0 failed\n"
        for said in (ok + ended, f"  a\\b\trt: ok, 2 bad\n{ok}, 2 of them only by a limit{ended}", f"rt: note: bad must-fail edits, as told above: 1.\n{ok}{ended}"):
            self.assertEqual(self.gate(said), (0, said, ""))
        for bad in (", 1 bad", ", 2 of them only by a limit, 13 bad"):
            self.assertEqual(self.gate(ok + bad + ended), (1, ok + bad + ended, ".ci/run: FAILED: must-fail edits are bad, as told above\n"))
        for status in (1, 2):
            said = "rt: FAILED: low\n3 passed, 1 failed\n"
            self.assertEqual(self.gate(said, status), (status, said, ""))

    def test_another_toolchain(self):
        self.put("version", "another kit\n")
        self.assertEqual(self.gate("214 passed, 0 failed\n"), (0, "214 passed, 0 failed\n",
                         ".ci/run: this project is proved with the toolchain 'a kit', and here is 'another kit'\n"))


class CountForms(InFolder):
    """tools/count_forms, on a folder with a place of each of some kinds."""

    def test_counts(self):
        self.put("crates/one/src/lib.rt", """pub struct Read {
    pub number: usize,
    pub good: bool,
}
// fn not_one(levels: &[u8], types: &[u8])
fn walk(levels: &[u8], types: &[u8], rows: usize) {
    while rows < octets::wide(levels[0]) {
        Read {
            number: number,
            good,
        }
    }
}
""")
        self.put("crates/one/proofs/lib/walk/Proof.antt", "-- a comment\n\nlaw : rows\nlaw = rows\n")
        self.put("crates/one/out/proofs/Made.antt", "law : rows\n")
        status, out, _ = run("count_forms", self.folder)
        found = dict(line.rsplit(": ", 1) for line in out.decode().splitlines())
        ones = {"1 numbers of a refusal beside an answer", "1 flags beside a value", "3 loops by while or loop", "4 fields set to their own name",
                "4 uses of conversions and orders of our own", "5 functions with levels and types", "6 functions with a slice and a length beside it", "8 walks by hand"}
        self.assertEqual(status, 0)
        self.assertEqual({kind for kind, number in found.items() if number == "1"}, ones)
        self.assertEqual({kind: number for kind, number in found.items() if number not in "01"}, {"8 lines of proofs": "2"})

    def test_this_checkout(self):
        status, out, _ = run("count_forms")
        self.assertEqual(status, 0)
        self.assertIn(b"8 walks by hand: 0\n", out)


class CheckCopies(InFolder):
    """check_copies on an archive that is made up here: of each function what it calls."""

    def object(self, calls):
        """An object file with a section for each function, and in it a place for each symbol that it calls."""
        called = sorted({name for names in calls.values() for name in names})
        strings = b"\0" + b"".join(name.encode() + b"\0" for name in called)
        symbols = bytes(24) + b"".join(struct.pack("<IBBHQQ", strings.index(b"\0" + name.encode() + b"\0") + 1, 0, 0, 0, 0, 0) for name in called)
        sections = [("", 0, b"", 0, 0), (".names", 3, b"", 0, 0), (".strtab", 3, strings, 0, 0), (".symtab", 2, symbols, 2, 0)]
        for function, names in calls.items():
            places = b"".join(struct.pack("<QQq", 8 * k, (called.index(name) + 1) << 32 | 4, -4) for k, name in enumerate(names))
            sections += [(f".text.{function}", 1, bytes(64), 0, 0), (f".rela.text.{function}", 4, places, 3, len(sections))]
        names = b"".join(name.encode() + b"\0" for name, *_ in sections)
        sections[1] = (".names", 3, names, 0, 0)
        heads, bodies, at = b"", b"", 64
        for name, kind, body, link, info in sections:
            heads += struct.pack("<IIQQQQIIQQ", (b"\0" + names).index(b"\0" + name.encode() + b"\0"), kind, 0, 0, at, len(body), link, info, 0, 0)
            bodies, at = bodies + body, at + len(body)
        return b"\x7fELF" + bytes(36) + struct.pack("<Q", at) + bytes(10) + struct.pack("<HHH", 64, len(sections), 1) + bodies + heads

    def archive(self, calls):
        made = self.object(calls)
        return self.put("made.a", b"!<arch>\n" + b"made.o/".ljust(48) + str(len(made)).encode().ljust(10) + b"`\n" + made)

    def test_calls(self):
        status, out, _ = run("check_copies", self.archive({"silmezga_adorn": ["memcpy", "memset", "memcpy"], "one::two": ["silmezga_adorn"]}))
        self.assertEqual((status, out), (0, b"silmezga_adorn: memcpy 2, memset 1\n2 functions that call others, 0 of them copy more than they may\n"))
        status, out, _ = run("check_copies", self.archive({"silmezga_adorn": ["memcpy"] * 3, "one::two": ["memmove", "memset"]}))
        self.assertEqual(status, 1)
        self.assertIn(b"one::two: memmove 1, memset 1\nsilmezga_adorn: memcpy 3\none::two copies more", out)
        self.assertIn(b"silmezga_adorn copies more than it may\n2 functions that call others, 2 of them", out)
        self.assertEqual(run("check_copies", self.archive({"silmezga_summarise": ["memcpy"] * 6}))[0], 0)
        self.assertEqual(run("check_copies", self.archive({"silmezga_summarise": ["memcpy"] * 7}))[0], 1)

    def test_nothing_seen(self):
        self.assertEqual(run("check_copies", self.archive({}))[0], 1)
