"""Tests of the folders of samples/ and of their listings."""
import re, unittest

import brackets, explained, paper01, samples, table_text
from case_samples import P4
from gate_data import UNREAD
from test_text import A_BYTES
from testing import ROOT, loaded


class Samples(unittest.TestCase):
    # document 01: the first line, and the number of lines; how many belong together stands behind them
    BY_HAND = {
        "p1": ("refused 7 0", 0), "p2": ("verdict 0", 9), "p3": ("verdict 0", 5), "p4": ("verdict 0", 9),
        "p5": ("verdict 1 1 8", 9), "p6": ("verdict 2 1 2", 6), "p7": ("verdict 3 0 2", 4), "p8": ("verdict 0", 2),
        "p9a": ("verdict 0", 6), "p9b": ("verdict 2 1 2", 7), "p10": ("verdict 1 1 1", 1),
        "rows_1024": ("verdict 0", 1024), "rows_1025": ("refused 1 0", 0), "level_6": ("verdict 0", 6), "level_7": ("refused 3 6", 0),
        "types_64": ("verdict 0", 2), "types_65": ("refused 4 64", 0), "entries_16": ("verdict 0", 48), "entries_17": ("refused 5 0", 0),
        "lines_1024": ("verdict 2 1 3", 1024), "lines_1025": ("refused 8 0", 0),
        "labels_22a": ("verdict 0", 23), "labels_22b": ("verdict 0", 19), "cut_off": ("refused 2 0", 0), "label_100": ("refused 6 2", 0),
        "hidden_by_1": ("verdict 1 3 8", 9), "hidden_by_3": ("verdict 3 1 3", 6),
        "level_8": ("verdict 0", 8), "level_9": ("refused 3 8", 0), "both_widths": ("verdict 0", 8), "shape8_missing": ("refused 5 0", 0),
        "source8_missing": ("verdict 0", 9), "typed": ("verdict 0", 9), "typed_wide": ("verdict 0", 6), "typed_early": ("refused 12 20", 0),
        "typed_empty": ("refused 12 17", 0), "typed_none": ("refused 13 2", 0), "typed_several": ("refused 13 2", 0),
        "rows8_1024": ("verdict 0", 1), "bytes8_28673": ("refused 1 0", 0), "entries8_16": ("verdict 0", 48), "entries8_17": ("refused 5 0", 0),
        "typed_deep": ("refused 6 6", 0), "typed_1536": ("verdict 0", 3), "typed_1539": ("refused 12 1536", 0), "both_trees": ("verdict 0", 9),
        "types_deep": ("verdict 0", 1), "credits": ("verdict 1 1 7", 16), "credits_wide": ("verdict 1 1 15", 10), "value_beyond": ("verdict 1 1 5", 3),
    }

    # request 5: the numbers of each edge, by hand
    EDGES = {
        "p1": "", "p2": "2 2 1 1 / 1 2 1 1 / 0 2 1 1", "p3": "0 3 1 1", "p4": "1 1 1 2 / 0 2 1 1", "p5": "1 1 0 2 / 1 1 1 2", "p6": "2 2 1 1 / 3 3 1 1",
        "p7": "0 1 1 1 / 1 1 1 1", "p8": "1 1 1 1", "p9a": "1 1 1 1", "p9b": "3 3 1 1 / 3 3 1 1", "p10": "0 0 0 0", "rows_1024": "1 1 1 1", "rows_1025": "",
        "entries_16": " / ".join(["1 1 1 1"] * 15), "level_8": " / ".join(["1 1 1 1"] * 7), "lines_1024": "31 31 1 1 / 1 1 31 31 / 31 31 1 1",
        "hidden_by_1": "2 2 1 1 / 3 3 1 1 / 1 1 0 2", "hidden_by_3": "2 2 1 1 / 0 1 1 1 / 1 1 1 1 / 1 1 1 1",
        "credits": "1 1 0 2 / 1 1 1 2 / 2 3 1 1", "credits_wide": "1 1 0 2 / 1 2 1 1 / 1 1 2 2", "value_beyond": "1 1 0 1 / 1 1 1 1",
    }

    def listed(self, name):
        return (samples.FOLDER / name / "listing").read_text()

    def parts(self, name):
        """The first line of a listing, its lines, and the lines of its edges, which stand last."""
        first, *lines = self.listed(name).splitlines()
        edges = [line for line in lines if line.startswith("edge ")]
        self.assertEqual(lines[len(lines) - len(edges):], edges, name)
        return first, lines[:len(lines) - len(edges)], edges

    def test_by_hand(self):
        for name, (first, lines) in self.BY_HAND.items():
            self.assertEqual((self.parts(name)[0], len(self.parts(name)[1])), (first, lines), name)
        for name, numbers in self.EDGES.items():
            edges = [f"edge {e} {four}" for e, four in enumerate(filter(None, numbers.split(" / ")), 1)]
            self.assertEqual(self.parts(name)[2], edges, name)
        self.assertEqual(self.listed("p4"), P4)
        self.assertEqual((self.listed("source8_missing"), self.listed("both_widths"), self.listed("typed")), (P4, self.listed("level_8"), P4))
        self.assertEqual((self.listed("both_trees"), self.listed("entries8_16")), (P4, self.listed("entries_16")))
        for name, verdict in (("fans_by_lessee", 0), ("fans_by_asset", 0), ("fans_lost", 1), ("fans_made_up", 2), ("fans_missing", 3),
                              ("subleases", 0), ("subleases_up", 1)):
            self.assertTrue(self.listed(name).startswith(f"verdict {verdict}"), name)

    def test_table_a(self):
        self.assertEqual((samples.FOLDER / "p2/source.tab").read_bytes(), A_BYTES)
        _, found = paper01.adorn(A_BYTES, [None] * 4)
        self.assertEqual([s[4:] for s in found[1:]], [(2, 2), (1, 2), (0, 2)])

    def test_whole(self):
        """Bytes and listings are those that the texts and paper01.py give, and every folder is in the README."""
        told = (samples.FOLDER / "README.md").read_text()
        found = list(samples.every())
        self.assertEqual({p.name for p in samples.FOLDER.iterdir() if p.is_dir()}, {name for name, *_ in found})
        for name, *sample in found:
            self.assertEqual(samples.listing(*sample), self.listed(name), name)
            self.assertRegex(told, rf"\b{name}\b")
            for mark, each in (("", 6), ("8", 8)):
                self.hold_texts(samples.FOLDER / name, mark, each)

    def hold_texts(self, folder, mark, levels):
        """The files of a folder are those that its texts give."""
        source, shape = (folder / f"{file}{mark}.tab" for file in ("source", "shape"))
        text, entries = (folder / f"{file}{mark}.txt" for file in ("source", "entries"))
        table = source.read_bytes() if source.exists() else b""
        if text.exists():
            self.assertEqual(table_text.table_from(text.read_text(), levels), table, folder.name)
        if entries.exists():
            made = table_text.shape_from(entries.read_text(), table_text.kinds_of(table, levels), levels=levels)
            self.assertEqual(made, shape.read_bytes(), folder.name)

    # what is wrong with the tables and shapes that no text can say
    TABLES = {"rows_1025": "at most 1,024 rows", "bytes8_28673": "at most 1,024 rows", "level_7": "row 6 breaks a rule: its level is 7", "cut_off": "the last 23 bytes are no whole row",
              "level_9": "row 8 breaks a rule: its level is 9"}
    SHAPES = {"entries_17": "at most 16 entries", "entries8_17": "at most 16 entries", "label_100": "entry 2 breaks a rule", "shape8_missing": "no entry"}

    def test_round_trips(self):
        for name, table, shape, levels in samples.samples():
            text, fault = table_text.show_table(table, levels=levels)
            if name in self.TABLES:
                self.assertIn(self.TABLES[name], fault)
            else:
                self.assertEqual((table_text.table_from(text, levels), fault), (table, None), name)
            text, fault = table_text.show_shape(shape, levels=levels)
            if name in self.SHAPES:
                self.assertIn(self.SHAPES[name], fault)
            else:
                self.assertEqual((table_text.shape_from(text, levels=levels), fault), (shape, None), name)
                self.assertEqual(table_text.shape_from(text, table_text.kinds_of(table, levels), levels=levels), shape, name)

    def test_texts_are_as_made(self):
        command = loaded("make_samples")
        for mark, several in (("", command.texts()), ("8", command.wide_texts())):
            for name, source, shape in several:
                self.assertEqual((samples.FOLDER / name / f"source{mark}.txt").read_text(), source, name)
                self.assertEqual((samples.FOLDER / name / f"entries{mark}.txt").read_text(), shape, name)

    def test_typed_trees_are_as_made(self):
        """The folders with a typed tree have no shape, and the page on the samples shows each line."""
        told = (samples.FOLDER / "README.md").read_text()
        made = loaded("make_samples").OF_TYPED_TREES
        self.assertEqual({name for name, _, wanted, _ in samples.every() if isinstance(wanted, samples.Typed)}, set(made))
        for name, (_, _, text) in made.items():
            self.assertEqual((samples.FOLDER / name / samples.TREE).read_bytes(), text.encode(), name)
            self.assertIn(f"| {name} | {text.strip()} |", told)

    def test_lines_of_files(self):
        """One end of a line is left out, and no more."""
        for file, line in ((b"a", b"a"), (b"a\n", b"a"), (b"a\r\n", b"a"), (b"a\r", b"a\r"), (b"a\n\n", b"a\n"), (b"a\r\n\r\n", b"a\r\n"), (b"\n", b""),
                           (b"\r\n", b""), (b"", b""), (b"a\nb", b"a\nb"), (b"\na", b"\na"), (b"a\n ", b"a\n ")):
            self.assertEqual(samples.line_of(file), line)

    def test_printed(self):
        """Worked out by hand; and a printed tree is read back as the same shape, over its own table."""
        both = samples.by_name()
        p4 = ".portfolio.lessee.lease [ .portfolio.lessee .portfolio.lessee.lease.asset ]\n"
        p9b = ".portfolio [ .portfolio.lessee.lease .portfolio.lessee.lease ]\n"
        for name, line in (("p4", p4), ("typed", p4), ("p9b", p9b), ("p1", ".lease [ .lessee .asset ]\n"), ("label_100", "refused 6 2\n"),
                           ("shape8_missing", "refused 5 0\n"), ("typed_none", "refused 13 2\n")):
            self.assertEqual(samples.printed(*both[name]), line, name)
        self.assertIn(f"\n    $ ./intake --print samples/p4\n    {p4}", explained.PAGE.read_text())
        for name, (table, wanted, levels) in both.items():
            if self.listed(name).startswith("verdict"):
                line = samples.Typed(samples.printed(table, wanted, levels).strip("\n").encode())
                self.assertEqual(samples.shaped(table, line, levels), samples.shaped(table, wanted, levels), name)

    def test_subleases(self):
        """300 rows or more, rows and entries on all eight levels, and no table that six levels take."""
        for name in ("subleases", "subleases_up"):
            table, shape, levels = samples.by_name()[name]
            rows = paper01.read_rows(table, levels)
            self.assertGreater(len(rows), 300)
            self.assertEqual({len(row.dewey) for row in rows}, set(range(1, 9)))
            self.assertEqual(paper01.move_table(table, bytes(len(table)), 6, levels)[0][0], 24)
        self.assertEqual([entry.level for entry in paper01.read_shape(shape, levels)], list(range(1, 9)))

    def test_labels(self):
        """Both folders have one table, and all labels and the values at both ends stand in their listings."""
        tables = [(samples.FOLDER / name / "source.tab").read_bytes() for name in ("labels_22a", "labels_22b")]
        self.assertEqual(*tables)
        lines = [line.split() for name in ("labels_22a", "labels_22b") for line in self.parts(name)[1]]
        self.assertEqual({label for _, _, label, _, _ in lines}, {*table_text.NAMES, "21", "99"})
        self.assertLess({str(-2**63), "-500", "-1", str(2**63 - 1)}, {value for *_, value in lines})

    def test_folders(self):
        """The program folders is run on every folder but the later ones, by tables and shapes of its own, and must write what stands in the folders."""
        home, made = ROOT / "crates/folders", loaded("make_folders")
        names = sorted({folder.name for folder in samples.folders()} - {*samples.LATER})
        words = (home / "args").read_text().splitlines()
        self.assertEqual([word for word in words if not word.startswith(" ")], [*names, *UNREAD])
        self.assertEqual({words[at - 1]: word for at, word in enumerate(words) if word.startswith(" ")}, made.TREES)
        self.assert_data(home / "data", names)
        parts = re.split(r"(?m)^== (\w+(?:, typed)?)\n", (home / "stdout").read_text())
        typed = [[name, f"{name}, typed"][:1 + (name in made.TREES)] for name in names]
        self.assertEqual(parts[:1] + parts[1::2], ["", *sum(typed, []), *UNREAD])
        both = samples.by_name()
        for name, text in zip(parts[1::2], parts[2::2]):
            if name in UNREAD:
                self.assert_unread(name, text)
            elif name in both:
                self.assert_screens(name, text, self.listed(name), both[name], samples.types(both[name][0], both[name][2]))
            else:
                table, _, levels = both[name.split(",")[0]]
                given = table, samples.Typed(made.TREES[name.split(",")[0]].encode()), levels
                self.assert_screens(name, text, samples.listing(*given), given)

    def assert_data(self, data, names):
        """The files of the named folders, and the folders with one file that cannot be read: nothing else, and no links."""
        files = {f"{name}/{path.name}": path for name in names for path in samples.read_files(samples.FOLDER / name)}
        files.update({f"{name}/{file}": samples.FOLDER / like / file for name, (_, like, beside) in UNREAD.items() for file in beside})
        kept = {str(path.relative_to(data)) for path in data.rglob("*") if not path.is_dir()}
        self.assertEqual(kept, {*files, *(f"{name}/{file}/README.md" for name, (file, _, _) in UNREAD.items())})
        for file, path in files.items():
            self.assertFalse((data / file).is_symlink())
            self.assertEqual((data / file).read_bytes(), path.read_bytes(), file)

    def test_later(self):
        """The later folders are there, the gate runs histories alone on them, and takes each in."""
        names = {folder.name for folder in samples.folders()}
        self.assertLess({*samples.LATER}, names)
        for crate, taken in (("folders", names - {*samples.LATER}), ("histories", names)):
            words = (ROOT / "crates" / crate / "args").read_text().split("\n")
            self.assertEqual(names & {*words}, taken)

    def test_histories(self):
        """The program histories is run on every folder, by tables and shapes of its own: every line is that of the tape by itself, and the total that of
        the lines above it; at both widths, of typed trees, in another order, one tape more than a total takes in, and up to a folder that cannot be read."""
        home, made = ROOT / "crates/histories", loaded("make_histories")
        self.assert_data(home / "data", [folder.name for folder in samples.folders()])
        first, *words = f" {' '.join((home / 'args').read_text().splitlines())} ".split(f" {made.MARK} ")
        none, *texts = (home / "stdout").read_text().split("== total ")
        self.assertEqual((first, none, len(words)), ("", "", len(texts)))
        refused, ends = set(), {}
        for (entry, *names), (head, *lines) in zip((month.split() for month in words), (text.splitlines() for text in texts)):
            self.assertEqual(head, entry)
            if lines[-1] == "not whole":
                self.assertEqual([name in UNREAD for name in names[:len(lines)]], [False] * (len(lines) - 1) + [True], names)
                continue
            self.assertEqual([line.split(":")[0] for line in lines[:len(names) + 1]], [*names, "total"])
            left = [line for line in lines if line.endswith(", not counted")]
            self.assertEqual(lines[len(names) + 1:], [f"refused {len(left)}"] if left else [])
            sums = [[int(n) for n in re.findall("shown (-?[0-9]+)", line)] for line in lines[:len(names)] if line not in left]
            both = [sum(both) for both in zip(*sums)] or [0, 0]
            self.assertEqual(lines[len(names)], f"total: shown {both[0]}, not shown {both[1]}, tapes {len(sums)}")
            refused.update(int(line.split(": refused ")[1].split()[0]) for line in left)
            ends.setdefault((entry, *sorted(names)), set()).add(lines[len(names)])
        self.assertEqual(refused, {*range(1, 8), 12, 13, 16, 17, 18})
        self.assertEqual({len(end) for end in ends.values()}, {1})
        self.assertLess(len(ends) + len(UNREAD), len(words))

    def assert_screens(self, name, text, listing, sample, *types):
        """The screens of a folder, or of a tree typed behind one, which has no types."""
        heads = ["report", "summary", *["types"] * len(types), "print"]
        self.assertEqual(re.findall("(?m)^-- (.*)\n", text), heads, name)
        texts = re.split("(?m)^-- (?:report|summary|types|print)\n", text)
        screens = [samples.summary(*sample), *types, samples.printed(*sample)]
        self.assertEqual([texts[0], *texts[2:]], [listing, *screens], name)
        self.assert_reported(texts[1].splitlines(), listing.splitlines(), explained.reported(*sample), name)

    def assert_unread(self, name, text):
        """No screen of a file that cannot be read is whole, but the types where it is the typed tree."""
        types = Texts.A_TYPES if name == "unread_tree" else "not whole\n"
        self.assertEqual(text, f"not whole\n-- report\nnot whole\n-- summary\nnot whole\n-- types\n{types}-- print\nnot whole\n", name)

    # trees typed behind a folder, by hand
    TYPED = {"p4": "verdict 1 1 8", "both_widths": "verdict 0", "typed_none": "verdict 0", "typed": "refused 12 18", "shape8_missing": "verdict 0",
             "cut_off": "refused 2 0", "p5": "refused 13 1", "p2": "verdict 0", "p3": "refused 12 1536"}

    def test_typed_behind_folders(self):
        told = (ROOT / "crates/folders/stdout").read_text()
        self.assertEqual(dict(re.findall(r"(?m)^== (\w+), typed\n(.*)$", told)), self.TYPED)

    def assert_reported(self, together, listing, report, name):
        """A listing with its report: both in order, each edge behind its own line and all else behind the first line."""
        named = [at for at, line in enumerate(together) if line.startswith("edge ") and len(line.split(" ")) == 8]
        before = [at for at in range(1, len(together)) if at <= len(report) - len(named)]
        self.assertEqual([together[at] for at in before + named], report, name)
        self.assertEqual([line for at, line in enumerate(together) if at not in {*before, *named}], listing, name)
        for at in named:
            self.assertEqual(together[at].split(" ")[1:2] + together[at].split(" ")[4:], together[at - 1].split(" ")[1:], name)

    def test_program_on_p4(self):
        """The gate runs the program on P4, which has files of its own there, and what it must write is P4's listing."""
        home = ROOT / "crates/intake"
        for file in ("source.tab", "shape.tab"):
            self.assertEqual((home / "data" / file).read_bytes(), (samples.FOLDER / "p4" / file).read_bytes())
        self.assertEqual((home / "stdout").read_text(), P4)

    def test_second_answers(self):
        """The table of docs/HELP.md that shows the second answer, which every verdict but 0 has in each way that it can."""
        tried, kinds = explained.tried_seconds(), set()
        both = samples.by_name()
        for name, tree, answer, second in tried:
            table, shape, _ = both[name]
            self.assertEqual(table_text.shape_from(brackets.indented(tree), table_text.kinds_of(table)), shape, name)
            first, *told = explained.reported(table, shape)
            self.assertEqual((first, [line for line in told if line.endswith(" apart")]), (answer, [second]), name)
            kinds.add((answer.split()[1], second))
        self.assertEqual(kinds, {("1", "none apart"), ("1", "some apart"), ("2", "some apart"), ("3", "none apart"), ("3", "some apart")})

    def test_report(self):
        """Worked out by hand: what is reported of a verdict with each second answer, with the edges, and of a refusal, which has neither."""
        of_p4 = ["verdict 0", "none apart", "edge 1 lease lessee 1 1 1 2", "edge 2 lease asset 0 2 1 1"]
        reports = {
            "p4": of_p4, "typed": of_p4,
            "p5": ["verdict 1 1 8", "entry 1: portfolio lessee lease", "row 8: 1.2.1, portfolio lessee lease, value 800", "none apart",
                   "edge 1 asset lease 1 1 0 2", "edge 2 lease lessee 1 1 1 2"],
            "p6": ["verdict 2 1 2", "entry 1: portfolio lessee", "entry 2: portfolio lessee lease asset", "some apart",
                   "edge 1 portfolio lessee 2 2 1 1", "edge 2 portfolio asset 3 3 1 1"],
            "p7": ["verdict 3 0 2", "entry 0: portfolio lease", "entry 2: portfolio payment", "none apart", "edge 1 lease asset 0 1 1 1",
                   "edge 2 asset payment 1 1 1 1"],
            "p1": ["refused 7 0", "entry 0: lease"], "cut_off": ["refused 2 0"],
            "typed_early": ["refused 12 20", "tree: lease [ lessee asset", "                          ^"],
            "typed_empty": ["refused 12 17", "tree: lease [ lessee [ ] asset ]", "                       ^"],
            "typed_none": ["refused 13 2", "tree: lease [ lessee asset.lease ]", "                     ^"]}
        both = samples.by_name()
        for name, lines in reports.items():
            self.assertEqual(explained.reported(*both[name]), lines, name)

    def test_explained(self):
        """The second answer and the edges stand between the facts and the advice; a refusal is explained without them, and one entry has no
        edge."""
        both = samples.by_name()
        edges = {"p5": ["  edge 1: an asset has 1 lease, a lease has 0 to 2 assets", "  edge 2: a lease has 1 lessee, a lessee has 1 to 2 leases"],
                 "p6": ["  edge 1: a portfolio has 2 lessees, a lessee has 1 portfolio", "  edge 2: a portfolio has 3 assets, an asset has 1 portfolio"]}
        for name, second in (("p5", "none apart"), ("p6", "some apart")):
            *lines, last, end = explained.explained(*both[name]).split("\n")
            means, then = explained.helped(second)
            self.assertEqual((lines[4:], end), ([f"Second answer: {means}", "How many belong together:", *edges[name]], ""), name)
            self.assertTrue(last.startswith("What to do next: ") and last.endswith(f" {then}"), name)
        lease = table_text.shape_from("lease\n", table_text.kinds_of(A_BYTES))
        for sample, second in ((both["p1"], False), ((A_BYTES, lease), True)):
            said = explained.explained(*sample)
            self.assertEqual(("Second answer" in said, "belong together:" in said), (second, False))

    def test_edges_in_words(self):
        """One, several and a range of each name, and of labels without one; docs/HELP.md shows those of P4."""
        words = {
            (2, "lease", "asset", 0, 2, 1, 1): "edge 2: a lease has 0 to 2 assets, an asset has 1 lease",
            (1, "tax", "currency", 2, 2, 0, 1): "edge 1: a tax has 2 currencies, a currency has 0 to 1 taxes",
            (9, "invoice", "insurance", 0, 0, 0, 0): "edge 9: an invoice has 0 insurances, an insurance has 0 invoices",
            (15, "21", "23", 0, 2, 1, 1): "edge 15: a row labelled 21 has 0 to 2 rows labelled 23, a row labelled 23 has 1 row labelled 21",
            (3, "site", "99", 1, 1, 10, 1022): "edge 3: a site has 1 row labelled 99, a row labelled 99 has 10 to 1022 sites"}
        for edge, said in words.items():
            self.assertEqual(explained.in_words(*edge), said)
        for name in table_text.NAMES:
            article = "an" if name[0] in "aeiou" else "a"
            several = re.sub("y$", "ie", name) + ("es" if name.endswith("x") else "s")
            self.assertEqual(explained.in_words(1, name, name, 1, 1, 2, 2), f"edge 1: {article} {name} has 1 {name}, {article} {name} has 2 {several}")
        shown = explained.explained(*samples.by_name()["p4"]).split("\n")[3:6]
        self.assertIn("\n" + "".join(f"    {line}\n" for line in shown), explained.PAGE.read_text())

    def test_explained_tree(self):
        """docs/HELP.md shows the mark under the place of a typed tree."""
        first, _, *marked, _, _ = explained.explained(*samples.by_name()["typed_empty"]).split("\n")
        shown = "".join(f"    {line}\n" for line in (first, "...", *marked))
        self.assertIn(f"\n    $ ./intake --explain samples/typed_empty\n{shown}\n", explained.PAGE.read_text())

    def test_fans(self):
        """The tape kept by asset is the new table of the tape kept by lessee."""
        both = samples.by_name()
        (number, _, lines), new, _ = paper01.reshape(*both["fans_by_lessee"][:2], bytes(24 * 1024), [0] * 1024)
        self.assertEqual((number, new[:24 * lines]), (0, both["fans_by_asset"][0]))


class Texts(unittest.TestCase):
    """Summary and types against what is worked out by hand."""
    A_TYPES = """\
portfolio 1 row
  lessee 2 rows, 2..2 under a portfolio
    lease 3 rows, 1..2 under a lessee
      asset 3 rows, 0..2 under a lease
"""
    LABELS_TYPES = """\
portfolio 1 row
  vendor 1 row, 1..1 under a portfolio
    contact 1 row, 1..1 under a vendor
  lessee 1 row, 1..1 under a portfolio
    guarantor 1 row, 1..1 under a lessee
    lease 2 rows, 2..2 under a lessee
      deposit 1 row, 0..1 under a lease
      schedule 1 row, 0..1 under a lease
        payment 2 rows, 2..2 under a schedule
      invoice 1 row, 0..1 under a lease
        tax 1 row, 1..1 under an invoice
        currency 1 row, 1..1 under an invoice
      document 2 rows, 1..1 under a lease
      21 1 row, 0..1 under a lease
        99 1 row, 1..1 under a 21
      asset 3 rows, 1..2 under a lease
        meter 2 rows, 0..1 under an asset
          reading 3 rows, 1..2 under a meter
        insurance 1 row, 0..1 under an asset
        service 1 row, 0..1 under an asset
        residual 1 row, 0..1 under an asset
        site 2 rows, 0..1 under an asset
"""
    TYPES = {"p2": A_TYPES, "p4": A_TYPES, "labels_22a": LABELS_TYPES, "labels_22b": LABELS_TYPES, "p1": "",
             "p10": "lessee 1 row\nlease 1 row\n", "rows_1025": "refused 1 0\n", "level_7": "refused 3 6\n", "types_65": "refused 4 64\n"}
    SUMMARIES = {
        "p2": """\
0 portfolio: 1 line, 1 row, 0 copies, 1 different row
  1 lessee: 2 lines, 2 rows, 0 copies, 2 different rows
    2 lease: 3 lines, 3 rows, 0 copies, 3 different rows
      3 asset: 3 lines, 3 rows, 0 copies, 3 different rows
""",
        "p4": """\
0 lease: 3 lines, 3 rows, 0 copies, 3 different rows
  1 lessee: 3 lines, 2 rows, 1 copy, 2 different rows
  2 asset: 3 lines, 3 rows, 0 copies, 3 different rows
""",
        # request 3's example: lease row 2 stands twice, and row 8 not at all
        "p5": """\
0 asset: 3 lines, 3 rows, 0 copies, 3 different rows
  1 lease: 3 lines, 3 rows, 1 copy, 2 different rows
    2 lessee: 3 lines, 2 rows, 2 copies, 1 different row
""",
        "labels_22a": """\
0 lease: 2 lines, 2 rows, 0 copies, 2 different rows
  1 lessee: 2 lines, 1 row, 1 copy, 1 different row
    2 guarantor: 2 lines, 1 row, 1 copy, 1 different row
    3 portfolio: 2 lines, 1 row, 1 copy, 1 different row
      4 vendor: 2 lines, 1 row, 1 copy, 1 different row
        5 contact: 2 lines, 1 row, 1 copy, 1 different row
  6 deposit: 1 line, 1 row, 0 copies, 1 different row
  7 schedule: 1 line, 1 row, 0 copies, 1 different row
    8 payment: 2 lines, 2 rows, 0 copies, 2 different rows
  9 invoice: 1 line, 1 row, 0 copies, 1 different row
    10 tax: 1 line, 1 row, 0 copies, 1 different row
    11 currency: 1 line, 1 row, 0 copies, 1 different row
  12 document: 2 lines, 2 rows, 0 copies, 2 different rows
  13 21: 1 line, 1 row, 0 copies, 1 different row
    14 99: 1 line, 1 row, 0 copies, 1 different row
""",
        "labels_22b": """\
0 asset: 3 lines, 3 rows, 0 copies, 3 different rows
  1 meter: 2 lines, 2 rows, 0 copies, 2 different rows
    2 reading: 3 lines, 3 rows, 0 copies, 3 different rows
  3 insurance: 1 line, 1 row, 0 copies, 1 different row
  4 service: 1 line, 1 row, 0 copies, 1 different row
  5 residual: 1 line, 1 row, 0 copies, 1 different row
  6 site: 2 lines, 2 rows, 0 copies, 2 different rows
  7 lease: 3 lines, 2 rows, 1 copy, 2 different rows
    8 lessee: 3 lines, 1 row, 2 copies, 1 different row
""",
        # more lines than the program's room, and fewer than a summary's
        "lines_1025": """\
0 portfolio: 1 line, 1 row, 0 copies, 1 different row
  1 lessee: 31 lines, 31 rows, 0 copies, 31 different rows
    2 portfolio: 31 lines, 1 row, 30 copies, 1 different row
      3 lessee: 961 lines, 31 rows, 930 copies, 31 different rows
  4 portfolio: 1 line, 1 row, 0 copies, 1 different row
""",
        "p10": "0 lessee: 1 line, 1 row, 0 copies, 1 different row\n  1 lease: 0 lines, 1 row, 0 copies, 0 different rows\n",
        "p1": "refused 7 0\n", "rows_1025": "refused 1 0\n", "types_65": "refused 4 64\n", "entries_17": "refused 5 0\n",
    }

    def test_by_hand(self):
        both = samples.by_name()
        for name, text in self.SUMMARIES.items():
            self.assertEqual(samples.summary(*both[name]), text, name)
        for name, text in self.TYPES.items():
            self.assertEqual(samples.types(both[name][0]), text, name)

    def test_summary_of_the_help_screen(self):
        """docs/HELP.md shows the summary of P5."""
        shown = "".join(f"    {line}\n" for line in self.SUMMARIES["p5"].splitlines())
        self.assertIn(f"\n    $ ./intake --summary samples/p5\n{shown}\n", explained.PAGE.read_text())

    def test_types_on_eight_levels(self):
        """Behind a type of level 8 comes one of level 2, and behind another a root."""
        table, _, levels = samples.by_name()["types_deep"]
        lines = samples.types(table, levels).splitlines()
        self.assertEqual([len(line) - len(line.lstrip(" ")) for line in lines], [2 * level for level in (*range(8), *range(1, 8), 0)])
        self.assertEqual(lines[7:9] + lines[14:], [f"{'  ' * 7}reading 1 row, 1..1 under a meter", "  site 1 row, 1..1 under a portfolio",
                                                   f"{'  ' * 7}tax 1 row, 1..1 under an invoice", "vendor 1 row"])

    def test_types_stand_beneath_theirs(self):
        """A type whose first row comes after other roots stands beneath its own."""
        table = table_text.table_from("asset\n  lease\n99\n  7\nasset\n  lessee\n  lessee\n")
        self.assertEqual(samples.types(table), "asset 2 rows\n  lease 1 row, 0..1 under an asset\n  lessee 2 rows, 0..2 under an asset\n"
                                               "99 1 row\n  guarantor 1 row, 1..1 under a 99\n")

    def test_every_label_above(self):
        for label in [*table_text.NAMES, "21", "80"]:
            said = samples.types(table_text.table_from(f"{label}\n  1\n")).split(" under ")[1]
            article = "an" if label in ("asset", "invoice", "insurance") else "a"
            self.assertEqual(said, f"{article} {label}\n")

    def test_too_many_lines(self):
        table = table_text.table_from("portfolio\n" + "  lessee\n" * 65)
        shape = table_text.shape_from("lessee\n  portfolio\n    lessee\n", table_text.kinds_of(table))
        self.assertEqual(samples.summary(table, shape), "refused 8 0\n")
