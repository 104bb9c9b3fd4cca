"""Tests of tools/check_imports, on a small project that is made up here and on this one."""
import sys, unittest.mock

from test_commands import printed
from testing import ROOT, InFolder, loaded

LOWER = """\
// use tables::hidden; ghost use Rattle.tables.specs.Hidden.{hidden};
pub use paper::Width;
pub use paper::refusal::Refusal;
pub use reshaping::reshape::Reshaped;
pub use reading::reader;
use tables::Inner;
ghost use Rattle.std.specs.Prelude.{◌≡◌};
ghost use Rattle.paper.specs.Calls.{examine};

pub fn examine(width: Width, table: &[u8]) -> usize { tables::examine(table) }
fn inner(x: usize) -> usize { x }
"""
FILES = {
    "crates/silmezga/src/lib.rt": LOWER,
    # what the contracts name stands on Lists and on a struct, and these on Deep; Laws and Other are named by nothing
    "crates/paper/specs/Calls.antt": "use Rattle.paper.specs.Lists.{keep}\nuse Rattle.tables.specs.declared.Row.{Row}\n",
    "crates/paper/specs/Lists.antt": "use Rattle.octets.specs.Deep.{deep}\n-- use Rattle.tables.specs.Other.{other}\n",
    "crates/octets/specs/Deep.antt": "use mathlib.Core.List.{List}\n", "crates/paper/specs/Other.antt": "", "crates/paper/proofs/Laws.antt": "",
    "crates/totals/src/lib.rt": "", "crates/totals_c/src/lib.rt": "", "crates/totals_c_c/src/lib.rt": "",
}


class CheckImports(InFolder):
    def setUp(self):
        super().setUp()
        self.command = loaded("check_imports")
        self.command.ROOT = self.folder
        for file, text in FILES.items():
            self.put(file, text)

    def check(self):
        """The status, and what is said."""
        with unittest.mock.patch.object(sys, "argv", ["check_imports"]):
            return printed(self.command.main)

    def hold(self, file, name, text, good):
        """Whether a name that a file has is let through; the file has nothing else."""
        self.put(file, f"\n{text}\n")
        wanted = (0, "1 names, 0 of them not promised\n")
        if not good:
            wanted = (1, f"{file}:2: {name} is nothing that silmezga promises\n1 names, 1 of them not promised\n")
        self.assertEqual(self.check(), wanted, text)
        self.put(file, FILES.get(file, ""))

    # modules that contracts, definitions and proofs may name, and those that they may not
    PROMISED = (
        "lib.ListN", "mathlib.Core.Path", "Prim.Native.Nat", "borrow.Author.Rules", "Rattle.totals.specs.Tape", "Rattle.totals.proofs.Lists",
        "Rattle.totals.proofs.sum_tape.Tie", "Rattle.paper.specs.Calls", "Rattle.paper.specs.Lists", "Rattle.octets.specs.Deep",
        "Rattle.paper.specs.declared.Width", "Rattle.paper.specs.declared.Width.TheVariants", "Rattle.reshaping.specs.declared.reshape.Reshaped",
        "Rattle.tables.specs.declared.Row", "Rattle.settling.proofs.Settles", "Rattle.silmezga.proofs.examine.Reads",
        "Rattle.silmezga.proofs.examine.Statement", "Rattle.silmezga.proofs.examine", "Rattle.silmezga.specs.contracts.examine",
        "Rattle.silmezga.specs.contracts.examine.Key", "Rattle.std.specs.Prelude", "Rattle.std.proofs.Math.Option", "Rattle.paper.proofs.Refusals",
        "Rattle.paper.specs.declared.refusal.Refusal.TheVariants")
    NOT_PROMISED = (
        "Rattle.paper.specs.Other", "Rattle.paper.proofs.Laws", "Rattle.paper.proofs.Refusals.Laws", "Rattle.paper.specs", "Rattle.paper", "Rattle.paper.specs.Call",
        "Rattle.tables.specs.Hidden",
        "Rattle.tables.specs.Other", "Rattle.tables.specs.declared.Inner", "Rattle.tables.proofs.Rows", "Rattle.reshaping.proofs.Shown",
        "Rattle.reshaping.specs.declared.reshape.Other", "Rattle.silmezga.proofs.Unique", "Rattle.silmezga.proofs.examine.Proof",
        "Rattle.silmezga.proofs.examine.Tie", "Rattle.silmezga.proofs.inner.Statement", "Rattle.silmezga.proofs", "Rattle.io.specs.Counts",
        "Rattle.silmezga.specs.contracts.inner", "Rattle.silmezga.specs.contracts", "Rattle.reshaping.specs.contracts.examine", "paper.specs.Calls", "specs.Calls")

    def test_modules(self):
        """By an import of a proof, of a definition and of a contract."""
        for names, good in ((self.PROMISED, True), (self.NOT_PROMISED, False)):
            for name in names:
                self.hold("crates/totals/proofs/x/Proof.antt", name, f"use {name}.{{a, b}}", good)
                self.hold("crates/totals/specs/Tape.antt", name, f"pub use {name} as n", good)
                self.hold("crates/totals/src/rows.rt", name, f"ghost use {name}.{{a}};", good)

    def test_without_an_import(self):
        """A module of a crate counts where it stands in some term, and nothing in a comment does."""
        self.hold("crates/totals/proofs/Lists.antt", "Rattle.paper.proofs.Laws.keep", "law = (Rattle.paper.proofs.Laws.keep, refl)", False)
        self.hold("crates/totals/proofs/Lists.antt", "Rattle.paper.specs.Lists.keep", "law = (Rattle.paper.specs.Lists.keep, refl)", True)
        self.hold("crates/totals/src/lib.rt", "tables::row::smaller", "    let n = smaller(tables::row::smaller(a, b), c);", False)
        self.put("crates/totals/proofs/Lists.antt", "-- use Rattle.paper.proofs.Laws.{keep}\nlaw = refl -- Rattle.paper.proofs.Laws\n")
        self.put("crates/totals/src/lib.rt", "// use tables::row;\nlet x = 1; // tables::row::smaller\n")
        self.assertEqual(self.check(), (0, "0 names, 0 of them not promised\n"))

    def test_paths(self):
        """Of code: what the lower library exports, by either name, and what is the crate's own."""
        self.put("crates/totals/src/rows.rt", "")
        for path in ("silmezga::Width", "silmezga::reshape", "paper::Width", "paper::Width::Six", "reshaping::reshape::Reshaped", "reading::reader::row",
                     "crate::rows::add", "rows::add"):
            self.hold("crates/totals/src/lib.rt", path, f"use {path};", True)
            self.hold("crates/totals/src/lib.rt", path, f"    {path}(width, table)", True)
        for path in ("paper::format_of", "paper::Format", "reshaping::reshape::reshape", "tables::Inner", "tables::table::examine", "octets::record",
                     "libc::write", "std::mem::swap", "totals_c::x", "paper::Widths"):
            self.hold("crates/totals/src/lib.rt", path, f"use {path};", False)
            self.hold("crates/totals/src/lib.rt", path, f"pub use {path};", False)
            self.hold("crates/totals/src/lib.rt", path, f"    {path}(width, table)", False)
        self.hold("crates/totals/src/lib.rt", "i64::MAX", "    i64::MAX", True)
        # a module of its own that is named as a crate
        self.put("crates/totals/src/octets.rt", "")
        self.hold("crates/totals/src/lib.rt", "octets::record", "use octets::record;", False)
        self.hold("crates/totals/src/lib.rt", "crate::octets::record", "use crate::octets::record;", True)

    def test_for_c(self):
        """The crate for C stands on the other one too, but not the other way round."""
        self.hold("crates/totals_c/src/lib.rt", "totals::sum_tape", "use totals::sum_tape;", True)
        self.hold("crates/totals_c/proofs/Unique.antt", "Rattle.totals.proofs.Unique", "use Rattle.totals.proofs.Unique as rattle", True)
        self.hold("crates/totals_c/specs/Told.antt", "Rattle.totals.specs.Tape", "use Rattle.totals.specs.Tape.{Tape}", True)
        self.hold("crates/totals_c/specs/Told.antt", "Rattle.silmezga_c.specs.Told", "use Rattle.silmezga_c.specs.Told.{width_of}", False)
        self.hold("crates/totals/specs/Tape.antt", "Rattle.totals_c.specs.Told", "use Rattle.totals_c.specs.Told.{x}", False)

    def test_laws(self):
        """Those of a type are cited only where the lower library exports the type."""
        law = "Rattle.paper.proofs.Refusals"
        self.hold("crates/totals/proofs/Unique.antt", law, f"use {law}.{{numbered}}", True)
        self.put("crates/silmezga/src/lib.rt", LOWER.replace("pub use paper::refusal::Refusal;", "use paper::refusal::Refusal;"))
        self.hold("crates/totals/proofs/Unique.antt", law, f"use {law}.{{numbered}}", False)

    def test_crates_that_are_not_there(self):
        (self.folder / "crates/totals_c/src/lib.rt").unlink()
        (self.folder / "crates/totals_c/src").rmdir()
        self.assertEqual(self.check(), (1, "there is no crate totals_c\n0 names, 0 of them not promised\n"))

    def test_this_project(self):
        """Every name is looked at, and what is known to be promised, and not, is."""
        found = list(self.command.looked_at(ROOT))
        self.assertGreater(len(found), 30)
        self.assertEqual([each for each, good in found if not good], [])
        promised = self.command.Promised(ROOT)
        for name, good in (("Rattle.paper.specs.Calls", True), ("Rattle.reshaping.specs.Reshaped", True), ("Rattle.paper.specs.Figures", True),
                           ("Rattle.reshaping.specs.declared.summarise.Summary", True), ("Rattle.silmezga.proofs.reshape.Reads", True),
                           ("Rattle.paper.proofs.Refusals", True), ("Rattle.paper.proofs.Lists", False), ("Rattle.lines.specs.Count", False), ("Rattle.reshaping.proofs.Shown", False),
                           ("Rattle.silmezga.proofs.Unique", False), ("Rattle.paper.specs.samples.Marked", False)):
            self.assertEqual(promised.has_module("totals", name), good, name)
