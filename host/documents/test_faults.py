"""The tests of the documents can fail: a small tree is right, and with one fault it is told."""
import unittest

import folders
import forms
import trace_rows
import trust_tables
from made import made, page

TRUST, TRACE, CALLS = "docs/TRUST.md", "docs/TRACE.md", "crates/format/specs/Calls.antt"


class Faults(unittest.TestCase):
    def told(self, problems, *words):
        """The problems are as many as the words, and each has its own."""
        self.assertEqual(len(problems), len(words), problems)
        for problem, word in zip(problems, words):
            self.assertIn(word, problem)


class Tables(Faults):
    def test_nothing_wrong(self):
        for problems in (trust_tables.problems, trace_rows.problems, folders.folders, folders.imports, folders.check_times):
            self.told(problems(made()))

    def test_file_left_out_of_trust(self):
        self.told(trust_tables.problems(made(TRUST, "| src/lib.rt | `Answer` | Calls |\n", "")), "no row has crates/format/src/lib.rt")
        self.told(trust_tables.problems(made(TRUST, "specs/Tools, Calls | `pick`, ", "specs/Calls | ")), "no row has crates/format/specs/Tools.antt")

    def test_file_too_many_in_trust(self):
        self.told(trust_tables.problems(made(TRUST, "the theorems on the rows", "making")), "no public contract cites crates/format/specs/Sample.antt")
        self.told(trust_tables.problems(made(TRUST, "specs/Sample", "specs/Samples")), "crates/format/specs/Samples.antt is not there")
        self.told(trust_tables.problems(made(TRUST, "`Made`", "`Maker`")), "Maker is not declared")

    def test_contract_cites_more(self):
        more = "Made result }\n{\n    n\n}\nghost use Rattle.format.specs.Sample.{rows};\npub fn more(n: u32) -> u32\n    ensures { rows result"
        tree = made("crates/making/src/make.rt", "Made result", more)
        tree.changed[TRUST] = tree.read(TRUST).replace("| specs/Sample | rows | the theorems on the rows |\n", "")
        self.told(trust_tables.problems(tree), "no row has crates/format/specs/Sample.antt, which crates/making/src/make.rt cites")

    def test_no_contract(self):
        self.told(trust_tables.problems(made("crates/making/src/make.rt", "    ensures { Made result }\n", "")), "make has no contract")
        self.told(trust_tables.problems(made("crates/making/src/make.rt", "\n    ensures { Made result }\n{", " {")), "make has no contract")

    def test_call_gone(self):
        self.told(trust_tables.problems(made("crates/listing/src/lib.rt", "fn list", "fn listed")), "list is no function of listing")

    def test_import_of_nothing(self):
        self.told(trust_tables.problems(made(CALLS, ".{pick}", ".*")), "Calls.antt has an import of another form")
        self.told(trust_tables.problems(made(CALLS, "record Made", "record Maker")), "Made is not declared", "imports Made")

    def test_rows_of_trace(self):
        for old, new, word in [("`Calls.Made`", "`Calls.Maker`", "Maker is not declared"), ("(`number`)", "(`letter`)", "(letter) is no part"),
                               ("`twice`", "`pick`", "pick is not declared in crates/format/specs/Calls.antt"), ("`Answer`", "`Reply`", "Reply is no type"),
                               ("made-once", "made-twice", "made-twice is not declared in crates/laws/proofs/Calls.antt"),
                               ("made_up", "made_so", "made_so is no must-fail"),
                               ("making: `make`", "format: `make`", "make is no function of format"), ("making: ", "", "no crate stands before"),
                               ("`copies`", "`made_up`", "made_up is no must-fail edit of making"), ("| Make. ", "", "5 cells")]:
            with self.subTest(new=new):
                self.assertIn(word, "\n".join(trace_rows.problems(made(TRACE, old, new))))

    def test_folders(self):
        self.told(folders.folders(made("README.md", "`crates/wire`, `making`", "`crates/making`")), "leaves out wire")
        self.told(folders.folders(made("README.md", "`making`", "`making`, `shops`")), "shops, which crates.txt has not")
        self.told(folders.folders(made("README.md", "`making`", "`making`, `wire`")), "wire twice")

    def test_imports(self):
        self.told(folders.imports(made("README.md", "`crates/wire`, `making`", "`crates/making`, `wire`")), "making imports wire")
        self.told(folders.imports(made("crates.txt", "format:", "format: wire")), "format imports wire")

    def test_check_times(self):
        self.told(folders.check_times(made("docs/CHECK_TIMES.md", "| wire | 2 |\n", "")), "leaves out wire")
        self.told(folders.check_times(made("docs/CHECK_TIMES.md", "| wire |", "| wires |")), "leaves out wire", "wires, which crates.txt has not")


class Names(Faults):
    RIGHT = ["crates/format/specs/Calls.antt", "`crates/format/specs/Calls`", "`TRUST.md`", "format/specs/Calls", "`making/copies`",
             "`making::make::make`", "`making::make`", "making: `make`", "`make` of making", "`make` of `making::make`", "`make` (crate making)",
             "`make` (crates/making)", "`make` in crates/making/src/make.rt", "`Made` and `Calls.twice` (crates/format/specs/Calls.antt)",
             "`Made.number` in crates/format/specs", "`pick` (Tools)", "(format: Tools, Calls)", "the law `made-once`", "`Calls.made-once`",
             "| Where | Files |\n|---|---|\n| format | specs/Calls, Tools; src/lib.rt |", "| File of format/specs | Says |\n|---|---|\n| Calls, Tools | - |",
             "`ra_word`", "`made_up`", "`made-once`", "`Answer`", "`List<u8>`", "`first` and `--some-option`", "`std::fs::read`"]
    WRONG = ["crates/format/specs/Callers.antt", "`host/reader`", "`TRUTH.md`", "format/specs/Callers", "`making/made_up`", "`making::make::makes`",
             "`making::inner::make`", "`shop::make`", "making: `makes`", "format: `Calls.made-once`", "`make` of format", "`hidden` of `making::make`",
             "`make` (crate wire)", "`make` (crates/wire)", "`hidden` in crates/making/src/make.rt", "`made-once` in crates/format/specs",
             "`Made` and `pick` (crates/format/specs/Calls.antt)", "`pick` (Calls)", "(format: Tools, Callers)", "the laws `made-once` and `made-twice`",
             "`Calls.pick`", "| Where | Files |\n|---|---|\n| format | specs/Calls, Tooling |", "| File of format/specs | Says |\n|---|---|\n| Callers | - |",
             "`ra_words`", "`madeUp`", "`made-up`", "`Reply`"]

    def test_right(self):
        for text in self.RIGHT:
            with self.subTest(text):
                self.told(forms.problems(page(text), "docs/DEMAND3.md"))

    def test_wrong(self):
        for text in self.WRONG:
            with self.subTest(text):
                self.assertTrue(forms.problems(page(text), "docs/DEMAND3.md"))

    def test_line_and_fences(self):
        self.told(forms.problems(page("a\n\n`make` of\nformat\n"), "docs/DEMAND3.md"), "docs/DEMAND3.md:3: make is no function of format")
        self.told(forms.problems(page("```\ncrates/nothing\n```\n"), "docs/DEMAND3.md"))


if __name__ == "__main__":
    unittest.main()
