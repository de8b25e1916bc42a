"""The documents name what the tree has: files, crates, functions, definitions, laws and must-fail edits, each where it is said to be."""
import unittest

import folders
import forms
import trace_rows
import trust_tables
from tree import Tree

TREE = Tree()
DOCUMENTS = ["README.md", "docs/ARCHITECTURE.md", "docs/DECISIONS.md", "docs/DEMAND3.md", "docs/TRACE.md", "docs/TRUST.md"]


class Documents(unittest.TestCase):
    def none(self, problems):
        if problems:
            self.fail("\n" + "\n".join(problems))

    def test_trust_lists_what_contracts_cite(self):
        self.none(trust_tables.problems(TREE))

    def test_rows_of_trace(self):
        self.none(trace_rows.problems(TREE))

    def test_names(self):
        for document in DOCUMENTS:
            with self.subTest(document):
                self.none(forms.problems(TREE, document))

    def test_folders(self):
        self.none(folders.folders(TREE))

    def test_imports_go_up_the_table(self):
        self.none(folders.imports(TREE))

    def test_check_times(self):
        self.none(folders.check_times(TREE))


if __name__ == "__main__":
    unittest.main()
