"""The groups and their means, the tables, and the parts of a document."""
import unittest
from pathlib import Path

import tables
from page import with_parts
from results import Line, Unfit, read_run
from size_rows import rows
from summary import GROUPS, group_of, holds, in_group, mean, over, worst

RUN = read_run(Path(__file__).parent / "sample")


def lines(*ratios, call="check"):
    """Lines of some ratios."""
    return [Line("sea", str(kind), call, 1.0, ratio, "ms", ratio) for kind, ratio in enumerate(ratios, 1)]


def row(text, *start):
    """The cells of the one row of a Markdown table that starts with some."""
    found = [[cell.strip() for cell in line.strip("|").split("|")] for line in text.splitlines() if line.startswith("|")]
    found = [cells for cells in found if cells[:len(start)] == list(start)]
    assert len(found) == 1, f"{len(found)} rows start with {start}"
    return found[0]


class Summary(unittest.TestCase):
    def test_groups(self):
        for call, name in [("check", "reading"), ("opened position", "reading"), ("make", "writing"), ("change to 4 w2", "writing"),
                           ("box 64x64", "box")]:
            self.assertEqual(group_of(call).name, name)
        for call in ["boxes", "opened", "expanded"]:
            with self.assertRaises(Unfit):
                group_of(call)

    def test_lines_of_a_group(self):
        self.assertEqual([len(in_group(RUN.bench.lines, group)) for group in GROUPS], [8, 4, 4])

    def test_worst(self):
        self.assertEqual([line.ratio for line in worst(lines(1.5, 3, 0.5, 2), 2)], [3, 2])

    def test_bounds(self):
        self.assertTrue(holds(lines(1, 4)))
        self.assertFalse(holds(lines(1, 4.01, 0.5)))
        self.assertFalse(holds(lines(2, 2.1)))
        self.assertEqual(over(lines(4, 4.01, 5, 1)), 2)
        self.assertAlmostEqual(mean(lines(1, 4)), 2)


class Tables(unittest.TestCase):
    def test_run(self):
        text = tables.run(RUN)
        self.assertEqual(row(text, "sea"), ["sea", "16,777,216", "179,124", "1.1 %"])
        self.assertEqual(row(text, "date"), ["date", "2024-11-15"])

    def test_peers(self):
        text = tables.peers(RUN)
        self.assertEqual(row(text, "Roaring"), ["Roaring", "411.2", "812.0", "0.20", "180.8", "1,863.7", "0.25"])
        self.assertEqual(row(text, "Store")[1:4], ["sea: rank, ns", "sea: position, ns", "sea: bytes a cell"])
        self.assertIn("--peers", tables.peers(RUN._replace(peers=[])))

    def test_ratios(self):
        text = tables.ratios(RUN)
        self.assertEqual(row(text, "Picture"), ["Picture", "Kind", "check", "change to 4 w2", "opened rank", "box 64x64"])
        self.assertEqual(row(text, "sea", "3 w2 l16")[2:], ["2.96", "2.89", "2.33", "5.21"])
        self.assertIn("(performance/ratios.svg)", text)

    def test_means(self):
        text = tables.means(RUN)
        self.assertEqual(row(text, "reading (check, opened rank)")[1:], ["8", "1.96", "2.98", "hold"])
        self.assertEqual(row(text, "writing (change to 4 w2)")[1:], ["4", "2.00", "2.89", "do not hold: mean 2.00, 0 lines over 4"])
        self.assertEqual(row(text, "box (box 64x64)")[1:], ["4", "3.31", "7.36", "none set"])
        self.assertEqual(row(text, "all")[1:], ["16", "2.24", "7.36", ""])
        self.assertEqual(row(text, "Kind"), ["Kind", "1", "3 w2 l16"])
        self.assertEqual(row(text, "mean", "2.20"), ["mean", "2.20", "2.29"])

    def test_worst_lines(self):
        text = tables.worst_lines(RUN)
        self.assertEqual(text.splitlines()[:4], ["Reading:", "", "- sea, kind 1, opened rank: 2.98 (117.511 ns against 39.498 ns)",
                                                 "- sea, kind 3 w2 l16, check: 2.96 (0.142 ms against 0.048 ms)"])
        self.assertEqual(text.count("\n- ") , 9)

    def test_growth(self):
        text = tables.growth(RUN)
        self.assertEqual(row(text, "1", "make")[2:], ["3.398", "15.146", "59.852", "4.46", "5.39", "5.68", "3.95", "4.07", "3.87"])
        self.assertIn("The steepest step: engine 6.47, yardstick 8.08.", text)
        self.assertIn("engine 1.23, yardstick 1.40.", text)

    def test_sizes(self):
        text = tables.sizes(RUN)
        self.assertEqual(row(text, "kind 3, best setting")[1:], ["1,077,608, 1.61 % (w2 l255)", "42,273,438, 62.99 % (w1 l98)"])
        self.assertEqual(row(text, "zstd -19 of the shortest file")[1:], ["225,623, 0.34 % (kind 1)", "10,108,958, 15.06 % (kind 4 w1)"])


class SizeRows(unittest.TestCase):
    def test_order(self):
        self.assertEqual([line.name for line in rows(RUN.sizes)],
                         ["raw words", "lz4 -1 of raw words", "zstd -19 of raw words", "kind 1", "kind 3 w2 l16", "kind 4 w1",
                          "kind 3, best setting", "zstd -19 of the shortest file"])

    def test_refused(self):
        sea, harbour = RUN.sizes["sea"], RUN.sizes["harbour"]
        unfit = [{"sea": {**sea, "gzip": 1}, "harbour": {**harbour, "gzip": 1}},
                 {"sea": {name: size for name, size in sea.items() if name != "zstd -19"}, "harbour": harbour},
                 {"sea": {name: size for name, size in sea.items() if name != "shortest 1"}, "harbour": harbour},
                 {"sea": {name: size for name, size in sea.items() if "of shortest" not in name}}]
        for sizes in unfit:
            with self.assertRaises(Unfit):
                rows(sizes)


class Page(unittest.TestCase):
    TEXT = "a\n<!-- figures: one -->\nold\n<!-- end of figures -->\nb\n<!-- figures: two -->\n<!-- end of figures -->\nc\n"

    def test_parts(self):
        text = with_parts(self.TEXT, {"one": "1", "two": "2\n"})
        self.assertEqual(text, "a\n<!-- figures: one -->\n\n1\n\n<!-- end of figures -->\nb\n"
                               "<!-- figures: two -->\n\n2\n\n<!-- end of figures -->\nc\n")
        self.assertEqual(with_parts(text, {"one": "1", "two": "2"}), text)

    def test_backslashes(self):
        self.assertIn("\n\\1 \\g<0>\n", with_parts(self.TEXT, {"one": "\\1 \\g<0>", "two": ""}))

    def test_refused(self):
        last = "<!-- figures: two -->\n<!-- end of figures -->\n"
        for text in ["", self.TEXT.replace(last, ""), self.TEXT + last, self.TEXT + last.replace("two", "three"),
                     self.TEXT + "<!-- figures: four -->\n", self.TEXT.replace("<!-- end of figures -->\nb", "b")]:
            with self.assertRaises(Unfit):
                with_parts(text, {"one": "1", "two": "2"})


if __name__ == "__main__":
    unittest.main()
