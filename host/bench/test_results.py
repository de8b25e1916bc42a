"""The reading of a run's raw output. sample/ is the output of a run with most lines left out and the totals made anew."""
import unittest
from pathlib import Path

from results import Peer, Picture, Unfit, geometric_mean, read_bench, read_peers, read_run, read_sizes

SAMPLE = Path(__file__).parent / "sample"
BENCH = (SAMPLE / "bench.txt").read_text()
SIZES = (SAMPLE / "sizes.txt").read_text()
PEERS = (SAMPLE / "peers.txt").read_text()


class Reading(unittest.TestCase):
    def test_lines(self):
        lines = read_bench(BENCH).lines
        self.assertEqual(len(lines), 16)
        self.assertEqual(lines[1], ("sea", "1", "change to 4 w2", 0.433, 0.752, "ms", 1.74))
        self.assertEqual(lines[6], ("sea", "3 w2 l16", "opened rank", 61.781, 143.707, "ns", 2.33))

    def test_growth(self):
        growth = read_bench(BENCH).growth
        self.assertEqual([line.who for line in growth[:6]], ["peer", "engine", "memory"] * 2)
        self.assertEqual(growth[-2], ("3 w2 l16", "make", "engine", (3.286, 14.199, 57.904), (4.32, 4.08)))

    def test_totals(self):
        bench = read_bench(BENCH)
        self.assertEqual(bench.pictures, {"sea": Picture(16777216, 179124), "harbour": Picture(16777216, 8386218)})
        self.assertEqual(bench.mean, 2.244)
        self.assertEqual(bench.means["kind"], {"1": 2.20, "3 w2 l16": 2.29})
        self.assertEqual(bench.means["call"]["change to 4 w2"], 2.00)
        self.assertEqual(bench.steepest, (8.08, 6.47, 1.40, 1.23))

    def test_run(self):
        run = read_run(SAMPLE)
        self.assertEqual(run.sizes["sea"]["kind 3 w2 l16"], 1119580)
        self.assertEqual(run.conditions["processor"], "a processor, 2 cores")

    def test_geometric_mean(self):
        self.assertAlmostEqual(geometric_mean([1, 4, 16]), 4)
        self.assertAlmostEqual(geometric_mean([0.5, 2]), 1)


class Refusing(unittest.TestCase):
    def refused(self, words, text):
        with self.assertRaisesRegex(Unfit, words):
            read_bench(text)

    def without(self, start):
        """The sample without the lines that begin with some words; there has to be one."""
        kept = [row for row in BENCH.splitlines() if not row.startswith(start)]
        self.assertLess(len(kept), len(BENCH.splitlines()))
        return "\n".join(kept)

    def test_mismatches(self):
        self.refused("differ: 2", BENCH.replace(" 0 mismatches", " 2 mismatches"))
        self.refused("differ", "MISMATCH sea kind 1 make\n" + BENCH)

    def test_cut_short(self):
        self.refused("did not end", BENCH[:BENCH.index("16 lines")])
        self.refused("did not end", self.without("geometric mean of"))
        self.refused("did not end", self.without("steepest"))
        self.refused("did not end", self.without("geometric means by kind"))

    def test_line_lost(self):
        self.refused("read 15 lines of 16", self.without("sea      1        check "))

    def test_growth_lost(self):
        self.refused("each kind and call once for each who", self.without("1        make   copy"))
        self.refused("0 lines of growth", "\n".join(row for row in BENCH.splitlines() if not row.startswith(("1  ", "3 w2 "))))

    def test_line_twice(self):
        row = next(row for row in BENCH.splitlines() if row.startswith("sea      1        check "))
        self.refused("each kind and call once for each texture", BENCH.replace(row, row + "\n" + row).replace("16 lines", "17 lines"))

    def test_other_picture(self):
        self.refused("other pictures", self.without("harbour: "))

    def test_other_mean(self):
        self.refused("is not the bench's", BENCH.replace("engine/peer 2.244", "engine/peer 2.344"))

    def test_sizes_of_another_picture(self):
        pictures = read_bench(BENCH).pictures
        for changed in [SIZES.replace("sea\tstored\t179124", "sea\tstored\t179125"), SIZES.replace("harbour\tcells", "harbour\tCells"),
                        "".join(row + "\n" for row in SIZES.splitlines() if not row.startswith("sea"))]:
            with self.assertRaisesRegex(Unfit, "not of the picture that was timed"):
                read_sizes(changed, pictures)

    def test_fields(self):
        with self.assertRaisesRegex(Unfit, "3 fields"):
            read_sizes(SIZES + "sea zstd\n", read_bench(BENCH).pictures)
        with self.assertRaisesRegex(Unfit, "3 fields"):
            read_sizes("", {})


class Peers(unittest.TestCase):
    def test_read(self):
        self.assertEqual(read_run(SAMPLE).peers[1], Peer("sea", "Roaring", 411.2, 812.0, 35948))

    def test_each_on_each_picture(self):
        pictures = read_bench(BENCH).pictures
        rows = PEERS.splitlines(keepends=True)
        for text in ["".join(rows[:3]), "".join(rows[:2]), PEERS.replace("harbour", "coast"), PEERS.replace("\t35948", "")]:
            with self.assertRaises(Unfit):
                read_peers(text, pictures)


if __name__ == "__main__":
    unittest.main()
