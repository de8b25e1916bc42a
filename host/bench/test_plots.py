"""The plots: well-formed, inside their frame, and each mark in its place."""
import re
import unittest
from pathlib import Path
from xml.etree import ElementTree

import growth_plot
import ratio_plot
import size_plot
from results import read_run
from svg import Axis, around, shape

RUN = read_run(Path(__file__).parent / "sample")
NAME = "{http://www.w3.org/2000/svg}"


def points(path):
    """The points of a polyline or of a path up to its first arc."""
    return [tuple(map(float, pair.split(","))) for pair in re.findall(r"-?[\d.]+,-?[\d.]+", path.split(" a")[0])]


def marks(root, word):
    """The points of the marks whose tip has a word, by tip."""
    tips = [(path, path.find(NAME + "title")) for path in root.iter(NAME + "path")]
    return {tip.text: points(path.get("d")) for path, tip in tips if tip is not None and word in tip.text}


class Axes(unittest.TestCase):
    def test_places(self):
        axis = Axis(1, 100, 0, 200)
        self.assertEqual([round(axis(value), 9) for value in (1, 10, 100)], [0, 100, 200])
        self.assertEqual(axis.powers(10), [1, 10, 100])
        self.assertEqual(Axis(0.2, 5, 0, 1).powers(2), [0.25, 0.5, 1, 2, 4])
        self.assertEqual(round(Axis(1, 100, 50, 0)(10), 9), 25)

    def test_around(self):
        self.assertEqual(around([0.3, 7], 10), (0.1, 10))
        self.assertEqual(around([1, 10], 10), (1, 10))
        self.assertEqual(around([2, 2], 2), (2, 4))

    def test_shapes_differ(self):
        names = ["square", "up", "down", "diamond", "circle"]
        self.assertEqual(len({shape(name, 10, 10, 4) for name in names}), len(names))


class Plots(unittest.TestCase):
    PLOTS = [ratio_plot, growth_plot, size_plot]

    def test_files(self):
        for module in self.PLOTS:
            text = module.plot(RUN)
            root = ElementTree.fromstring(text)
            self.assertEqual(root.tag, NAME + "svg")
            self.assertIsNone(root.find(f".//{NAME}script"))
            ground = root.find(NAME + "rect")
            self.assertEqual((ground.get("fill"), ground.get("width"), ground.get("height")), ("#ffffff", root.get("width"), root.get("height")))

    def test_inside(self):
        for module in self.PLOTS:
            root = ElementTree.fromstring(module.plot(RUN))
            width, height = float(root.get("width")), float(root.get("height"))
            for element in root.iter():
                for name in ("x", "x1", "x2", "y", "y1", "y2"):
                    if element.get(name):
                        self.assertTrue(0 <= float(element.get(name)) <= (width if name[0] == "x" else height), ElementTree.tostring(element))
                for x, y in points(element.get("points") or element.get("d") or ""):
                    self.assertTrue(0 <= x <= width and 0 <= y <= height, ElementTree.tostring(element))

    def test_ratios(self):
        root = ElementTree.fromstring(ratio_plot.plot(RUN))
        found = marks(root, "sea, kind 1")
        self.assertEqual(len(marks(root, ", kind ")), len(RUN.bench.lines))
        place = {call: found[f"sea, kind 1, {call}: {ratio}"][0][0] for call, ratio in
                 [("check", "2.48"), ("change to 4 w2", "1.74"), ("opened rank", "2.98"), ("box 64x64", "7.36")]}
        self.assertEqual(sorted(place, key=place.get), ["change to 4 w2", "check", "opened rank", "box 64x64"])
        said = [text.text for text in root.iter(NAME + "text")]
        self.assertTrue({"7.4", "5.2"} <= set(said))
        self.assertNotIn("3.0", said)

    def test_panels(self):
        root = ElementTree.fromstring(ratio_plot.plot(RUN))
        lines = [line for line in root.iter(NAME + "line") if line.get("y1") == line.get("y2")]
        panels = sorted({(float(line.get("x1")), float(line.get("x2"))) for line in lines})
        self.assertEqual(len(panels), 2)
        for texture, (start, end) in zip(["sea", "harbour"], panels):
            for place in marks(root, texture + ", ").values():
                self.assertTrue(all(start <= x <= end for x, _ in place), place)

    def test_line_at_one(self):
        lines = [line._replace(ratio=1.0) for line in RUN.bench.lines]
        root = ElementTree.fromstring(ratio_plot.plot(RUN._replace(bench=RUN.bench._replace(lines=lines))))
        ones = {line.get("x1") for line in root.iter(NAME + "line") if line.get("stroke-width") == "1.5"}
        radius = 3.6
        circles = {f"{place[0][0] + radius:.1f}".removesuffix(".0") for place in marks(root, ", kind 1,").values()}
        self.assertEqual(circles, ones)

    def test_growth(self):
        root = ElementTree.fromstring(growth_plot.plot(RUN))
        self.assertEqual(len(marks(root, " cells: ")), 3 * len(RUN.bench.growth))
        engine = marks(root, "kind 1, make, engine")
        heights = [engine[f"kind 1, make, engine, {cells} cells: {time} ms"][0][1]
                   for cells, time in [("1M", "3.398"), ("4M", "15.146"), ("16M", "59.852")]]
        self.assertEqual(heights, sorted(heights, reverse=True))

    def test_sizes(self):
        root = ElementTree.fromstring(size_plot.plot(RUN))
        found = marks(root, "harbour, ")
        self.assertEqual(len(found), 8)
        self.assertGreater(found["harbour, raw words: 67,108,864 bytes"][0][0], found["harbour, kind 1: 52,718,212 bytes"][0][0])

    def test_short_numbers(self):
        self.assertEqual([size_plot.short(n) for n in (999, 1000, 99949, 99950, 783212, 1433044, 10693076, 67108864, 167108864)],
                         ["999 B", "1.00 kB", "99.9 kB", "100 kB", "783 kB", "1.43 MB", "10.7 MB", "67.1 MB", "167 MB"])


if __name__ == "__main__":
    unittest.main()
