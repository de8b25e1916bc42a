"""docs/FORMAT.md: its text, its sample picture, and the reader at its end as a module."""
import importlib.util
import pathlib
import re

from counting import expect

ROOT = pathlib.Path(__file__).resolve().parent.parent.parent
SAMPLE = [0, 0, 7, 9, 0, 5, 0, 0, 0, 0, 300, 0]
STORED = [7, 9, 5, 300]
SETTINGS = [(1, 0, 0), (2, 0, 0), (3, 1, 2), (4, 1, 0), (5, 0, 2), (6, 1, 2)]  # kind, width, step of m1 to m6
TOP = 2 ** 32 - 1


class Page:
    """The page, with its reader written into a folder and loaded from there."""

    def __init__(self, folder):
        self.text = (ROOT / "docs" / "FORMAT.md").read_text(encoding="utf-8")
        self.samples = [(ROOT / "samples" / ("m%d.radar" % k)).read_bytes() for k in range(1, 7)]
        blocks = re.findall(r"^```python\n(.*?)^```$", self.text, re.M | re.S)
        expect(len(blocks) == 1, "the page has", len(blocks), "blocks of Python")
        self.reader = blocks[-1]
        self.reader_file = str(pathlib.Path(folder) / "reader.py")
        pathlib.Path(self.reader_file).write_text(self.reader, encoding="utf-8")
        spec = importlib.util.spec_from_file_location("format_page_reader", self.reader_file)
        reader = importlib.util.module_from_spec(spec)
        spec.loader.exec_module(reader)
        self.check, self.open = reader.check, reader.File

    def words(self, data):
        """The words of all cells of an accepted file."""
        return self.open(data).expand()

    def number(self, data):
        """check(data), or the text of what it raised."""
        try:
            return self.check(data)
        except Exception as error:
            return "%s: %s" % (type(error).__name__, error)


def listed(page, cases):
    """Counts cases (what, bytes, number)."""
    for what, data, number in cases:
        got = page.number(data)
        expect(got == number, what, "gives", got, "not", number)
