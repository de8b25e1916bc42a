"""The page's hexadecimal, the form of its reader, and the sample files in the reader."""
import ast
import re
import sys

from counting import expect
from layout import file_of
from page import SAMPLE, SETTINGS, STORED


def hexadecimal(page):
    """the page's hexadecimal is the samples"""
    blocks = dict(re.findall(r"^```text\n(m\d)\.radar\n(.*?)^```", page.text, re.M | re.S))
    expect(sorted(blocks) == ["m1", "m2", "m3", "m4", "m5", "m6"], "blocks", sorted(blocks))
    for k, data in enumerate(page.samples, 1):
        made = b""
        for line in blocks.get("m%d" % k, "").splitlines():
            at, digits = re.match(r" *(\d+)  ([0-9a-f]{2}(?: [0-9a-f]{2})*) {2,}\S", line).groups()
            expect(int(at) == len(made), "m%d: offset" % k, at)
            made += bytes.fromhex(digits)
        expect(made == data, "m%d: bytes" % k)


def reader_form(page):
    """the reader has about 160 lines of plain Python, standard library only"""
    lines = page.reader.splitlines()
    expect(len(lines) <= 170, "lines:", len(lines))
    expect(max(map(len, lines)) <= 100, "longest line:", max(map(len, lines)))
    nodes = list(ast.walk(ast.parse(page.reader)))
    imported = {alias.name for node in nodes if isinstance(node, ast.Import) for alias in node.names}
    imported |= {node.module for node in nodes if isinstance(node, ast.ImportFrom)}
    expect(imported <= set(sys.stdlib_module_names), "imports", sorted(imported))


def sample_files(page):
    """the samples are accepted, with their words"""
    for k, data in enumerate(page.samples, 1):
        expect(page.number(data) == 0, "m%d" % k)
        expect(page.words(data) == SAMPLE, "m%d: words" % k)
        file = page.open(data)
        expect(file.positions == [2, 3, 5, 10] and file.words == STORED, "m%d: positions and stored words" % k)
        expect([file.before(p) for p in range(12)] == [0, 0, 0, 1, 2, 2, 3, 3, 3, 3, 3, 4], "m%d: stored cells before" % k)
        expect(file_of(SAMPLE, SETTINGS[k - 1]) == data, "m%d: made again" % k)
