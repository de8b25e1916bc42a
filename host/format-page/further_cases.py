"""The cases that the page names for a test, and the time that the reader takes."""
import random

from counting import expect
from layout import file_of, raw
from page import SETTINGS


def named_cases(page):
    """the further cases of the page"""
    for setting in SETTINGS:
        data = file_of([0] * 12, setting)
        expect(len(data) == 52 and page.number(data) == 0 and page.words(data) == [0] * 12, setting, "all empty")
    data = file_of(list(range(1, 13)), SETTINGS[0])
    expect(data[28:36] == bytes([1] + [0] * 7) and data[52:60] == bytes([11] + [0] * 7), "all stored")
    two = [0] * 300
    two[2] = two[258] = 7
    expect(file_of(two, (3, 1, 2)) is None, "an offset of 256 in one byte")
    expect(page.words(file_of(two, (3, 1, 1))) == two and page.words(file_of(two, (3, 2, 2))) == two, "with step 1 or width 2")
    pointed = [file_of(two, (6, 1, n)) for n in (1, 2)]
    expect([data[62:-8] for data in pointed] == [bytes([0] * 4 + [1] + [0] * 3), bytes(4)], "two jumps: pointers")
    expect(all(page.words(data) == two for data in pointed), "two jumps: words")
    some = [9 if p in (1, 3, 300, 600, 601, 900, 1200) else 0 for p in range(1300)]
    for n, ranks in ((1, [0, 2, 3, 5, 6]), (2, [0, 3, 6]), (3, [0, 5]), (5, [0]), (255, [0])):
        made = raw((6, 1, n), 5, 7, [1, 300, 600, 900, 1200], [0, 2, 0, 0, 1, 0, 0], [9] * 7, 1, (1300, 1, 1, 1), pointers=ranks)
        expect(made == file_of(some, (6, 1, n)) and page.number(made) == 0 and page.words(made) == some, "the page's jumps, step", n)
    whole = raw((3, 2, 1), 0, 0, [], [], [], 1, (16777216, 1, 1, 1))
    expect(page.number(whole) == 0 and len(page.words(whole)) == 16777216, "16,777,216 cells")
    h = 2 ** 24
    expect(52 + h * 4 + h * 2 + h * 4 == 167772212, "the longest file")
    try:
        page.words(page.samples[0][:51])
        expect(False, "words of a refused file")
    except ValueError:
        expect(True)


def large_pictures(page):
    """files of some 100 kB"""
    chance = random.Random(7)
    for setting, share in (((1, 0, 0), 0.01), ((2, 0, 0), 0.0125), ((3, 2, 100), 0.016), ((4, 1, 0), 0.019), ((5, 0, 2), 0.005), ((6, 1, 2), 0.018)):
        words = [9 if chance.random() < share else 0 for _ in range(1000000)]
        data = file_of(words, setting)
        expect(80000 < len(data) < 150000, setting, len(data), "bytes")
        expect(page.check(data) == 0, setting)
