"""Small pictures: all patterns of stored cells, and all small numbers in the parts."""
import itertools
import random

from counting import Together
from layout import file_of, raw
from page import SETTINGS


def small_bodies(page):
    """5 cells: of all small numbers in the parts, exactly the pictures' files are accepted"""
    chance = random.Random(5)
    some = [(1, 0, 0), (2, 0, 0), (3, 1, 1), (3, 1, 2), (3, 2, 3), (4, 1, 0), (4, 2, 0), (5, 0, 2), (5, 0, 3),
            (6, 1, 1), (6, 2, 2)]
    for setting in some:
        kind, _, step = setting
        accepted = set()
        for mask in range(32):
            words, rank = [0] * 5, 0
            for p in range(5):
                if mask >> p & 1:
                    rank += 1
                    words[p] = rank
            accepted.add(file_of(words, setting))
        for n, free in itertools.product(range(6), range(6)):
            if free > (n if kind in (1, 4, 5, 6) else 0):
                continue
            above, size = 0, free
            while kind == 5 and size > step:
                size = -(-size // step)
                above += size
            c1 = {1: free, 2: n, 3: n and -(-n // max(step, 1)), 4: free, 5: above, 6: free}[kind]
            c2 = {1: 0, 2: 0, 3: n, 4: n, 5: free, 6: n}[kind]
            pointers = -(-free // step) if kind == 6 else 0
            per_entry = 2 if kind in (1, 5) else 1
            length1, length2 = per_entry * c1, per_entry * (c1 + c2)
            length = length2 + pointers
            if 6 ** length <= 1300:
                parts = itertools.product(range(6), repeat=length)
            else:
                parts = (tuple(chance.randrange(6) for _ in range(length)) for _ in range(200))
            with Together(setting, "N", n, "counts", c1, c2) as each:
                for part in parts:
                    data = raw(setting, c1, c2, part[:length1], part[length1:length2], range(1, n + 1), 1, (5, 1, 1, 1),
                               pointers=part[length2:])
                    got = page.number(data)
                    each(got == (0 if data in accepted else 6), part, "gives", got)
        with Together(setting) as each:
            for data in accepted:
                each(page.number(data) == 0, data.hex())


def all_patterns(page):
    """all patterns of 10 cells in six settings, and of 6 cells in all settings that differ"""
    wide = [(k, 0, 0) for k in (1, 2)] + [(3, w, s) for w in (1, 2) for s in range(1, 8)]
    wide += [(4, 1, 0), (4, 2, 0), (3, 1, 255), (5, 0, 64)] + [(5, 0, b) for b in range(2, 9)]
    wide += [(6, w, n) for w in (1, 2) for n in (1, 2, 255)]
    for cells, settings in ((10, SETTINGS), (6, wide)):
        for setting in settings:
            with Together(setting) as each:
                for mask in range(2 ** cells):
                    words = [p + 1 if mask >> p & 1 else 0 for p in range(cells)]
                    data = file_of(words, setting)
                    each(page.number(data) == 0 and page.words(data) == words, words)
                    file = page.open(data)
                    before = [sum(word > 0 for word in words[:p]) for p in range(cells)]
                    each([file.before(p) for p in range(cells)] == before, words, "stored cells before")
