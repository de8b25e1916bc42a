"""Pictures by chance, as files of the plain layout."""
import random

from counting import Together
from layout import file_of
from page import TOP


def random_pictures(page):
    """pictures by chance, in 1 to 4 dimensions"""
    chance = random.Random(11)
    for _ in range(100):
        dims = chance.randrange(1, 5)
        sizes = [chance.randrange(1, {1: 3000, 2: 50, 3: 14, 4: 8}[dims]) for _ in range(dims)] + [1] * (4 - dims)
        cells = sizes[0] * sizes[1] * sizes[2] * sizes[3]
        empty, density, stay = chance.choice((0, 1, 300, TOP)), chance.choice((0.0, 0.003, 0.1, 0.5, 1.0)), chance.random()
        words, stored = [], False
        for _ in range(cells):
            if chance.random() > stay:
                stored = chance.random() < density
            words.append(chance.choice((0, 1, 2, 300, 65536, TOP)) if stored else empty)
        with Together(sizes, "E", empty) as each:
            for setting in ((1, 0, 0), (2, 0, 0), (3, 2, chance.randrange(1, 256)), (3, 1, chance.randrange(1, 6)), (4, 1, 0),
                            (4, 2, 0), (5, 0, chance.randrange(2, 65)), (5, 0, chance.randrange(2, 5)),
                            (6, 1, chance.randrange(1, 4)), (6, 2, chance.randrange(1, 256))):
                data = file_of(words, setting, dims, sizes, empty)
                if data is not None:
                    each(page.number(data) == 0 and page.words(data) == words, setting)
