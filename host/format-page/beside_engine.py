"""The page's reader beside the engine: on files that the engine makes of pictures by chance, and on damaged ones."""
import collections
import math
import random
import tempfile

from counting import Together, expect
from damage import damaged
from engine import Engine
from layout import file_of
from page import TOP

seed = 20020401
PICTURES = 300
DAMAGED = 4  # files damaged of each one made
MOST_EXPANDED = 2 ** 20  # a damaged extent can give pictures that take long to expand; of those the number alone is compared


def settings_by_chance(chance):
    """Settings of all kinds and widths, with low steps and any steps."""
    return [(1, 0, 0), (2, 0, 0), (4, 1, 0), (4, 2, 0),
            (3, 1, chance.choice((1, 2, 3, 255))), (3, 2, chance.randrange(1, 256)),
            (5, 0, chance.randrange(2, 5)), (5, 0, chance.choice((64, chance.randrange(2, 65)))),
            (6, 1, chance.choice((1, 2, 3, 255))), (6, 2, chance.randrange(1, 256))]


def picture_by_chance(chance):
    """Dimension count, four extents, E and the words: some stretches of stored cells, or stored cells throughout."""
    dims = chance.randrange(1, 5)
    most = chance.choice((20, 20, 300, 300, 3000, 200000))
    longest = round(most ** (1 / dims))
    extents = [chance.choice((1, longest, chance.randint(1, longest))) for _ in range(dims)] + [1] * (4 - dims)
    cells = math.prod(extents)
    empty = chance.choice((0, 0, 1, 300, TOP, chance.randrange(TOP)))
    words = [empty] * cells
    stretch = chance.choice((1, 3, 10))
    few = cells > 65536  # so that differences of positions exceed two bytes
    starts = chance.choices(range(cells), k=chance.choice((2, 3) if few else (0, 1, 3, 20, 60)))
    if cells <= 300 and chance.random() < 0.1:
        starts = range(cells)
    for start in starts:
        for position in range(start, min(start + chance.randint(1, stretch), cells)):
            words[position] = chance.choice((0, 1, 2, 300, 65536, TOP, chance.randrange(TOP)))  # E among them leaves a cell empty
    return dims, extents, empty, words


class Comparison:
    """The two sides, and how many files got which number."""

    def __init__(self, page, engine):
        self.page, self.engine = page, engine
        self.numbers, self.made, self.not_expanded = collections.Counter(), 0, 0

    def agree(self, data):
        """Whether both give these bytes the same number and, where they are accepted, the same words and lookups."""
        number = self.engine.check(data)
        self.numbers[number] += 1
        if self.page.number(data) != number:
            return False
        if number != 0:
            return True
        cells = math.prod(int.from_bytes(data[at:at + 4], "little") for at in (4, 8, 12, 16))
        if cells > MOST_EXPANDED:
            self.not_expanded += 1
            return True
        return self.page.words(data) == self.engine.expand(data, cells) and self.lookups_agree(data)

    def lookups_agree(self, data):
        """Whether the page's lookups give what the engine's give, at some ranks and positions."""
        file, lookup = self.page.open(data), self.engine.lookup
        words = file.expand()
        ranks = {0, file.N // 2, file.N - 1} if file.N > 0 else ()
        if any(lookup("position", data, rank) != file.positions[rank] for rank in ranks):
            return False
        for position in {file.positions[rank] for rank in ranks} | {0, file.cells // 2, file.cells - 1}:
            before = file.before(position)
            found = before if position in file.positions else ("empty", before)
            if lookup("rank", data, position) != found or lookup("cell", data, position) != words[position]:
                return False
        return True

    def picture(self, chance, each):
        """The files of one picture, made and damaged."""
        dims, extents, empty, words = picture_by_chance(chance)
        for setting in settings_by_chance(chance):
            data = self.engine.make(words, setting, dims, extents, empty)
            each(data == file_of(words, setting, dims, extents, empty), setting, extents, "made otherwise than by the layout")
            if data is None:
                continue
            self.made += 1
            each(self.agree(data) and self.engine.expand(data, len(words)) == words, setting, data[:400].hex())
            for _ in range(DAMAGED):
                changed = damaged(chance, data)
                each(self.agree(changed), "damaged", changed[:400].hex())


def files(page):
    """reader and engine on files by chance, made and damaged"""
    print("seed %d" % seed)
    chance = random.Random(seed)
    with tempfile.TemporaryDirectory() as folder:
        comparison = Comparison(page, Engine(folder))
        for index in range(PICTURES):
            with Together("picture", index, "of seed", seed) as each:
                comparison.picture(chance, each)
    numbers = comparison.numbers
    print("%d pictures, %d files made of them, %d damaged" % (PICTURES, comparison.made, DAMAGED * comparison.made))
    print("files by number:", ", ".join("%d: %d" % pair for pair in sorted(numbers.items())))
    print("accepted files of more than %d cells, words not compared: %d" % (MOST_EXPANDED, comparison.not_expanded))
    for number in range(7):
        expect(numbers[number] > 0, "no file got number", number)
