"""Cells, ranks, positions, coordinates and the stored cells of pictures in all kinds, beside numpy."""
import sys
import unittest

import numpy as np
from support import SAMPLE, SETTINGS, SHAPES, keywords, picture_by_chance

from radar_archive import Beyond, Kind, make


def archives(seed):
    """Pictures by chance in every shape and setting, with their words."""
    random = np.random.default_rng(seed)
    for shape in SHAPES:
        for setting in SETTINGS:
            words, empty = picture_by_chance(random, shape)
            yield make(words, **keywords(setting), empty=empty), words


def coordinates(position, shape):
    """The coordinates of a position, by numpy."""
    return tuple(map(int, np.unravel_index(position, shape)))


class Lookups(unittest.TestCase):
    def test_by_position_and_coordinates(self):
        for archive, words in archives(1):
            through = np.cumsum(words.reshape(-1) != archive.empty)
            for position, word in enumerate(words.reshape(-1).tolist()):
                at = coordinates(position, words.shape)
                before = int(through[position]) - (word != archive.empty)
                rank = None if word == archive.empty else before
                self.assertEqual((archive.cell(position), archive.cell(at), archive.rank(position), archive.rank(at)), (word, word, rank, rank))
                self.assertEqual((archive.before(position), archive.before(at)), (before, before))
                self.assertEqual(archive.coordinates(position), at)
                if rank is not None:
                    self.assertEqual(archive.position(rank), position)

    def test_before_in_the_sample(self):
        for setting in SETTINGS:
            archive = make(SAMPLE, **keywords(setting))
            self.assertEqual([archive.before(at) for at in range(12)], [0, 0, 0, 1, 2, 2, 3, 3, 3, 3, 3, 4])
            self.assertEqual((archive.count(2, 6), archive.count(6, 9), archive.count(11, 11), archive.count(0, 11)), (3, 0, 0, 4))

    def test_counts(self):
        random = np.random.default_rng(3)
        for archive, words in archives(4):
            for first, last in np.sort(random.integers(0, words.size, (20, 2))).tolist():
                stored = np.count_nonzero(words.reshape(-1)[first : last + 1] != archive.empty)
                places = coordinates(first, words.shape), coordinates(last, words.shape)
                self.assertEqual((archive.count(first, last), archive.count(*places), archive.count(first, places[1])), (stored,) * 3)

    def test_stored_cells(self):
        for archive, words in archives(2):
            flat = words.reshape(-1)
            positions = np.flatnonzero(flat != archive.empty)
            self.assertEqual((len(archive), archive.stored), (positions.size, positions.size))
            np.testing.assert_array_equal(archive.positions, positions)
            np.testing.assert_array_equal(archive.stored_words, flat[positions])
            self.assertEqual(list(archive), list(zip(positions.tolist(), flat[positions].tolist())))
            chunks = list(archive.chunks(5))
            self.assertTrue(all(1 <= len(places) == len(stored) <= 5 for places, stored in chunks))
            self.assertEqual([place for places, _ in chunks for place in places.tolist()], positions.tolist())
            self.assertEqual([word for _, stored in chunks for word in stored.tolist()], flat[positions].tolist())

    def test_more_than_a_chunk(self):
        words = np.arange(200_000, dtype=np.uint32)
        archive = make(words, kind="runs")
        self.assertEqual(sum(1 for position, word in archive if position == word), 199_999)

    @unittest.skipUnless(sys.byteorder == "little", "the highest byte is first here")
    def test_no_copies(self):
        for setting in SETTINGS:
            archive = make(SAMPLE, **keywords(setting))
            file = np.frombuffer(archive.file, np.uint8)
            self.assertTrue(np.shares_memory(file, archive.stored_words))
            self.assertEqual(np.shares_memory(file, archive.positions), setting[0] == Kind.POSITIONS)
            for array in (archive.stored_words, archive.positions, next(archive.chunks())[1]):
                self.assertFalse(array.flags.writeable)

    def test_python_numbers(self):
        archive = make(SAMPLE, kind=2)
        answers = (archive.cell(10), archive.rank(10), archive.before(11), archive.count(0, 10), archive.position(3))
        for answer in (*answers, *archive.coordinates(3), *next(iter(archive))):
            self.assertIs(type(answer), int)

    def test_number_types(self):
        archive = make(SAMPLE.reshape(3, 4), kind=2)
        self.assertEqual(archive.cell(np.int64(10)), 300)
        for at in ([2, 2], (np.uint8(2), 2), np.array([2, 2]), np.array(10)):
            self.assertEqual((archive.cell(at), archive.rank(at), archive.before(at), archive.count(at, at)), (300, 3, 3, 1))
        for at in (2.0, "2", None, True, np.bool_(True), (2, 2.0), (True, 2), np.array([2.0, 2.0]), "22"):
            counts = (lambda at: archive.count(at, 11), lambda at: archive.count(0, at))
            for call in (archive.cell, archive.rank, archive.before, *counts, archive.coordinates, archive.position):
                with self.assertRaises(TypeError):
                    call(at)

    def test_beyond(self):
        archive = make(SAMPLE.reshape(3, 4), kind=2)
        places = [-1, 12, 1 << 32, (1 << 32) + 10, -(1 << 32), (3, 0), (0, 4), (-1, 0), (0, 1 << 32), (0,), (0, 0, 0), ()]
        for at in places:
            for call in (archive.cell, archive.rank, archive.before, lambda at: archive.count(at, 11), lambda at: archive.count(0, at)):
                with self.assertRaises(Beyond) as caught:
                    call(at)
                self.assertEqual(caught.exception.number, 8)
        for number in (12, -1, 1 << 32):
            for call in (archive.position, archive.coordinates):
                with self.assertRaises(IndexError):
                    call(number)
        with self.assertRaises(IndexError):
            archive.position(4)

    def test_sentences(self):
        archive, none = make(SAMPLE.reshape(3, 4), kind=2), make([0, 0], kind=2)
        for call, sentence in [
            (lambda: archive.cell(12), "position 12 is outside the picture: its positions are 0 to 11"),
            (lambda: archive.rank((1, 4)), "(1, 4) is outside the picture 3x4: coordinate 1 is 0 to 3"),
            (lambda: archive.cell((1,)), "(1) has 1 coordinates; the picture 3x4 has 2 dimensions"),
            (lambda: archive.position(4), "rank 4 is outside: the ranks of the 4 stored cells are 0 to 3"),
            (lambda: none.position(0), "rank 0 is outside: the picture has no stored cells"),
            (lambda: archive.before((3, 0)), "(3, 0) is outside the picture 3x4: coordinate 0 is 0 to 2"),
            (lambda: archive.count(12, 3), "position 12 is outside the picture: its positions are 0 to 11"),
            (lambda: archive.count(3, -1), "position -1 is outside the picture: its positions are 0 to 11"),
            (lambda: archive.count(5, 4), "position 5 comes after position 4 in row order; exchange them"),
            (lambda: archive.count((1, 0), (0, 3)), "(1, 0) comes after (0, 3) in row order; exchange them"),
            (lambda: archive.count(np.array([2, 2]), np.array(9)), "(2, 2) comes after position 9 in row order; exchange them"),
        ]:
            with self.assertRaises(Beyond) as caught:
                call()
            self.assertEqual(caught.exception.sentence, sentence)

    def test_chunk_size(self):
        for size in (0, -1):
            with self.assertRaises(ValueError):
                make(SAMPLE, kind=2).chunks(size)

    def test_nothing_stored(self):
        archive = make([0, 0, 0], kind=1)
        self.assertEqual((list(archive), list(archive.chunks()), len(archive), bool(archive)), ([], [], 0, True))
        self.assertEqual((archive.positions.size, archive.stored_words.size), (0, 0))
        self.assertEqual((archive.rank(2), archive.before(2), archive.count(0, 2)), (None, 0, 0))
