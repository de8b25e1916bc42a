"""Square brackets beside those of numpy."""
import itertools
import unittest

import numpy as np
from support import SETTINGS, SHAPES, keywords, needs, picture_by_chance

from radar_archive import Refused, make

BOUNDS = [None, 0, 1, 2, 5, 300, -1, -2, -5, -300]
STEPS = [None, 1, 2, 3, 7, -1, -2, 400]


def index_by_chance(random, extent):
    """An integer that may lie outside, or a slice."""
    if random.random() < 0.4:
        return int(random.integers(-extent - 1, extent + 1))
    return slice(random.choice(BOUNDS), random.choice(BOUNDS), random.choice(STEPS))


def key_by_chance(random, shape):
    """Some indices, perhaps with an Ellipsis among them, perhaps one too many."""
    count = int(random.integers(0, len(shape) + 2))
    key = [index_by_chance(random, extent) for extent in (*shape, 3)[:count]]
    if random.random() < 0.4:
        key.insert(int(random.integers(0, len(key) + 1)), Ellipsis)
    return key[0] if len(key) == 1 and random.random() < 0.5 else tuple(key)


class Indexing(unittest.TestCase):
    def check(self, archive, words, key):
        """The same value, type and shape as numpy, or an IndexError where numpy has one."""
        try:
            expected = words[key]
        except IndexError:
            with self.assertRaises(IndexError, msg=key):
                archive[key]
            return False
        result = archive[key]
        self.assertIs(type(result), type(expected), key)
        self.assertEqual((result.dtype, result.shape), (np.uint32, expected.shape), key)
        np.testing.assert_array_equal(result, expected)
        return True

    def test_keys_by_chance(self):
        random, given = np.random.default_rng(3), 0
        for shape, setting in itertools.product(SHAPES, SETTINGS):
            words, empty = picture_by_chance(random, shape)
            archive = make(words, **keywords(setting), empty=empty)
            given += sum(self.check(archive, words, key_by_chance(random, shape)) for _ in range(40))
        self.assertGreater(given, 1500)

    def test_every_slice_of_one_dimension(self):
        words = np.arange(5, dtype=np.uint32)
        archive = make(words, kind="runs")
        for bounds in itertools.product([None, *range(-7, 8)], [None, *range(-7, 8)], [None, 1, 2, 3, -1, -3]):
            self.assertTrue(self.check(archive, words, slice(*bounds)))

    def test_plain_keys(self):
        words = np.arange(60, dtype=np.uint32).reshape(3, 4, 5)
        archive = make(words, kind="positions")
        for key in [(), ..., 1, -1, (1, 2, 3), (1, 2, 3, ...), (..., 3), (1, slice(1, 3), slice(None)), (slice(0, 0), 1), np.int8(2), np.array(1)]:
            self.assertTrue(self.check(archive, words, key))
        for key in [3, -4, (0, 0, 5), (0, 0, 0, 0), (..., ...), (slice(0, 0), 4)]:
            self.assertFalse(self.check(archive, words, key))

    def test_result_is_new(self):
        archive = make([1, 2, 3], kind=2)
        archive[:][0] = 9
        self.assertEqual(archive[:].tolist(), [1, 2, 3])
        self.assertTrue(make(np.ones((4, 4), int), kind=2)[::2, ::3].flags.c_contiguous)

    def test_not_supported(self):
        archive = make(np.arange(12).reshape(3, 4), kind=2)
        for key in (None, (0, None), [0, 1], ([0, 1], 0), True, np.bool_(True), np.array([0, 1]), np.array([1]), np.array(True),
                    np.zeros((3, 4), bool), 1.0, "a", np.float64(1), (0, "a")):
            with self.assertRaisesRegex(TypeError, "integers, slices and Ellipsis"):
                archive[key]
        for key in (slice(0.5, 2), slice("a")):
            with self.assertRaises(TypeError):
                archive[key]
        with self.assertRaises(ValueError):
            archive[::0]
        with self.assertRaises(TypeError):
            archive[0] = 1

    def test_sentences(self):
        archive = make(np.arange(12).reshape(3, 4), kind=2)
        for key, sentence in [
            ((0, 4), "index 4 is out of bounds for axis 1 with size 4"),
            ((0, 0, 0), "too many indices: the picture has 2 dimensions, but 3 were indexed"),
        ]:
            with self.assertRaises(Refused) as caught:
                archive[key]
            self.assertEqual((caught.exception.number, caught.exception.sentence), (8, sentence))

    @needs("dask")
    def test_dask_array(self):
        import dask.array

        words = np.arange(600, dtype=np.uint32).reshape(10, 60)
        lazy = dask.array.from_array(make(words, kind="runs"), chunks=(3, 25))
        self.assertEqual((lazy.shape, lazy.dtype), ((10, 60), np.uint32))
        np.testing.assert_array_equal(lazy[2:9, ::7].compute(), words[2:9, ::7])
