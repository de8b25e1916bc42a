"""Writing cells, changing the setting, the shorter and the shortest file."""
import unittest

import numpy as np
from support import SAMPLE, SETTINGS, SHAPES, keywords, picture_by_chance

from radar_archive import Beyond, Refused, best, make, shorter
from radar_archive.setting import all_settings


class Writing(unittest.TestCase):
    def test_beside_numpy(self):
        random = np.random.default_rng(5)
        for shape in SHAPES:
            for setting in SETTINGS:
                words, empty = picture_by_chance(random, shape)
                archive = make(words, **keywords(setting), empty=empty)
                for word in (empty, 41, 0xFFFFFFFF):
                    position = int(random.integers(words.size))
                    expected = words.copy()
                    expected.reshape(-1)[position] = word
                    at = archive.coordinates(position)
                    file = bytes(make(expected, **keywords(setting), empty=empty))
                    self.assertEqual((bytes(archive.write(position, word)), bytes(archive.write(at, word))), (file, file))
                np.testing.assert_array_equal(archive.words, words)

    def test_refused(self):
        archive = make(SAMPLE, kind=2)
        before = bytes(archive)
        for at in (12, -1, 1 << 32, (12,), (0, 0)):
            with self.assertRaises(Beyond):
                archive.write(at, 1)
        for word in (-1, 1 << 32):
            with self.assertRaisesRegex(ValueError, "the word is"):
                archive.write(0, word)
        for word in (1.0, None, "1", True):
            with self.assertRaises(TypeError):
                archive.write(0, word)
        unfit = make([1] + [0] * 299, kind=3, width=1, step=2)
        with self.assertRaises(Refused) as caught:
            unfit.write(299, 1)
        self.assertEqual(caught.exception.number, 9)
        self.assertEqual(bytes(archive), before)

    def test_full(self):
        archive = make(np.ones(9, int), kind=5, step=2)
        self.assertEqual(archive.write(3, 2).words.tolist(), [1, 1, 1, 2, 1, 1, 1, 1, 1])


class Changing(unittest.TestCase):
    def test_every_pair(self):
        files = {setting: make(SAMPLE, **keywords(setting)) for setting in SETTINGS}
        for archive in files.values():
            for setting, expected in files.items():
                self.assertEqual(bytes(archive.change(**keywords(setting))), bytes(expected))

    def test_refused(self):
        archive = make([1] + [0] * 300 + [1], kind=2)
        for setting, number in [((7, 0, 0), 2), (("none", 0, 0), 2), ((5, 0, 65), 3), ((1, 1 << 32, 0), 3), ((3, 1, 2), 9)]:
            with self.assertRaises(Refused) as caught:
                archive.change(**keywords(setting))
            self.assertEqual(caught.exception.number, number)


class Shortest(unittest.TestCase):
    def test_shorter(self):
        long, short = make(SAMPLE, kind=2), make(SAMPLE, kind=4, width=1)
        self.assertIs(shorter(long, short), short)
        self.assertIs(shorter(short, long), short)
        same = make(SAMPLE, kind=2)
        self.assertIs(shorter(long, same), long)
        for other in (make(SAMPLE.reshape(3, 4), kind=2), make(SAMPLE, kind=2, empty=1), make(SAMPLE + 1, kind=2)):
            with self.assertRaises(Refused) as caught:
                shorter(long, other)
            self.assertEqual(caught.exception.number, 11)

    @staticmethod
    def tried(archive):
        """The first of the shortest settings, by trying all."""
        lengths = {}
        for setting in all_settings():
            try:
                lengths[setting] = len(bytes(archive.change(**keywords(setting))))
            except Refused as refused:
                assert refused.number == 9
        return min(lengths, key=lambda setting: (lengths[setting], setting))

    def pictures(self):
        """Pictures in which each of the kinds is the shortest, and those with few or no stored cells."""
        random = np.random.default_rng(6)
        yield from (np.zeros(9, int), np.ones(9, int), np.ones(1, int), np.arange(300) % 2, np.arange(3000) % 300 == 0, SAMPLE)
        for share in (0.001, 0.01, 0.1, 0.5, 0.9):
            yield random.random(4000) < share
        runs = np.zeros(200_000, int)
        runs[np.add.outer(np.arange(0, 200_000, 50_000), np.arange(2000))] = 1
        far = np.zeros(200_000, int)
        far[[0, 1, 100_000, 100_300]] = 1
        yield from (runs, far)

    def test_best(self):
        kinds = set()
        for picture in self.pictures():
            words = picture.astype(np.uint32)
            archive = best(words)
            self.assertEqual(archive.setting, self.tried(archive))
            np.testing.assert_array_equal(archive.words, words)
            for setting in ((1, 0, 0), (2, 0, 0)):
                self.assertEqual(bytes(best(make(words, **keywords(setting)))), bytes(archive))
            kinds.add(int(archive.kind))
        self.assertGreaterEqual(kinds, {1, 3, 4})

    def test_best_empty_word(self):
        archive = best([[7, 7], [7, 1]], empty=7)
        self.assertEqual((archive.empty, archive.stored, archive.shape), (7, 1, (2, 2)))
        self.assertIs(best(archive), archive)
        with self.assertRaises(Refused):
            best(np.zeros(0, int))
