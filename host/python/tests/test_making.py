"""Making archives of arrays: settings, dtypes, orders, shapes and what is refused."""
import unittest

import numpy as np
from support import SAMPLE, SAMPLES, SETTINGS, SHAPES, keywords, picture_by_chance

import radar_archive
from radar_archive import Kind, Refused, make
from radar_archive.setting import LONGEST_FILE, all_settings, longest_file
from radar_archive.words import words_of


class Refusing(unittest.TestCase):
    def refused(self, number, call, sentence=""):
        with self.assertRaises(Refused) as caught:
            call()
        self.assertEqual(caught.exception.number, number)
        self.assertIn(sentence, caught.exception.sentence)


class Settings(Refusing):
    def test_samples(self):
        for path, setting in zip(sorted(SAMPLES.glob("*.radar")), [(1, 0, 0), (2, 0, 0), (3, 1, 2), (4, 1, 0), (5, 0, 2), (6, 1, 2)], strict=True):
            self.assertEqual(bytes(make(SAMPLE, **keywords(setting))), path.read_bytes())

    def test_round_trips(self):
        random = np.random.default_rng(4)
        for shape in SHAPES:
            for setting in SETTINGS:
                words, empty = picture_by_chance(random, shape)
                archive = make(words, **keywords(setting), empty=empty)
                self.assertEqual((archive.setting, archive.shape, archive.empty), (setting, shape, empty))
                np.testing.assert_array_equal(archive.words, words)
                np.testing.assert_array_equal(radar_archive.open(bytes(archive)).words, words)

    def test_every_setting_has_room(self):
        """Full pictures and every other cell, which have the longest files, in every setting; distant cells have those of kinds 4 and 6."""
        for words in (np.ones(200, np.uint32), np.arange(200) % 2, np.zeros(200, int), np.ones(1, int)):
            for setting in all_settings():
                archive = make(words, **keywords(setting))
                self.assertLessEqual(len(bytes(archive)), longest_file(setting, archive.stored))
                np.testing.assert_array_equal(archive.words, words)
        for width in (1, 2):
            words = np.arange(9 * 256**width) % 256**width == 0
            for setting in [(4, width, 0), *((6, width, step) for step in (1, 2, 3, 4, 16, 255))]:
                archive = make(words.astype(np.uint32), **keywords(setting))
                self.assertEqual(len(bytes(archive)), longest_file(setting, archive.stored))
        self.assertEqual(max(longest_file(setting, radar_archive.MOST_CELLS) for setting in all_settings() if setting.kind == 3), LONGEST_FILE)

    def test_kinds_by_name(self):
        for kind in Kind:
            rest = {3: {"width": 1, "step": 4}, 4: {"width": 1}, 5: {"step": 4}, 6: {"width": 2, "step": 4}}.get(kind, {})
            files = {bytes(make(SAMPLE, kind=given, **rest)) for given in (kind, int(kind), str(kind), np.int16(kind))}
            self.assertEqual(len(files), 1)

    def test_refused(self):
        for kind in (0, 7, -1, 257, 1 << 32, (1 << 32) + 1, "run", "RUNS", ""):
            sentence = f"no kind {kind!r}; the kinds are 1 runs, 2 positions, 3 base-offset, 4 jumps, 5 paged-runs, 6 pointed-jumps"
            self.refused(2, lambda: make(SAMPLE, kind=kind), sentence)
            self.refused(2, lambda: make(SAMPLE, kind=1).change(kind=kind), sentence)
        for setting in [(1, 1, 0), (2, 0, 1), (3, 0, 1), (3, 3, 1), (3, 1, 0), (3, 1, 256), (4, 0, 0), (4, 1, 1), (5, 0, 1), (5, 0, 65), (5, 1, 2),
                        (3, (1 << 32) + 1, 1), (3, 1, -1), (4, 257, 0), (6, 0, 1), (6, 3, 1), (6, 1, 0), (6, 2, 256)]:
            sentence = f"width {setting[1]} and step {setting[2]}; it takes"
            self.refused(3, lambda: make(SAMPLE, **keywords(setting)), sentence)
            self.refused(3, lambda: make(SAMPLE, kind=1).change(**keywords(setting)), sentence)
        self.refused(9, lambda: make([1] + [0] * 255 + [1], kind=3, width=1, step=2), "use width 2 or a smaller step")
        self.refused(9, lambda: make([1] + [0] * 65535 + [1], kind=3, width=2, step=2), "; use a smaller step")
        for setting in [{"kind": 1.0}, {"kind": None}, {"kind": True}, {"kind": 3, "width": 1.0, "step": 1}, {"kind": 3, "width": 1, "step": "1"}]:
            with self.assertRaises(TypeError):
                make(SAMPLE, **setting)

    def test_empty_word(self):
        self.assertEqual(make([1, 2], kind=2, empty=0xFFFFFFFF).empty, 0xFFFFFFFF)
        for empty in (-1, 1 << 32):
            with self.assertRaisesRegex(ValueError, "the empty word is"):
                make([1, 2], kind=2, empty=empty)
        for empty in (0.0, None, "0", False):
            with self.assertRaises(TypeError):
                make([1, 2], kind=2, empty=empty)


class Arrays(Refusing):
    def test_no_copy(self):
        words = np.arange(12, dtype=np.uint32).reshape(3, 4)
        for same in (words, words[1:]):
            self.assertTrue(np.shares_memory(words_of(same), same))
        words.flags.writeable = False
        self.assertTrue(np.shares_memory(words_of(words), words))
        for other in (np.asfortranarray(words), words[:, ::2], words.T, words.astype(">u4"), words.astype(np.int64), self.unaligned(words)):
            copy = words_of(other)
            self.assertTrue(copy.flags.c_contiguous and copy.flags.aligned and copy.dtype.isnative)
            self.assertFalse(np.shares_memory(copy, other))
            np.testing.assert_array_equal(copy, other)

    @staticmethod
    def unaligned(words):
        """The same words at odd addresses."""
        room = np.empty(words.nbytes + 1, np.uint8)
        odd = room[1:].view(np.uint32).reshape(words.shape)
        odd[...] = words
        return odd

    def test_orders_and_types(self):
        words = np.arange(60).reshape(3, 4, 5)
        expected = bytes(make(words.astype(np.uint32), kind="runs", empty=7))
        arrays = [words.astype(dtype) for dtype in ("i1", "u1", ">i2", "<u2", ">i4", ">u4", "<i8", ">u8")]
        arrays += [np.asfortranarray(words), self.unaligned(words.astype(np.uint32)), words.tolist(), np.repeat(words, 2, axis=1)[:, ::2]]
        for array in arrays:
            before = np.array(array)
            self.assertEqual(bytes(make(array, kind="runs", empty=7)), expected)
            np.testing.assert_array_equal(array, before)

    def test_values_that_are_no_words(self):
        largest = 0xFFFFFFFF
        for array, place, value in [
            (np.array([[0, 1], [-1, -2]]), "(1, 0)", -1),
            (np.array([[0, largest + 1], [-1, -2]]), "(0, 1)", largest + 1),
            (np.array([0, 1 << 63], np.uint64), "(1,)", 1 << 63),
            (np.array([5, -128], np.int8), "(1,)", -128),
            (np.asfortranarray([[0, 1], [-1, -2]]), "(1, 0)", -1),
            (np.array([0, -7], ">i4"), "(1,)", -7),
        ]:
            with self.assertRaises(ValueError) as caught:
                make(array, kind=2)
            self.assertEqual(str(caught.exception), f"the value at {place} is {value}; a word is 0 to 4294967295")
        self.assertEqual(make(np.array([largest, 0]), kind=2).words.tolist(), [largest, 0])

    def test_other_types(self):
        masked = np.ma.masked_array([1, 2], [0, 1])
        arrays = [[1.0], np.ones(3, np.float32), np.ones(3, complex), np.array([1, None]), ["a"], [b"a"], np.ones(3, bool), [1 << 70],
                  np.zeros(3, "M8[s]"), np.zeros(3, "u4,u4"), "words", None, masked]  # fmt: skip
        for array in arrays:
            with self.assertRaises(TypeError, msg=array):
                make(array, kind=2)

    def test_shapes(self):
        self.refused(4, lambda: make(np.uint32(5), kind=2), "the array has 0 dimensions")
        self.refused(4, lambda: make(np.ones((1, 1, 1, 1, 1), np.uint32), kind=2), "the array has 5 dimensions")
        for shape in [(0,), (3, 0), (0, 3), (2, 0, 0, 2)]:
            self.refused(4, lambda: make(np.ones(shape, np.uint32), kind=2), "each extent of a picture is at least 1")
        for shape in [(16_777_217,), (4097, 4096), (65536,) * 3, (1 << 33,), (1 << 32, 1)]:
            huge = np.broadcast_to(np.uint8(0), shape)
            self.refused(4, lambda: make(huge, kind=2), "more than the 16777216 cells")
        self.refused(3, lambda: make(np.ones((0,), int), kind=1, width=1))

    def test_largest(self):
        words = np.zeros((4096, 4096), np.uint32)
        words[4095, 4095] = 5
        archive = make(words, kind="jumps", width=2)
        self.assertEqual((archive.cells, archive.cell(16_777_215), archive[4095, 4090:].tolist()), (16_777_216, 5, [0] * 5 + [5]))
