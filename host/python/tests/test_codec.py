"""The codec of numcodecs, alone and in Zarr stores."""
import json
import tempfile
import unittest
from pathlib import Path

import numpy as np
from support import SETTINGS, SHAPES, keywords, needs, needs_zarr, picture_by_chance

import radar_archive
from radar_archive import Kind, Refused

try:
    import numcodecs

    from radar_archive.codec import RadarArchive
except ImportError:
    pass


@needs("numcodecs")
class Alone(unittest.TestCase):
    def test_round_trips(self):
        random = np.random.default_rng(7)
        for shape in SHAPES:
            for setting in [*SETTINGS, ("best", 0, 0)]:
                words, empty = picture_by_chance(random, shape)
                codec = RadarArchive(**keywords(setting), empty=empty)
                file = codec.encode(words)
                self.assertIsInstance(file, bytes)
                np.testing.assert_array_equal(radar_archive.open(file).words, words)
                np.testing.assert_array_equal(codec.decode(file), words)
                out = np.full(shape, 99, "<u4")
                self.assertIs(codec.decode(file, out), out)
                np.testing.assert_array_equal(out, words)

    def test_best_is_shortest(self):
        words = np.array([0, 0, 7, 9, 0, 5, 0, 0, 0, 0, 300, 0], np.uint32)
        self.assertEqual(RadarArchive().encode(words), bytes(radar_archive.best(words)))

    def test_memory_order(self):
        words = np.asfortranarray(np.arange(24, dtype="<u4").reshape(2, 3, 4))
        codec = RadarArchive("positions")
        file = codec.encode(words)
        self.assertEqual(radar_archive.open(file).shape, (4, 3, 2))
        out = np.empty((2, 3, 4), "<u4", order="F")
        np.testing.assert_array_equal(codec.decode(file, out), words)
        self.assertEqual(radar_archive.open(codec.encode(np.ones((1, 5), "<u4"))).shape, (1, 5))
        np.testing.assert_array_equal(codec.decode(codec.encode(words[:, ::2])), words[:, ::2])

    def test_out(self):
        codec = RadarArchive("runs")
        file = codec.encode(np.arange(6, dtype="<u4"))
        odd = np.zeros(25, np.uint8)[1:]
        codec.decode(bytearray(file), odd)
        self.assertEqual(odd.view("<u4").tolist(), list(range(6)))
        for size in (5, 7):
            out = np.full(size, 99, "<u4")
            with self.assertRaisesRegex(ValueError, f"out has {4 * size} bytes; the words of the chunk have 24"):
                codec.decode(file, out)
            self.assertEqual(out.tolist(), [99] * size)
        out = np.full(6, 99, "<u4")
        with self.assertRaises(Refused):
            codec.decode(file[:-1], out)
        self.assertEqual(out.tolist(), [99] * 6)

    def test_refused_chunks(self):
        codec = RadarArchive()
        for array in (np.zeros(3, ">u4"), np.zeros(3, "i4"), np.zeros(3, "u2"), np.zeros(3, "u8"), np.zeros(3), b"abcd", np.ma.masked_array([1, 2])):
            with self.assertRaises(TypeError):
                codec.encode(array)
        for shape in ((), (1, 1, 1, 1, 1), (0,)):
            with self.assertRaises(Refused) as caught:
                codec.encode(np.zeros(shape, "<u4"))
            self.assertEqual(caught.exception.number, 4)
        with self.assertRaises(Refused):
            codec.encode(np.broadcast_to(np.uint32(0), (4097, 4096)))

    def test_refused_settings(self):
        for arguments, number in [(("none",), 2), ((7,), 2), (("runs", 1), 3), (("paged-runs", 0, 65), 3), (("pointed-jumps", 1), 3)]:
            with self.assertRaises(Refused) as caught:
                RadarArchive(*arguments)
            self.assertEqual(caught.exception.number, number)
        for arguments in (("best", 1), ("runs", 0, 0, -1)):
            with self.assertRaises(ValueError):
                RadarArchive(*arguments)

    def test_configuration(self):
        codec = RadarArchive(Kind.JUMPS, 2, empty=5)
        configuration = json.loads(json.dumps(codec.get_config()))
        self.assertEqual(configuration, {"id": "radar_archive", "kind": 4, "width": 2, "step": 0, "empty": 5})
        self.assertEqual(numcodecs.get_codec(configuration), codec)


@needs_zarr()
class InZarr(unittest.TestCase):
    def stored(self, words, **options):
        """The words written to a store on disk and read back, and the store's folder."""
        import zarr

        folder = tempfile.TemporaryDirectory()
        self.addCleanup(folder.cleanup)
        path = Path(folder.name) / "a.zarr"
        store = zarr.open(str(path), mode="w", shape=words.shape, dtype=words.dtype, **options)
        store[...] = words
        return zarr.open(str(path), mode="r")[...], path

    def test_chunks_at_the_edge(self):
        random = np.random.default_rng(8)
        for shape, chunks in [((10,), (4,)), ((10, 7), (4, 3)), ((3, 5, 7), (2, 2, 4)), ((2, 3, 4, 5), (1, 2, 3, 4))]:
            for order in "CF":
                words = random.choice(np.array([0, 0, 0, 1, 0xFFFFFFFF], "<u4"), shape)
                again, _ = self.stored(words, chunks=chunks, order=order, compressor=RadarArchive())
                np.testing.assert_array_equal(again, words)

    def test_chunks_are_files(self):
        words = np.arange(48, dtype="<u4").reshape(6, 8)
        _, path = self.stored(words, chunks=(3, 4), compressor=RadarArchive("runs", empty=47), fill_value=47)
        np.testing.assert_array_equal(radar_archive.open(path / "1.1").words, words[3:, 4:])
        self.assertEqual(json.loads((path / ".zarray").read_text())["compressor"]["id"], "radar_archive")

    def test_as_a_filter(self):
        words = np.arange(48, dtype="<u4").reshape(6, 8)
        again, _ = self.stored(words, chunks=(3, 4), filters=[RadarArchive("runs")], compressor=numcodecs.Zlib(1))
        np.testing.assert_array_equal(again, words)

    def test_damaged_chunk(self):
        import zarr

        _, path = self.stored(np.arange(8, dtype="<u4"), chunks=(4,), compressor=RadarArchive("runs"))
        (path / "1").write_bytes((path / "1").read_bytes()[:-1])
        store = zarr.open(str(path), mode="r")
        self.assertEqual(store[:4].tolist(), [0, 1, 2, 3])
        with self.assertRaises(Refused):
            store[4:]

    def test_other_dtypes(self):
        for dtype in (">u4", "<i4", "<f4"):
            with self.assertRaises(TypeError):
                self.stored(np.ones(4, dtype), chunks=(4,), compressor=RadarArchive("runs"))
