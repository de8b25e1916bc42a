"""Opening files by path and by bytes; what an opened file says of itself."""
import gc
import mmap
import os
import pickle
import tempfile
import threading
import unittest
from pathlib import Path

import numpy as np
from support import SAMPLE, SAMPLES

import radar_archive
from radar_archive import Kind, Refused
from radar_archive.engine import engine

M2 = (SAMPLES / "m2.radar").read_bytes()


class Opening(unittest.TestCase):
    def setUp(self):
        folder = tempfile.TemporaryDirectory()
        self.addCleanup(folder.cleanup)
        self.path = Path(folder.name) / "a.radar"
        self.path.write_bytes(M2)

    def test_samples(self):
        for kind, path in enumerate(sorted(SAMPLES.glob("*.radar")), 1):
            archive = radar_archive.open(path)
            self.assertEqual((archive.kind, archive.shape, archive.ndim, archive.empty), (kind, (12,), 1, 0))
            self.assertEqual((archive.cells, archive.stored, len(archive)), (12, 4, 4))
            np.testing.assert_array_equal(archive.words, SAMPLE)
            self.assertEqual(archive.words.dtype, np.uint32)
            self.assertEqual(bytes(archive), path.read_bytes())

    def test_setting(self):
        setting = radar_archive.open(SAMPLES / "m3.radar").setting
        self.assertEqual((setting.kind, setting.width, setting.step), (Kind.BASE_OFFSET, 1, 2))
        self.assertEqual(setting, (3, 1, 2))

    def test_path_forms(self):
        for path in (self.path, str(self.path)):
            self.assertEqual(radar_archive.open(path).stored, 4)
        with self.assertRaises(FileNotFoundError):
            radar_archive.open(self.path.with_name("none"))
        with self.assertRaises(IsADirectoryError):
            radar_archive.open(self.path.parent)

    def test_mapped(self):
        archive = radar_archive.open(self.path)
        words = archive.stored_words
        with open(f"/proc/{os.getpid()}/maps") as maps:
            self.assertIn(str(self.path), maps.read())
        del archive
        gc.collect()
        self.assertEqual(words.tolist(), [7, 9, 5, 300])

    def test_closed(self):
        with radar_archive.open(self.path) as archive:
            words = archive.stored_words
        self.assertEqual(words.tolist(), [7, 9, 5, 300])
        self.assertEqual(archive.shape, (12,))
        calls = [
            lambda: archive.words, lambda: archive[0], lambda: archive[2:3], lambda: archive[2:2], lambda: archive.cell(0),
            lambda: archive.rank(0), lambda: archive.before(0), lambda: archive.count(0, 1),
            lambda: archive.position(0), lambda: archive.positions, lambda: archive.stored_words,
            lambda: bytes(archive), lambda: list(archive), lambda: archive.write(0, 1), lambda: archive.change(kind=1),
            lambda: archive.shorter(archive), lambda: archive.save(self.path.with_name("b")),
        ]  # fmt: skip
        for call in calls:
            with self.assertRaisesRegex(ValueError, "closed"):
                call()
        self.assertFalse(self.path.with_name("b").exists())
        del words
        gc.collect()
        with open(f"/proc/{os.getpid()}/maps") as maps:
            self.assertNotIn(str(self.path), maps.read())

    def test_closed_during_a_call(self):
        """What is lent to a call keeps the file until the call is done."""
        archive = radar_archive.open(self.path)
        lent = archive._lend()
        archive.close()
        self.assertEqual(engine().ra_check(*lent), 0)
        del archive
        gc.collect()
        with open(f"/proc/{os.getpid()}/maps") as maps:
            self.assertIn(str(self.path), maps.read())

    def test_many_closed(self):
        """As many as there are opened need no more descriptors than one."""
        before = len(os.listdir("/proc/self/fd"))
        for _ in range(50):
            radar_archive.open(self.path)
        gc.collect()
        self.assertEqual(len(os.listdir("/proc/self/fd")), before)

    def test_buffers(self):
        with open(self.path, "rb") as stream:
            mapped = mmap.mmap(stream.fileno(), 0, access=mmap.ACCESS_READ)
        for data in (M2, bytearray(M2), memoryview(M2), mapped, np.frombuffer(M2, np.uint8), np.frombuffer(M2 + M2, np.uint8)[:84]):
            self.assertEqual(radar_archive.open(data).words.tolist(), SAMPLE.tolist())
        twice = np.repeat(np.frombuffer(M2, np.uint8), 2)[::2]
        self.assertEqual(radar_archive.open(twice).words.tolist(), SAMPLE.tolist())

    def test_lent_or_copied(self):
        self.assertTrue(np.shares_memory(np.frombuffer(M2, np.uint8), radar_archive.open(M2).stored_words))
        changed = bytearray(M2)
        archive = radar_archive.open(changed)
        changed[:] = bytes(84)
        self.assertEqual(archive.words.tolist(), SAMPLE.tolist())
        self.assertTrue(archive.file.readonly)

    def test_no_bytes(self):
        for data in (3, None, 2.5, [1, 2], SAMPLE, np.zeros(84, np.int16)):
            with self.assertRaises(TypeError):
                radar_archive.open(data)

    def test_refused(self):
        for data, number, word in [(b"", 1, "short"), (M2[:51], 1, "short"), (b"\7" + M2[1:], 2, "kind"), (M2[:2] + b"\1" + M2[3:], 3, "setting"),
                                   (M2[:1] + b"\5" + M2[2:], 4, "extent"), (M2 + b"\0", 5, "counts"), (M2[:52] + b"\3" + M2[53:], 6, "body")]:
            self.path.write_bytes(data)
            for source in (data, self.path):
                with self.assertRaises(Refused) as caught:
                    radar_archive.open(source)
                self.assertEqual((caught.exception.number, caught.exception.word), (number, word))
            self.assertTrue(str(caught.exception).startswith(f"{self.path}: refused, {number} {word}: "))
            self.assertIn(f"radar-archive check {self.path}", caught.exception.__notes__[0])

    def test_every_shortening(self):
        for length in range(84):
            with self.assertRaises(Refused) as caught:
                radar_archive.open(M2[:length])
            self.assertEqual(caught.exception.number, 1 if length < 52 else 5)

    def test_pipe(self):
        pipe = self.path.with_name("pipe")
        os.mkfifo(pipe)
        writer = threading.Thread(target=pipe.write_bytes, args=(M2,))
        writer.start()
        self.assertEqual(radar_archive.open(pipe).stored, 4)
        writer.join()

    def test_endless(self):
        """A device without an end is read no further than the longest file, and a huge file is not read."""
        with self.assertRaises(Refused):
            radar_archive.open("/dev/zero")
        with open(self.path, "r+b") as stream:
            stream.truncate(1 << 40)
        with self.assertRaises(Refused) as caught:
            radar_archive.open(self.path)
        self.assertEqual(caught.exception.number, 5)

    def test_pickled(self):
        archive = pickle.loads(pickle.dumps(radar_archive.open(self.path)))
        self.assertEqual(bytes(archive), M2)

    def test_as_an_array(self):
        archive = radar_archive.open(M2)
        np.testing.assert_array_equal(np.asarray(archive), SAMPLE)
        self.assertEqual(np.asarray(archive, np.float64).dtype, np.float64)
        with self.assertRaises(ValueError):
            archive.__array__(copy=False)

    def test_threads(self):
        archive, sums = radar_archive.open(self.path), []
        threads = [threading.Thread(target=lambda: sums.append(sum(int(archive[:].sum()) for _ in range(200)))) for _ in range(4)]
        for thread in threads:
            thread.start()
        for thread in threads:
            thread.join()
        self.assertEqual(sums, [200 * 321] * 4)
