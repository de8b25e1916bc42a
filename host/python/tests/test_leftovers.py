"""Temporary files that killed processes left behind. Those of the command are made here by hand, by the rules of its names."""
import fcntl
import os
import unittest
from pathlib import Path
from unittest import mock

from support import InFolder, stopped_save

from radar_archive.temporary import is_temporary, name_of


class Names(unittest.TestCase):
    def test_names(self):
        self.assertEqual(name_of("a.radar", 17, 0), ".a.radar.radar-archive-17.tmp")
        self.assertEqual(name_of("a.radar", 17, 3), ".a.radar.radar-archive-17-3.tmp")

    def test_long_names(self):
        """They have 255 bytes at most, also where that cuts a letter."""
        for target in ("n" * 255, "\N{RADIOACTIVE SIGN}" * 85, "\udcff" * 255):
            for attempt in (0, 7, 999):
                name = name_of(target, 4194304, attempt)
                self.assertEqual(len(os.fsencode(name)), 255)
                self.assertTrue(is_temporary(name, target))
        self.assertEqual(name_of("n" * 255, 17, 0), "." + "n" * 233 + ".radar-archive-17.tmp")

    def test_of_this_target_alone(self):
        for name in (".a.radar-archive-1.tmp", ".a.radar-archive-4294967295-99.tmp"):
            self.assertTrue(is_temporary(name, "a"), name)
        others = [
            "a.radar-archive-1.tmp", ".b.radar-archive-1.tmp", ".a.radar-archive-.tmp", ".a.radar-archive-x.tmp", ".a.radar-archive-+1.tmp",
            ".a.radar-archive-01.tmp", ".a.radar-archive-\N{ARABIC-INDIC DIGIT ONE}.tmp", ".a.radar-archive-1-0.tmp", ".a.radar-archive-1-2-3.tmp",
            ".a.radar-archive-4294967296.tmp", ".a.radar-archive-1.tmp.bak", ".a.radar-archive-1.tmp\n", ".a.b.radar-archive-1.tmp", "a", "",
        ]  # fmt: skip
        for name in others:
            self.assertFalse(is_temporary(name, "a"), name)
        twice = ".a.radar-archive-1.radar-archive-2.tmp"
        self.assertEqual([is_temporary(twice, target) for target in ("a", "a.radar-archive-1")], [False, True])


class Leftovers(InFolder):
    def saved(self, replace):
        self.archive.save(self.path, replace=replace)
        self.assertEqual(self.path.read_bytes(), bytes(self.archive))
        return self.names()

    def killed(self):
        """The name of what a killed save left."""
        with stopped_save(self.path) as child:
            child.kill()
        return name_of("a.radar", child.pid, 0)

    def test_killed(self):
        """The target is as it was, and the next save removes what is left, whether it replaces or not."""
        for replace in (False, True):
            before = self.path.read_bytes() if replace else None
            left = self.killed()
            self.assertEqual(self.names(), sorted({left, *(["a.radar"] if replace else [])}))
            self.assertGreater((self.folder / left).stat().st_size, 0)
            self.assertEqual(self.path.read_bytes() if replace else None, before)
            self.assertEqual(self.saved(replace), ["a.radar"])

    def test_of_the_command(self):
        for name in (".a.radar.radar-archive-1.tmp", ".a.radar.radar-archive-4194303-7.tmp", name_of("a.radar", os.getpid(), 0)):
            (self.folder / name).write_bytes(b"left")
        self.assertEqual(self.saved(False), ["a.radar"])

    def test_refused(self):
        """A save that is refused removes nothing."""
        self.path.write_bytes(b"before")
        left = self.folder / ".a.radar.radar-archive-1.tmp"
        left.write_bytes(b"left")
        with self.assertRaises(FileExistsError):
            self.archive.save(self.path)
        self.assertEqual(self.names(), [left.name, "a.radar"])

    def test_through_a_link(self):
        """They are those of the file, not of the link."""
        link = self.folder / "link"
        link.symlink_to("a.radar")
        for name in (".a.radar.radar-archive-1.tmp", ".link.radar-archive-1.tmp"):
            (self.folder / name).write_bytes(b"left")
        self.archive.save(link)
        self.assertEqual(self.names(), [".link.radar-archive-1.tmp", "a.radar", "link"])

    def test_of_another_target(self):
        others = [".b.radar.radar-archive-1.tmp", ".radar-archive-1.tmp", "a.radar.radar-archive-1.tmp"]
        for name in others:
            (self.folder / name).write_bytes(b"left")
        self.assertEqual(self.saved(False), sorted([*others, "a.radar"]))

    def test_no_files(self):
        """A link, a folder and a pipe of such a name are nobody's temporary files."""
        others = [f".a.radar.radar-archive-{number}.tmp" for number in (1, 2, 3)]
        (self.folder / others[0]).symlink_to("elsewhere")
        (self.folder / others[1]).mkdir()
        os.mkfifo(self.folder / others[2])
        (self.folder / "elsewhere").write_bytes(b"other")
        self.assertEqual(self.saved(False), sorted([*others, "a.radar", "elsewhere"]))

    def test_of_a_living_process(self):
        with stopped_save(self.path) as child:
            name = name_of("a.radar", child.pid, 0)
            self.assertEqual(self.saved(False), [name, "a.radar"])
            child.communicate(timeout=60)
        self.assertEqual((child.returncode, self.names()), (0, ["a.radar"]))

    def test_of_a_living_thread(self):
        """Its name is taken, and stays."""
        name = name_of("a.radar", os.getpid(), 0)
        with open(self.folder / name, "wb") as other:
            fcntl.flock(other, fcntl.LOCK_EX)
            self.assertEqual(self.saved(False), [name, "a.radar"])

    def test_second_name_of_the_target(self):
        """A process that was killed between giving the name and removing the other one leaves it."""
        self.path.write_bytes(b"before")
        os.link(self.path, self.folder / ".a.radar.radar-archive-1.tmp")
        self.assertEqual(self.saved(True), ["a.radar"])

    def test_taken_for_left_behind(self):
        """A new file that another removes in the moment before it is locked is given up for the next name."""
        lock, removed = fcntl.flock, []

        def late(file, operation):
            lock(file, operation)
            if not removed:
                removed.extend(self.folder.iterdir())
                removed[0].unlink()
                removed[0].write_bytes(b"other")

        with mock.patch("fcntl.flock", late):
            names = self.saved(False)
        self.assertEqual([path.name for path in removed], [name_of("a.radar", os.getpid(), 0)])
        self.assertEqual(names, [removed[0].name, "a.radar"])

    def test_name_taken_after_the_rename(self):
        """What another thread makes under the name, once it is free, stays."""
        replace, name = os.replace, name_of("a.radar", os.getpid(), 0)

        def followed(source, target):
            replace(source, target)
            Path(source).write_bytes(b"other")

        with mock.patch("os.replace", followed):
            self.assertEqual(self.saved(True), [name, "a.radar"])

    def test_folder_not_listed(self):
        with mock.patch("os.listdir", side_effect=PermissionError):
            self.archive.save(self.path)
        self.assertEqual(self.names(), ["a.radar"])
