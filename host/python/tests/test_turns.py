"""Saves that replace one file at the same time take turns."""
import concurrent.futures
import errno
import fcntl
import os
import threading
import time
from unittest import mock

from support import InFolder, python, stopped_save

import radar_archive
from radar_archive import make
from radar_archive.locking import opened, take

SHORT = mock.patch("radar_archive.locking.PATIENCE", 0.1)

#: Forks while a save is under way; the child lives on while the file is saved again.
FORKED = """
import os, signal, sys
import radar_archive
from radar_archive import locking

sync, children = os.fsync, []

def fork(descriptor):
    if not children:
        children.append(os.fork())
        if children[0] == 0:
            signal.pause()
    sync(descriptor)

os.fsync, locking.PATIENCE = fork, 0.1
archive = radar_archive.make([1, 2], kind=2)
try:
    for _ in range(2):
        archive.save(sys.argv[1], replace=True)
finally:
    os.kill(children[0], signal.SIGKILL)
    os.waitpid(children[0], 0)
"""


class Turns(InFolder):
    def setUp(self):
        super().setUp()
        self.path.write_bytes(b"before")

    def begun(self):
        """A save in a thread of its own, which waits."""
        thread = threading.Thread(target=self.archive.save, args=(self.path,), kwargs={"replace": True})
        thread.start()
        self.waits(thread)
        return thread

    def waits(self, thread):
        thread.join(0.2)
        self.assertTrue(thread.is_alive())

    def ended(self, thread):
        """The thread ends, and its file is there."""
        thread.join(60)
        self.assertFalse(thread.is_alive())
        self.assertEqual((self.path.read_bytes(), self.names()), (bytes(self.archive), ["a.radar"]))

    def test_after_the_other(self):
        """What begins last is there in the end: without turns the stopped save would replace it."""
        with stopped_save(self.path) as child:
            thread = self.begun()
            self.assertEqual(self.path.read_bytes(), b"before")
            child.communicate(timeout=60)
        self.assertEqual(child.returncode, 0)
        self.ended(thread)

    def test_after_a_killed_one(self):
        with stopped_save(self.path) as child:
            thread = self.begun()
            child.kill()
        self.ended(thread)

    def test_too_long(self):
        with stopped_save(self.path) as child, SHORT:
            before, begin = self.names(), time.monotonic()
            with self.assertRaisesRegex(TimeoutError, "replaced by another program.* not ended after 0.1 seconds; nothing was changed") as caught:
                self.archive.save(self.path, replace=True)
            self.assertEqual((caught.exception.filename, caught.exception.errno), (str(self.path), errno.ETIMEDOUT))
            self.assertLess(time.monotonic() - begin, 10)
            self.assertEqual((self.path.read_bytes(), self.names()), (b"before", before))
            child.communicate(timeout=60)
        self.assertEqual((child.returncode, radar_archive.open(self.path).stored), (0, 2))

    def test_patience(self):
        self.assertEqual(radar_archive.locking.PATIENCE, 30)

    def test_replaced_in_the_meantime(self):
        """The new file is locked then: what it is replaced by, and while it is locked, is waited for too."""
        new = self.folder / "new"
        new.write_bytes(b"other")
        with open(self.path, "rb") as first, open(new, "rb") as second:
            fcntl.flock(first, fcntl.LOCK_EX)
            fcntl.flock(second, fcntl.LOCK_EX)
            thread = self.begun()
            new.chmod(0o604)
            new.rename(self.path)
            fcntl.flock(first, fcntl.LOCK_UN)
            self.waits(thread)
            self.assertEqual(self.path.read_bytes(), b"other")
            fcntl.flock(second, fcntl.LOCK_UN)
            self.ended(thread)
        self.assertEqual(self.path.stat().st_mode & 0o777, 0o604)

    def test_never_the_same(self):
        """A file that is another one at every look is not looked at for ever."""
        with SHORT, mock.patch("os.path.samestat", return_value=False), self.assertRaises(TimeoutError):
            self.archive.save(self.path, replace=True)
        self.assertEqual((self.path.read_bytes(), self.names()), (b"before", ["a.radar"]))

    def test_threads(self):
        archives = [make([number], kind=2, empty=99) for number in range(8)]
        with concurrent.futures.ThreadPoolExecutor(8) as pool:
            list(pool.map(lambda number: archives[number % 8].save(self.path, replace=True), range(80)))
        self.assertEqual(radar_archive.open(self.path).stored, 1)
        self.assertEqual(self.names(), ["a.radar"])

    def test_only_one_is_first(self):
        """Of those that may not replace, one writes the file, and it stays as it is."""
        archives = [make([number], kind=2, empty=99) for number in range(8)]

        def first(number):
            try:
                archives[number].save(self.path)
            except FileExistsError:
                return False
            return True

        for _ in range(10):
            self.path.unlink()
            with concurrent.futures.ThreadPoolExecutor(8) as pool:
                [written] = [number for number, done in enumerate(pool.map(first, range(8))) if done]
            self.assertEqual((self.path.read_bytes(), self.names()), (bytes(archives[written]), ["a.radar"]))

    def test_without_locks(self):
        """A file is not replaced then, but a new one is written, and nothing is taken for left behind."""
        left = self.folder / ".new.radar-archive-1.tmp"
        left.write_bytes(b"left")
        with mock.patch("fcntl.flock", side_effect=OSError(errno.ENOLCK, "no locks")):
            with self.assertRaisesRegex(OSError, r"cannot be locked \(no locks\); nothing was changed"):
                self.archive.save(self.path, replace=True)
            self.archive.save(self.folder / "new")
        self.assertEqual((self.path.read_bytes(), self.names()), (b"before", [left.name, "a.radar", "new"]))

    def test_not_to_be_opened(self):
        """A file that may not be opened is replaced without a lock, as the command does."""
        with mock.patch("radar_archive.locking.opened", side_effect=PermissionError):
            self.archive.save(self.path, replace=True)
        self.assertEqual((self.path.read_bytes(), self.names()), (bytes(self.archive), ["a.radar"]))

    def test_no_file_any_more(self):
        """What became a link or a pipe since it was looked at is neither followed nor waited for, and stays."""
        link, pipe = self.folder / "link", self.folder / "pipe"
        link.symlink_to("a.radar")
        os.mkfifo(pipe)
        with mock.patch("os.path.realpath", str), self.assertRaisesRegex(OSError, "cannot be locked .*; nothing was changed"):
            self.archive.save(link, replace=True)
        self.assertTrue(link.is_symlink() and self.path.read_bytes() == b"before")
        result = python("-c", "import sys; from radar_archive.locking import _open; _open(sys.argv[1], 0)", pipe)
        self.assertEqual((result.returncode, result.stderr), (0, ""))

    def test_let_go(self):
        """After a save and after one that failed, the file is locked by nobody and open nowhere."""
        descriptors = len(os.listdir("/proc/self/fd"))
        with mock.patch("os.fsync", side_effect=OSError(errno.ENOSPC, "full")), self.assertRaises(OSError):
            self.archive.save(self.path, replace=True)
        with SHORT:
            self.archive.save(self.path, replace=True)
            self.archive.save(self.path, replace=True)
        self.assertEqual(len(os.listdir("/proc/self/fd")), descriptors)

    def test_forked_meanwhile(self):
        """A child that was forked during a save keeps no lock."""
        result = python("-c", FORKED, self.path)
        self.assertEqual((result.returncode, result.stderr), (0, ""))
        self.assertEqual(self.names(), ["a.radar"])

    def test_closed_in_a_child(self):
        """A child that was forked during a save takes no lock away."""
        with take(str(self.path)) as held:
            child = os.fork()
            if child == 0:
                held.close()
                os._exit(0)
            self.assertEqual(os.waitpid(child, 0)[1], 0)
            with opened(str(self.path)) as other:
                self.assertFalse(other.lock())
