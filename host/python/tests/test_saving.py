"""Files written whole or not at all."""
import contextlib
import errno
import os
import unittest
from unittest import mock

from support import SAMPLE, InFolder

import radar_archive


class Saving(InFolder):
    def test_written(self):
        umask = os.umask(0o027)
        self.addCleanup(os.umask, umask)
        self.archive.save(self.path)
        self.assertEqual(self.path.read_bytes(), bytes(self.archive))
        self.assertEqual(self.path.stat().st_mode & 0o777, 0o640)
        self.assertEqual(self.names(), ["a.radar"])

    def test_not_replaced(self):
        self.path.write_bytes(b"before")
        with self.assertRaisesRegex(FileExistsError, "replace=True"):
            self.archive.save(self.path)
        self.assertEqual((self.path.read_bytes(), self.names()), (b"before", ["a.radar"]))

    def test_replaced(self):
        self.path.write_bytes(b"before")
        self.path.chmod(0o604)
        self.archive.save(str(self.path), replace=True)
        self.assertEqual((self.path.read_bytes(), self.path.stat().st_mode & 0o777), (bytes(self.archive), 0o604))
        self.assertEqual(self.names(), ["a.radar"])

    def test_folder_not_synced(self):
        """The file is whole and in its place, and the error says so."""
        sync = os.fsync

        def only_files(descriptor):
            if os.path.isdir(f"/proc/self/fd/{descriptor}"):
                raise OSError(error, "no sync")
            sync(descriptor)

        with mock.patch("os.fsync", only_files):
            for error, name in [(errno.EIO, "a"), (errno.EINVAL, "b")]:
                expected = self.assertRaisesRegex(OSError, "is written, but") if error == errno.EIO else contextlib.nullcontext()
                with expected:
                    self.archive.save(self.folder / name)
                self.assertEqual((self.folder / name).read_bytes(), bytes(self.archive))
        self.assertEqual(self.names(), ["a", "b"])

    def test_long_name(self):
        path = self.folder / ("\N{RADIOACTIVE SIGN}" * 85)
        self.archive.save(path)
        self.assertEqual(path.read_bytes(), bytes(self.archive))

    @unittest.skipUnless(os.geteuid() == 0, "only root can give a file away")
    def test_owner(self):
        self.path.write_bytes(b"before")
        os.chown(self.path, 1234, 1234)
        self.archive.save(self.path, replace=True)
        self.assertEqual((self.path.stat().st_uid, self.path.stat().st_gid), (1234, 1234))

    def test_group_alone(self):
        """The group is kept also where the user may not give the file away, and the file is replaced where not even that may be."""
        self.path.write_bytes(b"before")
        for refused in ([os.getuid()], [os.getuid(), -1]):
            given = []

            def chown(descriptor, owner, group):
                given.append((owner, group))
                if owner in refused:
                    raise PermissionError

            with mock.patch("os.fchown", chown):
                self.archive.save(self.path, replace=True)
            group = self.path.stat().st_gid
            self.assertEqual(given, [(os.getuid(), group), (-1, group)])
            self.assertEqual((self.path.read_bytes(), self.names()), (bytes(self.archive), ["a.radar"]))

    def test_never_more_open(self):
        """The temporary file has no permission that the replaced file has not, from its beginning."""
        self.path.write_bytes(b"before")
        self.path.chmod(0o600)
        create, modes = os.open, []

        def seen(*arguments):
            descriptor = create(*arguments)
            modes.append(os.fstat(descriptor).st_mode & 0o777)
            return descriptor

        umask = os.umask(0)
        self.addCleanup(os.umask, umask)
        with mock.patch("os.open", seen):
            self.archive.save(self.path, replace=True)
        self.assertEqual(modes[:2], [0o600] * 2)  # the locked target, and the temporary file

    def test_over_itself(self):
        """A mapped file can be replaced by what came of it; what was opened stays as it was."""
        self.archive.save(self.path)
        opened = radar_archive.open(self.path)
        opened.write(0, 1).save(self.path, replace=True)
        self.assertEqual((opened.words.tolist(), radar_archive.open(self.path).cell(0)), (SAMPLE.tolist(), 1))

    def test_appeared_in_the_meantime(self):
        link = os.link

        def late(*arguments):
            self.path.write_bytes(b"other")
            link(*arguments)

        with mock.patch("os.link", late), self.assertRaises(FileExistsError):
            self.archive.save(self.path)
        self.assertEqual((self.path.read_bytes(), self.names()), (b"other", ["a.radar"]))

    def test_without_hard_links(self):
        with mock.patch("os.link", side_effect=OSError(errno.EPERM, "no links")):
            self.archive.save(self.path)
        self.assertEqual((self.path.read_bytes(), self.names()), (bytes(self.archive), ["a.radar"]))

    def test_failures_leave_nothing(self):
        self.path.write_bytes(b"before")
        for call, replace in [("os.fsync", True), ("os.replace", True), ("os.fchmod", True)]:
            with mock.patch(call, side_effect=OSError(errno.ENOSPC, "full")), self.assertRaises(OSError):
                self.archive.save(self.path, replace=replace)
            self.assertEqual((self.path.read_bytes(), self.names()), (b"before", ["a.radar"]))
        for call in ("os.fsync", "os.link"):
            with mock.patch(call, side_effect=OSError(errno.ENOSPC, "full")), self.assertRaises(OSError):
                self.archive.save(self.folder / "new")
            self.assertEqual(self.names(), ["a.radar"])

    def test_links(self):
        self.path.write_bytes(b"before")
        link, dangling = self.folder / "link", self.folder / "dangling"
        link.symlink_to("a.radar")
        dangling.symlink_to("new.radar")
        with self.assertRaises(FileExistsError):
            self.archive.save(link)
        self.archive.save(link, replace=True)
        self.archive.save(dangling)
        self.assertTrue(link.is_symlink() and dangling.is_symlink())
        self.assertEqual({path.read_bytes() for path in (self.path, self.folder / "new.radar")}, {bytes(self.archive)})

    def test_no_file(self):
        none = self.folder / "none" / "a.radar"
        for replace in (False, True):
            with self.assertRaisesRegex(FileNotFoundError, "no file can be made in its folder") as caught:
                self.archive.save(none, replace=replace)
            self.assertEqual(caught.exception.filename, str(none))
        with self.assertRaisesRegex(OSError, "not a plain file"):
            self.archive.save(self.folder, replace=True)
        with self.assertRaises(FileExistsError):
            self.archive.save("/dev/null")
        self.assertEqual(self.names(), [])
