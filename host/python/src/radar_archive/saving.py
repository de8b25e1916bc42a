"""Files that are written whole or not at all."""
import contextlib
import errno
import os
import stat

from radar_archive import locking
from radar_archive.locking import Lockable
from radar_archive.temporary import create, remove_left, removed


def save(data: memoryview, path: str | os.PathLike[str], replace: bool) -> None:
    """Puts bytes in a file by way of a temporary file beside it, synced before it takes the name. A file that is replaced is locked meanwhile."""
    target, given = os.path.realpath(path), os.fspath(path)
    _there(target, given, replace)
    held = _locked(target, given) if replace else None
    with held or contextlib.nullcontext():
        there = _there(target, given, replace)
        folder, name = os.path.split(target)
        remove_left(folder, name, held)
        temporary, file = _created(folder, name, given, there)
        with removed(temporary, file):
            _write(data, file, there)
            if replace:
                os.replace(temporary, target)
            else:
                _place(temporary, target, given)
        _sync_folder(folder, given)


def _there(target: str, path: str, replace: bool) -> os.stat_result | None:
    """The file that is to be replaced, or None where there is none. What may not be replaced is refused."""
    try:
        status = os.stat(target)
    except FileNotFoundError:
        return None
    if not replace:
        raise _exists(path)
    if not stat.S_ISREG(status.st_mode):
        raise OSError(errno.EINVAL, "is not a plain file, and is not replaced", path)
    return status


def _exists(path: str) -> FileExistsError:
    return FileExistsError(errno.EEXIST, "exists; use replace=True to replace it", path)


def _locked(target: str, path: str) -> Lockable | None:
    """The file that is to be replaced, locked, or None where there is nothing to lock."""
    try:
        return locking.take(target)
    except TimeoutError as error:
        seconds = f"{locking.PATIENCE:g} seconds"
        message = f"is being replaced by another program, which has not ended after {seconds}; nothing was changed: try again when it has"
        raise OSError(error.errno, message, path) from None
    except OSError as error:
        message = f"cannot be locked ({error.strerror}); nothing was changed: save a new file and move it there"
        raise OSError(error.errno, message, path) from None


def _created(folder: str, name: str, path: str, there: os.stat_result | None) -> tuple[str, Lockable]:
    """A new temporary file. One that replaces a file is never more open than that file."""
    try:
        return create(folder, name, 0o666 if there is None else there.st_mode & 0o777)
    except OSError as error:
        raise OSError(error.errno, f"cannot be written: no file can be made in its folder ({error.strerror})", path) from None


def _write(data: memoryview, file: Lockable, there: os.stat_result | None) -> None:
    """Writes and syncs a new file. It has the permission bits of the file that it replaces and, where the user may set them, owner and group."""
    if there is not None:
        _give(file.fileno(), there)
        os.fchmod(file.fileno(), stat.S_IMODE(there.st_mode))
    while data:
        data = data[file.write(data) :]
    os.fsync(file.fileno())


def _give(descriptor: int, there: os.stat_result) -> None:
    """Gives a file owner and group of another; the group alone where this user may not give it away, and nothing where not even that."""
    try:
        os.fchown(descriptor, there.st_uid, there.st_gid)
    except OSError:
        with contextlib.suppress(OSError):
            os.fchown(descriptor, -1, there.st_gid)


def _place(temporary: str, target: str, path: str) -> None:
    """Gives a written file its name, which no other file may have. Where there are no hard links, a last look comes before the rename."""
    try:
        os.link(temporary, target)
    except FileExistsError:
        raise _exists(path) from None
    except OSError as error:
        if error.errno not in (errno.EPERM, errno.EOPNOTSUPP, errno.ENOSYS, errno.EMLINK):
            raise
        if os.path.lexists(target):
            raise _exists(path) from None
        os.rename(temporary, target)


def _sync_folder(folder: str, path: str) -> None:
    """Syncs the folder, so that the name lasts too. A folder that may not be read, or that has no sync, is left."""
    try:
        descriptor = os.open(folder, os.O_RDONLY | os.O_DIRECTORY | os.O_CLOEXEC)
    except PermissionError:
        return
    try:
        os.fsync(descriptor)
    except OSError as error:
        if error.errno != errno.EINVAL:
            raise OSError(error.errno, f"is written, but its folder cannot be synced ({error.strerror})", path) from None
    finally:
        os.close(descriptor)
