"""The temporary file that a file is written to first. Its name and its lock are the command's, so that each removes what the other left behind."""
import contextlib
import errno
import os
import re
import stat
from collections.abc import Iterator

from radar_archive.locking import Lockable, opened

#: The most bytes of a name that file systems take.
_LONGEST_NAME = 255

#: Names that are tried: those of what other threads write, and of what cannot be removed, are taken.
_TRIED = 1000

#: The numbers at the end of a temporary file's name, and the largest that the command takes there.
_NUMBERS = re.compile(r"\..*\.radar-archive-([0-9]{1,10})(?:-([0-9]{1,10}))?\.tmp", re.DOTALL)
_LARGEST = 0xFFFFFFFF


def name_of(target: str, process: int, attempt: int) -> str:
    """The name `.TARGET.radar-archive-PID.tmp`, the target's part cut where it would be too long."""
    numbers = f"{process}-{attempt}" if attempt else f"{process}"
    end = f".radar-archive-{numbers}.tmp".encode()
    return os.fsdecode(b"." + os.fsencode(target)[: _LONGEST_NAME - 1 - len(end)] + end)


def is_temporary(name: str, target: str) -> bool:
    """Whether a name is that of a temporary file of this target, of any process."""
    found = _NUMBERS.fullmatch(name)
    if found is None:
        return False
    process, attempt = int(found[1]), int(found[2] or 0)
    return max(process, attempt) <= _LARGEST and name == name_of(target, process, attempt)


def create(folder: str, target: str, mode: int) -> tuple[str, Lockable]:
    """A new file beside the target, and its path. It is locked until it is closed, so that others know it from one that was left behind."""
    for attempt in range(_TRIED):
        path = os.path.join(folder, name_of(target, os.getpid(), attempt))
        with contextlib.suppress(FileExistsError):
            file = Lockable(path, "x", lambda path, flags: os.open(path, flags, mode))
            if _is_ours(file, path):
                return path, file
            file.close()
    raise FileExistsError(errno.EEXIST, os.strerror(errno.EEXIST))


def _is_ours(file: Lockable, path: str) -> bool:
    """Locks a new file. One that another took for left behind in the moment before is lost to it. Where the file system has no locks, none takes
    it."""
    try:
        locked = file.lock()
    except OSError:
        locked = True
    return locked and file.is_at(path)


@contextlib.contextmanager
def removed(path: str, file: Lockable) -> Iterator[None]:
    """Closes the file in the end and removes it, unless it was renamed. Another thread's may have its name by then, and stays."""
    with file:
        try:
            yield
        finally:
            if file.is_at(path):
                with contextlib.suppress(OSError):
                    os.unlink(path)


def remove_left(folder: str, target: str, held: Lockable | None) -> None:
    """Removes the temporary files of a target that nobody has locked any more. What cannot be removed is in nobody's way.

    `held` is the target, locked, of which a temporary file may be a second name.
    """
    with contextlib.suppress(OSError):
        for name in os.listdir(folder):
            if is_temporary(name, target):
                _remove_left(os.path.join(folder, name), held)


def _remove_left(path: str, held: Lockable | None) -> None:
    """Removes a file that nobody has locked, or that is a second name of the locked target."""
    with contextlib.suppress(OSError):
        if held is not None and held.is_at(path):
            os.unlink(path)
        elif stat.S_ISREG(os.lstat(path).st_mode):
            with opened(path) as file:
                if file.lock() and file.is_at(path):
                    os.unlink(path)
