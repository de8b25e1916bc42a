"""Locks by which saves and runs of the command keep out of each other's way. The system gives a lock back when its process ends, however it ends."""
import contextlib
import errno
import fcntl
import io
import os
import time
from collections.abc import Callable

#: How many seconds a lock is waited for.
PATIENCE = 30.0

#: The seconds between two tries.
_PAUSE = 0.005


class Lockable(io.FileIO):
    """An open file that can be locked."""

    def __init__(self, path: str, mode: str, opener: Callable[[str, int], int]) -> None:
        self._process = os.getpid()
        super().__init__(path, mode, opener=opener)

    def lock(self) -> bool:
        """Locks the file until it is closed; false where another has it locked."""
        try:
            fcntl.flock(self, fcntl.LOCK_EX | fcntl.LOCK_NB)
        except BlockingIOError:
            return False
        return True

    def is_at(self, path: str) -> bool:
        """Whether a path, links not followed, names this file."""
        try:
            return os.path.samestat(os.lstat(path), os.fstat(self.fileno()))
        except OSError:
            return False

    def close(self) -> None:
        """Unlocks too: a child that was forked in the meantime has the file open as well, and would keep the lock. The child takes none away."""
        if not self.closed and self._process == os.getpid():
            with contextlib.suppress(OSError):
                fcntl.flock(self, fcntl.LOCK_UN)
        super().close()


def opened(path: str) -> Lockable:
    """Opens a file to be locked. Some network file systems lock only what is open for writing."""
    try:
        return Lockable(path, "r+", _open)
    except OSError:
        return Lockable(path, "r", _open)


def _open(path: str, flags: int) -> int:
    """Opens what stands at a path: no link is followed, and no pipe is waited for."""
    return os.open(path, flags | os.O_NOFOLLOW | os.O_NONBLOCK)


def take(path: str) -> Lockable | None:
    """Locks the file at a path. Where another replaced it in the meantime, the new one is locked.

    There is nothing to lock where no file stands, and a file that this user may not open is not locked, as the command has it.
    """
    end = time.monotonic() + PATIENCE
    while True:
        try:
            file = opened(path)
        except (FileNotFoundError, PermissionError):
            return None
        if _waited(file, end) and file.is_at(path):
            return file
        file.close()
        if time.monotonic() >= end:
            raise TimeoutError(errno.ETIMEDOUT, os.strerror(errno.ETIMEDOUT))


def _waited(file: Lockable, end: float) -> bool:
    """Waits for the lock of a file until a moment; false where it was not to be had."""
    try:
        while not file.lock():
            if time.monotonic() >= end:
                return False
            time.sleep(_PAUSE)
    except BaseException:
        file.close()
        raise
    return True
