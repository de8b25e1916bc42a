"""The bytes of a file, from a path or from memory."""
import builtins
import errno
import mmap
import os
import stat
from typing import Any, cast

import numpy as np
from numpy.typing import NDArray

from radar_archive.setting import LONGEST_FILE

#: What holds the bytes of a file in memory.
Bytes = bytes | bytearray | memoryview | mmap.mmap | NDArray[Any]


def bytes_of(data: Bytes) -> NDArray[np.uint8]:
    """The bytes in memory as an array that cannot be written. What can be written is copied, so that a checked file stays as it is."""
    try:
        view = memoryview(cast(Any, data))
    except TypeError:
        raise TypeError(f"the bytes of a file are wanted, not {type(data).__name__}") from None
    if view.itemsize != 1:
        raise TypeError(f"the bytes of a file are wanted, not items of {view.itemsize} bytes; make() takes the words of a picture")
    if not view.readonly or not view.c_contiguous:
        view = memoryview(view.tobytes())
    return np.frombuffer(view, np.uint8)


def mapped(path: str | os.PathLike[str]) -> NDArray[np.uint8]:
    """The bytes of a file that is mapped into memory and not read. What cannot be mapped (a pipe, an empty file) is read."""
    with builtins.open(path, "rb") as stream:
        status = os.fstat(stream.fileno())
        if stat.S_ISREG(status.st_mode) and status.st_size > 0:
            try:
                return np.frombuffer(mmap.mmap(stream.fileno(), 0, access=mmap.ACCESS_READ), np.uint8)
            except OSError as error:
                if error.errno not in (errno.ENODEV, errno.EINVAL):
                    raise
        return np.frombuffer(stream.read(LONGEST_FILE + 1), np.uint8)
