"""An accepted file: its bytes as they are lent to the engine, and what its header says."""
import ctypes
from typing import Self

import numpy as np
from numpy.typing import NDArray

from radar_archive.engine import engine
from radar_archive.header import Dimensions, Header
from radar_archive.opening import Bytes, bytes_of
from radar_archive.refusal import refusal
from radar_archive.setting import Kind, Setting


class AcceptedFile:
    """A file that the engine has checked completely; a refused one is a `Refused`."""

    __slots__ = ("_file", "_lent", "_header", "_dimensions", "__weakref__")

    def __init__(self, data: Bytes, name: str | None = None) -> None:
        file = bytes_of(data)
        lent_file = (file.ctypes.data_as(ctypes.c_void_p), file.size)
        number = engine().ra_check(*lent_file)
        if number:
            raise refusal(number, None, name)
        self._file: NDArray[np.uint8] = file
        self._lent: tuple[ctypes.c_void_p, int] | None = lent_file
        self._header = Header.of(file)
        self._dimensions = Dimensions.of(self._header.shape)

    def close(self) -> None:
        """Gives a mapped file back before the archive goes; arrays that refer to it keep it until they go. Nothing can be asked afterwards
        but what the header says."""
        self._lent = None
        self._file = np.empty(0, np.uint8)

    def __enter__(self) -> Self:
        return self

    def __exit__(self, *_: object) -> None:
        self.close()

    def _lend(self) -> tuple[ctypes.c_void_p, int]:
        """The file as it is lent: pointer and length. The pointer keeps the file until the call is done, also if it is closed meanwhile."""
        if self._lent is None:
            raise ValueError("the archive is closed")
        return self._lent

    def _bytes(self) -> NDArray[np.uint8]:
        """The bytes of the file."""
        file = self._file
        self._lend()  # after the line above: close() takes the pointer away before the bytes
        return file

    @property
    def shape(self) -> tuple[int, ...]:
        """The extents of the picture."""
        return self._header.shape

    @property
    def ndim(self) -> int:
        """The number of dimensions."""
        return len(self._header.shape)

    @property
    def setting(self) -> Setting:
        """Kind, width and step."""
        return self._header.setting

    @property
    def kind(self) -> Kind:
        """The header kind."""
        return self._header.setting.kind

    @property
    def empty(self) -> int:
        """The empty word."""
        return self._header.empty

    @property
    def cells(self) -> int:
        """The number of cells."""
        return self._header.cells

    @property
    def stored(self) -> int:
        """The number of stored cells."""
        return self._header.stored
