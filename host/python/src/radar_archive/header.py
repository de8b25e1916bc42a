"""The header of an accepted file."""
import math
import struct
from typing import NamedTuple

import numpy as np
from numpy.typing import NDArray

from radar_archive.numbers import lent
from radar_archive.setting import HEADER_LENGTH, Kind, Setting


class Dimensions(NamedTuple):
    """The dimensions as the calls take them: their number, and four extents."""

    number: int
    extents: NDArray[np.uint32]

    @classmethod
    def of(cls, shape: tuple[int, ...]) -> "Dimensions":
        """The dimensions of a shape. The engine refuses what no picture has."""
        padded = [lent(extent) for extent in shape[:4]] + [1] * (4 - len(shape))
        return cls(len(shape), np.array(padded, np.uint32))

    @property
    def lent(self) -> tuple[int, int, int]:
        """What a call is lent: number, pointer and length."""
        return self.number, self.extents.ctypes.data, 4


class Header(NamedTuple):
    """What an accepted file says of itself."""

    setting: Setting
    shape: tuple[int, ...]
    empty: int
    stored: int
    words_at: int
    length: int

    @classmethod
    def of(cls, file: NDArray[np.uint8]) -> "Header":
        """Reads the header of an accepted file."""
        fields = struct.unpack("<4B12I", file[:HEADER_LENGTH].tobytes())
        kind, count, width, step = fields[:4]
        return cls(Setting(Kind(kind), width, step), fields[4 : 4 + count], fields[8], fields[9], fields[14], fields[15])

    @property
    def cells(self) -> int:
        """The number of cells."""
        return math.prod(self.shape)
