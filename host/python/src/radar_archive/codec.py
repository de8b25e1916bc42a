"""A codec of numcodecs, so that the chunks of a Zarr store are picture files.

>>> import numpy, numcodecs, radar_archive.codec
>>> codec = numcodecs.get_codec({"id": "radar_archive", "kind": "jumps", "width": 1})
>>> file = codec.encode(numpy.array([0, 0, 7, 9], numpy.uint32))
>>> radar_archive.open(file)
<Archive 4, kind 4 jumps, 2 of 4 cells stored, 66 bytes>
>>> codec.decode(file)
array([0, 0, 7, 9], dtype=uint32)
"""
from typing import Any, SupportsIndex

import numpy as np
from numcodecs.abc import Codec
from numcodecs.compat import ensure_contiguous_ndarray
from numcodecs.registry import register_codec
from numpy.typing import NDArray

from radar_archive import Archive, best, make
from radar_archive.numbers import whole, word_of
from radar_archive.setting import KindLike
from radar_archive.words import integers

_WORDS = np.dtype("<u4")


class RadarArchive(Codec):  # type: ignore[misc]
    """Chunks as picture files, in one setting or each in its shortest one (kind "best").

    A chunk is an array of dtype uint32, lowest byte first ("<u4", the native one nearly everywhere), of 1 to 4 dimensions and at most
    16,777,216 cells. A chunk in Fortran order is kept with its dimensions in reverse, so that its words stay in the order of memory; Zarr
    reads it back as it was. `empty` is the empty word; it does not depend on the store's fill value, but is well chosen as the same.
    """

    codec_id = "radar_archive"

    def __init__(self, kind: KindLike = "best", width: SupportsIndex = 0, step: SupportsIndex = 0, empty: SupportsIndex = 0) -> None:
        self.kind: str | int = kind if isinstance(kind, str) else whole(kind, "kind")
        self.width = whole(width, "width")
        self.step = whole(step, "step")
        self.empty = word_of(empty, "the empty word")
        self._refuse_setting()

    def _refuse_setting(self) -> None:
        """Refuses a setting that no chunk could have, before a store is made with it."""
        if self.kind == "best" and (self.width or self.step):
            raise ValueError("kind 'best' chooses width and step itself; leave them out")
        self._made(np.zeros(1, _WORDS))

    def encode(self, buf: Any) -> bytes:
        """The file of a chunk."""
        array = integers(buf)
        if array.dtype != _WORDS:
            raise TypeError(f"a chunk has dtype uint32, lowest byte first ('<u4'), not {array.dtype}; give the store that dtype")
        in_rows = array.flags.c_contiguous or not array.flags.f_contiguous
        return bytes(self._made(array if in_rows else array.T))

    def _made(self, array: NDArray[Any]) -> Archive:
        """The archive of a chunk in the codec's setting."""
        if self.kind == "best":
            return best(array, empty=self.empty)
        return make(array, kind=self.kind, width=self.width, step=self.step, empty=self.empty)

    def decode(self, buf: Any, out: Any = None) -> NDArray[Any]:
        """The words of a file, which is checked completely. They go to `out` where it is given; a refused file leaves it as it was."""
        archive = Archive(ensure_contiguous_ndarray(buf).view(np.uint8))
        if out is None:
            return archive.words.astype(_WORDS, copy=False)
        words = ensure_contiguous_ndarray(out).view(np.uint8)
        if words.size != 4 * archive.cells:
            raise ValueError(f"out has {words.size} bytes; the words of the chunk have {4 * archive.cells}")
        words[:] = archive.words.astype(_WORDS, copy=False).reshape(-1).view(np.uint8)
        return out  # type: ignore[no-any-return]


register_codec(RadarArchive)
