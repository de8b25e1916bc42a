"""Arrays as the words of a picture."""
from typing import Any

import numpy as np
from numpy.typing import ArrayLike, NDArray

from radar_archive.numbers import LARGEST


def integers(picture: ArrayLike) -> NDArray[Any]:
    """The array of a picture, of some integer dtype. Nothing is copied where an array is given."""
    if isinstance(picture, np.ma.MaskedArray):
        raise TypeError("a masked array is no picture: its mask would be lost; use .filled(...) first")
    array = np.asarray(picture)
    if array.dtype.kind not in "iu":
        raise TypeError(f"a picture has whole numbers of 32 bits, not {array.dtype}; convert it first, as with .astype(numpy.uint32)")
    return array


def words_of(array: NDArray[Any]) -> NDArray[np.uint32]:
    """The words of an integer array of at least one dimension, in row order, as the engine takes them: the array itself where it is uint32, in
    row order, aligned and of the machine's byte order, else a copy. A value that is no word is refused with its place."""
    if array.dtype.kind == "i" or array.dtype.itemsize > 4:
        _refuse_outside(array)
    return np.require(array, np.uint32, ["C_CONTIGUOUS", "ALIGNED"])


def _refuse_outside(array: NDArray[Any]) -> None:
    """Refuses values that are not 0 to 4294967295."""
    if array.size == 0 or (int(array.min()) >= 0 and int(array.max()) <= LARGEST):
        return
    # Both bounds are numbers of the dtype.
    largest = min(LARGEST, int(np.iinfo(array.dtype).max))
    outside = (array < 0) | (array > largest)
    place = tuple(int(at) for at in np.unravel_index(int(outside.argmax()), array.shape))
    raise ValueError(f"the value at {place} is {array[place]}; a word is 0 to {LARGEST}")
