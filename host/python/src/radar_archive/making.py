"""Files put out by the engine."""
from collections.abc import Callable
from typing import SupportsIndex

import numpy as np
from numpy.typing import ArrayLike, NDArray

from radar_archive.engine import engine
from radar_archive.header import Dimensions
from radar_archive.numbers import lent, word_of
from radar_archive.refusal import Explain, accept
from radar_archive.setting import MOST_CELLS, KindLike, explain_setting, longest_file, setting_numbers
from radar_archive.words import integers, words_of

#: The engine's answer to a picture whose setting and dimensions are right, where no words are lent.
_NO_WORDS = 7


def put_out(longest: int, call: Callable[[int, int], int], explain: Explain) -> bytes:
    """The file that a call puts in a destination, which is lent as pointer and length."""
    room = np.empty(longest, np.uint8)
    accept(call(room.ctypes.data, room.size), explain)
    length = int.from_bytes(room[48:52].tobytes(), "little")
    return room[:length].tobytes()


def made_file(picture: ArrayLike, kind: KindLike, width: SupportsIndex, step: SupportsIndex, empty: SupportsIndex) -> bytes:
    """The file of a picture in a setting. Refuses with 2, 3, 4, 9."""
    numbers = setting_numbers(kind, width, step)
    empty_word = word_of(empty, "the empty word")
    array = integers(picture)
    dimensions = Dimensions.of(array.shape)

    def explain(number: int) -> str | None:
        return _explain_shape(array.shape) if number == 4 else explain_setting(number, numbers)

    make = engine().ra_make
    before_words = (*map(lent, numbers), *dimensions.lent, empty_word)
    number = make(*before_words, None, 0, None, 0)
    if number != _NO_WORDS:
        accept(number, explain)
    words = words_of(array)
    longest = longest_file(numbers, _stored(words, empty_word))
    return put_out(longest, lambda *room: int(make(*before_words, words.ctypes.data, words.size, *room)), explain)


def _stored(words: NDArray[np.uint32], empty: int) -> int:
    """The number of words that are not the empty word."""
    return int(np.count_nonzero(words != np.uint32(empty)))


def _explain_shape(shape: tuple[int, ...]) -> str:
    """Why the shape of an array is refused with 4."""
    if not 1 <= len(shape) <= 4:
        return f"the array has {len(shape)} dimensions; a picture has 1 to 4"
    extents = "x".join(str(extent) for extent in shape)
    if 0 in shape:
        return f"the array is {extents}; each extent of a picture is at least 1"
    return f"the array is {extents}, more than the {MOST_CELLS} cells of the largest picture; use several, as the codec for Zarr does"
