"""Numbers from Python as the engine takes them, 32 bits wide."""
import operator
from typing import SupportsIndex

import numpy as np

#: The largest number of 32 bits.
LARGEST = 0xFFFFFFFF


def whole(number: SupportsIndex, what: str) -> int:
    """A whole number; True and False are none."""
    if isinstance(number, (bool, np.bool_)):
        raise TypeError(f"{what} is a whole number, not {number}")
    try:
        return operator.index(number)
    except TypeError:
        raise TypeError(f"{what} is a whole number, not {type(number).__name__}") from None


def lent(number: int) -> int:
    """A position, rank, coordinate, extent, kind, width or step, to be lent to the engine. A number that has no place in 32 bits is lent as
    the largest, which the engine refuses in each of these places."""
    return number if 0 <= number <= LARGEST else LARGEST


def word_of(number: SupportsIndex, what: str) -> int:
    """A word: 0 to 4294967295."""
    given = whole(number, what)
    if not 0 <= given <= LARGEST:
        raise ValueError(f"{what} is {given}; a word is 0 to {LARGEST}")
    return given
