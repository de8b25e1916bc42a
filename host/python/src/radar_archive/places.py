"""Why a place in a picture is refused with 8."""
from collections.abc import Sequence
from typing import Any

import numpy as np


def position(at: object, cells: int) -> str:
    """A position past the cells."""
    return f"position {at} is outside the picture: its positions are 0 to {cells - 1}"


def rank(number: int, stored: int) -> str:
    """A rank past the stored cells."""
    if stored == 0:
        return f"rank {number} is outside: the picture has no stored cells"
    return f"rank {number} is outside: the ranks of the {stored} stored cells are 0 to {stored - 1}"


def coordinates(at: Sequence[int], shape: tuple[int, ...]) -> str:
    """Coordinates that are too many, too few or outside."""
    given, extents = ", ".join(map(str, at)), "x".join(map(str, shape))
    if len(at) != len(shape):
        return f"({given}) has {len(at)} coordinates; the picture {extents} has {len(shape)} dimensions"
    axis = next(axis for axis, extent in enumerate(shape) if not 0 <= at[axis] < extent)
    return f"({given}) is outside the picture {extents}: coordinate {axis} is 0 to {shape[axis] - 1}"


def order(first: Any, last: Any) -> str:
    """A first place after the last, each as it was given."""
    return f"{_named(first)} comes after {_named(last)} in row order; exchange them"


def _named(at: Any) -> str:
    """A position, or coordinates."""
    return f"({', '.join(map(str, at))})" if np.ndim(at) else f"position {at}"
