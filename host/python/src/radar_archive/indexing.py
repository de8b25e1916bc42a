"""Indices in square brackets, as numpy has them: what they name along each dimension, and the box around it."""
from collections.abc import Sequence
from typing import Any, NamedTuple

from radar_archive.numbers import whole
from radar_archive.refusal import refusal


class Axis(NamedTuple):
    """What is taken along one dimension, and whether the dimension stays (a slice) or goes (an integer)."""

    taken: range
    stays: bool

    @property
    def low(self) -> int:
        """The lowest coordinate; something is taken."""
        return min(self.taken[0], self.taken[-1])

    @property
    def high(self) -> int:
        """The highest coordinate; something is taken."""
        return max(self.taken[0], self.taken[-1])

    @property
    def in_box(self) -> slice | int:
        """What is taken of the box from low to high."""
        return slice(None, None, self.taken.step) if self.stays else 0


def axes(key: Any, shape: tuple[int, ...]) -> list[Axis]:
    """What a key takes along each dimension of a picture."""
    return [_axis(index, extent, place) for place, (index, extent) in enumerate(zip(_filled(key, len(shape)), shape))]


def shape_of(taken: Sequence[Axis]) -> tuple[int, ...]:
    """The shape of the result."""
    return tuple(len(axis.taken) for axis in taken if axis.stays)


def has_ellipsis(key: Any) -> bool:
    """Whether the key has an Ellipsis: then numpy gives an array, also of no dimensions."""
    return any(index is Ellipsis for index in _parts(key))


def _parts(key: Any) -> tuple[Any, ...]:
    return key if isinstance(key, tuple) else (key,)


def _filled(key: Any, count: int) -> tuple[Any, ...]:
    """One index for each dimension: whole slices for an Ellipsis and for what is not named."""
    parts = _parts(key)
    ellipses = [place for place, index in enumerate(parts) if index is Ellipsis]
    if len(ellipses) > 1:
        raise IndexError("an index can only have a single ellipsis ('...')")
    named = len(parts) - len(ellipses)
    if named > count:
        raise refusal(8, f"too many indices: the picture has {count} dimensions, but {named} were indexed")
    place = ellipses[0] if ellipses else named
    return parts[:place] + (slice(None),) * (count - named) + parts[place + len(ellipses) :]


def _axis(index: Any, extent: int, place: int) -> Axis:
    """What one index takes along a dimension."""
    if isinstance(index, slice):
        return Axis(range(*index.indices(extent)), True)
    at = _integer(index)
    if not -extent <= at < extent:
        raise refusal(8, f"index {at} is out of bounds for axis {place} with size {extent}")
    at %= extent
    return Axis(range(at, at + 1), False)


def _integer(index: Any) -> int:
    """An integer; masks, index arrays and None are a TypeError."""
    try:
        return whole(index, "an index")
    except TypeError:
        what = "None" if index is None else type(index).__name__
        message = f"a picture is indexed by integers, slices and Ellipsis, not by {what}; .words is an array that takes every index of numpy"
        raise TypeError(message) from None
