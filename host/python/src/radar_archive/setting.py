"""Settings: kind, width and step."""
from collections.abc import Iterator
from enum import IntEnum
from typing import NamedTuple, SupportsIndex

from radar_archive.numbers import whole
from radar_archive.refusal import refusal

#: The bytes before the first part of a file.
HEADER_LENGTH = 52
#: The most cells of a picture.
MOST_CELLS = 16_777_216
#: The longest file, in bytes.
LONGEST_FILE = 167_772_212


class Kind(IntEnum):
    """The six header kinds. A call takes a kind as this, as its number or as its name.

    >>> Kind.BASE_OFFSET
    <Kind.BASE_OFFSET: 3>
    >>> str(Kind.BASE_OFFSET), int(Kind.BASE_OFFSET)
    ('base-offset', 3)
    """

    RUNS = 1
    POSITIONS = 2
    BASE_OFFSET = 3
    JUMPS = 4
    PAGED_RUNS = 5
    POINTED_JUMPS = 6

    def __str__(self) -> str:
        return self.name.lower().replace("_", "-")


#: What a call takes as a kind.
KindLike = Kind | SupportsIndex | str

_NAMES = {str(kind): kind for kind in Kind}
_ALLOWED = {
    Kind.RUNS: (range(1), range(1)),
    Kind.POSITIONS: (range(1), range(1)),
    Kind.BASE_OFFSET: (range(1, 3), range(1, 256)),
    Kind.JUMPS: (range(1, 3), range(1)),
    Kind.PAGED_RUNS: (range(1), range(2, 65)),
    Kind.POINTED_JUMPS: (range(1, 3), range(1, 256)),
}


class Setting(NamedTuple):
    """Kind, width and step of a file; width and step are 0 where the kind has none."""

    kind: Kind
    width: int
    step: int


def setting_numbers(kind: KindLike, width: SupportsIndex, step: SupportsIndex) -> tuple[int, int, int]:
    """The three numbers of a setting as they were given; the engine judges them."""
    if isinstance(kind, str):
        if kind not in _NAMES:
            raise refusal(2, unknown_kind(repr(kind)))
        kind = _NAMES[kind]
    return whole(kind, "kind"), whole(width, "width"), whole(step, "step")


def all_settings() -> Iterator[Setting]:
    """Every setting that is allowed, in rising order."""
    for kind, (widths, steps) in _ALLOWED.items():
        for width in widths:
            for step in steps:
                yield Setting(kind, width, step)


def upper_entries(runs: int, step: int) -> int:
    """The entries above level 0 of a kind 5 file with so many runs."""
    upper = 0
    while runs > step:
        runs = -(-runs // step)
        upper += runs
    return upper


def pointers(jumps: int, step: int) -> int:
    """The pointers of a kind 6 file with so many jumps."""
    return -(-jumps // step)


def longest_file(numbers: tuple[int, int, int], stored: int) -> int:
    """A length in bytes that no file of a setting with so many stored cells exceeds; 0 for a setting that is not allowed."""
    kind, width, step = numbers
    if kind not in _ALLOWED or width not in _ALLOWED[Kind(kind)][0] or step not in _ALLOWED[Kind(kind)][1]:
        return 0
    if kind == Kind.RUNS:
        parts = 8 * stored
    elif kind == Kind.BASE_OFFSET:
        parts = 4 * -(-stored // step) + width * stored
    elif kind == Kind.PAGED_RUNS:
        parts = 8 * (stored + upper_entries(stored, step))
    elif kind == Kind.POINTED_JUMPS:
        parts = (4 + width) * stored + 4 * pointers(stored, step)
    else:
        parts = (4 + width) * stored
    return HEADER_LENGTH + parts + 4 * stored


def unknown_kind(kind: str) -> str:
    """Why a kind is refused with 2."""
    known = ", ".join(f"{kind:d} {kind}" for kind in Kind)
    return f"there is no kind {kind}; the kinds are {known}"


def explain_setting(number: int, numbers: tuple[int, int, int]) -> str | None:
    """Why a setting that was asked for is refused with 2, 3 or 9, and what to do."""
    kind, width, step = numbers
    if number == 2:
        return unknown_kind(str(kind))
    if number == 3:
        both = "width 1 or 2 and step 1 to 255"
        wanted = {3: both, 4: "width 1 or 2 and no step", 5: "step 2 to 64 and no width", 6: both}
        needs = wanted.get(kind, "no width and no step")
        return f"kind {kind} {Kind(kind)} does not go with width {width} and step {step}; it takes {needs}"
    if number == 9:
        wider = "width 2 or " if width == 1 else ""
        return f"an offset does not fit width {width} at step {step}; use {wider}a smaller step"
    return None
