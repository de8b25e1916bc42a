"""Refusals: the engine's numbers as exceptions."""
from collections.abc import Callable

from radar_archive.engine import EMPTY

#: What says in a sentence why a number is given, or None for the sentence of the signal list.
Explain = Callable[[int], str | None]

_SIGNALS = {
    1: ("short", "the file is under 52 bytes"),
    2: ("kind", "the kind is not 1 to 6"),
    3: ("setting", "width or step is not allowed for the kind"),
    4: ("extent", "dimension count, extents or their product are not a picture's"),
    5: ("counts", "a count, offset or length is not what the layout gives"),
    6: ("body", "no picture has these bytes"),
    7: ("picture", "the words are not cells in number"),
    8: ("beyond", "a position, rank, coordinate, box or rank range lies outside"),
    9: ("unfit", "an offset of kind 3 does not fit its width"),
    10: ("small", "the destination is shorter than the result"),
    11: ("other", "dimensions, empty word or words of the two files differ"),
}


class Refused(ValueError):
    """A refusal of the engine: `number` and `word` of the signal list, and a `sentence` that says why.

    >>> import radar_archive
    >>> try:
    ...     radar_archive.open(b"radar")
    ... except radar_archive.Refused as refused:
    ...     print(refused.number, refused.word)
    ...     print(refused)
    1 short
    refused, 1 short: the file is under 52 bytes
    """

    def __init__(self, number: int, sentence: str | None = None, name: str | None = None) -> None:
        super().__init__(number, sentence, name)
        #: The number of the signal list, 1 to 11.
        self.number = number
        #: The word of the signal list.
        self.word = _SIGNALS[number][0]
        #: Why, in a sentence.
        self.sentence = sentence or _SIGNALS[number][1]
        #: The file's name, where one was opened by its path.
        self.name = name

    def __str__(self) -> str:
        before = f"{self.name}: " if self.name else ""
        return f"{before}refused, {self.number} {self.word}: {self.sentence}"


class Beyond(Refused, IndexError):
    """The refusal 8: a position, rank, coordinate or index lies outside, or the first of two places comes after the last. It is an IndexError too."""


def refusal(number: int, sentence: str | None = None, name: str | None = None) -> Refused:
    """The exception of a number."""
    if number not in _SIGNALS:
        raise RuntimeError(f"the library answers {number}, which is no number of the signal list")
    return (Beyond if number == 8 else Refused)(number, sentence, name)


def accept(number: int, explain: Explain | None = None) -> None:
    """Raises the refusal of a plain answer that is not 0."""
    if number:
        raise refusal(number, explain(number) if explain else None)


def ranked(answer: int, explain: Explain | None = None) -> tuple[int, bool]:
    """The answer of a rank lookup: the number of stored cells before the cell, and whether the cell is stored."""
    code, before = answer >> 32, answer & 0xFFFFFFFF
    if code == EMPTY:
        return before, False
    accept(code, explain)
    return before, True


def given(answer: int, explain: Explain | None = None) -> int:
    """The value of an answer that is never empty."""
    value, stored = ranked(answer, explain)
    if not stored:
        raise RuntimeError("the library answers empty where it has to give a number")
    return value
