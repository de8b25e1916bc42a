"""An opened file."""
import os
from collections.abc import Iterator, Sequence
from typing import Any, SupportsIndex

import numpy as np
from numpy.typing import DTypeLike, NDArray

from radar_archive import places, saving
from radar_archive.accepted import AcceptedFile
from radar_archive.engine import engine
from radar_archive.indexing import Axis, axes, has_ellipsis, shape_of
from radar_archive.making import put_out
from radar_archive.numbers import lent, whole, word_of
from radar_archive.opening import bytes_of
from radar_archive.refusal import accept, given, ranked, refusal
from radar_archive.setting import HEADER_LENGTH, Kind, KindLike, explain_setting, longest_file, setting_numbers

#: A position, or as many coordinates as the picture has dimensions.
Place = SupportsIndex | Sequence[SupportsIndex]

#: The stored cells that are handed on at a time.
_CHUNK = 65_536


class Archive(AcceptedFile):
    """An accepted file, opened. `open`, `make` and `best` give one; the file is checked completely, and a refused one is a `Refused`.

    >>> from radar_archive import make
    >>> a = make([[0, 0, 7, 9], [0, 5, 0, 0], [0, 0, 300, 0]], kind="positions")
    >>> a
    <Archive 3x4, kind 2 positions, 4 of 12 cells stored, 84 bytes>
    >>> a[0, 1:]
    array([0, 7, 9], dtype=uint32)
    >>> a.cell((2, 2)), a.rank((2, 2)), a.rank(11), a.before(11)
    (300, 3, None, 4)
    >>> list(a)
    [(2, 7), (3, 9), (5, 5), (10, 300)]

    `len(a)` is the number of stored cells, as iteration gives them; the first extent is `a.shape[0]`.
    """

    __slots__ = ()

    #: The type of a word, as numpy has it.
    dtype = np.dtype(np.uint32)

    def __len__(self) -> int:
        return self._header.stored

    def __bool__(self) -> bool:
        return True

    @property
    def file(self) -> memoryview:
        """The bytes of the file, not copied; `bytes(a)` copies them."""
        return self._bytes().data

    def __bytes__(self) -> bytes:
        return self.file.tobytes()

    def __reduce__(self) -> tuple[type["Archive"], tuple[bytes]]:
        return Archive, (bytes(self),)

    def __repr__(self) -> str:
        extents = "x".join(str(extent) for extent in self.shape)
        length = self._header.length
        return f"<Archive {extents}, kind {self.kind:d} {self.kind}, {self.stored} of {self.cells} cells stored, {length} bytes>"

    @property
    def words(self) -> NDArray[np.uint32]:
        """All words, in the picture's shape: a new array each time."""
        words = np.empty(self.shape, np.uint32)
        accept(engine().ra_expand(*self._lend(), words.ctypes.data, words.size))
        return words

    def __array__(self, dtype: DTypeLike = None, copy: bool | None = None) -> NDArray[Any]:
        if copy is False:
            raise ValueError("the words of an archive are a new array each time, so a copy cannot be avoided")
        return self.words if dtype is None else self.words.astype(dtype, copy=False)

    def __getitem__(self, key: Any) -> Any:
        """The words that an index names, as numpy has it: integers, slices and Ellipsis. An integer for each dimension gives a word, else it is
        a new array: the engine checks the file and puts out the box around what is named. An array or a mask in the index is a TypeError.

        >>> from radar_archive import make
        >>> a = make([[0, 0, 7, 9], [0, 5, 0, 0], [0, 0, 300, 0]], kind="runs")
        >>> int(a[-1, 2])
        300
        >>> a[::2, 2]
        array([  7, 300], dtype=uint32)
        >>> a[3]
        Traceback (most recent call last):
        radar_archive.refusal.Beyond: refused, 8 beyond: index 3 is out of bounds for axis 0 with size 3
        """
        taken = axes(key, self.shape)
        shape = shape_of(taken)
        if not shape and not has_ellipsis(key):
            return np.uint32(self.cell([axis.low for axis in taken]))
        if 0 in shape:
            self._lend()
            return np.empty(shape, np.uint32)
        box = self._box(taken)[tuple(axis.in_box for axis in taken)]
        return np.array(box, order="C") if box.ndim and not box.flags.c_contiguous else np.asarray(box)

    def _box(self, taken: list[Axis]) -> NDArray[np.uint32]:
        """The words of the box around what is taken."""
        corners = np.zeros((2, 4), np.uint32)
        corners[0, : self.ndim] = [axis.low for axis in taken]
        corners[1, : self.ndim] = [axis.high for axis in taken]
        words = np.empty([axis.high - axis.low + 1 for axis in taken], np.uint32)
        low = corners.ctypes.data
        accept(engine().ra_box(*self._lend(), low, 4, low + 16, 4, words.ctypes.data, words.size))
        return words

    def cell(self, at: Place) -> int:
        """The word at a position or at coordinates; the empty word for an empty cell. Refuses with 8."""
        position = self._position_of(at)
        return given(engine().ra_opened_cell(*self._lend(), position), lambda _: places.position(at, self.cells))

    def rank(self, at: Place) -> int | None:
        """The rank at a position or at coordinates, or None for an empty cell. Refuses with 8."""
        before, stored = self._ranked(at, self._position_of(at))
        return before if stored else None

    def before(self, at: Place) -> int:
        """The number of stored cells before a position or coordinates: the rank where the cell is stored. Refuses with 8.

        >>> from radar_archive import make
        >>> a = make([0, 0, 7, 9, 0, 5, 0, 0, 0, 0, 300, 0], kind="runs")
        >>> a.before(5), a.before(6), a.before(11)
        (2, 3, 4)
        """
        return self._ranked(at, self._position_of(at))[0]

    def count(self, first: Place, last: Place) -> int:
        """The number of stored cells from one place to another in row order, both inclusive. Refuses with 8, also a first place after the last.

        >>> from radar_archive import make
        >>> a = make([[0, 0, 7, 9], [0, 5, 0, 0], [0, 0, 300, 0]], kind="runs")
        >>> a.count(3, 5), a.count((0, 3), (1, 1)), a.count((1, 2), (2, 1))
        (2, 2, 0)
        >>> a.count((1, 1), 3)
        Traceback (most recent call last):
        radar_archive.refusal.Beyond: refused, 8 beyond: (1, 1) comes after position 3 in row order; exchange them
        """
        begin, end = self._position_of(first), self._position_of(last)
        before, _ = self._ranked(first, begin)
        before_last, stored = self._ranked(last, end)
        if begin > end:
            raise refusal(8, places.order(first, last))
        return before_last + stored - before

    def _ranked(self, at: Place, position: int) -> tuple[int, bool]:
        """The number of stored cells before a place, whose position is given, and whether its cell is stored."""
        return ranked(engine().ra_opened_rank(*self._lend(), position), lambda _: places.position(at, self.cells))

    def position(self, rank: SupportsIndex) -> int:
        """The position of a rank. Refuses with 8."""
        number = whole(rank, "a rank")
        return given(engine().ra_opened_position(*self._lend(), lent(number)), lambda _: places.rank(number, self.stored))

    def coordinates(self, position: SupportsIndex) -> tuple[int, ...]:
        """The coordinates of a position. Refuses with 8."""
        number = whole(position, "a position")
        at = np.empty(4, np.uint32)
        answer = engine().ra_position_coordinates(*self._dimensions.lent, lent(number), at.ctypes.data, 4)
        accept(answer, lambda _: places.position(number, self.cells))
        return tuple(at[: self.ndim].tolist())

    def _position_of(self, at: Place) -> int:
        """A place as a position; one that is given as a position is not judged yet."""
        if isinstance(at, np.ndarray):
            at = at.tolist()
        if not isinstance(at, Sequence):
            return lent(whole(at, "a position"))
        given_at = [whole(coordinate, "a coordinate") for coordinate in at]
        if len(given_at) != self.ndim:
            raise refusal(8, places.coordinates(given_at, self.shape))
        four = np.zeros(4, np.uint32)
        four[: self.ndim] = [lent(coordinate) for coordinate in given_at]
        answer = engine().ra_coordinates_position(*self._dimensions.lent, four.ctypes.data, 4)
        return given(answer, lambda _: places.coordinates(given_at, self.shape))

    @property
    def stored_words(self) -> NDArray[np.uint32]:
        """The words of the stored cells by rank. On machines with the lowest byte first this is the file itself, not copied; it cannot be
        written, and in kinds 3, 4 and 6 its items may stand at odd addresses (`flags.aligned`)."""
        return self._numbers(self._bytes(), self._header.words_at)

    @property
    def positions(self) -> NDArray[np.uint32]:
        """The positions of the stored cells by rank, which rise. In kind 2 this is the file itself, not copied; in the other kinds the engine
        puts the file out in kind 2 in memory, each time."""
        file = self._bytes() if self.kind == Kind.POSITIONS else bytes_of(self._changed((2, 0, 0)))
        return self._numbers(file, HEADER_LENGTH)

    def _numbers(self, file: NDArray[np.uint8], start: int) -> NDArray[np.uint32]:
        """As many numbers of 32 bits, lowest byte first, as there are stored cells."""
        return file[start : start + 4 * self.stored].view("<u4").astype(np.uint32, copy=False)

    def chunks(self, size: int = _CHUNK) -> Iterator[tuple[NDArray[np.uint32], NDArray[np.uint32]]]:
        """The stored cells in rising order, at most `size` at a time: their positions and their words."""
        if size < 1:
            raise ValueError(f"a chunk has at least 1 cell, not {size}")
        positions, words = self.positions, self.stored_words
        return ((positions[at : at + size], words[at : at + size]) for at in range(0, self.stored, size))

    def __iter__(self) -> Iterator[tuple[int, int]]:
        for positions, words in self.chunks():
            yield from zip(positions.tolist(), words.tolist())

    def write(self, at: Place, word: SupportsIndex) -> "Archive":
        """The archive after writing one cell, in the same setting; writing the empty word empties the cell. Refuses with 8, 9.

        >>> from radar_archive import make
        >>> a = make([0, 0, 7, 9], kind="runs")
        >>> a.write(1, 41).words
        array([ 0, 41,  7,  9], dtype=uint32)
        """
        position, written = self._position_of(at), word_of(word, "the word")
        longest = longest_file(self.setting, min(self.stored + 1, self.cells))

        def explain(number: int) -> str | None:
            return places.position(at, self.cells) if number == 8 else explain_setting(number, self.setting)

        lent_file = self._lend()
        return Archive(put_out(longest, lambda *room: int(engine().ra_write(*lent_file, position, written, *room)), explain))

    def change(self, *, kind: KindLike, width: SupportsIndex = 0, step: SupportsIndex = 0) -> "Archive":
        """The archive in another setting. Refuses with 2, 3, 9.

        >>> from radar_archive import make
        >>> make([0, 0, 7, 9], kind="runs").change(kind="jumps", width=1)
        <Archive 4, kind 4 jumps, 2 of 4 cells stored, 66 bytes>
        """
        return Archive(self._changed(setting_numbers(kind, width, step)))

    def _changed(self, numbers: tuple[int, int, int]) -> bytes:
        """The file in another setting."""
        before_room = (*self._lend(), *map(lent, numbers))
        longest = longest_file(numbers, self.stored)
        return put_out(longest, lambda *room: int(engine().ra_change(*before_room, *room)), lambda number: explain_setting(number, numbers))

    def shorter(self, other: "Archive") -> "Archive":
        """The shorter of two archives of one picture, this one on equal length. Refuses with 11."""
        return other if given(engine().ra_shorter(*self._lend(), *other._lend())) else self

    def save(self, path: str | os.PathLike[str], *, replace: bool = False) -> None:
        """Writes the file, whole or not at all. A file that is there is a FileExistsError and stays, unless it may be replaced.

        Saves, and calls of the command, that replace one file at the same time take turns; a turn that does not come within 30 seconds is a
        TimeoutError. Only the save is protected: what others write to the file between your `open` and your `save` is lost, unless you and
        they hold a lock of your own around both, on another file.
        """
        saving.save(self.file, path, replace)
