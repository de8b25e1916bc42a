"""Radar picture archive: numpy arrays over the proved engine.

A picture is an array of 32-bit words of 1 to 4 dimensions, nearly all of them the same empty word. Its file keeps the other words, and a header
of one of six kinds that says where they stood.

>>> import radar_archive
>>> a = radar_archive.make([0, 0, 7, 9, 0, 5, 0, 0, 0, 0, 300, 0], kind="positions")
>>> a.shape, a.setting, a.stored
((12,), Setting(kind=<Kind.POSITIONS: 2>, width=0, step=0), 4)
>>> a[2:6]
array([7, 9, 0, 5], dtype=uint32)
>>> radar_archive.best(a)
<Archive 12, kind 3 base-offset, 4 of 12 cells stored, 76 bytes>
"""
import os
import shlex
from typing import SupportsIndex

from numpy.typing import ArrayLike

from radar_archive.archive import Archive, Place
from radar_archive.engine import LibraryNotFound
from radar_archive.lengths import shortest_setting
from radar_archive.making import made_file
from radar_archive.opening import Bytes, mapped
from radar_archive.refusal import Beyond, Refused
from radar_archive.setting import LONGEST_FILE, MOST_CELLS, Kind, KindLike, Setting

__version__ = "1.2.0"
__all__ = [
    "LONGEST_FILE",
    "MOST_CELLS",
    "Archive",
    "Beyond",
    "Kind",
    "LibraryNotFound",
    "Place",
    "Refused",
    "Setting",
    "best",
    "make",
    "open",
    "shorter",
]


def open(source: str | os.PathLike[str] | Bytes) -> Archive:
    """Opens a file by its path, or by its bytes. The complete check comes first, and a refused file is a `Refused` with 1 to 6.

    A file that is opened by its path is mapped, not read: while it is open it must not be shortened or changed (`save` replaces a file as a whole,
    which is harmless). Bytes that cannot be written are used as they are; a bytearray or another buffer that can be written is copied.

    >>> open(b"")
    Traceback (most recent call last):
    radar_archive.refusal.Refused: refused, 1 short: the file is under 52 bytes
    """
    if not isinstance(source, (str, os.PathLike)):
        return Archive(source)
    name = os.fsdecode(source)
    try:
        return Archive(mapped(source), name)
    except Refused as refused:
        refused.add_note(f"'radar-archive check {shlex.quote(name)}' says more, and names the byte")
        raise


def make(picture: ArrayLike, *, kind: KindLike, width: SupportsIndex = 0, step: SupportsIndex = 0, empty: SupportsIndex = 0) -> Archive:
    """Makes the archive of a picture in a setting. Refuses with 2, 3, 4, 9.

    A uint32 array in row order is used as it is; another integer array is copied, and a value that is no word is a ValueError with its place.
    Other types of numbers are a TypeError.

    >>> make([[1, 2], [3, 4]], kind="paged-runs", step=2, empty=4)
    <Archive 2x2, kind 5 paged-runs, 3 of 4 cells stored, 72 bytes>
    >>> make([[1, 2], [3, -4]], kind="runs")
    Traceback (most recent call last):
    ValueError: the value at (1, 1) is -4; a word is 0 to 4294967295
    """
    return Archive(made_file(picture, kind, width, step, empty))


def best(picture: ArrayLike | Archive, *, empty: SupportsIndex = 0) -> Archive:
    """The archive of a picture, or of an archive's picture, in the setting with the shortest file; on equal length in the lowest kind, width, step.
    The empty word is for an array; an archive has its own.

    >>> best([0, 0, 7, 9, 0, 5, 0, 0, 0, 0, 300, 0]).setting
    Setting(kind=<Kind.BASE_OFFSET: 3>, width=1, step=4)
    """
    archive = picture if isinstance(picture, Archive) else make(picture, kind=Kind.POSITIONS, empty=empty)
    setting = shortest_setting(archive.positions)
    return archive if setting == archive.setting else archive.change(kind=setting.kind, width=setting.width, step=setting.step)


def shorter(first: Archive, second: Archive) -> Archive:
    """The shorter of two archives of one picture, the first on equal length. Refuses with 11."""
    return first.shorter(second)
