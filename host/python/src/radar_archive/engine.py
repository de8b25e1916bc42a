"""The engine: its shared library and the calls of it (include/radar_archive.h)."""
import ctypes
import functools
import os
import struct

#: The variable that names the library's file. Without it the loader looks for the library's soname.
VARIABLE = "RADAR_ARCHIVE_LIBRARY"
SONAME = "libradar_archive.so.1"

#: The code of a rank lookup's answer that says the cell is empty. The value is then the number of stored cells before it.
EMPTY = 255

#: A file of kind 2 of two cells. The first is stored; the second is empty.
_TWO_CELLS = struct.pack("<4B14I", 2, 1, 0, 0, 2, 1, 1, 1, 0, 1, 1, 0, 52, 56, 56, 60, 0, 7)

_NUMBER, _ANSWER = ctypes.c_uint32, ctypes.c_uint64
_BUFFER = (ctypes.c_void_p, ctypes.c_size_t)
_DIMENSIONS = (_NUMBER, *_BUFFER)
_CALLS = {
    "ra_check": (_NUMBER, _BUFFER),
    "ra_make": (_NUMBER, (_NUMBER, _NUMBER, _NUMBER, *_DIMENSIONS, _NUMBER, *_BUFFER, *_BUFFER)),
    "ra_write": (_NUMBER, (*_BUFFER, _NUMBER, _NUMBER, *_BUFFER)),
    "ra_change": (_NUMBER, (*_BUFFER, _NUMBER, _NUMBER, _NUMBER, *_BUFFER)),
    "ra_expand": (_NUMBER, (*_BUFFER, *_BUFFER)),
    "ra_box": (_NUMBER, (*_BUFFER, *_BUFFER, *_BUFFER, *_BUFFER)),
    "ra_position_coordinates": (_NUMBER, (*_DIMENSIONS, _NUMBER, *_BUFFER)),
    "ra_coordinates_position": (_ANSWER, (*_DIMENSIONS, *_BUFFER)),
    "ra_shorter": (_ANSWER, (*_BUFFER, *_BUFFER)),
    "ra_opened_cell": (_ANSWER, (*_BUFFER, _NUMBER)),
    "ra_opened_rank": (_ANSWER, (*_BUFFER, _NUMBER)),
    "ra_opened_position": (_ANSWER, (*_BUFFER, _NUMBER)),
}


class LibraryNotFound(OSError):
    """The engine's shared library cannot be loaded."""


@functools.cache
def engine() -> ctypes.CDLL:
    """The loaded library. It is looked for at the first call, and a library that was found is kept."""
    named = os.environ.get(VARIABLE, "")
    library = _loaded(named)
    for name, (result, arguments) in _CALLS.items():
        try:
            call = getattr(library, name)
        except AttributeError:
            raise LibraryNotFound(f"{named or SONAME} has no {name}: it is not the library of the radar archive, or an older one") from None
        call.restype, call.argtypes = result, arguments
    if library.ra_opened_rank(_TWO_CELLS, len(_TWO_CELLS), 1) != EMPTY << 32 | 1:
        raise LibraryNotFound(f"{named or SONAME} does not count the stored cells before an empty cell: it is older than 1.2.0; install a newer one")
    return library


def _loaded(named: str) -> ctypes.CDLL:
    """The library of a file, or of the soname where no file is named."""
    try:
        return ctypes.CDLL(os.path.abspath(named) if named else SONAME)
    except OSError as error:
        if named:
            why = f"{VARIABLE} names {named}, which cannot be loaded ({error})"
            remedy = f"correct it, or unset it and install {SONAME}"
        else:
            why = f"the loader does not find {SONAME} ({error}), and {VARIABLE} is not set"
            remedy = f"install the package radar-archive, or set {VARIABLE} to the library's file"
        raise LibraryNotFound(f"the library of the radar archive is missing: {why}; {remedy}") from None
