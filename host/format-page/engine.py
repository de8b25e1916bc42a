"""The compiled engine: a shared library made from the static one, and its calls (include/radar_archive.h) over plain values."""
import ctypes
import os
import pathlib
import subprocess
from array import array

from page import ROOT

NUMBER, SLICE = ctypes.c_uint32, (ctypes.c_void_p, ctypes.c_size_t)
ARGUMENTS = {
    "ra_check": SLICE,
    "ra_make": (NUMBER,) * 4 + SLICE + (NUMBER,) + SLICE + SLICE,
    "ra_expand": SLICE + SLICE,
}
LOOKUPS = ("ra_cell", "ra_rank", "ra_position")


def static_library():
    """The path of libexports.a: in the folder that RADAR_ARCHIVE_LIB_DIR names, else in target/staticlib."""
    path = pathlib.Path(os.environ.get("RADAR_ARCHIVE_LIB_DIR", ROOT / "target" / "staticlib")) / "libexports.a"
    if not path.is_file():
        raise FileNotFoundError("%s is missing; run host/package/prove" % path)
    return str(path)


class Engine:
    """The engine, with its shared library built in a folder."""

    def __init__(self, folder):
        shared = str(pathlib.Path(folder) / "libengine.so")
        whole = ["-Wl,--whole-archive", static_library(), "-Wl,--no-whole-archive"]
        subprocess.run(["gcc", "-shared", "-o", shared] + whole, check=True)
        self.library = ctypes.CDLL(shared)
        for name, arguments in ARGUMENTS.items():
            call = getattr(self.library, name)
            call.argtypes, call.restype = arguments, NUMBER
        for name in LOOKUPS:
            call = getattr(self.library, name)
            call.argtypes, call.restype = SLICE + (NUMBER,), ctypes.c_uint64

    def check(self, data):
        """The number of a file, 0 when it is accepted."""
        return self.library.ra_check(data, len(data))

    def make(self, words, setting, dims, extents, empty):
        """The file of a picture, or None where an offset of kind 3 does not fit."""
        lent, sizes = array("I", words), array("I", extents)
        stored = len(words) - words.count(empty)
        # Kind 5 needs the most for a stored cell: 8 bytes for a run, at most 16 for the levels above it, 4 for the word.
        file = array("B", bytes(52 + 28 * stored))
        number = self.library.ra_make(*setting, dims, *sizes.buffer_info(), empty, *lent.buffer_info(), *file.buffer_info())
        if number == 9:
            return None
        if number != 0:
            raise ValueError("ra_make gives %d" % number)
        return file[:int.from_bytes(file[48:52], "little")].tobytes()

    def lookup(self, name, data, number):
        """What cell, rank or position gives on an accepted file: its value; for an empty cell "empty" and the number of stored cells before it."""
        code, value = divmod(getattr(self.library, "ra_" + name)(data, len(data), number), 2 ** 32)
        if code not in (0, 255):
            raise ValueError("ra_%s gives %d" % (name, code))
        return value if code == 0 else ("empty", value)

    def expand(self, data, cells):
        """All words of an accepted file."""
        words = array("I", bytes(4 * cells))
        number = self.library.ra_expand(data, len(data), *words.buffer_info())
        if number != 0:
            raise ValueError("ra_expand gives %d" % number)
        return words.tolist()
