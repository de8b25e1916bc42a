"""What the tests share: the sample picture, settings, pictures by chance, and other programs."""
import contextlib
import functools
import importlib.metadata
import importlib.util
import os
import subprocess
import sys
import tempfile
import unittest
from pathlib import Path

import numpy as np

from radar_archive import make

PACKAGE = Path(__file__).resolve().parent.parent
ROOT = PACKAGE.parent.parent
SAMPLES = ROOT / "samples"

#: The sample picture of docs/FORMAT.md.
SAMPLE = np.array([0, 0, 7, 9, 0, 5, 0, 0, 0, 0, 300, 0], np.uint32)

#: Some settings of each kind, those at the bounds among them, that fit every picture of at most 256 cells.
SETTINGS = [(1, 0, 0), (2, 0, 0), (3, 1, 1), (3, 1, 3), (3, 2, 255), (4, 1, 0), (4, 2, 0), (5, 0, 2), (5, 0, 64), (6, 1, 1), (6, 1, 255), (6, 2, 3)]

SHAPES = [(1,), (12,), (256,), (3, 4), (1, 7), (2, 3, 5), (4, 1, 6), (2, 3, 4, 5), (1, 1, 1, 1)]


class InFolder(unittest.TestCase):
    """A test in a folder of its own, with an archive that may be saved at `path`."""

    def setUp(self):
        folder = tempfile.TemporaryDirectory()
        self.addCleanup(folder.cleanup)
        self.folder = Path(folder.name)
        self.path = self.folder / "a.radar"
        self.archive = make(SAMPLE, kind="runs")

    def names(self):
        return sorted(os.listdir(self.folder))


def keywords(setting):
    """A setting as the arguments of a call."""
    return dict(zip(("kind", "width", "step"), setting))


def picture_by_chance(random, shape):
    """A picture with runs of some words, and its empty word."""
    empty = int(random.choice([0, 7, 0xFFFFFFFF]))
    words = random.choice(np.array([0, 1, 7, 300, 0xFFFFFFFF], np.uint32), shape)
    return np.where(random.random(shape) < random.random(), np.uint32(empty), words), empty


def needs(*modules):
    """Skips a test where a module is not installed, and says which."""
    missing = [module for module in modules if importlib.util.find_spec(module) is None]
    return unittest.skipIf(missing, f"not installed: {', '.join(missing)}")


def needs_zarr(*modules):
    """Skips a test where a module, numcodecs or Zarr 2 is not installed."""

    def decorated(test):
        other = importlib.util.find_spec("zarr") is not None and not importlib.metadata.version("zarr").startswith("2.")
        return needs("numcodecs", "zarr", *modules)(unittest.skipIf(other, "not tested with another Zarr than 2")(test))

    return decorated


@functools.cache
def environment():
    """The environment of a program that uses the package from its sources."""
    return {**os.environ, "PYTHONPATH": str(PACKAGE / "src"), "PYTHONDONTWRITEBYTECODE": "1"}


def python(*arguments, **changed):
    """Runs a Python program; a variable that is changed to None is taken out."""
    variables = {**environment(), **changed}
    variables = {name: value for name, value in variables.items() if value is not None}
    return subprocess.run([sys.executable, *map(str, arguments)], env=variables, capture_output=True, text=True, timeout=120)


#: A program that saves a picture of two cells, and stops when its temporary file is written until its input ends.
STOPPED = """
import os, sys
import radar_archive

sync = os.fsync

def stop(descriptor):
    os.fsync = sync
    print("written", flush=True)
    sys.stdin.read()
    sync(descriptor)

os.fsync = stop
radar_archive.make([1, 2], kind=2).save(sys.argv[1], replace=True)
"""


@contextlib.contextmanager
def stopped_save(path):
    """Another process in the midst of a save, which replaces the file. `communicate` lets it end."""
    command = [sys.executable, "-c", STOPPED, str(path)]
    with subprocess.Popen(command, env=environment(), stdin=subprocess.PIPE, stdout=subprocess.PIPE, text=True) as child:
        try:
            if child.stdout.readline() != "written\n":
                raise RuntimeError("the save did not come so far")
            yield child
        finally:
            child.kill()
