"""Types, and the package installed by pip into an environment of its own, without the network."""
import importlib.util
import os
import shutil
import subprocess
import sys
import tempfile
import unittest
from pathlib import Path

from support import PACKAGE, needs

CHECK = """
import importlib.metadata, numpy, radar_archive
assert radar_archive.__file__.startswith({prefix!r}), radar_archive.__file__
assert importlib.metadata.version("radar-archive") == radar_archive.__version__
assert radar_archive.make([0, 5], kind=2).stored == 1
points = importlib.metadata.entry_points(group="numcodecs.codecs")
assert [point.value for point in points if point.name == "radar_archive"] == ["radar_archive.codec:RadarArchive"]
"""
CODEC = """
import numcodecs
assert type(numcodecs.get_codec({"id": "radar_archive"})).__module__ == "radar_archive.codec"
"""


def run(*command, **variables):
    """Runs a program away from the sources."""
    environment = {name: value for name, value in os.environ.items() if name != "PYTHONPATH"}
    return subprocess.run(command, env={**environment, **variables}, capture_output=True, text=True, timeout=300, cwd="/")


class Installed(unittest.TestCase):
    @needs("setuptools", "wheel", "venv", "ensurepip")
    def test_pip(self):
        with tempfile.TemporaryDirectory() as name:
            sources, home = Path(name) / "python", Path(name) / "venv"
            shutil.copytree(PACKAGE, sources, ignore=shutil.ignore_patterns("__pycache__", "build", "*.egg-info"))
            made = run(sys.executable, "-m", "venv", "--system-site-packages", str(home))
            self.assertEqual(made.returncode, 0, made.stdout + made.stderr)
            python = str(home / "bin" / "python")
            installed = run(python, "-m", "pip", "install", "--quiet", "--no-index", "--no-deps", "--no-build-isolation", str(sources))
            self.assertEqual(installed.returncode, 0, installed.stderr)
            self.check(python, CHECK.format(prefix=str(home)))
            if importlib.util.find_spec("numcodecs") and importlib.util.find_spec("entrypoints"):
                self.check(python, CODEC)
            [package] = home.glob("lib/python*/site-packages/radar_archive")
            self.assertTrue((package / "py.typed").is_file())

    def check(self, python, program):
        result = run(python, "-c", program)
        self.assertEqual((result.returncode, result.stderr), (0, ""))


class Typed(unittest.TestCase):
    def test_mypy(self):
        mypy = shutil.which("mypy")
        if mypy is None:
            self.skipTest("not installed: mypy")
        with tempfile.TemporaryDirectory() as cache:
            options = ["--strict", "--config-file", str(PACKAGE / "pyproject.toml"), "--cache-dir", cache]
            result = run(mypy, *options, "--python-executable", sys.executable, str(PACKAGE / "src" / "radar_archive"))
        self.assertEqual((result.returncode, result.stderr), (0, ""), result.stdout)
