"""Finding the shared library, and the exceptions themselves."""
import os
import pickle
import re
import shutil
import tempfile
import unittest
import unittest.mock
from pathlib import Path

from support import PACKAGE, ROOT, python

import radar_archive
from radar_archive import Beyond, LibraryNotFound, Refused
from radar_archive.engine import SONAME, VARIABLE, engine
from radar_archive.refusal import refusal

USE = "import radar_archive; print(radar_archive.make([0, 5], kind=2).stored)"


class Finding(unittest.TestCase):
    def setUp(self):
        folder = tempfile.TemporaryDirectory()
        self.addCleanup(folder.cleanup)
        self.folder = Path(folder.name)

    def missing(self, **variables):
        """What is said where no library is found; the import alone needs none."""
        result = python("-c", "import radar_archive; print('imported', flush=True); radar_archive.open(b'')", **variables)
        self.assertEqual((result.returncode, result.stdout), (1, "imported\n"))
        return result.stderr.splitlines()[-1]

    def test_variable_names_nothing(self):
        last = self.missing(**{VARIABLE: str(self.folder / "none.so")})
        for words in ("LibraryNotFound", VARIABLE, "none.so", SONAME):
            self.assertIn(words, last)

    def test_loader_finds_nothing(self):
        result = python("-c", f"import ctypes; ctypes.CDLL({SONAME!r})", **{VARIABLE: None, "LD_LIBRARY_PATH": None})
        if result.returncode == 0:
            self.skipTest(f"{SONAME} is installed here")
        last = self.missing(**{VARIABLE: None, "LD_LIBRARY_PATH": None})
        for words in ("LibraryNotFound", VARIABLE, SONAME, "install the package radar-archive"):
            self.assertIn(words, last)

    def test_loader(self):
        shutil.copy(os.path.realpath(engine()._name), self.folder / SONAME)
        result = python("-c", USE, **{VARIABLE: None, "LD_LIBRARY_PATH": str(self.folder)})
        self.assertEqual((result.stdout, result.stderr), ("1\n", ""))

    def test_another_library(self):
        last = self.missing(**{VARIABLE: python("-c", "import _ctypes; print(_ctypes.__file__)").stdout.strip()})
        self.assertIn("it is not the library of the radar archive", last)

    def test_older_library(self):
        """One that says "empty" without the number of stored cells before is refused."""
        for number, refused in ((0, True), (2, True), (1, False)):
            older = unittest.mock.Mock()
            older.ra_opened_rank.return_value = 255 << 32 | number
            with unittest.mock.patch("radar_archive.engine._loaded", lambda _: older):
                if refused:
                    with self.assertRaisesRegex(LibraryNotFound, "older than 1.2.0"):
                        engine.__wrapped__()
                else:
                    self.assertIs(engine.__wrapped__(), older)

    def test_no_library(self):
        text = self.folder / "text.so"
        text.write_text("no library")
        self.assertIn("text.so", self.missing(**{VARIABLE: str(text)}))
        self.assertTrue(issubclass(LibraryNotFound, OSError))


class Exceptions(unittest.TestCase):
    def test_words_and_sentences(self):
        words = ["short", "kind", "setting", "extent", "counts", "body", "picture", "beyond", "unfit", "small", "other"]
        for number, word in enumerate(words, 1):
            refused = refusal(number)
            self.assertEqual((refused.number, refused.word), (number, word))
            self.assertEqual(str(refused), f"refused, {number} {word}: {refused.sentence}")
            self.assertIsInstance(refused, ValueError)
            self.assertEqual(isinstance(refused, IndexError), number == 8)
            self.assertEqual(type(refused), Beyond if number == 8 else Refused)

    def test_as_in_rust(self):
        """The sentences are those of the Rust crate."""
        source = (ROOT / "host" / "radar-archive" / "src" / "refusal.rs").read_text()
        sentences = re.findall(r'Refusal::\w+ => "([^"]* [^"]*)"', source)
        self.assertEqual([refusal(number).sentence for number in range(1, 12)], sentences)

    def test_pickled(self):
        again = pickle.loads(pickle.dumps(refusal(5, "a sentence", "a.radar")))
        self.assertEqual(str(again), "a.radar: refused, 5 counts: a sentence")

    def test_no_number(self):
        for number in (12, 255):
            with self.assertRaises(RuntimeError):
                refusal(number)

    def test_version(self):
        """The version is that of the header, where the header has one."""
        header = (ROOT / "include" / "radar_archive.h").read_text()
        found = re.search(r'#define RA_VERSION "([^"]*)"', header)
        if found is None:
            self.skipTest("the header has no RA_VERSION")
        self.assertEqual(radar_archive.__version__, found[1])

    def test_calls_as_in_the_header(self):
        """Every call that the package uses is declared, with as many arguments."""
        header = (ROOT / "include" / "radar_archive.h").read_text()
        declared = {name: arguments.count(",") + 1 for name, arguments in re.findall(r"^uint\d+_t (ra_\w+)\(([^)]*)\);", header, re.MULTILINE)}
        from radar_archive.engine import _CALLS

        for name, (_, arguments) in _CALLS.items():
            self.assertEqual(len(arguments), declared[name], name)

    def test_typed(self):
        self.assertTrue((PACKAGE / "src" / "radar_archive" / "py.typed").is_file())
