"""docs/PERFORMANCE.md and its plots are those of the run that is kept beside them; and what host/bench/run says when it can't start."""
import os
import shutil
import subprocess
import tempfile
import unittest
from pathlib import Path

import figures
from results import read_run

MOST_BYTES = 60000
SCRIPT = Path(__file__).parent / "run"


class Document(unittest.TestCase):
    def test_from_one_run(self):
        document = (figures.DOCS / figures.DOCUMENT).read_text()
        for name, text in figures.generated(read_run(figures.DOCS / figures.RUN), document).items():
            self.assertTrue((figures.DOCS / name).read_text() == text, f"docs/{name} is not of the run in docs/{figures.RUN}; run figures.py")

    def test_plots_are_shown(self):
        document = (figures.DOCS / figures.DOCUMENT).read_text()
        for name in figures.PLOTS:
            self.assertIn(f"]({name})", document)
            self.assertLess((figures.DOCS / name).stat().st_size, MOST_BYTES)


class Start(unittest.TestCase):
    def started(self, folder, **surroundings):
        done = subprocess.run([shutil.which("bash"), SCRIPT, folder], capture_output=True, text=True, env={**os.environ, **surroundings})
        return done.returncode, done.stderr

    def test_other_folder(self):
        with tempfile.TemporaryDirectory() as folder:
            status, said = self.started(folder)
        self.assertEqual(status, 2)
        self.assertIn("has no plain.cpp", said)

    def test_tools_missing(self):
        with tempfile.TemporaryDirectory() as folder:
            for name in ("plain.cpp", "bench.cpp"):
                Path(folder, name).touch()
            os.symlink(shutil.which("dirname"), Path(folder, "dirname"))
            status, said = self.started(folder, PATH=folder)
        self.assertEqual(status, 2)
        self.assertIn("zstd lz4 (", said)
        self.assertIn("apt-get install zstd lz4", said)


if __name__ == "__main__":
    unittest.main()
