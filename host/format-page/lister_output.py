"""What the reader prints as a program."""
import pathlib
import subprocess
import sys
import tempfile

from counting import expect
from layout import file_of, put


def lister(page):
    """python3 reader.py FILE"""
    lines = "0 2 7\n1 3 9\n2 5 5\n3 10 300\n"
    cases = [(data, "%d 12 4\n%s" % (k, lines)) for k, data in enumerate(page.samples, 1)]
    cases += [(b"", "refused 1\n"), (put(page.samples[0], 0, 7, 1), "refused 2\n"), (page.samples[2][:-1], "refused 5\n")]
    cases += [(put(page.samples[4], 52, 7), "refused 6\n"), (file_of([0] * 12, (1, 0, 0)), "1 12 0\n")]
    long = file_of([5] * 20000, (2, 0, 0), 2, (100, 200, 1, 1))
    cases.append((long, "2 20000 20000\n" + "".join("%d %d 5\n" % (r, r) for r in range(20000))))
    with tempfile.TemporaryDirectory() as folder:
        file = pathlib.Path(folder) / "file.radar"
        for data, text in cases:
            file.write_bytes(data)
            done = subprocess.run([sys.executable, page.reader_file, str(file)], capture_output=True)
            expect(done.returncode == 0 and done.stdout == text.encode(), "lister:", done.stdout[:60], done.stderr[-200:])
