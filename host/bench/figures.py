#!/usr/bin/env python3
"""Writes docs/performance/*.svg and the generated parts of docs/PERFORMANCE.md from the raw output of one run.

    figures.py [FOLDER]    FOLDER has bench.txt, sizes.txt and conditions.txt, and peers.txt where the peers were asked; without it the last run's, docs/performance/run

Nothing is written unless the whole run is fit for it.
"""
import sys
from pathlib import Path

sys.dont_write_bytecode = True  # before the modules beside this one are loaded

import growth_plot
import page
import ratio_plot
import size_plot
import tables
from results import FILES, PEERS, Unfit, read_run

DOCS = Path(__file__).resolve().parents[2] / "docs"
DOCUMENT = Path("PERFORMANCE.md")
RUN = Path("performance/run")
PLOTS = {"performance/ratios.svg": ratio_plot.plot, "performance/growth.svg": growth_plot.plot, "performance/sizes.svg": size_plot.plot}


def generated(results, document):
    """The text of each file below docs/ that a run gives; `document` is the one whose parts are put anew."""
    files = {name: plot(results) for name, plot in PLOTS.items()}
    files[str(DOCUMENT)] = page.with_parts(document, {name: part(results) for name, part in tables.PARTS.items()})
    return files


def main():
    folder = Path(sys.argv[1]) if len(sys.argv) > 1 else DOCS / RUN
    try:
        files = generated(read_run(folder), (DOCS / DOCUMENT).read_text())
    except Unfit as error:
        sys.exit(f"figures: {error}; nothing written")
    found = [name for name in [*FILES, PEERS] if (folder / name).exists()]
    files.update({str(RUN / name): (folder / name).read_text() for name in found})
    (DOCS / RUN).mkdir(parents=True, exist_ok=True)
    if PEERS not in found:
        (DOCS / RUN / PEERS).unlink(missing_ok=True)
    for name, text in files.items():
        (DOCS / name).write_text(text)
        print(f"docs/{name}: {len(text.encode()):,} bytes")


if __name__ == "__main__":
    main()
