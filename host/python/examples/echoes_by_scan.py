#!/usr/bin/env python3
"""Checks 1,000 recordings and counts their echoes by scan, with dask.

Each recording is a picture of 6 scans, 16 bearings and 32 ranges, made here in a temporary folder; one of them is damaged. Every file is checked
completely when it is opened. An echo is a stored cell; those of a scan are counted from its first cell to its last, whether or not these are stored.
"""
import tempfile
from pathlib import Path

import dask
import numpy as np

import radar_archive

RECORDINGS, SHAPE = 1000, (6, 16, 32)
FILES_A_TASK = 50
SETTINGS = [
    {"kind": "runs"},
    {"kind": "positions"},
    {"kind": "base-offset", "width": 2, "step": 8},
    {"kind": "jumps", "width": 1},
    {"kind": "paged-runs", "step": 16},
    {"kind": "pointed-jumps", "width": 1, "step": 2},
]


def record(folder):
    """Makes the recordings and gives the number of echoes in each scan of the undamaged ones."""
    random = np.random.default_rng(1)
    expected = np.zeros(SHAPE[0], int)
    for number in range(RECORDINGS):
        echoes = random.random(SHAPE) < random.uniform(0, 0.1)
        picture = np.where(echoes, random.integers(1, 4096, SHAPE), 0)
        archive = radar_archive.make(picture, **SETTINGS[number % len(SETTINGS)])
        archive.save(folder / f"{number:04}.radar")
        expected += np.count_nonzero(picture, axis=(1, 2))
    damaged = folder / f"{RECORDINGS - 1:04}.radar"
    damaged.write_bytes(damaged.read_bytes()[:-1])
    return expected - np.count_nonzero(picture, axis=(1, 2))


@dask.delayed
def count(paths):
    """The echoes by scan of some recordings, and the refusals among them."""
    echoes, refusals = np.zeros(SHAPE[0], int), []
    for path in paths:
        try:
            with radar_archive.open(path) as archive:
                echoes += [archive.count((scan, 0, 0), (scan, SHAPE[1] - 1, SHAPE[2] - 1)) for scan in range(SHAPE[0])]
        except radar_archive.Refused as refused:
            refusals.append(str(refused))
    return echoes, refusals


def main():
    with tempfile.TemporaryDirectory() as name:
        folder = Path(name)
        expected = record(folder)
        paths = sorted(folder.iterdir())
        tasks = [count(paths[at : at + FILES_A_TASK]) for at in range(0, len(paths), FILES_A_TASK)]
        results = dask.compute(*tasks)
        echoes = sum(result[0] for result in results)
        refusals = [refusal.removeprefix(f"{folder}/") for result in results for refusal in result[1]]
    for refusal in refusals:
        print(refusal)
    print(f"{len(paths)} files, {len(refusals)} refused")
    for scan, number in enumerate(echoes):
        print(f"scan {scan}: {number} echoes")
    assert np.array_equal(echoes, expected), "the counts are not those of the pictures"


if __name__ == "__main__":
    main()
