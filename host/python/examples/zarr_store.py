#!/usr/bin/env python3
"""A Zarr store of more cells than one picture has: 40 scans of 1024 by 512, each chunk a picture file in its shortest setting.

The store is written scan by scan, read back, and its echoes are counted with dask, a scan at a time.
"""
import tempfile
from pathlib import Path

import dask.array
import numpy as np
import zarr

import radar_archive
from radar_archive.codec import RadarArchive

SHAPE = (40, 1024, 512)


def scan_picture(random):
    """A scan with some targets, each a short arc of echoes, in an empty sea."""
    picture = np.zeros(SHAPE[1:], np.uint32)
    for bearing, distance in zip(random.integers(0, SHAPE[1] - 8, 60), random.integers(0, SHAPE[2] - 3, 60)):
        picture[bearing : bearing + 8, distance : distance + 3] = random.integers(1, 4096, (8, 3))
    return picture


def main():
    random = np.random.default_rng(2)
    pictures = np.stack([scan_picture(random) for _ in range(SHAPE[0])])
    with tempfile.TemporaryDirectory() as name:
        folder = Path(name) / "scans.zarr"
        store = zarr.open(
            str(folder), mode="w", shape=SHAPE, chunks=(1, *SHAPE[1:]), dtype="<u4", fill_value=0, compressor=RadarArchive(kind="best")
        )
        for scan, picture in enumerate(pictures):
            store[scan] = picture

        again = zarr.open(str(folder), mode="r")
        assert np.array_equal(again[:], pictures), "the words read back are not those written"
        echoes = dask.array.count_nonzero(dask.array.from_zarr(again), axis=(1, 2)).compute()
        assert np.array_equal(echoes, np.count_nonzero(pictures, axis=(1, 2))), "the counts are not those of the pictures"

        length = sum(path.stat().st_size for path in folder.rglob("*") if path.is_file())
        print(f"{again.size} cells in {again.nchunks} chunks; a picture has at most {radar_archive.MOST_CELLS}")
        print(f"{echoes.sum()} echoes in {SHAPE[0]} scans; the first scan has {echoes[0]}")
        print(f"{pictures.nbytes} bytes of words in {length} bytes of files")
        print(f"the first chunk: {radar_archive.open(folder / '0.0.0')}")


if __name__ == "__main__":
    main()
