"""The shortest setting of a picture, from the positions of its stored cells."""
import numpy as np
from numpy.typing import NDArray

from radar_archive.setting import Kind, Setting, all_settings, pointers, upper_entries


def shortest_setting(positions: NDArray[np.uint32]) -> Setting:
    """The setting with the shortest file; on equal length the lowest kind, width, step."""
    lengths = _part_lengths(positions)
    in_order = sorted(lengths, key=lambda setting: (lengths[setting], setting))
    return next(setting for setting in in_order if _fits(setting, positions))


def _part_lengths(positions: NDArray[np.uint32]) -> dict[Setting, int]:
    """The bytes of both parts in each setting. Those of kind 3 hold where the offsets fit."""
    stored, some = positions.size, int(positions.size > 0)
    differences = np.diff(positions)
    runs = some + int(np.count_nonzero(differences > 1))
    jumps = {width: some + int(np.count_nonzero(differences > _largest(width))) for width in (1, 2)}

    def length(setting: Setting) -> int:
        kind, width, step = setting
        if kind == Kind.RUNS:
            return 8 * runs
        if kind == Kind.POSITIONS:
            return 4 * stored
        if kind == Kind.BASE_OFFSET:
            return 4 * -(-stored // step) + width * stored
        if kind == Kind.JUMPS:
            return 4 * jumps[width] + width * stored
        if kind == Kind.POINTED_JUMPS:
            return 4 * (jumps[width] + pointers(jumps[width], step)) + width * stored
        return 8 * (runs + upper_entries(runs, step))

    return {setting: length(setting) for setting in all_settings()}


def _fits(setting: Setting, positions: NDArray[np.uint32]) -> bool:
    """Whether every offset of kind 3 fits its width: the last one of each group is the largest."""
    if setting.kind != Kind.BASE_OFFSET or positions.size == 0:
        return True
    bases = positions[:: setting.step]
    lasts = positions[setting.step - 1 :: setting.step]
    if lasts.size < bases.size:
        lasts = np.append(lasts, positions[-1])
    return int((lasts - bases).max()) <= _largest(setting.width)


def _largest(width: int) -> int:
    """The largest number of so many bytes."""
    return int(256**width - 1)
