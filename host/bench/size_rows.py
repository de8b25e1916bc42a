"""The sizes of a run as rows: a name, a group, and for each texture the bytes and a note."""
import re
from collections import namedtuple

from results import Unfit

Row = namedtuple("Row", "name group sizes")
Size = namedtuple("Size", "bytes note")

KIND = re.compile(r"kind \d")
COMMAND = re.compile(r"(zstd|lz4) -\d+$")
BEST = re.compile(r"best (\d) (.+)$")
PACKED_SHORTEST = re.compile(r"(.+) of shortest$")
GROUPS = ["raw", "packed", "engine", "engine, packed"]


def placed(name, shortest):
    """Group, row and note of a size as a run names it; nothing for what is no size or has a row already."""
    if name in ("cells", "stored") or name.startswith("shortest "):
        return None
    if name == "words":
        return "raw", "raw words", ""
    if KIND.match(name):
        return "engine", name, ""
    if best := BEST.match(name):
        return "engine", f"kind {best[1]}, best setting", best[2]
    if packed := PACKED_SHORTEST.match(name):
        return "engine, packed", f"{packed[1]} of the shortest file", f"kind {shortest}"
    if COMMAND.match(name):
        return "packed", f"{name} of raw words", ""
    raise Unfit(f"the sizes have a line {name!r} that no row is for")


def shortest_kind(sizes):
    """The setting of a picture's shortest file."""
    found = [name.split(" ", 1)[1] for name in sizes if name.startswith("shortest ")]
    if len(found) != 1:
        raise Unfit("the sizes do not name one shortest file for each picture")
    return found[0]


def rows(sizes):
    """The rows by group, each group in the order of the run; no group is empty, and each row has each texture."""
    found = {}
    for texture, by_name in sizes.items():
        for name, number in by_name.items():
            place = placed(name, shortest_kind(by_name))
            if place:
                group, row, note = place
                found.setdefault((group, row), {})[texture] = Size(number, note)
    if {group for group, _ in found} != set(GROUPS) or any(len(by_texture) != len(sizes) for by_texture in found.values()):
        raise Unfit("the sizes are not whole")
    made = [Row(row, group, by_texture) for (group, row), by_texture in found.items()]
    return sorted(made, key=lambda row: GROUPS.index(row.group))
