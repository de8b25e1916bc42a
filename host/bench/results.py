"""Reads the raw output of a run: the bench's table, the sizes and the conditions."""
import math
import re
from collections import namedtuple

Picture = namedtuple("Picture", "cells stored")
Line = namedtuple("Line", "texture kind call peer engine unit ratio")
# `who` is engine, peer or memory; times in ms at three sizes, and the two ratios between them
Growth = namedtuple("Growth", "kind call who times ratios")
# means["call"]["make"], also by "kind" and "texture"
Bench = namedtuple("Bench", "pictures lines growth mean means steepest")
# a store of positions asked beside the engine: ns for the rank at a position and for the position of a rank, bytes without the words
Peer = namedtuple("Peer", "texture store rank position bytes")
# sizes[texture][name] in bytes, cells or stored cells; `peers` is empty where they were not asked
Run = namedtuple("Run", "bench sizes conditions peers")

KIND = r"(\d(?: w\d+)?(?: [lbn]\d+)?)"
TIME = r"(\d+\.\d{3})"
RATIO = r"(\d+\.\d{2})"
PICTURE = re.compile(r"(\w+): (\d+) cells, (\d+) stored$")
LINE = re.compile(rf"(\w+)\s+{KIND}\s+(\S.*?)\s+{TIME}\s+{TIME}\s+(ms|ns)\s+{RATIO}$")
GROWTH = re.compile(rf"{KIND}\s+(\w+)\s+(peer|engine|read|copy)\s+{TIME}\s+{TIME}\s+{TIME}\s+{RATIO}\s+{RATIO}$")
COUNT = re.compile(r"(\d+) lines, (\d+) mismatches, ")
MEAN = re.compile(r"geometric mean of engine/peer (\d+\.\d{3}), worst ")
MEANS = {name: re.compile(rf"geometric means by {name}:  (.+)$") for name in ("call", "kind", "texture")}
STEEPEST = re.compile(r"steepest growth .*: peer (\S+), engine (\S+); .*: peer (\S+), engine (\S+)$")

FILES = ["bench.txt", "sizes.txt", "conditions.txt"]
PEERS = "peers.txt"


class Unfit(Exception):
    """Raw output that no figure is to be made of."""


def geometric_mean(ratios):
    """The geometric mean of some ratios, at least one."""
    logs = [math.log(ratio) for ratio in ratios]
    return math.exp(sum(logs) / len(logs))


def only(pattern, text):
    """The groups of the one line that matches a pattern from its start."""
    found = [match for match in map(pattern.match, text.splitlines()) if match]
    if len(found) != 1:
        raise Unfit(f"{len(found)} lines of the bench match {pattern.pattern!r}; the run did not end, or its output has changed")
    return found[0].groups()


def read_line(match):
    """One line of the table of ratios."""
    texture, kind, call, peer, engine, unit, ratio = match.groups()
    return Line(texture, kind, call, float(peer), float(engine), unit, float(ratio))


def read_growth(match):
    """One line of the table of growth."""
    kind, call, who, *numbers = match.groups()
    numbers = [float(number) for number in numbers]
    return Growth(kind, call, who if who in ("engine", "peer") else "memory", tuple(numbers[:3]), tuple(numbers[3:]))


def read_means(text):
    """The means by call, kind and texture, as the bench made them of ratios not yet rounded."""
    items = {name: only(pattern, text)[0].split("  ") for name, pattern in MEANS.items()}
    return {name: {item.rsplit(" ", 1)[0]: float(item.rsplit(" ", 1)[1]) for item in found} for name, found in items.items()}


def whole(rows, outer, inner):
    """Refuses rows unless each value of the inner fields stands once with each value of the outer field."""
    found = [(getattr(row, outer), tuple(getattr(row, name) for name in inner)) for row in rows]
    wanted = {(one, other) for one, _ in found for _, other in found}
    if set(found) != wanted or len(rows) != len(wanted):
        raise Unfit(f"the lines do not give each {' and '.join(inner)} once for each {outer}")


def read_bench(text):
    """The bench's output; it has to be whole, without mismatches, and its mean has to be that of the lines read."""
    rows = text.splitlines()
    pictures = {m[1]: Picture(int(m[2]), int(m[3])) for m in map(PICTURE.match, rows) if m}
    lines = [read_line(m) for m in map(LINE.match, rows) if m]
    growth = [read_growth(m) for m in map(GROWTH.match, rows) if m]
    said, mismatches = map(int, only(COUNT, text))
    if mismatches or "MISMATCH" in text:
        raise Unfit(f"the two libraries differ: {mismatches} mismatches")
    if len(lines) != said or not growth:
        raise Unfit(f"read {len(lines)} lines of {said}, and {len(growth)} lines of growth")
    whole(lines, "texture", ["kind", "call"])
    whole(growth, "who", ["kind", "call"])
    if {line.texture for line in lines} != set(pictures):
        raise Unfit("the lines are of other pictures than those announced")
    mean = float(only(MEAN, text)[0])
    if abs(geometric_mean(line.ratio for line in lines) - mean) > 0.01 * mean:
        raise Unfit("the mean of the lines read is not the bench's")
    return Bench(pictures, lines, growth, mean, read_means(text), tuple(map(float, only(STEEPEST, text))))


def read_fields(text, count):
    """Lines of some fields with tabs between."""
    rows = [row.split("\t") for row in text.splitlines()]
    if not rows or any(len(row) != count for row in rows):
        raise Unfit(f"a line has not {count} fields")
    return rows


def read_sizes(text, pictures):
    """The sizes by texture and name; they have to be of the pictures that were timed."""
    sizes = {}
    for texture, name, number in read_fields(text, 3):
        sizes.setdefault(texture, {})[name] = int(number)
    for texture, picture in pictures.items():
        found = sizes.get(texture, {})
        if (found.get("cells"), found.get("stored")) != picture:
            raise Unfit(f"the sizes of {texture} are not of the picture that was timed")
    return sizes


def read_peers(text, pictures):
    """The stores of positions; each was asked on each picture that was timed."""
    peers = [Peer(texture, store, float(rank), float(position), int(size)) for texture, store, rank, position, size in read_fields(text, 5)]
    whole(peers, "texture", ["store"])
    if {peer.texture for peer in peers} != set(pictures):
        raise Unfit("the peers were asked on other pictures than those timed")
    return peers


def read_run(folder):
    """The raw output in a folder (a pathlib.Path); the peers' is there or not."""
    bench_text, sizes_text, conditions_text = [(folder / name).read_text() for name in FILES]
    bench = read_bench(bench_text)
    peers = read_peers((folder / PEERS).read_text(), bench.pictures) if (folder / PEERS).exists() else []
    return Run(bench, read_sizes(sizes_text, bench.pictures), dict(read_fields(conditions_text, 2)), peers)
