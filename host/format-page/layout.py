"""A plain layout that makes files: cell by cell, each sum taken anew. It shares nothing with the page's reader."""
import struct


def raw(setting, c1, c2, part1, part2, words, dims=1, extents=(12, 1, 1, 1), empty=0, n=None, pointers=()):
    """A file with these counts, parts, pointers and words, whose offsets and length agree with the bytes."""
    kind, width, step = setting
    a = struct.pack("<%dI" % len(part1), *part1)
    b = struct.pack("<%d%s" % (len(part2), {0: "I", 1: "B", 2: "H"}[width]), *part2)
    b += struct.pack("<%dI" % len(pointers), *pointers)
    w = struct.pack("<%dI" % len(words), *words)
    second, at = 52 + len(a), 52 + len(a) + len(b)
    n = len(words) if n is None else n
    header = struct.pack("<4B12I", kind, dims, width, step, *extents, empty, n, c1, c2, 52, second, at, at + len(w))
    return header + a + b + w


def runs_of(words, empty):
    """The pairs (L, V) of the runs."""
    runs, empties = [], 0
    for p, word in enumerate(words):
        if word == empty:
            empties += 1
        elif p + 1 == len(words) or words[p + 1] == empty:
            runs.append((p, empties))
    return runs


def page_sum(pairs, i, b):
    """The sum of the pairs from the start of the page of number i through it."""
    page = pairs[i - i % b:i + 1]
    return (sum(x for x, _ in page), sum(y for _, y in page))


def levels_of(runs, b):
    """The levels of kind 5, level 0 first."""
    lengths = [(L - (runs[j - 1][0] if j else -1), V - (runs[j - 1][1] if j else 0)) for j, (L, V) in enumerate(runs)]
    levels = [[page_sum(lengths, j, b) for j in range(len(runs))]]
    while len(levels[-1]) > b:
        below = levels[-1]
        ends = [below[i] for i in range(len(below)) if i % b == b - 1 or i == len(below) - 1]
        levels.append([page_sum(ends, i, b) for i in range(len(ends))])
    return levels


def file_of(words, setting, dims=1, extents=None, empty=0):
    """The file of a picture, or None where an offset of kind 3 does not fit."""
    kind, width, step = setting
    extents = extents or (len(words), 1, 1, 1)
    at = [p for p, word in enumerate(words) if word != empty]
    kept = [words[p] for p in at]
    part1, part2, pointers, per_entry = [], [], [], 1
    if kind == 1:
        per_entry = 2
        for run in runs_of(words, empty):
            part1 += run
    elif kind == 2:
        part1 = at
    elif kind == 3:
        for r, p in enumerate(at):
            if r % step == 0:
                part1.append(p)
            if p - part1[-1] > 256 ** width - 1:
                return None
            part2.append(p - part1[-1])
    elif kind in (4, 6):
        for r, p in enumerate(at):
            if r > 0 and p - at[r - 1] <= 256 ** width - 1:
                part2.append(p - at[r - 1])
                continue
            if kind == 6 and len(part1) % step == 0:
                pointers.append(r)
            part2.append(0)
            part1.append(p)
    else:
        per_entry = 2
        levels = levels_of(runs_of(words, empty), step)
        for level in reversed(levels[1:]):
            for entry in level:
                part1 += entry
        for entry in levels[0]:
            part2 += entry
    return raw(setting, len(part1) // per_entry, len(part2) // per_entry, part1, part2, kept, dims, extents, empty, None, pointers)


def put(data, at, value, size=4):
    """The bytes with one number of `size` bytes put in at an offset."""
    return data[:at] + value.to_bytes(size, "little") + data[at + size:]
