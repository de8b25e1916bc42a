"""The page's coordinates, searches and readings of runs, written out as its sentences say them."""
import bisect
import itertools
import struct

from counting import Together
from layout import file_of, levels_of, runs_of


def coordinates(page):
    """the page's way from coordinates to a position and back, taken by the word"""
    for e0, e1, e2, e3 in ((12, 1, 1, 1), (3, 4, 1, 1), (4, 3, 5, 1), (2, 3, 4, 5), (5, 1, 2, 3), (1, 1, 1, 7)):
        with Together("extents", e0, e1, e2, e3) as each:
            in_row_order = itertools.product(range(e0), range(e1), range(e2), range(e3))
            for place, (c0, c1, c2, c3) in enumerate(in_row_order):
                each(((c0 * e1 + c1) * e2 + c2) * e3 + c3 == place, "position", place)
                quotient, back3 = divmod(place, e3)
                quotient, back2 = divmod(quotient, e2)
                back0, back1 = divmod(quotient, e1)
                each((back0, back1, back2, back3) == (c0, c1, c2, c3), "coordinates of", place)


def found_at(stored, p):
    """What a search finds at a position: a rank, or an empty cell and the number of stored cells before it."""
    return "rank" if p in stored else "empty", sum(position < p for position in stored)


def lookups(page):
    """the page's searches and readings of runs, taken by the word"""
    def rank_by_runs(runs, N, p):
        for j, (L, V) in enumerate(runs):
            if p <= L:
                left = runs[j - 1] if j else (-1, 0)
                return ("rank", p - V) if left[0] + V - left[1] < p else ("empty", left[0] + 1 - left[1])
        return "empty", N

    def rank_by_levels(levels, b, N, p):
        q, u, i = p, 0, 0
        for level in reversed(levels):
            page_at = i * b
            found = [j for j in range(page_at, min(page_at + b, len(level))) if level[j][0] > q]
            if not found:
                return "empty", N
            i = found[0]
            left = level[i - 1] if i > page_at else (0, 0)
            q, u = q - left[0], u + left[1]
        e = levels[0][i][1] - left[1]
        return ("empty", p - (u + q)) if q < e else ("rank", p - (u + e))

    def read_level0(level, b):
        positions, last, empties = [], -1, 0
        for j, (c, e) in enumerate(level):
            if j % b == 0:
                start_last, start_empties = last, empties
            L, V = start_last + c, start_empties + e
            positions += range(last + (V - empties) + 1, L + 1)
            last, empties = L, V
        return positions

    with Together("kind 1") as in_runs, Together("kind 5, search") as in_levels, Together("kind 5, reading") as reading:
        for mask in range(2048):
            words = [mask >> p & 1 for p in range(11)]
            at = [p for p in range(11) if words[p]]
            wanted = [found_at(at, p) for p in range(11)]
            runs = runs_of(words, 0)
            in_runs([rank_by_runs(runs, len(at), p) for p in range(11)] == wanted, words)
            for b in (2, 3):
                levels = levels_of(runs, b)
                in_levels([rank_by_levels(levels, b, len(at), p) for p in range(11)] == wanted, "b", b, words)
                reading(read_level0(levels[0], b) == at, "b", b, words)


def pointed_lookups(page):
    """the page's searches in kind 6, taken by the word"""
    def parts(data):
        stored, jumps, _, first, second, words = struct.unpack_from("<6I", data, 24)
        differences = list(data[second:second + stored])
        return [list(struct.unpack("<%dI" % (len(part) // 4), part)) for part in (data[first:second], data[second + stored:words])] + [differences]

    def rank_at(p, n, jumps, pointers, differences):
        j = bisect.bisect_right(jumps, p) - 1
        if j < 0:
            return "empty", 0
        rank = pointers[j // n]
        for _ in range(j % n):
            rank = differences.index(0, rank + 1)
        position = jumps[j]
        while position < p and rank + 1 < len(differences) and differences[rank + 1] != 0:
            rank += 1
            position += differences[rank]
        if position == p:
            return "rank", rank
        return "empty", rank if position > p else rank + 1

    def position_of(rank, n, jumps, pointers, differences):
        k = bisect.bisect_right(pointers, rank) - 1
        at, jump, position = pointers[k], k * n, jumps[k * n]
        while at < rank:
            at += 1
            if differences[at] == 0:
                jump += 1
                position = jumps[jump]
            else:
                position += differences[at]
        return position

    gaps = (1, 255, 256)
    with Together("kind 6, rank") as ranked, Together("kind 6, position") as placed:
        for count in range(1, 6):
            for row in itertools.product(gaps, repeat=count):
                stored = list(itertools.accumulate(row))
                words = [int(p in stored) for p in range(stored[-1] + 3)]
                for n in (1, 2, 3, 255):
                    jumps, pointers, differences = parts(file_of(words, (6, 1, n)))
                    for p in sorted({p + more for p in [0] + stored for more in (-1, 0, 1)} - {-1}):
                        found = rank_at(p, n, jumps, pointers, differences)
                        ranked(found == found_at(stored, p), stored, "step", n, "position", p)
                    for rank, p in enumerate(stored):
                        placed(position_of(rank, n, jumps, pointers, differences) == p, stored, "step", n, "rank", rank)
