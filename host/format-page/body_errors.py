"""Number 6: parts and words that no picture has, kind by kind."""
import itertools

from layout import file_of, put, raw
from page import SETTINGS, STORED, TOP, listed

ONE, TWO, THREE, FOUR, FIVE, SIX = SETTINGS


def in_runs():
    """Kind 1."""

    def runs(*pairs):
        return raw(ONE, len(pairs), 0, [x for pair in pairs for x in pair], [], STORED)

    return [
        ("kind 1: as it should be", runs((3, 2), (5, 3), (10, 7)), 0),
        ("kind 1: not rising", runs((5, 3), (3, 2), (10, 7)), 6),
        ("kind 1: a run twice", runs((3, 2), (3, 2), (10, 8)), 6),
        ("kind 1: a position at cells", runs((3, 2), (5, 3), (12, 9)), 6),
        ("kind 1: the last position", runs((3, 2), (5, 3), (11, 8)), 0),
        ("kind 1: a run past cells", runs((3, 2), (13, 10)), 6),
        ("kind 1: a run that touches the one before", runs((3, 2), (5, 2)), 6),
        ("kind 1: one run in two", runs((4, 2), (5, 2)), 6),
        ("kind 1: a pair for trailing empty cells", runs((3, 2), (5, 3), (10, 7), (11, 8)), 6),
        ("kind 1: a run without stored cells", runs((3, 2), (4, 3), (5, 3), (10, 7)), 6),
        ("kind 1: V falls", runs((3, 2), (5, 1)), 6),
        ("kind 1: V falls below 0 cells", runs((3, 2), (10, 8), (10, 7)), 6),
        ("kind 1: too few stored cells", runs((3, 2), (5, 3)), 6),
        ("kind 1: too many stored cells", runs((3, 2), (5, 3), (10, 6)), 6),
        ("kind 1: V above L + 1", runs((3, 5), (10, 7)), 6),
        ("kind 1: the largest numbers", runs((TOP, TOP), (TOP, TOP)), 6),
        ("kind 1: a run of 2^32 cells", runs((TOP, 0),), 6),
        ("kind 1: no runs", runs(), 6),
        ("kind 1: all stored", raw(ONE, 1, 0, [11, 0], [], [1] * 12), 0),
        ("kind 1: all stored, L before the first run as 0", raw(ONE, 1, 0, [11, 1], [], [1] * 12), 6),
    ]


def in_positions():
    """Kind 2."""
    return [
        ("kind 2: as it should be", raw(TWO, 4, 0, [2, 3, 5, 10], [], STORED), 0),
        ("kind 2: not rising", raw(TWO, 4, 0, [2, 5, 3, 10], [], STORED), 6),
        ("kind 2: a position twice", raw(TWO, 4, 0, [2, 3, 3, 10], [], STORED), 6),
        ("kind 2: a position at cells", raw(TWO, 4, 0, [2, 3, 5, 12], [], STORED), 6),
        ("kind 2: the largest position", raw(TWO, 4, 0, [2, 3, 5, TOP], [], STORED), 6),
    ]


def in_bases_and_offsets():
    """Kind 3."""
    return [
        ("kind 3: as it should be", raw(THREE, 2, 4, [2, 5], [0, 1, 0, 5], STORED), 0),
        ("kind 3: an offset other than 0 at a base", raw(THREE, 2, 4, [1, 5], [1, 2, 0, 5], STORED), 6),
        ("kind 3: an offset other than 0 at the second base", raw(THREE, 2, 4, [2, 4], [0, 1, 1, 6], STORED), 6),
        ("kind 3: bases every 2 positions", raw(THREE, 2, 4, [0, 2], [2, 3, 3, 8], STORED), 6),
        ("kind 3: bases at the start of pairs of positions", raw(THREE, 2, 4, [2, 4], [0, 1, 1, 6], STORED), 6),
        ("kind 3: not rising", raw(THREE, 2, 4, [2, 5], [0, 0, 0, 5], STORED), 6),
        ("kind 3: a group not above the one before", raw(THREE, 2, 4, [2, 3], [0, 1, 0, 7], STORED), 6),
        ("kind 3: a position at cells", raw(THREE, 2, 4, [2, 5], [0, 1, 0, 7], STORED), 6),
        ("kind 3: base and offset past 2^32", raw(THREE, 2, 4, [2, TOP], [0, 1, 0, 255], STORED), 6),
        ("kind 3: base and offset past 2^32, rising if cut", raw(THREE, 2, 4, [TOP, 5], [3, 4, 0, 5], STORED), 6),
    ]


def in_jumps():
    """Kind 4."""
    long = {"extents": (300, 1, 1, 1)}
    return [
        ("kind 4: as it should be", raw(FOUR, 1, 4, [2], [0, 1, 2, 5], STORED), 0),
        ("kind 4: a jump where the difference fits", raw(FOUR, 2, 4, [2, 3], [0, 0, 2, 5], STORED), 6),
        ("kind 4: every rank a jump", raw(FOUR, 4, 4, [2, 3, 5, 10], [0, 0, 0, 0], STORED), 6),
        ("kind 4: a difference of 0 with no jump left", raw(FOUR, 1, 4, [2], [0, 0, 2, 5], STORED), 6),
        ("kind 4: a jump left over", raw(FOUR, 2, 4, [2, 7], [0, 1, 2, 5], STORED), 6),
        ("kind 4: no jump", raw(FOUR, 0, 4, [], [2, 1, 2, 5], STORED), 6),
        ("kind 4: a first difference other than 0", raw(FOUR, 1, 4, [5], [2, 1, 0, 5], STORED), 6),
        ("kind 4: a first difference before a jump", raw(FOUR, 1, 4, [2], [2, 1, 2, 5], STORED), 6),
        ("kind 4: a jump back", raw(FOUR, 2, 4, [2, 1], [0, 1, 0, 5], STORED), 6),
        ("kind 4: a position at cells", raw(FOUR, 1, 4, [2], [0, 1, 2, 7], STORED), 6),
        ("kind 4: the largest jump", raw(FOUR, 1, 4, [TOP], [0, 1, 2, 5], STORED), 6),
        ("kind 4: 2 and 257", raw(FOUR, 1, 2, [2], [0, 255], [7, 9], **long), 0),
        ("kind 4: 2 and 257 with a jump", raw(FOUR, 2, 2, [2, 257], [0, 0], [7, 9], **long), 6),
        ("kind 4: 2 and 258", raw(FOUR, 2, 2, [2, 258], [0, 0], [7, 9], **long), 0),
        ("kind 4, width 2: 2 and 258", raw((4, 2, 0), 1, 2, [2], [0, 256], [7, 9], **long), 0),
        ("kind 4, width 2: 2 and 258 with a jump", raw((4, 2, 0), 2, 2, [2, 258], [0, 0], [7, 9], **long), 6),
    ]


def in_paged_runs():
    """Kind 5."""

    def paged(above, level0, words=STORED):
        return raw(FIVE, len(above) // 2, len(level0) // 2, above, level0, words)

    level0 = [4, 2, 6, 3, 5, 4]
    five_runs = file_of([1, 0] * 5, FIVE)
    swapped = five_runs[:52] + five_runs[68:92] + five_runs[52:68] + five_runs[92:]
    cases = [
        ("kind 5: as it should be", paged([6, 3, 11, 7], level0), 0),
        ("kind 5: an upper level without sums", paged([6, 3, 5, 4], level0), 6),
        ("kind 5: level 0 summed over the page's start", paged([6, 3, 11, 7], [4, 2, 6, 3, 11, 7]), 6),
        ("kind 5: level 0 without sums", paged([6, 3, 11, 7], [4, 2, 2, 1, 5, 4]), 6),
        ("kind 5: a run that touches the one before", paged([], [4, 2, 6, 2]), 6),
        ("kind 5: a pair for trailing empty cells", paged([6, 3, 12, 8], level0 + [6, 5]), 6),
        ("kind 5: a run without stored cells", paged([5, 3, 11, 7], [4, 2, 5, 3, 1, 0, 6, 4]), 6),
        ("kind 5: a position at cells", paged([6, 3, 13, 9], [4, 2, 6, 3, 7, 6]), 6),
        ("kind 5: no runs", paged([], []), 6),
        ("kind 5: the largest numbers", paged([], [TOP, TOP, TOP, TOP]), 6),
        ("kind 5: the lowest level first", swapped, 6),
        ("kind 5: five runs", five_runs, 0),
    ]
    for i, change in itertools.product(range(4), (-1, 1)):
        above = [6, 3, 11, 7]
        above[i] += change
        cases.append(("kind 5: upper number %d changed by %d" % (i, change), paged(above, level0), 6))
    return cases


def in_pointed_jumps():
    """Kind 6."""

    def pointed(n, pointers, jumps=(1, 300, 600, 900, 1200), differences=(0, 2, 0, 0, 1, 0, 0), width=1):
        words = [7] * len(differences)
        return raw((6, width, n), len(jumps), len(differences), jumps, differences, words, 1, (1300, 1, 1, 1), pointers=pointers)

    right = {1: [0, 2, 3, 5, 6], 2: [0, 3, 6], 3: [0, 5], 5: [0], 255: [0]}
    cases = [("kind 6: as it should be, step %d" % n, pointed(n, pointers), 0) for n, pointers in right.items()]
    cases += [
        ("kind 6: the sample", raw(SIX, 1, 4, [2], [0, 1, 2, 5], STORED, pointers=[0]), 0),
        ("kind 6: the sample's pointer is 1", raw(SIX, 1, 4, [2], [0, 1, 2, 5], STORED, pointers=[1]), 6),
        ("kind 6: pointers are positions", pointed(1, [1, 300, 600, 900, 1200]), 6),
        ("kind 6: pointers are numbers of jumps", pointed(2, [0, 2, 4]), 6),
        ("kind 6: pointers of the jumps after", pointed(2, [2, 5, 6]), 6),
        ("kind 6: pointers not rising", pointed(2, [0, 6, 3]), 6),
        ("kind 6: a pointer at N", pointed(2, [0, 3, 7]), 6),
        ("kind 6: the largest pointer", pointed(2, [0, 3, TOP]), 6),
        ("kind 6: pointers of step 2 with step 3, as many", pointed(3, [0, 3]), 6),
        ("kind 6: a jump where the difference fits", pointed(1, [0, 1], [1, 3], [0, 0, 1]), 6),
        ("kind 6: a difference of 0 with no jump left", pointed(1, [0], [1], [0, 2, 0]), 6),
        ("kind 6: a difference of 0 with a pointer and no jump", pointed(2, [0], [1], [0, 2, 0]), 6),
        ("kind 6: a jump left over", pointed(1, [0, 2, 3], [1, 300, 600], [0, 2, 0]), 6),
        ("kind 6: no jump", pointed(1, [], [], [1, 2, 1]), 6),
        ("kind 6: a first difference other than 0", pointed(1, [1], [5], [2, 0, 1]), 6),
        ("kind 6: a position at cells", pointed(1, [0, 2], [1, 1300], [0, 2, 0]), 6),
        ("kind 6, width 2", pointed(1, [0], [1], [0, 2, 297], 2), 0),
        ("kind 6, width 2: a jump where the difference fits", pointed(1, [0, 2], [1, 300], [0, 2, 0], 2), 6),
        ("kind 6, width 2: a false pointer", pointed(3, [1], [1], [0, 2, 297], 2), 6),
    ]
    for n, pointers in right.items():
        for i, change in itertools.product(range(len(pointers)), (-1, 1, 2 ** 8, 2 ** 24)):
            other = [pointer + change * (k == i) for k, pointer in enumerate(pointers)]
            if other[i] >= 0:
                cases.append(("kind 6: step %d, pointer %d changed by %d" % (n, i, change), pointed(n, other), 6))
    return cases


def in_words(samples):
    """E among the stored words."""
    cases = []
    for k, data in enumerate(samples, 1):
        for rank in range(4):
            cases.append(("m%d: E among the words" % k, put(data, len(data) - 16 + 4 * rank, 0), 6))
        cases.append(("m%d: E is a stored word" % k, put(data, 20, 9), 6))
        cases.append(("m%d: another E" % k, put(data, 20, TOP), 0))
    return cases


def bodies(page):
    """number 6"""
    listed(page, in_runs() + in_positions() + in_bases_and_offsets() + in_jumps() + in_paged_runs() + in_pointed_jumps())
    listed(page, in_words(page.samples))
