"""Numbers 2 to 5, which the header alone gives, and the lowest of several numbers."""
import itertools
import struct

from counting import expect
from layout import file_of, put, raw
from page import SAMPLE, SETTINGS, STORED, TOP, listed


def kinds_and_settings(page):
    """numbers 2 and 3"""
    for k, data in enumerate(page.samples, 1):
        listed(page, [("m%d: kind %d" % (k, kind), put(data, 0, kind, 1), 2) for kind in (0, 7, 8, 9, 17, 129, 255)])
        for width, step in itertools.product((0, 1, 2, 3, 4, 255), (0, 1, 2, 3, 63, 64, 65, 254, 255)):
            allowed = {1: width == 0 and step == 0, 2: width == 0 and step == 0, 3: width in (1, 2) and step > 0,
                       4: width in (1, 2) and step == 0, 5: width == 0 and 2 <= step <= 64, 6: width in (1, 2) and step > 0}[k]
            got = page.number(put(put(data, 2, width, 1), 3, step, 1))
            expect(got != 3 if allowed else got == 3, "m%d: width %d, step %d gives" % (k, width, step), got)
    expect(page.number(file_of(SAMPLE, (5, 0, 64))) == 0, "step 64 in kind 5")


def extents(page):
    """number 4"""
    def sized(data, dims, *sizes):
        return data[:1] + bytes([dims]) + data[2:4] + struct.pack("<4I", *sizes) + data[20:]

    half = 2 ** 31
    rows = [((dims, 12, 1, 1, 1), 4) for dims in (0, 5, 6, 128, 255)]
    rows += [((dims, 12, 1, 1, 1), 0) for dims in (1, 2, 3, 4)]
    rows += [((1, 0, 1, 1, 1), 4), ((2, 12, 0, 1, 1), 4), ((3, 12, 1, 0, 1), 4), ((4, 12, 1, 1, 0), 4)]
    rows += [((1, 12, x, 1, 1), 4) for x in (0, 2, TOP)] + [((2, 6, 2, x, 1), 4) for x in (0, 2, TOP)]
    rows += [((1, 12, 1, 1, x), 4) for x in (0, 2, TOP)] + [((3, 3, 2, 2, x), 4) for x in (0, 2, TOP)]
    rows += [((1, 6, 2, 1, 1), 4), ((2, 3, 2, 2, 1), 4), ((3, 3, 2, 1, 2), 4), ((1, 1, 1, 1, 12), 4)]
    rows += [((1, 16777216, 1, 1, 1), 0), ((1, 16777217, 1, 1, 1), 4), ((1, TOP, 1, 1, 1), 4)]
    rows += [((2, 4096, 4096, 1, 1), 0), ((2, 4096, 4097, 1, 1), 4), ((4, 64, 64, 64, 64), 0), ((4, 64, 64, 64, 65), 4)]
    rows += [((4, 65536, 65536, 65536, 65536), 4), ((2, half, 2, 1, 1), 4), ((2, half, half, 1, 1), 4)]
    rows += [((4, TOP, TOP, TOP, TOP), 4), ((4, 65536, 65536, 65536, 0), 4), ((2, 65536, 65536, 1, 1), 4)]
    rows += [((3, 1, 1, 16777216, 1), 0), ((4, 1, 1, 1, 16777216), 0), ((4, 3, 2, 2, 1), 0), ((2, 3, 4, 1, 1), 0)]
    for k, data in enumerate(page.samples, 1):
        listed(page, [("m%d: dimensions %s" % (k, row), sized(data, *row), number) for row, number in rows])


def counts(page):
    """number 5"""
    for k, data in enumerate(page.samples, 1):
        for at in (24, 28, 32, 36, 40, 44, 48):
            old = struct.unpack_from("<I", data, at)[0]
            for new in {old - 1, old + 1, old + 4, old + 8, 0, 2 ** 29, 2 ** 30, 2 ** 31, TOP} - {old, -1}:
                listed(page, [("m%d: field at %d set to %d" % (k, at, new), put(data, at, new), 5)])
    runs, above, level0 = [3, 2, 5, 3, 10, 7], [6, 3, 11, 7], [4, 2, 6, 3, 5, 4]
    one, two, three, four, five, six = SETTINGS
    many = list(range(13))
    shifted = put(put(put(put(page.samples[0], 36, 56), 40, 80), 44, 80), 48, 96)
    listed(page, [
        ("N 13 of 12 cells, kind 1", raw(one, 1, 0, [12, 0], [], [1] * 13), 5),
        ("N 13 of 12 cells, kind 2", raw(two, 13, 0, many, [], [1] * 13), 5),
        ("N 13 of 12 cells, kind 3", raw(three, 7, 13, many[::2], [0, 1] * 6 + [0], [1] * 13), 5),
        ("N 13 of 12 cells, kind 4", raw(four, 1, 13, [0], [0] + [1] * 12, [1] * 13), 5),
        ("N 13 of 12 cells, kind 5", raw(five, 0, 1, [], [13, 0], [1] * 13), 5),
        ("N 13 of 12 cells, kind 6", raw(six, 1, 13, [0], [0] + [1] * 12, [1] * 13, pointers=[0]), 5),
        ("5 runs, N 4", raw(one, 5, 0, runs + [11, 8, 11, 8], [], STORED), 5),
        ("1 run, N 0", raw(one, 1, 0, [11, 12], [], []), 5),
        ("a second part in kind 1", raw(one, 3, 1, runs, [0], STORED), 5),
        ("a second count in kind 1", put(page.samples[0], 32, 1), 5),
        ("3 positions, N 4", raw(two, 3, 0, [2, 3, 5], [], STORED), 5),
        ("5 positions, N 4", raw(two, 5, 0, [2, 3, 5, 10, 11], [], STORED), 5),
        ("a second part in kind 2", raw(two, 4, 1, [2, 3, 5, 10], [0], STORED), 5),
        ("1 base for 2", raw(three, 1, 4, [2], [0, 1, 3, 8], STORED), 5),
        ("3 bases for 2", raw(three, 3, 4, [2, 5, 10], [0, 1, 0, 5], STORED), 5),
        ("3 offsets, N 4", raw(three, 2, 3, [2, 5], [0, 1, 0], STORED), 5),
        ("5 offsets, N 4", raw(three, 2, 5, [2, 5], [0, 1, 0, 5, 6], STORED), 5),
        ("a base, N 0", raw(three, 1, 0, [0], [], []), 5),
        ("5 jumps, N 4", raw(four, 5, 4, [2, 3, 5, 10, 11], [0] * 4, STORED), 5),
        ("a jump, N 0", raw(four, 1, 0, [0], [], []), 5),
        ("3 differences, N 4", raw(four, 1, 3, [2], [0, 1, 2], STORED), 5),
        ("5 differences, N 4", raw(four, 1, 5, [2], [0, 1, 2, 5, 1], STORED), 5),
        ("5 jumps in kind 6, N 4", raw(six, 5, 4, [2, 3, 5, 10, 11], [0] * 4, STORED, pointers=[0, 2, 4]), 5),
        ("a jump and its pointer, N 0", raw(six, 1, 0, [0], [], [], pointers=[0]), 5),
        ("a pointer, N 0", raw(six, 0, 0, [], [], [], pointers=[0]), 5),
        ("3 differences in kind 6, N 4", raw(six, 1, 3, [2], [0, 1, 2], STORED, pointers=[0]), 5),
        ("no pointer for 1 jump", raw(six, 1, 4, [2], [0, 1, 2, 5], STORED), 5),
        ("2 pointers for 1 jump", raw(six, 1, 4, [2], [0, 1, 2, 5], STORED, pointers=[0, 0]), 5),
        ("1 pointer for 3 jumps at step 2", raw(six, 3, 4, [2, 3, 5], [0, 0, 0, 5], STORED, pointers=[0]), 5),
        ("3 pointers for 3 jumps at step 2", raw(six, 3, 4, [2, 3, 5], [0, 0, 0, 5], STORED, pointers=[0, 1, 2]), 5),
        ("5 runs in kind 5, N 4", raw(five, 5, 5, [0] * 10, [0] * 10, STORED), 5),
        ("no upper level", raw(five, 0, 3, [], level0, STORED), 5),
        ("1 upper entry for 2", raw(five, 1, 3, above[:2], level0, STORED), 5),
        ("3 upper entries for 2", raw(five, 3, 3, [11, 7] + above, level0, STORED), 5),
        ("an upper level of one page's end", raw(five, 1, 2, [6, 3], [4, 2, 6, 4], [1, 2]), 5),
        ("upper entries, N 0", raw(five, 1, 0, [0, 0], [], []), 5),
        ("a gap before the first part", shifted[:52] + bytes(4) + shifted[52:], 5),
    ])
    nine = [1, 0] * 9  # 9 runs, N 9, b 2: 10 upper entries
    listed(page, [("upper entries above N", file_of(nine, five), 0)])


def free_counts(page):
    """a count that is free up to N, and false, is 6"""
    one, _, _, four, five, six = SETTINGS
    cases = []
    for v in range(5):
        cases.append(("kind 1: %d runs of 0" % v, raw(one, v, 0, [0, 0] * v, [], STORED), 6))
        cases.append(("kind 4: %d jumps" % v, raw(four, v, 4, [2, 3, 5, 10][:v], [0, 1, 2, 5], STORED), 0 if v == 1 else 6))
        pointers = [0, 2][:-(-v // 2)]
        cases.append(("kind 6: %d jumps" % v, raw(six, v, 4, [2, 3, 5, 10][:v], [0, 1, 2, 5], STORED, pointers=pointers), 0 if v == 1 else 6))
        above = {3: 2, 4: 2}.get(v, 0)
        cases.append(("kind 5: %d runs of 0" % v, raw(five, above, v, [0, 0] * above, [0, 0] * v, STORED), 6))
    listed(page, cases)


def order(page):
    """of several numbers the lowest"""
    for k, data in enumerate(page.samples, 1):
        faults = [(0, 9, 1), (2, 9, 1), (1, 9, 1), (24, 13, 4), (len(data) - 4, 0, 4)]  # 2, 3, 4, 5, 6
        for some in itertools.product((False, True), repeat=5):
            changed, number = data, 0
            for i in reversed(range(5)):
                if some[i]:
                    changed, number = put(changed, *faults[i]), i + 2
            listed(page, [("m%d: faults %s" % (k, some), changed, number)])
            listed(page, [("m%d: faults %s, cut" % (k, some), changed[:51], 1)])
