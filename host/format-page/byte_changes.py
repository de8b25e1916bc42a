"""The samples with a byte changed, cut short, or with bytes past the end."""
import itertools
import struct

from counting import Together
from layout import file_of, put
from page import SETTINGS, listed


def made_again(data, page):
    """The file of words(data), in the dimensions, E and setting of the header."""
    extents = struct.unpack_from("<4I", data, 4)
    empty = struct.unpack_from("<I", data, 20)[0]
    words = page.words(data)
    near, far = words[:1000], words[1000:]  # the files changed here store nothing past the first cells
    if len(words) != extents[0] * extents[1] * extents[2] * extents[3] or far != [empty] * len(far):
        return None
    return file_of(near, (data[0], data[2], data[3]), data[1], extents, empty)


def byte_changes(page):
    """every change of one byte"""
    for k, data in enumerate(page.samples, 1):
        for at in range(len(data)):
            with Together("m%d: byte %d" % (k, at)) as each:
                for byte in {data[at] ^ 1, data[at] ^ 128, 0, 255} - {data[at]}:
                    changed = put(data, at, byte, 1)
                    got = page.number(changed)
                    each(got in range(7) and (got != 0 or made_again(changed, page) == changed), "set to", byte, "gives", got)


def body_bytes(page):
    """more changes of the parts and words: exactly the pictures' files are accepted"""
    pictures = [[1 if p in at else 0 for p in range(12)] for at in itertools.combinations(range(12), 4)]
    for k, data in enumerate(page.samples, 1):
        at_words = len(data) - 16
        files = [file_of(picture, SETTINGS[k - 1]) for picture in pictures]
        heads = {file[:len(file) - 16] for file in files if file}
        for at in range(52, len(data)):
            with Together("m%d: byte %d" % (k, at)) as each:
                for byte in (*range(16), 16, 32, 64, 128, 254, 255):
                    changed = put(data, at, byte, 1)
                    kept = struct.unpack("<4I", changed[at_words:])
                    number = 0 if changed[:at_words] in heads and 0 not in kept else 6
                    got = page.number(changed)
                    each(got == number, "set to", byte, "gives", got, "not", number)


def lengths(page):
    """every truncation, and bytes past the end"""
    for k, data in enumerate(page.samples, 1):
        listed(page, [("m%d: %d bytes" % (k, length), data[:length], 1 if length < 52 else 5) for length in range(len(data))])
        for more in (b"\0", b"\1", b"\xff", bytes(4), data):
            listed(page, [("m%d: %d bytes more" % (k, len(more)), data + more, 5)])
