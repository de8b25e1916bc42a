"""Damaged files: bytes changed, cut short, made longer, or with an entry more or less."""
import struct


def bytes_changed(chance, data, low, high):
    """One to three of the bytes from low up to high changed, by one or to any."""
    changed = bytearray(data)
    for _ in range(chance.randint(1, 3) if low < high else 0):
        at = chance.randrange(low, high)
        changed[at] = chance.choice((changed[at] + 1, changed[at] - 1, chance.randrange(256))) % 256
    return bytes(changed)


def entry_more_or_less(chance, data):
    """A part, the words or the pointers with one entry doubled or left out; count, offsets and length agree with the bytes."""
    kind, width, step = data[0], data[2], data[3]
    stored, count1, count2, first, second, words, length = struct.unpack_from("<7I", data, 24)
    pointers = -(-count1 // step) if kind == 6 else 0  # in the second part, and in no count
    sizes = (8 if kind in (1, 5) else 4, 8 if kind == 5 else width, 4, 4)
    counts, places = [count1, count2, pointers, stored], [first, second, words - 4 * pointers, words, length]
    if stored == 0:
        return data
    part = chance.choice([part for part in range(4) if counts[part] > 0])
    size, more = sizes[part], chance.choice((-1, 1))
    at = places[part] + size * chance.randrange(counts[part])
    counts[part] += more
    places[part + 1:] = [place + more * size for place in places[part + 1:]]
    header = data[:24] + struct.pack("<7I", counts[3], counts[0], counts[1], *places[:2], *places[3:])
    return header + data[52:at] + data[at:at + size] * (1 + more) + data[at + size:]


def damaged(chance, data):
    """The bytes of a file, damaged in one of these ways. By chance they can stay as they are."""
    way = chance.randrange(9)
    if way == 0:
        return data[:chance.randrange(52)]
    if way == 1:
        return data[:chance.randrange(len(data))]
    if way == 2:
        return data + chance.randbytes(chance.randint(1, 8))
    if way == 3:
        return bytes_changed(chance, data, 0, len(data))
    if way == 4:
        return bytes_changed(chance, data, 0, 4)
    if way == 5:
        return bytes_changed(chance, data, 4, 52)
    if way == 6:
        return entry_more_or_less(chance, data)
    return bytes_changed(chance, data, 52, len(data))
