"""The plot of sizes: a panel for each picture, a row for each file, bytes on a logarithmic axis."""
from size_rows import GROUPS, rows
from svg import FAINT, GRID, INK, Axis, Picture, around

LEFT, TOP, BOTTOM = 186, 104, 52
PANEL, ROOM, STEP, SKIP = 190, 96, 22, 10  # ROOM is for the sizes written right of a panel
LEGEND = 900  # the least width, for the legend
COLOURS = {"raw": "#5c5c5c", "packed": "#d98200", "engine": "#0072b2", "engine, packed": "#a84d86"}
SAID = {"raw": "raw words", "packed": "general compressors", "engine": "the engine's files", "engine, packed": "the engine's shortest file, packed"}
SHAPES = {"raw": "square", "packed": "diamond", "engine": "circle", "engine, packed": "up"}


def short(number):
    """A number of bytes with three figures."""
    for unit, size in [("MB", 10 ** 6), ("kB", 10 ** 3)]:
        if number >= size:
            value = number / size
            return f"{value:.{0 if value >= 99.95 else 1 if value >= 9.995 else 2}f} {unit}"
    return f"{number} B"


def legend(picture):
    """The marks and what they stand for."""
    x = LEFT
    for group in GROUPS:
        picture.mark(SHAPES[group], x + 5, 66, 4.5, COLOURS[group])
        picture.text(x + 15, 70, SAID[group])
        x += 44 + 7 * len(SAID[group])


def axis_lines(picture, axis, texture, bottom):
    """A panel's name and axis."""
    picture.text(axis.start, TOP - 12, texture, size=14, bold=True)
    for power in axis.powers(10):
        picture.line(axis(power), TOP, axis(power), bottom, GRID)
        picture.text(axis(power), bottom + 16, short(round(power)).replace(".00", "").replace(".0", ""), anchor="middle")
    picture.text((axis.start + axis.end) / 2, bottom + 36, "bytes", anchor="middle", colour=FAINT)


def entry(picture, axis, y, row, texture):
    """A file's line, mark and size."""
    size = row.sizes[texture]
    x, said = axis(size.bytes), short(size.bytes)
    if size.note:
        said += f" ({size.note})"
    picture.line(axis.start, y, x, y, COLOURS[row.group], 1)
    picture.mark(SHAPES[row.group], x, y, 4, COLOURS[row.group], f"{texture}, {row.name}: {size.bytes:,} bytes")
    picture.text(x + 9, y + 4, said, size=11)


def plot(results):
    """The whole picture."""
    found = rows(results.sizes)
    textures = list(results.sizes)
    places = [TOP + STEP * (at + 0.5) + SKIP * GROUPS.index(row.group) for at, row in enumerate(found)]
    bottom = places[-1] + STEP / 2 + 4
    low, high = around([size.bytes for row in found for size in row.sizes.values()], 10)
    picture = Picture(max(LEFT + len(textures) * (PANEL + ROOM), LEGEND), bottom + BOTTOM,
                      "Bytes of a picture: raw, packed by general compressors, in the engine's files",
                      "The axis is logarithmic. What a compressor makes has to be unpacked before a cell can be read; "
                      "the engine's files are read in place.")
    legend(picture)
    for place, texture in enumerate(textures):
        start = LEFT + place * (PANEL + ROOM)
        axis = Axis(low, high, start, start + PANEL)
        axis_lines(picture, axis, texture, bottom)
        for y, row in zip(places, found):
            entry(picture, axis, y, row, texture)
    for y, row in zip(places, found):
        picture.text(LEFT - 10, y + 4, row.name, anchor="end", colour=INK)
    return picture.render()
