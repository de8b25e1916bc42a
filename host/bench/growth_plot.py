"""The plot of growth: a row for each call, a panel for each kind, time against the number of cells, both axes logarithmic."""
from summary import values
from svg import FAINT, GRID, Axis, Picture, around

CELLS = [1 << 20, 1 << 22, 1 << 24]
NAMES = ["1M", "4M", "16M"]
LEFT, TOP, BOTTOM = 84, 104, 52
WIDTH, HEIGHT, GAP, SKIP = 124, 150, 20, 20
LEGEND = 800  # the least width, for the legend
WHO = {"engine": ("engine", "circle", "#0072b2", ""), "peer": ("yardstick", "square", "#d98200", ""),
       "memory": ("memory alone (reading or copying the bytes)", "diamond", "#8a8a8a", "3,3")}


def legend(picture):
    """The lines and what they stand for."""
    x = LEFT
    for name, shape, colour, dashes in WHO.values():
        picture.line(x, 66, x + 24, 66, colour, 2, dashes)
        picture.mark(shape, x + 12, 66, 4, colour)
        picture.text(x + 31, 70, name)
        x += 62 + 6.5 * len(name)
    picture.line(x, 71, x + 24, 61, GRID, 1.5)
    picture.text(x + 31, 70, "linear growth")


def linear(picture, across, up):
    """Lines of growth in proportion through the panel, one for each power of 10 at the left edge."""
    ratio = across.high / across.low
    for power in Axis(up.low / 10 ** 4, up.high, 0, 1).powers(10):
        low, high = max(power, up.low), min(power * ratio, up.high)
        if low < high:
            picture.line(across(across.low * low / power), up(low), across(across.low * high / power), up(high), GRID)


def panel(picture, across, up, lines):
    """The frame and the lines of one kind and call."""
    linear(picture, across, up)
    picture.path([(across.start, up.end), (across.start, up.start), (across.end, up.start)], FAINT, 1)
    for line in sorted(lines, key=lambda line: -list(WHO).index(line.who)):
        name, shape, colour, dashes = WHO[line.who]
        points = [(across(cells), up(time)) for cells, time in zip(CELLS, line.times)]
        picture.path(points, colour, 2, dashes)
        for (x, y), cells, time in zip(points, NAMES, line.times):
            picture.mark(shape, x, y, 3.4, colour, f"kind {line.kind}, {line.call}, {name}, {cells} cells: {time:.3f} ms")


def plot(results):
    """The whole picture."""
    lines = results.bench.growth
    kinds, calls = values(lines, "kind"), values(lines, "call")
    width = max(LEFT + len(kinds) * (WIDTH + GAP) + 10, LEGEND)
    picture = Picture(width, TOP + len(calls) * (HEIGHT + SKIP) - SKIP + BOTTOM, "Growth with the size of the picture (harbour)",
                      "A line as steep as the grey ones takes 4 times as long for 4 times the cells.")
    legend(picture)
    for down, call in enumerate(calls):
        top = TOP + down * (HEIGHT + SKIP)
        low, high = around([time for line in lines if line.call == call for time in line.times], 10)
        up = Axis(low, high, top + HEIGHT, top)
        picture.upright(20, top + HEIGHT / 2, f"{call}, ms", size=13)
        for power in up.powers(10):
            picture.text(LEFT - 8, up(power) + 4, f"{power:g}", anchor="end")
            picture.line(LEFT - 4, up(power), LEFT, up(power), FAINT)
        for place, kind in enumerate(kinds):
            start = LEFT + place * (WIDTH + GAP)
            across = Axis(CELLS[0] / 1.25, CELLS[2] * 1.25, start, start + WIDTH)
            panel(picture, across, up, [line for line in lines if (line.kind, line.call) == (kind, call)])
            if down == 0:
                picture.text(start + WIDTH / 2, TOP - 10, f"kind {kind}", anchor="middle", bold=True)
            for cells, name in zip(CELLS, NAMES):
                picture.line(across(cells), up.start, across(cells), up.start + 4, FAINT)
                if call == calls[-1]:
                    picture.text(across(cells), up.start + 17, name, anchor="middle")
    picture.text((LEFT + width) / 2, picture.height - 14, "cells (M = 1,048,576)", anchor="middle", colour=FAINT)
    return picture.render()
