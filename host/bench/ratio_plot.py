"""The plot of ratios: a panel for each picture, a row for each call, a mark for each kind on a logarithmic axis."""
from summary import LINE_BOUND, MEAN_BOUND, mean, values
from svg import FAINT, GRID, INK, Axis, Picture

MARKS = [("circle", "#0072b2"), ("square", "#d98200"), ("up", "#00795a"), ("diamond", "#c44601"), ("down", "#a84d86"), ("circle", "#5c5c5c")]
LEFT, TOP, BOTTOM = 128, 120, 52
PANEL, GAP = 256, 30
STEP = 10 # between the marks of a row
PAD = 8   # above and below them
LEGEND = 920  # the least width, for the legend
FASTER = "#edf6ef"
MEAN = "#9c9c9c"
MARGIN = 1.2  # from the outermost ratios to the ends of the axis


def mark_of(kind, kinds):
    """Shape and colour of a kind."""
    return MARKS[kinds.index(kind) % len(MARKS)]


def legend(picture, kinds):
    """The marks and what they stand for."""
    x = LEFT
    for kind in kinds:
        shape, colour = mark_of(kind, kinds)
        picture.mark(shape, x + 5, 66, 4.5, colour)
        picture.text(x + 14, 70, f"kind {kind}")
        x += 32 + 7 * len(f"kind {kind}")
    picture.line(x + 5, 58, x + 5, 74, MEAN, 3)
    picture.text(x + 14, 70, "geometric mean of the row")


def frame(picture, axis, texture, bottom):
    """A panel's ground, its axis and the lines at 1 and at the bounds."""
    picture.rect(axis.start, TOP, max(0, axis(1) - axis.start), bottom - TOP, FASTER)
    for power in axis.powers(2):
        picture.line(axis(power), TOP, axis(power), bottom, GRID)
        picture.text(axis(power), bottom + 16, f"{power:g}" if power >= 1 else f"1/{1 / power:g}", anchor="middle")
    picture.line(axis(1), TOP, axis(1), bottom, INK, 1.5)
    for bound in (MEAN_BOUND, LINE_BOUND):
        picture.line(axis(bound), TOP, axis(bound), bottom, FAINT, 1.2, "5,3")
    picture.text(axis.start, TOP - 24, texture, size=14, bold=True)
    picture.text(axis(1) - 5, TOP - 7, "engine faster", size=11, anchor="end", colour=FAINT)
    picture.text(axis(1) + 5, TOP - 7, "yardstick faster", size=11, colour=FAINT)


def row(picture, axis, lines, top, kinds):
    """The marks of one call in one panel, each kind on a line of its own; ratios over the bound are written out."""
    height = STEP * len(kinds) + 2 * PAD - STEP
    place = axis(mean(lines))
    picture.line(place, top + 2, place, top + height - 2, MEAN, 3)
    for line in lines:
        y = top + PAD + STEP * kinds.index(line.kind)
        shape, colour = mark_of(line.kind, kinds)
        picture.mark(shape, axis(line.ratio), y, 3.6, colour, f"{line.texture}, kind {line.kind}, {line.call}: {line.ratio:.2f}")
        if line.ratio > LINE_BOUND:
            picture.text(axis(line.ratio) + 7, y + 4, f"{line.ratio:.1f}", size=11)


def plot(results):
    """The whole picture."""
    lines = results.bench.lines
    textures, kinds, calls = (values(lines, name) for name in ("texture", "kind", "call"))
    height = STEP * len(kinds) + 2 * PAD - STEP
    bottom = TOP + height * len(calls)
    shown = [line.ratio for line in lines] + [0.5, LINE_BOUND]
    low, high = min(shown) / MARGIN, max(shown) * MARGIN
    width = max(LEFT + len(textures) * (PANEL + GAP), LEGEND)
    picture = Picture(width, bottom + BOTTOM, "Time of the engine over time of the yardstick, by call",
                      f"Left of the line at 1 the engine is faster. Dashed: {MEAN_BOUND}, the bound of a mean, and {LINE_BOUND}, "
                      "the bound of a line (none is set for box).")
    legend(picture, kinds)
    for place, texture in enumerate(textures):
        start = LEFT + place * (PANEL + GAP)
        axis = Axis(low, high, start, start + PANEL)
        frame(picture, axis, texture, bottom)
        for at, call in enumerate(calls):
            found = [line for line in lines if line.texture == texture and line.call == call]
            picture.line(start, TOP + at * height, start + PANEL, TOP + at * height, GRID)
            row(picture, axis, found, TOP + at * height, kinds)
        picture.text(start + PANEL / 2, bottom + 36, "engine / yardstick (ratio of times)", anchor="middle", colour=FAINT)
    for at, call in enumerate(calls):
        picture.text(LEFT - 10, TOP + at * height + height / 2 + 4, call, anchor="end")
    return picture.render()
