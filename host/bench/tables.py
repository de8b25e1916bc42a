"""The generated parts of docs/PERFORMANCE.md as Markdown."""
from size_rows import rows as size_rows
from summary import GROUPS, LINE_BOUND, MEAN_BOUND, holds, in_group, mean, over, values, worst

WORST = 3


def table(head, rows):
    """A Markdown table."""
    lines = [head, ["---"] * len(head), *rows]
    return "\n".join("| " + " | ".join(map(str, line)) + " |" for line in lines)


def run(results):
    """The pictures, and the conditions of the run."""
    pictures = results.bench.pictures.items()
    rows = [[texture, f"{p.cells:,}", f"{p.stored:,}", f"{100 * p.stored / p.cells:.1f} %"] for texture, p in pictures]
    return table(["Picture", "Cells", "Stored", "Share"], rows) + "\n\n" + table(["The run", ""], results.conditions.items())


def ratios(results):
    """The plot, and a row for each picture and kind with a column for each call; some calls are timed in some kinds alone."""
    lines = results.bench.lines
    calls = values(lines, "call")
    by_key = {(line.texture, line.kind, line.call): f"{line.ratio:.2f}" for line in lines}
    keys = dict.fromkeys((line.texture, line.kind) for line in lines)
    rows = [[texture, kind, *(by_key.get((texture, kind, call), "-") for call in calls)] for texture, kind in keys]
    alt = "The engine's time over the yardstick's for each call, picture and kind, on a logarithmic axis"
    return f"![{alt}](performance/ratios.svg)\n\n" + table(["Picture", "Kind", *calls], rows)


def verdict(group, lines):
    """Whether the bounds hold."""
    if not group.bounded:
        return "none set"
    if holds(lines):
        return "hold"
    return f"do not hold: mean {mean(lines):.2f}, {over(lines)} {'line' if over(lines) == 1 else 'lines'} over {LINE_BOUND}"


def means(results):
    """The means of the groups, and by call, kind and picture."""
    lines = results.bench.lines
    rows = []
    for group in GROUPS:
        found = in_group(lines, group)
        if found:
            rows.append([f"{group.name} ({', '.join(values(found, 'call'))})", len(found), f"{mean(found):.2f}",
                         f"{worst(found, 1)[0].ratio:.2f}", verdict(group, found)])
    rows.append(["all", len(lines), f"{results.bench.mean:.2f}", f"{worst(lines, 1)[0].ratio:.2f}", ""])
    bounds = f"Bounds: {MEAN_BOUND} for the geometric mean of a group, {LINE_BOUND} for any of its lines."
    parts = [table(["Lines", "Number", "Geometric mean", "Worst", "Bounds"], rows), bounds]
    for head, field in [("Call", "call"), ("Kind", "kind"), ("Picture", "texture")]:
        each = values(lines, field)
        parts.append(table([head, *each], [["mean", *(f"{results.bench.means[field][value]:.2f}" for value in each)]]))
    return "\n\n".join(parts)


def worst_lines(results):
    """The worst lines of each group, with their times."""
    parts = []
    for group in GROUPS:
        found = worst(in_group(results.bench.lines, group), WORST)
        rows = [f"- {x.texture}, kind {x.kind}, {x.call}: {x.ratio:.2f} ({x.engine:,.3f} {x.unit} against {x.peer:,.3f} {x.unit})" for x in found]
        if rows:
            parts.append(f"{group.name.capitalize()}:\n\n" + "\n".join(rows))
    return "\n\n".join(parts)


def growth(results):
    """The plot, the times of the engine, and how the engine, the yardstick and memory alone grow."""
    by_key = {}
    for line in results.bench.growth:
        by_key.setdefault((line.kind, line.call), {})[line.who] = line
    rows = []
    for (kind, call), who in by_key.items():
        times = [f"{time:.3f}" for time in who["engine"].times]
        pairs = [f"{who[name].ratios[step]:.2f}" for step in (0, 1) for name in ("engine", "peer", "memory")]
        rows.append([kind, call, *times, *pairs])
    head = ["Kind", "Call", "1M, ms", "4M, ms", "16M, ms"]
    head += [f"{step}: {name}" for step in ("4M/1M", "16M/4M") for name in ("engine", "yardstick", "memory")]
    peer, engine, peer_beside, engine_beside = results.bench.steepest
    said = (f"The steepest step: engine {engine:.2f}, yardstick {peer:.2f}. Over 4 or memory's own growth, whichever is more: "
            f"engine {engine_beside:.2f}, yardstick {peer_beside:.2f}.")
    alt = "Time against the number of cells for check, make and write in each kind, both axes logarithmic"
    return f"![{alt}](performance/growth.svg)\n\n{table(head, rows)}\n\n{said}"


def size_cell(size, raw):
    """The bytes of a size, its share of the raw words, and its note."""
    note = f" ({size.note})" if size.note else ""
    return f"{size.bytes:,}, {100 * size.bytes / raw:.2f} %{note}"


def sizes(results):
    """The plot, and the bytes of each file with its share of the raw words."""
    raw = {texture: by_name["words"] for texture, by_name in results.sizes.items()}
    lines = [[row.name, *(size_cell(row.sizes[texture], raw[texture]) for texture in raw)] for row in size_rows(results.sizes)]
    alt = "Bytes of the raw words, of what lz4 and zstd make of them, and of the engine's files, for each picture"
    return f"![{alt}](performance/sizes.svg)\n\n" + table(["Bytes", *raw], lines)


def peers(results):
    """A row for each store of positions: its times and its bytes a stored cell, for each picture."""
    if not results.peers:
        return "Not measured in this run: it had no `--peers`."
    pictures = results.bench.pictures
    by_key = {(peer.store, peer.texture): peer for peer in results.peers}
    head = ["Store", *(f"{texture}: {what}" for texture in pictures for what in ("rank, ns", "position, ns", "bytes a cell"))]
    rows = []
    for store in dict.fromkeys(peer.store for peer in results.peers):
        cells = []
        for texture, picture in pictures.items():
            peer = by_key[store, texture]
            cells += [f"{peer.rank:,.1f}", f"{peer.position:,.1f}", f"{peer.bytes / picture.stored:.2f}"]
        rows.append([store, *cells])
    return table(head, rows)


PARTS = {"run": run, "ratios": ratios, "means": means, "worst": worst_lines, "growth": growth, "sizes": sizes, "peers": peers}
