#!/usr/bin/env python3
"""Draws the figures of docs/SPEED.md as pictures: docs/speed-*.svg.

usage: bench/plot.py [--check]       (also bench/run --plot)

Nothing is measured: the numbers are those of the page's tables, so whoever changes a table draws the pictures anew. With --check
nothing is written; the status is 1 where a picture isn't that of the tables.
"""

import sys

from figures import PAGE, Slope, Unread, in_brackets, points, rate, shapes, slopes
from svg import FAINT, INK, Bars, Box, Canvas, Lines, name_ends

OURS, OURS_TOO, OTHER, BASE = "#1b6f8a", "#8fbccb", "#c4572f", "#b9b2a4"
SERVERS = [("tardisd", OURS), ("tardis serve", OURS_TOO), ("redis-server", OTHER)]
FILES = [("tardisd --file", OURS), ("tardis durable", OURS_TOO), ("redis-server", OTHER), ("tardisd in memory", BASE)]
# Rows of the first table that tell a cost at several sizes, by the front of their first cell.
SLOPES = {
    "a fork and its merge": "a fork and its merge, by rounds so far",
    "a merge of 64 keys": "a merge of 64 keys, by kept states",
    "a commit that lands": "a commit, by states down to its landing",
    "a merge of two of": "a merge of two leaves, by leaves",
    "a chain of 40,000 tidied": "a commit and its collecting, by kept states",
    "a commit that forks off": "a fork off an old state, by its children",
    "a commit that makes a second child": "a second child, by states kept since the first",
    "run over the script of an import": "a key of an import, by its keys",
}
OF_ONE = "a key of an import, by its keys"
SLOPE_COLORS = ["#1b6f8a", "#c4572f", "#5b7f2b", "#7a4fa3", "#2f9e8f", "#b3861b", "#a33a6a", "#4a5a78"]


def thousands(value):
    """How many thousands a rate has."""
    return f"{value / 1e3:,.0f}" if value >= 99_500 else f"{value / 1e3:.1f}".replace(".0", "")


def duration(value):
    for unit, least in ("s", 1.0), ("ms", 1e-3), ("µs", 1e-6):
        if value >= least * 0.9999:
            return f"{value / least:g} {unit}"
    return f"{value * 1e9:g} ns"


def count(value):
    for unit, least in (" million", 1e6), (",000", 1e3):
        if value >= least:
            return f"{value / least:g}{unit}"
    return f"{value:g}"


def amount(value):
    return f"{value / 1e9:g} GB" if value >= 1e9 else f"{value / 1e6:g} MB"


def note(canvas, text):
    canvas.text(24, canvas.height - 14, text, 11, color=FAINT)


def of_way(found, what, way):
    return [shape for shape in found if shape.what == what and shape.way == way]


def throughput(text):
    found = shapes(text, "tardis serve", "Times")
    canvas = Canvas(880, 622, "Transactions and reads a second, by connections, of tardisd, tardis serve and redis-server")
    canvas.text(24, 30, "Thousands a second, beside Redis", 16, weight="bold")
    canvas.legend(24, 54, SERVERS)
    for n, what in enumerate(("transactions", "reads")):
        top = 100 + 262 * n
        bars_of(Box(canvas, 76, top, 500, 190), of_way(found, what, "by turns"), f"{what}, each asked once the one before was answered", SERVERS)
        bars_of(Box(canvas, 668, top, 188, 190), of_way(found, what, "pipelined"), f"{what}, pipelined", SERVERS)
    note(canvas, "All in memory, over Unix sockets; tardis serve takes at most 64 links. From the table 'Beside Redis' of docs/SPEED.md.")
    return canvas


def connections(shape):
    return f"{shape.connections} connection{'s' if shape.connections > 1 else ''}"


def bars_of(box, found, heading, series):
    """Bars of a rate for each shape, and below them how many connections it has. A cell without a rate has no bar."""
    groups = [(connections(shape), [rate(shape.cells[name]) for name, _ in series]) for shape in found]
    bars = Bars(box, max(value for _, values in groups for value in values if value), thousands)
    box.heading(heading)
    bars.groups(groups, [color for _, color in series])


def latency(text):
    found = shapes(text, "tardis serve", "Times")
    canvas = Canvas(880, 400, "How long 99 in 100 transactions and reads took at most, by connections")
    canvas.text(24, 30, "How long 99 in 100 took at most, from asking to the reply", 16, weight="bold")
    canvas.legend(24, 54, SERVERS)
    turns = [shape for shape in found if shape.way == "by turns"]
    values = [in_brackets(shape.cells[name])[1] for shape in turns for name, _ in SERVERS if in_brackets(shape.cells[name])]
    for n, what in enumerate(("transactions", "reads")):
        box = Box(canvas, 76 + 424 * n, 100, 356, 220)
        box.heading(f"{what}, by turns")
        lines = Lines(box, values, duration)
        here = of_way(found, what, "by turns")
        places = lines.over_labels([str(shape.connections) for shape in here])
        for name, color in SERVERS:
            told = [(x, in_brackets(shape.cells[name])) for x, shape in zip(places, here)]
            lines.draw([(x, times[1]) for x, times in told if len(times) == 2], color)
        canvas.text(box.left + box.width / 2, box.bottom + 36, "connections", 11, "middle", FAINT)
    note(canvas, "The scale goes by powers of ten. From the table 'Beside Redis' of docs/SPEED.md.")
    return canvas


def on_a_file(text):
    found = shapes(text, "tardisd --file", "tardis durable")
    canvas = Canvas(880, 380, "Transactions a second of servers that keep a file, by connections")
    canvas.text(24, 30, "Thousand transactions a second, each on the disk before its reply", 16, weight="bold")
    canvas.legend(24, 54, [(name if name != "redis-server" else "redis-server, appendfsync always", color) for name, color in FILES])
    box = Box(canvas, 76, 100, 560, 200)
    slow = [shape for shape in found if shape.way != "all at once"]
    bars_of(box, slow, "asked by turns", FILES)
    for n, shape in enumerate(slow):
        place = box.left + box.width / len(slow) * (n + 0.5)
        canvas.text(place, box.bottom + 33, "a request at once" if shape.way == "by turns" else shape.way, 10, "middle", FAINT)
    bars_of(Box(canvas, 712, 100, 148, 200), [shape for shape in found if shape.way == "all at once"], "all at once", FILES)
    note(canvas, "tardisd in memory puts nothing on a disk. From the table 'A server on a file' of docs/SPEED.md.")
    return canvas


def sizes(text):
    canvas = Canvas(880, 760, "What requests cost by size, and what a start on a file costs")
    canvas.text(24, 30, "What a cost grows with", 16, weight="bold")
    canvas.text(24, 52, "Both scales go by powers of ten: a line that is level doesn't grow, one as steep as the dashes grows in proportion.", 12, color=FAINT)
    box = Box(canvas, 76, 100, 440, 310)
    box.heading("one request")
    over_sizes(box, [each(slope) if slope.name == OF_ONE else slope for slope in slopes(text, SLOPES)], count)
    starts = [("a start on a file, by records ever made and collected", points(text, "Records", "A start"), count),
              ("a start on a file, by what it keeps", points(text, "Kept", "The next start"), amount)]
    for n, (heading, told, written) in enumerate(starts):
        box = Box(canvas, 76 + 424 * n, 500, 330, 190)
        box.heading(heading)
        over_sizes(box, [Slope("", told)], written)
    note(canvas, "From the tables 'Figures' and 'A start on a file' of docs/SPEED.md.")
    return canvas


def each(slope):
    """What one of so many costs, where the slope tells what all of them do."""
    return Slope(slope.name, [(size, cost / size) for size, cost in slope.points])


def over_sizes(box, told, written):
    """Lines of costs over sizes, with the names at their ends."""
    lines = Lines(box, [cost for slope in told for _, cost in slope.points], duration)
    lines.over_sizes([size for slope in told for size, _ in slope.points], written)
    guide(box, lines)
    ends = []
    for slope, color in zip(told, SLOPE_COLORS):
        x, y = lines.draw([(lines.across.at(size), cost) for size, cost in slope.points], color)
        ends.append((x, y, slope.name, color))
    name_ends(box, [end for end in ends if end[2]])


def guide(box, lines):
    """A dashed line that grows in proportion, from the lower left corner on."""
    low, left = 10.0 ** lines.upward.low, 10.0 ** lines.across.low
    times = 10.0 ** min(lines.upward.high - lines.upward.low, lines.across.high - lines.across.low)
    box.canvas.line([(box.left, box.bottom), (lines.across.at(left * times), lines.upward.at(low * times))], INK, 0.8, "5 4")


PICTURES = {"speed-rates.svg": throughput, "speed-latency.svg": latency, "speed-file.svg": on_a_file, "speed-sizes.svg": sizes}


def main():
    text = PAGE.read_text(encoding="utf-8")
    is_same = True
    for name, draw in PICTURES.items():
        path = PAGE.parent / name
        picture = draw(text).svg()
        if "--check" in sys.argv[1:]:
            if not path.exists() or path.read_text(encoding="utf-8") != picture:
                print(f"{path} isn't that of the tables; bench/run --plot draws it anew")
                is_same = False
        else:
            path.write_text(picture, encoding="utf-8")
            print(path)
    return 0 if is_same else 1


if __name__ == "__main__":
    try:
        sys.exit(main())
    except Unread as error:
        sys.exit(f"bench/plot.py: {PAGE}: {error}")
