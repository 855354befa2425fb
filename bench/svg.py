"""Charts as SVG, by hand: bars in groups, and lines over sizes. All lengths are pixels."""

import math
from xml.sax.saxutils import escape

INK, FAINT, GRID = "#222222", "#666666", "#e2e2e2"
FONT = "font-family=\"'DejaVu Sans', Verdana, Helvetica, Arial, sans-serif\""


def short(value):
    """A coordinate with one digit behind the point, where it isn't 0."""
    return f"{value:.1f}".rstrip("0").rstrip(".")


class Canvas:
    """A picture of a width and a height, to which shapes are added."""

    def __init__(self, width, height, title):
        self.width, self.height, self.title, self.shapes = width, height, title, []

    def add(self, shape):
        self.shapes.append(shape)

    def text(self, x, y, text, size=12, anchor="start", color=INK, weight="normal"):
        self.add(f'<text x="{short(x)}" y="{short(y)}" font-size="{size}" text-anchor="{anchor}" fill="{color}" font-weight="{weight}">{escape(text)}</text>')

    def line(self, points, color, width=1.0, dash=None):
        path = "M" + "L".join(f"{short(x)} {short(y)}" for x, y in points)
        dashed = f' stroke-dasharray="{dash}"' if dash else ""
        self.add(f'<path d="{path}" fill="none" stroke="{color}" stroke-width="{short(width)}"{dashed}/>')

    def bar(self, x, y, width, height, color):
        self.add(f'<rect x="{short(x)}" y="{short(y)}" width="{short(width)}" height="{short(height)}" fill="{color}"/>')

    def dot(self, x, y, color, radius=3.5):
        self.add(f'<circle cx="{short(x)}" cy="{short(y)}" r="{short(radius)}" fill="{color}"/>')

    def legend(self, x, y, series):
        """A mark and a name for each of the series, in a row."""
        for name, color in series:
            self.bar(x, y - 9, 11, 11, color)
            self.text(x + 16, y, name, 12)
            x += 40 + 6.8 * len(name)

    def svg(self):
        return (f'<svg xmlns="http://www.w3.org/2000/svg" width="{self.width}" height="{self.height}" viewBox="0 0 {self.width} {self.height}" {FONT} role="img">\n'
                f"<title>{escape(self.title)}</title>\n"
                f'<rect width="{self.width}" height="{self.height}" fill="#ffffff"/>\n' + "\n".join(self.shapes) + "\n</svg>\n")


def nice_step(most):
    """A step of a scale from 0 to `most`, with four or five of them."""
    rough = most / 4.5
    power = 10 ** math.floor(math.log10(rough))
    return next(power * times for times in (1, 2, 2.5, 5, 10) if power * times >= rough)


class Box:
    """Where a chart stands within its picture."""

    def __init__(self, canvas, left, top, width, height):
        self.canvas, self.left, self.top, self.width, self.height = canvas, left, top, width, height
        self.right, self.bottom = left + width, top + height

    def heading(self, text):
        self.canvas.text(self.left, self.top - 14, text, 13, weight="bold")

    def rule(self, y, text):
        """A line across, with what it stands for beside it."""
        self.canvas.line([(self.left, y), (self.right, y)], GRID)
        self.canvas.text(self.left - 6, y + 4, text, 11, "end", FAINT)


class Bars:
    """Bars in groups over a scale from 0: a group for each label, a bar for each series. A value that is None has no bar."""

    def __init__(self, box, most, told):
        """`told` writes a value as a text."""
        # room above the longest bar for its value
        step = nice_step(most)
        self.box, self.told, self.top = box, told, step * math.ceil(most * 1.07 / step)
        for n in range(round(self.top / step) + 1):
            box.rule(self.height_of(n * step), told(n * step))

    def height_of(self, value):
        return self.box.bottom - self.box.height * value / self.top

    def groups(self, groups, colors):
        """`groups` has a label and the values of the series for each."""
        room = self.box.width / len(groups)
        wide = min(46, room * 0.82 / len(colors))
        for n, (label, values) in enumerate(groups):
            middle = self.box.left + room * (n + 0.5)
            self.box.canvas.text(middle, self.box.bottom + 17, label, 12, "middle")
            here = [(value, color) for value, color in zip(values, colors) if value is not None]
            for place, (value, color) in enumerate(here):
                x = middle + wide * (place - len(here) / 2)
                self.box.canvas.bar(x + 1, self.height_of(value), wide - 2, self.box.bottom - self.height_of(value), color)
                self.box.canvas.text(x + wide / 2, self.height_of(value) - 4, self.told(value), 10, "middle", INK)


class Scale:
    """A scale by powers of ten."""

    def __init__(self, least, most, start, end):
        self.low, self.high = math.floor(math.log10(least)), math.ceil(math.log10(most))
        self.start, self.end = start, end

    def at(self, value):
        return self.start + (self.end - self.start) * (math.log10(value) - self.low) / (self.high - self.low)

    def powers(self):
        return [10.0 ** power for power in range(self.low, self.high + 1)]


class Lines:
    """Lines over places on a scale by powers of ten, each with its name at its end."""

    def __init__(self, box, values, told):
        self.box = box
        self.upward = Scale(min(values), max(values), box.bottom, box.top)
        for power in self.upward.powers():
            box.rule(self.upward.at(power), told(power))

    def over_sizes(self, sizes, told):
        """Sizes along the lower edge, by powers of ten too."""
        self.across = Scale(min(sizes), max(sizes), self.box.left, self.box.right)
        for power in self.across.powers():
            x = self.across.at(power)
            self.box.canvas.line([(x, self.box.top), (x, self.box.bottom)], GRID)
            self.box.canvas.text(x, self.box.bottom + 17, told(power), 11, "middle", FAINT)

    def over_labels(self, labels):
        """Labels along the lower edge, at even places; gives these."""
        room = self.box.width / len(labels)
        places = [self.box.left + room * (n + 0.5) for n in range(len(labels))]
        for x, label in zip(places, labels):
            self.box.canvas.text(x, self.box.bottom + 17, label, 12, "middle")
        return places

    def draw(self, points, color):
        """A line through points of a place across and a value; gives where it ends."""
        told = [(x, self.upward.at(value)) for x, value in points]
        self.box.canvas.line(told, color, 2)
        for x, y in told:
            self.box.canvas.dot(x, y, color)
        return told[-1]


def apart(heights, gap, top, bottom):
    """The heights, ascending, moved so that each is a gap below the one before and all are within top and bottom."""
    moved = []
    for height in heights:
        moved.append(max(height, moved[-1] + gap if moved else top))
    over = max(0, moved[-1] - bottom) if moved else 0
    limit = bottom
    for n in range(len(moved) - 1, -1, -1):
        moved[n] = min(moved[n], limit) if over else moved[n]
        limit = moved[n] - gap
    return moved


def name_ends(box, ends, gap=17):
    """Names beside where lines end, at the right of the box, moved apart where they would meet."""
    ends = sorted(ends, key=lambda end: end[1])
    places = apart([y for _, y, _, _ in ends], gap, box.top, box.bottom)
    for (x, y, name, color), place in zip(ends, places):
        box.canvas.line([(x + 6, y), (box.right + 14, place), (box.right + 20, place)], color, 0.8, "2 2")
        box.canvas.text(box.right + 24, place + 4, name, 11.5, color=color)
