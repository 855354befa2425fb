"""The figures of docs/SPEED.md, read from its tables, for the pictures that `bench/plot.py` draws."""

import pathlib
import re

PAGE = pathlib.Path(__file__).resolve().parent.parent / "docs" / "SPEED.md"
MULTIPLES = {"": 1, "thousand": 1e3, "million": 1e6}
SECONDS = {"ns": 1e-9, "µs": 1e-6, "ms": 1e-3, "s": 1.0}
BYTES = {"KB": 1e3, "MB": 1e6, "GB": 1e9}
NUMBER = r"\d[\d,]*(?:\.\d+)?"
NAMED = {"a million": 1e6, "ten million": 1e7}


class Unread(Exception):
    """What a picture needs and the page hasn't got."""


class Table:
    """A table of the page: its columns, and its rows as lists of texts."""

    def __init__(self, columns, rows):
        self.columns, self.rows = columns, rows

    def column(self, row, name):
        return row[self.columns.index(name)]


def cells(line):
    return [cell.strip().replace("`", "") for cell in line.strip().strip("|").split("|")]


def tables(text):
    """All tables of the page, in order."""
    found, lines = [], text.splitlines()
    for place, line in enumerate(lines):
        if re.fullmatch(r"\|[-|]+\|", line):
            rows = []
            for row in lines[place + 1:]:
                if not row.startswith("|"):
                    break
                rows.append(cells(row))
            found.append(Table(cells(lines[place - 1]), rows))
    return found


def table_with(text, *columns):
    """The one table that has these columns."""
    fitting = [table for table in tables(text) if set(columns) <= set(table.columns)]
    if len(fitting) != 1:
        raise Unread(f"{len(fitting)} tables have the columns {', '.join(columns)}, and not one")
    return fitting[0]


def as_number(text):
    return float(text.replace(",", ""))


def rate(text):
    """How many a second a cell tells, as `979 thousand (1.0 µs; 3.3 ms)`; None where it tells none."""
    found = re.match(rf"({NUMBER}) ?(thousand|million)?", text)
    return as_number(found.group(1)) * MULTIPLES[found.group(2) or ""] if found else None


def durations(text):
    """The times that a text has, in seconds and in order."""
    return [as_number(number) * SECONDS[unit] for number, unit in re.findall(rf"({NUMBER}) (ns|µs|ms|s)\b", text)]


def in_brackets(text):
    """The times behind a cell's rate, in seconds."""
    found = re.search(r"\(([^)]*)\)", text)
    return durations(found.group(1)) if found else []


def last_size(text):
    """The last number that a text names; None where it names none."""
    if "a million" in text:
        return NAMED["a million"]
    found = re.findall(NUMBER, text)
    return as_number(found[-1]) if found else None


def whole_size(text):
    """The size that a cell is, perhaps with a remark in brackets behind it: a number, or a number of bytes; None where it is none."""
    found = re.fullmatch(rf"({NUMBER}|a million|ten million)(?: (KB|MB|GB))?(?: \(.*)?", text)
    if not found:
        return None
    number = found.group(1)
    return (NAMED[number] if number in NAMED else as_number(number)) * BYTES.get(found.group(2), 1)


class Shape:
    """What one connection or several ask, and the cells of its row."""

    def __init__(self, table, row):
        found = re.fullmatch(r"(\d+),? (pipelined|by turns|all at once|a transaction at once)(?:, (transactions|reads))?", table.column(row, "Connections"))
        if not found:
            raise Unread(f"the row {row[0]!r} is of no shape that is drawn")
        self.connections, self.way, self.what = int(found.group(1)), found.group(2), found.group(3) or "transactions"
        self.cells = dict(zip(table.columns, row))


def shapes(text, *columns):
    table = table_with(text, "Connections", *columns)
    return [Shape(table, row) for row in table.rows]


class Slope:
    """What one thing costs at several sizes: pairs of a size and seconds."""

    def __init__(self, name, points):
        self.name, self.points = name, points


def costs(cell):
    """What a figure's cell tells of several sizes, in seconds each: times, or the time of one by how many go into a second. Parts
    that tell less than a time (`less than 1 ms`) tell none."""
    parts = cell.split(";")
    if len(parts) < 2 or any("less than" in part for part in parts):
        return []
    if cell.endswith("a second"):
        return [1 / rate(part.strip()) for part in spread(parts, "million")]
    told = [durations(part) for part in parts]
    return [times[0] for times in told] if all(times for times in told) else []


def spread(parts, unit):
    """The parts, each with the unit, which may stand behind the last alone."""
    return [part if unit in part else f"{part.strip()} {unit}" for part in parts]


def slopes(text, names):
    """Rows of the first table that tell a cost at several sizes, each under its name here, by the front of the row's first cell. Each
    name has a row."""
    table = table_with(text, "What", "Shape", "Figure")
    found = []
    for row in table.rows:
        what = table.column(row, "What")
        name = next((name for front, name in names.items() if what.startswith(front)), None)
        if name is None:
            continue
        seconds = costs(table.column(row, "Figure"))
        told = what.split(";") if ";" in what else table.column(row, "Shape").split(";")
        sizes = [last_size(part) for part in told]
        if len(seconds) < 2 or len(sizes) != len(seconds) or None in sizes:
            raise Unread(f"the row {what!r} tells no costs at several sizes")
        found.append(Slope(name, list(zip(sizes, seconds))))
    missing = set(names.values()) - {slope.name for slope in found}
    if missing:
        raise Unread(f"no row tells of: {', '.join(sorted(missing))}")
    return found


def points(text, sizes, times):
    """The points of a table: of the rows whose cell in the one column is a size, that and the time in the other column."""
    table = table_with(text, sizes, times)
    told = [(whole_size(table.column(row, sizes)), durations(table.column(row, times))) for row in table.rows]
    found = [(what, seconds[0]) for what, seconds in told if what is not None and len(seconds) == 1]
    if len(found) < 3:
        raise Unread(f"the columns {sizes} and {times} have fewer than three sizes with a time")
    return found
