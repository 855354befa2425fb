"""A history drawn in a terminal, as SVG, as DOT, and as JSON; and bytes as words that a person reads."""

import json
import re
from typing import Any, Dict, Iterator, List, NamedTuple, Optional, Sequence, Set
from xml.sax.saxutils import escape

from .histories import History, State
from .ids import ROOT, StateId
from .layout import Layout, lay_out

__all__ = ["as_dot", "as_json", "as_svg", "as_text", "json_bytes", "labels", "word"]

#: so many writes of a state are told, and so many characters of a value
MOST_WRITES, MOST_CHARACTERS = 3, 28


def word(data: bytes) -> str:
    """Bytes as one line of text where they can be printed, with `\\n` for a line feed; else `#` and hexadecimal digits. Text that
    looks like the latter is written so too."""
    try:
        text = data.decode()
    except UnicodeDecodeError:
        return "#" + data.hex()
    shown = text.replace("\n", "\\n").replace("\t", "\\t")
    return shown if shown.isprintable() and not _LOOKS_HEXADECIMAL.match(shown) else "#" + data.hex()


_LOOKS_HEXADECIMAL = re.compile("#([0-9a-f]{2})*$")


def json_bytes(data: Optional[bytes]) -> Any:
    """Bytes for JSON: text where they are UTF-8, else `{"hex": ..}`; null where there are none."""
    if data is None:
        return None
    try:
        return data.decode()
    except UnicodeDecodeError:
        return {"hex": data.hex()}


def writes_data(state: State) -> Any:
    """What a state wrote, for JSON; null where that isn't told any more."""
    if state.writes is None:
        return None
    return [{"key": json_bytes(write.key), "value": json_bytes(write.value)} for write in state.writes]


def shortened(text: str, most: int = MOST_CHARACTERS) -> str:
    return text if len(text) <= most else text[:most - 2] + ".."


def wrote(state: State) -> str:
    """What a state wrote, in a few words."""
    if state.writes is None:
        return "(not told any more)"
    told = [f"{shortened(word(write.key))}" + (f"={shortened(word(write.value))}" if write.value is not None else " deleted")
            for write in state.writes[:MOST_WRITES]]
    more = len(state.writes) - len(told)
    return "  ".join(told) + (f"  and {more} more" if more > 0 else "")


def labels(history: History) -> Dict[StateId, List[str]]:
    """What is to be said of a state beside its id: root, leaf, floors, the own ceiling."""
    said: Dict[StateId, List[str]] = {}
    leaves = set(history.leaves)
    for state in history:
        if state.id in leaves:
            said.setdefault(state.id, []).append("leaf")
    if history.ceiling is not None:
        said.setdefault(history.ceiling, []).append("ceiling")
    for site, floor in history.floors.items():
        if floor != ROOT:
            said.setdefault(floor, []).append("floor" if len(history.floors) == 1 else f"floor of site {site}")
    if ROOT in history:
        said.setdefault(ROOT, []).append("root")
    return said


# a terminal

class _Signs(NamedTuple):
    """The signs that lines are drawn with."""
    down: str
    across: str
    node: str
    begins: str
    rises: str
    rises_between: str
    falls: str
    falls_between: str


ROUND = _Signs("│", "─", "●", "├", "╯", "┴", "╮", "┬")
PLAIN = _Signs("|", "-", "*", "+", "'", "+", ".", "+")


def as_text(history: History, is_plain: bool = False, most: Optional[int] = None) -> str:
    """The history as lines, the newest state first, as `git log --graph` draws it."""
    said = labels(history)
    lines = list(_drawn(history, said, is_plain, most))
    left = len(history) - most if most is not None else 0
    if left > 0:
        lines.append(f".. and {left:,} older states")
    if history.collected:
        lines.append(f"{history.collected:,} states were collected")
    return "\n".join(lines) + "\n"


def _drawn(history: History, said: Dict[StateId, List[str]], is_plain: bool, most: Optional[int]) -> Iterator[str]:
    signs = PLAIN if is_plain else ROUND
    lanes: List[Optional[StateId]] = []
    for state in list(reversed(history.states))[:most]:
        arriving = [lane for lane, awaited in enumerate(lanes) if awaited == state.id]
        if not arriving:
            arriving = [lanes.index(None)] if None in lanes else [len(lanes)]
            lanes += [None] * (arriving[0] + 1 - len(lanes))
        here = arriving[0]
        if arriving[1:]:
            yield _line(lanes, here, set(arriving[1:]), signs, signs.rises_between, signs.rises)
        for lane in arriving:
            lanes[lane] = None
        lanes[here] = state.id
        names = f"  ({', '.join(said[state.id])})" if state.id in said else ""
        yield _line(lanes, here, set(), signs, "", "", signs.node) + f" {state.id}{names}  {wrote(state)}".rstrip()
        yield from _fan_out(lanes, here, [parent for parent in state.parents if parent in history], signs)
        while lanes and lanes[-1] is None:
            lanes.pop()


def _fan_out(lanes: List[Optional[StateId]], here: int, parents: Sequence[StateId], signs: _Signs) -> Iterator[str]:
    """The lanes of a state's parents begin: the first goes on below it, the others beside."""
    lanes[here] = parents[0] if parents else None
    fresh: Set[int] = set()
    for parent in parents[1:]:
        free = [lane for lane in range(here + 1, len(lanes)) if lanes[lane] is None]
        lane = free[0] if free else len(lanes)
        lanes += [None] * (lane + 1 - len(lanes))
        lanes[lane] = parent
        fresh.add(lane)
    if fresh:
        yield _line(lanes, here, fresh, signs, signs.falls_between, signs.falls)


def _line(lanes: Sequence[Optional[StateId]], here: int, others: Set[int], signs: _Signs, middle: str, last: str,
          node: str = "") -> str:
    """A line of the drawing: the lanes that are taken, and from `here` a stroke to the others."""
    end = max(others, default=here)
    drawn = ""
    for lane in range(max(len(lanes), end + 1)):
        if lane == here:
            sign = node or (signs.begins if others else signs.down)
        elif lane in others:
            sign = last if lane == end else middle
        elif lane < len(lanes) and lanes[lane] is not None:
            sign = signs.down
        else:
            sign = signs.across if here < lane < end else " "
        drawn += sign + (signs.across if here <= lane < end else " ")
    return drawn.rstrip()


# files

COLOURS = ("#1f77b4", "#d62728", "#2ca02c", "#9467bd", "#ff7f0e", "#17becf", "#8c564b", "#e377c2")
LANE, ROW, LEFT, TOP = 26, 34, 26, 24


def as_svg(history: History) -> str:
    """The history as a drawing for a page."""
    layout = lay_out(history.states)
    said = labels(history)
    texts = [_svg_text(layout, said, row) for row in range(len(layout.states))]
    width = LEFT + LANE * layout.width + 20 + max([90] + [int(7.2 * len(text)) for text in texts])
    height = 2 * TOP + ROW * max(0, len(layout.states) - 1)
    parts = [f'<svg xmlns="http://www.w3.org/2000/svg" width="{width}" height="{height}" viewBox="0 0 {width} {height}" '
             'font-family="ui-monospace, Menlo, Consolas, monospace" font-size="12">',
             f'<rect width="{width}" height="{height}" fill="#ffffff"/>']
    for edge in layout.edges:
        parts.append(f'<path d="{_way(edge.child_row, edge.child_lane, edge.lane, edge.parent_row, edge.parent_lane)}" fill="none" '
                     f'stroke="{_colour(edge.lane)}" stroke-width="2"/>')
    for row, state in enumerate(layout.states):
        x, y = LEFT + LANE * layout.lanes[row], TOP + ROW * row
        is_leaf = "leaf" in said.get(state.id, ())
        fill = _colour(layout.lanes[row]) if is_leaf or len(state.parents) > 1 else "#ffffff"
        parts.append(f'<circle cx="{x}" cy="{y}" r="6" fill="{fill}" stroke="{_colour(layout.lanes[row])}" stroke-width="2"/>')
        beside = LEFT + LANE * layout.width
        parts.append(f'<text x="{beside}" y="{y + 4}" fill="#222222" xml:space="preserve">{escape(texts[row])}</text>')
    return "\n".join([*parts, "</svg>"]) + "\n"


def _svg_text(layout: Layout, said: Dict[StateId, List[str]], row: int) -> str:
    state = layout.states[row]
    names = f" ({', '.join(said[state.id])})" if state.id in said else ""
    return f"{state.id}{names}  {wrote(state)}".rstrip()


def _colour(lane: int) -> str:
    return COLOURS[lane % len(COLOURS)]


def _way(child_row: int, child_lane: int, lane: int, parent_row: int, parent_lane: int) -> str:
    """The path of an edge: a curve to its lane, straight down, and a curve to the parent."""
    x0, y0 = LEFT + LANE * child_lane, TOP + ROW * child_row
    x1, x2, y2 = LEFT + LANE * lane, LEFT + LANE * parent_lane, TOP + ROW * parent_row
    path = f"M{x0} {y0}"
    y = y0
    if lane != child_lane:
        y = y0 + ROW
        path += f"C{x0} {y0 + ROW // 2} {x1} {y0 + ROW // 2} {x1} {y}"
    if lane == parent_lane:
        return path + f"L{x2} {y2}"
    if y < y2 - ROW:
        path += f"L{x1} {y2 - ROW}"
        y = y2 - ROW
    return path + f"C{x1} {y + ROW // 2} {x2} {y2 - ROW // 2} {x2} {y2}"


def as_dot(history: History) -> str:
    """The history for `dot` of Graphviz."""
    said = labels(history)
    lines = ["digraph history {", "  rankdir=BT;", '  node [shape=box, style=rounded, fontname="monospace"];']
    for state in history:
        names = f" ({', '.join(said[state.id])})" if state.id in said else ""
        label = f"{state.id}{names}\n{wrote(state)}".rstrip()
        lines.append(f"  {json.dumps(str(state.id))} [label={json.dumps(label)}];")
        lines += [f"  {json.dumps(str(state.id))} -> {json.dumps(str(parent))};" for parent in state.parents if parent in history]
    return "\n".join([*lines, "}"]) + "\n"


def as_json(history: History) -> Dict[str, Any]:
    """The history as what `json` writes."""
    return {
        "states": [{
            "id": str(state.id), "parents": [str(parent) for parent in state.parents],
            "writes": writes_data(state)} for state in history],
        "leaves": [str(leaf) for leaf in history.leaves],
        "floors": {str(site): str(floor) for site, floor in history.floors.items()},
        "ceiling": None if history.ceiling is None else str(history.ceiling),
        "known": history.stat.known, "kept": history.stat.kept, "collected": history.collected, "complete": history.is_complete,
    }
