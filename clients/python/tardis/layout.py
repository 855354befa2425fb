"""Where a history's states and edges are drawn: a row for each state, the newest first, and lanes beside each other."""

import heapq
from typing import Dict, List, NamedTuple, Sequence, Tuple

from .histories import State
from .ids import StateId

__all__ = ["Edge", "Layout", "lay_out"]


class Edge(NamedTuple):
    """The way from a child to a parent: it leaves the child for its lane, goes down there, and then to the parent's lane."""
    child: StateId
    parent: StateId
    child_row: int
    child_lane: int
    lane: int
    parent_row: int
    parent_lane: int


class Layout(NamedTuple):
    """The states from the newest to the oldest, the lane of each, the edges, and how many lanes there are."""
    states: Tuple[State, ...]
    lanes: Tuple[int, ...]
    edges: Tuple[Edge, ...]
    width: int


class _Lanes:
    """Which lanes are free."""

    def __init__(self) -> None:
        self.free: List[int] = []
        self.width = 0

    def take(self) -> int:
        if self.free:
            return heapq.heappop(self.free)
        self.width += 1
        return self.width - 1

    def give_back(self, lane: int) -> None:
        heapq.heappush(self.free, lane)


def lay_out(states: Sequence[State]) -> Layout:
    """Gives each state a row and a lane, and each edge its way. The states come in order of arrival."""
    rows = tuple(reversed(states))
    row_of = {state.id: row for row, state in enumerate(rows)}
    lanes = _Lanes()
    waiting: Dict[StateId, List[int]] = {}
    begun: List[Tuple[StateId, StateId, int, int, int]] = []
    placed: List[int] = []
    for row, state in enumerate(rows):
        arriving = sorted(waiting.pop(state.id, []))
        lane = arriving[0] if arriving else lanes.take()
        for other in set(arriving) - {lane}:
            lanes.give_back(other)
        placed.append(lane)
        parents = [parent for parent in state.parents if parent in row_of]
        for place, parent in enumerate(parents):
            if place == 0:
                down = lane
            elif parent in waiting:
                down = waiting[parent][0]
            else:
                down = lanes.take()
            waiting.setdefault(parent, []).append(down)
            begun.append((state.id, parent, row, lane, down))
        if not parents:
            lanes.give_back(lane)
    edges = tuple(Edge(child, parent, row, lane, down, row_of[parent], placed[row_of[parent]]) for child, parent, row, lane, down in begun)
    return Layout(rows, tuple(placed), edges, lanes.width)
