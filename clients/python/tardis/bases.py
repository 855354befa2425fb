"""What several states have together, as a merge of them would give it, worked out from the records that were pulled.

It is asked for in two places. Two branches that were merged more than once in different ways share several last states, and what
these have together is the base of both. And leaves that disagree may be joined by one merge, where what they have together is
known. Each pair has its own base: what *they* have where *they* parted, and so on upwards.
"""

from typing import Dict, Optional, Sequence

from .histories import Ancestry
from .ids import StateId
from .resolvers import UNKNOWN, Base, Resolve, Sides, Unknown, is_asked_of_equal_sides

__all__ = ["value_together"]

#: so many joins are made at most for a key; branches that crossed more often have nothing that is known
MOST_JOINS = 2_000


def value_together(ancestry: Ancestry, resolve: Resolve, key: bytes, states: Sequence[StateId]) -> Base:
    """What these states have together, none of which is above another. UNKNOWN where the records don't reach so far."""
    if any(state not in ancestry.above for state in states):
        return UNKNOWN
    return _Key(key, ancestry, resolve).value(sum(1 << ancestry.above[state].bit_length() - 1 for state in states))


class _Key:
    """One key, and what is known of it for sets of states."""

    def __init__(self, key: bytes, ancestry: Ancestry, resolve: Resolve) -> None:
        self.key = key
        self.ancestry = ancestry
        self.resolve = resolve
        self.joins = 0
        self.known: Dict[int, Base] = {}

    def value(self, states: int) -> Base:
        if states not in self.known:
            self.known[states] = self._join(states)
        return self.known[states]

    def _join(self, states: int) -> Base:
        """Joins the states one after another, in order of arrival."""
        joined: Base = None
        above, first = 0, -1
        while states:
            place = (states & -states).bit_length() - 1
            states &= states - 1
            value, beside = self._read(place), self.ancestry.above_place(place)
            if first < 0:
                joined, first = value, place
            else:
                self.joins += 1
                if isinstance(joined, Unknown) or isinstance(value, Unknown) or self.joins > MOST_JOINS:
                    return UNKNOWN
                joined = self._settle(self._base(above, beside), joined, value, first, place)
            above |= beside
        return joined

    def _base(self, one: int, other: int) -> Base:
        """What two sets of states have where they parted. Where either has states of its own that aren't known, they may share others
        that aren't."""
        shared, missing = one & other, self.ancestry.missing
        if not shared or (one & missing & ~shared and other & missing & ~shared):
            return UNKNOWN
        return self.value(self.ancestry.last(shared))

    def _read(self, place: int) -> Base:
        try:
            written = self.ancestry.writer(self.key, self.ancestry.above_place(place))
        except KeyError:
            return UNKNOWN
        return None if written is None else written[1]

    def _settle(self, base: Base, one: Optional[bytes], other: Optional[bytes], first: int, second: int) -> Base:
        if isinstance(base, Unknown):
            return UNKNOWN
        if one == base or other == base:
            return other if one == base else one
        if one == other and not is_asked_of_equal_sides(self.resolve, self.key):
            return one
        ids = self.ancestry.ids[first], self.ancestry.ids[second]
        settled = self.resolve(self.key, base, Sides(dict(zip(ids, (one, other))), dict(zip(ids, ids))))
        return settled.encode() if isinstance(settled, str) else settled
