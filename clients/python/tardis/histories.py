"""A site's history as objects: the states that are kept, what each wrote, and what can be worked out from that."""

from typing import Container, Dict, Iterable, Iterator, List, Mapping, NamedTuple, Optional, Sequence, Set, Tuple, Union

from .ids import ROOT, Bytes, StateId, prefix_bytes
from .replies import Absent, Batch, Deleted, Read, Record, Stat, Value, Write

__all__ = ["Difference", "History", "Items", "State"]

#: so many records are remembered of states that are closed by now
MOST_REMEMBERED = 20_000


class State(NamedTuple):
    """A state that is kept. `parents` are its parents, or where these were collected the kept states that lead to it, as
    far as they are known. `writes` is None where the site doesn't tell any more what it wrote."""
    id: StateId
    parents: Tuple[StateId, ...]
    writes: Optional[Tuple[Write, ...]]

    @property
    def keys(self) -> Tuple[bytes, ...]:
        """The keys that it wrote, as far as that is known."""
        return tuple(write.key for write in self.writes or ())


class Difference(NamedTuple):
    """A key, and its value at either state: None where it has none there."""
    key: bytes
    one: Optional[bytes]
    other: Optional[bytes]


class Items(NamedTuple):
    """Keys and values. Where `is_complete` is False the site has collected states, and keys that were last written there
    may be missing."""
    items: Tuple[Tuple[bytes, bytes], ...]
    is_complete: bool

    @property
    def keys(self) -> Tuple[bytes, ...]:
        return tuple(key for key, _ in self.items)


def at_or_above(states: Iterable[StateId], known: Mapping[StateId, Union[Record, State]]) -> Set[StateId]:
    """These states and those above them, as far as their parents are known."""
    found: Set[StateId] = set()
    left = list(states)
    while left:
        id = left.pop()
        if id not in found:
            found.add(id)
            state = known.get(id)
            left.extend(state.parents if state is not None else ())
    return found


class Ancestry:
    """The records that are known at one moment, in numbers. Sets of states are whole numbers, with a bit for each state by its
    place: the root's first, then the parents of which no record is known, then the records in order of arrival. 16,000 states
    take some 20 MB."""

    def __init__(self, records: Dict[StateId, Record]) -> None:
        parents = [parent for record in records.values() for parent in record.parents]
        missing = {parent: True for parent in parents if parent not in records and parent != ROOT}
        self.ids: List[StateId] = [ROOT, *missing, *records]
        self.above: Dict[StateId, int] = {id: 1 << place for place, id in enumerate(self.ids[:len(missing) + 1])}
        #: the states of which no record is known, so that nobody can tell what they or those above them wrote
        self.missing = (1 << len(missing) + 1) - 2
        self.writes: Dict[bytes, List[Tuple[int, Optional[bytes]]]] = {}
        for place, record in enumerate(records.values(), len(missing) + 1):
            above = 1 << place
            for parent in record.parents:
                above |= self.above[parent]
            self.above[record.id] = above
            for write in record.writes:
                self.writes.setdefault(write.key, []).append((place, write.value))

    def above_place(self, place: int) -> int:
        return self.above[self.ids[place]]

    def is_whole(self, state: StateId) -> bool:
        """Whether the state and all above it are known."""
        return state in self.above and not self.above[state] & self.missing

    def writer(self, key: bytes, above: int) -> Optional[Tuple[int, Optional[bytes]]]:
        """The place of the last of these states that wrote the key, and what it wrote. Raises KeyError where nobody can tell."""
        for place, value in reversed(self.writes.get(key, [])):
            if above >> place & 1:
                if above & self.missing & ~self.above_place(place):
                    raise KeyError(key)
                return place, value
        if above & self.missing:
            raise KeyError(key)
        return None

    def last(self, states: int) -> int:
        """Those of these states that aren't above others of them: the one that arrived last, and so on."""
        found = 0
        while states:
            place = states.bit_length() - 1
            found |= 1 << place
            states &= ~self.above_place(place)
        return found


class Records:
    """The records that a client was told so far, in the order in which they came."""

    def __init__(self) -> None:
        self.records: Dict[StateId, Record] = {}
        #: those that stood above no floor, or not above each, when the floors were last seen: they are kept for certain
        self.open: Set[StateId] = set()
        self.open_floors: Tuple[StateId, ...] = ()
        #: those that are known to be collected
        self.gone: Set[StateId] = set()
        self._place: Dict[StateId, int] = {ROOT: -1}
        self._came = 0
        self._ancestry: Optional[Ancestry] = None

    def counts(self, sites: int) -> List[int]:
        """How many records of each site are known, for the next Pull."""
        counts = [0] * sites
        for id in self.open:
            counts[id.site - 1] = max(counts[id.site - 1], id.sequence)
        return counts

    def add(self, batch: Batch) -> None:
        """Takes a batch, whose records come in order of arrival."""
        self.learn(list(enumerate(batch.records, self._came)))

    def learn(self, told: Sequence[Tuple[int, Record]]) -> None:
        """Takes records that are kept for certain, each with its place in the order of arrival."""
        new = [(place, record) for place, record in told if record.id not in self.records]
        for place, record in new:
            self.records[record.id] = record
            self._place[record.id] = place
        self._came = max([self._came, *(place + 1 for place, _ in new)])
        if new:
            self._ancestry = None

    def ancestry(self) -> Ancestry:
        """What follows from the records, until others come."""
        if self._ancestry is None:
            ordered = sorted(self.records, key=self._place.__getitem__)
            self._ancestry = Ancestry({id: self.records[id] for id in ordered})
        return self._ancestry

    def forget(self, kept: Set[StateId]) -> None:
        """Forgets the oldest of those that aren't kept for certain, where there are many."""
        if len(self.records) > len(kept) + 2 * MOST_REMEMBERED:
            self._ancestry = None
            closed = [id for id in self.in_order(self.records) if id not in kept]
            for id in closed[:-MOST_REMEMBERED]:
                del self.records[id]
                del self._place[id]
        if len(self.gone) > 2 * MOST_REMEMBERED:
            self.gone = {id for id in self.gone if id in self.records}

    def is_complete(self, stat: Stat) -> bool:
        """Whether every state that the site knows is among them."""
        return len(self.records) + 1 == stat.known

    def above(self, *states: StateId) -> Set[StateId]:
        """The states at or above some of these, as far as they are known."""
        return at_or_above(states, self.records)

    def in_order(self, states: Iterable[StateId]) -> List[StateId]:
        """Those of these states whose records are known, in order of arrival; the root stands first."""
        return sorted((id for id in states if id in self._place), key=self._place.__getitem__)

    def leading(self, id: StateId, kept: Container[StateId]) -> Optional[Tuple[StateId, ...]]:
        """The kept states that lead to this one with none between: its parents, or what leads to these where they were collected.
        None where that isn't known."""
        record = self.records.get(id)
        if record is None:
            return None
        if all(parent in kept for parent in record.parents):
            return record.parents
        found: Dict[StateId, bool] = {}
        left = list(record.parents)
        while left:
            parent = left.pop()
            if parent in kept:
                found[parent] = True
            elif parent in self.records:
                left.extend(self.records[parent].parents)
            elif parent != ROOT:
                return None
        return tuple(one for one in found if not any(one != other and one in self.above(other) for other in found))

    def apart(self, goal: StateId, current: StateId) -> List[StateId]:
        """The states at or above the one and not the other, in order of arrival."""
        return [id for id in self.in_order(self.above(goal) - self.above(current)) if id != ROOT]

    def read(self, key: bytes, state: StateId) -> Optional[Read]:
        """What is read of the key at the state. None where that isn't known."""
        ancestry = self.ancestry()
        try:
            found = ancestry.writer(key, ancestry.above[state])
        except KeyError:
            return None
        if found is None:
            return Absent()
        place, value = found
        return Deleted(ancestry.ids[place]) if value is None else Value(ancestry.ids[place], value)

    def contents(self, state: StateId) -> Dict[bytes, Optional[bytes]]:
        """Each key of which it is known what is read of it at the state, and that: None where it was deleted or never written."""
        ancestry = self.ancestry()
        found: Dict[bytes, Optional[bytes]] = {}
        for key in ancestry.writes:
            try:
                written = ancestry.writer(key, ancestry.above[state])
            except KeyError:
                continue
            found[key] = None if written is None else written[1]
        return found


class History:
    """All kept states of a site at one moment."""

    def __init__(self, states: Sequence[State], leaves: Sequence[StateId], stat: Stat, ceiling: Optional[StateId],
                 records: Records) -> None:
        #: the kept states, in order of arrival
        self.states: Tuple[State, ...] = tuple(states)
        #: the ends of all branches, as far as the site lists them (256)
        self.leaves: Tuple[StateId, ...] = tuple(leaves)
        #: what the site told of itself
        self.stat = stat
        #: each site's floor
        self.floors: Dict[int, StateId] = {number: line.floor for number, line in enumerate(stat.sites, 1)}
        #: the own session's ceiling, where it is open and its ceiling is known
        self.ceiling = ceiling
        #: whether no state was collected, so that all writes are known
        self.is_complete = records.is_complete(stat)
        self._by_id: Dict[StateId, State] = {state.id: state for state in self.states}
        self._records = records
        self._children: Dict[StateId, List[StateId]] = {}
        for state in self.states:
            for parent in state.parents:
                self._children.setdefault(parent, []).append(state.id)

    def __len__(self) -> int:
        return len(self.states)

    def __iter__(self) -> Iterator[State]:
        return iter(self.states)

    def __contains__(self, id: object) -> bool:
        return id in self._by_id

    def __getitem__(self, id: StateId) -> State:
        return self._by_id[id]

    @property
    def collected(self) -> int:
        """How many states were collected."""
        return self.stat.known - self.stat.kept

    def children(self, id: StateId) -> Tuple[StateId, ...]:
        """The children of a state, in order of arrival."""
        return tuple(self._children.get(id, ()))

    def above(self, *states: StateId) -> Set[StateId]:
        """The kept states at or above some of these."""
        return at_or_above(states, self._by_id)

    def is_above(self, one: StateId, other: StateId) -> bool:
        """Whether the one is the other, or an ancestor of it."""
        return one in self.above(other)

    def fork_points(self, *states: StateId) -> Tuple[StateId, ...]:
        """The last states that all of these share."""
        shared = set.intersection(*[self.above(state) for state in states])
        return tuple(state.id for state in self.states if state.id in shared and not shared.intersection(self.children(state.id)))

    def items(self, state: StateId, prefix: Bytes = b"") -> Items:
        """The keys that have a value at the state and begin so, in order, with their values."""
        begin = prefix_bytes(prefix)
        contents = self._records.contents(state)
        found = tuple((key, value) for key, value in sorted(contents.items()) if value is not None and key.startswith(begin))
        return Items(found, self._records.ancestry().is_whole(state))

    def diff(self, one: StateId, other: StateId) -> Tuple[Difference, ...]:
        """The keys that read differently at the two states, in order, as far as it is known what either reads."""
        first, second = self._records.contents(one), self._records.contents(other)
        return tuple(Difference(key, first[key], second[key]) for key in sorted(first) if key in second and first[key] != second[key])
