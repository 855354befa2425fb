"""Merges of any number of leaves and of conflict keys, as steps over a `Core`."""

from itertools import combinations
from typing import Any, Dict, List, NamedTuple, Optional, Sequence, Tuple

from . import questions, requests
from .bases import value_together
from .conversation import Answer
from .core import Core
from .ids import LONGEST_VALUE, Bytes, StateId, state_id
from .refusals import (
    Below, Collected, Comparable, Full, NoMemory, Refused, TooMany, Unknown as UnknownState, Unresolved)
from .replies import Committed, Keys, Read, States, Value
from .requests import At, Request
from .resolvers import (
    UNKNOWN, Base, Resolve, Sides, Unknown, is_asked_of_equal_sides, is_asked_of_fork_points, is_asked_of_many_sides,
    is_asked_of_one_fork_point)
from .rules import Rules
from .steps import Steps, ask, ask_all, ask_aside

__all__ = ["Comparison", "Conflict", "Merged", "MergeStep", "compare", "merge"]

#: a merge writes at most so many keys, reads at most so many states, and a transaction reads at most so many keys
MOST_WRITES, MOST_STATES, MOST_READS = 64, 8, 256
#: two branches that parted at more states than these have no base
MOST_FORKS = 64
#: rules look at so many of the leaves that arrived last
MOST_RULED = 16


class MergeStep(NamedTuple):
    """A state that a merge made, what it joins, and the keys on which these disagreed."""
    id: StateId
    parents: Tuple[StateId, ...]
    keys: Tuple[bytes, ...]


class Merged(NamedTuple):
    """The state that joins all, and the states that led to it, the last of which it is."""
    id: StateId
    steps: Tuple[MergeStep, ...]

    @property
    def keys(self) -> Tuple[bytes, ...]:
        """The keys on which some sides disagreed."""
        return tuple(sorted({key for step in self.steps for key in step.keys}))


class Conflict(NamedTuple):
    """A key on which two states disagree, what it had where they parted, and what each has."""
    key: bytes
    base: Base
    sides: Sides


class Comparison(NamedTuple):
    """Two states that stand apart, where they parted, and the keys that a merge of them has to settle."""
    states: Tuple[StateId, ...]
    fork_points: Tuple[StateId, ...]
    conflicts: Tuple[Conflict, ...]


class _TooWide(Exception):
    """The states disagree on more keys than a transaction writes."""

    def __init__(self, keys: int) -> None:
        super().__init__(keys)
        self.keys = keys


def merge(core: Core, resolve: Resolve, states: Optional[Sequence[At]]) -> Steps[Optional[Merged]]:
    """Joins these states, or all leaves that there are now. None where there is one alone."""
    if not callable(resolve):
        raise ValueError(f"resolve is called as resolve(key, base, sides), and {resolve!r} can't be called")
    chosen = None if states is None else [state_id(state) for state in states]
    merger = _Merger(core, resolve)
    rounds = 1
    try:
        while rounds > 0:
            rounds -= 1
            if chosen is None:
                leaves = yield from ask(requests.leaves())
                if not merger.steps:
                    rounds = leaves.total // max(1, len(leaves.first))
                yield from merger.join(leaves.first)
                rounds = 0 if leaves.total <= len(leaves.first) else rounds
            else:
                yield from merger.join(chosen)
    except Unresolved as fault:
        fault.steps = tuple(merger.steps)
        raise
    return Merged(merger.steps[-1].id, tuple(merger.steps)) if merger.steps else None


def _nobody(key: bytes, base: Base, sides: Sides) -> Optional[Bytes]:
    return None


def compare(core: Core, one: At, other: At) -> Steps[Comparison]:
    """What a merge of two states would have to settle. Nothing changes."""
    merger = _Merger(core, _nobody)
    begun, forking = yield from ask_all([requests.begin_merge([one, other]), requests.fork_points()])
    sides: Tuple[StateId, ...] = begun.result()
    try:
        forks: States = forking.result()
        keys = yield from core.conflicts_after(b"")
        told = yield from merger._read_sides(keys, sides)
    finally:
        if not core.conversation.is_over:
            yield from core.give_up()
    bases: Dict[bytes, Base] = {}
    for place in range(0, len(keys), MOST_READS):
        bases.update((yield from merger._bases(keys[place:place + MOST_READS], sides, forks)))
    return Comparison(sides, forks.first, tuple(Conflict(key, bases[key], told[key]) for key in keys))


class _Merger:
    """One call of merge, and the states that it made so far."""

    def __init__(self, core: Core, resolve: Resolve) -> None:
        self.core = core
        self.resolve = resolve
        self.steps: List[MergeStep] = []
        #: who wrote first what the merges so far wrote, where they took a side's value
        self._origins: Dict[Tuple[StateId, bytes], StateId] = {}
        self._taken: Dict[bytes, StateId] = {}

    def join(self, states: Sequence[StateId]) -> Steps[None]:
        """Joins these states: as many at once as a merge reads where it is known what they have together, else one after
        another, so that each pair has its own base."""
        if isinstance(self.resolve, Rules):
            yield from self._join_by_rules(states)
            return
        if len(states) < 2:
            return
        current, rest = states[0], list(states[1:])
        while rest:
            group = rest[:MOST_STATES - 1]
            rest = rest[len(group):]
            joined = (yield from self._join_at_once([current, *group])) if len(group) > 1 else None
            if joined is not None:
                current = joined
                continue
            for state in group:
                current = yield from self._join_two(current, state)

    def _join_by_rules(self, states: Sequence[StateId]) -> Steps[None]:
        """Joins two after another, as a server does: of those that arrived last the first two of which the rules
        settle each key. Where some stay apart, the first reason is raised once the others are joined."""
        left = yield from self._by_arrival(states)
        apart: Dict[Tuple[StateId, ...], Unresolved] = {}
        while True:
            pairs = [pair for pair in combinations(left[-MOST_RULED:], 2) if pair not in apart]
            if not pairs:
                break
            self._origins.clear()
            try:
                joined = yield from self._join_two(*pairs[0])
            except Unresolved as fault:
                apart[pairs[0]] = fault
                continue
            left = [*(state for state in left if state not in pairs[0]), joined]
        faults = [fault for pair, fault in apart.items() if set(pair) <= set(left)]
        if faults:
            raise faults[0]

    def _by_arrival(self, states: Sequence[StateId]) -> Steps[List[StateId]]:
        shown = yield from self.core.show_all(list(dict.fromkeys(states)))
        return sorted(shown, key=lambda state: shown[state].arrival)

    def _join_at_once(self, states: Sequence[StateId]) -> Steps[Optional[StateId]]:
        """Joins these states by one merge. None where it isn't known what they have together, or some stand on one branch."""
        begun, conflicting = yield from ask_all([requests.begin_merge(states), requests.conflicts(b"")])
        if isinstance(begun.error, Comparable):
            return None
        begun.result()
        try:
            keys: Keys = conflicting.result()
            written = yield from self._together(keys, states)
        except Exception:
            if not self.core.conversation.is_over:
                yield from self.core.give_up()
            raise
        if written is None:
            yield from self.core.give_up()
            return None
        return (yield from self._commit(written, keys.first))

    def _together(self, keys: Keys, states: Sequence[StateId]) -> Steps[Optional[List[Request[None]]]]:
        """What a merge of these states writes, where each key's resolver can say so without asking anybody."""
        if keys.total > MOST_WRITES or not all(
                is_asked_of_many_sides(self.resolve, key) or is_asked_of_fork_points(self.resolve, key) for key in keys.first):
            return None
        if not keys.first:
            return []
        told = yield from self._read_sides(keys.first, states)
        yield from self.core.learn()
        ancestry = self.core.records.ancestry()
        written: List[Request[None]] = []
        for key, sides in told.items():
            if self._is_settled(key, sides):
                written.append(self._writing(key, next(iter(sides.values())), sides))
            elif is_asked_of_many_sides(self.resolve, key):
                written.append(self._writing(key, self.resolve(key, UNKNOWN, sides), sides))
            else:
                value = value_together(ancestry, self.resolve, key, states)
                if isinstance(value, Unknown):
                    return None
                written.append(self._writing(key, value, sides))
        return written

    def _join_two(self, one: StateId, other: StateId) -> Steps[StateId]:
        try:
            return (yield from self._step(one, other))
        except Comparable:
            shown = yield from self.core.show_all([one, other])
            return max((one, other), key=lambda state: shown[state].arrival if state in shown else -1)
        except _TooWide as fault:
            return (yield from self._walk(one, other, fault.keys))

    # one merge of two states

    def _step(self, one: StateId, other: StateId) -> Steps[StateId]:
        """Joins two states by one merge: reads all that it takes, asks `resolve`, and then writes in one go."""
        beginning = requests.begin_merge([one, other])
        answers = yield from ask_all([beginning, requests.fork_points(), requests.conflicts(b"")])
        sides: Tuple[StateId, ...] = answers[0].result()
        try:
            forks: States = answers[1].result()
            keys: Keys = answers[2].result()
            if keys.total > MOST_WRITES:
                raise _TooWide(keys.total)
            told = yield from self._read_sides(keys.first, sides)
            settled = {key: next(iter(side.values())) for key, side in told.items() if self._is_settled(key, side)}
        except Exception:
            if not self.core.conversation.is_over:
                yield from self.core.give_up()
            raise
        if len(settled) == len(told):
            agreed = [self._writing(key, value, told[key]) for key, value in settled.items()]
            return (yield from self._commit(agreed, keys.first))
        yield from self.core.give_up()
        bases = yield from self._bases([key for key in told if key not in settled], sides, forks)
        written = [self._writing(key, settled[key] if key in settled else self.resolve(key, bases[key], side), side)
                   for key, side in told.items()]
        return (yield from self._commit(written, keys.first, beginning))

    def _is_settled(self, key: bytes, sides: Sides) -> bool:
        """Whether the sides have one value, and nobody is asked."""
        return len(set(sides.values())) == 1 and not is_asked_of_equal_sides(self.resolve, key)

    def _read_sides(self, keys: Sequence[bytes], sides: Sequence[StateId]) -> Steps[Dict[bytes, Sides]]:
        answers = yield from ask_all([requests.get_for(key, side) for key in keys for side in sides])
        reads: List[Read] = [answer.result() for answer in answers]
        told: Dict[bytes, Sides] = {}
        for place, key in enumerate(keys):
            here = dict(zip(sides, reads[place * len(sides):]))
            values = {side: _value_of(read) for side, read in here.items()}
            told[key] = Sides(values, {side: self._writer_of(key, read) for side, read in here.items()})
        return told

    def _writer_of(self, key: bytes, read: Read) -> Optional[StateId]:
        """Who wrote what is read; of what this call merged, who wrote it first."""
        writer = getattr(read, "writer", None)
        return self._origins.get((writer, key), writer) if isinstance(writer, StateId) else None

    def _writing(self, key: bytes, value: Optional[Bytes], sides: Sides) -> Request[None]:
        """What writes the key's value; which side's value it is, is remembered."""
        data = value.encode() if isinstance(value, str) else value
        if isinstance(data, bytes) and len(data) > LONGEST_VALUE:
            raise Unresolved(key, f"its merged value has {len(data):,} bytes, and a value at most {LONGEST_VALUE:,}: "
                                  "spread it over several keys")
        self._taken.pop(key, None)
        writers = [writer for side, writer in sides.writers.items() if writer is not None and sides[side] == data]
        if writers:
            self._taken[key] = max(writers)
        return requests.delete(key) if data is None else requests.put(key, data)

    def _commit(self, written: Sequence[Request[None]], keys: Sequence[bytes] = (),
                beginning: Optional[Request[Any]] = None) -> Steps[StateId]:
        """Writes and commits, in the merge that is open or in one that begins so."""
        first = [Answer(beginning)] if beginning is not None else []
        writing: List[Answer[Any]] = [Answer(request) for request in written]
        committing = Answer(requests.commit(False, False, False, None))
        yield [*first, *writing, committing]
        try:
            for answer in [*first, *writing]:
                answer.result()
            ended = committing.result()
        except Full:
            yield from self.core.go_below()
            raise
        except (Refused, NoMemory):
            yield from self.core.give_up()
            raise
        assert isinstance(ended, Committed), "a merge makes a state"
        self.steps.append(MergeStep(ended.id, ended.parents, tuple(keys)))
        self._origins.update({(ended.id, key): self._taken[key] for key in keys if key in self._taken})
        return ended.id

    # what stood where they parted

    def _bases(self, keys: Sequence[bytes], sides: Sequence[StateId], forks: States) -> Steps[Dict[bytes, Base]]:
        """What each key had where the sides parted."""
        if not 1 <= forks.total <= MOST_FORKS:
            return {key: UNKNOWN for key in keys}
        reads = yield from self._ask_base(keys, sides, forks)
        if reads is None:
            at_forks: List[Dict[bytes, Optional[Read]]] = []
            for fork in forks.first:
                at_forks.append((yield from self._read_at(fork, keys)))
            reads = {key: [told[key] for told in at_forks] for key in keys}
        unknown = {key for key in keys if forks.total > 1 and is_asked_of_one_fork_point(self.resolve, key)}
        bases = {key: UNKNOWN if key in unknown else _one_base(reads[key]) for key in keys}
        open_ones = [key for key in keys if bases[key] is UNKNOWN and is_asked_of_fork_points(self.resolve, key)]
        if open_ones and forks.total > 1:
            yield from self.core.learn()
            ancestry = self.core.records.ancestry()
            bases.update({key: value_together(ancestry, self.resolve, key, forks.first) for key in open_ones})
        return bases

    def _ask_base(self, keys: Sequence[bytes], sides: Sequence[StateId],
                  forks: States) -> Steps[Optional[Dict[bytes, List[Optional[Read]]]]]:
        """What each key reads where the sides parted, by the question Base, or at each of these states where there are more than it
        tells of. None where the server answers neither."""
        if forks.total <= MOST_STATES:
            told = yield from self.core.asking.tell([questions.base(key, sides) for key in keys])
            return None if told is None else {key: list(answer.result().values()) for key, answer in zip(keys, told)}
        told = yield from self.core.asking.tell([questions.at(key, fork) for key in keys for fork in forks.first])
        if told is None:
            return None
        reads: List[Optional[Read]] = [answer.result() for answer in told]
        return {key: reads[place * forks.total:(place + 1) * forks.total] for place, key in enumerate(keys)}

    def _read_at(self, state: StateId, keys: Sequence[bytes]) -> Steps[Dict[bytes, Optional[Read]]]:
        """What each key reads at a state, where the server answers no questions and that can be had: in this session, or from what was
        pulled, or in another session, whose ceiling is the site's floor."""
        asked: List[Request[Any]] = [requests.begin(state), *[requests.get(key) for key in keys], requests.abort()]
        answers = yield from ask_all(asked)
        if isinstance(answers[0].error, (Below, Collected, UnknownState)):
            yield from self.core.learn()
            told = {key: self.core.records.read(key, state) for key in keys}
            if None not in told.values():
                return told
            answers = yield from ask_aside(asked)
            if answers[0].error is not None:
                return told
        answers[0].result()
        return {key: answer.result() for key, answer in zip(keys, answers[1:])}

    # states that disagree on more keys than one merge writes

    def _walk(self, current: StateId, goal: StateId, keys: int) -> Steps[StateId]:
        """Joins the one with the states of the other's branch in turn: each of these wrote at most as many keys as a merge may.
        Where the session may not read there any more, it goes along the other branch."""
        turned = False
        while True:
            yield from self.core.learn()
            branch = self.core.records.apart(goal, current)
            if not branch:
                return current
            try:
                near = yield from self._farthest(current, branch, keys)
                current = yield from self._step(current, near)
            except (Below, Collected):
                if turned:
                    raise
                turned = True
                current, goal = goal, current

    def _farthest(self, current: StateId, branch: Sequence[StateId], keys: int) -> Steps[StateId]:
        """A state of the branch that disagrees on few enough keys, and far down."""
        fits, wide = -1, len(branch)
        while wide - fits > 1:
            middle = wide - 1 if wide == len(branch) else (fits + wide) // 2
            begun, told, _ = yield from ask_all(
                [requests.begin_merge([current, branch[middle]]), requests.conflicts(b""), requests.abort()])
            begun.result()
            keys = told.result().total
            if keys > MOST_WRITES:
                wide = middle
            else:
                fits = middle
        if fits < 0:
            raise TooMany("writes", keys)
        return branch[fits]


def _value_of(read: Read) -> Optional[bytes]:
    return read.value if isinstance(read, Value) else None


def _one_base(reads: Sequence[Optional[Read]]) -> Base:
    """What all fork points read, where they read one thing."""
    first = reads[0]
    if first is None or any(read != first for read in reads):
        return UNKNOWN
    return _value_of(first)
