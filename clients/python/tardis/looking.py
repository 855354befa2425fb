"""What is looked at by questions, which need no session, as steps: pages that are followed, records, and a walk through the history.

A kept state reads the same whatever is asked of the site meanwhile, so pages that come one by one while others commit are pages
of one site. Where the state is collected in between, the next page is refused (`Collected`)."""

import heapq
from typing import Any, Dict, Iterator, List, Optional, Sequence, Set, Tuple

from . import questions, requests
from .conversation import Answer
from .histories import MOST_REMEMBERED, State
from .ids import Bytes, StateId, state_id
from .questions import Question
from .refusals import Collected, Unsupported
from .replies import Entries, Keys, Record, Recorded, Sessions, Stat, Value, Write
from .requests import At
from .steps import AT_ONCE, Steps, ask, ask_all

__all__ = ["Asking", "Kept", "Walk", "all_items", "all_keys", "all_sessions", "last_entry", "last_key"]

#: states that no leaf that is listed leads to are looked for by so many rounds of these
MOST_ROUNDS = 25


def last_key(page: Keys) -> Optional[bytes]:
    """The key behind which the next page begins; None where this one is the last."""
    return page.first[-1] if len(page.first) < page.total else None


def last_entry(page: Entries) -> Optional[bytes]:
    """The key behind which the next page begins; None where this one is the last."""
    return page.first[-1][0] if len(page.first) < page.total else None


def all_keys(state: At, prefix: Bytes) -> Steps[Tuple[bytes, ...]]:
    """The keys that have a value at the state and begin so."""
    found: List[bytes] = []
    behind: Optional[bytes] = b""
    while behind is not None:
        page = yield from ask(questions.keys(state, prefix, behind))
        found.extend(page.first)
        behind = last_key(page)
    return tuple(found)


def all_items(state: At, prefix: Bytes) -> Steps[Tuple[Tuple[bytes, bytes], ...]]:
    """These keys with their values."""
    found: List[Tuple[bytes, bytes]] = []
    behind: Optional[bytes] = b""
    while behind is not None:
        page = yield from ask(questions.scan(state, prefix, behind))
        found.extend(page.first)
        behind = last_entry(page)
    return tuple(found)


def all_sessions() -> Steps[Sessions]:
    """All open sessions, and where the floor would stand when the last page was told."""
    page = yield from ask(questions.sessions())
    lines = list(page.first)
    while len(page.first) < page.total:
        page = yield from ask(questions.sessions(lines[-1].number))
        lines.extend(page.first)
    return Sessions(page.floor, len(lines), tuple(lines))


class Asking:
    """Which questions a server doesn't answer to this client, as far as that was seen, and what never changes of what it told."""

    def __init__(self) -> None:
        self.unanswered: Set[int] = set()
        self._records: Dict[StateId, Record] = {}

    def is_unanswered(self, code: int) -> bool:
        """Whether a question of this code was asked, and isn't answered here."""
        return code in self.unanswered

    def tell(self, wanted: Sequence[Question[Any]]) -> Steps[Optional[List[Answer[Any]]]]:
        """Asks questions of one kind together. None where they aren't answered."""
        code = wanted[0].body[0] if wanted else 0
        if code in self.unanswered:
            return None
        answers = yield from ask_all(wanted)
        if any(isinstance(answer.error, Unsupported) for answer in answers):
            self.unanswered.add(code)
            return None
        return answers

    def recorded(self, states: Sequence[StateId]) -> Steps[Optional[Dict[StateId, Recorded]]]:
        """What is told of these states; nothing of those that were collected. None where the question isn't
        answered."""
        answers = yield from self.tell([questions.record(state) for state in states])
        if answers is None:
            return None
        return {state: answer.result() for state, answer in zip(states, answers)
                if not isinstance(answer.error, Collected)}

    def records(self, told: Dict[StateId, Recorded]) -> Steps[Dict[StateId, Record]]:
        """The records of these states, with what they wrote. One that was collected meanwhile is left out."""
        new = {state: told[state] for state in told if state not in self._records}
        writes = yield from _writes_of(new)
        self._records.update({state: Record(state, new[state].parents, writes[state]) for state in writes})
        found = {state: self._records[state] for state in told if state in self._records}
        if len(self._records) > len(found) + MOST_REMEMBERED:
            self._records = dict(found)
        return found


class Kept:
    """The states that a site keeps, as questions tell of them: from the leaves upwards, and what came since."""

    def __init__(self, asking: Asking) -> None:
        self._asking = asking
        #: what was told of each when it was last asked for
        self.told: Dict[StateId, Recorded] = {}
        self._gone: Set[StateId] = set()
        self._collected = 0
        self._ahead = 1

    def look(self, stat: Stat, leaves: Sequence[StateId]) -> Steps[bool]:
        """Asks for what isn't known yet, and where states were collected whether the others are kept still. False
        where the server doesn't answer."""
        collected, self._ahead = stat.known - stat.kept, 1
        if collected != self._collected:
            again, self.told = list(self.told), {}
            if (yield from self._ask(again)) is None:
                return False
        if not (yield from self._ascend(leaves)):
            return False
        # where there are more leaves than the site lists: by their numbers, the newest first
        rest = self._others(stat)
        for _ in range(MOST_ROUNDS):
            part = [] if len(self.told) >= stat.kept else [state for _, state in zip(range(AT_ONCE), rest)]
            if not part:
                break
            yield from self._ascend(part)
        self._collected = collected
        if len(self._gone) > 2 * MOST_REMEMBERED:
            self._gone.clear()
        return True

    def _ascend(self, wanted: Sequence[StateId]) -> Steps[bool]:
        """Asks for these states and for what lies above them, as far as it isn't known. False where the server
        doesn't answer."""
        while wanted:
            found = yield from self._ask(self._and_before(wanted))
            if found is None:
                return False
            wanted = yield from self._above(found)
        return True

    def _ask(self, states: Sequence[StateId]) -> Steps[Optional[Dict[StateId, Recorded]]]:
        found = yield from self._asking.recorded(states)
        if found is not None:
            self.told.update(found)
            self._gone.update(state for state in states if state not in found)
        return found

    def _is_new(self, state: StateId) -> bool:
        return state not in self.told and state not in self._gone

    def _and_before(self, wanted: Sequence[StateId]) -> List[StateId]:
        """These states and some with the numbers before theirs, which are likely to be above them: so a branch isn't
        asked for state by state. Of twice as many each time, unless most of them turned out to be gone."""
        asked = dict.fromkeys(state for state in wanted if self._is_new(state))
        for back in range(1, self._ahead):
            if len(asked) >= AT_ONCE:
                break
            before = [StateId(one.site, one.sequence - back) for one in wanted if one.sequence > back]
            asked.update(dict.fromkeys(state for state in before if self._is_new(state)))
        return list(asked)

    def _above(self, found: Dict[StateId, Recorded]) -> Steps[List[StateId]]:
        """The kept parents of these that aren't known yet, and the forks above collected parents."""
        self._ahead = min(AT_ONCE, 2 * self._ahead)
        above = [state for told in found.values() for state in told.kept_parents]
        torn = [state for state, told in found.items() if len(told.kept_parents) < len(told.parents)]
        if torn:
            self._ahead = 1
            answers = yield from ask_all([requests.show(state) for state in torn])
            above += [fork for answer in answers if answer.error is None for fork, _ in answer.result().path]
        return [state for state in dict.fromkeys(above) if self._is_new(state)]

    def _others(self, stat: Stat) -> Iterator[StateId]:
        for site, line in enumerate(stat.sites, 1):
            for sequence in range(line.count, 0, -1):
                if self._is_new(StateId(site, sequence)):
                    yield StateId(site, sequence)


def _writes_of(told: Dict[StateId, Recorded]) -> Steps[Dict[StateId, Tuple[Write, ...]]]:
    """What each of these states wrote: what is read there of the keys that it wrote. One of which that isn't told, for instance since
    it was collected meanwhile, is left out."""
    wanted = [(state, key) for state, record in told.items() for key in record.keys]
    answers = yield from ask_all([questions.at(key, state) for state, key in wanted])
    writes: Dict[StateId, List[Write]] = {state: [] for state in told}
    for (state, key), answer in zip(wanted, answers):
        if isinstance(answer.error, (Collected, Unsupported)):
            writes.pop(state, None)
        elif state in writes:
            read = answer.result()
            writes[state].append(Write(key, read.value if isinstance(read, Value) else None))
    return {state: tuple(found) for state, found in writes.items()}


class Walk:
    """The kept states from some on upwards, the newest first."""

    def __init__(self) -> None:
        self._reached: Set[StateId] = set()
        self._left: List[Tuple[int, StateId, Recorded]] = []

    def begin(self, state: At) -> Steps[None]:
        """Begins at a state, or raises why that can't be told of."""
        start = state_id(state)
        told = yield from ask(questions.record(start))
        self._push(start, told)

    def next(self) -> Steps[Optional[State]]:
        """The newest of those that are left; None where none is. Its parents are all that it has, also those that were collected."""
        while self._left:
            _, state, told = heapq.heappop(self._left)
            above = list(told.kept_parents)
            if len(above) < len(told.parents):
                above += yield from _forks_above(state)
            yield from self.reach(above)
            writes = yield from _writes_of({state: told})
            return State(state, told.parents, writes.get(state))
        return None

    def reach(self, states: Sequence[StateId]) -> Steps[None]:
        """Goes on at these too, as far as they are kept."""
        new = [state for state in dict.fromkeys(states) if state not in self._reached]
        answers = yield from ask_all([questions.record(state) for state in new])
        for state, answer in zip(new, answers):
            if not isinstance(answer.error, Collected):
                self._push(state, answer.result())

    def _push(self, state: StateId, told: Recorded) -> None:
        self._reached.add(state)
        heapq.heappush(self._left, (-told.arrival, state, told))


def _forks_above(state: StateId) -> Steps[List[StateId]]:
    """The kept forks above a state, by which the history goes on above parents that were collected."""
    try:
        shown = yield from ask(requests.show(state))
    except Collected:
        return []
    return [fork for fork, _ in shown.path]
