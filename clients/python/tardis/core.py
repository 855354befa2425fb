"""All that a client does, without a socket. Each call is a list of steps: it yields the requests that are to be exchanged for
their answers, and ends with what the call gives. `blocking` and `aio` are thin shells that exchange them."""

from typing import Any, Dict, Generator, List, NamedTuple, Optional, Sequence, Tuple, Union

from . import looking, requests
from .codes import QuestionCode, RequestCode
from .conversation import Answer, Conversation
from .histories import Difference, History, Items, Records, State, at_or_above
from .ids import ROOT, Bytes, StateId, state_id
from .looking import Asking, Kept, Walk
from .refusals import CeilingBack, Collected, Full, NoMemory, Refused, Unsupported
from .replies import Begun, Closed, Committed, Ended, Merging, Opened, Record, Reply, Shown, Stat, States
from .requests import At, Request
from .steps import AT_ONCE, Steps, ask, ask_all

__all__ = ["Core", "Finished", "ended_full"]

#: old states that were never told of are looked for by so many of these
MOST_ROUNDS = 25
#: a history of more states than these is learned by Pull, where that is let in
MANY = 500
COMMITS = bytes((RequestCode.COMMIT,))
#: what ends a transaction, or begins another
ENDS = [bytes((code,)) for code in (
    RequestCode.OPEN, RequestCode.CLOSE, RequestCode.BEGIN, RequestCode.BEGIN_MERGE, RequestCode.COMMIT, RequestCode.ABORT)]


class Finished(NamedTuple):
    """What a commit made: the state and its parents (None and () where nothing was written); whether it was not the first
    child there, and so made a fork; and the other leaves that there were then, the first 256."""
    committed: Optional[StateId]
    parents: Tuple[StateId, ...]
    forked: bool
    beside: Tuple[StateId, ...]


def _by_paths(id: StateId, shows: Dict[StateId, Shown]) -> List[StateId]:
    """The last of the closed states that lead to this one. One leads to another where it came before, and its way through the
    forks is a part of the other's."""
    own = shows.get(id)
    if own is None:
        return []
    path = set(own.path)
    before = [(other, shown) for other, shown in shows.items() if shown.arrival < own.arrival and path.issuperset(shown.path)]
    return [other for other, shown in before
            if not any(shown.arrival < later.arrival and set(later.path).issuperset(shown.path) for _, later in before)]


def ended_full(answers: Sequence[Answer[Any]]) -> bool:
    """Whether the last transaction that these concern is open since there was no room for its commit."""
    for answer in reversed(answers):
        code = answer.request.body[:1]
        if code == COMMITS and isinstance(answer.error, Full):
            return True
        if code in ENDS and answer.error is None:
            return False
    return False


def _between(seen: Sequence[int], counts: Sequence[int]) -> List[StateId]:
    """The states that each site made since it had made so many."""
    return [StateId(site, sequence) for site, (old, count) in enumerate(zip(seen, counts), 1)
            for sequence in range(old + 1, count + 1)]


class Core:
    """One client: its conversation, and what it knows of its session."""

    def __init__(self) -> None:
        self.conversation = Conversation(self._note)
        #: whether the session follows
        self.follows = False
        #: whether the open transaction is a merge
        self.merging = False
        #: the session's ceiling, where it is known
        self.ceiling: Optional[StateId] = None
        #: what was told of the history so far
        self.records = Records()
        #: what questions were answered
        self.asking = Asking()
        #: the kept states, as far as questions told of them
        self.kept = Kept(self.asking)
        #: whether the history is learned by Pull, once that is chosen
        self._pulls: Optional[bool] = None

    def _note(self, request: Request[Any], reply: Reply) -> None:
        """Sees each request and its reply."""
        if isinstance(reply, Opened):
            self.follows, self.merging, self.ceiling = request.body == bytes((RequestCode.OPEN, True)), False, reply.ceiling
        elif isinstance(reply, Closed):
            self.follows, self.merging, self.ceiling = False, False, None
        elif isinstance(reply, (Begun, Merging)):
            self.merging = isinstance(reply, Merging)
        elif isinstance(reply, Committed) and self.follows and self.ceiling is not None:
            # it moves where it is at or above the new state; whether it is can be told of the root and of the parents alone
            self.ceiling = reply.id if self.ceiling == ROOT or self.ceiling in reply.parents else None

    # transactions

    def set_ceiling(self, state: At) -> Steps[None]:
        chosen = state_id(state)
        yield from ask(requests.ceiling(chosen))
        self.ceiling = chosen

    def committing(self, serializable: Optional[bool], snapshot: Optional[bool], no_branch: bool,
                   branches: Optional[int]) -> "Request[Union[Committed, Ended]]":
        """A Commit. A single transaction is serializable and snapshot where nothing else is said; a merge takes no constraints."""
        usual = not self.merging
        return requests.commit(
            usual if serializable is None else serializable, usual if snapshot is None else snapshot, no_branch, branches)

    def commit(self, serializable: Optional[bool] = None, snapshot: Optional[bool] = None, no_branch: bool = False,
               branches: Optional[int] = None) -> Steps[Union[Committed, Ended]]:
        try:
            ended = yield from ask(self.committing(serializable, snapshot, no_branch, branches))
        except Full:
            yield from self.go_below()
            raise
        yield from self._follow(ended)
        return ended

    def _follow(self, ended: Union[Committed, Ended]) -> Steps[None]:
        """A session that follows and has only read moves its ceiling too, so that readers don't hold the floor."""
        if isinstance(ended, Ended) and self.follows and ended.state not in (ROOT, self.ceiling):
            try:
                yield from self.set_ceiling(ended.state)
            except (CeilingBack, NoMemory):
                pass

    def go_below(self) -> Steps[None]:
        """There was no room for a commit: the transaction ends, and a session that follows moves its ceiling to where it
        would begin now. Else the ceilings of clients whose commits are all refused would keep what has to be collected."""
        yield from self.give_up()
        if not self.follows:
            return
        for place in ("any", "ancestor"):
            try:
                state = yield from ask(requests.begin(place))
                yield from self.give_up()
                if state not in (ROOT, self.ceiling):
                    yield from self.set_ceiling(state)
                return
            except CeilingBack:
                # the newest state is on another branch: the newest below the own last commit is looked for
                continue
            except (Refused, NoMemory):
                return

    def finish(self, serializable: Optional[bool] = None, snapshot: Optional[bool] = None, no_branch: bool = False,
               branches: Optional[int] = None) -> Steps[Finished]:
        """Commits, and tells what stands beside the new state."""
        committing = Answer(self.committing(serializable, snapshot, no_branch, branches))
        leaving = Answer(requests.leaves())
        yield [committing, leaving]
        if isinstance(committing.error, Full):
            yield from self.go_below()
        ended = committing.result()
        if isinstance(ended, Ended):
            yield from self._follow(ended)
            return Finished(None, (), False, ())
        leaves = States(0, ()) if leaving.error is not None else leaving.result()
        if leaves.first in ((), (ended.id,)):
            return Finished(ended.id, ended.parents, False, ())
        forked = yield from self._is_later_child(ended)
        beside = yield from self._beside(ended.id, leaves)
        return Finished(ended.id, ended.parents, forked, beside)

    def _is_later_child(self, ended: Committed) -> Steps[bool]:
        if len(ended.parents) != 1:
            return False
        try:
            shown = yield from ask(requests.show(ended.parents[0]))
        except (Refused, NoMemory):
            return False
        return ended.id in shown.children[1:]

    def _beside(self, made: StateId, leaves: States) -> Steps[Tuple[StateId, ...]]:
        """The leaves that don't stand at or below this state."""
        others = [leaf for leaf in leaves.first if leaf != made]
        if len(others) < len(leaves.first):
            return tuple(others)
        shown = yield from self.show_all([made, *others])
        own = shown.get(made)
        if own is None:
            return tuple(others)
        return tuple(
            leaf for leaf in others
            if leaf not in shown or not (shown[leaf].arrival > own.arrival and set(own.path) <= set(shown[leaf].path)))

    def show_all(self, states: Sequence[StateId]) -> Steps[Dict[StateId, Shown]]:
        """What is shown of these states; those that were collected are left out."""
        answers = yield from ask_all([requests.show(state) for state in states])
        return {state: answer.result() for state, answer in zip(states, answers) if not isinstance(answer.error, Collected)}

    def give_up(self) -> Steps[None]:
        """Aborts, where something is open."""
        try:
            yield from ask(requests.abort())
        except (Refused, NoMemory):
            pass

    def conflicts_after(self, after: Bytes) -> Steps[List[bytes]]:
        """All conflict keys behind this one, however many there are."""
        keys: List[bytes] = []
        page = yield from ask(requests.conflicts(after))
        while page.first:
            keys.extend(page.first)
            if len(page.first) == page.total:
                break
            page = yield from ask(requests.conflicts(page.first[-1]))
        return keys

    # what is known of the history

    def learn(self) -> Steps[Stat]:
        """Learns all records that aren't known here yet: by questions, or of a server that answers none by Pull.
        Where many are kept when it is first asked, and Pull is let in, by Pull too: it gives many in one answer."""
        stat = yield from ask(requests.stat())
        if self._pulls is None:
            self._pulls = stat.kept > MANY and (yield from self._may_pull(len(stat.sites)))
        if not self._pulls:
            leaves = yield from ask(requests.leaves())
            if (yield from self.kept.look(stat, leaves.first)):
                told = self.kept.told
                found = yield from self.asking.records({id: told[id] for id in told if id != ROOT})
                self.records.learn([(told[id].arrival, record) for id, record in found.items()])
                self.records.forget(set(told))
                return stat
            self._pulls = True
        return (yield from self._pull())

    def _may_pull(self, sites: int) -> Steps[bool]:
        """Whether this listener lets Pull in: news of nothing are asked for."""
        answers = yield from ask_all([requests.pull([0xFFFFFFFF] * sites)])
        return not isinstance(answers[0].error, Unsupported)

    def _pull(self) -> Steps[Stat]:
        """Learns by Pull. Where floors moved it asks for all that aren't closed."""
        stat = yield from ask(requests.stat())
        floors = tuple(line.floor for line in stat.sites)
        if floors != self.records.open_floors:
            self.records.open, self.records.open_floors = set(), floors
        while True:
            batch = yield from ask(requests.pull(self.records.counts(len(stat.sites))))
            self.records.add(batch)
            self.records.open.update(record.id for record in batch.records)
            if not batch.records:
                self.records.forget(self.records.open)
                return stat

    def history(self, state: Optional[At] = None) -> Steps[History]:
        """All kept states, or those at or above this one. Where others commit meanwhile it is that of one moment in between, or asks
        once more."""
        chosen = None if state is None else state_id(state)
        if chosen is not None:
            yield from ask(requests.show(chosen))
        for _ in range(5):
            stat = yield from self.learn()
            kept = yield from self._kept(stat)
            leaves = yield from ask(requests.leaves())
            after = yield from ask(requests.stat())
            if after == stat:
                break
        states = yield from self._states(kept)
        if chosen is not None:
            above = at_or_above([chosen], {it.id: it for it in states})
            states = [it for it in states if it.id in above]
        return History(states, leaves.first, stat, self.ceiling, self.records)

    def _kept(self, stat: Stat) -> Steps[Dict[StateId, Optional[Shown]]]:
        """The states that are kept; of a server that answers no questions also what is shown of those that are
        closed: only these may be collected."""
        if not self._pulls:
            return {id: None if id != ROOT else Shown(0, (), ()) for id in self.kept.told}
        records = self.records
        kept: Dict[StateId, Optional[Shown]] = {id: None for id in records.open}
        parents = [parent for id in records.open for parent in records.records[id].parents]
        unsure = [ROOT, *records.open_floors, *records.records, *parents]
        asked = {id: True for id in unsure if id not in kept and id not in records.gone}
        kept.update((yield from self._show_some(list(asked))))
        rest = self._never_told(stat, asked)
        for _ in range(MOST_ROUNDS):
            part = [] if len(kept) >= stat.kept else [id for _, id in zip(range(AT_ONCE), rest)]
            if not part:
                break
            kept.update((yield from self._show_some(part)))
        return kept

    def _show_some(self, states: List[StateId]) -> Steps[Dict[StateId, Shown]]:
        """What is shown of these states; it is remembered which were collected."""
        shown = yield from self.show_all(states)
        self.records.gone.update(id for id in states if id not in shown)
        return shown

    def _never_told(self, stat: Stat, asked: Dict[StateId, bool]) -> Generator[StateId, None, None]:
        """The states whose records weren't told, since they stood above all floors: the newest first."""
        records = self.records
        for site, line in enumerate(stat.sites, 1):
            for sequence in range(line.count, 0, -1):
                id = StateId(site, sequence)
                if not (id in records.records or id in asked or id in records.gone):
                    yield id

    def _states(self, kept: Dict[StateId, Optional[Shown]]) -> Steps[List[State]]:
        """The kept states, those whose records were never told before the others, each with the kept states that lead to it."""
        records = self.records.records
        old = sorted((shown.arrival, id) for id, shown in kept.items() if id not in records and shown is not None)
        # (a server that doesn't answer the question gives none)
        recorded = yield from self.asking.recorded([id for _, id in old if id != ROOT])
        told = yield from self.asking.records(recorded or {})
        ids = [*(id for _, id in old), *(id for id in self.records.in_order(kept) if id != ROOT)]
        leading = {id: self.records.leading(id, kept) for id in ids if id != ROOT}
        leading.update({id: record.parents for id, record in told.items()
                        if all(parent in kept for parent in record.parents)})
        unsure = [id for id, found in leading.items() if found is None]
        shows: Dict[StateId, Shown] = {id: shown for id, shown in kept.items() if shown is not None}
        if unsure:
            shows.update((yield from self.show_all([id for id in unsure if id not in shows])))
        states = []
        for id in ids:
            found = leading.get(id, ())
            parents = _by_paths(id, shows) if found is None else found
            record = records.get(id) or told.get(id)
            states.append(State(id, tuple(parents), record.writes if record is not None else () if id == ROOT else None))
        return states

    def walk(self, state: Optional[At]) -> Steps[Walk]:
        """A walk that begins at this state, or at all leaves."""
        walk = Walk()
        if state is not None:
            yield from walk.begin(state)
        else:
            yield from walk.reach((yield from self._all_leaves()))
        return walk

    def _all_leaves(self) -> Steps[Sequence[StateId]]:
        """The leaves, and where the site lists only some, perhaps other states too: one that has no kept child; or
        by Pull, which gives the record of each leaf that is no floor."""
        leaves = yield from ask(requests.leaves())
        if len(leaves.first) == leaves.total:
            return leaves.first
        yield from self.learn()
        if not self._pulls:
            return [id for id, told in self.kept.told.items() if not told.kept_children]
        records = self.records
        parents = {parent for id in records.open for parent in records.records[id].parents}
        return [*(id for id in records.open if id not in parents), *records.open_floors]

    def items(self, state: At, prefix: Bytes) -> Steps[Items]:
        """The keys and values at a state; where the server answers no questions, from what was pulled."""
        chosen = state_id(state)
        try:
            return Items((yield from looking.all_items(chosen, prefix)), True)
        except Unsupported:
            pass
        yield from ask(requests.show(chosen))
        return (yield from self._pulled()).items(chosen, prefix)

    def keys(self, state: At, prefix: Bytes) -> Steps[Tuple[bytes, ...]]:
        """The keys at a state; where the server answers no questions, from what was pulled."""
        try:
            return (yield from looking.all_keys(state, prefix))
        except Unsupported:
            return (yield from self.items(state, prefix)).keys

    def diff(self, one: At, other: At) -> Steps[Tuple[Difference, ...]]:
        """The keys that read differently at two states; where the server answers no questions, from what was pulled."""
        first, second = state_id(one), state_id(other)
        try:
            here = dict((yield from looking.all_items(first, b"")))
            there = dict((yield from looking.all_items(second, b"")))
            return tuple(Difference(key, here.get(key), there.get(key)) for key in sorted({*here, *there})
                         if here.get(key) != there.get(key))
        except Unsupported:
            pass
        for answer in (yield from ask_all([requests.show(first), requests.show(second)])):
            answer.result()
        return (yield from self._pulled()).diff(first, second)

    def _pulled(self) -> Steps[History]:
        """What follows from all that the site tells."""
        stat = yield from self.learn()
        return History((), (), stat, None, self.records)

    def news(self, seen: Optional[List[int]]) -> Steps[Tuple[List[int], List[State]]]:
        """What came since so many states of each site were seen; the first time, nothing. Of a state that was
        collected before it was asked for only its name is told."""
        stat = yield from ask(requests.stat())
        counts = [line.count for line in stat.sites]
        if counts == seen:
            return seen, []
        new = _between(seen or counts, counts)
        told = yield from self.asking.recorded(new)
        if told is None or self.asking.is_unanswered(QuestionCode.RECORD):
            return (yield from self._pulled_news(seen))
        records = yield from self.asking.records(told)
        found = sorted(records, key=lambda id: told[id].arrival)
        missed = [State(id, (), None) for id in new if id not in records]
        return counts, [*missed, *(State(*records[id]) for id in found)]

    def _pulled_news(self, seen: Optional[List[int]]) -> Steps[Tuple[List[int], List[State]]]:
        """The same of a server that answers no questions."""
        stat = yield from self._pull()
        counts = [max(line.count, known) for line, known in zip(stat.sites, self.records.counts(len(stat.sites)))]
        new = _between(seen or counts, counts)
        return counts, [*(State(id, (), None) for id in new if id not in self.records.records),
                        *(State(*self.records.records[id]) for id in self.records.in_order(new))]
