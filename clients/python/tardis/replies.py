"""What is answered: a type for each reply, and how the bytes of a frame are read (`docs/FORMATS.md`)."""

from typing import Callable, Dict, NamedTuple, Optional, Tuple, TypeVar, Union

from .codes import AnswerCode, ReplyCode
from .ids import StateId
from .refusals import FORK_POINTS, REFUSAL_OF, Branches, NoBranch, NoMemory, ProtocolError, Refused, TooManyConnections

__all__ = [
    "About", "Absent", "Applied", "Batch", "Begun", "Closed", "Committed", "Consent", "Deleted", "Done", "Early", "Ended", "Entries",
    "ForkReads", "Keys", "Known", "Limits", "Merging", "Opened", "Raised", "Read", "Record", "Recorded", "Reply", "SessionLine",
    "Sessions", "Shown", "SiteLine", "Stat", "States", "Tidied", "Value", "Write", "read_reply",
]

LONGEST_FRAME = 1_048_576
#: what a server says to a connection for which it has no place; no site is asked, and it comes before any reply
CONNECTIONS_FULL = 30

T = TypeVar("T")


class Opened(NamedTuple):
    ceiling: StateId


class Begun(NamedTuple):
    state: StateId


class Merging(NamedTuple):
    states: Tuple[StateId, ...]


class Value(NamedTuple):
    """The state that wrote the value (0.0 for the transaction's own write), and the value."""
    writer: StateId
    value: bytes


class Deleted(NamedTuple):
    writer: StateId


class Absent(NamedTuple):
    pass


class Done(NamedTuple):
    pass


class Committed(NamedTuple):
    id: StateId
    parents: Tuple[StateId, ...]


class Ended(NamedTuple):
    """A transaction that wrote nothing ended: no state was made."""
    state: StateId


class States(NamedTuple):
    """How many there are, and the first 256 of them in order of arrival."""
    total: int
    first: Tuple[StateId, ...]


class Keys(NamedTuple):
    """How many there are, and the least 256 of them."""
    total: int
    first: Tuple[bytes, ...]


class Raised(NamedTuple):
    floor: StateId
    number: int


class Tidied(NamedTuple):
    collected: int


class SiteLine(NamedTuple):
    """What is known of a site: how many states it made, its floor, and how often that was raised."""
    count: int  # type: ignore[assignment]
    floor: StateId
    number: int


class Stat(NamedTuple):
    """How many states are known and kept, how many leaves and open sessions there are, and a line for each site."""
    known: int
    kept: int
    leaves: int
    sessions: int
    sites: Tuple[SiteLine, ...]


class Shown(NamedTuple):
    """How many states had arrived before this one, its children, and for each fork above it the branch that leads here."""
    arrival: int
    children: Tuple[StateId, ...]
    path: Tuple[Tuple[StateId, int], ...]


class Write(NamedTuple):
    """A key, and the value that was put there: None where it was deleted."""
    key: bytes
    value: Optional[bytes]


class Record(NamedTuple):
    """A state: its parents, and what it wrote."""
    id: StateId
    parents: Tuple[StateId, ...]
    writes: Tuple[Write, ...]


class Consent(NamedTuple):
    """A site's promise, the so-many-eth, not to read above this floor, given when it had made so many states."""
    site: int
    number: int
    floor: StateId
    count: int  # type: ignore[assignment]


class Batch(NamedTuple):
    """Records and consents, and the spellings of both, each of which `deliver` takes as it is."""
    items: Tuple[bytes, ...]
    records: Tuple[Record, ...]
    consents: Tuple[Consent, ...]


class Applied(NamedTuple):
    pass


class Known(NamedTuple):
    pass


class Early(NamedTuple):
    have: int


class Closed(NamedTuple):
    pass


Read = Union[Value, Deleted, Absent]


class Entries(NamedTuple):
    """How many keys there are, and the first of them with their values: as many as have 65,536 bytes, but one at least."""
    total: int
    first: Tuple[Tuple[bytes, bytes], ...]


class Recorded(NamedTuple):
    """How many states had arrived before this one, its parents, those of its parents and of its children that are kept, and the
    keys that it wrote."""
    arrival: int
    parents: Tuple[StateId, ...]
    kept_parents: Tuple[StateId, ...]
    kept_children: Tuple[StateId, ...]
    keys: Tuple[bytes, ...]


class ForkReads(NamedTuple):
    """What is read of a key at each state where some states parted, in order of arrival."""
    reads: Tuple[Tuple[StateId, Read], ...]


class SessionLine(NamedTuple):
    """An open session: its number, whether its ceiling follows its commits, its ceiling, its last commit, the states that its
    transaction reads (none where none is open), and whether it holds the floor: that can't be raised past its ceiling."""
    number: int
    follow: bool
    ceiling: StateId
    last: StateId
    reads: Tuple[StateId, ...]
    holds: bool


class Sessions(NamedTuple):
    """Where the floor would stand if it were raised now, how many sessions are open, and the first 256 of them by their numbers."""
    floor: StateId
    total: int
    first: Tuple[SessionLine, ...]


class Limits(NamedTuple):
    """The most sites, kept states, pairs of a fork path, sessions, and bytes of a trail."""
    sites: int
    kept: int
    pairs: int
    sessions: int
    trail: int


class About(NamedTuple):
    """The version of the format, the limits, the site's own number, and how many states it knows and keeps."""
    version: int
    limits: Limits
    own: int
    known: int
    kept: int


Reply = Union[
    Opened, Begun, Merging, Value, Deleted, Absent, Done, Committed, Ended, States, Keys, Raised, Tidied, Stat, Shown, Batch, Applied,
    Known, Early, Closed, Refused, NoMemory, Entries, Recorded, ForkReads, Sessions, About,
]


class Reader:
    """Takes fields from the front of some bytes."""

    def __init__(self, data: bytes) -> None:
        self.data = data
        self.place = 0

    def take(self, count: int) -> bytes:
        taken = self.data[self.place:self.place + count]
        if len(taken) != count:
            raise ProtocolError("a reply ends too early")
        self.place += count
        return taken

    def number(self, size: int) -> int:
        return int.from_bytes(self.take(size), "big")

    def id(self) -> StateId:
        return StateId(self.number(2), self.number(4))

    def key(self) -> bytes:
        return self.take(self.number(1))

    def value(self) -> bytes:
        return self.take(self.number(2))

    def many(self, count: int, one: Callable[[], T]) -> Tuple[T, ...]:
        return tuple(one() for _ in range(count))

    def ids(self, size: int) -> Tuple[StateId, ...]:
        """So many ids as a number of this size says."""
        return self.many(self.number(size), self.id)

    def flag(self) -> bool:
        read = self.number(1)
        if read > 1:
            raise ProtocolError(f"no flag has the value {read}")
        return read == 1

    def end(self) -> None:
        if self.place != len(self.data):
            raise ProtocolError("a reply has too many bytes")


def _write(r: Reader) -> Write:
    key, kind = r.key(), r.number(1)
    if kind > 1:
        raise ProtocolError(f"no write has the kind {kind}")
    return Write(key, r.value() if kind else None)


def read_record(r: Reader) -> Record:
    return Record(r.id(), r.ids(1), r.many(r.number(1), lambda: _write(r)))


def _consent(r: Reader) -> Consent:
    return Consent(r.number(2), r.number(4), r.id(), r.number(4))


def _batch(r: Reader) -> Batch:
    items = []

    def spelled(kind: bytes, one: Callable[[Reader], T]) -> T:
        start = r.place
        read = one(r)
        items.append(kind + r.data[start:r.place])
        return read

    records = r.many(r.number(2), lambda: spelled(b"\x01", read_record))
    consents = r.many(r.number(1), lambda: spelled(b"\x02", _consent))
    return Batch(tuple(items), records, consents)


def _site_line(r: Reader) -> SiteLine:
    return SiteLine(r.number(4), r.id(), r.number(4))


def _stat(r: Reader) -> Stat:
    return Stat(r.number(8), r.number(4), r.number(4), r.number(2), r.many(r.number(1), lambda: _site_line(r)))


def _shown(r: Reader) -> Shown:
    return Shown(r.number(8), r.ids(4), r.many(r.number(4), lambda: (r.id(), r.number(4))))


def _what(r: Reader) -> str:
    code = r.number(1)
    if code not in _WHAT:
        raise ProtocolError(f"there can't be too many of {code}")
    return _WHAT[code]


_WHAT = {1: "writes", 2: "reads", 3: "states", 4: FORK_POINTS}


def _branches(r: Reader) -> Refused:
    code, state, children = r.number(1), r.id(), r.number(4)
    if code == 4:
        return NoBranch("no branch", state, children)
    if code == 8:
        return Branches("at most k branches", state, children)
    raise ProtocolError(f"no constraint has the number {code}")


_FIELDS: Dict[int, Callable[[Reader], Tuple[object, ...]]] = {
    4: lambda r: (r.number(2),), 8: lambda r: (_what(r), r.number(4)), 9: lambda r: (r.id(),), 10: lambda r: (r.id(), r.id()),
    11: lambda r: (r.id(), r.id()), 12: lambda r: (r.id(),), 13: lambda r: (r.key(),), 14: lambda r: (r.key(),),
    16: lambda r: (r.id(),), 17: lambda r: (r.id(),), 18: lambda r: (r.number(2), r.id()), 19: lambda r: (r.id(),),
    20: lambda r: (r.number(4),), 21: lambda r: (r.id(), r.number(4)), 23: lambda r: (r.number(2),), 24: lambda r: (r.id(),),
    25: lambda r: (r.number(2), r.number(4)), 26: lambda r: (r.number(8),), 27: lambda r: (r.number(1),),
    28: lambda r: (r.number(4),), 29: lambda r: (r.number(4),),
}


def _refusal(r: Reader) -> Refused:
    code = r.number(1)
    if code == 15:
        return _branches(r)
    if code == CONNECTIONS_FULL:
        raise TooManyConnections(r.number(4))
    if code not in REFUSAL_OF:
        raise ProtocolError(f"no refusal has the number {code}")
    return REFUSAL_OF[code](*(_FIELDS[code](r) if code in _FIELDS else ()))


# what is told to questions

def _read(r: Reader) -> Read:
    """What is read of a key: its latest writer, and what that one wrote."""
    if not r.flag():
        return Absent()
    writer = r.id()
    return Value(writer, r.value()) if r.flag() else Deleted(writer)


def _recorded(r: Reader) -> Recorded:
    return Recorded(r.number(8), r.ids(1), r.ids(1), r.ids(4), r.many(r.number(1), r.key))


def _session_line(r: Reader) -> SessionLine:
    return SessionLine(r.number(2), r.flag(), r.id(), r.id(), r.ids(1), r.flag())


def _limits(r: Reader) -> Limits:
    return Limits(r.number(2), r.number(4), r.number(4), r.number(2), r.number(8))


_REPLIES: Dict[int, Callable[[Reader], Reply]] = {
    ReplyCode.OPENED: lambda r: Opened(r.id()),
    ReplyCode.BEGUN: lambda r: Begun(r.id()),
    ReplyCode.MERGING: lambda r: Merging(r.ids(1)),
    ReplyCode.VALUE: lambda r: Value(r.id(), r.value()),
    ReplyCode.DELETED: lambda r: Deleted(r.id()),
    ReplyCode.ABSENT: lambda r: Absent(),
    ReplyCode.DONE: lambda r: Done(),
    ReplyCode.COMMITTED: lambda r: Committed(r.id(), r.ids(1)),
    ReplyCode.ENDED: lambda r: Ended(r.id()),
    ReplyCode.STATES: lambda r: States(r.number(4), r.ids(2)),
    ReplyCode.KEYS: lambda r: Keys(r.number(4), r.many(r.number(2), r.key)),
    ReplyCode.RAISED: lambda r: Raised(r.id(), r.number(4)),
    ReplyCode.TIDIED: lambda r: Tidied(r.number(4)),
    ReplyCode.STAT: _stat,
    ReplyCode.SHOWN: _shown,
    ReplyCode.BATCH: _batch,
    ReplyCode.APPLIED: lambda r: Applied(),
    ReplyCode.KNOWN: lambda r: Known(),
    ReplyCode.EARLY: lambda r: Early(r.number(4)),
    ReplyCode.CLOSED: lambda r: Closed(),
    ReplyCode.REFUSED: _refusal,
    ReplyCode.NO_MEMORY: lambda r: NoMemory(),
    AnswerCode.READ: _read,
    AnswerCode.KEYS: lambda r: Keys(r.number(4), r.many(r.number(2), r.key)),
    AnswerCode.ENTRIES: lambda r: Entries(r.number(4), r.many(r.number(2), lambda: (r.key(), r.value()))),
    AnswerCode.RECORD: _recorded,
    AnswerCode.FORK_READS: lambda r: ForkReads(r.many(r.number(1), lambda: (r.id(), _read(r)))),
    AnswerCode.SESSIONS: lambda r: Sessions(r.id(), r.number(4), r.many(r.number(2), lambda: _session_line(r))),
    AnswerCode.SITE: lambda r: About(r.number(2), _limits(r), r.number(2), r.number(8), r.number(4)),
}


_DONE = bytes((ReplyCode.DONE,))


def read_reply(body: bytes) -> Reply:
    """The reply that the body of a frame spells: a value, or a refusal that isn't raised yet. That there are too
    many connections is raised: it is nobody's reply."""
    if body == _DONE:
        return Done()
    r = Reader(body)
    code = r.number(1)
    if code not in _REPLIES:
        raise ProtocolError(f"no reply has the number {code}")
    reply = _REPLIES[code](r)
    r.end()
    return reply
