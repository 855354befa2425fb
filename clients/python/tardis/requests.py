"""What is asked: each request's spelling (`docs/FORMATS.md`), and what its reply gives."""

import struct
from typing import Callable, Generic, List, Optional, Sequence, Tuple, Type, TypeVar, Union

from .codes import QuestionCode, RequestCode
from .ids import Bytes, StateId, flag, key_bytes, number, prefix_bytes, state_id, value_bytes
from .refusals import NoMemory, ProtocolError, Refused
from .replies import (
    Absent, Applied, Batch, Begun, Closed, Committed, Deleted, Done, Early, Ended, Keys, Known, Merging, Opened, Raised, Read, Reply,
    Shown, Stat, States, Tidied, Value)

__all__ = [
    "At", "Delivered", "Request", "abort", "begin", "begin_merge", "body_of", "ceiling", "close", "commit", "conflicts", "delete",
    "deliver", "fork_points", "frame", "get", "get_for", "gives", "itself", "key_field", "leaves", "open_session", "pull", "put",
    "raise_floor", "raw", "read_of", "settle", "show", "stat", "state_field", "tidy",
]

T = TypeVar("T")
R = TypeVar("R")

At = Union[str, StateId]
Delivered = Union[Applied, Known, Early]


class Request(Generic[T]):
    """The body of a frame, and how what it gives is taken from its reply."""

    __slots__ = ("body", "read")

    def __init__(self, body: bytes, read: Callable[[Reply], T]) -> None:
        self.body = body
        self.read = read

    def refused(self, why: Union[Refused, NoMemory]) -> Union[Refused, NoMemory]:
        """What is raised where it was refused."""
        return why


def _strange(reply: Reply) -> ProtocolError:
    return ProtocolError(f"{reply!r} is no answer to what was asked")


def gives(kind: Type[R], pick: Callable[[R], T]) -> Callable[[Reply], T]:
    """Takes what is picked from a reply of this kind."""
    def read(reply: Reply) -> T:
        if not isinstance(reply, kind):
            raise _strange(reply)
        return pick(reply)
    return read


def itself(kind: Type[R]) -> Callable[[Reply], R]:
    return gives(kind, lambda reply: reply)


_done: Callable[[Reply], None] = gives(Done, lambda reply: None)


def read_of(reply: Reply) -> Read:
    if isinstance(reply, (Value, Deleted, Absent)):
        return reply
    raise _strange(reply)


def _ended(reply: Reply) -> Union[Committed, Ended]:
    if isinstance(reply, (Committed, Ended)):
        return reply
    raise _strange(reply)


def _delivered(reply: Reply) -> Delivered:
    if isinstance(reply, (Applied, Known, Early)):
        return reply
    raise _strange(reply)


def _settled(reply: Reply) -> Union[Applied, Done]:
    if isinstance(reply, (Applied, Done)):
        return reply
    raise _strange(reply)


def key_field(key: Bytes) -> bytes:
    data = key_bytes(key)
    return bytes([len(data)]) + data


def _value(value: Bytes) -> bytes:
    data = value_bytes(value)
    return struct.pack(">H", len(data)) + data


def state_field(state: At) -> bytes:
    return struct.pack(">HI", *state_id(state))


def body_of(code: Union[RequestCode, QuestionCode], fields: bytes = b"") -> bytes:
    """The body of a request or a question: its code, and its fields."""
    return bytes((code,)) + fields


def frame(body: bytes) -> bytes:
    """The body behind its length."""
    return struct.pack(">I", len(body)) + body


def raw(body: bytes) -> "Request[Reply]":
    """A request that is spelled by hand; it gives its reply as it is."""
    return Request(body, lambda reply: reply)


# sessions

def open_session(follow: bool) -> "Request[StateId]":
    return Request(body_of(RequestCode.OPEN, bytes([flag("follow", follow)])), gives(Opened, lambda reply: reply.ceiling))


def close() -> "Request[None]":
    return Request(body_of(RequestCode.CLOSE), gives(Closed, lambda reply: None))


def ceiling(state: At) -> "Request[None]":
    return Request(body_of(RequestCode.CEILING, state_field(state)), _done)


# transactions

_BEGINS = {"any": b"\x00", "ancestor": b"\x01", "parent": b"\x02"}


def begin(at: At) -> "Request[StateId]":
    if isinstance(at, str) and at in _BEGINS:
        kind = _BEGINS[at]
    else:
        try:
            kind = b"\x03" + state_field(at)
        except ValueError as fault:
            raise ValueError(f"a transaction begins at 'any', 'ancestor', 'parent' or a state: {fault}") from None
    return Request(body_of(RequestCode.BEGIN, kind), gives(Begun, lambda reply: reply.state))


def get(key: Bytes) -> "Request[Read]":
    return Request(body_of(RequestCode.GET, key_field(key)), read_of)


def put(key: Bytes, value: Bytes) -> "Request[None]":
    return Request(body_of(RequestCode.PUT, key_field(key) + _value(value)), _done)


def delete(key: Bytes) -> "Request[None]":
    return Request(body_of(RequestCode.DELETE, key_field(key)), _done)


def commit(serializable: bool, snapshot: bool, no_branch: bool, branches: Optional[int]) -> "Request[Union[Committed, Ended]]":
    flags = (flag("serializable", serializable) * 1 + flag("snapshot", snapshot) * 2 + flag("no_branch", no_branch) * 4
             + (branches is not None) * 8)
    most = 0 if branches is None else number("branches", branches, 1, 0xFFFF)
    return Request(body_of(RequestCode.COMMIT, struct.pack(">BH", flags, most)), _ended)


def abort() -> "Request[None]":
    return Request(body_of(RequestCode.ABORT), _done)


# merges

def begin_merge(states: Sequence[At]) -> "Request[Tuple[StateId, ...]]":
    """A merge of these states, or of all leaves where none is named."""
    if len(states) > 255:
        raise ValueError(f"at most 255 states can be named, and not {len(states):,}")
    spelled = body_of(RequestCode.BEGIN_MERGE, bytes([len(states)]) + b"".join(map(state_field, states)))
    return Request(spelled, gives(Merging, lambda reply: reply.states))


def fork_points() -> "Request[States]":
    return Request(body_of(RequestCode.FORK_POINTS), itself(States))


def conflicts(after: Bytes) -> "Request[Keys]":
    behind = prefix_bytes(after)
    return Request(body_of(RequestCode.CONFLICTS, bytes([len(behind)]) + behind), itself(Keys))


def get_for(key: Bytes, state: At) -> "Request[Read]":
    return Request(body_of(RequestCode.GET_FOR, key_field(key) + state_field(state)), read_of)


# the site

def leaves() -> "Request[States]":
    return Request(body_of(RequestCode.LEAVES), itself(States))


def stat() -> "Request[Stat]":
    return Request(body_of(RequestCode.STAT), itself(Stat))


def show(state: At) -> "Request[Shown]":
    return Request(body_of(RequestCode.SHOW, state_field(state)), itself(Shown))


def raise_floor(state: Optional[At]) -> "Request[Raised]":
    return Request(body_of(RequestCode.RAISE_AUTO) if state is None else body_of(RequestCode.RAISE, state_field(state)), itself(Raised))


def tidy(count: int) -> "Request[int]":
    spelled = body_of(RequestCode.TIDY, struct.pack(">H", number("how many states are collected", count, 0, 0xFFFF)))
    return Request(spelled, gives(Tidied, lambda reply: reply.collected))


# other sites

def pull(counts: Sequence[int]) -> "Request[Batch]":
    if not 1 <= len(counts) <= 16:
        raise ValueError(f"there is a count for each of 1 to 16 sites, and not {len(counts)}")
    told: List[bytes] = [struct.pack(">I", number("a count", count, 0, 0xFFFFFFFF)) for count in counts]
    return Request(body_of(RequestCode.PULL, bytes([len(told)]) + b"".join(told)), itself(Batch))


def deliver(item: bytes) -> "Request[Delivered]":
    if not isinstance(item, bytes):
        raise TypeError(f"an item is bytes, as a batch's items are, and not {type(item).__name__}")
    return Request(body_of(RequestCode.DELIVER, item), _delivered)


def settle() -> "Request[Union[Applied, Done]]":
    return Request(body_of(RequestCode.SETTLE), _settled)
