"""What is asked beside requests: questions, which need no session and change nothing (`docs/FORMATS.md`, 'Questions, and what is
told'), and what each gives."""

import struct
from typing import Callable, Dict, List, Optional, Sequence, Type, TypeVar, Union

from .codes import QuestionCode
from .ids import Bytes, StateId, number, prefix_bytes
from .refusals import Malformed, NoMemory, NoQuestions, ProtocolError, Refused
from .replies import About, Entries, ForkReads, Keys, Read, Recorded, Reply, Sessions
from .requests import At, Request, body_of, gives, itself, key_field, read_of, state_field

__all__ = ["Question", "about", "at", "base", "keys", "record", "scan", "sessions"]

T = TypeVar("T")
P = TypeVar("P", Keys, Entries)
C = TypeVar("C", int, bytes)

#: the base of at most so many states is asked for
MOST_STATES = 8


class Question(Request[T]):
    """A request that a site answers without a session. A server that answers no questions takes its bytes for malformed: it is told
    as `NoQuestions`."""

    __slots__ = ()

    def refused(self, why: Union[Refused, NoMemory]) -> Union[Refused, NoMemory]:
        return NoQuestions(self.body[0]) if isinstance(why, Malformed) else why


def at(key: Bytes, state: At) -> "Question[Read]":
    """What is read of the key at a state."""
    return Question(body_of(QuestionCode.AT, state_field(state) + key_field(key)), read_of)


def _check_page(behind: List[C], told: Sequence[C], total: int) -> None:
    """What a page tells stands behind what was told before, and ascends; there is some where there is any."""
    if any(one >= other for one, other in zip([*behind, *told], told)):
        raise ProtocolError("a page has what was told before, or no order")
    if (len(told) == 0) != (total == 0) or len(told) > total:
        raise ProtocolError(f"a page has {len(told)} of {total}")


def _page(code: QuestionCode, kind: Type[P], state: At, prefix: Bytes, after: Bytes, keys_of: Callable[[P], Sequence[bytes]]) -> "Question[P]":
    """A question for a page of keys, which stand behind this one and begin so."""
    begin, behind = prefix_bytes(prefix), prefix_bytes(after)
    fields = state_field(state) + bytes([len(begin)]) + begin + bytes([len(behind)]) + behind

    def read(reply: Reply) -> P:
        page = itself(kind)(reply)
        told = keys_of(page)
        _check_page([behind], told, page.total)
        if not all(key.startswith(begin) for key in told):
            raise ProtocolError("a page has what wasn't asked for")
        return page

    return Question(body_of(code, fields), read)


def keys(state: At, prefix: Bytes = b"", after: Bytes = b"") -> "Question[Keys]":
    """The keys that have a value at a state, begin so and stand behind this one."""
    return _page(QuestionCode.KEYS, Keys, state, prefix, after, lambda page: page.first)


def scan(state: At, prefix: Bytes = b"", after: Bytes = b"") -> "Question[Entries]":
    """These keys with their values."""
    return _page(QuestionCode.SCAN, Entries, state, prefix, after, lambda page: [key for key, _ in page.first])


def record(state: At) -> "Question[Recorded]":
    """A state's parents, its neighbours that are kept, and the keys that it wrote."""
    return Question(body_of(QuestionCode.RECORD, state_field(state)), itself(Recorded))


def base(key: Bytes, states: Sequence[At]) -> "Question[Dict[StateId, Read]]":
    """What is read of the key at each state where these states parted."""
    if not 1 <= len(states) <= MOST_STATES:
        raise ValueError(f"a base is told of 1 to {MOST_STATES} states, and not of {len(states)}")
    spelled = bytes([len(states)]) + b"".join(map(state_field, states)) + key_field(key)
    return Question(body_of(QuestionCode.BASE, spelled), gives(ForkReads, lambda told: dict(told.reads)))


def sessions(after: Optional[int] = None) -> "Question[Sessions]":
    """The open sessions with numbers above this one, or all."""
    behind = b"\x00" if after is None else struct.pack(">BH", 1, number("a session's number", after, 0, 0xFFFF))

    def read(reply: Reply) -> Sessions:
        page = itself(Sessions)(reply)
        _check_page([-1 if after is None else after], [line.number for line in page.first], page.total)
        return page

    return Question(body_of(QuestionCode.SESSIONS, behind), read)


def about() -> "Question[About]":
    """What holds of the whole site."""
    return Question(body_of(QuestionCode.SITE), itself(About))
