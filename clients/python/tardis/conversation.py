"""What one connection has asked and still waits for, without a socket: bytes go in and come out.

Nothing is ever read as the reply to another request: replies belong to requests by their order, and after anything went
wrong in the midst of one, the conversation is over and says so.
"""

from collections import deque
from typing import Any, Callable, Deque, Generic, Optional, Sequence, TypeVar

from .codes import QuestionCode, RequestCode
from .refusals import (
    FORK_POINTS, Disconnected, NoMemory, ProtocolError, Refused, SessionsFull, TooMany, TooManyConnections)
from .replies import LONGEST_FRAME, Reply, read_reply
from .requests import Request, frame

__all__ = ["Answer", "Conversation"]

T = TypeVar("T")

#: the codes of questions, and of what is told to them, begin here
FIRST_QUESTION = bytes((min(QuestionCode),))
ASKS_BASE = bytes((QuestionCode.BASE,))
OPENS = bytes((RequestCode.OPEN,))
#: how the one frame begins that a server sends to a connection for which it has no place: its length, and `refused
#: connectionsfull`, or of an older server `refused sessionsfull`
TURNED_AWAY = (b"\0\0\0\x06\x15\x1e", b"\0\0\0\x04\x15\x04")


class Answer(Generic[T]):
    """What a request will be answered: what it gives, or why it was refused."""

    __slots__ = ("request", "is_there", "error", "_value")

    def __init__(self, request: Request[T]) -> None:
        self.request = request
        #: whether the reply came
        self.is_there = False
        #: the refusal, where there is one; or what ended the connection before the reply came
        self.error: Optional[BaseException] = None
        self._value: Optional[T] = None

    def give(self, reply: Reply) -> None:
        if isinstance(reply, (Refused, NoMemory)):
            self.error = self.request.refused(reply)
        else:
            self._value = self.request.read(reply)
        self.is_there = True

    def result(self) -> T:
        """What the request gave. Raises what was refused."""
        if self.error is not None:
            raise self.error
        if not self.is_there:
            raise RuntimeError("there is no answer yet: a pipeline is sent at the end of its block")
        return self._value  # type: ignore[return-value]

    def __repr__(self) -> str:
        told = repr(self.error) if self.error is not None else repr(self._value) if self.is_there else "none yet"
        return f"<Answer: {told}>"


def _check_told(asked: bytes, told: bytes, reply: Reply) -> None:
    """What is told to a question has the question's code, and no reply to a request has such a code. Base alone is told of too many fork
    points."""
    if isinstance(reply, (Refused, NoMemory)):
        is_wrong = isinstance(reply, TooMany) and reply.what == FORK_POINTS and asked != ASKS_BASE
    else:
        is_wrong = max(asked, told) >= FIRST_QUESTION and asked != told
    if is_wrong:
        raise ProtocolError(f"{reply!r} is no answer to what was asked")


Note = Callable[[Request[Any], Reply], None]


class Conversation:
    """Requests become bytes to send; bytes that came become replies."""

    def __init__(self, note: Note) -> None:
        self._note = note
        self._waiting: Deque[Answer[Any]] = deque()
        self._held = bytearray()
        self._why: Optional[str] = None
        self._is_answered = False
        #: set where the server turned the connection away
        self.turned_away: Optional[TooManyConnections] = None
        #: set where it may have: the first reply was that there are too many, and whether of sessions or of
        #: connections the end tells
        self.may_be_turned_away: Optional[TooManyConnections] = None

    @property
    def waiting(self) -> int:
        """How many replies are still to come."""
        return len(self._waiting)

    @property
    def is_over(self) -> bool:
        return self._why is not None

    def check(self, answers: Sequence[Answer[Any]] = ()) -> None:
        """Raises `Disconnected` where the conversation is over; these answers say that they weren't asked for."""
        if self._why is not None:
            for answer in answers:
                answer.error = Disconnected(f"this wasn't sent, since {self._why}; connect anew")
            if self.turned_away is not None:
                raise self.turned_away
            raise Disconnected(f"this connection is closed, since {self._why}; connect anew")

    def ask(self, answers: Sequence[Answer[Any]]) -> bytes:
        """The bytes that ask for these."""
        self.check(answers)
        data = b"".join([frame(answer.request.body) for answer in answers])
        self._waiting.extend(answers)
        return data

    def take(self, data: bytes) -> None:
        """Takes bytes that came: each whole reply among them answers the request that has waited longest."""
        self._held += data
        place, end = 0, len(self._held)
        while end - place >= 4:
            length = int.from_bytes(self._held[place:place + 4], "big")
            if length > LONGEST_FRAME:
                raise ProtocolError(f"a frame of {length:,} bytes is too long")
            if end - place - 4 < length:
                break
            self._give(bytes(self._held[place + 4:place + 4 + length]))
            place += 4 + length
        if place:
            del self._held[:place]
        may_be_turned_away = any(begin.startswith(self._held[:len(begin)]) for begin in TURNED_AWAY)
        if self._held and not self._waiting and (self._is_answered or not may_be_turned_away):
            raise ProtocolError("a reply came that nobody asked for")

    def _give(self, body: bytes) -> None:
        asked = self._waiting[0].request.body[:1] if self._waiting else b""
        try:
            reply = read_reply(body)
        except TooManyConnections as fault:
            if self._is_answered:
                raise ProtocolError("a connection was turned away that was taken") from None
            self.turned_away = fault
            raise
        if isinstance(reply, SessionsFull) and not self._is_answered and asked != OPENS:
            self.turned_away = TooManyConnections(reply.sessions)
            raise self.turned_away
        if not self._waiting:
            raise ProtocolError("a reply came that nobody asked for")
        is_first, self._is_answered = not self._is_answered, True
        is_full = is_first and isinstance(reply, SessionsFull)
        self.may_be_turned_away = TooManyConnections(reply.sessions) if is_full else None
        answer = self._waiting[0]
        _check_told(asked, body[:1], reply)
        answer.give(reply)
        self._note(answer.request, reply)
        self._waiting.popleft()

    def ended(self) -> Disconnected:
        """What is to be raised where the other end sends no more."""
        if self.may_be_turned_away is not None and not self._held:
            self.turned_away = self.may_be_turned_away
            return self.turned_away
        cut = " in the midst of a reply" if self._held else ""
        come = f", with {self.waiting} replies to come" if self.waiting else ""
        return Disconnected(f"the site ended the connection{cut}{come}; connect anew")

    def end(self, why: str) -> None:
        """Ends the conversation for good: `why` continues "this connection is closed, since ..". What still waited says so too."""
        if self._why is None:
            self._why = why
        for answer in self._waiting:
            answer.error = Disconnected(f"no reply came, since {why}; whether this was carried out isn't known")
        self._waiting.clear()
        self._held.clear()

    def break_off(self, fault: BaseException, answers: Sequence[Answer[Any]]) -> None:
        """Ends it since this was raised in the midst of these. Those that weren't sent say so."""
        told = f"{type(fault).__name__}: {fault}" if str(fault) else type(fault).__name__
        self.end(f"a request was broken off ({told})")
        for answer in answers:
            if not answer.is_there and answer.error is None:
                answer.error = Disconnected(f"this wasn't sent, since {self._why}; connect anew")
