"""Requests that are gathered, and asked as one."""

from typing import Any, Dict, List, Optional, Sequence, Tuple, TypeVar, Union

from . import questions, requests
from .conversation import Answer
from .core import Core
from .ids import Bytes, StateId
from .replies import About, Committed, Ended, Keys, Raised, Read, Recorded, Reply, Shown, Stat, States
from .requests import At, Request

__all__ = ["Pipeline"]

T = TypeVar("T")


class Pipeline:
    """What was asked in a block of `pipeline()`: each call gives an `Answer`, whose `result()` is there once the block is
    over. A refusal is raised by the `result()` of its own answer, and the requests behind it are asked all the same."""

    def __init__(self, core: Core) -> None:
        #: the answers, in the order in which they were asked for
        self.answers: List[Answer[Any]] = []
        self._merging = core.merging

    def ask(self, request: Request[T]) -> Answer[T]:
        """Asks for any request of `tardis.requests`, or question of `tardis.questions`."""
        answer = Answer(request)
        self.answers.append(answer)
        return answer

    @property
    def refused(self) -> List[Answer[Any]]:
        """The answers that were refused."""
        return [answer for answer in self.answers if answer.error is not None]

    def results(self) -> List[Any]:
        """What each request gave, in order. Raises the first refusal among them."""
        return [answer.result() for answer in self.answers]

    def raw(self, body: bytes) -> Answer[Reply]:
        return self.ask(requests.raw(body))

    def open(self, follow: bool = True) -> Answer[StateId]:
        return self.ask(requests.open_session(follow))

    def close(self) -> Answer[None]:
        return self.ask(requests.close())

    def ceiling(self, state: At) -> Answer[None]:
        return self.ask(requests.ceiling(state))

    def begin(self, at: At = "ancestor") -> Answer[StateId]:
        self._merging = False
        return self.ask(requests.begin(at))

    def get(self, key: Bytes) -> Answer[Read]:
        return self.ask(requests.get(key))

    def put(self, key: Bytes, value: Bytes) -> Answer[None]:
        return self.ask(requests.put(key, value))

    def delete(self, key: Bytes) -> Answer[None]:
        return self.ask(requests.delete(key))

    def commit(self, serializable: Optional[bool] = None, snapshot: Optional[bool] = None, no_branch: bool = False,
               branches: Optional[int] = None) -> Answer[Union[Committed, Ended]]:
        usual = not self._merging
        return self.ask(requests.commit(
            usual if serializable is None else serializable, usual if snapshot is None else snapshot, no_branch, branches))

    def abort(self) -> Answer[None]:
        return self.ask(requests.abort())

    def begin_merge(self, states: Sequence[At] = ()) -> Answer[Tuple[StateId, ...]]:
        self._merging = True
        return self.ask(requests.begin_merge(states))

    def fork_points(self) -> Answer[States]:
        return self.ask(requests.fork_points())

    def conflicts(self, after: Bytes = b"") -> Answer[Keys]:
        return self.ask(requests.conflicts(after))

    def get_for(self, key: Bytes, state: At) -> Answer[Read]:
        return self.ask(requests.get_for(key, state))

    def leaves(self) -> Answer[States]:
        return self.ask(requests.leaves())

    def stat(self) -> Answer[Stat]:
        return self.ask(requests.stat())

    def show(self, state: At) -> Answer[Shown]:
        return self.ask(requests.show(state))

    def raise_floor(self, state: Optional[At] = None) -> Answer[Raised]:
        return self.ask(requests.raise_floor(state))

    def tidy(self, count: int = 65535) -> Answer[int]:
        return self.ask(requests.tidy(count))

    def get_at(self, key: Bytes, state: At) -> Answer[Read]:
        return self.ask(questions.at(key, state))

    def record(self, state: At) -> Answer[Recorded]:
        return self.ask(questions.record(state))

    def base(self, key: Bytes, states: Sequence[At]) -> Answer[Dict[StateId, Read]]:
        return self.ask(questions.base(key, states))

    def about(self) -> Answer[About]:
        return self.ask(questions.about())
