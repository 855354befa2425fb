"""The steps of a call: what is to be exchanged, and what the call goes on with."""

from typing import Any, Generator, List, Sequence, TypeVar

from . import requests
from .conversation import Answer
from .requests import Request

__all__ = ["AT_ONCE", "Aside", "Steps", "ask", "ask_all", "ask_aside"]

T = TypeVar("T")
Steps = Generator[List[Answer[Any]], None, T]

#: so many requests are asked at once where there are many
AT_ONCE = 2_000


def ask(request: Request[T]) -> Steps[T]:
    """Exchanges one request, and gives what it gives, or raises what was refused."""
    answer = Answer(request)
    yield [answer]
    return answer.result()


def ask_all(wanted: Sequence[Request[Any]]) -> Steps[List[Answer[Any]]]:
    """Exchanges requests together, and gives the answers, refusals among them."""
    answers: List[Answer[Any]] = [Answer(request) for request in wanted]
    for place in range(0, len(answers), AT_ONCE):
        yield answers[place:place + AT_ONCE]
    return answers


class Aside(List[Answer[Any]]):
    """Requests that are to be exchanged over a connection of their own, which is closed again. Where there is none to be had, the
    answers say so."""


def ask_aside(wanted: Sequence[Request[Any]]) -> Steps[List[Answer[Any]]]:
    """Exchanges requests in a session of their own: it may read at the site's floor, above the ceiling of this one."""
    answers = Aside(Answer(request) for request in [requests.open_session(False), *wanted])
    yield answers
    return answers[1:]
