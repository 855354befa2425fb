"""The client for asyncio: the same calls as `tardis.Site`, awaited. A thin shell of a transport around `core`.

    import tardis.aio

    async with await tardis.aio.connect("unix:/tmp/site") as site:
        await site.open()
        async with site.transaction() as cart:
            await cart.put("cart", "tea")
        print(cart.committed)
"""

import asyncio
import contextlib
import socket
import time
from typing import Any, AsyncIterator, Awaitable, Callable, Dict, List, Optional, Sequence, Tuple, TypeVar, Union

from . import questions, requests
from .addresses import not_reached, parse_address, parse_timeout
from .conversation import Answer, Conversation
from .core import Core, Finished, ended_full
from .histories import Difference, History, Items, State
from .ids import Bytes, StateId, number, prefix_bytes
from .looking import all_sessions, last_entry
from .merging import Comparison, Merged, compare, merge
from .pipelines import Pipeline
from .refusals import Branches, Disconnected, NoTxn, ProtocolError, TooManyConnections
from .replies import (
    About, Applied, Batch, Committed, Done, Ended, Keys, Raised, Read, Recorded, Reply, Sessions, Shown, Stat, States, Value)
from .requests import At, Delivered, Request
from .resolvers import Resolve
from .steps import Aside, Steps, ask, ask_all

__all__ = ["Site", "Transaction", "connect"]

T = TypeVar("T")

#: a second connection is waited for at most so many seconds
ASIDE = 5.0
#: so long a server takes at most to end a connection that it turned away, in seconds
END = 0.2


class Transaction:
    """What is read and written between a begin and a commit."""

    def __init__(self, site: "Site", begun: StateId) -> None:
        self.site = site
        self.begun = begun
        self._finished = Finished(None, (), False, ())
        self._is_over = False

    async def _ask(self, request: Request[T]) -> T:
        """Asks within this transaction, from whatever task."""
        if self._is_over:
            raise NoTxn()
        return await self.site._run_within(ask(request))

    @property
    def committed(self) -> Optional[StateId]:
        """The state that the commit made, once it has. None where nothing was written."""
        return self._finished.committed

    @property
    def parents(self) -> Tuple[StateId, ...]:
        """The states below which it stands."""
        return self._finished.parents

    @property
    def forked(self) -> bool:
        """Whether the commit made a fork: there was another child already, which didn't go with what this one read or wrote."""
        return self._finished.forked

    @property
    def beside(self) -> Tuple[StateId, ...]:
        """The other leaves that there were when it committed, the first 256."""
        return self._finished.beside

    async def get(self, key: Bytes) -> Read:
        return await self._ask(requests.get(key))

    async def value(self, key: Bytes, default: Optional[bytes] = None) -> Optional[bytes]:
        """The bytes that are read, or the default where there are none."""
        read = await self.get(key)
        return read.value if isinstance(read, Value) else default

    async def put(self, key: Bytes, value: Bytes) -> None:
        await self._ask(requests.put(key, value))

    async def delete(self, key: Bytes) -> None:
        await self._ask(requests.delete(key))


class _Turn:
    """A lock that the task which holds it may take again."""

    def __init__(self) -> None:
        self._lock = asyncio.Lock()
        self._task: Optional["asyncio.Task[Any]"] = None
        self._depth = 0

    async def __aenter__(self) -> None:
        task = asyncio.current_task()
        if self._task is not task or task is None:
            await self._lock.acquire()
            self._task = task
        self._depth += 1

    async def __aexit__(self, *raised: object) -> None:
        self._depth -= 1
        if self._depth == 0:
            self._task = None
            self._lock.release()


class _Link(asyncio.Protocol):
    """What comes goes to the conversation, and whoever waits is woken."""

    def __init__(self, conversation: Conversation) -> None:
        self.conversation = conversation
        self.transport: Optional[asyncio.Transport] = None
        self._fault: Optional[BaseException] = None
        self._news: "Optional[asyncio.Future[None]]" = None

    def connection_made(self, transport: asyncio.BaseTransport) -> None:
        assert isinstance(transport, asyncio.Transport)
        self.transport = transport

    def data_received(self, data: bytes) -> None:
        try:
            self.conversation.take(data)
            self._wake()
        except (ProtocolError, TooManyConnections) as fault:
            self._lose(fault)

    def eof_received(self) -> None:
        self._lose(self.conversation.ended())

    def connection_lost(self, fault: Optional[Exception]) -> None:
        if isinstance(fault, OSError) and self.transport is not None:
            # what came before it broke isn't read by the transport any more
            with contextlib.suppress(OSError, ProtocolError), self.transport.get_extra_info("socket").dup() as rest:
                rest.setblocking(False)
                self.conversation.take(rest.recv(1 << 16))
        self._lose(fault or self.conversation.ended())

    def _lose(self, fault: BaseException) -> None:
        """The connection is over. Where somebody waits it is told there, else at the next call."""
        if self._fault is None:
            self._fault = fault
            if not self.conversation.waiting:
                self.conversation.end("the site ended it" if isinstance(fault, OSError) else str(fault))
        self._wake()

    def _wake(self) -> None:
        if self._news is not None and not self._news.done():
            self._news.set_result(None)

    async def wait(self, seconds: Optional[float]) -> None:
        """Waits until something comes. Raises what ended the connection."""
        if self._fault is None:
            self._news = asyncio.get_event_loop().create_future()
            await asyncio.wait_for(self._news, seconds)
        if self._fault is not None:
            raise self._fault


class Site:
    """A connection to a site. What each call does stands at the call of the same name of `tardis.Site`.

    Several tasks may use it: their calls take turns, and the block of a `transaction()`, a `merge()` and a `retry()` is one turn.
    Where a call is cancelled in the midst of a request, the connection is closed."""

    def __init__(self, core: Core, link: _Link, transport: asyncio.Transport, timeout: Optional[float], address: str) -> None:
        self._core = core
        self._address = address
        self._link = link
        self._transport = transport
        self._timeout = timeout
        # who holds a turn may run one transaction, or one call; who holds the wire exchanges
        self._turn = _Turn()
        self._wire = asyncio.Lock()
        #: the transaction that `transaction` or `retry` ran last
        self.last: Optional[Transaction] = None

    # exchanges

    async def _run(self, steps: Steps[T]) -> T:
        """Runs the steps of a call, in its turn."""
        async with self._turn:
            return await self._run_within(steps)

    async def _run_within(self, steps: Steps[T]) -> T:
        """Runs the steps of a call within the turn that is held, from whatever task."""
        async with self._wire:
            while True:
                try:
                    answers = next(steps)
                except StopIteration as end:
                    given: T = end.value
                    return given
                if isinstance(answers, Aside):
                    await self._exchange_aside(answers)
                else:
                    await self._exchange(answers)

    async def _exchange_aside(self, answers: Sequence[Answer[Any]]) -> None:
        """Exchanges these over another connection. Where that can't be had, each says so."""
        try:
            async with await connect(self._address, min(ASIDE, self._timeout or ASIDE)) as other:
                await other._exchange(answers)
        except (OSError, ProtocolError) as fault:
            for answer in answers:
                answer.error = answer.error or fault

    async def _exchange(self, answers: Sequence[Answer[Any]]) -> None:
        """Sends all of these, and reads until each is answered. The transport goes on sending while this end reads."""
        conversation = self._core.conversation
        conversation.check(answers)
        try:
            self._transport.write(conversation.ask(answers))
            end = None if self._timeout is None else time.monotonic() + self._timeout
            while conversation.waiting:
                waiting = conversation.waiting
                rest = None if end is None else max(0.0, end - time.monotonic())
                await self._link.wait(rest)
                if self._timeout is not None and conversation.waiting < waiting:
                    end = time.monotonic() + self._timeout
            if conversation.may_be_turned_away is not None:
                # a server that has no place for the connection ends it behind its reply; one that has no session for
                # it doesn't
                with contextlib.suppress(asyncio.TimeoutError):
                    await self._link.wait(END)
        except BaseException as fault:
            self._break_off(fault, answers)

    def _break_off(self, fault: BaseException, answers: Sequence[Answer[Any]]) -> None:
        """Closes the connection, and raises what happened under its name."""
        conversation = self._core.conversation
        if isinstance(fault, (asyncio.TimeoutError, TimeoutError)):
            fault = TimeoutError(f"no reply came for {self._timeout} seconds; the connection is closed, so connect anew")
        elif isinstance(fault, OSError) and not isinstance(fault, Disconnected):
            fault = conversation.turned_away or conversation.may_be_turned_away or Disconnected(
                f"the connection broke ({fault}); connect anew")
        conversation.break_off(fault, answers)
        self._transport.abort()
        raise fault from None

    async def ask(self, body: bytes) -> Reply:
        return await self._run(ask(requests.raw(body)))

    async def ask_all(self, bodies: Sequence[bytes]) -> List[Reply]:
        return [answer.result() for answer in await self._run(ask_all([requests.raw(body) for body in bodies]))]

    @contextlib.asynccontextmanager
    async def pipeline(self) -> AsyncIterator[Pipeline]:
        """Gathers what is asked in the block (without `await`), and sends it as one at its end."""
        self._core.conversation.check()
        pipeline = Pipeline(self._core)
        yield pipeline
        if pipeline.answers:
            async with self._turn:
                async with self._wire:
                    await self._exchange(pipeline.answers)
                if ended_full(pipeline.answers):
                    await self._run(self._core.go_below())

    # sessions

    async def open(self, follow: bool = True) -> StateId:
        return await self._run(ask(requests.open_session(follow)))

    async def close(self) -> None:
        await self._run(ask(requests.close()))

    async def ceiling(self, state: At) -> None:
        await self._run(self._core.set_ceiling(state))

    # transactions

    async def begin(self, at: At = "ancestor") -> StateId:
        return await self._run(ask(requests.begin(at)))

    async def get(self, key: Bytes) -> Read:
        return await self._run(ask(requests.get(key)))

    async def value(self, key: Bytes, default: Optional[bytes] = None) -> Optional[bytes]:
        read = await self.get(key)
        return read.value if isinstance(read, Value) else default

    async def put(self, key: Bytes, value: Bytes) -> None:
        await self._run(ask(requests.put(key, value)))

    async def delete(self, key: Bytes) -> None:
        await self._run(ask(requests.delete(key)))

    async def commit(self, serializable: Optional[bool] = None, snapshot: Optional[bool] = None, no_branch: bool = False,
                     branches: Optional[int] = None) -> Union[Committed, Ended]:
        return await self._run(self._core.commit(serializable, snapshot, no_branch, branches))

    async def abort(self) -> None:
        await self._run(ask(requests.abort()))

    @contextlib.asynccontextmanager
    async def transaction(self, at: At = "ancestor", serializable: Optional[bool] = None, snapshot: Optional[bool] = None,
                          no_branch: bool = False, branches: Optional[int] = None) -> AsyncIterator[Transaction]:
        self._core.committing(serializable, snapshot, no_branch, branches)
        async with self._turn:
            txn = Transaction(self, await self.begin(at))
            self.last = txn
            try:
                yield txn
                txn._finished = await self._run(self._core.finish(serializable, snapshot, no_branch, branches))
            except BaseException:
                if not self._core.conversation.is_over:
                    with contextlib.suppress(Disconnected, TimeoutError):
                        await self._run(self._core.give_up())
                raise
            finally:
                txn._is_over = True

    async def retry(self, block: Callable[[Transaction], Awaitable[T]], attempts: int = 16, at: At = "ancestor",
                    serializable: Optional[bool] = None, snapshot: Optional[bool] = None, no_branch: bool = True,
                    branches: Optional[int] = None) -> T:
        number("attempts", attempts, 1, 1_000_000)
        while True:
            attempts -= 1
            try:
                async with self.transaction(at, serializable, snapshot, no_branch and branches is None, branches) as txn:
                    given = await block(txn)
                return given
            except Branches:
                if attempts == 0:
                    raise

    # merges

    async def merge(self, resolve: Resolve, states: Optional[Sequence[At]] = None) -> Optional[Merged]:
        """As `tardis.Site.merge`; `resolve` is a plain function here too."""
        return await self._run(merge(self._core, resolve, states))

    async def compare(self, one: At, other: At) -> Comparison:
        return await self._run(compare(self._core, one, other))

    async def begin_merge(self, states: Sequence[At] = ()) -> Tuple[StateId, ...]:
        return await self._run(ask(requests.begin_merge(states)))

    async def fork_points(self) -> States:
        return await self._run(ask(requests.fork_points()))

    async def conflicts(self, after: Bytes = b"") -> Keys:
        return await self._run(ask(requests.conflicts(after)))

    async def all_conflicts(self) -> List[bytes]:
        return await self._run(self._core.conflicts_after(b""))

    async def get_for(self, key: Bytes, state: At) -> Read:
        return await self._run(ask(requests.get_for(key, state)))

    # the site

    async def leaves(self) -> States:
        return await self._run(ask(requests.leaves()))

    async def stat(self) -> Stat:
        return await self._run(ask(requests.stat()))

    async def show(self, state: At) -> Shown:
        return await self._run(ask(requests.show(state)))

    async def raise_floor(self, state: Optional[At] = None) -> Raised:
        return await self._run(ask(requests.raise_floor(state)))

    async def tidy(self, count: int = 65535) -> int:
        return await self._run(ask(requests.tidy(count)))

    # questions

    async def get_at(self, key: Bytes, state: At) -> Read:
        return await self._run(ask(questions.at(key, state)))

    async def value_at(self, key: Bytes, state: At, default: Optional[bytes] = None) -> Optional[bytes]:
        read = await self.get_at(key, state)
        return read.value if isinstance(read, Value) else default

    async def scan(self, state: At, prefix: Bytes = b"", after: Bytes = b"") -> AsyncIterator[Tuple[bytes, bytes]]:
        behind: Optional[bytes] = prefix_bytes(after)
        while behind is not None:
            page = await self._run(ask(questions.scan(state, prefix, behind)))
            for entry in page.first:
                yield entry
            behind = last_entry(page)

    async def record(self, state: At) -> Recorded:
        return await self._run(ask(questions.record(state)))

    async def base(self, key: Bytes, states: Sequence[At]) -> Dict[StateId, Read]:
        return await self._run(ask(questions.base(key, states)))

    async def walk(self, state: Optional[At] = None) -> AsyncIterator[State]:
        walk = await self._run(self._core.walk(state))
        found = await self._run(walk.next())
        while found is not None:
            yield found
            found = await self._run(walk.next())

    async def sessions(self) -> Sessions:
        return await self._run(all_sessions())

    async def about(self) -> About:
        return await self._run(ask(questions.about()))

    # the history

    async def history(self, state: Optional[At] = None) -> History:
        return await self._run(self._core.history(state))

    async def items(self, state: At, prefix: Bytes = b"") -> Items:
        return await self._run(self._core.items(state, prefix))

    async def keys(self, state: At, prefix: Bytes = b"") -> Tuple[bytes, ...]:
        return await self._run(self._core.keys(state, prefix))

    async def diff(self, one: At, other: At) -> Tuple[Difference, ...]:
        return await self._run(self._core.diff(one, other))

    async def watch(self, every: float = 0.5) -> AsyncIterator[State]:
        pause = parse_timeout(every) or 0.5
        seen, states = await self._run(self._core.news(None))
        while True:
            for state in states:
                yield state
            await asyncio.sleep(pause)
            seen, states = await self._run(self._core.news(seen))

    # other sites

    async def pull(self, counts: Sequence[int]) -> Batch:
        return await self._run(ask(requests.pull(counts)))

    async def deliver(self, item: bytes) -> Delivered:
        return await self._run(ask(requests.deliver(item)))

    async def settle(self) -> Union[Applied, Done]:
        return await self._run(ask(requests.settle()))

    # the connection

    @property
    def is_connected(self) -> bool:
        return not self._core.conversation.is_over

    async def disconnect(self) -> None:
        """Ends the connection; the site closes the session."""
        self._core.conversation.end("disconnect() was called")
        self._transport.close()
        # the transport is closed in the loop's next turn
        await asyncio.sleep(0)

    async def __aenter__(self) -> "Site":
        return self

    async def __aexit__(self, *raised: object) -> None:
        await self.disconnect()


async def connect(address: str, timeout: Optional[float] = None) -> Site:
    """Connects to a site that listens at `unix:PATH` or `HOST:PORT`, as `tardis.connect`."""
    place, seconds = parse_address(address), parse_timeout(timeout)
    loop, core = asyncio.get_event_loop(), Core()

    def link() -> _Link:
        return _Link(core.conversation)

    opening: Awaitable[Tuple[asyncio.BaseTransport, _Link]] = (
        loop.create_unix_connection(link, place) if isinstance(place, str) else loop.create_connection(link, place[0], place[1]))
    try:
        transport, made = await asyncio.wait_for(opening, seconds)
    except asyncio.TimeoutError:
        raise TimeoutError(f"{address} wasn't reached within {seconds} seconds") from None
    except OSError as fault:
        raise not_reached(address, fault) from None
    assert isinstance(transport, asyncio.Transport)
    stream = transport.get_extra_info("socket")
    if stream is not None and not isinstance(place, str):
        stream.setsockopt(socket.IPPROTO_TCP, socket.TCP_NODELAY, 1)
    return Site(core, made, transport, seconds, address)
