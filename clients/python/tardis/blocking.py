"""The client that waits: a thin shell of a socket around `core`."""

import contextlib
import select
import selectors
import socket
import threading
import time
from typing import Any, Callable, Dict, Iterator, List, Optional, Sequence, Tuple, TypeVar, Union

from . import questions, requests
from .addresses import not_reached, parse_address, parse_timeout
from .conversation import Answer
from .core import Core, Finished, ended_full
from .histories import Difference, History, Items, State
from .ids import Bytes, StateId, number, prefix_bytes
from .looking import all_sessions, last_entry
from .merging import Comparison, Merged, compare, merge
from .pipelines import Pipeline
from .refusals import Branches, Disconnected, NoTxn, ProtocolError, TooManyConnections
from .replies import (
    About, Applied, Batch, Committed, Done, Ended, Keys, Raised, Read, Recorded, Reply, Sessions, Shown, Stat, States, Value)
from .requests import At, Delivered, Request
from .resolvers import Resolve
from .steps import Aside, Steps, ask, ask_all

__all__ = ["Site", "Transaction", "connect"]

T = TypeVar("T")

#: up to so many bytes are sent before any reply is read; of more, replies are read while the rest is sent
AT_ONCE = 16_384
PIECE = 1 << 18
#: a second connection is waited for at most so many seconds
ASIDE = 5.0
#: so long a server takes at most to end a connection that it turned away, in seconds
END = 0.2


class Transaction:
    """What is read and written between a begin and a commit."""

    def __init__(self, site: "Site", begun: StateId) -> None:
        self.site = site
        self.begun = begun
        self._finished = Finished(None, (), False, ())
        self._is_over = False

    def _ask(self, request: Request[T]) -> T:
        """Asks within this transaction, from whatever thread."""
        if self._is_over:
            raise NoTxn()
        return self.site._run_within(ask(request))

    @property
    def committed(self) -> Optional[StateId]:
        """The state that the commit made, once it has. None where nothing was written."""
        return self._finished.committed

    @property
    def parents(self) -> Tuple[StateId, ...]:
        """The states below which it stands."""
        return self._finished.parents

    @property
    def forked(self) -> bool:
        """Whether the commit made a fork: there was another child already, which didn't go with what this one read or wrote."""
        return self._finished.forked

    @property
    def beside(self) -> Tuple[StateId, ...]:
        """The other leaves that there were when it committed, the first 256."""
        return self._finished.beside

    def get(self, key: Bytes) -> Read:
        return self._ask(requests.get(key))

    def value(self, key: Bytes, default: Optional[bytes] = None) -> Optional[bytes]:
        """The bytes that are read, or the default where there are none."""
        read = self.get(key)
        return read.value if isinstance(read, Value) else default

    def put(self, key: Bytes, value: Bytes) -> None:
        self._ask(requests.put(key, value))

    def delete(self, key: Bytes) -> None:
        self._ask(requests.delete(key))


class Site:
    """A connection to a site. Each call asks and waits for what it gives.

    Several threads may use it: their calls take turns, and the block of a `transaction()`, a `merge()` and a `retry()` is one
    turn. Once anything went wrong in the midst of a request the connection is closed, and each call says so."""

    def __init__(self, stream: socket.socket, timeout: Optional[float] = None, address: Optional[str] = None) -> None:
        self._stream = stream
        self._address = address
        self._timeout = parse_timeout(timeout)
        self._core = Core()
        self._poll = select.poll() if hasattr(select, "poll") else None
        if self._poll is not None:
            self._poll.register(stream, select.POLLIN)
        # who holds a turn may run one transaction, or one call; who holds the wire exchanges
        self._turn = threading.RLock()
        self._wire = threading.RLock()
        #: the transaction that `transaction` or `retry` ran last
        self.last: Optional[Transaction] = None

    # exchanges

    def _run(self, steps: Steps[T]) -> T:
        """Runs the steps of a call, in its turn."""
        with self._turn:
            return self._run_within(steps)

    def _run_within(self, steps: Steps[T]) -> T:
        """Runs the steps of a call within the turn that is held, from whatever thread."""
        with self._wire:
            while True:
                try:
                    answers = next(steps)
                except StopIteration as end:
                    given: T = end.value
                    return given
                if isinstance(answers, Aside):
                    self._exchange_aside(answers)
                else:
                    self._exchange(answers)

    def _exchange_aside(self, answers: Sequence[Answer[Any]]) -> None:
        """Exchanges these over another connection. Where that can't be had, each says so."""
        try:
            if self._address is None:
                raise Disconnected("the address of the site isn't known here")
            with connect(self._address, min(ASIDE, self._timeout or ASIDE)) as other:
                other._exchange(answers)
        except (OSError, ProtocolError) as fault:
            for answer in answers:
                answer.error = answer.error or fault

    def _exchange(self, answers: Sequence[Answer[Any]]) -> None:
        """Sends all of these, and reads until each is answered."""
        conversation = self._core.conversation
        conversation.check(answers)
        try:
            self._check_quiet()
            data = conversation.ask(answers)
            if len(data) <= AT_ONCE:
                self._stream.settimeout(self._timeout)
                self._stream.sendall(data)
                self._read_all()
            else:
                self._read_while_writing(data)
            if conversation.may_be_turned_away is not None:
                self._wait_for_the_end()
        except BaseException as fault:
            self._break_off(fault, answers)

    def _wait_for_the_end(self) -> None:
        """A server that has no place for the connection ends it behind its reply; one that has no session for it
        doesn't."""
        self._stream.settimeout(END)
        with contextlib.suppress(socket.timeout, TimeoutError):
            self._take(self._stream.recv(PIECE))

    def _last_words(self) -> Optional[TooManyConnections]:
        """Where the server ended the connection: whether it had no place for it, which it says before it ends it."""
        conversation = self._core.conversation
        try:
            self._stream.setblocking(False)
            conversation.take(self._stream.recv(PIECE))
        except (OSError, ProtocolError):
            pass
        return conversation.turned_away or conversation.may_be_turned_away

    def _check_quiet(self) -> None:
        """Nothing has come that nobody asked for, nor has the site ended the connection meanwhile."""
        if self._poll is not None and self._poll.poll(0):
            self._stream.settimeout(self._timeout)
            self._take(self._stream.recv(PIECE))

    def _break_off(self, fault: BaseException, answers: Sequence[Answer[Any]]) -> None:
        """Closes the connection, and raises what happened under its name."""
        conversation = self._core.conversation
        if isinstance(fault, (socket.timeout, TimeoutError)):
            fault = TimeoutError(f"no reply came for {self._timeout} seconds; the connection is closed, so connect anew")
        elif isinstance(fault, OSError) and not isinstance(fault, Disconnected):
            fault = self._last_words() or Disconnected(f"the connection broke ({fault}); connect anew")
        conversation.break_off(fault, answers)
        self._stream.close()
        raise fault from None

    def _read_all(self) -> None:
        conversation = self._core.conversation
        end = None if self._timeout is None else time.monotonic() + self._timeout
        while conversation.waiting:
            if end is not None:
                self._stream.settimeout(max(0.001, end - time.monotonic()))
            waiting = conversation.waiting
            self._take(self._stream.recv(PIECE))
            if end is not None and self._timeout is not None:
                if conversation.waiting < waiting:
                    end = time.monotonic() + self._timeout
                elif time.monotonic() > end:
                    raise TimeoutError

    def _take(self, more: bytes) -> None:
        conversation = self._core.conversation
        if not more:
            raise conversation.ended()
        conversation.take(more)

    def _read_while_writing(self, data: bytes) -> None:
        """Sends and reads as either goes on, so that neither end waits for the other for good."""
        conversation = self._core.conversation
        rest = memoryview(data)
        self._stream.setblocking(False)
        with selectors.DefaultSelector() as selector:
            both = selectors.EVENT_READ | selectors.EVENT_WRITE
            selector.register(self._stream, both)
            while rest:
                ready = selector.select(self._timeout)
                if not ready:
                    raise TimeoutError
                for _, events in ready:
                    if events & selectors.EVENT_READ:
                        with contextlib.suppress(BlockingIOError):
                            self._take(self._stream.recv(PIECE))
                    if events & selectors.EVENT_WRITE:
                        with contextlib.suppress(BlockingIOError):
                            rest = rest[self._stream.send(rest[:PIECE]):]
        self._stream.settimeout(self._timeout)
        self._read_all()

    def ask(self, body: bytes) -> Reply:
        """Sends a request that is spelled by hand, and gives its reply, or raises what was refused."""
        return self._run(ask(requests.raw(body)))

    def ask_all(self, bodies: Sequence[bytes]) -> List[Reply]:
        """Sends requests that are spelled by hand at once, and gives the replies, or raises the first refusal among them."""
        return [answer.result() for answer in self._run(ask_all([requests.raw(body) for body in bodies]))]

    @contextlib.contextmanager
    def pipeline(self) -> Iterator[Pipeline]:
        """Gathers what is asked in the block, and sends it as one at its end. Then each call's `Answer` is there. Nothing is
        sent where the block raises. However much is asked, neither end waits for the other: replies are read meanwhile."""
        self._core.conversation.check()
        pipeline = Pipeline(self._core)
        yield pipeline
        if pipeline.answers:
            with self._turn, self._wire:
                self._exchange(pipeline.answers)
                if ended_full(pipeline.answers):
                    self._run(self._core.go_below())

    # sessions

    def open(self, follow: bool = True) -> StateId:
        """Opens this client's session, and gives its ceiling. A session follows: its ceiling moves along with each
        commit, and with each transaction that only read, so that the site may collect what lies above it. With
        `follow=False` it may read for as long as it is open whatever is kept now, and the site keeps that."""
        return self._run(ask(requests.open_session(follow)))

    def close(self) -> None:
        """Closes the session, and gives up its transaction."""
        self._run(ask(requests.close()))

    def ceiling(self, state: At) -> None:
        """Promises not to begin above this state any more."""
        self._run(self._core.set_ceiling(state))

    # transactions

    def begin(self, at: At = "ancestor") -> StateId:
        """Begins at the last leaf below the own last commit (`ancestor`), at the state that arrived last (`any`), at the own last
        commit itself (`parent`), or at the state that is named."""
        return self._run(ask(requests.begin(at)))

    def get(self, key: Bytes) -> Read:
        """What is read of the key: `Value`, `Deleted` or `Absent`."""
        return self._run(ask(requests.get(key)))

    def value(self, key: Bytes, default: Optional[bytes] = None) -> Optional[bytes]:
        """The bytes that are read, or the default where there are none."""
        read = self.get(key)
        return read.value if isinstance(read, Value) else default

    def put(self, key: Bytes, value: Bytes) -> None:
        self._run(ask(requests.put(key, value)))

    def delete(self, key: Bytes) -> None:
        self._run(ask(requests.delete(key)))

    def commit(self, serializable: Optional[bool] = None, snapshot: Optional[bool] = None, no_branch: bool = False,
               branches: Optional[int] = None) -> Union[Committed, Ended]:
        """Commits. The constraints say what may have happened since it began: `serializable` that nothing it read was written,
        `snapshot` that nothing it wrote was; where they don't hold any more it forks. Both are there unless told otherwise; a
        merge takes none. `no_branch` refuses to be anything but the first child there, `branches` to be more than so many."""
        return self._run(self._core.commit(serializable, snapshot, no_branch, branches))

    def abort(self) -> None:
        self._run(ask(requests.abort()))

    @contextlib.contextmanager
    def transaction(self, at: At = "ancestor", serializable: Optional[bool] = None, snapshot: Optional[bool] = None,
                    no_branch: bool = False, branches: Optional[int] = None) -> Iterator[Transaction]:
        """Begins, hands out the transaction, and commits it at the end of the block with these constraints (`commit`); gives it
        up where the block raises, or the commit is refused."""
        self._core.committing(serializable, snapshot, no_branch, branches)
        with self._turn:
            txn = Transaction(self, self.begin(at))
            self.last = txn
            try:
                yield txn
                txn._finished = self._run(self._core.finish(serializable, snapshot, no_branch, branches))
            except BaseException:
                if not self._core.conversation.is_over:
                    with contextlib.suppress(Disconnected, TimeoutError):
                        self._run(self._core.give_up())
                raise
            finally:
                txn._is_over = True

    def retry(self, block: Callable[[Transaction], T], attempts: int = 16, at: At = "ancestor", serializable: Optional[bool] = None,
              snapshot: Optional[bool] = None, no_branch: bool = True, branches: Optional[int] = None) -> T:
        """Runs `block(txn)` in a transaction that doesn't fork, and gives what it gave. Where its commit is refused (`NoBranch`,
        `Branches`) it runs the block again at the newest state, up to so many times in all, and then raises the refusal."""
        number("attempts", attempts, 1, 1_000_000)
        while True:
            attempts -= 1
            try:
                with self.transaction(at, serializable, snapshot, no_branch and branches is None, branches) as txn:
                    given = block(txn)
                return given
            except Branches:
                if attempts == 0:
                    raise

    # merges

    def merge(self, resolve: Resolve, states: Optional[Sequence[At]] = None) -> Optional[Merged]:
        """Joins these states, or all leaves that there are now, and reports what was joined; None where there is one alone.

        `resolve(key, base, sides)` is asked for each key on which two sides disagree, and gives the value that it shall have,
        or None to delete it: `sides` has the value that each side reads (None where it has none), `base` the value where they
        parted, or `UNKNOWN`. However many leaves and keys there are, they are joined by as many merges as it takes. What
        `resolve` raises ends the merge; the states that were made before stand."""
        return self._run(merge(self._core, resolve, states))

    def compare(self, one: At, other: At) -> Comparison:
        """What a merge of two states would have to settle: where they parted, and each key on which they disagree, with what it
        had there and what each side has. Nothing changes. It takes an open session."""
        return self._run(compare(self._core, one, other))

    def begin_merge(self, states: Sequence[At] = ()) -> Tuple[StateId, ...]:
        """Begins a merge of these states (at most 8), or of all leaves."""
        return self._run(ask(requests.begin_merge(states)))

    def fork_points(self) -> States:
        """Where the states of the merge parted."""
        return self._run(ask(requests.fork_points()))

    def conflicts(self, after: Bytes = b"") -> Keys:
        """The keys on which the states of the merge disagree, behind this one."""
        return self._run(ask(requests.conflicts(after)))

    def all_conflicts(self) -> List[bytes]:
        """All conflict keys, however many there are."""
        return self._run(self._core.conflicts_after(b""))

    def get_for(self, key: Bytes, state: At) -> Read:
        """What is read of the key at one of the merge's states."""
        return self._run(ask(requests.get_for(key, state)))

    # the site

    def leaves(self) -> States:
        return self._run(ask(requests.leaves()))

    def stat(self) -> Stat:
        return self._run(ask(requests.stat()))

    def show(self, state: At) -> Shown:
        return self._run(ask(requests.show(state)))

    def raise_floor(self, state: Optional[At] = None) -> Raised:
        """Moves the site's floor to this state, or as far as all ceilings allow."""
        return self._run(ask(requests.raise_floor(state)))

    def tidy(self, count: int = 65535) -> int:
        """Collects up to so many closed states, and tells how many went."""
        return self._run(ask(requests.tidy(count)))

    # questions: they need no session, and a server that doesn't answer them is told as `Unsupported`

    def get_at(self, key: Bytes, state: At) -> Read:
        """What is read of the key at a state that is kept, wherever the session may read."""
        return self._run(ask(questions.at(key, state)))

    def value_at(self, key: Bytes, state: At, default: Optional[bytes] = None) -> Optional[bytes]:
        """The bytes that are read there, or the default where there are none."""
        read = self.get_at(key, state)
        return read.value if isinstance(read, Value) else default

    def scan(self, state: At, prefix: Bytes = b"", after: Bytes = b"") -> Iterator[Tuple[bytes, bytes]]:
        """Yields the keys that have a value at the state, begin so and stand behind `after`, in order, with their values. A page at
        a time is asked for, of at most 65,536 bytes. Where the state is collected meanwhile it ends with `Collected`."""
        behind: Optional[bytes] = prefix_bytes(after)
        while behind is not None:
            page = self._run(ask(questions.scan(state, prefix, behind)))
            yield from page.first
            behind = last_entry(page)

    def record(self, state: At) -> Recorded:
        """A state's parents, those of them and of its children that are kept, and the keys that it wrote."""
        return self._run(ask(questions.record(state)))

    def base(self, key: Bytes, states: Sequence[At]) -> Dict[StateId, Read]:
        """What is read of the key where these 1 to 8 states parted: by each such state, in order of arrival, of which there may be 8."""
        return self._run(ask(questions.base(key, states)))

    def walk(self, state: Optional[At] = None) -> Iterator[State]:
        """Yields the kept states from this one on upwards, or from the leaves on, the newest first. Each has all its parents, also
        those that were collected; behind such it goes on at the forks above."""
        walk = self._run(self._core.walk(state))
        found = self._run(walk.next())
        while found is not None:
            yield found
            found = self._run(walk.next())

    def sessions(self) -> Sessions:
        """All open sessions, which of them hold the floor, and where that would stand if it were raised now."""
        return self._run(all_sessions())

    def about(self) -> About:
        """The version of the format, the site's limits and its own number, and how many states it knows and keeps."""
        return self._run(ask(questions.about()))

    # the history

    def history(self, state: Optional[At] = None) -> History:
        """All states that the site keeps, with what each wrote; or this one and those above it."""
        return self._run(self._core.history(state))

    def items(self, state: At, prefix: Bytes = b"") -> Items:
        """The keys that have a value at the state and begin so, with their values. Of a server that answers no questions, as far as
        the site tells what was written."""
        return self._run(self._core.items(state, prefix))

    def keys(self, state: At, prefix: Bytes = b"") -> Tuple[bytes, ...]:
        """The keys of `items`, without their values."""
        return self._run(self._core.keys(state, prefix))

    def diff(self, one: At, other: At) -> Tuple[Difference, ...]:
        """The keys that read differently at two states."""
        return self._run(self._core.diff(one, other))

    def watch(self, every: float = 0.5) -> Iterator[State]:
        """Yields each state that comes from now on, looking for news with a pause of so many seconds. Of one that was closed
        before it was looked for, only its name is told. It ends with the connection."""
        pause = parse_timeout(every) or 0.5
        seen, states = self._run(self._core.news(None))
        while True:
            yield from states
            time.sleep(pause)
            seen, states = self._run(self._core.news(seen))

    # other sites

    def pull(self, counts: Sequence[int]) -> Batch:
        """What is news to a site that has so many records of each site."""
        return self._run(ask(requests.pull(counts)))

    def deliver(self, item: bytes) -> Delivered:
        """Hands over an item of another site's batch."""
        return self._run(ask(requests.deliver(item)))

    def settle(self) -> Union[Applied, Done]:
        """Applies a record that came too early and waits, if one can be applied now."""
        return self._run(ask(requests.settle()))

    # the connection

    @property
    def is_connected(self) -> bool:
        """Whether nothing has ended the connection that this end knows of."""
        return not self._core.conversation.is_over

    def disconnect(self) -> None:
        """Ends the connection; the site closes the session. Another thread that waits for a reply is told so."""
        self._core.conversation.end("disconnect() was called")
        # a thread that waits wakes by this, and not by close
        with contextlib.suppress(OSError):
            self._stream.shutdown(socket.SHUT_RDWR)
        self._stream.close()

    def __enter__(self) -> "Site":
        return self

    def __exit__(self, *raised: object) -> None:
        self.disconnect()


def connect(address: str, timeout: Optional[float] = None) -> Site:
    """Connects to a site that listens at `unix:PATH` or `HOST:PORT`. Where a timeout is given, in seconds, no reply is waited
    for longer: `TimeoutError` is raised then, and the connection is closed."""
    place, seconds = parse_address(address), parse_timeout(timeout)
    try:
        return Site(_unix_stream(place, seconds) if isinstance(place, str) else _tcp_stream(place, seconds), seconds, address)
    except socket.timeout:
        raise TimeoutError(f"{address} wasn't reached within {seconds} seconds") from None
    except OSError as fault:
        raise not_reached(address, fault) from None


def _tcp_stream(place: Tuple[str, int], timeout: Optional[float]) -> socket.socket:
    stream = socket.create_connection(place, timeout)
    stream.setsockopt(socket.IPPROTO_TCP, socket.TCP_NODELAY, 1)
    return stream


def _unix_stream(path: str, timeout: Optional[float]) -> socket.socket:
    stream = socket.socket(socket.AF_UNIX, socket.SOCK_STREAM)
    try:
        stream.settimeout(timeout)
        stream.connect(path)
    except BaseException:
        stream.close()
        raise
    return stream
