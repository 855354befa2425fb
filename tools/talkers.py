"""Clients that ask a server many things at once, and what they were told: for the tests that kill it."""

import select
import socket
import time
from collections import deque

from servers import PATIENCE
from tardis import replies, requests

#: keys that all clients read and write
SHARED = [b"k%d" % place for place in range(12)]
#: so many requests are asked ahead where replies aren't waited for
AHEAD = 200
PIECE = 1 << 16


class Told:
    """What clients asked to be written, and all that they were told of states."""

    def __init__(self):
        #: by its tag, which it writes itself: what a transaction asked to be written
        self.asked = {}
        #: by its id: the parents that a commit was told, and its tag
        self.committed = {}
        #: ids of states that were told to anybody
        self.states = set()
        #: what was read: who wrote it, the key, and the value
        self.reads = set()
        self.raised, self.collected, self.replies = [], 0, 0

    def note(self, request, reply):
        """Sees each reply, with its request."""
        self.replies += 1
        if isinstance(reply, (replies.Value, replies.Deleted)):
            if reply.writer != (0, 0):
                self.states.add(reply.writer)
                key = request.body[2:2 + request.body[1]]
                self.reads.add((reply.writer, key, getattr(reply, "value", None)))
        elif isinstance(reply, (replies.Begun, replies.Ended)):
            self.states.add(reply.state)
        elif isinstance(reply, replies.Committed):
            self.states.update(reply.parents, [reply.id])
        elif isinstance(reply, replies.Merging):
            self.states.update(reply.states)
        elif isinstance(reply, replies.States):
            self.states.update(reply.first)
        elif isinstance(reply, replies.Raised):
            self.raised.append((reply.floor, reply.number))
        elif isinstance(reply, replies.Tidied):
            self.collected += reply.collected


class Talker:
    """A connection that asks what a talk yields. By turns the talk is sent each reply; else it gets none, and is asked for as many
    requests ahead as there is room for."""

    def __init__(self, address, talk, told, by_turns=True):
        self.told, self.talk, self.by_turns = told, talk, by_turns
        self.socket = connected(address)
        self.socket.setblocking(False)
        self.waiting, self.to_send, self.held = deque(), bytearray(), bytearray()
        self.is_over = False
        self.go_on(None)

    def go_on(self, reply):
        """Takes the next requests of the talk."""
        try:
            while not self.is_over and len(self.waiting) < (1 if self.by_turns else AHEAD):
                request = self.talk.send(reply)
                reply = None
                self.waiting.append(request)
                self.to_send += requests.frame(request.body)
        except StopIteration:
            self.is_over = True

    @property
    def is_done(self):
        return self.is_over and not self.waiting

    def send(self):
        sent = self.socket.send(memoryview(self.to_send)[:PIECE])
        del self.to_send[:sent]

    def receive(self):
        """Takes what came. Says whether the server still lives."""
        more = self.socket.recv(PIECE)
        self.held += more
        place = 0
        while len(self.held) - place >= 4:
            length = int.from_bytes(self.held[place:place + 4], "big")
            if len(self.held) - place - 4 < length:
                break
            reply = replies.read_reply(bytes(self.held[place + 4:place + 4 + length]))
            place += 4 + length
            self.told.note(self.waiting[0], reply)
            request = self.waiting.popleft()
            if isinstance(reply, replies.Committed):
                self.told.committed[reply.id] = (reply.parents, request.tag)
            self.go_on(reply)
        del self.held[:place]
        return bool(more)


def connected(address):
    """A socket that is connected to the address."""
    if address.startswith("unix:"):
        made = socket.socket(socket.AF_UNIX)
        made.settimeout(PATIENCE)
        made.connect(address[len("unix:"):])
    else:
        host, port = address.rsplit(":", 1)
        made = socket.create_connection((host, int(port)), PATIENCE)
    return made


def let_talk(talkers, until=lambda: False):
    """Lets all talk until all are done, or the server has gone, or it is time. Says whether the server still answers."""
    end = time.monotonic() + PATIENCE
    lives = True
    while lives and not until() and not all(talker.is_done for talker in talkers):
        assert time.monotonic() < end, "no reply comes"
        by_socket = {talker.socket: talker for talker in talkers if not talker.is_done}
        readable, writable, _ = select.select(list(by_socket), [it for it in by_socket if by_socket[it].to_send], [], 0.001)
        for it in writable:
            lives = _survives(by_socket[it].send) and lives
        if readable:
            end = time.monotonic() + PATIENCE
        for it in readable:
            lives = _survives(by_socket[it].receive) and lives
    return lives


def take_rest(talkers):
    """Takes what a server that is gone had sent before."""
    for talker in talkers:
        talker.socket.settimeout(PATIENCE)
        while _survives(talker.receive):
            pass
        talker.socket.close()


def _survives(call):
    try:
        return call() is not False
    except BlockingIOError:
        return True
    except OSError:
        return False


# what is asked

class _Tagged(requests.Request):
    """A commit of a tag's transaction."""

    __slots__ = ("tag",)

    def __init__(self, request, tag):
        super().__init__(request.body, request.read)
        self.tag = tag


def commit_of(told, tag, writes, constraints):
    """A commit of these writes, which are noted under the tag."""
    told.asked[tag] = writes
    return _Tagged(requests.commit(*constraints), tag)


def some_reads(choose):
    return [requests.get(choose.choice(SHARED)) for _ in range(choose.randrange(3))]


def some_writes(choose, own, tag):
    """What a transaction writes: its tag at the client's own key, and perhaps shared keys."""
    writes = {own: tag}
    for _ in range(choose.randrange(3)):
        writes[choose.choice(SHARED)] = choose.choice([None, tag, tag + bytes([0, 245, 246, 247]), tag * choose.randrange(1, 40)])
    return writes


def puts_of(writes):
    return [requests.delete(key) if value is None else requests.put(key, value) for key, value in writes.items()]


def transactions(told, choose, name, count, follow):
    """A session of so many transactions. No reply is looked at, so it may be asked at once."""
    yield requests.open_session(follow)
    for place in range(count):
        tag = b"%s.%d" % (name, place)
        yield requests.begin(choose.choice(["any", "any", "ancestor"]))
        for read in some_reads(choose):
            yield read
        if choose.randrange(10) == 0:
            yield requests.abort()
            continue
        writes = some_writes(choose, b"own." + name[name.rfind(b".") + 1:], tag)
        for put in puts_of(writes):
            yield put
        yield commit_of(told, tag, writes, (choose.random() < 0.5, choose.random() < 0.3, False, None))


def merges(told, name):
    """A session that joins all leaves, eight at a time."""
    yield requests.open_session(False)
    count = 0
    while True:
        leaves = yield requests.leaves()
        if leaves.total < 2:
            yield requests.close()
            return
        yield requests.begin_merge(leaves.first[:8])
        keys = yield requests.conflicts(b"")
        tag = b"%s.m%d" % (name, count)
        writes = {key: tag for key in keys.first}
        writes[b"own.merge"] = tag
        for put in puts_of(writes):
            yield put
        yield commit_of(told, tag, writes, (False, False, False, None))
        count += 1


def collects():
    """The floor goes to the one leaf, and all above it is collected."""
    yield requests.raise_floor(None)
    yield requests.tidy(65535)
