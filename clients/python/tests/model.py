"""A site of one, after `docs/MODEL.md`, that answers frames over a Unix socket: the tests' double of a server, where none is
built. It refuses what sites refuse most often, and holds no limits but those of a transaction and a merge. It answers questions,
unless it is told not to: then they are malformed, as to every server but `tardisd`. It may have listeners for clients and for other
sites beside its own, a bound on its connections, and one on the states that it keeps."""

import itertools
import os
import socket
import struct
import threading
import time

ROOT = (0, 0)
NOT_OPEN, ALREADY_OPEN, TXN_OPEN, NO_TXN, WRONG_MODE, TOO_MANY, UNKNOWN, BELOW, COMPARABLE, NOT_READ, CONFLICT_KEY, OPEN_CONFLICT, BRANCHES, \
    CEILING_BACK, FLOOR_BACK, HELD, COLLECTED, FULL, BAD_SITE = 2, 3, 5, 6, 7, 8, 9, 10, 11, 12, 13, 14, 15, 16, 17, 18, 19, 20, 23


#: what is let in where it listens for clients, and where for other sites (`docs/COMMANDS.md`)
LET_IN = {"all": set(range(256)), "clients": {*range(1, 13), 16, 17, 18, 21, *range(64, 69), 70, 71}, "peers": {16, 19, 67, 70, 71}}


def spelled(id):
    return struct.pack(">HI", *id)


def key_of(key):
    return bytes([len(key)]) + key


def value_of(value):
    return struct.pack(">H", len(value)) + value


class Refusal(Exception):
    def __init__(self, code, fields=b""):
        super().__init__(code)
        self.reply = bytes([21, code]) + fields


class Session:
    def __init__(self, ceiling, follow):
        self.ceiling, self.follow, self.last, self.txn = ceiling, follow, ROOT, None


class Txn:
    def __init__(self, states, is_merge):
        self.states, self.is_merge, self.read, self.writes = states, is_merge, set(), {}


class Fields:
    def __init__(self, data):
        self.data, self.place = data, 0

    def take(self, count):
        taken = self.data[self.place:self.place + count]
        if len(taken) != count:
            raise Refusal(1)
        self.place += count
        return taken

    def number(self, size):
        return int.from_bytes(self.take(size), "big")

    def id(self):
        return (self.number(2), self.number(4))

    def key(self):
        return self.take(self.number(1))


class Model:
    """The site's step."""

    def __init__(self, answers_questions=True, room=None):
        self.answers_questions, self.room = answers_questions, room
        self.parents, self.writes, self.children, self.above, self.arrival = {ROOT: ()}, {ROOT: {}}, {ROOT: []}, {ROOT: frozenset([ROOT])}, {ROOT: 0}
        self.order, self.collected, self.sessions, self.floor, self.number = [ROOT], set(), {}, ROOT, 0

    # the history

    def add(self, parents, writes):
        id = (1, len(self.order))
        self.parents[id], self.writes[id], self.children[id], self.arrival[id] = parents, writes, [], len(self.order)
        self.above[id] = frozenset([id]).union(*[self.above[parent] for parent in parents])
        self.order.append(id)
        for parent in parents:
            self.children[parent].append(id)
        return id

    def is_above(self, one, other):
        return one in self.above[other]

    def writer(self, key, state):
        found = [id for id in self.above[state] if key in self.writes[id]]
        return max(found, key=self.arrival.__getitem__) if found else None

    def read(self, key, state):
        writer = self.writer(key, state)
        if writer is None:
            return b"\x06"
        value = self.writes[writer][key]
        return b"\x05" + spelled(writer) if value is None else b"\x04" + spelled(writer) + value_of(value)

    def conflict_keys(self, states):
        found = []
        for key in sorted({key for state in states for id in self.above[state] for key in self.writes[id]}):
            writers = {self.writer(key, state) for state in states} - {None}
            if writers and not any(all(self.is_above(other, one) for other in writers) for one in writers):
                found.append(key)
        return found

    def leaves(self):
        return [id for id in self.order if not self.children[id]]

    def shared(self, states):
        common = frozenset.intersection(*[self.above[state] for state in states])
        return [id for id in self.order if id in common and not common.intersection(self.children[id])]

    def landing(self, state, guarded):
        while True:
            for child in self.children[state]:
                news = self.above[child] - self.above[state]
                if not any(guarded & set(self.writes[id]) for id in news):
                    state = child
                    break
            else:
                return state

    # requests

    def answer(self, actor, body, role="all"):
        try:
            fields = Fields(body)
            code = fields.number(1)
            if code not in LET_IN[role]:
                raise Refusal(27, bytes([code]))
            made = getattr(self, "do_%d" % code, None)
            if made is None or code >= 64 and not self.answers_questions:
                raise Refusal(1)
            reply = made(actor, fields)
            return reply
        except Refusal as refusal:
            return refusal.reply

    def session(self, actor):
        if actor not in self.sessions:
            raise Refusal(NOT_OPEN)
        return self.sessions[actor]

    def txn(self, actor, is_merge=None):
        txn = self.session(actor).txn
        if txn is None:
            raise Refusal(NO_TXN)
        if is_merge and not txn.is_merge:
            raise Refusal(WRONG_MODE)
        return txn

    def free(self, actor):
        session = self.session(actor)
        if session.txn is not None:
            raise Refusal(TXN_OPEN)
        return session

    def admitted(self, session, state):
        if state not in self.parents:
            raise Refusal(UNKNOWN, spelled(state))
        if state != session.ceiling and self.is_above(state, session.ceiling):
            raise Refusal(BELOW, spelled(state) + spelled(session.ceiling))
        return state

    def do_1(self, actor, fields):
        follow = fields.number(1)
        if actor in self.sessions:
            raise Refusal(ALREADY_OPEN)
        self.sessions[actor] = Session(self.floor, follow)
        return b"\x01" + spelled(self.floor)

    def do_2(self, actor, fields):
        kind = fields.number(1)
        session = self.free(actor)
        if kind == 3:
            state = fields.id()
        else:
            below = {0: [self.order[-1]], 1: [id for id in self.order if self.is_above(session.last, id)], 2: [session.last]}[kind]
            state = below[-1]
        session.txn = Txn([self.admitted(session, state)], False)
        return b"\x02" + spelled(state)

    def do_3(self, actor, fields):
        key, txn = fields.key(), self.txn(actor)
        if key in txn.writes:
            value = txn.writes[key]
            return b"\x05" + spelled(ROOT) if value is None else b"\x04" + spelled(ROOT) + value_of(value)
        if txn.is_merge:
            if key in self.conflict_keys(txn.states):
                raise Refusal(CONFLICT_KEY, key_of(key))
            writers = [writer for writer in (self.writer(key, state) for state in txn.states) if writer]
            lowest = [state for state in writers if all(self.is_above(other, state) for other in writers)]
            return self.read(key, lowest[0]) if lowest else b"\x06"
        if key not in txn.read and len(txn.read) == 256:
            raise Refusal(TOO_MANY, b"\x02" + struct.pack(">I", 257))
        txn.read.add(key)
        return self.read(key, txn.states[0])

    def write(self, actor, key, value):
        txn = self.txn(actor)
        if key not in txn.writes and len(txn.writes) == 64:
            raise Refusal(TOO_MANY, b"\x01" + struct.pack(">I", 65))
        txn.writes[key] = value
        return b"\x07"

    def do_4(self, actor, fields):
        key = fields.key()
        return self.write(actor, key, fields.take(fields.number(2)))

    def do_5(self, actor, fields):
        return self.write(actor, fields.key(), None)

    def do_6(self, actor, fields):
        flags, most = fields.number(1), fields.number(2)
        session, txn = self.session(actor), self.txn(actor)
        if txn.is_merge:
            if flags:
                raise Refusal(WRONG_MODE)
            for key in self.conflict_keys(txn.states):
                if key not in txn.writes:
                    raise Refusal(OPEN_CONFLICT, key_of(key))
            parents = tuple(sorted(txn.states))
        else:
            guarded = (txn.read if flags & 1 else set()) | (set(txn.writes) if flags & 2 else set())
            landing = self.landing(txn.states[0], guarded)
            if not txn.writes:
                session.txn = None
                return b"\x09" + spelled(landing)
            here = len(self.children[landing])
            for bit, allowed in (4, 1), (8, most):
                if flags & bit and here >= allowed:
                    raise Refusal(BRANCHES, bytes([bit]) + spelled(landing) + struct.pack(">I", here))
            parents = (landing,)
        kept = len(self.order) - len(self.collected)
        if self.room is not None and kept >= self.room:
            raise Refusal(FULL, struct.pack(">I", kept))
        id = self.add(parents, txn.writes)
        session.txn, session.last = None, id
        if session.follow and self.is_above(session.ceiling, id):
            session.ceiling = id
        return b"\x08" + spelled(id) + bytes([len(parents)]) + b"".join(map(spelled, parents))

    def do_7(self, actor, fields):
        self.txn(actor)
        self.session(actor).txn = None
        return b"\x07"

    def do_8(self, actor, fields):
        states = [fields.id() for _ in range(fields.number(1))]
        session = self.free(actor)
        states = states or self.leaves()
        if len(states) > 8:
            raise Refusal(TOO_MANY, b"\x03" + struct.pack(">I", len(states)))
        states = [self.admitted(session, state) for state in sorted(states)]
        for one, other in itertools.combinations(states, 2):
            if self.is_above(one, other) or self.is_above(other, one):
                raise Refusal(COMPARABLE, spelled(one) + spelled(other))
        session.txn = Txn(states, True)
        return b"\x03" + bytes([len(states)]) + b"".join(map(spelled, states))

    def ids(self, states):
        first = states[:256]
        return b"\x0a" + struct.pack(">IH", len(states), len(first)) + b"".join(map(spelled, first))

    def do_9(self, actor, fields):
        return self.ids(self.shared(self.txn(actor, True).states))

    def do_10(self, actor, fields):
        after = fields.key()
        keys = [key for key in self.conflict_keys(self.txn(actor, True).states) if key > after]
        return b"\x0b" + struct.pack(">IH", len(keys), len(keys[:256])) + b"".join(map(key_of, keys[:256]))

    def do_11(self, actor, fields):
        key, state = fields.key(), fields.id()
        if state not in self.txn(actor, True).states:
            raise Refusal(NOT_READ, spelled(state))
        return self.read(key, state)

    def do_12(self, actor, fields):
        state, session = fields.id(), self.free(actor)
        if state not in self.parents:
            raise Refusal(UNKNOWN, spelled(state))
        if not self.is_above(session.ceiling, state):
            raise Refusal(CEILING_BACK, spelled(session.ceiling))
        session.ceiling = state
        return b"\x07"

    def raise_to(self, state):
        self.floor, self.number = state, self.number + 1
        return b"\x0c" + spelled(state) + struct.pack(">I", self.number)

    def do_13(self, actor, fields):
        state = fields.id()
        if state not in self.parents:
            raise Refusal(UNKNOWN, spelled(state))
        if not self.is_above(self.floor, state):
            raise Refusal(FLOOR_BACK, spelled(self.floor))
        for number, session in sorted(self.sessions.items()):
            if not self.is_above(state, session.ceiling):
                raise Refusal(HELD, struct.pack(">H", number) + spelled(session.ceiling))
        return self.raise_to(state)

    def next_floor(self):
        return [id for id in self.order if self.is_above(self.floor, id) and all(
            self.is_above(id, session.ceiling) for session in self.sessions.values())][-1]

    def do_14(self, actor, fields):
        return self.raise_to(self.next_floor())

    def stand_in(self, id):
        while id in self.collected:
            id = self.children[id][0]
        return id

    def do_15(self, actor, fields):
        most, gone = fields.number(2), 0
        for id in reversed(self.order):
            closed = id != self.floor and self.is_above(id, self.floor)
            if gone < most and closed and id not in self.collected and len({self.stand_in(child) for child in self.children[id]}) == 1:
                self.collected.add(id)
                gone += 1
        return b"\x0d" + struct.pack(">I", gone)

    def do_16(self, actor, fields):
        return b"\x0e" + struct.pack(">QIIHB", len(self.order), len(self.order) - len(self.collected), len(self.leaves()), len(self.sessions), 1) \
            + struct.pack(">I", len(self.order) - 1) + spelled(self.floor) + struct.pack(">I", self.number)

    def do_17(self, actor, fields):
        state = fields.id()
        if state not in self.parents:
            raise Refusal(UNKNOWN, spelled(state))
        if state in self.collected:
            raise Refusal(COLLECTED, spelled(state))
        path = [(id, place) for id in sorted(self.parents) if id not in self.collected and len(self.children[id]) > 1
                for place, child in enumerate(self.children[id]) if self.is_above(child, state)]
        children = self.children[state]
        return b"\x0f" + struct.pack(">QI", self.arrival[state], len(children)) + b"".join(map(spelled, children)) \
            + struct.pack(">I", len(path)) + b"".join(spelled(id) + struct.pack(">I", place) for id, place in path)

    def do_18(self, actor, fields):
        return self.ids(self.leaves())

    def do_19(self, actor, fields):
        counts = [fields.number(4) for _ in range(fields.number(1))]
        if len(counts) != 1:
            raise Refusal(BAD_SITE, struct.pack(">H", len(counts)))
        told = [id for id in self.order[1:] if id[1] > counts[0] and not self.is_above(id, self.floor)]
        records = b""
        for count, id in enumerate(told):
            writes = sorted(self.writes[id].items())
            record = spelled(id) + bytes([len(self.parents[id])]) + b"".join(map(spelled, self.parents[id])) + bytes([len(writes)]) + b"".join(
                key_of(key) + (b"\x00" if value is None else b"\x01" + value_of(value)) for key, value in writes)
            if len(records) + len(record) > 786_432:
                told = told[:count]
                break
            records += record
        consent = struct.pack(">HI", 1, self.number) + spelled(self.floor) + struct.pack(">I", len(self.order) - 1)
        return b"\x10" + struct.pack(">H", len(told)) + records + (b"\x01" + consent if self.number else b"\x00")

    def do_21(self, actor, fields):
        self.session(actor)
        del self.sessions[actor]
        return b"\x14"

    def do_22(self, actor, fields):
        return b"\x07"

    # questions

    def kept(self, *states):
        for code, is_so in (UNKNOWN, lambda state: state not in self.parents), (COLLECTED, lambda state: state in self.collected):
            for state in states:
                if is_so(state):
                    raise Refusal(code, spelled(state))

    def found(self, key, state):
        writer = self.writer(key, state)
        if writer is None:
            return b"\x00"
        value = self.writes[writer][key]
        return b"\x01" + spelled(writer) + (b"\x00" if value is None else b"\x01" + value_of(value))

    def do_64(self, actor, fields):
        state, key = fields.id(), fields.key()
        self.kept(state)
        return b"\x40" + self.found(key, state)

    def contents(self, fields):
        """The keys that a page is asked of, with their values."""
        state, prefix, after = fields.id(), fields.key(), fields.key()
        self.kept(state)
        read = {key: self.writes[self.writer(key, state)][key] for id in self.above[state] for key in self.writes[id]}
        return sorted((key, value) for key, value in read.items() if value is not None and key.startswith(prefix) and key > after)

    def do_65(self, actor, fields):
        keys = [key for key, _ in self.contents(fields)]
        return b"\x41" + struct.pack(">IH", len(keys), len(keys[:256])) + b"".join(map(key_of, keys[:256]))

    def do_66(self, actor, fields):
        entries = [key_of(key) + value_of(value) for key, value in self.contents(fields)]
        page, room = entries[:1], 65_536 - sum(map(len, entries[:1]))
        for entry in entries[1:]:
            room -= len(entry)
            if room < 0:
                break
            page.append(entry)
        return b"\x42" + struct.pack(">IH", len(entries), len(page)) + b"".join(page)

    def do_67(self, actor, fields):
        state = fields.id()
        self.kept(state)
        parents, children = sorted(self.parents[state]), self.children[state]
        kept = [[id for id in ids if id not in self.collected] for ids in (parents, children)]
        keys = sorted(self.writes[state])
        return b"\x43" + struct.pack(">QB", self.arrival[state], len(parents)) + b"".join(map(spelled, parents)) \
            + bytes([len(kept[0])]) + b"".join(map(spelled, kept[0])) + struct.pack(">I", len(kept[1])) + b"".join(map(spelled, kept[1])) \
            + bytes([len(keys)]) + b"".join(map(key_of, keys))

    def do_68(self, actor, fields):
        states, key = [fields.id() for _ in range(fields.number(1))], fields.key()
        self.kept(*states)
        forks = self.shared(states)
        if len(forks) > 8:
            raise Refusal(TOO_MANY, b"\x04" + struct.pack(">I", len(forks)))
        return b"\x44" + bytes([len(forks)]) + b"".join(spelled(fork) + self.found(key, fork) for fork in forks)

    def do_69(self, actor, fields):
        after, floor = fields.number(2) if fields.number(1) else -1, self.next_floor()
        lines = [struct.pack(">HB", number, session.follow) + spelled(session.ceiling) + spelled(session.last)
                 + (b"\x00" if session.txn is None else bytes([len(session.txn.states)]) + b"".join(map(spelled, session.txn.states)))
                 + bytes([session.ceiling == floor]) for number, session in sorted(self.sessions.items()) if number > after]
        return b"\x45" + spelled(floor) + struct.pack(">IH", len(lines), len(lines[:256])) + b"".join(lines[:256])

    def do_70(self, actor, fields):
        return b"\x46" + struct.pack(">HHIIHQHQI", 1, 1, 16_384, 4_096, 256, 1 << 30, 1, len(self.order), len(self.order) - len(self.collected))


class ModelServer:
    """Serves a model to all that come, a thread each. `also` has further paths, with what is let in there. Who comes when there are as
    many connections as there may be is told so, and sent away."""

    def __init__(self, path, answers_questions=True, also=(), connections=None, turned_away=b"\0\0\0\x06\x15\x1e\0\0", room=None):
        self.model, self.lock, self.actors = Model(answers_questions, room), threading.Lock(), itertools.count(1)
        self.links, self.connections, self.turned_away, self.listeners = [], connections, turned_away, []
        for place, role in [(path, "all"), *dict(also).items()]:
            if os.path.exists(place):
                os.unlink(place)
            listener = socket.socket(socket.AF_UNIX)
            listener.bind(place)
            listener.listen(64)
            self.listeners.append(listener)
            threading.Thread(target=self.accept, args=(listener, role), daemon=True).start()

    def accept(self, listener, role):
        while True:
            try:
                link, _ = listener.accept()
            except OSError:
                return
            if self.connections is not None and len(self.links) >= self.connections:
                with link:
                    # (by then who connected goes on)
                    time.sleep(0.03)
                    link.sendall(self.turned_away + struct.pack(">H", self.connections))
                continue
            self.links.append(link)
            threading.Thread(target=self.serve, args=(link, next(self.actors), role), daemon=True).start()

    def serve(self, link, actor, role):
        held = b""
        try:
            while True:
                more = link.recv(1 << 16)
                if not more:
                    break
                held += more
                replies, place = [], 0
                while len(held) - place >= 4:
                    length = int.from_bytes(held[place:place + 4], "big")
                    if len(held) - place - 4 < length:
                        break
                    with self.lock:
                        reply = self.model.answer(actor, held[place + 4:place + 4 + length], role)
                    replies.append(struct.pack(">I", len(reply)) + reply)
                    place += 4 + length
                held = held[place:]
                link.sendall(b"".join(replies))
        except OSError:
            pass
        with self.lock:
            self.model.sessions.pop(actor, None)
            self.links.remove(link)
        link.close()

    def stop(self):
        """Ends at once, as a server that is killed."""
        for listener in self.listeners:
            listener.close()
        for link in list(self.links):
            try:
                link.shutdown(socket.SHUT_RDWR)
            except OSError:
                pass


if __name__ == "__main__":
    import sys
    ModelServer(sys.argv[1])
    print("tardisd: site 1 of 1 listens at unix:" + sys.argv[1], file=sys.stderr, flush=True)
    time.sleep(float(sys.argv[2]) if sys.argv[2:] else 1e9)
