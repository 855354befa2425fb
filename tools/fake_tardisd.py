#!/usr/bin/env python3
"""fake_tardisd.py [WRONG] --listen unix:PATH --file PATH [--sites M] [--site N] [--tidy]: a double of `tardisd --file` in Python, for
short runs: the tests of the tests run against it. With WRONG it does one thing wrong:

    loses       one commit in forty isn't put into the file
    garbles     one commit in forty is put there with another value
    answers     replies go out before the group is on the file
    shows       so does what others read of it
    repeats     one commit in forty is put there twice
    cuts        damage is taken for a torn end, and cut off
    overwrites  a file that is no log is written anew
    ignores     a log of another site is taken
    touches     a file that is refused gets a byte more
    shares      the file isn't locked
    keeps       sessions are open still after a start
    stays       a file that was begun is refused
    leaves      a torn end isn't mended
    dries       a group isn't synced
    hurries     what mends a torn end isn't synced"""

import fcntl
import os
import random
import select
import socket
import struct
import sys
import time

HERE = os.path.dirname(os.path.abspath(__file__))
sys.path[:0] = [os.path.join(os.path.dirname(HERE), "clients", "python", "tests"), HERE]

import log_file  # noqa: E402
from log_file import Collection, Consent, Front, LogReader, NoLog, Record, things_of  # noqa: E402
from model import Model, Session  # noqa: E402

ROOM = 65_536


class Refused(Exception):
    """The file isn't opened: a status, and why."""

    def __init__(self, status, why):
        super().__init__("tardisd: " + why)
        self.status = status


class LogFile:
    """A log that is open, and the site that was read from it."""

    def __init__(self, path, wanted, wrong):
        self.path, self.wrong, self.model = path, wrong, Model()
        if os.path.exists(path) and not os.path.isfile(path):
            raise Refused(10, "the file can't be opened")
        self.fd = os.open(path, os.O_RDWR | os.O_CREAT, 0o666)
        try:
            if wrong != "shares":
                fcntl.flock(self.fd, fcntl.LOCK_EX | fcntl.LOCK_NB)
        except BlockingIOError:
            raise Refused(10, "another server has the file") from None
        folder = os.open(os.path.dirname(os.path.abspath(path)), os.O_RDONLY)
        os.fsync(folder)
        os.close(folder)
        data = os.pread(self.fd, os.fstat(self.fd).st_size, 0)
        is_new = log_file.is_new(data)
        if is_new and not (wrong == "stays" and data):
            data = self.begin(wanted)
        try:
            self.take(data, wanted)
        except NoLog as fault:
            if wrong in ("overwrites", "cuts") and (wrong == "cuts") == (self.reader.front is not None):
                data = self.reader.text or self.begin(wanted)
                os.ftruncate(self.fd, len(self.reader.text))
                self.take(data, wanted)
                self.found = "in a new file"
                return
            if wrong == "touches":
                os.pwrite(self.fd, b"x", len(data))
            raise Refused(13, "the file isn't taken: %s" % fault) from None
        model = self.model
        self.found = "in a new file" if is_new else "with %d states, %d of them kept, from a file of %d groups in %d bytes, read in 1 ms%s" % (
            len(model.order), len(model.order) - len(model.collected), self.number, self.place,
            "; its end was torn, and is mended" if data[self.place:].strip(b"\0") else "")

    def begin(self, wanted):
        os.pwrite(self.fd, bytes(ROOM), 0)
        os.fdatasync(self.fd)
        data = log_file.log_bytes(wanted._replace(life=os.urandom(16)), [], 0)
        os.pwrite(self.fd, data, 0)
        os.fdatasync(self.fd)
        return data + bytes(ROOM - len(data))

    def take(self, data, wanted):
        """Reads the site from the bytes, and mends a torn end."""
        self.reader, self.model = LogReader(), Model()
        groups = self.reader.read(data)
        front = self.reader.front
        if front[:2] != wanted[:2] and self.wrong != "ignores":
            raise NoLog("site %d of %d" % (front.own, front.sites))
        if any(has > most for has, most in zip(front[2:5], wanted[2:5])):
            raise NoLog("larger limits")
        for place, body in groups:
            try:
                for thing in things_of(body):
                    self.replay(thing)
            except (ValueError, KeyError, AssertionError):
                raise NoLog("doesn't fit the site", place) from None
        self.place, self.number, self.room = len(self.reader.text), self.reader.number, len(data)
        if data[self.place:].strip(b"\0") and self.wrong != "leaves":
            os.pwrite(self.fd, bytes(len(data) - self.place), self.place)
            self.sync("hurries")

    def sync(self, without):
        if self.wrong != without:
            os.fdatasync(self.fd)

    def replay(self, thing):
        model = self.model
        if isinstance(thing, Record):
            made = model.add(thing.parents, thing.writes)
            assert made == thing.id
        elif isinstance(thing, Consent):
            model.raise_to(thing.floor)
        else:
            # (the model asks for a request's fields)
            told = model.do_15(0, type("Fields", (), {"number": lambda self, size: thing.count})())
            assert thing.count and told[1:] == struct.pack(">I", thing.count)

    def put(self, things):
        """Puts a group of these things behind the log."""
        body = b"".join(map(log_file.thing_spelling, things))
        text = log_file.entry(log_file.group_item(self.reader.front.life, self.number, body))
        if self.place + len(text) >= self.room:
            os.pwrite(self.fd, bytes(len(text) + ROOM), self.room)
            os.fdatasync(self.fd)
            self.room += len(text) + ROOM
        os.pwrite(self.fd, text, self.place)
        self.sync("dries")
        self.place, self.number = self.place + len(text), self.number + 1


class Link:
    def __init__(self, stream, actor):
        self.stream, self.actor, self.held, self.out, self.owes = stream, actor, b"", b"", False


class Server:
    def __init__(self, address, log, wrong, tidy):
        self.log, self.model, self.wrong, self.tidy = log, log.model, wrong, tidy
        self.things, self.commits, self.choose = [], 0, random.Random(3)
        if wrong == "keeps":
            self.model.sessions = {actor: Session((0, 0), False) for actor in range(1, 300)}
        self.listener = socket.socket(socket.AF_UNIX)
        if os.path.exists(address):
            os.unlink(address)
        self.listener.bind(address)
        self.listener.listen(64)
        self.links = {}

    def lasting(self, actor, body):
        """Answers, and keeps what lasts."""
        model = self.model
        before = len(model.order), model.number, len(model.collected)
        reply = model.answer(actor, body)
        if len(model.order) > before[0]:
            self.commits += 1
            id = model.order[-1]
            self.add(Record(id, tuple(sorted(model.parents[id])), model.writes[id]))
        if model.number > before[1]:
            self.things.append(Consent(1, model.number, model.floor, len(model.order) - 1))
        if len(model.collected) > before[2]:
            self.things.append(Collection(len(model.collected) - before[2]))
        return reply

    def add(self, record):
        is_wrong = self.choose.randrange(40) == 0
        if is_wrong and self.wrong == "garbles":
            record = record._replace(writes=dict(record.writes, k0=b"another"))
            record = record._replace(writes={key if isinstance(key, bytes) else key.encode(): it for key, it in record.writes.items()})
        if not (is_wrong and self.wrong == "loses"):
            self.things.append(record)
        if is_wrong and self.wrong == "repeats":
            self.things.append(record)

    def take(self, link):
        try:
            more = link.stream.recv(ROOM)
        except OSError:
            more = b""
        if not more:
            self.model.sessions.pop(link.actor, None)
            del self.links[link.stream]
            link.stream.close()
            return
        link.held += more
        while len(link.held) >= 4:
            (length,) = struct.unpack_from(">I", link.held)
            if len(link.held) < 4 + length:
                break
            before = len(self.things)
            reply = self.lasting(link.actor, link.held[4:4 + length])
            link.owes = link.owes or len(self.things) > before
            link.held = link.held[4 + length:]
            link.out += struct.pack(">I", len(reply)) + reply

    def settle(self):
        if self.things:
            self.log.put(self.things)
            self.things = []

    def give(self, may=lambda link: True):
        """Sends what is to be sent to the links that may have it."""
        for link in list(self.links.values()):
            if link.out and may(link):
                try:
                    link.stream.setblocking(True)
                    link.stream.sendall(link.out)
                except OSError:
                    pass
                link.out, link.owes = b"", False

    def turn(self):
        readable, _, _ = select.select([self.listener, *self.links], [], [], 1)
        for it in readable:
            if it is self.listener:
                stream, _ = it.accept()
                taken = {link.actor for link in self.links.values()}
                self.links[stream] = Link(stream, min(set(range(1, 300)) - taken))
            elif it in self.links:
                self.take(self.links[it])
        if self.tidy and self.commits >= 64:
            self.commits = 0
            self.lasting(0, b"\x0e")
            self.lasting(0, b"\x0f\0\x40")
        if self.wrong in ("answers", "shows"):
            self.give(lambda link: self.wrong == "answers" or not link.owes)
            time.sleep(0.002)
        self.settle()
        self.give()


def main():
    words = sys.argv[1:]
    wrong = words.pop(0) if not words[0].startswith("-") else ""
    tidy = "--tidy" in words
    words = [word for word in words if word != "--tidy"]
    options = dict(zip(words[::2], words[1::2]))
    sites, site = int(options.get("--sites", "1")), int(options.get("--site", "1"))
    try:
        log = LogFile(options["--file"], Front(sites, site, int(options.get("--states", "16384")), 65_000, int(options.get("--sessions", "256")), b""), wrong)
    except Refused as refused:
        print(refused, file=sys.stderr)
        sys.exit(refused.status)
    except OSError as fault:
        print("tardisd: the file can't be opened: %s" % fault, file=sys.stderr)
        sys.exit(10)
    server = Server(options["--listen"][len("unix:"):], log, wrong, tidy)
    print("tardisd: site %d of %d listens at %s, %s" % (site, sites, options["--listen"], log.found), file=sys.stderr, flush=True)
    while True:
        server.turn()


if __name__ == "__main__":
    main()
