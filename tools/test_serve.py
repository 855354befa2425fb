#!/usr/bin/env python3
"""Tests `tardis serve` over real sockets: 64 clients at once, of 1,000 transactions each, over a Unix socket; and three
servers that sync, of which one is reached late and goes away for good.

usage: tools/test_serve.py [TARDIS [LINKS [TRANSACTIONS]]]

The program is ./tardis of this repository, unless another is named. Every client sends its next request when it has the
reply to the one before. When all are gone, the trail has each request, each client's in its order, and a run over the trail
gives each client the replies that it was given. Every wait has an end, and nothing is left behind.
"""

import os
import shutil
import socket
import struct
import subprocess
import sys
import tempfile
import threading
import time

from servers import PATIENCE, first_line, free_port, stop

TOP = os.path.dirname(os.path.dirname(os.path.abspath(__file__)))
# How long all clients together may take, and the run over their trail, in seconds.
PATIENCE_OF_ALL = 280

OPEN_FOLLOWING, BEGIN, CLOSE = b"\x01\x01", b"\x02\x01", b"\x15"
RAISE_AUTO, TIDY = b"\x0e", b"\x0f\xff\xff"
COMMIT = b"\x06\x00\x00\x00"
COMMITTED, CLOSED = 8, b"\x14"


def frame(body):
    return struct.pack(">I", len(body)) + body


def bodies_of(data):
    """The bodies of frames, which are whole."""
    bodies, place = [], 0
    while place < len(data):
        (length,) = struct.unpack_from(">I", data, place)
        bodies.append(data[place + 4:place + 4 + length])
        assert len(bodies[-1]) == length, "a frame is cut"
        place += 4 + length
    return bodies


def connected(address):
    """A socket that is connected to an address, on which each wait has an end."""
    kind, _, path = address.partition(":")
    if kind == "unix":
        link = socket.socket(socket.AF_UNIX)
        link.settimeout(PATIENCE_OF_ALL)
        link.connect(path)
    else:
        link = socket.create_connection((kind, int(path)), PATIENCE_OF_ALL)
        link.setsockopt(socket.IPPROTO_TCP, socket.TCP_NODELAY, 1)
    return link


class Client(threading.Thread):
    """A client, what it asked, and what it was told."""

    def __init__(self, address, number, transactions):
        super().__init__(daemon=True)
        self.address, self.number, self.transactions = address, number, transactions
        self.asked, self.told, self.fault = [], [], None

    def run(self):
        try:
            with connected(self.address) as self.link:
                self.talk()
        except Exception as fault:  # told by the main thread
            self.fault = fault

    def ask(self, body):
        self.link.sendall(frame(body))
        head = self.exactly(4)
        reply = self.exactly(struct.unpack(">I", head)[0])
        self.asked.append(body)
        self.told.append(reply)
        return reply

    def exactly(self, count):
        data = b""
        while len(data) < count:
            more = self.link.recv(count - len(data))
            if not more:
                raise AssertionError("the server ended the link")
            data += more
        return data

    def talk(self):
        """Reads and writes a key of its own and one that some share, again and again, and tidies at times."""
        own, shared = b"own%d" % self.number, b"shared%d" % (self.number % 4)
        self.ask(OPEN_FOLLOWING)
        for count in range(self.transactions):
            self.ask(BEGIN)
            self.ask(b"\x03" + bytes([len(own)]) + own)
            for key in (own, shared):
                value = b"%d" % count
                self.ask(b"\x04" + bytes([len(key)]) + key + struct.pack(">H", len(value)) + value)
            self.ask(COMMIT)
            if count % 64 == self.number % 64:
                self.ask(RAISE_AUTO)
                self.ask(TIDY)


def served(program, address, links, transactions):
    """The clients when all are gone, and the trail."""
    with tempfile.TemporaryFile() as output:
        server = subprocess.Popen(
            [program, "serve", "--listen", address, "--links", str(links)],
            stdin=subprocess.DEVNULL, stdout=output, stderr=subprocess.PIPE)
        try:
            line = first_line(server)
            assert line == "tardis: listens at %s\n" % address, line
            end = time.monotonic() + PATIENCE_OF_ALL
            clients = [Client(address, number, transactions) for number in range(1, links + 1)]
            for client in clients:
                client.start()
            for client in clients:
                client.join(max(0, end - time.monotonic()))
                assert not client.is_alive(), "client %d waits" % client.number
                assert client.fault is None, client.fault
            status = server.wait(PATIENCE)
            assert status == 0, status
            output.seek(0)
            return clients, output.read()
        finally:
            stop(server)


def judge(program, clients, trail):
    """Compares what the clients were told with the trail, and with a run over it."""
    entries = bodies_of(trail)
    ran = subprocess.run([program, "run"], input=trail, stdout=subprocess.PIPE, timeout=PATIENCE_OF_ALL)
    assert ran.returncode == 0, ran.returncode
    replies = bodies_of(ran.stdout)
    assert len(replies) == len(entries), (len(replies), len(entries))
    asked, told = {}, {}
    for entry, reply in zip(entries, replies):
        (actor,) = struct.unpack_from(">H", entry)
        asked.setdefault(actor, []).append(entry[2:])
        told.setdefault(actor, []).append(reply)
    assert sorted(asked) == list(range(1, len(clients) + 1)), sorted(asked)
    # the number of a link's session is the order in which links were taken, so clients are found by what they asked
    sessions = {tuple(asked[actor]): actor for actor in asked}
    assert len(sessions) == len(clients)
    for client in clients:
        actor = sessions.pop(tuple(client.asked + [CLOSE]))
        assert told[actor] == client.told + [CLOSED], client.number
    return len(entries)


def test(program, address, links, transactions):
    began = time.monotonic()
    clients, trail = served(program, address, links, transactions)
    taken = time.monotonic() - began
    entries = judge(program, clients, trail)
    committed = sum(reply[0] == COMMITTED for client in clients for reply in client.told)
    assert committed == links * transactions, committed
    print("%s: %d links, %d entries, %d bytes, %d commits, %.1f s" % (
        address.partition(":")[0], links, entries, len(trail), committed, taken))


class Site:
    """A server of one of three sites, with what it writes kept in files."""

    def __init__(self, program, folder, number, *words):
        self.address = "unix:" + os.path.join(folder, "site%d" % number)
        self.output, self.error = tempfile.TemporaryFile(), tempfile.TemporaryFile()
        self.process = subprocess.Popen(
            [program, "serve", "--sites", "3", "--site", str(number), "--listen", self.address, *words],
            stdin=subprocess.DEVNULL, stdout=self.output, stderr=self.error)

    def said(self, line):
        """Waits until it has written the line on standard error."""
        end = time.monotonic() + PATIENCE
        while line not in self.lines():
            assert time.monotonic() < end and self.process.poll() is None, self.lines()[-3:]
            time.sleep(0.01)

    def lines(self):
        return os.pread(self.error.fileno(), 1 << 16, 0).decode().split("\n")

    def ended(self):
        """Its status, and its trail."""
        status = self.process.wait(PATIENCE_OF_ALL)
        self.output.seek(0)
        return status, bodies_of(self.output.read())


def value_at(client, key):
    """What a transaction that begins now reads of a key."""
    client.ask(BEGIN)
    reply = client.ask(b"\x03" + bytes([len(key)]) + key)
    client.ask(b"\x07")
    return reply


def test_sync(program, folder):
    """Site 1 has a state. Site 2 calls it before it can be reached, then gets the state, and goes on calling it when it is
    gone. Site 3 gets the state from site 2. Both read the same."""
    began, sites = time.monotonic(), []
    late = os.path.join(folder, "late")
    try:
        one = Site(program, folder, 1, "--links", "2")
        sites.append(one)
        one.said("tardis: listens at " + one.address)
        writer = Client(one.address, 1, 0)
        with connected(one.address) as writer.link:
            for body in (OPEN_FOLLOWING, BEGIN, b"\x04\x01x\0\x011"):
                writer.ask(body)
            assert writer.ask(COMMIT)[0] == COMMITTED
        two = Site(program, folder, 2, "--links", "2", "--peer", "unix:" + late, "--rounds", "100000", "--tidy")
        sites.append(two)
        two.said("tardis: no link to unix:" + late)
        os.symlink(one.address.partition(":")[2], late)
        assert one.ended()[0] == 0
        reader = Client(two.address, 2, 0)
        with connected(two.address) as reader.link:
            reader.ask(OPEN_FOLLOWING)
            end = time.monotonic() + PATIENCE
            while (read := value_at(reader, b"x"))[:1] != b"\x04":
                assert time.monotonic() < end, read
        three = Site(program, folder, 3, "--links", "1", "--peer", one.address, "--peer", two.address, "--rounds", "1")
        sites.append(three)
        three.said("tardis: no link to " + one.address)
        other = Client(three.address, 3, 0)
        with connected(three.address) as other.link:
            other.ask(OPEN_FOLLOWING)
            end = time.monotonic() + PATIENCE
            while value_at(other, b"x") != read:
                assert time.monotonic() < end, read
        for site in (two, three):
            status, entries = site.ended()
            assert status == 8, status
            # the state came once, by actor 0
            assert [entry[:4] for entry in entries].count(b"\0\0\x14\x01") == 1, entries
        print("three sites: %.1f s" % (time.monotonic() - began))
    finally:
        for site in sites:
            stop(site.process)


def main():
    words = sys.argv[1:]
    program = os.path.abspath(words[0]) if words else os.path.join(TOP, "tardis")
    links, transactions = [int(word) for word in words[1:]] or (64, 1_000)
    folder = tempfile.mkdtemp()
    try:
        test(program, "unix:" + os.path.join(folder, "site"), links, transactions)
        test(program, "127.0.0.1:%d" % free_port(), min(links, 8), min(transactions, 100))
        test_sync(program, folder)
        unheard = subprocess.run(
            [program, "serve", "--listen", "unix:" + os.path.join(folder, "no", "site"), "--links", "1"],
            stdin=subprocess.DEVNULL, capture_output=True, timeout=PATIENCE)
        assert (unheard.returncode, unheard.stdout, unheard.stderr) == (7, b"", b"tardis: gate fault\n"), unheard
    finally:
        shutil.rmtree(folder)


if __name__ == "__main__":
    main()
