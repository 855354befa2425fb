#!/usr/bin/env python3
"""Tests servers that fetch from each other: three sites of `tardis serve --peer`, over Unix sockets.

usage: tools/test_sync.py [TARDIS [TARDISD]]

The programs are those that the last build left, unless others are named. Each server's first peer is this script, which
answers with an empty batch when the next round may begin: so rounds are made one at a time, where the story wants them.

1. Sites 1 and 2 start, and each has a client. Site 3 isn't there yet: calls to it fail, and the round goes on without it.
2. Both change one cart, neither knowing of the other: a fork, which both have after a round. One merges it.
3. Site 3 starts late. Its first round fetches all; its client writes a key, and the next rounds of the others find it.
4. With `--tidy`, floors are exchanged in rounds, and what is closed goes at every site.
5. Site 3 commits twice more and is killed: the first commit had come to site 1, which passes it on; the second had come to
   nobody, and is lost. The others go on without it, and read the same.
6. The servers of sites 1 and 2 end with status 8, since some calls failed; a run over each trail gives every reply again.

Then `carry.py` carries between three servers without peers, of which one comes late and one goes for good: three of
`tardis serve`, and three of `tardisd` where that is there.

Every wait has an end, and nothing is left behind.
"""

import contextlib
import os
import shutil
import socket
import struct
import subprocess
import sys
import tempfile
import time

HERE = os.path.dirname(os.path.abspath(__file__))
TOP = os.path.dirname(HERE)
sys.path[:0] = [os.path.join(TOP, "clients", "python")]

import tardis  # noqa: E402
from servers import PATIENCE, stop  # noqa: E402

SITES = (1, 2, 3)
# How many links and rounds a server has at most: more than are used here, so what is left is used up at the end.
LINKS, ROUNDS = 64, 12
DIAL_FAULT = 8
EMPTY_BATCH = struct.pack(">IBHB", 4, 16, 0, 0)


class Pace:
    """A listener that a server calls first in each round, and that answers when the round may go on."""

    def __init__(self, path):
        self.address, self.link, self.free = "unix:" + path, None, False
        self.socket = socket.socket(socket.AF_UNIX)
        self.socket.settimeout(PATIENCE)
        self.socket.bind(path)
        self.socket.listen()

    def wait(self):
        """Waits until the server stands before its next round: the one before is over."""
        if self.link is None:
            self.link, _ = self.socket.accept()
            self.link.settimeout(PATIENCE)

    def round(self):
        """Lets the server make a round, and waits until it is over."""
        self.wait()
        self.link.sendall(EMPTY_BATCH)
        with contextlib.suppress(ConnectionError):
            while self.link.recv(4096):
                pass
        self.link.close()
        self.link = None
        self.wait()

    def close(self):
        """Lets the server make the rounds that are left at once: its calls here fail."""
        if self.link is not None:
            self.link.close()
        self.socket.close()


class Served:
    """One site: its server, and a client with a session that follows its commits."""

    command = ["serve", "--links", str(LINKS)]

    def __init__(self, program, folder, site, words=()):
        self.site, self.address = site, "unix:" + os.path.join(folder, "site%d" % site)
        self.trail, self.errors = tempfile.TemporaryFile(), tempfile.TemporaryFile()
        place = ["--sites", str(len(SITES)), "--site", str(site), "--listen", self.address]
        self.process = subprocess.Popen(
            [program, *self.command, *place, *words], stdin=subprocess.DEVNULL, stdout=self.trail, stderr=self.errors)
        self.wait_until_it_listens()
        self.client = tardis.connect(self.address, PATIENCE)
        self.client.open(follow=True)

    def wait_until_it_listens(self):
        until = time.monotonic() + PATIENCE
        while not self.told() and time.monotonic() < until:
            time.sleep(0.01)

    def told(self):
        """The lines on standard error so far."""
        return os.pread(self.errors.fileno(), 1_000_000, 0).decode().splitlines()

    def put(self, **pairs):
        with self.client.transaction(at="any") as txn:
            for key, value in pairs.items():
                txn.put(key, value)
        return txn.committed

    def reads(self, *keys):
        """What is read of these keys at the state that arrived last."""
        self.client.begin("any")
        values = [self.client.value(key) for key in keys]
        self.client.abort()
        return values

    def known(self):
        return [line.count for line in self.client.stat().sites]

    def kill(self):
        self.client.disconnect()
        stop(self.process)


class Daemon(Served):
    """A site of `tardisd`."""

    command = []


class Server(Served):
    """A site whose server makes rounds, at a pace."""

    def __init__(self, program, folder, site):
        self.pace = Pace(os.path.join(folder, "pace%d" % site))
        peers = [self.pace.address] + ["unix:" + os.path.join(folder, "site%d" % other) for other in SITES if other != site]
        super().__init__(program, folder, site, [
            "--rounds", str(ROUNDS), "--tidy", *[word for peer in peers for word in ("--peer", peer)]])
        self.pace.wait()

    def round(self):
        self.pace.round()

    def end(self):
        """Uses up rounds and links, and gives the status and the trail."""
        self.client.disconnect()
        self.pace.close()
        until = time.monotonic() + PATIENCE
        while self.process.poll() is None and time.monotonic() < until:
            with contextlib.suppress(OSError):
                tardis.connect(self.address, PATIENCE).disconnect()
        status = self.process.wait(PATIENCE)
        self.trail.seek(0)
        return status, self.trail.read()

    def kill(self):
        super().kill()
        self.pace.close()


def same(what, want):
    assert what == want, "%r, and not %r" % (what, want)


def no_link(address):
    return "tardis: no link to " + address


def two_fork_and_merge(one, two, missing):
    one.put(cart="tea")
    one.round()
    same(no_link(missing) in one.told(), True)
    two.round()
    same(two.reads("cart"), [b"tea"])
    # neither knows what the other does
    left, right = one.put(cart="milk,tea"), two.put(cart="jam,tea")
    one.round(), two.round()
    for server in (one, two):
        same(set(server.client.leaves().first), {left, right})
    two.client.merge(tardis.union_of(","))
    one.round()
    for server in (one, two):
        same(server.reads("cart"), [b"jam,milk,tea"])
        same(server.known(), [2, 2, 0])


def a_late_one_comes(one, two, three):
    same(three.reads("cart"), [None])
    three.round()
    same(three.reads("cart"), [b"jam,milk,tea"])
    three.put(late="yes")
    calls = one.told().count(no_link(three.address)), two.told().count(no_link(three.address))
    one.round(), two.round()
    for server in (one, two, three):
        same(server.reads("late", "cart"), [b"yes", b"jam,milk,tea"])
        same(server.known(), [2, 2, 1])
    same((one.told().count(no_link(three.address)), two.told().count(no_link(three.address))), calls)


def what_is_closed_goes(servers):
    newest = servers[0].client.begin("any")
    servers[0].client.abort()
    for server in servers:
        server.client.ceiling(newest)
    # the first rounds raise the floors, the second exchange them
    for _ in range(2):
        for server in servers:
            server.round()
    for server in servers:
        server.round() if server is not servers[-1] else None
        stat = server.client.stat()
        assert stat.kept < stat.known, "nothing went at site %d: %r" % (server.site, stat)
        same(server.reads("late", "cart"), [b"yes", b"jam,milk,tea"])


def one_goes_for_good(one, two, three):
    three.put(last="given")
    one.round()
    three.put(last="lost")
    three.kill()
    two.round()
    same(one.reads("last"), [b"given"])
    same(two.reads("last"), [b"given"])
    same(no_link(three.address) in two.told(), True)
    one.put(more="1")
    two.round()
    two.put(more="12")
    one.round()
    for server in (one, two):
        same(server.reads("more", "last", "late", "cart"), [b"12", b"given", b"yes", b"jam,milk,tea"])
    same(one.known(), two.known())


def frames_of(data):
    frames, place = [], 0
    while place < len(data):
        (length,) = struct.unpack_from(">I", data, place)
        frames.append(data[place + 4:place + 4 + length])
        assert len(frames[-1]) == length, "a frame is cut"
        place += 4 + length
    return frames


def ends_with_its_trail(program, server):
    status, trail = server.end()
    same(status, DIAL_FAULT)
    same(server.told()[-1], "tardis: dial fault")
    place = ["--sites", str(len(SITES)), "--site", str(server.site)]
    again = subprocess.run([program, "run", *place], input=trail, stdout=subprocess.PIPE, timeout=PATIENCE)
    same(again.returncode, 0)
    asked, told = frames_of(trail), frames_of(again.stdout)
    same(len(told), len(asked))
    fetched = [reply for entry, reply in zip(asked, told) if entry[:3] == b"\0\0\x14"]
    applied = fetched.count(b"\x11")
    assert applied > 2, "site %d fetched %d items" % (server.site, applied)
    print("site %d: %d entries, %d items fetched, %d of them applied" % (server.site, len(asked), len(fetched), applied))


def servers_make_rounds(program, folder, servers):
    for site in (1, 2):
        servers.append(Server(program, folder, site))
    two_fork_and_merge(*servers, "unix:" + os.path.join(folder, "site3"))
    servers.append(Server(program, folder, 3))
    a_late_one_comes(*servers)
    what_is_closed_goes(servers)
    one_goes_for_good(*servers)
    for server in servers[:2]:
        ends_with_its_trail(program, server)


def carried(folder):
    """One round of `carry.py` between all sites, and what it told on standard error."""
    addresses = ["unix:" + os.path.join(folder, "site%d" % site) for site in SITES]
    ran = subprocess.run(
        [sys.executable, os.path.join(HERE, "carry.py"), "--rounds", "1", *addresses],
        stdin=subprocess.DEVNULL, stderr=subprocess.PIPE, timeout=PATIENCE)
    same(ran.returncode, 0)
    return ran.stderr.decode().splitlines()


def a_script_carries(program, folder, servers, kind=Served):
    for site in (1, 2):
        servers.append(kind(program, folder, site))
    one, two = servers
    one.put(cart="tea"), two.put(note="yes")
    same([line.split(": ")[1] for line in carried(folder)], ["unix:" + os.path.join(folder, "site3")])
    one.client.merge(tardis.union_of(","))
    servers.append(kind(program, folder, 3))
    same(carried(folder), [])
    for server in servers:
        same(server.reads("cart", "note"), [b"tea", b"yes"])
    servers[2].put(last="given")
    same(carried(folder), [])
    servers[2].kill()
    one.put(more="1")
    carried(folder)
    for server in (one, two):
        same(server.reads("cart", "note", "last", "more"), [b"tea", b"yes", b"given", b"1"])
    same(one.known(), two.known())
    print("%s: carried %d states" % (os.path.basename(program), sum(one.known())))


def a_script_carries_between_daemons(program, folder, servers):
    a_script_carries(program, folder, servers, Daemon)


def test(story, program):
    folder, servers = tempfile.mkdtemp(), []
    try:
        story(program, folder, servers)
    finally:
        for server in servers:
            stop(server.process)
        shutil.rmtree(folder)


def main():
    named = [os.path.abspath(word) for word in sys.argv[1:]]
    built = [os.path.join(TOP, "crates", name, "out", name) for name in ("tardis", "tardisd")]
    program, daemon = (named + built[len(named):])[:2]
    test(servers_make_rounds, program)
    test(a_script_carries, program)
    if os.access(daemon, os.X_OK):
        test(a_script_carries_between_daemons, daemon)
    else:
        print("left out: %s isn't there" % daemon)


if __name__ == "__main__":
    main()
