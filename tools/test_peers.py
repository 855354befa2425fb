#!/usr/bin/env python3
"""Tests servers that fetch from each other (`tardisd --peer`), over real sockets.

usage: tools/test_peers.py [--minutes N [--clients N] [--seed S]] [TARDISD]

The program is ./tardisd of this repository, unless another is named. First it is seen, in about a minute, that

- two servers that fetch from each other come to read the same, over Unix sockets and over TCP, and tell that each reached the other;
- one that is killed and started again on its file goes on, and is told as lost and as reached again, once each;
- two with the same rules come to one leaf, which is there after a kill too, and a fork that the rules refuse stays;
- one in memory that is started again is refused as another life, and told once; so are a peer with the own number, one of another
  number of sites, one that doesn't introduce itself, one that doesn't tell what it knows, and one that nobody listens for;
- a peer that takes a call and never answers is given up, and told, and clients are served meanwhile;
- a client that asks nothing for as long as --idle says is ended, and one that asks isn't, however long it lasts.

With --minutes, three sites with files and 20 clients (or as many as are named) run for so long, while links between the sites are cut at random, and sites are
killed at random and started again. Then there is peace, and it is seen that all three know the same states and read the same, that
nothing which a client was told is lost, and that few states are kept. It prints how long peace took to make them equal.

Each wait has an end. Nothing is left behind: the servers are killed, and all lies in a folder that is removed."""

import argparse
import contextlib
import os
import random
import shutil
import signal
import socket
import struct
import subprocess
import sys
import tempfile
import threading
import time

HERE = os.path.dirname(os.path.abspath(__file__))
TOP = os.path.dirname(HERE)
sys.path[:0] = [os.path.join(TOP, "clients", "python")]

import tardis  # noqa: E402
from links import Links  # noqa: E402
from servers import PATIENCE, Server, are_equal, free_port, running, until  # noqa: E402

#: what ends each line of a peer that is lost
AGAIN = "; called again in a second, and then after pauses that double up to a minute"
CLIENTS, SITES = 20, 3
SHARED = [b"k%d" % place for place in range(12)]
#: so many states are kept at most once all is at peace
FEW = 300


def say(text):
    print(text, flush=True)


# two servers

def test_two_that_fetch(folder, addresses):
    one_at, other_at = addresses
    one = Server(one_at, "--sites", "2", "--site", "1", "--peer", other_at, "--every", "1")
    with running(one):
        # (the one calls before the other listens)
        until(lambda: one.told(other_at), of="a line")
        assert one.told(other_at) == ["not reached: nobody listens there" + AGAIN], one.told(other_at)
        other = Server(other_at, "--sites", "2", "--site", "2", "--peer", one_at, "--every", "1")
        with running(other):
            first, second = one.commit(x=b"1"), other.commit(y=b"2")
            assert (first, second) == ((1, 1), (2, 1))
            until(lambda: one.counts() == other.counts() == [1, 1] and are_equal(one, other), of="what the other has")
            third = one.commit(x=b"3")
            until(lambda: other.counts() == one.counts() and are_equal(one, other), of="news")
            assert third.site == 1
            until(lambda: one.told(other_at)[1:] == ["reached"] and other.told(one_at) == ["reached"], of="a line")
            assert len(one.lines) == 3 and len(other.lines) == 2, (one.lines, other.lines)
            # a peer with a longer pause is asked no sooner
            began = time.monotonic()
            fourth = other.commit(y=b"4")
            until(lambda: one.counts()[1] == fourth.sequence, of="news")
            assert time.monotonic() - began < 3
    say("two servers fetch from each other over %s" % one_at.partition(":")[0])


def is_reached(server, address):
    """Whether the last that it told of the peer is that it is reached."""
    return server.told(address) and server.told(address)[-1] in ("reached", "reached again")


def test_killed_with_a_file(folder, path):
    one_at, other_at = path("k1"), path("k2")
    one = Server(one_at, "--sites", "2", "--site", "1", "--peer", other_at, "--every", "1")
    other = Server(other_at, "--sites", "2", "--site", "2", "--peer", one_at, "--every", "1", "--file", os.path.join(folder, "kept"))
    with running(one, other):
        until(lambda: is_reached(one, other_at) and is_reached(other, one_at), of="a line")
        before = len(one.told(other_at))
        for number in range(1, 4):
            assert other.commit(y=b"%d" % number) == (2, number)
            other.kill()
            until(lambda: not is_reached(one, other_at), of="a line")
            one.commit(x=b"%d" % number)
            other.start()
            until(lambda: is_reached(one, other_at), of="a line")
            until(lambda: are_equal(one, other), of="what was committed meanwhile")
        # (it may be killed while it is asked, or between two exchanges)
        told = one.told(other_at)[before:]
        whys = {line[len("lost: "):-len(AGAIN)] for line in told[::2] if line.startswith("lost: ") and line.endswith(AGAIN)}
        assert whys and whys <= {"nobody listens there", "it ended the connection before its answer was whole"}, told
        assert len(told) == 6 and told[1::2] == ["reached again"] * 3, told
        assert one.counts() == [3, 3]
    say("a site that is killed and started again on its file goes on")


def test_joined_by_rules(folder, path):
    one_at, other_at = path("r1"), path("r2")
    rules = ("--rules", "cart=set,=last,price=refuse")
    one = Server(one_at, "--sites", "2", "--site", "1", "--peer", other_at, "--every", "1", *rules, "--file", os.path.join(folder, "joined"))
    other = Server(other_at, "--sites", "2", "--site", "2", "--peer", one_at, "--every", "1", *rules)
    with running(one, other):
        until(lambda: is_reached(one, other_at) and is_reached(other, one_at), of="a line")
        one.commit(cart=b"bread,milk")
        other.commit(cart=b"eggs")
        until(lambda: are_equal(one, other) and len(one.read_at_leaves()) == 1, of="one leaf")
        (read,) = one.read_at_leaves().values()
        assert read == {b"cart": b"bread,eggs,milk"}, read
        # what joined them is there again after a kill
        before = one.read_at_leaves(), one.counts()
        one.kill()
        one.start()
        assert (one.read_at_leaves(), one.counts()) == before
        # and what no rule settles stays for clients
        one.commit(price=b"20")
        other.commit(price=b"25")
        until(lambda: are_equal(one, other), of="the other's price")
        time.sleep(2)
        assert are_equal(one, other) and len(one.read_at_leaves()) == 2, one.read_at_leaves()
    say("two servers with rules come to one leaf, and leave what these refuse")


def is_told_once(server, address, words):
    """Whether the server tells so of the peer at an address, once in this life, within some seconds and tries."""
    until(lambda: any(words in line for line in server.told(address)), of="%r" % words)
    before = len(server.told(address))
    time.sleep(4)
    told = server.told(address)
    assert len(told) == before and sum(words in line for line in told) == 1, told
    assert all(line.endswith(AGAIN) for line in told if words in line), told


def test_other_lives(folder, path):
    one_at, other_at = path("l1"), path("l2")
    other = Server(other_at, "--sites", "2", "--site", "2")
    one = Server(one_at, "--sites", "2", "--site", "1", "--peer", other_at, "--every", "1", "--file", os.path.join(folder, "lives"))
    with running(one, other):
        until(lambda: one.told(other_at) == ["reached"], of="a line")
        other.commit(y=b"lost")
        until(lambda: one.counts() == [0, 1], of="the other's state")
        other.kill()
        # (that it is away is told before, or it is there again before it was called)
        time.sleep(2)
        other.start()
        other.commit(y=b"another")
        is_told_once(one, other_at, "another site had its number before, or it lost what it had")
        assert one.counts() == [0, 1] and not any("reached again" in line for line in one.told(other_at)), one.told(other_at)
        assert one.read_at_leaves() == {(2, 1): {b"y": b"lost"}}
        # the file remembers whom it met, and a site that met nobody meets the other
        one.kill()
        one.start()
        is_told_once(one, other_at, "another site had its number before, or it lost what it had")
        late = Server(path("l3"), "--sites", "2", "--site", "1", "--peer", other_at)
        with running(late):
            until(lambda: late.told(other_at) == ["reached"], of="a line")
    say("a site in memory that is started again is another life, which is told once")


def test_who_is_not_met(folder, path):
    own, others, silent = path("n1"), path("n2"), path("n3")
    clients, nobody = path("n4"), path("n5")
    peers = [Server(own, "--sites", "2", "--site", "1"), Server(others, "--sites", "3", "--site", "2"),
             Server(path("n6"), "--sites", "2", "--site", "2", "--clients", clients)]
    with running(*peers), listener(silent, refuse):
        words = [word for at in (own, others, silent, clients, nobody) for word in ("--peer", at)]
        one = Server(path("n7"), "--sites", "2", "--site", "1", "--every", "1", *words)
        with running(one):
            for at, why in ((own, "it has the number of this site"), (others, "it is one of another number of sites"),
                            (silent, "it doesn't introduce itself"), (clients, "it doesn't tell what it knows"),
                            (nobody, "nobody listens there")):
                until(lambda: any(why in line for line in one.told(at)), of="%r of %r" % (why, one.told(at)))
            time.sleep(4)
            assert len(one.lines) == 6 and all(line.endswith(AGAIN) for line in one.lines[1:]), one.lines
            assert one.counts() == [0, 0]
    say("whom a site doesn't meet is told once each")


def refuse(made):
    """Answers a question as an older program does."""
    made.recv(100)
    made.sendall(b"\x00\x00\x00\x03\x15\x1b\x47")


@contextlib.contextmanager
def listener(address, then):
    """Somebody who listens at a Unix socket, and does this with each who comes."""
    with socket.socket(socket.AF_UNIX) as door:
        door.bind(address[len("unix:"):])
        door.listen(16)
        held = []

        def take():
            with contextlib.suppress(OSError):
                while True:
                    made, _ = door.accept()
                    held.append(made)
                    with contextlib.suppress(OSError):
                        then(made)

        threading.Thread(target=take, daemon=True).start()
        try:
            yield
        finally:
            door.shutdown(socket.SHUT_RDWR)
            for made in held:
                made.close()


def test_never_answers(folder, path):
    silent = path("s1")
    with listener(silent, lambda made: None):
        one = Server(path("s2"), "--sites", "2", "--site", "1", "--peer", silent)
        with running(one):
            longest, began, asked = 0, time.monotonic(), 0
            with one.connect() as site:
                site.open(follow=True)
                while time.monotonic() - began < 31:
                    before = time.monotonic()
                    with site.transaction() as txn:
                        txn.put(b"x", b"%d" % asked)
                    longest = max(longest, time.monotonic() - before)
                    asked += 1
                    time.sleep(0.01)
            assert longest < 2, "a client waited for %.1f seconds" % longest
            until(lambda: one.told(silent), 10, of="a line")
            assert one.told(silent) == ["not reached: no answer came in 30 seconds" + AGAIN], one.told(silent)
    say("a peer that never answers is given up; %d transactions meanwhile, of which the longest took %d ms" % (asked, longest * 1000))


def test_idle(folder, path):
    one = Server(path("d1"), "--idle", "2")

    def ends_after(connection, then):
        began = time.monotonic()
        connection.settimeout(PATIENCE)
        then(connection)
        while connection.recv(1000):
            pass
        return time.monotonic() - began

    def dribble(connection):
        # (a frame that never becomes whole asks nothing)
        with contextlib.suppress(OSError):
            for byte in struct.pack(">I", 1000) + bytes(300):
                connection.sendall(bytes([byte]))
                time.sleep(0.1)
                if connection in select_readable(connection):
                    return

    with running(one), one.connect() as busy:
        busy.open()
        for then in (lambda made: None, lambda made: made.sendall(struct.pack(">I", 2) + b"\x01\x00"), dribble):
            with socket.socket(socket.AF_UNIX) as made:
                made.connect(path("d1")[len("unix:"):])
                result = {}
                thread = threading.Thread(target=lambda: result.update(took=ends_after(made, then)))
                thread.start()
                while thread.is_alive():
                    busy.stat()
                    time.sleep(0.2)
                thread.join()
            assert 1.9 <= result["took"] < 5, "it ended after %.1f seconds" % result["took"]
        assert busy.stat().sessions == 1 and busy.begin() == (0, 0)
    # a peer is such a client too: it is ended between two exchanges (a second late at most), and nobody is told
    one_at, other_at = path("d2"), path("d3")
    one = Server(one_at, "--sites", "2", "--site", "1", "--idle", "1", "--peer", other_at, "--every", "3")
    other = Server(other_at, "--sites", "2", "--site", "2", "--idle", "1", "--peer", one_at, "--every", "3")
    with running(one, other):
        for number in range(1, 4):
            one.commit(x=b"%d" % number)
            until(lambda: other.counts() == [number, 0], of="news")
            time.sleep(1.5)
        assert [line for line in one.told(other_at) + other.told(one_at) if line != "not reached: nobody listens there" + AGAIN] == ["reached"] * 2
    say("a client that asks nothing is ended, and one that asks isn't")


def select_readable(connection):
    import select
    return select.select([connection], [], [], 0)[0]


def test_rows(folder):
    def path(name):
        return "unix:" + os.path.join(folder, name)

    slow = threading.Thread(target=quietly, args=(test_never_answers, folder, path))
    slow.start()
    test_two_that_fetch(folder, (path("t1"), path("t2")))
    test_two_that_fetch(folder, tuple("127.0.0.1:%d" % free_port() for _ in range(2)))
    test_killed_with_a_file(folder, path)
    test_joined_by_rules(folder, path)
    test_other_lives(folder, path)
    test_who_is_not_met(folder, path)
    test_idle(folder, path)
    slow.join()
    if FAULTS:
        raise FAULTS[0]


#: what went wrong in threads
FAULTS = []


def quietly(call, *words):
    """What goes wrong in a thread is raised by the run."""
    try:
        call(*words)
    except BaseException as fault:
        FAULTS.append(fault)
        raise


# three sites, cut links, kills

class Run:
    """Three sites, their clients, and what these were told."""

    def __init__(self, folder, seed, network):
        self.network = network
        self.choose, self.lock, self.stop = random.Random(seed), threading.Lock(), threading.Event()
        self.told, self.refused, self.commits, self.merges, self.kills, self.cuts, self.most_kept, self.most_leaves = {}, {}, 0, 0, 0, 0, 0, 0
        at = ["unix:" + os.path.join(folder, "site%d" % number) for number in range(1, SITES + 1)]
        self.links, self.sites = [], []
        for number in range(SITES):
            words = ["--sites", str(SITES), "--site", str(number + 1), "--every", "1", "--tidy",
                     "--file", os.path.join(folder, "file%d" % (number + 1))]
            for other in range(SITES):
                if other != number:
                    link = self.network.add("unix:" + os.path.join(folder, "link%d%d" % (number + 1, other + 1)), at[other])
                    self.links.append(link)
                    words += ["--peer", link.at]
            self.sites.append(Server(at[number], *words))

    def client(self, number):
        """Transactions at a site, and at another one when that goes away. The first client joins the leaves of the first site, again and
        again: where several sites did that, each would make leaves for the others to join."""
        choose = random.Random(number)
        while not self.stop.is_set():
            try:
                with (choose.choice(self.sites) if number else self.sites[0]).connect() as site:
                    site.open(follow=True)
                    for place in range(200):
                        if self.stop.is_set():
                            return
                        if number:
                            self.ask(site, choose, number)
                            time.sleep(choose.uniform(0.01, 0.08))
                        else:
                            self.join(site)
                            time.sleep(0.2)
            except (OSError, tardis.ProtocolError):
                time.sleep(0.1)
            except tardis.Refused as refusal:
                with self.lock:
                    self.refused[type(refusal).__name__] = self.refused.get(type(refusal).__name__, 0) + 1

    def join(self, site):
        """Joins the first leaves, and counts all."""
        leaves = site.leaves()
        self.most_leaves = max(self.most_leaves, leaves.total)
        if leaves.total > 1 and site.merge(tardis.last_writer, leaves.first[:32]):
            self.merges += 1

    def ask(self, site, choose, number):
        writes = {choose.choice(SHARED): b"%d.%d" % (number, choose.randrange(1 << 30)) for _ in range(choose.randrange(1, 3))}
        forks = choose.randrange(8) == 0
        with site.transaction(choose.choice(["ancestor", "any", "any"]), serializable=forks, snapshot=forks) as txn:
            for key in choose.sample(SHARED, 2):
                txn.get(key)
            for key, value in writes.items():
                txn.put(key, value)
        with self.lock:
            self.told[txn.committed] = writes
            self.commits += 1

    def disturb(self, seconds):
        """Cuts links and kills sites, for so long."""
        end = time.monotonic() + seconds
        while time.monotonic() < end and not FAULTS:
            if self.choose.randrange(3):
                link = self.choose.choice(self.links)
                link.cut()
                time.sleep(self.choose.uniform(0, 1.5))
                link.mend()
                self.cuts += 1
            else:
                site = self.choose.choice(self.sites)
                site.kill()
                time.sleep(self.choose.uniform(0, 1.5))
                site.start()
                self.kills += 1
            time.sleep(self.choose.uniform(0, 1))
            for site in self.sites:
                self.most_kept = max(self.most_kept, site.stat().kept)

    def end_of_war(self):
        self.stop.set()
        for link in self.links:
            link.mend()

    def is_complete(self):
        """Nothing that a client was told is lost: each site knows all states that were told."""
        most = [max((id.sequence for id in self.told if id.site == number), default=0) for number in range(1, SITES + 1)]
        for server in self.sites:
            counts = server.counts()
            assert all(has >= told for has, told in zip(counts, most)), "%s of %s are there" % (counts, most)

    def are_as_told(self):
        """What is kept of the states that were told has what was written, at each site, and those that two keep are the same there. Gives
        how many are kept at each."""
        pulled = [server.records() for server in self.sites]
        for records in pulled:
            for id, record in records.items():
                if id in self.told:
                    assert {write.key: write.value for write in record.writes} == self.told[id], "%s is another than was told: %s" % (id, record)
                assert all(other.get(id, record) == record for other in pulled), "%s isn't the same at all sites" % (id,)
        return [len(records) for records in pulled]

    def settle_down(self):
        """Leaves are joined at one site, and some transactions follow at each: then few states are kept."""
        for site in self.sites:
            with site.connect() as joins:
                joins.open(follow=True)
                joins.merge(tardis.last_writer)
            until(lambda: are_equal(*self.sites), 60, "the joined leaf")
        end = time.monotonic() + 60
        while max(site.stat().kept for site in self.sites) > FEW:
            assert time.monotonic() < end, "%s states are kept" % [site.stat().kept for site in self.sites]
            for site in self.sites:
                with site.connect() as follows:
                    follows.open(follow=True)
                    for place in range(70):
                        with follows.transaction() as txn:
                            txn.put(b"last", b"%d" % place)
                until(lambda: are_equal(*self.sites), 60, "what was committed last")


def test_three_sites(folder, minutes, clients, seed, network):
    run = Run(folder, seed, network)
    try:
        threads = [threading.Thread(target=quietly, args=(run.client, number), daemon=True) for number in range(clients)]
        for thread in threads:
            thread.start()
        run.disturb(60 * minutes)
        run.end_of_war()
        for thread in threads:
            thread.join(4 * PATIENCE)
            assert not thread.is_alive(), "a client hangs"
        if FAULTS:
            raise FAULTS[0]
        began = time.monotonic()
        until(lambda: are_equal(*run.sites), 120, "peace")
        took = time.monotonic() - began
        run.is_complete()
        as_told = run.are_as_told()
        known = run.sites[0].stat().known
        say("%d commits were told, %d merges made, %d kills, %d cuts; refused: %s" % (run.commits, run.merges, run.kills, run.cuts, run.refused))
        say("after %.1f seconds of peace all three know the same %d states and read the same; up to %d states were kept, and %d leaves" % (
            took, known, run.most_kept, run.most_leaves))
        say("%s records are kept, the same at each, and as they were told" % ", ".join(map(str, as_told)))
        run.settle_down()
        say("once their leaves are joined they keep %s states" % ", ".join(str(site.stat().kept) for site in run.sites))
        told = [len(site.lines) for site in run.sites]
        say("they told %s lines" % ", ".join(map(str, told)))
    except BaseException:
        for site in run.sites:
            print("--", site.address, *site.lines[-12:], sep="\n", file=sys.stderr)
        raise
    finally:
        run.stop.set()
        for site in run.sites:
            site.kill()


def main():
    words = argparse.ArgumentParser(usage=__doc__.split("\n\n")[1].partition(": ")[2])
    words.add_argument("--minutes", type=float, default=0)
    words.add_argument("--clients", type=int, default=CLIENTS)
    words.add_argument("--seed", type=int, default=1)
    words.add_argument("program", nargs="?", default=Server.program)
    words = words.parse_args()
    Server.program = os.path.abspath(words.program)
    # builds it, where that is needed
    subprocess.run([Server.program, "--version"], check=True, stdout=subprocess.DEVNULL, timeout=7200)
    signal.alarm(int(600 + 60 * words.minutes))
    folder = tempfile.mkdtemp()
    try:
        if words.minutes:
            with Links() as network:
                test_three_sites(folder, words.minutes, words.clients, words.seed, network)
        else:
            test_rows(folder)
    finally:
        shutil.rmtree(folder, ignore_errors=True)


if __name__ == "__main__":
    main()
