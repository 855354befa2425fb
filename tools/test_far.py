#!/usr/bin/env python3
"""Three sites that are far apart: each in a network namespace of its own, 50 ms from the others, and one packet in a hundred is lost.

usage: tools/test_far.py [TARDISD [SECONDS]]

The program is ./tardisd of this repository, unless another is named. Each site is kept in a file, fetches from both others and
collects (--peer, --every 1, --tidy); its clients come over a Unix socket, change keys that all sites share, and merge what
forked. After 20 seconds of that, or so many, no client asks for anything more. From then on it is measured how long it takes until all
three have the same states. At their leaves they have to read the same then, and each commit that was answered has to be there.

Needs root, `ip` and /dev/net/tun (`far_links.py`). Every wait has an end, and nothing is left behind."""

import contextlib
import os
import random
import subprocess
import sys
import tempfile
import threading
import time

HERE = os.path.dirname(os.path.abspath(__file__))
TOP = os.path.dirname(HERE)
sys.path[:0] = [os.path.join(TOP, "clients", "python")]

import tardis  # noqa: E402
from far_links import Hosts, address_of  # noqa: E402
from servers import PATIENCE, first_line, stop  # noqa: E402

SITES, CLIENTS, KEYS = 3, 4, 12
DELAY, LOSS = 0.05, 0.01
LONGEST_PEACE = 60


def serve(hosts, program, folder, number):
    """A site at its host."""
    words = ["--sites", str(SITES), "--site", str(number), "--listen", "unix:%s/site%d" % (folder, number), "--peers", address_of(number) + ":7000"]
    for other in range(1, SITES + 1):
        if other != number:
            words += ["--peer", address_of(other) + ":7000"]
    words += ["--every", "1", "--tidy", "--file", "%s/log%d" % (folder, number)]
    return subprocess.Popen([*hosts.within(number), program, *words], stdin=subprocess.DEVNULL, stdout=subprocess.DEVNULL, stderr=subprocess.PIPE)


class Client(threading.Thread):
    """Changes counters until it is to stop. Each change is a key of its own besides, so that it can be looked for."""

    def __init__(self, address, name, over):
        super().__init__(daemon=True)
        self.address, self.name, self.over, self.random, self.done, self.fault = address, name, over, random.Random(name), [], None

    def run(self):
        try:
            with tardis.connect(self.address, timeout=PATIENCE) as site:
                site.open(follow=True)
                while not self.over.is_set():
                    self.change(site)
                    if self.random.random() < 0.1:
                        with contextlib.suppress(tardis.Refused):
                            site.merge(tardis.last_writer)
                    time.sleep(0.01)
        except Exception as fault:  # told by the test
            self.fault = fault

    def change(self, site):
        key = b"count%d" % self.random.randrange(KEYS)
        with site.transaction() as txn:
            txn.put(key, b"%d" % (int(txn.value(key, b"0")) + 1))
        self.done.append(txn.committed)


def counts_of(stat):
    return [it.count for it in stat.sites]


def until_all_agree(sites):
    """How long it takes until each has what the others have, in seconds."""
    begun = time.monotonic()
    while True:
        stats = [it.stat() for it in sites]
        if all(counts_of(it) == counts_of(stats[0]) for it in stats):
            return time.monotonic() - begun, stats
        assert time.monotonic() - begun < LONGEST_PEACE, [counts_of(it) for it in stats]
        time.sleep(0.02)


def contents(site):
    """What is read at each leaf, by the leaf."""
    return {leaf: dict(site.scan(leaf)) for leaf in site.leaves().first}


def test(program, seconds, folder, hosts):
    servers = [serve(hosts, program, folder, it + 1) for it in range(SITES)]
    try:
        for it in servers:
            first_line(it)
        for it in servers:
            threading.Thread(target=it.stderr.read, daemon=True).start()
        addresses = ["unix:%s/site%d" % (folder, it + 1) for it in range(SITES)]
        over = threading.Event()
        clients = [Client(address, "%d of %s" % (n, address[-1]), over) for address in addresses for n in range(CLIENTS)]
        for it in clients:
            it.start()
        time.sleep(seconds)
        over.set()
        for it in clients:
            it.join(PATIENCE)
            assert it.fault is None and not it.is_alive(), (it.name, it.fault)
        sites = [tardis.connect(it, timeout=PATIENCE) for it in addresses]
        took, stats = until_all_agree(sites)
        first = contents(sites[0])
        for it in sites[1:]:
            assert contents(it) == first, "they read another"
        made = sum(len(it.done) for it in clients)
        highest = counts_of(stats[0])
        for it in clients:
            for state in it.done:
                assert state.sequence <= highest[state.site - 1], (state, highest)
        for it in sites:
            it.disconnect()
        print(
            "%d commits in %d s, %d leaves, kept states %s; %d packets passed and %d lost: the sites agreed %.2f s after the last"
            % (made, seconds, len(first), "/".join(str(it.kept) for it in stats), hosts.passed, hosts.lost, took)
        )
    finally:
        for it in servers:
            stop(it)


def main(program="./tardisd", seconds="20"):
    with tempfile.TemporaryDirectory(prefix="far") as folder, Hosts(SITES, DELAY, LOSS) as hosts:
        test(os.path.join(TOP, program), int(seconds), folder, hosts)


if __name__ == "__main__":
    main(*sys.argv[1:])
