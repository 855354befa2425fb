#!/usr/bin/env python3
"""Tests what no contract says of the edges of `tardis serve`: that a socket which takes few bytes at once gets all of them,
that a connection which the system refuses is told, and that a session which waits for its turn sleeps.

usage: tools/test_faults.py [TARDIS [REQUESTS]]

The program is the one that the last build left, unless another is named: a script before it would get the preloaded library
too. Each of the sessions that ask at once asks REQUESTS times, else 30,000. It needs Linux and a C compiler (`cc`, or $CC) for
`faulty_sockets.c`. Every wait has an end, and nothing is left behind.
"""

import os
import shutil
import subprocess
import sys
import tempfile
import threading
import time

import test_serve
from servers import PATIENCE, first_line, stop
from test_serve import OPEN_FOLLOWING, PATIENCE_OF_ALL, TOP, Client, bodies_of, connected, frame

HERE = os.path.dirname(os.path.abspath(__file__))
STAT = b"\x10"
# The number of the system's call in which a thread sleeps.
FUTEX = {"x86_64": "202", "aarch64": "98"}.get(os.uname().machine)
# How it is called by a thread that waits for another's end (FUTEX_WAIT_BITSET and FUTEX_CLOCK_REALTIME, between processes).
JOIN = "0x109"
# So many sessions ask at once, each so many requests, unless another number is given.
BUSY, REQUESTS = 8, 30_000
# So long is the frame of a reply to Stat: one site, its length word with it.
REPLY = 38


def built(folder):
    """The library that is laid before the program's calls."""
    place = os.path.join(folder, "faulty_sockets.so")
    subprocess.run([os.environ.get("CC", "cc"), "-shared", "-fPIC", "-O1", "-o", place,
                    os.path.join(HERE, "faulty_sockets.c"), "-ldl"], check=True)
    return place


def test_short_writes(program, folder, library):
    """Every write to a socket takes half of the bytes: each client is still told all, and the trail says the same."""
    os.environ.update(LD_PRELOAD=library, SHORT_WRITES="1")
    try:
        test_serve.test(program, "unix:" + os.path.join(folder, "short"), 4, 50)
    finally:
        del os.environ["LD_PRELOAD"], os.environ["SHORT_WRITES"]


def test_refused_connection(program, folder, library):
    """The second connection is refused: the first is served to its end, and the server tells of the fault by status 7."""
    address = "unix:" + os.path.join(folder, "refused")
    names = dict(os.environ, LD_PRELOAD=library, REFUSED_ACCEPT="2")
    with tempfile.TemporaryFile() as output:
        server = subprocess.Popen([program, "serve", "--listen", address, "--links", "2"],
                                  stdin=subprocess.DEVNULL, stdout=output, stderr=subprocess.PIPE, env=names)
        try:
            first_line(server)
            client = Client(address, 1, 0)
            with connected(address) as client.link:
                client.ask(OPEN_FOLLOWING)
            status = server.wait(PATIENCE)
            told = server.stderr.read()
            assert (status, told) == (7, b"tardis: gate fault\n"), (status, told)
            output.seek(0)
            entries = bodies_of(output.read())
            assert [entry[:3] for entry in entries] == [b"\0\1\1", b"\0\1\x15"], entries
        finally:
            stop(server)
    print("a refused connection is told")


def keep_busy(address, requests, faults):
    """Asks again and again, without waiting for a reply before the next request."""
    try:
        with connected(address) as link:
            asks = frame(OPEN_FOLLOWING) + frame(STAT) * requests
            sender = threading.Thread(target=link.sendall, args=(asks,), daemon=True)
            sender.start()
            count, more = 0, b"."
            while more and count < REPLY * requests:
                more = link.recv(1 << 16)
                count += len(more)
            sender.join(PATIENCE)
    except Exception as fault:  # told by the main thread
        faults.append(fault)


def sleepers(process):
    """How many of its threads sleep until another wakes them. One that waits for another's end isn't counted."""
    count = 0
    for thread in os.listdir("/proc/%d/task" % process.pid):
        try:
            with open("/proc/%d/task/%s/syscall" % (process.pid, thread), encoding="ascii") as file:
                words = file.read().split()
            count += words[0] == FUTEX and words[2] != JOIN
        except (FileNotFoundError, ProcessLookupError):
            pass
    return count


def computed(process):
    """How long it has computed, in the ticks of the system."""
    with open("/proc/%d/stat" % process.pid, encoding="ascii") as file:
        return sum(map(int, file.read().rpartition(")")[2].split()[11:13]))


def serve_busy(program, address, requests, look):
    """Serves many sessions that ask at once, and looks at the server until they are done. Where it computes nothing meanwhile
    for long, a session sleeps for good. One more link is waited for, so that the server goes on."""
    server = subprocess.Popen([program, "serve", "--listen", address, "--links", str(BUSY + 1)], stdin=subprocess.DEVNULL,
                              stdout=subprocess.DEVNULL, stderr=subprocess.PIPE)
    try:
        first_line(server)
        faults, last, since, end = [], None, time.monotonic(), time.monotonic() + PATIENCE_OF_ALL
        clients = [threading.Thread(target=keep_busy, args=(address, requests, faults), daemon=True) for _ in range(BUSY)]
        for client in clients:
            client.start()
        while any(client.is_alive() for client in clients):
            now = computed(server)
            if now != last:
                last, since = now, time.monotonic()
            assert time.monotonic() < since + PATIENCE, "sessions wait, and all threads sleep"
            assert time.monotonic() < end, "sessions wait"
            look(server)
            time.sleep(0.001)
        assert not faults, faults
        connected(address).close()
        assert server.wait(PATIENCE) == 0
    finally:
        stop(server)


def test_sleep(program, folder, requests):
    """While many sessions ask at once, some are found asleep."""
    looks = []
    serve_busy(program, "unix:" + os.path.join(folder, "busy"), requests, lambda server: looks.append(sleepers(server) > 0))
    assert any(looks), "in %d looks no session that waits was asleep" % len(looks)
    print("asleep in %d of %d looks" % (sum(looks), len(looks)))


def main():
    program = os.path.abspath(sys.argv[1]) if sys.argv[1:] else os.path.join(TOP, "crates/tardis/out/tardis")
    requests = int(sys.argv[2]) if sys.argv[2:] else REQUESTS
    folder = tempfile.mkdtemp()
    try:
        library = built(folder)
        test_short_writes(program, folder, library)
        test_refused_connection(program, folder, library)
        if FUTEX:
            test_sleep(program, folder, requests)
    finally:
        shutil.rmtree(folder)


if __name__ == "__main__":
    main()
