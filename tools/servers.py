"""What the tests of servers share."""

import contextlib
import os
import select
import socket
import subprocess
import sys
import threading
import time

TOP = os.path.dirname(os.path.dirname(os.path.abspath(__file__)))
sys.path[:0] = [it for it in [os.path.join(TOP, "clients", "python")] if it not in sys.path]

import tardis  # noqa: E402

# No wait is longer, in seconds.
PATIENCE = 20


def first_line(process):
    """The first line that a server writes on standard error, which it does once it listens. Where it ends without one, or
    takes too long, it is killed."""
    line, end = b"", time.monotonic() + PATIENCE
    while not line.endswith(b"\n"):
        ready, _, _ = select.select([process.stderr], [], [], max(0, end - time.monotonic()))
        more = os.read(process.stderr.fileno(), 1000) if ready else b""
        if not more:
            status = process.poll()
            stop(process)
            raise AssertionError("the server didn't listen (%s): %r" % ("no line in time" if status is None else "it ended with %d" % status, line))
        line += more
    return line.decode()


def stop(process):
    """Kills a server, and waits until it is gone."""
    process.kill()
    process.wait(PATIENCE)
    for stream in (process.stdout, process.stderr):
        if stream:
            stream.close()


def free_port():
    """A port of this machine that nobody listens at."""
    with socket.socket() as probe:
        probe.bind(("127.0.0.1", 0))
        return probe.getsockname()[1]


def until(what, seconds=PATIENCE, of="it"):
    """Waits until the call gives something, and gives that."""
    end = time.monotonic() + seconds
    while True:
        found = what()
        if found:
            return found
        assert time.monotonic() < end, "%s didn't come within %d seconds" % (of, seconds)
        time.sleep(0.02)


class Server:
    """A server at a door for all. What it writes on standard error is kept, line by line."""

    #: of each that is started from now on
    program = os.path.join(TOP, "tardisd")

    def __init__(self, address, *words):
        self.address, self.words, self.lines = address, words, []
        self.start()

    def start(self):
        self.process = subprocess.Popen([self.program, "--listen", self.address, *self.words], stdin=subprocess.DEVNULL,
                                        stdout=subprocess.DEVNULL, stderr=subprocess.PIPE, text=True)
        self.began = count = len(self.lines)
        threading.Thread(target=self.read, args=(self.process.stderr,), daemon=True).start()
        until(lambda: len(self.lines) > count or self.process.poll() is not None, 120, "a server")
        assert " listens " in self.lines[count], self.lines[count:]

    def read(self, stream):
        with stream:
            for line in stream:
                self.lines.append(line.rstrip("\n"))

    def kill(self):
        self.process.kill()
        self.process.wait(PATIENCE)

    def connect(self):
        return tardis.connect(self.address, PATIENCE)

    def told(self, of):
        """What it told of the peer at an address since it was started last."""
        head = "tardisd: peer %s: " % of
        return [line[len(head):] for line in self.lines[self.began:] if line.startswith(head)]

    def commit(self, **writes):
        """A transaction at the newest state."""
        with self.connect() as site:
            site.open(follow=True)
            with site.transaction("any") as txn:
                for key, value in writes.items():
                    txn.put(key.encode(), value)
            return txn.committed

    def stat(self):
        with self.connect() as site:
            return site.stat()

    def counts(self):
        return [line.count for line in self.stat().sites]

    def records(self):
        """The records of all states that are kept, by Pull, a batch at a time."""
        found = {}
        with self.connect() as site:
            counts = [0 for _ in site.stat().sites]
            while True:
                batch = site.pull(counts)
                fresh = [record for record in batch.records if record.id not in found]
                if not fresh:
                    return found
                for record in fresh:
                    found[record.id] = record
                    counts[record.id.site - 1] = max(counts[record.id.site - 1], record.id.sequence)

    def read_at_leaves(self):
        """The leaves, and what is read at each."""
        with self.connect() as site:
            return {leaf: dict(site.scan(leaf)) for leaf in site.leaves().first}


@contextlib.contextmanager
def running(*servers):
    """All of these are killed in the end."""
    try:
        yield servers
    finally:
        for server in servers:
            server.kill()


def are_equal(*servers):
    """Whether all know the same states, and read the same at the same leaves."""
    try:
        counts = [server.counts() for server in servers]
        return all(it == counts[0] for it in counts) and all(it.read_at_leaves() == servers[0].read_at_leaves() for it in servers)
    except (OSError, tardis.ProtocolError, tardis.Refused):
        return False
