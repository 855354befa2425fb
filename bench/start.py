#!/usr/bin/env python3
"""Measures how long `tardisd --file` takes to start on its file, by how many records that has.

usage: bench/start.py [--tardisd PROGRAM] [--folder FOLDER] [--kept STATES] [RECORDS ..]

The file is made in FOLDER, the folder that this is called in where none is named, by a server that collects and a client that commits so
many transactions of one key of its own, of 32 bytes, each at once and the next once it was answered, since pipelining outruns the collection; it is removed.
With --kept another client then commits so many states of 1,000 bytes, each of another key, which a session holds, so that none of them is
collected. Then the server is killed and started again, three times.
A line tells how many records there are, how many bytes their log has and had at most, the transactions a second that made it, the
longest that a third client, which asks for nothing but figures, was not answered meanwhile, the most memory that the server held, and
the least seconds from starting a server to its line that it listens, and the most memory that it held then. The client is `client.c`,
which needs a C compiler (`cc`, or $CC)."""

import argparse
import os
import struct
import subprocess
import tempfile
import threading
import time

from client import PATIENCE, TOP, Asker, ask, built, ended
from serve import address

RECORDS = [15_000, 100_000, 1_000_000]
RUNS = 3
# The fewest records a second that are waited for.
SLOWEST = 2_000


def started(program, folder, socket, *words):
    """A server on the file of the folder, once it listens, and how long that took."""
    began = time.perf_counter()
    process = subprocess.Popen([program, "--listen", "unix:" + socket, "--file", os.path.join(folder, "log"), *words],
                               stdin=subprocess.DEVNULL, stdout=subprocess.DEVNULL, stderr=subprocess.PIPE)
    line = process.stderr.readline().decode()
    if " listens at " not in line:
        raise SystemExit("bench/start.py: " + line)
    return process, time.perf_counter() - began


def most_memory(process):
    """The most bytes that it held at once."""
    with open("/proc/%d/status" % process.pid, encoding="ascii") as file:
        return next(1024 * int(line.split()[1]) for line in file if line.startswith("VmHWM"))


class Watch(threading.Thread):
    """Asks for figures again and again, and notes the longest wait and the longest file."""

    def __init__(self, socket, path):
        super().__init__()
        self.asker, self.path, self.over = Asker(socket), path, threading.Event()
        self.longest = self.bytes = 0

    def run(self):
        while not self.over.wait(0.002):
            began = time.perf_counter()
            self.asker.ask(STAT)
            self.longest = max(self.longest, time.perf_counter() - began)
            self.bytes = max(self.bytes, os.path.getsize(self.path))


# Requests of docs/FORMATS.md: figures; a session that stays where it is, and one that follows its commits; a transaction at the
# newest state, and its commit.
STAT, OPEN, FOLLOW, BEGIN, COMMIT = b"\x10", b"\x01\x00", b"\x01\x01", b"\x02\x00", b"\x06\x01\x00\x00"


def hold(socket, states):
    """Commits so many states, which a session holds."""
    holder, writer = Asker(socket), Asker(socket)
    holder.ask(OPEN)
    writer.ask(FOLLOW)
    for number in range(states):
        key = b"kept%08d" % number
        put = b"\x04" + struct.pack(">B", len(key)) + key + struct.pack(">H", 1000) + b"v" * 1000
        told = writer.ask(BEGIN, put, COMMIT)
        if told[2][:1] != b"\x08":
            raise SystemExit("bench/start.py: a commit was answered %s" % told[2].hex())
    return holder, writer


def written(client, program, folder, socket, records, states):
    """Makes a log of so many records, and of so many states that are kept. Tells how many were made a second, the longest wait of
    somebody else, the longest file, and the most memory."""
    process, _ = started(program, folder, socket, "--tidy")
    watch = Watch(socket, os.path.join(folder, "log"))
    try:
        watch.start()
        rate = ask(client, process, ["-f", "-n", records, "tardis", "transactions", "together", "unix:" + socket],
                   patience=max(PATIENCE, records / SLOWEST))["rate"]
        # both stay connected until the server is killed
        _sessions = hold(socket, states) if states else ()
        watch.over.set()
        watch.join()
        return rate, watch.longest, watch.bytes, most_memory(process)
    finally:
        watch.over.set()
        ended(process)
        process.stderr.close()


def length_of_text(path):
    """How many bytes of the file stand before the zeros at its end."""
    size, step = os.path.getsize(path), 1 << 20
    with open(path, "rb") as file:
        while size > 0:
            start = max(0, size - step)
            file.seek(start)
            left = file.read(size - start).rstrip(b"\0")
            if left:
                return start + len(left)
            size = start
    return 0


def main():
    parser = argparse.ArgumentParser(description=__doc__, formatter_class=argparse.RawDescriptionHelpFormatter)
    parser.add_argument("--tardisd", default=os.path.join(TOP, "crates", "tardisd", "out", "tardisd"))
    parser.add_argument("--folder", default=".")
    parser.add_argument("--kept", type=int, default=0)
    parser.add_argument("records", nargs="*", type=int, default=RECORDS)
    told = parser.parse_args()
    program = os.path.abspath(told.tardisd)
    with tempfile.TemporaryDirectory() as short:
        client, socket = built(short), address(short)
        for records in told.records:
            with tempfile.TemporaryDirectory(dir=os.path.abspath(told.folder)) as folder:
                rate, wait, longest, held = written(client, program, folder, socket, records, told.kept)
                times, memory = [], 0
                for _ in range(RUNS):
                    process, seconds = started(program, folder, socket)
                    times.append(seconds)
                    memory = max(memory, most_memory(process))
                    ended(process)
                    process.stderr.close()
                print("%9d records, %11d bytes, %11d at most: written at %8.0f a second, %6.1f ms without an answer at most, %.1f MB; "
                      "a start %7.3f s, %.1f MB" % (
                          records, length_of_text(os.path.join(folder, "log")), longest, rate, 1000 * wait, held / (1 << 20),
                          min(times), memory / (1 << 20)), flush=True)


if __name__ == "__main__":
    main()
