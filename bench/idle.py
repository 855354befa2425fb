#!/usr/bin/env python3
"""Measures `tardisd` under 50 clients that ask by turns, alone and beside connections that ask nothing.

usage: bench/idle.py [--tardisd PROGRAM] [--connections N] [--idle SECONDS]

The program is the one that the last build left. It has room for N connections (4,096); all but those of the 50 clients are open,
each with a session, and ask nothing. With --idle the server ends those that ask nothing for so long, and so looks for them. A line
tells, as the best of three runs that were made in turns: so many transactions or reads a second; the microseconds of a processor
that the server took of one, which hardly depends on what else the machine does; and the microseconds from asking to the reply, of 50
and of 99 in 100. At the end stands how much memory the server took for a connection that asks nothing. It needs Linux and a C
compiler (`cc`, or $CC), and the system has to let each of both have N files open (`ulimit -n`).
"""

import argparse
import os
import resource
import socket
import struct
import subprocess
import sys
import tempfile
import time

from client import TOP, ask, best, built, ended

BUSY, RUNS = 50, 3
COUNTS = {"transactions": 15_000, "reads": 100_000}
# Open, and its reply
ASKED, TOLD = struct.pack(">I", 2) + b"\x01\x00", 11


def resident(process):
    with open("/proc/%d/status" % process.pid) as file:
        return next(int(line.split()[1]) for line in file if line.startswith("VmRSS"))


def opened(path):
    """A connection with a session."""
    made = socket.socket(socket.AF_UNIX)
    for _ in range(500):
        try:
            made.connect(path)
            break
        except (FileNotFoundError, ConnectionRefusedError, BlockingIOError):
            time.sleep(0.01)
    made.sendall(ASKED)
    told = made.recv(100)
    if len(told) != TOLD:
        sys.exit("bench/idle.py: a session was told %r" % told)
    return made


def measured(client, words, idle, what):
    """What the client tells of a server that is started for this alone, and how many KiB it took for each idle connection."""
    with tempfile.TemporaryDirectory() as folder:
        path = os.path.join(folder, "s")
        process = subprocess.Popen([*words, "--listen", "unix:" + path], stdin=subprocess.DEVNULL, stdout=subprocess.DEVNULL,
                                   stderr=subprocess.DEVNULL)
        held = []
        try:
            opened(path).close()
            before = resident(process)
            held = [opened(path) for _ in range(idle)]
            took = (resident(process) - before) / max(idle, 1)
            told = ask(client, process, ["-c", BUSY, "-t", 2, "-n", COUNTS[what], "tardis", what, "turns", "unix:" + path])
            return told, took
        finally:
            for connection in held:
                connection.close()
            ended(process)


def main():
    parser = argparse.ArgumentParser(description=__doc__, formatter_class=argparse.RawDescriptionHelpFormatter)
    parser.add_argument("--tardisd", default=os.path.join(TOP, "crates", "tardisd", "out", "tardisd"))
    parser.add_argument("--connections", type=int, default=4096)
    parser.add_argument("--idle", type=int)
    told = parser.parse_args()
    most = resource.getrlimit(resource.RLIMIT_NOFILE)[1]
    resource.setrlimit(resource.RLIMIT_NOFILE, (min(most, told.connections + 100), most))
    words = [told.tardisd, "--connections", str(told.connections), "--sessions", str(told.connections)]
    if told.idle is not None:
        words += ["--idle", str(told.idle)]
    took = []
    with tempfile.TemporaryDirectory() as folder:
        client = built(folder)
        print("%-34s %11s %12s %11s %11s" % ("%d by turns" % BUSY, "a second", "processor us", "50% us", "99% us"))
        for what in COUNTS:
            beside = (0, told.connections - BUSY)
            rounds = [[measured(client, words, idle, what) for idle in beside] for _ in range(RUNS)]
            for idle, runs in zip(beside, zip(*rounds)):
                row = best([run for run, _ in runs])
                print("%-34s %11.0f %12.2f %11.1f %11.1f" % ("%s, %d idle beside" % (what, idle), row["rate"], row["server"], row["p50"], row["p99"]),
                      flush=True)
                took += [each for _, each in runs if idle]
    print("%.1f KiB for a connection that asks nothing" % min(took))


if __name__ == "__main__":
    main()
