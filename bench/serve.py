#!/usr/bin/env python3
"""Measures `tardisd` and `tardis serve` beside `redis-server`, over Unix sockets, in the same run.

usage: bench/serve.py [--tardisd PROGRAM] [--tardis PROGRAM] [--redis PROGRAM]

The programs are those that the last build left and the redis-server on the PATH (Debian: `apt-get install redis-server`); one
that isn't there is left out. A shape is the connections, whether requests are pipelined (all sent at once) or each waits for
the reply to the one before, and what is asked. Under it is a line for each server, each figure the best of three runs that were
made in turns: so many transactions or reads a second; the microseconds of a processor that the server took of one, which hardly
depends on what else the machine does; the microseconds from asking to the reply, of 50 and of 99 in 100; and how busy the
client's threads were: near 100% it was the bound.

A transaction of `tardisd` is begin, get, put, commit; one of Redis is WATCH, GET, MULTI, SET, EXEC. Each connection has its own
key of a value of 32 bytes. Redis keeps all in memory, without snapshots or a log. The client is `client.c`, with two threads from
8 connections on. It needs Linux and a C compiler (`cc`, or $CC).
"""

import argparse
import collections
import os
import shutil
import subprocess
import tempfile

from client import TOP, ask, best, built, ended

TRANSACTIONS, READS, PIPELINED_READS = 15_000, 100_000, 2_000_000
RUNS = 3
SHAPES = [(how, many, what) for how, many in (("pipelined", 1), ("turns", 1), ("turns", 8), ("turns", 50), ("turns", 250))
          for what in ("transactions", "reads")]

Server = collections.namedtuple("Server", "name speaks most words")


def of_tardisd(program, *options):
    return Server("tardisd", "tardis", 256, lambda folder, many: [program, "--listen", "unix:" + address(folder), *options])


def of_serve(program):
    return Server("tardis serve", "tardis", 64, lambda folder, many: [
        program, "serve", "--listen", "unix:" + address(folder), "--links", str(many)])


def of_redis(program, *options):
    return Server("redis-server", "redis", 10_000, lambda folder, many: [
        program, "--port", "0", "--unixsocket", address(folder), "--save", "", *(options or ("--appendonly", "no", "--dir", folder))])


def address(folder):
    return os.path.join(folder, "s")


def measured(client, server, how, many, what):
    """What the client tells of a server that is started for this alone."""
    count = TRANSACTIONS if what == "transactions" else PIPELINED_READS if how == "pipelined" else READS
    with tempfile.TemporaryDirectory() as folder:
        process = subprocess.Popen(
            server.words(folder, many), stdin=subprocess.DEVNULL, stdout=subprocess.DEVNULL, stderr=subprocess.DEVNULL)
        try:
            return ask(client, process, [
                "-c", many, "-t", 2 if many >= 8 else 1, "-n", count, server.speaks, what, how, "unix:" + address(folder)])
        finally:
            ended(process)


def servers():
    """The servers that there are."""
    parser = argparse.ArgumentParser(description=__doc__, formatter_class=argparse.RawDescriptionHelpFormatter)
    parser.add_argument("--tardisd", default=os.path.join(TOP, "crates", "tardisd", "out", "tardisd"))
    parser.add_argument("--tardis", default=os.path.join(TOP, "crates", "tardis", "out", "tardis"))
    parser.add_argument("--redis", default=shutil.which("redis-server") or "")
    told = parser.parse_args()
    named = [(of_tardisd, told.tardisd), (of_serve, told.tardis), (of_redis, told.redis)]
    return [made(program) for made, program in named if os.access(program, os.X_OK)]


def main():
    found = servers()
    with tempfile.TemporaryDirectory() as folder:
        client = built(folder)
        print("%-26s %11s %12s %11s %11s %7s" % ("", "a second", "processor us", "50% us", "99% us", "client"))
        for how, many, what in SHAPES:
            print("%d %s, %s" % (many, "pipelined" if how == "pipelined" else "by turns", what))
            taking = [server for server in found if many <= server.most]
            rounds = [[measured(client, server, how, many, what) for server in taking] for _ in range(RUNS)]
            for server, runs in zip(taking, zip(*rounds)):
                print("    %-22s %11.0f %12.2f %11.1f %11.1f %6.0f%%" % (server.name, *best_row(runs)), flush=True)


def best_row(runs):
    told = best(runs)
    return [told[name] for name in ("rate", "server", "p50", "p99", "busy")]


if __name__ == "__main__":
    main()
