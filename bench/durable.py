#!/usr/bin/env python3
"""Measures `tardisd --file` and `tardis durable` beside `redis-server` with a log that is synced before each answer, in the same run.

usage: bench/durable.py [--tardisd PROGRAM] [--tardis PROGRAM] [--redis PROGRAM] [--folder FOLDER]

The programs are those that the last build left and the redis-server on the PATH; one that isn't there is left out. The
files are made in FOLDER, the folder that this is called in where none is named, and removed: its disk is what is measured.

A shape is how many connections ask, and how: by turns each request once the reply to the one before came; by fours each transaction
at once, once the replies to the one before came; pipelined all at once. Under it is a line for each server, each figure the best of
three runs that were made in turns: so many transactions a second; the microseconds of a processor that the server took of one; the
microseconds from asking to the reply, of 50 and of 99 in 100; and how busy the client's threads were. A transaction of a site is begin,
get, put, commit; one of Redis is WATCH, GET, MULTI, SET, EXEC. `tardisd` without a file stands beside them: what a file costs. The
servers speak over Unix sockets, `tardis durable` over pipes with one client. The client is `client.c`, which needs a C compiler (`cc`,
or $CC).
"""

import argparse
import collections
import os
import shutil
import subprocess
import tempfile

from client import TOP, ask, built, ended
from serve import RUNS, address, best_row, of_redis, of_tardisd

COUNTS = (("1 by turns", 1, "turns", 2_000), ("1 by fours", 1, "together", 4_000), ("8 by turns", 8, "turns", 8_000),
          ("50 by turns", 50, "turns", 15_000), ("200 by turns", 200, "turns", 15_000), ("1 pipelined", 1, "pipelined", 15_000))

Kind = collections.namedtuple("Kind", "name most measure program")


def of_durable(client, program, folder, many, how, count):
    words = [program, "durable", "--file", os.path.join(folder, "journal")]
    process = subprocess.Popen(words, stdin=subprocess.PIPE, stdout=subprocess.PIPE, bufsize=0)
    pipes = process.stdout.fileno(), process.stdin.fileno()
    try:
        return ask(client, process, ["-n", count, "tardis", "transactions", how, "pipes:%d:%d" % pipes], pipes)
    finally:
        ended(process)


def over_socket(made, *options):
    """What measures a server that is started with these options, in which {} is the folder of its files."""
    def measure(client, program, folder, many, how, count):
        server = made(program, *[option.format(folder) for option in options])
        # (a socket's path has at most 107 bytes, and Redis goes to its folder before it makes the socket)
        with tempfile.TemporaryDirectory() as short:
            process = subprocess.Popen(server.words(short, many), stdin=subprocess.DEVNULL, stdout=subprocess.DEVNULL, stderr=subprocess.DEVNULL)
            try:
                return ask(client, process, [
                    "-c", many, "-t", 2 if many >= 8 else 1, "-n", count, server.speaks, "transactions", how, "unix:" + address(short)])
            finally:
                ended(process)
    return measure


def measured(kind, client, place, many, how, count):
    with tempfile.TemporaryDirectory(dir=place) as folder:
        return kind.measure(client, kind.program, folder, many, how, count)


def kinds():
    """The servers that there are, and where their files are made."""
    parser = argparse.ArgumentParser(description=__doc__, formatter_class=argparse.RawDescriptionHelpFormatter)
    parser.add_argument("--tardisd", default=os.path.join(TOP, "crates", "tardisd", "out", "tardisd"))
    parser.add_argument("--tardis", default=os.path.join(TOP, "crates", "tardis", "out", "tardis"))
    parser.add_argument("--redis", default=shutil.which("redis-server") or "")
    parser.add_argument("--folder", default=".")
    told = parser.parse_args()
    tardisd = os.path.abspath(told.tardisd)
    every = [
        Kind("tardisd --file", 256, over_socket(of_tardisd, "--file", "{}/log"), tardisd),
        Kind("redis-server", 10_000, over_socket(of_redis, "--appendonly", "yes", "--appendfsync", "always", "--dir", "{}"), told.redis),
        Kind("tardis durable", 1, of_durable, os.path.abspath(told.tardis)),
        Kind("tardisd, in memory", 256, over_socket(of_tardisd), tardisd),
    ]
    return [kind for kind in every if os.access(kind.program, os.X_OK)], os.path.abspath(told.folder)


def main():
    found, place = kinds()
    with tempfile.TemporaryDirectory() as folder:
        client = built(folder)
        print("%-26s %11s %12s %11s %11s %7s" % ("", "a second", "processor us", "50% us", "99% us", "client"))
        for title, many, how, count in COUNTS:
            print(title)
            taking = [kind for kind in found if many <= kind.most]
            rounds = [[measured(kind, client, place, many, how, count) for kind in taking] for _ in range(RUNS)]
            for kind, runs in zip(taking, zip(*rounds)):
                print("    %-22s %11.0f %12.2f %11.1f %11.1f %6.0f%%" % (kind.name, *best_row(runs)), flush=True)


if __name__ == "__main__":
    main()
