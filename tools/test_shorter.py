#!/usr/bin/env python3
"""Kills `tardisd --file` while it writes so much that it tells its log shorter again and again, and looks at what the next one has.

usage: tools/test_shorter.py [TARDISD [KILLS [SEED]]]

The program is the one that the last build left, unless another is named; it is killed 40 times, unless told otherwise. A client commits
values of 3,900 bytes to 2,000 keys in turn, 20 transactions at once, as a session that follows its commits, at a server that collects:
so 16 MiB are written within a second or two, and the server puts a shorter log in their place, of some 8 MB. After each kill, at a moment that chance
chooses (SEED), half of them while the shorter log is written beside the old one or just takes its place, it is seen that

- a check finds the file good, whole or with a torn end;
- the next server starts, each key has the value that was told last, or a later one that was asked for, and the newest state is one that
  was asked for;
- nothing is left beside the file but what the next start takes away; and the file stays as short as is said."""

import os
import random
import struct
import subprocess
import sys
import tempfile
import threading
import time

HERE = os.path.dirname(os.path.abspath(__file__))
TOP = os.path.dirname(HERE)
sys.path[:0] = [os.path.join(TOP, "clients", "python"), os.path.join(TOP, "bench")]

from client import Asker  # noqa: E402
from servers import PATIENCE, first_line, stop  # noqa: E402

KEYS, BATCH, SIZE = 2_000, 20, 3_900
LONGEST = 2 * 16_777_216
OPEN, FOLLOW, BEGIN, COMMIT, ABORT = b"\x01\x00", b"\x01\x01", b"\x02\x00", b"\x06\x01\x00\x00", b"\x07"


def key(number):
    name = b"key%04d" % (number % KEYS)
    return bytes([len(name)]) + name


def value(number):
    return (b"%010d" % number).ljust(SIZE, b".")


def put(number):
    return b"\x04" + key(number) + struct.pack(">H", SIZE) + value(number)


def started(program, path):
    server = subprocess.Popen([program, "--listen", "unix:" + path + ".socket", "--file", path, "--tidy"], stdin=subprocess.DEVNULL,
                              stdout=subprocess.DEVNULL, stderr=subprocess.PIPE)
    line = first_line(server)
    assert " listens at " in line, line
    return server


def kill(server, path, choose):
    """Kills the server after a while, or soon after a shorter log stands beside its file."""
    end = time.monotonic() + choose.uniform(0.3, 5)
    if choose.randrange(2):
        end = time.monotonic() + PATIENCE
        while not os.path.exists(path + ".new") and time.monotonic() < end:
            time.sleep(0.0005)
        end = time.monotonic() + choose.uniform(0, 0.01)
    time.sleep(max(0, end - time.monotonic()))
    server.kill()


def write(path, number, end):
    """Commits from this number on until the server is gone or the time is over: the last one that was told, and that was asked for."""
    asker = Asker(path + ".socket", PATIENCE)
    assert next(asker.replies(FOLLOW))[:1] == b"\x01"
    told = number - 1
    while time.monotonic() < end:
        asked = [request for at in range(number, number + BATCH) for request in (BEGIN, put(at), COMMIT)]
        for place, reply in enumerate(asker.replies(*asked)):
            if reply is None:
                return told, number + BATCH - 1
            if place % 3 == 2:
                assert reply[:1] == b"\x08", reply
                told += 1
        number += BATCH
    return told, number - 1


def look(path, told, asked):
    """Looks at what a server has: the newest number."""
    asker = Asker(path + ".socket", PATIENCE)
    assert next(asker.replies(OPEN))[:1] == b"\x01"
    replies = []
    for first in range(0, KEYS, BATCH):
        replies += list(asker.replies(BEGIN, *[b"\x03" + key(number) for number in range(first, first + BATCH)], ABORT))[1:-1]
    found = []
    for number, reply in enumerate(replies):
        last_told = told - (told - number) % KEYS if told >= number else None
        if reply[:1] == b"\x05" or reply[:1] != b"\x04":
            assert last_told is None, (number, told, reply[:20])
            continue
        got = reply[9:]
        read = int(got[:10])
        assert got == value(read) and read % KEYS == number and (last_told is None or last_told <= read) and read <= asked, (number, told, read, asked)
        found.append(read)
    return max(found, default=-1)


def main():
    program = os.path.abspath(sys.argv[1] if len(sys.argv) > 1 else os.path.join(TOP, "crates", "tardisd", "out", "tardisd"))
    kills = int(sys.argv[2]) if len(sys.argv) > 2 else 40
    seed = int(sys.argv[3]) if len(sys.argv) > 3 else random.randrange(1 << 32)
    choose = random.Random(seed)
    told = asked = newest = -1
    torn = beside = longest = 0
    with tempfile.TemporaryDirectory() as folder:
        path = os.path.join(folder, "log")
        for _ in range(kills):
            server = started(program, path)
            assert not os.path.exists(path + ".new"), "a start left what a crash had left"
            newest = look(path, told, asked)
            killer = threading.Thread(target=kill, args=(server, path, choose))
            killer.start()
            told, asked = write(path, newest + 1, time.monotonic() + 2 * PATIENCE)
            killer.join()
            stop(server)
            beside += os.path.exists(path + ".new")
            longest = max(longest, os.path.getsize(path))
            done = subprocess.run([program, "--check", "--file", path], stdout=subprocess.PIPE, stderr=subprocess.PIPE, timeout=PATIENCE)
            assert done.returncode == 0, done
            torn += b"end torn" in done.stdout
        server = started(program, path)
        newest = look(path, told, asked)
        stop(server)
    assert longest <= LONGEST, longest
    print("%d kills in %d commits: %d ends were torn, and %d times a shorter log stood beside; at most %d bytes; seed %d" % (
        kills, newest + 1, torn, beside, longest, seed), flush=True)


if __name__ == "__main__":
    main()
