#!/usr/bin/env python3
"""test_files.py PROGRAM: what `PROGRAM durable --file PATH` asks of the system, and in which order.

No contract can say what a file of the system keeps. This looks at the calls instead: `watch_files.c`, laid before them, tells
those that touch files. It needs a C compiler (`cc`, or $CC) and Linux. It is seen that

- a reply is written only when all that was written to the file, or cut off it, was synced; after a cut by a full sync;
- a system that writes and reads at most three bytes at once leaves the same file, and gets the same replies;
- the folder of the path is synced before the first reply;
- what is no regular file is opened, and then left alone: nothing is locked, read, written, cut or synced of it."""
import os
import shlex
import struct
import subprocess
import sys
import tempfile

HERE = os.path.dirname(os.path.abspath(__file__))
# The run ends; its wait ends sooner.
PATIENCE = 60
WELL, DISK_FAULT = 0, 10
# The requests of an actor: open, and transactions of one put.
ACTOR = b"\x00\x01"


def frame(body):
    return struct.pack(">I", len(body)) + body


def some_requests(count):
    yield ACTOR + b"\x01\x00"
    for number in range(count):
        value = b"%d" % number
        yield ACTOR + b"\x02\x00"
        yield ACTOR + b"\x04\x01x\x00" + bytes([len(value)]) + value
        yield ACTOR + b"\x06\x01\x00\x00"


def length_of_reply(data):
    """The length of the whole frame at the front, or 0."""
    return 4 + struct.unpack(">I", data[:4])[0] if len(data) >= 4 else 0


class Watched:
    """A run that was watched: its status, its replies and its calls."""

    def __init__(self, program, shim, path, requests, most=None):
        self.told, tell = os.pipe()
        names = dict(os.environ, LD_PRELOAD=shim, WATCHED_TELL=str(tell), **({"WATCHED_MOST": str(most)} if most else {}))
        run = subprocess.Popen([program, "durable", "--file", path], stdin=subprocess.PIPE, stdout=subprocess.PIPE,
                               stderr=subprocess.DEVNULL, env=names, pass_fds=[tell], bufsize=0)
        os.close(tell)
        self.replies = by_turns(run, requests)
        run.stdin.close()
        self.replies += run.stdout.read()
        self.status = run.wait(PATIENCE)
        with os.fdopen(self.told, "rb") as lines:
            self.calls = [line.split(" ", 2) for line in lines.read().decode().splitlines()]

    def descriptor(self, path):
        """The descriptor at which the path was opened."""
        found = [int(call[1]) for call in self.calls if call[0] == "open" and call[2] == path]
        assert len(found) == 1, "%s was opened %d times" % (path, len(found))
        return found[0]

    def of(self, descriptor):
        """The calls at a descriptor, but for its opening."""
        return [call for call in self.calls if call[0] != "open" and int(call[1]) == descriptor]


def by_turns(run, requests):
    """The replies to requests, each asked when the one before was answered; those that came where the run ended."""
    held = b""
    replies = b""
    for request in requests:
        try:
            run.stdin.write(frame(request))
        except BrokenPipeError:
            return replies
        while not 0 < length_of_reply(held) <= len(held):
            more = os.read(run.stdout.fileno(), 65536)
            if not more:
                return replies
            held += more
        replies += held
        held = b""
    return replies


def is_in_order(watched, path):
    """Looks at each reply, whether all that was done to the file before was synced. Tells how many replies and syncs there were."""
    file = watched.descriptor(path)
    pending, was_cut, syncs, writes = [], False, 0, 0
    for call in watched.calls:
        name = call[0]
        if name == "write":
            assert not pending, "a reply was written before a sync: %r" % pending
            writes += 1
        elif name != "open" and int(call[1]) == file:
            if name.startswith("pwrite"):
                pending.append(call)
            elif name.startswith("ftruncate"):
                pending.append(call)
                was_cut = True
            elif name in ("fsync", "fdatasync"):
                assert name == "fsync" or not was_cut, "a cut was synced by %s" % name
                pending, was_cut, syncs = [], False, syncs + 1
    assert not pending, "the run ended before a sync: %r" % pending
    return writes, syncs


def folder_is_synced(watched, folder):
    """Whether the folder was synced before the first reply."""
    file = watched.descriptor(folder)
    for call in watched.calls:
        if call[0] == "write":
            break
        if call[0] in ("fsync", "fdatasync") and int(call[1]) == file:
            return
    raise AssertionError("the folder wasn't synced before the first reply")


def bytes_of(path):
    with open(path, "rb") as file:
        return file.read()


def built(folder):
    """The library that tells the calls, built."""
    shim = os.path.join(folder, "watch_files.so")
    cc = shlex.split(os.environ.get("CC") or "cc")
    subprocess.run([*cc, "-O2", "-shared", "-fPIC", "-o", shim, os.path.join(HERE, "watch_files.c"), "-ldl"], check=True)
    return shim


def is_kept(program, shim, folder, requests):
    """A run on a new file, and one on a file whose end is torn."""
    path = os.path.join(folder, "journal")
    new = Watched(program, shim, path, requests)
    assert new.status == WELL, "the run ended with %d" % new.status
    writes, syncs = is_in_order(new, path)
    assert writes == len(requests), "%d requests by turns had %d writes" % (len(requests), writes)
    # the opening has two, and each request's group two
    assert syncs >= 2 * len(requests), "%d requests by turns had %d syncs" % (len(requests), syncs)
    folder_is_synced(new, folder)
    whole = bytes_of(path)
    with open(path, "ab") as file:
        file.write(b"torn")
    again = Watched(program, shim, path, [])
    assert again.status == WELL, "the run on a torn file ended with %d" % again.status
    assert any(call[0].startswith("ftruncate") for call in again.of(again.descriptor(path))), "the torn end wasn't cut off"
    is_in_order(again, path)
    assert bytes_of(path) == whole, "the torn end is still there"
    return new.replies, whole


def is_kept_in_parts(program, shim, folder, requests, replies, whole):
    """The same runs over a system that moves three bytes at once."""
    path = os.path.join(folder, "parts")
    parts = Watched(program, shim, path, requests, most=3)
    assert (parts.status, parts.replies) == (WELL, replies), "with short writes it ended with %d, or replied otherwise" % parts.status
    assert bytes_of(path) == whole, "with short writes the file is another"
    again = Watched(program, shim, path, requests[:1], most=3)
    assert again.status == WELL, "with short reads it ended with %d" % again.status
    assert bytes_of(path)[:len(whole) - 1] == whole[:-1], "with short reads the entries weren't found"


def is_left_alone(program, shim, path):
    """A path that is no regular file."""
    watched = Watched(program, shim, path, [])
    assert watched.status == DISK_FAULT, "%s ended with %d" % (path, watched.status)
    calls = watched.of(watched.descriptor(path))
    assert not calls, "%s was touched: %r" % (path, calls)


def main():
    program = os.path.abspath(sys.argv[1])
    requests = list(some_requests(8))
    with tempfile.TemporaryDirectory() as folder:
        folder = os.path.realpath(folder)
        shim = built(folder)
        replies, whole = is_kept(program, shim, folder, requests)
        is_kept_in_parts(program, shim, folder, requests, replies, whole)
        pipe = os.path.join(folder, "pipe")
        os.mkfifo(pipe)
        for path in ("/dev/null", pipe):
            is_left_alone(program, shim, path)
    print("%d requests by turns: each reply behind a sync; the same in parts of three bytes; what is no file is left alone" % len(requests))


if __name__ == "__main__":
    main()
