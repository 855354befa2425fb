#!/usr/bin/env python3
"""test_power.py [TARDISD [IMAGES]]: what a cut of the power would leave of the file of `TARDISD --file`, by the calls that it makes of
the system.

No contract can say what a file of the system keeps, and a server that is killed keeps in the system's memory what it never synced. So
`watch_files.c`, laid before a server's calls, tells what it writes to its file, when it syncs it, and what it sends to its clients. Of
moments between these calls images are made that a cut of the power may leave: what was synced, and of each byte that was written since
the old one or the new one. It is seen that

- each image holds all that was told by then, to whatever client, as far as commits and the states that were read go; and it holds a
  front of the groups that the file has in the end, or is new, where nothing was told yet;
- a server on the image serves just that; so it is with lives that begin on such an image;
- before the first reply of a life the folder of the path was synced.

The program is the one that the last build left, unless another is named; 600 images are looked at, of 6 lives, unless told otherwise. It
needs Linux and a C compiler (`cc`, or $CC). Each wait has an end, and nothing is left behind."""

import os
import random
import shutil
import signal
import subprocess
import sys
import tempfile
import threading

import log_file
import test_file
from log_file import LogReader, NoLog, Record, things_of
from servers import PATIENCE, first_line, stop
from talkers import Talker, Told, let_talk, take_rest, transactions
from tardis import replies
from test_files import built

LIVES, CLIENTS, LONGEST_RUN = 6, 8, 900
#: of so many first moments so many images each are looked at
FEW = 6
#: a byte's place in this makes it all ones or all zeros
EITHER = bytes(128) + b"\xff" * 128


class Life:
    """A server that was watched: what it was asked, and the calls that it made until it was killed."""

    def __init__(self, program, shim, path, choose, number):
        self.path, self.before, self.calls = path, bytes_of(path), b""
        told, tell = os.pipe()
        # (a fake is run by another program, which is to be left alone)
        names = dict(os.environ, LD_PRELOAD=shim, WATCHED_TELL=str(tell), WATCHED_BYTES="1")
        address = "unix:" + path + ".socket"
        words = ["--tidy"] if number % 2 else []
        process = subprocess.Popen([*program, "--listen", address, "--file", path, *words], stdin=subprocess.DEVNULL,
                                   stdout=subprocess.DEVNULL, stderr=subprocess.PIPE, env=names, pass_fds=[tell])
        os.close(tell)
        reader = threading.Thread(target=self.hear, args=(told,), daemon=True)
        reader.start()
        try:
            assert " listens at " in first_line(process)
            seen = Told()
            talkers = [Talker(address, transactions(seen, choose, b"%d.%d" % (number, client), 60, True), seen, client % 4 > 0)
                       for client in range(CLIENTS)]
            assert let_talk(talkers), "the server has gone"
        finally:
            stop(process)
        take_rest(talkers)
        reader.join(PATIENCE)
        self.after = bytes_of(path)

    def hear(self, told):
        parts = []
        with os.fdopen(told, "rb") as pipe:
            while True:
                more = pipe.read(1 << 16)
                if not more:
                    break
                parts.append(more)
        self.calls = b"".join(parts)

    def each_call(self):
        """The calls in order: name, descriptor, the rest of the line, and the bytes that were written."""
        place = 0
        while True:
            end = self.calls.find(b"\n", place)
            if end < 0:
                return
            name, fd, *rest = self.calls[place:end].decode().split(" ", 2)
            place = end + 1
            data = b""
            if name in ("write", "pwrite", "pwrite64"):
                count = max(0, int(rest[0].split()[0]))
                data = self.calls[place:place + count]
                place += count
                if len(data) < count:
                    return
            yield name, int(fd), rest, data


class Disk:
    """A file of which some bytes are synced, and some were written since."""

    def __init__(self, data):
        self.synced, self.pending = bytes(data), []

    def now(self):
        data = bytearray(self.synced)
        for place, written in self.pending:
            data.extend(bytes(max(0, place + len(written) - len(data))))
            data[place:place + len(written)] = written
        return bytes(data)

    def sync(self):
        self.synced, self.pending = self.now(), []

    def image(self, choose):
        """What a cut of the power may leave."""
        data, kind = bytearray(self.synced), choose.randrange(6)
        for place, written in self.pending:
            if kind == 0:
                continue
            end = place + len(written)
            old = bytes(data[place:end]).ljust(len(written), b"\0")
            mixed = mixed_of(choose, kind, old, written)
            grown = choose.randrange(len(data), end + 1) if kind != 1 and end > len(data) else end
            data.extend(bytes(max(0, grown - len(data))))
            data[place:min(end, len(data))] = mixed[:max(0, len(data) - place)]
        return bytes(data)


def mixed_of(choose, kind, old, new):
    """Of each byte the old one or the new one: all new; a front; a back; whole sectors; any."""
    if kind == 1:
        return new
    at = choose.randrange(len(new) + 1)
    if kind == 2:
        return new[:at] + old[at:]
    if kind == 3:
        return old[:at] + new[at:]
    if kind == 4:
        return b"".join(choose.choice((old, new))[place:place + 512] for place in range(0, len(new), 512))
    mask = int.from_bytes(choose.getrandbits(8 * len(new)).to_bytes(len(new), "big").translate(EITHER), "big")
    one, other = int.from_bytes(old, "big"), int.from_bytes(new, "big")
    return (one ^ ((one ^ other) & mask)).to_bytes(len(new), "big")


class Heard:
    """What clients were told so far: the highest number of a state that was shown to any."""

    def __init__(self):
        self.held, self.highest, self.count = {}, 0, 0

    def take(self, fd, data):
        held = self.held.get(fd, b"") + data
        place = 0
        while len(held) - place >= 4:
            length = int.from_bytes(held[place:place + 4], "big")
            if len(held) - place - 4 < length:
                break
            self.note(replies.read_reply(held[place + 4:place + 4 + length]))
            place += 4 + length
        self.held[fd] = held[place:]

    def note(self, reply):
        self.count += 1
        told = Told()
        if isinstance(reply, (replies.Value, replies.Deleted)):
            told.states.add(reply.writer)
        else:
            told.note(None, reply)
        self.highest = max([self.highest, *(id[1] for id in told.states)])


def bytes_of(path):
    return test_file.bytes_of(path) if os.path.exists(path) else b""


def groups_of(data):
    """The bodies of the groups, and how many records they have."""
    bodies = [body for _, body in LogReader().read(data)]
    return bodies, sum(isinstance(thing, Record) for body in bodies for thing in things_of(body))


def moments_of(life):
    """The file's disk at each moment between two of its calls, with what was told by then."""
    disk, heard, file, folder = Disk(life.before), Heard(), None, None
    is_folder_synced = False
    for name, fd, rest, data in life.each_call():
        if name == "open":
            file = fd if rest[0] == life.path else file
            folder = fd if rest[0].rstrip("/.") == os.path.dirname(life.path) else folder
            continue
        if name == "write" and fd != file:
            assert is_folder_synced, "a reply was sent before the folder was synced"
            heard.take(fd, data)
            continue
        if name in ("fsync", "fdatasync"):
            is_folder_synced = is_folder_synced or fd == folder
        if fd != file or name.startswith("pread"):
            continue
        assert not name.startswith("ftruncate"), "the file was cut: a log is never shorter"
        # (just before a call, what was told since the one before is known)
        yield disk, heard.highest
        if name.startswith("pwrite") and data:
            disk.pending.append((int(rest[0].split()[1]), data))
        elif name in ("fsync", "fdatasync"):
            disk.sync()
    yield disk, heard.highest
    assert heard.count > 60 * CLIENTS, "only %d replies were seen" % heard.count
    assert disk.now() == life.after, "the calls that were seen don't make the file that is there"


def images_of(life, choose, chance):
    """Images of some moments, several of the first ones, each with what was told by then."""
    for number, (disk, highest) in enumerate(moments_of(life)):
        for _ in range(FEW if number < FEW else choose.random() < chance):
            yield disk.image(choose), highest


def is_kept(image, highest, before, after):
    """Whether the image holds what was told, and nothing but what came; how many records it has."""
    if log_file.is_new(image):
        assert highest == 0 and not before, "the image is a new file, and %d states were told" % highest
        return 0
    try:
        bodies, records = groups_of(image)
    except NoLog as fault:
        raise AssertionError("the image is no log, or damaged: %s" % fault) from None
    assert bodies == after[:len(bodies)], "the image holds other groups than came"
    assert bodies[:len(before)] == before, "the image lost what was there"
    assert highest <= records, "state 1.%d was told, and the image has %d" % (highest, records)
    return records


def rest_of(image):
    """What stands behind the log."""
    reader = LogReader()
    reader.read(image)
    return image[len(reader.text):].rstrip(b"\0")


def test_life(program, shim, folder, choose, number, start, most):
    """One life on a file; gives the image whose end is torn most, on which the next life begins, and how many were looked at."""
    path = os.path.join(folder, "log%d" % number)
    if start:
        with open(path, "wb") as file:
            file.write(start)
    life = Life(program, shim, path, choose, number)
    before, after = groups_of(start)[0] if start else [], groups_of(life.after)[0]
    count = sum(1 for _ in moments_of(life))
    torn, found = b"", 0
    for image, highest in images_of(life, choose, most / count):
        records = is_kept(image, highest, before, after)
        if records and (not torn or len(rest_of(image)) > len(rest_of(torn))):
            torn = image
        if found % max(1, most // 4) == 0:
            test_file.assert_serves(program, test_file.copy_of(folder, image), records)
        found += 1
    os.unlink(path)
    return torn, found


def main():
    words = sys.argv[1:]
    if len(words) > 2 or any(word.startswith("-") for word in words):
        sys.exit(__doc__)
    program = words[0].split() if words else [os.path.join(test_file.TOP, "crates/tardisd/out/tardisd")]
    most = int(words[1]) // LIVES if words[1:] else 100
    signal.alarm(LONGEST_RUN)
    choose = random.Random(17)
    folder = os.path.realpath(tempfile.mkdtemp())
    try:
        shim = built(folder)
        start, count = b"", 0
        for number in range(LIVES):
            start, found = test_life(program, shim, folder, choose, number, start, most)
            count += found
        print("%d images that a cut of the power may leave of %d lives: each holds all that was told" % (count, LIVES))
    finally:
        shutil.rmtree(folder)


if __name__ == "__main__":
    main()
