#!/usr/bin/env python3
"""Damages the file of `tardisd --file` again and again, and looks at what `tardisd --check` and a start make of it.

usage: tools/test_damage.py [TARDISD [MINUTES | each [SEED]]]

The program is the one that the last build left, unless another is named; it goes on for five minutes, unless told otherwise. The file is
that of a site that has made 400,000 states and told its log shorter. One byte is changed to another one: each of the first and of the last
2,000 bytes of the text, those at the ends of groups, and then bytes that chance chooses (SEED), until the time is over; or up to 8,192
bytes in a row become zeros. With `each` every byte of the text is changed once, one after another, which takes some minutes more. It is
seen that

- damage that begins before the last thing that lasts is told with the place at which its group begins, and damage in the front is told;
- none but damage in the groups without things that stand at the end is taken for a torn end, by which nothing is lost;
- a check changes nothing, and never ends in another way; and of some damage a start tells the same.

`site_tests` changes each byte of a small log, with all that is read of it, in the gate."""

import os
import random
import re
import subprocess
import sys
import tempfile
import time

HERE = os.path.dirname(os.path.abspath(__file__))
TOP = os.path.dirname(HERE)
sys.path[:0] = [os.path.join(TOP, "clients", "python")]

import log_file  # noqa: E402
from log_file import FRONT, Collection, Consent, Line, LogReader, Record, log_bytes, thing_spelling, things_of  # noqa: E402
from servers import PATIENCE, first_line, stop  # noqa: E402

STATES, PROMISED_EACH, HELD, KEYS = 400_000, 5_000, 3_000, 700
BAD_LOG = 13
EACH_END = 2_000
LONGEST_GAP = 8_192
DAMAGED = re.compile(r"tardisd: .*the file is damaged at byte (\d+)(?:;.*)?\n")


def long_bodies():
    """What lasts of a chain of so many states, of which the site collects those behind which it has promised a floor."""
    things, promises = [], 0
    for number in range(1, STATES + 1):
        before = (1, number - 1) if number > 1 else (0, 0)
        things.append(Record((1, number), (before,), {b"key%04d" % (number * 7919 % KEYS): b"value of state %d" % number}))
        if number % PROMISED_EACH == 0:
            promises += 1
            things += [Consent(1, promises, (1, number - HELD), number), Collection(PROMISED_EACH if promises > 1 else PROMISED_EACH - HELD)]
        if len(things) > 200:
            yield b"".join(map(thing_spelling, things))
            things = []
    yield b"".join(map(thing_spelling, things))


class Server:
    """A server on the file, once it listens."""

    def __init__(self, program, path):
        self.process = subprocess.Popen([program, "--listen", "unix:" + path + ".socket", "--file", path], stdin=subprocess.DEVNULL,
                                        stdout=subprocess.DEVNULL, stderr=subprocess.PIPE)
        self.line = first_line(self.process)

    def end(self):
        stop(self.process)
        return self.line


def check(program, path):
    """The status of a check of the file, what it told, and its line on standard error."""
    done = subprocess.run([program, "--check", "--file", path], stdin=subprocess.DEVNULL, stdout=subprocess.PIPE, stderr=subprocess.PIPE,
                          timeout=PATIENCE)
    return done.returncode, done.stdout.decode(), done.stderr.decode()


class Damage:
    """A file that is damaged in one place at a time."""

    def __init__(self, program, path):
        self.program, self.path = program, path
        with open(path, "rb") as file:
            self.data = file.read()
        reader = LogReader()
        groups = reader.read(self.data)
        self.groups = [place for place, _ in groups]
        self.text = len(reader.text)
        # behind this place there are groups without things
        self.lasting = next(end for (_, body), end in zip(reversed(groups), reversed(self.groups[1:] + [self.text])) if body)
        self.lines = sum(isinstance(thing, Line) for _, body in groups for thing in things_of(body))
        self.good = check(program, path)
        assert self.good[0] == 0 and "end whole" in self.good[1], self.good
        self.told = self.torn = self.starts = 0

    def group_of(self, place):
        """Where the group begins that the byte is in; None for the front."""
        return max((start for start in self.groups if start <= place), default=None)

    def put(self, place, data):
        with open(self.path, "r+b") as file:
            file.seek(place)
            file.write(data)

    def at(self, place, new, started):
        """Puts these bytes there, looks, and puts back what was there."""
        damaged = self.data[:place] + new + self.data[place + len(new):]
        self.put(place, new)
        status, facts, line = check(self.program, self.path)
        with open(self.path, "rb") as file:
            assert file.read() == damaged, "a check changed the file"
        start = self.group_of(place)
        where = (place, len(new), self.data[place:place + 8], new[:8], start, status, facts, line)
        if status == 0:
            assert start is not None and place >= self.lasting and ("end torn" in facts or not any(damaged[start:])), where
            self.torn += 1
        else:
            found = DAMAGED.fullmatch(line)
            assert status == BAD_LOG and not facts, where
            assert line if start is None else found and int(found[1]) == start, where
            self.told += 1
        if started:
            self.starts += 1
            said = Server(self.program, self.path).end()
            assert (" listens at " in said) == (status == 0) and (status == 0 or said == line), (where, said)
            self.put(0, self.data)
        else:
            self.put(place, self.data[place:place + len(new)])


def places_of(damage, choose, each):
    """Which bytes are changed, one after another."""
    text = damage.text
    if each:
        yield from range(text)
        return
    yield from range(min(EACH_END, text))
    yield from range(max(EACH_END, text - EACH_END), text)
    for start in choose.sample(damage.groups, min(len(damage.groups), 500)):
        yield from (start, start - 1)
    while True:
        yield choose.randrange(text)


def new_bytes(damage, choose, place, each):
    """What stands at the place then: one other byte, or zeros."""
    old = damage.data[place]
    if not each and choose.randrange(4) == 0:
        return bytes(min(choose.randint(1, LONGEST_GAP), damage.text - place))
    return bytes([choose.choice([other for other in (0, 0xF5, 0xF6, 0xF7, old ^ 1, choose.randrange(256)) if other != old])])


def main():
    program = os.path.abspath(sys.argv[1] if len(sys.argv) > 1 else os.path.join(TOP, "crates", "tardisd", "out", "tardisd"))
    each = sys.argv[2:3] == ["each"]
    minutes = 60 if each else float(sys.argv[2]) if len(sys.argv) > 2 else 5
    seed = int(sys.argv[3]) if len(sys.argv) > 3 else random.randrange(1 << 32)
    choose = random.Random(seed)
    end = time.monotonic() + 60 * minutes
    with tempfile.TemporaryDirectory(dir="/dev/shm" if os.path.isdir("/dev/shm") else None) as folder:
        path = os.path.join(folder, "log")
        with open(path, "wb") as file:
            file.write(log_bytes(FRONT, list(long_bodies())))
        length = os.path.getsize(path)
        server = Server(program, path)
        assert " listens at " in server.end(), server.line
        damage = Damage(program, path)
        assert damage.lines and damage.text < length // 4, "the log wasn't told shorter"
        print("%d bytes of log were told shorter, in %d bytes and %d groups, with %d lines" % (length, damage.text, len(damage.groups), damage.lines),
              flush=True)
        for number, place in enumerate(places_of(damage, choose, each)):
            if time.monotonic() > end:
                break
            damage.at(place, new_bytes(damage, choose, place, each), number % 50 == 0)
        assert check(program, path) == damage.good, "the file isn't as it was"
    print("%d places were damaged: %d times damage was told, %d times a torn end, %d times by a start too; seed %d" % (
        damage.told + damage.torn, damage.told, damage.torn, damage.starts, seed), flush=True)


if __name__ == "__main__":
    main()
