#!/usr/bin/env python3
"""test_durable.py PROGRAM [ROUNDS]: kills runs of `PROGRAM durable --file PATH` at random moments, and looks at what is left.

After each kill the file is opened again by the next run. What was answered so far must be in the journal, in order, and the
journal must hold no more than what was asked. A run of `PROGRAM run` over the requests of the journal must give the replies that
were read from the killed runs, at their places."""
import os
import random
import struct
import subprocess
import sys
import tempfile
import threading


def frame(body):
    return struct.pack(">I", len(body)) + body


def frames_of(data):
    """The bodies of the whole frames at the front."""
    bodies, place = [], 0
    while place + 4 <= len(data):
        (size,) = struct.unpack(">I", data[place:place + 4])
        if place + 4 + size > len(data):
            break
        bodies.append(data[place + 4:place + 4 + size])
        place += 4 + size
    return bodies


def entries_of(data):
    """The entries of a journal, as docs/DURABLE.md reads them."""
    entries, place = [], 0
    while place + 5 <= len(data) and data[place] == 1:
        (size,) = struct.unpack(">I", data[place + 1:place + 5])
        end = place + 5 + size
        if not 2 <= size <= 1_048_576 or end >= len(data):
            break
        entries.append(data[place + 5:end])
        place = end
    return entries


def bytes_of(path):
    """What the file holds; nothing where a run was killed before it made it."""
    if not os.path.exists(path):
        return b""
    with open(path, "rb") as file:
        return file.read()


def some_requests(count, first):
    """Open, and transactions of one put each."""
    actor = struct.pack(">H", 1)
    if first:
        yield actor + b"\x01\x00"
    for _ in range(count):
        yield actor + b"\x02\x00"
        value = b"%d" % random.randrange(1000)
        yield actor + b"\x04\x01" + random.choice([b"x", b"y"]) + b"\x00" + bytes([len(value)]) + value
        yield actor + b"\x06\x01\x00\x00"


def killed_run(program, path, bodies, delay):
    """The replies that a run gave until it was killed."""
    run = subprocess.Popen([program, "durable", "--file", path], stdin=subprocess.PIPE, stdout=subprocess.PIPE, stderr=subprocess.DEVNULL)
    timer = threading.Timer(delay, run.kill)
    timer.start()
    out = bytearray()
    reader = threading.Thread(target=lambda: out.extend(run.stdout.read()))
    reader.start()
    try:
        for body in bodies:
            run.stdin.write(frame(body))
            run.stdin.flush()
        run.stdin.close()
    except OSError:
        pass
    run.wait()
    timer.cancel()
    reader.join()
    return frames_of(bytes(out))


def main():
    program = sys.argv[1]
    rounds = int(sys.argv[2]) if len(sys.argv) > 2 else 300
    random.seed(7)
    with tempfile.TemporaryDirectory() as folder:
        path = os.path.join(folder, "journal")
        answered = {}
        before = []
        for number in range(rounds):
            bodies = list(some_requests(random.randrange(1, 40), number == 0 or not before))
            replies = killed_run(program, path, bodies, random.uniform(0.0, 0.05))
            entries = entries_of(bytes_of(path))
            asked = before + bodies
            assert entries == asked[:len(entries)], f"round {number}: the journal isn't a front of what was asked"
            assert len(entries) >= len(before) + len(replies), f"round {number}: an answered request is lost"
            for place, reply in enumerate(replies):
                answered[len(before) + place] = reply
            before = entries
        done = subprocess.run([program, "run"], input=b"".join(map(frame, before)), stdout=subprocess.PIPE, check=True)
        wanted = frames_of(done.stdout)
        assert len(wanted) == len(before), "run answers each entry"
        for place, reply in answered.items():
            assert wanted[place] == reply, f"the reply at {place} isn't that of a run"
        print(f"{rounds} runs were killed: {len(before)} entries, {len(answered)} replies, none lost")


if __name__ == "__main__":
    main()
