#!/usr/bin/env python3
"""Measures how long `tardisd --file` takes to tell its log shorter, by how much it keeps.

usage: bench/shorten.py [--tardisd PROGRAM] [--folder FOLDER] [STATES:BYTES ..]

For each pair a file is made in FOLDER, the folder that this is called in where none is named, without a server (`tools/log_file.py`): of a
chain of 400,000 states that were collected, and so many kept ones behind them, each of which writes so many bytes to a key of its own, or
more than 4,096 of them to several. A server starts on it, and tells it shorter before it listens; a second one starts on what that left; three times, and the least counts. A
line tells how many bytes the text had before and behind, how long the second server took to start, how much longer the first one did,
which is what nobody is answered for where a server that goes on tells its log shorter, and the most memory of both."""

import argparse
import os
import sys
import tempfile

HERE = os.path.dirname(os.path.abspath(__file__))
sys.path[:0] = [os.path.join(os.path.dirname(HERE), "tools")]

from client import TOP, ended  # noqa: E402
from log_file import FRONT, Collection, Consent, Record, entry, front_item, group_item, thing_spelling  # noqa: E402
from serve import address  # noqa: E402
from start import RUNS, length_of_text, most_memory, started  # noqa: E402

COLLECTED, PROMISED_EACH = 400_000, 5_000
PAIRS = ["1000:1000", "16000:1000", "16000:4000"]
#: how many bytes of things a group has at most, about
GROUP = 500_000
#: how many bytes a value has at most
MAX_VALUE = 4_096
#: how many bytes of zeros stand ready behind a log
ROOM = 4_096


def kept_writes(number, value):
    """So many bytes, to as many keys of its own as they take."""
    values = [min(MAX_VALUE, value - first) for first in range(0, value, MAX_VALUE)]
    return {b"kept%05d.%02d" % (number, place): b"v" * length for place, length in enumerate(values)}


def things(kept, value):
    """What lasts of the chain: its states, the floors that its site promises, and what it collects then."""
    for number in range(1, COLLECTED + kept + 1):
        before = (1, number - 1) if number > 1 else (0, 0)
        writes = {b"key%04d" % (number % 700): b"the value of state %07d" % number} if number <= COLLECTED else kept_writes(number, value)
        yield Record((1, number), (before,), writes)
        if number <= COLLECTED and number % PROMISED_EACH == 0:
            yield Consent(1, number // PROMISED_EACH, (1, number), number)
            yield Collection(PROMISED_EACH)


def bodies(kept, value):
    body, length = [], 0
    for thing in things(kept, value):
        spelled = thing_spelling(thing)
        if length + len(spelled) > GROUP:
            yield b"".join(body)
            body, length = [], 0
        body.append(spelled)
        length += len(spelled)
    yield b"".join(body)


def write_log(path, kept, value):
    with open(path, "wb") as file:
        file.write(entry(front_item(FRONT)))
        for number, body in enumerate(bodies(kept, value)):
            file.write(entry(group_item(FRONT.life, number, body)))
        file.write(bytes(ROOM))
        file.flush()
        os.fsync(file.fileno())


def start(program, folder, socket):
    process, seconds = started(program, folder, socket)
    memory = most_memory(process)
    ended(process)
    process.stderr.close()
    return seconds, memory


def main():
    parser = argparse.ArgumentParser(description=__doc__, formatter_class=argparse.RawDescriptionHelpFormatter)
    parser.add_argument("--tardisd", default=os.path.join(TOP, "crates", "tardisd", "out", "tardisd"))
    parser.add_argument("--folder", default=".")
    parser.add_argument("pairs", nargs="*", default=PAIRS)
    told = parser.parse_args()
    program = os.path.abspath(told.tardisd)
    for pair in told.pairs:
        kept, value = map(int, pair.split(":"))
        longer, shorter, memory = [], [], 0
        for _ in range(RUNS):
            with tempfile.TemporaryDirectory() as short, tempfile.TemporaryDirectory(dir=os.path.abspath(told.folder)) as folder:
                socket, path = address(short), os.path.join(folder, "log")
                write_log(path, kept, value)
                before = length_of_text(path)
                for seconds in longer, shorter:
                    taken, held = start(program, folder, socket)
                    seconds.append(taken)
                    memory = max(memory, held)
                behind = length_of_text(path)
        print("%6d states of %6d bytes kept: %11d bytes, then %11d; a start %7.3f s, and %7.3f s more to tell it shorter; %.1f MB" % (
            kept, value, before, behind, min(shorter), min(longer) - min(shorter), memory / (1 << 20)), flush=True)


if __name__ == "__main__":
    main()
