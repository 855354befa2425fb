#!/usr/bin/env python3
"""Measures `PROGRAM run` on several shapes of history.

usage: bench/speed.py PROGRAM [SHAPE ..]

Each shape is a file of request frames (docs/FORMATS.md), read from a file, its replies given to /dev/null. The least
of three runs counts, and of up to ten where they are short. A line tells the shape, its requests, the seconds above an empty
run, by the clock and of a processor, which others disturb less, requests a second by the clock, and the memory that was held
at most. Where a shape has a part that is asked for, as a merge at the end of a long history, that
part is what the run costs above the same history without it.
"""

import os
import struct
import subprocess
import sys
import tempfile
import time

def frame(actor, request):
    return struct.pack(">IH", len(request) + 2, actor) + request


def key(name):
    name = name.encode()
    return bytes([len(name)]) + name


def opens(follow=False):
    return b"\x01\x01" if follow else b"\x01\x00"


BEGIN_ANY, BEGIN_ANCESTOR = b"\x02\x00", b"\x02\x01"
ABORT, MERGE_LEAVES, FORK_POINTS, CONFLICTS, LEAVES = b"\x07", b"\x08\x00", b"\x09", b"\x0a\x00", b"\x12"
STAT = b"\x10"
SERIALIZABLE, UNCONSTRAINED = b"\x06\x01\x00\x00", b"\x06\x00\x00\x00"


def begin_at(site, sequence):
    return b"\x02\x03" + struct.pack(">HI", site, sequence)


def merge_of(*states):
    return b"\x08" + bytes([len(states)]) + b"".join(struct.pack(">HI", *state) for state in states)


def get(name):
    return b"\x03" + key(name)


def put(name, value="v" * 32):
    value = value.encode()
    return b"\x04" + key(name) + struct.pack(">H", len(value)) + value


def gets(count=400_000):
    """reads of 64 keys in one transaction"""
    yield frame(1, opens())
    yield frame(1, BEGIN_ANY)
    for place in range(64):
        yield frame(1, put("k%02d" % place))
    yield frame(1, SERIALIZABLE)
    yield frame(1, BEGIN_ANY)
    frames = [frame(1, get("k%02d" % place)) for place in range(64)]
    for place in range(count):
        yield frames[place & 63]


def puts(count=400_000):
    """writes of 64 keys in one transaction"""
    yield frame(1, opens())
    yield frame(1, BEGIN_ANY)
    frames = [frame(1, put("k%02d" % place)) for place in range(64)]
    for place in range(count):
        yield frames[place & 63]


def chain(states, keys=1):
    """one session: begin, get, put, commit, again and again"""
    yield frame(1, opens())
    for place in range(states):
        name = "k%05d" % (place % keys)
        for request in (BEGIN_ANY, get(name), put(name), SERIALIZABLE):
            yield frame(1, request)


def rounds(count):
    """two sessions conflict on one key, and a merge joins them: three states a round"""
    yield frame(1, opens())
    yield frame(2, opens())
    for place in range(count):
        for actor in (1, 2):
            for request in (BEGIN_ANY, get("k"), put("k", "v%d" % place)):
                yield frame(actor, request)
        yield frame(1, SERIALIZABLE)
        yield frame(2, SERIALIZABLE)
        for request in (MERGE_LEAVES, CONFLICTS, put("k", "m%d" % place), UNCONSTRAINED):
            yield frame(1, request)


def wide_branches(states, merges):
    """a chain of so many states; then two branches of the same 64 keys and a merge of them, so many times"""
    yield frame(1, opens())
    yield frame(2, opens())
    for place in range(states):
        yield frame(1, BEGIN_ANY)
        for fresh in range(64 if place % 100 == 0 else 1):
            yield frame(1, put("s%d.%d" % (place, fresh)))
        yield frame(1, SERIALIZABLE)
    for _ in range(merges):
        for actor in (1, 2):
            yield frame(actor, BEGIN_ANY)
            for fresh in range(64):
                yield frame(actor, get("b%d" % fresh))
                yield frame(actor, put("b%d" % fresh, "%d" % actor))
        for request in (frame(1, SERIALIZABLE), frame(2, SERIALIZABLE), frame(1, MERGE_LEAVES), frame(1, CONFLICTS)):
            yield request
        for fresh in range(64):
            yield frame(1, put("b%d" % fresh, "joined"))
        yield frame(1, UNCONSTRAINED)


def far_landing(states, commits):
    """commits that have read a key with so many versions on another branch, and land so many states down"""
    yield frame(1, opens())
    yield frame(2, opens())
    readers = range(3, 3 + abs(commits))
    for reader in readers:
        yield frame(reader, opens())
    for actor in (1, 2):
        for request in (BEGIN_ANY, get("fork"), put("fork")):
            yield frame(actor, request)
    yield frame(1, SERIALIZABLE)
    yield frame(2, SERIALIZABLE)
    for reader in readers:
        for request in (BEGIN_ANY, get("hot"), put("mine%d" % reader)):
            yield frame(reader, request)
    for _ in range(states):
        for actor, name in ((1, "hot"), (2, "cold")):
            for request in (BEGIN_ANCESTOR, put(name), SERIALIZABLE):
                yield frame(actor, request)
    for reader in readers:
        yield frame(reader, SERIALIZABLE if commits > 0 else ABORT)


def leaves(count, asked):
    """so many leaves below one state; then a merge of two of them, its conflicts and fork points, and Leaves, so many times"""
    yield frame(1, opens())
    yield frame(2, opens())
    for request in (BEGIN_ANY, put("k"), SERIALIZABLE):
        yield frame(1, request)
    for _ in range(count):
        for request in (begin_at(1, 1), get("k"), put("k"), SERIALIZABLE):
            yield frame(1, request)
    for _ in range(asked):
        for request in (merge_of((1, 2), (1, 3)), CONFLICTS, FORK_POINTS, ABORT, LEAVES):
            yield frame(2, request)


def stale(states, begins):
    """a branch grows by so many states; a session on another branch begins at its last commit's branch so many times"""
    yield frame(1, opens())
    yield frame(2, opens())
    for actor in (1, 2):
        for request in (BEGIN_ANY, get("fork"), put("fork")):
            yield frame(actor, request)
    yield frame(2, SERIALIZABLE)
    yield frame(1, SERIALIZABLE)
    for _ in range(states):
        for request in (BEGIN_ANCESTOR, put("a"), SERIALIZABLE):
            yield frame(1, request)
    for _ in range(begins):
        yield frame(2, BEGIN_ANCESTOR)
        yield frame(2, ABORT)


def refused(states, commits):
    """a store that is full, and commits of 64 fresh keys each that it refuses"""
    yield from chain(states)
    for place in range(commits):
        yield frame(1, BEGIN_ANY)
        for fresh in range(64):
            yield frame(1, put("f%d.%d" % (place, fresh)))
        yield frame(1, SERIALIZABLE)
        yield frame(1, ABORT)


RAISE_AUTO = b"\x0e"


def ceiling(site, sequence):
    return b"\x0c" + struct.pack(">HI", site, sequence)


def tidy(count):
    return b"\x0f" + struct.pack(">H", count)


def tidied_chain(commits, kept, keys=1):
    """a chain of so many commits, each of the next of so many keys; every 64 the ceiling goes to so many states behind the
    last, the floor after it, and what is closed is collected"""
    yield frame(1, opens(follow=True))
    yield frame(2, opens())
    for place in range(1, commits + 1):
        name = "k%d" % (place % keys)
        for request in (BEGIN_ANY, get(name), put(name), SERIALIZABLE):
            yield frame(1, request)
        if kept and place % 64 == 0 and place > kept:
            for request in (ceiling(1, place - kept), RAISE_AUTO, tidy(64)):
                yield frame(2, request)


def forks(states, asked):
    """a chain of so many states, and then a second child of each of the first so many, from the oldest on"""
    yield frame(1, opens())
    for _ in range(states):
        for request in (BEGIN_ANCESTOR, put("a"), SERIALIZABLE):
            yield frame(1, request)
    for place in range(1, asked + 1):
        for request in (begin_at(1, place), put("b"), UNCONSTRAINED):
            yield frame(1, request)


def fan(states, forks):
    """a chain of so many states, and then so many forks off its first"""
    yield frame(1, opens())
    for _ in range(states):
        for request in (BEGIN_ANY, put("k"), SERIALIZABLE):
            yield frame(1, request)
    for _ in range(forks):
        for request in (begin_at(1, 1), get("k"), put("k"), SERIALIZABLE):
            yield frame(1, request)


def imported(keys):
    """what `import` writes for so many keys: groups of 64, each with a floor and a Tidy behind it"""
    yield frame(1, opens(follow=True))
    for first in range(0, keys, 64):
        yield frame(1, BEGIN_ANY)
        for place in range(first, min(first + 64, keys)):
            yield frame(1, put("k%07d" % place))
        for request in (UNCONSTRAINED, RAISE_AUTO, tidy(64)):
            yield frame(1, request)


def one_tidy(states, asked):
    """a chain of so many states whose floor is its end, and then one Tidy of all of them, or none"""
    yield frame(1, opens(follow=True))
    for _ in range(states):
        for request in (BEGIN_ANY, put("k"), SERIALIZABLE):
            yield frame(1, request)
    yield frame(0, RAISE_AUTO)
    if asked:
        yield frame(0, tidy(65_535))


def stats(states, asked, count):
    """the same, and then so many Stats"""
    yield from one_tidy(states, asked)
    for _ in range(count):
        yield frame(0, STAT)


SHAPES = {
    "gets": [gets()],
    "puts": [puts()],
    "chain 1,000": [chain(1_000)],
    "chain 16,000": [chain(16_000)],
    "chain 16,000, 4,000 keys": [chain(16_000, 4_000)],
    "rounds 100": [rounds(100)],
    "rounds 500": [rounds(500)],
    "rounds 2,000": [rounds(2_000)],
    "100 merges of 64 keys in 200": [wide_branches(200, 100), wide_branches(200, 0)],
    "100 merges of 64 keys in 16,000": [wide_branches(16_000, 100), wide_branches(16_000, 0)],
    "landing 1,000 down": [far_landing(1_000, 20), far_landing(1_000, -20)],
    "landing 5,000 down": [far_landing(5_000, 20), far_landing(5_000, -20)],
    "leaves 200": [leaves(200, 2_000), leaves(200, 0)],
    "leaves 4,000": [leaves(4_000, 2_000), leaves(4_000, 0)],
    "stale branch 500": [stale(500, 2_000), stale(500, 0)],
    "stale branch 5,000": [stale(5_000, 2_000), stale(5_000, 0)],
    "chain 15,900, tidied to 1,000": [tidied_chain(15_900, 1_000)],
    "chain 15,900, never tidied": [tidied_chain(15_900, 0)],
    "chain 40,000, tidied to 1,000": [tidied_chain(40_000, 1_000)],
    "chain 40,000, tidied to 15,000": [tidied_chain(40_000, 15_000)],
    "chain 40,000, 4,000 keys, tidied to 1,000": [tidied_chain(40_000, 1_000, 4_000)],
    "chain 40,000, 4,000 keys, tidied to 15,000": [tidied_chain(40_000, 15_000, 4_000)],
    "second children of 1,000": [forks(1_000, 1_000), forks(1_000, 0)],
    "second children of 4,000": [forks(4_000, 4_000), forks(4_000, 0)],
    "2,000 forks off an old state": [fan(5_000, 2_000), fan(5_000, 0)],
    "10,000 forks off an old state": [fan(5_000, 10_000), fan(5_000, 0)],
    "import of 20,000 keys": [imported(20_000)],
    "import of 80,000 keys": [imported(80_000)],
    "import of 1,000,000 keys": [imported(1_000_000)],
    "one Tidy of 16,000": [one_tidy(16_000, True), one_tidy(16_000, False)],
    "one Tidy of 2,000": [one_tidy(2_000, True), one_tidy(2_000, False)],
    "Stat of 16,000 states": [stats(16_000, False, 20_000), stats(16_000, False, 0)],
    "Stat once they are collected": [stats(16_000, True, 20_000), stats(16_000, True, 0)],
    "refused in a full store": [refused(16_383, 4_000), refused(16_383, 0)],
}


def least(program, path):
    """The least times, by the clock and of a processor, and the memory that was held at most, of three runs, and of up to ten
    while all together take less than a second."""
    clock, processor, memory = [], [], 0
    while len(clock) < 3 or (len(clock) < 10 and sum(clock) < 1):
        with open(path, "rb") as requests, open(os.devnull, "wb") as replies:
            start = time.perf_counter()
            child = subprocess.Popen([program, "run"], stdin=requests, stdout=replies)
            _, status, usage = os.wait4(child.pid, 0)
            clock.append(time.perf_counter() - start)
            processor.append(usage.ru_utime + usage.ru_stime)
            memory = max(memory, usage.ru_maxrss)
        if status != 0:
            sys.exit("%s ended with status %d" % (program, status >> 8))
        if clock[-1] > 10:
            break
    return min(clock), min(processor), memory


def measured(program, folder, frames):
    path = os.path.join(folder, "requests")
    count = 0
    with open(path, "wb") as requests:
        for one in frames:
            requests.write(one)
            count += 1
    return (count, *least(program, path))


def main():
    if len(sys.argv) < 2:
        sys.exit(__doc__)
    if sys.argv[1] in ("-h", "--help"):
        print(__doc__)
        return
    program, wanted = sys.argv[1], sys.argv[2:]
    with tempfile.TemporaryDirectory() as folder:
        _, empty, idle, _ = measured(program, folder, [])
        print("an empty run: %.4f s, %.4f s of a processor" % (empty, idle))
        for name, parts in SHAPES.items():
            if wanted and not any(name.startswith(word) for word in wanted):
                continue
            count, seconds, processor, memory = measured(program, folder, parts[0])
            told = "%.1f MB" % (memory / 1024)
            base, without, fewer = empty, idle, 0
            if len(parts) == 2:
                fewer, base, without, held = measured(program, folder, parts[1])
                told += " (%.1f MB without)" % (held / 1024)
            net = seconds - base
            print(
                "%-32s %8d requests%s %9.4f s %9.4f s of a processor %10.0f a second   %s"
                % (name, count - fewer, " more" if fewer else "     ", net, processor - without, (count - fewer) / max(net, 1e-9), told), flush=True)


if __name__ == "__main__":
    main()
