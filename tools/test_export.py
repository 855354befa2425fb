#!/usr/bin/env python3
"""An export of a server that runs under load equals that of `tardis export` over what it was asked, byte for byte.

usage: tools/test_export.py [TARDISD [TARDIS]]

The programs are ./tardisd and ./tardis of this repository, unless others are named. Twelve clients change keys that they share, on
branches that fork, another merges these, and the server collects (--tidy). Meanwhile states are exported by `python -m tardis
export`, which asks for a page at a time: by the command itself, and by its code with commits between any two pages. Each of these
states is the last that arrived when it was chosen, and a session keeps it: its ceiling goes there, so that the floor may follow as
far as this state, and what stands above is collected.

What the server was asked is brought into one order that its replies allow: a commit tells its place by its number, a begin at the
newest state tells the commit before it, and all else depends on its own session. So what each commit read and wrote is in it, and
`tardis run` over it has to give the same replies. An export is a function of the records alone, so another order that the replies
allow has the same exports; and what the server collected changes nothing of what is read at a state that is kept.

The whole run ends after ten minutes at the latest. Nothing is left behind."""

import io
import os
import random
import shutil
import signal
import struct
import subprocess
import sys
import tempfile
import threading
import time

HERE = os.path.dirname(os.path.abspath(__file__))
TOP = os.path.dirname(HERE)
CLIENT = os.path.join(TOP, "clients", "python")
sys.path[:0] = [CLIENT]

import tardis  # noqa: E402
from servers import PATIENCE, first_line, stop  # noqa: E402
from talkers import SHARED, Talker, let_talk, take_rest  # noqa: E402
from tardis import replies, requests  # noqa: E402
from tardis.exports import write_export  # noqa: E402

#: so many keys are there before the load begins: more than three pages of them
KEPT, WRITERS = 600, 12
#: so many exports, of which the last is made by the command; and so many commits come at least between two pieces
ROUNDS, BY_COMMAND, BETWEEN = 4, 1, 10
#: commits are let through whenever so many bytes were written, which are fewer than a page has, and so often at least
PIECE, LEAST_PAUSES = 50_000, 4
LONGEST_RUN = 600


class Load:
    """What the clients do, and how far they may go: so many commits, and else they only read."""

    def __init__(self):
        self.made, self.allowed, self.is_over = 0, 0, False
        #: by its client, what was asked and answered, in order
        self.asked = []

    def wait_for(self, more):
        """Lets so many commits come, and waits for them."""
        wanted = self.allowed = self.made + more
        while self.made < wanted:
            assert not self.is_over, "no commits come any more"
            time.sleep(0.001)


class Noted:
    """What one client asked and was answered."""

    def __init__(self, load):
        self.load, self.lines, self.committed = load, [], {}
        load.asked.append(self.lines)

    def note(self, request, reply):
        assert not isinstance(reply, (replies.NoMemory, replies.Refused)), "%r: %s" % (request.body, reply)
        self.load.made += isinstance(reply, replies.Committed)
        self.lines.append((request.body, reply))


class Tagged(requests.Request):
    """A commit, as a talker wants it."""

    __slots__ = ()
    tag = None


def commit(*constraints):
    made = requests.commit(*constraints, False, None)
    return Tagged(made.body, made.read)


def fill(load):
    """A session that writes the keys that are there before."""
    yield requests.open_session(True)
    for place in range(0, KEPT, 60):
        yield requests.begin("any")
        for number in range(place, place + 60):
            yield requests.put("kept %d" % number, bytes([number % 256]) * (300 + number % 200))
        yield commit(True, True)
    yield requests.close()


def write(load, choose, name):
    """A session that reads and writes keys of all, and its own, where it may, and else only reads."""
    yield requests.open_session(True)
    count = 0
    while not load.is_over:
        yield requests.begin("any")
        for _ in range(choose.randrange(3)):
            yield requests.get(choose.choice(SHARED))
        if load.made >= load.allowed or choose.randrange(10) == 0:
            yield requests.abort()
            continue
        count += 1
        yield requests.put(b"own.%d" % name, b"%d.%d" % (name, count))
        for key in choose.sample(SHARED, choose.randrange(3)):
            yield requests.delete(key) if choose.randrange(4) == 0 else requests.put(key, b"%d.%d " % (name, count) * choose.randrange(200))
        yield commit(choose.random() < 0.7, choose.random() < 0.5)


def merge(load):
    """A session that joins leaves as long as there are several."""
    yield requests.open_session(True)
    count = 0
    while not load.is_over:
        leaves = yield requests.leaves()
        if leaves.total < 2:
            continue
        yield requests.begin_merge(leaves.first[:8])
        keys = yield requests.conflicts(b"")
        count += 1
        for key in keys.first:
            yield requests.put(key, b"merged %d" % count)
        yield commit(False, False)


# what is exported

class SlowFile(io.BytesIO):
    """A file that lets commits come whenever so many bytes were written."""

    def __init__(self, load):
        super().__init__()
        self.load, self.since, self.pauses = load, 0, 0

    def write(self, data):
        self.since += len(data)
        if self.since >= PIECE:
            self.since, self.pauses = 0, self.pauses + 1
            self.load.wait_for(BETWEEN)
        return super().write(data)


def keep(site):
    """A state that this session keeps: the last that arrived. The floor may follow as far as it."""
    site.open()
    state = site.begin("any")
    site.abort()
    try:
        site.ceiling(state)
    except tardis.CeilingBack:
        # (it stands beside the floor, which this session holds where it is)
        pass
    return state


def by_code(load, address, state):
    with tardis.connect(address, PATIENCE) as site:
        file = SlowFile(load)
        assert write_export(site, state, file) > 0
        assert file.pauses >= LEAST_PAUSES, "it was written in %d parts" % file.pauses
        return file.getvalue()


def by_command(load, address, state, folder):
    path = os.path.join(folder, "exported")
    running = subprocess.Popen([sys.executable, "-m", "tardis", "export", address, "--at", str(state), "--out", path], cwd=CLIENT,
                               stdin=subprocess.DEVNULL, stdout=subprocess.DEVNULL)
    while running.poll() is None:
        load.wait_for(1)
    assert running.returncode == 0, "the command ended with %d" % running.returncode
    with open(path, "rb") as file:
        return file.read()


def export_all(load, address, folder, exported, faults):
    """Exports states, one after another."""
    try:
        for place in range(ROUNDS):
            load.wait_for(4 * BETWEEN)
            with tardis.connect(address, PATIENCE) as keeper:
                state = keep(keeper)
                load.wait_for(4 * BETWEEN)
                exported["before"] = keeper.about()
                is_by_command = place >= ROUNDS - BY_COMMAND
                exported[state] = by_command(load, address, state, folder) if is_by_command else by_code(load, address, state)
                # others have gone on below it meanwhile, and it is kept still
                assert keeper.record(state).kept_children or keeper.leaves().total > 1
    except BaseException as fault:
        faults.append(fault)
    finally:
        load.is_over = True


# what the server was asked

def is_next(body, reply, commits):
    """Whether this may come when so many commits were made."""
    code = body[0]
    if code == 2:
        return reply.state.sequence == commits
    if code == 6:
        return reply.id.sequence == commits + 1
    if code == 8:
        return all(struct.unpack_from(">HI", body, 2 + 6 * place)[1] <= commits for place in range(body[1]))
    return True


def trail_of(asked):
    """One order of all requests that the replies allow. What changes nothing and depends on others (Leaves) is left out."""
    lines = [[line for line in it if line[0][0] != 18] for it in asked]
    trail, commits, places = [], 0, [0] * len(lines)
    going = True
    while going:
        going, ready = False, None
        for client, of_client in enumerate(lines):
            while places[client] < len(of_client) and is_next(*of_client[places[client]], commits):
                body, reply = of_client[places[client]]
                if body[0] == 6:
                    ready = client
                    break
                trail.append((client + 1, body, reply))
                places[client] += 1
        if ready is not None:
            trail.append((ready + 1, *lines[ready][places[ready]]))
            places[ready] += 1
            commits += 1
            going = True
    left = sum(map(len, lines)) - len(trail)
    assert left == 0, "%d requests stand in no order that the replies allow" % left
    return trail


def frame(body):
    return struct.pack(">I", len(body)) + body


def read_frames(data):
    place = 0
    while place < len(data):
        length = int.from_bytes(data[place:place + 4], "big")
        yield replies.read_reply(data[place + 4:place + 4 + length])
        place += 4 + length


def run(program, words, frames):
    done = subprocess.run([program, *words], input=frames, stdout=subprocess.PIPE, timeout=LONGEST_RUN)
    assert done.returncode == 0, "%s ended with %d" % (" ".join(words), done.returncode)
    return done.stdout


def compare(program, trail, exported):
    frames = b"".join(frame(struct.pack(">H", client) + body) for client, body, _ in trail)
    again = list(read_frames(run(program, ["run"], frames)))
    assert len(again) == len(trail), "%d replies to %d requests" % (len(again), len(trail))
    for place, ((client, body, reply), other) in enumerate(zip(trail, again)):
        # (a session opens at the floor, which only the server's upkeep moved)
        assert body[0] == 1 or reply == other, "request %d, %s of client %d: %r, and then %r" % (place, body.hex(), client, reply, other)
    for state, contents in exported.items():
        assert contents == run(program, ["export", "--at", str(state)], frames), f"the export of {state} isn't that of the trail"


# the whole

def load_and_export(program, folder):
    """What was asked, and what was exported meanwhile."""
    address, load, exported, faults = "unix:" + os.path.join(folder, "site"), Load(), {}, []
    server = subprocess.Popen([program, "--listen", address, "--tidy"], stdin=subprocess.DEVNULL, stderr=subprocess.PIPE)
    try:
        first_line(server)
        filling = [Talker(address, fill(load), Noted(load))]
        assert let_talk(filling), "the server has gone"
        talkers = [Talker(address, write(load, random.Random(name), name), Noted(load)) for name in range(WRITERS)]
        talkers.append(Talker(address, merge(load), Noted(load)))
        exporting = threading.Thread(target=export_all, args=(load, address, folder, exported, faults), daemon=True)
        exporting.start()

        def pause():
            if load.made >= load.allowed:
                time.sleep(0.002)

        assert let_talk(talkers, pause), "the server has gone"
        exporting.join(PATIENCE)
    finally:
        load.is_over = True
        stop(server)
    take_rest([*filling, *talkers])
    if faults:
        raise faults[0]
    return load, exported


def too_late(number, stack):
    raise AssertionError("it takes more than %d seconds" % LONGEST_RUN)


def main():
    words = sys.argv[1:]
    if len(words) > 2 or any(word.startswith("-") for word in words):
        sys.exit(__doc__)
    tardisd, program = (words + [os.path.join(TOP, "tardisd"), os.path.join(TOP, "tardis")][len(words):])[:2]
    for it in tardisd, program:
        # builds it, where that is needed
        subprocess.run([it, "--version"], check=True, stdout=subprocess.DEVNULL, timeout=7200)
    signal.signal(signal.SIGALRM, too_late)
    signal.alarm(LONGEST_RUN)
    folder = tempfile.mkdtemp()
    try:
        load, exported = load_and_export(tardisd, folder)
        before = exported.pop("before")
        assert len(set(exported.values())) == ROUNDS, "two exports are the same"
        assert before.kept < before.known, "nothing was collected before the last of them"
        compare(program, trail_of(load.asked), exported)
    finally:
        shutil.rmtree(folder)
    merged = sum(1 for lines in load.asked for body, reply in lines if isinstance(reply, replies.Committed) and len(reply.parents) > 1)
    print("%d exports of %s under load are those of the trail: %d commits and %d merges, %d of %d states were collected" % (
        len(exported), ", ".join(map(str, exported)), load.made - merged, merged, before.known - before.kept, before.known))


if __name__ == "__main__":
    main()
