#!/usr/bin/env python3
"""Refuses `tardis` and `tardisd` one allocation at a time, over the worked rows of the documents.

usage: tools/refuse_memory.py [--tardis PROGRAM] [--tardisd PROGRAM] [NAME..]

The programs are those that the last build left, unless others are named; one that isn't there is told, and left out. Names
choose among the sessions (`sessions`, below). Each session is run again and again: in the first run the program's first
allocation is refused, in the second the second, until a run ends in which none was. It needs a C compiler (`cc`, or $CC) for
`refuse_memory.c`, and Linux.

What counts as well, in each run:

- Each request is answered by its row's reply, or by NoMemory; after NoMemory the same request once more is answered by its
  row's reply, and all that follows by theirs: by what a session reads later, nothing was lost and nothing was done twice.
- Or the program ends before it answered anything, with status 6 and its line on standard error.
- A server that has no memory to begin ends with status 6, before anybody was served. One that has none for a link ends that
  link before it answers on it, serves the next, and tells so by status 6 at its end. One that has none for a link's thread
  serves the link when those behind it are over. Whatever was answered stands in its trail, and a run over the trail gives the
  same replies.
- A server that makes two rounds with a peer has all that the peer gave when they are over, since one exchange that finds no
  memory leaves the rest to the next; or it made no round. It tells so by status 6.
- `tardisd` ends with status 6 or 7 before anybody was served; or it serves on, and may have turned away one connection before
  it answered on it.

Anything else, as another reply, another status, a signal, or a wait of more than 20 seconds, is a fault, and the script ends
with it. One line for each session tells how many allocations were refused, and what came of them.
"""

import argparse
import collections
import contextlib
import os
import select
import shlex
import shutil
import socket
import struct
import subprocess
import sys
import tempfile
import time

from servers import PATIENCE, stop

HERE = os.path.dirname(os.path.abspath(__file__))
TOP = os.path.dirname(HERE)
# No session takes so many allocations.
MOST = 100_000
# How long the first reply of a link is waited for, in seconds, before the link counts as late.
A_WHILE = 1

NO_MEMORY_FRAME, NO_MEMORY_LINE = b"\x00\x00\x00\x01\x16", b"nomemory\n"
NO_MEMORY, GATE_FAULT = 6, 7
LINES = {0: b"", NO_MEMORY: b"tardis: out of memory\n"}
DAEMON_LINES = {NO_MEMORY: b"tardisd: out of memory\n", GATE_FAULT: b"tardisd: gate fault: "}
CLOSED = b"\x00\x00\x00\x01\x14"
# what a link is answered that closes without having opened a session
NOT_OPEN = b"\x00\x00\x00\x02\x15\x02"

Row = collections.namedtuple("Row", "asked told")


# The rows of the documents.

def section(page, begin, end):
    """The lines of a page from the first that begins so to the next that begins otherwise so."""
    with open(os.path.join(TOP, page), encoding="utf-8") as file:
        lines = file.read().split("\n")
    first = next(place for place, line in enumerate(lines) if line.startswith(begin))
    last = next((place for place, line in enumerate(lines) if place > first and line.startswith(end)), len(lines))
    return lines[first:last]


def cells(line):
    """What stands between the backquotes of each cell of a table's line, where the first cell has some."""
    parts = [part.strip() for part in line.strip("|").split(" | ")]
    return [part.strip().strip("`") for part in parts] if line.startswith("| `") else []


def frame_rows(page, begin, end):
    rows = [cells(line) for line in section(page, begin, end)]
    rows = [Row(bytes.fromhex(row[0]), bytes.fromhex(row[2])) for row in rows if len(row) == 4]
    assert len(rows) > 5, "the table behind %r has gone" % begin
    return rows


def line_rows(page, begin, end):
    rows = [cells(line) for line in section(page, begin, end)]
    rows = [Row(row[0].encode() + b"\n", row[1].encode() + b"\n") for row in rows if len(row) > 1]
    assert len(rows) > 5, "the table behind %r has gone" % begin
    return rows


def world_frames():
    """The frames of the replication of three sites."""
    bodies = [cells(line) for line in section("docs/REPLICATION.md", "| Body", "#")]
    frames = [frame(bytes.fromhex(row[0])) for row in bodies if row]
    assert len(frames) > 20, "the table of bodies has gone"
    return frames


def frame(body):
    return struct.pack(">I", len(body)) + body


def frames_of(data):
    """The frames that stand one behind the other, which are whole."""
    frames, place = [], 0
    while place < len(data):
        (length,) = struct.unpack_from(">I", data, place)
        frames.append(data[place:place + 4 + length])
        assert len(frames[-1]) == 4 + length, "a frame is cut"
        place += 4 + length
    return frames


# Programs.

def shim(folder):
    """The library that refuses one call, built."""
    made = os.path.join(folder, "refuse_memory.so")
    cc = shlex.split(os.environ.get("CC") or "cc")
    subprocess.run([*cc, "-O2", "-shared", "-fPIC", "-o", made, os.path.join(HERE, "refuse_memory.c")], check=True)
    return made


class Refusing:
    """A program that runs, of whose allocations the one with this number is refused."""

    def __init__(self, place, number, words, program=None):
        self.told, tell = os.pipe()
        names = dict(os.environ, LD_PRELOAD=place.shim, REFUSED_CALL=str(number), REFUSED_TELL=str(tell))
        try:
            self.process = subprocess.Popen(
                [program or place.program, *words], stdin=subprocess.PIPE, stdout=subprocess.PIPE, stderr=subprocess.PIPE,
                env=names, pass_fds=[tell], bufsize=0)
        finally:
            os.close(tell)

    def __enter__(self):
        return self

    def __exit__(self, *raised):
        stop(self.process)
        self.process.stdin.close()
        os.close(self.told)

    def end(self):
        """What was written that wasn't read, the status, and the bytes on standard error."""
        try:
            output, errors = self.process.communicate(timeout=PATIENCE)
        except subprocess.TimeoutExpired:
            raise AssertionError("the program doesn't end") from None
        assert self.process.returncode >= 0, "the program was stopped by signal %d" % -self.process.returncode
        return output, self.process.returncode, errors

    def killed(self):
        """The same, of a program that is ended here."""
        self.process.kill()
        output, errors = self.process.communicate(timeout=PATIENCE)
        return output, self.process.returncode, errors

    def first_error_line(self):
        """The first line on standard error."""
        with contextlib.suppress(Ended):
            return next_reply(lambda most: os.read(self.process.stderr.fileno(), 1), self.process.stderr, bytearray(), True)
        return b""

    def was_refused(self):
        """Whether the call with that number came. The program has ended."""
        return os.read(self.told, 1) != b""


class Ended(Exception):
    """The other end has ended."""


def some_bytes(take, file):
    """At least a byte that comes at a file, within the patience."""
    ready, _, _ = select.select([file], [], [], PATIENCE)
    assert ready, "nothing comes"
    try:
        data = take(65536)
    except ConnectionError:
        data = b""
    if not data:
        raise Ended
    return data


def next_reply(take, file, held, lines):
    """The next frame or line, taken off what is held."""
    while True:
        if lines:
            length = held.find(b"\n") + 1
        else:
            length = 4 + struct.unpack_from(">I", held)[0] if len(held) >= 4 else 0
        if 0 < length <= len(held):
            reply = bytes(held[:length])
            del held[:length]
            return reply
        held += some_bytes(take, file)


# Sessions.

def settled(ask, row, no_memory):
    """Asks for a row, once more where there was no memory. Whether there was none."""
    reply = ask(row.asked)
    if reply == row.told:
        return False
    assert reply == no_memory, "%r was answered %r, and not %r" % (row.asked, reply, row.told)
    again = ask(row.asked)
    assert again == row.told, "%r was answered %r after NoMemory, and not %r" % (row.asked, again, row.told)
    return True


def ended_well(status, errors, among):
    assert status in among and errors == LINES[status], "status %d, %r" % (status, errors)


def talk(words, rows, lines=False):
    """A session over standard input and output, of a row at a time."""
    def run(place, number):
        with Refusing(place, number, words) as it:
            held, wants = bytearray(), 0

            def ask(request):
                try:
                    it.process.stdin.write(request)
                except BrokenPipeError:
                    raise Ended from None
                return next_reply(lambda most: os.read(it.process.stdout.fileno(), most), it.process.stdout, held, lines)

            came = "no one's"
            for place_of_row, row in enumerate(rows):
                try:
                    wants += settled(ask, row, NO_MEMORY_LINE if lines else NO_MEMORY_FRAME)
                except Ended:
                    assert place_of_row == 0, "the program ended before row %d" % place_of_row
                    came = "the start's"
                    break
            output, status, errors = it.end()
            assert wants < 2, "%d replies were NoMemory" % wants
            assert output == b"" and not held, "more was written: %r" % output
            ended_well(status, errors, [NO_MEMORY if came == "the start's" else 0])
            return it.was_refused(), "a request's" if wants else came
    return run


def whole(words, told):
    """A run that reads nothing, and writes all of this, or nothing."""
    def run(place, number):
        with Refusing(place, number, words) as it:
            output, status, errors = it.end()
            ended_well(status, errors, [0, NO_MEMORY])
            assert output == (told if status == 0 else b""), "it wrote %r" % output
            return it.was_refused(), "the run's" if status else "no one's"
    return run


class Link:
    """A link to a server. Where it ends before its first reply, or none comes in a while, it is made anew, once; what was
    asked on the first one may then be answered when all others are over."""

    def __init__(self, path):
        self.path, self.told, self.spare, self.late = path, [], True, None
        self.begin()

    def begin(self):
        self.held = bytearray()
        self.socket = socket.socket(socket.AF_UNIX)
        self.socket.settimeout(PATIENCE)
        with contextlib.suppress(ConnectionError, FileNotFoundError):
            self.socket.connect(self.path)

    def ask(self, request):
        try:
            self.socket.sendall(request)
            if not self.told and self.spare and not select.select([self.socket], [], [], A_WHILE)[0]:
                self.spare, self.late = False, self.socket
                self.begin()
                return self.ask(request)
            reply = self.next_reply()
        except (Ended, OSError):
            assert not self.told, "a link ended after %d replies" % len(self.told)
            self.socket.close()
            if not self.spare:
                raise Ended from None
            self.spare = False
            self.begin()
            return self.ask(request)
        if reply != NO_MEMORY_FRAME:
            self.told.append(reply)
        return reply

    def next_reply(self):
        return next_reply(self.socket.recv, self.socket, self.held, False)

    def late_reply(self):
        """What the link was told on which nothing came for a while: the others are over."""
        try:
            return next_reply(self.late.recv, self.late, bytearray(), False)
        finally:
            self.late.close()


def trail_is_right(place, trail, links):
    """A run over a trail, with all memory, gives the replies that the links were given."""
    again = subprocess.run([place.program, "run"], input=trail, stdout=subprocess.PIPE, timeout=PATIENCE)
    assert again.returncode == 0, "a run over the trail ends with %d" % again.returncode
    told = {}
    for entry, reply in zip(frames_of(trail), frames_of(again.stdout)):
        told.setdefault(entry[4:6], []).append(reply)
    told = sorted(replies for replies in told.values() if replies != [NOT_OPEN])
    assert told == sorted(replies + [CLOSED] for replies in links), "the trail tells something else"


def ask_links(links, path, rows):
    """Asks for the rows over a link for each actor, and tells for how many there was no memory at first."""
    wants = 0
    for row in rows:
        (actor,) = struct.unpack_from(">H", row.asked, 4)
        if actor not in links:
            links[actor] = Link(path)
        wants += settled(links[actor].ask, Row(frame(row.asked[6:]), row.told), NO_MEMORY_FRAME)
    assert wants < 2, "%d replies were NoMemory" % wants
    return wants


def end_links(it, path, links):
    """Ends all links, and makes the ones that the server still waits for, so that it ends. What the late ones were told."""
    for link in links:
        link.socket.close()
    until = time.monotonic() + PATIENCE
    late = [link for link in links if link.late]
    while it.process.poll() is None and time.monotonic() < until and not (late and select.select([late[0].late], [], [], 0)[0]):
        with contextlib.suppress(OSError), socket.socket(socket.AF_UNIX) as probe:
            probe.settimeout(PATIENCE)
            probe.connect(path)
        time.sleep(0.002)
    return [link.late_reply() for link in late]


def serve(rows):
    """A server of three links: of two clients, and of one more. Each request is asked when the one before is answered."""
    def run(place, number):
        path = os.path.join(place.folder, "site")
        with Refusing(place, number, ["serve", "--listen", "unix:" + path, "--links", "3"]) as it:
            links, wants, late, stopped = {}, 0, [], False
            line = it.first_error_line()
            is_heard = line == b"tardis: listens at unix:%s\n" % path.encode()
            if is_heard:
                try:
                    wants = ask_links(links, path, rows)
                except Ended:
                    stopped = True
                late = end_links(it, path, links.values())
            output, status, errors = it.end()
            errors = errors if is_heard else line + errors
            refused = it.was_refused()
            told = [link.told for link in links.values() if link.told] + [[reply] for reply in late]
            assert refused or status == 0, "status %d, and no allocation was refused" % status
            ended_well(status, errors, [NO_MEMORY] if stopped or not is_heard else [0, NO_MEMORY])
            assert all(reply == rows[0].told for reply in late), "a late link was told %r" % late
            assert told or output == b"", "nobody was served, and it wrote %r" % output
            trail_is_right(place, output, told)
            return refused, what_came(told, status, late, wants)
    return run


def what_came(told, status, late, wants):
    """What came of a server's run."""
    if not told:
        return "the start's"
    if status:
        return "a link's"
    return "a thread's" if late else "a request's" if wants else "no one's"


def daemon(program, rows):
    """A `tardisd` and two clients. It serves until it is killed."""
    def run(place, number):
        path = os.path.join(place.folder, "site")
        with Refusing(place, number, ["--listen", "unix:" + path], program) as it:
            links, wants = {}, 0
            line = it.first_error_line()
            try:
                if line != b"tardisd: site 1 of 1 listens at unix:%s\n" % path.encode():
                    raise Ended
                line = b""
                wants = ask_links(links, path, rows)
            except Ended:
                output, status, errors = it.end()
                told = DAEMON_LINES.get(status)
                assert told and (line + errors).startswith(told) and output == b"", "status %d, %r" % (status, line + errors)
                assert not any(link.told for link in links.values()), "it ended while it served"
                return it.was_refused(), "the start's"
            for link in links.values():
                link.socket.close()
            assert not any(link.late for link in links.values()), "a connection is left without an answer"
            assert it.process.poll() is None, "it ended with %r" % it.process.returncode
            output, _, errors = it.killed()
            assert (output, errors) == (b"", b""), "it wrote %r and %r" % (output, errors)
            is_away = not all(link.spare for link in links.values())
            return it.was_refused(), "a link's" if is_away else "a request's" if wants else "no one's"
    return run


def rounds(pull, batch, probes):
    """A server that serves one link and makes two rounds with a peer, which gives this batch in each. After them all that
    the batch has is there, since an exchange that finds no memory leaves the rest to the next; or no round was made."""
    def run(place, number):
        path, peer = os.path.join(place.folder, "site"), os.path.join(place.folder, "peer")
        words = ["serve", "--sites", "2", "--listen", "unix:" + path, "--links", "1", "--peer", "unix:" + peer, "--rounds", "2"]
        with socket.socket(socket.AF_UNIX) as gate:
            gate.bind(peer)
            gate.listen()
            try:
                with Refusing(place, number, words) as it:
                    calls = answer_calls(it, gate, path, pull, batch)
                    output, status, errors = it.end()
                    refused = it.was_refused()
            finally:
                os.unlink(peer)
        assert refused or (status, calls) == (0, 2), "status %d, %d rounds, and no allocation was refused" % (status, calls)
        on_the_way = (b"tardis: listens at ", b"tardis: no link to ")
        last = b"".join(line for line in errors.splitlines(True) if not line.startswith(on_the_way))
        ended_well(status, last, [0, NO_MEMORY])
        if not errors.startswith(on_the_way[0]):
            assert output == b"" and status, "it never listened, wrote %r and ended with %d" % (output, status)
            return refused, "the start's"
        return refused, what_rounds_came_to(place, output, status, calls, probes)
    return run


def answer_call(gate, pull, batch):
    """Answers a call of a server's rounds, if one comes at once, and tells how many came."""
    if not select.select([gate], [], [], 0.005)[0]:
        return 0
    with gate.accept()[0] as link:
        link.settimeout(PATIENCE)
        with contextlib.suppress(Ended, BrokenPipeError):
            asked = next_reply(link.recv, link, bytearray(), False)
            assert len(asked) == len(pull) and asked[:6] == pull[:6], "the peer was asked %r" % asked
            link.sendall(batch)
    return 1


def answer_calls(it, gate, path, pull, batch):
    """Answers the calls of a server's rounds, and makes its link when they are over, or none comes in a while: some come
    after the link. Tells how many came."""
    calls, until = 0, time.monotonic() + A_WHILE
    while calls < 2 and it.process.poll() is None and time.monotonic() < until:
        calls += answer_call(gate, pull, batch)
    until = time.monotonic() + PATIENCE
    while it.process.poll() is None and time.monotonic() < until:
        with contextlib.suppress(OSError), socket.socket(socket.AF_UNIX) as link:
            link.settimeout(PATIENCE)
            link.connect(path)
        calls += answer_call(gate, pull, batch)
    return calls


def what_rounds_came_to(place, trail, status, calls, probes):
    """What came of a server's rounds, by its trail with some requests behind it."""
    asked = b"".join(row.asked for row in probes)
    again = subprocess.run(
        [place.program, "run", "--sites", "2"], input=trail + asked, stdout=subprocess.PIPE, timeout=PATIENCE)
    assert again.returncode == 0, "a run over the trail ends with %d" % again.returncode
    told = frames_of(again.stdout)[-len(probes):]
    if told == [row.told for row in probes]:
        return "an exchange's" if status else "no one's"
    assert calls == 0 and status, "after %d rounds it tells %r" % (calls, told)
    return "all rounds'"


def rounds_of_site_2():
    """Site 2's news for a site that knows nothing, and what is read then: two states that site 2 made."""
    key, root = b"\x01x", bytes(6)
    first, second = struct.pack(">HI", 2, 1), struct.pack(">HI", 2, 2)
    records = [first + b"\x01" + root + b"\x01" + key + b"\x01\x00\x011", second + b"\x01" + first + b"\x01\x01y\x01\x00\x012"]
    actor = b"\x00\x07"
    return (
        frame(b"\x13\x02" + bytes(8)), frame(b"\x10\x00\x02" + b"".join(records) + b"\x00"), [
            Row(frame(actor + b"\x01\x00"), frame(b"\x01" + root)),
            Row(frame(actor + b"\x02\x00"), frame(b"\x02" + second)),
            Row(frame(actor + b"\x03" + key), frame(b"\x04" + first + b"\x00\x011")),
            Row(frame(actor + b"\x03\x01y"), frame(b"\x04" + second + b"\x00\x012")),
        ])


# All.

Place = collections.namedtuple("Place", "program shim folder")

OUTCOMES = {
    "the start's": "ended at once",
    "the run's": "wrote nothing",
    "a link's": "ended a link",
    "a thread's": "answered a link when the others were over",
    "all rounds'": "made no round",
    "an exchange's": "told of it at the end",
    "a request's": "answered NoMemory, and went on",
    "no one's": "answered all",
}


def told_by(program, words, rows):
    """What a run with all memory answers to these frames."""
    ran = subprocess.run([program, *words], input=b"".join(rows), stdout=subprocess.PIPE, timeout=PATIENCE, check=True)
    told = frames_of(ran.stdout)
    assert len(told) == len(rows), "%d frames were answered by %d" % (len(rows), len(told))
    return [Row(*row) for row in zip(rows, told)]


def sessions(program, daemon_program):
    """Each session's name, and how it is run. What is to be told stands in the documents, but for two: of the world they
    tell it in words, and of a load with steps they tell nothing."""
    cart, made = frame_rows("docs/FORMATS.md", "## A cart", "## Lines"), {}
    if is_there(program):
        load = ["load", "--start", "1", "--steps", "60"]
        loaded = subprocess.run([program, *load], stdout=subprocess.PIPE, timeout=PATIENCE, check=True).stdout
        made = {
            "first": talk(["run"], frame_rows("docs/FORMATS.md", "## A session", "## A cart")),
            "cart": talk(["run"], cart),
            "floors": talk(["run"], frame_rows("docs/FLOORS.md", "| Frame in", "Had")),
            "lines": talk(["shell"], line_rows("README.md", "## A cart", "The first word"), lines=True),
            "forms": talk(["shell", "--sites", "2"], line_rows("docs/COMMANDS.md", "Every form", "Here"), lines=True),
            "world": talk(["world", "--sites", "3"], told_by(program, ["world", "--sites", "3"], world_frames())),
            "load": whole(load, loaded),
            "serve": serve(cart),
            "rounds": rounds(*rounds_of_site_2()),
        }
    if is_there(daemon_program):
        made["tardisd"] = daemon(daemon_program, cart)
    return made


def is_there(program):
    if not os.access(program, os.X_OK):
        print("left out: %s isn't there" % program)
        return False
    return True


def sweep(name, run, place):
    """Refuses each allocation of a session in turn, and tells what came of them in one line."""
    counts, began = collections.Counter(), time.monotonic()
    for number in range(1, MOST):
        try:
            refused, came = run(place, number)
        except AssertionError as fault:
            raise AssertionError("%s, with allocation %d refused: %s" % (name, number, fault)) from None
        if not refused:
            assert came == "no one's", "%s ended otherwise though no allocation was refused" % name
            break
        counts[came] += 1
    parts = ["%d %s" % (counts[came], text) for came, text in OUTCOMES.items() if counts[came]]
    print("%s: %d allocations: %s (%.0f s)" % (name, number - 1, "; ".join(parts), time.monotonic() - began), flush=True)
    assert counts, "%s: no allocation was refused" % name


def main():
    words = argparse.ArgumentParser(description="refuses one allocation at a time")
    for name in ("tardis", "tardisd"):
        words.add_argument("--" + name, default=os.path.join(TOP, "crates", name, "out", name), metavar="PROGRAM")
    words.add_argument("names", nargs="*", metavar="NAME")
    words = words.parse_args()
    program, daemon_program = os.path.abspath(words.tardis), os.path.abspath(words.tardisd)
    all_of_them = sessions(program, daemon_program)
    assert all_of_them, "no program is there"
    folder = tempfile.mkdtemp()
    try:
        place = Place(program, shim(folder), folder)
        for name in words.names or all_of_them:
            sweep(name, all_of_them[name], place)
    finally:
        shutil.rmtree(folder)


if __name__ == "__main__":
    main()
