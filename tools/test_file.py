#!/usr/bin/env python3
"""Kills `tardisd --file` again and again, and looks at what its file holds and what the next server on it serves.

usage: tools/test_file.py [TARDISD [KILLS]]

The program is the one that the last build left, unless another is named; it is killed 300 times, unless told otherwise. What is in
the file is read here, byte by byte (`log_file.py`). It is seen that

- after each kill the file holds each commit that was told, with its parents and its values, and each floor and collection; and no
  record that nobody asked for, or one twice. No reply showed a state that isn't there. What was there before is as it was;
- the next server serves just what the file holds, with no session open;
- a server that is killed while it makes its file, or reads it, leaves a file that opens;
- a file opens whose end a crash tore, and one whose end was cut off or made zero, with what stands before;
- a file opens that was begun under smaller limits, and keeps what it says first;
- what is no log, or is damaged, or another site's, or of larger limits, is told by name and place, and is left byte for byte as it
  was; so is a file that another server holds;
- `--check` tells what a file has, or by a start's words why it isn't good, and changes and makes nothing;
- a copy that is taken while clients ask has all that was settled when it began, or is told as damaged behind that, and is good once it
  is cut there;
- a server whose file can't grow ends, and nothing that it told is lost.

Clients ask by turns, and without waiting. Each wait has an end, and the whole run ends after fifteen minutes at the latest. Nothing is
left behind."""

import os
import random
import re
import resource
import shutil
import signal
import subprocess
import sys
import tempfile
import time

HERE = os.path.dirname(os.path.abspath(__file__))
TOP = os.path.dirname(HERE)
sys.path[:0] = [os.path.join(TOP, "clients", "python")]

import log_file  # noqa: E402
import tardis  # noqa: E402
from log_file import FRONT, Collection, Consent, Front, LogReader, Record, log_bytes, things_of  # noqa: E402
from servers import PATIENCE, first_line, stop  # noqa: E402
from talkers import Talker, Told, collects, let_talk, merges, take_rest, transactions  # noqa: E402

CLIENTS = 20
#: what a server says once it listens: how many states it knows and keeps, the groups and bytes of its log, and whether its end was torn
LINE = re.compile(r"tardisd: site \d+ of \d+ listens at (\S+), (?:in a new file|with (\d+) states, (\d+) of them kept, from a file of (\d+) "
                  r"groups in (\d+) bytes(, read in \d+ ms)?(; its end was torn, and is mended)?)\n")
DISK_FAULT, BAD_LOG = 10, 13
LONGEST_RUN = 900


class Server:
    """A server on a file, at a socket beside it, unless another is named."""

    def __init__(self, program, path, words=(), before=None, address=None):
        self.address = "unix:" + (address or path + ".socket")
        self.process = subprocess.Popen([*program, "--listen", self.address, "--file", path, *words], stdin=subprocess.DEVNULL,
                                        stdout=subprocess.DEVNULL, stderr=subprocess.PIPE, preexec_fn=before)

    def listens(self):
        """Waits until it listens, and takes what it says of its file."""
        line = first_line(self.process)
        found = LINE.fullmatch(line)
        assert found and found[1] == self.address, line
        self.says = None if found[2] is None else (*map(int, found.groups()[1:5]), found[7] is not None)
        return self

    def kill(self):
        stop(self.process)


def bytes_of(path):
    with open(path, "rb") as file:
        return file.read()


def ended(program, path, words=(), address=None):
    """The status, and what it said, of a server that ends by itself."""
    server = Server(program, path, words, address=address)
    try:
        line = first_line(server.process)
        assert " listens at " not in line, "it serves a file that it should refuse: " + line
        _, more = server.process.communicate(timeout=PATIENCE)
        return server.process.returncode, line + more.decode()
    finally:
        stop(server.process)


class History:
    """What the file holds, as it grows, and what clients were told."""

    def __init__(self, path):
        self.path, self.reader, self.told = path, LogReader(), Told()
        self.records, self.tags, self.consents, self.collected, self.fresh, self.life = {}, set(), [], 0, [], None

    def look(self):
        """Reads what came to the file, and compares it with what was told."""
        self.fresh = []
        for place, body in self.reader.read(bytes_of(self.path)):
            for thing in things_of(body):
                self.take(place, thing)
        told = self.told
        for id, (parents, tag) in told.committed.items():
            assert id in self.records, "the commit %s was told, and isn't there" % (id,)
            found = self.records[id]
            assert found.parents == tuple(parents), "the commit %s has other parents" % (id,)
            assert found.writes == told.asked[tag], "the commit %s has other writes" % (id,)
        gone = [id for id in told.states if id != (0, 0) and id not in self.records]
        assert not gone, "states that were shown aren't there: %r" % gone
        for id, key, value in told.reads:
            assert key in self.records[id].writes and self.records[id].writes[key] == value, "%r was read otherwise" % (key,)
        for floor, number in told.raised:
            assert (floor, number) in self.consents, "the floor %s was told, and isn't there" % (floor,)
        assert told.collected <= self.collected, "%d collected states were told, and %d are there" % (told.collected, self.collected)
        # (what was compared once is compared by the reader from now on)
        told.committed, told.states, told.reads, told.raised = {}, set(), set(), []

    def take(self, place, thing):
        if isinstance(thing, Record):
            assert thing.id == (1, len(self.records) + 1), "the record at %d is out of order: %s" % (place, thing.id)
            tag = next((value for key, value in thing.writes.items() if key.startswith(b"own.")), b"")
            assert self.told.asked.get(tag) == thing.writes, "nobody asked for the record at %d" % place
            assert tag not in self.tags, "the record at %d is there twice" % place
            self.tags.add(tag)
            self.records[thing.id] = thing
            self.fresh.append(thing)
        elif isinstance(thing, Consent):
            self.consents.append((thing.floor, thing.number))
        elif isinstance(thing, Collection):
            self.collected += thing.count
        else:
            assert thing.site == 1 and self.life is None, "another life begins at %d" % place
            self.life = thing.life


# kills

def one_life(program, history, choose, number):
    """A server that clients ask, until it is killed."""
    tidies = number % 3 == 2
    server = Server(program, history.path, ["--tidy"] if tidies else []).listens()
    try:
        talkers = []
        for client in range(CLIENTS):
            name = b"%d.%d" % (number, client)
            by_turns = choose.random() < (0.5 if number % 2 else 0.9)
            talk = transactions(history.told, choose, name, 400 if by_turns else 60, choose.random() < 0.8)
            talkers.append(Talker(server.address, talk, history.told, by_turns))
        enough = history.told.replies + choose.randrange(choose.choice([30, 300, 3000]))
        let_talk(talkers, lambda: history.told.replies >= enough)
        time.sleep(choose.choice([0, 0.002 * choose.random()]))
    finally:
        server.kill()
    take_rest(talkers)
    return tidies


def is_served(program, history, number, tidied):
    """A server on the file serves what it holds, and nothing of those that asked before. Then the leaves are joined, and what nobody
    reads is collected."""
    data, text = bytes_of(history.path), len(history.reader.text)
    server = Server(program, history.path).listens()
    try:
        known = len(history.records) + 1
        said = (known, known - history.collected, history.reader.number, text, not log_file.is_zeros(data[text:]))
        assert server.says == said, "it says %s, and the file has %s" % (server.says, said)
        with tardis.connect(server.address, PATIENCE) as site:
            stat = site.stat()
            assert (stat.known, stat.sessions) == (len(history.records) + 1, 0), "it serves another site: %s" % (stat,)
            assert stat.kept == stat.known - history.collected, "%d were collected, and %d are kept" % (history.collected, stat.kept)
            site.open()
            read = are_read(site, history.fresh)
            assert tidied or read == len(history.fresh), "of %d records %d can be read" % (len(history.fresh), read)
        talk_alone(server, history, merges(history.told, b"%d.joins" % number))
        talk_alone(server, history, collects())
    finally:
        server.kill()
    history.look()
    return read


def talk_alone(server, history, talk):
    talker = Talker(server.address, talk, history.told)
    assert let_talk([talker]), "the server has gone"
    talker.socket.close()


def are_read(site, records):
    """How many of these states can be read at, and there all that they wrote is read."""
    with site.pipeline() as asked:
        answers = [(record, asked.begin(tardis.StateId(*record.id)), [(value, asked.get(key)) for key, value in record.writes.items()],
                    asked.abort()) for record in records]
    count = 0
    for record, begun, values, _ in answers:
        if begun.error is None:
            count += 1
            for value, answer in values:
                wanted = tardis.Deleted(record.id) if value is None else tardis.Value(record.id, value)
                assert answer.result() == wanted, "at %s %r is read, and not %r" % (record.id, answer.result(), wanted)
        else:
            assert isinstance(begun.error, (tardis.Below, tardis.Collected)), begun.error
    return count


def tear(history, choose):
    """Puts behind the log what a crash may leave of a group that was being written: of each byte the old one, zero, or the new one."""
    reader = history.reader
    body = log_file.thing_spelling(Record((1, len(history.records) + 1), ((0, 0),), {b"torn": bytes(choose.choice([1, 100, 4096]))}))
    text = log_file.entry(log_file.group_item(reader.front.life, reader.number, body))
    kind = choose.randrange(4)
    torn = bytearray(byte if kind == 0 or choose.randrange(8) < kind * 2 else 0 for byte in text)
    torn[choose.randrange(len(torn) - 1) if kind else len(torn) - 1] = 0
    with open(history.path, "r+b") as file:
        file.seek(len(reader.text))
        file.write(torn)


def test_kills(program, folder, kills, choose):
    history = History(os.path.join(folder, "log"))
    kept = told = begun = 0
    for number in range(kills):
        if number % 4 == 3:
            begun += kill_while_it_starts(program, history.path, choose)
        tidied = one_life(program, history, choose, number)
        told += len(history.told.committed)
        history.look()
        if number % 3 == 0:
            tear(history, choose)
        kept += is_served(program, history, number, tidied)
    assert told >= kills, "too little was asked: %d commits" % told
    print("%d kills: %d records in the file, %d commits were told, %d read back; %d kills while it started" % (
        2 * kills, len(history.records), told, kept, begun), flush=True)
    return history


def kill_while_it_starts(program, path, choose):
    """Kills a server soon after it was started."""
    server = Server(program, path)
    time.sleep(choose.uniform(0, 0.03))
    server.kill()
    return 1


def test_new_files(program, folder, kills, choose):
    """Servers are killed while they make their file: the next one opens it, and so it does what is left of a file that a crash cut."""
    for number in range(kills):
        path = os.path.join(folder, "new%d" % number)
        for _ in range(choose.randrange(1, 4)):
            kill_while_it_starts(program, path, choose)
        assert_serves(program, path, 0)
        os.unlink(path)
    front = log_bytes(FRONT, [], 0)
    for made in (b"", bytes(1), bytes(70_000), bytes(20) + front[20:] + bytes(8000), front[:-1] + bytes(8000), front[:3] + bytes(8000)):
        path = os.path.join(folder, "begun")
        with open(path, "wb") as file:
            file.write(made)
        assert_serves(program, path, 0)
        os.unlink(path)
    print("%d servers were killed while they made their file" % kills, flush=True)


def assert_serves(program, path, records, words=()):
    """A server opens the file, serves so many records, and leaves a log that ends with zeros alone."""
    before = bytes_of(path) if os.path.exists(path) else b""
    server = Server(program, path, words).listens()
    try:
        assert (server.says is None) == log_file.is_new(before) and (not server.says or server.says[0] == records + 1), server.says
        with tardis.connect(server.address, PATIENCE) as site:
            stat = site.stat()
            assert stat.known == records + 1, "%d states are known, and %d records are there" % (stat.known, records)
            site.open()
    finally:
        server.kill()
    data = bytes_of(path)
    reader = LogReader()
    found = sum(isinstance(thing, Record) for _, body in reader.read(data) for thing in things_of(body))
    assert found == records and log_file.is_zeros(data[len(reader.text):]), "the file isn't as it was served"


# files that were changed

def copy_of(folder, data):
    path = os.path.join(folder, "copy")
    with open(path, "wb") as file:
        file.write(data)
    if os.path.exists(path + ".socket"):
        os.unlink(path + ".socket")
    return path


def groups_of(data):
    reader = LogReader()
    return reader.read(data), reader


def small_log(program, folder, choose):
    """The bytes of a small file, of many groups, that a server wrote."""
    history = History(os.path.join(folder, "small"))
    server = Server(program, history.path).listens()
    try:
        talk_alone(server, history, transactions(history.told, choose, b"small.0", 40, True))
        talk_alone(server, history, merges(history.told, b"small.joins"))
        talk_alone(server, history, collects())
        talk_alone(server, history, transactions(history.told, choose, b"small.1", 20, True))
    finally:
        server.kill()
    history.look()
    return bytes_of(history.path)


def test_ends(program, folder, data, choose):
    """Bytes at the end are cut off, or made zero: what stands before is served."""
    groups, reader = groups_of(data)
    front = groups[0][0]
    places = {front, front + 1, len(reader.text) - 1, len(reader.text), len(data) - 1, *(choose.randrange(front, len(data)) for _ in range(4)),
              *(choose.randrange(front, len(reader.text)) for _ in range(14))}
    for place in sorted(places):
        kept = sum(isinstance(thing, Record) for at, body in groups if end_of(data, at) <= place for thing in things_of(body))
        for changed in (data[:place], data[:place] + bytes(len(data) - place), data[:place] + bytes(7)):
            assert_serves(program, copy_of(folder, changed), kept)
    print("%d ends were cut off and made zero" % len(places), flush=True)


def end_of(data, place):
    return log_file.entry_at(data, place)[1]


def is_refused(program, folder, data, why, words=()):
    """A server doesn't open a file of these bytes: it ends, says why, and leaves the bytes as they were."""
    path = copy_of(folder, data)
    found, line = ended(program, path, words)
    assert bytes_of(path) == data, "a file that was refused is another: %s" % line
    is_named = re.search(re.escape(why) + r"(?![0-9])", line) and line.startswith("tardisd: ") and line.count("\n") == 1
    assert found == BAD_LOG and is_named, "refused as %d, %r, and not as %d, %r" % (found, line, BAD_LOG, why)
    assert not os.path.exists(path + ".socket"), "it listens on a file that it refuses"


def test_foreign_files(program, folder, data):
    """Files that are no log, no log of this version, another site's, or of larger limits."""
    front = log_file.read_front(log_file.entry_at(data, 0)[0])
    no_logs = [b"kept\n" * 2000, b"x", bytes(10) + b"x" + bytes(200), b"tardislg", b"\0\0\0\x04\0\1\1\0" * 600, bytes(range(256)) * 40,
               b"\1\0\0\0\4\0\1\1\0\0", data[:40], data[1:], log_file.entry(b"another" + bytes(60)) + bytes(5000)]
    for made in no_logs:
        is_refused(program, folder, made, "no log")
    newer = log_file.entry(log_file.front_item(front, 2)) + bytes(5000)
    is_refused(program, folder, newer, "version 2")
    item = bytearray(log_file.front_item(front))
    item[30] ^= 1
    is_refused(program, folder, log_file.entry(bytes(item)) + bytes(5000), "damaged")
    for words in (["--sites", "2"], ["--sites", "2", "--site", "2"]):
        is_refused(program, folder, data, "site 1 of 1", words)
    is_refused(program, folder, log_bytes(front._replace(sites=3, own=2), []), "site 2 of 3")
    for larger, words in ((front._replace(most_kept=16_385), []), (front._replace(most_sessions=257), []), (front, ["--states", "16383"]),
                          (front, ["--sessions", "255"]), (front._replace(most_kept=65_000, most_sessions=4096), ["--states", "64999", "--sessions", "4096"])):
        is_refused(program, folder, log_bytes(larger, []), "start it with --states %d --sessions %d," % (larger.most_kept, larger.most_sessions), words)
    print("%d files that are no log of this site were refused" % (len(no_logs) + 10), flush=True)


def test_limits(program, folder, data):
    """Files that were begun under smaller limits are served whole, and keep what they say first."""
    groups, reader = groups_of(data)
    bodies = [body for _, body in groups]
    records = sum(isinstance(thing, Record) for body in bodies for thing in things_of(body))
    for smaller in ({"most_kept": 1}, {"most_pairs": 1}, {"most_sessions": 1}, {"most_kept": 1, "most_pairs": 1, "most_sessions": 1}):
        front = reader.front._replace(**smaller)
        path = copy_of(folder, log_bytes(front, bodies))
        assert_serves(program, path, records)
        assert log_file.read_front(log_file.entry_at(bytes_of(path), 0)[0]) == front, "the file says something else first"
    print("4 files of smaller limits were served", flush=True)


def test_damage(program, folder, data, choose):
    """A byte changed, went or came in the middle, groups changed places: it is told with its place."""
    groups, reader = groups_of(data)
    life, count = reader.front.life, 0
    # (a group that is zeros, and one behind it, are what a crash may leave of one long group)
    for number in sorted({0, 1, len(groups) // 2, len(groups) - 3, *(choose.randrange(len(groups) - 2) for _ in range(8))}):
        place, end = groups[number][0], groups[number + 1][0]
        at = choose.randrange(place, end - 1)
        other = data[at] % 244 + 1 if data[at] % 244 + 1 != data[at] else 9
        bodies = [body for _, body in groups]
        bodies[number:number + 2] = bodies[number + 1], bodies[number]
        for changed in (data[:at] + bytes([other]) + data[at + 1:], data[:at] + bytes(1) + data[at + 1:], data[:place] + bytes(end - place) + data[end:],
                        data[:place] + data[end:], data[:place] + data[place:end] + data[place:],
                        data[:end] + b"x" + data[end:]):
            where = groups_before_damage(changed)
            is_refused(program, folder, changed, "damaged at byte %d" % where)
            count += 1
        if all(isinstance(things_of(body)[0], Record) for body in bodies[number:number + 2]):
            is_refused(program, folder, log_bytes(reader.front, bodies), "doesn't fit the site at byte %d" % place)
            count += 1
    text = len(reader.text)
    strange = [b"\xf7", log_file.thing_spelling(Collection(1)) + b"\4", b"\3\0\0\0\0", log_file.thing_spelling(Record((1, 9), ((0, 0),), {}))]
    for body in strange:
        made = data[:text] + log_file.entry(log_file.group_item(life, len(groups), body)) + bytes(4096)
        is_refused(program, folder, made, "doesn't fit the site at byte %d" % text)
    is_refused(program, folder, data[:text] + b"\xf7" + bytes(10) + b"x" + bytes(4096), "damaged at byte %d" % text)
    is_refused(program, folder, data[:text] + bytes(2_097_160) + b"x" + bytes(4096), "damaged at byte %d" % text)
    print("%d damaged files were refused" % (count + len(strange) + 2), flush=True)


def groups_before_damage(data):
    """Where the first byte stands that is of no right group."""
    reader = LogReader()
    try:
        reader.read(data)
    except log_file.NoLog as fault:
        return fault.place
    raise AssertionError("the bytes aren't damaged")


def test_held(program, folder, data):
    """A file that another server holds, and paths at which no regular file can be."""
    path, address = copy_of(folder, data), os.path.join(folder, "other.socket")
    first = Server(program, path).listens()
    try:
        before = bytes_of(path)
        status, line = ended(program, path, address=address)
        assert status == DISK_FAULT and "another server has the file" in line and line.count("\n") == 1, (status, line)
        assert bytes_of(path) == before, "a file that is held was touched"
        with tardis.connect(first.address, PATIENCE) as site:
            site.open()
    finally:
        first.kill()
    os.mkfifo(os.path.join(folder, "pipe"))
    for place in folder, os.path.join(folder, "no", "log"), "/dev/null", os.path.join(folder, "pipe"), path + "/log":
        status, line = ended(program, place, address=address)
        # (the model of the server in Python has a line of its own)
        is_told = line.startswith("tardisd: %s: " % place) or "the file can't be opened" in line
        assert status == DISK_FAULT and is_told and line.count("\n") == 1, (place, status, line)
    assert bytes_of(path) == before and not os.path.exists(address), "it listens, or wrote"
    print("a file that is held, and what is no file, were refused", flush=True)


# checks

def check(program, path):
    """The status of a check of a file, what it told, and its line on standard error."""
    done = subprocess.run([*program, "--check", "--file", path], stdin=subprocess.DEVNULL, stdout=subprocess.PIPE, stderr=subprocess.PIPE,
                          timeout=PATIENCE)
    return done.returncode, done.stdout.decode().splitlines(), done.stderr.decode()


def is_good(program, path):
    """A check of the file is well, and changes nothing: how many groups and bytes of text it tells, and whether the end is torn."""
    before = bytes_of(path)
    status, told, line = check(program, path)
    assert status == 0 and not line and bytes_of(path) == before, (status, told, line)
    facts = dict(fact.split(" ", 1) for fact in told)
    text = re.fullmatch(r"text (\d+) file (\d+)", facts["bytes"])
    assert int(text[2]) == len(before), told
    return int(facts["groups"]), int(text[1]), facts["end"].startswith("torn")


def test_checks(program, folder, data):
    """What a check tells of good files, of others as a start tells of them, and of none."""
    groups, reader = groups_of(data)
    text = len(reader.text)
    assert is_good(program, copy_of(folder, data)) == (len(groups), text, False)
    for cut in text - 1, groups[-1][0] + 1:
        assert is_good(program, copy_of(folder, data[:cut])) == (len(groups) - 1, groups[-1][0], True)
    assert is_good(program, copy_of(folder, data[:groups[1][0]])) == (1, groups[1][0], False)
    smaller = reader.front._replace(most_kept=1, most_pairs=1, most_sessions=1)
    assert is_good(program, copy_of(folder, log_bytes(smaller, [body for _, body in groups])))[0] == len(groups)
    for new in b"", bytes(5000):
        path = copy_of(folder, new)
        assert check(program, path) == (0, ["a new file: no log was begun"], "") and bytes_of(path) == new
    middle = groups[1][0]
    spoiled = [b"a text", bytes([data[0]]) + b"x" + data[2:], data[:12] + b"x" + data[13:], data[:middle] + b"\xf7" + data[middle:],
               data[:text] + log_file.entry(log_file.group_item(reader.front.life, len(groups), b"\xf7")) + bytes(4096)]
    for made in spoiled:
        path = copy_of(folder, made)
        started = ended(program, path)
        status, told, line = check(program, path)
        assert (status, line) == started and status == BAD_LOG and not told and bytes_of(path) == made, (status, line, started)
    missing = os.path.join(folder, "missing")
    status, told, line = check(program, missing)
    assert status == DISK_FAULT and not told and line == "tardisd: %s: there is no such file: name one that is there\n" % missing, line
    assert not os.path.exists(missing), "a check made a file"
    server = Server(program, copy_of(folder, data)).listens()
    try:
        status, told, line = check(program, os.path.join(folder, "copy"))
        assert status == DISK_FAULT and not told and "another server has the file" in line, line
    finally:
        server.kill()
    for words in ["--check"], ["--check", "--file"], ["--check", "--file", path, "--tidy"], ["--check", "--check", "--file", path]:
        done = subprocess.run([*program, *words], stdin=subprocess.DEVNULL, stdout=subprocess.PIPE, stderr=subprocess.PIPE, timeout=PATIENCE)
        assert done.returncode == 1 and done.stderr.endswith(b", or tardisd --check --file PATH\n"), done
    print("%d files were checked" % (len(spoiled) + 9), flush=True)


def text_so_far(data):
    """How many bytes of whole groups there are, whatever stands behind them."""
    try:
        return len(groups_of(data)[1].text)
    except log_file.NoLog as fault:
        return fault.place


def test_copies(program, folder, choose, count):
    """Copies that `cp` takes while clients ask: what was told by then is in each."""
    history = History(os.path.join(folder, "copied"))
    server = Server(program, history.path).listens()
    damaged = torn = 0
    try:
        for number in range(count):
            talkers = [Talker(server.address, transactions(history.told, choose, b"%d.%d" % (number, client), 200, True), history.told, False)
                       for client in range(CLIENTS)]
            enough = history.told.replies + choose.randrange(200, 2000)
            let_talk(talkers, lambda: history.told.replies >= enough)
            settled = text_so_far(bytes_of(history.path))
            path = os.path.join(folder, "taken")
            taking = subprocess.Popen(["cp", history.path, path])
            let_talk(talkers, lambda: taking.poll() is not None)
            assert taking.wait(PATIENCE) == 0
            for talker in talkers:
                talker.socket.close()
            status, told, line = check(program, path)
            if status != 0:
                place = re.search(r"damaged at byte (\d+)", line)
                assert status == BAD_LOG and place and int(place[1]) >= settled, (status, line, settled)
                os.truncate(path, int(place[1]))
                damaged += 1
            groups, text, is_torn = is_good(program, path)
            assert text >= settled and bytes_of(history.path).startswith(bytes_of(path)[:text]), "the copy has something else"
            torn += is_torn
            os.unlink(path)
    finally:
        server.kill()
    print("%d copies were taken while clients asked: %d were torn, and %d cut" % (count, torn, damaged), flush=True)


def limited(most):
    """What lets a process make files of at most so many bytes."""
    def limit():
        signal.signal(signal.SIGXFSZ, signal.SIG_IGN)
        resource.setrlimit(resource.RLIMIT_FSIZE, (most, most))
    return limit


def test_full_disk(program, folder, choose):
    """A server whose file can't grow ends, and what it told is there."""
    for number, room in enumerate((100, 20_000, 60_000)):
        history = History(os.path.join(folder, "full%d" % number))
        made = log_bytes(FRONT, [], room)
        with open(history.path, "wb") as file:
            file.write(made)
        server = Server(program, history.path, before=limited(len(made))).listens()
        try:
            talks = [transactions(history.told, choose, b"full.%d" % client, 10_000, True) for client in range(CLIENTS)]
            talkers = [Talker(server.address, talk, history.told) for talk in talks]
            let_talk(talkers)
            take_rest(talkers)
            status = server.process.wait(PATIENCE)
            line = server.process.stderr.read().decode()
        finally:
            server.kill()
        assert status == DISK_FAULT and "disk failed" in line and line.count("\n") == 1, (status, line)
        told = len(history.told.committed)
        history.look()
        assert len(history.records) >= told and (room < 1000 or told > 10), "%d commits were told" % told
        is_served(program, history, number, True)
    print("three files couldn't grow", flush=True)


def main():
    words = sys.argv[1:]
    if len(words) > 2 or any(word.startswith("-") for word in words):
        sys.exit(__doc__)
    # (more than one word where a fake is meant)
    program = words[0].split() if words else [os.path.join(TOP, "crates/tardisd/out/tardisd")]
    kills = int(words[1]) if words[1:] else 300
    signal.alarm(LONGEST_RUN)
    choose = random.Random(11)
    folder = tempfile.mkdtemp()
    try:
        test_new_files(program, folder, max(4, kills // 6), choose)
        data = small_log(program, folder, choose)
        test_ends(program, folder, data, choose)
        test_foreign_files(program, folder, data)
        test_limits(program, folder, data)
        test_damage(program, folder, data, choose)
        test_held(program, folder, data)
        if len(program) == 1:
            test_checks(program, folder, data)
            test_copies(program, folder, choose, max(5, kills // 10))
        test_kills(program, folder, kills, choose)
        if len(program) == 1:
            test_full_disk(program, folder, choose)
    finally:
        shutil.rmtree(folder)


if __name__ == "__main__":
    main()
