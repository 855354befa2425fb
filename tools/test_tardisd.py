#!/usr/bin/env python3
"""Tests `tardisd` over real sockets, Unix and TCP on this machine's loopback.

usage: tools/test_tardisd.py [TARDISD [TARDIS]]

The programs are ./tardisd and ./tardis of this repository, unless others are named. Each wait has an end, and the whole
run ends after five minutes at the latest. Nothing is left behind: the servers are killed, and their sockets lie in a
folder that is removed.
"""

import os
import random
import re
import select
import shutil
import signal
import socket
import stat
import struct
import subprocess
import sys
import tempfile
import time
import unittest

from servers import PATIENCE, first_line, free_port, stop

TOP = os.path.dirname(os.path.dirname(os.path.abspath(__file__)))
TARDISD = os.path.join(TOP, "tardisd")
TARDIS = os.path.join(TOP, "tardis")
LONGEST_FRAME = 1_048_576

OPEN, BEGIN, ABORT, CLOSE, ABOUT = b"\x01\x00", b"\x02\x00", b"\x07", b"\x15", b"\x46"
OPEN_FOLLOWING, STAT = b"\x01\x01", b"\x10"
BEGIN_AT_OWN = b"\x02\x02"
RAISE_AUTO, PULL = b"\x0e", b"\x13\x01" + bytes(4)
COMMIT, COMMIT_FREELY = b"\x06\x01\x00\x00", b"\x06\x00\x00\x00"
OPENED, BEGUN = b"\x01" + bytes(6), b"\x02" + bytes(6)
DONE, CLOSED = b"\x07", b"\x14"


def key(name):
    return bytes([len(name)]) + name


def get(name):
    return b"\x03" + key(name)


def put(name, value):
    return b"\x04" + key(name) + struct.pack(">H", len(value)) + value


def state(site, sequence):
    return struct.pack(">HI", site, sequence)


def sessions_full(count):
    """Refused, SessionsFull."""
    return b"\x15\x04" + struct.pack(">H", count)


def connections_full(count):
    """The refusal of the edge that there are as many connections as there may be."""
    return b"\x15\x1e" + struct.pack(">I", count)


def full(count):
    """Refused, Full."""
    return b"\x15\x14" + struct.pack(">I", count)


def frame(body):
    return struct.pack(">I", len(body)) + body


def frames(bodies):
    return b"".join(map(frame, bodies))


def bodies_of(data):
    """The bodies of whole frames, and how many bytes are left."""
    bodies, place = [], 0
    while place + 4 <= len(data):
        (length,) = struct.unpack_from(">I", data, place)
        if place + 4 + length > len(data):
            break
        bodies.append(data[place + 4:place + 4 + length])
        place += 4 + length
    return bodies, len(data) - place


class Server:
    """A server that runs, at a path or at a port of the loopback, and at more doors where the words name them."""

    def __init__(self, address, words=(), program=()):
        self.process = subprocess.Popen(
            [*(program or (TARDISD,)), "--listen", address, *words],
            stdin=subprocess.DEVNULL, stdout=subprocess.PIPE, stderr=subprocess.PIPE)
        self.address = address
        self.line = first_line(self.process)

    def connect(self, address=None):
        address = address or self.address
        if address.startswith("unix:"):
            made = socket.socket(socket.AF_UNIX, socket.SOCK_STREAM)
            made.settimeout(PATIENCE)
            made.connect(address[len("unix:"):])
        else:
            host, port = address.rsplit(":", 1)
            made = socket.create_connection((host, int(port)), PATIENCE)
            made.setsockopt(socket.IPPROTO_TCP, socket.TCP_NODELAY, 1)
        return made

    def end(self):
        stop(self.process)


def read_bodies(connection, count):
    """So many replies."""
    data = b""
    while True:
        bodies, left = bodies_of(data)
        if len(bodies) >= count:
            assert len(bodies) == count and left == 0, "more came than was asked for"
            return bodies
        more = connection.recv(65536)
        assert more, "the connection ended after %d of %d replies" % (len(bodies), count)
        data += more


def read_to_end(connection):
    data = b""
    while True:
        more = connection.recv(65536)
        if not more:
            return data
        data += more


def ask(connection, *bodies):
    connection.sendall(frames(bodies))
    return read_bodies(connection, len(bodies))


def run_words(*words):
    """The status, the output, and the line on standard error of words that are no server."""
    done = subprocess.run([TARDISD, *words], stdin=subprocess.DEVNULL, capture_output=True, timeout=PATIENCE)
    return done.returncode, done.stdout.decode(), done.stderr.decode()


class Words(unittest.TestCase):
    def setUp(self):
        self.folder = tempfile.mkdtemp()
        self.addCleanup(shutil.rmtree, self.folder)
        self.address = "unix:" + os.path.join(self.folder, "s")

    def path(self, *names):
        return os.path.join(self.folder, *names)

    def test_help_and_version(self):
        status, told, line = run_words("--help")
        self.assertEqual((status, line), (0, ""))
        for word in ("--listen ADDR", "--clients ADDR", "--peers ADDR", "--mode MODE", "--idle SECONDS", "--connections N", "--sessions N",
                     "--states N", "--peer ADDR", "--every SECONDS"):
            self.assertIn(word, told)
        for word in "-h", "help":
            self.assertEqual(run_words(word), (0, told, ""))
        self.assertEqual(run_words("--version"), (0, "tardisd 0.1.0\n", ""))

    def test_words_without_a_form_open_nothing(self):
        nine = [word for place in range(9) for word in ("--listen", self.address + str(place))]
        for words in ((), ("--sites", "2"), ("--listen", self.address, "--sites", "17"), ("--listen",), ("--listen", "-a"), ("x",),
                      ("--help", "-h"), ("--peers", self.address, "--clients"), ("--clients", "unix:"), nine,
                      ("--listen", self.address, "--every", "5"), ("--listen", "127.0.0.1:0", "--mode", "0600"),
                      ("--listen", self.address, "--mode", "0680"), ("--listen", self.address, "--mode", "00600"),
                      ("--listen", self.address, "--mode", "60"), ("--listen", self.address, "--idle", "0"),
                      ("--listen", self.address, "--idle", "86401"), ("--listen", self.address, "--peer", "unix:"),
                      ("--listen", self.address, "--peer", self.address, "--every", "0"),
                      ("--listen", self.address) + ("--peer", self.address) * 16):
            status, told, line = run_words(*words)
            self.assertEqual((status, told), (1, ""), words)
            # (where a word is no option, a line before it says so)
            self.assertTrue(line.splitlines()[-1].startswith("usage: tardisd --listen ADDR"), line)
        for option, most in ("--states", 65_000), ("--sessions", 4096), ("--connections", 4096):
            for words in ((option, "0"), (option, str(most + 1)), (option, "-1"), (option, "x"), (option, "99999999999"), (option,),
                          (option, "2", option, "2")):
                status, told, line = run_words("--listen", self.address, *words)
                self.assertEqual((status, told), (1, ""), words)
                self.assertTrue(line.splitlines()[-1].startswith("usage: tardisd --listen ADDR"), line)
        self.assertEqual(os.listdir(self.folder), [])

    def is_refused(self, address, reason):
        """Whether a server says that it can't listen at an address, and why."""
        self.assertEqual(run_words("--listen", address), (7, "", "tardisd: gate fault: %s: %s\n" % (address, reason)))

    def test_gate_faults_are_named(self):
        self.is_refused("nowhere", "the address isn't unix:PATH or HOST:PORT, or its host isn't known")
        self.is_refused("unix:" + self.path("no", "s"), "there is no such folder: make it, or name another path")
        with open(self.path("file"), "w"):
            pass
        self.is_refused("unix:" + self.path("file", "s"), "there is no such folder: make it, or name another path")
        self.is_refused("192.0.2.1:4000", "the host is no address of this machine: name one of its own, or 0.0.0.0 for all of them")
        long = "the path is longer than 107 bytes, or its folder's than 97: name a shorter one"
        self.is_refused("unix:" + self.path("s" * (108 - len(self.path("")))), long)
        self.assertEqual(os.listdir(self.folder), ["file"])
        longest = Server("unix:" + self.path("s" * (107 - len(self.path("")))))
        longest.connect().close()
        longest.end()

    @unittest.skipIf(os.geteuid() == 0, "root may write everywhere")
    def test_who_may_not_write_is_told(self):
        os.mkdir(self.path("shut"), 0o500)
        self.is_refused("unix:" + self.path("shut", "s"), "this user may not write there: name a path in a folder of the user's own")
        status, told, line = run_words("--listen", self.address, "--file", self.path("shut", "file"))
        self.assertEqual((status, told), (10, ""))
        self.assertIn("this user may not read and write it, or its folder", line)

    def test_a_file_that_is_not_opened_is_told_why(self):
        os.mkfifo(self.path("pipe"))
        for path, reason in ((self.path("no", "file"), "there is no such folder: make it, or name another file"),
                             (self.folder, "it is a folder: name a file in it"),
                             (self.path("pipe"), "it is no regular file: name another one")):
            line = "tardisd: %s: %s\n" % (path, reason)
            self.assertEqual(run_words("--listen", self.address, "--file", path), (10, "", line))
        self.assertEqual(os.listdir(self.folder), ["pipe"])

    def test_a_file_of_another_server_is_left_to_it(self):
        words = ("--file", self.path("file"))
        server = Server(self.address, words)
        self.addCleanup(server.end)
        line = "tardisd: another server has the file: end that one, or name another file\n"
        self.assertEqual(run_words("--listen", self.address + "2", *words), (10, "", line))

    def test_doors_let_in_what_they_are_for(self):
        clients, peers = self.address + "c", self.address + "p"
        server = Server(self.address, ("--clients", clients, "--peers", peers))
        self.addCleanup(server.end)
        self.assertEqual(server.line, "tardisd: site 1 of 1 listens at %s, at %s for clients, at %s for peers\n" % (self.address, clients, peers))
        asked = OPEN, STAT, RAISE_AUTO, PULL, CLOSE
        # Refused, Unsupported
        refused = [b"\x15\x1b" + body[:1] for body in asked]
        told = {}
        for address in self.address, clients, peers:
            with server.connect(address) as connection:
                told[address] = ask(connection, *asked)
        for address, let_in in (self.address, (0, 1, 2, 3, 4)), (clients, (0, 1, 4)), (peers, (1, 3)):
            for place, reply in enumerate(told[address]):
                self.assertEqual(reply != refused[place], place in let_in, (address, place, reply))

    def test_a_unix_socket_is_its_owners_alone(self):
        before = os.umask(0)
        try:
            server = Server(self.address)
        finally:
            os.umask(before)
        self.addCleanup(server.end)
        found = os.lstat(self.path("s"))
        self.assertEqual((stat.S_ISSOCK(found.st_mode), stat.S_IMODE(found.st_mode)), (True, 0o600))
        self.assertEqual(os.listdir(self.folder), ["s"])

    def test_a_unix_socket_has_the_mode_that_is_asked_for(self):
        for mode in "0660", "600", "0777", "0000", "2770":
            server = Server(self.address, ("--clients", self.address + "c", "--peers", "127.0.0.1:0", "--mode", mode))
            for name in "s", "sc":
                self.assertEqual(stat.S_IMODE(os.lstat(self.path(name)).st_mode), int(mode, 8))
            server.end()
            for name in "s", "sc":
                os.unlink(self.path(name))

    def test_a_door_that_fails_closes_the_others(self):
        first, last = self.address, "unix:" + self.path("no", "s")
        status, told, line = run_words("--listen", first, "--peers", last)
        self.assertEqual((status, told), (7, ""))
        self.assertTrue(line.startswith("tardisd: gate fault: %s: " % last), line)
        self.assertEqual(os.listdir(self.folder), [])

    def test_the_port_that_was_taken_is_told(self):
        server = Server("127.0.0.1:0", ("--clients", "localhost:0"))
        self.addCleanup(server.end)
        told = re.fullmatch(r"tardisd: site 1 of 1 listens at (127\.0\.0\.1:\d+), at (localhost:\d+) for clients\n", server.line)
        self.assertTrue(told, server.line)
        for address in told.groups():
            with server.connect(address) as connection:
                self.assertEqual(ask(connection, OPEN), [OPENED])

    def test_a_silent_connection_is_asked_whether_it_is_there(self):
        server = Server("127.0.0.1:0")
        self.addCleanup(server.end)
        with server.connect(server.line.split()[-1]) as connection:
            self.assertEqual(ask(connection, OPEN), [OPENED])
            here, there = connection.getpeername()[1], connection.getsockname()[1]
            with open("/proc/net/tcp") as file:
                told = [line.split() for line in file]
            timers = [it[5] for it in told if it[1].endswith(":%04X" % here) and it[2].endswith(":%04X" % there)]
            self.assertEqual(len(timers), 1)
            # the system's timer for keepalive, and when it goes off, in hundredths of a second
            kind, when = timers[0].split(":")
            self.assertEqual(kind, "02")
            self.assertTrue(5000 < int(when, 16) <= 6000, when)

    def test_memory_is_bounded_by_a_word_of_the_launcher(self):
        launcher = os.path.join(TOP, "tools", "launch.sh")
        for words in ("--memory",), ("--memory", "0"), ("--memory", "x"), ("--memory", "16777217"), ("--memory", "9", "--memory", "9"):
            done = subprocess.run([launcher, TARDISD, "--listen", self.address, *words], capture_output=True, timeout=PATIENCE)
            self.assertEqual((done.returncode, done.stdout), (1, b""))
            self.assertTrue(done.stderr.startswith(b"tardisd: --memory "), done.stderr)
        self.assertEqual(os.listdir(self.folder), [])
        server = Server(self.address, ("--memory", "64", "--tidy"), (launcher, TARDISD))
        self.addCleanup(server.end)
        with open("/proc/%d/limits" % server.process.pid) as file:
            told = next(line.split() for line in file if line.startswith("Max address space"))
        self.assertEqual(told[3:5], [str(64 << 20)] * 2)
        with server.connect() as connection:
            self.assertEqual(ask(connection, OPEN, BEGIN, put(b"x", b"1"), COMMIT)[2:], [DONE, b"\x08" + state(1, 1) + b"\x01" + state(0, 0)])

    def test_all_is_installed_in_its_place(self):
        programs, prefix = self.path("programs"), self.path("prefix")
        os.mkdir(programs)
        for name, program in ("tardis", TARDIS), ("tardisd", TARDISD):
            with open(program, "rb") as file:
                if file.read(4) != b"\x7fELF":
                    self.skipTest("the programs are named by the scripts that build them")
            shutil.copy(program, os.path.join(programs, name))
        told = subprocess.run([os.path.join(TOP, "install"), "--prefix", prefix, "--from", programs],
                              capture_output=True, check=True, timeout=PATIENCE).stdout.decode().splitlines()
        for name in "bin/tardis", "bin/tardisd", "bin/kumovasil", "lib/kumovasil/tardisd", "lib/systemd/system/tardisd@.service":
            self.assertIn(os.path.join(prefix, name), told)
        installed = os.path.join(prefix, "bin", "tardisd")
        self.assertEqual(subprocess.run([installed, "--version"], capture_output=True).stdout, b"tardisd 0.1.0\n")
        help = subprocess.run([installed, "--help"], capture_output=True).stdout.decode()
        self.assertEqual(help.count("--memory MB"), 1)
        server = Server(self.address, ("--memory", "256"), (installed,))
        self.addCleanup(server.end)
        asked = subprocess.run([os.path.join(prefix, "bin", "kumovasil"), "stat", self.address], capture_output=True, timeout=PATIENCE)
        self.assertEqual(asked.returncode, 0, asked.stderr)
        unit = os.path.join(prefix, "lib", "systemd", "system", "tardisd@.service")
        with open(unit) as file:
            self.assertIn("ExecStart=%s $OPTIONS" % installed, file.read())
        if shutil.which("systemd-analyze"):
            verified = subprocess.run(["systemd-analyze", "verify", unit], capture_output=True, timeout=PATIENCE)
            self.assertEqual((verified.returncode, verified.stderr), (0, b""))

    @unittest.skipUnless(all(shutil.which(name) for name in ("ssh", "sshd", "stunnel4", "openssl")), "what tunnels are made of isn't installed")
    def test_who_has_no_key_comes_through_no_tunnel(self):
        done = subprocess.run([sys.executable, os.path.join(TOP, "tools", "test_tunnels.py"), TARDISD], capture_output=True, timeout=120)
        self.assertEqual(done.returncode, 0, done.stdout + done.stderr)

    def test_a_living_servers_address_is_kept_and_a_dead_ones_taken(self):
        first = Server(self.address)
        self.addCleanup(first.end)
        self.is_refused(self.address, "another server listens there: end that one, or name another address")
        with first.connect() as connection:
            self.assertEqual(ask(connection, OPEN), [OPENED])
        first.process.kill()
        first.process.wait(PATIENCE)
        self.assertTrue(os.path.exists(os.path.join(self.folder, "s")))
        second = Server(self.address)
        self.addCleanup(second.end)
        with second.connect() as connection:
            self.assertEqual(ask(connection, OPEN), [OPENED])

    def test_a_file_that_is_no_socket_stays(self):
        path = os.path.join(self.folder, "s")
        with open(path, "w") as file:
            file.write("kept")
        self.is_refused(self.address, "a file that is no socket stands there, and was left as it is: name another path")
        with open(path) as file:
            self.assertEqual(file.read(), "kept")

    def test_a_server_that_was_halted_goes_on(self):
        server = Server(self.address)
        self.addCleanup(server.end)
        with server.connect() as connection:
            self.assertEqual(ask(connection, OPEN), [OPENED])
            for _ in range(3):
                server.process.send_signal(signal.SIGSTOP)
                time.sleep(0.05)
                server.process.send_signal(signal.SIGCONT)
                time.sleep(0.05)
                self.assertEqual(ask(connection, BEGIN, b"\x07")[0], BEGUN)

    def test_a_port_that_is_taken(self):
        address = "127.0.0.1:%d" % free_port()
        first = Server(address)
        self.addCleanup(first.end)
        self.is_refused(address, "another server listens there: end that one, or name another address")

    def test_the_site_is_that_of_the_words(self):
        server = Server(self.address, ("--sites", "3", "--site", "2"))
        self.addCleanup(server.end)
        self.assertEqual(server.line, "tardisd: site 2 of 3 listens at %s\n" % self.address)
        with server.connect() as connection:
            told = ask(connection, OPEN, BEGIN, put(b"x", b"1"), COMMIT)
        self.assertEqual(told, [OPENED, BEGUN, DONE, b"\x08" + state(2, 1) + b"\x01" + state(0, 0)])

    def kept_after(self, commits, words):
        """How many states a server knows and keeps after so many commits of a session that follows."""
        server = Server(self.address, words)
        self.addCleanup(server.end)
        with server.connect() as connection:
            self.assertEqual(ask(connection, OPEN_FOLLOWING), [OPENED])
            for place in range(commits):
                told = ask(connection, BEGIN, put(b"x", b"%d" % place), COMMIT)
                self.assertEqual(told[2][:7], b"\x08" + state(1, place + 1))
            (stat,) = ask(connection, STAT)
            self.assertEqual(ask(connection, BEGIN, get(b"x"))[1][7:], b"\x00\x03999")
        return struct.unpack(">QI", stat[1:13])

    def test_a_server_that_collects_keeps_few_states(self):
        known, kept = self.kept_after(1000, ("--tidy",))
        self.assertEqual(known, 1001)
        self.assertLess(kept, 130)

    def test_commits_that_come_at_once_are_not_ahead_of_the_collection(self):
        server = Server(self.address, ("--tidy",))
        self.addCleanup(server.end)
        with server.connect() as connection:
            ask(connection, OPEN_FOLLOWING, *[BEGIN, put(b"x", b"1"), COMMIT] * 1500)
            (stat,) = ask(connection, STAT)
        known, kept = struct.unpack(">QI", stat[1:13])
        self.assertEqual(known, 1501)
        self.assertLess(kept, 130)

    def test_what_an_idle_session_held_goes_in_slices(self):
        server = Server(self.address, ("--tidy",))
        self.addCleanup(server.end)
        with server.connect() as worker:
            with server.connect() as idle:
                ask(idle, OPEN)
                ask(worker, OPEN_FOLLOWING, *[BEGIN, put(b"x", b"1"), COMMIT] * 600)
                (stat,) = ask(worker, STAT)
                self.assertEqual(struct.unpack(">QI", stat[1:13]), (601, 601))
            for _ in range(2):  # the server may see the idle one go behind the first
                ask(worker, *[BEGIN, put(b"x", b"2"), COMMIT] * 64)
            kept = [struct.unpack(">QI", ask(worker, STAT)[0][1:13])[1] for _ in range(20)]
        self.assertLess(kept[-1], 130)
        # not all at once: each request finds a few slices less at most
        self.assertLessEqual(max(more - less for more, less in zip(kept, kept[1:])), 64 * 4)

    def test_a_server_that_does_not_collect_keeps_all(self):
        self.assertEqual(self.kept_after(1000, ("--keep-history",)), (1001, 1001))

    def test_the_history_is_kept_wherever_the_word_stands(self):
        for words in ("--keep-history", "--states", "9"), ("--states", "9", "--keep-history"), ("--keep-history", "--rules", "=last"):
            server = Server(self.address, words)
            self.assertIn(" listens ", server.line)
            server.end()

    def fork(self, first, second, *keys):
        """Two sessions read and write the same keys at the root, each what it has for them. Gives what the commits were told."""
        told = []
        for connection, values in ((first, 0), (second, 1)):
            ask(connection, OPEN, b"\x02\x03" + state(0, 0))
            ask(connection, *[get(name) for name, _ in keys])
            told.append(ask(connection, *[put(name, value[values]) for name, value in keys], COMMIT)[-1])
            ask(connection, CLOSE)
        return told

    def leaves(self, connection):
        (told,) = ask(connection, b"\x12")
        return [told[7 + 6 * place:13 + 6 * place] for place in range(struct.unpack(">H", told[5:7])[0])]

    def read_anew(self, connection, name):
        """What a session that opens reads where any state will do."""
        told = ask(connection, OPEN, BEGIN, get(name), CLOSE)
        return told[2][7 + 2:]

    RULES = "cart/=set,visits/=count,price/=refuse"

    def test_a_fork_that_rules_settle_is_joined(self):
        server = Server(self.address, ("--rules", self.RULES))
        self.addCleanup(server.end)
        with server.connect() as first, server.connect() as second:
            told = self.fork(first, second, (b"cart/1", (b"bread,milk", b"eggs")), (b"visits/1", (b"3", b"4")))
            self.assertEqual([one[1:7] for one in told], [state(1, 1), state(1, 2)])
            self.assertEqual(self.leaves(first), [state(1, 3)])
            self.assertEqual(self.read_anew(first, b"cart/1"), b"bread,eggs,milk")
            self.assertEqual(self.read_anew(second, b"visits/1"), b"7")

    def test_a_fork_that_rules_refuse_stays_and_keeps_no_others_apart_for_long(self):
        server = Server(self.address, ("--rules", self.RULES, "--tidy"))
        self.addCleanup(server.end)
        with server.connect() as first, server.connect() as second:
            self.fork(first, second, (b"price/1", (b"20", b"25")))
            self.assertEqual(self.leaves(first), [state(1, 1), state(1, 2)])
            # a third one beside them, which read what they wrote: 1.4 joins it with the first, since they have no key in common, once
            # 64 replies counted since the search that settled nothing, the commit's among them
            ask(first, OPEN, b"\x02\x03" + state(0, 0), get(b"price/1"), put(b"cart/1", b"milk"), COMMIT)
            ask(first, *[STAT] * 62)
            self.assertEqual(self.leaves(second), [state(1, 1), state(1, 2), state(1, 3)])
            ask(first, STAT)
            self.assertEqual(self.leaves(second), [state(1, 2), state(1, 4)])

    def test_a_set_goes_by_what_both_sides_began_with(self):
        """What one side removed goes, and what the other added stays."""
        server = Server(self.address, ("--rules", "cart/=set3", "--keep-history"))
        self.addCleanup(server.end)
        with server.connect() as first, server.connect() as second:
            ask(first, OPEN, BEGIN, put(b"cart/1", b"bread,milk"), COMMIT, CLOSE)
            for connection, value in ((first, b"milk"), (second, b"bread,eggs,milk")):
                ask(connection, OPEN, b"\x02\x03" + state(1, 1), get(b"cart/1"), put(b"cart/1", value), COMMIT, CLOSE)
            self.assertEqual(self.leaves(first), [state(1, 4)])
            self.assertEqual(self.read_anew(second, b"cart/1"), b"eggs,milk")

    def test_many_forks_are_joined_whatever_comes_at_once(self):
        server = Server(self.address, ("--rules", "=last", "--tidy"))
        self.addCleanup(server.end)
        with server.connect() as connection:
            ask(connection, OPEN, *[b"\x02\x03" + state(0, 0), get(b"x"), put(b"x", b"1"), COMMIT] * 40)
            for _ in range(40):
                ask(connection, STAT)
            self.assertEqual(self.leaves(connection), [state(1, 79)])

    def test_nobody_else_asks_a_server_to_join(self):
        server = Server(self.address, ("--rules", self.RULES))
        self.addCleanup(server.end)
        with server.connect() as connection:
            self.assertEqual(ask(connection, b"\x4a" + b"=last"), [b"\x15\x01"])
            self.assertEqual(ask(connection, b"\x4b"), [b"\x15\x01"])

    def test_words_that_are_no_rules_are_refused(self):
        for rules in ((), ("cart",), ("cart/=sum",), ("=last,=set",)):
            self.assertEqual(run_words("--listen", self.address, "--rules", *rules)[0], 1)


class Connections:
    """What holds of a server at any address."""

    def setUp(self):
        self.server = self.start()
        self.addCleanup(self.server.end)

    def connect(self):
        connection = self.server.connect()
        self.addCleanup(connection.close)
        return connection

    def session(self, connection, name=b"x", value=b"1"):
        """A session in which a key is put."""
        return ask(connection, OPEN, BEGIN, put(name, value), COMMIT)

    def test_byte_by_byte(self):
        connection = self.connect()
        for byte in frames([OPEN, BEGIN, put(b"x", b"1"), COMMIT, BEGIN, get(b"x")]):
            connection.sendall(bytes([byte]))
        one = state(1, 1)
        self.assertEqual(read_bodies(connection, 6), [
            OPENED, BEGUN, DONE, b"\x08" + one + b"\x01" + state(0, 0), b"\x02" + one, b"\x04" + one + b"\x00\x011"])

    def test_questions_are_answered_beside_requests(self):
        one, start = state(1, 1), state(0, 0)
        at_one = b"\x40" + one + key(b"x")
        told = ask(self.connect(), at_one, OPEN, BEGIN, put(b"x", b"1"), COMMIT, at_one, b"\x41" + one + bytes(2), b"\x42" + one + bytes(2),
                   b"\x43" + one, b"\x44\x01" + one + key(b"x"), b"\x45\x00", b"\x46", b"\xff")
        self.assertEqual(told, [
            b"\x15\x09" + one, OPENED, BEGUN, DONE, b"\x08" + one + b"\x01" + start,
            b"\x40\x01" + one + b"\x01\x00\x011",
            b"\x41" + bytes([0, 0, 0, 1, 0, 1]) + key(b"x"),
            b"\x42" + bytes([0, 0, 0, 1, 0, 1]) + key(b"x") + b"\x00\x011",
            # one state had arrived before, its parent, which is kept; no child is; and the key that it wrote
            b"\x43" + struct.pack(">Q", 1) + 2 * (b"\x01" + start) + bytes(4) + b"\x01" + key(b"x"),
            b"\x44\x01" + one + b"\x01" + one + b"\x01\x00\x011",
            # the floor may go to the start, where the one session's ceiling is, which holds it
            b"\x45" + start + bytes([0, 0, 0, 1, 0, 1, 0, 1, 0]) + start + one + b"\x00\x01",
            # version 1, the limits, site 1, which knows two states and keeps them
            b"\x46" + struct.pack(">HHIIHQHQI", 1, 1, 16_384, 65_000, 256, 1 << 30, 1, 2, 2),
            b"\x15\x01"])

    def test_after_a_half_close_all_replies_come(self):
        connection = self.connect()
        connection.sendall(frames([OPEN] + [b"\x10"] * 10_000))
        connection.shutdown(socket.SHUT_WR)
        told, left = bodies_of(read_to_end(connection))
        self.assertEqual((len(told), left, told[0]), (10_001, 0, OPENED))

    def test_a_cut_frame_ends_the_connection_alone(self):
        other = self.connect()
        self.assertEqual(ask(other, OPEN), [OPENED])
        for cut in b"\x00", frame(BEGIN)[:-1], struct.pack(">I", LONGEST_FRAME) + b"x" * 1000:
            connection = self.connect()
            connection.sendall(frame(OPEN) + cut)
            connection.shutdown(socket.SHUT_WR)
            self.assertEqual(read_to_end(connection), frame(OPENED))
        self.assertEqual(ask(other, BEGIN), [BEGUN])

    def test_a_long_frame_ends_the_connection_alone(self):
        other = self.connect()
        self.assertEqual(ask(other, OPEN), [OPENED])
        connection = self.connect()
        connection.sendall(frame(OPEN) + struct.pack(">I", LONGEST_FRAME + 1))
        self.assertEqual(read_to_end(connection), frame(OPENED))
        self.assertEqual(ask(other, BEGIN), [BEGUN])

    def test_a_longest_frame_is_answered(self):
        connection = self.connect()
        connection.sendall(frame(b"\x03" + bytes(LONGEST_FRAME - 1)))
        self.assertEqual(len(read_bodies(connection, 1)), 1)
        self.assertEqual(ask(connection, OPEN), [OPENED])

    def test_an_abrupt_end_closes_the_session(self):
        for _ in range(300):
            connection = self.server.connect()
            self.assertEqual(ask(connection, OPEN, BEGIN, put(b"x", b"lost"))[0], OPENED)
            connection.sendall(frame(put(b"y", b"cut"))[:-2])
            connection.setsockopt(socket.SOL_SOCKET, socket.SO_LINGER, struct.pack("ii", 1, 0))
            connection.close()
        connection = self.connect()
        self.assertEqual(ask(connection, OPEN, BEGIN, get(b"x")), [OPENED, BEGUN, b"\x06"])

    def test_a_slow_reader_costs_the_others_nothing(self):
        slow, quick = self.connect(), self.connect()
        self.session(slow, b"big", b"v" * 4096)
        ask(slow, BEGIN)
        slow.setblocking(False)
        sent, asked = 0, frames([get(b"big")] * 4000)
        end = time.monotonic() + 2
        while sent < len(asked) and time.monotonic() < end:
            try:
                sent += slow.send(asked[sent:])
            except BlockingIOError:
                time.sleep(0.01)
        self.assertEqual(ask(quick, OPEN)[0][0], 1)
        began = time.monotonic()
        for _ in range(1000):
            ask(quick, BEGIN, b"\x07")
        self.assertLess(time.monotonic() - began, 10)
        slow.settimeout(PATIENCE)
        data, end = b"", time.monotonic() + PATIENCE
        whole = 4000 * (4 + 1 + 6 + 2 + 4096)
        while len(data) < whole and time.monotonic() < end:
            if sent < len(asked):
                _, writable, _ = select.select([], [slow], [], 0)
                if writable:
                    sent += slow.send(asked[sent:sent + 4096])
            readable, _, _ = select.select([slow], [], [], 0.05)
            if readable:
                data += slow.recv(1_000_000)
        told, left = bodies_of(data)
        self.assertEqual((len(told), left, len(set(told))), (4000, 0, 1))

    def test_the_client_above_256_is_told_so(self):
        held = [self.connect() for _ in range(256)]
        for connection in held:
            self.assertEqual(ask(connection, OPEN), [OPENED])
        for _ in range(3):
            self.assertEqual(read_to_end(self.connect()), frame(connections_full(256)))
        self.assertEqual(ask(held[9], BEGIN), [BEGUN])
        held[100].close()
        self.assertEqual(ask(held[10], BEGIN), [BEGUN])
        self.assertEqual(ask(self.connect(), OPEN), [OPENED])
        self.assertEqual(read_to_end(self.connect()), frame(connections_full(256)))

    def test_three_thousand_connections_one_after_another(self):
        for place in range(3000):
            connection = self.server.connect()
            told = ask(connection, OPEN, BEGIN)
            self.assertEqual((told[0], told[1]), (OPENED, BEGUN), place)
            connection.close()

    def test_replies_to_many_are_those_of_one_trail(self):
        choose = random.Random(20)
        asked = [requests_of(choose, actor) for actor in range(1, 21)]
        told = talk_in_pieces(choose, [self.connect() for _ in asked], asked)
        trail = trail_of(asked, told)
        self.assertEqual(len(trail), sum(map(len, asked)))
        given = b"".join(frame(struct.pack(">H", actor) + body) for actor, body, _ in trail)
        done = subprocess.run([TARDIS, "run"], input=given, capture_output=True, timeout=PATIENCE)
        self.assertEqual(done.returncode, 0, done.stderr)
        self.assertEqual(bodies_of(done.stdout)[0], [reply for _, _, reply in trail])


class OverUnix(Connections, unittest.TestCase):
    def start(self):
        folder = tempfile.mkdtemp()
        self.addCleanup(shutil.rmtree, folder)
        return Server("unix:" + os.path.join(folder, "s"))


class OverTcp(Connections, unittest.TestCase):
    def start(self):
        return Server("127.0.0.1:%d" % free_port())


class Capacity(unittest.TestCase):
    """Room for as much as the words say."""

    def start(self, *words, program=()):
        folder = tempfile.mkdtemp()
        self.addCleanup(shutil.rmtree, folder)
        server = Server("unix:" + os.path.join(folder, "s"), words, program)
        self.addCleanup(server.end)
        return server

    def connect(self, server):
        connection = server.connect()
        self.addCleanup(connection.close)
        return connection

    def test_the_third_connection_of_two_is_told_so(self):
        server = self.start("--connections", "2")
        held = [self.connect(server), self.connect(server)]
        for connection in held:
            self.assertEqual(ask(connection, OPEN), [OPENED])
        self.assertEqual(read_to_end(self.connect(server)), frame(connections_full(2)))
        self.assertEqual(ask(held[1], BEGIN), [BEGUN])
        held[0].close()
        self.assertEqual(ask(held[1], ABORT), [DONE])
        self.assertEqual(ask(self.connect(server), OPEN), [OPENED])

    def test_the_second_session_of_one_is_refused(self):
        server = self.start("--sessions", "1", "--connections", "3")
        first, second = self.connect(server), self.connect(server)
        self.assertEqual(ask(first, OPEN, BEGIN), [OPENED, BEGUN])
        self.assertEqual(ask(second, OPEN), [sessions_full(1)])
        self.assertEqual(ask(first, ABORT, CLOSE), [DONE, CLOSED])
        self.assertEqual(ask(second, OPEN, BEGIN), [OPENED, BEGUN])

    def test_the_third_state_of_three_finds_no_room(self):
        connection = self.connect(self.start("--states", "3"))
        self.assertEqual(ask(connection, OPEN_FOLLOWING), [OPENED])
        told = [ask(connection, BEGIN, put(b"x", b"1"), COMMIT)[2] for _ in range(3)]
        self.assertEqual([reply[0] for reply in told[:2]], [8, 8])
        self.assertEqual(told[2], full(3))

    def test_a_file_opens_under_larger_limits_and_under_no_smaller_ones(self):
        folder = tempfile.mkdtemp()
        self.addCleanup(shutil.rmtree, folder)
        address, path = "unix:" + os.path.join(folder, "s"), os.path.join(folder, "file")
        small, large = ("--file", path, "--states", "3", "--sessions", "2"), ("--file", path, "--states", "5", "--sessions", "9")

        def commit(server, count):
            with server.connect() as connection:
                self.assertEqual(ask(connection, OPEN), [OPENED])
                return [ask(connection, b"\x02\x00", put(b"x", b"%d" % n), COMMIT)[2][:1] for n in range(count)]

        server = Server(address, small)
        self.assertEqual(commit(server, 3), [b"\x08", b"\x08", b"\x15"])
        server.end()
        server = Server(address, large)
        self.assertEqual(commit(server, 3), [b"\x08", b"\x08", b"\x15"])
        server.end()
        status, told, line = run_words("--listen", address, *small)
        self.assertEqual((status, told), (13, ""))
        self.assertIn("start it with the limits that it had", line)

    def test_memory_that_the_system_bounds_is_told_as_wanting(self):
        """What would take more is answered so, changes nothing, and all is read on (`tools/test_memory.py` has more of it)."""
        connection = self.connect(self.start("--memory", "64", program=(os.path.join(TOP, "tools", "launch.sh"), TARDISD)))
        self.assertEqual(ask(connection, OPEN_FOLLOWING), [OPENED])
        taken = 0
        for place in range(4000):
            told = ask(connection, BEGIN, *[put(b"%d.%d" % (place, n), b"v" * 4096) for n in range(16)], COMMIT)
            if told[-1][:1] != b"\x08":
                break
            taken += 1
        self.assertIn(b"\x16", [reply[:1] for reply in told])
        self.assertGreater(taken, 0)
        ask(connection, ABORT)
        self.assertEqual(ask(connection, BEGIN, get(b"%d.0" % (taken - 1)), ABORT)[1][9:], b"v" * 4096)

    def test_each_number_is_that_of_its_option(self):
        """About tells the limits that a site has."""
        connection = self.connect(self.start("--states", "65000", "--sessions", "4096", "--connections", "1"))
        told = b"\x46" + struct.pack(">HHIIHQHQI", 1, 1, 65_000, 65_000, 4_096, 1 << 30, 1, 1, 1)
        self.assertEqual(ask(connection, ABOUT), [told])

    def test_many_kept_states_are_told_with_the_connection_that_holds_the_floor(self):
        """Past half of what there is room for, and where all is taken, once each: by the one that goes on asking at an old ceiling, and not by
        the one that is silent, whose session follows."""
        server = Server("127.0.0.1:%d" % free_port(), ("--states", "100", "--tidy"))
        self.addCleanup(server.end)
        silent, busy = self.connect(server), self.connect(server)
        name = "127.0.0.1:%d" % busy.getsockname()[1]
        self.assertEqual(ask(silent, OPEN_FOLLOWING, BEGIN, put(b"x", b"0"), COMMIT)[0], OPENED)
        self.assertEqual(ask(busy, OPEN), [OPENED])
        for _ in range(12):
            time.sleep(0.1)
            ask(busy, STAT)
        ask(busy, *[BEGIN, put(b"x", b"1"), COMMIT] * 64)
        line = first_line(server.process)
        held = r"^tardisd: %s of 100 states are kept: the session of the connection from %s holds the floor, which has been silent for [01] seconds: "
        self.assertRegex(line, held % ("[56][0-9]", re.escape(name)))
        self.assertEqual(ask(busy, *[BEGIN, put(b"x", b"1"), COMMIT, ABORT] * 128)[-2], full(100))
        self.assertRegex(first_line(server.process), held % ("100", re.escape(name)))
        self.assertEqual(select.select([server.process.stderr], [], [], 0.5)[0], [])

    def told_of_seven(self, server, connection):
        """What is told of the seven states that are kept, once it was looked at."""
        ask(connection, *[STAT] * 64)
        line = first_line(server.process)
        self.assertTrue(line.startswith("tardisd: 7 of 10 states are kept: "), line)
        return line[len("tardisd: 7 of 10 states are kept: "):]

    def test_many_kept_states_are_told_where_nothing_holds_them(self):
        server = self.start("--states", "10")
        connection = self.connect(server)
        self.assertEqual(ask(connection, OPEN, *[BEGIN, put(b"x", b"1"), COMMIT] * 6, CLOSE)[-1], CLOSED)
        line = "no one session, site or branch holds most of them: they are collected as requests come, or see kumovasil sessions\n"
        self.assertEqual(self.told_of_seven(server, connection), line)

    def test_many_kept_states_are_told_with_the_site_whose_consent_is_missing(self):
        """And not with the innocent session that is open, and follows."""
        server = self.start("--states", "10", "--sites", "3", "--site", "2")
        connection = self.connect(server)
        # (six commits of site 1, since clients have a share of the room alone)
        told = ask(connection, *[b"\x14\x01" + state(1, place) + b"\x01" + (state(1, place - 1) if place > 1 else state(0, 0))
                                 + b"\x01" + key(b"x") + b"\x01\x00\x01v" for place in range(1, 7)])
        self.assertEqual(told, [b"\x11"] * 6)
        self.assertEqual(ask(connection, OPEN_FOLLOWING, b"\x0c" + state(1, 6)), [OPENED, DONE])
        line = r"^no consent of site 1 for [01] seconds lets them be collected: see that it runs and that sites fetch from each other\n$"
        self.assertRegex(self.told_of_seven(server, connection), line)

    def test_many_kept_states_are_told_with_how_many_branches_there_are(self):
        """And not with the innocent sessions that are open, and follow."""
        server = self.start("--states", "10")
        for _ in range(3):
            connection = self.connect(server)
            ask(connection, OPEN_FOLLOWING, *[BEGIN_AT_OWN, get(b"x"), put(b"x", b"1"), COMMIT] * 2)
        line = "3 branches that nobody joined hold them: merge them (kumovasil merge), or name rules for their keys (--rules)\n"
        self.assertEqual(self.told_of_seven(server, connection), line)

    def test_many_kept_states_are_told_where_nobody_collects(self):
        server = self.start("--states", "100", "--keep-history")
        ask(self.connect(server), OPEN_FOLLOWING, *[BEGIN, put(b"x", b"1"), COMMIT] * 64)
        self.assertEqual(first_line(server.process), "tardisd: 65 of 100 states are kept: with --keep-history none is collected: "
                                                     "have a client ask for it (kumovasil raise, kumovasil tidy)\n")

    def test_sessions_beyond_the_256th(self):
        server = self.start("--connections", "700", "--sessions", "699")
        held = [self.connect(server) for _ in range(700)]
        for connection in held[:699]:
            self.assertEqual(ask(connection, OPEN), [OPENED])
        self.assertEqual(ask(held[699], OPEN), [sessions_full(699)])
        self.assertEqual(read_to_end(self.connect(server)), frame(connections_full(700)))
        for connection in held[650:699]:
            connection.close()
        self.assertEqual(ask(held[649], BEGIN), [BEGUN])
        for _ in range(49):
            held.append(self.connect(server))
            self.assertEqual(ask(held[-1], OPEN), [OPENED])

    def test_idle_ones_are_ended_beside_one_that_asks(self):
        server = self.start("--connections", "300", "--idle", "2")
        busy, held = self.connect(server), [self.connect(server) for _ in range(299)]
        self.assertEqual(ask(busy, OPEN), [OPENED])
        began, ended = time.monotonic(), 0
        while held and time.monotonic() < began + 10:
            self.assertEqual(ask(busy, BEGIN, ABORT), [BEGUN, DONE])
            readable = select.select(held, [], [], 0.05)[0]
            if readable:
                self.assertGreater(time.monotonic() - began, 1.5)
            for connection in readable:
                self.assertEqual(connection.recv(100), b"")
                held.remove(connection)
        self.assertEqual(held, [])
        self.assertLess(time.monotonic() - began, 8)
        self.assertEqual(ask(busy, BEGIN), [BEGUN])


def requests_of(choose, actor):
    """A session of fifty transactions, each of which reads and puts keys of all sessions, and commits."""
    bodies = [OPEN]
    for place in range(50):
        bodies.append(BEGIN)
        for _ in range(choose.randrange(3)):
            bodies.append(get(b"k%d" % choose.randrange(8)))
        for _ in range(1 + choose.randrange(2)):
            bodies.append(put(b"k%d" % choose.randrange(8), b"%d of %d" % (place, actor)))
        bodies.append(choose.choice((COMMIT, COMMIT_FREELY)))
    return bodies


def talk_in_pieces(choose, connections, asked):
    """Sends each its requests in pieces of any lengths, by turns of any order, and gives the replies."""
    left = [frames(bodies) for bodies in asked]
    came = [b""] * len(connections)
    wanted = [len(bodies) for bodies in asked]
    end = time.monotonic() + PATIENCE
    place_of = {connection: place for place, connection in enumerate(connections)}
    for connection in connections:
        connection.setblocking(False)
    while any(len(bodies_of(data)[0]) < count for data, count in zip(came, wanted)):
        assert time.monotonic() < end, "replies are wanting"
        readable, writable, _ = select.select(connections, [c for c in connections if left[place_of[c]]], [], 1)
        for connection in readable:
            more = connection.recv(65536)
            assert more, "a connection ended"
            came[place_of[connection]] += more
        if writable:
            place = place_of[choose.choice(writable)]
            sent = connections[place].send(left[place][:1 + choose.randrange(40)])
            left[place] = left[place][sent:]
    return [bodies_of(data)[0] for data in came]


def trail_of(asked, told):
    """One order of all requests, with the replies, that the replies allow. A commit tells its place among the commits, a
    begin the commit that was last before it, and the other requests depend on their own session alone."""
    trail, commits = [], 0
    next_of = [0] * len(asked)

    def may_go(place):
        at = next_of[place]
        if at == len(asked[place]):
            return False
        body, reply = asked[place][at], told[place][at]
        if body[0] == 2:
            assert reply[0] == 2, reply
            return struct.unpack(">I", reply[3:7])[0] == commits
        if body[0] == 6:
            assert reply[0] == 8, reply
            return struct.unpack(">I", reply[3:7])[0] == commits + 1
        return True

    def go(place):
        at = next_of[place]
        trail.append((place + 1, asked[place][at], told[place][at]))
        next_of[place] = at + 1

    going = True
    while going:
        going = False
        for place in range(len(asked)):
            while may_go(place) and asked[place][next_of[place]][0] != 6:
                go(place)
                going = True
        for place in range(len(asked)):
            if may_go(place):
                go(place)
                commits += 1
                going = True
                break
    return trail


def main():
    global TARDISD, TARDIS
    words = sys.argv[1:]
    if len(words) > 2 or any(word.startswith("-") for word in words):
        sys.exit(__doc__)
    TARDISD, TARDIS = (words + [TARDISD, TARDIS][len(words):])[:2]
    for program in TARDISD, TARDIS:
        # builds it, where that is needed
        subprocess.run([program, "--version"], check=True, stdout=subprocess.DEVNULL, timeout=7200)
    signal.alarm(300)
    unittest.main(argv=[sys.argv[0]])


if __name__ == "__main__":
    main()
