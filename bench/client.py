"""Builds and calls `client.c`, which asks a server and tells how fast it was answered, for `serve.py`, `durable.py` and `start.py`; and a
connection that asks itself, for `start.py` and `tools/test_shorter.py`."""

import os
import shlex
import shutil
import socket as sockets
import struct
import subprocess
import sys

HERE = os.path.dirname(os.path.abspath(__file__))
TOP = os.path.dirname(HERE)
# How long one measurement may take, in seconds.
PATIENCE = 600


def built(folder):
    """The client's program, built in this folder."""
    cc = shlex.split(os.environ.get("CC") or "cc")
    if shutil.which(cc[0]) is None:
        sys.exit("%s: there is no C compiler (cc, or $CC) for bench/client.c" % sys.argv[0])
    program = os.path.join(folder, "client")
    subprocess.run([*cc, "-O2", "-pthread", "-o", program, os.path.join(HERE, "client.c")], check=True)
    return program


def ask(client, process, words, fds=(), patience=PATIENCE):
    """What the client tells of a server, by name: `rate`, `p50`, `p99`, `server`, `client` and `busy` (client.c)."""
    told = subprocess.run(
        [client, "-s", str(process.pid), *map(str, words)], pass_fds=fds, stdin=subprocess.DEVNULL, stdout=subprocess.PIPE,
        timeout=patience, text=True)
    if told.returncode != 0:
        sys.exit("%s: the client ended with %d, asked %s" % (sys.argv[0], told.returncode, " ".join(map(str, words))))
    return {name: float(figure) for name, figure in (word.split("=") for word in told.stdout.split())}


def best(runs):
    """The best of each figure of several runs; the client's share of the fastest run."""
    fastest = max(runs, key=lambda run: run["rate"])
    return {name: fastest[name] if name in ("rate", "busy") else min(run[name] for run in runs) for name in fastest}


class Asker:
    """A connection to a server on the path of a socket."""

    def __init__(self, path, patience=PATIENCE):
        self.socket = sockets.socket(sockets.AF_UNIX)
        self.socket.settimeout(patience)
        self.socket.connect(path)
        self.left = b""

    def take(self, count):
        while len(self.left) < count:
            try:
                more = self.socket.recv(1 << 16)
            except ConnectionError:
                return None
            if not more:
                return None
            self.left += more
        taken, self.left = self.left[:count], self.left[count:]
        return taken

    def reply(self):
        length = self.take(4)
        return None if length is None else self.take(struct.unpack(">I", length)[0])

    def replies(self, *requests):
        """The replies to these requests, which are sent at once; each is None once the server is gone."""
        try:
            self.socket.sendall(b"".join(struct.pack(">I", len(it)) + it for it in requests))
        except ConnectionError:
            pass
        for _ in requests:
            yield self.reply()

    def ask(self, *requests):
        """The replies to these requests, which are sent at once."""
        told = list(self.replies(*requests))
        if None in told:
            sys.exit("%s: the server ended a connection" % sys.argv[0])
        return told


def ended(process):
    process.kill()
    process.wait()
    for file in process.stdin, process.stdout:
        if file is not None:
            file.close()
