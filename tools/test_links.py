#!/usr/bin/env python3
"""Tests the links between servers (`links.py`): how slow they are, and how they are cut, held and lose.

usage: tools/test_links.py"""

import contextlib
import os
import socket
import tempfile
import threading
import time
import unittest

from links import BACK, THERE, Links
from servers import PATIENCE

#: so long it is waited for what doesn't come, in seconds
SOON = 0.5


def echo(connection):
    """Says what it hears, and `over` once it hears no more."""
    with contextlib.suppress(OSError), connection:
        heard = connection.recv(1000)
        while heard:
            connection.sendall(heard)
            heard = connection.recv(1000)
        connection.sendall(b"over")


class TestLinks(unittest.TestCase):
    def setUp(self):
        self.stack = contextlib.ExitStack()
        self.addCleanup(self.stack.close)
        folder = self.stack.enter_context(tempfile.TemporaryDirectory())
        self.server = self.stack.enter_context(socket.create_server(("127.0.0.1", 0)))
        threading.Thread(target=self.serve, daemon=True).start()
        self.links = self.stack.enter_context(Links())
        self.at = os.path.join(folder, "way")
        self.link = self.links.add("unix:" + self.at, "127.0.0.1:%d" % self.server.getsockname()[1])

    def serve(self):
        with contextlib.suppress(OSError):
            while True:
                threading.Thread(target=echo, args=(self.server.accept()[0],), daemon=True).start()

    def connect(self):
        made = self.stack.enter_context(socket.socket(socket.AF_UNIX))
        made.settimeout(PATIENCE)
        made.connect(self.at)
        return made

    def say(self, made, what):
        """What comes back, and after how many seconds."""
        began, heard = time.monotonic(), b""
        made.sendall(what)
        while len(heard) < len(what):
            more = made.recv(1000)
            if not more:
                break
            heard += more
        return heard, time.monotonic() - began

    def assert_silent(self, made):
        made.settimeout(SOON)
        with self.assertRaises(socket.timeout):
            made.recv(1)
        made.settimeout(PATIENCE)

    def test_slow(self):
        made = self.connect()
        for there, back, least in (0, 0, 0), (0.1, 0.3, 0.4), ((0.1, 0.2), (0.05, 0.1), 0.15):
            self.link.slow(there, THERE)
            self.link.slow(back, BACK)
            heard, took = self.say(made, bytes(range(256)) * 100)
            self.assertEqual(heard, bytes(range(256)) * 100)
            self.assertGreaterEqual(took, least)
            self.assertLess(took, least + 1)
        made.shutdown(socket.SHUT_WR)
        self.assertEqual(b"".join(iter(lambda: made.recv(10), b"")), b"over")

    def test_cut(self):
        made = self.connect()
        self.say(made, b"x")
        self.link.cut()
        self.assertEqual(made.recv(1), b"")
        self.assertEqual(self.connect().recv(1), b"")
        self.links.follow([(0.1, self.link.mend)])
        time.sleep(SOON)
        self.assertEqual(self.say(self.connect(), b"again")[0], b"again")

    def test_held(self):
        for way in THERE, BACK:
            made = self.connect()
            self.link.hold(way)
            made.sendall(b"late")
            self.assert_silent(made)
            self.link.mend()
            self.assertEqual(made.recv(10), b"late")

    def test_lost(self):
        for way in THERE, BACK:
            made = self.connect()
            self.link.lose(way)
            made.sendall(b"gone")
            self.assert_silent(made)
            self.link.mend()
            # (what is half open stays so, and a new connection works)
            made.sendall(b"gone too")
            self.assert_silent(made)
            self.assertEqual(self.say(self.connect(), b"new")[0], b"new")


if __name__ == "__main__":
    unittest.main()
