"""The servers that the tests of the client run against: those that were built, and the model in Python."""

import functools
import os
import re
import shutil
import subprocess
import sys
import tempfile
import unittest

HERE = os.path.dirname(os.path.abspath(__file__))
CLIENT = os.path.dirname(HERE)
TOP = os.path.dirname(os.path.dirname(CLIENT))
# (at the end: both folders have a test_package.py, and the tests' own is meant)
sys.path[:0] = [path for path in (CLIENT,) if path not in sys.path]
sys.path += [path for path in (os.path.join(TOP, "tools"),) if path not in sys.path]

import tardis  # noqa: E402
from model import ModelServer  # noqa: E402
from servers import PATIENCE, first_line, free_port, stop  # noqa: E402

#: the programs: those that the last build left, unless the environment names others
TARDISD = os.environ.get("TARDISD") or os.path.join(TOP, "crates", "tardisd", "out", "tardisd")
TARDIS = os.environ.get("TARDIS") or os.path.join(TOP, "crates", "tardis", "out", "tardis")


def is_built(program):
    return os.access(program, os.X_OK)


def has_word(word):
    """Whether `tardisd` has this option: its help names each."""
    told = subprocess.run([TARDISD, "--help"], stdin=subprocess.DEVNULL, stdout=subprocess.PIPE, stderr=subprocess.STDOUT)
    return re.search(re.escape(word) + r"(?![-\w])", told.stdout.decode()) is not None


@functools.lru_cache(maxsize=None)
def keeping_history():
    """The words by which `tardisd` collects nothing by itself: an older one never does, and has no such word."""
    return ["--keep-history"] if has_word("--keep-history") else []


def words_of(address, words):
    """The words that start `tardisd` with these words and the history kept."""
    return [TARDISD, "--listen", address, *words, *keeping_history()]


class Process:
    """A server that runs until it is stopped."""

    def __init__(self, words):
        self.process = subprocess.Popen(words, stdin=subprocess.DEVNULL, stdout=subprocess.DEVNULL, stderr=subprocess.PIPE)
        line = first_line(self.process)
        if " listens " not in line:
            stop(self.process)
            raise AssertionError("the server didn't listen: " + line)

    def stop(self):
        if self.process.poll() is None:
            stop(self.process)


class OverServers(unittest.TestCase):
    """Tests that need a server; those that inherit say which."""

    def start(self, address):
        raise unittest.SkipTest("a server is named by those that inherit")

    def setUp(self):
        self.folder = tempfile.mkdtemp()
        self.addCleanup(shutil.rmtree, self.folder)

    def serve(self, address=None):
        self.address = address or "unix:" + os.path.join(self.folder, "site")
        self.server = self.start(self.address)
        self.addCleanup(self.server.stop)
        return self.address

    def connect(self, address=None, timeout=PATIENCE):
        site = tardis.connect(address or self.address, timeout)
        self.addCleanup(site.disconnect)
        return site


class OfTardisd:
    """Against `tardisd`."""

    answers_questions = True

    def start(self, address):
        if not is_built(TARDISD):
            raise unittest.SkipTest("tardisd isn't built")
        return Process(words_of(address, self.words))

    words = ()


class OfServe:
    """Against `tardis serve`."""

    answers_questions = False

    def start(self, address):
        if not is_built(TARDIS):
            raise unittest.SkipTest("tardis isn't built")
        return Process([TARDIS, "serve", "--listen", address, "--links", "16"])


class OfModel:
    """Against the model in Python."""

    answers_questions = True

    def start(self, address):
        if not address.startswith("unix:"):
            raise unittest.SkipTest("the model listens at a path")
        also = {address[len("unix:"):]: role[2:] for role, address in zip(self.words[::2], self.words[1::2])
                if role in ("--clients", "--peers")}
        bounds = {word: int(count) for word, count in zip(self.words[::2], self.words[1::2])
                  if word in ("--connections", "--states")}
        return ModelServer(address[len("unix:"):], self.answers_questions, also, bounds.get("--connections"), room=bounds.get("--states"))

    words = ()


class OfOldModel(OfModel):
    """Against the model, which answers no questions."""

    answers_questions = False


__all__ = ["CLIENT", "HERE", "OfModel", "OfOldModel", "OfServe", "OfTardisd", "OverServers", "PATIENCE", "Process", "TARDIS", "TARDISD", "TOP", "free_port", "has_word", "is_built",
           "keeping_history", "tardis", "words_of"]
