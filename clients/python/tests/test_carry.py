"""`tools/carry.py` between sites that don't belong together: it says so, and goes on."""

import os
import shutil
import struct
import subprocess
import sys
import tempfile
import unittest

from servers_here import TOP, tardis

from model import Model, ModelServer  # noqa: E402

CARRY = os.path.join(TOP, "tools", "carry.py")


class OfTwo(Model):
    """A site that says that there are two, of which it is the first. It tells as much in its answer to Stat, and asked for itself."""

    def do_16(self, actor, fields):
        told = super().do_16(actor, fields)
        return told[:19] + b"\x02" + 2 * told[20:]

    def do_70(self, actor, fields):
        return b"\x46\x00\x01" + struct.pack(">H", 2) + super().do_70(actor, fields)[5:]


class Carry(unittest.TestCase):
    def setUp(self):
        self.folder = tempfile.mkdtemp()
        self.addCleanup(shutil.rmtree, self.folder)

    def serve(self, name, kind, answers_questions):
        path = os.path.join(self.folder, name)
        server = ModelServer(path)
        server.model = kind(answers_questions)
        self.addCleanup(server.stop)
        return "unix:" + path

    def carry(self, *addresses):
        told = subprocess.run([sys.executable, CARRY, "--rounds", "2", "--every", "0.01", *addresses], stdout=subprocess.PIPE,
                              stderr=subprocess.PIPE, timeout=120)
        self.assertEqual((told.returncode, told.stdout), (0, b""), told.stderr.decode())
        return sorted(told.stderr.decode().splitlines())

    def test_what_does_not_belong_together_is_told_once(self):
        one, other, two = (self.serve(name, kind, True) for name, kind in (("one", Model), ("other", Model), ("two", OfTwo)))
        self.assertEqual(self.carry(one, other), sorted(
            f"carry: from {it[0]} to {it[1]}: both are site 1 of 1: each site needs a number of its own" for it in [(one, other), (other, one)]))
        self.assertEqual(self.carry(one, two)[0], (
            f"carry: from {one} to {two}: one has --sites 1 and the other --sites 2, so they don't belong together"))

    def test_a_site_that_refuses_to_give(self):
        """Where nobody tells its number, the site that is asked for the records of two sites says that it knows one."""
        one, two, away = self.serve("one", Model, False), self.serve("two", OfTwo, False), "unix:" + os.path.join(self.folder, "away")
        told = self.carry(away, one, two)
        self.assertEqual(told[0], f"carry: from {one} to {two}: {tardis.BadSite(2)}")
        self.assertTrue(told[-1].startswith(f"carry: {away}: "))
        self.assertEqual(len(told), 2)


if __name__ == "__main__":
    unittest.main()
