"""The command for people, `python -m tardis`, and what the page asks."""

import contextlib
import io
import json
import os
import re
import select
import shutil
import subprocess
import sys
import tempfile
import time
import unittest
import urllib.error
import urllib.request
import xml.dom.minidom
from unittest import mock

from servers_here import CLIENT, PATIENCE, OfModel, OfTardisd, OverServers, tardis

from tardis.__main__ import run  # noqa: E402
from tardis.exports import put_in_place, write_export  # noqa: E402
from tardis.layout import lay_out  # noqa: E402
from tardis.pictures import word  # noqa: E402


class Command(OverServers):
    def run_it(self, *words, status=0, text=""):
        """What a command prints. It runs here, as its own process would."""
        out, errors = (io.TextIOWrapper(io.BytesIO(), "utf-8", write_through=True) for _ in range(2))
        ended = 0
        with mock.patch("sys.argv", ["tardis", *words]), mock.patch("sys.stdin", io.StringIO(text)), contextlib.redirect_stdout(out), \
                contextlib.redirect_stderr(errors):
            try:
                run()
            except SystemExit as end:
                ended = end.code or 0
        self.errors = errors.buffer.getvalue().decode()
        self.assertEqual(ended, status, self.errors)
        return out.buffer.getvalue().decode()

    def fork(self):
        """A cart of two leaves."""
        self.serve()
        one = self.connect()
        one.open(follow=False)
        with one.transaction() as txn:
            txn.put("cart", "tea"), txn.put("n", "1"), txn.put(b"\xff", b"")
        for cart in ("tea,milk", "tea,jam"):
            with one.transaction(at="1.1") as txn:
                txn.get("cart"), txn.put("cart", cart)
        one.disconnect()

    def test_looking(self):
        self.fork()
        self.assertEqual(self.run_it("graph", self.address), "\n".join([
            "● 1.3  (leaf)  cart=tea,jam", "│ ● 1.2  (leaf)  cart=tea,milk", "├─╯", "● 1.1  cart=tea  n=1  #ff=", "● 0.0  (root)", ""]))
        self.assertEqual(self.run_it("graph", self.address, "--plain", "--most", "2").splitlines()[-1], ".. and 2 older states")
        drawn = json.loads(self.run_it("graph", self.address, "--json"))
        self.assertEqual([state["id"] for state in drawn["states"]], ["0.0", "1.1", "1.2", "1.3"])
        self.assertEqual(drawn["states"][1]["writes"][2], {"key": {"hex": "ff"}, "value": ""})
        files = [os.path.join(self.folder, name) for name in ("h.svg", "h.dot")]
        self.run_it("graph", self.address, "--svg", files[0], "--dot", files[1])
        picture = xml.dom.minidom.parse(files[0])
        self.assertEqual((len(picture.getElementsByTagName("circle")), len(picture.getElementsByTagName("path"))), (4, 3))
        with open(files[1], encoding="utf-8") as file:
            self.assertEqual(file.read().count("->"), 3)
        self.assertEqual(self.run_it("stat", self.address).splitlines()[0], "known 4, kept 4, leaves 2, open sessions 0")
        self.assertEqual(self.run_it("leaves", self.address), "1.2\n1.3\n")
        self.assertEqual(self.run_it("show", self.address, "1.1").splitlines(), [
            "state 1.1, which came after 1 others", "parents: 0.0", "children: 1.2, 1.3", "cart = tea", "n = 1", "#ff = "])
        self.assertEqual(self.run_it("keys", self.address, "--at", "1.2", "--prefix", "c"), "cart = tea,milk\n")
        self.assertEqual(json.loads(self.run_it("keys", self.address, "--json"))["items"][0], {"key": "cart", "value": "tea,jam"})

    def test_changing(self):
        self.fork()
        several = "tardis: there are 2 leaves, 1.2, 1.3, and this is what 1.3 has: --at STATE shows another, and merge joins them\n"
        for asked, at, told in [(["get", "cart"], [], "tea,jam\n"), (["get", "cart"], ["--at", "1.2"], "tea,milk\n"),
                                (["keys"], [], "cart = tea,jam\nn = 1\n#ff = \n"), (["keys"], ["--at", "1.1"], "cart = tea\nn = 1\n#ff = \n")]:
            self.assertEqual(self.run_it(asked[0], self.address, *asked[1:], *at), told)
            self.assertEqual(self.errors, "" if at else several)
        self.assertEqual(self.run_it("get", self.address, "none", status=1), "")
        self.assertEqual(self.errors, several + "tardis: none has no value at 1.3\n")
        self.assertEqual(self.run_it("put", self.address, "n", "2"), "committed 1.4 below 1.3\n")
        self.assertEqual(self.run_it("put", self.address, "n", "3", "--at", "1.3"),
                         "committed 1.5 below 1.3\na fork: 1.2, 1.4 stand beside it\n")
        self.run_it("merge", self.address, status=1)
        self.assertIn("nobody says what it shall have: give --rules", self.errors)
        for option, wrong, told in [("--rules", "cart=best", "a rule is PREFIX=last|count"), ("--rules", "cart=text", "a rule is PREFIX=last|count"),
                                    ("--resolvers", "cart=set", "a resolver is PREFIX=text|lines|union_of")]:
            self.run_it("merge", self.address, option, wrong, status=1)
            self.assertIn(told, self.errors)
        self.run_it("merge", self.address, "--rules", "cart=set", status=1)
        self.assertEqual(self.errors, "tardis: the key b'cart' can't be resolved: b'tea,milk' is no set: its items don't ascend, or one is empty\n")
        # 1.4 added one to the 1 of 1.3, and 1.5 added two
        self.assertEqual(self.run_it("merge", self.address, "--resolvers", "cart=union_of,n=counter").splitlines(), [
            "1.6 joins 1.2, 1.4, 1.5: cart, n"])
        self.assertEqual(self.run_it("keys", self.address), "cart = jam,milk,tea\nn = 4\n#ff = \n")
        self.assertEqual(self.run_it("merge", self.address), "one leaf alone, so there is nothing to merge\n")
        # what the client wrote a server's rules can read; what they don't settle stays apart, and it is said why
        for cart, price in (("jam", "1"), ("rice", "2")):
            self.run_it("put", self.address, "cart", cart, "--at", "1.6")
        self.assertEqual(self.run_it("merge", self.address, "--rules", "cart=set"), "1.9 joins 1.7, 1.8: cart\n")
        self.assertEqual(self.run_it("delete", self.address, "cart"), "committed 1.10 below 1.9\n")
        self.run_it("get", self.address, "cart", status=1)
        self.assertEqual(self.errors, "tardis: cart has no value at 1.10: 1.10 deleted it\n")
        for price in "12":
            self.run_it("put", self.address, "price", price, "--at", "1.10")
        self.run_it("put", self.address, "cart", "x", "--at", "1.9")
        told = self.run_it("merge", self.address, "--rules", "cart=last", status=1)
        self.assertEqual((told, self.errors), ("1.14 joins 1.11, 1.13: cart\n",
            "tardis: the key b'price' can't be resolved: no rule's prefix begins it, so its rule is `refuse`\n"))
        # the site sees the end of a connection when it sees it
        site, end = self.connect(), time.monotonic() + PATIENCE
        while site.stat().sessions and time.monotonic() < end:
            time.sleep(0.01)
        self.assertEqual(site.stat().sessions, 0)

    def test_exporting(self):
        self.fork()
        # what was written above is there, in order; and to a file the same
        spelled = bytes.fromhex("0000000000000003" "04" + b"cart".hex() + "0008" + b"tea,milk".hex() + "01" + b"n".hex() + "0001" + b"1".hex() + "01ff0000")
        path = os.path.join(self.folder, "out")
        self.assertEqual(self.run_it("export", self.address, "--at", "1.2", "--out", path), path + " has 3 keys of 1.2\n")
        with open(path, "rb") as file:
            self.assertEqual(file.read(), spelled)
        # nothing is written where it can't be whole, and the file that was there stays
        for words, told in [
                ([], "tardis: there are 2 leaves, 1.2, 1.3: give --at STATE, or merge them first\n"),
                (["--at", "1.9"], "tardis: unknown: this site doesn't know the state 1.9")]:
            self.assertEqual(self.run_it("export", self.address, "--out", path, *words, status=1), "")
            self.assertTrue(self.errors.startswith(told), self.errors)
        with open(path, "rb") as file:
            self.assertEqual(file.read(), spelled)
        with tempfile.TemporaryFile() as file, self.connect() as site:
            file.write(b"before")
            self.assertEqual(write_export(site, "1.2", file), 3)
            file.write(b"behind")
            file.seek(0)
            self.assertEqual(file.read(), b"before" + spelled + b"behind")
        # the file that was there stays what it is until the new one is on the disk: its mode, and a link to it
        os.chmod(path, 0o640)
        os.symlink(path, path + ".link")
        with open(path + ".part", "wb") as file:
            file.write(b"another's")
        self.run_it("export", self.address, "--at", "1.3", "--out", path + ".link")
        self.assertEqual((os.path.islink(path + ".link"), os.stat(path).st_mode & 0o777), (True, 0o640))
        with open(path, "rb") as file:
            self.assertEqual(file.read(), spelled.replace(b"\0\x08tea,milk", b"\0\x07tea,jam"))
        self.assertEqual(sorted(name for name in os.listdir(self.folder) if name.startswith("out")), ["out", "out.link", "out.part"])
        # of the one leaf, to standard output
        one = self.connect()
        one.open(follow=False)
        one.merge(tardis.last_writer)
        made = subprocess.run([sys.executable, "-m", "tardis", "export", self.address], cwd=CLIENT, stdout=subprocess.PIPE, timeout=60)
        self.assertEqual((made.returncode, made.stdout), (0, spelled.replace(b"\0\x08tea,milk", b"\0\x07tea,jam")))
        # who is there, and holds the floor
        while one.stat().sessions > 1:
            pass
        told = self.run_it("sessions", self.address).splitlines()
        self.assertEqual(told[0], "1 open; raised now, the floor would stand at 0.0")
        self.assertRegex(told[1], r"^session \d+: ceiling 0.0, last commit 1.4 \(holds the floor\)$")
        self.assertIs(json.loads(self.run_it("sessions", self.address, "--json"))["sessions"][0]["holds"], True)

    def test_importing(self):
        self.serve()
        entries = [(b"k%03d" % number, b"v" * (number % 3)) for number in range(130)]
        spelled = (130).to_bytes(8, "big") + b"".join(bytes([len(key)]) + key + len(value).to_bytes(2, "big") + value for key, value in entries)
        path = os.path.join(self.folder, "in")
        # 64 keys a transaction, each below the one before
        for written, told in [(spelled, "130 keys put, from 1.1 to 1.3\n"), (bytes(8), "0 keys put: there are none in the export\n")]:
            with open(path, "wb") as file:
                file.write(written)
            self.assertEqual(self.run_it("import", self.address, path), told)
        self.assertEqual(list(self.connect().scan("1.3")), entries)
        # of what is no export nothing is put
        descending = bytes(7) + b"\2" + b"\1b\0\0" + b"\1a\0\0"
        for written, told in [(spelled[:-1], "it ends too early"), (spelled + b"\0", "something stands behind its end"),
                              (descending, "its keys don't ascend, or one of them or a value is too long")]:
            with open(path, "wb") as file:
                file.write(written)
            self.assertEqual(self.run_it("import", self.address, path, status=1), "")
            self.assertEqual(self.errors, f"tardis: no export: {told}\n")
        self.assertEqual(self.connect().leaves().first, (tardis.StateId(1, 3),))

    def test_what_is_wrong_is_told_in_a_line(self):
        self.serve()
        for words, told in [
                (["stat", "nowhere"], "tardis: an address is unix:PATH or HOST:PORT"), (["stat", "unix:/nowhere/x"], "tardis: [Errno 2] No such file or directory: 'unix:/nowhere/x'"),
                (["stat", "127.0.0.1:1"], "tardis: [Errno 111] Connection refused: '127.0.0.1:1'"),
                (["stat", "nowhere.invalid:1"], "tardis: nowhere.invalid:1 can't be reached: "),
                (["show", self.address, "1.9"], "tardis: unknown: this site doesn't know the state 1.9"),
                (["show", self.address, "1"], "tardis: a state is written SITE.SEQUENCE"),
                (["put", self.address, "", "v"], "tardis: a key has 1 to 128 bytes")]:
            self.run_it(*words, status=1)
            self.assertTrue(self.errors.startswith(told) and self.errors.count("\n") == 1, self.errors)
        self.run_it("draw", self.address, status=2)

    def test_watching(self):
        self.serve()
        watching = subprocess.Popen([sys.executable, "-m", "tardis", "watch", self.address, "--every", "0.05"], cwd=CLIENT,
                                    stdout=subprocess.PIPE, stderr=subprocess.DEVNULL)
        try:
            site = self.connect()
            site.open()
            # it tells what comes from its first look on; so there is news until it has looked
            ready, end = [], time.monotonic() + PATIENCE
            while not ready and time.monotonic() < end:
                with site.transaction() as txn:
                    txn.put("n", "1")
                ready, _, _ = select.select([watching.stdout], [], [], 0.05)
            told = watching.stdout.readline() if ready else b""
            self.assertRegex(told.decode(), r"^1\.\d+ below \d\.\d+  n=\d+\n$")
        finally:
            watching.kill()
            watching.wait()
            watching.stdout.close()

    def test_the_page(self):
        self.fork()
        web = subprocess.Popen([sys.executable, "-m", "tardis", "web", self.address, "--port", "0"], cwd=CLIENT, stdout=subprocess.PIPE)
        try:
            page = web.stdout.readline().decode().split()[0]
            self.assertRegex(page, r"^http://127\.0\.0\.1:\d+/$")

            def ask(path, body=None, **headers):
                data = None if body is None else json.dumps(body).encode()
                asked = urllib.request.Request(page + path, data, {"Content-Type": "application/json", **headers})
                try:
                    with urllib.request.urlopen(asked, timeout=PATIENCE) as told:
                        return told.status, told.read()
                except urllib.error.HTTPError as fault:
                    with fault:
                        return fault.code, fault.read()

            status, text = ask("")
            self.assertEqual((status, re.findall(rb"(?:src|href)=", text)), (200, []))
            drawn = json.loads(ask("api/history")[1])
            self.assertEqual([row[:3] for row in drawn["rows"]], [["1.3", 0, "leaf"], ["1.2", 1, "leaf"], ["1.1", 0, ""], ["0.0", 0, "root"]])
            self.assertNotIn("rows", json.loads(ask("api/history?have=" + drawn["version"])[1]))
            self.assertEqual(json.loads(ask("api/state?id=1.2")[1])["items"][0], ["cart", "tea,milk"])
            compared = json.loads(ask("api/compare?one=1.2&other=1.3")[1])
            self.assertEqual((compared["forks"], compared["conflicts"]), (["1.1"], [
                {"key": "cart", "known": True, "base": "tea", "sides": ["tea,milk", "tea,jam"]}]))
            self.assertEqual(ask("api/compare?one=1.2&other=1.1")[0], 409)
            merge = {"one": "1.2", "other": "1.3", "values": [["cart", "all"]]}
            # a form of another site's page can send text alone, and no page takes what is told for one
            for kind in ("text/plain", "application/x-www-form-urlencoded", "multipart/form-data", "text/application/json", ""):
                self.assertEqual(ask("api/merge", merge, **{"Content-Type": kind})[0], 403, kind)
            for path, kind in [("", "text/html; charset=utf-8"), ("api/history", "application/json"), ("api/state?id=1.2", "application/json"),
                               ("api/state?id=1.9", "application/json"), ("nothing", "text/plain")]:
                try:
                    with urllib.request.urlopen(page + path, timeout=PATIENCE) as told:
                        headers = told.headers
                except urllib.error.HTTPError as fault:
                    with fault:
                        headers = fault.headers
                self.assertEqual((headers["Content-Type"], headers["X-Content-Type-Options"]), (kind, "nosniff"), path)
            # another site's page can't merge, nor a name that points here
            self.assertEqual(ask("api/merge", merge, Origin="http://elsewhere.example")[0], 403)
            self.assertEqual(ask("api/merge", merge, Host="elsewhere.example")[0], 403)
            self.assertEqual(ask("api/merge", {**merge, "values": []})[0], 409)
            self.assertEqual(ask("api/merge", merge, **{"Content-Type": "Application/JSON; charset=utf-8"}), (200, b'{"id": "1.4"}'))
            self.assertEqual(ask("api/nothing")[0], 404)
            site = self.connect()
            self.assertEqual((dict(site.items("1.4").items)[b"cart"], site.stat().sessions), (b"all", 0))
            self.server.stop()
            self.assertEqual(ask("api/history")[0], 502)
        finally:
            web.kill()
            web.wait()
            web.stdout.close()


class InPlace(unittest.TestCase):
    def test_what_stood_there_stays_until_the_new_one_is_on_the_disk(self):
        folder = tempfile.mkdtemp()
        self.addCleanup(shutil.rmtree, folder)
        path, done = os.path.join(folder, "out"), []
        real = {name: getattr(os, name) for name in ("fsync", "replace")}

        def noting(name, fails):
            def call(*words):
                with open(path, "rb") as file:
                    done.append((name, file.read()))
                if fails:
                    raise OSError(28, "No space left on device")
                return real[name](*words)
            return call

        for failing in (None, "fsync", "replace"):
            with open(path, "wb") as file:
                file.write(b"old")
            del done[:]
            with mock.patch("os.fsync", noting("fsync", failing == "fsync")), mock.patch("os.replace", noting("replace", failing == "replace")):
                if failing is None:
                    put_in_place(io.BytesIO(b"new"), path)
                else:
                    self.assertRaises(OSError, put_in_place, io.BytesIO(b"new"), path)
            with open(path, "rb") as file:
                self.assertEqual(file.read(), b"old" if failing else b"new")
            self.assertEqual(done[:2], [("fsync", b"old"), ("replace", b"old")][:1 if failing == "fsync" else 2])
            # and then the folder
            self.assertEqual(done[2:], [] if failing else [("fsync", b"new")])
            self.assertEqual(os.listdir(folder), ["out"])


class OverTardisd(OfTardisd, Command):
    pass


class OverModel(OfModel, Command):
    pass


del Command


class Drawing(unittest.TestCase):
    def test_a_long_history_is_laid_out_quickly(self):
        """16,000 leaves of one state, and a chain: each edge once, and no two states of one row and lane."""
        states = [tardis.State(tardis.ROOT, (), ())]
        for number in range(1, 16_001):
            parent = tardis.ROOT if number % 2 else tardis.StateId(1, max(1, number - 2))
            states.append(tardis.State(tardis.StateId(1, number), (parent,), ()))
        layout = lay_out(states)
        self.assertEqual((len(layout.states), len(layout.edges), layout.width), (16_001, 16_000, 8_000))
        for edge in layout.edges:
            self.assertLess(edge.child_row, edge.parent_row)

    def test_words(self):
        for data, told in [(b"tea", "tea"), (b"", ""), ("é x".encode(), "é x"), (b"a\nb", "a\\nb"), (b"\xff", "#ff"), (b"#x", "#x"), (b"#ff", "#236666"), (b"#", "#23"), (b"# a", "# a"), (b"\x00", "#00")]:
            self.assertEqual(word(data), told)


if __name__ == "__main__":
    unittest.main()
