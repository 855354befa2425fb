"""What becomes of a connection when something goes wrong in the midst of a request: a named error, and never a wrong answer."""

import asyncio
import os
import shutil
import socket
import struct
import tempfile
import threading
import time
import unittest

from servers_here import tardis

import tardis.aio  # noqa: E402

# what a server of one reply answers: the value of the key that was asked, behind its length
VALUE = struct.pack(">I", 10) + b"\x04" + struct.pack(">HI", 1, 1) + b"\x00\x01a"


class Scripted:
    """A server of one connection that sends what it is told, when it is told."""

    def __init__(self, folder, script):
        self.address = "unix:" + os.path.join(folder, "scripted")
        self.listener = socket.socket(socket.AF_UNIX)
        self.listener.bind(self.address[len("unix:"):])
        self.listener.listen(1)
        self.thread = threading.Thread(target=self.run, args=(script,), daemon=True)
        self.thread.start()

    def run(self, script):
        link, _ = self.listener.accept()
        with link, self.listener:
            try:
                script(link)
            except OSError:
                pass


class BrokenOff(unittest.TestCase):
    def setUp(self):
        self.folder = tempfile.mkdtemp()
        self.addCleanup(shutil.rmtree, self.folder)

    def against(self, script, timeout=5.0):
        server = Scripted(tempfile.mkdtemp(dir=self.folder), script)
        self.addCleanup(server.thread.join, 5)
        site = tardis.connect(server.address, timeout)
        self.addCleanup(site.disconnect)
        return site

    def is_over(self, site):
        self.assertFalse(site.is_connected)
        with self.assertRaisesRegex(tardis.Disconnected, "^this connection is closed, since"):
            site.get("b")

    def test_a_reply_cut_at_each_byte(self):
        for length in range(len(VALUE)):
            def script(link):
                link.recv(1000)
                link.sendall(VALUE[:length])

            site = self.against(script)
            with self.assertRaisesRegex(tardis.Disconnected, "ended the connection"):
                site.get("a")
            self.is_over(site)
        # and in pieces of a byte it is read
        def script(link):
            link.recv(1000)
            for place in range(len(VALUE)):
                link.sendall(VALUE[place:place + 1])

        self.assertEqual(self.against(script).get("a"), tardis.Value(tardis.StateId(1, 1), b"a"))

    def test_a_second_reply_cut_at_each_byte(self):
        for length in range(len(VALUE)):
            def script(link):
                link.recv(1000)
                link.sendall(VALUE + VALUE[:length])

            site = self.against(script)
            with self.assertRaises(tardis.Disconnected):
                with site.pipeline() as line:
                    first, second = line.get("a"), line.get("b")
            self.assertEqual(first.result().value, b"a")
            self.assertRaises(tardis.Disconnected, second.result)
            self.is_over(site)

    def test_a_time_out_in_mid_reply(self):
        def script(link):
            link.recv(1000)
            link.sendall(VALUE[:7])
            time.sleep(0.3)
            # the rest comes, when nobody waits for it any more
            link.sendall(VALUE[7:])

        site = self.against(script, timeout=0.1)
        with self.assertRaises(TimeoutError):
            site.get("a")
        time.sleep(0.3)
        self.is_over(site)

    def test_a_reply_that_trickles_is_too_late(self):
        def script(link):
            link.recv(1000)
            for place in range(len(VALUE)):
                link.sendall(VALUE[place:place + 1])
                time.sleep(0.05)

        site = self.against(script, timeout=0.2)
        with self.assertRaises(TimeoutError):
            site.get("a")
        self.is_over(site)

    def test_a_server_that_takes_nothing(self):
        over = threading.Event()
        site = self.against(lambda link: over.wait(20), timeout=0.1)
        with self.assertRaises(TimeoutError):
            with site.pipeline() as line:
                for _ in range(100_000):
                    line.get("a")
        over.set()
        self.is_over(site)

    def test_an_interrupt_in_mid_request(self):
        sent = threading.Event()

        class Interrupted(socket.socket):
            def recv(self, *words):
                sent.wait(5)
                raise KeyboardInterrupt

        def script(link):
            link.recv(1000)
            link.sendall(VALUE)
            sent.set()
            link.recv(1000)

        site = self.against(script)
        site._stream = Interrupted(fileno=site._stream.detach())
        with self.assertRaises(KeyboardInterrupt):
            site.get("a")
        self.is_over(site)

    def test_a_thread_that_waits_is_told_of_the_end(self):
        asked, told = threading.Event(), []

        def script(link):
            link.recv(1000)
            asked.set()
            link.recv(1000)

        site = self.against(script, timeout=None)

        def wait():
            try:
                site.get("a")
            except tardis.Disconnected as fault:
                told.append(str(fault))

        waiting = threading.Thread(target=wait)
        waiting.start()
        asked.wait(5)
        time.sleep(0.05)
        site.disconnect()
        waiting.join(5)
        self.assertEqual(len(told), 1)
        self.is_over(site)

    def test_what_no_site_sends(self):
        def frame(body):
            return struct.pack(">I", len(body)) + body

        for sent in [
                frame(b"\x63"), frame(b""), frame(b"\x07\x00"), frame(b"\x04"), frame(b"\x15\x63"), frame(b"\x15\x0f\x03" + bytes(10)),
                frame(b"\x15\x08\x04" + bytes(4)), frame(b"\x11"), struct.pack(">I", 1_048_577), VALUE + VALUE, VALUE + b"\x00"]:
            def script(link):
                link.recv(1000)
                link.sendall(sent)
                link.recv(1000)

            site = self.against(script)
            with self.assertRaises(tardis.ProtocolError):
                site.get("a")
            self.is_over(site)

    def test_a_reply_that_nobody_asked_for(self):
        for late, told in [(VALUE, "a reply came that nobody asked for"), (b"", "ended the connection|the site ended it")]:
            sent = threading.Event()

            def script(link):
                link.recv(1000)
                link.sendall(VALUE)
                sent.wait(5)
                link.sendall(late)
                if late:
                    link.recv(1000)

            site = self.against(script)
            self.assertEqual(site.get("a").value, b"a")
            sent.set()
            time.sleep(0.1)
            with self.assertRaisesRegex((tardis.ProtocolError, tardis.Disconnected), told):
                site.get("b")
            self.is_over(site)

            async def awaited():
                server = Scripted(tempfile.mkdtemp(dir=self.folder), script)
                site = await tardis.aio.connect(server.address, 5)
                self.assertEqual((await site.get("a")).value, b"a")
                sent.set()
                await asyncio.sleep(0.1)
                with self.assertRaisesRegex(tardis.Disconnected, told):
                    await site.get("b")
                await site.disconnect()

            sent.clear()
            asyncio.run(awaited())

    def test_what_is_wrong_is_told_before_it_is_sent(self):
        def script(link):
            self.got = link.recv(1000)

        site = self.against(script)
        for call, told in [
                (lambda: site.put("visits", 5), "a value is bytes or text, and not int"),
                (lambda: site.put("visits", bytearray(b"5")), "a value is bytes or text, and not bytearray"),
                (lambda: site.get(None), "a key is bytes or text, and not NoneType"), (lambda: site.deliver("x"), "an item is bytes")]:
            with self.assertRaisesRegex(TypeError, told):
                call()
        for call, told in [
                (lambda: site.get(""), "a key has 1 to 128 bytes, and not 0"), (lambda: site.get("x" * 129), "not 129"),
                (lambda: site.put("x", "v" * 4097), "a value has at most 4,096 bytes, and not 4,097"),
                (lambda: site.begin("latest"), "begins at 'any', 'ancestor', 'parent' or a state: a state is written SITE.SEQUENCE"),
                (lambda: site.begin("1.0"), "both numbers of a state are 0"), (lambda: site.begin((1, 2)), "a state is a StateId or text"),
                (lambda: site.begin(tardis.StateId(70_000, 1)), "from 0 to 65,535"), (lambda: site.show("01.2"), "SITE.SEQUENCE"),
                (lambda: site.open(follow="yes"), "follow is True or False"), (lambda: site.tidy(65_536), "a whole number from 0 to 65,535"),
                (lambda: site.tidy("5"), "a whole number"), (lambda: site.commit(branches=0), "branches is a whole number from 1"),
                (lambda: site.commit(snapshot=1), "snapshot is True or False"), (lambda: site.pull([]), "a count for each of 1 to 16 sites"),
                (lambda: site.pull([-1]), "a count is a whole number"), (lambda: site.begin_merge(["1.1"] * 256), "at most 255 states"),
                (lambda: site.merge("last"), "can't be called"), (lambda: site.retry(print, attempts=0), "attempts is a whole number"),
                (lambda: tardis.connect("localhost"), "an address is unix:PATH or HOST:PORT"), (lambda: tardis.connect("h:70000"), "address"),
                (lambda: tardis.connect("::1:7000"), "address"), (lambda: tardis.connect("unix:"), "address"),
                (lambda: tardis.connect(7000), "address"), (lambda: tardis.connect("unix:/tmp/x", 0), "a timeout is a number of seconds")]:
            with self.assertRaisesRegex(ValueError, told):
                call()
        with self.assertRaises(ValueError):
            with site.transaction(branches=0):
                self.fail("nothing begins")
        self.assertTrue(site.is_connected)
        site.disconnect()
        self.is_over(site)

    def test_the_same_awaited(self):
        def slow(link):
            link.recv(1000)
            link.sendall(VALUE[:9])
            time.sleep(0.3)

        def cut(link):
            link.recv(1000)
            link.sendall(VALUE[:9])

        async def story(script, raised, timeout, cancel=False):
            server = Scripted(tempfile.mkdtemp(dir=self.folder), script)
            site = await tardis.aio.connect(server.address, timeout)
            asking = asyncio.ensure_future(site.get("a"))
            if cancel:
                await asyncio.sleep(0.05)
                asking.cancel()
            with self.assertRaises(raised):
                await asking
            self.assertFalse(site.is_connected)
            with self.assertRaisesRegex(tardis.Disconnected, "^this connection is closed, since"):
                await site.get("b")
            await site.disconnect()

        asyncio.run(story(slow, TimeoutError, 0.1))
        asyncio.run(story(cut, tardis.Disconnected, 5))
        asyncio.run(story(slow, asyncio.CancelledError, 5, cancel=True))


if __name__ == "__main__":
    unittest.main()
