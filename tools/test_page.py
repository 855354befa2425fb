#!/usr/bin/env python3
"""Looks at the page of `python -m tardis web` in a real browser: takes screenshots, clicks, merges, and compares what the site
then has. It needs Chromium (Debian: `apt-get install chromium`) and a built `tardisd`.

usage: tools/test_page.py [--tardisd PROGRAM] [--chromium PROGRAM] [--keep FOLDER] [--states N]

With --keep the screenshots stay in that folder. With --states it also measures a history of so many states (16,000 where
nothing is said): how long the page takes to show it, and to draw while it is scrolled.
"""

import argparse
import base64
import json
import os
import shutil
import socket
import struct
import subprocess
import sys
import tempfile
import time
import urllib.request

HERE = os.path.dirname(os.path.abspath(__file__))
TOP = os.path.dirname(HERE)
CLIENT = os.path.join(TOP, "clients", "python")
sys.path[:0] = [CLIENT]

import tardis  # noqa: E402
from servers import PATIENCE, first_line, free_port, stop  # noqa: E402


class Browser:
    """A page of a headless Chromium, driven over its debugging socket."""

    def __init__(self, program, folder, address):
        port = free_port()
        self.process = subprocess.Popen(
            [program, "--headless=new", "--no-sandbox", "--disable-gpu", "--hide-scrollbars", "--window-size=1280,800",
             "--remote-debugging-port=%d" % port, "--user-data-dir=" + folder, "about:blank"],
            stdin=subprocess.DEVNULL, stdout=subprocess.DEVNULL, stderr=subprocess.DEVNULL)
        self.link, self.number, self.held = self._connect(port), 0, b""
        self.ask("Page.enable")
        self.ask("Page.navigate", url=address)

    def _connect(self, port):
        end = time.monotonic() + 60
        while True:
            try:
                with urllib.request.urlopen("http://127.0.0.1:%d/json" % port, timeout=5) as told:
                    pages = [page for page in json.load(told) if page["type"] == "page"]
                path = pages[0]["webSocketDebuggerUrl"].split("/", 3)[3]
                break
            except (OSError, IndexError):
                if time.monotonic() > end:
                    raise
                time.sleep(0.2)
        link = socket.create_connection(("127.0.0.1", port), 60)
        key = base64.b64encode(os.urandom(16)).decode()
        link.sendall(("GET /%s HTTP/1.1\r\nHost: 127.0.0.1:%d\r\nUpgrade: websocket\r\nConnection: Upgrade\r\nSec-WebSocket-Key: %s\r\n"
                      "Sec-WebSocket-Version: 13\r\n\r\n" % (path, port, key)).encode())
        head = b""
        while not head.endswith(b"\r\n\r\n"):
            head += link.recv(1)
        assert b" 101 " in head, head
        return link

    def _take(self, count):
        while len(self.held) < count:
            more = self.link.recv(1 << 16)
            assert more, "the browser ended"
            self.held += more
        taken, self.held = self.held[:count], self.held[count:]
        return taken

    def _message(self):
        data = b""
        while True:
            first, length = self._take(2)
            length &= 127
            if length > 125:
                length = int.from_bytes(self._take(2 if length == 126 else 8), "big")
            data += self._take(length)
            if first & 128:
                return data if first & 15 == 1 else b"{}"

    def ask(self, method, **words):
        self.number += 1
        data = json.dumps({"id": self.number, "method": method, "params": words}).encode()
        head = b"\x81" + (bytes([128 | len(data)]) if len(data) < 126 else bytes([254]) + struct.pack(">H", len(data))) + b"\0\0\0\0"
        self.link.sendall(head + data)
        while True:
            told = json.loads(self._message())
            if told.get("id") == self.number:
                assert "error" not in told, told
                return told["result"]

    def run(self, script):
        """What a script gives."""
        told = self.ask("Runtime.evaluate", expression=script, returnByValue=True, awaitPromise=True)
        assert "exceptionDetails" not in told, told
        return told["result"].get("value")

    def wait(self, script):
        """Waits until a script gives something true."""
        end = time.monotonic() + 60
        while not self.run(script):
            assert time.monotonic() < end, "this never came: %s; the page says %r" % (script, self.run("document.body.innerText"))
            time.sleep(0.1)

    def click(self, script):
        """Clicks with the mouse at the middle of an element."""
        box = self.run("(() => { const e = %s; e.scrollIntoView({block: 'nearest'}); const b = e.getBoundingClientRect(); "
                       "return [b.x + Math.min(b.width, 400) / 2, b.y + b.height / 2]; })()" % script)
        for kind in "mousePressed", "mouseReleased":
            self.ask("Input.dispatchMouseEvent", type=kind, x=box[0], y=box[1], button="left", clickCount=1)

    def type(self, text):
        self.ask("Input.insertText", text=text)

    def screenshot(self, path):
        with open(path, "wb") as file:
            file.write(base64.b64decode(self.ask("Page.captureScreenshot", format="png")["data"]))

    def close(self):
        self.link.close()
        stop(self.process)


def grow(address):
    """A cart and a document that fork."""
    with tardis.connect(address, PATIENCE) as phone, tardis.connect(address, PATIENCE) as laptop:
        phone.open(), laptop.open()
        with phone.transaction() as txn:
            txn.put("cart", "tea"), txn.put("note", "Shopping\n- tea\n")
        for number in range(3):
            with phone.transaction() as txn:
                txn.put("phone/%d" % number, "seen")
        with phone.transaction() as txn:
            txn.put("cart", txn.value("cart") + b",milk"), txn.put("note", "Shopping\n- tea\n- milk\n")
        with laptop.transaction(at="1.1") as txn:
            txn.put("cart", txn.value("cart") + b",jam"), txn.put("laptop", "here")
        return laptop.leaves().first


def story(browser, address, folder):
    milk, jam = map(str, grow(address))
    browser.wait("document.querySelectorAll('#drawn .row').length === 7")
    browser.screenshot(os.path.join(folder, "page-history.png"))
    browser.click("document.querySelector('[data-id=\"%s\"]')" % milk)
    browser.wait("document.querySelector('#state').innerText.includes('tea,milk')")
    for leaf in (milk, jam):
        browser.click("document.querySelector('input[value=\"%s\"]')" % leaf)
    browser.click("document.getElementById('compare')")
    browser.wait("document.querySelectorAll('.conflict').length === 1")
    said = browser.run("document.querySelector('.conflict').innerText")
    assert "tea,jam" in said and "tea,milk" in said, said
    # the last column is the laptop's side; the person then edits what it gave
    browser.click("document.querySelectorAll('.conflict .side button')[2]")
    assert browser.run("document.querySelector('.conflict textarea').value") == "tea,jam"
    browser.run("document.querySelector('.conflict textarea').focus(), document.querySelector('.conflict textarea').setSelectionRange(7, 7)")
    browser.type(",milk")
    browser.screenshot(os.path.join(folder, "page-merge.png"))
    browser.click("document.getElementById('join')")
    browser.wait("document.getElementById('merged') !== null")
    with tardis.connect(address, PATIENCE) as site:
        leaves = site.leaves()
        assert leaves.total == 1, leaves
        items = dict(site.items(leaves.first[0]).items)
        assert items[b"cart"] == b"tea,jam,milk" and items[b"note"].endswith(b"milk\n") and items[b"laptop"] == b"here", items
        assert site.stat().sessions == 0
    browser.wait("document.querySelectorAll('#drawn .row').length === 8 && document.querySelector('#state').innerText.includes('tea,jam,milk')")
    browser.screenshot(os.path.join(folder, "page-merged.png"))
    # what another client writes comes by itself
    with tardis.connect(address, PATIENCE) as site:
        site.open()
        with site.transaction(at="any") as txn:
            txn.put("late", "news")
    browser.wait("document.querySelector('#drawn').textContent.includes('late=news')")


def measure(browser, address, states):
    """A long history: chains, forks, and many leaves beside each other."""
    with tardis.connect(address, PATIENCE) as site:
        site.open(follow=False)
        left = states - site.stat().kept
        while left > 0:
            with site.pipeline() as line:
                for number in range(min(left, 1000)):
                    line.begin("1.%d" % (1 + number % 40) if number % 16 == 0 else "parent")
                    line.put("key %d" % (number % 50), "value %d" % number), line.commit()
            line.results()
            left -= 1000
    began = time.monotonic()
    browser.wait("seen.rows.length >= %d" % states)
    came = time.monotonic() - began
    told = browser.run("""(async () => {
        const times = [], scroll = document.getElementById("scroll");
        for (let place = 0; place < 50; place++) {
            scroll.scrollTop = scroll.scrollHeight * place / 50;
            const began = performance.now();
            draw();
            times.push(performance.now() - began);
        }
        return [Math.max(...times), document.querySelectorAll("#drawn *").length];
    })()""")
    print("%d states: shown after %.1f s, a drawing takes %.1f ms at most, and has %d elements" % (states, came, told[0], told[1]))
    assert told[1] < 2000, "it draws more than is in view"


def main():
    words = argparse.ArgumentParser(description=__doc__, formatter_class=argparse.RawDescriptionHelpFormatter)
    words.add_argument("--tardisd", default=os.path.join(TOP, "crates", "tardisd", "out", "tardisd"))
    words.add_argument("--chromium", default=shutil.which("chromium") or "chromium")
    words.add_argument("--keep")
    words.add_argument("--states", type=int, default=16_000)
    words = words.parse_args()
    folder = tempfile.mkdtemp()
    keep = words.keep or folder
    os.makedirs(keep, exist_ok=True)
    started = []
    try:
        address = "unix:" + os.path.join(folder, "site")
        model = [sys.executable, os.path.join(CLIENT, "tests", "model.py"), address[len("unix:"):]]
        daemon = subprocess.Popen(model if words.tardisd == "model" else [words.tardisd, "--listen", address],
                                  stdin=subprocess.DEVNULL, stderr=subprocess.PIPE)
        started.append(daemon)
        first_line(daemon)
        web = subprocess.Popen([sys.executable, "-m", "tardis", "web", address, "--port", "0"], cwd=CLIENT,
                               stdin=subprocess.DEVNULL, stdout=subprocess.PIPE)
        started.append(web)
        page = web.stdout.readline().decode().split()[0]
        browser = Browser(words.chromium, os.path.join(folder, "browser"), page)
        try:
            story(browser, address, keep)
            measure(browser, address, words.states)
            browser.screenshot(os.path.join(keep, "page-long.png"))
        finally:
            browser.close()
        print("the page shows, compares and merges")
    finally:
        for process in reversed(started):
            stop(process)
        shutil.rmtree(folder, ignore_errors=True)


if __name__ == "__main__":
    main()
