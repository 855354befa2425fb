#!/usr/bin/env python3
"""Measures how fast `tardisd --peer` fetches: a site that has nothing yet, and a client of another that commits small records.

usage: bench/peers.py [--tardisd PROGRAM] [--file] [--every SECONDS] [--rate COMMITS] [RECORDS]

Two sites in a folder of their own, over Unix sockets: each fetches from the other and collects (--every 1 where nothing else is named,
--tidy), in memory or in files (--file). A client of site 1 commits so many transactions of one key and a value of 8 bytes (a million where no number
is named), many at once, and holds back while the site keeps more than 12,000 states: a site keeps at most 16,384, and a state goes once the
other site has promised that it has it. With --rate it commits so many a second instead. Site 2 has a client that only reads.

Lines tell how long it took until site 2 had all, records a second, how many bytes that are, how many states each site kept at most,
and how long a plain copy of as many bytes over a Unix socket took on the same machine."""

import argparse
import os
import socket
import struct
import subprocess
import sys
import tempfile
import threading
import time

HERE = os.path.dirname(os.path.abspath(__file__))
TOP = os.path.dirname(HERE)
sys.path[:0] = [os.path.join(TOP, "clients", "python")]

import tardis  # noqa: E402
from tardis import requests  # noqa: E402

SITES, BATCH, MOST_KEPT, KEYS = 2, 500, 12_000, 1_000
PATIENCE = 60


def started(program, folder, number, every, in_file):
    address = "unix:%s/site%d" % (folder, number)
    words = ["--sites", str(SITES), "--site", str(number), "--listen", address, "--peer", "unix:%s/site%d" % (folder, 3 - number)]
    words += ["--every", str(every), "--tidy"] + (["--file", "%s/log%d" % (folder, number)] if in_file else [])
    process = subprocess.Popen([program, *words], stdin=subprocess.DEVNULL, stdout=subprocess.DEVNULL, stderr=subprocess.PIPE)
    line = process.stderr.readline().decode()
    if " listens at " not in line:
        raise SystemExit("bench/peers.py: " + line)
    threading.Thread(target=process.stderr.read, daemon=True).start()
    return address, process


def transaction(number):
    """A transaction of one key, as frames."""
    asked = requests.begin("ancestor"), requests.put(b"key%d" % (number % KEYS), b"%08d" % (number % 10**8)), requests.commit(True, False, False, None)
    return b"".join(requests.frame(it.body) for it in asked)


class Writer:
    """A connection over which transactions are asked many at once."""

    def __init__(self, address):
        self.socket = socket.socket(socket.AF_UNIX)
        self.socket.settimeout(PATIENCE)
        self.socket.connect(address[5:])
        self.held = b""
        self.ask(requests.frame(requests.open_session(True).body), 1)

    def ask(self, frames, count):
        """Asks, and takes so many replies, none of which refuses."""
        sender = threading.Thread(target=self.socket.sendall, args=(frames,))
        sender.start()
        while count:
            place = 0
            while count and len(self.held) - place >= 5:
                length = struct.unpack_from(">I", self.held, place)[0]
                if len(self.held) - place < 4 + length:
                    break
                if self.held[place + 4] in (21, 22):
                    raise SystemExit("bench/peers.py: refused: " + self.held[place + 4 : place + 4 + length].hex())
                place, count = place + 4 + length, count - 1
            self.held = self.held[place:]
            if count:
                self.held += self.socket.recv(1 << 16)
        sender.join()


def copy_time(size):
    """How long so many bytes take over a Unix socket."""
    one, other = socket.socketpair()
    began, piece = time.perf_counter(), bytes(1 << 16)

    def send():
        for _ in range(size // len(piece)):
            one.sendall(piece)
        one.close()

    sender = threading.Thread(target=send)
    sender.start()
    while other.recv(1 << 16):
        pass
    sender.join()
    return time.perf_counter() - began


def may_go_on(made, began, rate, kept):
    """Whether more may be committed now."""
    return kept < MOST_KEPT and (rate == 0 or made < rate * (time.perf_counter() - began))


def measure(program, every, in_file, rate, records, folder):
    (address, source), (other, target) = (started(program, folder, number, every, in_file) for number in (1, 2))
    try:
        writer, here, there = Writer(address), tardis.connect(address, timeout=PATIENCE), tardis.connect(other, timeout=PATIENCE)
        reader = tardis.connect(other, timeout=PATIENCE)
        reader.open(follow=True)
        began, made, most = time.perf_counter(), 0, [0, 0]
        while made < records or there.stat().known < records + 1:
            kept = [here.stat().kept, there.stat().kept]
            most = [max(pair) for pair in zip(most, kept)]
            if made < records and may_go_on(made, began, rate, kept[0]):
                count = min(BATCH if rate == 0 else max(1, rate // 100), records - made)
                writer.ask(b"".join(transaction(made + it) for it in range(count)), 3 * count)
                made += count
            else:
                with reader.transaction() as read:
                    read.value(b"key1")
                time.sleep(0.005)
        took = time.perf_counter() - began
        with open("/proc/%d/status" % target.pid, encoding="ascii") as file:
            memory = next(int(line.split()[1]) // 1024 for line in file if line.startswith("VmHWM"))
        # (a record of one key, as a batch has it)
        size = records * 40
        print(
            "%d records in %.1f s, %.0f a second; kept at most %d and %d states; site 2 held %d MB; a plain copy of %d MB took %.3f s"
            % (records, took, records / took, most[0], most[1], memory, size >> 20, copy_time(size)))
    finally:
        for process in (source, target):
            process.kill()
            process.wait()


def main():
    words = argparse.ArgumentParser(description="see the text at the top of this file")
    words.add_argument("--tardisd", default=os.path.join(TOP, "crates", "tardisd", "out", "tardisd"))
    words.add_argument("--file", action="store_true")
    words.add_argument("--every", type=int, default=1)
    words.add_argument("--rate", type=int, default=0)
    words.add_argument("records", nargs="?", type=int, default=1_000_000)
    asked = words.parse_args()
    with tempfile.TemporaryDirectory(prefix="peers") as folder:
        measure(os.path.abspath(asked.tardisd), asked.every, asked.file, asked.rate, asked.records, folder)


if __name__ == "__main__":
    main()
