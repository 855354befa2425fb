#!/usr/bin/env python3
"""Links between servers on one machine that are slow, are cut, or work one way only: proxies for TCP and Unix sockets.

    with Links() as links:
        link = links.add("unix:/tmp/way", to="127.0.0.1:7001", delay=0.15)
        link.cut(); link.mend()
        links.follow([(0, link.cut), (20, link.mend)])

Each connection to the link's address is carried to the server behind it. A piece that goes THERE, from who called to that
server, or BACK is delayed by so many seconds, or by a time drawn between two such; pieces of one connection stay in order.

| Call | What it does | In the field |
|---|---|---|
| `cut` | all connections are ended at once, and each new one as it comes | a process that is gone, a firewall that resets |
| `hold(way)` | what goes this way waits, for as long as the link is held; the connections stand | packets lost one way, sent again once there is a way |
| `lose(way)` | what goes this way is gone for good; a connection of which something is gone stays as it is, half open, until one of its ends ends it | a peer that lost its connections without a word |
| `mend` | all of that is over. New connections work, and those that lost nothing | |

By hand, one link until Ctrl-C, cut after 20 seconds and mended after 60:

    tools/links.py 127.0.0.1:7101 127.0.0.1:7001 --there 0.15 --back 0.5 --at 20 cut --at 60 mend
"""

import argparse
import asyncio
import contextlib
import random
import threading
import time

THERE, BACK = "there", "back"
WAYS = (THERE, BACK)
PIECE = 65_536
#: no call of this module waits longer, in seconds
PATIENCE = 20


class Way:
    """One way of a link: how slow it is, and whether what goes there waits or is gone."""

    def __init__(self, delay):
        self.delay = delay
        self.is_lost = False
        self.is_open = asyncio.Event()
        self.is_open.set()

    def draw(self, random):
        return random.uniform(*self.delay) if isinstance(self.delay, tuple) else self.delay


class Link:
    """A link that listens at one address and carries to another. Its calls may come from any thread."""

    def __init__(self, links, at, to, delays):
        self.links, self.at, self.to = links, at, to
        self.ways = {name: Way(delay) for name, delay in zip(WAYS, delays)}
        self.is_cut, self.carried, self.ends = False, 0, set()

    # what is done to it

    def cut(self):
        self.links.do(self._cut)

    def hold(self, *ways):
        self.links.do(lambda: [self.ways[it].is_open.clear() for it in ways or WAYS])

    def lose(self, *ways):
        self.links.do(lambda: [setattr(self.ways[it], "is_lost", True) for it in ways or WAYS])

    def mend(self):
        self.links.do(self._mend)

    def slow(self, delay, *ways):
        """From now on what goes these ways takes so long."""
        self.links.do(lambda: [setattr(self.ways[it], "delay", delay) for it in ways or WAYS])

    def _cut(self):
        self.is_cut = True
        for writer in self.ends:
            writer.transport.abort()

    def _mend(self):
        self.is_cut = False
        for way in self.ways.values():
            way.is_lost = False
            way.is_open.set()

    # what it carries

    async def listen(self):
        self.server = await listening(self.at, lambda reader, writer: self.links.begin(self.carry(reader, writer)))

    async def carry(self, reader, writer):
        """Carries one connection both ways, until it is over."""
        ends, tasks = {writer}, []
        try:
            if self.is_cut:
                return
            other_reader, other_writer = await connected(self.to)
            ends.add(other_writer)
            self.ends |= ends
            for name, source, sink in (THERE, reader, other_writer), (BACK, other_reader, writer):
                pieces = asyncio.Queue()
                tasks += [self.links.begin(self.take(self.ways[name], source, pieces)), self.links.begin(self.hand_on(self.ways[name], pieces, sink))]
            await asyncio.gather(*tasks)
        except OSError:
            pass  # (one of the ends is gone)
        finally:
            for it in tasks:
                it.cancel()
            for it in ends:
                it.transport.abort()
            self.ends -= ends

    async def take(self, way, source, pieces):
        """Takes what comes, to be handed on at its time, and the end last."""
        piece = b"first"
        while piece:
            piece = await source.read(PIECE)
            pieces.put_nowait((time.monotonic() + way.draw(self.links.random), piece))

    async def hand_on(self, way, pieces, sink):
        """Hands on each piece at its time. Behind a piece that is gone nothing goes on, nor does the end."""
        piece, is_whole = b"first", True
        while piece or not is_whole:
            due, piece = await pieces.get()
            await asyncio.sleep(due - time.monotonic())
            await way.is_open.wait()
            is_whole = is_whole and not way.is_lost
            if is_whole and piece:
                sink.write(piece)
                self.carried += len(piece)
                await sink.drain()
        sink.write_eof()


class Links:
    """All links of a test, carried by one thread. At the end of the block they are gone."""

    def __init__(self, seed=1):
        self.random, self.loop, self.tasks = random.Random(seed), asyncio.new_event_loop(), set()
        self.thread = threading.Thread(target=self.loop.run_forever, daemon=True)

    def __enter__(self):
        self.thread.start()
        return self

    def __exit__(self, *_fault):
        async def end():
            for it in self.tasks:
                it.cancel()
            await asyncio.gather(*self.tasks, return_exceptions=True)

        asyncio.run_coroutine_threadsafe(end(), self.loop).result(PATIENCE)
        self.loop.call_soon_threadsafe(self.loop.stop)
        self.thread.join(PATIENCE)
        self.loop.close()

    def add(self, at, to, delay=0, back=None):
        """A link that listens at this address and carries to another. A delay is in seconds, or two between which each is drawn; it
        holds for both ways, unless that back is named too."""
        async def make():
            link = Link(self, at, to, (delay, delay if back is None else back))
            await link.listen()
            return link

        return asyncio.run_coroutine_threadsafe(make(), self.loop).result(PATIENCE)

    def begin(self, doing):
        """Begins to do this beside all else, and gives its task."""
        task = self.loop.create_task(doing)
        self.tasks.add(task)
        task.add_done_callback(self.tasks.discard)
        return task

    def do(self, call):
        """Calls it in the thread that carries, and waits until it was done."""
        if threading.current_thread() is self.thread:
            call()
            return

        async def calling():
            call()

        asyncio.run_coroutine_threadsafe(calling(), self.loop).result(PATIENCE)

    def follow(self, schedule):
        """Does each call so many seconds from now."""
        for seconds, call in schedule:
            self.loop.call_soon_threadsafe(self.loop.call_later, seconds, call)


def host_and_port(address):
    host, port = address.rsplit(":", 1)
    return host.strip("[]"), int(port)


async def listening(address, then):
    """A server that does this with each connection."""
    if address.startswith("unix:"):
        return await asyncio.start_unix_server(then, address[len("unix:"):])
    return await asyncio.start_server(then, *host_and_port(address))


async def connected(address):
    if address.startswith("unix:"):
        return await asyncio.open_unix_connection(address[len("unix:"):])
    return await asyncio.open_connection(*host_and_port(address))


def main():
    words = argparse.ArgumentParser(description=__doc__, formatter_class=argparse.RawDescriptionHelpFormatter)
    words.add_argument("at", help="where it listens: unix:PATH or HOST:PORT")
    words.add_argument("to", help="where it carries to")
    words.add_argument("--there", type=float, default=0, metavar="SECONDS")
    words.add_argument("--back", type=float, default=0, metavar="SECONDS")
    words.add_argument("--at", dest="schedule", nargs=2, action="append", default=[], metavar=("SECONDS", "WHAT"), help="WHAT is cut, hold, lose or mend")
    asked = words.parse_args()
    with Links() as links:
        link = links.add(asked.at, asked.to, asked.there, asked.back)
        calls = {"cut": link.cut, "hold": link.hold, "lose": link.lose, "mend": link.mend}
        links.follow([(float(seconds), calls[what]) for seconds, what in asked.schedule])
        with contextlib.suppress(KeyboardInterrupt):
            threading.Event().wait()


if __name__ == "__main__":
    main()
