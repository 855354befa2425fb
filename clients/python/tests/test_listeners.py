"""What is let in where: a user comes through the listener for clients, and all that users do goes on there."""

import asyncio
import os
import pickle
import subprocess
import sys
import threading
import time
import unittest

from servers_here import CLIENT, PATIENCE, OfModel, OfTardisd, OverServers, tardis

import tardis.aio  # noqa: E402
from tardis import requests  # noqa: E402
from tardis.conversation import Answer, Conversation  # noqa: E402
from tardis.pictures import as_text  # noqa: E402
from tardis.web import Looker  # noqa: E402

StateId = tardis.StateId


class Listeners(OverServers):
    """A server that listens for all, for clients, and for other sites."""

    def serve_all(self):
        self.users, self.sites = ("unix:" + os.path.join(self.folder, name) for name in ("users", "sites"))
        self.words = ("--clients", self.users, "--peers", self.sites)
        self.serve()

    def grown(self):
        """Three leaves of which each added one, below states of which some were collected, and one that was left behind."""
        self.serve_all()
        own, user = self.connect(), self.connect(self.users)
        own.open(), user.open()
        for number in range(5):
            with user.transaction() as txn:
                txn.put("n", str(number)), txn.put("k%d" % number, "v")
        fork = txn.committed
        with own.transaction() as txn:
            txn.value("n")
        own.raise_floor(fork), own.tidy()
        own.close(), own.open(follow=False)
        user.close(), user.open(follow=False)
        for number in range(3):
            with user.transaction(at=fork) as txn:
                txn.put("n", str(int(txn.value("n")) + 1)), txn.put("text", "%d\n" % number)
        return own, user, fork

    def test_the_history_is_the_same_through_each(self):
        own, user, fork = self.grown()
        for site in (own, user):
            told = site.history()
            self.assertEqual([(state.id, state.parents) for state in told], [
                (fork, ()), *((StateId(1, number), (fork,)) for number in (6, 7, 8))])
            self.assertEqual((told.leaves, told.collected, told[fork].keys), (tuple(StateId(1, number) for number in (6, 7, 8)), 5, (b"k4", b"n")))
        self.assertEqual(as_text(user.history()), as_text(own.history()))
        # it is asked again: what came since, and what was collected since, is seen
        with user.transaction(at=StateId(1, 7)) as txn:
            txn.put("late", "1")
        self.assertEqual([state.id.sequence for state in user.history()], [5, 6, 7, 8, 9])
        self.assertEqual([state.id.sequence for state in user.history(txn.committed)], [5, 7, 9])
        user.close()
        own.ceiling(txn.committed), own.raise_floor(), own.tidy()
        history = user.history()
        self.assertEqual([(state.id.sequence, state.parents) for state in history], [
            (5, ()), (6, (fork,)), (8, (fork,)), (9, (fork,))])
        self.assertEqual((history.floors, history.diff(StateId(1, 6), StateId(1, 8))), (
            {1: txn.committed}, (tardis.Difference(b"text", b"0\n", b"2\n"),)))

    def test_a_long_history_of_many_leaves(self):
        """More leaves than a site lists, and a branch that takes more than one look."""
        self.serve_all()
        user = self.connect(self.users)
        user.open(follow=False)
        with user.pipeline() as line:
            for number in range(300):
                line.begin("parent"), line.put("x", str(number)), line.commit()
            for number in range(270):
                line.begin(StateId(1, 300)), line.get("x"), line.put("x", str(number)), line.commit()
        for number, site in enumerate((user, self.connect())):
            asked = []

            def counting(answers, exchange=site._exchange):
                asked.append(len(answers))
                exchange(answers)

            site._exchange = counting
            history = site.history()
            self.assertEqual([state.id.sequence for state in history], list(range(571 + number)))
            self.assertEqual(history[StateId(1, 300)].writes, (tardis.Write(b"x", b"299"),))
            self.assertLess(len(asked), 40)
            with user.transaction(at="any") as txn:
                txn.put("late", "1")
            del asked[:]
            self.assertEqual(len(site.history()), 572 + number)
            self.assertLess(sum(asked), 40)
        # where Pull is let in, it gives a long history in some answers
        self.assertIs(site._core._pulls, True)

    def test_what_users_do(self):
        own, user, fork = self.grown()
        # a merge that needs what several states have together, and one of more keys than a transaction writes
        merged = user.merge(tardis.by_prefix({"n": tardis.counter, "text": tardis.union_of_lines}))
        self.assertEqual(dict(user.items(merged.id).items)[b"n"], b"7")
        for side in ("a", "b"):
            at = merged.id
            for part in range(2):
                with user.transaction(at=at) as txn:
                    for number in range(50):
                        txn.put("w%d" % (50 * part + number), side)
                at = txn.committed
        wide = user.merge(tardis.last_writer)
        self.assertEqual((len(wide.keys), {value for _, value in user.scan(wide.id, "w")}), (100, {b"b"}))
        # what comes is seen
        seen = threading.Event()

        def write():
            while not seen.wait(0.02):
                with own.transaction(at="any") as txn:
                    txn.put("late", "1")

        writing = threading.Thread(target=write)
        writing.start()
        state = next(self.connect(self.users).watch(every=0.01))
        seen.set()
        writing.join()
        self.assertEqual(state.keys, (b"late",))

        async def awaited():
            async with await tardis.aio.connect(self.users, PATIENCE) as site:
                self.assertEqual(len(await site.history()), (await site.stat()).kept)

        asyncio.run(awaited())

    def test_the_page_and_the_command(self):
        own, user, fork = self.grown()
        looker = Looker(self.users)
        drawn = looker.history("")
        self.assertEqual([row[0] for row in drawn["rows"]], ["1.8", "1.7", "1.6", "1.5"])
        self.assertEqual(looker.state("1.6")["items"][-1], ["text", "0\n"])
        compared = looker.compare("1.6", "1.7")
        self.assertEqual(compared["conflicts"][0], {"key": "n", "known": True, "base": "4", "sides": ["5", "5"]})
        self.assertEqual(looker.merge("1.6", "1.7", [["n", "6"], ["text", "both"]]), {"id": "1.9"})
        self.assertEqual(looker.history(drawn["version"])["rows"][0][:1], ["1.9"])
        looker._site.disconnect()
        for words, status, begin in [
                (["graph", self.users], 0, "●"), (["keys", self.users, "--at", "1.9"], 0, "k0 = v"), (["show", self.users, "1.9"], 0, "state 1.9"),
                (["raise", self.users], 1, ""), (["tidy", self.users], 1, ""), (["sessions", self.users], 1, ""),
                (["raise", self.address, "1.5"], 0, "the floor stands at 1.5\n"), (["tidy", self.address], 0, "0 states collected\n")]:
            told = subprocess.run([sys.executable, "-m", "tardis", *words], cwd=CLIENT, stdout=subprocess.PIPE, stderr=subprocess.PIPE,
                                  env={**os.environ, "PYTHONIOENCODING": "utf-8"}, timeout=60)
            self.assertEqual(told.returncode, status, told.stderr)
            self.assertTrue(told.stdout.decode().startswith(begin), told.stdout)
            self.assertEqual(status, told.stderr.decode().count("--listen lets it in"))

    def test_what_is_refused_there(self):
        self.serve_all()
        user, peer = self.connect(self.users), self.connect(self.sites)
        for call in (user.raise_floor, lambda: user.raise_floor("0.0"), user.tidy, lambda: user.deliver(b"\x01"), user.settle, user.sessions):
            with self.assertRaisesRegex(tardis.Unsupported, "this listener is for clients, or for other sites: --listen lets it in"):
                call()
        with self.assertRaisesRegex(tardis.Unsupported, "'pull' was refused, since this listener is for clients: --listen or --peers lets it in"):
            user.pull([0])
        for call in (peer.open, peer.leaves, lambda: peer.get_at("x", "0.0"), peer.history):
            with self.assertRaisesRegex(tardis.Unsupported, "this listener is for other sites: --listen or --clients lets it in"):
                call()
        self.assertEqual((peer.pull([0]).records, peer.about().own, user.about().own), ((), 1, 1))


class Room(OverServers):
    """A server that has as many connections as it may."""

    def test_who_finds_no_place_is_told_so(self):
        self.words = ("--connections", "2")
        self.serve()
        held = [self.connect(), self.connect()]
        self.assertEqual([site.stat().known for site in held], [1, 1])
        for call in (lambda site: site.open(), lambda site: site.stat(), lambda site: site.begin(), lambda site: site.get_at("x", "0.0")):
            for pause in (0, 0.1):
                site = self.connect()
                time.sleep(pause)
                with self.assertRaisesRegex(tardis.TooManyConnections, "^the server has 2 connections, .*--connections") as caught:
                    call(site)
                self.assertEqual((caught.exception.connections, site.is_connected), (2, False))
                self.assertRaises(tardis.Disconnected, call, site)
        self.assertEqual(pickle.loads(pickle.dumps(caught.exception)).connections, 2)

        async def awaited():
            for call in (lambda site: site.open(), lambda site: site.stat()):
                for pause in (0, 0.1, -0.1):
                    async with await tardis.aio.connect(self.address, PATIENCE) as site:
                        # (below 0 nothing is read meanwhile, so that what is written then finds the connection ended)
                        time.sleep(-pause) if pause < 0 else await asyncio.sleep(pause)
                        with self.assertRaises(tardis.TooManyConnections):
                            await call(site)

        asyncio.run(awaited())
        told = subprocess.run([sys.executable, "-m", "tardis", "stat", self.address], cwd=CLIENT, stdout=subprocess.PIPE, stderr=subprocess.PIPE)
        self.assertEqual((told.returncode, told.stdout, told.stderr.decode().count("--connections")), (1, b"", 1))
        held[0].disconnect()
        for _ in range(50):
            try:
                self.assertEqual(self.connect().stat().known, 1)
                break
            except tardis.TooManyConnections:
                time.sleep(0.05)


class Turned(unittest.TestCase):
    def test_what_is_no_turning_away(self):
        """One that finds no session stays connected; and no connection that was taken is turned away."""
        full = b"\0\0\0\x04\x15\x04\1\0"
        conversation = Conversation(lambda request, reply: None)
        opening, asking = Answer(requests.open_session(True)), Answer(requests.stat())
        conversation.ask([opening])
        conversation.take(full)
        self.assertRaises(tardis.SessionsFull, opening.result)
        self.assertIsInstance(conversation.may_be_turned_away, tardis.TooManyConnections)
        conversation.ask([asking])
        conversation.take(b"\0\0\0\1\x16")
        self.assertRaises(tardis.NoMemory, asking.result)
        self.assertEqual((conversation.may_be_turned_away, type(conversation.ended())), (None, tardis.Disconnected))
        conversation.ask([Answer(requests.stat())])
        self.assertRaises(tardis.ProtocolError, conversation.take, b"\0\0\0\x06\x15\x1e\0\0\1\0")
        # in pieces, before anything was asked
        for spelled, count in (full, 256), (b"\0\0\0\x06\x15\x1e\0\0\x10\0", 4096):
            conversation = Conversation(lambda request, reply: None)
            for place in range(len(spelled) - 1):
                conversation.take(spelled[place:place + 1])
            with self.assertRaises(tardis.TooManyConnections) as caught:
                conversation.take(spelled[-1:])
            self.assertEqual(caught.exception.connections, count)
            self.assertRaises(tardis.ProtocolError, Conversation(lambda request, reply: None).take, spelled[:5] + b"\x05")


class ListenersOfTardisd(OfTardisd, Listeners):
    pass


class ListenersOfModel(OfModel, Listeners):
    pass


class RoomOfTardisd(OfTardisd, Room):
    pass


class RoomOfModel(OfModel, Room):
    pass


class RoomOfOldModel(OfModel, Room):
    """A server that says `sessionsfull` of connections, as of sessions."""

    def start(self, address):
        server = super().start(address)
        server.turned_away = b"\0\0\0\x04\x15\x04"
        return server


del Listeners, Room

if __name__ == "__main__":
    unittest.main()
