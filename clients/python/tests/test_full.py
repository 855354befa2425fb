"""A site that has no room for a commit: the client's transaction ends, and its session goes on further down, so that what is to be
collected isn't held by those who only try again."""

import asyncio
import time
import unittest

from servers_here import PATIENCE, TARDISD, OfModel, OfTardisd, OverServers, Process, is_built, tardis

import tardis.aio  # noqa: E402


def by_block(site):
    with site.transaction() as txn:
        txn.put("n", "1")


def by_hand(site):
    site.begin(), site.put("n", "1")
    site.commit()


def by_pipeline(site):
    with site.pipeline() as line:
        line.begin(), line.put("n", "1"), line.commit(), line.leaves()
    line.results()


WAYS = (by_block, by_hand, by_pipeline)


class Room(OverServers):
    """Six states are kept at most, the root among them, and nothing is collected by itself."""

    def full(self, follow=True):
        """A client that committed once and then waits, and one that filled the site."""
        self.serve()
        slow, fast = self.connect(), self.connect()
        slow.open(follow), fast.open()
        by_block(slow)
        for _ in range(4):
            by_block(fast)
        return slow, fast

    def collected(self, site):
        site.raise_floor()
        return site.tidy()

    def test_the_next_try_begins_further_down(self):
        for way in WAYS:
            with self.subTest(way=way.__name__):
                slow, fast = self.full()
                for site in (fast, slow):
                    with self.assertRaises(tardis.Full) as refused:
                        way(site)
                    self.assertEqual(refused.exception.kept, 6)
                    with self.assertRaises(tardis.NoTxn):
                        site.abort()
                self.assertEqual(self.collected(fast), 5)
                way(slow), way(fast)
                self.server.stop()

    def test_a_merge_gives_way_too(self):
        self.serve()
        one, other = self.connect(), self.connect()
        one.open(), other.open()
        by_block(one)
        one.begin(), other.begin()
        one.put("n", "1"), other.put("n", "2")
        one.commit(), other.commit()
        by_block(other), by_block(other)
        with self.assertRaises(tardis.Full):
            one.merge(tardis.last_writer)
        with self.assertRaises(tardis.NoTxn):
            one.abort()

    def test_who_does_not_follow_stays(self):
        slow, fast = self.full(follow=False)
        for way in WAYS:
            with self.assertRaises(tardis.Full):
                way(slow)
            with self.assertRaises(tardis.NoTxn):
                slow.abort()
        self.assertEqual(self.collected(fast), 0)
        self.assertEqual(slow.begin(tardis.ROOT), tardis.ROOT)

    def test_a_pipeline_that_goes_on_keeps_its_transaction(self):
        slow, _ = self.full()
        with slow.pipeline() as line:
            line.begin(), line.put("n", "1"), line.commit(), line.abort(), line.begin("any"), line.put("n", "2")
        self.assertIsInstance(line.answers[2].error, tardis.Full)
        self.assertEqual(slow.value("n"), b"2")
        slow.abort()

    def test_asyncio_does_so_too(self):
        slow, _ = self.full()
        slow.close()

        async def by_block(site):
            async with site.transaction() as txn:
                await txn.put("n", "1")

        async def by_hand(site):
            await site.begin(), await site.put("n", "1")
            await site.commit()

        async def by_pipeline(site):
            async with site.pipeline() as line:
                line.begin(), line.put("n", "1"), line.commit()
            line.results()

        async def go():
            async with await tardis.aio.connect(self.address, PATIENCE) as site:
                for way in (by_block, by_hand, by_pipeline):
                    await site.open()
                    with self.assertRaises(tardis.Full):
                        await way(site)
                    with self.assertRaises(tardis.NoTxn):
                        await site.abort()
                    self.assertEqual((await site.sessions()).floor, tardis.StateId(1, 5))
                    await site.close()

        asyncio.run(go())


class OverTardisd(OfTardisd, Room):
    words = ("--states", "6")


class OverModel(OfModel, Room):
    words = ("--states", "6")


class OfTwoSites(OverServers):
    """Two servers that collect by themselves, whose clients do nothing but try again where a commit is refused."""

    def start(self, address):
        if not is_built(TARDISD):
            raise unittest.SkipTest("tardisd isn't built")
        there = "unix:" + self.folder + "/other"
        words = [TARDISD, "--sites", "2", "--states", "24", "--every", "1", "--rules", "n=last"]
        other = Process([*words, "--site", "2", "--listen", there, "--peer", address])
        self.addCleanup(other.stop)
        return Process([*words, "--site", "1", "--listen", address, "--peer", there])

    def test_who_only_tries_again_gets_through(self):
        self.serve()
        clients = [self.connect() for _ in range(3)]
        for client in clients:
            client.open()
        by_block(clients[0])
        made, refused = [0, 0, 0], [0, 0, 0]
        end = time.monotonic() + 3 * PATIENCE
        while min(made) < 12:
            self.assertLess(time.monotonic(), end, (made, refused))
            for place, client in enumerate(clients):
                # each commits some in a row, and meanwhile the others' ceilings stay
                try:
                    for _ in range(4):
                        by_block(client)
                        made[place] += 1
                except tardis.Full:
                    refused[place] += 1
                    time.sleep(0.1)
        self.assertGreater(sum(refused), 0)


del Room

if __name__ == "__main__":
    unittest.main()
