"""The client against each server: what its calls give, what they refuse, and what becomes of a server that is killed."""

import asyncio
import inspect
import pickle
import threading
import unittest

from servers_here import PATIENCE, OfModel, OfOldModel, OfServe, OfTardisd, OverServers, free_port, tardis

import tardis.aio  # noqa: E402

StateId = tardis.StateId


class Calls(OverServers):
    """What a client does, on any server."""

    def two(self):
        self.serve()
        one, other = self.connect(), self.connect()
        one.open(follow=False), other.open(follow=False)
        return one, other

    def test_two_clients_fork_and_merge(self):
        phone, laptop = self.two()
        with phone.transaction() as txn:
            txn.put("cart", "tea")
        first = txn.committed
        self.assertEqual((first, txn.forked, txn.beside, txn.parents), (StateId(1, 1), False, (), (tardis.ROOT,)))
        laptop.begin()
        self.assertEqual(laptop.get("cart"), tardis.Value(first, b"tea"))
        with phone.transaction() as txn:
            txn.put("cart", txn.value("cart") + b",milk")
        milk = txn.committed
        laptop.put("cart", "tea,jam")
        laptop.put("only", "here")
        jam = laptop.commit()
        self.assertEqual(jam.parents, (first,))
        self.assertEqual(phone.leaves(), tardis.States(2, (milk, jam.id)))
        asked = []

        def resolve(key, base, sides):
            asked.append((key, base, dict(sides)))
            return tardis.union_of(",")(key, base, sides)

        merged = phone.merge(resolve)
        self.assertEqual(asked, [(b"cart", b"tea", {milk: b"tea,milk", jam.id: b"tea,jam"})])
        self.assertEqual(merged, tardis.Merged(StateId(1, 4), (tardis.MergeStep(StateId(1, 4), (milk, jam.id), (b"cart",)),)))
        with laptop.transaction() as txn:
            self.assertEqual(txn.value("cart"), b"jam,milk,tea")
            self.assertEqual(txn.get("nothing"), tardis.Absent())
            self.assertIsNone(txn.value("nothing"))
        self.assertIsNone(txn.committed)
        self.assertIsNone(phone.merge(resolve))
        self.assertEqual(len(asked), 1)

    def test_blind_writes_fork_unless_told_otherwise(self):
        one, other = self.two()
        for site in (one, other):
            site.begin()
        one.put("x", "1"), other.put("x", "2")
        one.commit()
        self.assertEqual(other.commit(snapshot=False).parents, (StateId(1, 1),))
        with self.assertRaises(ZeroDivisionError):
            with one.transaction() as txn:
                txn.put("x", "gone")
                1 / 0
        one.begin(), other.begin()
        one.put("x", "3"), other.put("x", "4")
        self.assertEqual(one.commit().parents, other.commit().parents)
        with one.transaction(at="1.2") as txn:
            txn.put("x", "5")
        self.assertTrue(txn.forked)
        self.assertEqual(txn.beside, (StateId(1, 3), StateId(1, 4)))
        with one.transaction(at="1.2") as txn:
            txn.put("y", "6")
        # it read nothing and wrote another key, so it stands below the first child
        self.assertEqual((txn.forked, txn.parents), (False, (StateId(1, 3),)))

    def test_refusals_are_classes_and_say_what_to_do(self):
        self.serve()
        site = self.connect()
        with self.assertRaises(tardis.NotOpen) as caught:
            site.begin()
        self.assertEqual(str(caught.exception), "notopen: call open() first")
        site.open()
        for refusal, call in [(tardis.AlreadyOpen, site.open), (tardis.NoTxn, site.commit), (tardis.NoTxn, lambda: site.get("x"))]:
            self.assertRaises(refusal, call)
        with self.assertRaises(tardis.Unknown) as caught:
            site.begin("1.7")
        self.assertEqual(caught.exception.state, StateId(1, 7))
        again = pickle.loads(pickle.dumps(caught.exception))
        self.assertEqual((type(again), again.state, str(again)), (tardis.Unknown, StateId(1, 7), str(caught.exception)))
        site.begin()
        for number in range(64):
            site.put("key %d" % number, "v")
        with self.assertRaises(tardis.TooMany) as caught:
            site.put("one more", "v")
        self.assertTrue(str(caught.exception).startswith("toomany: more than 64 writes in a transaction"))
        self.assertRaises(tardis.WrongMode, site.fork_points)
        self.assertRaises(tardis.Malformed, site.ask, b"\xff")
        self.assertEqual(site.commit().id, StateId(1, 1))

    def test_retry_runs_the_block_again(self):
        one, other = self.two()
        runs = []

        def add(txn):
            runs.append(txn.begun)
            count = int(txn.value("n") or b"0")
            if len(runs) == 1:
                with other.transaction() as between:
                    between.put("n", str(int(between.value("n") or b"0") + 10))
            txn.put("n", str(count + 1))
            return count + 1

        self.assertEqual(one.retry(add), 11)
        self.assertEqual(runs, [tardis.ROOT, StateId(1, 1)])
        self.assertEqual((one.last.forked, one.leaves().total), (False, 1))
        one.begin(), other.begin()
        one.put("n", "0"), other.put("n", "1"), one.commit()
        with self.assertRaises(tardis.NoBranch):
            other.commit(no_branch=True)
        with self.assertRaises(tardis.Branches) as caught:
            other.commit(branches=1)
        self.assertEqual(caught.exception.fields, ("at most k branches", StateId(1, 2), 1))
        self.assertEqual(other.commit(branches=2).parents, (StateId(1, 2),))

    def test_readers_that_follow_move_their_ceilings(self):
        """And every session follows that isn't told otherwise."""
        self.serve()
        writer, reader = self.connect(), self.connect()
        writer.open(), reader.open()
        for number in range(5):
            with writer.transaction() as txn:
                txn.put("x", str(number))
        self.assertEqual(writer.raise_floor().floor, tardis.ROOT)
        with reader.transaction() as read:
            self.assertEqual(read.value("x"), b"4")
        self.assertEqual(writer.raise_floor(), tardis.Raised(txn.committed, 2))
        self.assertEqual(writer.tidy(), 5)
        history = writer.history()
        self.assertEqual([state.id for state in history], [txn.committed])
        self.assertEqual((history.collected, history.is_complete, history.ceiling), (5, False, txn.committed))
        self.assertRaises(tardis.Collected, writer.show, "1.1")
        self.assertRaises(tardis.Below, reader.begin, "1.2")

    def test_merges_of_many_leaves_and_keys(self):
        one, other = self.two()
        with one.transaction() as txn:
            txn.put("n", "10"), txn.put("doc", "a\nb\nc\n"), txn.put("gone", "x")
        start = txn.committed
        # twelve leaves, each of which adds one, changes a line, and deletes or keeps one key
        for number in range(12):
            with one.transaction(at=start) as txn:
                txn.put("n", str(int(txn.value("n")) + 1))
                txn.put("doc", "a\nb%d\nc\n" % number if number == 3 else "a\nb\nc\nd%d\n" % number if number == 7 else "a\nb\nc\n")
                txn.delete("gone")
        self.assertEqual(one.leaves().total, 12)

        def never(key, base, sides):
            raise AssertionError("the sides are equal, or the key is another's")

        merged = other.merge(tardis.by_prefix({"n": tardis.counter, "doc": tardis.three_way_text, "gone": never}))
        self.assertEqual(other.leaves(), tardis.States(1, (merged.id,)))
        with other.transaction(at=merged.id) as txn:
            self.assertEqual([txn.value(key) for key in ("n", "doc", "gone")], [b"22", b"a\nb3\nc\nd7\n", None])
        # two branches that disagree on 150 keys, of which one transaction can write 64
        for side, site in enumerate((one, other)):
            at = merged.id
            for part in range(3):
                with site.transaction(at=at) as txn:
                    for number in range(50):
                        txn.put("wide %d" % (part * 50 + number), "side %d" % side)
                at = txn.committed
        wide = one.merge(tardis.last_writer)
        self.assertEqual((len(wide.keys), one.leaves().first), (150, (wide.id,)))
        self.assertGreater(len(wide.steps), 2)
        self.assertEqual({value for _, value in one.items(wide.id, "wide ").items}, {b"side 1"})

    def test_branches_that_were_merged_twice_have_a_base(self):
        one, other = self.two()
        with one.transaction() as txn:
            txn.put("n", "10"), txn.put("doc", "a\nb\nc")
        sides = []
        for site, n, doc in ((one, "11", "a\nc"), (other, "12", "a\nb\nc\nd")):
            with site.transaction(at=txn.committed) as side:
                side.get("n"), side.put("n", n), side.put("doc", doc)
            sides.append(side.committed)
        # both merge the same leaves: two states, each below both leaves
        resolve = tardis.by_prefix({"n": tardis.counter, "doc": tardis.three_way_text})
        both = [one.merge(resolve, sides).id, other.merge(resolve, sides).id]
        for site, n, at in ((one, 1, both[0]), (other, 2, both[1])):
            with site.transaction(at=at) as txn:
                self.assertEqual(txn.value("n"), b"13")
                txn.put("n", str(13 + n)), txn.put("doc", txn.value("doc") + b"\n%d" % n)
        told = one.compare(*one.leaves().first)
        self.assertEqual((told.fork_points, {conflict.base for conflict in told.conflicts}), (tuple(sides), {tardis.UNKNOWN}))
        merged = one.merge(resolve)
        self.assertEqual(dict(one.items(merged.id).items), {b"n": b"16", b"doc": b"a\nc\nd\n1\n2"})

    def test_a_base_at_the_floor_is_read_by_another_session(self):
        self.serve()
        one, other = self.connect(), self.connect()
        one.open(), other.open()
        with one.transaction() as txn:
            txn.put("n", "1")
        for _ in range(2):
            with one.transaction() as txn:
                txn.put("n", str(int(txn.value("n")) + 1))
        one.begin(), other.begin()
        for site in (one, other):
            site.put("n", str(int(site.value("n")) + 1)), site.commit()
        # both ceilings stand below the fork now; nobody may read there but who comes anew, and no record of it is told
        self.assertEqual((one.raise_floor().floor, one.tidy()), (txn.committed, 3))
        self.assertRaises(tardis.Below, one.begin, txn.committed)
        merged = one.merge(tardis.counter)
        self.assertEqual(dict(one.items(merged.id).items), {b"n": b"5"})
        self.assertEqual(one.stat().kept, 4)

        async def awaited():
            async with await tardis.aio.connect(self.address, PATIENCE) as third:
                await third.open()
                for site in (one, other):
                    site.begin()
                for site in (one, other):
                    site.put("n", str(int(site.value("n")) + 1)), site.commit()
                await third.ceiling(one.leaves().first[0])
                self.assertEqual(one.raise_floor().floor, merged.id)
                again = await third.merge(tardis.counter)
                self.assertEqual((await third.items(again.id)).items, ((b"n", b"7"),))

        asyncio.run(awaited())

    def test_a_history_of_which_states_were_collected(self):
        self.serve()
        site, viewer = self.connect(), self.connect()
        site.open()
        for number in range(5):
            with site.transaction() as txn:
                txn.put("x", str(number))
        fork = txn.committed
        with self.connect() as other:
            other.open(follow=False)
            with other.transaction(at=fork) as txn:
                txn.get("x"), txn.put("x", "beside")
        at = fork
        for number in range(5):
            with site.transaction(at=at) as txn:
                txn.get("x"), txn.put("x", "again %d" % number)
            at = txn.committed
        while site.stat().sessions > 1:
            pass
        self.assertEqual(site.raise_floor().floor, txn.committed)
        site.tidy()
        leaf = StateId(1, 6)
        history = viewer.history()
        states = [(fork, ()), (leaf, (fork,)), (txn.committed, (fork,))]
        self.assertEqual(sorted((state.id, state.parents) for state in history), states)
        if self.answers_questions:
            # and in order of arrival, also the one that no Pull gives
            self.assertEqual([state.id for state in history], [id for id, _ in states])
        # what a state wrote whose record was never given is told to a question alone, and so are keys of collected states
        writes = (tardis.Write(b"x", b"4"),) if self.answers_questions else None
        self.assertEqual((history[fork].writes, history[leaf].keys, len(history)), (writes, (b"x",), site.stat().kept))
        self.assertEqual([state.id for state in viewer.history(leaf)], [fork, leaf])
        self.assertTrue(history.is_above(fork, leaf) and not history.is_above(txn.committed, leaf))
        self.assertEqual(viewer.items(leaf), tardis.Items(((b"x", b"beside"),), self.answers_questions))

    def test_a_merge_that_cannot_be_resolved_changes_nothing(self):
        one, other = self.two()
        one.begin(), other.begin()
        one.put("price", "20"), other.put("price", "25")
        one.commit(), other.commit()

        def refuse(key, base, sides):
            raise tardis.Unresolved(key, "nobody may choose a price")

        with self.assertRaises(tardis.Unresolved):
            one.merge(refuse)
        self.assertEqual(one.stat().known, 3)
        one.begin()
        self.assertRaises(tardis.TxnOpen, one.merge, refuse)
        self.assertEqual(one.get("price"), tardis.Value(StateId(1, 1), b"20"))
        one.abort()
        # a side that deleted the key has no value, and a resolver may delete it too
        self.assertEqual(one.merge(lambda key, base, sides: None).id, StateId(1, 3))
        other.begin("1.3")
        self.assertEqual(other.get("price"), tardis.Deleted(StateId(1, 3)))

    def test_history_items_and_differences(self):
        one, other = self.two()
        with one.transaction() as txn:
            txn.put("a/1", "x"), txn.put("a/2", "y"), txn.put("b", "z")
        one.begin(), other.begin()
        one.put("a/1", "one"), other.put("a/1", "other"), other.delete("a/2")
        left, right = one.commit().id, other.commit().id
        history = one.history()
        self.assertEqual([state.id for state in history], [tardis.ROOT, StateId(1, 1), left, right])
        self.assertEqual(history[right].writes, (tardis.Write(b"a/1", b"other"), tardis.Write(b"a/2", None)))
        self.assertEqual((history.leaves, history.fork_points(left, right)), ((left, right), (StateId(1, 1),)))
        self.assertTrue(history.is_above(StateId(1, 1), left) and not history.is_above(left, right))
        self.assertEqual(other.items(right, "a/"), tardis.Items(((b"a/1", b"other"),), True))
        self.assertEqual(other.keys(str(left)), (b"a/1", b"a/2", b"b"))
        self.assertEqual(one.diff(left, right), (
            tardis.Difference(b"a/1", b"one", b"other"), tardis.Difference(b"a/2", b"y", None)))
        self.assertRaises(tardis.Unknown, one.items, "1.9")
        # it tells what comes from its first look on, so there is news until it has told some
        seen = threading.Event()

        def write():
            while not seen.wait(0.05):
                with other.transaction(at="any") as txn:
                    txn.put("late", "1")

        writing = threading.Thread(target=write)
        writing.start()
        state = next(one.watch(every=0.01))
        seen.set()
        writing.join()
        self.assertEqual((state.writes, len(state.parents)), ((tardis.Write(b"late", b"1"),), 1))

    def test_a_hundred_thousand_puts_in_one_pipeline(self):
        self.serve()
        site = self.connect()
        with site.pipeline() as line:
            early = line.get("x")
            line.open(), line.begin()
            for number in range(100_000):
                line.put("key %d" % (number % 64), "value %d" % number)
            late = line.put("one more", "v")
            line.get("key 3")
            made = line.commit()
        self.assertEqual(len(line.answers), 100_006)
        self.assertEqual([answer for answer in line.refused], [early, late])
        self.assertRaises(tardis.NotOpen, early.result)
        self.assertRaises(tardis.TooMany, late.result)
        self.assertEqual(line.answers[-2].result(), tardis.Value(tardis.ROOT, b"value 99971"))
        self.assertEqual(made.result().id, StateId(1, 1))
        with site.pipeline() as line:
            line.begin()
            reads = [line.get("key %d" % number) for number in range(64)] * 100
        self.assertEqual(reads[63].result(), tardis.Value(StateId(1, 1), b"value 99967"))

    def test_a_server_that_is_killed_in_mid_pipeline(self):
        self.serve()
        site = self.connect()
        site.open()
        timer = threading.Timer(0.05, self.server.stop)
        timer.start()
        with self.assertRaises(tardis.Disconnected):
            while True:
                with site.pipeline() as line:
                    line.begin()
                    for number in range(20_000):
                        line.put("x", str(number)), line.get("x")
                    line.abort()
        timer.join()
        # each answer is its own, or says that it never came
        answered = 0
        for number in range(20_000):
            read = line.answers[2 + 2 * number]
            if read.error is None:
                self.assertEqual(read.result(), tardis.Value(tardis.ROOT, str(number).encode()))
                answered += 1
            else:
                self.assertIsInstance(read.error, tardis.Disconnected)
        self.assertFalse(site.is_connected)
        for _ in range(2):
            with self.assertRaisesRegex(tardis.Disconnected, "this connection is closed, since .* connect anew"):
                site.get("x")

    def test_threads_take_turns(self):
        self.serve()
        site = self.connect()
        site.open()
        with site.transaction() as txn:
            for number in range(60):
                txn.put("key %d" % number, "%d" % number)
        site.begin()
        wrong = []

        def read(first):
            for number in range(300):
                key = (first + number) % 60
                if site.value("key %d" % key) != b"%d" % key:
                    wrong.append(key)

        threads = [threading.Thread(target=read, args=(first,)) for first in range(4)]
        for thread in threads:
            thread.start()
        for thread in threads:
            thread.join()
        self.assertEqual(wrong, [])
        site.abort()

        def add():
            for _ in range(20):
                with site.transaction() as txn:
                    txn.put("sum", str(int(txn.value("sum") or b"0") + 1))

        threads = [threading.Thread(target=add) for _ in range(4)]
        for thread in threads:
            thread.start()
        for thread in threads:
            thread.join()
        with site.transaction() as txn:
            self.assertEqual(txn.value("sum"), b"80")
        self.assertEqual(site.leaves().total, 1)

    def test_over_tcp(self):
        self.serve("127.0.0.1:%d" % free_port())
        site = self.connect()
        site.open()
        with site.transaction() as txn:
            txn.put(b"\x00\xff", b"")
        self.assertEqual(site.items(txn.committed).items, ((b"\x00\xff", b""),))
        batch = site.pull([0])
        self.assertEqual((len(batch.items), batch.records[0].id), (1, txn.committed))
        self.assertEqual(site.deliver(batch.items[0]), tardis.Known())
        self.assertEqual(site.settle(), tardis.Done())
        self.assertRaises(tardis.OwnItem, site.deliver, batch.items[0].replace(b"\x00\x00\x00\x01", b"\x00\x00\x00\x02", 1))

    def test_the_same_calls_awaited(self):
        self.serve()

        async def story():
            async with await tardis.aio.connect(self.address, PATIENCE) as one, await tardis.aio.connect(self.address, PATIENCE) as other:
                await one.open()
                await other.open(follow=False)
                async with one.transaction() as txn:
                    await txn.put("n", "1")
                await asyncio.gather(one.begin(), other.begin())
                await one.put("n", "2")
                await other.put("n", "3")
                await one.commit()
                await other.commit()
                self.assertEqual((await one.leaves()).total, 2)
                merged = await one.merge(tardis.counter)
                self.assertEqual((await one.items(merged.id)).items, ((b"n", b"4"),))
                async with one.pipeline() as line:
                    line.begin()
                    for number in range(20_000):
                        line.put("x", str(number))
                    line.commit()
                self.assertEqual(len(line.results()), 20_002)

                async def add(txn):
                    await txn.put("sum", str(int(await txn.value("sum") or b"0") + 1))

                # tasks of one connection take turns, and so do their transactions
                await asyncio.gather(*[one.retry(add) for _ in range(10)])
                async with one.transaction() as txn:
                    self.assertEqual(await txn.value("sum"), b"10")
                async with one.transaction() as txn:
                    reads = await asyncio.gather(*[asyncio.wait_for(txn.value("n"), PATIENCE)])
                    self.assertEqual(reads, [b"4"])

                async def first():
                    async for state in one.watch(0.01):
                        return state

                watching = asyncio.ensure_future(first())
                while not watching.done():
                    async with other.transaction(at="any") as txn:
                        await txn.put("late", "1")
                    await asyncio.sleep(0.05)
                self.assertEqual((await watching).keys, (b"late",))
                self.assertEqual(len(await one.history()), (await one.stat()).kept)
                with self.assertRaises(tardis.NoTxn):
                    await one.commit()
            with self.assertRaises(tardis.Disconnected):
                await one.stat()

        asyncio.run(story())


class Shells(unittest.TestCase):
    def test_both_shells_have_the_same_calls(self):
        def calls(of):
            return {name: [word for word in inspect.signature(getattr(of, name)).parameters] for name in dir(of)
                    if not name.startswith("_") and callable(getattr(of, name))}

        self.assertEqual(calls(tardis.Site), calls(tardis.aio.Site))
        self.assertEqual(calls(tardis.Transaction), calls(tardis.aio.Transaction))


class Tardisd(OfTardisd, Calls):
    pass


class Serve(OfServe, Calls):
    pass


class Model(OfModel, Calls):
    test_over_tcp = None


class OldModel(OfOldModel, Calls):
    """What is done otherwise where no questions are answered: histories, and the bases of merges."""
    test_over_tcp = test_a_hundred_thousand_puts_in_one_pipeline = test_a_server_that_is_killed_in_mid_pipeline = None
    test_threads_take_turns = test_retry_runs_the_block_again = test_blind_writes_fork_unless_told_otherwise = None
    test_refusals_are_classes_and_say_what_to_do = test_readers_that_follow_move_their_ceilings = None


del Calls

if __name__ == "__main__":
    unittest.main()
