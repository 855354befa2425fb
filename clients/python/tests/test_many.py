"""What holds of many keys, leaves and states, and while others commit: nothing is left out, and nothing is told that isn't so."""

import random
import unittest

from servers_here import OfModel, OfOldModel, OfTardisd, OverServers, tardis

StateId = tardis.StateId


class Many(OverServers):
    def test_all_conflict_keys_are_merged(self):
        """More of them than a page lists and than a transaction writes; and along the branch of which the session may read each state."""
        self.serve()
        other, own = self.connect(), self.connect()
        other.open(), own.open()
        keys = [b"k%03d" % number for number in range(300)]
        for place in range(0, 300, 60):
            with other.transaction() as txn:
                for key in keys[place:place + 60]:
                    txn.put(key, "base")
        start = own.begin("any")
        for site, value in ((other, "x"), (own, "y")):
            at = start
            for place in range(0, 300, 60):
                if site is not own or place:
                    site.begin(at)
                for key in keys[place:place + 60]:
                    site.put(key, value)
                at = site.commit().id
        self.assertEqual(own.leaves().total, 2)
        # the session follows, so it may read nothing of its own branch but the leaf, which arrived last
        self.assertRaises(tardis.Below, own.begin, StateId(1, at.sequence - 1))
        told = own.compare(*own.leaves().first)
        self.assertEqual([conflict.key for conflict in told.conflicts], keys)
        self.assertEqual({(conflict.base, tuple(conflict.sides.values())) for conflict in told.conflicts}, {(b"base", (b"x", b"y"))})
        own.begin_merge()
        self.assertEqual((own.conflicts().total, own.all_conflicts()), (300, keys))
        own.abort()
        merged = own.merge(lambda key, base, sides: base + b":" + b"+".join(sorted(sides.values())))
        self.assertEqual((merged.keys, own.leaves().first), (tuple(keys), (merged.id,)))
        self.assertEqual({value for _, value in own.items(merged.id).items}, {b"base:x+y"})
        self.assertEqual(sum(len(step.keys) for step in merged.steps), 300)

    def test_the_last_writer_of_a_wide_merge(self):
        """It goes by steps, and what a step wrote is no newer than who wrote it first."""
        self.serve()
        site = self.connect()
        site.open(follow=False)
        for side in ("one", "other"):
            at = tardis.ROOT
            for part, value in ((0, "old"), (1, "old"), (0, "new")):
                with site.transaction(at=at) as txn:
                    for number in range(50):
                        txn.put("k%d" % (50 * part + number), f"{side} {value}")
                at = txn.committed
        for resolve in (tardis.last_writer, tardis.Rules("k=last")):
            with self.subTest(resolve):
                begun = site.stat().leaves
                self.assertEqual(begun, 2)
                merged = site.merge(resolve)
                self.assertEqual({value for key, value in site.items(merged.id).items if int(key[1:]) < 50}, {b"other new"})
                with site.pipeline() as line:
                    # the same two branches once more, below what was merged
                    for side in ("one", "other"):
                        line.begin(merged.id)
                        for part, value in ((0, "old"), (1, "old"), (0, "new")):
                            for number in range(50):
                                line.put("k%d" % (50 * part + number), f"{side} {value}")
                            line.commit(), line.begin("parent")
                        line.abort()

    def test_the_last_writer_of_many_leaves(self):
        self.serve()
        site = self.connect()
        site.open(follow=False)
        for number in range(20):
            with site.transaction(at=tardis.ROOT) as txn:
                txn.put("k", str(number))
        merged = site.merge(tardis.last_writer)
        self.assertEqual(site.items(merged.id).items, ((b"k", b"19"),))

    def test_what_stands_beside(self):
        self.serve()
        site = self.connect()
        site.open(follow=False)
        with site.pipeline() as line:
            for number in range(258):
                line.begin(tardis.ROOT), line.put("x", str(number)), line.commit()
        states = [StateId(1, number) for number in range(1, 259)]
        with site.transaction(at=states[4]) as txn:
            txn.put("y", "1")
        # below a leaf: no fork, and beside it are the others, the first 256 that the site lists
        self.assertEqual((txn.forked, txn.beside), (False, tuple(leaf for leaf in states if leaf != states[4])[:256]))
        with site.transaction(at=tardis.ROOT) as txn:
            txn.put("x", "one more")
        self.assertEqual((txn.forked, len(txn.beside), txn.committed in txn.beside), (True, 256, False))

    def test_a_history_while_others_commit(self):
        """It is that of one moment: what comes while it is asked for is in it as a whole, or not at all."""
        self.serve()
        viewer, writer = self.connect(), self.connect()
        writer.open(follow=False)
        exchange, left = viewer._exchange, []

        def between(answers):
            exchange(answers)
            if left:
                left.pop()
                with writer.transaction(at=tardis.ROOT) as txn:
                    txn.put("x", "1")

        viewer._exchange = between
        for count in range(1, 9):
            left[:] = [None] * count
            history = viewer.history()
            self.assertEqual((len(history), len(history.leaves)), (history.stat.kept, history.stat.leaves))
            self.assertTrue(all(leaf in history for leaf in history.leaves))

    def test_a_history_of_more_than_a_batch(self):
        """Its records fill more than one answer."""
        self.serve()
        site = self.connect()
        site.open(follow=False)
        for place in range(0, 240, 40):
            with site.pipeline() as line:
                for number in range(place, place + 40):
                    line.begin("parent"), line.put("k%d" % number, "%d" % number + "." * 4000), line.commit()
        history = self.connect().history()
        self.assertEqual([state.id.sequence for state in history], list(range(241)))
        self.assertEqual(history[StateId(1, 240)].writes[0].value[:3], b"239")
        self.assertEqual(len(history.items(StateId(1, 240)).items), 240)

    def test_a_value_that_becomes_too_long(self):
        self.serve()
        site = self.connect()
        site.open(follow=False)
        for value in ("a", "b"):
            with site.transaction(at=tardis.ROOT) as txn:
                txn.put("long", value * 3000)
        known = site.stat().known
        with self.assertRaisesRegex(tardis.Unresolved, "b'long' can't be resolved: its merged value has 6,000 bytes, and a value at most 4,096"):
            site.merge(lambda key, base, sides: b"".join(sides.values()))
        self.assertEqual((site.stat().known, site.merge(tardis.last_writer).keys), (known, (b"long",)))


class Ceilings(OverServers):
    def test_the_ceiling_that_is_told(self):
        """It is the session's, or none where the client can't tell."""
        self.serve()
        chance, told = random.Random(7), 0
        sites = [self.connect(), self.connect()]
        sites[0].open(), sites[1].open(follow=False)
        states = [tardis.ROOT]
        for number in range(60):
            site = chance.choice(sites)
            try:
                with site.transaction(at=chance.choice([*states[-4:], "ancestor", "any"])) as txn:
                    if chance.random() < 0.8:
                        txn.put("k%d" % chance.randrange(3), str(number))
            except tardis.Below:
                continue
            states += [txn.committed] if txn.committed else []
            lines = {line.follow: line.ceiling for line in sites[0].sessions().first}
            for follow, site in ((True, sites[0]), (False, sites[1])):
                ceiling = site.history().ceiling
                self.assertIn(ceiling, (None, lines[follow]))
                told += ceiling is not None and ceiling != tardis.ROOT
        self.assertGreater(told, 10)
        # one that commits beside its ceiling keeps it
        site = self.connect()
        site.open()
        with site.transaction(at="any") as txn:
            txn.put("new", "1")
        self.assertEqual(site.history().ceiling, txn.committed)
        with sites[1].transaction(at=tardis.ROOT) as beside:
            beside.get("new"), beside.put("new", "2")
        with site.transaction(at=beside.committed) as txn:
            txn.put("new", "3")
        self.assertNotEqual(site.history().ceiling, txn.committed)


class Joined(OverServers):
    """A server that joins what a commit forked before the client is told of it."""

    def test_what_was_joined_at_once_is_told(self):
        self.words = ("--rules", "n=count")
        self.serve()
        if isinstance(self, OfModel):
            model = self.server.model
            commit = model.do_6

            def joining(actor, fields):
                reply = commit(actor, fields)
                leaves = model.leaves()
                if len(leaves) == 2:
                    model.add(tuple(leaves), {b"n": b"joined"})
                return reply

            model.do_6 = joining
        one, other = self.connect(), self.connect()
        one.open(), other.open()
        for site in (one, other):
            site.begin()
        one.put("n", "1"), one.commit()
        other.abort()
        with other.transaction(at=tardis.ROOT) as txn:
            txn.put("n", "2")
        # it made a fork, and what joined it stands below, not beside. (A server that joins behind the client's requests tells of the other)
        self.assertEqual((txn.forked, other.leaves().first), (True, (StateId(1, 3),)))
        self.assertIn(txn.beside, [()] if isinstance(self, OfModel) else [(), (StateId(1, 1),)])


class ManyOnTardisd(OfTardisd, Many):
    pass


class ManyOnModel(OfModel, Many):
    pass


class ManyOnOldModel(OfOldModel, Many):
    test_the_last_writer_of_a_wide_merge = None


class CeilingsOnTardisd(OfTardisd, Ceilings):
    pass


class CeilingsOnModel(OfModel, Ceilings):
    pass


class JoinedOnTardisd(OfTardisd, Joined):
    pass


class JoinedOnModel(OfModel, Joined):
    pass


del Many, Ceilings, Joined

if __name__ == "__main__":
    unittest.main()
