"""Runs of several clients by chance: whatever they commit, merge and collect, no increment is lost and none is counted twice, and a
history is what the site shows."""

import random
import unittest

from servers_here import OfModel, OfTardisd, OverServers, tardis

from tardis.pictures import as_svg, as_text  # noqa: E402

KEYS = ["n0", "n1", "n2"]
RULES = tardis.by_prefix({"n": tardis.counter, "set": tardis.union_of(",")})


class Run:
    """Four clients, and what they added so far."""

    def __init__(self, case, seed):
        self.case, self.chance = case, random.Random(seed)
        self.clients = [case.connect() for _ in range(4)]
        for client in self.clients:
            client.open(follow=self.chance.random() < 0.7)
        self.viewer = case.connect()
        self.counted, self.items = dict.fromkeys(KEYS, 0), set()

    def add(self, client, number):
        keys, item = self.chance.sample(KEYS, 2), b"i%d" % number
        with client.transaction() as txn:
            for key in keys:
                txn.put(key, str(int(txn.value(key) or b"0") + 1))
            txn.put("set", b",".join(part for part in [txn.value("set"), item] if part))
        for key in keys:
            self.counted[key] += 1
        self.items.add(item)

    def fork(self):
        """Three that begin at one state, and don't know of each other."""
        together = self.chance.sample(self.clients, 3)
        key = self.chance.choice(KEYS)
        state = together[0].begin()
        for client in together[1:]:
            try:
                client.begin(state)
            except tardis.Below:
                client.begin()
        for client in together:
            client.put(key, str(int(client.value(key) or b"0") + 1))
        for client in together:
            client.commit()
            self.counted[key] += 1

    def merge(self, client):
        try:
            client.merge(RULES)
        except (tardis.Unresolved, tardis.Below):
            # the base was collected, or the session may not read a side any more; then nothing more was merged
            pass

    def look(self):
        history = self.viewer.history()
        self.case.assertEqual((len(history), set(history.leaves)), (self.viewer.stat().kept, set(self.viewer.leaves().first)))
        shown = {id: self.viewer.show(id) for id in self.chance.sample([state.id for state in history], min(8, len(history)))}
        for one, here in shown.items():
            for other, there in shown.items():
                is_above = here.arrival <= there.arrival and set(here.path) <= set(there.path)
                self.case.assertEqual(history.is_above(one, other), is_above, (one, other))
        as_text(history), as_svg(history)

    def go(self, steps):
        for number in range(steps):
            client, chance = self.chance.choice(self.clients), self.chance.random()
            if chance < 0.5:
                self.add(client, number)
            elif chance < 0.65:
                self.fork()
            elif chance < 0.75:
                self.merge(client)
            elif chance < 0.9:
                client.raise_floor(), client.tidy(self.chance.choice([1, 1000]))
            else:
                self.look()

    def end(self):
        """All that was added, once all leaves are merged."""
        merger = self.case.connect()
        merger.open(follow=False)
        self.merge(merger)
        if merger.leaves().total > 1:
            return False
        merger.begin("any")
        self.case.assertEqual({key: int(merger.value(key) or b"0") for key in KEYS}, self.counted)
        self.case.assertEqual({item for item in (merger.value("set") or b"").split(b",") if item}, self.items)
        return True


class Runs(OverServers):
    def test_nothing_is_lost(self):
        ended = 0
        for seed in range(4):
            self.serve("unix:%s/site%d" % (self.folder, seed))
            run = Run(self, seed)
            run.go(120)
            ended += run.end()
        self.assertGreater(ended, 2)


class OverTardisd(OfTardisd, Runs):
    pass


class OverModel(OfModel, Runs):
    pass


del Runs

if __name__ == "__main__":
    unittest.main()
