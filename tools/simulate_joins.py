#!/usr/bin/env python3
"""Do the joins of several sites end? A model of sites that join two leaves by rules, without their values.

usage: tools/simulate_joins.py [--seeds N] [--wait SECONDS]

Each site asks each other one each second, and an answer brings all that was known there when the question came; both take the same
delay. Clients write for 20 seconds, mostly below a leaf of their site and sometimes below an older state. Then there is silence, and
it is looked on for 380 exchanges. A site looks for leaves to join when it has learned or made a state, and each second.

A join of two leaves is made by a site of rank 0 at once, of rank 1 after so many seconds (30), of rank 2 after twice so many. Three ways
to give ranks are compared:

    always   each site has rank 0
    makers   rank 0 has the site that made one of the two leaves and has the lesser number, rank 1 the site that made the other one,
             rank 2 any other site
    commits  as makers, but rank 0 has also the site that made the other one, where that is a commit and no join

In a second table one client at each site writes three times a second for 60 seconds, always below its own last commit. It is told how old
the newest commit of another site is at most that such a commit can read. With `makers` a site that is not the least goes on below its own
commits, while the site whose turn it is joins what is already old.

It is a model: `tools/test_sites.py` tries the program. Its results stand in docs/SYNC.md, 'Joins by rules at several sites'."""

import argparse
import heapq
import random

WRITING, EXCHANGES = 20.0, 380
#: a run with so many joins is taken for one that never ends
ENDLESS = 2000
#: leaves that are looked at, the last that arrived
LOOKED_AT = 16


class Site:
    """What one site knows: states in the order of arrival, those that are leaves, and when it first saw two leaves side by side."""

    def __init__(self, number):
        self.number, self.known, self.order, self.leaves, self.seen = number, {0}, [0], [0], {}

    def learn(self, state, parents):
        if state not in self.known:
            self.known.add(state)
            self.order.append(state)
            self.leaves = [it for it in self.leaves if it not in parents] + [state]


class World:
    """All sites, and all states: the parents and the maker of each."""

    def __init__(self, sites, delay, way, wait, seed, every=1, with_rules=None, away=None):
        self.delay, self.way, self.wait, self.every, self.random = delay, way, wait, every, random.Random(seed)
        self.sites = [Site(it) for it in range(1, sites + 1)]
        #: those that have rules; and a site that is away between two times
        self.with_rules, self.away = with_rules or range(1, sites + 1), away
        self.parents, self.maker = [()], [0]
        self.joins, self.last_write, self.events = [], 0.0, []

    # states

    def make(self, site, parents):
        self.parents.append(parents)
        self.maker.append(site.number)
        site.learn(len(self.parents) - 1, parents)

    def rank(self, site, one, other):
        if self.way == "always":
            return 0
        own = [it for it in (one, other) if self.maker[it] == site.number]
        if not own:
            return 2
        is_first = site.number == min(self.maker[one], self.maker[other])
        return 0 if is_first or self.way == "commits" and len(self.parents[own[0]]) == 1 else 1

    def joint(self, site, now):
        """The first two leaves that the site may join now."""
        leaves = site.leaves[-LOOKED_AT:]
        for place, one in enumerate(leaves):
            for other in leaves[place + 1:]:
                if now >= site.seen.setdefault((one, other), now) + self.wait * self.rank(site, one, other):
                    return one, other
        return None

    def join(self, site, now):
        """Joins leaves as long as there are two that it may join."""
        found = self.joint(site, now) if site.number in self.with_rules else None
        while found and len(self.joins) < ENDLESS:
            self.make(site, found)
            self.joins.append(now)
            found = self.joint(site, now)

    # what happens

    def at(self, time, what, *words):
        heapq.heappush(self.events, (time, self.random.random(), what, words))

    def is_there(self, site, now):
        return not (self.away and site.number == self.away[0] and self.away[1] <= now < self.away[2])

    def write(self, now, site):
        if now < WRITING:
            if self.is_there(site, now):
                below = self.random.choice(site.leaves if self.random.random() < 0.7 else site.order[-5:])
                self.make(site, (below,))
                self.last_write = now
                self.join(site, now)
            self.at(now + self.random.expovariate(2), self.write, site)

    def ask(self, now, site):
        """The site asks all others."""
        for other in self.sites:
            if other is not site and self.is_there(site, now) and self.is_there(other, now):
                self.at(now + self.delay, self.answer, other, site)
        self.at(now + self.every, self.ask, site)

    def look(self, now, site):
        """The site looks for joins, though nothing came."""
        if self.is_there(site, now):
            self.join(site, now)
        self.at(now + 1, self.look, site)

    def answer(self, now, site, asked_by):
        if self.is_there(site, now):
            self.at(now + self.delay, self.learn, asked_by, list(site.order))

    def learn(self, now, site, states):
        if self.is_there(site, now):
            for it in states:
                site.learn(it, self.parents[it])
            self.join(site, now)

    def run(self, end=None):
        """How many joins were made behind the last write, how many seconds behind it the last was, and the most leaves that are left."""
        for it in self.sites:
            self.at(self.random.random(), self.write, it)
            self.at(self.every * self.random.random(), self.ask, it)
            self.at(self.random.random(), self.look, it)
        end = end or WRITING + EXCHANGES * self.every
        while self.events[0][0] <= end and len(self.joins) < ENDLESS:
            now, _, what, words = heapq.heappop(self.events)
            what(now, *words)
        behind = [it - self.last_write for it in self.joins if it > self.last_write]
        return len(behind), max(behind, default=0), max(len(it.leaves) for it in self.sites)


class Busy(World):
    """One client at each site, which writes all the time, below its own last commit."""

    def __init__(self, *words, **more):
        super().__init__(*words, **more)
        self.above, self.times, self.last, self.oldest = [frozenset([0])], {}, [0] * (len(self.sites) + 1), 0.0

    def make(self, site, parents):
        self.above.append(frozenset([len(self.parents)]).union(*[self.above[it] for it in parents]))
        super().make(site, parents)

    def write(self, now, site):
        if now < 3 * WRITING:
            last = self.last[site.number]
            self.make(site, (next(it for it in reversed(site.order) if last in self.above[it]),))
            self.last[site.number] = made = len(self.parents) - 1
            self.times[made] = self.last_write = now
            for other in self.sites:
                if now > WRITING:
                    seen = [self.times.get(it, 0) for it in self.above[made] if self.maker[it] == other.number]
                    self.oldest = max(self.oldest, now - max(seen, default=0))
            self.join(site, now)
            self.at(now + self.random.expovariate(3), self.write, site)


def told_of_busy(asked, way, sites, delay):
    """A line about the worst of some busy runs."""
    oldest = 0.0
    for seed in range(min(asked.seeds, 3)):
        world = Busy(sites, delay, way, wait=asked.wait, seed=seed)
        world.run(3 * WRITING)
        oldest = max(oldest, world.oldest)
    print("%s, %d sites, %d ms, busy: what is read of another site is at most %.1f s old" % (way, sites, 1000 * delay, oldest), flush=True)


def told(asked, head, *words, **more):
    """A line about the worst of some runs."""
    runs = [World(*words, wait=asked.wait, seed=seed, **more).run() for seed in range(asked.seeds)]
    joins, last, leaves = (max(it) for it in zip(*runs))
    without_end = sum(joins > 60 for joins, _, _ in runs)
    end = "; %d of %d runs have no end" % (without_end, len(runs)) if without_end else ""
    print("%s: at most %d joins behind the last write, the last after %.1f s, %d leaves left%s" % (head, joins, last, leaves, end), flush=True)


def main():
    words = argparse.ArgumentParser(description=__doc__, formatter_class=argparse.RawDescriptionHelpFormatter)
    words.add_argument("--seeds", type=int, default=6, metavar="N", help="so many runs of each kind (6)")
    words.add_argument("--wait", type=float, default=30, metavar="SECONDS", help="how long rank 1 waits (30)")
    asked = words.parse_args()
    for way in "always", "makers", "commits":
        for sites in 2, 3, 5:
            for delay in 0.002, 0.03, 0.15, 0.5:
                told(asked, "%s, %d sites, %d ms" % (way, sites, 1000 * delay), sites, delay, way)
    for way in "makers", "commits":
        for sites in 2, 3, 5:
            told(asked, "%s, %d sites, 150 ms, site 1 away from 10 to 200 s" % (way, sites), sites, 0.15, way, away=(1, 10, 200))
        for every in 5, 10, 14, 20, 60:
            told(asked, "%s, 2 sites, 150 ms, every %d s" % (way, every), 2, 0.15, way, every=every)
        for only in 1, 3:
            told(asked, "%s, 3 sites, 150 ms, rules at site %d alone" % (way, only), 3, 0.15, way, with_rules=[only])
    for way in "always", "makers", "commits":
        for sites in 2, 3:
            told_of_busy(asked, way, sites, 0.15)


if __name__ == "__main__":
    main()
