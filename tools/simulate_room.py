#!/usr/bin/env python3
"""simulate_room.py [RUNS [POLICY ..]]: do sites whose rooms fill while links are cut go on?

A small model, and no proof. M sites have room for N kept states each. At each site clients commit, at times in bursts, below a leaf that
their session may begin at. Sites join leaves. For spans of random length some links are cut, each in one direction. An exchange brings all
records that the other one lacks, or in some spans ('cut') one, and then the consents. After 500 steps all links stay up, nobody commits,
sessions begin at leaves and sites exchange. A run jams if then some site still takes no client's commit.

Policies: none: a commit is refused at N kept states. Else the name is what N is divided by, as 2M-1: a client's commit is refused where so
many states are kept in all, and two at least; a join at N less half of that, or, with a + behind the name, where the room is full. MM is
the square of M. It is the program's (`crates/site_doors/specs/Room.antt`); there peers' records and joins by rules have all the room, and
the commit of a client's merge has N less half. What the runs showed is in docs/DECISIONS.md, 'The server'.

It prints the records of peers that found no room and the runs that had any, the runs that jam, the most states that a site kept, and the
part of the clients' commits that was taken.
"""
import random
import sys


class Site:
    def __init__(self, me, sites):
        self.me = me
        self.known = [0]
        self.has = {0}
        self.children = {}
        self.gone = set()
        self.floor = [(0, 0, 0)] * sites
        self.ceiling = 0
        self.counts = [0] * sites
        self.refused = 0

    def kept(self):
        return len(self.known) - len(self.gone)

    def leaves(self):
        return [x for x in self.known if not self.children.get(x)]


class World:
    def __init__(self, sites, room, share, merge_share, rng):
        self.room, self.share, self.merge_share, self.rng = room, share, merge_share, rng
        self.parents, self.above, self.owner, self.number = {0: ()}, {0: 1}, {0: -1}, {0: 0}
        self.sites = [Site(i, sites) for i in range(sites)]

    # is a at or above b; the states at or above one are a number's bits
    def is_above(self, a, b):
        return self.above[b] >> a & 1

    def learn(self, site, x):
        site.known.append(x)
        site.has.add(x)
        for p in self.parents[x]:
            site.children.setdefault(p, []).append(x)
        if self.owner[x] >= 0:
            site.counts[self.owner[x]] += 1

    def make(self, site, parents):
        x = len(self.parents)
        self.parents[x] = tuple(parents)
        above = 1 << x
        for p in parents:
            above |= self.above[p]
        self.above[x] = above
        self.owner[x] = site.me
        self.number[x] = site.counts[site.me] + 1
        self.learn(site, x)
        return x

    def stand_in(self, site, x):
        while x in site.gone:
            x = site.children[x][0]
        return x

    def tidy(self, site):
        old = site.floor[site.me]
        for x in reversed(site.known):
            if x not in site.gone and self.is_above(old[0], x) and self.is_above(x, site.ceiling):
                if x != old[0]:
                    site.floor[site.me] = (x, old[1] + 1, site.counts[site.me])
                break
        found = True
        while found:
            found = False
            for x in reversed(site.known):
                if x in site.gone or not site.children.get(x):
                    continue
                if not all(x != f[0] and self.is_above(x, f[0]) for f in site.floor):
                    continue
                if len({self.stand_in(site, c) for c in site.children[x]}) == 1:
                    site.gone.add(x)
                    found = True

    def may_begin(self, site):
        return [x for x in site.leaves() if self.is_above(site.ceiling, x)] or [site.ceiling]

    def commit(self, site):
        if site.kept() >= self.share:
            return False
        site.ceiling = self.make(site, (self.rng.choice(self.may_begin(site)),))
        self.join(site)
        self.tidy(site)
        return True

    # a site joins two leaves where it is the least of all sites whose states lie in one branch and not in the other
    def join(self, site):
        while site.kept() < self.merge_share:
            leaves = site.leaves()[-16:]
            pair = None
            for i, a in enumerate(leaves):
                for b in leaves[i + 1:]:
                    apart = self.above[a] ^ self.above[b]
                    least = min(self.owner[x] for x in site.known if apart >> x & 1)
                    if least == site.me:
                        pair = (a, b)
                        break
                if pair:
                    break
            if not pair:
                return
            self.make(site, pair)

    def exchange(self, a, b, most):
        batch = [x for x in b.known if x and x not in a.has and not all(self.is_above(x, f[0]) for f in b.floor)][:most]
        notes = list(b.floor)
        for x in batch:
            if self.number[x] != a.counts[self.owner[x]] + 1 or not all(p in a.has for p in self.parents[x]):
                continue
            if a.kept() >= self.room:
                self.tidy(a)
            if a.kept() >= self.room:
                a.refused += 1
                break
            self.learn(a, x)
        for i, (state, number, count) in enumerate(notes):
            if i != a.me and number > a.floor[i][1] and count <= a.counts[i] and state in a.has:
                a.floor[i] = (state, number, count)
        self.join(a)
        self.tidy(a)

    def move_on(self, site):
        below = [x for x in site.leaves() if self.is_above(site.ceiling, x)]
        if below:
            site.ceiling = below[-1]


def run(sites, room, share, merge_share, whole, steps, seed):
    rng = random.Random(seed)
    world = World(sites, room, share, merge_share, rng)
    left = tried = taken = highest = 0
    for _ in range(steps):
        if left == 0:
            left = rng.choice((3, 8, 20, 60))
            chance = rng.choice((.2, .5, .9))
            most = 1 if not whole and rng.random() < .6 else 10 ** 9
            up = [[rng.random() < chance for _ in range(sites)] for _ in range(sites)]
            rate = rng.choice((1, 1, 20))
            moves = rng.choice((0, .5, 1))
        left -= 1
        site = world.sites[rng.randrange(sites)]
        for _ in range(rng.randrange(rate + 1)):
            tried += 1
            taken += world.commit(site)
        if rng.random() < moves:
            world.move_on(site)
        a, b = rng.sample(range(sites), 2)
        if up[a][b]:
            world.exchange(world.sites[a], world.sites[b], most)
        highest = max(highest, world.sites[a].kept(), site.kept())
    refused = sum(s.refused for s in world.sites)
    for _ in range(60):
        for a in world.sites:
            for b in world.sites:
                if a is not b:
                    world.move_on(a)
                    world.exchange(a, b, 10 ** 9 if whole else 1)
        for s in world.sites:
            world.move_on(s)
            world.tidy(s)
    jams = any(s.kept() >= share for s in world.sites)
    return refused, jams, highest, taken / max(1, tried)


def bounds(policy, sites, room):
    if policy == 'none':
        return room, room
    parts = {'M': sites, '2M-1': 2 * sites - 1, '2M': 2 * sites, '3M': 3 * sites, '4M-3': 4 * sites - 3, '4M': 4 * sites, 'MM': sites * sites}[policy.rstrip('+')]
    share = max(2, room // parts)
    return share, room if policy.endswith('+') else room - share // 2


def main():
    count = int(sys.argv[1]) if len(sys.argv) > 1 else 30
    policies = sys.argv[2:] or ['none', '2M-1', '2M', '3M', '3M+', '4M-3', '4M', '4M+', 'MM']
    for sites, room in ((2, 12), (2, 16), (3, 24), (3, 36), (4, 48), (5, 60)):
        for whole in (True, False):
            for policy in policies:
                share, merge_share = bounds(policy, sites, room)
                out = [run(sites, room, share, merge_share, whole, 500, seed) for seed in range(count)]
                print('%d sites, room %2d, %s, %5s (%2d, %2d): refused %6d in %4d of %4d runs, jam %4d, kept at most %2d, taken %4.1f%%' % (
                    sites, room, 'whole' if whole else 'cut  ', policy, share, merge_share, sum(o[0] for o in out), sum(o[0] > 0 for o in out),
                    count, sum(o[1] for o in out), max(o[2] for o in out), 100 * sum(o[3] for o in out) / count), flush=True)


if __name__ == '__main__':
    main()
