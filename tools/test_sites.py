#!/usr/bin/env python3
"""Tests that sites which fetch from each other come to peace, and never jam: a table of scenarios, each with links that are slow, are
cut, or work one way (`links.py`).

usage: tools/test_sites.py [--program TARDISD] [--only WORD ..] [--at-once N] [--times N] [--long] [--verbose]

The program is ./tardisd of this repository, unless another is named; words that it doesn't know are left out. Several scenarios run
at once. In each, clients write, and then there is silence. It is seen that

- at most one join more than there were leaves is made for each exchange, and none later than three exchanges behind the last write,
  or than one exchange less than there are sites, where these are more;
- the sites know the same states then, and no state comes for a while: two exchanges, or ten minutes with --long;
- clients that write all the time read what was written at the other sites a few exchanges before;
- one leaf is left where rules settle all, and no join is made where no site has rules;
- no record of a peer is refused, and commits go on at all sites once a link is back, or a client that slept has gone.

A line a scenario says how many states there were at each second behind the last write. Every wait has an end."""

import argparse
import contextlib
import functools
import os
import random
import re
import shutil
import subprocess
import sys
import tempfile
import threading
import time
import unittest
from concurrent.futures import ThreadPoolExecutor

import servers
from links import BACK, Links
from servers import Server, tardis, until

AT_ONCE = 12
RULES = "l/=last"
#: states that a site has room for, in scenarios that fill it
ROOM = 300
#: how often the sites are looked at, in seconds, and how much later than they should things may come on a machine that is busy
LOOK, SLACK = 0.25, 2.0
#: a peer that doesn't answer is given up after so many seconds
GIVEN_UP = 30
#: so long another site than the one of the lesser leaf waits before it joins, where no words say so; and twice `--every` at least
JOIN_AFTER = 30
LONG = 600

ASKED = argparse.Namespace(long=False, only=[], at_once=AT_ONCE, times=1, verbose=False)


# sites

@functools.lru_cache(maxsize=None)
def options_of(program):
    """The options that the program's help names."""
    told = subprocess.run([program, "--help"], stdout=subprocess.PIPE, check=True, timeout=7200, text=True).stdout
    return frozenset(re.findall(r"--[a-z-]+", told))


def understood(program, words):
    """These words without the options that the program doesn't know, and without their values."""
    found, is_known = [], True
    for word in words:
        if word.startswith("--"):
            is_known = word in options_of(program)
        if is_known:
            found.append(word)
    return found


class Site(Server):
    """A server, and how many states it has made as far as was looked. It is looked at by questions, which the server doesn't count, so
    that looking makes no join."""

    def __init__(self, number, address, words):
        self.number, self.made, self.looking, self.is_gone = number, 0, None, False
        super().__init__(address, *understood(Server.program, words))

    def look(self):
        """How many states it knows, keeps and has made, and how many leaves it has; None where it isn't there."""
        if self.is_gone:
            return None
        if self.looking is None:
            self.looking = self.connect()
        leaves, about = self.looking.leaves(), self.looking.about()
        self.made = max([self.made] + [it.sequence for it in leaves.first if it.site == self.number])
        with contextlib.suppress(tardis.Unknown):
            while True:
                with contextlib.suppress(tardis.Collected):
                    self.looking.record(tardis.StateId(self.number, self.made + 1))
                self.made += 1
        return about.known, about.kept, self.made, leaves.total

    def go(self):
        """It ends for good."""
        self.is_gone = True
        self.kill()

    def records_refused(self):
        """How many records of its peers it told that it refused."""
        return sum(int(found) for line in self.lines for found in re.findall(r"no room for (\d+) of its records", line))


class Client(threading.Thread):
    """A client that follows, and writes one key that all write, until it has written so often or is told to end. Where a commit is
    refused for want of room it moves its ceiling on, so that its session holds no state that it won't read any more; or it only tries
    again."""

    def __init__(self, site, count=None, pause=0.3, seed=0, moves_on=True):
        super().__init__(daemon=True)
        self.site, self.count, self.pause, self.random = site, count, pause, random.Random("%d %d" % (site.number, seed))
        #: the sites of which it reads what was written last, and how old that was
        self.moves_on, self.reads, self.ages = moves_on, [], []
        self.is_over, self.times, self.refused, self.fault = threading.Event(), [], 0, None
        self.start()

    def run(self):
        try:
            with self.site.connect() as connection:
                connection.open(follow=True)
                while not self.is_over.is_set() and (self.count is None or len(self.times) < self.count):
                    self.write(connection)
                    time.sleep(self.random.uniform(0, 2 * self.pause))
        except Exception as fault:
            self.fault = fault

    def write(self, connection):
        try:
            with connection.transaction() as txn:
                self.note(txn)
                txn.put(b"l/x", b"%d of %d" % (len(self.times), self.site.number))
                txn.put(b"l/at%d" % self.site.number, b"%.3f" % time.monotonic())
            self.times.append(time.monotonic())
        except tardis.Full:
            self.refused += 1
            if self.moves_on:
                begun = connection.begin()
                connection.abort()
                # (a branch that is apart from the ceiling is joined first)
                with contextlib.suppress(tardis.CeilingBack):
                    connection.ceiling(begun)

    def note(self, txn):
        """Notes how old the newest is that it reads of each other site."""
        for other in self.reads:
            self.ages.append(time.monotonic() - float(txn.value(b"l/at%d" % other, b"%f" % time.monotonic())))

    def end(self):
        """Waits until it has written so often as it was to; or ends it."""
        if self.count is None:
            self.is_over.set()
        self.join(servers.PATIENCE + (self.count or 0) * 2 * self.pause)
        if self.fault:
            raise self.fault
        assert not self.is_alive(), "a client hangs"


class Group:
    """Sites that all fetch from each other, each over a link of its own; their clients; and what was seen."""

    def __init__(self, stack, sites, delay, back, every, rules="all", join_after=None, states=None):
        self.every, self.rules, self.join_after = every, rules, max(join_after or JOIN_AFTER, 2 * every)
        #: how long an exchange takes at most, and the pause behind it
        self.exchange = every + most(delay) + most(back)
        #: so many exchanges behind the last write no join is made any more, though all exchanges come at once
        self.exchanges = max(3, sites - 1)
        folder = tempfile.mkdtemp(prefix="sites")
        stack.callback(shutil.rmtree, folder, ignore_errors=True)
        self.network, self.links, self.sites, self.clients, self.rows = stack.enter_context(Links()), {}, [], [], []
        at = {it: "unix:%s/site%d" % (folder, it) for it in range(1, sites + 1)}
        for one in at:
            words = ["--sites", str(sites), "--site", str(one), "--every", str(every), "--tidy"]
            for other in at:
                if other != one:
                    link = self.links[one, other] = self.network.add("unix:%s/way%d%d" % (folder, one, other), at[other], delay, back)
                    link.hold()
                    words += ["--peer", link.at]
            if rules == "all" or rules == one:
                words += ["--rules", RULES] + (["--join-after", str(join_after)] if join_after else [])
            if states:
                words += ["--states", str(states)]
            site = Site(one, at[one], words)
            stack.callback(site.kill)
            self.sites.append(site)
        # all exchanges begin at once, which is when the most joins are made beside each other
        until(lambda: all(it.ends for it in self.links.values()), 60, "a call")
        self.mend()
        self.until_reached()

    def mend(self, links=None):
        """Mends all links at once, or these."""
        self.network.do(lambda: [it.mend() for it in links or self.links.values()])

    def until_reached(self):
        """Waits until each site reaches each other one, which calls again after pauses of up to a minute."""
        until(lambda: all(self.is_reached(*it) for it in self.links), 70, "a peer")

    def is_reached(self, one, other):
        return any(it.startswith("reached") for it in self.sites[one - 1].told(self.links[one, other].at)[-1:])

    def links_of(self, number):
        """The links by which a site fetches or is fetched from."""
        return [link for ends, link in self.links.items() if number in ends]

    # clients

    def write(self, count=3, at=None):
        """A client at each site, or at these, commits so often. Gives when the last commit was answered."""
        clients = [Client(it, count, seed=len(self.clients)) for it in self.sites if at is None or it.number in at]
        self.clients += clients
        for it in clients:
            it.end()
        return max(it.times[-1] for it in clients)

    def begin_clients(self, at=None, each=2, moves_on=True, pause=0.02):
        """Clients at each site, or at these, that go on until they are told to end, and that try again soon."""
        begun = [Client(it, None, pause, seed, moves_on) for it in self.sites if at is None or it.number in at for seed in range(each)]
        self.clients += begun
        return begun

    # what is seen

    def look(self):
        """Looks at all sites once."""
        self.rows.append((time.monotonic(), [it.look() for it in self.sites]))
        return self.rows[-1][1]

    def watch(self, until_when, pause=LOOK):
        """Looks at all sites until then. Gives all that was seen."""
        begun = len(self.rows)
        while time.monotonic() < until_when:
            self.look()
            time.sleep(pause)
        self.look()
        return self.rows[begun:]

    def all_leaves(self):
        """All leaves of all sites."""
        found = set()
        for it in self.sites:
            if not it.is_gone:
                found.update(it.looking.leaves().first)
        return found

    def refused(self):
        return sum(it.refused for it in self.clients), sum(it.records_refused() for it in self.sites)


def made_in(row):
    """How many states there are in all, as far as the sites that are there have made them."""
    return sum(seen[2] for seen in row[1] if seen)


def stands_still_for(group):
    """How long it is watched whether any state comes."""
    return LONG if ASKED.long else 2 * group.exchange + SLACK


class Checks:
    """What went otherwise than it should: all of it is told."""

    def __init__(self):
        self.faults, self.told = [], []

    def see(self, is_so, text, *values):
        if not is_so:
            self.faults.append(text % values)

    def tell(self, text, *values):
        self.told.append(text % values)


def come_to_peace(group, checks, last_write, waits=0.0, leaves_left=1):
    """Watches how the sites come to peace behind the last write, and that there is peace from then on. Where joins may wait for a site
    that is away or has no rules, it takes so much longer."""
    before = (last_write, group.look())
    leaves = len(group.all_leaves())
    limit = last_write + group.exchanges * group.exchange + waits + SLACK
    rows = [before, *group.watch(limit)]
    # where the machine is so busy that looks come late, all else comes late too
    late = sum(max(0.0, now[0] - was[0] - 3 * LOOK) for was, now in zip(rows, rows[1:]))
    limit += 2 * late
    rows += [*group.watch(limit), *group.watch(max(limit, time.monotonic()) + stands_still_for(group), 1)]
    end = rows[-1]
    joins = made_in(end) - made_in(before)
    too_late = made_in(end) - made_in([it for it in rows if it[0] <= limit][-1])
    last = next((now[0] for was, now in reversed(list(zip(rows, rows[1:]))) if made_in(now) > made_in(was)), last_write)
    there = [it for it in end[1] if it]
    seconds = [next(made_in(it) + 1 for it in reversed(rows) if it[0] - last_write <= second or it is before) for second in range(int(end[0] - last_write) + 1)]
    checks.tell("%d leaves at the last write, states by the second %s; %d joins, the last after %.1f s; leaves left %s, kept %s",
                leaves, shortened(seconds), joins, last - last_write, "/".join(str(it[3]) for it in there), "/".join(str(it[1]) for it in there))
    if late > 1:
        checks.tell("the machine was %.1f s late", late)
    counts = [it.counts() for it in group.sites if not it.is_gone]
    checks.see(all(it == counts[0] for it in counts), "the sites know %s states of each", counts)
    checks.see(joins <= group.exchanges * (leaves + 1), "%d joins behind %d leaves", joins, leaves)
    checks.see(too_late == 0, "%d states came later than %.1f s behind the last write", too_late, limit - last_write)
    if leaves_left is None:
        checks.see(joins == 0, "%d joins without rules", joins)
        checks.see(len({it[3] for it in there}) == 1, "the sites have %s leaves", [it[3] for it in there])
    else:
        checks.see(all(it[3] == leaves_left for it in there), "the sites have %s leaves", [it[3] for it in there])


def shortened(numbers):
    """Numbers, without those at the end that are the same."""
    while len(numbers) > 1 and numbers[-1] == numbers[-2]:
        numbers = numbers[:-1]
    return " ".join(map(str, numbers if len(numbers) < 25 else [*numbers[:12], "..", *numbers[-6:]]))


# scenarios

def clients_write(group, checks):
    """Clients write at each site, and are silent then."""
    rules = group.rules
    waits = 2 * group.join_after if rules not in ("all", "none") else 0
    come_to_peace(group, checks, group.write(), waits, None if rules == "none" else 1)


def clients_go_on(group, checks):
    """Clients write at each site without a pause that is as long as an exchange, and read what was written at the others."""
    clients = group.begin_clients(each=1, pause=0.2)
    for it in clients:
        it.reads = [other.number for other in group.sites if other.number != it.site.number]
    group.watch(time.monotonic() + 40)
    end_all(clients)
    last_write = max(it.times[-1] for it in clients)
    oldest = max(max(it.ages) for it in clients)
    checks.tell("what they read of other sites was at most %.1f s old; at most %d states were kept", oldest, max(seen[1] for row in group.rows for seen in row[1]))
    checks.see(oldest <= (group.exchanges + 1) * group.exchange + SLACK, "what was read of another site was %.1f s old", oldest)
    come_to_peace(group, checks, last_write)


def the_least_is_not_answered(group, checks):
    """Site 1 hears nobody and is heard, so its leaf is one that others have to join. Then it is cut off, and then it is back."""
    for other in range(2, len(group.sites) + 1):
        group.links[1, other].cut()
    last_write = group.write()
    others = group.sites[1:]
    allowed = group.join_after * 2 + group.exchanges * group.exchange + SLACK
    group.watch(last_write + allowed)
    checks.see([it[3] for it in group.rows[-1][1][1:]] == [1] * len(others), "without site 1 the others have %s leaves", [it[3] for it in group.rows[-1][1][1:]])
    for link in group.links_of(1):
        link.cut()
    last_write = group.write()
    group.watch(last_write + allowed)
    group.mend()
    group.until_reached()
    come_to_peace(group, checks, time.monotonic(), 0)


def one_way_is_lost(group, checks):
    """What site 2 answers to site 1 is gone, for five seconds. Site 1 gives the connection up after 30 and calls again."""
    link = group.links[1, 2]
    link.lose(BACK)
    last_write = group.write()
    group.network.follow([(5, link.mend)])
    come_to_peace(group, checks, last_write, GIVEN_UP + 1)


def one_way_is_held(group, checks):
    """What site 2 answers to site 1 comes ten seconds late."""
    link = group.links[1, 2]
    link.hold(BACK)
    last_write = group.write()
    group.network.follow([(10, link.mend)])
    come_to_peace(group, checks, last_write, 10)


def links_flap(group, checks):
    """Links are cut and mended again and again, while clients write."""
    for place, link in enumerate(group.links.values()):
        group.network.follow([(2 * at + 0.5 * (place % 4), link.mend if at % 2 else link.cut) for at in range(8)])
    last_write = group.write(20)
    group.until_reached()
    come_to_peace(group, checks, max(last_write, time.monotonic()), 0)


def refused_for_a_while(clients, tries=15):
    """Waits until each of these was refused so often in a row: its commits don't come any more."""
    for it in clients:
        until(lambda: it.refused >= tries or it.fault, 60, "a refusal")


def commits_go_on(group, checks, clients, seconds, more=20):
    """Whether each client commits so often again, within so many seconds."""
    begun = time.monotonic()
    before = {it: len(it.times) for it in clients}
    while time.monotonic() < begun + seconds and any(len(it.times) < before[it] + more for it in clients):
        time.sleep(LOOK)
    checks.see(all(len(it.times) >= before[it] + more for it in clients), "within %d s its clients committed %s times again", seconds,
               "/".join(str(len(it.times) - before[it]) for it in clients))
    checks.tell("commits %s before, %s in %.1f s behind it", "/".join(map(str, before.values())), "/".join(str(len(it.times) - before[it]) for it in clients),
                time.monotonic() - begun)


def end_all(clients):
    for it in clients:
        it.is_over.set()
    for it in clients:
        it.end()


def end_in_peace(group, checks, clients):
    end_all(clients)
    come_to_peace(group, checks, time.monotonic())


def filled_behind_cut_links(group, checks, moves_on=True):
    """All links are cut, clients commit at each site until it is full, and the links are mended."""
    for link in group.links.values():
        link.cut()
    clients = group.begin_clients(moves_on=moves_on)
    refused_for_a_while(clients)
    group.mend()
    commits_go_on(group, checks, clients, 40)
    end_in_peace(group, checks, clients)


def filled_and_tried_again(group, checks):
    """The same with clients that only try again."""
    filled_behind_cut_links(group, checks, False)


def filled_by_an_old_session(group, checks):
    """A client sleeps at an old state of the last site, others commit at each site until all are full, and it goes."""
    with group.sites[-1].connect() as sleeper:
        sleeper.open()
        sleeper.begin("any")
        clients = group.begin_clients()
        refused_for_a_while(clients)
    commits_go_on(group, checks, clients, 40)
    end_in_peace(group, checks, clients)


def gone_for_good(number):
    def a_site_goes(group, checks):
        """A site ends for good. The others commit until the room is used that they have without it, and are read as ever."""
        group.write()
        others = [it for it in group.sites if it.number != number]
        group.sites[number - 1].go()
        clients = group.begin_clients([it.number for it in others])
        refused_for_a_while(clients)
        end_all(clients)
        checks.tell("commits %s without it", "/".join(str(len(it.times)) for it in clients))
        checks.see(sum(len(it.times) for it in clients) > 20, "its clients committed %s times without it", [len(it.times) for it in clients])
        come_to_peace(group, checks, time.monotonic(), 2 * group.join_after)
        for it in others:
            checks.see(all(dict(it.looking.scan(leaf)).get(b"l/x") for leaf in it.looking.leaves().first), "site %d isn't read", it.number)
    return a_site_goes


def most(delay):
    return delay[1] if isinstance(delay, tuple) else delay


def milliseconds(delay, back):
    told = "%d to %d ms" % tuple(1000 * it for it in delay) if isinstance(delay, tuple) else "%d ms" % (1000 * delay)
    return told if delay == back else "%s and %s back" % (told, milliseconds(back, back))


def scenarios():
    """Each scenario by its name: what happens there, and the words of its group."""
    found = {}

    def add(what, head, sites, delay=0.05, every=1, back=None, **words):
        words.update(sites=sites, delay=delay, back=delay if back is None else back, every=every)
        found["%s: %d sites, %s, every %d s" % (head, sites, milliseconds(delay, words["back"]), every)] = (what, words)

    add(clients_write, "rules at all", 2, 0.03, 1, 0.15)
    add(clients_write, "rules at all", 2, (0.03, 0.15))
    for sites in 2, 3, 5:
        for delay in 0, 0.15, 0.5:
            for every in 1, 5:
                add(clients_write, "rules at all", sites, delay, every)
    for sites in 2, 3:
        for delay in 0, 0.15, 0.5:
            add(clients_write, "rules at site 1", sites, delay, rules=1, join_after=1)
        add(clients_write, "rules at the last site", sites, 0.15, rules=sites, join_after=1)
        add(clients_write, "no rules", sites, 0.15, rules="none")
        add(clients_go_on, "clients go on", sites, 0.15)
        add(clients_go_on, "clients go on, with --join-after 3", sites, 0.15, join_after=3)
    add(the_least_is_not_answered, "the least site away and back", 3, join_after=3)
    add(one_way_is_lost, "one way lost", 2)
    add(one_way_is_held, "one way held", 2)
    add(links_flap, "links that flap", 3)
    for sites in 2, 3:
        add(filled_behind_cut_links, "full by cut links", sites, states=ROOM)
        add(filled_and_tried_again, "full by cut links, and tried again", sites, states=ROOM)
        add(filled_by_an_old_session, "full by an old session", sites, states=ROOM)
    add(gone_for_good(3), "site 3 away for good", 3, states=ROOM, join_after=3)
    add(gone_for_good(1), "site 1 away for good", 3, states=ROOM, join_after=3)
    return found


def run(name, what, words):
    """Runs a scenario, tells how it went, and gives what went otherwise than it should."""
    checks = Checks()
    with contextlib.ExitStack() as stack:
        group = Group(stack, **words)
        try:
            what(group, checks)
        except (AssertionError, OSError, tardis.ProtocolError, tardis.Refused) as fault:
            checks.see(False, "%s: %s", type(fault).__name__, fault)
        for it in group.clients:
            it.is_over.set()
        checks.tell("%d commits, refused %d; records refused %d", sum(len(it.times) for it in group.clients), *group.refused())
        checks.see(group.refused()[1] == 0, "%d records were refused", group.refused()[1])
        if checks.faults and ASKED.verbose:
            checks.tell("%s", [line for site in group.sites for line in site.lines[-6:]])
    print("%s %s\n    %s" % ("BAD " if checks.faults else "good", name, "; ".join(checks.told + ["BUT " + it for it in checks.faults])), flush=True)
    return checks.faults


class TestSites(unittest.TestCase):
    def test_scenarios(self):
        chosen = {name: it for name, it in scenarios().items() if all(word in name for word in ASKED.only)}
        chosen = {name + " (again)" * time: it for time in range(ASKED.times) for name, it in chosen.items()}
        with ThreadPoolExecutor(ASKED.at_once) as pool:
            runs = {name: pool.submit(run, name, *it) for name, it in chosen.items()}
            for name, it in runs.items():
                with self.subTest(name):
                    faults = it.result()
                    if faults:
                        self.fail("; ".join(faults))


def main():
    words = argparse.ArgumentParser(description=__doc__, formatter_class=argparse.RawDescriptionHelpFormatter)
    words.add_argument("--program", default=Server.program)
    words.add_argument("--only", nargs="+", default=[], metavar="WORD", help="only scenarios whose names have all of these")
    words.add_argument("--at-once", type=int, default=AT_ONCE, metavar="N", help="so many scenarios run side by side")
    words.add_argument("--times", type=int, default=1, metavar="N", help="each scenario runs so often")
    words.add_argument("--long", action="store_true", help="each is watched for ten minutes behind its peace")
    words.add_argument("--verbose", action="store_true", help="of each that goes wrong, the last lines of its servers are told")
    words.parse_args(namespace=ASKED)
    Server.program = os.path.abspath(ASKED.program)
    # builds it, where that is needed
    options_of(Server.program)
    unittest.main(argv=sys.argv[:1])


if __name__ == "__main__":
    main()
