#!/usr/bin/env python3
"""Carries records and promises between the servers of sites that belong together, again and again.

usage: tools/carry.py [--every SECONDS] [--rounds R] ADDRESS ADDRESS..

An address is unix:PATH or HOST:PORT, of a `tardisd` or a `tardis serve` with the same --sites. In each round every site is
asked what each other lacks, and what it gives is delivered there. Then it waits so many seconds (1 where nothing is said), and
begins anew, for R rounds or until it is killed. It keeps one connection to each site. A site that can't be reached, or whose
connection ends, is told in a line on standard error, and tried again in the next round; the others go on. So they do where sites
don't belong together: where two servers are one site by their own words, or have other numbers of sites, nothing is carried
between them, and what a site refuses to give is told. Nothing has to be mended after it was killed: the next round asks for what is
still lacking.
"""

import argparse
import os
import sys
import time

HERE = os.path.dirname(os.path.abspath(__file__))
sys.path[:0] = [os.path.join(os.path.dirname(HERE), "clients", "python")]

import tardis  # noqa: E402

# How long a reply is waited for, in seconds.
PATIENCE = 30


class Away(Exception):
    """A site that can't be reached now."""


class Site:
    """A site, and the connection to it where there is one."""

    def __init__(self, address):
        self.address, self.link, self.is_away, self.told = address, None, False, None

    def ask(self, what):
        """What a call of the connection gives."""
        try:
            if self.link is None:
                self.link = tardis.connect(self.address, PATIENCE)
                self.told = about(self.link)
            reply = what(self.link)
        except (OSError, tardis.ProtocolError) as fault:
            self.lose(fault)
            raise Away from None
        if self.is_away:
            print("carry: %s is there again" % self.address, file=sys.stderr, flush=True)
        self.is_away = False
        return reply

    def lose(self, fault):
        if self.link is not None:
            self.link.disconnect()
            self.link = None
        if not self.is_away:
            print("carry: %s: %s" % (self.address, fault), file=sys.stderr, flush=True)
        self.is_away = True


def about(link):
    """What the site tells of itself; None where it answers no questions."""
    try:
        return link.about()
    except tardis.Unsupported:
        return None


def mismatch(source, target):
    """Why two sites don't belong together, as far as they tell; None where nothing speaks against it."""
    one, other = (site.ask(lambda link, site=site: site.told) for site in (source, target))
    if one is None or other is None:
        return None
    if one.limits.sites != other.limits.sites:
        return "one has --sites %d and the other --sites %d, so they don't belong together" % (one.limits.sites, other.limits.sites)
    if one.own == other.own:
        return "both are site %d of %d: each site needs a number of its own" % (one.own, one.limits.sites)
    return None


def deliver(target, item):
    """Whether the item was news."""
    try:
        return isinstance(target.ask(lambda link: link.deliver(item)), tardis.Applied)
    except tardis.Refused as refusal:
        # one that was carried already, or that is to be tried again when room was made: the next round asks once more
        print("carry: %s refused an item: %s" % (target.address, refusal), file=sys.stderr, flush=True)
        return False


def carry(source, target):
    """Carries what the source has and the target lacks, a batch at a time, until a batch has no news."""
    is_news = True
    while is_news:
        counts = [line.count for line in target.ask(lambda link: link.stat()).sites]
        items = source.ask(lambda link: link.pull(counts)).items
        is_news = any([deliver(target, item) for item in items])


class Carrier:
    """Rounds between sites, and what was told of each pair last."""

    def __init__(self, addresses):
        self.sites = [Site(address) for address in addresses]
        self.said = {}

    def make_round(self):
        for source in self.sites:
            for target in self.sites:
                if source is not target:
                    self.carry(source, target)

    def carry(self, source, target):
        try:
            why = mismatch(source, target)
            if why is None:
                carry(source, target)
        except Away:
            return
        except (tardis.Refused, tardis.NoMemory) as fault:
            why = str(fault)
        # (what goes on from round to round is told once)
        pair = source.address, target.address
        if why is not None and why != self.said.get(pair):
            print("carry: from %s to %s: %s" % (*pair, why), file=sys.stderr, flush=True)
        self.said[pair] = why


def main():
    words = argparse.ArgumentParser(description="carries records and promises between sites")
    words.add_argument("--every", type=float, default=1, metavar="SECONDS")
    words.add_argument("--rounds", type=int, metavar="R")
    words.add_argument("addresses", nargs="+", metavar="ADDRESS")
    words = words.parse_args()
    carrier = Carrier(words.addresses)
    made = 0
    while words.rounds is None or made < words.rounds:
        if made:
            time.sleep(words.every)
        carrier.make_round()
        made += 1


if __name__ == "__main__":
    try:
        main()
    except KeyboardInterrupt:
        pass
