"""Two offices with a site each, and a laptop that was offline: `examples/run.py offices`.

The sites don't share memory, and each serves its clients whether or not it reaches the other. `tools/carry.py` carries what is
news from each to the other.

It prints:

    Basel booked monday, Zurich booked tuesday, and neither knows of the other
    carried: both sites have 3 states and 2 leaves
    merged in Basel as 1.2, and carried to Zurich
    in Zurich: monday=Ann tuesday=Bob
    the laptop was offline since 1.2, and comes back: 2.2 is a fork beside 1.3
    merged: monday=Ann tuesday=Bob,Dora,Eve wednesday=Carl
    both offices read the same
"""

import os
import subprocess
import sys

import tardis

SITES = 2

CARRY = os.path.join(os.path.dirname(os.path.dirname(os.path.abspath(__file__))), "tools", "carry.py")


def carry(addresses):
    """One round between the sites, as `tools/carry.py ADDRESS ADDRESS` makes one each second."""
    subprocess.run([sys.executable, CARRY, "--rounds", "1", *addresses], check=True)


def book(site, day, name, at="any"):
    """Adds a name to a day of the calendar."""
    with site.transaction(at=at) as txn:
        names = [word for word in (txn.value(day) or b"").decode().split(",") if word]
        txn.put(day, ",".join(sorted({*names, name})))
    return txn


def calendar(site):
    """The calendar at the state that arrived last."""
    state = site.begin("any")
    site.abort()
    return " ".join(f"{day.decode()}={names.decode()}" for day, names in site.items(state).items)


def main(*addresses):
    with tardis.connect(addresses[0]) as basel, tardis.connect(addresses[1]) as zurich:
        basel.open(), zurich.open()
        book(basel, "monday", "Ann"), book(zurich, "tuesday", "Bob")
        print("Basel booked monday, Zurich booked tuesday, and neither knows of the other")
        carry(addresses)
        assert basel.stat().known == zurich.stat().known and basel.leaves().total == zurich.leaves().total
        print(f"carried: both sites have {basel.stat().known} states and {basel.leaves().total} leaves")
        # one office merges, and the other gets the merge: two that merge the same leaves would make two more leaves
        merged = basel.merge(tardis.union_of(","))
        carry(addresses)
        print(f"merged in Basel as {merged.id}, and carried to Zurich\nin Zurich: {calendar(zurich)}")
        # a laptop reads, and goes offline; it needs no more than the state at which it read
        # (device.py shows what to do where that was collected)
        with tardis.connect(addresses[1]) as laptop:
            laptop.open()
            read_at = laptop.begin("any")
        book(basel, "tuesday", "Dora"), carry(addresses)
        with tardis.connect(addresses[1]) as laptop:
            laptop.open()
            txn = book(laptop, "tuesday", "Eve", at=read_at)
            beside = ", ".join(map(str, txn.beside))
            print(f"the laptop was offline since {read_at}, and comes back: {txn.committed} is a fork beside {beside}")
        book(zurich, "wednesday", "Carl")
        carry(addresses)
        basel.merge(tardis.union_of(","))
        carry(addresses)
        print(f"merged: {calendar(basel)}")
        print("both offices read the same" if calendar(basel) == calendar(zurich) else "they differ")


if __name__ == "__main__":
    main(*sys.argv[1:])
