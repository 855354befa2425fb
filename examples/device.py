"""A device that is offline for a while: `examples/run.py device`.

It keeps in a file what it read, at which state, and what it changed since. When it comes back it commits below that
state, which forks where others changed the same, and merges. Where the state was collected meanwhile, it merges its
changes with what is there by what it kept. Killed at any moment, it goes on from its file, and no change is made twice.

It prints:

    the device read 1.1: cart=tea visits=10
    offline it has cart=jam,tea visits=11
    the phone committed 1.2: cart=milk,tea visits=12
    the device commits below 1.1: 1.3, a fork beside 1.2
    it merged as 1.4
    the device read 1.4: cart=jam,milk,tea visits=13
    offline it has cart=jam,milk visits=14
    the phone committed 1.5: cart=jam,milk,rice,tea visits=15
    1.4 was collected meanwhile
    the device merges with 1.5 what it kept: 1.6
    the device read 1.6: cart=jam,milk,rice visits=16
"""

import json
import os
import sys
import tempfile

import tardis

SITES = 1

KEYS = ("cart", "visits")
#: what each key shall have where two sides changed it
RESOLVE = tardis.by_prefix({"cart": tardis.union_of(","), "visits": tardis.counter})
#: the last of the device's commits by its number, written by each: so a device that was killed knows whether one was
#: made
MARK = "device/1"


def save(path, kept):
    """Beside the old file, and in its place once it is on the disk."""
    with open(path + ".new", "w", encoding="utf-8") as file:
        json.dump(kept, file)
        file.flush()
        os.fsync(file.fileno())
    os.replace(path + ".new", path)


def load(path):
    with open(path, encoding="utf-8") as file:
        return json.load(file)


def words(values):
    return " ".join(f"{key}={values[key]}" for key in KEYS)


def read(site, path, number):
    """Keeps the id of the newest state, and what it has. The next commit has this number."""
    state = site.begin("any")
    base = {key: (site.value(key) or b"").decode() for key in KEYS}
    site.abort()
    save(path, {"state": str(state), "base": base, "values": base, "number": number})
    print(f"the device read {state}: {words(base)}")


def change(path, add=(), remove=(), visits=1):
    """Needs no site."""
    kept = load(path)
    items = set(kept["values"]["cart"].split(",")) - {""}
    count = int(kept["values"]["visits"] or 0) + visits
    kept["values"] = {"cart": ",".join(sorted((items | set(add)) - set(remove))), "visits": str(count)}
    save(path, kept)
    print(f"offline it has {words(kept['values'])}")


def come_back(address, path):
    """Brings the changes to the site, each once, and reads what is there then."""
    kept = load(path)
    with tardis.connect(address) as site:
        site.open()
        is_there = any(int(site.value_at(MARK, leaf) or 0) >= kept["number"] for leaf in site.leaves().first)
        if kept["values"] != kept["base"] and not is_there:
            commit(site, kept)
        merged = site.merge(RESOLVE)
        if merged is not None:
            print(f"it merged as {merged.id}")
        read(site, path, kept["number"] + 1)


def commit(site, kept):
    try:
        with site.transaction(at=kept["state"]) as txn:
            for key, value in kept["values"].items():
                # it reads what it writes, so that it forks where others changed it
                txn.get(key), txn.put(key, value)
            txn.put(MARK, str(kept["number"]))
        beside = ", a fork beside " + ", ".join(map(str, txn.beside)) if txn.forked else ""
        print(f"the device commits below {kept['state']}: {txn.committed}{beside}")
    except (tardis.Below, tardis.Collected):
        # nobody may begin there any more; but the device kept what it read there
        begun = site.retry(lambda txn: three_way(txn, kept))
        print(f"the device merges with {begun} what it kept: {site.last.committed}")


def three_way(txn, kept):
    """Writes what the newest state has and what the device changed since its base."""
    for key in KEYS:
        base, mine, there = kept["base"][key].encode(), kept["values"][key].encode(), txn.value(key)
        txn.put(key, mine if there == base else RESOLVE(key.encode(), base, {"there": there, "mine": mine}))
    txn.put(MARK, str(kept["number"]))
    return txn.begun


def phone_writes(phone, item):
    with phone.transaction(at="any") as txn:
        items = set((txn.value("cart") or b"").decode().split(",")) - {""}
        values = {"cart": ",".join(sorted(items | {item})), "visits": str(int(txn.value("visits") or 0) + 2)}
        for key, value in values.items():
            txn.put(key, value)
    print(f"the phone committed {txn.committed}: {words(values)}")


def main(address):
    path = os.path.join(tempfile.mkdtemp(), "device.json")
    with tardis.connect(address) as phone:
        phone.open()
        with phone.transaction() as txn:
            txn.put("cart", "tea"), txn.put("visits", "10")
        with tardis.connect(address) as site:
            site.open()
            read(site, path, 1)
        change(path, add=["jam"])
        phone_writes(phone, "milk")
        come_back(address, path)
        change(path, remove=["tea"])
        state = load(path)["state"]
        phone_writes(phone, "rice")
        # everybody went on, so a site that tidies collects the state at which the device read
        phone.raise_floor(), phone.tidy()
        try:
            phone.show(state)
        except tardis.Collected:
            print(f"{state} was collected meanwhile")
        come_back(address, path)


if __name__ == "__main__":
    main(sys.argv[1])
