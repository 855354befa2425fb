"""Counters and sets that many change at once, merged by rules for their keys: `examples/run.py counters`.

It prints:

    1.1 has 10 visits
    6 clients wrote, each on a branch of its own: 6 leaves
    $ python -m tardis merge ADDRESS --rules visits/=count,cart/=set
    1.8 joins 1.2, 1.3: cart/1, visits/home
    1.9 joins 1.4, 1.5: cart/1, visits/home
    1.10 joins 1.6, 1.7: cart/1, visits/home
    1.11 joins 1.8, 1.9: cart/1, visits/home
    1.12 joins 1.10, 1.11: cart/1, visits/home
    visits/home is 16, cart/1 is item0,item1,item2,item3,item4,item5,tea
    $ python -m tardis merge ADDRESS --rules visits/=count,cart/=set
    tardis: the key b'price' can't be resolved: no rule's prefix begins it, so its rule is `refuse`
"""

import subprocess
import sys

import tardis

SITES = 1

# a server that is started with --rules joins by the same rules, and so does merge(tardis.Rules(RULES)) of a client
RULES = "visits/=count,cart/=set"


def merge(address):
    """Joins all leaves by the rules, as a person does it by the command."""
    print(f"$ python -m tardis merge ADDRESS --rules {RULES}")
    told = subprocess.run([sys.executable, "-m", "tardis", "merge", address, "--rules", RULES], stdout=subprocess.PIPE, stderr=subprocess.STDOUT)
    print(told.stdout.decode(), end="")


def main(address):
    clients = [tardis.connect(address) for _ in range(6)]
    for client in clients:
        client.open()
    first = clients[0]
    with first.transaction() as txn:
        txn.put("visits/home", "10"), txn.put("cart/1", "tea")
    print(f"{txn.committed} has {dict(first.items(txn.committed).items)[b'visits/home'].decode()} visits")
    # each reads the same state before any of them commits
    for client in clients:
        client.begin(txn.committed)
    for number, client in enumerate(clients):
        client.put("visits/home", str(int(client.value("visits/home")) + 1))
        # (the rule `set` reads items that ascend)
        client.put("cart/1", b",".join(sorted([client.value("cart/1"), b"item%d" % number])))
    for client in clients:
        client.commit()
    print(f"{len(clients)} clients wrote, each on a branch of its own: {first.leaves().total} leaves")
    merge(address)
    joined = first.leaves().first[0]
    values = {key.decode(): value.decode() for key, value in first.items(joined).items}
    print(f"visits/home is {values['visits/home']}, cart/1 is {values['cart/1']}")
    # no rule speaks of prices, and so nobody chooses one
    for client in clients[:2]:
        client.begin(joined)
    for number, client in enumerate(clients[:2]):
        client.put("price", str(number)), client.commit()
    merge(address)
    for client in clients:
        client.disconnect()


if __name__ == "__main__":
    main(sys.argv[1])
