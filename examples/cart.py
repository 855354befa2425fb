"""A cart that a phone and a laptop change at once: `examples/run.py cart`.

It prints:

    phone: committed 1.1
    phone: committed 1.2
    laptop: committed 1.3, a fork beside 1.2
    at 1.2 the cart is jam,milk
    at 1.3 the cart is bread,jam,tea
    merged as 1.4: bread,jam,milk
"""

import sys

import tardis

SITES = 1


def change(who, site, add, remove=(), at="ancestor"):
    """Reads the cart at a state, and writes it with these changes."""
    with site.transaction(at=at) as txn:
        items = set((txn.value("cart") or b"").decode().split(",")) - {""}
        txn.put("cart", ",".join(sorted((items | set(add)) - set(remove))))
    beside = ", a fork beside " + ", ".join(map(str, txn.beside)) if txn.forked else ""
    print(f"{who}: committed {txn.committed}{beside}")
    return txn.committed


def cart_at(site, state):
    return dict(site.items(state).items)[b"cart"].decode()


def main(address):
    with tardis.connect(address) as phone, tardis.connect(address) as laptop:
        phone.open(), laptop.open()
        start = change("phone", phone, ["jam", "tea"])
        # both go on from there, and neither knows of the other: the phone takes the tea out, the laptop adds bread
        left = change("phone", phone, ["milk"], ["tea"])
        right = change("laptop", laptop, ["bread"], at=start)
        for state in (left, right):
            print(f"at {state} the cart is {cart_at(phone, state)}")
        # nothing is lost: what either added is there, and what either took out is gone
        merged = phone.merge(tardis.union_of(","))
        print(f"merged as {merged.id}: {cart_at(phone, merged.id)}")


if __name__ == "__main__":
    main(sys.argv[1])
