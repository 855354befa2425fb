"""A document that two people write at once, merged line by line: `examples/run.py document`.

It prints:

    ann wrote 1.2, bob wrote 1.3
    they parted at 1.1, where it had 6 lines
    merged as 1.4:
    # Shopping
    Buy before Friday:
    - milk
    - bread
    - oranges
    - salt
    Bob goes.
    7 lines, and none of them twice
    it reads the same for both
"""

import sys

import tardis

SITES = 1

FIRST = """# Shopping
Buy:
- milk
- bread
- apples
Who goes?
"""


def edit(site, at, *changes):
    """Reads the document at a state, replaces texts, and commits."""
    with site.transaction(at=at) as txn:
        text = txn.value("doc").decode()
        for old, new in changes:
            assert old in text, old
            text = text.replace(old, new)
        txn.put("doc", text)
    return txn.committed


def main(address):
    with tardis.connect(address) as ann, tardis.connect(address) as bob:
        ann.open(), bob.open()
        with ann.transaction() as txn:
            txn.put("doc", FIRST)
        start = txn.committed
        # both read the first text; Ann changes a line and adds two, Bob takes one out of the list, adds one of Ann's, and answers
        one = edit(ann, start, ("Buy:", "Buy before Friday:"), ("- apples\n", "- apples\n- oranges\n- salt\n"))
        other = edit(bob, start, ("- apples\n", "- salt\n"), ("Who goes?", "Bob goes."))
        print(f"ann wrote {one}, bob wrote {other}")
        # the value where they parted tells what each of them changed; a merge asks for it by itself
        [(parted, base)] = ann.base("doc", [one, other]).items()
        print(f"they parted at {parted}, where it had {len(base.value.splitlines())} lines")
        merged = ann.merge(tardis.three_way_text)
        with ann.transaction() as txn:
            text = txn.value("doc").decode()
        print(f"merged as {merged.id}:\n{text}", end="")
        lines = text.splitlines()
        print(f"{len(lines)} lines, and {'none' if len(set(lines)) == len(lines) else 'some'} of them twice")
        with bob.transaction() as txn:
            print("it reads the same for both" if txn.value("doc").decode() == text else "it differs")


if __name__ == "__main__":
    main(sys.argv[1])
