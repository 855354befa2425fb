"""Merge rules mean the same everywhere: one table through the client's rules, a client's merge, a server that joins, and `tardis auto`."""

import os
import subprocess
import unittest

from rules_table import ABSENT, CROSSED, GONE, NO_TEXTS, REFUSED, ROWS, TEXTS, UNKNOWN
from servers_here import TARDIS, TARDISD, OfModel, OfTardisd, OverServers, Process, is_built, tardis, words_of

from tardis.resolvers import Sides  # noqa: E402

StateId = tardis.StateId
#: every row's key begins with the name of its rule
RULES = "last/=last,count/=count,set/=set,set3/=set3,refuse/=refuse"


def data(text):
    return None if text is None else text.encode()


class Fork:
    """A row's fork at a site: what stood before, and both sides, committed in one go."""

    def __init__(self, site, number, row):
        self.key = "%s/%d" % (row.rule, number)
        start, made = site.leaves().first[-1], site.stat().sites[0].count
        ids = [StateId(1, made + count) for count in range(1, 7)]
        with site.pipeline() as line:
            if row.base in (UNKNOWN, CROSSED):
                # two branches, merged twice, apart from each other
                parted = self.key if row.base == UNKNOWN else "last/parted"
                for value in "ab":
                    line.begin(start), line.put(parted, value), line.commit()
                for value in "cd":
                    line.begin_merge(ids[:2]), line.put(parted, value), line.commit()
                at, ids = ids[2:4], ids[4:]
            elif row.base == ABSENT:
                at = [start, start]
            else:
                self.write(line, start, row.base)
                at, ids = [ids[0], ids[0]], ids[1:]
            for below, value in zip(at, row[2:4]):
                self.write(line, below, value)
        line.results()
        self.sides = ids[:2]

    def write(self, line, at, value):
        line.begin(at)
        line.delete(self.key) if value is None else line.put(self.key, value)
        line.commit()


class Table(unittest.TestCase):
    def test_each_row(self):
        sides = [StateId(1, 7), StateId(2, 3)]
        self.assertGreater(len(ROWS), 60)
        for row in ROWS:
            base = tardis.UNKNOWN if row.base in (UNKNOWN, CROSSED) else None if row.base in (ABSENT, GONE) else data(row.base)
            values = dict(zip(sides, map(data, row[2:4])))
            for order in (sides, sides[::-1]):
                given = Sides({side: values[side] for side in order}, dict(zip(order, order)))
                with self.subTest(row):
                    try:
                        told = tardis.Rules(RULES)(row.rule.encode() + b"/x", base, given)
                    except tardis.Unresolved as fault:
                        self.assertEqual(row.value, REFUSED, fault)
                    else:
                        self.assertEqual(told, data(row.value))

    def test_texts(self):
        for text, keys in TEXTS:
            self.assertEqual({key: tardis.Rules(text).rule_of(key.encode()) for key in keys}, keys)
        for text in NO_TEXTS:
            with self.assertRaises(ValueError, msg=text):
                tardis.Rules(text)
        if is_built(TARDIS):
            for text in [text for text, _ in TEXTS] + NO_TEXTS:
                told = subprocess.run([TARDIS, "auto", "--rules", text], stdin=subprocess.DEVNULL, stdout=subprocess.PIPE, stderr=subprocess.PIPE)
                self.assertEqual(told.returncode, 1 if text in NO_TEXTS else 0, text)

    def test_lines_of_auto(self):
        """Each row in lines of one `tardis auto`, each below the row before."""
        if not is_built(TARDIS):
            raise unittest.SkipTest("tardis isn't built")
        lines, wanted, made = ["1 open"], {}, 0
        for number, row in enumerate(ROWS):
            key, start = "%s/%d" % (row.rule, number), made

            def write(at, value):
                return ["1 begin at " + state(at), "1 del " + key if value is None else "1 put %s %s" % (key, in_line(value)), "1 commit ser+si"]

            at = [start, start]
            if row.base in (UNKNOWN, CROSSED):
                parted = key if row.base == UNKNOWN else "last/parted"
                lines += ["1 begin at " + state(start), "1 put %s a" % parted, "1 commit ser+si"] * 2
                lines += ["1 merge %s %s" % (state(start + 1), state(start + 2)), "1 put %s b" % parted, "1 commit -"] * 2
                at, made = [start + 3, start + 4], start + 4
            elif row.base != ABSENT:
                lines += write(start, row.base)
                at, made = [start + 1, start + 1], start + 1
            for below, value in zip(at, row[2:4]):
                lines += write(below, value)
            made += 3
            if row.value == REFUSED:
                lines += ["1 auto", "1 merge leaves", "1 put %s joined" % key, "1 put last/parted joined", "1 commit -"]
                wanted[len(lines) - 5] = row, "auto refused " + key
            else:
                lines += ["1 auto", "1 begin at " + state(made), "1 get " + key, "1 abort"]
                wanted[len(lines) - 4] = row, "auto " + state(made)
                wanted[len(lines) - 2] = row, "deleted " + state(made) if row.value is None else "value %s %s" % (state(made), in_line(row.value))
        told = subprocess.run([TARDIS, "auto", "--rules", RULES], input="\n".join([*lines, ""]).encode(), stdout=subprocess.PIPE)
        told = told.stdout.decode().splitlines()
        for place, (row, answer) in wanted.items():
            self.assertEqual(told[place], answer, row)
        self.assertEqual([line for line in told if line.startswith(("refused", "nomemory"))], [])


def state(number):
    return "1.%d" % number if number else "0.0"


def in_line(text):
    """Bytes as a line has them."""
    is_plain = text.isascii() and text and all("!" <= sign <= "~" for sign in text) and text[0] != "#"
    return text if is_plain else "#" + text.encode().hex()


class Merged(OverServers):
    """The table through merges of a client, and merges of more than two leaves."""

    def test_each_row(self):
        self.serve()
        site = self.connect()
        site.open(follow=False)
        for number, row in enumerate(ROWS):
            fork = Fork(site, number, row)
            with self.subTest(row):
                try:
                    merged = site.merge(tardis.Rules(RULES), fork.sides)
                except tardis.Unresolved as fault:
                    self.assertEqual((row.value, fault.key, fault.steps), (REFUSED, fork.key.encode(), ()))
                    merged = site.merge(tardis.last_writer)
                else:
                    self.assertEqual(site.value_at(fork.key, merged.id), data(row.value))
            self.assertEqual(site.leaves().first, (merged.id,))

    def test_what_stays_apart(self):
        """Those that the rules settle are joined, and of the others it is said why."""
        self.serve()
        site = self.connect()
        site.open(follow=False)
        for price, item in (("1", "a"), ("2", "b"), (None, "c"), (None, "d")):
            with site.transaction(at=tardis.ROOT) as txn:
                txn.put("cart/1", item)
                if price:
                    txn.put("price", price)
        with self.assertRaisesRegex(tardis.Unresolved, "^the key b'price' can't be resolved: no rule's prefix begins it") as caught:
            site.merge(tardis.Rules("cart/=set"))
        # 1.1 and 1.3 first, and then, in order of arrival, 1.2 and 1.4; what these made stays apart
        self.assertEqual([step.parents for step in caught.exception.steps], [
            (StateId(1, 1), StateId(1, 3)), (StateId(1, 2), StateId(1, 4))])
        self.assertEqual(site.leaves().first, tuple(step.id for step in caught.exception.steps))
        with self.assertRaisesRegex(tardis.Unresolved, "its rule is `refuse`"):
            site.merge(tardis.Rules("cart/=set,p=refuse"))
        self.assertEqual(site.merge(tardis.Rules("cart/=set,price=last")).keys, (b"cart/1", b"price"))
        self.assertEqual(dict(site.scan(site.leaves().first[0])), {b"cart/1": b"a,b,c,d", b"price": b"2"})

    def test_what_the_client_writes_a_server_reads(self):
        """`union_of(",")` takes items in any order, and writes them ascending, also where both sides are equal."""
        self.serve()
        site = self.connect()
        site.open(follow=False)
        for one, other, value in [("milk,bread", "eggs,,milk", b"bread,eggs,milk"), ("b,a,b", "b,a,b", b"a,b"), (None, None, None), (None, "b,a", b"a,b")]:
            start = site.leaves().first[0]
            with site.pipeline() as line:
                for text in (one, other):
                    line.begin(start), line.delete("s") if text is None else line.put("s", text), line.commit()
            merged = site.merge(tardis.union_of(","))
            self.assertEqual(site.value_at("s", merged.id), value)
        self.assertEqual(tardis.Rules("=set")(b"s", None, Sides({1: b"a,b", 2: b"c"}, {1: 1, 2: 2})), b"a,b,c")


class Joined(unittest.TestCase):
    """The table through a server that joins by itself."""

    def test_each_row(self):
        if not is_built(TARDISD):
            raise unittest.SkipTest("tardisd isn't built")
        import shutil
        import tempfile
        folder = tempfile.mkdtemp()
        self.addCleanup(shutil.rmtree, folder)
        address = "unix:" + os.path.join(folder, "site")
        server = Process(words_of(address, ["--rules", RULES]))
        self.addCleanup(server.stop)
        site = tardis.connect(address, 20)
        self.addCleanup(site.disconnect)
        site.open(follow=False)
        for number, row in sorted(enumerate(ROWS), key=lambda pair: pair[1].value == REFUSED):
            fork = Fork(site, number, row)
            # where a fork stayed apart it looks again behind 64 replies of these
            with site.pipeline() as line:
                for _ in range(140):
                    line.stat()
            leaves = site.leaves()
            with self.subTest(row):
                if row.value == REFUSED:
                    self.assertEqual(leaves.first, tuple(fork.sides))
                else:
                    self.assertEqual(leaves.total, 1)
                    self.assertEqual(site.value_at(fork.key, leaves.first[0]), data(row.value))
            if leaves.total > 1:
                site.merge(tardis.last_writer)


class MergedTardisd(OfTardisd, Merged):
    pass


class MergedModel(OfModel, Merged):
    pass


del Merged

if __name__ == "__main__":
    unittest.main()
