"""What follows from records that were pulled, and what doesn't."""

import unittest

from servers_here import tardis

from tardis.bases import value_together  # noqa: E402
from tardis.histories import Records  # noqa: E402

StateId, Record, Write = tardis.StateId, tardis.Record, tardis.Write


def records_of(*rows):
    """Records of site 1 from rows of a number, its parents' numbers, and what it wrote."""
    found = Records()
    found.add(tardis.Batch((), tuple(
        Record(StateId(1, number), tuple(StateId(1, parent) if parent else tardis.ROOT for parent in parents),
               tuple(Write(key.encode(), None if value is None else value.encode()) for key, value in sorted(writes.items())))
        for number, parents, writes in rows), ()))
    return found


class Histories(unittest.TestCase):
    def test_what_is_read_over_states_that_are_not_known(self):
        """1.2 was collected before its record was told: it may have written any key."""
        first, last = (1, [0], {"k": "old", "gone": "x"}), (3, [2], {"other": "1", "gone": None})
        torn = records_of(first, last)
        self.assertEqual(torn.read(b"k", StateId(1, 1)), tardis.Value(StateId(1, 1), b"old"))
        self.assertIsNone(torn.read(b"k", StateId(1, 3)))
        self.assertIsNone(torn.read(b"never", StateId(1, 3)))
        self.assertIsNone(torn.read(b"k", StateId(1, 2)))
        self.assertEqual(torn.contents(StateId(1, 3)), {b"other": b"1", b"gone": None})
        self.assertFalse(torn.ancestry().is_whole(StateId(1, 3)))
        # 1.4 is below 1.2, which may have written anew what 1.1 wrote, and below 1.3
        joined = records_of(first, (3, [1], {"other": "1"}), (4, [2, 3], {}))
        self.assertIsNone(joined.read(b"k", StateId(1, 4)))
        self.assertEqual(joined.read(b"k", StateId(1, 3)), tardis.Value(StateId(1, 1), b"old"))
        whole = records_of(first, (2, [1], {"k": "new"}), last)
        self.assertEqual(whole.read(b"k", StateId(1, 3)), tardis.Value(StateId(1, 2), b"new"))
        self.assertEqual(whole.read(b"gone", StateId(1, 3)), tardis.Deleted(StateId(1, 3)))
        self.assertEqual(whole.read(b"never", StateId(1, 3)), tardis.Absent())
        self.assertTrue(whole.ancestry().is_whole(StateId(1, 3)))

    def test_what_states_have_together(self):
        """Two branches that were merged twice, and then each grew by one: 10, and 1 and 2 more, and 1 and 2 more."""
        rows = [(1, [0], {"n": "10"}), (2, [1], {"n": "11"}), (3, [1], {"n": "12"}), (4, [2, 3], {"n": "13"}), (5, [2, 3], {"n": "13"}),
                (6, [4], {"n": "14"}), (7, [5], {"n": "15"})]

        def together(records, *numbers):
            return value_together(records.ancestry(), tardis.counter, b"n", [StateId(1, number) for number in numbers])

        whole = records_of(*rows)
        for numbers, value in [((2, 3), b"13"), ((4, 5), b"13"), ((6, 7), b"16"), ((6, 5), b"14"), ((6,), b"14")]:
            self.assertEqual(together(whole, *numbers), value, numbers)
        # without the record of 1.1 nobody can tell what 1.2 and 1.3 added, and so on; a state alone is read still
        torn = records_of(*rows[1:])
        for numbers in [(2, 3), (4, 5), (6, 7)]:
            self.assertEqual(together(torn, *numbers), tardis.UNKNOWN)
        self.assertEqual(together(torn, 6), b"14")
        # where each side has states that aren't known, they may share some of them; where they share none, one isn't known
        for rows in [[(1, [0], {"n": "1"}), (5, [1, 3], {"n": "5"}), (6, [1, 4], {"n": "6"})], [(5, [3], {"n": "5"}), (6, [0], {"n": "6"})]]:
            self.assertEqual(together(records_of(*rows), 5, 6), tardis.UNKNOWN)


if __name__ == "__main__":
    unittest.main()
