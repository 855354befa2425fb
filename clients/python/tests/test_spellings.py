"""The client's spellings against the rows of the documents: what it asks, and how it reads what is answered."""

import os
import pickle
import re
import unittest

from servers_here import TOP, tardis

from tardis import requests  # noqa: E402
from tardis.codes import ReplyCode, RequestCode  # noqa: E402
from tardis.refusals import REFUSAL_OF  # noqa: E402
from tardis.replies import read_reply  # noqa: E402

StateId = tardis.StateId


def lines(page):
    with open(os.path.join(TOP, page), encoding="utf-8") as file:
        return file.read().split("\n")


def cells(line):
    return [part.strip() for part in line.strip("|").split(" | ")]


def unhexed(text):
    return bytes.fromhex(text.replace("`", "").replace(" ", ""))


def word_bytes(word):
    return bytes.fromhex(word[1:]) if word.startswith("#") else word.encode()


def request_of(words):
    """The client's request for the words of a line (`docs/FORMATS.md`, 'Lines')."""
    first, rest = words[0], words[1:]
    if first == "begin":
        return requests.begin(rest[1] if rest[0] == "at" else rest[0])
    if first == "commit":
        flags = rest[0].split("+") if rest and rest[0] != "-" else [] if rest else ["ser"]
        most = [int(word[3:]) for word in flags if word.startswith("kb:")]
        return requests.commit("ser" in flags, "si" in flags, "nb" in flags, most[0] if most else None)
    made = {
        "open": lambda: requests.open_session(rest == ["follow"]), "close": requests.close, "abort": requests.abort,
        "get": lambda: requests.get(word_bytes(rest[0])), "del": lambda: requests.delete(word_bytes(rest[0])),
        "put": lambda: requests.put(word_bytes(rest[0]), word_bytes(rest[1])),
        "merge": lambda: requests.begin_merge([] if rest == ["leaves"] else rest), "forks": requests.fork_points,
        "leaves": requests.leaves, "stat": requests.stat, "conflicts": lambda: requests.conflicts(word_bytes(rest[0]) if rest else b""),
        "getfor": lambda: requests.get_for(word_bytes(rest[0]), rest[1]), "ceiling": lambda: requests.ceiling(rest[0]),
        "raise": lambda: requests.raise_floor(None if rest == ["auto"] else rest[0]), "show": lambda: requests.show(rest[0]),
        "tidy": lambda: requests.tidy(int(rest[0])), "pull": lambda: requests.pull([int(word) for word in rest]),
        "deliver": lambda: requests.deliver(bytes.fromhex(rest[0])), "settle": requests.settle,
    }
    return made[first]()


# A reply for each code of FORMATS, and what the client makes of it.
ONE, OTHER = StateId(1, 2), StateId(2, 1)
ID, OTHER_ID = "0001 00000002", "0002 00000001"
REPLIES = {
    1: ("01" + ID, tardis.Opened(ONE)), 2: ("02 000000000000", tardis.Begun(tardis.ROOT)), 3: ("03 02" + ID + OTHER_ID, tardis.Merging((ONE, OTHER))),
    4: ("04" + ID + "0001 31", tardis.Value(ONE, b"1")), 5: ("05" + ID, tardis.Deleted(ONE)), 6: ("06", tardis.Absent()), 7: ("07", tardis.Done()),
    8: ("08" + ID + "01 000000000000", tardis.Committed(ONE, (tardis.ROOT,))), 9: ("09" + ID, tardis.Ended(ONE)),
    10: ("0a 00000003 0001" + ID, tardis.States(3, (ONE,))), 11: ("0b 00000001 0001 0178", tardis.Keys(1, (b"x",))),
    12: ("0c" + ID + "00000005", tardis.Raised(ONE, 5)), 13: ("0d 00000007", tardis.Tidied(7)),
    14: ("0e 0000000000000009 00000008 00000002 0003 01 00000008" + ID + "00000005",
         tardis.Stat(9, 8, 2, 3, (tardis.SiteLine(8, ONE, 5),))),
    15: ("0f 0000000000000002 00000001" + OTHER_ID + "00000001" + ID + "00000001", tardis.Shown(2, (OTHER,), ((ONE, 1),))),
    16: ("10 0001 0002 00000001 01 0000 00000000 02 01 61 01 0001 31 01 62 00 01 0002 00000001 0002 00000003 00000003", tardis.Batch(
        (unhexed("01 0002 00000001 01 0000 00000000 02 01 61 01 0001 31 01 62 00"), unhexed("02 0002 00000001 0002 00000003 00000003")),
        (tardis.Record(OTHER, (tardis.ROOT,), (tardis.Write(b"a", b"1"), tardis.Write(b"b", None))),),
        (tardis.Consent(2, 1, StateId(2, 3), 3),))),
    17: ("11", tardis.Applied()), 18: ("12", tardis.Known()), 19: ("13 00000003", tardis.Early(3)), 20: ("14", tardis.Closed()),
}
# The fields of each refusal, by the words of FORMATS' table.
FIELDS = {
    "none": ("", ()), "u16": ("0007", (7,)), "u32": ("00000007", (7,)), "u64": ("0000000000000007", (7,)), "u8": ("07", (7,)),
    "id": (ID, (ONE,)), "id, id": (ID + OTHER_ID, (ONE, OTHER)), "key": ("0178", (b"x",)), "u16, id": ("0007" + ID, (7, ONE)),
    "id, u32": (ID + "00000007", (ONE, 7)), "u16, u32": ("0007 00000008", (7, 8)), "u8 1 writes, 2 reads, 3 states; u32": ("02 00000101", ("reads", 257)),
    "u8 4 or 8, id, u32": ("04" + ID + "00000001", ("no branch", ONE, 1)),
}


class Spellings(unittest.TestCase):
    def test_codes_are_those_of_the_site(self):
        for module, codes in ("request_codes", RequestCode), ("reply_codes", ReplyCode):
            source = "\n".join(lines(f"crates/wire_talk/src/{module}.rt"))
            stated = dict(re.findall(r"pub const (\w+): u8 = (\d+);", source))
            self.assertEqual({code.name: str(code.value) for code in codes}, stated)

    def test_requests_are_spelled_as_the_bodies_of_the_replication(self):
        count = 0
        for line in lines("docs/REPLICATION.md"):
            found = re.match(r"\| `01000[123]000[01]([0-9a-f]+)` \| `[123]: ([^`]*)` \|", line)
            if found:
                count += 1
                body, words = found.groups()
                self.assertEqual(request_of(words.split(" ")).body.hex(), body, line)
        self.assertGreater(count, 25)

    def test_the_frames_of_the_sessions(self):
        """The frames of the two sessions of FORMATS: each request as its words are spelled, and each reply as it is read."""
        text = lines("docs/FORMATS.md")
        for title, asked, last in [
                ("## A session", ["open", "begin any", "put x 1", "commit ser", "begin any", "get x"], tardis.Value(StateId(1, 1), b"1")),
                ("## A cart that forks, and is merged", [
                    "open", "open", "begin any", "put cart tea", "commit ser", "begin any", "begin any", "get cart", "get cart",
                    "put cart tea,milk", "put cart tea,jam", "commit ser", "commit ser", "merge leaves", "forks", "conflicts", "commit -",
                    "getfor cart 1.2", "getfor cart 1.3", "put cart tea,milk,jam", "commit -", "begin any", "get cart"],
                 tardis.Value(StateId(1, 4), b"tea,milk,jam"))]:
            rest = text[text.index(title) + 1:]
            rest = rest[:next(place for place, line in enumerate(rest) if line.startswith("## "))]
            rows = [cells(line) for line in rest if re.match(r"\| `0000", line)]
            self.assertEqual(len(rows), len(asked))
            for row, words in zip(rows, asked):
                frame, told = unhexed(row[0]), unhexed(row[2])
                # behind the length stands the actor, which a connection leaves out
                self.assertEqual((len(frame) - 4, frame[6:]), (int.from_bytes(frame[:4], "big"), request_of(words.split()).body), row)
                reply = read_reply(told[4:])
            self.assertEqual(reply, last)

    def test_each_request_of_formats_is_spelled(self):
        """Every code of the table of requests, as some call spells it."""
        rows = [cells(line) for line in lines("docs/FORMATS.md")]
        codes = {int(row[0]): row[1] for row in rows[:rows.index(["## Replies"])] if len(row) == 3 and row[0].isdigit()}
        words = ["open follow", "begin at 1.2", "get x", "put x #", "del x", "commit ser+si+nb+kb:3", "abort", "merge 1.2 1.1", "forks",
                 "conflicts x", "getfor x 1.2", "ceiling 1.2", "raise 1.2", "raise auto", "tidy 255", "stat", "show 1.2", "leaves",
                 "pull 3 0", "deliver 0200", "close", "settle"]
        spelled = [request_of(word.split()).body for word in words]
        self.assertEqual([body[0] for body in spelled], sorted(codes))
        self.assertEqual(spelled[1], unhexed("02 03 0001 00000002"))
        self.assertEqual(spelled[3], unhexed("04 01 78 0000"))
        self.assertEqual(spelled[5], unhexed("06 0f 0003"))
        self.assertEqual(spelled[7], unhexed("08 02 0001 00000002 0001 00000001"))
        self.assertEqual(spelled[9], unhexed("0a 01 78"))
        self.assertEqual(spelled[14], unhexed("0f 00ff"))
        self.assertEqual(spelled[18], unhexed("13 02 00000003 00000000"))
        self.assertEqual(requests.commit(False, False, False, None).body, unhexed("06 00 0000"))

    def test_each_reply_of_formats_is_read(self):
        rows = [cells(line) for line in lines("docs/FORMATS.md")]
        rows = rows[rows.index(["## Replies"]) + 1:]
        rows = rows[:next(place for place, row in enumerate(rows) if row[0].startswith("## "))]  # what is told to questions stands behind
        codes = {int(row[0]): re.match(r"\w+", row[1]).group() for row in rows if len(row) == 3 and row[0].isdigit()}
        for code, name in codes.items():
            if code == 22:
                self.assertIsInstance(read_reply(b"\x16"), tardis.NoMemory)
            elif code != 21:
                spelled, reply = REPLIES[code]
                self.assertEqual((read_reply(unhexed(spelled)), type(reply).__name__), (reply, name))
                for length in range(len(unhexed(spelled))):
                    with self.assertRaises(tardis.ProtocolError):
                        read_reply(unhexed(spelled)[:length])
        self.assertEqual(sorted(codes), list(range(1, 23)))

    def test_each_refusal_of_formats_is_a_class(self):
        rows = [cells(line) for line in lines("docs/FORMATS.md")]
        rows = [row + [""] * (6 - len(row)) for row in rows[rows.index(["## Replies"]):] if len(row) > 3]
        pairs = [row[at:at + 3] for row in rows for at in (0, 3)]
        told = {int(code): (re.match(r"\w+", name).group(), fields) for code, name, fields in pairs if code.isdigit()}
        self.assertEqual(sorted(told), sorted(REFUSAL_OF))
        for code, (name, fields) in told.items():
            spelled, wanted = FIELDS[fields]
            refusal = read_reply(unhexed("15 %02x" % code + spelled))
            self.assertIsInstance(refusal, getattr(tardis, name))
            self.assertEqual(refusal.fields, wanted)
            again = pickle.loads(pickle.dumps(refusal))
            self.assertEqual((type(again), again.fields, str(again)), (type(refusal), wanted, str(refusal)))
            self.assertRegex(str(refusal), "^%s: .{10}" % name.lower())

    def test_ids(self):
        self.assertEqual([str(tardis.StateId.parse(text)) for text in ("0.0", "1.2", "65535.4294967295")], ["0.0", "1.2", "65535.4294967295"])
        for text in ("", "1", "1.", ".1", "01.2", "1.02", "1.0", "0.1", "-1.2", "1.2.3", "65536.1", "1.4294967296", "1.²"):
            with self.assertRaises(ValueError):
                tardis.StateId.parse(text)


class Resolvers(unittest.TestCase):
    def sides(self, *values):
        held = {StateId(1, number): value for number, value in enumerate(values, 1)}
        return tardis.Sides(held, {side: side for side in held})

    def test_values(self):
        rows = [
            (tardis.counter, b"10", (b"13", b"8"), b"11"), (tardis.counter, None, (b"3", b"4"), b"7"), (tardis.counter, b"2", (None, b"3"), b"1"),
            (tardis.counter, b"2", (None, None), None), (tardis.last_writer, None, (b"a", b"b"), b"b"), (tardis.last_writer, None, (b"a", None), None),
            (tardis.union_of(","), b"tea", (b"tea,jam", b"tea,milk"), b"jam,milk,tea"),
            (tardis.union_of(","), b"jam,tea", (b"jam", b"jam,milk,tea"), b"jam,milk"),
            (tardis.union_of(","), tardis.UNKNOWN, (b"jam", None), b"jam"), (tardis.union_of_lines, None, (b"b\n", b"a\n"), b"a\nb\n"),
            (tardis.three_way_text, b"a\nb\nc", (b"A\nb\nc", b"a\nb\nC"), b"A\nb\nC"), (tardis.three_way_text, b"a\nb", (b"A\nb", b"a\nB"), b"A\nB"),
            (tardis.three_way_text, b"x", (b"y", b"z"), b"y\nz"), (tardis.three_way_text, b"x\n", (None, b"x\n"), None),
            (tardis.three_way_text, b"x\n", (None, b"y\n"), b"y\n"), (tardis.three_way_text, b"a\nb\n", (b"a\nb\nc\n", b"b\n"), b"b\nc\n"),
            (tardis.three_way_text, None, (b"a\nb\n", b"a\nc\n"), b"a\nb\nc\n"), (tardis.three_way_text, tardis.UNKNOWN, (b"a\nb", b"a\nb\nc"), b"a\nb\nc"),
            (tardis.three_way_text, b"1\n2\n3\n4\n", (b"1\n2\n3\n4\n5\n", b"0\n1\n2\n4\n", b"1\n2\n3\n4\n"), b"0\n1\n2\n4\n5\n"),
            # each changed a line, whichever side comes first; and what both inserted is there once, where one took out lines around it
            (tardis.three_way_text, b"a\nb", (b"a\nB", b"A\nb"), b"A\nB"),
            (tardis.three_way_text, b"a\nb\nc", (b"a\nnew\nb\nc", b"new\nB\nc"), b"new\nB\nc"),
            (tardis.three_way_text, b"a\nb\nc", (b"new\nB\nc", b"a\nnew\nb\nc"), b"new\nB\nc"),
            (tardis.three_way_text, b"a\nb\nc\n", (b"a\nb\none\nsame\nc\n", b"a\nsame\nC\n"), b"a\none\nsame\nC\n"),
            (tardis.three_way_text, b"a\n", (b"a\nsame\n", b"a\nsame\n"), b"a\nsame\n"),
            (tardis.by_prefix({"n": tardis.counter, "": tardis.last_writer}), b"1", (b"2", b"3"), b"3"),
        ]
        for resolve, base, values, want in rows:
            self.assertEqual(resolve(b"k", base, self.sides(*values)), want, (resolve, base, values))
        self.assertEqual(tardis.by_prefix({"k": tardis.counter, "": tardis.last_writer})(b"k", b"1", self.sides(b"2", b"3")), b"4")
        for resolve, base, values in [
                (tardis.counter, tardis.UNKNOWN, (b"1", b"2")), (tardis.counter, b"1", (b"x", b"2")),
                (tardis.by_prefix({"n": tardis.counter}), None, (b"1", b"2"))]:
            with self.assertRaises(tardis.Unresolved):
                resolve(b"k", base, self.sides(*values))


if __name__ == "__main__":
    unittest.main()
