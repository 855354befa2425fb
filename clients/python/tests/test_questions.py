"""Questions: how they are spelled, what each call gives, and what becomes of them where they aren't answered."""

import asyncio
import os
import re
import unittest

from servers_here import PATIENCE, TOP, OfModel, OfOldModel, OfServe, OfTardisd, OverServers, tardis

import tardis.aio  # noqa: E402
from tardis import questions, requests  # noqa: E402
from tardis.codes import AnswerCode, QuestionCode  # noqa: E402
from tardis.conversation import Answer, Conversation  # noqa: E402

StateId, Value = tardis.StateId, tardis.Value
ONE, TWO, THREE = StateId(1, 1), StateId(1, 2), StateId(1, 3)


def text_of(page):
    with open(os.path.join(TOP, page), encoding="utf-8") as file:
        return file.read()


def told(question, spelled):
    """What a question gives, whose answer has these bytes."""
    conversation, answer = Conversation(lambda request, reply: None), Answer(question)
    conversation.ask([answer])
    conversation.take(requests.frame(spelled))
    return answer.result()


class Spellings(unittest.TestCase):
    def test_codes_are_those_of_the_site(self):
        for module, codes in ("question_codes", QuestionCode), ("answer_codes", AnswerCode):
            stated = re.findall(r"pub const (\w+): u8 = (\d+);", text_of(f"crates/plain_questions/src/{module}.rt"))
            self.assertEqual({code.name: str(code.value) for code in codes}, {name: code for name, code in stated if int(code) >= 64})
        for line in re.findall(r"\n\| (\d+) \| (\w+)(?:\{[^|]*\})? \|", text_of("docs/FORMATS.md").split("## Questions, and what is told")[1]):
            self.assertIn(line[1].lower(), {codes(int(line[0])).name.replace("_", "").lower() for codes in (QuestionCode, AnswerCode)})

    def test_the_worked_rows(self):
        """Each question of the worked rows is spelled so, and what it is told is read."""
        page = re.sub(r"\s+", " ", text_of("crates/plain_questions/specs/RowsOfBytes.antt"))
        stated = {bytes.fromhex(asked): bytes.fromhex(answer)
                  for asked, answer in re.findall(r'answer_over_bytes site \(hex "([^"]*)"\) ≡ hex "([^"]*)"', page)}
        rows = [
            (questions.at("d", TWO), Value(TWO, b"bc")), (questions.at("x", THREE), tardis.Deleted(THREE)),
            (questions.at("y", ONE), tardis.Absent()),
            (questions.at("d", "1.4"), tardis.Unknown(StateId(1, 4))), (questions.keys(ONE, "", "d"), tardis.Keys(1, (b"x",))),
            (questions.scan(THREE), tardis.Entries(1, ((b"d", b"ab"),))),
            (questions.record(ONE), tardis.Recorded(1, (tardis.ROOT,), (tardis.ROOT,), (TWO, THREE), (b"d", b"x"))),
            (questions.base("d", [THREE, TWO]), {ONE: Value(ONE, b"b")}),
            (questions.sessions(1), tardis.Sessions(tardis.ROOT, 1, (tardis.SessionLine(2, False, tardis.ROOT, THREE, (), True),))),
            (questions.about(), tardis.About(1, tardis.Limits(1, 16_384, 4_096, 256, 1 << 30), 1, 4, 4))]
        self.assertEqual({question.body for question, _ in rows}, set(stated))
        for question, wanted in rows:
            try:
                self.assertEqual(told(question, stated[question.body]), wanted)
            except tardis.Refused as refusal:
                self.assertEqual((type(refusal), refusal.fields), (type(wanted), wanted.fields))
        self.assertEqual(questions.sessions().body, b"\x45\x00")
        self.assertEqual(questions.keys(TWO, "a", "ab").body, bytes.fromhex("41 0001 00000002 01 61 02 61 62"))
        asked, answer = re.findall(r"`(4[01][0-9a-f ]+)` is answered `([0-9a-f ]+)`", text_of("docs/FORMATS.md"))[0]
        self.assertEqual((questions.at("cart", ONE).body, told(questions.at("cart", ONE), bytes.fromhex(answer))), (
            bytes.fromhex(asked), Value(ONE, b"tea")))

    def test_what_is_refused(self):
        for spelled, wanted in [("15 01", tardis.NoQuestions(64)), ("15 1b 40", tardis.Unsupported(64)), ("15 13" + "0001 00000001", tardis.Collected(ONE)),
                                ("16", tardis.NoMemory())]:
            with self.assertRaises(type(wanted)) as caught:
                told(questions.at("x", ONE), bytes.fromhex(spelled))
            self.assertEqual(caught.exception.args, wanted.args)
        for operation, said in [
                (69, "the question 'sessions' was refused, since this listener is for clients, or for other sites: --listen lets it in"),
                (19, "the request 'pull' was refused, since this listener is for clients: --listen or --peers lets it in"),
                (8, "the request 'begin merge' was refused, since this listener is for other sites: --listen or --clients lets it in"),
                (71, "the question 'life' was refused, since this server doesn't know it, or isn't ready for it"),
                (14, "the request 'raise auto' was refused, since this listener is for clients, or for other sites: --listen lets it in")]:
            self.assertEqual(str(tardis.Unsupported(operation)), "unsupported: " + said)
        with self.assertRaises(tardis.TooMany) as caught:
            told(questions.base("x", [ONE]), bytes.fromhex("15 08 04 00000009"))
        self.assertEqual(caught.exception.fields, ("fork points", 9))
        self.assertIn("parted at 9 states", str(caught.exception))

    def test_what_no_site_tells(self):
        one = "0001 00000001"
        for question, spelled in [
                (questions.at("x", ONE), "06"), (questions.at("x", ONE), "41 00000000 0000"), (questions.at("x", ONE), "40 02"),
                (questions.at("x", ONE), "40 01" + one + "02 0000"), (questions.at("x", ONE), "15 08 04 00000009"), (requests.get("x"), "40 00"),
                (requests.stat(), "46 0001 0001 00004000 00001000 0100 0000000040000000 0001 0000000000000004 00000004"),
                # a page: no key of several, one that wasn't asked for, twice the same, one that stands before, more than there are
                (questions.keys(ONE), "41 00000001 0000"), (questions.keys(ONE, "a"), "41 00000001 0001 01 62"),
                (questions.keys(ONE), "41 00000002 0002 01 62 01 62"), (questions.scan(ONE, "", "b"), "42 00000001 0001 01 62 0000"),
                (questions.scan(ONE), "42 00000001 0002 01 61 0000 01 62 0000"),
                (questions.sessions(), "45" + one + "00000001 0000"), (questions.sessions(2), "45" + one + "00000001 0001 0002 00" + 2 * one + "00 00")]:
            with self.assertRaises(tardis.ProtocolError):
                told(question, bytes.fromhex(spelled))

    def test_what_cannot_be_asked(self):
        for wrong in (lambda: questions.at("", ONE), lambda: questions.base("x", []), lambda: questions.base("x", [ONE] * 9),
                      lambda: questions.keys(ONE, "p" * 129), lambda: questions.scan("1"), lambda: questions.sessions(65_536)):
            self.assertRaises(ValueError, wrong)


class Asked(OverServers):
    """What is told to a client, on any server that answers questions."""

    def written(self, count, size=1):
        """A server and a client, and a state at which so many keys have values."""
        self.serve()
        site = self.connect()
        site.open(follow=False)
        items = [(b"k%04d" % number, b"%d" % number + b"." * size) for number in range(count)]
        for place in range(0, count, 64):
            with site.pipeline() as line:
                line.begin("any")
                for key, value in items[place:place + 64]:
                    line.put(key, value)
                made = line.commit()
        return site, made.result().id, items

    def test_pages_are_followed(self):
        site, state, items = self.written(600, 500)
        asker = self.connect()
        self.assertEqual(asker.items(state), tardis.Items(tuple(items), True))
        self.assertEqual(list(asker.scan(state)), items)
        self.assertEqual(asker.keys(state), tuple(key for key, _ in items))
        self.assertEqual(asker.keys(str(state), "k01"), tuple(key for key, _ in items[100:200]))
        self.assertEqual([key for key, _ in asker.scan(state, "k01", "k0197")], [b"k0198", b"k0199"])
        self.assertEqual((list(asker.scan(state, "x")), list(asker.scan(tardis.ROOT)), asker.keys(tardis.ROOT)), ([], [], ()))
        # others write between two pages, and what is told is what the state has
        scan = asker.scan(state)
        first = [next(scan) for _ in range(3)]
        with site.transaction() as txn:
            txn.put("k0599", "later"), txn.delete("k0300")
        self.assertEqual(first + list(scan), items)
        self.assertEqual(asker.value_at("k0300", txn.committed), None)
        self.assertEqual((asker.get_at("k0300", txn.committed), asker.get_at("k0599", txn.committed), asker.get_at("none", state)), (
            tardis.Deleted(txn.committed), Value(txn.committed, b"later"), tardis.Absent()))
        self.assertEqual(asker.diff(state, txn.committed), (
            tardis.Difference(b"k0300", items[300][1], None), tardis.Difference(b"k0599", items[599][1], b"later")))
        self.assertEqual(asker.stat().sessions, 1)

    def test_the_site_its_sessions_and_records(self):
        self.serve()
        one, other, asker = self.connect(), self.connect(), self.connect()
        one.open(follow=False), other.open()
        with other.transaction() as txn:
            txn.put("x", "1"), txn.delete("y")
        other.begin()
        sessions = asker.sessions()
        numbers = [line.number for line in sessions.first]
        self.assertEqual(sessions, tardis.Sessions(tardis.ROOT, 2, (
            tardis.SessionLine(numbers[0], False, tardis.ROOT, tardis.ROOT, (), True), tardis.SessionLine(numbers[1], True, ONE, ONE, (ONE,), False))))
        about = asker.about()
        self.assertEqual((about.version, about.own, about.known, about.kept, about.limits.kept), (1, 1, 2, 2, 16_384))
        self.assertEqual(asker.record(ONE), tardis.Recorded(1, (tardis.ROOT,), (tardis.ROOT,), (), (b"x", b"y")))
        for call in (lambda: asker.record("1.9"), lambda: asker.get_at("x", "1.9"), lambda: asker.base("x", [ONE, "1.9"]),
                     lambda: asker.items("1.9"), lambda: list(asker.walk("1.9")), lambda: asker.keys("1.9"), lambda: asker.history("1.9")):
            self.assertRaises(tardis.Unknown, call)
        with asker.pipeline() as line:
            read, told, base, about = line.get_at("x", ONE), line.record(tardis.ROOT), line.base("x", [ONE]), line.about()
        self.assertEqual((read.result(), told.result().kept_children, base.result(), about.result().known), (
            Value(ONE, b"1"), (ONE,), {ONE: Value(ONE, b"1")}, 2))

    def test_a_walk_is_newest_first(self):
        site, _, _ = self.written(64)
        for at, value in [(ONE, "a"), (ONE, "b"), (TWO, "c")]:
            with site.transaction(at=at) as txn:
                txn.get("x"), txn.put("x", value)
        merged = site.merge(lambda key, base, sides: b"m").id
        self.assertEqual([state.id.sequence for state in site.walk()], [5, 4, 3, 2, 1, 0])
        self.assertEqual([state.id.sequence for state in site.walk(txn.committed)], [4, 2, 1, 0])
        first = next(site.walk(merged))
        self.assertEqual((first.id, first.parents, first.writes), (merged, (THREE, StateId(1, 4)), (tardis.Write(b"x", b"m"),)))
        self.assertEqual([state.id for state in site.history(txn.committed)], [tardis.ROOT, ONE, TWO, StateId(1, 4)])
        # where states were collected it goes on at the forks above
        site.close()
        late = self.connect()
        late.open()
        late.ceiling(StateId(1, 4)), late.raise_floor(), late.tidy()
        self.assertEqual([(state.id.sequence, state.parents) for state in late.walk()], [
            (5, (THREE, StateId(1, 4))), (4, (TWO,)), (3, (ONE,)), (1, (tardis.ROOT,))])
        for call in (lambda: late.record(TWO), lambda: late.items(TWO), lambda: list(late.scan(TWO)), lambda: late.get_at("x", TWO)):
            self.assertRaises(tardis.Collected, call)

    def test_a_walk_begins_at_all_leaves(self):
        """A site lists the first 256 alone."""
        self.serve()
        site = self.connect()
        site.open(follow=False)
        with site.pipeline() as line:
            for number in range(260):
                line.begin(tardis.ROOT), line.get("x"), line.put("x", str(number)), line.commit()
        self.assertEqual((site.leaves().total, len(site.leaves().first)), (260, 256))
        self.assertEqual([state.id.sequence for state in site.walk()], list(range(260, -1, -1)))

    def nine_forks(self):
        """Two leaves that share nine last states."""
        self.serve()
        site = self.connect()
        site.open(follow=False)
        forks = []
        for number in range(9):
            with site.transaction(at=tardis.ROOT) as txn:
                txn.get("x"), txn.put("x", str(number))
            forks.append(txn.committed)
        leaves = []
        for name in "ab":
            joined = site.merge(tardis.last_writer, forks[:8]).id
            last = site.merge(tardis.last_writer, [joined, forks[8]]).id
            with site.transaction(at=last) as txn:
                txn.get("y"), txn.put("y", name), txn.get("x"), txn.put("x", name)
            leaves.append(txn.committed)
        return site, leaves

    def test_bases(self):
        site, leaves = self.nine_forks()
        asker = self.connect()
        self.assertEqual(asker.base("x", [ONE, TWO]), {tardis.ROOT: tardis.Absent()})
        self.assertEqual(asker.base("x", [ONE, ONE]), {ONE: Value(ONE, b"0")})
        with self.assertRaises(tardis.TooMany) as caught:
            asker.base("y", leaves)
        self.assertEqual((caught.exception.what, caught.exception.count), ("fork points", 9))
        # a merge reads at each of them then: `y` was nowhere, and `x` was something else at each
        asked = {}

        def resolve(key, base, sides):
            asked[key] = base
            return b"z"

        asker.open()
        self.assertEqual([conflict.base for conflict in asker.compare(*leaves).conflicts], [tardis.UNKNOWN, None])
        asker.merge(resolve)
        self.assertEqual(asked, {b"x": tardis.UNKNOWN, b"y": None})

    def test_a_merge_has_its_base_below_its_own_ceiling(self):
        """The base stands above what the session may read, at a state that is closed, and no record of it is given."""
        self.serve()
        one, other = self.connect(), self.connect()
        one.open(), other.open()
        for number in ("1", "2", "3"):
            with one.transaction() as txn:
                txn.put("n", number), txn.put("doc", "a\nb\n")
        fork = one.begin()
        other.begin()
        for site, n, doc in ((one, "4", "a\nb\nc\n"), (other, "5", "b\n")):
            site.get("n"), site.put("n", n), site.put("doc", doc), site.commit()
        one.raise_floor(), one.tidy()
        self.assertRaises(tardis.Below, one.begin, fork)
        connections = one._address
        one._address = None                                 # so that no second connection is to be had
        merged = one.merge(tardis.by_prefix({"n": tardis.counter, "doc": tardis.three_way_text}))
        one._address = connections
        self.assertEqual(dict(one.items(merged.id).items), {b"n": b"6", b"doc": b"b\nc\n"})

    def test_the_same_awaited(self):
        site, state, items = self.written(300, 300)

        async def story():
            async with await tardis.aio.connect(self.address, PATIENCE) as asker:
                self.assertEqual([entry async for entry in asker.scan(state, "k02", "k0297")], items[298:300])
                self.assertEqual((await asker.keys(state))[299], b"k0299")
                self.assertEqual((await asker.items(state)).items, tuple(items))
                self.assertEqual(await asker.value_at("k0001", state), items[1][1])
                self.assertEqual(await asker.get_at("none", state), tardis.Absent())
                self.assertEqual((await asker.record(ONE)).parents, (tardis.ROOT,))
                self.assertEqual(list(await asker.base("k0000", [state])), [state])
                self.assertEqual([it.id.sequence async for it in asker.walk(TWO)], [2, 1, 0])
                self.assertEqual(((await asker.sessions()).total, (await asker.about()).known), (1, 6))

        asyncio.run(story())


class NotAsked(OverServers):
    """A server that answers no questions says so by name; what can be worked out from records is."""

    def test_what_is_unsupported(self):
        self.serve()
        site = self.connect()
        site.open()
        with site.transaction() as txn:
            txn.put("x", "1")
        for call, name in [
                (lambda: site.get_at("x", ONE), "at"), (lambda: list(site.scan(ONE)), "scan"), (lambda: site.record(ONE), "record"),
                (lambda: site.base("x", [ONE]), "base"), (lambda: list(site.walk(ONE)), "record"), (site.sessions, "sessions"),
                (site.about, "site")]:
            with self.assertRaisesRegex(tardis.Unsupported, "^unsupported: the question '%s' was refused, since this server answers no" % name):
                call()
        self.assertEqual((site.items(ONE), site.keys(ONE), site.diff(tardis.ROOT, ONE)), (
            tardis.Items(((b"x", b"1"),), True), (b"x",), (tardis.Difference(b"x", None, b"1"),)))
        self.assertRaises(tardis.Malformed, site.ask, b"\xff")


class AskedTardisd(OfTardisd, Asked):
    pass


class AskedModel(OfModel, Asked):
    pass


class NotAskedServe(OfServe, NotAsked):
    pass


class NotAskedModel(OfOldModel, NotAsked):
    pass


del Asked, NotAsked

if __name__ == "__main__":
    unittest.main()
