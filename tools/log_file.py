"""The file of `tardisd --file`, read and written byte by byte as docs/FORMATS.md says ('The text of a log', 'The items of a server's
log'): so that what is in a file is known without the server, and files can be made that no server writes."""

import hashlib
import re
import struct
from typing import Dict, List, NamedTuple, Optional, Tuple, Union

NAME, VERSION = b"tardislg", 1
LIFE = 16
#: the most bytes of an entry, and of an item
LONGEST_ENTRY, LONGEST_ITEM = 2_097_153, 1_048_576
MARK = re.compile(rb"\xf5|\xf6[\x01-\x03]")
SPELLED = re.compile(rb"[\x00\xf5-\xf7]")

Id = Tuple[int, int]


class Front(NamedTuple):
    """What a log says first."""
    sites: int
    own: int
    most_kept: int
    most_pairs: int
    most_sessions: int
    life: bytes


#: of a site that is alone, as the program makes it
FRONT = Front(1, 1, 16_384, 65_000, 256, bytes(range(LIFE)))


class Record(NamedTuple):
    id: Id
    parents: Tuple[Id, ...]
    writes: Dict[bytes, Optional[bytes]]


class Consent(NamedTuple):
    site: int
    number: int
    floor: Id
    stated: int


class Collection(NamedTuple):
    count: int  # type: ignore[assignment]


class Life(NamedTuple):
    site: int
    life: bytes


class Row(NamedTuple):
    site: int
    count: int  # type: ignore[assignment]


class State(NamedTuple):
    """A state that a checkpoint tells."""
    record: Record


class Line(NamedTuple):
    site: int
    count: int  # type: ignore[assignment]


class Gone(NamedTuple):
    id: Id


class Floor(NamedTuple):
    state: Id
    number: int
    stated: int


class End(NamedTuple):
    """The end of a checkpoint, with the floor of each site."""
    floors: Tuple[Floor, ...]


Part = Union[State, Line, Gone]
Thing = Union[Record, Consent, Collection, Life, Row, Part, End]


class NoLog(Exception):
    """The bytes hold no log, or from a place on a damaged one."""

    def __init__(self, why: str, place: int = 0) -> None:
        super().__init__("%s at byte %d" % (why, place))
        self.place = place


def is_zeros(data: bytes) -> bool:
    return data == bytes(len(data))


# entries

def entry(item: bytes) -> bytes:
    return SPELLED.sub(lambda found: b"\xf5" if found[0] == b"\0" else bytes([0xF6, found[0][0] - 0xF4]), item) + b"\xf7"


def entry_at(data: bytes, place: int) -> Optional[Tuple[bytes, int]]:
    """The item of the whole entry at a place, and where it ends."""
    end = data.find(b"\xf7", place, place + LONGEST_ENTRY)
    if end < 0:
        return None
    text = data[place:end]
    item = MARK.sub(lambda found: b"\0" if found[0] == b"\xf5" else bytes([found[0][1] + 0xF4]), text)
    # (an item has one spelling)
    return (item, end + 1) if len(item) <= LONGEST_ITEM and entry(item) == text + b"\xf7" else None


# items

def check(data: bytes) -> bytes:
    return hashlib.sha256(data).digest()[:8]


def front_item(front: Front, version: int = VERSION) -> bytes:
    text = NAME + struct.pack(">HHHIIH", version, *front[:5]) + front.life
    return text + check(text)


def read_front(item: bytes) -> Front:
    if item[:8] != NAME:
        raise NoLog("no log")
    version = int.from_bytes(item[8:10], "big")
    if version != VERSION:
        raise NoLog("version %d" % version)
    if len(item) != 48 or item[40:] != check(item[:40]):
        raise NoLog("damaged front")
    numbers = struct.unpack(">HHIIH", item[10:24])
    return Front(*numbers, item[24:40])


def group_item(life: bytes, number: int, body: bytes) -> bytes:
    spelled = struct.pack(">Q", number)
    return spelled + check(life + spelled + body) + body


def log_bytes(front: Front, bodies: List[bytes], zeros: int = 4096) -> bytes:
    """The bytes of a file that holds a log, and room behind it."""
    items = [front_item(front)] + [group_item(front.life, number, body) for number, body in enumerate(bodies)]
    return b"".join(map(entry, items)) + bytes(zeros)


# what lasts

def id_spelling(id: Id) -> bytes:
    return struct.pack(">HI", *id)


def record_spelling(record: Record) -> bytes:
    writes = b"".join(
        bytes([len(key)]) + key + (b"\0" if value is None else b"\1" + struct.pack(">H", len(value)) + value)
        for key, value in sorted(record.writes.items()))
    return id_spelling(record.id) + bytes([len(record.parents)]) + b"".join(map(id_spelling, record.parents)) \
        + bytes([len(record.writes)]) + writes


def floor_spelling(floor: Floor) -> bytes:
    return id_spelling(floor.state) + struct.pack(">II", floor.number, floor.stated)


def part_spelling(part: Part) -> bytes:
    if isinstance(part, State):
        return b"\6" + record_spelling(part.record)
    if isinstance(part, Line):
        return b"\7" + struct.pack(">HI", *part)
    return b"\x08" + id_spelling(part.id)


def thing_spelling(thing: Thing) -> bytes:
    if isinstance(thing, Record):
        return b"\1" + record_spelling(thing)
    if isinstance(thing, Consent):
        return b"\2" + struct.pack(">HI", thing.site, thing.number) + id_spelling(thing.floor) + struct.pack(">I", thing.stated)
    if isinstance(thing, Life):
        return b"\4" + struct.pack(">H", thing.site) + thing.life
    if isinstance(thing, Row):
        return b"\5" + struct.pack(">HI", *thing)
    if isinstance(thing, End):
        return b"\x09" + bytes([len(thing.floors)]) + b"".join(map(floor_spelling, thing.floors))
    if isinstance(thing, Collection):
        return b"\3" + struct.pack(">I", thing.count)
    return part_spelling(thing)


class Fields:
    """Takes fields from the front of a body."""

    def __init__(self, data: bytes) -> None:
        self.data, self.place = data, 0

    def take(self, count: int) -> bytes:
        taken = self.data[self.place:self.place + count]
        if len(taken) != count:
            raise ValueError("it ends too early")
        self.place += count
        return taken

    def number(self, size: int) -> int:
        return int.from_bytes(self.take(size), "big")

    def id(self) -> Id:
        return self.number(2), self.number(4)

    def write(self) -> Tuple[bytes, Optional[bytes]]:
        key, kind = self.take(self.number(1)), self.number(1)
        return key, self.take(self.number(2)) if kind else None

    def record(self) -> Record:
        return Record(self.id(), tuple(self.id() for _ in range(self.number(1))), dict(self.write() for _ in range(self.number(1))))

    def floor(self) -> Floor:
        return Floor(self.id(), self.number(4), self.number(4))

    def thing(self) -> Thing:
        kind = self.number(1)
        if kind == 1:
            return self.record()
        if kind == 2:
            return Consent(self.number(2), self.number(4), self.id(), self.number(4))
        if kind == 3:
            return Collection(self.number(4))
        if kind == 4:
            return Life(self.number(2), self.take(LIFE))
        if kind == 5:
            return Row(self.number(2), self.number(4))
        if kind == 6:
            return State(self.record())
        if kind == 7:
            return Line(self.number(2), self.number(4))
        if kind == 8:
            return Gone(self.id())
        if kind == 9:
            return End(tuple(self.floor() for _ in range(self.number(1))))
        raise ValueError("nothing that lasts has the kind %d" % kind)


def things_of(body: bytes) -> List[Thing]:
    fields, things = Fields(body), []
    while fields.place < len(body):
        start = fields.place
        things.append(fields.thing())
        if thing_spelling(things[-1]) != body[start:fields.place]:
            raise ValueError("it is spelled otherwise than it should be")
    return things


# files

class LogReader:
    """Reads a log as it grows: what was read once must stay as it was."""

    def __init__(self) -> None:
        self.front: Optional[Front] = None
        self.text, self.number = b"", 0

    def read(self, data: bytes) -> List[Tuple[int, bytes]]:
        """The groups that came since the last time, each with its place. Raises `NoLog` where the file is no log, or damaged."""
        if data[:len(self.text)] != self.text:
            raise NoLog("other bytes than there were before")
        place, groups = len(self.text), []
        if self.front is None:
            found = entry_at(data, 0)
            if found is None:
                raise NoLog("no log")
            self.front, place = read_front(found[0]), found[1]
        while True:
            found = entry_at(data, place)
            if found is None:
                break
            item, end = found
            if item != group_item(self.front.life, self.number, item[16:]):
                raise NoLog("damaged", place)
            groups.append((place, item[16:]))
            place, self.number = end, self.number + 1
        self.text = data[:place]
        _look_at_end(data, place)
        return groups


def _look_at_end(data: bytes, place: int) -> None:
    """Raises `NoLog` where something else stands behind a log than what a crash leaves."""
    mark = data.find(b"\xf7", place)
    behind = min(place + LONGEST_ENTRY, mark + 1 if mark >= 0 else len(data))
    if not is_zeros(data[behind:]):
        raise NoLog("damaged", place)


def is_new(data: bytes) -> bool:
    """Whether the bytes are those of a file that a server has only begun to make."""
    if is_zeros(data):
        return True
    return len(data) >= 4096 and is_zeros(data[128:]) and entry_at(data, 0) is None and all(
        byte in (0, named) for byte, named in zip(data, NAME))
