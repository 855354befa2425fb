"""Ready-made answers to what a key shall have after a merge.

Each is called as `resolve(key, base, sides)`. `sides` has for each side the value that it reads (None where it has none);
`base` is the value where the sides parted, None where there was none, and `UNKNOWN` where nobody can tell any more.
"""

import difflib
import enum
import heapq
from typing import Callable, Dict, Iterable, Iterator, List, Mapping, Optional, Sequence, Set, Tuple, Union

from .ids import Bytes, StateId, prefix_bytes
from .refusals import Unresolved

__all__ = ["Base", "Resolve", "Sides", "UNKNOWN", "Unknown", "by_prefix", "counter", "last_writer", "merge_text", "three_way_text",
           "union_of", "union_of_lines"]


class Unknown(enum.Enum):
    """The value where the sides parted isn't known."""
    UNKNOWN = "unknown"


UNKNOWN = Unknown.UNKNOWN

Base = Union[bytes, None, Unknown]


class Sides(Dict[StateId, Optional[bytes]]):
    """The value that each side reads, by the side's state; `writers` has the state that wrote it, where there is one."""

    def __init__(self, values: Mapping[StateId, Optional[bytes]], writers: Mapping[StateId, Optional[StateId]]) -> None:
        super().__init__(values)
        self.writers: Dict[StateId, Optional[StateId]] = dict(writers)


Resolve = Callable[[bytes, Base, Sides], Optional[Bytes]]


def _last(key: bytes, base: Base, sides: Sides) -> Optional[bytes]:
    written = [(writer, side) for side, writer in sides.writers.items() if writer is not None]
    return sides[max(written)[1]] if written else None


def _count(key: bytes, base: Base, sides: Sides) -> Optional[bytes]:
    if all(value is None for value in sides.values()):
        return None
    if isinstance(base, Unknown):
        raise Unresolved(key, "the value where the sides parted isn't known, so nobody can tell what each side added")

    def number(value: Optional[bytes]) -> int:
        try:
            return int(value or b"0")
        except ValueError:
            raise Unresolved(key, f"{value!r} is no number") from None

    start = number(base)
    return b"%d" % (start + sum(number(value) - start for value in sides.values()))


class ReadyMade:
    """A resolver that asks nobody, and gives the same each time, so that it may be asked more than a person: what several
    fork points have together, which is the base of sides that parted at all of them. It may be asked of equal sides too, and,
    where it needs no base, of all sides at once. A resolver of one's own says the same by methods of these names."""

    def __init__(self, resolve: Resolve, of_equal_sides: bool = False, of_many_sides: bool = False) -> None:
        self._resolve = resolve
        self._of_equal_sides = of_equal_sides
        self._of_many_sides = of_many_sides

    def __call__(self, key: bytes, base: Base, sides: Sides) -> Optional[Bytes]:
        return self._resolve(key, base, sides)

    def of_equal_sides(self, key: bytes) -> bool:
        return self._of_equal_sides

    def of_many_sides(self, key: bytes) -> bool:
        return self._of_many_sides

    def of_fork_points(self, key: bytes) -> bool:
        return not self._of_many_sides


def _says(resolve: Resolve, what: str, key: bytes) -> bool:
    says = getattr(resolve, what, None)
    return bool(says(key)) if callable(says) else False


def is_asked_of_equal_sides(resolve: Resolve, key: bytes) -> bool:
    """Whether a resolver is asked where all sides have the same value."""
    return _says(resolve, "of_equal_sides", key)


def is_asked_of_many_sides(resolve: Resolve, key: bytes) -> bool:
    """Whether a resolver needs no base, and takes any number of sides."""
    return _says(resolve, "of_many_sides", key)


def is_asked_of_one_fork_point(resolve: Resolve, key: bytes) -> bool:
    """Whether a resolver takes a base for known only where the sides parted at one state."""
    return _says(resolve, "of_one_fork_point", key)


def is_asked_of_fork_points(resolve: Resolve, key: bytes) -> bool:
    """Whether a resolver may be asked what several fork points have together."""
    return _says(resolve, "of_fork_points", key)


#: What the side has whose writer has the greater id, as the rule `last` of `docs/RULES.md`. It says nothing of time.
last_writer: Resolve = ReadyMade(_last, of_many_sides=True)

#: The sum of what each side added, as the rule `count`: decimal texts, of which none counts as 0. It is asked where the sides are
#: equal too, since two that added one each hold the same. What all sides deleted stays deleted.
counter: Resolve = ReadyMade(_count, of_equal_sides=True)


def union_of(separator: Bytes) -> Resolve:
    """A set of items with this between each two. What some side added is there; what a side took out of the base is gone.
    Where the base isn't known, what some side has is there. Items are read in any order, and written ascending, each
    once, so that the rules `set` and `set3` of a server can read what `union_of(",")` wrote. What all sides deleted
    stays deleted."""
    between = separator.encode() if isinstance(separator, str) else separator
    return ReadyMade(lambda key, base, sides: _union(between, base, sides), of_equal_sides=True)


def _union(between: bytes, base: Base, sides: Sides) -> Optional[bytes]:
    if all(value is None for value in sides.values()):
        return None

    def items(value: Base) -> Set[bytes]:
        return set() if value is None or isinstance(value, Unknown) else {item for item in value.split(between) if item}

    held = [items(value) for value in sides.values()]
    removed = {item for item in items(base) if any(item not in side for side in held)}
    return between.join(sorted(set().union(*held) - removed))


def _lines(key: bytes, base: Base, sides: Sides) -> Optional[bytes]:
    merged = _union(b"\n", base, sides)
    ends = any(value is not None and value.endswith(b"\n") for value in sides.values())
    return merged + b"\n" if merged and ends else merged


#: A set of lines, as `union_of("\n")` merges it; with a line feed behind the last where some side has it.
union_of_lines: Resolve = ReadyMade(_lines)


def _text(key: bytes, base: Base, sides: Sides) -> Optional[bytes]:
    start = None if isinstance(base, Unknown) else base
    texts = list(sides.values())
    changed = [text for text in texts if text != start or isinstance(base, Unknown)]
    present = [text for text in changed if text is not None]
    if not present:
        return None if changed else start
    merged = present[0]
    for text in present[1:]:
        merged = merge_text(start, merged, text)
    return merged


#: A text, line by line: what some side inserted since the base is there, what some side took out is gone. So where two sides
#: changed one line, both new ones are there, one after the other; a line that both inserted between the same lines is there once. A
#: side that deleted the text gives way to one that changed it.
three_way_text: Resolve = ReadyMade(_text)


def merge_text(base: Optional[bytes], one: bytes, other: bytes) -> bytes:
    """The two texts, with what each changed of the base. Without a base, the lines of both, each that they share once."""
    if base is None:
        return b"\n".join(_either(one.split(b"\n"), other.split(b"\n")))
    return b"\n".join(_three_ways(base.split(b"\n"), one.split(b"\n"), other.split(b"\n")))


def _either(one: Sequence[bytes], other: Sequence[bytes]) -> Iterator[bytes]:
    matcher = difflib.SequenceMatcher(None, one, other, autojunk=False)
    for tag, a, b, c, d in matcher.get_opcodes():
        yield from one[a:b]
        if tag != "equal":
            yield from other[c:d]


#: a line that was inserted, and behind how many of the base's lines
_Placed = Tuple[int, bytes]


class _Changes:
    """What a text keeps of the base's lines, and what it inserts behind so many of them: in the place of lines that it took
    out, behind the last of these."""

    def __init__(self, base: Sequence[bytes], text: Sequence[bytes]) -> None:
        self.kept: List[bool] = [False] * len(base)
        self.inserted: Dict[int, Sequence[bytes]] = {}
        done = 0
        for a, b, size in difflib.SequenceMatcher(None, base, text, autojunk=False).get_matching_blocks():
            if done < b:
                self.inserted[a] = text[done:b]
            for place in range(a, a + size):
                self.kept[place] = True
            done = b + size


def _three_ways(base: Sequence[bytes], one: Sequence[bytes], other: Sequence[bytes]) -> Iterator[bytes]:
    """The base's lines that both kept, and between two of them what either inserted."""
    first, second = _Changes(base, one), _Changes(base, other)
    ones: List[_Placed] = []
    others: List[_Placed] = []
    for place in range(len(base) + 1):
        ones.extend((place, line) for line in first.inserted.get(place, ()))
        others.extend((place, line) for line in second.inserted.get(place, ()))
        if place == len(base) or first.kept[place] and second.kept[place]:
            yield from _together(ones, others)
            ones, others = [], []
            yield from base[place:place + 1]


def _together(one: Sequence[_Placed], other: Sequence[_Placed]) -> Iterator[bytes]:
    """What both inserted between two lines that both kept: a line that both have once, and the others by their places in the base."""
    matcher = difflib.SequenceMatcher(None, [line for _, line in one], [line for _, line in other], autojunk=False)
    for tag, a, b, c, d in matcher.get_opcodes():
        placed: Iterable[_Placed] = one[a:b] if tag == "equal" else heapq.merge(one[a:b], other[c:d], key=lambda line: line[0])
        yield from (line for _, line in placed)


class _ByPrefix:
    """What `by_prefix` gives."""

    def __init__(self, resolvers: Mapping[Bytes, Resolve]) -> None:
        self._chosen: List[Tuple[bytes, Resolve]] = sorted(
            ((prefix_bytes(prefix), resolve) for prefix, resolve in resolvers.items()), key=lambda pair: -len(pair[0]))

    def _of(self, key: bytes) -> Resolve:
        for prefix, resolve in self._chosen:
            if key.startswith(prefix):
                return resolve
        raise Unresolved(key, "no prefix of by_prefix() begins it; b'' begins all keys")

    def __call__(self, key: bytes, base: Base, sides: Sides) -> Optional[Bytes]:
        return self._of(key)(key, base, sides)

    def of_equal_sides(self, key: bytes) -> bool:
        return is_asked_of_equal_sides(self._of(key), key)

    def of_many_sides(self, key: bytes) -> bool:
        return is_asked_of_many_sides(self._of(key), key)

    def of_fork_points(self, key: bytes) -> bool:
        return is_asked_of_fork_points(self._of(key), key)

    def of_one_fork_point(self, key: bytes) -> bool:
        return is_asked_of_one_fork_point(self._of(key), key)


def by_prefix(resolvers: Mapping[Bytes, Resolve]) -> Resolve:
    """Each key's resolver is that of the longest of these prefixes that begins it."""
    return _ByPrefix(resolvers)
