"""Merge rules, exactly as a server has them (`docs/RULES.md`): how they are written, and the value that each gives
to a key that two sides wrote. The other ready-made resolvers have names of their own, and do what no server does."""

import re
from typing import Dict, List, Optional

from .ids import LONGEST_VALUE
from .refusals import Unresolved
from .resolvers import Base, Sides, Unknown

__all__ = ["NAMES", "Rules"]

NAMES = ("last", "count", "set", "set3", "refuse")
MOST_RULES = 16

_PREFIX = re.compile(rb"[!-~]{0,64}")
_NUMBER = re.compile(rb"0|-?[1-9][0-9]*")
_LEAST, _MOST = -2**63, 2**63 - 1


class Rules:
    """A resolver that goes by the rules of a text, as `--rules` of a server has it: `cart/=set,visits/=count`. The
    rule of a key is that of the longest prefix that begins it, and `refuse` where none does. A text that is no rules
    is a `ValueError`.

    Leaves are joined two at a time, in the order in which a server joins them; two of which a rule gives no value
    stay apart, and `Unresolved` says why. The base is known where the two parted at one state alone."""

    def __init__(self, text: str) -> None:
        self.text = text
        self._rules: Dict[bytes, str] = {}
        for part in text.encode().split(b","):
            prefix, _, name = part.partition(b"=")
            if not _PREFIX.fullmatch(prefix) or name.decode(errors="replace") not in NAMES:
                raise ValueError(f"a rule is PREFIX={'|'.join(NAMES)}, with a prefix of at most 64 bytes from ! to ~, "
                                 f"and not {part.decode()!r}")
            if prefix in self._rules:
                raise ValueError(f"there are two rules for the prefix {prefix.decode()!r}")
            self._rules[prefix] = name.decode()
        if len(self._rules) > MOST_RULES:
            raise ValueError(f"there are at most {MOST_RULES} rules, and not {len(self._rules)}")

    def rule_of(self, key: bytes) -> str:
        """The rule of a key."""
        found = [prefix for prefix in self._rules if key.startswith(prefix)]
        return self._rules[max(found, key=len)] if found else "refuse"

    def __call__(self, key: bytes, base: Base, sides: Sides) -> Optional[bytes]:
        rule = self.rule_of(key)
        if rule == "last":
            return _last(sides)
        if rule == "count":
            return _count(key, base, sides)
        if rule == "set":
            return _written(key, sorted({item for value in sides.values() for item in _items(key, value)}))
        if rule == "set3":
            return _three_way(key, base, sides)
        has_one = any(key.startswith(prefix) for prefix in self._rules)
        raise Unresolved(key, ("" if has_one else "no rule's prefix begins it, so ") + "its rule is `refuse`")

    # how a merge asks it

    def of_equal_sides(self, key: bytes) -> bool:
        """Two that added one each hold the same, and two equal texts may both be no set."""
        return True

    def of_one_fork_point(self, key: bytes) -> bool:
        """A server knows no base where the two parted at several states."""
        return True


def _last(sides: Sides) -> Optional[bytes]:
    written = [(writer, side) for side, writer in sides.writers.items() if writer is not None]
    return sides[max(written)[1]]


def _known(key: bytes, base: Base) -> Optional[bytes]:
    if isinstance(base, Unknown):
        raise Unresolved(key, "the sides parted at several states, so what it was there isn't known")
    return base


def _number(key: bytes, value: Optional[bytes]) -> int:
    if value is None:
        return 0
    number = int(value) if _NUMBER.fullmatch(value) else None
    if number is None or not _LEAST <= number <= _MOST:
        raise Unresolved(
            key, f"{value!r} is no number: one is written in decimal, without leading zeros, and fits 64 bits")
    return number


def _count(key: bytes, base: Base, sides: Sides) -> bytes:
    start = _number(key, _known(key, base))
    total = sum(_number(key, value) - start for value in sides.values()) + start
    if not _LEAST <= total <= _MOST:
        raise Unresolved(key, f"the sum {total:,} doesn't fit 64 bits")
    return b"%d" % total


def _items(key: bytes, value: Optional[bytes]) -> List[bytes]:
    items = value.split(b",") if value else []
    if any(one >= other for one, other in zip([b"", *items], items)):
        raise Unresolved(key, f"{value!r} is no set: its items don't ascend, or one is empty")
    return items


def _written(key: bytes, items: List[bytes]) -> bytes:
    value = b",".join(items)
    if len(value) > LONGEST_VALUE:
        raise Unresolved(key, f"the set has {len(value):,} bytes, and a value at most {LONGEST_VALUE:,}")
    return value


def _three_way(key: bytes, base: Base, sides: Sides) -> bytes:
    before = _items(key, _known(key, base))
    held = [_items(key, value) for value in sides.values()]
    gone = {item for item in before if any(item not in side for side in held)}
    return _written(key, sorted({item for side in held for item in side} - gone))
