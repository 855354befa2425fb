"""The names of states, and what a key, a value, a number or a flag must be."""

from typing import NamedTuple, Union

__all__ = ["Bytes", "ROOT", "StateId", "flag", "key_bytes", "number", "state_id", "value_bytes"]

LONGEST_KEY = 128
LONGEST_VALUE = 4096

Bytes = Union[bytes, str]


class StateId(NamedTuple):
    """A state's name: the site that made it, and its number there. The root is 0.0."""

    site: int
    sequence: int

    def __str__(self) -> str:
        return f"{self.site}.{self.sequence}"

    @classmethod
    def parse(cls, text: str) -> "StateId":
        """The id that is written as `1.2`."""
        site, point, sequence = text.partition(".")
        if not (point and _is_number(site) and _is_number(sequence)):
            raise ValueError(f"a state is written SITE.SEQUENCE, as 1.2, and not {text!r}")
        return state_id(cls(int(site), int(sequence)))


ROOT = StateId(0, 0)


def _is_number(text: str) -> bool:
    return text.isascii() and text.isdigit() and (text == "0" or text[0] != "0")


def state_id(given: Union[StateId, str]) -> StateId:
    """The id that is given, as one or as text, where it is one."""
    if isinstance(given, str):
        return StateId.parse(given)
    if not isinstance(given, StateId):
        raise ValueError(f"a state is a StateId or text such as '1.2', and not {given!r}")
    number("the site of a state", given.site, 0, 0xFFFF)
    number("the sequence of a state", given.sequence, 0, 0xFFFFFFFF)
    if (given.site == 0) != (given.sequence == 0):
        raise ValueError(f"both numbers of a state are 0 (the root) or neither is, unlike {given}")
    return given


def number(what: str, given: int, least: int, most: int) -> int:
    """The number that is given, where it lies in its range."""
    if isinstance(given, bool) or not isinstance(given, int) or not least <= given <= most:
        raise ValueError(f"{what} is a whole number from {least:,} to {most:,}, and not {given!r}")
    return given


def flag(what: str, given: bool) -> bool:
    """The flag that is given, where it is one."""
    if not isinstance(given, bool):
        raise ValueError(f"{what} is True or False, and not {given!r}")
    return given


def _bytes(what: str, given: Bytes) -> bytes:
    if isinstance(given, str):
        return given.encode()
    if isinstance(given, bytes):
        return given
    raise TypeError(f"{what} is bytes or text, and not {type(given).__name__}: write str({given!r}) or bytes")


def key_bytes(key: Bytes) -> bytes:
    """A key's bytes: 1 to 128. Text is written as UTF-8."""
    data = _bytes("a key", key)
    if not 1 <= len(data) <= LONGEST_KEY:
        raise ValueError(f"a key has 1 to {LONGEST_KEY} bytes, and not {len(data):,}")
    return data


def value_bytes(value: Bytes) -> bytes:
    """A value's bytes: at most 4,096. Text is written as UTF-8."""
    data = _bytes("a value", value)
    if len(data) > LONGEST_VALUE:
        raise ValueError(f"a value has at most {LONGEST_VALUE:,} bytes, and not {len(data):,}: spread it over several keys")
    return data


def prefix_bytes(prefix: Bytes) -> bytes:
    """The bytes that keys begin with, or stand behind: 0 to 128."""
    data = _bytes("the beginning of a key", prefix)
    if len(data) > LONGEST_KEY:
        raise ValueError(f"the beginning of a key has at most {LONGEST_KEY} bytes, and not {len(data):,}")
    return data
