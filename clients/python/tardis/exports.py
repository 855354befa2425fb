"""An export of a running site, and what is put into one: the contents of one state, in the format of `docs/EXPORT.md`."""

import contextlib
import os
import secrets
import shutil
import stat
import struct
from itertools import islice
from typing import IO, Iterable, List, Tuple

from .blocking import Site
from .ids import StateId
from .requests import At

__all__ = ["put_in_place", "put_entries", "read_export", "write_export"]

#: so many keys may one transaction write
MOST_WRITES = 64


def write_export(site: Site, state: At, file: IO[bytes]) -> int:
    """Writes the export of a state to a file that can seek, from its place on, and tells how many keys it has. Where the state is
    collected meanwhile (`Collected`), or anything else goes wrong, what was written is no export. A session that is open, and
    that may begin at the state, keeps it."""
    start, count = file.tell(), 0
    # the number of entries stands before them: it comes at the end
    file.write(bytes(8))
    for key, value in site.scan(state):
        file.write(bytes([len(key)]) + key + struct.pack(">H", len(value)) + value)
        count += 1
    end = file.tell()
    file.seek(start)
    file.write(struct.pack(">Q", count))
    file.seek(end)
    return count


def read_export(file: IO[bytes]) -> List[Tuple[bytes, bytes]]:
    """The keys and values of an export, which is read to its end. Anything else is a `ValueError`."""
    def taken(size: int) -> bytes:
        found = file.read(size)
        if len(found) != size:
            raise ValueError("no export: it ends too early")
        return found

    entries: List[Tuple[bytes, bytes]] = []
    last = b""
    for _ in range(struct.unpack(">Q", taken(8))[0]):
        key = taken(taken(1)[0])
        value = taken(struct.unpack(">H", taken(2))[0])
        if not last < key or len(key) > 128 or len(value) > 4096:
            raise ValueError("no export: its keys don't ascend, or one of them or a value is too long")
        entries.append((key, value))
        last = key
    if file.read(1):
        raise ValueError("no export: something stands behind its end")
    return entries


def put_entries(site: Site, entries: Iterable[Tuple[bytes, bytes]]) -> List[StateId]:
    """Puts keys and values by the open session, up to 64 a transaction, each below the one before, and tells the states that were
    made. Where one isn't made, those before it are there."""
    made: List[StateId] = []
    left = iter(entries)
    while group := list(islice(left, MOST_WRITES)):
        with site.transaction() as txn:
            for key, value in group:
                txn.put(key, value)
        if txn.committed is not None:
            made.append(txn.committed)
    return made


def put_in_place(whole: IO[bytes], path: str) -> None:
    """Copies what is whole to the path: to a file beside it first, which takes its name once it is on the disk. So
    what stood there stays as it was until then, whatever happens. A pipe or a device is written to as it is."""
    whole.seek(0)
    place = os.path.realpath(path)
    if os.path.exists(place) and not os.path.isfile(place):
        with open(place, "wb") as other:
            shutil.copyfileobj(whole, other)
        return
    # (a name that nobody has, so that no other file is lost)
    part = f"{place}.{secrets.token_hex(4)}.part"
    try:
        with open(os.open(part, os.O_WRONLY | os.O_CREAT | os.O_EXCL, 0o666), "wb") as file:
            if os.path.exists(place):
                os.fchmod(file.fileno(), stat.S_IMODE(os.stat(place).st_mode))
            shutil.copyfileobj(whole, file)
            file.flush()
            os.fsync(file.fileno())
        os.replace(part, place)
    except BaseException:
        with contextlib.suppress(FileNotFoundError):
            os.unlink(part)
        raise
    folder = os.open(os.path.dirname(place), os.O_RDONLY)
    try:
        os.fsync(folder)
    finally:
        os.close(folder)
