"""`python -m tardis COMMAND ADDRESS ..`: looks into a running site, and changes what a person wants changed."""

import argparse
import contextlib
import io
import json
import os
import shutil
import sys
import tempfile
from typing import Any, Callable, Dict, Iterator, List, Optional

from . import __version__
from .blocking import Site, Transaction, connect
from .exports import put_entries, put_in_place, read_export, write_export
from .histories import State
from .ids import StateId
from .merging import Merged, MergeStep
from .pictures import as_dot, as_json, as_svg, as_text, json_bytes, word, writes_data, wrote
from .refusals import NoMemory, ProtocolError, Refused, SessionsFull, Unresolved, Unsupported
from .replies import Deleted, States, Value
from .resolvers import Base, Resolve, Sides, Unknown, by_prefix, counter, last_writer, three_way_text, union_of, union_of_lines
from .rules import NAMES, Rules

#: how long a reply is waited for, in seconds
PATIENCE = 30.0
#: so many leaves are named where one is asked for
MOST_NAMED = 16

Words = argparse.Namespace


class Told(Exception):
    """What ends the command with status 1, told on standard error."""


# what is printed

def say(words: Words, lines: List[str], data: Any) -> None:
    """Prints the lines, or with --json the data."""
    if words.json:
        print(json.dumps(data, ensure_ascii=False))
    else:
        for line in lines:
            print(line)


def graph(site: Site, words: Words) -> None:
    history = site.history()
    if words.svg:
        write_file(words.svg, as_svg(history))
    if words.dot:
        write_file(words.dot, as_dot(history))
    if words.json:
        print(json.dumps(as_json(history), ensure_ascii=False))
    elif not (words.svg or words.dot):
        encoding = (sys.stdout.encoding or "").lower().replace("-", "")
        sys.stdout.write(as_text(history, words.plain or encoding != "utf8", words.most))


def write_file(path: str, text: str) -> None:
    put_in_place(io.BytesIO(text.encode()), path)


def stat(site: Site, words: Words) -> None:
    told = site.stat()
    lines = [f"known {told.known}, kept {told.kept}, leaves {told.leaves}, open sessions {told.sessions}"]
    lines += [f"site {number}: {line.count} states, floor {line.floor} (raised {line.number} times)"
              for number, line in enumerate(told.sites, 1)]
    say(words, lines, {
        "known": told.known, "kept": told.kept, "leaves": told.leaves, "sessions": told.sessions,
        "sites": [{"site": number, "states": line.count, "floor": str(line.floor), "raised": line.number}
                  for number, line in enumerate(told.sites, 1)]})


def leaves(site: Site, words: Words) -> None:
    told = site.leaves()
    more = [f".. and {told.total - len(told.first)} more"] if told.total > len(told.first) else []
    say(words, [str(leaf) for leaf in told.first] + more, {"total": told.total, "first": [str(leaf) for leaf in told.first]})


def show(site: Site, words: Words) -> None:
    id = StateId.parse(words.state)
    shown = site.show(id)
    try:
        state = next(site.walk(id))
    except Unsupported:
        history = site.history()
        state = history[id] if id in history else State(id, (), None)
    lines = [f"state {id}, which came after {shown.arrival} others", "parents: " + (", ".join(map(str, state.parents)) or "none"),
             "children: " + (", ".join(map(str, shown.children)) or "none, it is a leaf")]
    if state.writes is None:
        lines.append("what it wrote isn't told any more")
    lines += [word(write.key) + (" deleted" if write.value is None else f" = {word(write.value)}") for write in state.writes or ()]
    say(words, lines, {
        "id": str(id), "arrival": shown.arrival, "parents": [str(parent) for parent in state.parents],
        "children": [str(child) for child in shown.children], "path": [[str(fork), branch] for fork, branch in shown.path],
        "writes": writes_data(state)})


def tell_of_leaves(site: Site, shown: StateId) -> None:
    """Where there are several leaves, says which of them is shown."""
    leaves = site.leaves()
    if leaves.total > 1:
        print(f"tardis: there are {leaves.total} leaves, {named(leaves)}, and this is what {shown} has: "
              "--at STATE shows another, and merge joins them", file=sys.stderr)


def named(leaves: States) -> str:
    return ", ".join(map(str, leaves.first[:MOST_NAMED])) + (", .." if leaves.total > MOST_NAMED else "")


def get(site: Site, words: Words) -> None:
    site.open()
    begun = StateId.parse(words.at) if words.at else site.begin("any")
    if not words.at:
        tell_of_leaves(site, begun)
    try:
        read = site.get_at(words.key, begun)
    except Unsupported:
        if words.at:
            site.begin(begun)
        read = site.get(words.key)
    writer = read.writer if isinstance(read, (Value, Deleted)) else None
    value = read.value if isinstance(read, Value) else None
    if words.json:
        say(words, [], {"at": str(begun), "key": words.key, "value": json_bytes(value), "writer": None if writer is None else str(writer)})
    elif value is not None:
        sys.stdout.buffer.write(value + (b"" if value.endswith(b"\n") else b"\n"))
    else:
        raise Told(f"{words.key} has no value at {begun}" + (f": {writer} deleted it" if writer is not None else ""))


def put(site: Site, words: Words) -> None:
    key, value = words.key, words.value

    def write(txn: Transaction) -> None:
        txn.put(key, value)

    change(site, words, write)


def delete(site: Site, words: Words) -> None:
    key = words.key

    def write(txn: Transaction) -> None:
        txn.delete(key)

    change(site, words, write)


def change(site: Site, words: Words, write: Callable[[Transaction], None]) -> None:
    site.open()
    with site.transaction(at=words.at or "any") as txn:
        write(txn)
    beside = ", ".join(map(str, txn.beside))
    lines = [f"committed {txn.committed} below {', '.join(map(str, txn.parents))}"]
    if txn.forked:
        lines.append(f"a fork: {beside} {'stands' if len(txn.beside) == 1 else 'stand'} beside it")
    say(words, lines, {"committed": str(txn.committed), "parents": [str(parent) for parent in txn.parents], "forked": txn.forked,
                       "beside": [str(leaf) for leaf in txn.beside]})


def keys(site: Site, words: Words) -> None:
    at = StateId.parse(words.at) if words.at else newest(site)
    if not words.at:
        tell_of_leaves(site, at)
    told = site.items(at, words.prefix)
    lines = [f"{word(key)} = {word(value)}" for key, value in told.items]
    if not told.is_complete and not words.json:
        print(f"{at}: states were collected, and keys that were last written there may be missing", file=sys.stderr)
    say(words, lines, {"at": str(at), "complete": told.is_complete,
                       "items": [{"key": json_bytes(key), "value": json_bytes(value)} for key, value in told.items]})


def newest(site: Site) -> StateId:
    """The state that arrived last."""
    site.open()
    begun = site.begin("any")
    site.close()
    return begun


def sessions(site: Site, words: Words) -> None:
    told = site.sessions()
    lines = [f"{told.total} open; raised now, the floor would stand at {told.floor}"]
    for line in told.first:
        reads = f", reads {', '.join(map(str, line.reads))}" if line.reads else ""
        lines.append(f"session {line.number}: ceiling {line.ceiling}{', which follows' if line.follow else ''}, last commit {line.last}{reads}"
                     + (" (holds the floor)" if line.holds else ""))
    say(words, lines, {"floor": str(told.floor), "sessions": [
        {"number": line.number, "follow": line.follow, "ceiling": str(line.ceiling), "last": str(line.last),
         "reads": [str(state) for state in line.reads], "holds": line.holds} for line in told.first]})


def raise_floor(site: Site, words: Words) -> None:
    told = site.raise_floor(words.state)
    say(words, [f"the floor stands at {told.floor}"], {"floor": str(told.floor), "raised": told.number})


def tidy(site: Site, words: Words) -> None:
    count = site.tidy()
    say(words, [f"{count} {'state' if count == 1 else 'states'} collected"], {"collected": count})


def export(site: Site, words: Words) -> None:
    if words.out is None and sys.stdout.isatty():
        raise Told("an export is bytes, and not for a terminal: give --out FILE, or send it on")
    # the session holds the floor where it is, so that the state isn't collected while it is read
    with contextlib.suppress(SessionsFull):
        site.open(follow=False)
    state = StateId.parse(words.at) if words.at else the_leaf(site)
    with tempfile.TemporaryFile() as whole:
        # nothing is written before all is there
        count = write_export(site, state, whole)
        if words.out is not None:
            put_in_place(whole, words.out)
            print(f"{words.out} has {count} {'key' if count == 1 else 'keys'} of {state}")
        else:
            whole.seek(0)
            shutil.copyfileobj(whole, sys.stdout.buffer)


def load(site: Site, words: Words) -> None:
    # the whole file is read, and known to be an export, before anything is put
    with open(words.file, "rb") as file:
        entries = read_export(file)
    site.open()
    made = put_entries(site, entries)
    count = f"{len(entries)} {'key' if len(entries) == 1 else 'keys'}"
    print(f"{count} put, from {made[0]} to {made[-1]}" if made else f"{count} put: there are none in the export")


def the_leaf(site: Site) -> StateId:
    """The one leaf that there is."""
    leaves = site.leaves()
    if leaves.total > 1:
        raise Told(f"there are {leaves.total} leaves, {named(leaves)}: give --at STATE, or merge them first")
    return leaves.first[0]


def refuse(key: bytes, base: Base, sides: Sides) -> Optional[bytes]:
    raise Unresolved(
        key, "nobody says what it shall have: give --rules PREFIX=RULE,.., or run this in a terminal, where it asks")


def ask_person(key: bytes, base: Base, sides: Sides) -> Optional[bytes]:
    """Shows the sides, and lets the person choose one, or write another value."""
    stood = "not known" if isinstance(base, Unknown) else "no value" if base is None else word(base)
    print(f"\n{word(key)}, where they parted: {stood}")
    choices = list(sides.items())
    for place, (side, value) in enumerate(choices, 1):
        print(f"  {place}: {'no value' if value is None else word(value)}   (at {side})")
    while True:
        said = input("a number, =VALUE, or - to delete it: ")
        if said == "-":
            return None
        if said.startswith("="):
            return said[1:].encode()
        if said.isdigit() and 1 <= int(said) <= len(choices):
            return choices[int(said) - 1][1]


#: the client's own resolvers, by the names that the command has for them: no server has these
RESOLVERS: Dict[str, Resolve] = {
    "text": three_way_text, "lines": union_of_lines, "union_of": union_of(","), "counter": counter,
    "last_writer": last_writer,
}


def resolvers(text: str) -> Resolve:
    """What `--resolvers` says."""
    chosen: Dict[Any, Resolve] = {b"": refuse}
    for part in text.split(","):
        prefix, equals, name = part.rpartition("=")
        if not equals or name not in RESOLVERS:
            raise Told(f"a resolver is PREFIX={'|'.join(RESOLVERS)}, and not {part!r}")
        chosen[prefix.encode()] = RESOLVERS[name]
    return by_prefix(chosen)


def resolver(words: Words) -> Resolve:
    if words.rules is not None:
        return Rules(words.rules)
    if words.resolvers is not None:
        return resolvers(words.resolvers)
    return ask_person if sys.stdin.isatty() else refuse


def step_line(step: MergeStep) -> str:
    keys = f": {', '.join(map(word, step.keys))}" if step.keys else ""
    return f"{step.id} joins {', '.join(map(str, step.parents))}{keys}"


def merge(site: Site, words: Words) -> None:
    site.open()
    try:
        merged: Optional[Merged] = site.merge(resolver(words), words.states or None)
    except Unresolved as fault:
        # what was joined before stands
        for step in fault.steps:
            print(step_line(step), file=sys.stderr if words.json else sys.stdout)
        raise
    if merged is None:
        say(words, ["one leaf alone, so there is nothing to merge"], None)
        return
    say(words, [step_line(step) for step in merged.steps], {"id": str(merged.id), "steps": [
        {"id": str(step.id), "parents": [str(parent) for parent in step.parents], "keys": [json_bytes(key) for key in step.keys]}
        for step in merged.steps]})


def watch(site: Site, words: Words) -> None:
    for state in site.watch(words.every):
        parents = ", ".join(map(str, state.parents))
        say(words, [f"{state.id}" + (f" below {parents}" if parents else "") + f"  {wrote(state)}".rstrip()], {
            "id": str(state.id), "parents": [str(parent) for parent in state.parents], "writes": writes_data(state)})
        sys.stdout.flush()


def web(site: Site, words: Words) -> None:
    from .web import serve
    serve(words.address, words.port)


# the words

def parser() -> argparse.ArgumentParser:
    top = argparse.ArgumentParser(
        prog="python -m tardis", description="Looks into a running site, and changes it. An ADDRESS is unix:PATH or HOST:PORT.")
    top.add_argument("--version", action="version", version=f"kumovasil {__version__}")
    commands = top.add_subparsers(dest="command", metavar="COMMAND", required=True)

    def command(name: str, run: Callable[[Site, Words], None], told: str, takes_json: bool = True) -> argparse.ArgumentParser:
        made = commands.add_parser(name, help=told, description=told)
        made.add_argument("address", metavar="ADDRESS")
        made.set_defaults(run=run, json=False)
        if takes_json:
            made.add_argument("--json", action="store_true", help="print JSON")
        return made

    drawn = command("graph", graph, "draws the history, the newest state first")
    drawn.add_argument("--svg", metavar="FILE", help="write it as SVG")
    drawn.add_argument("--dot", metavar="FILE", help="write it for Graphviz")
    drawn.add_argument("--plain", action="store_true", help="draw with ASCII alone")
    drawn.add_argument("--most", type=int, metavar="N", help="at most so many states")
    command("stat", stat, "tells what the site knows and keeps")
    command("leaves", leaves, "lists the ends of all branches")
    command("show", show, "tells a state's parents, children and writes").add_argument("state", metavar="STATE")
    for name, run, told in ("get", get, "reads a key"), ("put", put, "writes a key"), ("delete", delete, "deletes a key"):
        made = command(name, run, told)
        made.add_argument("key", metavar="KEY")
        if name == "put":
            made.add_argument("value", metavar="VALUE")
        made.add_argument("--at", metavar="STATE", help="at this state; else at the one that arrived last")
    listed = command("keys", keys, "lists keys and values")
    listed.add_argument("--at", metavar="STATE", help="at this state; else at the one that arrived last")
    listed.add_argument("--prefix", default="", help="only keys that begin so")
    joined = command("merge", merge, "joins all leaves, or the states that are named; asks for each conflict where no rules are given")
    joined.add_argument("states", metavar="STATE", nargs="*")
    how = joined.add_mutually_exclusive_group()
    how.add_argument("--rules", metavar="PREFIX=RULE,..",
                     help=f"by a server's rules: {', '.join(NAMES)}; the longest prefix counts")
    how.add_argument("--resolvers", metavar="PREFIX=NAME,..",
                     help=f"by the client's own: {', '.join(RESOLVERS)}; the longest prefix counts")
    command("sessions", sessions, "lists the open sessions, and which of them hold the floor")
    raised = command("raise", raise_floor, "moves the floor to a state, or as far as all sessions allow")
    raised.add_argument("state", metavar="STATE", nargs="?", help="to this state; else as far as it may go")
    command("tidy", tidy, "collects the states that lie above every floor, which nobody reads any more")
    exported = command("export", export, "writes the keys and values of a state, as `tardis import` reads them", False)
    exported.add_argument("--at", metavar="STATE", help="of this state; else of the one leaf")
    exported.add_argument("--out", metavar="FILE", help="to this file, whole or not at all; else to standard output")
    command("import", load, "puts the keys and values of an export", False).add_argument("file", metavar="FILE")
    watched = command("watch", watch, "tells each state that comes from now on")
    watched.add_argument("--every", type=float, default=0.5, metavar="SECONDS")
    page = command("web", web, "serves a page at http://127.0.0.1:PORT/ that shows the site live", False)
    page.add_argument("--port", type=int, default=8000)
    return top


@contextlib.contextmanager
def told_in_a_line() -> Iterator[None]:
    """What a site refuses and what breaks is told in a line, with status 1."""
    try:
        yield
    except (Told, Unresolved, Refused, NoMemory, ProtocolError, OSError, ValueError) as fault:
        if isinstance(fault, BrokenPipeError):
            os.dup2(os.open(os.devnull, os.O_WRONLY), sys.stdout.fileno())
        else:
            print(f"tardis: {fault}", file=sys.stderr)
        sys.exit(1)
    except KeyboardInterrupt:
        sys.exit(130)


def run() -> None:
    """The command."""
    words = parser().parse_args()
    with told_in_a_line():
        with connect(words.address, PATIENCE) as site:
            words.run(site, words)
            sys.stdout.flush()


if __name__ == "__main__":
    run()
