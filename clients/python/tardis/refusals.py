"""What is raised: the refusals of a site, each a class of its own, and what ends a connection.

A refusal changes nothing, and the connection goes on; behind a commit that is refused `Full` the client gives the
transaction up. After a `ProtocolError`, a `Disconnected` or a `TimeoutError` the connection is closed, and whether the
last request was carried out isn't known.
"""

from typing import Any, Dict, Tuple, Type

from .codes import QuestionCode, RequestCode
from .ids import StateId

__all__ = [
    "AlreadyOpen", "BadSite", "BagFull", "Below", "Branches", "CeilingBack", "ClosedParent", "Collected",
    "Comparable", "ConflictKey", "Disconnected", "FloorBack", "Full", "Held", "Malformed", "NoBranch", "NoMemory",
    "NoQuestions", "NoSuchItem", "NoTxn", "NotOpen", "NotRead", "OpenConflict", "OwnItem", "PathFull",
    "ProtocolError", "Refused", "SeqEnd", "SessionsFull", "TooMany", "TooManyConnections", "TrailFull", "TxnOpen",
    "Unknown", "Unresolved", "Unsupported", "WrongMode",
]

Field = object

#: what there may be too many of for a base to be told
FORK_POINTS = "fork points"

#: the question Life, which asks who a site is
LIFE = 71
#: what `tardisd` lets in where it listens for clients (`--clients`), and where for other sites (`--peers`)
OF_OPERATORS = (RequestCode.RAISE, RequestCode.RAISE_AUTO, RequestCode.TIDY, RequestCode.PULL, RequestCode.DELIVER,
                RequestCode.SETTLE)
FOR_CLIENTS = {code.value for code in RequestCode if code not in OF_OPERATORS}
FOR_CLIENTS |= {code.value for code in QuestionCode if code != QuestionCode.SESSIONS} | {LIFE}
FOR_PEERS = {RequestCode.STAT.value, RequestCode.PULL.value, QuestionCode.RECORD.value, QuestionCode.SITE.value, LIFE}


def operation_words(code: int) -> str:
    """The name of a request or a question, in words."""
    names = {LIFE: "life", **{it.value: it.name for it in RequestCode}, **{it.value: it.name for it in QuestionCode}}
    name = names.get(code, f"number {code}").lower().replace("_", " ")
    return f"the question '{name}'" if code >= min(QuestionCode) else f"the request '{name}'"


class ProtocolError(Exception):
    """The other end sent what no site sends. The connection is closed."""


class Disconnected(ConnectionError):
    """The connection is over, and with it the session. Whether the last request was carried out isn't known: connect anew,
    and begin with a read."""


class TooManyConnections(Disconnected):
    """The server has as many connections as it may, and turned this one away. Nothing was carried out."""

    def __init__(self, connections: int) -> None:
        super().__init__(connections)
        self.connections = connections

    def __str__(self) -> str:
        return (f"the server has {self.connections:,} connections, which are all that it may: disconnect one, "
                "try again later, or start the server with a larger --connections")


class Unresolved(Exception):
    """A merge's `resolve` can't say what a key shall have. What it was asked for changed nothing; `steps` has what
    the call merged before."""

    def __init__(self, key: bytes, why: str) -> None:
        super().__init__(key, why)
        self.key = key
        self.why = why
        self.steps: Tuple[Any, ...] = ()

    def __str__(self) -> str:
        return f"the key {self.key!r} can't be resolved: {self.why}"


class NoMemory(Exception):
    """The site found no memory, and nothing changed."""

    def __str__(self) -> str:
        return "nomemory: the site found no memory, and nothing changed; try again later"


class Refused(Exception):
    """The site refused the request, and nothing changed. Its fields are attributes of each class, and in `fields`."""

    word = "refused"

    def __init__(self, *fields: Field) -> None:
        super().__init__(*fields)
        self.fields: Tuple[Field, ...] = fields

    def advice(self) -> str:
        """What is wrong, and what to do next."""
        return "the site refused the request"

    def __str__(self) -> str:
        return f"{self.word}: {self.advice()}"


class Malformed(Refused):
    word = "malformed"

    def advice(self) -> str:
        return "these bytes spell no request that this site knows"


class NotOpen(Refused):
    word = "notopen"

    def advice(self) -> str:
        return "call open() first"


class AlreadyOpen(Refused):
    word = "alreadyopen"

    def advice(self) -> str:
        return "the session of this connection is open: call close() first, or use another connection"


class SessionsFull(Refused):
    word = "sessionsfull"

    def __init__(self, sessions: int) -> None:
        super().__init__(sessions)
        self.sessions = sessions

    def advice(self) -> str:
        return f"{self.sessions} sessions are open, which are all that there may be: try again when one was closed"


class TxnOpen(Refused):
    word = "txnopen"

    def advice(self) -> str:
        return "a transaction is open: commit() or abort() it first"


class NoTxn(Refused):
    word = "notxn"

    def advice(self) -> str:
        return "call begin() first, or use transaction()"


class WrongMode(Refused):
    word = "wrongmode"

    def advice(self) -> str:
        return ("a merge takes no constraints, and fork_points(), conflicts() and get_for() are a merge's alone: "
                "call begin_merge() for them")


class TooMany(Refused):
    word = "toomany"

    def __init__(self, what: str, count: int) -> None:
        super().__init__(what, count)
        self.what = what
        self.count = count

    def advice(self) -> str:
        if self.what == "states":
            return f"{self.count} states in a merge, which has at most 8: merge() takes several steps"
        if self.what == FORK_POINTS:
            return f"these states parted at {self.count} states, and a base is told of at most 8: read at each of them"
        return f"more than {self.count - 1} {self.what} in a transaction: commit, and go on in another"


class Unknown(Refused):
    word = "unknown"

    def __init__(self, state: StateId) -> None:
        super().__init__(state)
        self.state = state

    def advice(self) -> str:
        return f"this site doesn't know the state {self.state}: leaves() tells the newest ones"


class Below(Refused):
    word = "below"

    def __init__(self, state: StateId, ceiling: StateId) -> None:
        super().__init__(state, ceiling)
        self.state = state
        self.ceiling = ceiling

    def advice(self) -> str:
        return (f"the state {self.state} lies above {self.ceiling}, and this session promised not to begin there any "
                f"more, or the site did: value_at(key, '{self.state}') reads there for as long as it is kept, and begin() "
                "goes on below; who was offline since finds in docs/CLIENTS.md, 'A device that is offline', how to merge "
                "what it changed")


class Comparable(Refused):
    word = "comparable"

    def __init__(self, one: StateId, other: StateId) -> None:
        super().__init__(one, other)
        self.one = one
        self.other = other

    def advice(self) -> str:
        return f"{self.one} and {self.other} stand on one branch, so there is nothing to merge: name the newer of them alone"


class NotRead(Refused):
    word = "notread"

    def __init__(self, state: StateId) -> None:
        super().__init__(state)
        self.state = state

    def advice(self) -> str:
        return f"{self.state} isn't one of the states that this merge reads"


class ConflictKey(Refused):
    word = "conflictkey"

    def __init__(self, key: bytes) -> None:
        super().__init__(key)
        self.key = key

    def advice(self) -> str:
        return f"the sides disagree on {self.key!r}: read each with get_for(), and put() the value that it shall have"


class OpenConflict(Refused):
    word = "openconflict"

    def __init__(self, key: bytes) -> None:
        super().__init__(key)
        self.key = key

    def advice(self) -> str:
        return f"the sides disagree on {self.key!r}, which this merge hasn't written: put() or delete() it before commit()"


class Branches(Refused):
    word = "branches"

    def __init__(self, constraint: str, state: StateId, children: int) -> None:
        super().__init__(constraint, state, children)
        self.constraint = constraint
        self.state = state
        self.children = children

    def advice(self) -> str:
        return (f"{self.state} has {self.children} other branches, against the constraint '{self.constraint}': "
                "retry() runs the block again at the newest state")


class NoBranch(Branches):
    """`Branches`, of a commit with `no_branch`."""


class CeilingBack(Refused):
    word = "ceilingback"

    def __init__(self, ceiling: StateId) -> None:
        super().__init__(ceiling)
        self.ceiling = ceiling

    def advice(self) -> str:
        return f"the ceiling stands at {self.ceiling}, and moves to states below that alone"


class FloorBack(Refused):
    word = "floorback"

    def __init__(self, floor: StateId) -> None:
        super().__init__(floor)
        self.floor = floor

    def advice(self) -> str:
        return f"the floor stands at {self.floor}, and moves to states below that alone"


class Held(Refused):
    word = "held"

    def __init__(self, session: int, ceiling: StateId) -> None:
        super().__init__(session, ceiling)
        self.session = session
        self.ceiling = ceiling

    def advice(self) -> str:
        return (f"the session {self.session} may still read at {self.ceiling}: it has to move its ceiling, or to close; "
                "raise_floor() without a state goes as far as all sessions let it")


class Collected(Refused):
    word = "collected"

    def __init__(self, state: StateId) -> None:
        super().__init__(state)
        self.state = state

    def advice(self) -> str:
        return (f"the state {self.state} was collected, since nobody would read there any more: begin() goes on at a "
                "newer state, and leaves() tells the newest; a server that is started with --keep-history collects none "
                "by itself")


class Full(Refused):
    word = "full"

    def __init__(self, kept: int) -> None:
        super().__init__(kept)
        self.kept = kept

    def advice(self) -> str:
        return (f"the site keeps {self.kept:,} states, which are all that it may where this is asked: merge the leaves, open "
                "sessions with follow, and try again; docs/OPERATING.md, 'Full', tells what else may be done")


class PathFull(Refused):
    word = "pathfull"

    def __init__(self, state: StateId, pairs: int) -> None:
        super().__init__(state, pairs)
        self.state = state
        self.pairs = pairs

    def advice(self) -> str:
        return f"the state {self.state} would descend from too many forks ({self.pairs:,} pairs): raise_floor() and tidy() first"


class SeqEnd(Refused):
    word = "seqend"

    def advice(self) -> str:
        return "this site has given all its numbers: start another site, and carry the values over"


class BadSite(Refused):
    word = "badsite"

    def __init__(self, site: int) -> None:
        super().__init__(site)
        self.site = site

    def advice(self) -> str:
        return f"{self.site} is the number of no site here: see --sites of the server"


class ClosedParent(Refused):
    word = "closedparent"

    def __init__(self, state: StateId) -> None:
        super().__init__(state)
        self.state = state

    def advice(self) -> str:
        return f"the parent {self.state} is closed here, and gets no further child"


class OwnItem(Refused):
    word = "ownitem"

    def __init__(self, site: int, count: int) -> None:
        super().__init__(site, count)
        self.site = site
        self.count = count

    def advice(self) -> str:
        return f"number {self.count} of the site {self.site} is this site's own, and it never gave it"


class TrailFull(Refused):
    word = "trailfull"

    def __init__(self, length: int) -> None:
        super().__init__(length)
        self.length = length

    def advice(self) -> str:
        return f"the server's trail has {self.length:,} bytes, and no room for more"


class Unsupported(Refused):
    word = "unsupported"

    def __init__(self, operation: int) -> None:
        super().__init__(operation)
        self.operation = operation

    def advice(self) -> str:
        if self.operation in FOR_CLIENTS and self.operation not in FOR_PEERS:
            here = "this listener is for other sites: --listen or --clients lets it in"
        elif self.operation in FOR_PEERS and self.operation not in FOR_CLIENTS:
            here = "this listener is for clients: --listen or --peers lets it in"
        elif self.operation not in FOR_CLIENTS:
            here = "this listener is for clients, or for other sites: --listen lets it in"
        else:
            here = "this server doesn't know it, or isn't ready for it"
        return f"{operation_words(self.operation)} was refused, since {here}"


class NoQuestions(Unsupported):
    """`Unsupported`, of a server that answers no questions."""

    def advice(self) -> str:
        return (f"{operation_words(self.operation)} was refused, since this server answers no questions: tardisd does, "
                "tardis serve doesn't")


class NoSuchItem(Refused):
    word = "nosuchitem"

    def __init__(self, batches: int) -> None:
        super().__init__(batches)
        self.batches = batches

    def advice(self) -> str:
        return f"there is no such item among the {self.batches} batches"


class BagFull(Refused):
    word = "bagfull"

    def __init__(self, batches: int) -> None:
        super().__init__(batches)
        self.batches = batches

    def advice(self) -> str:
        return f"the bag has {self.batches} batches, and no room for more"


#: the class of each code
REFUSAL_OF: Dict[int, Type[Refused]] = {
    1: Malformed, 2: NotOpen, 3: AlreadyOpen, 4: SessionsFull, 5: TxnOpen, 6: NoTxn, 7: WrongMode, 8: TooMany, 9: Unknown, 10: Below,
    11: Comparable, 12: NotRead, 13: ConflictKey, 14: OpenConflict, 15: Branches, 16: CeilingBack, 17: FloorBack, 18: Held,
    19: Collected, 20: Full, 21: PathFull, 22: SeqEnd, 23: BadSite, 24: ClosedParent, 25: OwnItem, 26: TrailFull, 27: Unsupported,
    28: NoSuchItem, 29: BagFull,
}
