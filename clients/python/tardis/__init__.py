"""A client of a Kumovasil site, for Python 3.8 and later, with the standard library alone.

It speaks with `tardisd` and with `tardis serve`, over a Unix socket (`unix:PATH`) or TCP (`HOST:PORT`):

    import tardis

    with tardis.connect("unix:/tmp/site") as site:
        site.open()
        with site.transaction() as cart:
            cart.put("cart", (cart.value("cart") or b"") + b"tea,")
        print(cart.committed, cart.forked)

A connection is one client: it has at most one session, and a session at most one transaction. What the site refuses is
raised as an exception of the refusal's name (`tardis.NotOpen`), and the transaction that was open stays open. `tardis.aio` has
the same calls for asyncio. `docs/CLIENTS.md` has more.
"""

from .blocking import Site, Transaction, connect
from .conversation import Answer
from .histories import Difference, History, Items, State
from .ids import ROOT, Bytes, StateId
from .merging import Comparison, Conflict, Merged, MergeStep
from .pipelines import Pipeline
from .refusals import (
    AlreadyOpen, BadSite, BagFull, Below, Branches, CeilingBack, ClosedParent, Collected, Comparable, ConflictKey,
    Disconnected, FloorBack, Full, Held, Malformed, NoBranch, NoMemory, NoQuestions, NoSuchItem, NoTxn, NotOpen,
    NotRead, OpenConflict, OwnItem, PathFull, ProtocolError, Refused, SeqEnd, SessionsFull, TooMany,
    TooManyConnections, TrailFull, TxnOpen, Unknown, Unresolved, Unsupported, WrongMode)
from .replies import (
    About, Absent, Applied, Batch, Begun, Closed, Committed, Consent, Deleted, Done, Early, Ended, Entries, ForkReads, Keys, Known,
    Limits, Merging, Opened, Raised, Read, Record, Recorded, Reply, SessionLine, Sessions, Shown, SiteLine, Stat, States, Tidied, Value,
    Write)
from .resolvers import (
    UNKNOWN, Base, Resolve, Sides, by_prefix, counter, last_writer, merge_text, three_way_text, union_of, union_of_lines)
from .rules import Rules

__version__ = "0.3.0"

__all__ = [
    "About", "Absent", "AlreadyOpen", "Answer", "Applied", "BadSite", "BagFull", "Base", "Batch", "Begun", "Below",
    "Branches", "Bytes", "CeilingBack", "Closed", "ClosedParent", "Collected", "Committed", "Comparable",
    "Comparison", "Conflict", "ConflictKey", "Consent", "Deleted", "Difference", "Disconnected", "Done", "Early",
    "Ended", "Entries", "FloorBack", "ForkReads", "Full", "Held", "History", "Items", "Keys", "Known", "Limits",
    "Malformed", "MergeStep", "Merged", "Merging", "NoBranch", "NoMemory", "NoQuestions", "NoSuchItem", "NoTxn",
    "NotOpen", "NotRead", "OpenConflict", "Opened", "OwnItem", "PathFull", "Pipeline", "ProtocolError", "ROOT",
    "Raised", "Read", "Record", "Recorded", "Refused", "Reply", "Resolve", "Rules", "SeqEnd", "SessionLine",
    "Sessions", "SessionsFull", "Shown", "Sides", "Site", "SiteLine", "Stat", "State", "StateId", "States",
    "Tidied", "TooMany", "TooManyConnections", "TrailFull", "Transaction", "TxnOpen", "UNKNOWN", "Unknown",
    "Unresolved", "Unsupported", "Value", "Write", "WrongMode", "by_prefix", "connect", "counter", "last_writer",
    "merge_text", "three_way_text", "union_of", "union_of_lines",
]
