"""A page that shows a site live, and merges: an HTTP server on the loopback, for one person and one site."""

import http.server
import json
import os
import threading
from typing import Any, Callable, Dict, List, Optional, Tuple
from urllib.parse import parse_qs, urlsplit

from .blocking import Site, connect
from .histories import History
from .ids import StateId, number
from .layout import lay_out
from .pictures import json_bytes, labels, wrote
from .refusals import AlreadyOpen, Disconnected, NoMemory, ProtocolError, Refused, Unresolved
from .resolvers import Base, Sides, Unknown

__all__ = ["serve"]

PATIENCE = 30.0
PAGE = os.path.join(os.path.dirname(os.path.abspath(__file__)), "page.html")
#: a body of a request to this server is no longer
LONGEST_BODY = 1 << 20
#: nothing is loaded from elsewhere, and no other page holds this one in a frame
POLICY = "default-src 'self'; style-src 'unsafe-inline'; script-src 'unsafe-inline'; frame-ancestors 'none'"


class Looker:
    """The connection to the site, made anew where it ended, and the history as it was last seen."""

    def __init__(self, address: str) -> None:
        self.address = address
        self._lock = threading.RLock()
        self._site: Optional[Site] = None
        self._connections = 0
        self._seen: Tuple[Any, Dict[str, Any]] = (None, {})

    def ask(self, what: Callable[[Site], Any]) -> Any:
        with self._lock:
            if self._site is None or not self._site.is_connected:
                self._site = connect(self.address, PATIENCE)
                self._connections += 1
            return what(self._site)

    def within_a_session(self, what: Callable[[Site], Any]) -> Any:
        """What is asked in a session, which is closed again, so that it holds no floor."""
        def run(site: Site) -> Any:
            try:
                site.open()
            except AlreadyOpen:
                pass
            try:
                return what(site)
            finally:
                if site.is_connected:
                    site.close()
        return self.ask(run)

    def history(self, have: str) -> Dict[str, Any]:
        """The drawing of the history, unless it is the one that the page has."""
        def look(site: Site) -> Dict[str, Any]:
            stat = site.stat()
            # a site that was started anew may have as many states as before, and others
            version = f"{self._connections}.{stat.known}.{stat.kept}.{'.'.join(str(line.floor) for line in stat.sites)}"
            changed = {"version": version, "sessions": stat.sessions}
            if have == version:
                return changed
            if self._seen[0] != version:
                self._seen = (version, drawing(site.history()))
            return {**changed, **self._seen[1]}
        drawn: Dict[str, Any] = self.ask(look)
        return drawn

    def state(self, id: str) -> Dict[str, Any]:
        def look(site: Site) -> Dict[str, Any]:
            chosen = StateId.parse(id)
            shown = site.show(chosen)
            items = site.items(chosen)
            return {"id": id, "arrival": shown.arrival, "children": [str(child) for child in shown.children], "complete": items.is_complete,
                    "items": [[json_bytes(key), json_bytes(value)] for key, value in items.items]}
        told: Dict[str, Any] = self.ask(look)
        return told

    def compare(self, one: str, other: str) -> Dict[str, Any]:
        def look(site: Site) -> Dict[str, Any]:
            told = site.compare(one, other)
            differences = site.diff(one, other)
            conflicts = {conflict.key for conflict in told.conflicts}
            return {
                "states": [str(state) for state in told.states], "forks": [str(fork) for fork in told.fork_points],
                "conflicts": [{
                    "key": json_bytes(conflict.key), "known": not isinstance(conflict.base, Unknown),
                    "base": None if isinstance(conflict.base, Unknown) else json_bytes(conflict.base),
                    "sides": [json_bytes(conflict.sides[state]) for state in told.states]} for conflict in told.conflicts],
                "others": [[json_bytes(found.key), json_bytes(found.one), json_bytes(found.other)] for found in differences
                           if found.key not in conflicts]}
        told: Dict[str, Any] = self.within_a_session(look)
        return told

    def merge(self, one: str, other: str, values: List[Any]) -> Dict[str, Any]:
        """Merges two states; each conflict key gets the value that the person chose."""
        chosen = {unjson(pair[0]): None if pair[1] is None else unjson(pair[1]) for pair in values}

        def resolve(key: bytes, base: Base, sides: Sides) -> Optional[bytes]:
            if key not in chosen:
                raise Unresolved(key, "it came while you chose; compare the two states anew")
            return chosen[key]

        def run(site: Site) -> Dict[str, Any]:
            merged = site.merge(resolve, [one, other])
            return {"id": None if merged is None else str(merged.id)}
        told: Dict[str, Any] = self.within_a_session(run)
        return told


def unjson(data: Any) -> bytes:
    if isinstance(data, str):
        return data.encode()
    if isinstance(data, dict) and isinstance(data.get("hex"), str):
        return bytes.fromhex(data["hex"])
    raise ValueError("a key or a value is text, or {\"hex\": ..}")


def drawing(history: History) -> Dict[str, Any]:
    """What the page draws: a row for each state, the newest first."""
    layout = lay_out(history.states)
    said = labels(history)
    return {
        "rows": [[str(state.id), lane, ", ".join(said.get(state.id, ())), wrote(state), len(state.parents)]
                 for state, lane in zip(layout.states, layout.lanes)],
        "edges": [[edge.child_row, edge.child_lane, edge.lane, edge.parent_row, edge.parent_lane] for edge in layout.edges],
        "leaves": [str(leaf) for leaf in history.leaves], "total": history.stat.leaves, "known": history.stat.known, "kept": history.stat.kept,
        "collected": history.collected, "complete": history.is_complete,
        "sites": [[site, line.count, str(line.floor), line.number] for site, line in enumerate(history.stat.sites, 1)]}


class Handler(http.server.BaseHTTPRequestHandler):
    """Answers the page's requests."""

    looker: Looker
    protocol_version = "HTTP/1.1"

    def log_message(self, format: str, *args: Any) -> None:
        """Nothing is logged."""

    def is_from_here(self) -> bool:
        """Whether the request names this server by the loopback, as the page does; another site's page can't."""
        host = self.headers.get("Host", "").rsplit(":", 1)[0]
        origin = self.headers.get("Origin")
        return host in ("127.0.0.1", "localhost") and (origin is None or urlsplit(origin).netloc == self.headers.get("Host"))

    def do_GET(self) -> None:
        parts = urlsplit(self.path)
        query = {name: values[0] for name, values in parse_qs(parts.query).items()}
        looker = self.looker
        calls: Dict[str, Callable[[], Any]] = {
            "/api/history": lambda: looker.history(query.get("have", "")),
            "/api/state": lambda: looker.state(query.get("id", "")),
            "/api/compare": lambda: looker.compare(query.get("one", ""), query.get("other", "")),
        }
        if not self.is_from_here():
            self.send(403, b"this page is for 127.0.0.1 alone", "text/plain")
        elif parts.path == "/":
            with open(PAGE, "rb") as file:
                address = json.dumps(looker.address).replace("<", "\\u003c")
                self.send(200, file.read().replace(b"{{ADDRESS}}", address.encode()), "text/html; charset=utf-8")
        elif parts.path in calls:
            self.call(calls[parts.path])
        else:
            self.send(404, b"there is nothing here", "text/plain")

    def do_POST(self) -> None:
        length = self.headers.get("Content-Length", "")
        if not (length.isdigit() and int(length) <= LONGEST_BODY):
            self.close_connection = True
            self.send(413, b"a body has a length, and at most a mebibyte", "text/plain")
            return
        body = self.rfile.read(int(length))
        # (another site's page can't send this type without asking first)
        if not self.is_from_here() or self.headers.get_content_type() != "application/json":
            self.send(403, b"this page is for 127.0.0.1 alone", "text/plain")
        elif self.path == "/api/merge":
            self.call(lambda: self.merge(body))
        else:
            self.send(404, b"there is nothing here", "text/plain")

    def merge(self, body: bytes) -> Any:
        asked = json.loads(body)
        return self.looker.merge(str(asked["one"]), str(asked["other"]), asked["values"])

    def call(self, what: Callable[[], Any]) -> None:
        """Answers with what is told, or with what is wrong."""
        try:
            told, status = what(), 200
        except (Refused, NoMemory, Unresolved, ValueError, TypeError, KeyError, IndexError) as fault:
            told, status = {"error": str(fault) or type(fault).__name__}, 409
        except (Disconnected, ProtocolError, OSError) as fault:
            told, status = {"error": f"the site can't be reached: {fault}"}, 502
        self.send(status, json.dumps(told).encode(), "application/json")

    def send(self, status: int, body: bytes, kind: str) -> None:
        self.send_response(status)
        self.send_header("Content-Type", kind)
        self.send_header("Content-Length", str(len(body)))
        self.send_header("X-Content-Type-Options", "nosniff")
        self.send_header("Cache-Control", "no-store")
        self.send_header("Content-Security-Policy", POLICY)
        self.end_headers()
        self.wfile.write(body)


def serve(address: str, port: int) -> None:
    """Serves the page until it is interrupted."""
    number("a port", port, 0, 65535)
    handler = type("SiteHandler", (Handler,), {"looker": Looker(address)})
    with http.server.ThreadingHTTPServer(("127.0.0.1", port), handler) as server:
        server.daemon_threads = True
        print(f"http://127.0.0.1:{server.server_address[1]}/ shows {address}", flush=True)
        server.serve_forever()
