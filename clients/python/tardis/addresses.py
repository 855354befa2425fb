"""Where a site listens."""

import socket
from typing import Tuple, Union

__all__ = ["not_reached", "parse_address", "parse_timeout"]


def parse_address(address: str) -> Union[str, Tuple[str, int]]:
    """The path of `unix:PATH`, or the host and port of `HOST:PORT`; an IPv6 host stands in brackets."""
    expected = "an address is unix:PATH or HOST:PORT (as 127.0.0.1:7000 or [::1]:7000)"
    if not isinstance(address, str):
        raise ValueError(f"{expected}, and not {address!r}")
    if address.startswith("unix:"):
        path = address[len("unix:"):]
        if not path or "\0" in path:
            raise ValueError(f"{expected}, and not {address!r}")
        return path
    host, colon, port = address.rpartition(":")
    if host.startswith("[") and host.endswith("]"):
        host = host[1:-1]
    elif ":" in host:
        raise ValueError(f"{expected}, and not {address!r}")
    if not (colon and host and port.isascii() and port.isdigit() and 0 < int(port) <= 65535):
        raise ValueError(f"{expected}, and not {address!r}")
    return host, int(port)


def parse_timeout(timeout: Union[float, int, None]) -> Union[float, None]:
    """The seconds that are given, where they are such."""
    if timeout is None:
        return None
    if isinstance(timeout, bool) or not isinstance(timeout, (int, float)) or not timeout > 0:
        raise ValueError(f"a timeout is a number of seconds above 0, or None for no end, and not {timeout!r}")
    return float(timeout)


def not_reached(address: str, fault: OSError) -> OSError:
    """Why an address isn't reached, with the address."""
    if isinstance(fault, socket.gaierror) or fault.errno is None or fault.strerror is None:
        return ConnectionError(f"{address} can't be reached: {fault}")
    return OSError(fault.errno, fault.strerror, address)
