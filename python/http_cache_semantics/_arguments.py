"""The command line of the proxy. What can't be is refused by name."""
from __future__ import annotations

import argparse
import math
import re
from typing import NoReturn, Optional, Sequence, Tuple
from urllib.parse import urlsplit

_MOST = 2**53 - 1
# The least bound of memory with which requests still go on.
_LEAST_MEMORY = 1_000_000


class _Parser(argparse.ArgumentParser):
    def error(self, message: str) -> NoReturn:
        self.exit(2, "proxy: " + re.sub(r"^argument ([^:]*): ", r"\1 ", message) + "\n")


def _wrong(value: str, why: str) -> argparse.ArgumentTypeError:
    return argparse.ArgumentTypeError(f"{value}: {why}")


def _count(text: str, least: int = 1) -> int:
    if not re.fullmatch("[0-9]{1,16}", text) or not least <= int(text) <= _MOST:
        raise _wrong(text, f"isn't a whole number from {least} on")
    return int(text)


def _memory(text: str) -> int:
    return _count(text, _LEAST_MEMORY)


def _seconds(text: str) -> float:
    try:
        value = float(text)
    except ValueError:
        value = math.nan
    if not 0 < value <= 86_400:
        raise _wrong(text, "isn't a positive number of seconds, up to a day")
    return value


def _port(text: str, value: str) -> int:
    if not re.fullmatch("[0-9]{1,5}", value) or int(value) > 65_535:
        raise _wrong(text, "the port isn't a number up to 65535")
    return int(value)


def _address(text: str) -> Tuple[str, int]:
    host, colon, port = text.rpartition(":")
    if not colon:
        raise _wrong(text, "isn't HOST:PORT")
    is_v6 = host.startswith("[") and host.endswith("]")
    if not is_v6 and (":" in host or re.search(r"[\s/@\[\]]", host)):
        raise _wrong(text, "isn't HOST:PORT; an IPv6 address is in brackets")
    return host.strip("[]") or "127.0.0.1", _port(text, port)


class Url:
    """The URL of an origin server."""

    def __init__(self, text: str) -> None:
        try:
            parts = urlsplit(text)
            host = parts.hostname
        except ValueError:
            raise _wrong(text, "isn't a URL") from None
        if parts.scheme not in ("http", "https") or not host:
            raise _wrong(text, "isn't a URL such as http://127.0.0.1:8000")
        if "@" in parts.netloc:
            raise _wrong(text, "has a user, which the proxy doesn't send")
        if parts.path not in ("", "/") or parts.query or parts.fragment or "?" in text or "#" in text:
            raise _wrong(text, "has more than a host and a port")
        if re.search(r"[\s\x00-\x20\x7f]", text):
            raise _wrong(text, "has a blank")
        self.host, self.is_tls = host, parts.scheme == "https"
        colon, port = re.fullmatch(r"(?:\[[^\]]*\]|[^:]*)(:?)(.*)", parts.netloc, re.S).groups()  # type: ignore[union-attr]
        self.port = _port(text, port) if colon and port else (443 if self.is_tls else 80)
        if self.port == 0:
            raise _wrong(text, "the port isn't a number from 1 to 65535")
        shown = f"[{host}]" if ":" in host else host
        self.text = f"{parts.scheme}://{shown}:{self.port}"


def parsed(description: Optional[str], words: Optional[Sequence[str]] = None) -> argparse.Namespace:
    """Returns the options. Ends the program with status 2 if one can't be."""
    parser = _Parser(prog="python3 -m http_cache_semantics.proxy", description=description)
    add = parser.add_argument
    add("--listen", type=_address, default=("127.0.0.1", 8080), metavar="HOST:PORT", help="its own address (127.0.0.1:8080)")
    add("--origin", type=Url, required=True, metavar="URL", help="the origin server, such as http://127.0.0.1:8000")
    add("--dir", help="store responses in this directory, so that they outlive the process; default: in memory")
    add("--sync", action="store_true", help="let each change in the directory outlive a power failure")
    add("--log", action="store_true", help="write a line for each request to standard output")
    add("--timeout", type=_seconds, default=30.0, metavar="SECONDS", help="the wait for a response head (30)")
    add("--idle", type=_seconds, default=60.0, metavar="SECONDS", help="the longest silence in a body, or of a client (60)")
    add("--cache-timeout", type=_seconds, default=30.0, metavar="SECONDS", help="the wait for a reply of cacheserve (30)")
    add("--memory", type=_memory, default=268_435_456, metavar="BYTES", help="for bodies that are on their way (268435456)")
    add("--collapse", action="store_true", help="let requests for one page wait for the first, if that may be stored")
    add("--name", help="the proxy's name in Via and Cache-Status (cacheserve)")
    add("--program", metavar="FILE", help="the path of the program cacheserve")
    add("--uvloop", action="store_true", help="use the event loop of the package uvloop")
    for limit in ("responses", "bytes", "stored-body", "variants"):
        add("--" + limit, type=_count, metavar="N", help="the limit of cacheserve with this name")
    return parser.parse_args(words)
