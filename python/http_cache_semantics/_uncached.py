"""What HTTP asks of an intermediary for the heads of messages that it passes on without the process.

It is less than the process does: nothing is answered from a store, and requests are refused that need more than a head.
"""
from __future__ import annotations

import re
from email.utils import formatdate
from typing import List, Optional, Tuple

from .origin import HOP_BY_HOP, Response
from .wire import BadMessage, Fields, Request, fields_of

SAFE = (b"GET", b"HEAD", b"OPTIONS", b"TRACE")
_WHOLE_URL = re.compile(rb"(?i)http://([^/?#@]+)([/?][^#]*)?")
_HOST = re.compile(rb"(\[[0-9A-Fa-f:.]+\]|[-A-Za-z0-9._~!$&'()*+;=%]+)(:[0-9]*)?")


def request_head(request: Request, name: bytes) -> bytes:
    """Returns the head of a request as it is sent on. Raises `BadMessage` if it isn't to be sent on."""
    target, host = _target_and_host(request)
    received = fields_of(request.head)
    kept = [field for field in _end_to_end(received) if field[0].lower() not in (b"host", b"via", b"expect")]
    via = _values(received, b"via")
    if any(name in member.split() for value in via for member in value.split(b",")):
        raise BadMessage(508, "the request has passed this proxy before")
    if _values(received, b"max-forwards") and request.method in (b"OPTIONS", b"TRACE"):
        raise BadMessage(501, "Max-Forwards isn't counted without the cache")
    via.append(b"1.%d %s" % (request.is_1_1, name))
    return _head(b"%s %s HTTP/1.1" % (request.method, target), [(b"host", host), *kept, (b"via", b", ".join(via))])


def _target_and_host(request: Request) -> Tuple[bytes, bytes]:
    """Returns the target in origin form, and the host that it is for (RFC 9112, section 3.2)."""
    target, host = request.target, request.host
    if request.method == b"CONNECT":
        raise BadMessage(501, "CONNECT")
    whole = _WHOLE_URL.fullmatch(target)
    if whole:
        target, host = whole[2] or (b"*" if request.method == b"OPTIONS" else b"/"), whole[1]
        target = b"/" + target if target.startswith(b"?") else target
    is_form = target.startswith(b"/") or (target == b"*" and request.method == b"OPTIONS")
    if not is_form or b"#" in target or (host and not _HOST.fullmatch(host)):
        raise BadMessage(400, "the target or Host is none")
    return target, host


def target_uri(request: Request) -> Optional[str]:
    """Returns the URL that a request is for, or None if it is for none."""
    try:
        target, host = _target_and_host(request)
    except BadMessage:
        return None
    return f"http://{host.decode('latin-1')}{target.decode('latin-1')}"


def response_head(response: Response, name: bytes) -> bytes:
    """Returns the head of a response as it is sent on, with a Cache-Status that says why nothing was stored."""
    via = _values(response.fields, b"via")
    via.append(b"1.1 " + name)
    kept = [field for field in _end_to_end(response.fields) if field[0].lower() not in (b"via", b"cache-status")]
    cache_status = [*_values(response.fields, b"cache-status"), b'%s; fwd=bypass; detail="no cache"' % name]
    if not _values(kept, b"date"):
        kept.append((b"date", formatdate(response.at / 1000, usegmt=True).encode()))
    added = [(b"cache-status", b", ".join(cache_status)), (b"via", b", ".join(via))]
    return _head(b"HTTP/1.1 %d " % response.status, [*kept, *added])


def _values(fields: Fields, name: bytes) -> List[bytes]:
    return [value for known, value in fields if known.lower() == name]


def _end_to_end(fields: Fields) -> Fields:
    """Returns the fields that aren't of one connection (RFC 9110, section 7.6.1)."""
    named = {member.strip(b" \t").lower() for value in _values(fields, b"connection") for member in value.split(b",")}
    dropped = HOP_BY_HOP | (named - {b"content-length", b"host"})
    return [field for field in fields if field[0].lower() not in dropped]


def _head(first_line: bytes, fields: Fields) -> bytes:
    return first_line + b"\r\n" + b"".join(b"%s: %s\r\n" % field for field in fields) + b"\r\n"
