"""Reads the requests of one connection from its bytes (RFC 9112): finds where a head and a body end.

It knows neither sockets nor time nor caching: bytes go in by `feed`, and events come out of `next`. A request whose end is
ambiguous is refused, so that no other reader of the same bytes can find another end.
"""
from __future__ import annotations

import re
from typing import Callable, Dict, List, NamedTuple, Optional, Tuple, Union

_TOKEN = rb"[!#$%&'*+\-.^_`|~0-9A-Za-z]+"
_VALUE = rb"[\t -~\x80-\xff]*"
_FIELDS = rb"(?:" + _TOKEN + rb":" + _VALUE + rb"\r\n)*"
_HEAD = re.compile(rb"(" + _TOKEN + rb") ([!-~]+) HTTP/1\.([01])\r\n" + _FIELDS + rb"\r\n")
_FIELD = re.compile(rb"(?m)^(" + _TOKEN + rb"):[ \t]*(" + _VALUE + rb")\r$")
# The fields that decide where a request and its connection end.
_FRAMING = re.compile(
    rb"(?im)^(content-length|transfer-encoding|connection|expect|host|sec-websocket-key):[ \t]*([^\r\n]*)"
)
_TRAILER = re.compile(_FIELDS + rb"\r\n")
# A blank is read in one way only, so that a long line takes linear time.
_CHUNK = re.compile(rb"([0-9A-Fa-f]{1,15})(?:[ \t]*|;" + _VALUE + rb")\r\n")
_LENGTH = re.compile(rb"[0-9]{1,18}")
_BARE_LF = re.compile(rb"(?<!\r)\n")
_MAY_BEGIN = frozenset(b"!#$%&'*+-.^_`|~0123456789ABCDEFGHIJKLMNOPQRSTUVWXYZabcdefghijklmnopqrstuvwxyz")
# The longest line with the size of a chunk, and the longest piece of a body that is returned at once.
_CHUNK_LINE = 4096
PIECE = 65_536

Fields = List[Tuple[bytes, bytes]]


class BadMessage(Exception):
    """Raised if a message can't be read. `status` is the status of the response to the client."""

    def __init__(self, status: int, why: str) -> None:
        super().__init__(why)
        self.status = status


class Request:
    """The head of a request as it was received, and what it says of the ends of the request and of the connection."""

    __slots__ = ("head", "method", "target", "is_1_1", "length", "is_last", "expects_100", "host", "opens_websocket")

    def __init__(self, head: bytes, method: bytes, target: bytes, is_1_1: bool) -> None:
        self.head, self.method, self.target, self.is_1_1 = head, method, target, is_1_1
        fields: Dict[bytes, List[bytes]] = {}
        for name, value in _FRAMING.findall(head):
            fields.setdefault(name.lower(), []).append(value.rstrip(b" \t"))
        hosts = fields.get(b"host", [])
        if len(hosts) > 1 or (is_1_1 and not hosts):
            raise BadMessage(400, "not one Host")
        self.host = hosts[0] if hosts else b""
        self.is_last = not is_1_1 or b"close" in _members(fields.get(b"connection"))
        self.expects_100 = is_1_1 and b"100-continue" in _members(fields.get(b"expect"))
        self.opens_websocket = b"sec-websocket-key" in fields
        # The length of the body, or None if it is in chunks.
        self.length = _length(fields, is_1_1)

    @property
    def first_line(self) -> bytes:
        return self.head[: self.head.index(b"\r")]

    @property
    def has_body(self) -> bool:
        return self.length != 0


def _members(values: Optional[List[bytes]]) -> List[bytes]:
    return [piece.strip(b" \t").lower() for value in values for piece in value.split(b",")] if values else []


def _length(fields: Dict[bytes, List[bytes]], is_1_1: bool) -> Optional[int]:
    """Returns the length of a body, or None for chunks. Raises `BadMessage` if it is ambiguous (RFC 9112, section 6.3)."""
    codings, lengths = fields.get(b"transfer-encoding"), fields.get(b"content-length")
    if codings:
        if lengths or not is_1_1:
            raise BadMessage(400, "transfer-encoding beside content-length, or in HTTP/1.0")
        if b",".join(codings).lower() != b"chunked":
            raise BadMessage(501, "a transfer coding other than chunked")
        return None
    if not lengths:
        return 0
    first, *further = set(_members(lengths))
    if further or not _LENGTH.fullmatch(first):
        raise BadMessage(400, "content-length isn't one length")
    return int(first)


class End(NamedTuple):
    """The end of a request, and the fields of its trailer."""

    trailer: Fields


class Closed(NamedTuple):
    """The end of the connection, where no request has begun."""


# `bytes` is a piece of a body. None means that more bytes have to be fed.
Event = Union[Request, bytes, End, Closed, None]


def fields_of(lines: bytes) -> Fields:
    """Returns the names and values of the field lines in a head or a trailer that was read."""
    return [(name, value.rstrip(b" \t")) for name, value in _FIELD.findall(lines)]


class RequestReader:
    """Reads requests from bytes. After the end of a request it reads on only once `restart` is called."""

    def __init__(self, longest_head: int = 65_536) -> None:
        self.longest_head = longest_head
        self._data = bytearray()
        self._has_ended = False
        self._searched = 0
        self._left = 0
        self._read: Callable[[], Event] = self._head
        # Whether the whole request was read.
        self.is_over = False

    @property
    def unread(self) -> int:
        """Returns how many bytes were fed and not read yet."""
        return len(self._data)

    def feed(self, data: bytes) -> None:
        """Takes the next bytes of the connection, or none at its end."""
        self._has_ended = self._has_ended or not data
        self._data += data

    def next(self) -> Event:
        """Returns the next event. Raises `BadMessage` if the bytes are no request, and then again and again."""
        return self._read()

    def restart(self) -> None:
        """Lets the next request be read, after a request that is over."""
        assert self.is_over
        self._read, self.is_over = self._head, False

    def _head(self) -> Event:
        data = self._data
        # A client may send an empty line after a request (RFC 9112, section 2.2).
        while data[:2] == b"\r\n":
            del data[:2]
        end = data.find(b"\r\n\r\n", max(0, self._searched - 3), self.longest_head)
        if end < 0:
            return self._part_of_head()
        self._searched = 0
        head = bytes(data[: end + 4])
        found = _HEAD.fullmatch(head)
        if not found:
            raise BadMessage(400, "the head is malformed")
        request = Request(head, found[1], found[2], found[3] == b"1")
        del data[: end + 4]
        if request.length is None:
            self._read = self._size
        elif request.length:
            self._left, self._read = request.length, self._body
        else:
            self._finish(self._end)
        return request

    def _finish(self, state: Callable[[], Event]) -> None:
        self._read, self.is_over = state, True

    def _part_of_head(self) -> Event:
        data = self._data
        if data and data[0] not in _MAY_BEGIN and data != b"\r":
            raise BadMessage(400, "the head is malformed")
        self._refuse_bare_lf(self.longest_head)
        if len(data) >= self.longest_head:
            raise BadMessage(431, "the head is too long")
        if self._has_ended:
            if data:
                raise BadMessage(400, "the head is incomplete")
            return Closed()
        return None

    def _refuse_bare_lf(self, most: int) -> None:
        """Refuses a line that ends without CR, before its message is whole."""
        if _BARE_LF.search(self._data, self._searched, most):
            raise BadMessage(400, "a line ends without CR")
        self._searched = len(self._data)

    def _body(self) -> Event:
        piece = self._piece()
        if piece and not self._left:
            self._finish(self._end)
        return piece

    def _piece(self) -> Optional[bytes]:
        if not self._data:
            self._want_more()
            return None
        piece = bytes(self._data[: min(self._left, PIECE)])
        del self._data[: len(piece)]
        self._left -= len(piece)
        return piece

    def _want_more(self) -> None:
        if self._has_ended:
            raise BadMessage(400, "the body is incomplete")

    def _size(self) -> Event:
        end = self._data.find(b"\r\n", 0, _CHUNK_LINE)
        if end < 0:
            self._refuse_bare_lf(_CHUNK_LINE)
            if len(self._data) >= _CHUNK_LINE:
                raise BadMessage(400, "the size of a chunk is too long")
            self._want_more()
            return None
        self._searched = 0
        found = _CHUNK.fullmatch(self._data, 0, end + 2)
        if not found:
            raise BadMessage(400, "the size of a chunk is malformed")
        self._left = int(found[1], 16)
        del found
        del self._data[: end + 2]
        self._read = self._chunk if self._left else self._trailer
        return self.next()

    def _chunk(self) -> Event:
        piece = self._piece()
        if piece and not self._left:
            self._read = self._end_of_chunk
        return piece

    def _end_of_chunk(self) -> Event:
        two = self._data[:2]
        if two != b"\r\n"[: len(two)]:
            raise BadMessage(400, "a chunk is malformed")
        if len(two) < 2:
            self._want_more()
            return None
        del self._data[:2]
        self._read = self._size
        return self.next()

    def _trailer(self) -> Event:
        data = self._data
        end = -2 if data[:2] == b"\r\n" else data.find(b"\r\n\r\n", max(0, self._searched - 3), self.longest_head)
        if end == -1:
            self._refuse_bare_lf(self.longest_head)
            if len(data) >= self.longest_head:
                raise BadMessage(431, "the trailer is too long")
            self._want_more()
            return None
        self._searched = 0
        lines = bytes(data[: end + 4])
        if not _TRAILER.fullmatch(lines) or re.search(rb"(?im)^(content-length|transfer-encoding):", lines):
            raise BadMessage(400, "the trailer is malformed")
        del data[: end + 4]
        self._finish(self._over)
        return End(fields_of(lines))

    def _end(self) -> Event:
        self._read = self._over
        return End([])

    def _over(self) -> Event:
        return None
