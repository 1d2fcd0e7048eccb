"""Sends requests to an origin server on persistent connections, by the state machine of h11.

A connection is used again only if h11 has seen both messages end and nothing was received after that: whatever else an origin
server sends belongs to no request. The module does nothing about caching.
"""
from __future__ import annotations

import asyncio
import errno
import select
from dataclasses import dataclass
from typing import Any, Iterable, List, Optional, Tuple

import h11

from .connection import Client, Connection, Room
from .process import Send, now_ms
from .wire import PIECE, BadMessage, End, Fields

_IDEMPOTENT = (b"GET", b"HEAD", b"PUT", b"DELETE", b"OPTIONS", b"TRACE")
# Fields of one connection (RFC 9110, section 7.6.1).
HOP_BY_HOP = frozenset(b"connection keep-alive proxy-connection te transfer-encoding upgrade".split())
# Fields that may not be in a trailer, since they frame, route, authenticate or control (RFC 9110, section 6.5.1).
_NOT_IN_TRAILERS = HOP_BY_HOP | frozenset(
    b"age authorization cache-control content-encoding content-length content-range content-type cookie date expires host "
    b"location max-forwards proxy-authenticate proxy-authorization set-cookie trailer vary via warning www-authenticate".split()
)
_RESET_CONTENT = 205
# The statuses of responses without a body.
_BODILESS = (204, _RESET_CONTENT, 304)
# The greatest number in a frame.
_LONGEST = (1 << 53) - 1


class BadRequest(BadMessage):
    """Raised if the body of a client's request can't be read, so that the request can't be sent on."""


@dataclass(frozen=True)
class Origin:
    """The address of the origin server, its time limits in seconds, and how many idle connections to it are kept."""

    host: str
    port: int
    is_tls: bool
    url: str
    connect: float = 5.0
    response: float = 30.0
    idle: float = 60.0
    kept: int = 64
    longest_head: int = 65_536


class OriginConnection(Connection):
    """A connection to the origin server."""

    def __init__(self, room: Room, origin: Origin) -> None:
        super().__init__(room, origin.idle)
        self.longest_head = origin.longest_head
        self.http = h11.Connection(h11.CLIENT, max_incomplete_event_size=origin.longest_head)
        # What was received since the last head, or None while a body is read.
        self._head: Optional[bytearray] = bytearray()
        self._held = 0
        self.server: Optional[OriginServer] = None

    # What is received.

    def feed(self, data: bytes) -> None:
        if self.server:
            self.server.forget(self)
        elif not self.has_ended or not data:
            self.http.receive_data(data)
            self._held += len(data)
            if self._head is not None:
                self._head += data

    @property
    def unread(self) -> int:
        return self._held

    def connection_lost(self, exc: Optional[Exception]) -> None:
        super().connection_lost(exc)
        if self.server:
            self.server.forget(self)

    def ready(self) -> Any:
        """Returns the next event that needs no more bytes, or `h11.NEED_DATA`. Raises `BadMessage`."""
        try:
            event = self.http.next_event()
        except (h11.RemoteProtocolError, ValueError) as error:
            # int() of a Content-Length with more than 4,300 digits raises ValueError.
            raise BadMessage(502, str(error)) from error
        if event is h11.NEED_DATA:
            self._held = 0
        elif isinstance(event, h11.Data):
            self._held -= len(event.data)
        return event

    async def event(self, due: float) -> Any:
        event = self.ready()
        while event is h11.NEED_DATA:
            await self.more(due)
            event = self.ready()
        return event

    async def head(self, due: float) -> Any:
        """Returns the next head as an event of h11. Raises `ConnectionResetError` if the connection ends before one."""
        try:
            event = await self.event(due)
        except BadMessage:
            if self.has_ended and self._head == b"":
                raise ConnectionResetError("the connection was closed without a response") from None
            raise
        if not isinstance(event, (h11.Response, h11.InformationalResponse)):
            raise ConnectionResetError("the connection was closed without a response")
        assert self._head is not None
        left = self.http.trailing_data[0]
        head = self._head[: len(self._head) - len(left)]
        self._head = bytearray(left) if isinstance(event, h11.InformationalResponse) else None
        self._check(event, bytes(head))
        return event

    @property
    def has_begun_response(self) -> bool:
        return self._head != b""

    def _check(self, event: Any, head: bytes) -> None:
        """Refuses heads that h11 accepts, although others may read another message in the same bytes."""
        if len(head) > self.longest_head:
            raise BadMessage(502, "the head is too long")
        if head.count(b"\n") != head.count(b"\r\n"):
            raise BadMessage(502, "a line of the head ends without CR")
        if event.http_version not in (b"1.1", b"1.0"):
            raise BadMessage(502, "another version than HTTP/1")
        names = [name for name, _ in event.headers if name in (b"content-length", b"transfer-encoding")]
        if b"transfer-encoding" in names and (len(names) > 1 or event.http_version == b"1.0"):
            raise BadMessage(502, "transfer-encoding beside content-length, or in HTTP/1.0")

    # What is sent.

    def send(self, *events: Any) -> int:
        """Writes events of h11, and returns how many bytes they are."""
        data = b"".join([self.http.send(event) or b"" for event in events])
        self.write(data)
        return len(data)

    # The pool.

    @property
    def is_quiet(self) -> bool:
        """Returns whether the connection is open and nothing is unread, not even by the system."""
        if self.is_gone or self.has_ended or self.http.trailing_data[0]:
            return False
        poll = select.poll()
        poll.register(self.transport.get_extra_info("socket").fileno(), select.POLLIN)
        return not poll.poll(0)

    def may_be_kept(self) -> bool:
        """Returns whether both messages have ended, another pair may follow, and nothing is unread."""
        return self.http.our_state is h11.DONE and self.http.their_state is h11.DONE and self.is_quiet

    def rest_idle(self, server: Optional[OriginServer]) -> None:
        """Becomes a connection in the pool of a server, or with None ceases to be one."""
        if server:
            self.http.start_next_cycle()
            self._head, self._held = bytearray(), 0
            self.count()
        self.server = server


class Response:
    """A response of the origin server: its head, and its body as it is read."""

    def __init__(self, server: OriginServer, peer: OriginConnection, event: Any, method: bytes, sent: int) -> None:
        self.sent, self.at = sent, now_ms()
        self.status: int = event.status_code
        self._first_line = b"HTTP/%s %d %s\r\n" % (event.http_version, event.status_code, event.reason)
        self.fields = _fields_of(event)
        # The length of the body, or None if only its end tells it.
        self.length = _length_of(self.fields, method, self.status)
        self.trailer: Fields = []
        self.upload: Optional[asyncio.Task[None]] = None
        # What was read ahead of the body, and what `piece` has returned that is kept. Both are counted as memory.
        self._ahead = bytearray()
        self._kept: Optional[bytearray] = None
        self._counted = 0
        self._is_read = False
        self._server, self._peer = server, peer
        if self.length == 0:
            self._finish(peer.ready())

    @property
    def head(self) -> bytes:
        """Returns the head as frames have it."""
        return self._first_line + b"".join(b"%s: %s\r\n" % field for field in self.fields) + b"\r\n"

    @property
    def start(self) -> bytes:
        """Returns what was read ahead of the body."""
        return bytes(self._ahead)

    @property
    def has_ended(self) -> bool:
        """Returns whether `piece` has returned the whole body."""
        return self._is_read and not self._ahead

    def _finish(self, event: Any) -> None:
        self._is_read = True
        if isinstance(event, h11.EndOfMessage):
            self.trailer = for_trailer(event.headers.raw_items())
        self._server.keep(self._peer)

    def _take(self, event: Any) -> bytes:
        if isinstance(event, h11.Data):
            return bytes(event.data)
        if not isinstance(event, h11.EndOfMessage):
            raise BadMessage(502, "the response has no end")
        self._finish(event)
        return b""

    async def piece(self) -> bytes:
        """Returns the next bytes of the body, or none at its end.

        Raises `OSError`, or `BadMessage` if the body is cut off or malformed, or stalls for the idle time.
        """
        piece = self._piece_ahead() if self._ahead or self._is_read else await self._read()
        if self._kept is not None:
            self._kept += piece
            self._count(len(piece))
        return piece

    def _piece_ahead(self) -> bytes:
        piece = bytes(self._ahead[:PIECE])
        del self._ahead[:PIECE]
        # A response that is closed is counted no longer.
        self._count(-min(len(piece), self._counted))
        return piece

    def _count(self, change: int) -> None:
        self._counted += change
        if change > 0:
            self._peer.room.take(change)
        else:
            self._peer.room.give(-change)

    def keep(self) -> None:
        """Keeps what `piece` returns from now on."""
        self._kept = bytearray()

    def rewind(self) -> None:
        """Has `piece` return again what was kept."""
        if self._kept is not None:
            self._ahead, self._kept = self._kept + self._ahead, None

    async def _read(self) -> bytes:
        peer = self._peer
        try:
            event = await peer.event(peer.loop.time() + peer.idle)
        except asyncio.TimeoutError as error:
            raise BadMessage(502, f"a body has stalled for {peer.idle:g} s") from error
        parts = [self._take(event)]
        length = len(parts[0])
        # Of many small chunks, which are there already, a piece is made.
        while not self._is_read and length < PIECE and peer.unread:
            try:
                event = peer.ready()
            except BadMessage:
                # The next call raises it again.
                break
            if event is not h11.NEED_DATA:
                parts.append(self._take(event))
                length += len(parts[-1])
        peer.count()
        return b"".join(parts)

    async def read_ahead(self, most: int, seconds: float) -> bool:
        """Reads on for so many seconds, and returns whether `start` is the whole body, of at most `most` bytes."""
        due = self._peer.loop.time() + seconds
        while not self._is_read and len(self._ahead) <= most:
            event = self._peer.ready()
            if event is not h11.NEED_DATA:
                piece = self._take(event)
                self._ahead += piece
                self._count(len(piece))
                continue
            try:
                await self._peer.more(due)
            except asyncio.TimeoutError:
                return False
        return self._is_read and len(self._ahead) <= most

    def end_upload(self) -> None:
        """Reads no more of the body of the request."""
        if self.upload:
            self.upload.cancel()

    def close(self) -> None:
        """Ends the exchange, and closes the connection, unless the pool has it because the response has ended."""
        self.end_upload()
        self._count(-self._counted)
        if not self._is_read:
            self._peer.close()


def _fields_of(event: Any) -> Fields:
    """Returns the fields of a response without its coding, which ends here. A 205 has no body (RFC 9110, section 15.3.6)."""
    without = (b"transfer-encoding", b"content-length") if event.status_code == _RESET_CONTENT else (b"transfer-encoding",)
    return [field for field in event.headers.raw_items() if field[0].lower() not in without]


def _length_of(fields: Fields, method: bytes, status: int) -> Optional[int]:
    if method == b"HEAD" or status in _BODILESS:
        return 0
    length = next((int(value) for name, value in fields if name.lower() == b"content-length"), None)
    if length is not None and length > _LONGEST:
        raise BadMessage(502, "content-length is too great")
    return length


def for_trailer(fields: Iterable[Tuple[bytes, bytes]]) -> Fields:
    """Returns the fields that may be sent on in a trailer."""
    return [(name, value) for name, value in fields if name.lower() not in _NOT_IN_TRAILERS]


class OriginServer:
    """Sends requests to the origin server, on persistent connections."""

    def __init__(self, origin: Origin, room: Room) -> None:
        self.origin, self.room = origin, room
        self.idle: List[OriginConnection] = []

    async def _connect(self) -> OriginConnection:
        loop = asyncio.get_running_loop()
        tls = True if self.origin.is_tls else None
        opening = loop.create_connection(self._connection, self.origin.host, self.origin.port, ssl=tls)
        try:
            return (await asyncio.wait_for(opening, self.origin.connect))[1]
        except asyncio.TimeoutError as error:
            raise OSError(errno.ETIMEDOUT, "no connection") from error

    def _connection(self) -> OriginConnection:
        return OriginConnection(self.room, self.origin)

    def forget(self, peer: OriginConnection) -> None:
        """Closes an idle connection that has ended, or has received what belongs to no request (RFC 9112, section 9.2)."""
        peer.rest_idle(None)
        self.idle.remove(peer)
        peer.close()

    def keep(self, peer: OriginConnection) -> None:
        """Keeps a connection whose exchange has ended for the next request, or closes it."""
        if len(self.idle) < self.origin.kept and peer.may_be_kept():
            peer.rest_idle(self)
            self.idle.append(peer)
        else:
            peer.close()

    def _kept(self) -> Optional[OriginConnection]:
        while self.idle:
            peer = self.idle.pop()
            peer.rest_idle(None)
            if peer.is_quiet:
                return peer
            peer.close()
        return None

    async def fetch(self, send: Send, client: Optional[Client]) -> Response:
        """Sends a request, and returns its response once the head is there.

        `client` sends the body of a request with `rest`, and is sent interim responses if it reads HTTP/1.1. An idle connection
        is used only for an idempotent method without a body, since the request may have to be sent again (RFC 9112, section
        9.3.1).
        """
        has_body = send.rest or bool(send.body)
        while True:
            kept = self._kept() if not has_body and send.head.split(b" ", 1)[0] in _IDEMPOTENT else None
            peer = kept or await self._connect()
            try:
                return await self._exchange(peer, send, client)
            except BaseException as error:
                peer.close()
                if isinstance(error, h11.LocalProtocolError):
                    raise BadMessage(502, f"the request can't be sent: {error}") from error
                if not kept or peer.has_begun_response or not isinstance(error, ConnectionError):
                    raise

    async def _exchange(self, peer: OriginConnection, send: Send, client: Optional[Client]) -> Response:
        request = _request_of(send)
        sent, upload = now_ms(), None
        if send.rest and client:
            peer.send(request)
            upload = asyncio.ensure_future(_upload(peer, client, request.headers))
            # Otherwise asyncio logs what nobody waits for, after the response.
            upload.add_done_callback(lambda task: task.cancelled() or task.exception())
            event = await self._head_meanwhile(peer, client, upload)
        else:
            peer.send(request, *([h11.Data(data=send.body)] if send.body else []), h11.EndOfMessage())
            event = await _final_head(peer, client, peer.loop.time() + self.origin.response)
        response = Response(self, peer, event, request.method, sent)
        response.upload = upload
        return response

    async def _head_meanwhile(self, peer: OriginConnection, client: Client, upload: asyncio.Task[None]) -> Any:
        """Returns the head of the final response while a body is sent, perhaps before that has ended.

        A body that can't be read ends the exchange. If the origin server takes no more of it, its response may still be there.
        """
        head = asyncio.ensure_future(_final_head(peer, client, float("inf")))
        try:
            await asyncio.wait([upload, head], return_when=asyncio.FIRST_COMPLETED)
            if upload.done() and isinstance(upload.exception(), BadRequest):
                await upload
            return await asyncio.wait_for(head, None if head.done() else self.origin.response)
        except BaseException:
            upload.cancel()
            head.cancel()
            raise


async def _final_head(peer: OriginConnection, client: Optional[Client], due: float) -> Any:
    """Returns the head of the final response, and sends interim responses on to the client."""
    while True:
        event = await peer.head(due)
        if isinstance(event, h11.Response):
            return event
        # The proxy itself says 100 to a client that waits for it.
        if client and event.status_code != 100:
            client.write_interim(_interim(event))


async def _upload(peer: OriginConnection, client: Client, fields: Any) -> None:
    """Sends the body of a request on, piece by piece. Raises `BadRequest` if it is incomplete: then nothing ends it."""
    client.go_on()
    while True:
        try:
            event = await client.event()
        except (OSError, asyncio.TimeoutError) as error:
            raise BadRequest(408, "the body of the request doesn't end") from error
        except BadMessage as error:
            raise BadRequest(error.status, str(error)) from error
        if isinstance(event, bytes):
            await peer.drain(peer.send(h11.Data(data=event)))
        else:
            assert isinstance(event, End)
            is_chunked = any(name == b"transfer-encoding" for name, _ in fields)
            trailer: Fields = for_trailer(event.trailer) if is_chunked else []
            peer.send(h11.EndOfMessage(headers=trailer))
            return


def _request_of(send: Send) -> Any:
    """Returns a request as an event of h11, with the coding of a body whose length isn't known."""
    first, *lines = send.head[:-4].split(b"\r\n")
    method, target, _ = first.split(b" ")
    fields = [(name, value.strip(b" \t")) for name, _, value in (line.partition(b":") for line in lines)]
    if send.rest and not any(name.lower() == b"content-length" for name, _ in fields):
        fields.append((b"transfer-encoding", b"chunked"))
    return h11.Request(method=method, target=target, headers=fields)


def _interim(event: Any) -> bytes:
    """Returns the head of an interim response as it is sent on."""
    named = {name.strip().lower() for field, value in event.headers if field == b"connection" for name in value.split(b",")}
    kept = [field for field in event.headers.raw_items() if field[0].lower() not in HOP_BY_HOP | named]
    lines = b"".join(b"%s: %s\r\n" % field for field in kept)
    return b"HTTP/1.1 %d %s\r\n%s\r\n" % (event.status_code, event.reason, lines)
