"""Answers the requests of clients as the process decides: asks it, sends its requests on, and writes its answers.

It measures time and lengths and moves bytes. The process writes the heads, unless it can't be used.
"""
from __future__ import annotations

import asyncio
import contextlib
import datetime
import re
import sys
import time
from http.client import responses as REASONS
from typing import Any, Coroutine, Optional, Set, Tuple, cast

from . import _uncached
from .connection import Client, Room
from .forward import LOST, Copy, Forward, Forwarder
from .origin import BadRequest, OriginServer, Response
from .outage import Keeper
from .process import Answer, AsyncCache, CacheError, CacheGone, Outcome, Send, Wait
from .wire import PIECE, BadMessage, Request

_CACHE_STATUS = re.compile(rb"(?im)^cache-status:[ \t]*([^\r\n]*)")
_STOP_SECONDS = 30.0
# The status of the response to a request that the process refuses, by the code of the error. For other errors it is 400.
_STATUS_OF = {"full-head": 431, "too-long": 431, "too-many": 503, "out-of-memory": 503}
_RESET_CONTENT = b"205"


class Log:
    """Writes to standard error, and of lines that many requests may cause only one a second."""

    def __init__(self) -> None:
        self._next = 0.0

    def say(self, text: str) -> None:
        print(f"proxy: {text}", file=sys.stderr, flush=True)

    def warn(self, text: str) -> None:
        now = time.monotonic()
        if now >= self._next:
            self._next = now + 1.0
            self.say(text)


class Proxy(Forwarder):
    """Answers requests as the process decides, and sends the requests of the process to the origin server."""

    def __init__(
        self, cache: AsyncCache, origin: OriginServer, room: Room, log: Log, name: bytes, collapses: bool, has_log: bool
    ) -> None:
        super().__init__(cache, origin, room, lambda why: log.warn(f"{origin.origin.url}: {why}"))
        self.name, self.collapses, self.has_log = name, collapses, has_log
        self.keeper = Keeper(cache, log.say)
        self.is_stopping = False
        self.clients: Set[Client] = set()
        self.tasks: Set[asyncio.Task[None]] = set()

    def run(self, work: Coroutine[Any, Any, None]) -> None:
        task = asyncio.ensure_future(work)
        self.tasks.add(task)
        task.add_done_callback(self.tasks.discard)

    def serve(self, client: Client) -> None:
        """Answers the requests of one connection."""
        self.clients.add(client)
        self.run(self._serve(client))

    async def _serve(self, client: Client) -> None:
        try:
            while not self.is_stopping:
                request = await client.request()
                if not request or not await Exchange(self, client, request).run():
                    break
        except BadMessage as error:
            await self._refuse(client, error)
        except (OSError, asyncio.TimeoutError, asyncio.CancelledError):
            pass
        finally:
            client.close()

    async def _refuse(self, client: Client, error: BadMessage) -> None:
        reason = REASONS.get(error.status, "").encode()
        head = b"HTTP/1.1 %d %s\r\ncontent-length: 0\r\nconnection: close\r\n\r\n" % (error.status, reason)
        self.log_request(client, client.current.first_line if client.current else b"-", head, 0)
        client.write(head)
        await client.linger()

    async def validate(self, due: Send) -> None:
        """Sends a validation that nobody waits for."""
        forward, found = Forward(self, None), cast(Outcome, due)
        try:
            with contextlib.suppress(CacheError):
                while isinstance(found, Send):
                    found = await forward.outcome(found)
        finally:
            forward.close()

    async def stop(self) -> None:
        """Ends idle connections at once, and the others after their requests under way."""
        self.is_stopping = True
        for client in self.clients:
            if not client.current:
                client.close()
        if self.tasks:
            await asyncio.wait(self.tasks, timeout=_STOP_SECONDS)
        await self.keeper.close()

    def log_request(self, client: Client, first_line: bytes, head: bytes, length: int) -> None:
        if self.has_log:
            print(_log_line(client, first_line, head, length), flush=True)


class Exchange(Forward):
    """One request of a client, until its answer is sent."""

    def __init__(self, proxy: Proxy, client: Client, request: Request) -> None:
        super().__init__(proxy, client)
        self.proxy, self.peer, self.request = proxy, client, request
        # How many bytes of the body the client was sent, and the answer of which the process holds the rest.
        self._sent = 0
        self._held: Optional[Answer] = None

    async def run(self) -> bool:
        """Answers the request. Returns whether another may follow on the connection."""
        if self.request.opens_websocket:
            raise BadMessage(501, "no upgrade to another protocol")
        try:
            answer = await self._decided()
            return await self._send(answer)
        finally:
            self.close()
            if self.copy:
                await self.copy.drop()
            if self._held:
                with contextlib.suppress(CacheError):
                    await self.proxy.cache.failed(self._held)

    async def _decided(self) -> Answer:
        """Returns the answer. Its body is the one of `response` if it has `rest`."""
        keeper = self.proxy.keeper
        if not keeper.is_up:
            return await self._without_cache()
        try:
            found = await self._asked()
            while isinstance(found, Send):
                found = await self.outcome(found)
        except CacheGone as error:
            keeper.lost(error)
            return await self._without_cache()
        except CacheError as error:
            raise BadMessage(_STATUS_OF.get(error.code, 400), str(error)) from error
        assert isinstance(found, Answer)
        if found.due:
            self.proxy.run(self.proxy.validate(found.due))
        self._held = found if found.left else None
        return found

    async def _asked(self) -> Outcome:
        cache, request = self.proxy.cache, self.request
        rest = None if request.length == 0 else request.length or True
        found = await cache.ask(request.head, rest=rest, pieces=PIECE, wait=self.proxy.collapses)
        if isinstance(found, Wait):
            await cache.over(found)
            found = await cache.ask(request.head, rest=rest, pieces=PIECE)
        return found

    async def _without_cache(self) -> Answer:
        """Sends the request on without the process, unless its response is there already. Nothing is stored of it."""
        request, proxy = self.request, self.proxy
        is_safe = request.method in _uncached.SAFE
        try:
            if not self.response or (is_safe and not request.has_body):
                await self._fetch_without_cache(is_safe)
        finally:
            target = None if is_safe else _uncached.target_uri(request)
            if target:
                await proxy.keeper.changed(target)
        assert self.response
        return Answer(_uncached.response_head(self.response, proxy.name), b"", True)

    async def _fetch_without_cache(self, is_safe: bool) -> None:
        request, proxy = self.request, self.proxy
        self.close()
        if self.was_sent and (request.has_body or not is_safe):
            raise BadMessage(502, "cacheserve has ended")
        head = _uncached.request_head(request, proxy.name)
        try:
            self.response = await proxy.origin.fetch(Send(0, head, b"", request.has_body, 0), self.peer)
        except BadRequest:
            raise
        except LOST as error:
            proxy.note(error)
            raise BadMessage(502 if isinstance(error, BadMessage) else 504, "no response") from error

    async def _send(self, answer: Answer) -> bool:
        client, request, response = self.peer, self.request, self.response if answer.rest else None
        if self.response and not response:
            self.response.end_upload()
        is_open = response is not None and response.length is None
        is_over = client.reader.is_over or (not (response and response.upload) and client.skip_body())
        is_last = request.is_last or self.proxy.is_stopping or not is_over or (is_open and not request.is_1_1)
        in_chunks, head = is_open and request.is_1_1, answer.head
        if in_chunks or is_last:
            added = (b"transfer-encoding: chunked\r\n" if in_chunks else b"") + (b"connection: close\r\n" if is_last else b"")
            head = head[:-2] + added + b"\r\n"
        client.write(head if answer.rest or head[9:12] == _RESET_CONTENT else head + answer.body)
        length, is_whole = await self._send_body(answer, response, in_chunks)
        if self.proxy.has_log:
            self.proxy.log_request(client, request.first_line, head, length)
        if is_whole and not client.reader.is_over:
            self.close()
            await client.linger()
        return is_whole and not is_last

    async def _send_body(self, answer: Answer, response: Optional[Response], in_chunks: bool) -> Tuple[int, bool]:
        """Sends what follows the head and the first bytes. Returns the length of the body, and whether it is whole."""
        client = self.peer
        self._sent = len(answer.body)
        try:
            if client.is_blocked or client.is_gone:
                await client.drain(self._sent)
            if response:
                await self._stream(response, in_chunks)
            elif answer.left:
                await self._send_pieces(answer)
            elif self.copy and self.response:
                self.proxy.run(_collect(self.response, self.copy))
                self.response = self.copy = None
            return self._sent, True
        except (CacheError, BadMessage, OSError, asyncio.TimeoutError):
            # The head of the response was sent, so only a cut says that the response isn't whole.
            client.abort()
            return self._sent, False

    async def _stream(self, response: Response, in_chunks: bool) -> None:
        """Sends the body of the response while it is read. Its copy is stored before the client has the end."""
        client, copy = self.peer, self.copy
        while True:
            piece = await self._piece(response)
            self._sent += len(piece)
            if self._sent == response.length and not response.has_ended:
                await self._piece(response)
            data = b"%x\r\n%s\r\n" % (len(piece), piece) if in_chunks and piece else piece
            if response.has_ended:
                if copy:
                    await copy.complete(piece)
                client.write(data + _last_chunk(response) if in_chunks else data)
                await client.drain(len(data))
                return
            client.write(data)
            if copy:
                await copy.add(piece)
            await client.drain(len(data))

    async def _piece(self, response: Response) -> bytes:
        try:
            return await response.piece()
        except LOST as error:
            self.proxy.note(error)
            raise

    async def _send_pieces(self, answer: Answer) -> None:
        """Sends what is left of a stored body, as fast as the client takes it."""
        while self._held:
            piece = await self.proxy.cache.next(answer)
            if not piece.left:
                self._held = None
            self._sent += len(piece.body)
            self.peer.write(piece.body)
            await self.peer.drain(len(piece.body))


async def _collect(response: Response, copy: Copy) -> None:
    """Collects the copy of a body that no client is sent."""
    try:
        piece = await response.piece()
        while not response.has_ended:
            await copy.add(piece)
            piece = await response.piece()
        await copy.complete(piece)
    except LOST:
        await copy.drop()
    finally:
        response.close()


def _last_chunk(response: Response) -> bytes:
    return b"0\r\n" + b"".join(b"%s: %s\r\n" % field for field in response.trailer) + b"\r\n"


def _log_line(client: Client, first_line: bytes, head: bytes, length: int) -> str:
    """Returns a line of the access log: the Common Log Format, and Cache-Status."""
    address = (client.transport.get_extra_info("peername") or ["-"])[0]
    now = datetime.datetime.now(datetime.timezone.utc).strftime("%d/%b/%Y:%H:%M:%S +0000")
    request, cache_status = (_printable(text) for text in (first_line, b", ".join(_CACHE_STATUS.findall(head)) or b"-"))
    return f'{address} - - [{now}] "{request}" {head[9:12].decode()} {length} "{cache_status}"'


def _printable(text: bytes) -> str:
    return "".join(chr(byte) if 32 <= byte < 127 and byte not in b'"\\' else f"\\x{byte:02x}" for byte in text)
