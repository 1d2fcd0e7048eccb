"""A cache for `httpx`.

    client = httpx.Client(transport=CacheTransport("cache.db"))
    client = httpx.AsyncClient(transport=AsyncCacheTransport("cache.db"))

The process `cacheserve --private` decides what is stored and what may be used again, and the transport has another transport of
`httpx` send its requests. If the process can't be used, requests are sent without it, and the logger `http_cache_semantics`
warns.
"""
from __future__ import annotations

import asyncio
import contextlib
import os
from dataclasses import replace
from typing import Any, AsyncIterator, Callable, Dict, Iterator, List, Optional, Set, Tuple, Type

import httpx

from ._exchange import (
    PIECE,
    Access,
    Asked,
    BlockingAccess,
    Body,
    Exchange,
    Fields,
    Received,
    Reply,
    Steps,
    run,
    run_async,
    run_beside,
)
from ._frames import checked_timeout
from .process import REPLY_SECONDS, AsyncCache, Cache, CacheError, ProcessOptions, Send, now_ms

_OPTIONS = ProcessOptions(private=True, name="httpx")


class CacheTransport(httpx.BaseTransport):
    """A transport of `httpx` with a private cache, which clients and threads may share.

    Each response has `extensions["from_cache"]`: whether it is a stored response, validated or not.
    """

    def __init__(
        self,
        directory: Optional[str] = None,
        process: ProcessOptions = _OPTIONS,
        transport: Optional[httpx.BaseTransport] = None,
        cache_timeout: float = REPLY_SECONDS,
    ) -> None:
        """Starts the process. With a directory, stored responses outlive it. `transport` sends the requests.

        A process that hasn't replied for `cache_timeout` seconds is killed. Raises `ValueError` if that isn't a positive number.
        """
        self._transport = transport or httpx.HTTPTransport()
        self._access = BlockingAccess(replace(process, dir=directory or process.dir), cache_timeout)
        self._access.start()

    @property
    def cache(self) -> Cache:
        """The client of the process. Raises `CacheError` if the process can't be used, such as `StoreNotOpened`."""
        return self._access.client()

    def handle_request(self, request: httpx.Request) -> httpx.Response:
        """Returns a stored response or the origin server's. Raises what the other transport raises."""
        origin = _Origin(self._transport, request)
        reply = run(Exchange(self._access, origin.asked, origin).reply())
        return _response(reply, lambda received: _Stream(Body(reply, origin, received)))

    def remove(self, url: str) -> int:
        """Removes what is stored for a URL. Returns how many responses it removes."""
        return self.cache.remove(_target(httpx.Request("GET", url)))

    def clear(self) -> None:
        """Removes all stored responses, and the directory."""
        self.cache.clear()

    def close(self) -> None:
        """Ends the process and the connections. A later request starts the process again."""
        self._transport.close()
        self._access.close()


class AsyncCacheTransport(httpx.AsyncBaseTransport):
    """A transport of `httpx` with a private cache for code that awaits, by asyncio.

    Each response has `extensions["from_cache"]`: whether it is a stored response, validated or not. The process belongs to the
    event loop of the first request. In another loop another is started.
    """

    def __init__(
        self,
        directory: Optional[str] = None,
        process: ProcessOptions = _OPTIONS,
        transport: Optional[httpx.AsyncBaseTransport] = None,
        cache_timeout: float = REPLY_SECONDS,
    ) -> None:
        """With a directory, stored responses outlive the process. `transport` sends the requests.

        A process that hasn't replied for `cache_timeout` seconds is killed. Raises `ValueError` if that isn't a positive number.
        """
        self._timeout = checked_timeout(cache_timeout, "cache_timeout")
        self._transport = transport or httpx.AsyncHTTPTransport()
        self._options = replace(process, dir=directory or process.dir)
        self._access = Access(self._opened, _owner)
        self._tasks: Set[asyncio.Task[None]] = set()

    async def _opened(self) -> Any:
        return self._access.keep(AsyncCache(self._options, self._timeout))

    async def cache(self) -> AsyncCache:
        """Returns the client of the process. Raises `CacheError` if the process can't be used."""
        cache: AsyncCache = await run_async(self._access.cache())
        return cache

    async def handle_async_request(self, request: httpx.Request) -> httpx.Response:
        """Returns a stored response or the origin server's. Raises what the other transport raises."""
        origin = _AsyncOrigin(self._transport, request, self._later)
        reply = await run_async(Exchange(self._access, origin.asked, origin).reply())
        return _response(reply, lambda received: _AsyncStream(Body(reply, origin, received)))

    def _later(self, steps: Steps[None]) -> None:
        task = asyncio.ensure_future(run_async(steps))
        self._tasks.add(task)
        task.add_done_callback(self._tasks.discard)

    async def remove(self, url: str) -> int:
        """Removes what is stored for a URL. Returns how many responses it removes."""
        return await (await self.cache()).remove(_target(httpx.Request("GET", url)))

    async def clear(self) -> None:
        """Removes all stored responses, and the directory."""
        await (await self.cache()).clear()

    async def aclose(self) -> None:
        """Ends the process and the connections. A later request starts the process again."""
        tasks = list(self._tasks)
        for task in tasks:
            task.cancel()
        if tasks:
            await asyncio.gather(*tasks, return_exceptions=True)
        await self._transport.aclose()
        with contextlib.suppress(CacheError):
            cache = self._access.mine()
            if cache:
                await cache.close()


def _owner() -> Tuple[int, asyncio.AbstractEventLoop]:
    try:
        return os.getpid(), asyncio.get_running_loop()
    except RuntimeError as error:
        raise CacheError("the cache can be used by asyncio only") from error


def _pairs(headers: httpx.Headers) -> Fields:
    return [(name.decode("latin-1"), value.decode("latin-1")) for name, value in headers.raw]


def _raw(fields: Fields) -> List[Tuple[bytes, bytes]]:
    return [(name.encode("latin-1"), value.encode("latin-1")) for name, value in fields]


def _target(request: httpx.Request) -> str:
    """Returns the URL of a request, with the host that its field Host names, without user information and fragment."""
    url = request.url
    return f"{url.scheme}://{request.headers.get('host') or url.netloc.decode('ascii')}{url.raw_path.decode('ascii')}"


class _Requests:
    """What is sent for one request of the caller."""

    failures: Tuple[Type[Exception], ...] = (httpx.TransportError,)

    def __init__(self, request: httpx.Request) -> None:
        self._request = request
        framing = request.headers
        has_body = "transfer-encoding" in framing or framing.get("content-length", "0") != "0"
        self.asked = Asked(request.method, _target(request), _pairs(request.headers), has_body)

    def request(self, send: Optional[Send]) -> httpx.Request:
        own = self._request
        if send is None:
            return own
        method = send.head.split(b" ", 1)[0].decode("latin-1")
        stream = own.stream if send.rest or not self.asked.has_body else httpx.ByteStream(send.body)
        fields = _raw(self.asked.fields_to_send(send))
        return httpx.Request(method, own.url, headers=fields, stream=stream, extensions=own.extensions)

    def is_invalid(self, error: Exception) -> bool:
        return isinstance(error, httpx.ProtocolError)


def _received(method: str, response: httpx.Response, reading: Any, sent: int) -> Received:
    fields = _pairs(response.headers)
    return Received(reading, method, response.status_code, response.reason_phrase, fields, sent, now_ms())


class _Reading:
    """The body of a response as it is read."""

    def __init__(self, response: httpx.Response) -> None:
        self.response, self.stream = response, response.stream
        self.pieces: Any = None


class _Origin(_Requests):
    """Sends by a transport that blocks."""

    def __init__(self, transport: httpx.BaseTransport, request: httpx.Request) -> None:
        super().__init__(request)
        self._transport = transport

    def fetch(self, send: Optional[Send]) -> Received:
        request, sent = self.request(send), now_ms()
        response = self._transport.handle_request(request)
        return _received(request.method, response, _Reading(response), sent)

    def read(self, received: Received, most: int = PIECE) -> bytes:
        reading = received.reply
        if reading.pieces is None:
            reading.pieces = iter(reading.stream)
        return next((piece for piece in reading.pieces if piece), b"")

    def close(self, received: Received) -> None:
        if received.length == 0:
            self.read(received)
        received.reply.stream.close()

    def later(self, steps: Steps[None]) -> None:
        run_beside(steps)


class _AsyncOrigin(_Requests):
    """Sends by a transport that is awaited."""

    def __init__(
        self, transport: httpx.AsyncBaseTransport, request: httpx.Request, later: Callable[[Steps[None]], None]
    ) -> None:
        super().__init__(request)
        self._transport, self.later = transport, later

    async def fetch(self, send: Optional[Send]) -> Received:
        request, sent = self.request(send), now_ms()
        response = await self._transport.handle_async_request(request)
        return _received(request.method, response, _Reading(response), sent)

    async def read(self, received: Received, most: int = PIECE) -> bytes:
        reading = received.reply
        if reading.pieces is None:
            reading.pieces = reading.stream.__aiter__()
        async for piece in reading.pieces:
            if piece:
                return bytes(piece)
        return b""

    async def close(self, received: Received) -> None:
        if received.length == 0:
            await self.read(received)
        await received.reply.stream.aclose()


class _Stream(httpx.SyncByteStream):
    """The body of a received response, of which a copy goes to the cache as it is read."""

    def __init__(self, body: Body) -> None:
        self._body = body

    def __iter__(self) -> Iterator[bytes]:
        return iter(lambda: run(self._body.piece()), b"")

    def close(self) -> None:
        self._body.abandon()
        self._body.received.reply.stream.close()


class _AsyncStream(httpx.AsyncByteStream):
    """As `_Stream`, for code that awaits."""

    def __init__(self, body: Body) -> None:
        self._body = body

    async def __aiter__(self) -> AsyncIterator[bytes]:
        while True:
            piece = await run_async(self._body.piece())
            if not piece:
                return
            yield piece

    async def aclose(self) -> None:
        self._body.abandon()
        await self._body.received.reply.stream.aclose()


def _response(reply: Reply, streamed: Callable[[Received], Any]) -> httpx.Response:
    received, fields, body = reply.received, reply.fields, reply.body
    extensions: Dict[str, Any] = {"http_version": b"HTTP/1.1", "reason_phrase": reply.reason.encode("latin-1")}
    if received and reply.is_own:
        extensions = received.reply.response.extensions
    else:
        # `httpx` takes cookies from the fields, so only those that the origin server has just sent are among them.
        fields = [field for field in fields if field[0].lower() != "set-cookie"]
        fields += [field for field in received.fields if field[0].lower() == "set-cookie"] if received else []
    stream = streamed(received) if received and body is None else httpx.ByteStream(body or b"")
    extensions = {**extensions, "from_cache": reply.from_cache}
    return httpx.Response(reply.status, headers=_raw(fields), stream=stream, extensions=extensions)
