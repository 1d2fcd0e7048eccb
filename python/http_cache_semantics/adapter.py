"""A cache for `requests`.

    session = requests.Session()
    session.mount("https://", CacheAdapter("cache.db"))

The process `cacheserve --private` decides what is stored and what may be used again, and the adapter sends its requests. What a
session returns is what it returns with the adapter of `requests`, but for what caching changes. If the process can't be used,
requests are sent without it, and the logger `http_cache_semantics` warns.
"""
from __future__ import annotations

import io
from dataclasses import replace
from typing import Any, Dict, Iterator, Optional, Tuple, Type
from urllib.parse import urlsplit

from requests import PreparedRequest, Response
from requests.adapters import HTTPAdapter
from requests.exceptions import ChunkedEncodingError, RequestException
from requests.structures import CaseInsensitiveDict
from urllib3 import HTTPResponse
from urllib3._collections import HTTPHeaderDict
from urllib3.exceptions import HTTPError

from ._exchange import PIECE, Asked, BlockingAccess, Body, Exchange, Received, Reply, Steps, run, run_beside, text_of
from .process import REPLY_SECONDS, Cache, ProcessOptions, Send, now_ms


class CacheAdapter(HTTPAdapter):
    """An adapter of `requests` with a private cache, which sessions and threads may share.

    Each response has `from_cache`: whether it is a stored response, validated or not. A copy of the adapter has a process of
    its own, and so has the adapter after a fork. Of several that name one directory, only the first uses
    it.
    """

    __attrs__ = [*HTTPAdapter.__attrs__, "_process", "_cache_timeout"]

    def __init__(
        self,
        directory: Optional[str] = None,
        process: ProcessOptions = ProcessOptions(private=True, name="requests"),
        cache_timeout: float = REPLY_SECONDS,
        **options: Any,
    ) -> None:
        """Starts the process. With a directory, stored responses outlive it. `options` are the options of `HTTPAdapter`.

        A process that hasn't replied for `cache_timeout` seconds is killed. Raises `ValueError` if that isn't a positive number.
        """
        super().__init__(**options)
        self._process, self._cache_timeout = replace(process, dir=directory or process.dir), cache_timeout
        self._access = BlockingAccess(self._process, cache_timeout)
        self._access.start()

    def __setstate__(self, state: Dict[str, Any]) -> None:
        super().__setstate__(state)  # type: ignore[misc]
        self._access = BlockingAccess(self._process, self._cache_timeout)

    @property
    def cache(self) -> Cache:
        """The client of the process. Raises `CacheError` if the process can't be used, such as `StoreNotOpened`."""
        return self._access.client()

    def send(
        self,
        request: PreparedRequest,
        stream: bool = False,
        timeout: Any = None,
        verify: Any = True,
        cert: Any = None,
        proxies: Any = None,
    ) -> Response:
        """Returns a stored response or the origin server's. Raises what `HTTPAdapter` raises."""
        how = {"timeout": timeout, "verify": verify, "cert": cert, "proxies": proxies}
        origin = _Origin(super().send, request, how)
        reply = run(Exchange(self._access, origin.asked, origin).reply())
        response: Response = self.build_response(request, _raw(reply, origin))  # type: ignore[no-untyped-call]
        response.from_cache = reply.from_cache  # type: ignore[attr-defined]
        return response

    def remove(self, url: str) -> int:
        """Removes what is stored for a URL. Returns how many responses it removes."""
        request = PreparedRequest()
        request.prepare_url(url, None)
        return self.cache.remove(_target(request))

    def clear(self) -> None:
        """Removes all stored responses, and the directory."""
        self.cache.clear()

    def close(self) -> None:
        """Ends the process and the connections. A later request starts them again."""
        super().close()  # type: ignore[no-untyped-call]
        self._access.close()


class _Origin:
    """Sends one request, and what the process wants sent for it, by the adapter of `requests`."""

    failures: Tuple[Type[Exception], ...] = (RequestException, HTTPError)

    def __init__(self, send: Any, request: PreparedRequest, how: Dict[str, Any]) -> None:
        self._send, self._request, self._how = send, request, how
        fields = [(text_of(name), text_of(value)) for name, value in request.headers.items()]
        self.asked = Asked(request.method or "", _target(request), fields, bool(request.body))
        self.chunks: Optional[Iterator[bytes]] = None

    def fetch(self, send: Optional[Send]) -> Received:
        request = self._as_decided(send) if send else self._request
        sent = now_ms()
        reply = self._send(request, stream=True, **self._how).raw
        fields = list(reply.headers.iteritems())
        return Received(reply, request.method or "", reply.status, reply.reason or "", fields, sent, now_ms())

    def _as_decided(self, send: Send) -> PreparedRequest:
        request = self._request.copy()
        request.method = send.head.split(b" ", 1)[0].decode("latin-1")
        request.body = self._request.body if send.rest else send.body or None
        joined = HTTPHeaderDict(self.asked.fields_to_send(send))
        request.headers = CaseInsensitiveDict((name, joined[name]) for name in joined.keys())
        return request

    def read(self, received: Received, most: int) -> bytes:
        if self.chunks is not None:
            return next(self.chunks, b"")
        piece: bytes = received.reply.read(most, decode_content=False)
        return piece

    def close(self, received: Received) -> None:
        if received.length == 0:
            received.reply.read(decode_content=False)
        received.reply.close()
        received.reply.release_conn()

    def is_invalid(self, error: Exception) -> bool:
        return isinstance(error, (ChunkedEncodingError, HTTPError))

    def later(self, steps: Steps[None]) -> None:
        run_beside(steps)


def _target(request: PreparedRequest) -> str:
    """Returns the URL of a request, with the host that its field Host names, without user information and fragment."""
    url = request.url or ""
    parts = urlsplit(url)
    named = request.headers.get("host") if request.headers else None
    host = text_of(named or parts.netloc.rpartition("@")[2])
    return f"{parts.scheme}://{host}/{url.split('#')[0].partition('://')[2].partition('/')[2]}"


def _raw(reply: Reply, origin: _Origin) -> HTTPResponse:
    """Returns the response as the adapter of `requests` has it from urllib3."""
    received, fields = reply.received, HTTPHeaderDict(reply.fields)
    if received and reply.body is None and not (reply.copy or reply.start or reply.is_read):
        raw: HTTPResponse = received.reply
        raw.headers = fields
        return raw
    arguments = {
        "headers": fields,
        "status": reply.status,
        "version": received.reply.version if received and reply.is_own else 11,
        "reason": reply.reason,
        "preload_content": False,
        "decode_content": False,
        "request_method": origin.asked.method,
        # `requests` reads cookies from this, so only cookies that the origin server has just sent are set.
        "original_response": received.reply._original_response if received else None,
    }
    if received and reply.body is None:
        return _Streamed(_Source(Body(reply, origin, received), origin), **arguments)
    return HTTPResponse(_Whole(reply.body or b""), **arguments)


class _Whole(io.BytesIO):
    """A whole body as a file that is closed at its end, as urllib3 expects it of a connection."""

    def read(self, size: Optional[int] = -1) -> bytes:
        if self.closed:
            return b""
        piece = super().read(size)
        if self.tell() == self.getbuffer().nbytes:
            self.close()
        return piece


class _Source:
    """The body of a received response as a file, which urllib3 reads."""

    def __init__(self, body: Body, origin: _Origin) -> None:
        self._body, self._origin = body, origin
        self.closed = False

    def read(self, size: Optional[int] = None) -> bytes:
        if size == 0 or self.closed:
            return b""
        if size is None or size < 0:
            return b"".join(iter(lambda: self.read(PIECE), b""))
        piece = run(self._body.piece(size))
        if not piece:
            self.close()
        return piece

    @property
    def has_chunks(self) -> bool:
        """Returns whether the chunks can be read one by one."""
        return bool(self._body.received.reply.chunked) and not self._body.start.getvalue() and not self._body.reply.is_read

    def chunks(self, size: Optional[int]) -> Iterator[bytes]:
        if self._origin.chunks is None:
            self._origin.chunks = self._body.received.reply.read_chunked(size, decode_content=False)
        while not self.closed:
            # Without a copy there is nothing to do but to read.
            piece = run(self._body.piece()) if self._body.reply.copy else next(self._origin.chunks, b"")
            if not piece:
                return
            yield piece

    def read1(self, size: int = -1) -> bytes:
        return self.read(size if size >= 0 else PIECE)

    def close(self) -> None:
        # The garbage collector may call this, so nothing here waits for a lock.
        if not self.closed:
            self.closed = True
            self._body.abandon()
            self._body.received.reply.close()

    def release(self) -> None:
        self._body.received.reply.release_conn()


class _Streamed(HTTPResponse):
    """A response of urllib3 whose body is copied for the cache as it is read. Its chunks are yielded as they arrive."""

    def __init__(self, source: Any, **arguments: Any) -> None:
        self._source: _Source = source
        super().__init__(source, **arguments)

    def release_conn(self) -> None:
        self._source.release()

    def supports_chunked_reads(self) -> bool:
        return self._source.has_chunks

    def read_chunked(self, amt: Optional[int] = None, decode_content: Optional[bool] = None) -> Iterator[bytes]:
        coded: Any = super()
        coded._init_decoder()
        for piece in self._source.chunks(amt):
            decoded = coded._decode(piece, decode_content, False)
            if decoded:
                yield decoded
        decoded = coded._flush_decoder() if decode_content else b""
        if decoded:
            yield decoded
        self._source.close()
