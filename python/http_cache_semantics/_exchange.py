"""A request and its response as a client with a private cache handles them, for each library that sends requests.

The process `cacheserve` decides (docs/PROTOCOL.md). This module asks it, has the library send what it wants sent, hands over a
copy of a body while the caller reads it, and does without the process if that can't be used. It knows no library.

Its steps are generators that yield calls: `run` makes each call, and `run_async` awaits it. So code that blocks and code that
doesn't share them.
"""
from __future__ import annotations

import contextlib
import io
import logging
import os
import re
import threading
import time
import weakref
from collections import deque
from dataclasses import dataclass, field, replace
from functools import cached_property, partial
from http.client import responses as REASONS
from typing import Any, Callable, Deque, Dict, Generator, Iterable, List, Optional, Protocol, Set, Tuple, Type, TypeVar, Union

from ._frames import checked_timeout
from .process import Answer, Cache, CacheError, CacheGone, More, Outcome, ProcessOptions, Send, StoreNotOpened, UnderWay

Fields = List[Tuple[str, str]]
Result = TypeVar("Result")
Steps = Generator[Callable[[], Any], Any, Result]

# How many bytes of a body are read at once, and how many the copy of a body is handed over in.
PIECE = 65_536
_SAFE = ("GET", "HEAD", "OPTIONS", "TRACE")
# These fields frame a message on its connection.
_FRAMING = ("content-length", "transfer-encoding")
# A message that is passed on as it is keeps these.
_OF_MESSAGE = (*_FRAMING, "connection")
# How long a process that can't be started isn't tried again.
_RETRY_SECONDS = 1.0
# If an outage has more changed targets, all that is stored is removed after it.
_MOST_CHANGED = 1000
_log = logging.getLogger("http_cache_semantics")


def run(steps: Steps[Result]) -> Result:
    """Makes the calls of the steps, and returns their result."""
    try:
        call = next(steps)
        while True:
            try:
                found = call()
            except BaseException as error:
                call = steps.throw(error)
            else:
                call = steps.send(found)
    except StopIteration as end:
        result: Result = end.value
        return result


async def run_async(steps: Steps[Result]) -> Result:
    """Awaits the calls of the steps, and returns their result."""
    try:
        call = next(steps)
        while True:
            try:
                found = await call()
            except BaseException as error:
                call = steps.throw(error)
            else:
                call = steps.send(found)
    except StopIteration as end:
        result: Result = end.value
        return result


def text_of(value: Union[str, bytes]) -> str:
    return value.decode("latin-1") if isinstance(value, bytes) else value


def fields_of(head: bytes) -> Fields:
    """Returns the fields of a head that the process wrote."""
    lines = head.decode("latin-1").split("\r\n")[1:-2]
    return [(name, value.strip(" \t")) for name, _, value in (line.partition(":") for line in lines)]


def _head(first: str, fields: Iterable[Tuple[str, str]]) -> bytes:
    # A field line that is folded is one line, with a space in place of the fold (RFC 9112, section 5.2).
    lines = [first, *(f"{name}: {_unfolded(value)}" for name, value in fields), "\r\n"]
    try:
        return "\r\n".join(lines).encode("latin-1")
    except UnicodeEncodeError as error:
        raise CacheError("the head isn't in ISO 8859-1", "malformed-head") from error


def _unfolded(value: str) -> str:
    # Each run of blanks is tried once, from its start.
    return re.sub(r"(?<![ \t])[ \t]*\r?\n[ \t]+", " ", value) if "\n" in value else value


def _by_name(fields: Fields) -> Dict[str, List[str]]:
    values: Dict[str, List[str]] = {}
    for name, value in fields:
        values.setdefault(name.lower(), []).append(_unfolded(value))
    return values


def as_written(own: Fields, decided: Fields) -> Fields:
    """Returns the fields that the process has decided on, in the words of the message that it decided on.

    The process writes names in lower case, and may join lines. What it has left as it was is as in `own`, and so are the fields
    about the connection.
    """
    had, values = _by_name(own), _by_name(decided)
    written: Fields = []
    names: Set[str] = set()
    for name, value in own:
        lower = name.lower()
        is_kept = ", ".join(values[lower]) == ", ".join(had[lower]) if lower in values else lower in _OF_MESSAGE
        if is_kept:
            written.append((name, value))
        elif lower not in names:
            written += [(name, other) for other in values.get(lower, ())]
        names.add(lower)
    return written + [(name, value) for name, value in decided if name not in names]


@dataclass(frozen=True)
class Asked:
    """A request of the caller. `target` is the whole URL, without user information and fragment."""

    method: str
    target: str
    fields: Fields
    has_body: bool

    def head(self) -> bytes:
        has_host = any(name.lower() == "host" for name, _ in self.fields)
        host = [] if has_host else [("Host", self.target.split("/", 3)[2])]
        return _head(f"{self.method} {self.target} HTTP/1.1", host + self.fields)

    def fields_to_send(self, send: Send) -> Fields:
        """Returns the fields of the request that the process wants sent. The library adds Host itself."""
        own = self.fields
        if self.has_body and not send.rest:
            own = [pair for pair in own if pair[0].lower() not in _FRAMING]
        has_host = any(name.lower() == "host" for name, _ in own)
        decided = fields_of(send.head)
        return as_written(own, decided if has_host else [pair for pair in decided if pair[0] != "host"])


@dataclass(frozen=True)
class Received:
    """A response of the origin server to a request with `method`, whose body is still to be read from `reply`.

    `reply` is an object of the library. `sent` and `at` are when the request was sent and when the head was received.
    """

    reply: Any
    method: str
    status: int
    reason: str
    fields: Fields
    sent: int
    at: int

    @cached_property
    def length(self) -> Optional[int]:
        """The length of the body, or None if only its end shows it."""
        if self.method == "HEAD" or self.status in (204, 304):
            return 0
        values = _by_name(self.fields)
        lengths = {piece.strip() for value in values.get("content-length", ()) for piece in value.split(",")}
        if "transfer-encoding" in values or len(lengths) != 1:
            return None
        [length] = lengths
        return int(length) if re.fullmatch("[0-9]{1,15}", length) else None

    def head(self) -> bytes:
        """Returns the head without Transfer-Encoding, since the body is handed over without chunks."""
        names = [name.lower() for name, _ in self.fields]
        fields = [pair for pair in self.fields if pair[0].lower() not in _FRAMING]
        if "transfer-encoding" not in names:
            fields += {("Content-Length", value): None for name, value in self.fields if name.lower() == "content-length"}
        return _head(f"HTTP/1.1 {self.status} ", fields)


class Origin(Protocol):
    """What a library does for one request of its caller. For `run_async` its first three methods return awaitables."""

    failures: Tuple[Type[Exception], ...]

    def fetch(self, send: Optional[Send]) -> Any:
        """Sends a request of the process, or the caller's own. Returns a `Received`, or raises one of `failures`."""

    def read(self, received: Received, most: int) -> Any:
        """Returns the next bytes of a body, at most so many where the library can say that, and none at its end."""

    def close(self, received: Received) -> Any:
        """Ends a response. If it has no body, its connection may be used again."""

    def is_invalid(self, error: Exception) -> bool:
        """Returns whether one of `failures` means that the received bytes are no response."""

    def later(self, steps: Steps[None]) -> None:
        """Has the steps run beside the caller."""


class Access:
    """Access to the process, which may be unusable for a while. Then requests are sent without it, and the log says so once.

    `opened` is a call that returns a cache, which belongs to what `owner` returns at that time.
    """

    def __init__(self, opened: Callable[[], Any], owner: Callable[[], Any]) -> None:
        self._opened, self._owner = opened, owner
        self._cache: Any = None
        self._opened_by: Any = None
        # What is under way and nobody ends any more, with its cache. It is ended before the next request, since the garbage
        # collector may find it while a frame is exchanged.
        self.abandoned: Deque[Tuple[Any, UnderWay]] = deque()
        # The targets of unsafe requests that the process hasn't seen, so that it may have stored older responses.
        self._changed: Set[str] = set()
        self._failure: Optional[CacheError] = None
        self._retry = 0.0

    def mine(self) -> Any:
        """Returns the cache, or None if its owner hasn't opened one."""
        return self._cache if self._opened_by == self._owner() else None

    def keep(self, cache: Any) -> Any:
        """Keeps a cache that was opened, and returns it."""
        self._cache, self._opened_by = cache, self._owner()
        return cache

    def cache(self) -> Steps[Any]:
        """Returns the cache. Raises `CacheError` if it can't be used now."""
        # Other threads may change both meanwhile.
        failure = self._failure
        if failure and time.monotonic() < self._retry:
            raise type(failure)(str(failure))
        cache = self.mine() or (yield self._opened)
        while True:
            try:
                of, under_way = self.abandoned.popleft()
            except IndexError:
                break
            if of is cache:
                with contextlib.suppress(CacheError):
                    yield partial(cache.failed, under_way)
        if self._changed:
            yield from self._removed(cache)
        return cache

    def _removed(self, cache: Any) -> Steps[None]:
        """Removes what is stored for the changed targets."""
        if len(self._changed) > _MOST_CHANGED:
            yield cache.clear
            self._changed.clear()
        for target in list(self._changed):
            try:
                yield partial(cache.remove, target)
            except CacheError as error:
                # A target that the process refuses has no stored responses.
                if not error.code:
                    raise
            self._changed.discard(target)

    def change(self, target: str) -> None:
        """Takes note that the process hasn't seen an unsafe request."""
        if len(self._changed) <= _MOST_CHANGED:
            self._changed.add(target)

    def works(self) -> None:
        """Takes note that the process has answered a request."""
        self._failure = None

    def fails(self, error: CacheError, asked: Optional[Asked] = None) -> None:
        """Takes note that a request is sent without the cache. What can't be started isn't tried again for a while."""
        if error.code and asked:
            _log.warning("%s %s is sent without the cache: %s", asked.method, asked.target.partition("?")[0], error)
            return
        if self._failure or isinstance(error, StoreNotOpened) or not isinstance(error, CacheGone):
            self._retry = time.monotonic() + _RETRY_SECONDS
        if not self._failure:
            _log.warning("requests are sent without the cache: %s", error)
        self._failure = error


class BlockingAccess(Access):
    """Access to a process for code that blocks. After a fork another process is started."""

    def __init__(self, options: ProcessOptions, timeout: float) -> None:
        """Raises `ValueError` if `timeout` isn't a positive number."""
        super().__init__(self._open, os.getpid)
        self._options, self._timeout = options, checked_timeout(timeout, "cache_timeout")
        # A lock for each process, since a fork copies one that another thread may hold.
        self._locks: Dict[int, threading.Lock] = {}

    def _open(self) -> Any:
        with self._locks.setdefault(os.getpid(), threading.Lock()):
            return self.mine() or self.keep(Cache(self._options, self._timeout))

    def start(self) -> None:
        """Starts the process, unless that isn't possible now."""
        try:
            self.client()
        except CacheError as error:
            self.fails(error)

    def client(self) -> Cache:
        """Returns the client of the process. Raises `CacheError` if the process can't be used."""
        client: Cache = run(self.cache())
        return client

    def close(self) -> None:
        """Ends the process. A later request starts it again."""
        cache = self.mine()
        if cache:
            cache.close()


def run_beside(steps: Steps[None]) -> None:
    """Makes the calls of the steps in a thread of their own."""
    threading.Thread(target=run, args=(steps,), daemon=True).start()


class Copy:
    """A copy of a body of at most `most` bytes, which is handed over to the process in batches. One that is dropped is ended.

    A body of unknown length is handed over at its end, since it may turn out too long.
    """

    def __init__(self, access: Access, cache: Any, of: Union[Answer, More], most: int, received: Received) -> None:
        self._cache, self._of, self._most, self.length = cache, of, most, received.length
        self._pieces: List[bytes] = []
        self._held = 0
        self._batch_size = most if self.length is None else PIECE
        self.total = 0
        self._end = weakref.finalize(self, access.abandoned.append, (cache, of))
        self._end.atexit = False

    @property
    def is_open(self) -> bool:
        return self._end.alive

    @property
    def is_whole(self) -> bool:
        """Returns whether all bytes of a body of known length are there."""
        return self.length in (None, self.total)

    @property
    def is_too_long(self) -> bool:
        return self.total > self._most

    def add(self, piece: bytes) -> bool:
        """Adds bytes, and returns whether `hand_over` has something to do."""
        self._pieces.append(piece)
        self._held += len(piece)
        self.total += len(piece)
        return self._held >= self._batch_size or self.is_too_long

    def _batch(self) -> bytes:
        batch, self._pieces, self._held = b"".join(self._pieces), [], 0
        return batch

    def hand_over(self) -> Steps[None]:
        """Hands over what was added. Ends a copy that the process doesn't want, or that is too long if there is an answer."""
        batch = self._batch()
        try:
            if not self.is_too_long:
                yield partial(self._cache.part, self._of, batch)
            elif isinstance(self._of, Answer):
                yield from self.failed("")
        except CacheError:
            self.abandon()

    def complete(self) -> Steps[Outcome]:
        """Has the process store the body, which is whole. Raises `CacheError`."""
        return (yield from self._last(partial(self._cache.complete, self._of, self._batch())))

    def passed_on(self, send: Send, received: Received) -> Steps[Outcome]:
        """Hands the response over again after a `More`, without its body, which is too long. Raises `CacheError`."""
        times, rest = (received.sent, received.at), received.length or True
        return (yield from self._last(partial(self._cache.received, send, received.head(), b"", *times, rest)))

    def _last(self, call: Callable[[], Any]) -> Steps[Outcome]:
        try:
            found: Outcome = yield call
        except CacheError:
            self.abandon()
            raise
        self._end.detach()
        return found

    def failed(self, why: str) -> Steps[Outcome]:
        """Ends the copy at once, and returns what is answered after a `More`. Raises `CacheError`."""
        self._end.detach()
        found: Outcome = yield partial(self._cache.failed, self._of, why)
        return found

    def abandon(self) -> None:
        """Ends the copy with the next frame, unless it is ended."""
        self._end()


@dataclass
class Reply:
    """What the caller of a request gets: the answer, or without one the received response as it is.

    `received` is what the origin server has sent for it. What was read of its body is `start`. If `is_read`, reading has ended,
    with `error` if there is one. The copy takes what is read further.
    """

    answer: Optional[Outcome]
    received: Optional[Received] = None
    copy: Optional[Copy] = None
    start: bytes = b""
    is_read: bool = False
    error: Optional[Exception] = None

    @property
    def _head(self) -> bytes:
        return self.answer.head if isinstance(self.answer, Answer) else b""

    @property
    def status(self) -> int:
        return int(self._head[9:12]) if self._head or not self.received else self.received.status

    @property
    def is_own(self) -> bool:
        """Returns whether this is the response that the origin server has just sent."""
        return self.received is not None and self.received.status == self.status

    @property
    def from_cache(self) -> bool:
        """Returns whether this is a stored response, validated or not."""
        is_generated = self.received is None and self.status == 504 and b"; hit" not in self._head
        return not self.is_own and not is_generated

    @property
    def reason(self) -> str:
        return self.received.reason if self.received and self.is_own else REASONS.get(self.status, "")

    @property
    def fields(self) -> Fields:
        if self.received and self.is_own:
            return as_written(self.received.fields, fields_of(self._head)) if self._head else self.received.fields
        return fields_of(self._head)

    @property
    def body(self) -> Optional[bytes]:
        """Returns the whole body, or None if it is the one that `received` has."""
        if not isinstance(self.answer, Answer):
            return None
        if not self.answer.rest:
            return self.answer.body
        return self.start if self.is_read and not self.error else None


class Exchange:
    """One request of the caller."""

    def __init__(self, access: Access, asked: Asked, origin: Origin) -> None:
        self._access, self._asked, self._origin = access, asked, origin

    def reply(self) -> Steps[Reply]:
        """Returns what the caller gets. Raises one of the origin's `failures`."""
        try:
            cache = yield from self._access.cache()
            found = yield partial(cache.ask, self._asked.head(), rest=True if self._asked.has_body else None)
        except CacheError as error:
            self._access.fails(error, self._asked)
            return (yield from self._without_cache())
        self._access.works()
        if isinstance(found, Send):
            return (yield from self._sent(cache, found))
        if found.due:
            self._origin.later(self._validated(cache, found.due))
        return Reply(found)

    def _without_cache(self) -> Steps[Reply]:
        received = yield partial(self._origin.fetch, None)
        return self._unanswered(Reply(None, received))

    def _unanswered(self, reply: Reply) -> Reply:
        """Returns a reply that the process hasn't decided on, so that it doesn't know what an unsafe request has changed."""
        if self._asked.method not in _SAFE:
            self._access.change(self._asked.target)
        return reply

    def _sent(self, cache: Any, send: Send) -> Steps[Reply]:
        """Sends a request, and what the process wants sent after it."""
        while True:
            try:
                received = yield partial(self._origin.fetch, send)
            except self._origin.failures as error:
                return (yield from self._stale(cache, send, error))
            except BaseException:
                self._access.abandoned.append((cache, send))
                raise
            try:
                found = yield from self._passed(cache, send, received)
            except GeneratorExit:
                raise
            except BaseException:
                yield partial(self._origin.close, received)
                raise
            if isinstance(found, Reply):
                return found
            send = found

    def _why(self, error: Exception) -> str:
        return "invalid" if self._origin.is_invalid(error) else "none"

    def _stale(self, cache: Any, send: Send, error: Exception) -> Steps[Reply]:
        """Returns the stored response that is used after an error, and raises the error if there is none."""
        try:
            found: Outcome = yield partial(cache.failed, send, self._why(error))
        except CacheError:
            raise error from None
        return Reply(found)

    def _passed(self, cache: Any, send: Send, received: Received) -> Steps[Union[Reply, Send]]:
        """Passes the head of a response to the process, and does what that decides."""
        length, times = received.length, (received.sent, received.at)
        rest = None if length == 0 else length or True
        try:
            found = yield partial(cache.received, send, received.head(), b"", *times, rest, collect=rest is not None)
        except CacheError as error:
            return (yield from self._unseen(cache, send, received, error))
        if isinstance(found, More):
            copy = Copy(self._access, cache, found, found.store, received)
            return (yield from self._collected(cache, send, copy, received))
        return (yield from self._decided(cache, found, received))

    def _decided(self, cache: Any, found: Outcome, received: Received, start: bytes = b"") -> Steps[Union[Reply, Send]]:
        """Returns what follows from an outcome for a response, of whose body `start` was read."""
        copy = None
        if isinstance(found, Answer) and found.store is not None:
            copy = Copy(self._access, cache, found, found.store, received)
        if isinstance(found, Answer) and found.rest:
            return Reply(found, received, copy, start)
        if copy:
            self._origin.later(self._drained(copy, received))
        else:
            yield partial(self._origin.close, received)
        return found if isinstance(found, Send) else Reply(found, received)

    def _unseen(self, cache: Any, send: Send, received: Received, error: CacheError) -> Steps[Reply]:
        """Returns a response that the process can't be used for."""
        self._access.fails(error, self._asked)
        self._access.abandoned.append((cache, send))
        if received.status == 304:
            # It may be for a stored response, which only the process has.
            yield partial(self._origin.close, received)
            return (yield from self._without_cache())
        return self._unanswered(Reply(None, received))

    def _read(self, copy: Copy, received: Received, pieces: List[bytes]) -> Steps[bool]:
        """Reads a body into the copy and the list, while the copy is wanted. Returns whether the body is at its end."""
        while copy.is_open and not copy.is_too_long:
            piece = yield partial(self._origin.read, received, PIECE)
            if not piece:
                return True
            pieces.append(piece)
            if copy.add(piece):
                yield from copy.hand_over()
        return False

    def _collected(self, cache: Any, send: Send, copy: Copy, received: Received) -> Steps[Union[Reply, Send]]:
        """Reads a body before anything is answered, since a stored response may be used if it is cut off."""
        pieces: List[bytes] = []
        error: Optional[Exception] = None
        try:
            is_read = yield from self._read(copy, received, pieces)
        except self._origin.failures as failure:
            is_read, error = True, failure
        start, is_whole = b"".join(pieces), is_read and error is None and copy.is_whole
        unanswered = Reply(None, received, None, start, is_read, error)
        try:
            if copy.is_too_long:
                found = yield from copy.passed_on(send, received)
                return (yield from self._decided(cache, found, received, start))
            if not is_read:
                return self._unanswered(unanswered)
            found = yield from copy.complete() if is_whole else copy.failed(self._why(error) if error else "invalid")
        except CacheError:
            return self._unanswered(unanswered)
        yield partial(self._origin.close, received)
        return replace(unanswered, answer=found) if is_whole else Reply(found)

    def _drained(self, copy: Copy, received: Received) -> Steps[None]:
        """Reads a body that is stored, although another response is the answer."""
        with contextlib.suppress(CacheError, *self._origin.failures):
            is_read = yield from self._read(copy, received, [])
            if is_read and copy.is_whole:
                yield from copy.complete()
        copy.abandon()
        yield partial(self._origin.close, received)

    def _validated(self, cache: Any, due: Send) -> Steps[None]:
        """Sends a request whose response is only stored."""
        with contextlib.suppress(CacheError, *self._origin.failures):
            reply = yield from self._sent(cache, due)
            if reply.received:
                yield partial(self._origin.close, reply.received)


@dataclass
class Body:
    """The body of a reply that `received` has, which is read while a copy of it is handed over."""

    reply: Reply
    origin: Origin
    received: Received
    start: io.BytesIO = field(init=False)

    def __post_init__(self) -> None:
        self.start = io.BytesIO(self.reply.start)

    def piece(self, most: int = PIECE) -> Steps[bytes]:
        """Returns the next bytes, and none at the end. What ends a body early ends its copy, and nothing is stored."""
        piece: bytes = self.start.read(most)
        if piece:
            return piece
        if self.reply.is_read:
            if self.reply.error:
                raise self.reply.error
            return b""
        try:
            piece = yield partial(self.origin.read, self.received, most)
            if self.reply.copy:
                yield from self._copied(self.reply.copy, piece)
        except BaseException:
            self.abandon()
            raise
        return piece

    def _copied(self, copy: Copy, piece: bytes) -> Steps[None]:
        """Adds a piece to the copy, which is complete before the caller has the last piece."""
        if piece and copy.add(piece):
            yield from copy.hand_over()
        if copy.is_open and copy.is_whole and (not piece or copy.length):
            with contextlib.suppress(CacheError):
                yield from copy.complete()
        elif not piece:
            copy.abandon()
        if not copy.is_open:
            self.reply.copy = None

    def abandon(self) -> None:
        """Ends the copy of a body that isn't read to its end."""
        if self.reply.copy:
            self.reply.copy.abandon()
            self.reply.copy = None
