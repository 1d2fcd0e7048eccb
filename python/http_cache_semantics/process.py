"""A caching HTTP client in a process: starts `cacheserve` and exchanges frames with it (docs/PROTOCOL.md).

The process decides what is stored and what may be used again. Its caller sends requests to origin servers, measures time
and finds where messages end:

    found = cache.ask(head)                       # an Answer, or a Send
    while isinstance(found, Send):
        found = cache.received(found, ..)         # or failed, if there is no response

A caller that streams passes `rest` and `collect`, and hands over a copy of the body by `part` and `complete` if the answer has
`store`. It passes `pieces` to take a long stored body in pieces, by `next`. What it has begun and doesn't end by `complete` it
ends by `failed`.

The process replies to each frame with one frame, in order. `Cache` writes a frame and reads its reply under a lock, and
`AsyncCache` reads whenever it can, so full pipes never make both sides wait. If the process has ended, or was killed since it
didn't reply in time, the next request starts another, with the responses of its directory. A `Send` of the old process is then
refused.
"""
from __future__ import annotations

import asyncio
import contextlib
import os
import threading
import weakref
from collections import deque
from typing import Any, Deque, Dict, Optional, Tuple

from ._directory import remove_directory
from ._frames import (
    REPLY_SECONDS,
    Answer,
    CacheError,
    CacheGone,
    Done,
    Frame,
    FrameReader,
    More,
    NoResponse,
    Outcome,
    Piece,
    Rest,
    Send,
    StoreNotOpened,
    UnderWay,
    Wait,
    Waits,
    ask_line,
    bytes_of,
    check_part,
    check_protocol,
    checked_timeout,
    complete_line,
    count_of,
    failed_line,
    gone,
    no_reply,
    now_ms,
    outcome_of,
    piece_of,
    received_line,
    time_or_now,
    token_left,
)
from ._pipes import Pipes
from ._program import ProcessOptions, ProgramNotFound

# How many seconds the process may take to close its directory.
_STOP_SECONDS = 10.0
_GRACE_SECONDS = 0.1

__all__ = [
    "Answer",
    "AsyncCache",
    "Cache",
    "CacheError",
    "CacheGone",
    "Done",
    "Frame",
    "More",
    "NoResponse",
    "Outcome",
    "Piece",
    "ProcessOptions",
    "ProgramNotFound",
    "REPLY_SECONDS",
    "Rest",
    "Send",
    "StoreNotOpened",
    "UnderWay",
    "Wait",
    "now_ms",
]


class Cache:
    """A caching client in a process of its own, whose methods block. Threads may share it, but forked processes may not.

    Each method raises `CacheGone` if the process ends, and `CacheError` if it refuses the frame. A process that hasn't replied
    for `timeout` seconds is killed.
    """

    def __init__(self, options: ProcessOptions = ProcessOptions(), timeout: float = REPLY_SECONDS) -> None:
        """Starts the process. Raises `ProgramNotFound`, or `StoreNotOpened` if its directory can't be used.

        Raises `ValueError` if `timeout` isn't a positive number.
        """
        self.options, self.timeout = options, checked_timeout(timeout)
        self._lock = threading.Lock()
        self._life = 0
        self._pipes: Optional[Pipes] = None
        self._waits: Waits[threading.Event] = Waits(threading.Event, threading.Event.set)
        with self._lock:
            self._start()

    @property
    def pid(self) -> Optional[int]:
        """Returns the process ID, or None if the process has ended."""
        pipes = self._pipes
        return pipes.process.pid if pipes else None

    def _start(self) -> Pipes:
        words = self.options.command()
        try:
            pipes = self._pipes = Pipes(words, self.timeout)
        except OSError as error:
            raise ProgramNotFound(f"{words[0]}: {error.strerror}") from error
        self._life += 1
        self._owner = os.getpid()
        self._finalizer = weakref.finalize(self, _stop, pipes, self._owner)
        _caches.add(self)
        try:
            check_protocol(pipes.reply(b"").line)
        except BaseException:
            self._end()
            raise
        return pipes

    def _end(self) -> None:
        pipes, self._pipes = self._pipes, None
        self._waits.end()
        if pipes:
            self._finalizer.detach()
            pipes.kill()

    def exchange(
        self, line: Dict[str, Any], head: bytes = b"", body: bytes = b"", of: Optional[UnderWay] = None
    ) -> Tuple[int, Frame]:
        """Writes a frame, and returns the number of the process and its reply.

        With `of`, the frame is only for the process that this request is under way in.
        """
        with self._lock:
            if self._pipes and self._owner != os.getpid():
                raise CacheGone("cacheserve was started by another process; make a Cache in each process")
            if of and (of.life != self._life or not self._pipes):
                raise CacheGone("the cacheserve that this request belongs to has ended; ask again")
            pipes = self._pipes or self._start()
            try:
                frame = pipes.reply(bytes_of(line, head, body))
                self._waits.see(of.token if of else 0, frame.line)
                return self._life, frame
            except BaseException:
                # Otherwise the next call would read the reply to this frame.
                self._end()
                raise

    def ask(
        self,
        head: bytes,
        body: bytes = b"",
        at: Optional[int] = None,
        rest: Rest = None,
        pieces: Optional[int] = None,
        wait: bool = False,
    ) -> Outcome:
        """Returns an `Answer` or a `Send` for a request that was received at the time `at`, or with `wait` perhaps a `Wait`.

        With `pieces`, an answer's body has at most so many bytes, and the others follow by `next`.
        """
        return outcome_of(*self.exchange(ask_line(at, rest, pieces, wait), head, body))

    def received(
        self,
        send: Send,
        head: bytes,
        body: bytes = b"",
        sent: Optional[int] = None,
        at: Optional[int] = None,
        rest: Rest = None,
        collect: bool = False,
        pieces: Optional[int] = None,
    ) -> Outcome:
        """Passes the response to a `Send` to the process, and returns the next outcome.

        `sent` is the time at which the request was sent, and `at` the time at which the head of the response was received. With
        `rest` and `collect`, the outcome may be an `Answer` with `store`, or a `More`: a copy of the body is to be collected.
        """
        line = received_line(send, sent, at, rest, collect, pieces)
        return outcome_of(*self.exchange(line, head, body, send))

    def part(self, of: UnderWay, body: bytes) -> None:
        """Hands over the next bytes of the copy of a body."""
        check_part(self.exchange({"part": of.token}, b"", body, of)[1])

    def complete(self, of: UnderWay, body: bytes = b"", pieces: Optional[int] = None) -> Outcome:
        """Hands over the last bytes of the copy of a body, which is whole by the framing of its message.

        Returns a `Done`, or after a `More` the `Answer`.
        """
        return outcome_of(*self.exchange(complete_line(of, pieces), b"", body, of))

    def next(self, of: UnderWay) -> Piece:
        """Returns the next bytes of the body of an answer that has some left."""
        return piece_of(self.exchange({"next": of.token}, of=of)[1])

    def failed(self, of: UnderWay, why: str = "", at: Optional[int] = None, pieces: Optional[int] = None) -> Outcome:
        """Reports that a `Send` has no response, or ends what else is under way: nothing of a body that was begun is stored.

        `why` is "invalid" if the received bytes aren't a response. Returns an `Answer` if a stored response may be used, and
        raises `NoResponse` if none may. For an answer that was given already it returns a `Done`.
        """
        return outcome_of(*self.exchange(failed_line(of.token, why, at, pieces), of=of))

    def over(self, wait: Wait, seconds: Optional[float] = None) -> bool:
        """Waits until the request that a `Wait` names is over, or for so many seconds. Returns whether it is over."""
        with self._lock:
            signal = self._waits.signal(wait) if wait.life == self._life else None
        return signal is None or signal.wait(seconds)

    def remove(self, target: str) -> int:
        """Removes what is stored for an absolute URL. Returns how many responses it removes."""
        return count_of(self.exchange({"remove": 0, "target": target})[1], "responses")

    def sweep(self, at: Optional[int] = None) -> int:
        """Removes responses that can neither be used nor validated any more. Returns how many it removes."""
        return count_of(self.exchange({"sweep": 0, "at": time_or_now(at)})[1], "removed")

    def stats(self) -> Dict[str, Any]:
        """Returns what is stored now, and what was done since the process started (docs/PROTOCOL.md)."""
        return self.exchange({"stats": 0})[1].line

    def clear(self) -> None:
        """Removes all stored responses, and the directory. Requests under way are lost.

        Raises `StoreNotOpened` if another process uses the directory.
        """
        with self._lock:
            self._stop()
            remove_directory(self.options.dir)

    def close(self) -> None:
        """Ends the process, once its directory is closed. The next request starts another."""
        with self._lock:
            self._stop()

    def _stop(self) -> None:
        pipes = self._pipes
        if pipes and self._owner == os.getpid():
            _stop(pipes, self._owner)
            self._end()

    def __enter__(self) -> Cache:
        return self

    def __exit__(self, *_: object) -> None:
        self.close()


_caches: weakref.WeakSet[Cache] = weakref.WeakSet()


def _stop(pipes: Pipes, owner: int) -> None:
    """Ends a process, once its directory is closed. A forked process doesn't end that of its parent."""
    if owner == os.getpid():
        pipes.end(_STOP_SECONDS)


def _let_go() -> None:
    """Lets go of the parent's pipes after a fork. While a process has them, the parent can't end its cacheserve by them."""
    for cache in list(_caches):
        cache._lock = threading.Lock()
        if cache._pipes:
            # Only the parent can wait for its process.
            cache._pipes.process.returncode = 0
            cache._pipes.close()


os.register_at_fork(after_in_child=_let_go)


class _Pipes(asyncio.SubprocessProtocol):
    """Reads frames from the pipes of one process, and passes each to the call that has waited longest."""

    def __init__(self, timeout: float) -> None:
        self._loop = asyncio.get_running_loop()
        self._timeout = timeout
        # The calls that wait for their replies, with the tokens of their frames and the times at which they have waited too long.
        self._calls: Deque[Tuple[asyncio.Future[Frame], int, float]] = deque()
        self._timer: Optional[asyncio.TimerHandle] = None
        self.waits: Waits[asyncio.Future[None]] = Waits(self._loop.create_future, _give)
        self.closed: asyncio.Future[None] = self._loop.create_future()
        self.first: asyncio.Future[Frame] = self._loop.create_future()
        # Otherwise asyncio logs an exception that nobody waits for, after a start that was cancelled.
        self.first.add_done_callback(lambda first: first.cancelled() or first.exception())
        self.is_gone = self._is_ending = self._has_exited = False
        self.may_write = asyncio.Event()
        self.may_write.set()
        self._frames = FrameReader()
        self._stderr = b""

    def connection_made(self, transport: Any) -> None:
        # Other loops than asyncio's have transports of classes of their own.
        self.transport: asyncio.SubprocessTransport = transport
        self._pipe: asyncio.WriteTransport = transport.get_pipe_transport(0)
        self._expect(self.first, 0)

    def _expect(self, future: asyncio.Future[Frame], token: int) -> None:
        due = self._loop.time() + self._timeout
        self._calls.append((future, token, due))
        self._timer = self._timer or self._loop.call_at(due, self._look)

    def _look(self) -> None:
        """Looks whether the call that has waited longest has waited too long."""
        self._timer = None
        if self._calls:
            future, _, due = self._calls[0]
            if self._loop.time() >= due:
                # If the loop itself was held up, the reply may be there and is read first.
                self._timer = self._loop.call_later(_GRACE_SECONDS, self._end_if_first, future)
            else:
                self._timer = self._loop.call_at(due, self._look)

    def _end_if_first(self, future: asyncio.Future[Frame]) -> None:
        if self._calls and self._calls[0][0] is future:
            self._fail(no_reply(self._timeout))
        else:
            self._look()

    def _fail(self, error: CacheGone) -> None:
        """Ends the process, whose replies can't be waited for any more."""
        self._lose(error)
        self.end()

    def end(self) -> None:
        """Kills the process, unless it has ended, and then closes the pipes, which others may still have."""
        self.is_gone = self._is_ending = True
        if self._has_exited:
            self.transport.close()
        else:
            with contextlib.suppress(ProcessLookupError):
                self.transport.kill()

    def process_exited(self) -> None:
        self._has_exited = True
        if self._is_ending:
            self.transport.close()

    def write(self, line: Dict[str, Any], head: bytes, body: bytes, token: int) -> asyncio.Future[Frame]:
        """Writes a frame; its reply becomes the result of the future."""
        self._pipe.write(bytes_of(line, head, body))
        future: asyncio.Future[Frame] = self._loop.create_future()
        self._expect(future, token)
        return future

    def pipe_data_received(self, fd: int, data: bytes) -> None:
        if fd == 2:
            self._stderr = (self._stderr + data)[-4096:]
            return
        self._frames.feed(data)
        try:
            found = self._frames.next()
            while found:
                self._hand_on(found)
                found = self._frames.next()
        except CacheGone as error:
            self._fail(error)

    def _hand_on(self, found: Frame) -> None:
        if not self._calls:
            # They have failed already.
            return
        future, token, _ = self._calls.popleft()
        self.waits.see(token, found.line)
        if not future.done():
            future.set_result(found)
        elif not self.is_gone:
            # The call was cancelled, so nobody else reports the outcome that the process waits for.
            left = token_left(found.line)
            if left:
                self.write(failed_line(left, "", None), b"", b"", left).cancel()

    def pause_writing(self) -> None:
        self.may_write.clear()

    def resume_writing(self) -> None:
        self.may_write.set()

    def pipe_connection_lost(self, fd: int, exc: Optional[Exception]) -> None:
        if fd != 2:
            self.is_gone = True
            self.may_write.set()

    def connection_lost(self, exc: Optional[Exception]) -> None:
        self._lose(gone(self.transport.get_returncode(), self._stderr))
        self.transport.close()
        self.closed.set_result(None)

    def _lose(self, error: CacheGone) -> None:
        self.is_gone = True
        self.may_write.set()
        for future, *_ in self._calls:
            if not future.done():
                future.set_exception(type(error)(str(error)))
        self._calls.clear()
        self.waits.end()
        if self._timer:
            self._timer.cancel()
            self._timer = None


def _end_input(loop: asyncio.AbstractEventLoop, transport: asyncio.SubprocessTransport) -> None:
    """Has a process end whose `AsyncCache` is gone."""
    pipe = transport.get_pipe_transport(0)
    # A loop that is closed has closed the pipe.
    if pipe and not loop.is_closed():
        loop.call_soon_threadsafe(pipe.close)


def _give(signal: asyncio.Future[None]) -> None:
    if not signal.done():
        signal.set_result(None)


class AsyncCache:
    """A caching client in a process of its own, for asyncio. Any number of calls may be under way.

    Each method raises `CacheGone` if the process ends, and `CacheError` if it refuses the frame. A process that hasn't replied
    for `timeout` seconds is killed.
    """

    def __init__(self, options: ProcessOptions = ProcessOptions(), timeout: float = REPLY_SECONDS) -> None:
        """Raises `ValueError` if `timeout` isn't a positive number."""
        self.options, self.timeout = options, checked_timeout(timeout)
        self._pipes: Optional[_Pipes] = None
        self._starting: Optional[asyncio.Lock] = None
        self._life = 0

    @property
    def pid(self) -> Optional[int]:
        """Returns the process ID, or None before the first start."""
        return self._pipes.transport.get_pid() if self._pipes else None

    @property
    def is_running(self) -> bool:
        """Returns whether the process was started and hasn't ended."""
        return self._pipes is not None and not self._pipes.is_gone

    async def start(self) -> None:
        """Starts the process if none is running. Raises `ProgramNotFound` or `StoreNotOpened`."""
        # Before Python 3.10 a lock belongs to the loop that runs when it is made, so it isn't made earlier.
        self._starting = self._starting or asyncio.Lock()
        async with self._starting:
            if self.is_running:
                return
            if self._pipes:
                # The directory is free once the old process has ended.
                await asyncio.wait([self._pipes.closed], timeout=self.timeout)
            words = self.options.command()
            loop = asyncio.get_running_loop()
            try:
                _, pipes = await loop.subprocess_exec(lambda: _Pipes(self.timeout), *words, start_new_session=True)
            except OSError as error:
                raise ProgramNotFound(f"{words[0]}: {error.strerror}") from error
            try:
                check_protocol((await pipes.first).line)
            except BaseException:
                pipes.end()
                raise
            finally:
                # The next start waits for the end of one that has failed.
                self._pipes = pipes
            self._life += 1
            weakref.finalize(self, _end_input, loop, pipes.transport).atexit = False

    async def exchange(
        self, line: Dict[str, Any], head: bytes = b"", body: bytes = b"", of: Optional[UnderWay] = None
    ) -> Tuple[int, Frame]:
        """Writes a frame, and returns the life of the process and its reply. With `of`, only to the process of that request."""
        while True:
            pipes = self._pipes
            if of and (of.life != self._life or not pipes or pipes.is_gone):
                raise CacheGone("the cacheserve that this request belongs to has ended; ask again")
            if not pipes or pipes.is_gone:
                await self.start()
            elif pipes.may_write.is_set():
                life = self._life
                return life, await pipes.write(line, head, body, of.token if of else 0)
            else:
                await pipes.may_write.wait()

    async def ask(
        self,
        head: bytes,
        body: bytes = b"",
        at: Optional[int] = None,
        rest: Rest = None,
        pieces: Optional[int] = None,
        wait: bool = False,
    ) -> Outcome:
        """Returns an `Answer` or a `Send` for a request that was received at the time `at`, or with `wait` perhaps a `Wait`.

        With `pieces`, an answer's body has at most so many bytes, and the others follow by `next`.
        """
        return outcome_of(*await self.exchange(ask_line(at, rest, pieces, wait), head, body))

    async def received(
        self,
        send: Send,
        head: bytes,
        body: bytes = b"",
        sent: Optional[int] = None,
        at: Optional[int] = None,
        rest: Rest = None,
        collect: bool = False,
        pieces: Optional[int] = None,
    ) -> Outcome:
        """Passes the response to a `Send` to the process, and returns the next outcome.

        `sent` is the time at which the request was sent, and `at` the time at which the head of the response was received. With
        `rest` and `collect`, the outcome may be an `Answer` with `store`, or a `More`: a copy of the body is to be collected.
        """
        line = received_line(send, sent, at, rest, collect, pieces)
        return outcome_of(*await self.exchange(line, head, body, send))

    async def part(self, of: UnderWay, body: bytes) -> None:
        """Hands over the next bytes of the copy of a body."""
        check_part((await self.exchange({"part": of.token}, b"", body, of))[1])

    async def complete(self, of: UnderWay, body: bytes = b"", pieces: Optional[int] = None) -> Outcome:
        """Hands over the last bytes of the copy of a body, which is whole by the framing of its message.

        Returns a `Done`, or after a `More` the `Answer`.
        """
        return outcome_of(*await self.exchange(complete_line(of, pieces), b"", body, of))

    async def next(self, of: UnderWay) -> Piece:
        """Returns the next bytes of the body of an answer that has some left."""
        return piece_of((await self.exchange({"next": of.token}, of=of))[1])

    async def failed(self, of: UnderWay, why: str = "", at: Optional[int] = None, pieces: Optional[int] = None) -> Outcome:
        """Reports that a `Send` has no response, or ends what else is under way: nothing of a body that was begun is stored.

        `why` is "invalid" if the received bytes aren't a response. Returns an `Answer` if a stored response may be used, and
        raises `NoResponse` if none may. For an answer that was given already it returns a `Done`.
        """
        return outcome_of(*await self.exchange(failed_line(of.token, why, at, pieces), of=of))

    async def over(self, wait: Wait) -> None:
        """Waits until the request that a `Wait` names is over."""
        pipes = self._pipes
        signal = pipes.waits.signal(wait) if pipes and wait.life == self._life else None
        if signal:
            await asyncio.shield(signal)

    async def remove(self, target: str) -> int:
        """Removes what is stored for an absolute URL. Returns how many responses it removes."""
        return count_of((await self.exchange({"remove": 0, "target": target}))[1], "responses")

    async def sweep(self, at: Optional[int] = None) -> int:
        """Removes responses that can neither be used nor validated any more. Returns how many it removes."""
        return count_of((await self.exchange({"sweep": 0, "at": time_or_now(at)}))[1], "removed")

    async def stats(self) -> Dict[str, Any]:
        """Returns what is stored now, and what was done since the process started (docs/PROTOCOL.md)."""
        return (await self.exchange({"stats": 0}))[1].line

    async def clear(self) -> None:
        """Ends the process, and removes its directory, and so all stored responses. Requests under way are lost.

        Raises `StoreNotOpened` if another process uses the directory.
        """
        await self.close()
        remove_directory(self.options.dir)

    async def close(self) -> None:
        """Ends the process, once its directory is closed. Does nothing if it has ended."""
        pipes = self._pipes
        if pipes and not pipes.is_gone:
            pipe = pipes.transport.get_pipe_transport(0)
            assert pipe
            pipe.close()
            await asyncio.wait([pipes.closed], timeout=_STOP_SECONDS)
            pipes.end()
