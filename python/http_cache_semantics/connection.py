"""Connections on an event loop: unread bytes, time limits, and back-pressure in both directions.

A `Room` bounds the memory of all connections together. The module knows no HTTP but for `Client`, which reads requests.
"""
from __future__ import annotations

import asyncio
import contextlib
import socket
import struct
from typing import Any, Callable, Optional, Set

from .wire import Closed, Event, Request, RequestReader

# How many unread bytes a connection holds before it reads no more.
_HELD = 65_536
# The limits of what is read after a last response. A connection that is closed with bytes unread is reset, so the client might
# not read the response.
_READ_ON_BYTES = 1_048_576
_READ_ON_SECONDS = 2.0


class Room:
    """Counts the bytes of messages in memory. Once they are too many, no connection reads on until an eighth is free."""

    def __init__(self, most: int) -> None:
        self.most, self.used = most, 0
        self.is_full = False
        self.connections: Set[Connection] = set()

    def take(self, count: int) -> None:
        self.used += count
        if self.used >= self.most and not self.is_full:
            self.is_full = True
            self._tell()

    def has_room_for_copy(self, count: int) -> bool:
        """Returns whether a fourth is left beside what need not be in memory."""
        return self.used + count <= self.most // 4 * 3

    def take_for_copy(self, count: int) -> bool:
        """Takes room for what need not be in memory, if there is any for it. Returns whether it does."""
        if not self.has_room_for_copy(count):
            return False
        self.used += count
        return True

    def give(self, count: int) -> None:
        self.used -= count
        if self.is_full and self.used <= self.most // 8 * 7:
            self.is_full = False
            self._tell()

    def _tell(self) -> None:
        for connection in list(self.connections):
            connection.count()


class Waiter:
    """Lets one task wait until `wake` is called. One timer serves many waits, since most are short."""

    def __init__(self, loop: asyncio.AbstractEventLoop) -> None:
        self._loop = loop
        self._future: Optional[asyncio.Future[None]] = None
        self._timer: Optional[asyncio.TimerHandle] = None
        self._due = 0.0

    def wake(self) -> None:
        if self._future and not self._future.done():
            self._future.set_result(None)

    async def wait(self, due: float) -> None:
        """Raises `asyncio.TimeoutError` at the time `due` of the loop."""
        self._due = due
        if self._timer and self._timer.when() > due:
            self._timer.cancel()
            self._timer = None
        self._timer = self._timer or self._loop.call_at(due, self._look)
        future = self._future = self._loop.create_future()
        try:
            await future
        finally:
            # Another task may wait already, if this one was cancelled.
            if self._future is future:
                self._future = None

    def _look(self) -> None:
        self._timer = None
        if self._future and not self._future.done():
            if self._loop.time() >= self._due:
                self._future.set_exception(asyncio.TimeoutError())
            else:
                self._timer = self._loop.call_at(self._due, self._look)

    def end(self) -> None:
        """Wakes the task, and forgets the timer."""
        self.wake()
        if self._timer:
            self._timer.cancel()
            self._timer = None


class Connection(asyncio.Protocol):
    """One end of a connection. A subclass reads what is fed to it, and says how many bytes of it are unread."""

    def __init__(self, room: Room, idle: float) -> None:
        """`idle` is how many seconds the other end may take before it reads on."""
        self.room, self.idle = room, idle
        self.is_lost = self.has_ended = False
        self._counted = 0
        self._is_paused = self.is_blocked = False

    def feed(self, data: bytes) -> None:
        """Takes bytes that were received, or none at the end."""
        raise NotImplementedError

    @property
    def unread(self) -> int:
        raise NotImplementedError

    # What the event loop calls. Transports of other loops than asyncio's are of classes of their own.

    def connection_made(self, transport: Any) -> None:
        self.loop = asyncio.get_running_loop()
        self.transport = transport
        # What the system doesn't take at once has to be waited for, so it is in memory once.
        transport.set_write_buffer_limits(0)
        self._reading, self._writing = Waiter(self.loop), Waiter(self.loop)
        self.room.connections.add(self)

    def data_received(self, data: bytes) -> None:
        self.feed(data)
        self.count()
        self._reading.wake()

    def eof_received(self) -> bool:
        self.has_ended = True
        self.feed(b"")
        self._reading.wake()
        # A client that closes its half may still read. TLS has no half-closed connections.
        return self.transport.get_extra_info("ssl_object") is None

    def connection_lost(self, exc: Optional[Exception]) -> None:
        self.is_lost = True
        self.room.connections.discard(self)
        self.room.give(self._counted)
        self._counted = 0
        self._reading.end()
        self._writing.end()

    def pause_writing(self) -> None:
        self.is_blocked = True

    def resume_writing(self) -> None:
        self.is_blocked = False
        self._writing.wake()

    # What the owner calls.

    def count(self) -> None:
        """Counts the unread bytes, and reads on or not, as there is room for more."""
        if self.is_lost:
            return
        unread = self.unread
        if unread != self._counted:
            change, self._counted = unread - self._counted, unread
            if change > 0:
                self.room.take(change)
            else:
                self.room.give(-change)
        must_pause = unread > _HELD or self.room.is_full
        if must_pause != self._is_paused:
            self._is_paused = must_pause
            if must_pause:
                self.transport.pause_reading()
            else:
                self.transport.resume_reading()

    async def more(self, due: float) -> None:
        """Waits for more bytes. Raises `ConnectionResetError` if the connection is lost, or `asyncio.TimeoutError`."""
        self.count()
        if not self.is_lost:
            await self._reading.wait(due)
        if self.is_lost:
            raise ConnectionResetError("the connection was lost")

    @property
    def is_gone(self) -> bool:
        """Returns whether nothing can be written any more."""
        return self.is_lost or bool(self.transport.is_closing())

    def write(self, data: bytes) -> None:
        """Writes, unless nothing can be written any more: `drain` raises then."""
        if not self.is_gone:
            self.transport.write(data)

    async def drain(self, count: int) -> None:
        """Waits until all that was written is sent, of which `count` bytes are in memory so long."""
        if self.is_blocked and not self.is_lost:
            self.room.take(count)
            try:
                await self._writing.wait(self.loop.time() + self.idle)
            finally:
                self.room.give(count)
        if self.is_gone:
            raise ConnectionResetError("the connection was lost")

    def close(self) -> None:
        """Closes the connection, once all that was written is sent."""
        self.transport.close()

    def abort(self) -> None:
        """Resets the connection, so that the other end can't take what it has received for the whole."""
        known = self.transport.get_extra_info("socket")
        if known and not self.is_lost:
            with contextlib.suppress(OSError):
                known.setsockopt(socket.SOL_SOCKET, socket.SO_LINGER, struct.pack("ii", 1, 0))
        self.transport.abort()


class Client(Connection):
    """The connection of a client. `on_open` is called with it once it is open, and `on_lost` at its end."""

    def __init__(
        self,
        room: Room,
        idle: float,
        longest_head: int,
        on_open: Callable[[Client], None],
        on_lost: Callable[[Client], None],
    ) -> None:
        super().__init__(room, idle)
        self.reader = RequestReader(longest_head)
        # The request that is under way, or None between requests.
        self.current: Optional[Request] = None
        self._on_open, self._on_lost = on_open, on_lost
        self._dropped: Optional[int] = None

    def connection_made(self, transport: Any) -> None:
        super().connection_made(transport)
        self._on_open(self)

    def connection_lost(self, exc: Optional[Exception]) -> None:
        super().connection_lost(exc)
        self._on_lost(self)

    def feed(self, data: bytes) -> None:
        if self._dropped is None:
            self.reader.feed(data)
        else:
            self._dropped += len(data)

    @property
    def unread(self) -> int:
        return self.reader.unread if self._dropped is None else 0

    async def request(self) -> Optional[Request]:
        """Returns the next request, which begins within the idle time, or None if the connection ends before it."""
        self.current = None
        if self.reader.is_over:
            self.reader.restart()
        event = await self.event()
        assert isinstance(event, (Request, Closed))
        self.current = event if isinstance(event, Request) else None
        return self.current

    async def event(self) -> Event:
        """Returns the next event, which is whole within the idle time. Raises as `more`, and `BadMessage`."""
        event = self.reader.next()
        if event is None:
            due = self.loop.time() + self.idle
            while event is None:
                await self.more(due)
                event = self.reader.next()
        self.count()
        return event

    def go_on(self) -> None:
        """Lets a client send the body of its request, if it waits for that (RFC 9110, section 10.1.1)."""
        if self.current and self.current.expects_100:
            self.write(b"HTTP/1.1 100 Continue\r\n\r\n")

    def write_interim(self, head: bytes) -> None:
        """Writes an interim response, unless the client is too old for it, or reads too slowly."""
        if self.current and self.current.is_1_1 and not self.is_blocked:
            self.write(head)

    def skip_body(self) -> bool:
        """Drops what was received of the body of a request. Returns whether that is all of it."""
        while not self.reader.is_over and self.reader.next() is not None:
            pass
        return self.reader.is_over

    async def linger(self) -> None:
        """Ends what is sent, and reads for a while what the client still sends, so that it can read the response."""
        with contextlib.suppress(OSError, asyncio.TimeoutError):
            if not self.is_gone and self.transport.can_write_eof():
                self.transport.write_eof()
            self._dropped, due = 0, self.loop.time() + _READ_ON_SECONDS
            while not self.has_ended and self._dropped < _READ_ON_BYTES:
                await self.more(due)
