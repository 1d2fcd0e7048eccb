"""Sends a request of the process to the origin server, and hands its response over.

The head is handed over before the body, unless that is there at once. A copy of a body goes to the process as it is read.
"""
from __future__ import annotations

import asyncio
import contextlib
import os
import socket
import ssl
from typing import Callable, Optional

from .connection import Client, Room
from .origin import BadRequest, OriginServer, Response
from .process import Answer, AsyncCache, CacheError, CacheGone, More, Outcome, Send, UnderWay
from .wire import PIECE, BadMessage

# How many seconds a short body has to be there, so that it is handed over with its head. That costs the least, and a stale
# response may still be used if such a body is cut off.
_AT_ONCE = 0.02
# What is raised if the body of a response can't be read or sent on.
LOST = (BadMessage, OSError, asyncio.TimeoutError)


class Copy:
    """The copy of a body that the process collects. It ends with `complete` or `drop`."""

    def __init__(self, cache: AsyncCache, room: Room, of: UnderWay, most: int) -> None:
        self._cache, self._room, self._left = cache, room, most
        self._of: Optional[UnderWay] = of
        self._held = 0

    async def add(self, piece: bytes) -> None:
        """Hands over a piece that isn't the last. The copy is dropped if it becomes too long, or if there is no room for it."""
        if not self._of:
            return
        if len(piece) > self._left or not self._room.take_for_copy(len(piece)):
            await self.drop()
            return
        self._left -= len(piece)
        self._held += len(piece)
        try:
            await self._cache.part(self._of, piece)
        except CacheError:
            await self.drop()

    async def complete(self, piece: bytes) -> Optional[Outcome]:
        """Hands over the last piece. Returns what the process decides, or None if the copy isn't stored."""
        if self._of and len(piece) > self._left:
            await self.drop()
        of = self._of
        if not of:
            return None
        try:
            found = await self._cache.complete(of, piece)
        except CacheError:
            await self.drop()
            return None
        self._end()
        return found

    async def drop(self) -> None:
        """Ends the copy, so that nothing of it is stored."""
        of = self._of
        self._end()
        if of:
            with contextlib.suppress(CacheError):
                await self._cache.failed(of)

    def _end(self) -> None:
        self._room.give(self._held)
        self._of, self._held = None, 0


class Forwarder:
    """Sends requests to the origin server for the process, until it decides what the answer is."""

    def __init__(self, cache: AsyncCache, origin: OriginServer, room: Room, warn: Callable[[str], None]) -> None:
        self.cache, self.origin, self.room, self._warn = cache, origin, room, warn

    def note(self, error: BaseException) -> None:
        """Writes a line on why the origin server has sent no response."""
        self._warn(cause_of(error, self.origin.origin.response))


class Forward:
    """One request, and its response if its body isn't read to the end. `client` sends the body of the request."""

    def __init__(self, by: Forwarder, client: Optional[Client]) -> None:
        self.by, self.client = by, client
        self.was_sent = False
        self.response: Optional[Response] = None
        self.copy: Optional[Copy] = None

    async def outcome(self, send: Send) -> Outcome:
        """Sends a request, and returns what the process decides after it.

        Raises `BadRequest` if the client doesn't send the body, and `CacheGone` if the process ends meanwhile: `response` is
        then the response, if there is one.
        """
        self.was_sent, self.response = True, None
        try:
            self.response = await self.by.origin.fetch(send, self.client)
            return await self._handed_over(send, self.response)
        except CacheGone:
            raise
        except (BadRequest, asyncio.CancelledError):
            self.close()
            with contextlib.suppress(CacheError):
                await self.by.cache.failed(send)
            raise
        except (CacheError, BadMessage, OSError, asyncio.TimeoutError) as error:
            self.close()
            self.by.note(error)
            why = "invalid" if isinstance(error, (CacheError, BadMessage)) else "none"
        return await self.by.cache.failed(send, why, pieces=PIECE)

    async def _handed_over(self, send: Send, response: Response) -> Outcome:
        cache, times = self.by.cache, (response.sent, response.at)
        if response.has_ended or await self._is_there(response):
            return self._settled(await cache.received(send, response.head, response.start, *times, pieces=PIECE))
        length = True if response.length is None else response.length
        collect = self.by.room.has_room_for_copy(response.length or PIECE)
        found = await cache.received(send, response.head, b"", *times, length, collect, PIECE)
        if isinstance(found, More):
            return await self._collected(send, found, response)
        if isinstance(found, Answer) and found.store is not None:
            self.copy = Copy(cache, self.by.room, found, found.store)
            return found
        return self._settled(found)

    def _settled(self, found: Outcome) -> Outcome:
        """Returns an outcome, and ends the exchange if that doesn't need the body."""
        if not (isinstance(found, Answer) and found.rest):
            self.close()
        return found

    async def _is_there(self, response: Response) -> bool:
        """Reads a short body if it is there at once. Returns whether it does."""
        room = self.by.room
        if (response.length or 0) > PIECE or not room.take_for_copy(PIECE):
            return False
        try:
            return await response.read_ahead(PIECE, _AT_ONCE)
        finally:
            room.give(PIECE)

    async def _collected(self, send: Send, more: More, response: Response) -> Outcome:
        """Collects a body before anything is answered, and returns what the process decides.

        The response is handed over again to be passed on, with what was read of its body, if that is too long, or if there is no
        room for a copy.
        """
        cache, room, copied = self.by.cache, self.by.room, 0
        response.keep()
        try:
            piece = await response.piece()
            while not response.has_ended and copied + len(piece) <= more.store and room.take_for_copy(len(piece)):
                copied += len(piece)
                await cache.part(more, piece)
                piece = await response.piece()
            if response.has_ended and copied + len(piece) <= more.store:
                return self._settled(await cache.complete(more, piece, PIECE))
            length, times = response.length or True, (response.sent, response.at)
            return self._settled(await cache.received(send, response.head, b"", *times, length, pieces=PIECE))
        except LOST as error:
            self.close()
            # Part of its body was read, so it is of no use any more.
            self.response = None
            self.by.note(error)
            return await cache.failed(more, "invalid" if isinstance(error, BadMessage) else "none", pieces=PIECE)
        finally:
            room.give(copied)
            response.rewind()

    def close(self) -> None:
        """Ends the exchange with the origin server, if there is one."""
        if self.response:
            self.response.close()


def cause_of(error: BaseException, seconds: float) -> str:
    """Returns why there is no response, in a few words."""
    if isinstance(error, ssl.SSLError):
        return f"TLS: {getattr(error, 'verify_message', '') or error.reason or error}"
    if isinstance(error, OSError) and error.errno and not isinstance(error, socket.gaierror):
        return os.strerror(error.errno).lower()
    if isinstance(error, asyncio.TimeoutError):
        return f"no response within {seconds:g} s"
    return str(getattr(error, "strerror", None) or error)
