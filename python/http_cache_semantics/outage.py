"""What becomes of requests while the process can't be used: it is started again, and is told then what it has missed.

An unsafe request that is forwarded without the process may change what its directory stores. Its target is removed there before the
process answers anything again.
"""
from __future__ import annotations

import asyncio
import contextlib
from typing import Callable, Optional, Set

from .process import AsyncCache, CacheError, CacheGone

# How many targets are remembered. If there are more, everything that is stored is removed.
_TARGETS = 10_000
_FIRST_PAUSE = 1.0
_LONGEST_PAUSE = 30.0


class Keeper:
    """Keeps the process running."""

    def __init__(self, cache: AsyncCache, say: Callable[[str], None]) -> None:
        self.cache, self._say = cache, say
        self.is_up = True
        self._targets: Set[str] = set()
        self._has_too_many = False
        self._task: Optional[asyncio.Task[None]] = None

    def lost(self, error: CacheError) -> None:
        """Begins to start the process again, after it has ended or hasn't started. The log gets one line until it runs.

        A request may have been under way in an earlier process than the one that runs.
        """
        if self.is_up and not self.cache.is_running:
            self.is_up = False
            self._say(f"no cache, so requests are forwarded: {error}")
            self._task = asyncio.ensure_future(self._start_again())

    async def _start_again(self) -> None:
        pause = 0.0
        while not self.is_up:
            await asyncio.sleep(pause)
            pause = min(max(_FIRST_PAUSE, 2 * pause), _LONGEST_PAUSE)
            with contextlib.suppress(CacheError):
                await self._started()
        self._say("the cache is used again")

    async def _started(self) -> None:
        if self._has_too_many:
            await self.cache.clear()
            self._has_too_many = False
            self._targets.clear()
        await self.cache.start()
        while self._targets:
            target = self._targets.pop()
            try:
                await self.cache.remove(target)
            except CacheGone:
                self._targets.add(target)
                raise
            except CacheError:
                # The process refuses the URL, so nothing is stored for it.
                continue
        self.is_up = not self._has_too_many

    async def changed(self, target: str) -> None:
        """Has what is stored for a target removed, now or as soon as the process runs."""
        if self.is_up:
            try:
                await self.cache.remove(target)
                return
            except CacheGone as error:
                self.lost(error)
            except CacheError:
                return
        if len(self._targets) < _TARGETS:
            self._targets.add(target)
        else:
            self._has_too_many = True

    async def close(self) -> None:
        """Ends the process."""
        if self._task:
            self._task.cancel()
        await self.cache.close()
