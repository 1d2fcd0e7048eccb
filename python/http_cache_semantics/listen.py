"""Accepts the connections of clients, as many as there are file descriptors for. More have to wait until others end."""
from __future__ import annotations

import asyncio
import resource
import socket
from typing import Any, Callable, List, Optional

from .connection import Client

# How many files the process may have open, if the system lets it choose.
_WANTED = 65_536
# How many file descriptors are for other things than connections.
_OTHERS = 32
_AT_ONCE = 64
_BACKLOG = 512
# How many seconds nothing is accepted after the system has refused it, and no second line about that is written.
_REST_SECONDS = 0.5
_QUIET_SECONDS = 60.0


def most_clients(kept: int) -> int:
    """Returns for how many clients there are file descriptors, if each needs one more to the origin server.

    `kept` is the number of idle connections to the origin server.
    """
    soft, hard = resource.getrlimit(resource.RLIMIT_NOFILE)
    wanted = _WANTED if hard == resource.RLIM_INFINITY else min(hard, _WANTED)
    if soft != resource.RLIM_INFINITY and soft < wanted:
        resource.setrlimit(resource.RLIMIT_NOFILE, (wanted, hard))
        soft = wanted
    count = _WANTED if soft == resource.RLIM_INFINITY else soft
    return max(1, (count - _OTHERS - min(kept, count // 4)) // 2)


class Listener:
    """Accepts connections, and makes a `Client` for each."""

    def __init__(self, most: int, made: Callable[[], Client], say: Callable[[str], None]) -> None:
        self._most, self._made, self._say = most, made, say
        self._sockets: List[socket.socket] = []
        self._count = 0
        self._is_resting = False
        self._quiet_until = 0.0

    async def open(self, host: Optional[str], port: int) -> None:
        """Listens at all addresses of a host. Raises `OSError` if it can't."""
        self._loop: Any = asyncio.get_running_loop()
        found = await self._loop.getaddrinfo(host, port, type=socket.SOCK_STREAM, flags=socket.AI_PASSIVE)
        for family, _, _, _, address in dict.fromkeys(found):
            listening = socket.create_server(address[:2], family=family, backlog=_BACKLOG)
            listening.setblocking(False)
            self._sockets.append(listening)
        self._go_on()

    def _go_on(self) -> None:
        self._is_resting = False
        for listening in self._sockets:
            self._loop.add_reader(listening, self._accept, listening)

    def _rest(self, why: str) -> None:
        self._is_resting = True
        for listening in self._sockets:
            self._loop.remove_reader(listening)
        if self._loop.time() >= self._quiet_until:
            self._quiet_until = self._loop.time() + _QUIET_SECONDS
            self._say(f"{why}, so further connections have to wait")

    def _accept(self, listening: socket.socket) -> None:
        for _ in range(_AT_ONCE):
            if self._count >= self._most:
                self._rest(f"{self._count} connections are open")
                return
            try:
                connection = listening.accept()[0]
            except (BlockingIOError, InterruptedError, ConnectionAbortedError):
                return
            except OSError as error:
                # Such as a limit of the whole system. The connection still waits, so a loop would begin otherwise.
                self._rest(error.strerror.lower())
                self._loop.call_later(_REST_SECONDS, self._go_on)
                return
            connection.setblocking(False)
            self._count += 1
            self._loop.create_task(self._connected(connection))

    async def _connected(self, connection: socket.socket) -> None:
        try:
            await self._loop.connect_accepted_socket(self._made, connection)
        except OSError:
            connection.close()
            self.lost()

    def lost(self) -> None:
        """Takes note that a connection has ended."""
        self._count -= 1
        if self._is_resting and self._sockets and self._count < self._most:
            self._go_on()

    def close(self) -> None:
        for listening in self._sockets:
            self._loop.remove_reader(listening)
            listening.close()
        self._sockets.clear()
