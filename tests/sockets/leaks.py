"""Tests that nothing is left under way: clients leave at random times while the origin server cuts, stalls and streams. The proxy
runs in this process, so that what it still holds can be seen."""
import asyncio
import random
import time
import unittest

from http_cache_semantics.connection import Client, Room
from http_cache_semantics.listen import Listener
from http_cache_semantics.origin import Origin, OriginServer
from http_cache_semantics.process import AsyncCache, ProcessOptions
from http_cache_semantics.service import Log, Proxy
from proxied import RawOrigin, chunk, get, response
from started import free_port

LONG = b"x" * 300_000
CHUNKED = b"HTTP/1.1 200 OK\r\nCache-Control: max-age=1, stale-while-revalidate=60\r\nTransfer-Encoding: chunked\r\n\r\n"


def slowly(*pieces):
    def answer(turn):
        for piece in pieces:
            turn.write(piece)
            time.sleep(random.random() / 10)

    return answer


def echoed(turn):
    return response(turn.body(100_000))


ANSWERS = {
    b"/long": lambda turn: response(LONG, b"Cache-Control: max-age=1, stale-if-error=60"),
    b"/stored": lambda turn: response(LONG, b"Cache-Control: max-age=600"),
    b"/private": lambda turn: response(LONG, b"Cache-Control: private"),
    b"/chunks": lambda turn: slowly(CHUNKED, chunk(LONG), chunk(b"y"))(turn) or b"0\r\n\r\n",
    b"/cut": slowly(CHUNKED, chunk(LONG)),
    b"/stall": lambda turn: slowly(CHUNKED, chunk(b"x"))(turn) or time.sleep(2),
    b"/none": lambda turn: None,
    b"/upload": echoed,
}


async def leave_sometimes(port, numbers):
    """Sends a request, and reads the response to its end, or leaves before."""
    reader, writer = await asyncio.open_connection("127.0.0.1", port)
    path = numbers.choice(list(ANSWERS))
    try:
        if path == b"/upload":
            writer.write(get(path, b"Content-Length: 100000", b"Connection: close", method=b"POST"))
            writer.write(b"x" * numbers.choice((0, 50_000, 100_000)))
        else:
            writer.write(get(path, b"Connection: close"))
        await asyncio.wait_for(reader.read(-1), numbers.choice((0.01, 0.05, 0.3, 5)))
    except (OSError, asyncio.TimeoutError):
        pass
    finally:
        writer.transport.abort()


class Leaks(unittest.IsolatedAsyncioTestCase):
    async def asyncSetUp(self):
        self.origin, self.room = RawOrigin(ANSWERS), Room(3_000_000)
        self.addCleanup(self.origin.stop)
        there = Origin("127.0.0.1", self.origin.port, False, "", response=3.0, idle=1.0)
        log = Log()
        log.say = lambda text: None
        self.cache = AsyncCache(ProcessOptions(proxy=True))
        self.proxy = Proxy(self.cache, OriginServer(there, self.room), self.room, log, b"proxy", True, False)
        made = lambda: Client(self.room, 1.0, 65_536, self.proxy.serve, self.lost)
        self.listener, self.port = Listener(1000, made, log.say), free_port()
        await self.listener.open("127.0.0.1", self.port)
        await self.cache.start()

    def lost(self, client):
        self.proxy.clients.discard(client)
        self.listener.lost()

    async def asyncTearDown(self):
        self.listener.close()
        await self.proxy.stop()

    async def test_nothing_is_left(self):
        numbers = random.Random(7)
        for _ in range(6):
            await asyncio.gather(*(leave_sometimes(self.port, numbers) for _ in range(40)))
        for _ in range(100):
            if not self.proxy.tasks:
                break
            await asyncio.sleep(0.1)
        stats = await self.cache.stats()
        self.assertEqual((self.proxy.tasks, self.proxy.clients), (set(), set()))
        self.assertEqual((stats["under_way"], self.room.used, self.room.is_full), (0, 0, False))
        self.assertGreater(stats["frames"], 300)
        self.assertLessEqual(len(self.room.connections), 64, "idle connections to the origin server")


if __name__ == "__main__":
    unittest.main()
