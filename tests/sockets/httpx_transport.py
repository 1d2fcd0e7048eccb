"""Tests the module transport of the Python package, with the program that $CACHESERVE names. Each test runs with a client that
blocks and with one that awaits."""
import asyncio
import contextlib
import gc
import logging
import os
import re
import signal
import subprocess
import sys
import tempfile
import threading
import time
import unittest

import httpx
from http_cache_semantics.process import AsyncCache, ProcessOptions, ProgramNotFound, StoreNotOpened
from http_cache_semantics.transport import AsyncCacheTransport, CacheTransport
from scenario_origin import PAGES, TEXT, ZIPPED, answer, chunked
from started import ROOT, children
from stream_origin import StreamOrigin


class Blocking:
    """A client that blocks, with a transport of the package, or with the transport of `httpx` for None."""

    def __init__(self, made=CacheTransport):
        self.transport = made and made()
        self.client = httpx.Client(transport=self.transport, trust_env=False, timeout=5)

    def request(self, method, url, **how):
        return self.client.request(method, url, **how)

    def opened(self, url, **how):
        """Returns a response whose body isn't read yet."""
        return self.client.send(self.client.build_request("GET", url, **how), stream=True)

    def pieces(self, response):
        return response.iter_raw()

    def close(self, response=None):
        (response or self.client).close()

    def stats(self):
        return self.transport.cache.stats()

    def pid(self):
        return self.transport.cache.pid

    def remove(self, url):
        return self.transport.remove(url)

    def clear(self):
        self.transport.clear()


class Awaiting:
    """As `Blocking`, with a client that awaits in an event loop of its own."""

    def __init__(self, made=AsyncCacheTransport):
        self.loop = asyncio.new_event_loop()
        self.thread = threading.Thread(target=self.loop.run_forever, daemon=True)
        self.thread.start()
        self.transport = made and made()
        self.client = httpx.AsyncClient(transport=self.transport, trust_env=False, timeout=5)

    def wait(self, awaited):
        return asyncio.run_coroutine_threadsafe(awaited, self.loop).result(20)

    def request(self, method, url, **how):
        return self.wait(self.client.request(method, url, **how))

    def opened(self, url, **how):
        return self.wait(self.client.send(self.client.build_request("GET", url, **how), stream=True))

    def pieces(self, response):
        pieces = response.aiter_raw()
        with contextlib.suppress(StopAsyncIteration):
            while True:
                yield self.wait(pieces.__anext__())

    def close(self, response=None):
        if response:
            self.wait(response.aclose())
            return
        self.wait(self.client.aclose())
        self.loop.call_soon_threadsafe(self.loop.stop)
        self.thread.join()
        self.loop.close()

    async def _cache(self):
        return await self.transport.cache()

    async def _stats(self):
        return await (await self.transport.cache()).stats()

    def stats(self):
        return self.wait(self._stats())

    def pid(self):
        return self.wait(self._cache()).pid

    def remove(self, url):
        return self.wait(self.transport.remove(url))

    def clear(self):
        self.wait(self.transport.clear())


def facts_of(response, content):
    fields = [(name, value) for name, value in response.headers.raw if name.lower() not in (b"cache-status", b"age")]
    return {
        "status": response.status_code,
        "reason": response.reason_phrase,
        "version": response.http_version,
        "fields": fields,
        "content": content,
        "history": [hop.status_code for hop in response.history],
        "cookies": dict(response.cookies),
        "url": response.url.path,
        "stream": "network_stream" in response.extensions,
    }


def got(client, url, method="GET", **how):
    """Returns the facts of a response, or the class of the exception."""
    try:
        response = client.request(method, url, **how)
    except httpx.HTTPError as error:
        return type(error).__name__
    return facts_of(response, response.content)


def got_in_pieces(client, url):
    try:
        response = client.opened(url)
    except httpx.HTTPError as error:
        return type(error).__name__
    pieces, error = [], None
    try:
        for piece in client.pieces(response):
            pieces.append(piece)
    except httpx.HTTPError as raised:
        error = type(raised).__name__
    client.close(response)
    return facts_of(response, b"".join(pieces)), error


WITHOUT_BODY = ("/nothing", "/etag", "/range", "/chunks", "/chunks-gzip", "/slow-chunks", "/slow-body", "/echo")
ERRORS = ("/stall", "/stall-chunks", "/silent")
POSTED = (
    {"content": b"bytes"},
    {"data": {"a": "1"}},
    {"json": [1]},
    {"files": {"f": b"file"}},
    {"headers": {"X-CaSe": "v", "Host": "other.test"}},
)


def scenarios(client, base):
    """Yields the name and the facts of each scenario."""
    for path in (*PAGES, *WITHOUT_BODY):
        yield path, got(client, f"{base}{path}?whole")
        yield f"pieces of {path}", got_in_pieces(client, f"{base}{path}?pieces")
    for path in ERRORS:
        yield path, got(client, base + path, timeout=0.3)
    for path in ("/found", "/loop", "/other", "/again"):
        yield f"follow {path}", got(client, base + path, follow_redirects=True)
    for method in ("HEAD", "POST", "PUT", "DELETE", "OPTIONS"):
        yield method, got(client, base + ("/gzip" if method == "HEAD" else "/echo"), method)
    for how in POSTED:
        yield str(how), got(client, base + "/echo", "POST", **how)
    yield "refused", got(client, "http://127.0.0.1:9/")
    yield "digest", got(client, base + "/secret?digest", auth=httpx.DigestAuth("user", "secret"))
    yield "password", got(client, base.replace("//", "//user:password@") + "/echo?a=b&c=%20d#part")
    yield "cookies", dict(client.client.cookies)


class Scenarios(unittest.TestCase):
    """A client with the cache sees what it sees without, but for what caching changes."""

    maxDiff = 2000

    def test_scenarios(self):
        # Set by the form with a file, and so different each time.
        def comparable(facts):
            return re.sub(rb"[0-9a-f]{32}|boundary=\S+", b"", repr(facts).encode())

        logging.getLogger("http_cache_semantics").setLevel(logging.CRITICAL)
        origin = StreamOrigin(answer)
        self.addCleanup(origin.stop)
        for made in (Blocking, Awaiting):
            plain, cached = made(None), made()
            for (name, wanted), (_, facts) in zip(scenarios(plain, origin.base), scenarios(cached, origin.base)):
                with self.subTest(name, client=made.__name__):
                    self.assertEqual(comparable(facts), comparable(wanted))
            self.assertEqual(cached.stats()["under_way"], 0)
            plain.close()
            cached.close()


class Transports:
    """The tests of both clients, whose class is `made`."""

    def setUp(self):
        self.origin = StreamOrigin(answer)
        self.addCleanup(self.origin.stop)
        self.client = self.made()
        self.addCleanup(self.client.close)

    def get(self, path, **how):
        response = self.client.request("GET", self.origin.base + path, **how)
        return response, response.extensions["from_cache"]

    def state(self):
        stats = self.client.stats()
        return stats["responses"], stats["under_way"]

    def test_a_hit(self):
        first, from_cache = self.get("/gzip")
        again, from_cache_again = self.get("/gzip")
        self.assertEqual((first.content, again.content, from_cache, from_cache_again), (TEXT, TEXT, False, True))
        self.assertIn("httpx; hit", again.headers["Cache-Status"])
        self.assertEqual((again.http_version, again.reason_phrase, len(self.origin.asked)), ("HTTP/1.1", "OK", 1))
        raw = self.client.opened(self.origin.base + "/gzip")
        self.assertEqual(b"".join(self.client.pieces(raw)), ZIPPED)

    def test_a_validated_response_is_from_the_cache(self):
        self.assertEqual([self.get("/etag")[1], self.get("/etag")[1]], [False, True])
        self.assertEqual((self.get("/etag")[0].content, len(self.origin.asked)), (b"tagged", 3))

    def test_remove_and_clear(self):
        self.get("/page")
        self.get("/long")
        url = self.origin.base + "/page"
        self.assertEqual([self.client.remove(url), self.client.remove(url)], [1, 0])
        self.assertEqual([self.get("/page")[1], self.get("/long")[1]], [False, True])
        self.client.clear()
        self.assertEqual([self.get("/page")[1], self.get("/long")[1]], [False, False])

    def test_an_unsafe_request_invalidates(self):
        self.get("/page")
        self.client.request("POST", self.origin.base + "/page", content=b"x")
        self.assertEqual((self.origin.asked[1]["body"], self.get("/page")[1]), (b"x", False))

    def test_only_cookies_that_the_origin_server_sends_are_set(self):
        self.get("/cookies")
        self.client.client.cookies.set("a", "newer", domain="127.0.0.1", path="/")
        self.assertTrue(self.get("/cookies")[1])
        self.assertEqual(dict(self.client.client.cookies), {"a": "newer", "b": "2"})

    def test_a_streamed_response_is_stored_at_its_end(self):
        start = time.monotonic()
        response = self.client.opened(self.origin.base + "/slow-chunks")
        pieces = self.client.pieces(response)
        self.assertEqual((next(pieces), time.monotonic() - start < 0.2, self.state()), (b"first\n", True, (0, 1)))
        self.assertEqual((b"".join(pieces), self.state()), (b"second\nthird\n", (1, 0)))
        self.assertTrue(self.get("/slow-chunks")[1])

    def test_an_endless_stream(self):
        response = self.client.opened(self.origin.base + "/events")
        pieces = self.client.pieces(response)
        self.assertEqual([next(pieces) for _ in range(3)], [b"data: 0\n\n", b"data: 1\n\n", b"data: 2\n\n"])
        self.client.close(response)
        self.assertEqual(self.state(), (0, 0))

    def test_a_body_that_turns_out_too_long_replaces_a_stale_one(self):
        # Each number is in one place of the new body.
        new = b"".join(b"%07d\n" % number for number in range(30_000))

        def answer(request):
            is_first = not any(name.lower() == "if-none-match" for name, _ in request["headers"])
            body = b"old" if is_first else new
            pieces = [body[at : at + 10_000] for at in range(0, len(body), 10_000)]
            return chunked(b'Cache-Control: max-age=0, stale-if-error=60\r\nETag: "a"\r\n', *pieces)

        self.origin.answer = answer
        for most in (100_000, len(new) - 1, len(new)):
            options = ProcessOptions(private=True, name="httpx", stored_body=most)
            client = self.made(lambda: type(self.client.transport)(process=options))
            first = client.request("GET", self.origin.base + "/")
            again = client.opened(self.origin.base + "/")
            self.assertEqual((first.content, b"".join(client.pieces(again)) == new), (b"old", True))
            self.assertEqual((again.extensions["from_cache"], again.reason_phrase), (False, "OK"))
            self.assertIn("httpx; fwd=stale; fwd-status=200", again.headers["Cache-Status"])
            stats = client.stats()
            self.assertEqual((stats["responses"], stats["under_way"]), (int(most == len(new)), 0))
            client.close()

    def test_what_isnt_read_isnt_stored(self):
        response = self.client.opened(self.origin.base + "/long")
        del response
        gc.collect()
        self.client.close(self.client.opened(self.origin.base + "/chunks"))
        self.assertEqual(self.state(), (0, 0))

    def test_the_process_is_killed(self):
        self.get("/page")
        with self.assertLogs("http_cache_semantics", "WARNING") as log:
            os.kill(self.client.pid(), signal.SIGKILL)
            self.assertEqual([self.get("/page?secret")[1] for _ in range(3)], [False, False, True])
        self.assertEqual((len(log.output), "secret" in log.output[0]), (1, False))

    def test_a_process_that_hangs(self):
        client = self.made(lambda: type(self.client.transport)(cache_timeout=6))
        got = lambda: client.request("GET", self.origin.base + "/page").extensions["from_cache"]
        self.assertEqual([got(), got()], [False, True])
        pid = client.pid()
        with self.assertLogs("http_cache_semantics", "WARNING") as log:
            os.kill(pid, signal.SIGSTOP)
            begun = time.monotonic()
            self.assertFalse(got())
            self.assertAlmostEqual(time.monotonic() - begun, 7.4, delta=1.5)
            self.assertEqual([got(), got()], [False, True])
        self.assertEqual((len(log.output), "hasn't replied for 6 s" in log.output[0]), (1, True))
        self.assertNotIn(pid, children(os.getpid()))
        client.close()

    def test_a_time_limit_that_is_none(self):
        with self.assertRaisesRegex(ValueError, "^cache_timeout isn't a positive number of seconds: 0$"):
            type(self.client.transport)(cache_timeout=0)

    def test_a_directory(self):
        with tempfile.TemporaryDirectory() as folder:
            file = f"{folder}/cache"

            def made():
                return type(self.client.transport)(file, ProcessOptions(private=True, name="mine"))

            first = self.made(made)
            first.request("GET", self.origin.base + "/page")
            with self.assertLogs("http_cache_semantics", "WARNING") as log:
                second = self.made(made)
                self.assertFalse(second.request("GET", self.origin.base + "/page").extensions["from_cache"])
            with self.assertRaises(StoreNotOpened):
                second.stats()
            self.assertIn(f"{file}: another process uses the directory", log.output[0])
            second.close()
            first.close()
            third = self.made(made)
            self.assertIn("mine; hit", third.request("GET", self.origin.base + "/page").headers["Cache-Status"])
            third.close()

    def test_no_program(self):
        with self.assertLogs("http_cache_semantics", "WARNING") as log:
            client = self.made(lambda: type(self.client.transport)(process=ProcessOptions(program="/nowhere")))
            self.assertEqual(client.request("GET", self.origin.base + "/page").extensions["from_cache"], False)
        with self.assertRaises(ProgramNotFound):
            client.stats()
        client.close()
        self.assertEqual(len(log.output), 1)

    def test_a_stale_response_is_validated_after_the_answer(self):
        numbers = iter(range(9))
        swr = b'Cache-Control: max-age=0, stale-while-revalidate=60\r\nETag: "a"\r\n'
        page = lambda: b"HTTP/1.1 200 OK\r\n%sContent-Length: 1\r\n\r\n%d" % (swr, next(numbers))
        self.origin.answer = lambda _: [page()]
        self.assertEqual([self.get("/")[0].text, self.get("/")[0].text], ["0", "0"])
        for _ in range(500):
            if self.get("/")[0].text != "0":
                break
            time.sleep(0.01)
        self.assertEqual(self.get("/")[1], True)
        self.assertGreater(len(self.origin.asked), 1)

    def test_an_inner_transport(self):
        pieces = [b"made ", b"", b"up"]

        def handler(request):
            return httpx.Response(200, headers={"Cache-Control": "max-age=60"}, content=self.stream(pieces))

        client = self.made(lambda: type(self.client.transport)(transport=httpx.MockTransport(handler)))
        got = [client.request("GET", "http://a.test/") for _ in range(2)]
        self.assertEqual([(it.text, it.extensions["from_cache"]) for it in got], [("made up", False), ("made up", True)])
        client.close()


class BlockingTransports(Transports, unittest.TestCase):
    made = Blocking

    def stream(self, pieces):
        return iter(pieces)

    def test_a_dropped_client_leaves_no_process(self):
        client = Blocking()
        pid = client.pid()
        self.assertIn(pid, children(os.getpid()))
        del client
        gc.collect()
        self.assertNotIn(pid, children(os.getpid()))

    def test_the_example(self):
        program = ROOT / "examples/languages/cached_httpx.py"
        with tempfile.TemporaryDirectory() as folder:
            command = [sys.executable, "-B", program, self.origin.base + "/page"]
            run = subprocess.run(command, cwd=folder, capture_output=True, text=True, timeout=60)
        self.assertEqual((run.stdout, run.stderr), ("False\nTrue\n", ""))


class AwaitingTransports(Transports, unittest.TestCase):
    made = Awaiting

    async def stream(self, pieces):
        for piece in pieces:
            yield piece

    def test_a_dropped_cache_leaves_no_process(self):
        async def leave():
            cache = AsyncCache()
            await cache.start()
            pid = cache.pid
            del cache
            gc.collect()
            for _ in range(500):
                if pid not in children(os.getpid()):
                    return True
                await asyncio.sleep(0.01)
            return False

        self.assertTrue(asyncio.run(leave()))

    def test_a_cancelled_request_leaves_nothing_under_way(self):
        async def cancel():
            for path, seconds in (("/silent", 0.1), ("/stall", 0.1), ("/slow-chunks", 0.1)):
                with contextlib.suppress(asyncio.TimeoutError):
                    await asyncio.wait_for(self.client.client.get(self.origin.base + path), seconds)

        self.client.wait(cancel())
        self.assertEqual(self.state(), (0, 0))

    def test_two_event_loops(self):
        page = httpx.Response(200, headers={"Cache-Control": "max-age=60"}, content=b"page")
        transport = AsyncCacheTransport(transport=httpx.MockTransport(lambda _: page))

        async def twice():
            async with httpx.AsyncClient(transport=transport) as client:
                return [(await client.get("http://a.test/")).extensions["from_cache"] for _ in range(2)]

        self.assertEqual([asyncio.run(twice()), asyncio.run(twice())], [[False, True], [False, True]])

    def test_without_asyncio(self):
        transport = AsyncCacheTransport(transport=httpx.MockTransport(lambda request: httpx.Response(200, text="page")))
        with self.assertLogs("http_cache_semantics", "WARNING") as log:
            handled = transport.handle_async_request(httpx.Request("GET", "http://a.test/"))
            with self.assertRaises(StopIteration) as end:
                handled.send(None)
        self.assertEqual((end.exception.value.status_code, "by asyncio only" in log.output[0]), (200, True))


if __name__ == "__main__":
    unittest.main()
