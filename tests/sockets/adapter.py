"""Tests the module adapter of the Python package, with the program that $CACHESERVE names."""
import copy
import gc
import itertools
import logging
import multiprocessing
import os
import pickle
import re
import signal
import subprocess
import sys
import tempfile
import threading
import time
import unittest
from collections import deque
from concurrent.futures import ThreadPoolExecutor
from pathlib import Path
from unittest import mock

import requests
from http_cache_semantics import _exchange
from http_cache_semantics._exchange import Asked, BlockingAccess, Received, as_written
from http_cache_semantics.adapter import CacheAdapter
from http_cache_semantics.process import Cache, CacheError, CacheGone, ProcessOptions, ProgramNotFound, StoreNotOpened
from servers import SmallOrigin
from stream_origin import StreamOrigin
from cases import values
from started import ROOT, children

LONG = 9 * 1_048_576


def answer(request, number):
    """Returns the origin server's answer to a request. The first request has the number 1."""
    path, tag = request["target"], b'"%d"' % number
    if path == "/gone":
        return None
    if path == "/cut":
        return b"HTTP/1.1 200 OK\r\nTransfer-Encoding: chunked\r\n\r\n5\r\nab"
    if path == "/chunks":
        return b"HTTP/1.1 200 OK\r\nTransfer-Encoding: chunked\r\n\r\n%x\r\n%s\r\n0\r\n\r\n" % (LONG, b"c" * LONG)
    if path == "/long":
        return b"HTTP/1.1 200 OK\r\nCache-Control: max-age=60\r\nContent-Length: %d\r\n\r\n%s" % (LONG, b"l" * LONG)
    if path == "/etag" and values(request["headers"], "if-none-match") == ['"1"']:
        return b'HTTP/1.1 304 Not Modified\r\nETag: "1"\r\n\r\n'
    fields = {
        "/etag": b"Cache-Control: no-cache\r\nETag: %s\r\n" % tag,
        "/cookie": b"Cache-Control: max-age=60\r\nSet-Cookie: a=1\r\nSet-Cookie: b=2\r\n",
        "/redirect": b"Location: /page\r\nCache-Control: max-age=60\r\n",
        "/stale": b"Cache-Control: max-age=0, stale-while-revalidate=60\r\nETag: %s\r\n" % tag,
    }.get(path, b"Cache-Control: max-age=60\r\n")
    status, body = (b"302 Found" if path == "/redirect" else b"200 OK"), b"page %d" % number
    return b"HTTP/1.1 %s\r\n%sContent-Length: %d\r\n\r\n%s" % (status, fields, len(body), body)


def session_with(adapter):
    session = requests.Session()
    session.trust_env = False
    session.mount("http://", adapter)
    return session


class Adapters(unittest.TestCase):
    def setUp(self):
        self.origin = SmallOrigin(answer)
        self.base = f"http://127.0.0.1:{self.origin.port}"
        self.adapter = CacheAdapter()
        self.session = session_with(self.adapter)
        logging.getLogger("http_cache_semantics").setLevel(logging.CRITICAL)

    def tearDown(self):
        self.session.close()
        self.origin.stop()

    def get(self, path, **how):
        got = self.session.get(self.base + path, timeout=20, **how)
        return got, got.from_cache

    def test_a_hit(self):
        first, from_cache = self.get("/page")
        again, from_cache_again = self.get("/page")
        self.assertEqual((first.text, from_cache, again.text, from_cache_again), ("page 1", False, "page 1", True))
        self.assertIn("requests; hit", again.headers["Cache-Status"])
        self.assertEqual(len(self.origin.asked), 1)

    def test_a_validated_response_is_from_the_cache(self):
        self.assertEqual([self.get("/etag")[1], self.get("/etag")[1]], [False, True])
        self.assertEqual(self.get("/etag")[0].text, "page 1")
        self.assertEqual(len(self.origin.asked), 3)

    def test_remove_and_clear(self):
        self.get("/page")
        self.get("/other")
        self.assertEqual([self.adapter.remove(self.base + "/page"), self.adapter.remove(self.base + "/page")], [1, 0])
        self.assertEqual([self.get("/page")[1], self.get("/other")[1]], [False, True])
        self.adapter.clear()
        self.assertEqual([self.get("/page")[1], self.get("/other")[1]], [False, False])

    def test_only_if_cached(self):
        got, from_cache = self.get("/page", headers={"Cache-Control": "only-if-cached"})
        self.assertEqual((got.status_code, from_cache, self.origin.asked), (504, False, []))

    def test_a_post_invalidates(self):
        self.get("/page")
        self.session.post(self.base + "/page", data=b"x" * 1000)
        self.assertEqual([request["body"] for request in self.origin.asked], [b"", b"x" * 1000])
        self.assertFalse(self.get("/page")[1])

    def test_a_body_in_pieces_is_sent_whole(self):
        got = self.session.post(self.base + "/form", data={"a": "1"}, files={"f": b"y" * 100_000})
        self.assertEqual(got.status_code, 200)
        self.assertIn(b"y" * 100_000, self.origin.asked[0]["body"])

    def test_only_cookies_that_the_origin_server_sends_are_set(self):
        got, _ = self.get("/cookie")
        self.assertEqual((got.cookies.get_dict(), self.session.cookies.get_dict()), ({"a": "1", "b": "2"},) * 2)
        self.session.cookies.set("a", "newer", domain="127.0.0.1", path="/")
        self.assertTrue(self.get("/cookie")[1])
        self.assertEqual(self.session.cookies.get_dict(), {"a": "newer", "b": "2"})

    def test_a_redirection(self):
        got, _ = self.get("/redirect")
        self.assertEqual((got.text, [it.status_code for it in got.history]), ("page 2", [302]))
        self.assertTrue(self.get("/redirect")[1])
        self.assertEqual(len(self.origin.asked), 2)

    def test_bodies_that_are_too_long_to_store(self):
        for path, letter in (("/long", b"l"), ("/chunks", b"c")):
            got, from_cache = self.get(path, stream=True)
            pieces = list(got.iter_content(65_536))
            self.assertEqual((b"".join(pieces) == letter * LONG, len(pieces) > 100, from_cache), (True, True, False))
            self.assertEqual(self.get(path)[0].content, letter * LONG)
        self.assertEqual(len(self.origin.asked), 4)
        with self.get("/long", stream=True)[0] as got:
            self.assertEqual(got.raw.read(10), b"l" * 10)

    def test_errors_are_errors_of_requests(self):
        with self.assertRaises(requests.exceptions.ChunkedEncodingError):
            self.get("/cut")
        with self.assertRaises(requests.ConnectionError):
            self.get("/gone")
        with self.assertRaises(requests.exceptions.InvalidURL):
            self.session.get("http:///x")
        self.assertEqual(self.adapter.cache.stats()["under_way"], 0)

    def test_a_stale_response_is_validated_after_the_answer(self):
        self.get("/stale")
        got, from_cache = self.get("/stale")
        self.assertEqual((got.text, from_cache), ("page 1", True))
        for _ in range(200):
            if len(self.origin.asked) == 2:
                break
            time.sleep(0.01)
        self.assertEqual(len(self.origin.asked), 2)

    def test_threads(self):
        wrong = []

        def ask(number):
            for _ in range(20):
                if not re.fullmatch(r"page \d+", self.get(f"/p{number % 4}")[0].text):
                    wrong.append(number)

        with ThreadPoolExecutor(8) as pool:
            list(pool.map(ask, range(8)))
        self.assertEqual(wrong, [])
        self.assertEqual(self.adapter.cache.stats()["under_way"], 0)

    def test_the_process_is_killed(self):
        self.get("/page")
        os.kill(self.adapter.cache.pid, signal.SIGKILL)
        self.assertEqual([self.get("/page")[1] for _ in range(3)], [False, False, True])
        os.kill(self.adapter.cache.pid, signal.SIGKILL)
        self.assertEqual(self.session.post(self.base + "/form", data=b"x").status_code, 200)
        self.assertEqual(len(self.origin.asked), 4)

    def test_a_directory(self):
        with tempfile.TemporaryDirectory() as folder:
            file = f"{folder}/cache"
            with session_with(CacheAdapter(file)) as session:
                session.get(self.base + "/page")
            with session_with(CacheAdapter(file, ProcessOptions(name="mine"))) as session:
                self.assertIn("mine; hit", session.get(self.base + "/page").headers["Cache-Status"])

    def test_the_example(self):
        program = ROOT / "examples/languages/cached_requests.py"
        with tempfile.TemporaryDirectory() as folder:
            command = [sys.executable, "-B", program, self.base + "/page"]
            run = subprocess.run(command, cwd=folder, capture_output=True, text=True, timeout=60)
        self.assertEqual((run.stdout, run.stderr), ("False\nTrue\n", ""))


def until(holds):
    """Waits until something holds, at most five seconds, and returns whether it does."""
    for _ in range(500):
        if holds():
            return True
        time.sleep(0.01)
    return False


class Heads(unittest.TestCase):
    """What the adapter and the transports say of heads."""

    def test_fields_as_they_were_written(self):
        own = [
            ("X-CaSe", "One"),
            ("x-case", "Two"),
            ("ETag", '"a"'),
            ("Connection", "close"),
            ("Content-Length", "5"),
            ("Content-Length", "5"),
            ("Transfer-Encoding", "chunked"),
            ("X-Removed", "1"),
            ("X-Folded", "a\r\n b"),
        ]
        decided = [("x-case", "One, Two"), ("etag", '"b"'), ("content-length", "5"), ("x-folded", "a b"), ("age", "1")]
        self.assertEqual(
            as_written(own, decided),
            [
                ("X-CaSe", "One"),
                ("x-case", "Two"),
                ("ETag", '"b"'),
                ("Connection", "close"),
                ("Content-Length", "5"),
                ("Transfer-Encoding", "chunked"),
                ("X-Folded", "a\r\n b"),
                ("age", "1"),
            ],
        )

    def received(self, *fields, method="GET", status=200):
        return Received(None, method, status, "OK", list(fields), 0, 0)

    def test_lengths(self):
        of, chunks = ("Content-Length", "7"), ("Transfer-Encoding", "chunked")
        self.assertEqual(self.received(of).length, 7)
        self.assertEqual(self.received(of, ("content-length", "7, 7")).length, 7)
        for fields in ((), (chunks,), (of, chunks), (of, ("Content-Length", "8")), (("Content-Length", "+7"),)):
            self.assertIsNone(self.received(*fields).length)
        for answer in (self.received(of, method="HEAD"), self.received(of, status=304), self.received(status=204)):
            self.assertEqual(answer.length, 0)

    def test_a_fold_after_many_blanks_takes_linear_time(self):
        begun = time.monotonic()
        head = self.received(("X", "a" + " " * 60_000 + "b \t\r\n\t c\n d")).head()
        wanted = b"HTTP/1.1 200 \r\nX: a" + b" " * 60_000 + b"b c d\r\n\r\n"
        self.assertTrue(head == wanted, head[-40:])
        self.assertLess(time.monotonic() - begun, 1)

    def test_heads_that_the_process_has(self):
        of, chunks = ("Content-Length", "7"), ("Transfer-Encoding", "chunked")
        head = b"HTTP/1.1 200 \r\n"
        self.assertEqual(self.received(of, of, ("A", "\xe9")).head(), head + b"A: \xe9\r\nContent-Length: 7\r\n\r\n")
        self.assertEqual(self.received(of, chunks, ("A", "b\r\n\tc")).head(), head + b"A: b c\r\n\r\n")
        asked = Asked("GET", "http://a.test/b?c", [("X", "y")], False)
        self.assertEqual(asked.head(), b"GET http://a.test/b?c HTTP/1.1\r\nHost: a.test\r\nX: y\r\n\r\n")
        with self.assertRaisesRegex(CacheError, "8859-1"):
            Asked("GET", "http://a.test/", [("X", "\u20ac")], False).head()


PIECE = b"x" * 1000
CHUNK = b"3e8\r\n%s\r\n" % PIECE
FRESH = b"Cache-Control: max-age=60\r\n"
STALE = b'Cache-Control: max-age=0, stale-if-error=60\r\nETag: "a"\r\n'


def streamed_answer(request):
    """Yields the origin server's response to a request, by the words of its path."""
    words, is_second = request["target"].strip("/").split("/"), values(request["headers"], "if-none-match") != []
    fields = FRESH if "fresh" in words else STALE if "stale" in words else b""
    length = next((int(word) for word in words if word.isdigit()), 10_000)
    if is_second and "longer-later" in words:
        length = 30_000
    framing = b"Transfer-Encoding: chunked\r\n" if "chunks" in words else b"Content-Length: %d\r\n" % length
    yield b"HTTP/1.1 200 OK\r\n%s%s\r\n" % (fields, framing)
    pieces = itertools.count() if "endless" in words else range(length // 1000)
    for number in pieces:
        if number == 5 and ("cut" in words or "cut-later" in words and is_second):
            yield None
        if number == 5 and "stall" in words:
            yield 5
        if "endless" in words:
            yield 0.02
        yield CHUNK if "chunks" in words else PIECE
    if "chunks" in words:
        yield b"0\r\n\r\n"


class Streams(unittest.TestCase):
    def setUp(self):
        self.origin = StreamOrigin(streamed_answer)
        self.addCleanup(self.origin.stop)
        self.adapter = CacheAdapter()
        self.session = session_with(self.adapter)
        self.addCleanup(self.session.close)

    def get(self, path, **how):
        return self.session.get(self.origin.base + path, timeout=0.5, **how)

    def state(self):
        """Returns how many responses are stored and how many requests are under way."""
        stats = self.adapter.cache.stats()
        return stats["responses"], stats["under_way"]

    def test_a_streamed_response_is_stored_at_its_end(self):
        for path in ("/fresh", "/fresh/chunks"):
            self.adapter.clear()
            got = self.get(path, stream=True)
            pieces = got.iter_content(1000)
            self.assertEqual((next(pieces), self.state(), got.from_cache), (PIECE, (0, 1), False))
            self.assertEqual(b"".join(pieces), PIECE * 9)
            self.assertEqual(self.state(), (1, 0))
            again = self.get(path, stream=True)
            self.assertEqual((again.from_cache, again.raw.read()), (True, PIECE * 10))

    def test_a_response_is_stored_before_its_last_bytes_are_read(self):
        got = self.get("/fresh", stream=True)
        self.assertEqual((len(got.raw.read(9_999)), self.state()), (9_999, (0, 1)))
        self.assertEqual((len(got.raw.read(1)), self.state()), (1, (1, 0)))

    def test_what_isnt_read_to_its_end_isnt_stored(self):
        for path in ("/fresh", "/fresh/chunks", "/fresh/chunks/endless"):
            with self.get(path, stream=True) as got:
                next(got.iter_content(1000))
            self.assertEqual((path, self.state()), (path, (0, 0)))
            got = self.get(path, stream=True)
            next(got.iter_content(1000))
            del got
            gc.collect()
            self.assertEqual((path, self.state()), (path, (0, 0)))
        self.assertTrue(until(lambda: self.origin.ended.count("/fresh/chunks/endless") == 2))

    def test_a_cut_body_isnt_stored(self):
        for path in ("/fresh/cut", "/fresh/cut/chunks"):
            for stream in (True, False):
                with self.subTest(path, stream=stream):
                    got = None
                    try:
                        got = self.get(path, stream=stream)
                        self.assertEqual((path, got.content), ("/fresh/cut", PIECE * 5))
                    except requests.exceptions.ChunkedEncodingError:
                        pass
                    # The response is still there, so nothing else has ended its request.
                    self.assertEqual(self.state(), (0, 0))

    def test_a_stalled_body_isnt_stored(self):
        for path in ("/fresh/stall", "/fresh/stall/chunks"):
            with self.assertRaises(requests.ConnectionError):
                self.get(path)
            got = self.get(path, stream=True)
            with self.assertRaises(requests.ConnectionError):
                got.content
            self.assertEqual((got.status_code, self.state()), (200, (0, 0)))

    def test_a_stored_response_is_used_if_the_body_is_cut(self):
        for path in ("/stale/cut-later", "/stale/cut-later/chunks"):
            self.assertFalse(self.get(path).from_cache)
            got = self.get(path, stream=True)
            self.assertEqual((path, got.from_cache, got.content), (path, True, PIECE * 10))
        self.assertEqual((len(self.origin.asked), self.state()), (4, (2, 0)))

    def test_a_body_is_passed_on_if_it_turns_out_too_long(self):
        adapter = CacheAdapter(process=ProcessOptions(private=True, stored_body=20_000))
        with session_with(adapter) as session:
            got = [session.get(self.origin.base + "/stale/chunks/longer-later", timeout=5) for _ in range(2)]
            self.assertEqual([(it.from_cache, it.content) for it in got], [(False, PIECE * 10), (False, PIECE * 30)])
            # The process has decided on the response, and the stale one isn't stored any more.
            self.assertIn("fwd=stale; fwd-status=200", got[1].headers["Cache-Status"])
            stats = adapter.cache.stats()
            self.assertEqual((stats["responses"], stats["under_way"]), (0, 0))
            got = session.get(self.origin.base + "/fresh/chunks/30000", timeout=5)
            self.assertEqual((got.from_cache, got.content, adapter.cache.stats()["under_way"]), (False, PIECE * 30, 0))

    def test_a_body_that_turned_out_too_long_may_still_be_cut(self):
        def answer(request):
            is_first = values(request["headers"], "if-none-match") == []
            yield b"HTTP/1.1 200 OK\r\n%sTransfer-Encoding: chunked\r\n\r\n" % STALE
            yield from [CHUNK] * (10 if is_first else 300)
            yield b"0\r\n\r\n" if is_first else None

        self.origin.answer = answer
        adapter = CacheAdapter(process=ProcessOptions(private=True, stored_body=20_000))
        with session_with(adapter) as session:
            session.get(self.origin.base, timeout=5)
            got, pieces = session.get(self.origin.base, timeout=5, stream=True), []
            with self.assertRaises(requests.exceptions.ChunkedEncodingError):
                pieces.extend(got.iter_content(1000))
            body = b"".join(pieces)
            self.assertEqual((got.from_cache, len(body) >= 65_536, set(body)), (False, True, {ord("x")}))
            self.assertEqual(adapter.cache.stats()["under_way"], 0)

    def test_a_body_that_isnt_the_answer_is_stored(self):
        count = itertools.count(1)

        def answer(request):
            number = next(count)
            body, age = b"%d" % number * 100_000, 0 if number == 1 else 60
            yield b'HTTP/1.1 200 OK\r\nCache-Control: max-age=%d\r\nETag: "%d"\r\n' % (age, number)
            yield from (b"Content-Length: %d\r\n\r\n" % len(body), body[:5000], 0.1, body[5000:])

        self.origin.answer = answer
        self.assertEqual(self.get("/").text, "1" * 100_000)
        # The request validates the first response, and has the second already.
        got = self.get("/", headers={"If-None-Match": '"2"'})
        self.assertEqual((got.status_code, got.content), (304, b""))
        self.assertTrue(until(lambda: self.state() == (1, 0)))
        got = self.get("/")
        self.assertEqual((got.from_cache, got.text, len(self.origin.asked)), (True, "2" * 100_000, 2))

    def test_a_response_is_read_by_another_thread(self):
        got = self.get("/fresh/chunks", stream=True)
        with ThreadPoolExecutor(1) as pool:
            self.assertEqual(len(pool.submit(lambda: got.content).result()), 10_000)
        self.assertTrue(self.get("/fresh/chunks").from_cache)

    def test_one_connection_is_enough(self):
        with session_with(CacheAdapter(pool_maxsize=1, pool_block=True)) as session:
            for path in ("/fresh", "/fresh/chunks", "/10000", "/stale/chunks", "/stale/chunks"):
                session.get(self.origin.base + path, timeout=1, stream=True).close()
                self.assertEqual(len(session.get(self.origin.base + path, timeout=1).content), 10_000)
                session.head(self.origin.base + path + "?head", timeout=1)

    def test_a_connection_is_used_again(self):
        def answer(request):
            is_known = values(request["headers"], "if-none-match") != []
            yield b"HTTP/1.1 %s\r\nETag: \"a\"\r\n" % (b"304 Not Modified" if is_known else b"200 OK")
            yield b"\r\n" if is_known else b"Content-Length: 4\r\n\r\n" + (b"page" if request["method"] == "GET" else b"")

        self.origin.answer = answer
        for method in ("GET", "GET", "HEAD", "GET", "GET"):
            self.assertEqual(self.session.request(method, self.origin.base).status_code, 200)
        self.assertEqual((self.origin.connections, len(self.origin.asked)), (1, 5))

    def time_of(self, adapter, path):
        """Returns the processor time of this thread and of the process cacheserve while a body is read in pieces of 1 kB."""
        pid = adapter.cache.pid if isinstance(adapter, CacheAdapter) else None
        with session_with(adapter) as session:
            start = time.thread_time() - (processor_time(pid) if pid else 0)
            got = session.get(self.origin.base + path, timeout=60, stream=True)
            self.assertEqual(sum(map(len, got.iter_content(1000))), 20_000_000)
            return time.thread_time() + (processor_time(pid) if pid else 0) - start

    def test_long_bodies_take_linear_time(self):
        try:
            from cachecontrol import CacheControlAdapter
        except ImportError:
            self.skipTest("no python3-cachecontrol")
        for path in ("/20000000", "/fresh/20000000", "/chunks/20000000", "/fresh/chunks/20000000"):
            times = [[self.time_of(made(), path) for made in (CacheAdapter, CacheControlAdapter)] for _ in range(3)]
            own, other = (min(column) for column in zip(*times))
            self.assertLess(own, 1.5 * other, path)


def processor_time(pid):
    times = Path(f"/proc/{pid}/stat").read_text().rpartition(")")[2].split()[11:13]
    return sum(map(int, times)) / os.sysconf("SC_CLK_TCK")


class Outages(unittest.TestCase):
    """The process can't be used."""

    def setUp(self):
        self.origin = SmallOrigin(answer)
        self.addCleanup(self.origin.stop)
        self.base = f"http://127.0.0.1:{self.origin.port}"
        self.folder = tempfile.TemporaryDirectory()
        self.addCleanup(self.folder.cleanup)
        self.file = f"{self.folder.name}/cache"

    def numbers(self, session, *paths):
        """Returns whether each response is from the cache."""
        return [session.get(self.base + path, timeout=20).from_cache for path in paths]

    def test_no_program(self):
        with self.assertLogs("http_cache_semantics", "WARNING") as log:
            with session_with(CacheAdapter(process=ProcessOptions(program="/nowhere"))) as session:
                with mock.patch.object(ProcessOptions, "command", side_effect=ProgramNotFound("not yet")) as tried:
                    start = time.monotonic()
                    self.assertEqual(self.numbers(session, *["/page"] * 5), [False] * 5)
                    self.assertLessEqual(tried.call_count, 1 + int(time.monotonic() - start))
                with self.assertRaises(ProgramNotFound):
                    session.get_adapter(self.base).cache
        [line] = log.output
        self.assertIn("requests are sent without the cache: /nowhere: No such file or directory", line)

    def test_a_directory_that_another_process_uses(self):
        with Cache(ProcessOptions(dir=self.file)) as first:
            with self.assertLogs("http_cache_semantics", "WARNING") as log:
                session = session_with(CacheAdapter(self.file))
                self.assertEqual(self.numbers(session, "/page", "/page"), [False, False])
            with self.assertRaises(StoreNotOpened):
                session.get_adapter(self.base).remove(self.base + "/page")
            [line] = log.output
            self.assertIn(f"{self.file}: another process uses the directory", line)
            first.close()
            time.sleep(1.1)
            self.assertEqual(self.numbers(session, "/page", "/page"), [False, True])
        session.close()

    def test_each_outage_is_logged_once(self):
        with self.assertLogs("http_cache_semantics", "WARNING") as log, session_with(CacheAdapter()) as session:
            for _ in range(2):
                os.kill(session.get_adapter(self.base).cache.pid, signal.SIGKILL)
                self.numbers(session, "/page", "/page")
        self.assertEqual([line.count("requests are sent without the cache") for line in log.output], [1, 1])

    def test_the_log_has_neither_queries_nor_passwords(self):
        url = self.base.replace("//", "//user:password@") + "/page?secret"
        with self.assertLogs("http_cache_semantics", "WARNING") as log, session_with(CacheAdapter()) as session:
            session.get(url, headers={f"X-{number}": "x" for number in range(40_000)}, timeout=20)
        [line] = log.output
        self.assertIn(f"GET {self.base}/page is sent without the cache: ", line)

    def test_a_process_that_hangs(self):
        adapter = CacheAdapter(self.file, cache_timeout=6)
        with session_with(adapter) as session, self.assertLogs("http_cache_semantics", "WARNING") as log:
            self.assertEqual(self.numbers(session, "/page", "/page"), [False, True])
            pid = adapter.cache.pid
            os.kill(pid, signal.SIGSTOP)
            begun = time.monotonic()
            self.assertEqual(self.numbers(session, "/page"), [False])
            self.assertAlmostEqual(time.monotonic() - begun, 7.4, delta=1.5)
            # The file outlives the process that was killed.
            self.assertEqual(self.numbers(session, "/page"), [True])
            self.assertFalse(Path(f"/proc/{pid}").exists())
        [line] = log.output
        self.assertIn("requests are sent without the cache: cacheserve hasn't replied for 6 s", line)

    def test_a_process_that_hangs_while_a_body_is_read(self):
        adapter = CacheAdapter(cache_timeout=6)
        with session_with(adapter) as session:
            got = session.get(self.base + "/chunks", timeout=20, stream=True)
            pieces = got.iter_content(65_536)
            first = next(pieces)
            os.kill(adapter.cache.pid, signal.SIGSTOP)
            self.assertEqual(first + b"".join(pieces) == b"c" * LONG, True)

    def test_a_time_limit_that_is_none(self):
        with self.assertRaisesRegex(ValueError, "^cache_timeout isn't a positive number of seconds: -1$"):
            CacheAdapter(cache_timeout=-1)

    def test_an_unsafe_request_in_an_outage(self):
        adapter = CacheAdapter(self.file)
        with session_with(adapter) as session, self.assertLogs("http_cache_semantics", "WARNING"):
            self.assertEqual(self.numbers(session, "/page", "/page", "/other"), [False, True, False])
            os.kill(adapter.cache.pid, signal.SIGKILL)
            session.post(self.base + "/page", data=b"x", timeout=20)
            self.assertEqual(self.numbers(session, "/page", "/other"), [False, True])

    def test_many_unsafe_requests_in_an_outage(self):
        adapter = CacheAdapter(self.file)
        with session_with(adapter) as session, self.assertLogs("http_cache_semantics", "WARNING"):
            self.assertEqual(self.numbers(session, "/page"), [False])
            os.kill(adapter.cache.pid, signal.SIGKILL)
            with mock.patch.object(_exchange, "_MOST_CHANGED", 2), mock.patch.object(_exchange, "_RETRY_SECONDS", 60):
                with mock.patch.dict(os.environ, CACHESERVE="/nowhere"):
                    for number in range(5):
                        session.post(f"{self.base}/{number}", data=b"x", timeout=20)
                # What is stored for other targets is removed with the rest.
                adapter._access._retry = 0.0
                self.assertEqual(self.numbers(session, "/page", "/page"), [False, True])

    def test_the_process_ends_while_a_response_is_validated(self):
        adapter = CacheAdapter()

        def answer(request):
            if values(request["headers"], "if-none-match"):
                os.kill(adapter.cache.pid, signal.SIGKILL)
                yield b'HTTP/1.1 304 Not Modified\r\nETag: "a"\r\n\r\n'
            else:
                yield b'HTTP/1.1 200 OK\r\nETag: "a"\r\nContent-Length: 4\r\n\r\npage'

        origin = StreamOrigin(answer)
        self.addCleanup(origin.stop)
        with session_with(adapter) as session, self.assertLogs("http_cache_semantics", "WARNING"):
            got = [session.get(origin.base, timeout=20) for _ in range(2)]
        # Only the process had the response that the 304 is for.
        self.assertEqual([(it.status_code, it.text, it.from_cache) for it in got], [(200, "page", False)] * 2)

    def test_the_process_ends_while_a_body_is_read(self):
        def answer(request):
            yield from (b"HTTP/1.1 200 OK\r\n%sContent-Length: 200000\r\n\r\n" % FRESH, b"x" * 100_000, 0.2, b"y" * 100_000)

        origin = StreamOrigin(answer)
        self.addCleanup(origin.stop)
        adapter = CacheAdapter()
        with session_with(adapter) as session:
            got = session.get(origin.base, timeout=20, stream=True)
            os.kill(adapter.cache.pid, signal.SIGKILL)
            self.assertEqual(got.content, b"x" * 100_000 + b"y" * 100_000)
            self.assertEqual(session.get(origin.base, timeout=20).content, got.content)


def gets_twice(session, url):
    return [session.get(url, timeout=20).from_cache for _ in range(2)]


def gets_in_child(session, url, results):
    results.put(gets_twice(session, url))


class Races(unittest.TestCase):
    """What another thread may do between two steps of a request."""

    def test_another_thread_takes_what_is_abandoned(self):
        class Taken(deque):
            """Says that something is there, which is taken then."""

            def __bool__(self):
                return True

        access = BlockingAccess(ProcessOptions(private=True), 30)
        access.abandoned = Taken()
        client = access.client()
        self.assertIs(access.client(), client)
        access.close()

    def test_another_thread_has_an_answer_after_a_failure(self):
        class Answered(CacheGone):
            def __bool__(self):
                access.works()
                return True

        access = BlockingAccess(ProcessOptions(private=True), 30)
        access.fails(Answered("first"))
        access.fails(Answered("second"))
        access._retry = time.monotonic() + 60
        with self.assertRaisesRegex(CacheGone, "^second$"):
            access.client()


class Copies(unittest.TestCase):
    """Sessions that are dropped, copied, pickled or forked."""

    def setUp(self):
        self.origin = SmallOrigin(answer)
        self.addCleanup(self.origin.stop)
        self.url = f"http://127.0.0.1:{self.origin.port}/page"
        self.before = set(children(os.getpid()))

    def processes(self):
        return set(children(os.getpid())) - self.before

    def test_a_dropped_session_leaves_no_process(self):
        session = session_with(CacheAdapter())
        self.assertEqual(gets_twice(session, self.url), [False, True])
        self.assertEqual(len(self.processes()), 1)
        del session
        gc.collect()
        self.assertEqual(self.processes(), set())

    def test_a_dropped_cache_leaves_no_process(self):
        cache = Cache()
        self.assertEqual(self.processes(), {cache.pid})
        del cache
        gc.collect()
        self.assertEqual(self.processes(), set())

    def test_a_program_that_doesnt_close_its_session(self):
        script = (
            "import sys, requests; from http_cache_semantics.adapter import CacheAdapter; adapter = CacheAdapter()\n"
            "session = requests.Session(); session.mount('http://', adapter); session.get(sys.argv[1])\n"
            "print(adapter.cache.pid)"
        )
        run = subprocess.run([sys.executable, "-B", "-c", script, self.url], capture_output=True, text=True, timeout=60)
        self.assertEqual(run.stderr, "")
        self.assertFalse(Path(f"/proc/{int(run.stdout)}").exists())

    def test_copies(self):
        with session_with(CacheAdapter(cache_timeout=7)) as session:
            self.assertEqual(gets_twice(session, self.url), [False, True])
            self.assertEqual(gets_twice(copy.copy(session), self.url), [True, True])
            for made in (copy.deepcopy(session), pickle.loads(pickle.dumps(session))):
                self.assertEqual(gets_twice(made, self.url), [False, True])
                self.assertEqual(made.get_adapter(self.url).cache.timeout, 7)
                made.close()
            self.assertEqual(gets_twice(session, self.url), [True, True])

    def test_a_copy_of_a_session_with_a_directory(self):
        with tempfile.TemporaryDirectory() as folder, session_with(CacheAdapter(f"{folder}/cache")) as session:
            with self.assertLogs("http_cache_semantics", "WARNING") as log, copy.deepcopy(session) as made:
                self.assertEqual(gets_twice(made, self.url), [False, False])
            self.assertIn("another process uses the directory", log.output[0])
            self.assertEqual(gets_twice(session, self.url), [False, True])

    def forked(self, session, inherited):
        """Returns what a forked process sees, with a response that its parent reads."""
        seen = gets_twice(session, self.url)
        own = session.get(self.url + "/stream", stream=True, timeout=20)
        # The request of the parent's response has the number of this one in another process.
        inherited.pop()
        return [*seen, session.get(self.url, timeout=20).from_cache, own.text[:4], *gets_twice(session, self.url + "/stream")]

    def test_a_fork(self):
        with session_with(CacheAdapter()) as session:
            self.assertEqual(gets_twice(session, self.url), [False, True])
            responses = [session.get(self.url + "/stream", stream=True, timeout=20)]
            reader, writer = os.pipe()
            child = os.fork()
            if child == 0:
                os.write(writer, repr(self.forked(session, responses)).encode())
                time.sleep(20)
                os._exit(0)
            self.assertEqual(os.read(reader, 100), b"[False, True, True, 'page', True, True]")
            self.assertEqual(responses[0].text, "page 2")
            self.assertEqual(gets_twice(session, self.url), [True, True])
            start = time.monotonic()
            session.close()
            # The child has the pipes of its parent no longer, so the process sees the end of its input.
            self.assertLess(time.monotonic() - start, 5)
            os.kill(child, signal.SIGKILL)
            os.waitpid(child, 0)
            os.close(reader)
            os.close(writer)

    def test_the_end_of_a_forked_process(self):
        script = (
            "import os, sys, requests; from http_cache_semantics.adapter import CacheAdapter\n"
            "session = requests.Session(); session.mount('http://', CacheAdapter()); session.get(sys.argv[1])\n"
            "child = os.fork()\n"
            "if child == 0: sys.exit(0)\n"
            "os.waitpid(child, 0); print(session.get(sys.argv[1]).from_cache)"
        )
        run = subprocess.run([sys.executable, "-B", "-c", script, self.url], capture_output=True, text=True, timeout=60)
        self.assertEqual((run.stdout, run.stderr), ("True\n", ""))

    def test_multiprocessing(self):
        for method in ("fork", "spawn"):
            with self.subTest(method), session_with(CacheAdapter()) as session:
                self.assertEqual(gets_twice(session, self.url), [False, True])
                context = multiprocessing.get_context(method)
                results = context.Queue()
                child = context.Process(target=gets_in_child, args=(session, self.url, results))
                child.start()
                self.assertEqual(results.get(timeout=20), [False, True])
                child.join(20)
                self.assertEqual((child.exitcode, gets_twice(session, self.url)), (0, [True, True]))


if __name__ == "__main__":
    unittest.main()
