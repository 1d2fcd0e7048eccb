"""Tests the module process of the Python package, with the program that $CACHESERVE names."""
import asyncio
import contextlib
import itertools
import json
import os
import re
import signal
import sys
import tempfile
import threading
import time
import unittest
from concurrent.futures import ThreadPoolExecutor
from pathlib import Path
from unittest import mock

from http_cache_semantics import _program, process
from http_cache_semantics._pipes import Pipes
from http_cache_semantics.process import (
    Answer,
    AsyncCache,
    Cache,
    CacheError,
    CacheGone,
    Done,
    More,
    NoResponse,
    Piece,
    ProcessOptions,
    ProgramNotFound,
    Send,
    StoreNotOpened,
    Wait,
)
from started import children

START = 1_767_225_600_000
PAGE = b"HTTP/1.1 200 OK\r\nCache-Control: max-age=60, must-revalidate\r\nContent-Length: 4\r\n\r\n"
MEGABYTE = 1_048_576


def get(path):
    return b"GET %s HTTP/1.1\r\nHost: a.test\r\n\r\n" % path


def store(cache, path, body=b"page"):
    """Has the process store a page, and returns the answer."""
    send = cache.ask(get(path), at=START)
    return cache.received(send, PAGE, body, START, START)


# A program that writes the replies of a list for each frame that it reads, and adds the line of the frame to a file. Several
# replies are written at once, as a busy process does.
SCRIPTED = """#!{python}
import json, sys
replies = json.load(open(sys.argv[0] + ".replies"))
seen = open(sys.argv[0] + ".seen", "w")
print(json.dumps(dict(protocol=1)), flush=True)
for several in replies:
    line = json.loads(sys.stdin.buffer.readline() or "null")
    if line is None:
        break
    sys.stdin.buffer.read(line.pop("head", 0) + line.pop("body", 0))
    line.pop("at", 0)
    seen.write(json.dumps(line) + chr(10))
    seen.flush()
    for reply in several:
        print(json.dumps(reply) + chr(10) + "." * (reply.get("head", 0) + reply.get("body", 0)), end="", flush=True)
sys.stdin.buffer.read()
"""


class Scripted(unittest.TestCase):
    """A program with written replies, and the frames that it has read."""

    def scripted(self, *replies):
        folder = tempfile.TemporaryDirectory()
        self.addCleanup(folder.cleanup)
        self.path = Path(folder.name) / "program"
        self.path.write_text(SCRIPTED.format(python=sys.executable))
        self.path.chmod(0o755)
        lists = [reply if isinstance(reply, list) else [reply] for reply in replies]
        Path(f"{self.path}.replies").write_text(json.dumps(lists))
        return ProcessOptions(program=str(self.path))

    def seen(self):
        return [json.loads(line) for line in Path(f"{self.path}.seen").read_text().splitlines()]


SEND = {"send": 0, "token": 7}
UNKNOWN = {"error": "unknown token", "code": "unknown-token", "token": 7}


class Frames(Scripted):
    def test_a_body_on_its_way(self):
        answer = {"answer": 0, "token": 7, "store": 100, "head": 3, "rest": True}
        with Cache(self.scripted(SEND, answer, {"part": 7}, {"done": 0})) as cache:
            send = cache.ask(b"", rest=5, pieces=9, wait=True)
            found = cache.received(send, b"", rest=True, collect=True)
            self.assertEqual(found, Answer(b"...", b"", True, None, 100, 0, 7, 1))
            self.assertEqual((cache.part(found, b"abc"), cache.complete(found, b"d")), (None, Done()))
        self.assertEqual(
            self.seen(),
            [
                {"ask": 0, "rest": 5, "pieces": 9, "wait": True},
                {"received": 7, "rest": True, "collect": True},
                {"part": 7},
                {"complete": 7},
            ],
        )

    def test_more_is_wanted_before_the_answer(self):
        with Cache(self.scripted(SEND, {"more": 0, "token": 7, "store": 100}, {"answer": 0, "body": 2})) as cache:
            found = cache.received(cache.ask(b""), b"", rest=4, collect=True)
            self.assertEqual(found, More(7, 100, 1))
            self.assertEqual(cache.complete(found, b"abcd").body, b"..")

    def test_a_stored_body_in_pieces(self):
        first = {"answer": 0, "token": 7, "left": 3, "head": 1, "body": 2}
        more = ({"next": 7, "left": 1, "body": 2}, {"next": 7, "left": 0, "body": 1})
        with Cache(self.scripted(first, *more, UNKNOWN)) as cache:
            found = cache.ask(b"", pieces=2)
            self.assertEqual((found.left, cache.next(found), cache.next(found)), (3, Piece(b"..", 1), Piece(b".", 0)))
            with self.assertRaises(CacheError) as refused:
                cache.next(found)
        self.assertEqual((refused.exception.code, str(refused.exception)), ("unknown-token", "unknown token"))

    def test_codes(self):
        no_response = {"error": "none", "code": "no-response", "id": 0, "token": 7}
        with Cache(self.scripted(SEND, no_response, SEND, {"error": "anything"})) as cache:
            with self.assertRaises(NoResponse) as refused:
                cache.failed(cache.ask(b""), "none")
            self.assertEqual(refused.exception.code, "no-response")
            with self.assertRaises(CacheError) as refused:
                cache.part(cache.ask(b""), b"")
            self.assertEqual((type(refused.exception), refused.exception.code), (CacheError, ""))

    def test_a_request_that_waits_for_another(self):
        wait, store = {"wait": 0, "token": 7}, {"answer": 0, "token": 7, "store": 9}
        with Cache(self.scripted(SEND, wait, store, {"part": 7}, {"done": 0})) as cache:
            send, waits = cache.ask(b""), cache.ask(b"", wait=True)
            self.assertEqual(waits, Wait(7, 1))
            held = [cache.over(waits, 0)]
            cache.received(send, b"", rest=True, collect=True)
            cache.part(send, b"a")
            held.append(cache.over(waits, 0))
            cache.complete(send)
            self.assertEqual((held, cache.over(waits, 0)), ([False, False], True))

    def test_a_wait_ends_with_the_process(self):
        cache = Cache(self.scripted(SEND, {"wait": 0, "token": 7}))
        cache.ask(b"")
        waits = cache.ask(b"", wait=True)
        cache.close()
        self.assertTrue(cache.over(waits))


class AsynchronousFrames(Scripted, unittest.IsolatedAsyncioTestCase):
    async def test_a_request_that_waits_for_another(self):
        # The reply to the second frame and the end of the first request are read at once.
        cache = AsyncCache(self.scripted(SEND, [], [{"wait": 0, "token": 7}, {"send": 0, "token": 8}], {"done": 0}))
        send = await cache.ask(b"")
        waits, again = await asyncio.gather(cache.ask(b"", wait=True), cache.received(send, b""))
        over = asyncio.ensure_future(cache.over(waits))
        await asyncio.sleep(0.05)
        self.assertFalse(over.done())
        await asyncio.gather(over, cache.received(again, b""))
        await cache.over(waits)
        await cache.close()

    async def test_a_cancelled_call_ends_what_is_under_way(self):
        answer, more = {"answer": 0, "token": 7, "left": 1}, {"more": 0, "token": 7, "store": 1}
        for reply in (answer, more, {"part": 7}, {"next": 7, "left": 1}):
            cache = AsyncCache(self.scripted([], [reply, {"stats": 0}], {"done": 0}, {"stats": 0}))
            await cache.start()
            call = asyncio.ensure_future(cache.ask(b""))
            await asyncio.sleep(0)
            call.cancel()
            await cache.stats()
            await cache.stats()
            self.assertEqual((reply, [next(iter(line)) for line in self.seen()]), (reply, ["ask", "stats", "failed", "stats"]))
            await cache.close()

    async def test_a_cancelled_call_with_nothing_under_way_ends_nothing(self):
        for reply in ({"wait": 0, "token": 7}, {"answer": 0}, {"next": 7, "left": 0}, UNKNOWN):
            cache = AsyncCache(self.scripted([], [reply, {"stats": 0}], {"stats": 0}))
            await cache.start()
            call = asyncio.ensure_future(cache.ask(b""))
            await asyncio.sleep(0)
            call.cancel()
            await cache.stats()
            await cache.stats()
            self.assertEqual((reply, [next(iter(line)) for line in self.seen()]), (reply, ["ask", "stats", "stats"]))
            await cache.close()


class Processes(unittest.TestCase):
    def test_a_page_is_stored_and_answered(self):
        with Cache() as cache:
            send = cache.ask(get(b"/a"), at=START)
            self.assertEqual((send.head, send.body, send.rest), (get(b"/a").replace(b"Host", b"host"), b"", False))
            answer = cache.received(send, PAGE, b"page", START, START + 10)
            self.assertEqual((answer.body, answer.rest, answer.due), (b"page", False, None))
            hit = cache.ask(get(b"/a"), at=START + 5000)
            self.assertEqual((type(hit), hit.body), (Answer, b"page"))
            self.assertIn(b"cacheserve; hit", hit.head)
            stats = cache.stats()
            self.assertEqual((stats["responses"], stats["hits"], stats["under_way"]), (1, 1, 0))

    def test_remove_and_sweep(self):
        with Cache() as cache:
            store(cache, b"/a")
            self.assertEqual([cache.remove("http://a.test/a"), cache.remove("http://a.test/a")], [1, 0])
            store(cache, b"/b")
            self.assertEqual([cache.sweep(START), cache.sweep(START + 10_000_000)], [0, 1])
            with self.assertRaisesRegex(CacheError, "absolute URI"):
                cache.remove("/a")

    def test_a_failure_without_anything_stored(self):
        with Cache() as cache:
            with self.assertRaises(NoResponse):
                cache.failed(cache.ask(get(b"/a")))

    def test_a_body_that_stays_with_the_caller(self):
        with Cache() as cache:
            send = cache.ask(b"POST /a HTTP/1.1\r\nHost: a.test\r\nContent-Length: 9\r\n\r\n", rest=9)
            self.assertEqual((send.rest, send.body), (True, b""))
            answer = cache.received(send, b"HTTP/1.1 200 OK\r\nContent-Length: 70\r\n\r\n", rest=70)
            self.assertEqual((answer.rest, answer.body), (True, b""))

    def test_a_refused_frame_changes_nothing(self):
        with Cache() as cache:
            with self.assertRaisesRegex(CacheError, "the head is malformed"):
                cache.ask(b"GET\r\n\r\n")
            self.assertEqual(cache.stats()["under_way"], 0)

    def test_a_token_of_an_earlier_process_is_refused(self):
        with Cache() as cache:
            send = cache.ask(get(b"/a"))
            os.kill(cache.pid, signal.SIGKILL)
            with self.assertRaises(CacheGone):
                cache.ask(get(b"/a"))
            again = cache.ask(get(b"/a"))
            self.assertEqual((send.token, send.life, again.token, again.life), (1, 1, 1, 2))
            with self.assertRaises(CacheGone):
                cache.received(send, PAGE, b"page")
            self.assertIsInstance(cache.received(again, PAGE, b"page"), Answer)

    def test_an_interrupted_exchange_leaves_no_reply_behind(self):
        with Cache() as cache:
            store(cache, b"/secret", b"mine")
            with mock.patch.object(Pipes, "_frame", side_effect=KeyboardInterrupt), self.assertRaises(KeyboardInterrupt):
                cache.ask(get(b"/secret"), at=START)
            self.assertIsInstance(cache.ask(get(b"/other"), at=START), Send)

    def test_a_forked_process_may_not_use_it(self):
        with Cache() as cache:
            child = os.fork()
            if child == 0:
                with contextlib.suppress(BaseException):
                    cache.ask(get(b"/a"))
                    os._exit(1)
                os._exit(0)
            self.assertEqual(os.waitpid(child, 0)[1], 0)
            self.assertIsInstance(cache.ask(get(b"/a")), Send)

    def test_a_closed_process_is_started_again(self):
        cache = Cache()
        store(cache, b"/a")
        cache.close()
        self.assertIsNone(cache.pid)
        self.assertIsInstance(cache.ask(get(b"/a"), at=START), Send)
        cache.close()
        cache.close()

    def test_a_process_that_hangs(self):
        with Cache(timeout=6) as cache:
            send, pid = cache.ask(get(b"/a")), cache.pid
            os.kill(pid, signal.SIGSTOP)
            begun = time.monotonic()
            with self.assertRaisesRegex(CacheGone, "^cacheserve hasn't replied for 6 s$"):
                cache.ask(get(b"/a"))
            self.assertAlmostEqual(time.monotonic() - begun, 6.8, delta=0.9)
            self.assertFalse(Path(f"/proc/{pid}").exists())
            with self.assertRaises(CacheGone):
                cache.received(send, PAGE, b"page")
            self.assertIsInstance(cache.ask(get(b"/a")), Send)

    def test_a_process_that_is_held_up(self):
        with Cache(timeout=30) as cache:
            pid = cache.pid
            os.kill(pid, signal.SIGSTOP)
            threading.Timer(0.5, os.kill, (pid, signal.SIGCONT)).start()
            self.assertEqual((type(cache.ask(get(b"/a"))), cache.pid), (Send, pid))

    def test_time_limits_that_are_none(self):
        for made, value in itertools.product((Cache, AsyncCache), (0, -1, float("nan"), float("inf"), True, "5", None)):
            with self.assertRaisesRegex(ValueError, "^timeout isn't a positive number of seconds: "):
                made(timeout=value)

    def test_threads_share_one(self):
        with Cache() as cache:
            for number in range(8):
                store(cache, b"/%d" % number, b"%04d" % number)
            wrong = []

            def ask(number):
                for _ in range(50):
                    if cache.ask(get(b"/%d" % number), at=START).body != b"%04d" % number:
                        wrong.append(number)

            with ThreadPoolExecutor(8) as pool:
                list(pool.map(ask, range(8)))
            self.assertEqual((wrong, cache.stats()["hits"]), ([], 400))


class Directories(unittest.TestCase):
    def setUp(self):
        self.folder = tempfile.TemporaryDirectory()
        self.addCleanup(self.folder.cleanup)
        self.options = ProcessOptions(dir=f"{self.folder.name}/cache")

    def test_what_is_stored_outlives_the_process(self):
        with Cache(self.options) as cache:
            store(cache, b"/a")
        with Cache(self.options) as cache:
            self.assertEqual(cache.ask(get(b"/a"), at=START).body, b"page")
            os.kill(cache.pid, signal.SIGKILL)
        with Cache(self.options) as cache:
            self.assertEqual(cache.ask(get(b"/a"), at=START).body, b"page")
            cache.clear()
            self.assertFalse(os.path.exists(self.options.dir))
            self.assertIsInstance(cache.ask(get(b"/a"), at=START), Send)

    def test_a_directory_in_use(self):
        with Cache(self.options) as cache:
            with self.assertRaisesRegex(StoreNotOpened, f"^cacheserve: {self.options.dir}: another process uses the directory$"):
                Cache(self.options)
            self.assertIsInstance(cache.ask(get(b"/a")), Send)

    def test_what_is_no_directory_of_a_store(self):
        path = Path(self.options.dir)
        path.write_text("notes of mine")
        with self.assertRaisesRegex(StoreNotOpened, f"{path}: a file, and no directory$"):
            Cache(self.options)
        self.assertEqual(path.read_text(), "notes of mine")
        path.unlink()
        path.mkdir()
        notes = path / "notes"
        notes.write_text("mine")
        with self.assertRaisesRegex(StoreNotOpened, f"{path}: the directory of another program, with the file notes$"):
            Cache(self.options)
        self.assertEqual([notes], list(path.iterdir()))

    def test_clear_leaves_what_is_not_of_the_cache(self):
        with Cache(self.options) as cache:
            store(cache, b"/a")
            notes = Path(self.options.dir) / "notes"
            notes.write_text("mine")
            cache.clear()
            self.assertEqual([notes], list(Path(self.options.dir).iterdir()))


class Programs(unittest.TestCase):
    def made(self, script):
        folder = tempfile.TemporaryDirectory()
        self.addCleanup(folder.cleanup)
        path = Path(folder.name) / "program"
        path.write_text("#!/bin/sh\n" + script)
        path.chmod(0o755)
        return ProcessOptions(program=str(path))

    def test_words_of_the_command(self):
        options = ProcessOptions("x", "f", private=True, sync=True, name="n", stored_body=5, requests=7)
        words = ["x", "--dir", "f", "--private", "--name", "n", "--sync", "--stored-body", "5", "--requests", "7"]
        self.assertEqual(options.command(), words)

    def test_no_program(self):
        with self.assertRaisesRegex(ProgramNotFound, "/nowhere: No such file"):
            Cache(ProcessOptions(program="/nowhere"))
        nothing = {"CACHESERVE": "", "PATH": "/nowhere"}
        with mock.patch.dict(os.environ, nothing), mock.patch.object(_program, "_ROOT", Path("/nowhere")):
            with self.assertRaisesRegex(ProgramNotFound, "`bin/prove cacheserve` builds it"):
                Cache()

    def test_another_protocol(self):
        with self.assertRaisesRegex(CacheError, "speaks protocol 2, not 1"):
            Cache(self.made("""echo '{"protocol":2}'; cat"""))

    def test_a_program_that_writes_no_frames(self):
        for text in ("no frame", "[1]"):
            with self.assertRaisesRegex(CacheGone, re.escape(repr(text))):
                Cache(self.made(f"echo '{text}'; cat"))

    def test_a_program_that_never_writes(self):
        begun = time.monotonic()
        with self.assertRaisesRegex(CacheGone, "^cacheserve hasn't replied for 0.3 s$"):
            Cache(self.made("exec sleep 60"), timeout=0.3)
        self.assertLess(time.monotonic() - begun, 3)

    def test_a_program_that_never_reads(self):
        cache = Cache(self.made("""echo '{"protocol":1}'; exec sleep 60"""), timeout=2)
        pid = cache.pid
        with self.assertRaisesRegex(CacheGone, "hasn't replied for 2 s"):
            cache.ask(get(b"/a"), b"x" * MEGABYTE)
        self.assertEqual((cache.pid, Path(f"/proc/{pid}").exists()), (None, False))

    def test_a_program_that_closes_its_output_and_goes_on(self):
        cache = Cache(self.made("""echo '{"protocol":1}'; exec >&-; exec sleep 60"""), timeout=2)
        with self.assertRaises(CacheGone):
            cache.ask(get(b"/a"))
        self.assertIsNone(cache.pid)

    def test_a_program_that_says_why_it_ends(self):
        with self.assertRaisesRegex(CacheGone, "^out of paper$"):
            Cache(self.made("echo out of paper >&2; exit 9"))

    def test_a_reply_that_is_cut(self):
        cache = Cache(self.made("""echo '{"protocol":1}'; read line; printf '{"answer":0,"head":5,"body":9}\\nab'"""))
        with self.assertRaisesRegex(CacheGone, "status 0"):
            cache.ask(get(b"/a"))


class Asynchronous(unittest.IsolatedAsyncioTestCase):
    async def asyncSetUp(self):
        self.cache = AsyncCache()
        await self.cache.start()

    async def asyncTearDown(self):
        await self.cache.close()

    async def test_replies_in_order(self):
        sends = await asyncio.gather(*(self.cache.ask(get(b"/%d" % number), at=START) for number in range(200)))
        self.assertEqual([send.head.split(b" ")[1] for send in sends], [b"/%d" % number for number in range(200)])
        answers = await asyncio.gather(*(self.cache.received(send, PAGE, b"page", START, START) for send in sends))
        self.assertEqual({answer.body for answer in answers}, {b"page"})
        self.assertEqual((await self.cache.stats())["responses"], 200)
        self.assertEqual(await self.cache.remove("http://a.test/7"), 1)
        self.assertEqual(await self.cache.sweep(START + 10_000_000), 199)

    async def test_a_cancelled_request_leaves_nothing_under_way(self):
        asked = [asyncio.ensure_future(self.cache.ask(get(b"/%d" % number))) for number in range(20)]
        await asyncio.sleep(0)
        for task in asked[:15]:
            task.cancel()
        sends = await asyncio.gather(*asked[15:])
        self.assertEqual([send.head.split(b" ")[1] for send in sends], [b"/%d" % number for number in range(15, 20)])
        for _ in range(100):
            if (await self.cache.stats())["under_way"] == 5:
                break
        self.assertEqual((await self.cache.stats())["under_way"], 5)

    async def test_the_process_ends(self):
        send = await self.cache.ask(get(b"/a"))
        os.kill(self.cache.pid, signal.SIGSTOP)
        asked = [asyncio.ensure_future(self.cache.ask(get(b"/a"))) for _ in range(5)]
        await asyncio.sleep(0.1)
        os.kill(self.cache.pid, signal.SIGKILL)
        outcomes = await asyncio.gather(*asked, return_exceptions=True)
        self.assertEqual({type(outcome) for outcome in outcomes}, {CacheGone})
        again = await self.cache.ask(get(b"/a"))
        self.assertEqual((send.life, again.life), (1, 2))
        with self.assertRaises(CacheGone):
            await self.cache.received(send, PAGE, b"page")

    async def test_the_process_hangs(self):
        cache = AsyncCache(timeout=6)
        send = await cache.ask(get(b"/a"))
        pid = cache.pid
        os.kill(pid, signal.SIGSTOP)
        begun = time.monotonic()
        # More than the pipe holds, so that some calls wait until they may write.
        asked = [cache.ask(get(b"/a"), b"x" * 100_000) for _ in range(5)]
        outcomes = await asyncio.gather(*asked, return_exceptions=True)
        self.assertIn("cacheserve hasn't replied for 6 s", map(str, outcomes))
        self.assertAlmostEqual(time.monotonic() - begun, 7.4, delta=1.5)
        with self.assertRaises(CacheGone):
            await cache.received(send, PAGE, b"page")
        self.assertIsInstance(await cache.ask(get(b"/a")), Send)
        self.assertFalse(Path(f"/proc/{pid}").exists())
        os.kill(cache.pid, signal.SIGSTOP)
        begun = time.monotonic()
        with mock.patch.object(process, "_STOP_SECONDS", 0.5):
            await cache.close()
        self.assertAlmostEqual(time.monotonic() - begun, 0.5, delta=0.4)

    async def test_an_event_loop_that_is_held_up(self):
        cache = AsyncCache(timeout=4)
        await cache.start()
        pid = cache.pid
        asked = asyncio.ensure_future(cache.ask(get(b"/a")))
        await asyncio.sleep(0)
        time.sleep(4.5)
        self.assertEqual((type(await asked), cache.pid), (Send, pid))
        await cache.close()

    async def test_a_start_that_is_cancelled_leaves_no_process(self):
        with tempfile.TemporaryDirectory() as folder:
            slow = Path(folder) / "slow"
            slow.write_text('#!/bin/sh\nsleep 0.5\nexec "$CACHESERVE" "$@"\n')
            slow.chmod(0o755)
            before, cache = set(children(os.getpid())), AsyncCache(ProcessOptions(str(slow), f"{folder}/cache"))
            start = asyncio.ensure_future(cache.start())
            await asyncio.sleep(0.3)
            self.assertEqual(len(set(children(os.getpid())) - before), 1)
            start.cancel()
            with self.assertRaises(asyncio.CancelledError):
                await start
            await cache.start()
            self.assertEqual(set(children(os.getpid())) - before, {cache.pid})
            await cache.close()

    async def test_more_than_the_pipes_hold(self):
        send = await self.cache.ask(get(b"/a"), at=START)
        await self.cache.received(send, PAGE.replace(b" 4", b" %d" % MEGABYTE), b"x" * MEGABYTE, START, START)
        answers = await asyncio.gather(*(self.cache.ask(get(b"/a"), at=START) for _ in range(50)))
        self.assertEqual({len(answer.body) for answer in answers}, {MEGABYTE})

    async def test_a_directory_in_use(self):
        with tempfile.TemporaryDirectory() as folder:
            options = ProcessOptions(dir=f"{folder}/cache")
            with Cache(options):
                with self.assertRaisesRegex(StoreNotOpened, ": another process uses the directory$"):
                    await AsyncCache(options).start()


if __name__ == "__main__":
    unittest.main()
