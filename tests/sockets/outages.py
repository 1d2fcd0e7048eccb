"""Tests the proxy where something is missing: the process, the origin server, file descriptors, or sense in its options."""
import asyncio
import contextlib
import os
import re
import resource
import signal
import socket
import subprocess
import sys
import tempfile
import threading
import time
import unittest
from concurrent.futures import ThreadPoolExecutor
from pathlib import Path

from http_cache_semantics.connection import Client as HttpClient
from http_cache_semantics.connection import Room
from http_cache_semantics.listen import Listener
from http_cache_semantics.process import Cache, ProcessOptions
from proxied import PROGRAM, Client, ProxyTest, get, is_hit, response, wait_until
from started import ROOT, children, free_port, proxy, python_with, with_package

FRESH = b"Cache-Control: max-age=600"
# The words for each event loop that is there.
LOOPS = [(), ("--uvloop",)] if python_with("uvloop") == python_with("h11") else [()]
ORIGIN = "--origin=http://127.0.0.1:1"
SCRIPT = """#!/bin/sh
echo start >> {folder}/starts
[ -e {folder}/up ] || exit 9
exec {program} "$@"
"""
CHUNKS = b"HTTP/1.1 200 OK\r\nTransfer-Encoding: chunked\r\n\r\n2\r\nab\r\n0\r\n\r\n"


def lines_of(run):
    """Returns what a proxy that has ended wrote to its log."""
    run.send_signal(signal.SIGTERM)
    run.wait(60)
    text = run.stderr.read()
    run.stderr.close()
    return text.splitlines()


class WithoutProcess(ProxyTest):
    """The program is a script, which says whether `cacheserve` is to be run, and how often it was asked for."""

    def setUp(self):
        super().setUp()
        folder = tempfile.TemporaryDirectory()
        self.addCleanup(folder.cleanup)
        self.folder = Path(folder.name)
        self.program = self.folder / "program"
        self.program.write_text(SCRIPT.format(folder=self.folder, program=PROGRAM))
        self.program.chmod(0o755)

    def set_up(self, is_up):
        (self.folder / "up").touch() if is_up else (self.folder / "up").unlink()

    def started(self, *words):
        return self.proxy(f"--program={self.program}", *words, stderr=subprocess.PIPE, text=True)

    def kill(self, run):
        for pid in children(run.pid):
            os.kill(pid, signal.SIGKILL)

    def is_used(self):
        """Returns whether the cache is used: a page is asked for twice."""
        self.ask(b"/used")
        return is_hit(self.ask(b"/used")[1])

    def test_requests_are_forwarded(self):
        named = (b"Connection: x-one", b"X-One: 1", b"X-Two: 2")
        self.origin.answers[b"/echo?x"] = lambda turn: response(turn.head + b"|" + turn.body(3), *named)
        self.origin.answers[b"/chunks"] = lambda turn: CHUNKS
        fields = (b"X-Keep: 2", b"TE: trailers", b"Via: 1.0 first", b"Content-Length: 3")
        with self.started("--name=edge one") as run:
            with Client(self.port) as client:
                dropped = (b"Connection: keep-alive, X-Drop", b"X-Drop: 1")
                client.send(get(b"http://b.test/echo?x", *dropped, *fields, method=b"POST") + b"abc")
                status, head, body = client.answer()
                self.assertEqual(client.ask(b"/page")[2], b"page /page")
            asked = body.lower().split(b"|")[0].split(b"\r\n")
            self.assertEqual((status, asked[0], body[-4:]), (200, b"post /echo?x http/1.1", b"|abc"))
            self.assertEqual(
                sorted(asked[1:]), [b"content-length: 3", b"host: b.test", b"via: 1.0 first, 1.1 edge-one", b"x-keep: 2"]
            )
            head = head.lower()
            self.assertEqual((b"x-one" in head, b"x-two: 2" in head, b"connection" in head), (False, True, False))
            self.assertIn(b'\r\ncache-status: edge-one; fwd=bypass; detail="no cache"\r\n', head)
            self.assertIn(b"\r\nvia: 1.1 edge-one\r\n", head)
            self.assertIn(b"\r\ndate: ", head)
            self.assertTrue(self.reply(get(b"/chunks")).endswith(b"transfer-encoding: chunked\r\n\r\n2\r\nab\r\n0\r\n\r\n"))
            self.assertTrue(self.reply(get(b"/page", method=b"HEAD")).endswith(b"\r\n\r\n"))
            for status, request in (
                (501, get(b"b.test:80", method=b"CONNECT")),
                (508, get(b"/", b"Via: 1.1 edge-one")),
                (400, get(b"a")),
                (400, get(b"*")),
                (400, get(b"/").replace(b"a.test", b"a.test/evil")),
                (400, get(b"http://u@b.test/")),
                (501, get(b"/", b"Max-Forwards: 3", method=b"TRACE")),
            ):
                self.assertEqual((request, self.reply(request)[9:12]), (request, b"%d" % status))
            lines = lines_of(run)
        self.assertEqual(len([line for line in lines if "no cache" in line]), 1, lines)
        self.assertIn("proxy: no cache, so requests are forwarded: cacheserve has ended with status 9", lines)

    def test_the_process_is_started_again(self):
        with self.started() as run:
            self.assertFalse(self.is_used())
            for _ in range(50):
                self.ask(b"/page")
            self.set_up(True)
            self.assertTrue(wait_until(self.is_used))
            lines = lines_of(run)
        starts = (self.folder / "starts").read_text().count("start")
        self.assertLess(starts, 6, "starts in a few seconds")
        self.assertEqual(len([line for line in lines if "no cache" in line]), 1, lines)
        self.assertIn("proxy: the cache is used again", lines)

    def test_what_changes_meanwhile_is_removed(self):
        self.set_up(True)
        with self.started(f"--dir={self.folder}/cache") as run:
            for path in (b"/a", b"/b"):
                self.ask(path)
                self.assertTrue(is_hit(self.ask(path)[1]))
            self.set_up(False)
            self.kill(run)
            self.assertEqual(self.ask(b"/a", b"Content-Length: 0", method=b"DELETE")[0], 200)
            self.assertFalse(is_hit(self.ask(b"/b")[1]))
            self.set_up(True)
            self.assertTrue(wait_until(lambda: is_hit(self.ask(b"/b")[1])))
            self.assertFalse(is_hit(self.ask(b"/a")[1]))
            self.assertTrue(is_hit(self.ask(b"/a")[1]))
            run.stderr.close()

    def test_the_process_ends_while_a_page_is_passed_on(self):
        def slowly(turn):
            turn.write(b"HTTP/1.1 200 OK\r\nCache-Control: max-age=600\r\nContent-Length: 8\r\n\r\nhalf")
            time.sleep(1)
            return b"full"

        self.set_up(True)
        self.origin.answers[b"/slow"] = slowly
        with self.started() as run, Client(self.port) as client:
            client.send(get(b"/slow"))
            client.until(b"half")
            self.kill(run)
            self.assertEqual(client.exactly(4), b"full")
            self.assertTrue(wait_until(self.is_used))
            run.stderr.close()

    def test_a_process_that_hangs(self):
        self.set_up(True)
        for loop in LOOPS:
            with self.subTest(loop), self.started(f"--dir={self.folder}/cache", "--cache-timeout=6", *loop) as run:
                self.assertTrue(wait_until(self.is_used))
                [pid] = children(run.pid)
                os.kill(pid, signal.SIGSTOP)
                begun = time.monotonic()
                with ThreadPoolExecutor(8) as pool:
                    answers = list(pool.map(lambda number: self.ask(b"/%d" % number), range(8)))
                self.assertAlmostEqual(time.monotonic() - begun, 7.4, delta=1.5)
                self.assertEqual([body for _, _, body in answers], [b"page /%d" % number for number in range(8)])
                self.assertTrue(wait_until(lambda: is_hit(self.ask(b"/used")[1])))
                self.assertNotIn(pid, children(run.pid))
                outage = "proxy: no cache, so requests are forwarded: cacheserve hasn't replied for 6 s"
                self.assertEqual(lines_of(run)[1:], [outage, "proxy: the cache is used again"])

    def test_a_process_that_hangs_does_not_outlive_the_proxy(self):
        self.set_up(True)
        for loop in LOOPS:
            with self.subTest(loop), self.started(*loop) as run:
                self.assertTrue(wait_until(self.is_used))
                [pid] = children(run.pid)
                os.kill(pid, signal.SIGSTOP)
                begun = time.monotonic()
                lines_of(run)
                self.assertLess(time.monotonic() - begun, 15)
                self.assertTrue(wait_until(lambda: not Path(f"/proc/{pid}").exists()))

    def test_an_interrupt_ends_it_quietly(self):
        for script, status in ((SCRIPT, 0), ("#!/bin/sh\nexec sleep 20\n", 128 + signal.SIGINT)):
            self.program.write_text(script.format(folder=self.folder, program=PROGRAM))
            self.set_up(True)
            command = [sys.executable, "-m", "http_cache_semantics.proxy", ORIGIN, f"--listen=127.0.0.1:{free_port()}"]
            environment = with_package(str(self.program))
            with subprocess.Popen(command, env=environment, stderr=subprocess.PIPE, text=True) as run:
                self.assertTrue(wait_until(lambda: children(run.pid)))
                if not status:
                    self.assertIn("listens on", run.stderr.readline())
                run.send_signal(signal.SIGINT)
                self.assertEqual((run.wait(20), run.stderr.read()), (status, ""))

    def test_a_request_of_an_earlier_process_is_no_outage(self):
        held = threading.Event()
        self.addCleanup(held.set)
        self.origin.answers[b"/slow"] = lambda turn: held.wait(20) and response(b"slow")
        self.set_up(True)
        with self.started() as run, Client(self.port) as client:
            self.assertTrue(wait_until(self.is_used))
            client.send(get(b"/slow"))
            self.assertTrue(wait_until(lambda: self.origin.count(b"/slow")))
            self.kill(run)
            self.assertTrue(wait_until(lambda: not children(run.pid)))
            # The next request starts another process at once.
            self.assertTrue(self.is_used())
            held.set()
            self.assertEqual(client.answer()[2], b"slow")
            self.assertEqual(lines_of(run)[1:], [])

    def test_a_validation_whose_process_ends_closes_its_connection(self):
        asked, killed, closed = threading.Event(), threading.Event(), threading.Event()
        self.addCleanup(killed.set)

        def answer(turn):
            if self.origin.count(b"/window") == 1:
                return response(b"page", b"Cache-Control: max-age=1, stale-while-revalidate=60", b'ETag: "1"')
            turn.write(b"HTTP/1.1 200 OK\r\n%s\r\nContent-Length: 1000000\r\n\r\n" % FRESH)
            time.sleep(0.2)
            asked.set()
            killed.wait(20)
            turn.write(b"x" * 100_000)
            with contextlib.suppress(OSError):
                turn.body(1)
            closed.set()

        self.origin.answers[b"/window"] = answer
        self.set_up(True)
        with self.started() as run:
            self.ask(b"/window")
            time.sleep(2)
            self.assertEqual(self.ask(b"/window")[2], b"page")
            self.assertTrue(asked.wait(10))
            self.kill(run)
            self.assertTrue(wait_until(lambda: not children(run.pid)))
            killed.set()
            self.assertTrue(closed.wait(5))
            run.stderr.close()

    def test_a_directory_that_another_process_uses(self):
        self.set_up(True)
        file = f"{self.folder}/cache"
        with Cache(ProcessOptions(dir=file)) as other, self.started(f"--dir={file}") as run:
            self.assertEqual(self.ask(b"/page")[2], b"page /page")
            other.close()
            self.assertTrue(wait_until(self.is_used, 20))
            lines = lines_of(run)
        self.assertIn(f"proxy: no cache, so requests are forwarded: cacheserve: {file}: another process uses the directory", lines)


class WithoutOrigin(unittest.TestCase):
    def test_a_failed_origin_is_in_the_log(self):
        port = free_port()
        with proxy(PROGRAM, port, stderr=subprocess.PIPE, text=True) as (run, own):
            for _ in range(20):
                with Client(own) as client:
                    self.assertEqual(client.ask(b"/a?secret")[0], 504)
            lines = lines_of(run)
        self.assertEqual(lines[0], f"proxy: listens on http://127.0.0.1:{own} for http://127.0.0.1:{port}")
        self.assertEqual(set(lines[1:]), {f"proxy: http://127.0.0.1:{port}: connection refused"})
        self.assertLess(len(lines), 8)

    def test_an_origin_server_that_says_nothing(self):
        with socket.create_server(("127.0.0.1", 0)) as silent:
            where = f"http://127.0.0.1:{silent.getsockname()[1]}"
            with proxy(PROGRAM, 1, f"--origin={where}", "--timeout=1", stderr=subprocess.PIPE, text=True) as (run, own):
                begun = time.monotonic()
                with Client(own) as client:
                    self.assertEqual(client.ask(b"/")[0], 504)
                self.assertAlmostEqual(time.monotonic() - begun, 1.5, delta=0.6)
                self.assertEqual(lines_of(run)[1:], [f"proxy: {where}: no response within 1 s"])

    def test_a_name_that_is_none(self):
        with proxy(PROGRAM, 1, "--origin=http://nowhere.invalid", stderr=subprocess.PIPE, text=True) as (run, own):
            with Client(own) as client:
                self.assertEqual(client.ask(b"/")[0], 504)
            self.assertRegex(lines_of(run)[1], r"^proxy: http://nowhere\.invalid:80: .*([Nn]ame|resol)")


class FileDescriptors(ProxyTest):
    def test_more_clients_than_there_are_file_descriptors(self):
        limit = lambda: resource.setrlimit(resource.RLIMIT_NOFILE, (96, 96))
        with self.proxy(preexec_fn=limit, stderr=subprocess.PIPE, text=True) as run:
            clients = [self.client() for _ in range(90)]
            served = 0
            for client in clients[:20]:
                self.assertEqual(client.ask(b"/%d" % served)[2], b"page /%d" % served)
                served += 1
            before = self.processor_time(run.pid)
            time.sleep(1)
            self.assertLess(self.processor_time(run.pid) - before, 0.3)
            for client in clients[:80]:
                client.close()
            self.assertEqual(clients[-1].ask(b"/last")[2], b"page /last")
            lines = lines_of(run)
        self.assertEqual(len(lines), 2, lines)
        self.assertIn("proxy: 20 connections are open, so further connections have to wait", lines)

    def processor_time(self, pid):
        words = Path(f"/proc/{pid}/stat").read_text().rpartition(")")[2].split()
        return (int(words[11]) + int(words[12])) / os.sysconf("SC_CLK_TCK")


class Accepting(unittest.IsolatedAsyncioTestCase):
    async def test_the_system_has_no_more_file_descriptors(self):
        said, opened = [], []
        made = lambda: HttpClient(Room(10**6), 60, 65_536, opened.append, lambda _: listener.lost())
        listener, port = Listener(10, made, said.append), free_port()
        await listener.open("127.0.0.1", port)
        clients = [socket.create_connection(("127.0.0.1", port)) for _ in range(3)]
        soft, hard = resource.getrlimit(resource.RLIMIT_NOFILE)
        # A limit of no more than what is open already refuses the next one.
        resource.setrlimit(resource.RLIMIT_NOFILE, (3, hard))
        try:
            await asyncio.sleep(1.2)
            self.assertEqual((said, opened), (["too many open files, so further connections have to wait"], []))
        finally:
            resource.setrlimit(resource.RLIMIT_NOFILE, (soft, hard))
        await asyncio.sleep(0.8)
        self.assertEqual((len(said), len(opened)), (1, 3))
        listener.close()
        for connection in [*clients, *opened]:
            connection.close()


class CommandLine(unittest.TestCase):
    def run_with(self, *words, program=PROGRAM, python=sys.executable, **more):
        command = [python, "-m", "http_cache_semantics.proxy", *words]
        return subprocess.run(command, env={**with_package(program), **more}, capture_output=True, text=True, timeout=60)

    def test_help(self):
        run = self.run_with("--help")
        self.assertEqual((run.returncode, "--origin URL" in run.stdout), (0, True))

    def test_what_can_not_be_is_refused_by_name(self):
        for option, values in {
            "--origin": (
                "127.0.0.1:80", "http://", "http://h:abc", "http://h:0", "http://[::1", "http://h:99999", "http://u:p@h",
                "http://h/path", "http://h?query", "http://h/?", "http://h#f", "ftp://h", "http://h:-1", "http://a b", "",
            ),
            "--listen": ("a:b", "127.0.0.1", "127.0.0.1:99999", "::1:80", "[::1]", "h:-1", "h:", ""),
            "--timeout": ("0", "-1", "nan", "inf", "x", ""),
            "--idle": ("0", "-1", "nan", "1e9"),
            "--cache-timeout": ("0", "-1", "x"),
            "--memory": ("0", "-1", "999999", "1.5", "x", "9" * 30),
            "--bytes": ("0", "-1", "x"),
            "--stored-body": ("-1", "1e3"),
        }.items():  # fmt: skip
            for value in values:
                with self.subTest(f"{option}={value}"):
                    run = self.run_with(*([] if option == "--origin" else [ORIGIN]), f"{option}={value}")
                    self.assertEqual((run.returncode, run.stderr.count("\n")), (2, 1), run.stderr)
                    self.assertTrue(run.stderr.startswith(f"proxy: {option} {value}"), run.stderr)

    def test_what_is_missing(self):
        run = self.run_with()
        self.assertEqual((run.returncode, run.stderr), (2, "proxy: the following arguments are required: --origin\n"))
        run = self.run_with(ORIGIN, f"--listen=127.0.0.1:{free_port()}", program="/nowhere")
        self.assertEqual((run.returncode, run.stderr), (1, "proxy: /nowhere: No such file or directory\n"))
        with socket.create_server(("127.0.0.1", 0)) as taken:
            where = f"127.0.0.1:{taken.getsockname()[1]}"
            run = self.run_with(ORIGIN, f"--listen={where}")
        self.assertEqual((run.returncode, run.stderr), (1, f"proxy: --listen {where}: address already in use\n"))

    def test_packages_that_are_missing(self):
        with tempfile.TemporaryDirectory() as folder:
            for name in ("h11", "uvloop"):
                Path(f"{folder}/{name}.py").write_text(f"raise ImportError('no {name}', name='{name}')")
            path = f"{folder}:{ROOT}/python"
            for words, wanted in (
                ([], "proxy: needs h11: python3 -m pip install h11, or Debian's python3-h11\n"),
                (["--uvloop"], "proxy: --uvloop needs uvloop: python3 -m pip install uvloop, or Debian's python3-uvloop\n"),
            ):
                run = self.run_with(ORIGIN, *words, PYTHONPATH=path)
                self.assertEqual((run.returncode, run.stderr), (1, wanted))

    def test_an_address_of_ipv6(self):
        if not socket.has_ipv6 or not Path("/proc/net/if_inet6").exists():
            self.skipTest("no IPv6")
        port = free_port()
        command = [sys.executable, "-m", "http_cache_semantics.proxy", f"--listen=[::1]:{port}", ORIGIN]
        with subprocess.Popen(command, env=with_package(PROGRAM), stderr=subprocess.PIPE, text=True) as run:
            self.assertEqual(run.stderr.readline(), f"proxy: listens on http://[::1]:{port} for http://127.0.0.1:1\n")
            with socket.create_connection(("::1", port), 20) as connection:
                connection.sendall(get(b"/"))
                self.assertTrue(re.match(rb"HTTP/1.1 504 ", connection.recv(1000)))
            run.send_signal(signal.SIGTERM)


if __name__ == "__main__":
    unittest.main()
