"""Tests the proxy of the Python package as a whole, with the program that $CACHESERVE names."""
import contextlib
import os
import re
import shutil
import signal
import socket
import ssl
import subprocess
import tempfile
import time
import unittest
from unittest import mock

from servers import SmallOrigin
from cases import values
from started import children, free_port, proxy

PROGRAM = os.environ["CACHESERVE"]
MEGABYTE = 1_048_576


def get(path):
    return b"GET %s HTTP/1.1\r\nHost: a.test\r\n\r\n" % path


def answer(request, _):
    """Returns the origin server's answer: three paths have a long body, one takes a second, and one gets no response."""
    path, long = request["target"], 9 * MEGABYTE
    if path == "/gone":
        return None
    if path == "/slow":
        time.sleep(1)
    if path == "/known":
        return b"HTTP/1.1 200 OK\r\nContent-Length: %d\r\n\r\n" % long + b"k" * long
    if path == "/chunks":
        chunk = b"%x\r\n%s\r\n" % (MEGABYTE, b"c" * MEGABYTE)
        return b"HTTP/1.1 200 OK\r\nTransfer-Encoding: chunked\r\n\r\n" + chunk * 9 + b"0\r\n\r\n"
    if path == "/open":
        return b"HTTP/1.1 200 OK\r\n\r\n" + b"o" * long
    return b"HTTP/1.1 200 OK\r\nCache-Control: max-age=60\r\nContent-Length: 4\r\n\r\npage"


class Proxies(unittest.TestCase):
    def setUp(self):
        self.origin = SmallOrigin(answer)
        self.addCleanup(self.origin.stop)

    @contextlib.contextmanager
    def proxy(self, *words, **how):
        with proxy(PROGRAM, self.origin.port, *words, **how) as (run, self.port):
            yield run

    def reply(self, data, closes=True):
        """Returns all that the proxy writes on a connection."""
        with socket.create_connection(("127.0.0.1", self.port), 20) as connection:
            connection.sendall(data)
            if closes:
                connection.shutdown(socket.SHUT_WR)
            return b"".join(iter(lambda: connection.recv(65_536), b""))

    def test_several_requests_on_a_connection(self):
        with self.proxy():
            got = self.reply(get(b"/a") + get(b"/a") + get(b"/a").replace(b"\r\n\r\n", b"\r\nConnection: close\r\n\r\n"), False)
        self.assertEqual((got.count(b"HTTP/1.1 200 "), got.count(b"\r\n\r\npage")), (3, 3))
        self.assertEqual((len(self.origin.asked), got.count(b"cacheserve; hit")), (1, 2))

    def test_bodies_that_are_too_long_to_store(self):
        with self.proxy():
            for path, letter in ((b"/known", b"k"), (b"/chunks", b"c"), (b"/open", b"o")):
                head, _, body = self.reply(get(path).replace(b"1.1", b"1.0")).partition(b"\r\n\r\n")
                self.assertEqual((path, len(body), set(body)), (path, 9 * MEGABYTE, set(letter)))
                self.assertNotIn(b"transfer-encoding", head.lower())
            self.assertIn(b"\r\ntransfer-encoding: chunked\r\n", self.reply(get(b"/open")))
        self.assertEqual(len(self.origin.asked), 4)

    def test_unclear_framing_reaches_nobody(self):
        post = b"POST /a HTTP/1.1\r\nHost: a.test\r\n"
        with self.proxy():
            for status, data in (
                (400, post + b"Content-Length: 4\r\nContent-Length: 5\r\n\r\nabcde"),
                (400, post + b"Content-Length: 4\r\nTransfer-Encoding: chunked\r\n\r\n0\r\n\r\n"),
                (400, post + b"Transfer-Encoding: chunked\r\n\r\nx\r\n"),
                (501, post + b"Transfer-Encoding: identity\r\n\r\n"),
                (400, post + b"Content-Length : 0\r\n\r\n"),
                (400, post + b"X: 1\n\nGET /b HTTP/1.1\r\n\r\n"),
                (400, post + b"X: a\rb\r\n\r\n"),
                (400, post + b" folded: 1\r\n\r\n"),
                (400, b"GET /a HTTP/1.1\r\n\r\n"),
                (400, b"GET /a HTTP/1.1\r\nHost: a\r\nHost: b\r\n\r\n"),
                (400, b"no request\r\n\r\n"),
                (400, post + b"Content-Length: 99999999999\r\n\r\n"),
                (431, b"GET /a HTTP/1.1\r\nX: " + b"x" * 70_000 + b"\r\n\r\n"),
            ):
                reply = self.reply(data)
                self.assertEqual((data[:90], reply[9:12]), (data[:90], b"%d" % status))
                self.assertEqual(reply.count(b"HTTP/1.1"), 1)
        self.assertEqual(self.origin.asked, [])

    def test_a_body_is_forwarded_in_chunks_of_its_own(self):
        head = b"POST /a HTTP/1.1\r\nHost: a.test\r\nExpect: 100-continue\r\nTransfer-Encoding: chunked\r\n\r\n"
        with self.proxy():
            reply = self.reply(head + b"3;x=y\r\nabc\r\n1\r\nd\r\n0\r\nX: 1\r\n\r\n")
        self.assertTrue(reply.startswith(b"HTTP/1.1 100 Continue\r\n\r\nHTTP/1.1 200"))
        [request] = self.origin.asked
        self.assertEqual((request["body"], values(request["headers"], "transfer-encoding")), (b"abcd", ["chunked"]))
        self.assertEqual([values(request["headers"], name) for name in ("content-length", "expect")], [[], []])

    def test_the_origin_server_sends_no_response(self):
        with self.proxy():
            self.assertEqual(self.reply(get(b"/gone"))[:12], b"HTTP/1.1 504")
        with proxy(PROGRAM, free_port()) as (_, self.port):
            self.assertEqual(self.reply(get(b"/a"))[:12], b"HTTP/1.1 504")

    @unittest.skipUnless(shutil.which("openssl"), "no openssl")
    def test_an_origin_server_with_tls(self):
        with tempfile.TemporaryDirectory() as folder:
            key, certificate = f"{folder}/key", f"{folder}/certificate"
            request = ["openssl", "req", "-x509", "-newkey", "rsa:2048", "-nodes", "-subj", "/CN=localhost", "-days", "1"]
            names = ["-addext", "subjectAltName=DNS:localhost", "-keyout", key, "-out", certificate]
            subprocess.run([*request, *names], check=True, capture_output=True)
            context = ssl.SSLContext(ssl.PROTOCOL_TLS_SERVER)
            context.load_cert_chain(certificate, key)
            self.origin.socket = context.wrap_socket(self.origin.socket, server_side=True)
            there = f"--origin=https://localhost:{self.origin.port}"
            with mock.patch.dict(os.environ, SSL_CERT_FILE=certificate), self.proxy(there):
                self.assertTrue(self.reply(get(b"/a")).endswith(b"\r\n\r\npage"))
            with self.proxy(there):
                self.assertEqual(self.reply(get(b"/a"))[9:12], b"504")

    def test_a_request_under_way_ends_before_the_proxy(self):
        with self.proxy() as run:
            with socket.create_connection(("127.0.0.1", self.port), 20) as slow, socket.create_connection(
                ("127.0.0.1", self.port), 20
            ) as idle:
                slow.sendall(get(b"/slow"))
                time.sleep(0.3)
                run.send_signal(signal.SIGTERM)
                self.assertEqual(idle.recv(100), b"")
                reply = b"".join(iter(lambda: slow.recv(65_536), b""))
            self.assertTrue(reply.startswith(b"HTTP/1.1 200 ") and reply.endswith(b"\r\n\r\npage"))
            self.assertIn(b"connection: close", reply)
            self.assertEqual(run.wait(10), 0)

    def test_the_access_log(self):
        with self.proxy("--log", "--name=edge", stdout=subprocess.PIPE, text=True) as run:
            self.reply(b"nothing\r\n\r\n")
            self.reply(b"GET /ws HTTP/1.1\r\nHost: a.test\r\nSec-WebSocket-Key: x\r\n\r\n")
            self.reply(get(b"/a?\\b"))
            self.reply(get(b"/b") + get(b"/b"))
        lines = [re.sub(r"\[.*?\]|ttl=(59|60)", "[]", line) for line in run.stdout.read().splitlines()]
        run.stdout.close()
        self.assertEqual(
            lines,
            [
                '127.0.0.1 - - [] "-" 400 0 "-"',
                '127.0.0.1 - - [] "GET /ws HTTP/1.1" 501 0 "-"',
                r'127.0.0.1 - - [] "GET /a?\x5cb HTTP/1.1" 200 4 "edge; fwd=uri-miss; fwd-status=200; stored; []"',
                '127.0.0.1 - - [] "GET /b HTTP/1.1" 200 4 "edge; fwd=uri-miss; fwd-status=200; stored; []"',
                '127.0.0.1 - - [] "GET /b HTTP/1.1" 200 4 "edge; hit; []"',
            ],
        )

    def test_an_unsafe_request_whose_process_is_killed(self):
        with tempfile.TemporaryDirectory() as folder, self.proxy(f"--dir={folder}/c", stderr=subprocess.DEVNULL) as run:
            self.reply(get(b"/slow"))
            self.assertIn(b"; hit", self.reply(get(b"/slow")))
            with socket.create_connection(("127.0.0.1", self.port), 20) as connection:
                connection.sendall(b"POST /slow HTTP/1.1\r\nHost: a.test\r\nContent-Length: 0\r\nConnection: close\r\n\r\n")
                time.sleep(0.3)
                for process in children(run.pid):
                    os.kill(process, signal.SIGKILL)
                reply = b"".join(iter(lambda: connection.recv(65_536), b""))
            self.assertEqual((reply[:12], reply[-8:]), (b"HTTP/1.1 200", b"\r\n\r\npage"))
            # The POST may have changed the page, so the response in the directory must not be used any more.
            self.assertNotIn(b"; hit", self.reply(get(b"/slow")))


if __name__ == "__main__":
    unittest.main()
