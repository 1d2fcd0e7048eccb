"""What the tests of the proxy share: an origin server that writes what it likes, a proxy in front of it, and clients."""
import contextlib
import os
import re
import socket
import socketserver
import threading
import time
import unittest

from started import proxy

PROGRAM = os.environ.get("CACHESERVE", "")


def get(path, *fields, method=b"GET"):
    return b"\r\n".join([method + b" " + path + b" HTTP/1.1", b"Host: a.test", *fields, b"", b""])


def response(body=b"ok", *fields, status=b"200 OK"):
    return b"\r\n".join([b"HTTP/1.1 " + status, b"Content-Length: %d" % len(body), *fields, b"", body])


def chunk(data):
    return b"%x\r\n%s\r\n" % (len(data), data)


class RawOrigin(socketserver.ThreadingTCPServer):
    """An origin server whose responses are functions of a path: each gets a `Turn`, and returns what is written at last.

    A path without a function has the page `page PATH`, which is fresh for a minute. After None the connection ends.
    """

    daemon_threads = True
    request_queue_size = 512

    def __init__(self, answers):
        super().__init__(("127.0.0.1", 0), RawConnection)
        self.port, self.answers, self.asked = self.server_address[1], answers, []
        threading.Thread(target=self.serve_forever, args=(0.05,), daemon=True).start()

    def handle_error(self, *_):
        """Ignores errors, since a proxy may close a connection at any time."""

    def count(self, path):
        return sum(head.split(b" ")[1] == path for head in self.asked)

    def stop(self):
        self.shutdown()
        self.server_close()


class RawConnection(socketserver.BaseRequestHandler):
    def handle(self):
        self.data, number = b"", 0
        while head := self.head():
            self.server.asked.append(head)
            path, number = head.split(b" ")[1], number + 1
            default = lambda turn: response(b"page " + path, b"Cache-Control: max-age=60")
            written = self.server.answers.get(path, default)(Turn(self, head, number))
            if written is None:
                return
            self.request.sendall(written)

    def head(self):
        while b"\r\n\r\n" not in self.data:
            more = self.request.recv(65_536)
            if not more:
                return None
            self.data += more
        head, _, self.data = self.data.partition(b"\r\n\r\n")
        return head


class Turn:
    """One request that an origin server has received, the connection, and the number of the request on it."""

    def __init__(self, connection, head, number):
        self.head, self._connection, self.number = head, connection, number
        self.write = connection.request.sendall

    def body(self, length):
        """Returns the next bytes of the body, and waits for them."""
        while len(self._connection.data) < length:
            more = self._connection.request.recv(1 << 20)
            if not more:
                raise ConnectionError("the body of the request is cut off")
            self._connection.data += more
        data = self._connection.data
        self._connection.data = data[length:]
        return data[:length]

    def reset(self):
        self._connection.request.setsockopt(socket.SOL_SOCKET, socket.SO_LINGER, b"\1\0\0\0\0\0\0\0")
        self._connection.request.close()


class Client:
    """A connection to the proxy."""

    def __init__(self, port, seconds=20):
        self.socket = socket.create_connection(("127.0.0.1", port), seconds)
        self.data = b""

    def send(self, data):
        self.socket.sendall(data)

    def until(self, end):
        """Returns what is received until some bytes, with them, or b"" at the end of the connection."""
        while end not in self.data:
            more = self.socket.recv(1 << 20)
            if not more:
                return b""
            self.data += more
        found, _, self.data = self.data.partition(end)
        return found + end

    def exactly(self, length):
        while len(self.data) < length:
            more = self.socket.recv(1 << 20)
            if not more:
                break
            self.data += more
        found, self.data = self.data[:length], self.data[length:]
        return found

    def all(self):
        """Returns what is received until the end. Raises `ConnectionResetError` if the connection is reset."""
        while more := self.socket.recv(1 << 20):
            self.data += more
        return self.data

    def answer(self):
        """Returns the status, the head and the body of a response with a length."""
        head = self.until(b"\r\n\r\n")
        length = re.search(rb"(?i)\r\ncontent-length: *(\d+)", head)
        return int(head[9:12] or 0), head, self.exactly(int(length[1]) if length else 0)

    def ask(self, *words, **how):
        self.send(get(*words, **how))
        return self.answer()

    def close(self):
        self.socket.close()

    def __enter__(self):
        return self

    def __exit__(self, *_):
        self.close()


class ProxyTest(unittest.TestCase):
    """A test with an origin server and a proxy in front of it."""

    answers = {}

    def setUp(self):
        self.origin = RawOrigin(dict(self.answers))
        self.addCleanup(self.origin.stop)

    @contextlib.contextmanager
    def proxy(self, *words, **how):
        with proxy(PROGRAM, self.origin.port, *words, **how) as (run, self.port):
            yield run

    def client(self):
        client = Client(self.port)
        self.addCleanup(client.close)
        return client

    def ask(self, *words, **how):
        """Returns the answer on a connection of its own."""
        with Client(self.port) as client:
            return client.ask(*words, **how)

    def reply(self, data, closes=True):
        """Returns all that the proxy writes on a connection."""
        with Client(self.port) as client:
            client.send(data)
            if closes:
                client.socket.shutdown(socket.SHUT_WR)
            return client.all()


def is_hit(head):
    return b"; hit" in head


def wait_until(holds, seconds=10):
    """Waits until a function returns something true, and returns it."""
    until = time.monotonic() + seconds
    while not (found := holds()) and time.monotonic() < until:
        time.sleep(0.02)
    return found
