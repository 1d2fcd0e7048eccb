"""A small origin server for tests, with a function that makes its responses."""
import socketserver
import sys
import threading
from pathlib import Path

sys.dont_write_bytecode = True
sys.path.append(str(Path(__file__).resolve().parent.parent / "conformance"))
from origin import received_request


class SmallOrigin(socketserver.ThreadingTCPServer):
    """Answers each request with the bytes that `answer` returns for it and for the number of requests so far.

    It closes the connection after None, and after a response whose end can't be found otherwise, such as an incomplete one.
    """

    daemon_threads = True

    def __init__(self, answer):
        super().__init__(("127.0.0.1", 0), Connection)
        self.port, self.answer, self.asked = self.server_address[1], answer, []
        threading.Thread(target=self.serve_forever, args=(0.05,), daemon=True).start()

    def handle_error(self, *_):
        """Ignores errors, since a proxy may close a connection at any time."""

    def stop(self):
        self.shutdown()
        self.server_close()


class Connection(socketserver.StreamRequestHandler):
    def handle(self):
        while request := received_request(self.rfile):
            self.server.asked.append(request)
            response = self.server.answer(request, len(self.server.asked))
            if response is None:
                return
            self.wfile.write(response)
            head = response.partition(b"\r\n\r\n")[0]
            if b"Content-Length" not in head and b" 304 " not in head and not response.endswith(b"\r\n0\r\n\r\n"):
                return
