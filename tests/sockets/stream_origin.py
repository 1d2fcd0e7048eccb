"""An origin server for tests whose responses come in pieces, with pauses."""
import socketserver
import sys
import threading
import time
from pathlib import Path

sys.dont_write_bytecode = True
sys.path.append(str(Path(__file__).resolve().parent.parent / "conformance"))
from origin import received_request


class StreamOrigin(socketserver.ThreadingTCPServer):
    """Answers each request with what `answer` yields for it: bytes, which are sent at once, and pauses in seconds.

    After None it closes the connection. `asked` has the requests, `ended` the targets whose clients have gone, and
    `connections` is how many were opened.
    """

    daemon_threads = True
    allow_reuse_address = True

    def __init__(self, answer):
        super().__init__(("127.0.0.1", 0), Connection)
        self.port, self.answer, self.asked, self.ended = self.server_address[1], answer, [], []
        self.connections = 0
        self.base = f"http://127.0.0.1:{self.port}"
        threading.Thread(target=self.serve_forever, args=(0.05,), daemon=True).start()

    def handle_error(self, *_):
        """Ignores errors, since a client may close a connection at any time."""

    def stop(self):
        self.shutdown()
        self.server_close()


class Connection(socketserver.StreamRequestHandler):
    disable_nagle_algorithm = True

    def handle(self):
        self.server.connections += 1
        while request := received_request(self.rfile):
            self.server.asked.append(request)
            try:
                if not self.send(self.server.answer(request)):
                    return
            except OSError:
                self.server.ended.append(request["target"])
                return

    def send(self, pieces):
        """Sends the pieces, and returns whether another request may follow on the connection."""
        for piece in pieces:
            if piece is None:
                return False
            if isinstance(piece, bytes):
                self.wfile.write(piece)
            else:
                time.sleep(piece)
        return True
