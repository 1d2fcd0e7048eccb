"""Tests the reader of requests: byte by byte and at once it must return the same.

What it accepts h11 must accept as the same request. h11 reads the connections to origin servers, and accepts more."""
import time
import unittest

import h11

from http_cache_semantics.wire import PIECE, BadMessage, Closed, End, Request, RequestReader

GET = b"GET /a HTTP/1.1\r\nHost: a.test\r\n"
POST = b"POST /a HTTP/1.1\r\nHost: a.test\r\n"
CHUNKED = POST + b"Transfer-Encoding: chunked\r\n\r\n"
END = b"0\r\n\r\n"
LIMIT = 65_536


def read(data, by=None):
    """Returns what the requests on a connection are: each as its method, target and body, with a status at the end if the
    connection ends badly. `by` is how many bytes are fed at once."""
    reader, found = RequestReader(), []
    pieces = [data[at : at + by] for at in range(0, len(data), by)] if by else [data]
    try:
        for piece in [piece for piece in pieces if piece] + [b""]:
            reader.feed(piece)
            while not isinstance(event := reader.next(), (type(None), Closed)):
                note(found, event)
                if isinstance(event, End):
                    reader.restart()
    except BadMessage as error:
        found.append(error.status)
    return found


def note(found, event):
    if isinstance(event, Request):
        found.append([event.method, event.target, b"", None])
    elif isinstance(event, End):
        found[-1][3] = event.trailer
    else:
        found[-1][2] += event


def read_by_h11(data):
    """Returns what `read` returns, by h11 alone."""
    connection, found = h11.Connection(h11.SERVER, max_incomplete_event_size=LIMIT), []
    connection.receive_data(data)
    try:
        while True:
            event = connection.next_event()
            if isinstance(event, h11.Request):
                found.append([event.method, event.target, b"", None])
            elif isinstance(event, h11.Data):
                found[-1][2] += bytes(event.data)
            elif isinstance(event, h11.EndOfMessage):
                found[-1][3] = list(event.headers.raw_items())
                connection.send(h11.Response(status_code=204, headers=[]))
                connection.send(h11.EndOfMessage())
            elif event is h11.PAUSED:
                connection.start_next_cycle()
            else:
                return found
    except (h11.RemoteProtocolError, ValueError) as error:
        return [*found, getattr(error, "error_status_hint", 400)]


def requests(*paths):
    return [[b"GET", path, b"", []] for path in paths]


def post(body, *trailer):
    return [b"POST", b"/a", body, list(trailer)]


# What is on a connection, and what `read` returns, worked out by hand from RFC 9112.
ACCEPTED = [
    (b"", []),
    (b"\r\n\r\n", []),
    (GET + b"\r\n", requests(b"/a")),
    (b"\r\n" + GET + b"\r\n", requests(b"/a")),
    (GET + b"\r\n" + GET.replace(b"/a", b"/b") + b"\r\n", requests(b"/a", b"/b")),
    (b"GET http://a.test/x?y HTTP/1.1\r\nHost:a.test \t\r\n\r\n", requests(b"http://a.test/x?y")),
    (b"GET / HTTP/1.0\r\n\r\n", requests(b"/")),
    (GET + b"X: \xe9\xff \t!\r\nEmpty:\r\n\r\n", requests(b"/a")),
    (POST + b"content-LENGTH:\t3 \r\n\r\nabc" + GET + b"\r\n", [post(b"abc"), *requests(b"/a")]),
    (POST + b"Content-Length: 3, 3\r\nContent-Length: 3\r\n\r\nabc", [post(b"abc")]),
    (POST + b"Content-Length: 0003\r\n\r\nabc", [post(b"abc")]),
    (POST + b"Content-Length: 0\r\n\r\n" + GET + b"\r\n", [post(b""), *requests(b"/a")]),
    (CHUNKED + b"3\r\nabc\r\n0A\r\n0123456789\r\n" + END + GET + b"\r\n", [post(b"abc0123456789"), *requests(b"/a")]),
    (CHUNKED + b"2;x=\"y\";z\r\n\r\n\r\n00000\r\nX: 1 \r\nY:\r\n\r\n", [post(b"\r\n", (b"X", b"1"), (b"Y", b""))]),
    (CHUNKED + b"1 \t\r\na\r\n" + END, [post(b"a")]),
    (POST + b"Transfer-Encoding: CHUNKED\r\n\r\n" + END, [post(b"")]),
]
# What is refused, with the status, and how many requests are read before.
REFUSED = [
    # Heads.
    (400, 0, b"GET /a HTTP/1.1\nHost: a.test\n\n"),
    (400, 0, GET + b"X: 1\nY: 2\r\n\r\n"),
    (400, 0, GET + b"X: 1\rY: 2\r\n\r\n"),
    (400, 0, GET + b"X: 1\r\rY: 2\r\n\r\n"),
    (400, 0, GET + b"\n"),
    (400, 0, b"\n" + GET + b"\r\n"),
    (400, 0, b"\rGET / HTTP/1.0\r\n\r\n"),
    (400, 0, GET + b"X: a\0b\r\n\r\n"),
    (400, 0, GET + b"X: a\x0bb\r\n\r\n"),
    (400, 0, GET + b"X: a\x7fb\r\n\r\n"),
    (400, 0, GET + b"X : 1\r\n\r\n"),
    (400, 0, GET + b"X\t: 1\r\n\r\n"),
    (400, 0, GET + b": 1\r\n\r\n"),
    (400, 0, GET + b"no colon\r\n\r\n"),
    (400, 0, GET + b"(X): 1\r\n\r\n"),
    (400, 0, GET + b"X: 1\r\n folded\r\n\r\n"),
    (400, 0, b"GET /a HTTP/1.1\r\n Host: a.test\r\n\r\n"),
    (400, 0, b" GET /a HTTP/1.1\r\nHost: a.test\r\n\r\n"),
    (400, 0, b"GET  /a HTTP/1.1\r\nHost: a.test\r\n\r\n"),
    (400, 0, b"GET /a  HTTP/1.1\r\nHost: a.test\r\n\r\n"),
    (400, 0, b"GET\t/a HTTP/1.1\r\nHost: a.test\r\n\r\n"),
    (400, 0, b"GET /a HTTP/1.1 \r\nHost: a.test\r\n\r\n"),
    (400, 0, b"GET /a b HTTP/1.1\r\nHost: a.test\r\n\r\n"),
    (400, 0, b"GET /\xe9 HTTP/1.1\r\nHost: a.test\r\n\r\n"),
    (400, 0, b"G(T /a HTTP/1.1\r\nHost: a.test\r\n\r\n"),
    (400, 0, b"GET /a\r\n\r\n"),
    (400, 0, b"GET /a HTTP/1.2\r\nHost: a.test\r\n\r\n"),
    (400, 0, b"GET /a HTTP/2.0\r\nHost: a.test\r\n\r\n"),
    (400, 0, b"GET /a http/1.1\r\nHost: a.test\r\n\r\n"),
    (400, 0, b"\x16\x03\x01\x02\x00\x01\x00\x01\xfc\x03\x03"),
    (400, 0, b"GET /a HTTP/1.1\r\n\r\n"),
    (400, 0, GET + b"Host: b.test\r\n\r\n"),
    (400, 0, b"GET / HTTP/1.0\r\nHost: a\r\nHost: a\r\n\r\n"),
    (400, 0, GET),
    (431, 0, GET + b"X: " + b"x" * LIMIT + b"\r\n\r\n"),
    (431, 0, GET + b"X: " + b"x" * 2 * LIMIT),
    # Lengths.
    *[(400, 0, POST + b"Content-Length: " + length + b"\r\n\r\nabcde") for length in (
        b"+5", b"-5", b"0x5", b"5a", b"5 5", b"5.0", b"5;", b"", b",", b"5,", b"5, 6", b"\xb2", b"5\t5", b"5_0", b"9" * 19,
        b"9" * 5000, b"5\r\nContent-Length: 6", b"5\r\n 5",
    )],  # fmt: skip
    (400, 0, POST + b"Content-Length : 5\r\n\r\nabcde"),
    (400, 0, POST + b"Content-Length: 5\r\nTransfer-Encoding: chunked\r\n\r\n" + END),
    (400, 0, POST + b"Transfer-Encoding: chunked\r\nContent-Length: 5\r\n\r\n" + END),
    (400, 0, b"POST / HTTP/1.0\r\nTransfer-Encoding: chunked\r\n\r\n" + END),
    *[(501, 0, POST + b"Transfer-Encoding: " + coding + b"\r\n\r\n" + END) for coding in (
        b"identity", b"gzip", b"gzip, chunked", b"chunked, chunked", b"xchunked", b"chunked;x", b'"chunked"', b"", b",chunked",
        b"chunked\r\nTransfer-Encoding: chunked", b"\x80chunked",
    )],  # fmt: skip
    (400, 0, POST + b"Transfer-Encoding: \x0bchunked\r\n\r\n" + END),
    (400, 0, POST + b"Transfer-Encoding : chunked\r\n\r\n" + END),
    (400, 0, POST + b"Transfer-Encoding:\r\n chunked\r\n\r\n" + END),
    # Bodies.
    (400, 1, POST + b"Content-Length: 5\r\n\r\nabcd"),
    (400, 1, CHUNKED),
    (400, 1, CHUNKED + b"3\r\nab"),
    (400, 1, CHUNKED + b"3\r\nabc"),
    (400, 1, CHUNKED + b"3\r\nabc\r\n"),
    (400, 1, CHUNKED + b"3\r\nabcd\r\n" + END),
    (400, 1, CHUNKED + b"3\r\nabc\n0\r\n\r\n"),
    (400, 1, CHUNKED + b"3\r\nabc\r0\r\n\r\n"),
    (400, 1, CHUNKED + b"3\nabc\r\n" + END),
    (400, 1, CHUNKED + b"3\r\n\nabc\r\n" + END),
    *[(400, 1, CHUNKED + size + b"\r\nabc\r\n" + END) for size in (
        b"-3", b"+3", b"0x3", b" 3", b"3 ;x", b"", b";x", b"g", b"3g", b"3.0", b"3_0", b"\xb3", b"0" * 16 + b"3", b"1" * 16,
        b"3;\rx", b"3;x\ny", b"3;\0", b"3\t\x0b", b"3;" + b"x" * 5000,
    )],  # fmt: skip
    (400, 1, CHUNKED + b"2;\nxx\r\nhi\r\n" + END + GET + b"\r\n"),
    (400, 1, CHUNKED + b"0;\nGET /b HTTP/1.1\r\nHost: a.test\r\nX:\r\n\r\n"),
    # Trailers.
    (400, 1, CHUNKED + b"0\r\n"),
    (400, 1, CHUNKED + b"0\r\n\n"),
    (400, 1, CHUNKED + b"0\n\n"),
    (400, 1, CHUNKED + b"0\r\nX: 1\n\nGET /b HTTP/1.1\r\nHost: a.test\r\n\r\n"),
    (400, 1, CHUNKED + b"0\r\nX: 1\n\r\n"),
    (400, 1, CHUNKED + b"0\r\nX: 1\ry\r\n\r\n"),
    (400, 1, CHUNKED + b"0\r\nX : 1\r\n\r\n"),
    (400, 1, CHUNKED + b"0\r\n X: 1\r\n\r\n"),
    (400, 1, CHUNKED + b"0\r\nX: 1\r\n folded\r\n\r\n"),
    (400, 1, CHUNKED + b"0\r\nno colon\r\n\r\n"),
    (400, 1, CHUNKED + b"0\r\nX: \0\r\n\r\n"),
    (400, 1, CHUNKED + b"0\r\ncontent-length: 3\r\n\r\nabc"),
    (400, 1, CHUNKED + b"0\r\nX: 1\r\nTransfer-Encoding: chunked\r\n\r\n"),
    (431, 1, CHUNKED + b"0\r\n" + b"a: b\r\n" * 20_000 + b"\r\n"),
]


BYTES = (b"\r", b"\n", b"\r\n", b" ", b"\t", b":", b",", b";", b"0", b"a", b"\0", b"\x0b", b"\x85", b"\xff")


class Reading(unittest.TestCase):
    def test_what_is_accepted(self):
        for data, wanted in ACCEPTED:
            with self.subTest(data):
                self.assertEqual(read(data), wanted)

    def test_what_is_refused(self):
        for status, before, data in REFUSED:
            with self.subTest(data[:200]):
                found = read(data)
                self.assertEqual((found[-1], len(found) - 1), (status, before))

    def test_a_long_line_of_a_chunk_takes_linear_time(self):
        begun = time.process_time()
        for _ in range(50):
            self.assertEqual(read(CHUNKED + b"1;" + b" " * 4080 + b"\x01\r\n")[-1], 400)
        self.assertLess(time.process_time() - begun, 0.5)

    def test_the_same_byte_by_byte(self):
        for data in [data for data, _ in ACCEPTED] + [data for _, _, data in REFUSED]:
            with self.subTest(data[:200]):
                self.assertEqual(read(data, 1 if len(data) < 10_000 else 997), read(data))

    def test_h11_accepts_the_same(self):
        for data, wanted in ACCEPTED:
            # h11 refuses an empty line before a request.
            with self.subTest(data):
                self.assertEqual(read_by_h11(data.lstrip(b"\r\n")), wanted)

    def test_changed_requests(self):
        """Puts each of some bytes at each place of requests: what the reader accepts h11 reads as the same."""
        accepted = 0
        for data in (
            POST + b"Content-Length: 5\r\n\r\nabcde",
            POST + b"X: y\r\nTransfer-Encoding: chunked\r\n\r\n2;e\r\nab\r\n0\r\nT: u\r\n\r\n",
        ):
            for place in range(len(data)):
                for byte in BYTES:
                    for changed in (data[:place] + byte + data[place:], data[:place] + byte + data[place + 1 :]):
                        accepted += self.is_accepted_by_both(changed)
        self.assertGreater(accepted, 500)

    def is_accepted_by_both(self, data):
        found = read(data)
        self.assertEqual(read(data, 1), found)
        if not found or not isinstance(found[-1], list):
            return False
        # h11 has an empty line for the beginning of a bad request.
        by_h11 = [request for request in read_by_h11(data.lstrip(b"\r\n")) if isinstance(request, list)]
        self.assertEqual((data, by_h11), (data, found))
        return True


class Details(unittest.TestCase):
    def head(self, *fields, version=b"1.1"):
        reader = RequestReader()
        reader.feed(b"\r\n".join([b"GET / HTTP/" + version, b"Host: a", *fields, b"", b""]))
        return reader.next()

    def test_the_end_of_a_connection(self):
        self.assertTrue(self.head(b"Connection: a, CLOSE").is_last)
        self.assertTrue(self.head(b"Connection: a", b"Connection: close").is_last)
        self.assertFalse(self.head(b"Connection: closed").is_last)
        self.assertTrue(self.head(b"Connection: keep-alive", version=b"1.0").is_last)

    def test_what_a_client_waits_for(self):
        self.assertTrue(self.head(b"Expect: 100-Continue").expects_100)
        self.assertFalse(self.head(b"Expect: 100-continue", version=b"1.0").expects_100)
        self.assertTrue(self.head(b"Sec-WebSocket-Key: x").opens_websocket)

    def test_nothing_is_read_after_the_end_before_a_restart(self):
        reader = RequestReader()
        reader.feed(GET + b"\r\n" + GET + b"\r\n")
        self.assertIsInstance(reader.next(), Request)
        self.assertEqual((reader.is_over, reader.next(), reader.next(), reader.unread), (True, End([]), None, len(GET) + 2))
        reader.restart()
        self.assertIsInstance(reader.next(), Request)

    def test_a_refused_request_stays_refused(self):
        reader = RequestReader()
        reader.feed(b"\n")
        for _ in range(2):
            with self.assertRaises(BadMessage):
                reader.next()

    def test_bodies_come_in_pieces(self):
        reader = RequestReader()
        reader.feed(POST + b"Content-Length: %d\r\n\r\n" % (PIECE + 1) + b"x" * (PIECE + 1))
        reader.next()
        self.assertEqual([len(reader.next()), len(reader.next()), reader.next()], [PIECE, 1, End([])])


if __name__ == "__main__":
    unittest.main()
