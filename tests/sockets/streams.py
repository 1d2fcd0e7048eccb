"""Tests bodies that stream through the proxy in both directions, what is stored of them, and what memory they take."""
import itertools
import socket
import threading
import time
import unittest
from concurrent.futures import ThreadPoolExecutor

from proxied import Client, ProxyTest, chunk, get, is_hit, response, wait_until
from started import children, peak, python_with

MEGABYTE = 1_048_576
FRESH = b"Cache-Control: max-age=600"
CHUNKED = b"HTTP/1.1 200 OK\r\nCache-Control: max-age=600\r\nTransfer-Encoding: chunked\r\n\r\n"
EVENTS = b"HTTP/1.1 200 OK\r\nContent-Type: text/event-stream\r\nTransfer-Encoding: chunked\r\n\r\n"
LONG = b"".join(b"%07d\n" % number for number in range(100_000))


def events(turn):
    turn.write(EVENTS.replace(b"\r\n\r\n", b"\r\nCache-Control: no-store\r\n\r\n"))
    for number in range(3):
        turn.write(chunk(b"event %d" % number))
        time.sleep(0.5)
    return b"0\r\nX-Count: 3\r\nContent-Length: 9\r\nSet-Cookie: a=b\r\n\r\n"


def two_halves(turn):
    turn.write(CHUNKED + chunk(b"first half"))
    time.sleep(0.5)
    return chunk(b" second half") + b"0\r\n\r\n"


def interim(turn):
    turn.write(b"HTTP/1.1 103 Early Hints\r\nLink: </a>\r\nConnection: X-One\r\nX-One: 1\r\n\r\n")
    turn.write(b"HTTP/1.1 102 Processing\r\n\r\n")
    return response(b"page")


def in_chunks(turn):
    turn.write(CHUNKED)
    for at in range(0, len(LONG), 50_000):
        turn.write(chunk(LONG[at : at + 50_000]))
    return b"0\r\n\r\n"


class Responses(ProxyTest):
    answers = {
        b"/events": events,
        b"/halves": two_halves,
        b"/interim": interim,
        b"/long": lambda turn: response(LONG, FRESH),
        b"/long-in-chunks": in_chunks,
        b"/too-long": lambda turn: response(LONG, FRESH),
        b"/until-close": lambda turn: turn.write(b"HTTP/1.1 200 OK\r\nCache-Control: max-age=600\r\n\r\n" + LONG),
    }

    def test_an_event_stream_arrives_piece_by_piece(self):
        with self.proxy("--idle=2"), Client(self.port) as client:
            # The first request also waits for the process to be started.
            client.ask(b"/first")
            begun = time.monotonic()
            client.send(get(b"/events", b"TE: trailers"))
            client.until(b"\r\n\r\n")
            for number in range(3):
                client.until(b"event %d\r\n" % number)
                self.assertAlmostEqual(time.monotonic() - begun, 0.5 * number, delta=0.4)
            # What frames or controls a message may not be in a trailer.
            self.assertEqual(client.until(b"\r\n\r\n"), b"0\r\nX-Count: 3\r\n\r\n")

    def test_a_page_is_passed_on_before_it_is_stored(self):
        with self.proxy(), Client(self.port) as client:
            client.ask(b"/first")
            begun = time.monotonic()
            client.send(get(b"/halves"))
            client.until(b"first half\r\n")
            self.assertLess(time.monotonic() - begun, 0.4)
            client.until(b"0\r\n\r\n")
            status, head, body = self.ask(b"/halves")
        self.assertEqual((status, is_hit(head), body), (200, True, b"first half second half"))

    def test_who_has_the_end_finds_the_page_stored(self):
        with self.proxy():
            for number in range(20):
                for path in (b"/long", b"/long-in-chunks"):
                    self.origin.answers[path + b"%d" % number] = self.answers[path]
                    found = [self.whole(path + b"%d" % number) for _ in range(2)]
                    self.assertEqual([(is_hit(head), body == LONG) for head, body in found], [(False, True), (True, True)])

    def whole(self, path):
        """Returns the head and the body of a page, in chunks or not."""
        with Client(self.port) as client:
            client.send(get(path))
            head = client.until(b"\r\n\r\n")
            if b"content-length" in head:
                return head, client.exactly(len(LONG))
            body = b""
            while size := int(client.until(b"\r\n"), 16):
                body += client.exactly(size)
                client.until(b"\r\n")
            return head, body

    def test_an_old_client_gets_no_chunks_and_no_interim_responses(self):
        with self.proxy():
            for path, wanted in ((b"/halves", b"first half second half"), (b"/interim", b"page")):
                head, _, body = self.reply(b"GET %s HTTP/1.0\r\nHost: a.test\r\n\r\n" % path).partition(b"\r\n\r\n")
                self.assertEqual((head[:13], body), (b"HTTP/1.1 200 ", wanted))
                self.assertIn(b"\r\nconnection: close", head)

    def test_interim_responses_are_passed_on(self):
        with self.proxy():
            reply = self.reply(get(b"/interim"))
        heads = [b"HTTP/1.1 103 Early Hints\r\nLink: </a>", b"HTTP/1.1 102 Processing"]
        self.assertEqual(reply.split(b"\r\n\r\n")[:2], heads)

    def test_what_is_longer_than_stored_body_is_passed_on_only(self):
        with self.proxy("--stored-body=10000"):
            for path in (b"/too-long", b"/too-long", b"/long-in-chunks", b"/long-in-chunks"):
                head, body = self.whole(path)
                self.assertEqual((is_hit(head), body == LONG), (False, True))
        self.assertEqual(len(self.origin.asked), 4)

    def test_a_body_until_the_end_of_its_connection_is_stored(self):
        with self.proxy():
            found = [self.whole(b"/until-close") for _ in range(2)]
        self.assertEqual([(is_hit(head), body == LONG) for head, body in found], [(False, True), (True, True)])

    def test_a_page_that_only_its_tag_is_sent_of_is_stored(self):
        # The client has the new page already, and gets a 304; the cache hasn't.
        pages = [response(b"old", b"Cache-Control: max-age=1", b'ETag: "0"'), response(LONG, FRESH, b'ETag: "1"')]
        self.origin.answers[b"/tagged"] = lambda turn: pages[self.origin.count(b"/tagged") - 1]
        with self.proxy():
            self.ask(b"/tagged")
            time.sleep(2)
            self.assertEqual(self.ask(b"/tagged", b'If-None-Match: "1"')[0], 304)
            time.sleep(1)
            _, head, body = self.ask(b"/tagged")
        self.assertEqual((is_hit(head), body == LONG, self.origin.count(b"/tagged")), (True, True, 2))

    def test_a_stale_page_in_place_of_one_that_is_cut_off(self):
        def answer(turn):
            count = self.origin.count(b"/cut")
            if count == 1:
                return response(b"old", b"Cache-Control: max-age=1, stale-if-error=60")
            turn.write(CHUNKED + chunk(b"new"))
            time.sleep(0.3)
            return None if count == 2 else chunk(b" page") + b"0\r\n\r\n"

        self.origin.answers[b"/cut"] = answer
        with self.proxy():
            self.ask(b"/cut")
            time.sleep(2)
            found = [self.ask(b"/cut")[::2] for _ in range(3)]
        self.assertEqual(found, [(200, b"old"), (200, b"new page"), (200, b"new page")])
        self.assertEqual(self.origin.count(b"/cut"), 3)

    def test_a_page_that_turns_out_too_long_replaces_a_stale_one(self):
        grown = {b"/grown": (0.0, 0.03), b"/grown-until-close": (0.03, 0.0)}
        old = response(b"old", b"Cache-Control: max-age=1, stale-if-error=60", b'ETag: "1"')

        def answer(turn):
            path = turn.head.split(b" ")[1]
            if self.origin.count(path) == 1:
                return old
            is_chunked, pauses = path == b"/grown", itertools.cycle(grown[path])
            turn.write(CHUNKED if is_chunked else b"HTTP/1.1 200 OK\r\nCache-Control: max-age=600\r\n\r\n")
            for at in range(0, len(LONG), 50_000):
                time.sleep(next(pauses))
                piece = LONG[at : at + 50_000]
                turn.write(chunk(piece) if is_chunked else piece)
            if is_chunked:
                return b"0\r\n\r\n"

        for path in grown:
            self.origin.answers[path] = answer
        for most in (100_000, len(LONG) - 1):
            self.origin.asked.clear()
            with self.proxy(f"--stored-body={most}"):
                for path in grown:
                    self.ask(path)
                time.sleep(2)
                for path in grown:
                    # The stale page isn't stored any more then.
                    for number, reason in ((2, b"stale"), (3, b"uri-miss")):
                        head, body = self.whole(path)
                        self.assertEqual((path, most, body == LONG, self.origin.count(path)), (path, most, True, number))
                        self.assertIn(b"cache-status: cacheserve; fwd=%s; fwd-status=200" % reason, head)

    def test_a_slow_client_gets_a_stored_page_in_pieces(self):
        with self.proxy() as run, Client(self.port) as client:
            self.whole(b"/long")
            client.socket.setsockopt(socket.SOL_SOCKET, socket.SO_RCVBUF, 4096)
            client.send(get(b"/long"))
            head = client.until(b"\r\n\r\n")
            time.sleep(0.5)
            self.assertEqual(self.ask(b"/other")[0], 200)
            self.assertEqual((is_hit(head), client.exactly(len(LONG)) == LONG), (True, True))
            # A client that leaves in the middle ends what is under way: the process lets one request be so.
            for _ in range(3):
                with Client(self.port) as other:
                    other.send(get(b"/long"))
                    other.until(b"\r\n\r\n")
            self.assertEqual(self.whole(b"/long")[1] == LONG, True)
            self.assertIsNone(run.poll())


@unittest.skipUnless(python_with("uvloop") == python_with("h11"), "no uvloop")
class ResponsesWithUvloop(Responses):
    """The same on another event loop."""

    def proxy(self, *words, **how):
        return super().proxy("--uvloop", *words, **how)


class Requests(ProxyTest):
    def answer_with(self, script):
        """Has the origin server answer /upload by a function of its turn, and returns what the function returns."""
        self.origin.answers[b"/upload"] = script

    def test_a_body_reaches_the_origin_server_before_its_end(self):
        seen = []

        def script(turn):
            seen.append(turn.body(len(chunk(b"first"))))
            turn.write(b"HTTP/1.1 102 Processing\r\n\r\n")
            seen.append(turn.body(len(chunk(b"second") + b"0\r\nX-T: 1\r\n\r\n")))
            return response(b"done")

        self.answer_with(script)
        with self.proxy(), Client(self.port) as client:
            client.send(get(b"/upload", b"Transfer-Encoding: chunked", method=b"POST") + chunk(b"first"))
            client.until(b"HTTP/1.1 102 Processing\r\n\r\n")
            client.send(chunk(b"second") + b"0\r\nX-T: 1\r\nHost: b\r\n\r\n")
            self.assertEqual((client.answer()[2], client.ask(b"/other")[2]), (b"done", b"page /other"))
        self.assertEqual(seen, [chunk(b"first"), chunk(b"second") + b"0\r\nX-T: 1\r\n\r\n"])

    def test_only_a_forwarded_request_is_let_go_on(self):
        waits = (b"Expect: 100-continue", b"Content-Length: 3")
        self.origin.answers[b"/upload"] = lambda turn: response(turn.body(3))
        with self.proxy():
            with Client(self.port) as client:
                client.send(get(b"/upload", *waits, method=b"POST"))
                self.assertEqual(client.until(b"\r\n\r\n"), b"HTTP/1.1 100 Continue\r\n\r\n")
                client.send(b"abc")
                self.assertEqual((client.answer()[2], client.ask(b"/page")[2]), (b"abc", b"page /page"))
            # A request that the process refuses needs no body, so the connection ends with the answer.
            with Client(self.port) as client:
                client.send(get(b"a.test:80", *waits, method=b"CONNECT"))
                status, head, _ = client.answer()
                self.assertEqual((status, b"\r\nconnection: close\r\n" in head, client.all()), (501, True, b""))

    def test_a_refusal_before_the_end_of_a_body(self):
        def script(turn):
            turn.body(1)
            return response(b"too long", b"Connection: close", status=b"413 Content Too Large")

        self.answer_with(script)
        with self.proxy(), Client(self.port) as client:
            client.send(get(b"/upload", b"Content-Length: 9000000", method=b"POST") + b"x" * 1000)
            status, head, body = client.answer()
            self.assertEqual((status, body, b"\r\nconnection: close\r\n" in head), (413, b"too long", True))

    def test_a_client_that_is_silent(self):
        self.answer_with(lambda turn: response(turn.body(3)))
        with self.proxy("--idle=1"):
            for start in (b"", b"GET /a HT", get(b"/upload", b"Content-Length: 3", method=b"POST") + b"ab"):
                begun = time.monotonic()
                with Client(self.port) as client:
                    client.send(start)
                    self.assertIn(client.all()[9:12], (b"", b"408"))
                self.assertAlmostEqual(time.monotonic() - begun, 1.5, delta=0.6)

    def test_a_body_that_is_cut_off_has_no_end(self):
        ends = []

        def script(turn):
            try:
                ends.append(turn.body(100))
            except ConnectionError:
                ends.append(b"cut off")

        self.answer_with(script)
        head = get(b"/upload", b"Transfer-Encoding: chunked", method=b"POST")
        with self.proxy():
            for body in (chunk(b"abc"), chunk(b"abc") + b"x\r\n", b"3\nabc\r\n0\r\n\r\n"):
                self.assertEqual(self.reply(head + body)[9:12], b"400")
            self.assertEqual(wait_until(lambda: len(ends) == 3) and ends, [b"cut off"] * 3)

    def test_upgrades(self):
        fields = (b"Connection: Upgrade", b"Upgrade: websocket", b"Sec-WebSocket-Version: 13")
        with self.proxy():
            self.assertEqual(self.ask(b"/ws", *fields, b"Sec-WebSocket-Key: dGhlIHNhbXBsZSBub25jZQ==")[0], 501)
            self.assertEqual(self.origin.asked, [])
            # Any other upgrade may be ignored (RFC 9110, section 7.8).
            h2c = (b"Connection: Upgrade, HTTP2-Settings", b"Upgrade: h2c", b"HTTP2-Settings: x")
            self.assertEqual(self.ask(b"/h2c", *h2c)[0], 200)
        self.assertNotIn(b"upgrade", self.origin.asked[0].lower())


HUGE = 200 * MEGABYTE


def huge(turn):
    turn.write(b"HTTP/1.1 200 OK\r\nCache-Control: max-age=600\r\nContent-Length: %d\r\n\r\n" % HUGE)
    for _ in range(200):
        turn.write(b"x" * MEGABYTE)
    return b""


def take_huge(turn):
    for _ in range(200):
        turn.body(MEGABYTE)
    return response(b"done")


class Memory(ProxyTest):
    answers = {b"/huge": huge, b"/upload": take_huge, b"/page": lambda turn: response(b"x" * MEGABYTE, FRESH)}

    def test_a_body_of_200_megabytes_each_way(self):
        with self.proxy() as run, Client(self.port) as client:
            self.ask(b"/small")
            pids = [run.pid, *children(run.pid)]
            before = [peak(pid) for pid in pids]
            client.send(get(b"/huge"))
            client.until(b"\r\n\r\n")
            # A client that doesn't read for a while has the origin server wait.
            time.sleep(0.5)
            left = HUGE - len(client.data)
            while left:
                left -= len(client.socket.recv(min(left, MEGABYTE)))
            client.data = b""
            client.send(get(b"/upload", b"Content-Length: %d" % HUGE, method=b"POST"))
            for _ in range(200):
                client.send(b"x" * MEGABYTE)
            self.assertEqual(client.answer()[2], b"done")
            grown = [after - known for after, known in zip((peak(pid) for pid in pids), before)]
        self.assertLess(grown[0], 10_000, "kB of the proxy")
        self.assertLess(grown[1], 10_000, "kB of the process")

    def test_a_client_that_reads_nothing(self):
        with self.proxy("--idle=1"), Client(self.port) as client:
            client.socket.setsockopt(socket.SOL_SOCKET, socket.SO_RCVBUF, 4096)
            client.send(get(b"/huge"))
            time.sleep(3)
            with self.assertRaises(ConnectionResetError):
                client.all()
            self.assertLess(len(client.data), HUGE // 2)

    def test_the_bound_of_all_requests(self):
        # Of a page of 1 MB no copy is collected if three fourths of the bound are less, but it is passed on.
        with self.proxy("--memory=1000000"):
            heads = [self.ask(b"/page")[1:] for _ in range(2)]
        self.assertEqual([(is_hit(head), len(body)) for head, body in heads], [(False, MEGABYTE)] * 2)

    def test_pages_that_are_collected_before_they_are_answered(self):
        # Each has room for a copy when it begins, and together they haven't.
        old = response(b"old", b"Cache-Control: max-age=1, stale-if-error=60")

        def answer(turn):
            path = turn.head.split(b" ")[1]
            if self.origin.count(path) == 1:
                return old
            turn.write(b"HTTP/1.1 200 OK\r\nContent-Length: 600000\r\n\r\n")
            for _ in range(6):
                time.sleep(0.1)
                turn.write(b"x" * 100_000)
            return b""

        paths = [b"/%d" % number for number in range(6)]
        self.origin.answers.update(dict.fromkeys(paths, answer))
        with self.proxy("--memory=1000000", "--idle=3"), ThreadPoolExecutor(6) as pool:
            for path in paths:
                self.ask(path)
            time.sleep(2)
            begun = time.monotonic()
            bodies = [body for _, _, body in pool.map(self.ask, paths)]
            self.assertLess(time.monotonic() - begun, 2.5)
        self.assertEqual([len(body) for body in bodies], [600_000] * 6)

    def test_clients_that_send_and_do_not_read_are_held_up(self):
        held = threading.Event()
        self.addCleanup(held.set)
        self.origin.answers[b"/stuck"] = lambda turn: held.wait(20) and None
        with self.proxy("--memory=2000000") as run:
            before = peak(run.pid)
            clients = [self.client() for _ in range(40)]
            for client in clients:
                client.socket.setblocking(False)
                client.send(get(b"/stuck", b"Content-Length: 100000000", method=b"POST"))
            for _ in range(20):
                for client in clients:
                    try:
                        client.socket.send(b"x" * MEGABYTE)
                    except BlockingIOError:
                        pass
                time.sleep(0.02)
            # Without the bound they would be 320 kB for each.
            self.assertLess(peak(run.pid) - before, 9_000, "kB")


class Load(ProxyTest):
    """Many requests for one page at once."""

    def setUp(self):
        super().setUp()
        self.origin.answers[b"/slow"] = lambda turn: time.sleep(0.5) or response(b"slow", FRESH)
        self.origin.answers[b"/private"] = lambda turn: time.sleep(0.2) or response(b"mine", b"Cache-Control: private")
        self.origin.answers[b"/window"] = self.window

    def window(self, turn):
        if b"if-none-match" in turn.head.lower():
            time.sleep(0.5)
            return b"HTTP/1.1 304 Not Modified\r\nETag: \"1\"\r\nCache-Control: max-age=60\r\n\r\n"
        return response(b"page", b"Cache-Control: max-age=1, stale-while-revalidate=60", b'ETag: "1"')

    def at_once(self, path, count=50):
        with ThreadPoolExecutor(count) as pool:
            return [answer[2] for answer in pool.map(lambda _: self.ask(path), range(count))]

    def test_collapsed_requests(self):
        with self.proxy("--collapse"):
            self.assertEqual((self.at_once(b"/slow"), self.origin.count(b"/slow")), ([b"slow"] * 50, 1))
            self.assertEqual((self.at_once(b"/private", 10), self.origin.count(b"/private")), ([b"mine"] * 10, 10))

    def test_requests_that_are_not_collapsed(self):
        with self.proxy():
            self.assertEqual((self.at_once(b"/slow"), self.origin.count(b"/slow")), ([b"slow"] * 50, 50))

    def test_one_validation_for_many_stale_answers(self):
        with self.proxy():
            self.ask(b"/window")
            time.sleep(2)
            begun = time.monotonic()
            self.assertEqual(self.at_once(b"/window"), [b"page"] * 50)
            self.assertEqual(self.origin.count(b"/window"), 2)
            self.assertLess(time.monotonic() - begun, 5)


if __name__ == "__main__":
    if not python_with("uvloop"):
        print("left out: the proxy on uvloop: no python3-uvloop")
    unittest.main()
