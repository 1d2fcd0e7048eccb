"""Tests what becomes of the responses of an origin server that breaks the rules of HTTP/1.1.

None reaches a client that it isn't for, and nothing is stored that isn't whole. `found_with` is also run with proxies that are
broken on purpose."""
import time
import unittest

from proxied import PROGRAM, Client, ProxyTest, RawOrigin, chunk, get, is_hit, response
from started import proxy

EVIL = b"HTTP/1.1 200 OK\r\nCache-Control: max-age=600\r\nContent-Length: 4\r\n\r\nEVIL"
FRESH = b"Cache-Control: max-age=600"
CHUNKED = b"HTTP/1.1 200 OK\r\nCache-Control: max-age=600\r\nTransfer-Encoding: chunked\r\n\r\n"
IDLE = 1


def bodiless(status):
    return b"HTTP/1.1 %s\r\nCache-Control: max-age=600\r\n\r\n" % status


def says_more_later(turn):
    turn.write(response(b"ok", FRESH))
    time.sleep(0.2)
    turn.write(EVIL)
    time.sleep(0.2)


def times_out(turn):
    turn.write(response(b"ok", FRESH))
    time.sleep(0.2)
    turn.write(b"HTTP/1.1 408 Request Timeout\r\nContent-Length: 0\r\nConnection: close\r\n\r\n")


# Responses with further bytes after them: the method, what the origin server writes, and the status and body of the response.
MORE = {
    b"/head": (b"HEAD", lambda turn: response(EVIL, FRESH), 200, b""),
    b"/204": (b"GET", lambda turn: bodiless(b"204 No Content") + EVIL, 204, b""),
    b"/304": (b"GET", lambda turn: bodiless(b"304 Not Modified") + EVIL, 304, b""),
    b"/205": (b"GET", lambda turn: response(EVIL, FRESH, status=b"205 Reset Content"), 205, b""),
    b"/205-chunks": (b"GET", lambda turn: CHUNKED.replace(b"200 OK", b"205 Reset") + chunk(EVIL) + b"0\r\n\r\n", 205, b""),
    b"/length": (b"GET", lambda turn: response(b"ok", FRESH) + EVIL, 200, b"ok"),
    b"/length-and-lf": (b"GET", lambda turn: response(b"ok", FRESH) + b"\r\n" + EVIL, 200, b"ok"),
    b"/chunks": (b"GET", lambda turn: CHUNKED + chunk(b"ok") + b"0\r\n\r\n" + EVIL, 200, b"ok"),
    b"/post": (b"POST", lambda turn: response(b"ok") + EVIL, 200, b"ok"),
    b"/later": (b"GET", says_more_later, 200, b"ok"),
    b"/408": (b"GET", times_out, 200, b"ok"),
}


class Origin(RawOrigin):
    """An origin server of all attacks."""

    def __init__(self):
        super().__init__({path: answer for path, (_, answer, _, _) in MORE.items()})
        self.answers[b"/stall"] = self.stall

    def stall(self, turn):
        if self.count(b"/stall") > 1:
            return response(b"the whole page", FRESH)
        turn.write(b"HTTP/1.1 200 OK\r\nCache-Control: max-age=600\r\n\r\nthe whole")
        time.sleep(IDLE + 1)
        turn.write(b" page")
        return None


def wrongs_after_more(port):
    """Yields what is wrong after a response with further bytes."""
    for path, (method, _, status, body) in MORE.items():
        with Client(port) as first:
            found = first.ask(path, method=method)
            if method == b"HEAD" or status == 304:
                found = (found[0], found[1], b"")
            if (found[0], found[2]) != (status, body):
                yield f"{path}: {found}"
        time.sleep(0.5 if path in (b"/later", b"/408") else 0.1)
        for other in (path + b"/next", path + b"/next", path + b"/other"):
            with Client(port) as client:
                status, _, body = client.ask(other)
            if (status, body) != (200, b"page " + other):
                yield f"{other} after {path}: {status} {body}"


def wrongs_after_a_stall(port):
    """Yields what is wrong with a page whose second half comes too late. Its end is the end of its connection."""
    with Client(port) as first:
        first.send(get(b"/stall"))
        try:
            found = first.all()
        except ConnectionResetError:
            found = first.data
    if found.endswith(b"0\r\n\r\n") or b" page" in found:
        yield f"half of a page is passed on as the whole: {found}"
    with Client(port) as client:
        _, head, body = client.ask(b"/stall")
    if body != b"the whole page" or is_hit(head):
        yield f"half of a page is stored: {head} {body}"


WRONGS = {"unread": wrongs_after_more, "stall": wrongs_after_a_stall}


def found_with(program, kind, **how):
    """Returns what is wrong with a proxy, by the attacks of one kind."""
    origin = Origin()
    try:
        with proxy(program, origin.port, f"--idle={IDLE}", **how) as (_, port):
            return list(WRONGS[kind](port))
    finally:
        origin.stop()


class Attacks(unittest.TestCase):
    def test_attacks(self):
        for kind in WRONGS:
            with self.subTest(kind):
                self.assertEqual(found_with(PROGRAM, kind), [])


def cut_by_reset(turn):
    turn.write(b"HTTP/1.1 200 OK\r\nCache-Control: max-age=600\r\n\r\nthe whole")
    time.sleep(0.2)
    turn.reset()


def slowly(*pieces):
    """Returns a response in pieces, and the end of the connection."""

    def answer(turn):
        for piece in pieces:
            turn.write(piece)
            time.sleep(0.2)

    return answer


# Responses that aren't whole: at once, and after a while, so that the client has the head already.
CUT = {
    b"/length": lambda turn: turn.write(response(b"the whole page", FRESH)[:-5]),
    b"/length-slow": slowly(response(b"the whole page", FRESH)[:-10], b"le"),
    b"/chunk": lambda turn: turn.write(CHUNKED + b"e\r\nthe whole"),
    b"/chunk-slow": slowly(CHUNKED + b"e\r\nthe", b" whole"),
    b"/last-chunk": lambda turn: turn.write(CHUNKED + chunk(b"the whole page")),
    b"/last-chunk-slow": slowly(CHUNKED + chunk(b"the whole"), chunk(b" page")),
    b"/trailer": slowly(CHUNKED + chunk(b"the whole page"), b"0\r\nX: 1\r\n"),
    b"/bad-chunk": slowly(CHUNKED + chunk(b"the whole"), b"x\r\n page\r\n0\r\n\r\n"),
    b"/bad-end": slowly(CHUNKED + b"9\r\nthe whole page\r\n0\r\n\r\n"),
    b"/reset": cut_by_reset,
}
# Heads that are none, or whose end others may find elsewhere.
BAD_HEADS = (
    b"HTTP/1.1 200 OK\nContent-Length: 2\n\nok",
    b"HTTP/1.1 200 OK\r\nX: 1\nContent-Length: 2\r\n\r\nok",
    b"HTTP/1.1 200 OK\r\nX: 1\rSet-Cookie: a=b\r\nContent-Length: 2\r\n\r\nok",
    b"HTTP/1.1 200 OK\r\nX : 1\r\nContent-Length: 2\r\n\r\nok",
    b"HTTP/1.1 200 OK\r\nno colon\r\nContent-Length: 2\r\n\r\nok",
    b"HTTP/1.1 200 OK\r\nX: \0\r\nContent-Length: 2\r\n\r\nok",
    b"HTTP/1.1 200 OK\r\nContent-Length: +2\r\n\r\nok",
    b"HTTP/1.1 200 OK\r\nContent-Length: 2\r\nContent-Length: 3\r\n\r\nok",
    b"HTTP/1.1 200 OK\r\nContent-Length: 2\r\nTransfer-Encoding: chunked\r\n\r\n0\r\n\r\n",
    b"HTTP/1.1 200 OK\r\nContent-Length: " + b"9" * 20 + b"\r\n\r\nok",
    b"HTTP/1.1 200 OK\r\nContent-Length: " + b"9" * 5000 + b"\r\n\r\nok",
    b"HTTP/1.1 200 OK\r\nTransfer-Encoding: gzip, chunked\r\n\r\n0\r\n\r\n",
    b"HTTP/1.0 200 OK\r\nTransfer-Encoding: chunked\r\n\r\n0\r\n\r\n",
    b"HTTP/1.1 200 OK\r\nX: " + b"x" * 70_000 + b"\r\nContent-Length: 2\r\n\r\nok",
    b"HTTP/1.1 101 Switching Protocols\r\nUpgrade: x\r\nConnection: upgrade\r\n\r\n",
    b"HTTP/1.1 099 OK\r\nContent-Length: 2\r\n\r\nok",
    b"HTTP/1.1 20x OK\r\nContent-Length: 2\r\n\r\nok",
    b"HTTP/2 200 OK\r\nContent-Length: 2\r\n\r\nok",
    b"HTTP/1.2 200 OK\r\nContent-Length: 2\r\n\r\nok",
    b"<html>no head</html>",
)


class Responses(ProxyTest):
    answers = {
        **CUT,
        **{b"/%d" % number: lambda turn, head=head: turn.write(head) for number, head in enumerate(BAD_HEADS)},
        b"/silent": lambda turn: None,
        b"/fold": lambda turn: b"HTTP/1.1 200 OK\r\nX: 1\r\n  2\r\nContent-Length: 2\r\n\r\nok",
        b"/empty-205": lambda turn: response(b"", status=b"205 Reset Content"),
    }

    def test_what_is_not_whole_is_passed_on_as_cut_and_not_stored(self):
        with self.proxy():
            for path in CUT:
                for _ in range(2):
                    with self.subTest(path), Client(self.port) as client:
                        client.send(get(path, b"Connection: close"))
                        try:
                            found = client.all()
                        except ConnectionResetError:
                            found = client.data
                        is_refused = found.startswith((b"HTTP/1.1 502 ", b"HTTP/1.1 504 "))
                        has_no_end = b"chunked" in found and b"\r\n0\r\n" not in found
                        self.assertTrue(is_refused or has_no_end or self.is_short(found), found)
                        self.assertFalse(is_hit(found), found)
                self.assertEqual(self.origin.count(path), 2)

    def is_short(self, found):
        head, _, body = found.partition(b"\r\n\r\n")
        return b"content-length: 14" in head and len(body) < 14

    def test_a_cut_body_is_a_reset_for_an_old_client(self):
        # A client of HTTP/1.0 would take the end of the connection for the end of the body.
        with self.proxy(), Client(self.port) as client:
            client.send(b"GET /chunk-slow HTTP/1.0\r\nHost: a.test\r\n\r\n")
            with self.assertRaises(ConnectionResetError):
                client.all()

    def test_bad_heads_are_refused(self):
        with self.proxy():
            for number, head in enumerate(BAD_HEADS):
                with self.subTest(head[:80]):
                    self.assertEqual(self.ask(b"/%d" % number)[0], 502)
            self.assertEqual(self.ask(b"/silent")[0], 504)

    def test_a_folded_field_becomes_one_line(self):
        with self.proxy():
            _, head, body = self.ask(b"/fold")
        self.assertEqual((body, b"\r\nx: 1 2\r\n" in head.lower()), (b"ok", True))

    def test_a_connection_that_ends_while_it_is_idle(self):
        # The origin server takes one request on a connection, and closes it when it gets another.
        once = lambda turn: None if turn.number > 1 else response(b"ok", b"Cache-Control: no-store")
        self.origin.answers[b"/once"] = once
        with self.proxy():
            for method in (b"GET", b"GET", b"POST", b"GET", b"DELETE", b"GET"):
                self.assertEqual(self.ask(b"/once", method=method)[0], 200)
        # A GET or DELETE that gets no response on an idle connection is sent again: 1, 2, 1, 3 (the POST's connection is idle
        # too), 2 and 2 times.
        self.assertEqual(self.origin.count(b"/once"), 11)

    def test_an_empty_205_keeps_its_connection(self):
        with self.proxy():
            found = [self.ask(b"/empty-205")[0], self.ask(b"/empty-205")[0]]
        self.assertEqual(found, [205, 205])


if __name__ == "__main__":
    unittest.main()
