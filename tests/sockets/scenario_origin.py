"""The origin server of the scenarios: pages of every kind, by their paths."""
import gzip
import itertools

DATE = b"Date: Thu, 01 Jan 2026 00:00:00 GMT\r\n"
FRESH = DATE + b"Cache-Control: max-age=100000000\r\n"
TEXT = bytes(range(32, 127)) * 100
ZIPPED = gzip.compress(TEXT, mtime=0)


def full(fields, body, status=b"200 OK"):
    return b"HTTP/1.1 %s\r\n%sContent-Length: %d\r\n\r\n%s" % (status, fields, len(body), body)


def chunk(piece):
    return b"%x\r\n%s\r\n" % (len(piece), piece)


def chunked(fields, *pieces):
    yield b"HTTP/1.1 200 OK\r\n%sTransfer-Encoding: chunked\r\n\r\n" % fields
    for piece in pieces:
        yield chunk(piece) if isinstance(piece, bytes) else piece
    yield b"0\r\n\r\n"


NAMED = FRESH + b"Content-Type: text/plain; charset=utf-8\r\nX-CaSe: One\r\nx-case: Two\r\n"
PAGES = {
    "/page": full(NAMED, b"caf\xc3\xa9", b"200 Fine Enough"),
    "/json": full(FRESH + b"Content-Type: application/json\r\n", b'{"a": [1, 2]}'),
    "/text": full(FRESH + b"Content-Type: text/plain\r\n", b"one\r\ntwo\nthree"),
    "/long": full(FRESH, TEXT),
    "/gzip": full(FRESH + b"Content-Encoding: gzip\r\n", ZIPPED),
    "/no-gzip": full(FRESH + b"Content-Encoding: gzip\r\n", b"not zipped at all"),
    "/empty": full(FRESH, b""),
    "/cookies": full(FRESH + b"Set-Cookie: a=1; Path=/\r\nSet-Cookie: b=2; Path=/\r\n", b"set"),
    "/moved": full(FRESH + b"Location: /page\r\n", b"moved", b"301 Moved Permanently"),
    "/found": full(DATE + b"Location: /moved\r\nSet-Cookie: hop=1; Path=/\r\n", b"found", b"302 Found"),
    "/other": full(DATE + b"Location: /json\r\n", b"", b"303 See Other"),
    "/again": full(DATE + b"Location: /echo\r\n", b"", b"307 Temporary Redirect"),
    "/loop": full(DATE + b"Location: /loop\r\n", b"", b"301 Moved Permanently"),
    "/missing": full(FRESH, b"no such page", b"404 Not Found"),
    "/broken": full(DATE, b"broken", b"500 Internal Server Error"),
    "/folded": full(FRESH + b"X-Folded: one\r\n two\r\n", b"folded"),
    "/cut-length": b"HTTP/1.1 200 OK\r\n%sContent-Length: 100\r\n\r\nonly this" % FRESH,
    "/cut-chunk": b"HTTP/1.1 200 OK\r\n%sTransfer-Encoding: chunked\r\n\r\n5\r\nhello\r\n5\r\nab" % FRESH,
    "/cut-last-chunk": b"HTTP/1.1 200 OK\r\n%sTransfer-Encoding: chunked\r\n\r\n5\r\nhello\r\n" % FRESH,
    "/no-chunk": b"HTTP/1.1 200 OK\r\n%sTransfer-Encoding: chunked\r\n\r\nno size\r\nhello" % FRESH,
    "/no-http": b"nothing that begins as a response\r\n\r\n",
    "/no-response": b"",
    "/open": b"HTTP/1.1 200 OK\r\n%s\r\nuntil the end of the connection" % FRESH,
    "/old": b"HTTP/1.0 200 OK\r\n%s\r\nold" % FRESH,
}


def ends_with_the_connection(path):
    return path.startswith(("/cut", "/no-chunk", "/no-http", "/no-response", "/open", "/old"))


def answer(request):
    """Yields the origin server's response to a request."""
    path, fields = request["target"].partition("?")[0], {name.lower(): value for name, value in request["headers"]}
    if path == "/echo":
        yield full(DATE, repr((request["method"], request["target"], request["headers"], request["body"])).encode())
    elif path == "/etag":
        is_known, tagged = fields.get("if-none-match") == '"x"', DATE + b'ETag: "x"\r\n'
        yield b"HTTP/1.1 304 Not Modified\r\n%s\r\n" % tagged if is_known else full(tagged, b"tagged")
    elif path == "/range":
        part = b"Content-Range: bytes 2-4/%d\r\n" % len(TEXT)
        yield full(DATE + part, TEXT[2:5], b"206 Partial Content") if "range" in fields else full(DATE, TEXT)
    elif path == "/secret":
        is_known = "authorization" in fields
        ask = b'WWW-Authenticate: Digest realm="r", nonce="n", qop="auth"\r\n'
        yield full(DATE, b"secret") if is_known else full(DATE + ask, b"who?", b"401 Unauthorized")
    elif request["method"] == "HEAD":
        yield PAGES[path].partition(b"\r\n\r\n")[0] + b"\r\n\r\n"
    elif path == "/nothing":
        yield b"HTTP/1.1 204 No Content\r\n%s\r\n" % FRESH
    elif path == "/chunks":
        yield from chunked(FRESH, b"one", b"two" * 1000, b"three")
    elif path == "/chunks-gzip":
        yield from chunked(FRESH + b"Content-Encoding: gzip\r\n", ZIPPED[:9], ZIPPED[9:20], ZIPPED[20:])
    elif path == "/slow-chunks":
        yield from chunked(FRESH, b"first\n", 0.2, b"second\n", 0.2, b"third\n")
    elif path == "/slow-body":
        yield from (b"HTTP/1.1 200 OK\r\n%sContent-Length: 10\r\n\r\nfirst" % FRESH, 0.4, b"later")
    elif path == "/events":
        yield b"HTTP/1.1 200 OK\r\n%sContent-Type: text/event-stream\r\nTransfer-Encoding: chunked\r\n\r\n" % FRESH
        for number in itertools.count():
            yield from (chunk(b"data: %d\n\n" % number), 0.05)
    elif path == "/stall":
        yield from (b"HTTP/1.1 200 OK\r\n%sContent-Length: 10\r\n\r\nfirst" % FRESH, 0.8, None)
    elif path == "/stall-chunks":
        yield from (b"HTTP/1.1 200 OK\r\n%sTransfer-Encoding: chunked\r\n\r\n5\r\nfirst\r\n" % FRESH, 0.8, None)
    elif path == "/silent":
        yield from (0.8, None)
    else:
        yield PAGES[path]
        if ends_with_the_connection(path):
            yield None
