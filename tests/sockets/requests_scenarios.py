"""Scenarios of `requests`: what a program sees of a session, as facts that can be compared, whichever adapter the session has.

A scenario is a function of a session and of the address of the origin server, and returns its facts."""
import io
import itertools
import pickle
import shutil
import time

import requests
from requests.auth import HTTPDigestAuth
from scenario_origin import TEXT, ZIPPED


def seen(response):
    """Returns the facts of a response whose body isn't read yet."""
    return {
        "status": response.status_code,
        "reason": response.reason,
        "url": response.url.rpartition("127.0.0.1")[2].partition("/")[2],
        "fields": [(name, value) for name, value in response.raw.headers.iteritems()],
        "headers": dict(response.headers),
        "cookies": response.cookies.get_dict(),
        "encoding": response.encoding,
        "history": [hop.status_code for hop in response.history],
        "sent": [(name, value) for name, value in response.request.headers.items()],
        "version": response.raw.version,
        "decodes": response.raw.decode_content,
    }


def whole(response):
    return {**seen(response), "content": response.content, "is read": response.raw.read()}


def error_of(call):
    """Returns the class of the exception that a call raises, or its result."""
    try:
        return call()
    except Exception as error:
        return type(error).__name__


SCENARIOS = {}


def scenario(run):
    SCENARIOS[run.__name__.replace("_", " ")] = run
    return run


def gets(*paths, **how):
    """Adds a scenario for each path: the page, read at once."""
    for path in paths:
        SCENARIOS[f"get {path}"] = lambda session, base, path=path: whole(session.get(base + path, timeout=20, **how))


gets("/page", "/json", "/text", "/long", "/gzip", "/empty", "/cookies", "/moved", "/found", "/missing", "/broken", "/folded")
gets("/nothing", "/chunks", "/chunks-gzip", "/slow-chunks", "/slow-body", "/open", "/old", "/range", "/etag")


def fails(*paths, timeout=20):
    """Adds two scenarios for each path: the page raises an exception when it is read, at once and as a stream."""
    for path in paths:
        SCENARIOS[f"error {path}"] = lambda session, base, path=path: error_of(
            lambda: session.get(base + path, timeout=timeout).content
        )
        SCENARIOS[f"error in the stream {path}"] = lambda session, base, path=path: streamed(session, base + path, timeout)


def streamed(session, url, timeout):
    got, pieces = error_of(lambda: session.get(url, timeout=timeout, stream=True)), []
    if isinstance(got, str):
        return got

    def read():
        for piece in got.iter_content(4):
            pieces.append(piece)

    return seen(got), error_of(read), b"".join(pieces)


fails("/cut-length", "/cut-chunk", "/cut-last-chunk", "/no-chunk", "/no-http", "/no-response", "/no-gzip")
fails("/stall", "/stall-chunks", "/silent", timeout=0.3)


@scenario
def errors_before_a_response(session, base):
    refused = lambda: session.get("http://127.0.0.1:9/")
    return [
        error_of(refused),
        error_of(lambda: session.get("http:///x")),
        error_of(lambda: session.get(base + "/loop")),
        error_of(lambda: session.get(base + "/page", timeout=(1, 2, 3))),
        error_of(lambda: session.get(base + "/page", headers={"X": "a\nb"})),
        error_of(lambda: session.get(base + "/missing").raise_for_status()),
    ]


@scenario
def methods(session, base):
    return [whole(session.request(name, base + "/echo")) for name in ("GET", "POST", "PUT", "PATCH", "DELETE", "OPTIONS")]


@scenario
def heads(session, base):
    return [whole(session.head(base + path)) for path in ("/page", "/gzip", "/missing", "/empty", "/moved")]


@scenario
def a_head_as_a_stream(session, base):
    got = session.head(base + "/long", stream=True)
    return seen(got), got.raw.read(), got.content


@scenario
def bodies_of_requests(session, base):
    url = base + "/echo"
    return [
        session.post(url, data=b"bytes").text,
        session.post(url, data="text é").text,
        session.post(url, data={"a": "1", "b": ["2", "3"]}).text,
        session.post(url, json={"a": 1}).text,
        session.post(url, data=io.BytesIO(b"file")).text,
        session.post(url, data=(piece for piece in (b"one", b"two"))).text,
        session.put(url, data=b"").text,
        session.get(url, data=b"a get with a body").text,
    ]


@scenario
def fields_of_requests(session, base):
    return [
        session.get(base + "/echo", headers={"X-CaSe": "v", "ACCEPT": "text/*", "User-Agent": None}).text,
        session.get(base + "/echo", headers={"Host": "other.test"}).text,
        session.get(base + "/echo", headers={b"X-Bytes": b"\xe9"}).text,
        session.get(base + "/echo", cookies={"c": "1"}, auth=("u", "p")).text,
        session.get(base.replace("//", "//u:p@") + "/echo").text,
    ]


@scenario
def targets(session, base):
    paths = ("/echo?a=b&c=%20d", "/echo?", "/echo?x#part", "/echo?é", "/echo?a=[1]|{2}")
    return [(got.text, got.url.partition("/echo")[2]) for got in (session.get(base + path) for path in paths)]


@scenario
def redirections_with_bodies(session, base):
    return [
        whole(session.post(base + "/other", data=b"x")),
        whole(session.post(base + "/again", data=b"x")),
        whole(session.post(base + "/other", data=b"x", allow_redirects=False)),
    ]


@scenario
def digest(session, base):
    got = session.get(base + "/secret", auth=HTTPDigestAuth("user", "secret"))
    return got.status_code, got.content, [hop.status_code for hop in got.history]


@scenario
def conditional(session, base):
    session.get(base + "/etag")
    return [whole(session.get(base + "/etag", headers={"If-None-Match": tag})) for tag in ('"x"', '"y"')]


@scenario
def a_range(session, base):
    return whole(session.get(base + "/range", headers={"Range": "bytes=2-4"}))


@scenario
def cookies_of_the_session(session, base):
    session.get(base + "/found")
    session.get(base + "/cookies")
    return session.cookies.get_dict(), session.get(base + "/echo").text


@scenario
def pieces(session, base):
    def lengths(path, size):
        return [len(piece) for piece in session.get(f"{base}{path}?{size}", stream=True).iter_content(size)]

    paths = ("/long", "/chunks", "/gzip", "/empty", "/open")
    return [lengths(path, size) for path in paths for size in (1000, 65_536)] + [lengths("/chunks", None)]


@scenario
def zipped_pieces(session, base):
    return [
        b"".join(session.get(f"{base}{path}?{size}", stream=True).iter_content(size))
        for path in ("/gzip", "/chunks-gzip")
        for size in (1, 100, None)
    ]


@scenario
def lines(session, base):
    got = session.get(base + "/text", stream=True)
    return list(got.iter_lines()), list(session.get(base + "/text").iter_lines(decode_unicode=True))


@scenario
def raw_bytes(session, base):
    count = itertools.count()

    def raw(path):
        return session.get(f"{base}{path}?{next(count)}", stream=True).raw

    copy = io.BytesIO()
    shutil.copyfileobj(raw("/gzip"), copy)
    begun = raw("/long")
    return [
        copy.getvalue() == ZIPPED,
        raw("/gzip").read() == ZIPPED,
        raw("/gzip").read(decode_content=True) == TEXT,
        raw("/chunks-gzip").read() == ZIPPED,
        raw("/chunks-gzip").data == ZIPPED,
        [begun.read(3), begun.read(5), begun.tell(), begun.read(0), len(begun.read()), begun.read(), begun.read(9)],
        list(raw("/text")),
        io.BufferedReader(raw("/long")).read(100),
        list(raw("/chunks").stream(2000, decode_content=True)),
    ]


@scenario
def the_head_is_there_before_the_body(session, base):
    facts = []
    for path in ("/slow-chunks", "/slow-body"):
        start = time.monotonic()
        pieces = session.get(base + path, stream=True, timeout=20).iter_content(5)
        facts.append((time.monotonic() - start < 0.2, next(pieces), time.monotonic() - start < 0.2, b"".join(pieces)))
    return facts


@scenario
def an_endless_stream(session, base):
    start = time.monotonic()
    with session.get(base + "/events", stream=True, timeout=5) as got:
        lines = list(itertools.islice(got.iter_lines(chunk_size=100), 5))
    return lines, time.monotonic() - start < 1


@scenario
def a_response_that_is_closed_early(session, base):
    with session.get(base + "/long", stream=True) as got:
        begun = got.raw.read(10)
    return begun, got.raw.closed, error_of(lambda: len(got.content)), session.get(base + "/page").text


@scenario
def a_response_is_read_once(session, base):
    got = session.get(base + "/page", stream=True)
    list(got.iter_content(100))
    return error_of(lambda: got.content), got.raw.closed, got.raw.read(), list(got.raw.stream(10))


@scenario
def a_pickled_response(session, base):
    got = pickle.loads(pickle.dumps(session.get(base + "/page")))
    return got.status_code, got.headers["Content-Type"], got.content, got.url.partition("/page")[1]


@scenario
def hooks_and_times(session, base):
    called = []
    got = session.get(base + "/page", hooks={"response": lambda response, **_: called.append(response.status_code)})
    return called, got.elapsed.total_seconds() < 5, got.connection is session.get_adapter(base)
