"""Puts load on a caching proxy, with an origin server whose pages change, and clients that know which responses are right.

Each page has versions: a POST makes the next version, and now and then one is made without a POST. A page is fresh for a second
and has an ETag, so most requests that aren't hits are validations. A response is wrong if its body differs from the page in the
requested language and in the version of its ETag. It is also wrong if that version was replaced longer ago than a page is
fresh."""
import asyncio
import random
import re
import time
from collections import Counter

LANGUAGES = ("en", "de", "fr")
FRESH = 1
# How many seconds messages may take in addition.
SLACK = 2
POSTS = 0.01


def page(number, version, language):
    return (f"page {number} version {version} language {language} " * 40)[:1000].encode()


async def read_head(reader):
    raw = await reader.readuntil(b"\r\n\r\n")
    first, *lines = raw[:-4].split(b"\r\n")
    fields = (line.partition(b":") for line in lines)
    return first, {name.strip().lower(): value.strip() for name, _, value in fields}


async def read_body(reader, fields):
    """Returns a body, which is in chunks if its length isn't known when its head is sent."""
    if fields.get(b"transfer-encoding") != b"chunked":
        return await reader.readexactly(int(fields.get(b"content-length", 0)))
    body = b""
    while size := int(await reader.readuntil(b"\r\n"), 16):
        body += (await reader.readexactly(size + 2))[:-2]
    await reader.readuntil(b"\r\n")
    return body


class Origin:
    """An origin server with pages that change. It counts its requests."""

    def __init__(self, pages, random_numbers):
        self.pages, self.random = pages, random_numbers
        self.version = Counter()
        self.replaced = {}
        self.asked = Counter()

    def change(self, number):
        version = self.version[number]
        self.replaced[number, version] = time.monotonic()
        self.version[number] = version + 1
        return version + 1

    async def change_some(self):
        while True:
            await asyncio.sleep(0.02)
            self.change(self.random.randrange(self.pages))

    async def serve(self, reader, writer):
        try:
            while True:
                first, fields = await read_head(reader)
                await reader.readexactly(int(fields.get(b"content-length", 0)))
                writer.write(self.response(first, fields))
                await writer.drain()
        except (asyncio.IncompleteReadError, asyncio.CancelledError, ConnectionError):
            pass
        finally:
            writer.close()

    def response(self, first, fields):
        method, target, _ = first.split(b" ", 2)
        number = int(re.sub(rb"^http://[^/]*", b"", target)[1:])
        if method == b"POST":
            self.asked["post"] += 1
            return b"HTTP/1.1 204 No Content\r\nX-Version: %d\r\n\r\n" % self.change(number)
        version, language = self.version[number], fields.get(b"accept-language", b"en")
        tag = b'"%d-%d-%s"' % (number, version, language)
        date = time.strftime("%a, %d %b %Y %H:%M:%S GMT", time.gmtime()).encode()
        common = b"Date: %s\r\nCache-Control: max-age=%d\r\nVary: Accept-Language\r\nETag: %s\r\n" % (date, FRESH, tag)
        if fields.get(b"if-none-match") == tag:
            self.asked["validation"] += 1
            return b"HTTP/1.1 304 Not Modified\r\n" + common + b"\r\n"
        self.asked["page"] += 1
        body = page(number, version, language.decode())
        if self.random.random() < 0.2:
            return b"HTTP/1.1 200 OK\r\n%sTransfer-Encoding: chunked\r\n\r\n%x\r\n%s\r\n0\r\n\r\n" % (common, len(body), body)
        return b"HTTP/1.1 200 OK\r\n%sContent-Length: %d\r\n\r\n%s" % (common, len(body), body)


class Load:
    """The clients, and their counts of responses and faults."""

    def __init__(self, port, origin, requests, seed, pause):
        self.port, self.origin, self.left, self.seed, self.pause = port, origin, requests, seed, pause
        self.counts = Counter()
        self.reasons = Counter()

    def wrong(self, number, language, status, fields, body, began, known):
        """Returns why a response is wrong, or None."""
        if status == 304:
            return None if known and fields.get(b"etag") == known else "a 304 for what the client hasn't"
        if status != 200:
            return f"status {status}"
        tag = re.fullmatch(rb'"(\d+)-(\d+)-(\w+)"', fields.get(b"etag", b""))
        if not tag or (int(tag[1]), tag[3].decode()) != (number, language):
            return f"ETag {fields.get(b'etag')} for page {number} in {language}"
        version = int(tag[2])
        if body != page(number, version, language):
            return f"the body isn't the body of version {version}"
        replaced = self.origin.replaced.get((number, version))
        if replaced and began - replaced > FRESH + SLACK:
            return f"version {version} was replaced {began - replaced:.1f} s before"
        return None

    async def client(self, number):
        numbers, known = random.Random(self.seed * 1000 + number), {}
        connection = None
        while self.left > 0:
            self.left -= 1
            await asyncio.sleep(self.pause)
            try:
                connection = connection or await asyncio.open_connection("127.0.0.1", self.port)
                is_last = await self.ask(*connection, numbers, known)
            except (OSError, asyncio.IncompleteReadError, ValueError) as error:
                self.counts["lost"] += 1
                self.reasons[f"lost: {type(error).__name__}"] += 1
                is_last = True
            if is_last and connection:
                connection[1].close()
                connection = None

    async def ask(self, reader, writer, numbers, known):
        """Sends one request and judges the response. Returns whether the connection ends."""
        is_usual = numbers.random() < 0.5
        number = min(int(numbers.paretovariate(0.6)) - 1, self.origin.pages - 1) if is_usual else numbers.randrange(self.origin.pages)
        if numbers.random() < POSTS:
            writer.write(b"POST /%d HTTP/1.1\r\nHost: load.test\r\nContent-Length: 4\r\n\r\nnext" % number)
            first, fields = await read_head(reader)
            await read_body(reader, fields)
            self.count(None if first.split()[1] == b"204" else f"POST: {first.decode()}", "failed posts")
            return fields.get(b"connection") == b"close"
        language = numbers.choice(LANGUAGES)
        mine = known.get((number, language)) if numbers.random() < 0.2 else None
        conditional = b"If-None-Match: %s\r\n" % mine if mine else b""
        began = time.monotonic()
        writer.write(b"GET /%d HTTP/1.1\r\nHost: load.test\r\nAccept-Language: %s\r\n%s\r\n" % (number, language.encode(), conditional))
        first, fields = await read_head(reader)
        status = int(first.split()[1])
        body = b"" if status == 304 else await read_body(reader, fields)
        self.counts["hits"] += b"; hit" in fields.get(b"cache-status", b"")
        self.count(self.wrong(number, language, status, fields, body, began, mine), "wrong")
        if status == 200:
            known[number, language] = fields[b"etag"]
        return fields.get(b"connection") == b"close"

    def count(self, why, kind):
        self.counts["responses"] += 1
        if why:
            self.counts[kind] += 1
            self.reasons[why] += 1


async def loaded(port, origin_port, requests, seconds, seed=1, meanwhile=None, connections=50, pages=200):
    """Sends so many requests in so many seconds, while `meanwhile` runs.

    Returns the clients' counts, the reasons why responses are wrong, and the origin server's counts of requests."""
    origin = Origin(pages, random.Random(seed))
    server = await asyncio.start_server(origin.serve, "127.0.0.1", origin_port, backlog=512)
    tasks = [asyncio.create_task(origin.change_some())] + ([asyncio.create_task(meanwhile())] if meanwhile else [])
    load = Load(port, origin, requests, seed, seconds * connections / requests)
    await asyncio.gather(*(load.client(number) for number in range(connections)))
    for task in tasks:
        task.cancel()
    server.close()
    return load.counts, load.reasons, origin.asked
