"""Random lists of frames for tests/lists. A list is made beside the model, so that tokens and validators are often right."""
import random
from time import gmtime, strftime

from model import Cache
from model_fields import FORMS, date_text
from model_proxy import Proxy

START = 1_767_225_600_000
STEPS = {0: 12, 250: 3, 1000: 8, 2000: 4, 5000: 5, 10_000: 3, 30_000: 2, 60_000: 1, 600_000: 1, 7_200_000: 1}
METHODS = {"GET": 48, "HEAD": 8, "POST": 2, "PUT": 1, "DELETE": 1, "OPTIONS": 1, "QUERY": 1, "PATCH": 1, "TRACE": 1}
PATHS = {"/1": 6, "/2": 2, "/3?q": 2}
HOSTS = {"a.test": 40, "A.test": 1, "b.test": 1, "a.test:80": 1}
STATUSES = {
    200: 48, 203: 1, 204: 1, 205: 1, 206: 1, 301: 1, 302: 1, 304: 2, 307: 1, 404: 3, 410: 1, 418: 1, 500: 1, 501: 1, 502: 1,
    503: 2, 504: 1, 599: 1,
}
TAGS = {None: 3, '"a"': 6, '"b"': 3, 'W/"a"': 1, '"c,d"': 1}
ASKED = [
    "no-cache", "no-store", "max-age=0", "max-age=5", "max-age=60", "min-fresh=5", "max-stale", "max-stale", "max-stale=60",
    "only-if-cached", "stale-if-error=60", "max-age=20, max-stale", "only-if-cached, max-stale", "Max-Age=3", "max-age=x",
]
SAID = {
    "max-age=10": 12, "max-age=60": 8, "max-age=0": 2, "no-store": 2, "no-cache": 2, "private, max-age=60": 2, "public": 1,
    "max-age=5, must-revalidate": 3, "s-maxage=3": 6, "s-maxage=0, max-age=60": 2, "public, max-age=10": 2,
    "max-age=5, stale-while-revalidate=60": 10, "max-age=5, stale-if-error=60": 10, "max-age=60, immutable": 1, "immutable": 1,
    "max-age=1, stale-while-revalidate=600, stale-if-error=600": 12, "max-age=10, max-age=20": 1, 'max-age="10"': 1,
    "max-age=5, proxy-revalidate": 2, "private": 1, "no-cache, max-age=60": 1, "max-age=3600": 4, 'max-age=9, x="a, public"': 1,
    'x="a, max-age=60"': 1, 'max-age=9, x="a, public, b"': 1, "stale-if-error=600": 2,
}
VARIES = {"Accept-Language": 6, "Cookie": 1, "accept-language, Cookie": 1, "*": 1, "Authorization": 1, "Accept-Language, *": 1}
LANGUAGES = ["en", "de", "en, de"]


def head_text(first, fields):
    return "".join([first + "\r\n", *(f"{name}: {value}\r\n" for name, value in fields), "\r\n"]).encode()


def cache_of(options, faults=frozenset()):
    """Returns a model with these options of the process."""
    kind = Proxy if options["proxy"] else Cache
    return kind(**{name: value for name, value in options.items() if name != "proxy"}, faults=faults)


class List:
    """A list of frames that is made, and the model's replies. With restarts the process begins anew before some frames, over
    what it has stored in a directory."""

    def __init__(self, seed, with_restarts=False, most=50):
        self.random = random.Random(seed)
        self.options = {"private": self.has(3), "requests": 10_000, "stored_body": 8_388_608}
        if self.has(4):
            self.options.update(requests=self.random.choice([2, 4, 10_000]), stored_body=self.random.choice([3, 5]))
        self.options["proxy"] = self.has(2)
        self.cache = cache_of(self.options)
        self.now, self.id, self.frames, self.replies = START, 0, [], []
        self.restarts = []
        for index in range(self.random.randint(most // 4, most - 2)):
            if with_restarts and self.has(20):
                self.restarts.append(index)
                self.cache.restart()
            self.add(*self.frame())
        self.add({"stats": self.number()})
        self.add({"quit": self.number()})

    def has(self, one_in):
        return self.random.random() * one_in < 1

    def pick(self, weights):
        return self.random.choices(list(weights), list(weights.values()))[0]

    def number(self):
        self.id += 1
        return self.id

    def add(self, line, head=b"", body=b""):
        self.frames.append((line, head, body))
        self.replies.append(self.cache.reply(line, head, body))

    def frame(self):
        self.now += self.pick(STEPS)
        tokens = list(self.cache.under_way.values())
        weights = {self.ask: 16, self.rare: 1, self.wrong: 1}
        if tokens:
            weights[self.outcome] = 14 + 6 * len(tokens)
        return self.pick(weights)()

    # Requests

    def ask(self):
        method, path, host = self.pick(METHODS), self.pick(PATHS), self.pick(HOSTS)
        target = f"http://{host}{path}" if self.has(12) else path
        body = b"asked" if method in ("POST", "PUT", "PATCH", "QUERY") or self.has(40) else b""
        line = {"ask": self.number(), "at": self.now}
        if self.has(8) and method in ("GET", "HEAD"):
            line["wait"] = True
        if self.has(6):
            line["pieces"] = self.random.choice([1, 2, 4])
        if body and self.has(3):
            line["rest"], body = self.random.choice([True, len(body)]), b""
        fields = [("Host", host), *self.asked_fields()]
        if "rest" not in line and self.has(3 if body else 40):
            fields.append(("Content-Length", str(len(body))))
        return line, head_text(f"{method} {target} HTTP/1.1", fields), body

    def asked_fields(self):
        fields = [("Accept-Language", self.random.choice(LANGUAGES))] if self.has(2) else []
        for one_in, name, values in (
            (5, "Cache-Control", ASKED), (40, "Pragma", ["no-cache", "x"]), (12, "Authorization", ["Basic YQ=="]),
            (12, "Cookie", ["a=1", "a=2"]), (8, "If-None-Match", ['"a"', '"b"', 'W/"a", "x"', "*", '"c,d"']),
            (20, "If-Modified-Since", [self.date(-3600), self.date(0), "soon"]), (20, "Range", ["bytes=0-1"]),
            (40, "If-Match", ['"a"']), (40, "If-Range", ['"a"']), (20, "X-Own", ["x"]), (30, "Accept-Language", LANGUAGES),
            (40, "Cache-Control", ASKED), (40, "Connection", ["X-Own", "close", "accept-language"]),
            (40, "Expect", ["100-continue"]), (30, "Via", ["1.0 first", "1.1 cacheserve", "1.1 first, 1.0 second"]),
            (20, "Max-Forwards", ["0", "3"]), (80, "Host", ["a.test", "b.test"]),
        ):
            if self.has(one_in):
                fields.append((name, self.random.choice(values)))
        return fields

    def date(self, seconds):
        """Returns a date near now, or now and then near the start."""
        return date_text((START if self.has(12) else self.now) + 1000 * seconds)

    def obsolete(self, seconds):
        """Returns a date in each obsolete form."""
        return [strftime(form, gmtime(self.now // 1000 + seconds)) for form in FORMS[1:]]

    # Outcomes

    def outcome(self):
        tokens = list(self.cache.under_way.values())
        token = tokens[-1] if self.has(2) else self.random.choice(tokens)
        if token.state == "pieces":
            return {"next": token.number}, b"", b""
        if token.state == "collect" or (token.state == "more" and not self.has(5)):
            return self.collected(token)
        if self.has(6 if token.is_check else 14):
            return self.failure(token.number)
        return self.response(token)

    def failure(self, number):
        line = {"failed": number, "at": self.now}
        if self.has(2):
            line["why"] = self.random.choice(["invalid", "timeout"])
        return line, b"", b""

    def collected(self, token):
        if self.has(6):
            return self.failure(token.number)
        length = token.response.fields.get("content-length", ["4"])[0]
        left = max(0, (int(length) if length.isdigit() else 4) - len(token.copy))
        if left and self.has(3):
            return {"part": token.number}, b"", self.text(self.random.randint(1, left))
        line = {"complete": token.number}
        if self.has(4):
            line["pieces"] = 2
        return line, b"", self.text(left + (self.has(5)))

    def text(self, length):
        return "".join(self.random.choice("abcdef") for _ in range(length)).encode()

    def status(self, token):
        if token.request.method == "HEAD" and not self.has(3):
            return 200
        if token.is_check and not self.has(3):
            return self.random.choice([304, 304, 304, 500, 503, 599])
        if token.request.method not in ("GET", "HEAD"):
            return self.random.choice([200, 200, 201, 204, 303, 400, 500])
        return self.pick(STATUSES)

    def response(self, token):
        status = self.status(token)
        has_body = status not in (204, 304) and token.request.method != "HEAD"
        body = self.text(self.random.randint(0, 6)) if has_body else b""
        line = {"received": token.number, "at": self.now}
        if self.has(3):
            line["sent"] = self.random.randint(token.at, self.now)
        if self.has(8):
            line["pieces"] = self.random.choice([1, 3])
        fields = self.said_fields(token, status) + self.length_fields(status, body)
        if has_body and self.has(2 if token.is_check else 5):
            line["rest"] = True if self.has(2) else len(body)
            line.update({} if token.state == "more" or self.has(3) else {"collect": True})
            body = b""
        return line, head_text(f"HTTP/1.1 {status} Some", fields), body

    def length_fields(self, status, body):
        if self.has(2):
            return []
        length = len(body) + (self.random.choice([-1, 1, 3]) if self.has(10) and body else 0)
        return [("Content-Length", str(length))] * (2 if self.has(12) else 1)

    def tag(self, token, status):
        one = self.cache.one_of(token) if token.is_check else None
        if one and (status == 304 or token.request.method == "HEAD") and not self.has(4):
            return one.fields.get("etag", [None])[0]
        return self.pick(TAGS)

    def said_fields(self, token, status):
        fields = [("Cache-Control", self.pick(SAID))] if not self.has(5) else []
        tag = self.tag(token, status)
        fields += [("ETag", tag)] if tag else []
        place = 16 if token.request.method in ("GET", "HEAD") else 2
        near = [self.date(0), self.date(0), self.date(0), self.date(-2), self.date(-30), "soon"]
        later = [self.date(10), self.date(60), self.date(-60), "0", "soon", *self.obsolete(60)]
        for one_in, name, values in (
            (3, "Date", near), (10, "Age", ["0", "1", "7", "100", "x", "1, 9"]), (8, "Expires", later),
            (5, "Last-Modified", [date_text(START - 86_400_000), date_text(START - 3_600_000)]), (20, "Set-Cookie", ["a=1"]),
            (5, "Vary", list(VARIES)), (place, "Location", PLACES), (place, "Content-Location", PLACES),
            (30, "Connection", ["close", "X-Own", "X-Own, etag"]), (10, "X-Own", ["1", "2"]), (30, "X-Own", ["3"]),
            (20, "Cache-Status", ["first; hit", "first; fwd=miss, second"]), (40, "Cache-Control", list(SAID)),
            (40, "Pragma", ["no-cache"]), (30, "Via", ["1.1 origin", "1.1 cacheserve"]),
            (30, "Transfer-Encoding", ["chunked"]),
            (40, "Cache-Status", ["third"]), (60, "Content-Encoding", ["gzip"]), (30, "Set-Cookie", ["b=2"]),
        ):
            if self.has(one_in):
                fields.append((name, self.random.choice(values)))
        return fields

    # Other frames

    def rare(self):
        target = self.random.choice(["http://a.test/1", "http://a.test:80/1", "https://A.test/2", "http://b.test/1"])
        return self.random.choice([
            ({"remove": self.number(), "target": target}, b"", b""),
            ({"sweep": self.number(), "at": self.now}, b"", b""),
            ({"stats": self.number()}, b"", b""),
        ])

    def wrong(self):
        """Returns a frame that is refused, or an outcome of a token that may not be under way."""
        number = self.random.randint(0, self.cache.next_token + 1)
        asked = head_text("GET /1 HTTP/1.1", [("Host", "a.test")])
        sent = [token.number for token in self.cache.under_way.values() if token.state in ("sent", "more")]
        return self.random.choice([
            *(self.wrong_responses(sent[0]) if sent else []), ({"received": number, "at": self.now}, PLAIN, b"again"),
            ({"failed": number, "at": self.now}, b"", b""),
            ({"part": number}, b"", b"a"), ({"complete": number}, b"", b""), ({"next": number}, b"", b""),
            ({"such": 1}, b"", b""), ({"ask": self.number()}, asked, b""), ({"received": "x", "at": self.now}, PLAIN, b""),
            ({"ask": self.number(), "at": self.now, "rest": "x"}, asked, b""),
            ({"remove": self.number(), "target": "/1"}, b"", b""),
            ({"ask": self.number(), "at": self.now}, b"GET\r\n\r\n", b""), ({"sweep": self.number()}, b"", b""),
        ])

    def wrong_responses(self, number):
        """Returns frames that are refused, and leave their token under way."""
        line = {"received": number, "at": self.now}
        return [
            (line, b"HTTP/1.1 103 Early Hints\r\n\r\n", b""), (line, b"200\r\n\r\n", b""),
            ({"received": number}, PLAIN, b"again"),
            ({**line, "rest": "x"}, PLAIN, b""), ({**line, "rest": 5}, PLAIN, b"again"), ({"failed": number}, b"", b""),
        ]


PLAIN = head_text("HTTP/1.1 200 OK", [("Cache-Control", "max-age=60")])
PLACES = ["http://a.test/2", "http://a.test/1", "/2", "http://b.test/1", "https://a.test/2", "http://a.test:80/2"]
