"""Checks audits of heads of responses on standard input, as `curl -sI`, `curl -sIL` and `curl -si` print them.

A case is a name and the parts of an input: heads that are listed, heads that are skipped, and bytes that are no head. The
expected rows follow from the parts: the N-th listed head is `head N`, and its size is the bytes of the head and of its body. An
input that can't be read has an error in place of rows. The statuses, lengths and lines were worked out by hand.

A text is a name, options, heads, and the lines of the report for each head. The lines were worked out by hand from RFC 9111:
what sets the lifetime (5.2.2, 5.3, 4.2.2), whether the response may be stored (3), and its age (4.2.3). The line on visits was
worked out from sections 4.2 and 4.3.1: whether a stored response needs validation an hour, a day and a week later, and can be
validated.
"""
import json
import re
import subprocess
from dataclasses import dataclass, field

MOST = 2**64 - 1
SECONDS = 10
DATE = "Date: Thu, 01 Jan 2026 00:00:00 GMT"


@dataclass
class Part:
    """Bytes of an input. A listed head has a status, the length of its body, and further members of its row."""
    text: bytes
    status: int = 0
    body: int = 0
    more: dict = field(default_factory=dict)


@dataclass
class Case:
    name: str
    parts: list
    error: str = ""


def lines(*texts, end=b"\r\n"):
    """Returns the lines of a head, and an empty line."""
    return b"".join((text.encode("latin-1") if isinstance(text, str) else text) + end for text in (*texts, ""))


def head(*texts, status=200, body=0, end=b"\r\n", **more):
    return Part(lines(*texts, end=end), status, body, more)


def cut(part, count):
    """Returns a head without its last bytes."""
    return Part(part.text[:-count], part.status, part.body, part.more)


def usual():
    """Returns cases of what curl prints."""
    old = head("HTTP/1.1 200 OK", DATE, "Cache-Control: max-age=60", "Content-Length: 1256", body=1256, new_lifetime=60)
    new = head("HTTP/2 200 ", DATE.lower(), "cache-control: max-age=3600", "content-length: 5", body=5, new_lifetime=3600)
    moved = head("HTTP/1.1 301 Moved Permanently", "Location: https://example.com/", "Content-Length: 0", status=301)
    hints = Part(lines("HTTP/2 103 ", "link: </a.css>; rel=preload"))
    proxy = Part(lines("HTTP/1.1 200 Connection established"))
    named = head("HTTP/1.0 200 Connection established", "Proxy-agent: tinyproxy/1.11")
    page = Part(b"<p>\r\n\r\nHTTP/1.1 404 Not Found\r\n\r\n")
    return [
        Case("HTTP/1.1", [old]),
        Case("HTTP/2, whose status line ends in a blank", [new]),
        Case("HTTP/3", [head("HTTP/3 200 ", "age: 1")]),
        Case("HTTP/2.0 of an old curl", [head("HTTP/2.0 200", "age: 1")]),
        Case("HTTP/1.0", [head("HTTP/1.0 404 Not Found", "Age: 1", status=404)]),
        Case("a redirect and its target, as of -L", [moved, new]),
        Case("the same twice, each a target of its own", [new, new]),
        Case("a head and its body, as of -i", [old, page]),
        Case("a body that ends in no line", [new, Part(b"{}")]),
        Case("an interim response", [Part(lines("HTTP/1.1 100 Continue")), old]),
        Case("two interim responses", [hints, hints, new]),
        Case("a proxy's answer to CONNECT", [proxy, new]),
        Case("a proxy's answer, an interim response", [proxy, hints, new]),
        Case("a proxy's answer that has a field is listed", [named, new]),
        Case("a 200 without fields is listed if no head follows", [head("HTTP/1.1 200 OK")]),
        Case("a 200 without fields is listed before a body", [head("HTTP/1.1 200 OK"), Part(b"a\n")]),
        Case("another status without fields is listed", [head("HTTP/1.1 204", status=204), new]),
        Case("no reason and no blank", [head("HTTP/1.1 304", 'ETag: "a"', status=304)]),
        Case("a reason in another script", [head("HTTP/1.1 200 gr\xfc\xdf", "Age: 1")]),
        Case("Expires after Date", [head("HTTP/1.1 200 OK", DATE, "Expires: Thu, 01 Jan 2026 00:01:40 GMT", new_lifetime=100)]),
        Case("a status that is in no registry", [head("HTTP/1.1 999 ", "Age: 1", status=999)]),
    ]


def ends():
    """Returns cases of how lines and heads end."""
    bare = head("HTTP/1.1 200 OK", "Cache-Control: max-age=9", end=b"\n", new_lifetime=9)
    full = head("HTTP/1.1 200 OK", "Cache-Control: max-age=9", new_lifetime=9)
    mixed = Part(b"HTTP/1.1 200 OK\nCache-Control: max-age=9\r\n\n", 200, 0, {"new_lifetime": 9})
    return [
        Case("lines that end in LF", [bare, bare]),
        Case("lines of both kinds", [mixed, full]),
        Case("no empty line at the end", [full, cut(full, 2)]),
        Case("no empty line at the end, lines that end in LF", [bare, cut(bare, 1)]),
        Case("no line end at the end", [full, cut(full, 4)]),
        Case("no line end at the end, lines that end in LF", [cut(bare, 2)]),
        Case("an end between CR and LF of the empty line", [cut(full, 1)]),
        Case("an end between CR and LF of the last field", [cut(full, 3)]),
        Case("an end within the status line", [Part(b"HTTP/2 200", 200)]),
        Case("empty lines between heads", [full, Part(b"\r\n\n\r\n"), full, Part(b"\n\n")]),
        Case("empty lines before a body", [full, Part(b"\r\n\r\nHTTP\r\n")]),
        Case("a body that begins like a head", [full, Part(b"HTTP/ is a protocol\n")], at(4)),
        Case("CR CR LF at a field", [Part(b"HTTP/1.1 200 OK\r\nAge: 1\r\r\n\r\n")], at(1)),
        Case("CR CR LF in place of an empty line", [full, Part(b"HTTP/1.1 200 OK\r\nAge: 1\r\n\r\r\n")], at_field(6, "")),
        Case("CR without LF in a value", [Part(lines("HTTP/1.1 200 OK", "Age: 1\r2"))], at_field(2, "Age")),
        Case("blanks in place of an empty line", [Part(b"HTTP/1.1 200 OK\r\nAge: 1\r\n \r\n")], at_field(3, " ")),
    ]


def sizes():
    """Returns cases of the length of a body (RFC 9110, section 8.6)."""
    def of(*values, body=0):
        return Case(f"Content-Length {values}", [head("HTTP/1.1 200 OK", *(f"Content-Length:{value}" for value in values), body=body)])

    return [
        of("0"), of(" \t7\t ", body=7), of("007", body=7), of("7", "7"), of("7", "8"), of("7, 7"), of("7,"), of("+7"), of("-7"),
        of("7.0"), of("1e3"), of("0x7"), of(""), of("7 7"), of("\xb7"), of("9007199254740993", body=9007199254740993),
        of(str(MOST), body=MOST), of(str(MOST + 1), body=MOST), of("9" * 1000, body=MOST),
    ]


def at(line):
    return f"not a response head at line {line}"


def at_field(line, name):
    return f"not a field at line {line}: '{name}'"


def refused():
    """Returns cases of what is no head of a response (RFC 9112, sections 4 and 5)."""
    full = head("HTTP/1.1 200 OK", "Age: 1")
    statuses = ["HTTP/", "HTTP/1.1", "HTTP/2", "HTTP/2 ", "HTTP/1.1 20 OK", "HTTP/1.1 2000 OK", "HTTP/1.1 099 OK", "HTTP/1.1 000 OK",
                "HTTP/1.1 abc", "HTTP/1.1 -20 OK", "HTTP/1.1  200 OK", "HTTP/1.1\t200 OK", "HTTP/1.2 200 OK", "HTTP/0.9 200 OK",
                "HTTP/4 200 ", "HTTP/20 200 ", "HTTP/2.1 200 ", "HTTP/1.1 200OK", "HTTP/1.1 200 \0", "HTTP/1.1 200 O\x7fK"]
    # The line of a field, and the name in the error.
    fields = [("Age", "Age"), (": 1", ""), ("Age : 1", "Age "), ("A ge: 1", "A ge"), (" Age: 1", " Age"), ("\tAge: 1", "?Age"), ("Age: \0", "Age"),
              ("Age: \x7f", "Age"), ("Age: \x1b[1m", "Age"), ("\xc4ge: 1", "?ge"), ("A(ge: 1", "A(ge")]
    return [
        *[Case(f"status line {text!r}", [Part(lines(text, "Age: 1"))], at(1)) for text in statuses],
        *[Case(f"field line {text!r}", [full, Part(lines("HTTP/2 200 ", "Via: 1.1 a", text))], at_field(6, name)) for text, name in fields],
        Case("a folded value", [Part(lines("HTTP/1.1 200 OK", "Via: 1.1 a,", " 1.1 b"))], at_field(3, " 1.1 b")),
        Case("a request", [full, Part(lines("HTTP/ HTTP/1.1", "Host: a"))], at(4)),
        Case("lines are counted in skipped heads too", [Part(lines("HTTP/1.1 100 ")), Part(b"\n\n"), Part(lines("HTTP/"))], at(5)),
        Case("what follows an unreadable head doesn't count", [Part(lines("HTTP/1.1")), full], at(1)),
        Case("only an interim response", [Part(lines("HTTP/1.1 100 Continue"))], "no response head"),
        Case("only an upgrade", [Part(lines("HTTP/1.1 101 Switching Protocols", "Upgrade: a")), Part(b"\0\1")], "no response head"),
        Case("only a proxy's answer, and an interim response", [Part(lines("HTTP/1.1 200 ")), Part(lines("HTTP/1.1 100 "))], "no response head"),
    ]


def large():
    """Returns cases of large inputs."""
    full = head("HTTP/2 200 ", "age: 1")
    names = [f"x{number}: 1" for number in range(24_577)]
    return [
        Case("a name of 65,535 bytes", [head("HTTP/1.1 200 OK", "a" * 65_535 + ": 1")]),
        Case("a name of 65,536 bytes", [Part(lines("HTTP/1.1 200 OK", "a" * 65_536 + ": 1"))], at_field(2, "a" * 40)),
        Case("a value of 10 MB", [head("HTTP/1.1 200 OK", "Via: " + "a" * 10_000_000), full]),
        Case("10 MB of fields of one name", [head("HTTP/1.1 200 OK", *["Via: 1.1 aaa"] * 700_000), full]),
        Case("24,576 names", [head("HTTP/1.1 200 OK", *names[:-1]), full]),
        Case("24,577 names", [full, Part(lines("HTTP/1.1 200 OK", *names))], "too many fields in the response head at line 4"),
        Case("a status line of 10 MB", [head("HTTP/1.1 200 " + "a" * 10_000_000, "Age: 1")]),
        Case("10 MB without a line end", [Part(b"HTTP/" + b"1" * 10_000_000)], at(1)),
        Case("10 MB of empty lines", [full, Part(b"\r\n" * 5_000_000), full, Part(b"\n" * 5_000_000)]),
        Case("10 MB of a body", [full, Part(b"\n\r\n" + b"a\r\n\r\n" * 2_000_000)]),
        Case("20,000 heads", [full] * 20_000),
        Case("100,000 heads that are skipped", [Part(lines("HTTP/1.1 200 "))] * 50_000 + [Part(lines("HTTP/2 100 "))] * 50_000 + [full]),
        Case("a fault after 50,000 heads", [full] * 50_000 + [Part(b"HTTP/")], at(150_001)),
    ]


def cases():
    return [*usual(), *ends(), *sizes(), *refused(), *large()]


def wanted(case):
    """Returns the expected row of each listed head, or nothing if the input can't be read."""
    listed = [part for part in case.parts if part.status]
    rows = [
        {"url": f"head {number}", "status": part.status, "sent": min(len(part.text) + part.body, MOST), **part.more}
        for number, part in enumerate(listed, 1)
    ]
    return [] if case.error else rows


TYPES = {"css": "text/css", "html": "text/html; charset=utf-8", "png": "image/png"}
BROWSER = "as a browser's cache (--shared: a CDN's)"
CDN = "as a CDN's cache (--private: a browser's)"
TAG = 'ETag: "a"'
AGAIN = "again again again"
TAGGED = "304 304 304"


@dataclass
class Text:
    """Heads of an input. For each, `wanted` has the texts for a browser's cache, a CDN's and three visits, and other lines."""
    name: str
    heads: list
    wanted: list
    words: tuple = ()


def page(kind, *texts, status=200, body=0):
    """Returns a head of a type that was sent at the start of 2026, before a body of so many bytes."""
    return head(f"HTTP/1.1 {status} ", DATE, f"Content-Type: {TYPES[kind]}", f"Content-Length: {body}", *texts, status=status, body=body)


def lifetimes():
    """Returns texts on what sets a lifetime, and what is left of it at the receipt."""
    def of(name, texts, both, visits, *more, kind="css"):
        return Text(name, [page(kind, *texts)], [(*both, visits, *more)])

    def same(text):
        return text, text

    week = "send: Cache-Control: max-age=604800"
    tagged = "send: an ETag"
    expires, past = "Thu, 01 Jan 2026 00:01:40 GMT", "Wed, 31 Dec 2025 23:59:59 GMT"
    # It is ten days before the Date, so the heuristic lifetime is a day.
    modified = "Mon, 22 Dec 2025 00:00:00 GMT"
    no_control = "wrong: Expires without Cache-Control -> Cache-Control: max-age=N"
    return [
        of("a minute, of which ten seconds are gone", ["Cache-Control: max-age=60", "Age: 10", TAG],
           same("60 s by max-age=60, age 10 s, 50 s left"), TAGGED, week),
        of("a minute that is gone", ["Cache-Control: max-age=60", "Age: 60", TAG], same("60 s by max-age=60, age 60 s, 0 s left"), TAGGED, week),
        of("a minute that is long gone", ["Cache-Control: max-age=60", "Age: 7200", TAG],
           same("60 s by max-age=60, age 2 h, 0 s left"), TAGGED, week),
        of("an age of 0", ["Cache-Control: max-age=60", "Age: 0", TAG], same("60 s by max-age=60"), TAGGED, week),
        of("an age that is no number", ["Cache-Control: max-age=60", "Age: -1", TAG], same("60 s by max-age=60"), TAGGED, week),
        of("a day and a second", ["Cache-Control: max-age=86401", TAG], same("1 d by max-age=86401"), "nothing nothing 304"),
        of("a day", ["Cache-Control: max-age=86400", TAG], same("1 d by max-age=86400"), "nothing 304 304", week),
        of("an hour, of which a second is gone", ["Cache-Control: max-age=3601", "Age: 1", TAG],
           same("1 h by max-age=3601, age 1 s, 1 h left"), TAGGED, week),
        of("a week", ["Cache-Control: max-age=604800", TAG], same("7 d by max-age=604800"), "nothing nothing 304"),
        of("a year", ["Cache-Control: public, max-age=31536000, immutable"], same("365 d by max-age=31536000"), "nothing nothing nothing"),
        of("two kinds of cache", ["Cache-Control: max-age=60, s-maxage=7200", TAG], ("60 s by max-age=60", "2 h by s-maxage=7200"), TAGGED, week),
        of("a directive in other letters", ["Cache-Control: MAX-age=60", TAG], same("60 s by MAX-age=60"), TAGGED, week),
        of("seconds that are none", ["Cache-Control: max-age=1h", TAG], same("0 s by max-age unreadable (max-age=1h)"), TAGGED,
           "wrong: a max-age that can't be read -> a number of seconds", week),
        of("Expires", [f"Expires: {expires}"], same(f"100 s by expires ({expires})"), AGAIN, no_control, tagged, kind="html"),
        of("Expires in the past", [f"Expires: {past}"], same(f"0 s by expires past ({past})"), AGAIN, no_control, tagged, kind="html"),
        of("Expires that is no date", ["Expires: a\tb"], same("0 s by expires unreadable (a?b)"), AGAIN, no_control,
           "wrong: an Expires that can't be read -> Cache-Control: max-age=N", tagged, kind="html"),
        of("Last-Modified", [f"Last-Modified: {modified}"], same(f"1 d by last-modified ({modified})"), "nothing 304 304", week, kind="png"),
        of("no-cache", ["Cache-Control: no-cache", TAG], same("0 s by no-cache"), TAGGED, kind="html"),
        of("nothing", [], same("0 s by none given"), AGAIN, tagged, kind="html"),
    ]


def storing():
    """Returns texts on responses that may not be stored, or that only one kind of cache stores."""
    def of(name, head, browser, cdn, visits, *more, words=()):
        return Text(name, [head], [(browser, cdn, visits, *more)], words)

    minutes, private = "10 min by max-age=600", "not stored: private"
    own = page("html", "Cache-Control: private, max-age=600", body=9000)
    cookie = page("html", "Cache-Control: max-age=600", "Set-Cookie: a=secret")
    shown = page("css", "Cache-Control: max-age=60, s-maxage=7200", TAG)
    return [
        of("a private page", own, minutes, private, AGAIN, "send: an ETag"),
        of("a private page, of which a CDN is asked", own, minutes, private, AGAIN, words=("--shared",)),
        of("a browser's cache is asked if that is said", own, minutes, private, AGAIN,
           "send: an ETag", words=("--private",)),
        of("a page that sets a cookie", cookie, minutes, "0 s by set-cookie", AGAIN, "send: an ETag"),
        of("two hours in a CDN", shown, "60 s by max-age=60", "2 h by s-maxage=7200", "nothing 304 304", "send: Cache-Control: max-age=604800",
           words=("--shared",)),
        # Nothing is advised in place of a no-store.
        of("an image that isn't stored", page("png", "Cache-Control: no-store"), *["not stored: no-store"] * 2, AGAIN,
           "wrong: no-store on a part of pages -> a lifetime, if it may lie on a disk"),
        of("a page that isn't stored", page("html", "Cache-Control: no-store"), *["not stored: no-store"] * 2, AGAIN),
        of("an error", page("html", "Cache-Control: max-age=600", status=500), *["not stored: status 500"] * 2, AGAIN),
        of("a part", page("html", "Cache-Control: max-age=600", status=206), *["not stored: status 206"] * 2, AGAIN),
        of("a page that is missing", page("html", status=404), *["0 s by none given"] * 2, AGAIN),
        of("a redirect without a lifetime", page("html", status=302), *["not stored: status 302 without a lifetime"] * 2, AGAIN),
        of("a redirect with one", page("html", "Cache-Control: max-age=600", status=302), minutes, minutes, AGAIN),
        of("a redirect for ever", page("html", status=301), *["0 s by none given"] * 2, AGAIN,
           "wrong: a permanent redirect without a lifetime -> Cache-Control: max-age=N, or no-cache"),
        of("a 304", page("html", TAG, status=304), *["not stored: status 304"] * 2, AGAIN),
    ]


def faulty():
    """Returns texts on headers that look wrong."""
    def of(name, texts, text, visits, *more):
        return Text(name, [page("css", *texts)], [(text, text, visits, *more)])

    return [
        of("an ETag without quotes", ["Cache-Control: max-age=600", "ETag: a"], "10 min by max-age=600", TAGGED,
           "wrong: an ETag without quotes -> the ETag in quotes", "send: Cache-Control: max-age=604800"),
        # No lifetime makes a stored response with it answer a request.
        of("Vary: *", ["Cache-Control: max-age=600", TAG, "Vary: *"], "0 s by vary *", AGAIN, "wrong: Vary: * -> no Vary"),
        of("an Expires that max-age overrides", ["Cache-Control: max-age=31536000", "Vary: Cookie", f"Expires: {DATE[6:]}"], "365 d by max-age=31536000",
           "nothing nothing nothing", "wrong: Vary: Cookie -> private if it is one user's, else no Vary"),
    ]


def several():
    """Returns texts with several heads. The visits of each head are after its own Date."""
    later = Part(page("css", "Cache-Control: max-age=7200", TAG).text.replace(b"00:00:00", b"03:00:00"), 200)
    moved = page("html", "Location: /a.css", "Cache-Control: max-age=7200", status=301, body=10)
    hours = "2 h by max-age=7200"
    week = "send: Cache-Control: max-age=604800"
    undated = head("HTTP/2 200 ", "content-type: text/css", "cache-control: max-age=7200", 'etag: "a"')
    return [
        Text("a redirect and its target", [moved, later],
             [(hours, hours, "nothing again again"), (hours, hours, "nothing 304 304", week)]),
        Text("the later one first", [later, moved], [(hours, hours, "nothing 304 304", week), (hours, hours, "nothing again again")]),
        Text("a head without a Date", [undated, moved], [(hours, hours, "nothing 304 304", week), (hours, hours, "nothing again again")]),
    ]


def texts():
    return [*lifetimes(), *storing(), *faulty(), *several()]


def kilobytes(count):
    tenths = (count + 50) // 100
    return f"{tenths // 10}.{tenths % 10} kB"


def text_lines(text):
    """Yields the expected lines of a text."""
    count = len(text.heads)
    yield f"{count} head{'' if count == 1 else 's'}, {CDN if '--shared' in text.words else BROWSER}"
    for number, (part, (browser, cdn, visits, *more)) in enumerate(zip(text.heads, text.wanted), 1):
        hour, day, week = visits.split()
        yield from ["", f"head {number}, status {part.status}, {kilobytes(len(part.text) + part.body)}"]
        yield from [f"  browser:  {browser}", f"  CDN:      {cdn}", f"  a visit:  {hour} in an hour, {day} in a day, {week} in a week"]
        yield from (f"  {name + ':':<10}{rest}" for name, _, rest in (line.partition(": ") for line in more))


def run_by(program, given, words):
    """Returns what a program prints for an input, and the line on standard error without `cacheaudit: heads: `."""
    ended = subprocess.run([program, *words], input=given, capture_output=True, timeout=SECONDS)
    return ended.stdout.decode(), ended.stderr.decode().rstrip("\n").removeprefix("cacheaudit: heads: ")


def rows_of(output):
    """Returns the objects of heads in the order of the input. They are printed in the order of their times."""
    rows = [json.loads(line) for line in output.splitlines()]
    return sorted((row for row in rows if "url" in row), key=lambda row: row["i"])


def row_faults(program, audit):
    """Returns how many heads and errors were compared, and the faults."""
    count, faults = 0, []
    for case in cases():
        out, error = audit(program, b"".join(part.text for part in case.parts), ("--json-lines",))
        rows, right = rows_of(out), wanted(case)
        seen = [{name: row.get(name) for name in want} for row, want in zip(rows, right)]
        count += max(len(right), 1)
        faults += [(case.name, a, b) for a, b in zip(seen, right) if a != b]
        faults += [(case.name, len(rows), len(right))] if len(rows) != len(right) else []
        faults += [(case.name, error, case.error)] if error != case.error else []
    return count, faults


def text_faults(program, audit):
    """Returns how many texts were compared, and those that differ."""
    faults = []
    for text in texts():
        out, error = audit(program, b"".join(part.text for part in text.heads), text.words)
        right = "\n".join([*text_lines(text), ""])
        faults += [(text.name, out, error, right)] if (out, error) != (right, "") else []
    return len(texts()), faults


def form_faults(program, audit):
    """Returns how many of the smaller inputs were reported, and the faults: a head that is missing, or an unprintable byte."""
    count, faults = 0, []
    for case in cases():
        given = b"".join(part.text for part in case.parts)
        if len(given) > 2000:
            continue
        out, error = audit(program, given, ())
        names = re.findall(r"^(head \d+), status (\d+), ", out, re.M)
        right = [(row["url"], str(row["status"])) for row in wanted(case)]
        count += 1
        faults += [(case.name, out, error)] if (names, error) != (right, case.error) or re.search(r"[^ -~\n]", out) else []
    return count, faults


def head_faults(program, audit=run_by):
    """Returns how many heads, errors and texts were compared, and the faults. `audit` returns the output and the error."""
    found = [row_faults(program, audit), text_faults(program, audit), form_faults(program, audit)]
    return sum(count for count, _ in found), [fault for _, some in found for fault in some]
