"""Checks the advice in the tables of docs/AUDIT.md. Each table row has a recording here, and the report on the recording has to
print the advice of the row."""
import json
import subprocess
from datetime import datetime, timedelta, timezone
from email.utils import format_datetime
from pathlib import Path

AUDIT = Path(__file__).resolve().parent.parent / "docs" / "AUDIT.md"
START = datetime(2026, 1, 1, tzinfo=timezone.utc)
CSS, HTML, TAG = ("Content-Type", "text/css"), ("Content-Type", "text/html"), ("ETag", '"1"')
PNG, JS = ("Content-Type", "image/png"), ("Content-Type", "text/javascript")
SHORT, COOKIE = ("Cache-Control", "max-age=1"), ("Cookie", "a=1")
DAY, WEEK, YEAR = "max-age=86400", "max-age=604800", "max-age=31536000, immutable"

# The first words of a table row, and the path and the headers of a response that it is for.
FIRST = [
    ("is a part of pages", "/a.0123456f.css", [SHORT, CSS, TAG]),
    ("is another part", "/a.css", [SHORT, CSS, TAG]),
    ("is a PDF", "/a.pdf", [SHORT, ("Content-Type", "application/pdf"), TAG]),
    ("has no validator", "/a", [("Cache-Control", "max-age=1"), HTML]),
]
# What is advised for a response with these headers, at this path, to a request with these headers; None is nothing. Each case is
# worked out from docs/AUDIT.md.
ADVISED = [
    # A hash is only in the last segment of the path; a UUID and a date are none.
    ("/550e8400-e29b-41d4-a716-446655440000.png", [SHORT, PNG, TAG], [], WEEK),
    ("/1a2b3c4d/a.png", [SHORT, PNG, TAG], [], WEEK),
    ("/a.js?v=3f2a1b9c", [SHORT, JS, TAG], [], WEEK),
    ("/a-20240115.css", [SHORT, CSS, TAG], [], WEEK),
    ("/Photo2024.png", [SHORT, PNG, TAG], [], WEEK),
    ("/Screenshot20240115.png", [SHORT, PNG, TAG], [], WEEK),
    ("/index-BxK3fj2a.js", [SHORT, JS, TAG], [], YEAR),
    ("/1a2b3c4d/app.3f2a1b9c.js", [SHORT, JS, TAG], [], YEAR),
    # A response for one user gets no lifetime that a shared cache may use, and a no-store stays.
    ("/a.png", [SHORT, PNG, TAG], [COOKIE], f"private, {WEEK}"),
    ("/a.png", [SHORT, PNG, TAG], [("Authorization", "Basic YTpi")], f"private, {WEEK}"),
    ("/a.png", [SHORT, PNG, TAG, ("Set-Cookie", "a=1")], [], f"private, {WEEK}"),
    ("/a.png", [("Cache-Control", "private, max-age=1"), PNG, TAG], [], f"private, {WEEK}"),
    ("/a.3f2a1b9c.png", [SHORT, PNG, TAG], [COOKIE], f"private, {YEAR}"),
    ("/a.png", [("Cache-Control", "public, max-age=1"), PNG, TAG], [COOKIE], None),
    ("/a.png", [("Cache-Control", "max-age=1, s-maxage=9"), PNG, TAG], [COOKIE], None),
    ("/a.png", [("Cache-Control", "no-store"), PNG, TAG], [], None),
    ("/a.png", [("Cache-Control", "no-store, private"), PNG, TAG], [COOKIE], None),
    ("/a", [("Cache-Control", "no-store"), HTML], [], None),
    # A service worker's script is validated, and an event stream has no ETag.
    ("/sw.js", [SHORT, JS, TAG, ("Service-Worker-Allowed", "/")], [], None),
    ("/sw.js", [SHORT, JS, TAG], [("Service-Worker", "script")], None),
    ("/events", [("Content-Type", "text/event-stream")], [], None),
    # Types have no case, and fonts and scripts have older ones.
    ("/a.png", [SHORT, ("Content-Type", "Image/PNG"), TAG], [], WEEK),
    ("/a.woff2", [SHORT, ("Content-Type", "application/font-woff2"), TAG], [], WEEK),
    ("/a.woff", [SHORT, ("Content-Type", "application/x-font-woff"), TAG], [], WEEK),
    ("/a.eot", [SHORT, ("Content-Type", "application/vnd.ms-fontobject"), TAG], [], WEEK),
    ("/a.js", [SHORT, ("Content-Type", "application/x-javascript; charset=utf-8"), TAG], [], WEEK),
    ("/a.bin", [SHORT, ("Content-Type", "application/octet-stream"), TAG], [], DAY),
    # No stated lifetime gets shorter, also one for shared caches, and nothing is advised that is sent already.
    ("/a.css", [("Cache-Control", "max-age=2592000"), CSS, TAG], [], None),
    ("/a.css", [("Cache-Control", "max-age=604800"), CSS, TAG], [], None),
    ("/a.css", [("Cache-Control", "max-age=1, s-maxage=2592000"), CSS, TAG], [], None),
    ("/a", [("Cache-Control", "max-age=1"), HTML, TAG], [], None),
    ("/a.bin", [("Cache-Control", "max-age=86401"), ("Content-Type", "application/pdf"), TAG], [], None),
    ("/a.css", [CSS, TAG, ("Date", "@0"), ("Last-Modified", "@-9000000")], [], None),
]
HINTS = {
    "conflicting directives": [("Cache-Control", "max-age=1, max-age=2")],
    "; in Cache-Control": [("Cache-Control", "max-age=1; public")],
    "no comma between directives": [("Cache-Control", "public max-age=1")],
    "seconds in quotes": [("Cache-Control", 'max-age="1"')],
    "a max-age that can't be read": [("Cache-Control", "max-age=1h")],
    "no-store beside max-age": [("Cache-Control", "no-store, max-age=1")],
    "public beside private": [("Cache-Control", "public, private")],
    "Set-Cookie on what is shared": [("Cache-Control", "public"), ("Set-Cookie", "a=1")],
    "CDN-Cache-Control": [("CDN-Cache-Control", "max-age=1")],
    "Surrogate-Control": [("Surrogate-Control", "max-age=1")],
    "a permanent redirect without a lifetime": [("Location", "/b")],
    "Pragma without Cache-Control": [("Pragma", "no-cache")],
    "Expires without Cache-Control": [("Expires", "0")],
    "an Expires that can't be read": [("Cache-Control", "no-cache"), ("Expires", "tomorrow")],
    "an ETag without quotes": [("ETag", "1")],
    "a Date in the future": [("Date", "@900")],
    "an old Date without Age": [("Date", "@-900")],
    "Vary: *": [("Vary", "*")],
    "Vary: Cookie": [("Vary", "Cookie")],
    "Vary: User-Agent": [("Vary", "User-Agent")],
}
AGAIN = ("If-None-Match", '"1"')
# The first words of a table row, and entries of a recording that it is for. After them are words of the report's line, and the
# index of the cell that the line has to have.
WALKED = [
    ("no lifetime", [("/a.css", [CSS, TAG], [])], "-> Cache-Control: ", 2),
    ("a short lifetime, though", [("/a.0123456f.css", [("Cache-Control", "max-age=1"), CSS, TAG], [])], "-> Cache-Control: ", 2),
    ("no validator", [("/a.css", [("Cache-Control", "max-age=1"), CSS], [])], "-> Cache-Control: max-age=604800, ", 2),
    ("a validator that", [("/a.css", [("Cache-Control", "max-age=0"), CSS, TAG], []), ("/a.css", [("Cache-Control", "max-age=0"), CSS, TAG], [AGAIN])],
     "sent in full to its own validator -> ", 2),
    ("a lifetime that each cache guesses", [("/a.css", [CSS, TAG, ("Date", "@0"), ("Last-Modified", "@-9000")], [])], "1 that say no lifetime", 2),
    ("such a lifetime", [("/a", [HTML, TAG, ("Date", "@0"), ("Last-Modified", "@-9000")], [])], "a page whose lifetime is guessed -> ", 2),
    ("`no-store` on", [("/a.css", [("Cache-Control", "no-store"), CSS, TAG], [])], "no-store on a part of pages -> ", 2),
    ("a cookie on", [("/a", [("Cache-Control", "max-age=60"), HTML, TAG, ("Set-Cookie", "a=1")], [])], "60 s by max-age", 1),
    ("a query that changes", [(f"/a.css?t={n}", [("Cache-Control", "max-age=60"), CSS, TAG], []) for n in range(3)], "3 urls, one response", 2),
]


def dated(value):
    return format_datetime(START + timedelta(seconds=int(value[1:])), usegmt=True) if value.startswith("@") else value


def pairs(headers):
    return [{"name": name, "value": dated(value)} for name, value in headers]


def report(program, entries, pages=(), status=200):
    """Returns the lines of the report on a recording of GETs, one in each second.

    An entry has a path, the headers of its response, and the headers of its request. Pages are named in the order of the entries."""
    listed = [{
        "startedDateTime": (START + timedelta(seconds=second)).isoformat(), "time": 0,
        "request": {"method": "GET", "url": "http://h" + path, "headers": pairs(asked)},
        "response": {"status": status, "headers": pairs(headers), "_transferSize": 10_000, "headersSize": 100},
    } for second, (path, headers, asked) in enumerate(entries)]
    for entry, page in zip(listed, pages):
        entry["pageref"] = page
    text = json.dumps({"log": {"pages": [{"id": page} for page in pages], "entries": listed}}).encode()
    return subprocess.run([program], input=text, capture_output=True, timeout=60).stdout.decode().splitlines()


def twice(program, path, headers, asked):
    """Returns the lines of the report on a recording in which a page is loaded twice, with one GET in each load."""
    return report(program, [(path, headers, asked), ("/", [HTML, TAG], []), (path, headers, asked)], ["p", "p", "q"])


def table(head):
    """Returns the rows of the table of AUDIT.md with this head, as lists of cells."""
    lines = AUDIT.read_text().splitlines()
    begin = next(at for at, line in enumerate(lines) if line.startswith(head)) + 2
    rows = []
    for line in lines[begin:]:
        if not line.startswith("|"):
            break
        rows.append([cell.strip() for cell in line.strip("|").split(" | ")])
    return rows


def bare(text):
    return text.replace("`", "")


def advice_faults(program):
    """Returns how many table rows were checked, and the rows with other advice than the report."""
    faults, rows = [], table("| the full response | send |")
    faults += [("rows", len(rows), len(FIRST))] if len(rows) != len(FIRST) else []
    for row, (words, path, headers) in zip(rows, FIRST):
        send = bare(row[1]).split(", ")[0] if row[1].startswith("`an") else "Cache-Control: " + bare(row[1])
        lines = twice(program, path, headers, [])
        unless = f"         not if: {row[2]}"
        if not row[0].startswith(words) or f"      -> {send}" not in lines or unless not in lines:
            faults.append((row[0], send, lines))
    for path, headers, asked, control in ADVISED:
        lines = twice(program, path, headers, asked)
        sent = [line for line in lines if line.startswith("      -> ")]
        if sent != ([f"      -> Cache-Control: {control}"] if control else []):
            faults.append((path, headers, asked, control, sent))
    hints = table("| hint | the response |")
    faults += [("hints", set(HINTS) ^ {bare(row[0]) for row in hints})] if [bare(row[0]) for row in hints] != list(HINTS) else []
    for row in hints:
        words = bare(row[0])
        lines = report(program, [("/a", HINTS.get(words, []), [])], status=301 if "redirect" in words else 200)
        if not any(bare(line).endswith(f"{words} -> {bare(row[2])}") for line in lines):
            faults.append((words, row[2], lines))
    walked = table("| finding | in the report |")
    faults += [("findings", len(walked), len(WALKED))] if len(walked) != len(WALKED) else []
    for row, (words, entries, line_words, cell) in zip(walked, WALKED):
        lines = [bare(line) for line in report(program, entries) if line_words in line]
        if not row[0].startswith(words) or not any(bare(row[cell]).split(": ")[-1] in line for line in lines):
            faults.append((row[0], row[cell], lines))
    return len(rows) + len(ADVISED) + len(hints) + len(walked), faults
