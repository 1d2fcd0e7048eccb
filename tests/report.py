"""Checks the report on tests/recordings/site.har against numbers of a reference that was made before the report. Checks what
changes in the report if the recording changes, and the sums of every recording against another audit."""
import copy
import json
import re
import subprocess
from pathlib import Path

from costs import ASKED, Recorded

SITE = Path(__file__).resolve().parent / "recordings" / "site.har"
# The pieces of each expected line. Some have the bytes by url of the later loads, and the bytes that a second walk with the
# advised header saves. Others have what walks send that begin an hour, a day, a week and thirty days after the recording.
WANTED = [
    ["3 loads of 127.0.0.1:8901/, 2 of /other, in 15 s, as a browser's cache"],
    ["first load 1358 kB, later loads 220 kB", "answer 1157 and 198 kB"],
    ["47 of 90 repeated requests need nothing (52 %)", "saves 2040 kB"],
    ["CHANGE FIRST", "the first three are 29 kB (15 %)"],
    ["/assets/chat.js?v=5 ", "2 req", "14.2 kB", "Expires Thu, 01 Jan 2026"],
    ["-> Cache-Control: private, max-age=604800, and answer 304 to its ETag"],
    ["saves 14.2 kB (13.7 kB by the 304s alone)"],
    ["/assets/etagless.js ", "2 req", "8.2 kB", "max-age=2, no ETag"],
    ["-> Cache-Control: private, max-age=604800, and an ETag"],
    ["saves 8.2 kB"],
    ["/assets/noanswer.js ", "2 req", "6.6 kB", "max-age=1, ETag"],
    ["-> Cache-Control: private, max-age=604800, and answer 304 to its ETag"],
    ["saves 6.6 kB (6.1 kB by the 304s alone)"],
    ["/assets/vendor.js ", "109.6 kB", "10 min", "304   304   304   304"],
    ["/assets/cdn.js ", "13.2 kB", "0 s", "304   304   304   304"],
    ["/assets/pre.js ", "5.5 kB", "1 h", "304   304   304   304"],
    ["/img/missing.png ", "0.6 kB", "again again again again", "fix the link"],
    ["5 that say no lifetime, 747.5 kB, guessed as 13 s to 40 d", "2     3     3     4"],
    ["the whole page:", "94 kB + 18 x 304  94 kB + 19 x 304  94 kB + 19 x 304  94 kB + 20 x 304"],
    ["with what is advised:", "78 kB + 12 x 304  78 kB + 13 x 304  80 kB + 22 x 304  81 kB + 23 x 304"],
    ["/img/secret.png ", "no-store on a part of pages -> "],
    ["/img/logo.png ", "no-store on a part of pages -> "],
    ["localhost:8901/assets/widget.js ", "; in Cache-Control -> "],
    ["/assets/starvary.js ", "Vary: * -> no Vary"],
    ["/assets/ua.css ", "Vary: User-Agent -> no Vary"],
    ["/assets/print.css ", "Expires without Cache-Control -> "],
    ["/assets/print.css ", "an Expires that can't be read -> Cache-Control: max-age=N"],
    ["/assets/double.css ", "conflicting directives -> one value"],
    ["/assets/track.js ", "3 urls, one response", "leave the query out (saves 1.5 kB)"],
    ["thirty days: ", "/assets/app.3f2a1b9c.js", "/assets/style.9c8d7e6f.css", "localhost:8901/fonts/x.woff2"],
    ["by a 304: / (0.2 kB)"],
    ["/assets/chat.js?v=5 ", "sent in full to its own validator -> a 304"],
    ["/assets/noanswer.js ", "sent in full to its own validator -> a 304"],
    ["/assets/cdn.js ", "0 s by", "1 d by s-maxage"],
    ["/api/feed ", "120 s by max-age", "0 s by set-cookie"],
    ["/api/auth ", "5 min by max-age", "not stored: authorization"],
    *([url, "not stored: private"] for url in ("/part/b.html ", "/part/a.html ", "/api/me ", "/api/cart ")),
    ["6 POST"], ["3 PUT"], ["8 by Range (221.7 kB)"], ["7 failed or aborted"], ["3 preflights"], ["3 redirected by the browser"],
    ["3 scheme blob"], ["3 scheme data"],
]


# A url that moves a terminal's cursor, forges a line and turns the direction of text, and how it is printed: bytes that aren't
# printable ASCII are percent-encoded.
FORGED = "x\x1b]0;hit\x07\x1b[2J\nALL IS WELL\x9b31m\u202e"
ESCAPED = "x%1B]0;hit%07%1B[2J%0AALL IS WELL%C2%9B31m%E2%80%AE"
LONG_URL, LONG_VALUE = "http://h/" + "a" * 2000 + "b.css", "max-age=1, " + "x" * 100_000


def report(program, recording, words=()):
    ended = subprocess.run([program, *words], input=recording, capture_output=True, timeout=60)
    return ended.stdout.decode() if ended.returncode == 0 else f"status {ended.returncode}"


def lacking(text, wanted):
    """Returns the wanted lines whose pieces aren't all in one line of the text."""
    lines = text.splitlines()
    return [pieces for pieces in wanted if not any(all(piece in line for piece in pieces) for line in lines)]


def doubled(recording, name):
    """Returns the recording with twice the bytes for each sent response of a url."""
    log = json.loads(recording)
    for entry in log["log"]["entries"]:
        if entry["request"]["url"].endswith(name) and isinstance(entry["response"].get("_transferSize"), int):
            entry["response"]["_transferSize"] *= 2
    return json.dumps(log).encode()


def swapped(recording, one, other):
    """Returns the recording with two urls exchanged."""
    log = json.loads(recording)
    for entry in log["log"]["entries"]:
        url = entry["request"]["url"]
        for a, b in ((one, other), (other, one)):
            if url.endswith(a):
                entry["request"]["url"] = url[:-len(a)] + b
    return json.dumps(log).encode()


def single(recording):
    """Returns the recording without its pages, so that it is one load."""
    log = copy.deepcopy(json.loads(recording))
    log["log"].pop("pages", None)
    return json.dumps(log).encode()


def entry(second, page, url, headers=(), **more):
    """Returns an entry that was sent 10 kB at so many seconds."""
    lines = [{"name": name, "value": value} for name, value in [("Content-Type", "text/css"), *headers]]
    response = {"status": 200, "headers": lines, "_transferSize": 10_000, "headersSize": 100}
    request = {"method": "GET", "url": url, "headers": []}
    return {"startedDateTime": f"2026-01-01T00:00:0{second}Z", "time": 1, "pageref": page, "request": request, "response": response, **more}


def recording_of(entries):
    pages = sorted({one["pageref"] for one in entries})
    return json.dumps({"log": {"pages": [{"id": page} for page in pages], "entries": entries}}).encode()


def hostile_faults(program):
    """Returns how many reports on hostile texts were checked, and the faults."""
    faults = []
    forged = recording_of([entry(0, "p", "http://h/"), entry(1, "q", FORGED, _fromCache="\x1b[31m", method="\x9b")])
    text = report(program, forged)
    faults += [("forged", text)] if f", 1 of {ESCAPED}, in 0 s" not in text or re.search(r"[^ -~\n]", text) else []
    for words in (["--json"], ["--json-lines"], ["--lines"], ["--by-url"]):
        text = report(program, forged, words)
        faults += [("forged", *words, text)] if re.search(r"[^ -~\n]", text) else []
    value = ("Cache-Control", LONG_VALUE)
    long = report(program, recording_of([entry(second, "pq"[second // 2], LONG_URL, [value]) for second in range(4)]))
    faults += [("long lines", line[:200]) for line in long.splitlines() if len(line) > 160 and not line.startswith("noticed: ")]
    faults += [("glued columns",)] if lacking(long, [["  /aaaaaaaaaaaaaa..aaaaaaaaaaab.css ", " req "]]) else []
    worker = entry(1, "p", "http://h/a", _fromCache="disk")
    worker["response"]["_fetchedViaServiceWorker"] = True
    row = json.loads(report(program, recording_of([entry(0, "p", "http://h/"), worker]), ["--json-lines"]).splitlines()[1])
    faults += [("a service worker", row)] if "browser" in row or row.get("reason") != "service worker" or row.get("sent") else []
    return 7, faults


def kilobytes(count):
    return count // 1000 + (count % 1000 >= 500)


def sums(recording, rows):
    """Returns the pieces of the line on what was sent, and of the part that the judged requests got."""
    recorded = Recorded(recording, rows)
    sent = {True: 0, False: 0}
    asked = {True: 0, False: 0}
    for row in rows:
        if row["verdict"] == "skipped":
            continue
        first = recorded.is_first(row["i"])
        sent[first] += row.get("sent") or 0
        if row["verdict"] in ASKED and row.get("received") != "failed":
            asked[first] += row.get("sent") or 0
    return [[f"first load {kilobytes(sent[True])} kB, later loads {kilobytes(sent[False])} kB",
             f"answer {kilobytes(asked[True])} and {kilobytes(asked[False])} kB"]]


def report_faults(program, recordings):
    """Returns how many lines were looked for, and those that are missing.

    A recording is its name, its bytes, the words of the command line, and the rows of another audit."""
    site = SITE.read_bytes()
    count, faults = 0, []
    table = [
        (site, WANTED),
        (doubled(site, "/assets/etagless.js"), [["/assets/etagless.js ", "16.3 kB"], ["saves 16.3 kB"]]),
        (swapped(site, "/assets/etagless.js", "/assets/ua.css"), [["/assets/ua.css ", "2 req", "8.2 kB", "max-age=2, no ETag"]]),
        (single(site), [["CHANGE FIRST, by what is saved of what a visit a day later costs"], ["1 load of 127.0.0.1:8901/"]]),
        (b'{"log": {"entries": []}}', None),
    ]
    for recording, wanted in table:
        text = report(program, recording)
        count += len(wanted or [1])
        faults += [("report", pieces) for pieces in lacking(text, wanted)] if wanted else [] if text == "status 1" else ["nothing"]
    hostile, found = hostile_faults(program)
    count, faults = count + hostile, faults + found
    for name, recording, words, rows in recordings:
        if "--ignore-request-no-cache" in words:
            continue
        text = report(program, recording, words or ["--shared"])
        wanted = sums(recording, rows)
        count += len(wanted)
        faults += [(name, pieces) for pieces in lacking(text, wanted)]
        faults += [(name, "a byte that isn't printed")] if re.search(r"[^ -~\n]", text) else []
    return count, faults
