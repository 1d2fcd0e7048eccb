"""Checks the costs that the program prints for a recording, as it is and with a header changed. The expected costs are worked
out from the answers of another audit and from the file.

The sums of the recording as it is are worked out only from tests/recordings/expected. The sums with a changed header are worked
out from an audit of the changed file. They have to be equal to the output of `--with` for the original file."""
import copy
import json
import re
import subprocess
from datetime import datetime, timezone

CHANGES = [
    "nothing: Cache-Control: max-age=86400",
    "*: Cache-Control: max-age=86400",
    "*.js*: Cache-Control: ",
    "*: ETag:",
    "*: Cache-Control: no-store",
    "http://*/*: Vary: *",
    "*/img/logo.png: cache-control: max-age=86400",
]
LOADS = ("first_load", "later_loads")
NAMES = ("bytes", "answers_304", "unknown")
FRESH, VALIDATE = "fresh", "validate"
ASKED = {FRESH, VALIDATE, "refetch", "miss", "miss-vary"}


# A page that is loaded twice: page, second, path, status, response headers, bytes sent, bytes of the head. Its costs below were
# worked out by hand.
WORKED = [
    ("1", 0, "/a.js", 200, {"Cache-Control": "no-store", "ETag": '"1"'}, 1000, 100),
    ("1", 1, "/b.js", 200, {"Cache-Control": "max-age=60", "ETag": '"2"'}, 500, 50),
    ("1", 2, "/c.js", 200, {"Last-Modified": "x"}, 300, 30),
    ("2", 100, "/a.js", 200, {"Cache-Control": "no-store", "ETag": '"1"'}, 1010, 110),
    ("2", 101, "/b.js", 304, {"Cache-Control": "max-age=60", "ETag": '"2"'}, 60, 60),
    (None, 102, "/c.js", 200, {"Last-Modified": "y"}, 310, 31),
]
FIRST = {"load": "first_load", "bytes": 1800, "bytes_changed": 1800}
# In the later loads a.js is sent again, a head of 50 bytes confirms b.js, and c.js was changed.
LATER = {"load": "later_loads", "bytes": 1370, "bytes_changed": 1370, "answers_304": 1, "answers_304_changed": 1}
WORKED_CHANGES = [
    ("*/x.js: Cache-Control: max-age=600", FIRST, LATER),
    ("*a.js: Cache-Control: no-cache", FIRST, {**LATER, "bytes_changed": 470, "saved": 900, "answers_304_changed": 2}),
    ("*a.js: Cache-Control:", FIRST, {**LATER, "bytes_changed": 470, "saved": 900, "answers_304_changed": 2}),
    ("http://h/a.js: Cache-Control: max-age=99", FIRST, {**LATER, "bytes_changed": 470, "saved": 900, "answers_304_changed": 2}),
    ("http://h/a.js: Cache-Control: max-age=101", FIRST, {**LATER, "bytes_changed": 360, "saved": 1010}),
    ("http://h/a.j: Cache-Control: max-age=101", FIRST, LATER),
    ("ttp://h/a.js: Cache-Control: max-age=101", FIRST, LATER),
    ("http*a*js: Cache-Control: max-age=101", FIRST, {**LATER, "bytes_changed": 360, "saved": 1010}),
    ("*/b.js: Cache-Control: max-age=101", FIRST,
     {"load": "later_loads", "bytes": 1370, "bytes_changed": 1320, "saved": 50, "answers_304": 1}),
    ("*/b.js: Cache-Control: no-store", FIRST,
     {"load": "later_loads", "bytes": 1370, "bytes_changed": 1820, "more": 450, "answers_304": 1}),
    ("*: Cache-Control: max-age=999", FIRST,
     {"load": "later_loads", "bytes": 1370, "bytes_changed": 0, "saved": 1370, "answers_304": 1}),
]


def log_of(recording):
    value = json.loads(recording.decode("utf-8-sig"))
    value = value.get("log", value) if isinstance(value, dict) else value
    return value if isinstance(value, dict) else {"entries": value}


def part(value, *names):
    for name in names:
        value = value.get(name) if isinstance(value, dict) else None
    return value


def whole(value):
    return int(value) if isinstance(value, (int, float)) and not isinstance(value, bool) and 0 <= value < 2**53 else None


def sent_at(entry):
    """Returns when a request was sent, rounded to microseconds, which is the precision of these recordings."""
    text = re.sub(r"(\.\d{6})\d+", r"\1", entry["startedDateTime"].replace("Z", "+00:00"))
    at = datetime.fromisoformat(re.sub(r"([+-]\d\d)(\d\d)$", r"\1:\2", text))
    return at if at.tzinfo else at.replace(tzinfo=timezone.utc)


def header(entry, name):
    listed = part(entry, "response", "headers")
    for one in listed if isinstance(listed, list) else []:
        if str(part(one, "name")).lower() == name:
            return str(one["value"]).split("\n")[0].strip()
    return None


class Recorded:
    """A recording, with the rows of an audit of it as it is."""

    def __init__(self, recording, rows):
        self.log = log_of(recording)
        self.entries = self.log["entries"]
        self.rows = {row["i"]: row for row in rows}
        self.order = [row["i"] for row in rows]
        self.in_full = {row["url"] for row in rows if row.get("again", row.get("end")) == "unchanged in full"}
        first = [self.page(i) for i in self.order if self.page(i)]
        self.first_page = first[0] if first else None
        others = [i for i in self.order if self.page(i) and self.page(i) != self.first_page]
        walked = bool(others) and self.rows[others[0]]["verdict"] != "skipped"
        self.ended = sent_at(self.entries[others[0]]) if walked else None

    def page(self, i):
        name = part(self.entries[i], "pageref")
        return name if part(self.log, "pages") and isinstance(name, str) and name else None

    def is_first(self, i):
        if self.page(i):
            return self.page(i) == self.first_page
        return self.ended is None or sent_at(self.entries[i]) < self.ended

    def is_full(self, i):
        """Returns whether an entry has a full response from the network."""
        row = self.rows[i]
        return not row.get("browser") and row.get("received") != "failed" and row.get("status") != 304

    def full(self, i):
        """Returns the index of the entry with the full response to a request, or None if the recording has none."""
        source = i if self.is_full(i) else self.rows[i].get("from_entry")
        return source if source is not None and self.is_full(source) else None

    def is_confirmed(self, row, entries):
        """Returns whether a 304 would confirm the stored response that a row of another audit validates."""
        if row.get("status") == 304:
            return True
        if row["url"] in self.in_full or row.get("from_entry") is None:
            return False
        return is_same(entries[row["from_entry"]], entries[row["i"]])

    def cost(self, row, entries):
        """Returns the cost of a row: bytes, answers 304, and responses of unknown size."""
        full = self.full(row["i"])
        if row["verdict"] == FRESH:
            return 0, 0, 0
        if row["verdict"] == VALIDATE and self.is_confirmed(row, entries):
            size = None if full is None else whole(part(self.entries[full], "response", "headersSize"))
            return size or 0, 1, 0
        return (0, 0, 1) if full is None else (self.rows[full].get("sent", 0), 0, 0)

    def sums(self, rows, entries):
        """Returns the costs of the judged requests of the first load and of the later loads."""
        sums = {load: [0, 0, 0] for load in LOADS}
        for row in rows:
            if row["verdict"] in ASKED and row.get("received") != "failed":
                load = LOADS[not self.is_first(row["i"])]
                sums[load] = [a + b for a, b in zip(sums[load], self.cost(row, entries))]
        return sums

    def changed(self, change):
        """Returns the recording with a header changed in each response whose url matches the pattern."""
        pattern, name, value = (text.strip() for text in (change + " ").split(": ", 2))
        of_pattern = re.compile(".*".join(map(re.escape, pattern.split("*"))))
        log = copy.deepcopy(self.log)
        for i, entry in enumerate(log["entries"]):
            row = self.rows[i]
            if row["verdict"] == "skipped" or not of_pattern.fullmatch(row["url"]):
                continue
            listed = part(entry, "response", "headers")
            kept = [one for one in listed or [] if str(part(one, "name")).lower() != name.lower()]
            added = [{"name": name, "value": value}] if value else []
            if isinstance(entry.get("response"), dict):
                entry["response"]["headers"] = kept + added
        return log


def is_same(a, b):
    """Returns whether two entries have one response, by its validators, else by its body."""
    if part(a, "response", "status") != part(b, "response", "status"):
        return False
    for name in ("etag", "last-modified"):
        x, y = header(a, name), header(b, name)
        if x is not None and y is not None:
            return x.removeprefix("W/") == y.removeprefix("W/") if name == "etag" else x == y
    x, y = part(a, "response", "content"), part(b, "response", "content")
    return bool(part(x, "text")) and part(x, "text") == part(y, "text") and part(x, "encoding") == part(y, "encoding")


def audited(program, log, words):
    text = json.dumps({"log": log}).encode()
    ended = subprocess.run([program, "--json-lines", *words], input=text, capture_output=True, timeout=60)
    return [json.loads(line) for line in ended.stdout.decode().splitlines()]


def object_of(load, now, then):
    """Returns the object that is printed for a load."""
    members = {"load": load, "bytes": now[0], "bytes_changed": then[0]}
    members["saved"], members["more"] = max(now[0] - then[0], 0), max(then[0] - now[0], 0)
    for name, before, after in zip(NAMES[1:], now[1:], then[1:]):
        members[name], members[f"{name}_changed"] = before, after
    return {name: value for name, value in members.items() if value or name.startswith("bytes")}


def worked_log():
    entries = []
    for page, second, path, status, headers, sent, head in WORKED:
        listed = [{"name": name, "value": value} for name, value in headers.items()]
        response = {"status": status, "headers": listed, "_transferSize": sent, "headersSize": head}
        entries.append({"startedDateTime": f"2026-01-01T00:{second // 60:02}:{second % 60:02}Z", "time": 0,
                        "request": {"method": "GET", "url": "http://h" + path}, "response": response,
                        **({"pageref": page} if page else {})})
    return {"pages": [{"id": "2"}, {"id": "1"}], "entries": entries}


def worked_faults(program):
    faults = []
    for change, *wanted in WORKED_CHANGES:
        got = audited(program, worked_log(), ["--private", "--with", change])
        faults += [(change, a, b) for a, b in zip(got, wanted) if a != b] + ([(change,)] if len(got) != 2 else [])
    return faults


def cost_faults(program, recordings):
    """Returns how many sums were compared, and the faults.

    A recording is its name, its bytes, the words of the command line, and the rows of another audit."""
    count, faults = 2 * len(WORKED_CHANGES), worked_faults(program)
    for name, recording, words, rows in recordings:
        recorded = Recorded(recording, rows)
        now = recorded.sums(rows, recorded.entries)
        for change in CHANGES:
            log = recorded.changed(change)
            rows_changed = [row for row in audited(program, log, words) if "i" in row]
            then = recorded.sums(rows_changed, log["entries"])
            got = audited(program, recorded.log, [*words, "--with", change])
            wanted = [object_of(load, now[load], then[load]) for load in LOADS]
            count += len(wanted)
            faults += [(name, change, a, b) for a, b in zip(got, wanted) if a != b]
            faults += [(name, change, len(got))] if len(got) != len(wanted) else []
    return count, faults
