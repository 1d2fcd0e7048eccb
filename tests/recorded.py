"""Audits small recordings: the cases of tests/cases/audit/recordings.txt.

A case begins with a line `== TITLE`. It may have a line `? WORDS` with the words of a command line, and a line `by NAME` with
the creator of the recording. A line `= COUNTS` has the expected members of the summary. Each other line is an entry:

    SECOND | METHOD URL | request headers | status | response headers | more | wanted

If the line begins with `{` or `[`, it is the JSON of the entry, `|` and what is wanted. A line that begins with two blanks
continues the line before it. An empty field means none, or status 200. `~` separates headers, and the things that are wanted:
`MEMBER=VALUE`, a flag, or `no MEMBER`. `@N` is the date N seconds after the start. SECOND may be `A..B`: then there is an entry
for each second, in which `$i` is the second.
"""
import json
import re
import subprocess
from datetime import datetime, timedelta, timezone
from email.utils import format_datetime
from pathlib import Path

CASES = Path(__file__).resolve().parent / "cases" / "audit" / "recordings.txt"
START = datetime(2026, 1, 1, tzinfo=timezone.utc)
# The paths of the members that the words in the sixth field of an entry set.
MORE = {
    "cache": ("_fromCache",), "type": ("_resourceType",), "time": ("time",), "error": ("response", "_error"),
    "sent": ("response", "_transferSize"), "headers": ("response", "headersSize"), "body": ("response", "bodySize"),
    "size": ("response", "content", "size"), "saved": ("response", "content", "compression"),
    "text": ("response", "content", "text"), "encoding": ("response", "content", "encoding"),
    "worker": ("response", "_fetchedViaServiceWorker"),
}
# The meanings of words in an entry that is written as JSON.
WORDS = {
    "$AT": '"startedDateTime": "2026-01-01T00:00:00Z"',
    "$GET": '"request": {"method": "GET", "url": "http://h/a", "headers": []}',
    "$OK": '"response": {"status": 200, "headers": [{"name": "Cache-Control", "value": "max-age=60"}]}',
}
# The urls of the cases have this password. No output may have it.
PASSWORD = b"secret"


def dated(text):
    return re.sub(r"@(-?\d+)", lambda found: format_datetime(START + timedelta(seconds=int(found[1])), usegmt=True), text)


def headers(text):
    pairs = [pair.split(":", 1) for pair in re.split(r"\s*~\s*", text.strip()) if pair]
    return [{"name": name.strip(), "value": dated(value.strip())} for name, value in pairs]


def value_of(text):
    """Returns a word as a JSON value if it is one, else as a text."""
    try:
        return json.loads(text)
    except ValueError:
        return text


def entry_of(fields, second):
    """Returns the entry of a line at a second."""
    asked, request, status, response, more = (field.replace("$i", str(second)) for field in fields)
    method, url = asked.split(" ", 1)
    entry = {
        "startedDateTime": (START + timedelta(seconds=second)).isoformat(),
        "time": 0,
        "request": {"method": method, "url": "http://h" + url if url.startswith("/") else url, "headers": headers(request)},
        "response": {"status": value_of(status or "200"), "headers": headers(response), "content": {}},
    }
    for word in more.split():
        name, _, text = word.partition("=")
        *path, last = MORE[name]
        at = entry
        for key in path:
            at = at[key]
        at[last] = value_of(text)
    return entry


def entries_of(line):
    """Returns the entries of a line, each with what is wanted of it."""
    if line.startswith(("{", "[")):
        text, _, wanted = line.rpartition("|")
        for word, meaning in WORDS.items():
            text = text.replace(word, meaning)
        return [(text, wanted)]
    seconds, *fields, wanted = (field.strip() for field in line.split("|"))
    first, _, last = seconds.partition("..")
    return [(json.dumps(entry_of(fields, at)), wanted) for at in range(int(first), int(last or first) + 1)]


def members(text):
    """Returns what is wanted, by member: a text, or `None` for a member that must be absent."""
    wanted = {}
    for piece in re.split(r"\s*~\s*", text.strip()):
        absent = re.fullmatch(r"no (\S+)", piece)
        name, _, value = piece.partition("=")
        wanted[absent[1] if absent else name.strip()] = None if absent else dated(value.strip()) or "true"
    return wanted


def cases():
    """Returns the cases: titles, words of the command line, recordings, and what is wanted of the entries and the summary."""
    found = []
    for line in re.sub(r"\n  +", " ", CASES.read_text()).splitlines():
        if line.startswith("=="):
            found.append({"title": line[2:].strip(), "words": [], "by": "", "entries": [], "wanted": [], "counts": {}})
        elif line.startswith("? "):
            found[-1]["words"] = line[2:].split()
        elif line.startswith("by "):
            found[-1]["by"] = line[3:].strip()
        elif line.startswith("= "):
            found[-1]["counts"] = members(line[2:])
        elif line and not line.startswith("#"):
            for entry, wanted in entries_of(line):
                found[-1]["entries"].append(entry)
                found[-1]["wanted"].append(members(wanted))
    return found


def run_on(program, case, words):
    """Runs the program on a case."""
    text = '{"log": {"creator": {"name": "%s"}, "entries": [%s]}}' % (case["by"], ",".join(case["entries"]))
    command = [program, *words, *case["words"]]
    return subprocess.run(command, input=text.encode(), capture_output=True, timeout=10)


def shown(value):
    """Returns a value as the table writes it."""
    if isinstance(value, list):
        return ", ".join(value)
    return value if isinstance(value, str) or value is None else json.dumps(value)


def are_plain(text, entries, summary):
    """Returns whether the output has a line for each entry, then the counts of the summary, and then what is noticed."""
    lines = text.splitlines()[entries:]
    counts = [f"{name} {count}" for name, count in summary.items() if "/" in name]
    noticed = [line for line in lines if line.startswith("noticed: ")]
    return lines == counts + noticed and len(noticed) == summary["cache_off"] + summary["no_credentials"]


def faults_of(program, case):
    ended, plain = run_on(program, case, ["--json-lines"]), run_on(program, case, ["--lines"])
    if (ended.returncode, plain.returncode) != (0, 0):
        return [(case["title"], ended.returncode, ended.stderr, plain.stderr)]
    *rows, summary = [json.loads(line) for line in ended.stdout.decode().splitlines()]
    summary = summary["summary"]
    by_index = {row["i"]: row for row in rows}
    pairs = [(by_index[i], wanted) for i, wanted in enumerate(case["wanted"])] + [(summary, case["counts"])]
    faults = []
    for got, wanted in pairs:
        different = {name: shown(got.get(name)) for name, value in wanted.items() if shown(got.get(name)) != value}
        if different:
            faults.append((case["title"], got.get("i", "summary"), different, wanted))
    report = run_on(program, case, [])
    if report.returncode != 0:
        faults.append((case["title"], "no report", report.returncode, report.stderr))
    if PASSWORD in ended.stdout + plain.stdout + report.stdout:
        faults.append((case["title"], "prints a password"))
    if not are_plain(plain.stdout.decode(), len(case["entries"]), summary):
        faults.append((case["title"], "prints other counts as lines"))
    return faults


def case_faults(program, all_cases):
    """Returns how many cases there are, and the faults."""
    return len(all_cases), [fault for case in all_cases for fault in faults_of(program, case)]
