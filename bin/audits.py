"""Prints how the time and memory of an audit grow with the entries of a recording.

    audits.py LEAST PROGRAM    (LEAST: the fewest entries; PROGRAM: cacheaudit; bin/bench --scaling calls it)

It prints a table row for each recording. The cells are:
- the entries and bytes of the recording;
- for a run with `--lines`, one without a word, and one with `--html`: the millions of instructions, if valgrind is installed, and
  how many times the count for half as many entries it is; and the least processor time of three runs;
- the greatest memory of these runs, and that memory divided by the bytes of the recording.

The last rows repeat a page that a browser exported (tests/recordings/site.har), in its indented and in a compact form.
"""
import copy
import json
import os
import re
import shutil
import subprocess
import sys
import tempfile
from datetime import datetime, timedelta, timezone
from pathlib import Path

LEAST = int(sys.argv[1])
PROGRAM = sys.argv[2]
FORMS = [["--lines"], [], ["--html"]]
DOUBLINGS = 5
RUNS = 3
# The most entries of a recording on which the instructions of a form are counted.
MOST_COUNTED = [10000, 2500, 2500]
VALGRIND = ["valgrind", "--tool=callgrind", "--callgrind-out-file=/dev/null"]
PAGE = Path(__file__).resolve().parent.parent / "tests/recordings/site.har"
PAGE_ENTRIES = 165
START = datetime(2026, 1, 1, tzinfo=timezone.utc)
LIFETIME = {"name": "Cache-Control", "value": "max-age=86400"}
ENCODING = {"name": "Accept-Encoding", "value": "gzip"}


def entry(number, url, request, response, status=200, more=None):
    """Returns the entry with a number. Entries are a hundredth of a second apart."""
    return {
        "startedDateTime": (START + timedelta(milliseconds=10 * number)).isoformat(),
        "time": 1,
        "request": {"method": "GET", "url": url, "headers": request},
        "response": {"status": status, "headers": response, "headersSize": 200, "bodySize": 1000},
        **(more or {}),
    }


def received(number, url):
    return entry(number, url, [ENCODING], [LIFETIME, {"name": "Vary", "value": "Accept-Encoding"}])


def cached(number, url):
    more = {"_fromCache": "disk"}
    return entry(number, url, [], [LIFETIME, {"name": "Vary", "value": "Accept-Encoding"}], more=more)


def variant(number):
    tag = {"name": "ETag", "value": f'"{number}"'}
    request = [{"name": "X", "value": str(number)}]
    return entry(number, "http://example.org/", request, [LIFETIME, {"name": "Vary", "value": "X"}, tag])


def unselected(number):
    """Returns an entry with a 304 for a variant that isn't stored."""
    request = [{"name": "X", "value": str(number)}, {"name": "If-None-Match", "value": '"none"'}]
    return entry(number, "http://example.org/", request, [{"name": "ETag", "value": '"none"'}], 304)


def of_network(size):
    return [received(i, f"http://example.org/{i}") for i in range(size)]


def of_one_host(size):
    return [cached(i, f"http://example.org/{i}") for i in range(size)]


def of_many_hosts(size):
    return [cached(i, f"http://h{i}.example.org/") for i in range(size)]


def of_both(size):
    return [(cached if i % 2 else received)(i, f"http://example.org/{i // 2}") for i in range(size)]


def variants(size):
    return [variant(i) for i in range(size)]


def with_unselected(size):
    return [variant(i) if i < size // 2 else unselected(i) for i in range(size)]


def with_queries(size):
    """Returns urls of which ten each differ in their query only, and have one body."""
    entries = [received(i, f"http://example.org/{i // 10}?t={i}") for i in range(size)]
    for i, one in enumerate(entries):
        one["response"]["content"] = {"size": 900, "text": f"the body of {i // 10}"}
    return entries


KINDS = [
    ("from the network", of_network),
    ("from the browser's cache, of one host", of_one_host),
    ("from the browser's cache, each of another host", of_many_hosts),
    ("half from the network, then again from the browser's cache", of_both),
    ("one url, each with another value of Vary", variants),
    ("the same for half, then 304s that select none", with_unselected),
    ("queries that change, ten for each body", with_queries),
]


def pages(times):
    """Returns a recording that repeats the loads of a page, half a minute apart."""
    page = json.loads(PAGE.read_text())
    entries = page["log"]["entries"]
    page["log"]["entries"] = []
    for number in range(times):
        for one in copy.deepcopy(entries):
            at = datetime.fromisoformat(one["startedDateTime"].replace("Z", "+00:00"))
            one["startedDateTime"] = (at + timedelta(seconds=30 * number)).isoformat()
            page["log"]["entries"].append(one)
    return page


def run(path, words):
    """Returns the processor time of a run in seconds, and its greatest memory in bytes."""
    with open(path, "rb") as recording:
        ran = subprocess.Popen([PROGRAM, *words], stdin=recording, stdout=subprocess.DEVNULL)
        _, status, used = os.wait4(ran.pid, 0)
    if status != 0:
        sys.exit(f"audits.py: {' '.join([PROGRAM, *words])} ended with status {status}")
    return used.ru_utime + used.ru_stime, used.ru_maxrss * 1024


def least(path, words):
    """Returns the least processor time of some runs, and their greatest memory."""
    runs = [run(path, words) for _ in range(RUNS)]
    return min(took for took, _ in runs), max(held for _, held in runs)


def instructions(path, words):
    """Returns the instructions of a run, or None without valgrind."""
    if shutil.which("valgrind") is None:
        return None
    with open(path, "rb") as recording:
        ran = subprocess.run([*VALGRIND, PROGRAM, *words], stdin=recording, capture_output=True, check=True)
    return int(re.findall(rb"Collected : (\d+)", ran.stderr)[-1])


def write(path, make):
    """Writes a recording in a child process, since a run counts at least the memory of the process that starts it."""
    pid = os.fork()
    if pid == 0:
        path.write_text(make())
        os._exit(0)
    if os.waitpid(pid, 0)[1] != 0:
        sys.exit(f"audits.py: {path} can't be written; its errors are above")


def grown(now, before):
    return f"{now / before:.2f}" if now and before else "-"


def row(name, size, make, before):
    """Prints a row, and returns the instructions of each form."""
    with tempfile.TemporaryDirectory() as folder:
        path = Path(folder) / "recording.har"
        write(path, make)
        length = path.stat().st_size
        counted = [instructions(path, words) if size <= most else None for words, most in zip(FORMS, MOST_COUNTED)]
        runs = [least(path, words) for words in FORMS]
    memory = max(held for _, held in runs)
    cells = [name, size, length]
    for now, last, (took, _) in zip(counted, before, runs):
        cells += [f"{now / 1e6:.0f}" if now else "-", grown(now, last), f"{took:.2f}"]
    cells += [f"{memory / 1e6:.0f}", f"{memory / length:.1f}"]
    print("|", " | ".join(map(str, cells)), "|", flush=True)
    return counted


def main():
    print("| recording | entries | bytes | --lines, million instructions | grown | s | report | grown | s | --html | grown | s "
          "| memory, MB | bytes of memory a byte |")
    print("|" + "---|" * 14)
    nothing = [None] * len(FORMS)
    for name, make in KINDS:
        before = nothing
        for size in (LEAST << doubling for doubling in range(DOUBLINGS + 1)):
            before = row(name, size, lambda: json.dumps({"log": {"entries": make(size)}}), before)
    for name, form in ("indented", {"indent": 1}), ("compact", {"separators": (",", ":")}):
        before = nothing
        for times in (max(1, LEAST // PAGE_ENTRIES) << doubling for doubling in range(DOUBLINGS + 1)):
            before = row(f"a page, {name}", times * PAGE_ENTRIES, lambda: json.dumps(pages(times), **form), before)


main()
