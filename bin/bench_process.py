"""Prints how many hits a second cacheserve answers on one processor, and the instructions of a hit if valgrind is installed.

    bench_process.py WORD..    (WORD..: the command of cacheserve; bin/bench --process calls it)

A hit is a page of 1 kB with eight fields, and its request has five. All frames are written at once to a pipe. It prints a row
for a proxy (--proxy) and one for a private cache (--private): the least and the greatest of five runs of 40,000 hits. The
speed is by the processor time of the process.
"""
import json
import os
import re
import shutil
import subprocess
import sys
import tempfile
import threading

COMMAND = sys.argv[1:]
START = 1_767_225_600_000
HITS = 40_000
COUNTED = 100
RUNS = 5
VALGRIND = ["valgrind", "--tool=callgrind", "--callgrind-out-file=/dev/null", "--trace-children=yes"]
REQUEST = b"\r\n".join(
    [
        b"GET /page HTTP/1.1",
        b"Host: example.org",
        b"User-Agent: bench",
        b"Accept: */*",
        b"Accept-Encoding: gzip",
        b"Accept-Language: en",
        b"\r\n",
    ]
)
RESPONSE = b"\r\n".join(
    [
        b"HTTP/1.1 200 OK",
        b"Cache-Control: max-age=600",
        b"Content-Type: text/html; charset=utf-8",
        b'ETag: "0123456789abcdef"',
        b"Last-Modified: Wed, 01 Jan 2025 00:00:00 GMT",
        b"Server: bench",
        b"Vary: accept-encoding",
        b"Date: Thu, 01 Jan 2026 00:00:00 GMT",
        b"Content-Length: 1000",
        b"\r\n",
    ]
)


def frame(line, head, body=b""):
    return json.dumps({**line, "head": len(head), "body": len(body)}).encode() + b"\n" + head + body


def frames(hits):
    stored = frame({"ask": 1, "at": START}, REQUEST) + frame({"received": 1, "at": START}, RESPONSE, b"x" * 1000)
    return stored + frame({"ask": 2, "at": START + 1000}, REQUEST) * hits


def seconds(kind, hits):
    """Returns the processor time of a run in seconds. Exits unless each request is answered by a hit."""
    process = subprocess.Popen([*COMMAND, kind], stdin=subprocess.PIPE, stdout=subprocess.PIPE)
    out = []
    reader = threading.Thread(target=lambda: out.append(process.stdout.read()))
    reader.start()
    process.stdin.write(frames(hits))
    process.stdin.close()
    reader.join()
    _, status, used = os.wait4(process.pid, 0)
    if status != 0 or out[0].count(b"; hit; ttl=599") != hits:
        sys.exit(f"bench_process.py: status {status}, {out[0].count(b'; hit; ttl=599')} hits of {hits}")
    return used.ru_utime + used.ru_stime


def instructions(kind):
    """Returns the instructions of a hit, as a cell of the table."""
    if shutil.which("valgrind") is None:
        return "-"
    collected = []
    for hits in (COUNTED, 2 * COUNTED):
        with tempfile.TemporaryFile() as given:
            given.write(frames(hits))
            given.seek(0)
            ran = subprocess.run([*VALGRIND, *COMMAND, kind], stdin=given, stdout=subprocess.DEVNULL, stderr=subprocess.PIPE, check=True)
        collected.append(int(re.findall(rb"Collected : (\d+)", ran.stderr)[-1]))
    return str((collected[1] - collected[0]) // COUNTED)


def main():
    print("| process | hits a second, the least of five runs | the greatest | instructions of a hit |")
    print("|---|---|---|---|")
    for kind in ("--proxy", "--private"):
        begun = min(seconds(kind, 0) for _ in range(RUNS))
        used = [seconds(kind, HITS) - begun for _ in range(RUNS)]
        print(f"| `{kind}` | {HITS / max(used):.0f} | {HITS / min(used):.0f} | {instructions(kind)} |", flush=True)


main()
