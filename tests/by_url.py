"""Checks what an audit prints for each url against the answers of another audit for each request."""
import json
import subprocess

ASKED = {"fresh", "validate", "refetch", "miss", "miss-vary"}
# The members of the first response that are printed. The other audit has these names too.
FIRST = ("status", "received", "reasons", "new_lifetime", "new_ttl")


def worked_out(rows):
    """Returns the objects of the urls, in the order of their first requests."""
    urls = {}
    for row in rows:
        if row["verdict"] not in ASKED or row.get("received") == "failed":
            continue
        first = {name: row[name] for name in FIRST if row.get(name) not in (None, [])}
        url = urls.setdefault(row["url"], {"url": row["url"], "requests": 0, "repeated": 0, "fresh": 0, "sent": 0, **first})
        url["requests"] += 1
        url["repeated"] += bool(row.get("repeated"))
        url["fresh"] += row["verdict"] == "fresh"
        url["sent"] += row.get("sent") or 0
    return [{name: value for name, value in url.items() if value or name in FIRST} for url in urls.values()]


def printed_by(program, recording, words):
    """Returns what the program prints, without the members that the other audit has in other words."""
    ended = subprocess.run([program, "--by-url", *words], input=recording, capture_output=True, timeout=60)
    rows = [json.loads(line) for line in ended.stdout.decode().splitlines()]
    return [{name: value for name, value in row.items() if name not in {"by", "source", "zero_by", "hints", "others"}} for row in rows]


def url_faults(program, recordings):
    """Returns how many urls were compared, and the faults.

    A recording is its name, its bytes, the words of the command line, and the rows of another audit."""
    count, faults = 0, []
    for name, recording, words, rows in recordings:
        got, wanted = printed_by(program, recording, words), worked_out(rows)
        count += len(wanted)
        faults += [(name, a, b) for a, b in zip(got, wanted) if a != b]
        faults += [(name, len(got), len(wanted))] if len(got) != len(wanted) else []
    return count, faults
