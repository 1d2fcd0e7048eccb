"""Prints how the time of each call grows with its arguments.

    scaling.py WORD..    (WORD..: the command of bench_calls; bin/bench --scaling calls it)

It prints a line for each size, with the nanoseconds of each call, the least of seven runs. The number after them is the time
for one header, directive, piece or byte, divided by that time at the size before: 1.00 is in proportion.
"""
import json
import subprocess
import sys

COMMAND = sys.argv[1:]
CALLS = ["new_options", "try_clone", "fresh_at", "fresh", "stale", "a 304"]
START = 1704067200
SIZES = [10, 100, 1000, 10000]


def message(headers):
    return {"uri": "/a", "method": "GET", "headers": headers}


def script(of_response=(), everywhere=(), of_request=(), lifetime="max-age=10"):
    """Returns a script of a stored page that is requested while it is fresh, and once it is stale, and then validated."""
    request = message([["Accept", "text/html"], *everywhere, *of_request])
    stored = [["Cache-Control", lifetime], ["ETag", '"a"'], *of_response, *everywhere]
    return {
        "options": {"shared": True, "cache_heuristic": [1, 10], "immutable_min_time_to_live": [86400, 0],
                    "ignore_cargo_cult": False},
        "received": [START, 0],
        "request": request,
        "response": {"status": 200, "headers": stored},
        "steps": [
            {"ask": request, "at": [START + 5, 0]},
            {"ask": request, "at": [START + 20, 0]},
            {"receive": request, "response": {"status": 304, "headers": [["ETag", '"a"']]}, "at": [START + 20, 0]},
        ],
    }


def directives(size):
    return ", ".join(f"x{i}=5" for i in range(size))


def headers(size):
    return script(everywhere=[[f"x-{i}", "1"] for i in range(size)])


def response_directives(size):
    return script(lifetime="max-age=10, " + directives(size))


def request_directives(size):
    return script(of_request=[["Cache-Control", directives(size)]])


def vary(size):
    return script(of_response=[["Vary", ", ".join(f"X-{i}" for i in range(size))]])


def value(size):
    return script(everywhere=[["x-long", "a" * size]])


KINDS = [
    ("headers of each message", headers, SIZES),
    ("directives of the response", response_directives, SIZES),
    ("directives of each request", request_directives, SIZES),
    ("pieces of Vary", vary, SIZES),
    ("bytes of a value", value, [1000, 10000, 100000, 1000000]),
]


def lines_of(text, count):
    """Returns the lines that bench_calls prints, each as a name and a mean."""
    ran = subprocess.run([*COMMAND, str(count)], input=text, stdout=subprocess.PIPE)
    if ran.returncode != 0:
        sys.exit(ran.returncode)
    return [line.rsplit(" ", 1) for line in ran.stdout.decode().splitlines()]


def calls(text, count):
    means = [int(mean) for name, mean in lines_of(text, count) if not name.startswith("choose")]
    created, _, copied, verdict, fresh, _, stale, after = means
    return [created, copied, verdict, fresh, stale, after]


def least(text, size):
    """Returns the least means of seven runs. A run makes as many calls as take a tenth of a second, and few of large ones."""
    most = 9 if size >= 10000 else 99 if size >= 1000 else 100000
    count = max(3, min(most, 100_000_000 // max(1, sum(calls(text, 3)))))
    return [min(means) for means in zip(*(calls(text, count) for _ in range(7)))]


def shown(names, means, before, factor):
    grown = [""] * len(means) if before is None else [f" {m / max(1, b) / factor:.2f}" for m, b in zip(means, before)]
    return ", ".join(f"{name} {mean}{more}" for name, mean, more in zip(names, means, grown))


def main():
    for name, make, sizes in KINDS:
        print(name)
        before = size_before = None
        for size in sizes:
            means = least(json.dumps(make(size)).encode(), size)
            print(f"  {size}: " + shown(CALLS, means, before, size / (size_before or size)), flush=True)
            before, size_before = means, size
    print("policies to choose from, none of which matches")
    before = size_before = None
    for name, mean in lines_of(json.dumps(script()).encode(), 10000):
        if name.startswith("choose"):
            size = int(name.split()[-1])
            print(f"  {size}: " + shown(["choose"], [int(mean)], before, size / (size_before or size)))
            before, size_before = [int(mean)], size


main()
