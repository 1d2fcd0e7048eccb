"""Prints how a hit, memory and opening grow with the number of stored responses, of 1 kB each.

    stores.py WORD..    (WORD..: the command of test_stores; bin/bench --scaling calls it)

It prints a row for each number of responses. The cells on a store in memory are:
- the instructions of a hit and of making its request, if valgrind is installed;
- the microseconds of a hit, the least of three runs of 20,000 hits, and how many times the row before's time it is;
- the greatest memory of a run.

The cells on a directory are the microseconds and the memory, the size of its files, and the times to fill and to open it.
"""
import os
import re
import shutil
import subprocess
import sys
import tempfile
from pathlib import Path

COMMAND = sys.argv[1:]
HITS = "20000"
RUNS = 3
SIZES = [10, 100, 1000, 10000, 100000, 1000000]
COUNTED = 1000
MOST_COUNTED = 100000
VALGRIND = ["valgrind", "--tool=callgrind", "--callgrind-out-file=/dev/null", "--trace-children=yes"]


def run(*words):
    """Returns the numbers that test_stores prints, by name, and the greatest memory of the run in bytes."""
    ran = subprocess.Popen([*COMMAND, *words], stdout=subprocess.PIPE, text=True)
    text = ran.stdout.read()
    _, status, used = os.wait4(ran.pid, 0)
    if status != 0:
        sys.exit(f"stores.py: test_stores {' '.join(words)} ended with status {status}")
    numbers = {name: int(number) for name, number in re.findall(r"(\w+) (\d+)", text)}
    return numbers, used.ru_maxrss * 1024


def least(*words):
    """Returns the run with the fastest hits. Exits unless each request of each run is a hit."""
    runs = [run(*words) for _ in range(RUNS)]
    for numbers, _ in runs:
        if numbers["answered"] != int(HITS):
            sys.exit(f"stores.py: {numbers['answered']} hits of {HITS}")
    return min(runs, key=lambda run: run[0]["hit_ns"])


def collected(size, hits):
    """Returns the instructions of a whole run over a store in memory."""
    ran = subprocess.run([*VALGRIND, *COMMAND, "memory", str(size), str(hits)], capture_output=True, text=True, check=True)
    return int(re.findall(r"Collected : (\d+)", ran.stderr)[-1])


def instructions(size):
    """Returns the instructions of a hit and of making its request, as a cell of the table."""
    if size > MOST_COUNTED or shutil.which("valgrind") is None:
        return "-"
    return str((collected(size, 2 * COUNTED) - collected(size, COUNTED)) // COUNTED)


def shown(numbers, memory, before):
    grown = f"{numbers['hit_ns'] / before:.2f}" if before else "-"
    return f"{numbers['hit_ns'] / 1000:.2f} | {grown} | {memory / 1e6:.0f}"


def main():
    print("| responses | instructions | hit in memory, µs | grown | memory, MB | hit over a directory, µs | grown "
          "| memory, MB | files, MB | filled, s | opened, s |")
    print("|---|---|---|---|---|---|---|---|---|---|---|")
    before = before_file = None
    for size in SIZES:
        kept, memory = least("memory", str(size), HITS)
        with tempfile.TemporaryDirectory() as folder:
            path = Path(folder) / "responses"
            filled, _ = run("fill", str(size), str(path))
            length = sum(file.stat().st_size for file in path.iterdir())
            opened, memory_of_file = least("directory", HITS, str(path))
        print(f"| {size} | {instructions(size)} | {shown(kept, memory, before)} | {shown(opened, memory_of_file, before_file)} "
              f"| {length / 1e6:.1f} | {filled['fill_ns'] / 1e9:.2f} | {opened['open_ns'] / 1e9:.2f} |", flush=True)
        before, before_file = kept["hit_ns"], opened["hit_ns"]


main()
