"""Compares each form of an audit with the files of tests/recordings/golden: the words, the layout and the order. No contract
speaks of them. Their numbers are compared with references elsewhere (tests/audit, tests/report.py, tests/visits.py).

A file is named for its recording and its form. Called with a program, this writes the files anew, and those of further names;
read the difference before it is committed."""
import subprocess
import sys
from pathlib import Path

FOLDER = Path(__file__).resolve().parent / "recordings"
# The words of the command line for each form.
FORMS = {
    "txt": [],
    "lines": ["--lines"],
    "json": ["--json"],
    "jsonl": ["--json-lines"],
    "html": ["--html"],
    "urls": ["--by-url"],
    "with": ["--with", "*.js: Cache-Control: max-age=600", "--with", "*: ETag:"],
}


def audited(program, name):
    recording, _, form = name.partition(".")
    given = next(FOLDER.glob(f"{recording}.h*")).read_bytes()
    return subprocess.run([program, *FORMS[form]], input=given, capture_output=True, timeout=60).stdout


def first_difference(got, wanted):
    """Returns the number of the first line that differs, and both lines."""
    ours, theirs = got.split(b"\n"), wanted.split(b"\n")
    longest = max(len(ours), len(theirs))
    pairs = zip(ours + [None] * (longest - len(ours)), theirs + [None] * (longest - len(theirs)))
    return next((number, a, b) for number, (a, b) in enumerate(pairs, 1) if a != b)


def golden_faults(program):
    """Returns how many forms were compared, and the first difference of each that differs."""
    paths, faults = sorted((FOLDER / "golden").iterdir()), []
    for path in paths:
        got, wanted = audited(program, path.name), path.read_bytes()
        if got != wanted:
            faults.append((path.name, *first_difference(got, wanted)))
    return len(paths), faults


if __name__ == "__main__":
    written = [path.name for path in (FOLDER / "golden").iterdir()]
    for golden in sorted({*written, *sys.argv[2:]}):
        (FOLDER / "golden" / golden).write_bytes(audited(sys.argv[1], golden))
