"""Prints what each call of the library in out/c costs on two scenes, for bin/bench --library.

From C it prints instructions (by valgrind's callgrind), requests for memory, and the most bytes held, with compact and with
JSON stored forms. From Python it prints microseconds, also for CacheControl if python3-cachecontrol is installed. Then it prints
how the instructions from C grow with the fields of each message, with compact forms. The number after them is how many times
those of the size before they are."""
import copy
import json
import os
import re
import shutil
import subprocess
import sys
import tempfile
from pathlib import Path

ROOT = Path(__file__).resolve().parent.parent
HERE = ROOT / "tests/languages"
LIBRARY = ROOT / "out/c"
FORMS = ["compact", "JSON"]
COUNT = 20
SIZES = [10, 100, 1000, 10000]
# How many of the first calls are made with larger messages.
GROWING = 4


def run(*command, **how):
    done = subprocess.run([str(word) for word in command], capture_output=True, text=True, **how)
    if done.returncode != 0:
        sys.exit(f"bin/bench: {command[0]} ended with status {done.returncode}: {done.stderr[-1000:]}")
    return done.stdout


def head(first, message):
    lines = [first, *(f"{name}: {value}" for name, value in message["headers"])]
    return "".join(f"{line}\r\n" for line in lines).encode() + b"\r\n"


def write_messages(scene, folder):
    asked, received = scene["request"], scene["steps"][2]["response"]
    (folder / "request").write_bytes(head(f"{asked['method']} {asked['uri']} HTTP/1.1", asked))
    (folder / "response").write_bytes(head(f"HTTP/1.1 {scene['response']['status']} ", scene["response"]))
    (folder / "received").write_bytes(head(f"HTTP/1.1 {received['status']} ", received))
    (folder / "name").write_text("ExampleCache")
    times = [scene["received"], scene["steps"][0]["at"], scene["steps"][1]["at"]]
    (folder / "times").write_text("".join(f"{seconds} {nanoseconds}\n" for seconds, nanoseconds in times))


def compiled(folder):
    program = folder / "bench"
    sources = [HERE / "bench.c", HERE / "calls.c", LIBRARY / "libhttp_cache_semantics.a"]
    wrapped = [f"-Wl,--wrap={name}" for name in ("malloc", "realloc", "free")]
    run("cc", "-O2", f"-I{LIBRARY}", "-o", program, *sources, *wrapped)
    return program


def instructions(program, folder, kind, count=COUNT, calls=()):
    """Returns the instructions of each call in turn: callgrind writes a file whenever `measured` returns."""
    out = folder / f"counts{kind}"
    counted = ["--toggle-collect=measured", "--dump-after=measured", f"--callgrind-out-file={out}"]
    run("valgrind", "--tool=callgrind", *counted, program, folder, kind, count, *calls)
    files = sorted(folder.glob(f"{out.name}.*"), key=lambda file: int(file.suffix[1:]))
    totals = [int(re.search(r"^(?:summary|totals): (\d+)", file.read_text(), re.MULTILINE)[1]) for file in files]
    return [total // count for total in totals]


def from_c(program, folder):
    costs = {}
    for kind, form in enumerate(FORMS):
        counts = instructions(program, folder, kind) if shutil.which("valgrind") else []
        for i, line in enumerate(run(program, folder, kind, COUNT).splitlines()):
            name, requests, most = line.split("|")
            counted = f"{counts[i]:>8}" if i < len(counts) else "       -"
            costs.setdefault(name, []).append(f"{counted} {requests:>4} {most:>7}")
    print(f"  {'':26}" + "".join(f"{form + ' forms':>23}" for form in FORMS))
    for name, both in costs.items():
        print(f"  {name:26}" + "".join(f"{it:>23}" for it in both))


def with_fields(scene, size):
    """Returns the scene with so many further fields in each message."""
    scene = copy.deepcopy(scene)
    for message in (scene["request"], scene["response"], scene["steps"][2]["response"]):
        message["headers"] += [[f"X-{i}", "1"] for i in range(size)]
    return scene


def growth(scene):
    """Prints a row for each number of further fields."""
    before = {}
    for size in SIZES:
        with tempfile.TemporaryDirectory() as folder:
            write_messages(with_fields(scene, size), Path(folder))
            program = compiled(Path(folder))
            names = [line.split("|")[0] for line in run(program, folder, 0, 1, GROWING).splitlines()]
            counts = dict(zip(names, instructions(program, Path(folder), 0, 2, [GROWING])))
        cells = [f"{name} {counts[name]}" + (f" {counts[name] / before[name]:.1f}" if before else "") for name in names]
        print(f"  {size}: " + "; ".join(cells), flush=True)
        before = counts


def from_python(scene):
    system = "/usr/bin/python3"
    python = system if os.path.exists(system) else sys.executable
    environment = {**os.environ, "PYTHONPATH": str(ROOT / "python"), "PYTHONDONTWRITEBYTECODE": "1"}
    print(run(python, HERE / "times.py", scene, env=environment), end="")


def main():
    if not (LIBRARY / "libhttp_cache_semantics.a").exists():
        sys.exit("bin/bench: no library in out/c; bin/library builds it")
    for scene in sorted((HERE / "scenes").glob("*.json")):
        with tempfile.TemporaryDirectory() as folder:
            write_messages(json.loads(scene.read_text()), Path(folder))
            print(f"{scene.stem}, from C: instructions, requests for memory, bytes held")
            from_c(compiled(Path(folder)), Path(folder))
        print(f"{scene.stem}, from Python: microseconds")
        from_python(scene)
    if shutil.which("valgrind"):
        print("from C, with so many further fields in each message: instructions")
        growth(json.loads((HERE / "scenes/explicit.json").read_text()))


if __name__ == "__main__":
    main()
