"""Runs built programs with the library tests/refuse.c, which refuses one of their requests, or reports each request."""
import subprocess
import sys
import tempfile
from pathlib import Path

ROOT = Path(__file__).resolve().parent.parent


def built(name):
    """Returns the path of the proved program of a crate. Exits with 69 if there is none."""
    sources = subprocess.run([ROOT / "bin/sources"], capture_output=True, text=True, check=True).stdout.strip()
    program = ROOT / "crates" / name / "out/proved" / sources
    if not program.exists():
        print(f"{name}: only the proved program can be used here; bin/prove {name} builds it", file=sys.stderr)
        sys.exit(69)
    return str(program)


def library_in(folder):
    """Compiles the library into a folder. Returns its path."""
    library = f"{folder}/refuse.so"
    subprocess.run(["cc", "-O2", "-shared", "-fPIC", "-o", library, ROOT / "tests/refuse.c"], check=True)
    return library


def ended(command, library, given="", **variables):
    """Runs a program with the library and environment variables. Returns its status, output and error."""
    environment = {"LD_PRELOAD": library, **variables}
    run = subprocess.run(command, input=given, capture_output=True, text=True, timeout=60, env=environment)
    return run.returncode, run.stdout, run.stderr


def requests(command, library, given=""):
    """Runs a program without a refusal. Returns its output, and its requests in order, each as a line."""
    with tempfile.TemporaryFile("w+") as log:
        number = log.fileno()
        environment = {"LD_PRELOAD": library, "REFUSE_LOG": str(number)}
        run = subprocess.run(
            command, input=given, capture_output=True, text=True, timeout=60, pass_fds=[number], env=environment
        )
        log.seek(0)
        return run.stdout, log.read().splitlines()
