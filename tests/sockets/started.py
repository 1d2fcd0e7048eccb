"""Starts the proxy of the Python package, and finds its child processes."""
import contextlib
import functools
import os
import signal
import socket
import subprocess
import sys
import time
from pathlib import Path

ROOT = Path(__file__).resolve().parent.parent.parent
PACKAGE = ROOT / "python"


def free_port():
    with socket.create_server(("127.0.0.1", 0)) as server:
        return server.getsockname()[1]


def with_package(program):
    return {**os.environ, "PYTHONPATH": str(PACKAGE), "PYTHONDONTWRITEBYTECODE": "1", "CACHESERVE": program}


@functools.lru_cache(maxsize=None)
def python_with(package):
    """Returns a Python that has a package, or None."""
    for python in (sys.executable, "/usr/bin/python3"):
        if subprocess.run([python, "-c", f"import {package}"], stderr=subprocess.DEVNULL).returncode == 0:
            return python
    return None


@contextlib.contextmanager
def proxy(program, origin_port, *words, command=("-m", "http_cache_semantics.proxy"), **how):
    """Runs a proxy, as a context of its process and its port."""
    port = free_port()
    there = [f"--listen=127.0.0.1:{port}", f"--origin=http://127.0.0.1:{origin_port}"]
    python = python_with("h11")
    if not python:
        sys.exit("started.py: the proxy needs h11: apt-get install python3-h11")
    command = [python, *command, *there, *words]
    run = subprocess.Popen(command, env=with_package(program), **how)
    try:
        wait_for(port, run)
        yield run, port
    finally:
        if run.poll() is None:
            run.send_signal(signal.SIGTERM)
        run.wait(60)


def wait_for(port, run):
    for _ in range(200):
        with contextlib.suppress(OSError):
            socket.create_connection(("127.0.0.1", port), 1).close()
            return
        if run.poll() is not None:
            break
        time.sleep(0.05)
    raise SystemExit(f"started.py: nothing listens on port {port}: the process has status {run.poll()}")


def children(pid):
    """Returns the IDs of the child processes of a process."""
    found = []
    for path in Path("/proc").glob("[0-9]*/stat"):
        with contextlib.suppress(OSError):
            if int(path.read_text().rpartition(")")[2].split()[1]) == pid:
                found.append(int(path.parent.name))
    return found


def memory(pid):
    """Returns the resident memory of a process in kilobytes."""
    lines = Path(f"/proc/{pid}/status").read_text().splitlines()
    return int(next(line for line in lines if line.startswith("VmRSS")).split()[1])


def peak(pid):
    """Returns the most resident memory that a process has had, in kilobytes."""
    lines = Path(f"/proc/{pid}/status").read_text().splitlines()
    return int(next(line for line in lines if line.startswith("VmHWM")).split()[1])
