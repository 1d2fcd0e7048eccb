"""Prints what a hit costs in the proxy of the Python package, on both event loops, in Squid and in nginx, in one run.

    bench_proxies.py PROGRAM    (PROGRAM: a cacheserve; bin/bench --proxies calls it)

Each proxy has the same origin server and stores 200 pages of 1 kB, which are fresh for an hour. Then `wrk -t1 -c50` requests
them in three rounds. It prints a row for each proxy that is installed, from its best round. The cells are the hits a second by
the clock, and the processor time of a hit in microseconds, of all processes of the proxy. The last cell is that time divided by
the time of nginx.
"""
import asyncio
import contextlib
import os
import re
import shutil
import subprocess
import sys
import tempfile
import threading
import time
import urllib.request
from pathlib import Path

sys.path.append(str(Path(__file__).resolve().parent.parent / "tests/sockets"))
sys.dont_write_bytecode = True
from started import free_port, proxy, python_with, wait_for

PAGES = 200
ROUNDS = 3
SECONDS = 4
PAGE = b"x" * 1024

SQUID = """http_port 127.0.0.1:{port} accel defaultsite=bench.test vhost
cache_peer 127.0.0.1 parent {origin} 0 no-query originserver no-digest no-netdb-exchange name=o
acl everybody src all
http_access allow everybody
never_direct allow everybody
cache_mem 64 MB
access_log none
cache_log {folder}/log
pid_filename none
coredump_dir {folder}
shutdown_lifetime 1 seconds
"""
NGINX = """daemon off; user root; worker_processes 1; pid {folder}/pid; error_log {folder}/errors;
events {{ worker_connections 1024; }}
http {{
  access_log off; keepalive_requests 1000000;
  proxy_cache_path {folder}/stored levels=1:2 keys_zone=z:10m; proxy_temp_path {folder}/t1; client_body_temp_path {folder}/t2;
  fastcgi_temp_path {folder}/t3; uwsgi_temp_path {folder}/t4; scgi_temp_path {folder}/t5;
  server {{ listen 127.0.0.1:{port}; location / {{ proxy_pass http://127.0.0.1:{origin}; proxy_set_header Host $http_host;
    proxy_cache z; proxy_http_version 1.1; proxy_set_header Connection ""; }} }}
}}
"""


async def origin(reader, writer):
    with contextlib.suppress(asyncio.IncompleteReadError, ConnectionError):
        while True:
            await reader.readuntil(b"\r\n\r\n")
            date = time.strftime("%a, %d %b %Y %H:%M:%S GMT", time.gmtime()).encode()
            fields = b"Date: %s\r\nContent-Type: text/html\r\nCache-Control: max-age=3600\r\nETag: \"abc\"\r\n" % date
            writer.write(b"HTTP/1.1 200 OK\r\n%sContent-Length: %d\r\n\r\n%s" % (fields, len(PAGE), PAGE))
    writer.close()


async def serve_origin(port):
    async with await asyncio.start_server(origin, "127.0.0.1", port):
        await asyncio.Event().wait()


@contextlib.contextmanager
def started(command, folder, port, configuration, origin_port):
    path = Path(folder) / "configuration"
    path.write_text(configuration.format(folder=folder, port=port, origin=origin_port))
    os.chmod(folder, 0o777)
    run = subprocess.Popen([*command, str(path)], stdout=subprocess.DEVNULL, stderr=subprocess.DEVNULL)
    try:
        wait_for(port, run)
        yield run, port
    finally:
        run.terminate()
        run.wait(20)


def used(pid):
    """Returns the processor time of a process and of all its descendants in seconds."""
    total, parents = 0.0, {}
    for path in Path("/proc").glob("[0-9]*/stat"):
        with contextlib.suppress(OSError):
            words = path.read_text().rpartition(")")[2].split()
            parents.setdefault(int(words[1]), []).append((int(path.parent.name), int(words[11]) + int(words[12])))
            if int(path.parent.name) == pid:
                total += int(words[11]) + int(words[12])
    left = [pid]
    while left:
        for child, ticks in parents.get(left.pop(), []):
            left.append(child)
            total += ticks
    return total / os.sysconf("SC_CLK_TCK")


def round_of(pid, port, script):
    """Returns the hits a second and the processor time of a hit in microseconds, in one round."""
    before = used(pid)
    command = ["wrk", "-t1", "-c50", f"-d{SECONDS}", "-s", script, f"http://127.0.0.1:{port}"]
    out = subprocess.run(command, capture_output=True, text=True, check=True).stdout
    if "Non-2xx" in out or "Socket errors" in out:
        sys.exit(f"bench_proxies.py: {out}")
    count = int(re.search(r"(\d+) requests in", out)[1])
    return count / SECONDS, (used(pid) - before) / count * 1e6


def main():
    if not shutil.which("wrk"):
        sys.exit("bench_proxies.py: wrk isn't installed; apt-get install wrk squid nginx")
    origin_port = free_port()
    threading.Thread(target=lambda: asyncio.run(serve_origin(origin_port)), daemon=True).start()
    with contextlib.ExitStack() as stack:
        folder = stack.enter_context(tempfile.TemporaryDirectory())
        script = f"{folder}/pages.lua"
        Path(script).write_text(
            f'local i = 0\nrequest = function() i = (i + 1) % {PAGES}; return wrk.format("GET", "/page/" .. i) end\n'
        )
        subjects = {"the Python proxy": stack.enter_context(proxy(sys.argv[1], origin_port))}
        if python_with("uvloop"):
            subjects["the Python proxy, uvloop"] = stack.enter_context(proxy(sys.argv[1], origin_port, "--uvloop"))
        for name, command, configuration in (("Squid", ["squid", "-N", "-f"], SQUID), ("nginx", ["nginx", "-c"], NGINX)):
            if shutil.which(command[0]):
                room = stack.enter_context(tempfile.TemporaryDirectory())
                subjects[name] = stack.enter_context(started(command, room, free_port(), configuration, origin_port))
        rounds = {name: [] for name in subjects}
        for run, port in subjects.values():
            for page in range(PAGES):
                urllib.request.urlopen(f"http://127.0.0.1:{port}/page/{page}").read()
        for _ in range(ROUNDS):
            for name, (run, port) in subjects.items():
                rounds[name].append(round_of(run.pid, port, script))
    print("| proxy | hits a second | µs of a processor for a hit | times those of nginx |")
    print("|---|---|---|---|")
    least = {name: min(cost for _, cost in measured) for name, measured in rounds.items()}
    for name, measured in rounds.items():
        ratio = f"{least[name] / least['nginx']:.1f}" if "nginx" in least else "-"
        print(f"| {name} | {max(speed for speed, _ in measured):.0f} | {least[name]:.0f} | {ratio} |")


if __name__ == "__main__":
    main()
