"""Prints the tables of docs/CONFORMANCE.md: the cases of conformance by category, for cacheserve, the Python package over it, and
the caches that are installed.

    caches.py PROGRAM    (PROGRAM: a cacheserve)

A cell has passed/failed (untested); of optional cases yes/no (untested)."""
import contextlib
import os
import shutil
import subprocess
import sys
import tempfile
from collections import Counter
from pathlib import Path

sys.dont_write_bytecode = True
from cases_over_sockets import OriginServer, asked_at, judged_cases
from cases import kind_of, load, needs_bytes
from judge import judge
from started import PACKAGE, free_port, proxy, wait_for

sys.path.append(str(PACKAGE))
os.environ["CACHESERVE"] = os.path.abspath(sys.argv[1])
from adapter_cases import by_requests, cases_of
from served import ProcessOptions, observed_by

NGINX = """daemon off; user root; worker_processes 1; pid {folder}/pid; error_log {folder}/errors;
events {{ worker_connections 1024; }}
http {{
  access_log off; proxy_cache_path {folder}/stored levels=1:2 keys_zone=z:10m; proxy_temp_path {folder}/t1;
  client_body_temp_path {folder}/t2; fastcgi_temp_path {folder}/t3; uwsgi_temp_path {folder}/t4; scgi_temp_path {folder}/t5;
  server {{ listen 127.0.0.1:{port} backlog=512; location / {{
    proxy_pass http://127.0.0.1:{origin}; proxy_set_header Host $http_host; proxy_set_header Connection "";
    proxy_http_version 1.1; proxy_cache z; proxy_cache_key $scheme$http_host$request_uri;
    proxy_cache_revalidate on; proxy_cache_background_update on; }} }}
}}
"""
HAPROXY = """global
  maxconn 1000
defaults
  mode http
  timeout connect 5s
  timeout client 20s
  timeout server 20s
cache stored
  total-max-size 64
  max-object-size 1000000
  max-age 3600
  process-vary on
frontend clients
  bind 127.0.0.1:{port}
  http-request cache-use stored
  http-response cache-store stored
  default_backend origin
backend origin
  server origin 127.0.0.1:{origin}
"""
OTHERS = {"nginx": (["nginx", "-c"], NGINX), "HAProxy": (["haproxy", "-f"], HAPROXY)}
KINDS = {"must": "must", "should": "should", "reuse": "reuse", "optional": "optional: yes/no"}


def in_virtual_time(kind, cache):
    """Returns the judged cases of the program without sockets, as a client or a proxy."""
    cases = [case for case in load() if case["cache"] in ("any", cache) and not needs_bytes(case)]
    options = ProcessOptions(private=cache == "private", proxy=kind == "proxy", name="ours")
    observed = observed_by(options, cases)
    return [(case, *judge(case, observed[case["id"]])) for case in cases]


@contextlib.contextmanager
def other(name, origin_port):
    """Runs another cache, as a context of its port."""
    command, configuration = OTHERS[name]
    with tempfile.TemporaryDirectory() as folder:
        port, path = free_port(), Path(folder) / "configuration"
        path.write_text(configuration.format(folder=folder, port=port, origin=origin_port))
        run = subprocess.Popen([*command, path], stdout=subprocess.DEVNULL, stderr=subprocess.DEVNULL)
        try:
            wait_for(port, run)
            yield port
        finally:
            run.terminate()
            run.wait(20)


def through(started):
    """Returns the judged cases of a cache that a function starts before an origin server."""
    origin = OriginServer()
    with started(origin.port) as port:
        return judged_cases(origin, [case for case in load() if case["cache"] != "private"], asked_at(port))


@contextlib.contextmanager
def own(origin_port):
    with proxy(os.environ["CACHESERVE"], origin_port, stderr=subprocess.DEVNULL) as (_, port):
        yield port


def by_adapter():
    origin, (send, close) = OriginServer(), by_requests()
    judged = judged_cases(origin, *cases_of(send, origin))
    close()
    return judged


def cell(counts):
    if not counts:
        return "-"
    return f"{counts['pass']}/{counts['fail']}" + (f" ({counts['untested']})" if counts["untested"] else "")


def table(subjects, kind):
    """Yields the lines of the table of one kind."""
    counts = {name: {} for name in subjects}
    for name, judged in subjects.items():
        for case, outcome, _ in judged:
            if kind_of(case) == kind:
                for category in (case["category"], "**all**"):
                    counts[name].setdefault(category, Counter())[outcome] += 1
    yield f"### {KINDS[kind]}\n"
    yield "| category | " + " | ".join(subjects) + " |"
    yield "|---" * (len(subjects) + 1) + "|"
    categories = {category for found in counts.values() for category in found}
    for category in sorted(categories, key=lambda category: (category == "**all**", category)):
        yield f"| {category} | " + " | ".join(cell(counts[name].get(category)) for name in subjects) + " |"


def main():
    subjects = {
        "ours": in_virtual_time("client", "shared"),
        "ours, private": in_virtual_time("client", "private"),
        "ours, proxy": in_virtual_time("proxy", "shared"),
        "ours, sockets": through(own),
        "ours, requests": by_adapter(),
    }
    for name, (command, _) in OTHERS.items():
        if shutil.which(command[0]):
            subjects[name] = through(lambda port: other(name, port))
    for kind in KINDS:
        print("\n".join(table(subjects, kind)) + "\n")
    for name, judged in subjects.items():
        print(f"{name}: {len(judged)} cases", file=sys.stderr)


if __name__ == "__main__":
    main()
