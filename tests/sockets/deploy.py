"""Tests the configurations of examples/deploy: a unit of systemd, and nginx and HAProxy in front of two nodes.

Prints `left out` for each program that isn't installed, and what is wrong."""
import contextlib
import http.client
import shutil
import subprocess
import sys
import tempfile
from pathlib import Path

from servers import SmallOrigin
from cases import values
from started import ROOT, free_port, proxy, wait_for

EXAMPLES = ROOT / "examples/deploy"
# The number is odd, so that the test fails if the nodes just take turns.
PAGES = 41


def answer(*_):
    return b"HTTP/1.1 200 OK\r\nCache-Control: max-age=60\r\nContent-Length: 4\r\n\r\npage"


def nginx(folder, port, nodes):
    return ["nginx", "-p", folder, "-c", written(folder, "nginx.conf", port, nodes), "-g", f"daemon off; pid {folder}/pid;"]


def haproxy(folder, port, nodes):
    return ["haproxy", "-db", "-f", written(folder, "haproxy.cfg", port, nodes)]


def written(folder, name, port, nodes):
    """Writes a copy of an example with other ports. Returns its path."""
    text = (EXAMPLES / name).read_text()
    for known, other in zip((8080, 8081, 8082), (port, *nodes)):
        assert f"127.0.0.1:{known}" in text
        text = text.replace(f"127.0.0.1:{known}", f"127.0.0.1:{other}")
    path = Path(folder) / name
    path.write_text(text)
    return str(path)


class Client:
    def __init__(self, port):
        self.connection = http.client.HTTPConnection("127.0.0.1", port, timeout=20)

    def cache_status(self, method, page):
        fields = {"Host": "pages.test", "X-Forwarded-For": "192.0.2.1", "X-Forwarded-Proto": "gopher"}
        self.connection.request(method, f"/{page}?a=1", headers=fields)
        response = self.connection.getresponse()
        response.read()
        return response.getheader("Cache-Status")


def wrongs(port, origin):
    """Yields a line for each fault of two nodes behind a balancer."""
    client = Client(port)
    first = [client.cache_status("GET", page) for page in range(PAGES)]
    again = [client.cache_status("GET", page) for page in range(PAGES)]
    nodes = {text.partition(";")[0] for text in first}
    if nodes != {"one", "two"}:
        yield f"nodes that are used: {nodes}"
    if len(origin.asked) != PAGES:
        yield f"{len(origin.asked)} requests reached the origin server"
    for before, after in zip(first, again):
        if before.partition(";")[0] + "; hit" != after.partition("; ttl")[0]:
            yield f"asked again: {before}, then {after}"
    client.cache_status("POST", 0)
    if "; hit" in client.cache_status("GET", 0):
        yield "a hit after a POST"
    for name, wanted in (("x-forwarded-for", ["127.0.0.1"]), ("x-forwarded-proto", ["http"])):
        found = values(origin.asked[0]["headers"], name)
        if found != wanted:
            yield f"{name}: {found}"


def behind(balancer, program):
    origin = SmallOrigin(answer)
    with contextlib.ExitStack() as stack:
        stack.callback(origin.stop)
        folder = stack.enter_context(tempfile.TemporaryDirectory())
        port = free_port()
        ports = [stack.enter_context(proxy(program, origin.port, f"--name={name}"))[1] for name in ("one", "two")]
        run = subprocess.Popen(balancer(folder, port, ports), stderr=subprocess.DEVNULL)
        stack.callback(run.wait, 20)
        stack.callback(run.terminate)
        wait_for(port, run)
        return list(wrongs(port, origin))


def unit():
    path = EXAMPLES / "http-cache-proxy.service"
    run = subprocess.run(["systemd-analyze", "verify", path], capture_output=True, text=True)
    return [run.stderr] if run.returncode or run.stderr else []


def main():
    program, wrong = sys.argv[1], []
    for tool, check in (
        ("systemd-analyze", unit),
        ("nginx", lambda: behind(nginx, program)),
        ("haproxy", lambda: behind(haproxy, program)),
    ):
        if shutil.which(tool):
            wrong += [f"{tool}: {line}" for line in check()]
        else:
            print(f"left out: the configuration of examples/deploy that needs {tool}")
    print(*wrong, sep="\n")
    return 1 if wrong else 0


if __name__ == "__main__":
    sys.exit(main())
