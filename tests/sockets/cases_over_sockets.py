"""Runs the cases of tests/conformance over real sockets, with an origin server and with clients in real time."""
import socket
import socketserver
import sys
import threading
import time
from concurrent.futures import ThreadPoolExecutor
from http.client import HTTPException, HTTPResponse, IncompleteRead
from pathlib import Path

sys.dont_write_bytecode = True
ROOT = Path(__file__).resolve().parent.parent.parent
sys.path.append(str(ROOT / "tests/conformance"))
from cases import expand_headers, has, kind_of, method_of, origin_of, raw_request, request_of
from judge import judge
from origin import chosen, raw_response, received_request

# The client adds this field to each request, so that the origin server knows the case and the step.
STEP = "X-Conf-Step"
AT_ONCE = 60
# How many seconds a validation that is sent after the answer may take, also on a busy machine where a case is run by itself.
AFTERWARDS, AT_LAST = 0.1, 0.5


class OriginServer(socketserver.ThreadingTCPServer):
    """The origin server of all cases, and the requests that it saw in each step."""

    daemon_threads = True
    allow_reuse_address = True
    request_queue_size = 512

    def __init__(self):
        super().__init__(("127.0.0.1", 0), Connection)
        self.port = self.server_address[1]
        self.cases = {}
        self.saw = {}
        threading.Thread(target=self.serve_forever, daemon=True).start()

    def handle_error(self, *_):
        """Ignores errors, since a proxy may close a connection at any time."""


class Connection(socketserver.StreamRequestHandler):
    def handle(self):
        while request := received_request(self.rfile):
            if not self.answer(request):
                return

    def answer(self, request):
        """Answers a request, and returns whether another request may follow on the connection."""
        [step] = [value for name, value in request["headers"] if name.lower() == STEP.lower()]
        name, _, number = step.rpartition(".")
        case = self.server.cases[name]
        request["headers"] = [field for field in request["headers"] if field[0].lower() != STEP.lower()]
        self.server.saw.setdefault(step, []).append(request)
        answer, origin = origin_of(case, int(number), time.time()), case["steps"][int(number)].get("origin")
        if answer is None:
            return False
        time.sleep(origin.get("delay", 0))
        for interim in origin.get("informational", []):
            fields = expand_headers(interim.get("headers", []), case, time.time())
            lines = [f"HTTP/1.1 {interim['status']} Interim", *(f"{name}: {value}" for name, value in fields), "", ""]
            self.wfile.write("\r\n".join(lines).encode("latin-1"))
        one = chosen(answer, request["headers"])
        raw = raw_response(one, request["method"])
        if one is not answer:
            self.wfile.write(raw)
            return True
        if origin.get("no_length"):
            head, _, _ = raw.partition(b"\r\n\r\n")
            raw = head.replace(b"\r\nTransfer-Encoding: chunked", b"") + b"\r\n\r\n" + bytes.fromhex(one["body_hex"])
        is_cut = origin.get("cut_after") is not None
        if is_cut and not has(one["headers"], "content-length"):
            raw = raw.removesuffix(b"0\r\n\r\n")
        self.wfile.write(raw)
        return not is_cut and not origin.get("no_length") and not origin.get("close")


class Stream:
    """An object that HTTPResponse uses as a socket."""

    def __init__(self, file):
        self.file = file

    def makefile(self, *_):
        return self.file


def received_answer(file, method):
    """Returns the final response on a connection in the form that the judge reads."""
    answers = []
    try:
        while not answers or answers[-1].status < 200:
            # An HTTPResponse that is garbage collected closes the file, so the list keeps all of them.
            answer = HTTPResponse(Stream(file), method=method)
            answers.append(answer)
            answer.begin()
        headers = [[name, value] for name, value in answer.getheaders()]
        body, is_cut_off = answer.read(), False
    except IncompleteRead as e:
        body, is_cut_off = e.partial, True
    except (HTTPException, OSError) as e:
        return {"error": f"{type(e).__name__}: {e}"}
    return {"status": answer.status, "headers": headers, "body": body, "is_cut_off": is_cut_off}


def run_case(origin, case, ask, afterwards=AFTERWARDS):
    """Returns the outcome of a case, and the reason. `ask` returns what a client receives in a step."""
    case = {**case, "start": int(time.time())}
    origin.cases[case["id"]] = case
    observations = []
    for number, step in enumerate(case["steps"]):
        time.sleep(step.get("pause", 0))
        answer = ask(case, number, time.time())
        time.sleep(afterwards)
        observations.append({"answer": answer, "origin_saw": origin.saw.get(f"{case['id']}.{number}", [])})
    return judge(case, observations)


def judged_cases(origin, cases, ask):
    """Returns each case with its outcome and the reason. One that doesn't pass is run once more, by itself and for a target of
    its own, since many at once may be late on a busy machine."""
    with ThreadPoolExecutor(AT_ONCE) as pool:
        outcomes = list(pool.map(lambda case: run_case(origin, case, ask), cases))
    return [
        (case, *(outcome if outcome[0] == "pass" else run_case(origin, {**case, "id": case["id"] + "-again"}, ask, AT_LAST)))
        for case, outcome in zip(cases, outcomes)
    ]


def run_cases(origin, cases, ask):
    """Returns how many cases of each kind pass, and a line for each other case that isn't optional."""
    passed, wrong = {}, []
    for case, outcome, why in judged_cases(origin, cases, ask):
        kind = kind_of(case)
        passed[kind] = passed.get(kind, 0) + (outcome == "pass")
        if outcome != "pass" and kind != "optional":
            wrong.append(f"{case['id']}: {outcome}: {why}")
    return passed, wrong


def asked_at(port):
    """Returns a function that sends the request of a step to a proxy at a port, and returns what a client receives."""

    def ask(case, number, now):
        step = case["steps"][number]
        request = request_of(case, step, now)
        request["headers"].append([STEP, f"{case['id']}.{number}"])
        try:
            with socket.create_connection(("127.0.0.1", port), 20) as connection:
                connection.sendall(raw_request(request))
                return received_answer(connection.makefile("rb"), method_of(step))
        except OSError as e:
            return {"error": f"{type(e).__name__}: {e}"}

    return ask
