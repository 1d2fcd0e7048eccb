"""Runs the cases by frames of `cacheserve` (docs/PROTOCOL.md), in virtual time: each frame states its time."""
import sys
from pathlib import Path

ROOT = Path(__file__).resolve().parent.parent.parent
sys.path.append(str(ROOT / "python"))
from cases import BODILESS, has, origin_of, request_of, times
from http_cache_semantics.process import Cache, CacheError, NoResponse, ProcessOptions, Send
from origin import chosen

# The answer if there is no response (RFC 9110, section 15.6.5).
NO_RESPONSE = {"status": 504, "headers": [["Cache-Status", 'ours; detail="no response"']], "body": b"", "is_cut_off": False}


def without_chunks(headers):
    """Returns the fields without Transfer-Encoding, since a frame states the length of the body."""
    return [field for field in headers if field[0].lower() != "transfer-encoding"]


def head_of(first, headers):
    return "\r\n".join([first, *(f"{name}: {value}" for name, value in headers), "", ""]).encode("latin-1")


def fields_of(head):
    """Returns the first line of a head, and its fields."""
    first, *lines = head.decode("latin-1").split("\r\n")[:-2]
    return first, [line.split(": ", 1) for line in lines]


def seen(send):
    """Returns a request to the origin server in the form that the judge reads."""
    first, headers = fields_of(send.head)
    method, target, _ = first.split(" ")
    return {"method": method, "target": target, "headers": headers, "body": send.body}


def answered(answer, method):
    """Returns an answer in the form that the judge reads. It is cut off if Content-Length exceeds the body's length."""
    first, headers = fields_of(answer.head)
    status = int(first.split(" ")[1])
    lengths = [value for name, value in headers if name.lower() == "content-length"]
    has_body = method != "HEAD" and status not in BODILESS
    is_cut_off = has_body and bool(lengths) and lengths[0].isdigit() and int(lengths[0]) > len(answer.body)
    return {"status": status, "headers": headers, "body": answer.body, "is_cut_off": is_cut_off}


class Step:
    """One step of a case: its request, the origin server's answers, and the requests that the origin server saw."""

    def __init__(self, cache, case, number, now):
        self.cache, self.case, self.number, self.now = cache, case, number, now
        self.saw = []

    def at(self, delay=0):
        return int(round(self.now * 1000 + delay * 1000))

    def outcome_of(self, send):
        """Sends a request to the origin server, and returns the next outcome."""
        request = seen(send)
        self.saw.append(request)
        origin = origin_of(self.case, self.number, self.now)
        if origin is None:
            return self.cache.failed(send, at=self.at())
        one = chosen(origin, request["headers"])
        self.now += origin["delay_ns"] / 1e9
        body = b"" if request["method"] == "HEAD" else bytes.fromhex(one["body_hex"])
        head = head_of(f"HTTP/1.1 {one['status']} Told", without_chunks(one["headers"]))
        return self.cache.received(send, head, body, sent=self.at(-origin["delay_ns"] / 1e9), at=self.at())

    def answer(self):
        request = request_of(self.case, self.case["steps"][self.number], self.now)
        body = bytes.fromhex(request["body_hex"])
        headers = without_chunks(request["headers"])
        if len(headers) < len(request["headers"]) and not has(headers, "content-length"):
            headers.append(["Content-Length", str(len(body))])
        head = head_of(f"{request['method']} {request['target']} HTTP/1.1", headers)
        found = self.cache.ask(head, body, at=self.at())
        while isinstance(found, Send):
            found = self.outcome_of(found)
        due = found.due
        while isinstance(due, Send):
            due = self.outcome_of(due)
        return answered(found, request["method"])

    def observed(self):
        try:
            answer = self.answer()
        except NoResponse:
            answer = NO_RESPONSE
        except CacheError as error:
            answer = {"error": str(error)}
        return {"answer": answer, "origin_saw": self.saw}


def observed_by(options, cases):
    """Returns what the program does in each step of the cases, by their ids."""
    with Cache(options) as cache:
        return {
            case["id"]: [Step(cache, case, number, now).observed() for number, now in enumerate(times(case))]
            for case in cases
        }
