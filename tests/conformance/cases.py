"""Loads the cases, makes their requests and the responses of the origin server, and reads answers from a connection."""
import email.utils
import json
import re
import time
from http.client import HTTPException, HTTPResponse
from pathlib import Path

FOLDER = Path(__file__).resolve().parent / "cases"
HOST = "conf.test"
# A case without a start of its own begins at 2026-01-01T00:00:00Z. Its steps are so many seconds apart.
START = 1_767_225_600
BETWEEN_STEPS = 0.03
WEEKDAYS = ["Monday", "Tuesday", "Wednesday", "Thursday", "Friday", "Saturday", "Sunday"]
# The cases that fail though they are cases for a caching client, in the order of the files: docs/CONFORMANCE.md explains why.
KNOWN = ["max-age-plus", "fresh-max-age-33-digits"]
# The statuses of answers that never have a body.
BODILESS = (204, 304)


def load():
    """Returns all cases, in the order of their files."""
    return [case for path in sorted(FOLDER.glob("*.json")) for case in json.loads(path.read_text())]


def needs_bytes(case):
    """Returns whether a case needs bytes on a connection: interim responses, or incomplete chunks."""
    origins = [step.get("origin") or {} for step in case["steps"]]
    return any(it.get("informational") or it.get("chunked") and it.get("cut_after") is not None for it in origins)


def kind_of(case):
    """Returns the kind of a case: must, should, reuse (a should that no RFC demands) or optional."""
    return "reuse" if case["basis"] == "reuse" else case["level"]


# ---- headers, as lists of a name and a value


def values(headers, name):
    return [value for known, value in headers if known.lower() == name.lower()]


def joined(headers, name):
    return ", ".join(value.strip() for value in values(headers, name))


def has(headers, name):
    return bool(values(headers, name))


# ---- texts with dates


def date_text(seconds, form=None):
    """Returns a date as IMF-fixdate, or in another form: 850, asc, lower, or with another zone."""
    fixdate = email.utils.formatdate(int(seconds), usegmt=True)
    parts = time.gmtime(int(seconds))
    month, clock = fixdate[8:11], fixdate[17:25]
    if form is None:
        return fixdate
    if form == "850":
        return f"{WEEKDAYS[parts.tm_wday]}, {parts.tm_mday:02}-{month}-{parts.tm_year % 100:02} {clock} GMT"
    if form == "asc":
        return f"{fixdate[:3]} {month} {parts.tm_mday:2} {clock} {parts.tm_year}"
    if form == "lower":
        return fixdate.lower()
    if form.startswith("zone "):
        return fixdate.replace("GMT", form[len("zone ") :])
    raise ValueError(form)


def expand(text, case, now):
    """Returns a text with its words in braces replaced: {start+60}, {now-5|850}, {base}, {host} and {id}."""
    words = {"base": base_of(case), "host": HOST, "id": case["id"]}

    def meaning(found):
        word = found[1]
        if word in words:
            return words[word]
        date = re.fullmatch(r"(start|now)([+-]\d+)?(?:\|(.*))?", word)
        if not date:
            return found[0]
        return date_text((start_of(case) if date[1] == "start" else now) + int(date[2] or 0), date[3])

    return re.sub(r"\{([^{}]*)\}", meaning, text)


def expand_headers(headers, case, now):
    return [[name, expand(value, case, now)] for name, value in headers]


# ---- requests


def start_of(case):
    return case.get("start", START)


def base_of(case):
    return "/c/" + case["id"]


def times(case):
    """Yields the time of each step, in seconds since 1970."""
    at = start_of(case)
    for number, step in enumerate(case["steps"]):
        at += step.get("pause", 0)
        if number:
            before = case["steps"][number - 1].get("origin") or {}
            at += BETWEEN_STEPS + before.get("delay", 0)
        yield at


def method_of(step):
    return step["request"].get("method", "GET")


def request_of(case, step, now):
    request = step["request"]
    target = expand(request.get("raw_target") or base_of(case) + request.get("path", ""), case, now)
    if request.get("absolute"):
        target = f"http://{request['absolute']}{target}"
    headers = [["Host", request.get("host", HOST)]] + expand_headers(request.get("headers", []), case, now)
    body = request.get("body", "").encode("latin-1")
    if request.get("chunked"):
        headers.append(["Transfer-Encoding", "chunked"])
    elif "body" in request and not has(headers, "content-length"):
        headers.append(["Content-Length", str(len(body))])
    return {"method": method_of(step), "target": target, "headers": headers, "body_hex": body.hex()}


def raw_request(request):
    """Returns a request as it is sent on a connection. A body without a length is sent in chunks."""
    body = bytes.fromhex(request["body_hex"])
    head = [f"{request['method']} {request['target']} HTTP/1.1"]
    head += [f"{name}: {value}" for name, value in request["headers"]]
    if has(request["headers"], "transfer-encoding") and not has(request["headers"], "content-length"):
        body = b"".join(b"%x\r\n%b\r\n" % (len(part), part) for part in (body[:5], body[5:]) if part) + b"0\r\n\r\n"
    return "\r\n".join([*head, "", ""]).encode("latin-1") + body


# ---- what the origin would answer


def body_of(case, number):
    """Returns the body of the origin server's own answer in a step."""
    origin = case["steps"][number].get("origin")
    if not origin:
        return b""
    return origin.get("body", f"{case['id']} step {number}\n").encode("latin-1")


def finished(case, origin, status, headers, body, now):
    """Returns an answer with the Date and Content-Length that the origin server adds."""
    headers = expand_headers(headers, case, now)
    if not origin.get("no_date") and not has(headers, "date"):
        headers.insert(0, ["Date", date_text(now)])
    is_framed = has(headers, "content-length") or has(headers, "transfer-encoding")
    has_no_length = origin.get("no_length") or origin.get("chunked") or status in BODILESS
    if not is_framed and not has_no_length:
        headers.append(["Content-Length", str(len(body))])
    return {"status": status, "headers": headers, "body_hex": body.hex()}


def own_answer(case, number, origin, now):
    status = origin.get("status", 200)
    body = b"" if status in BODILESS and "body" not in origin else body_of(case, number)
    answer = finished(case, origin, status, origin.get("headers", []), body, now)
    # A body that is shorter than its Content-Length is incomplete.
    answer["body_hex"] = body[: origin.get("cut_after")].hex()
    return answer


def origin_of(case, number, now):
    """Returns the origin server's answers in a step, to each kind of request, or None if it sends no response."""
    origin = case["steps"][number].get("origin")
    if origin is None:
        return None
    received = now + origin.get("delay", 0)
    answer = own_answer(case, number, origin, received)
    answer["delay_ns"] = int(origin.get("delay", 0) * 1e9)
    for name, status in (("conditional", 304), ("range", 206)):
        rule = origin.get(name)
        if not rule:
            continue
        body = rule.get("body", "").encode("latin-1")
        answer[name] = finished(case, origin, rule.get("status", status), rule.get("headers", []), body, received)
        answer[name]["force"] = bool(rule.get("force"))
        answer[name]["etag"] = rule.get("etag", "")
        answer[name]["date"] = expand(rule.get("date", ""), case, now)
    return answer


# ---- answers on a connection


def answer_on(connection, method):
    """Returns the next answer on a connection. Interim responses are skipped."""
    answer = HTTPResponse(connection, method=method)
    try:
        answer.begin()
        body = answer.read()
    except HTTPException as e:
        return {"error": f"{type(e).__name__}: {e}"}
    headers = [[name, value] for name, value in answer.getheaders()]
    return {"status": answer.status, "headers": headers, "body": body, "is_cut_off": False}
