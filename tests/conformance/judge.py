"""Judges whether a program did in a case what the case expects (README.md, "What a step expects")."""
import re

from cases import BODILESS, body_of, expand, has, joined, method_of, times, values

# ---- Cache-Status (RFC 9211), a list of structured fields (RFC 9651)

STRING = re.compile(r'"((?:[^"\\]|\\.)*)"')
DECIMAL = re.compile(r"-?\d+\.\d+")
INTEGER = re.compile(r"-?\d+")
BOOLEAN = re.compile(r"\?([01])")
TOKEN = re.compile(r"[A-Za-z*][!#$%&'*+\-.^_`|~0-9A-Za-z:/]*")
KEY = re.compile(r"; *([a-z*][a-z0-9_\-.*]*)")
BARE_ITEMS = [
    (STRING, lambda found: re.sub(r"\\(.)", r"\1", found[1])),
    (DECIMAL, lambda found: float(found[0])),
    (INTEGER, lambda found: int(found[0])),
    (BOOLEAN, lambda found: found[1] == "1"),
    (TOKEN, lambda found: found[0]),
]


class NoList(Exception):
    """Raised if a text is no list of structured fields."""


def bare_item(text, at):
    """Returns the item that begins at an index, and the index after it."""
    for form, meaning in BARE_ITEMS:
        found = form.match(text, at)
        if found:
            return meaning(found), found.end()
    raise NoList


def member(text, at):
    """Returns the list member that begins at an index, with its parameters, and the index after it."""
    name, at = bare_item(text, at)
    parameters = {}
    while found := KEY.match(text, at):
        value, at = True, found.end()
        if text[at : at + 1] == "=":
            value, at = bare_item(text, at + 1)
        parameters[found[1]] = value
    return (name, parameters), at


def cache_status_members(text):
    """Returns the members of a Cache-Status value, each as a name and its parameters."""
    members = []
    rest = text.strip(" \t")
    while True:
        found, at = member(rest, 0)
        members.append(found)
        rest = rest[at:].lstrip(" \t")
        if not rest:
            return members
        if not rest.startswith(","):
            raise NoList
        rest = rest[1:].lstrip(" \t")


# ---- the judge


class Untested(Exception):
    """Raised if the subject does nothing that the case is about."""


class Wrong(Exception):
    """Raised if the subject did something else than the case expects."""


def demand(holds, why):
    if not holds:
        raise Wrong(why)


def one_or_more(wanted):
    return wanted if isinstance(wanted, list) else [wanted]


class Step:
    """One step of a case: what it expects, and what was observed in it and before it."""

    def __init__(self, case, number, observations, now):
        self.case = case
        self.number = number
        self.observations = observations
        self.now = now
        self.method = method_of(case["steps"][number])
        self.answer = observations[number]["answer"]
        self.saw = observations[number]["origin_saw"]

    def texts(self, wanted):
        return [expand(text, self.case, self.now) for text in one_or_more(wanted)]

    def check_headers(self, where, headers, wanted):
        """Checks what is expected of the headers of a request or an answer."""
        for name in wanted.get("present", []):
            demand(has(headers, name), f"{where} has no {name}")
        for name in wanted.get("absent", []):
            demand(not has(headers, name), f"{where} has {name}: {joined(headers, name)!r}")
        for name, texts in wanted.get("equal", {}).items():
            found = joined(headers, name)
            demand(found in self.texts(texts), f"{where} has {name}: {found!r}")
        for name, texts in wanted.get("contains", {}).items():
            found = joined(headers, name)
            for text in self.texts(texts):
                demand(text.lower() in found.lower(), f"{where} has {name}: {found!r} without {text!r}")
        for name, texts in wanted.get("lacks", {}).items():
            found = joined(headers, name)
            for text in self.texts(texts):
                demand(text.lower() not in found.lower(), f"{where} has {name}: {found!r} with {text!r}")

    # -- what the origin saw

    def check_saw(self, wanted):
        if "count" in wanted:
            demand(len(self.saw) == wanted["count"], f"the origin was asked {len(self.saw)} times")
        if not self.saw:
            demand(not set(wanted) - {"count"}, "the origin wasn't asked")
            return
        first = self.saw[0]
        is_conditional = has(first["headers"], "if-none-match") or has(first["headers"], "if-modified-since")
        if "conditional" in wanted:
            demand(is_conditional == (wanted["conditional"] == "yes"), f"conditional: {is_conditional}")
        self.check_headers("the origin's request", first["headers"], wanted)
        demand(wanted.get("method", first["method"]) == first["method"], f"the origin saw {first['method']}")
        if "body" in wanted:
            demand(first["body"] == wanted["body"].encode("latin-1"), f"the origin got {first['body'][:60]!r}")
        if wanted.get("sound"):
            for request in self.saw:
                self.check_framing(request["headers"], request["body"])

    def check_framing(self, headers, body):
        """Checks that a body has a transfer coding, or one Content-Length that is right."""
        lengths = values(headers, "content-length")
        is_coded = has(headers, "transfer-encoding")
        demand(len(lengths) <= 1, f"Content-Length {len(lengths)} times")
        if lengths and not is_coded:
            demand(lengths[0].strip() == str(len(body)), f"Content-Length {lengths[0]} over {len(body)} bytes")
        demand(lengths or is_coded or not body, f"{len(body)} bytes without a length")

    # -- the answer

    def check_answer(self, wanted):
        if "error" in self.answer:
            demand(wanted.get("error_ok"), f"no answer: {self.answer['error']}")
            return
        self.check_status(wanted)
        headers = self.answer["headers"]
        self.check_headers("the answer", headers, wanted)
        for name, lines in wanted.get("lines", {}).items():
            found = [value.strip() for value in values(headers, name)]
            demand(found == lines, f"the answer has {name}: {found!r}")
        for name, number in wanted.get("same", {}).items():
            before = joined(self.observations[number]["answer"].get("headers", []), name)
            demand(joined(headers, name) == before, f"{name} is {joined(headers, name)!r}, and was {before!r}")
        if "age" in wanted:
            self.check_age(wanted["age"])
        if "age_if_any" in wanted and has(headers, "age"):
            self.check_age(wanted["age_if_any"])
        self.check_body(wanted)
        if "cache_status" in wanted:
            self.check_cache_status(wanted["cache_status"])

    def check_status(self, wanted):
        status = self.answer["status"]
        demand(status in one_or_more(wanted.get("status", status)), f"the status is {status}")
        demand(status not in wanted.get("status_not", []), f"the status is {status}")
        demand(status >= wanted.get("status_at_least", 0), f"the status is {status}")

    def check_age(self, bounds):
        age = joined(self.answer["headers"], "age")
        demand(re.fullmatch(r"\d+", age), f"Age is {age!r}")
        demand(bounds[0] <= int(age) <= bounds[1], f"Age is {age}, not {bounds[0]} to {bounds[1]}")

    def check_body(self, wanted):
        body = self.answer["body"]
        shown = repr(body[:60])
        can_have_body = self.method != "HEAD" and self.answer["status"] not in BODILESS
        demand(wanted.get("truncated_ok") or not self.answer["is_cut_off"], "the answer is cut off")
        demand(can_have_body or not body, f"a body where there can be none: {shown}")
        if "body_of" in wanted and self.method != "HEAD":
            bodies = [body_of(self.case, number) for number in one_or_more(wanted["body_of"])]
            demand(body in bodies, f"the body is {shown}, not the body of step {wanted['body_of']}")
        if "body" in wanted:
            bodies = [text.encode("latin-1") for text in one_or_more(wanted["body"])]
            demand(body in bodies, f"the body is {shown}")
        if "body_not_of" in wanted:
            bodies = [body_of(self.case, number) for number in one_or_more(wanted["body_not_of"])]
            demand(body not in bodies, f"the body is the body of an earlier step: {shown}")
        if wanted.get("sound"):
            lengths = values(self.answer["headers"], "content-length")
            demand(len(lengths) <= 1, f"Content-Length {len(lengths)} times")
            if lengths and self.method != "HEAD" and self.answer["status"] != 304:
                demand(lengths[0].strip() == str(len(body)), f"Content-Length {lengths[0]} over {len(body)} bytes")

    def check_cache_status(self, wanted):
        """Checks the last member of Cache-Status, which the subject has added."""
        text = joined(self.answer["headers"], "cache-status")
        if not text:
            raise Untested("no Cache-Status")
        try:
            members = cache_status_members(text)
        except NoList:
            raise Wrong(f"Cache-Status isn't a list: {text!r}") from None
        if "first" in wanted and len(members) == 1 and members[0][0] == wanted["first"]:
            raise Untested("no Cache-Status of its own")
        demand(len(members) == wanted.get("members", len(members)), f"{len(members)} members: {text!r}")
        demand(members[0][0] == wanted.get("first", members[0][0]), f"the first member isn't the origin's: {text!r}")
        self.check_parameters(wanted, members[-1][1], text)

    def check_parameters(self, wanted, parameters, text):
        is_hit = parameters.get("hit") is True
        demand(not (parameters.get("hit") and "fwd" in parameters), f"hit and fwd: {text!r}")
        demand(wanted.get("hit", is_hit) == is_hit, f"hit is {is_hit}: {text!r}")
        if "fwd" in wanted:
            demand(parameters.get("fwd") in one_or_more(wanted["fwd"]), f"fwd: {text!r}")
        if "fwd_not" in wanted:
            demand(parameters.get("fwd") not in one_or_more(wanted["fwd_not"]), f"fwd: {text!r}")
        if "fwd_status" in wanted:
            demand(parameters.get("fwd-status") == wanted["fwd_status"], f"fwd-status: {text!r}")
        if "fwd_status_if_any" in wanted and "fwd-status" in parameters:
            demand(parameters["fwd-status"] == wanted["fwd_status_if_any"], f"fwd-status: {text!r}")
        if "stored" in wanted:
            demand((parameters.get("stored") is True) == wanted["stored"], f"stored: {text!r}")
        if "ttl" in wanted or "ttl_if_any" in wanted and "ttl" in parameters:
            low, high = wanted.get("ttl") or wanted["ttl_if_any"]
            ttl = parameters.get("ttl")
            demand(isinstance(ttl, int) and low <= ttl <= high, f"ttl: {text!r}")

    # -- the whole step

    def check(self, wanted):
        if "any_of" in wanted:
            self.check_any(wanted)
            return
        headers = self.answer.get("headers")
        if "cache_status" in wanted.get("answer", {}) and headers is not None and not has(headers, "cache-status"):
            raise Untested("no Cache-Status")
        source = wanted.get("from", "either")
        if source == "store":
            demand(not self.saw, "the origin was asked")
            demand("error" not in self.answer, "no answer")
        if source == "origin":
            demand(self.saw, "the origin wasn't asked")
        self.check_saw(wanted.get("origin_saw", {}))
        if "answer" in wanted:
            self.check_answer(wanted["answer"])
        elif source == "store":
            demand(wanted.get("any_body") or not self.answer["is_cut_off"], "the answer is cut off")

    def check_any(self, wanted):
        """Checks that one of several expectations holds, together with the others of the step."""
        rest = {name: it for name, it in wanted.items() if name not in ("any_of", "setup")}
        reasons = []
        for one in wanted["any_of"]:
            try:
                self.check({**rest, **one})
                return
            except Wrong as e:
                reasons.append(str(e))
        raise Wrong(" / ".join(reasons))


def judge(case, observations):
    """Returns the outcome of a case: pass, fail or untested, and the step and the reason."""
    for number, (step, now) in enumerate(zip(case["steps"], times(case))):
        if number >= len(observations):
            return "fail", f"step {number}: not run"
        wanted = step.get("expect", {})
        try:
            Step(case, number, observations, now).check(wanted)
        except Untested as e:
            return "untested", f"step {number}: {e}"
        except Wrong as e:
            return "untested" if wanted.get("setup") else "fail", f"step {number}: {e}"
    return "pass", ""
