"""Runs the worked cases of tests/cases/calls, whose results were worked out by hand, by the Python package.

tests/calls explains the tables. Calls that the library doesn't have are left out."""
import re
from fractions import Fraction
from pathlib import Path

import http_cache_semantics as hcs

CASES = Path(__file__).resolve().parent.parent / "cases/calls"
START = 1704067200
NO_CALLS = {"directives", "forbids_stale", "format_cache_control", "http_date", "member", "read_date", "stored_directives"}
# What a table writes between the words for what decides a lifetime and the lifetime.
SECONDS_AFTER = {"max-age": "=", "s-maxage": "="}
SECONDS_AFTER.update(dict.fromkeys(("Expires isn't after Date", "Expires", "Last-Modified", "immutable"), ", "))
REFUSED = {hcs.HeaderMapFull: "header map full"}


def rows(name):
    """Yields the cases of a table as lists of fields, of which the last is the result."""
    text = (CASES / f"{name}.txt").read_text(encoding="utf-8")
    text = "\n".join(line for line in text.splitlines() if not line.startswith("#"))
    for line in re.sub(r" *\n +", " ", text).split("\n"):
        line = re.sub(r"(\d+) further", lambda count: " ~ ".join(f"x{i}: 1" for i in range(int(count[1]))), line)
        yield [field.strip() for field in line.split("|")]


def fields_in(text):
    pairs = [line.partition(":") for line in text.split(" ~ ") if line]
    return [(name.strip(), value.strip().encode()) for name, _, value in pairs]


def lines_of(message):
    """Returns the field lines of a message as a table has them, in order. `?` is a value that isn't ASCII."""
    shown = [(name, value if value.isascii() else "?") for name, value in message.headers]
    return sorted(f"{name}: {value}".strip() for name, value in shown)


def lines_in(text):
    return sorted(line.strip() for line in text.split(" ~ ") if line)


def after(nanoseconds):
    return START + Fraction(int(nanoseconds or 0), 10**9)


def options_in(word):
    return hcs.CacheOptions(shared=word != "own", ignore_cargo_cult=word == "cargo")


def policy_of(options, status, response, method="GET", request=""):
    asked = hcs.Request(method, "/a", fields_in(request))
    return hcs.CachePolicy(asked, hcs.Response(int(status), fields_in(response)), START, options_in(options))


def word(truth):
    return "yes" if truth else "no"


def explain(request, response, method, fields, at, _):
    target = "/b" if method == "ELSEWHERE" else "/a"
    asked = hcs.Request("GET" if method == "ELSEWHERE" else method, target, fields_in(fields))
    return policy_of("", 200, response, request=request).explain(asked, "ExampleCache", after(at))


def is_confirmed_by(options, status, response, received, fields, _):
    confirming = hcs.Response(int(received), fields_in(fields))
    return word(policy_of(options, status, response).is_confirmed_by(confirming))


def is_not_modified_for(options, status, response, method, fields, _):
    asked = hcs.Request(method, "/a", fields_in(fields))
    return word(policy_of(options, status, response).is_not_modified_for(asked))


def may_be_used(options, stored_method, request, response, method, fields, at, wanted):
    asked = hcs.Request(method, "/a", fields_in(fields))
    used = policy_of(options, 200, response, stored_method, request).may_be_used(asked, after(at))
    return "use" if used else wanted if wanted != "use" else "not"


def joined_headers(fields, _):
    return lines_of(hcs.joined(hcs.Response(200, fields_in(fields))))


def updated_headers(stored, received, _):
    return lines_of(hcs.updated(hcs.Response(200, fields_in(stored)), hcs.Response(304, fields_in(received))))


def response_at(options, status, response, at, _):
    return lines_of(policy_of(options, status, response).response_at(after(at)))


def stale_use(options, status, response, method, fields, at, _):
    asked = hcs.Request(method, "/a", fields_in(fields))
    use = policy_of(options, status, response).stale_use(asked, after(at))
    return {(True, True): "both", (True, False): "while revalidate", (False, True): "if error"}.get(use, "neither")


def storability(method, request, status, response, options, _):
    policy = policy_of(options, status, response, method, request)
    storable, reasons = policy.storability()
    lifetime, source = policy.freshness()
    seconds = int(lifetime)
    shown = {"=": f"{source}={seconds}", ", ": f"{source}, {seconds} s"}.get(SECONDS_AFTER.get(source), source)
    return f"{'' if storable else 'not '}storable: {', '.join(reasons)} ~ {shown}"


CALLS = {
    "explain": explain,
    "is_confirmed_by": is_confirmed_by,
    "is_not_modified_for": is_not_modified_for,
    "joined_headers": joined_headers,
    "may_be_used": may_be_used,
    "response_at": response_at,
    "stale_use": stale_use,
    "storability": storability,
    "updated_headers": updated_headers,
}
OF_FIELDS = {"joined_headers", "response_at", "updated_headers"}


def wanted_of(name, row):
    if name == "explain":
        return row[-1].rsplit(" ~ ", 1)[1]
    if name in OF_FIELDS and row[-1] not in REFUSED.values():
        return lines_in(row[-1])
    return row[-1]


def result(name, row):
    try:
        return CALLS[name](*row)
    except hcs.Refused as e:
        return REFUSED.get(type(e), repr(e))


def wrong_rows():
    """Returns the number of cases, and a message for each with another result."""
    count, wrong = 0, []
    tables = {path.stem for path in CASES.glob("*.txt")}
    assert tables == set(CALLS) | NO_CALLS, "a table of calls was added or removed; change CALLS or NO_CALLS"
    for name in sorted(CALLS):
        for row in rows(name):
            count += 1
            got, wanted = result(name, row), wanted_of(name, row)
            if got != wanted:
                wrong.append(f"{name}: {'|'.join(row)[:300]}: {str(got)[:300]}")
    return count, wrong
