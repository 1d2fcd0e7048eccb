"""Fields, dates and directives, as docs/RULES.md has them, for the model of a cache (tests/model.py).

Fields are a dict from a name in lower case to its lines in order."""
import re
from calendar import timegm
from email.utils import formatdate
from functools import lru_cache
from time import strptime

# Fields of one connection (RFC 9110, section 7.6.1), and of authentication by a proxy.
OF_CONNECTION = {
    "connection", "keep-alive", "proxy-authenticate", "proxy-authentication-info", "proxy-authorization", "proxy-connection",
    "te", "trailer", "transfer-encoding", "upgrade",
}
OF_BODY = {"content-length", "content-encoding", "transfer-encoding", "content-range"}
# Fields that are no lists: the first line counts.
SINGLE = {"age", "date", "etag", "expires", "last-modified"}
OF_304 = {
    "age", "cache-control", "cache-status", "content-location", "date", "etag", "expires", "last-modified", "vary",
}
NOT_IN_VALIDATIONS = {
    "content-encoding", "content-length", "content-type", "expect", "if-match", "if-modified-since", "if-none-match",
    "if-range", "if-unmodified-since", "range",
}
READ_BY_RULES = {
    "age", "cache-control", "date", "etag", "expires", "last-modified", "pragma", "set-cookie", "vary",
}
FORMS = ["%a, %d %b %Y %H:%M:%S GMT", "%A, %d-%b-%y %H:%M:%S GMT", "%a %b %d %H:%M:%S %Y"]


def head_of(data):
    """Returns the words of the first line, and the fields."""
    first, *lines = data.decode().split("\r\n")[:-2]
    fields = {}
    for line in lines:
        name, value = line.split(":", 1)
        fields.setdefault(name.lower(), []).append(value.strip(" \t"))
    return first.split(" ", 2), fields


def first(fields, name):
    return fields[name][0] if name in fields else None


def pieces(lines):
    return [piece.strip(" \t") for line in lines for piece in line.split(",")]


def pieces_under(fields, name):
    return pieces(fields.get(name, []))


def number(text):
    return int(text) if text is not None and re.fullmatch(r"\+?[0-9]+", text) else None


def directives(lines):
    """Returns the value of each directive by its name; the first of a name decides, and another value is a conflict."""
    said, conflict = {}, False
    for piece in pieces(lines):
        name, equals, value = piece.partition("=")
        name, value = name.strip(" \t").lower(), value.strip(" \t") if equals else None
        if name in said:
            conflict = conflict or said[name] != value
        elif name:
            said[name] = value.strip('"') if value else value
    return {**said, "must-revalidate": None} if conflict else said


def date_text(milliseconds):
    return second_text(milliseconds // 1000)


@lru_cache(10_000)
def second_text(seconds):
    return formatdate(seconds, usegmt=True)


@lru_cache(10_000)
def time_of(text):
    """Returns the time of a date of HTTP in milliseconds, or None."""
    for form in FORMS if text else []:
        try:
            return 1000 * timegm(strptime(text, form))
        except ValueError:
            pass
    return None


def forwarded(fields):
    named = {name.lower() for name in pieces_under(fields, "connection")} | OF_CONNECTION
    return {name: lines for name, lines in fields.items() if name not in named}


def joined_lines(name, lines):
    if name in SINGLE:
        return lines[:1]
    return lines if name == "set-cookie" else [", ".join(lines)]


def joined(fields):
    return {name: joined_lines(name, lines) for name, lines in fields.items()}


def of_304(fields):
    return {name: lines for name, lines in fields.items() if name in OF_304}


def dated(fields, received):
    return fields if "date" in fields else {**fields, "date": [date_text(received)]}


def fixed_date(text):
    """Returns a date as an IMF-fixdate, if it is a date."""
    time = time_of(text)
    return text if time is None else date_text(time)


def stored_fields(fields, sent, received):
    """Returns the fields that are stored of a response, or None if Connection names a field that the rules read."""
    if READ_BY_RULES & {name.lower() for name in pieces_under(fields, "connection")}:
        return None
    kept = joined(forwarded(fields))
    date = time_of(first(fields, "date"))
    apparent = max(0, sent - date) // 1000 if date is not None else 0
    age = (pieces_under(fields, "age") or [""])[0]
    kept["age"] = [str(max(int(age) if age.isdigit() else 0, apparent))]
    kept["date"] = [fixed_date(first(dated(kept, received), "date"))]
    if "expires" in kept:
        expires = first(kept, "expires")
        kept["expires"] = ["0" if time_of(expires) is None else fixed_date(expires)]
    lengths = pieces_under(fields, "content-length")
    if len(lengths) > 1 and number(lengths[0]) is not None:
        kept["content-length"] = [str(number(lengths[0]))]
    if "transfer-encoding" in fields:
        kept.pop("content-length", None)
    return kept


def updated(stored, received):
    """Returns the stored fields after a 304 with these, which are stored fields too."""
    return {**stored, **{name: lines for name, lines in forwarded(received).items() if name not in OF_BODY}}


def validating(stored, asked):
    """Returns the fields of a request that validates a stored response (RFC 9111, section 4.3.1)."""
    fields = {name: lines for name, lines in forwarded(asked).items() if name not in NOT_IN_VALIDATIONS}
    for name, validator in (("if-none-match", "etag"), ("if-modified-since", "last-modified")):
        if validator in stored:
            fields[name] = stored[validator][:1]
    return fields


def is_complete(method, status, fields, length):
    """Returns whether each Content-Length is the length of the body, or isn't about this body."""
    if method == "HEAD" or status in (204, 304) or "transfer-encoding" in fields:
        return True
    return all(number(piece) == length for piece in pieces_under(fields, "content-length"))


def needed(asked, response):
    """Returns the fields that are stored of a request, by the fields of its response."""
    varied = {name.lower() for name in pieces_under(response, "vary")}
    kept = {name: lines for name, lines in asked.items() if name in varied | {"host", "cache-control", "pragma"}}
    return {"authorization": [""], **kept} if "authorization" in asked else kept
