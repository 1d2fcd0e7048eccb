"""What a stored response decides (docs/RULES.md), for the model of a cache (tests/model.py). Times are in milliseconds."""
import re

from model_fields import directives, first, number, pieces_under, time_of

UNDERSTOOD = {200, 203, 204, 300, 301, 302, 303, 307, 308, 404, 405, 410, 414, 501}
BY_DEFAULT = {200, 203, 204, 300, 301, 308, 404, 405, 410, 414, 501}
DAY = 86_400_000
PERMITS = {"max-age", "s-maxage", "public", "immutable", "stale-while-revalidate", "stale-if-error"}


def same_target(one, other):
    """Returns whether two targets are the same, but for the case of a scheme and a host."""
    parts = [re.fullmatch("((?:[a-z]+://)?[^/]*)(.*)", target, re.IGNORECASE).groups() for target in (one, other)]
    return parts[0][0].lower() == parts[1][0].lower() and (parts[0][1] or "/") == (parts[1][1] or "/")


class Asked:
    """A request as stored responses are asked by it."""

    def __init__(self, method, target, fields):
        self.method, self.target, self.fields = method, target, fields
        self.directives = directives(fields.get("cache-control", []))
        self.forbids = "no-cache" in self.directives or "no-cache" in (first(fields, "pragma") or "")

    def says(self, name):
        return number(self.directives.get(name))


class Stored:
    """A stored response, and what it decides."""

    def __init__(self, asked, status, fields, shared, time, faults):
        self.method, self.target, self.asked = asked.method, asked.target, asked.fields
        self.status, self.fields, self.shared, self.time = status, fields, shared, time
        self.faults, self.body, self.id = faults, b"", None
        self.directives = directives(fields.get("cache-control", []))
        if "cache-control" not in fields and "no-cache" in (first(fields, "pragma") or ""):
            self.directives["no-cache"] = None
        self.vary = pieces_under(fields, "vary")

    def has(self, *names):
        return any(name in self.directives for name in names)

    def says_shared(self, *names):
        return self.shared and self.has(*names)

    def is_storable(self):
        no_store = self.has("no-store") or "no-store" in directives(self.asked.get("cache-control", []))
        if "no-store is stored" in self.faults:
            no_store = False
        kept_private = self.says_shared("private") and "private is stored" not in self.faults
        authorized = not self.shared or "authorization" not in self.asked or self.has("must-revalidate", "public", "s-maxage")
        allowed = self.has("max-age", "public") or "expires" in self.fields or self.says_shared("s-maxage")
        return (
            not no_store and self.method in ("GET", "HEAD") and self.status in UNDERSTOOD and not kept_private
            and (authorized or "Authorization is ignored" in self.faults) and (allowed or self.status in BY_DEFAULT)
        )

    def has_own_cookies(self):
        return "set-cookie" in self.fields and not self.has("public", "immutable")

    def lifetime(self):
        if not self.is_storable() or self.has("no-cache") or (self.shared and self.has_own_cookies()):
            return 0
        if first(self.fields, "vary") == "*" or self.says_shared("proxy-revalidate"):
            return 0
        if self.shared and self.directives.get("s-maxage") is not None:
            return 1000 * (number(self.directives["s-maxage"]) or 0)
        if self.directives.get("max-age") is not None:
            return 1000 * (number(self.directives["max-age"]) or 0)
        return self.lifetime_by_dates()

    def lifetime_by_dates(self):
        floor = DAY if self.has("immutable") else 0
        date = time_of(first(self.fields, "date"))
        date = self.time if date is None else date
        if "expires" in self.fields:
            expires = time_of(first(self.fields, "expires"))
            return 0 if expires is None else max(floor, expires - date)
        modified = time_of(first(self.fields, "last-modified"))
        if modified is not None and modified <= date:
            return max(floor, (date - modified) // 1000 // 10 * 1000)
        return floor

    def age(self, now):
        return 1000 * (number(first(self.fields, "age")) or 0) + max(0, now - self.time)

    def left(self, now):
        """Returns what is left of the lifetime in whole seconds, rounded down."""
        more = 1 if "ttl is off by one" in self.faults else 0
        return (self.lifetime() - self.age(now)) // 1000 + more

    def is_stale(self, now):
        return self.lifetime() <= self.age(now)

    def forbids_stale(self):
        return self.has("must-revalidate", "no-cache") or self.says_shared("proxy-revalidate", "s-maxage") or (
            self.shared and self.has_own_cookies())

    def has_validator(self):
        return "etag" in self.fields or "last-modified" in self.fields

    def can_be_used_again(self, now):
        return "*" not in self.vary and (not self.is_stale(now) or self.has_validator() or not self.forbids_stale())

    def is_worth_storing(self, now):
        quoted = is_misread(self.fields.get("cache-control", []))
        return self.status not in (206, 304) and self.is_storable() and self.can_be_used_again(now) and not quoted

    def method_of(self, asked):
        """Returns the method that the request has for this response: a HEAD counts as a GET for what is stored for GET."""
        return "GET" if asked.method == "HEAD" and self.method == "GET" else asked.method

    def differing(self, asked):
        """Returns the first name of Vary under which the request differs, or None."""
        for name in [] if "Vary is ignored" in self.faults else self.vary:
            if name == "*" or first(self.asked, name.lower()) != first(asked.fields, name.lower()):
                return name
        return None

    def is_same_host(self, asked):
        return first(self.asked, "host") == first(asked.fields, "host")

    def matches(self, asked, method=None):
        return (
            same_target(self.target, asked.target) and self.is_same_host(asked) and self.method == (method or asked.method)
            and self.differing(asked) is None
        )

    def answers_once_validated(self, asked):
        return self.matches(asked, self.method_of(asked))

    def limits_age(self, asked, now):
        """Returns whether the request's max-age or min-fresh isn't met."""
        age, left = self.age(now), max(0, self.lifetime() - self.age(now))
        most, least = asked.says("max-age"), asked.says("min-fresh")
        return (most is not None and age > 1000 * most) or (least is not None and left < 1000 * least)

    def lets_out(self, asked, now):
        """Returns whether the request's max-stale lets out the stale response."""
        if "max-stale" not in asked.directives or not self.is_storable() or self.has("must-revalidate", "no-cache"):
            return False
        most = asked.says("max-stale")
        return most is None or self.age(now) - self.lifetime() < 1000 * most

    def is_fresh_for(self, asked, now):
        fresh = not self.is_stale(now) or self.lets_out(asked, now)
        return self.answers_once_validated(asked) and not asked.forbids and not self.limits_age(asked, now) and fresh

    def may_be_used(self, asked, now):
        stale = self.is_stale(now) and self.forbids_stale() and "a stale response answers that forbids it" not in self.faults
        return self.is_fresh_for(asked, now) and not stale

    def may_be_used_stale(self, asked, now):
        return (
            self.answers_once_validated(asked) and self.is_storable() and self.is_stale(now)
            and not self.is_fresh_for(asked, now) and not self.forbids_stale() and not asked.forbids
        )

    def is_within(self, seconds, now):
        return seconds is not None and self.age(now) < self.lifetime() + 1000 * seconds

    def may_be_used_meanwhile(self, asked, now):
        within = self.is_within(number(self.directives.get("stale-while-revalidate")), now)
        return self.may_be_used_stale(asked, now) and within and not self.limits_age(asked, now)

    def may_stand_in(self, asked, now):
        within = self.is_within(number(self.directives.get("stale-if-error")), now) or self.is_within(
            asked.says("stale-if-error"), now)
        return self.may_be_used_stale(asked, now) and (within or "a stale response answers without permission" in self.faults)

    def is_known_by(self, method, fields):
        """Returns whether a 304 answers the request's own conditions (RFC 9110, section 13.2.2)."""
        if method not in ("GET", "HEAD") or self.status != 200:
            return False
        if "if-none-match" in fields:
            return any(names(line, first(self.fields, "etag")) for line in fields["if-none-match"])
        since = fields.get("if-modified-since", [])
        asked, changed = time_of(since[0]) if len(since) == 1 else None, self.last_change()
        return asked is not None and changed is not None and changed <= asked

    def last_change(self):
        known = [name for name in ("last-modified", "date") if name in self.fields]
        return time_of(first(self.fields, known[0])) if known else self.time

    def is_confirmed_by(self, fields):
        """Returns whether a 304 with these fields is about this response (RFC 9111, section 4.3.4)."""
        if "a 304 renews another response" in self.faults:
            return True
        old_tag, new_tag = first(self.fields, "etag"), first(fields, "etag")
        old_date, new_date = first(self.fields, "last-modified"), first(fields, "last-modified")
        if new_tag is not None and not new_tag.startswith("W/"):
            return without_marks(old_tag) == new_tag
        if old_tag is not None and new_tag is not None:
            return without_marks(old_tag) == without_marks(new_tag)
        if old_date is not None:
            return old_date == new_date
        return old_tag is None and new_tag is None and new_date is None


def is_misread(lines):
    """Returns whether a comma within quotes lets the rules read a directive that permits to use the response."""
    quoted = [text for line in lines for text in re.findall('"([^"]*")', line)]
    return any(directives(text.split(",")[1:]).keys() & PERMITS for text in quoted)


def without_marks(tag):
    return tag and re.sub("^(W/)+", "", tag)


def opaque_tags(text):
    return re.findall('"([^"]*)"', text)


def names(line, tag):
    """Returns whether a line of If-None-Match names the stored ETag, by the weak comparison."""
    if line == "*":
        return True
    if tag is None:
        return False
    tags = opaque_tags(tag)
    return tags[0] in opaque_tags(line) if tags else line == tag


def reason(one, asked, now):
    """Returns `fwd` and `detail` of a stored response that isn't used (RFC 9211)."""
    method = one.method_of(asked)
    if not same_target(one.target, asked.target):
        return "uri-miss", None
    if not one.is_same_host(asked):
        return "uri-miss", "host"
    if one.method != method:
        return ("miss" if {one.method, method} == {"GET", "HEAD"} else "method"), None
    differing = one.differing(asked)
    return ("vary-miss", differing) if differing else reason_of_match(one, asked, now)


def reason_of_match(one, asked, now):
    stale = "stale" if one.is_stale(now) else "request"
    most, least = asked.says("max-age"), asked.says("min-fresh")
    if "no-cache" in asked.directives:
        return stale, "no-cache"
    if asked.forbids:
        return stale, "pragma"
    if most is not None and one.age(now) > 1000 * most:
        return stale, f"max-age={most}"
    if least is not None and max(0, one.lifetime() - one.age(now)) < 1000 * least:
        return stale, f"min-fresh={least}"
    return "stale", stale_detail(one, asked, now)


def stale_detail(one, asked, now):
    """Returns why max-stale doesn't let out a stale response; nothing if it would, and the response forbids that."""
    if "max-stale" not in asked.directives or one.lets_out(asked, now):
        return None
    if not one.is_storable():
        return "not storable"
    for name in ("must-revalidate", "no-cache"):
        if one.has(name):
            return name
    most = asked.says("max-stale")
    return None if most is None else f"max-stale={most}"


def reason_among(stored, asked, now):
    """Returns why no stored response is used: of the newest that answers once it is validated, or else of the newest."""
    chosen = [one for one in stored if one.answers_once_validated(asked)] + stored
    return reason(chosen[0], asked, now) if chosen else ("uri-miss", None)
