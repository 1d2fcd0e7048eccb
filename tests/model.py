"""A model of `cacheserve` (docs/PROTOCOL.md, docs/RULES.md), for tests/lists; tests/model_proxy.py has what `--proxy` adds.

`Cache.reply` returns the reply to a frame: a dict with the line's members, but for the lengths, and with the head, the body and
the request that follow it. Sections are of RFC 9111. A fault by name changes one rule (tests/lists has the names)."""
from model_fields import (
    dated, first, forwarded, head_of, is_complete, joined, needed, of_304, pieces_under, stored_fields, updated, validating,
)
from model_rules import Asked, Stored, reason_among

SAFE = {"GET", "HEAD", "OPTIONS", "TRACE", "QUERY"}
FAILURES = {500, 502, 503, 504}
LAST = 253_402_300_799_999
ERRORS = {
    "no-such-frame": "no such frame",
    "no-token": "no token",
    "no-time": "no time",
    "unknown-token": "unknown token",
    "malformed-head": "the head is malformed",
    "not-final": "the status isn't final",
    "no-rest": "rest isn't a length or true",
    "no-target": "the target isn't an absolute URI",
    "too-long": "the head or the body is too long",
    "too-many": "too many requests under way",
}


class Refused(Exception):
    """Raised with the code of a refused frame."""


def notice(**members):
    return {"line": members, "head": None, "body": b"", "request": None}


def message(members, head, body, request=None):
    return {"line": members, "head": head, "body": body, "request": request}


def split_target(target):
    """Returns the scheme, the authority and the path of an absolute URL, or the path alone."""
    scheme, slashes, after = target.partition("://")
    if not slashes:
        return "", None, target
    authority, slash, path = after.partition("/")
    return scheme.lower(), authority, slash + path


def host_of(scheme, authority):
    """Returns an authority in lower case without the scheme's own port."""
    return authority.lower().removesuffix({"http": ":80", "https": ":443"}.get(scheme, ""))


def origin_of(scheme, authority):
    """Returns the scheme and the authority as they begin the text of a target."""
    return (scheme + ":" if scheme else "") + "//" + host_of(scheme, authority)


class Request:
    """A request of an `ask`."""

    def __init__(self, line, head, body):
        try:
            (self.method, target, _), fields = head_of(head)
        except ValueError:
            raise Refused("malformed-head") from None
        self.body, self.rest = body, "rest" in line
        self.is_looked_up = self.method in ("GET", "HEAD") and not body and not self.rest
        self.set_head(target, fields)

    def set_head(self, target, fields):
        self.target, self.fields = target, fields
        self.scheme, authority, path = split_target(target)
        host = first(fields, "host") or ""
        self.origin = origin_of(self.scheme, host if authority is None else authority)
        self.key = self.origin + (path or "/")
        self.asked = Asked(self.method, target, joined(fields))


class Response:
    """A received response. Its body is None while the caller has it."""

    def __init__(self, line, head, body, times):
        try:
            (_, status, *_), self.fields = head_of(head)
            self.status = int(status)
        except ValueError:
            raise Refused("malformed-head") from None
        if self.status < 200:
            raise Refused("not-final")
        self.body = None if "rest" in line else body
        self.is_collected = line.get("collect") is True and self.body is None
        length = line.get("rest", len(body))
        self.length = length if is_number(length) else None
        self.sent, self.received = times

    def set_body(self, body):
        self.body, self.length, self.is_collected = body, len(body), False


class Token:
    """A request under way. `why` has `fwd` and `detail` of Cache-Status, and `one` is the number of a stored response, which is
    validated by a check, and may stand in for a failed origin server. For a check that is due nobody waits."""

    def __init__(self, id, request, at, why, one=None, is_check=False, is_due=False):
        self.number, self.id, self.request, self.at, self.why = None, id, request, at, why
        self.one, self.is_check, self.is_due = one, is_check, is_due
        # `sent`, `collect` after an answer, `more` before one, or `pieces`
        self.state, self.copy, self.most, self.response = "sent", b"", 0, None


class Cache:
    """A cache, and the requests under way."""

    def __init__(self, private=False, requests=10_000, stored_body=8_388_608, faults=frozenset()):
        self.private, self.requests, self.most, self.faults = private, requests, stored_body, faults
        self.stored, self.next_id = {}, 0
        self.restart()

    def restart(self):
        """Begins anew over what is stored."""
        self.under_way, self.invalidated, self.next_token, self.spent = {}, {}, 1, {}
        self.frames = self.hits = self.validations = self.misses = self.errors = 0

    def has(self, fault):
        return fault in self.faults

    def reply(self, line, head=b"", body=b""):
        self.frames += 1
        members = {}
        try:
            kind = next((name for name in line if name in FRAMES), None)
            if kind is None:
                raise Refused("no-such-frame")
            if is_number(line[kind]):
                members = {"id" if kind in WITH_ID else "token": line[kind]}
            return FRAMES[kind](self, line, head, body)
        except Refused as refused:
            self.errors += 1
            if self.has("a refused response ends its request"):
                self.under_way.pop(line.get("received"), None)
            return notice(error=ERRORS[str(refused)], code=str(refused), **members)

    # What a proxy changes (tests/model_proxy.py)

    def request(self, line, head, body):
        return Request(line, head, body)

    def refusal(self, line, request):
        return None

    def head(self, status, fields, member, method, length):
        """Returns the head of an answer; the length is None while that of the body isn't known."""
        return marked(status, fields, member)

    def no_response(self, token, at, why):
        self.end(token)
        return notice(error="no response", code="no-response", id=token.id, token=token.number)

    # What is looked up

    def ask(self, line, head, body):
        at = time_in(line)
        check_rest(line, body)
        request = self.request(line, head, body)
        refusal = self.refusal(line, request)
        if refusal:
            return refusal
        if not request.is_looked_up:
            reply = self.send(line["ask"], request, at, ("bypass" if request.method in ("GET", "HEAD") else "method", None))
            self.misses += 1
            return reply
        stored = self.stored.get(request.key, [])
        usable = find(stored, lambda one: one.may_be_used(request.asked, at))
        if usable:
            reply = self.by_stored(line, request, usable, at, self.member(hit=True, left=usable.left(at)))
            self.hits += 1
            return reply
        if "only-if-cached" in request.asked.directives and not self.has("only-if-cached is sent"):
            return self.unanswered(line["ask"], request)
        return self.to_origin(line, request, at, stored)

    def unanswered(self, id, request):
        status = {"cache-status": [self.member(detail="only-if-cached")]}
        return message({"answer": id}, ("HTTP/1.1", "504", status), b"")

    def to_origin(self, line, request, at, stored):
        """Returns the reply to a request that no stored response answers without validation."""
        why = reason_among(stored, request.asked, at)
        one = find(stored, lambda one: one.answers_once_validated(request.asked))
        is_check = one is not None and one.has_validator()
        if is_check and one.may_be_used_meanwhile(request.asked, at):
            return self.use_meanwhile(line, request, at, one)
        if line.get("wait") is True:
            awaited = self.awaited(request, one.id if is_check else None)
            if awaited:
                return notice(wait=line["ask"], token=awaited)
        reply = self.send(line["ask"], request, at, why, one, is_check)
        self.validations, self.misses = self.validations + is_check, self.misses + (not is_check)
        return reply

    def awaited(self, request, validated):
        """Returns the token that a request waits for, or None."""
        return next((number for number, token in self.under_way.items() if self.is_awaited(token, request, validated)), None)

    def is_awaited(self, token, request, validated):
        """Returns whether a request waits for the token: for the validation of its stored response, or for its own response."""
        if token.state == "pieces" or token.request.key != request.key:
            return False
        if token.is_check:
            return token.one == validated
        return validated is None and token.request.is_looked_up and token.request.method == "GET"

    def use_meanwhile(self, line, request, at, one):
        """Returns the answer by a stale response, with its validation if none is under way (RFC 5861, section 3)."""
        member = self.member(hit=True, left=one.left(at), detail="stale-while-revalidate")
        validated = any(token.is_check and token.one == one.id for token in self.under_way.values())
        if len(self.under_way) >= self.requests or (validated and not self.has("two validations at a time")):
            self.hits += 1
            return self.by_stored({"ask": line["ask"]}, request, one, at, member)
        token = self.begin(Token(line["ask"], request, at, ("stale", None), one.id, True, True))
        self.validations += 1
        reply = self.by_stored({"ask": line["ask"]}, request, one, at, member)
        reply["line"]["token"] = token.number
        reply["request"] = (request.method, request.target, validating(one.fields, request.fields))
        return reply

    def begin(self, token):
        if len(self.under_way) >= self.requests:
            raise Refused("too-many")
        token.number = self.next_token
        self.under_way[token.number] = token
        self.next_token += 1
        return token

    def send(self, id, request, at, why, one=None, is_check=False):
        token = self.begin(Token(id, request, at, why, one.id if one else None, is_check))
        fields = validating(one.fields, request.fields) if is_check else request.fields
        members = {"send": id, "token": token.number, **({"rest": True} if request.rest else {})}
        return message(members, (request.method, request.target, fields), request.body)

    # What is answered

    def member(self, hit=False, why=None, status=None, stored=False, left=None, detail=None):
        """Returns this cache's member of Cache-Status (RFC 9211)."""
        detail = detail or (why[1] if why else None)
        words = ["cacheserve", "hit" if hit else None, f"fwd={why[0]}" if why else None]
        words += [f"fwd-status={status}" if status else None, "stored" if stored else None]
        words += [None if left is None else f"ttl={left}", f'detail="{detail}"' if detail else None]
        return "; ".join(word for word in words if word)

    def by_stored(self, line, request, one, now, member, id=None):
        """Returns the answer by a stored response."""
        fields = {**forwarded(one.fields), "age": [str(one.age(now) // 1000)]}
        if self.has("an age begins anew"):
            fields["age"] = [str(max(0, now - one.time) // 1000)]
        known = one.is_known_by(request.method, request.fields)
        body = b"" if known or request.method == "HEAD" else one.body
        status = 304 if known else one.status
        head = self.head(status, of_304(fields) if known else fields, member, request.method, len(body))
        return self.in_pieces(line, line["ask"] if id is None else id, request, head, body)

    def in_pieces(self, line, id, request, head, body):
        """Returns an answer, with the first piece of its body if the frame asks for pieces."""
        most = line.get("pieces")
        if most is None or len(body) <= most or len(self.under_way) >= self.requests:
            return message({"answer": id}, head, body)
        token = self.begin(Token(id, request, 0, None))
        token.state, token.copy, token.most = "pieces", body[most:], most
        return message({"answer": id, "token": token.number, "left": len(body) - most}, head, body[:most])

    def next(self, line, head, body):
        token = self.token(line["next"], "pieces")
        piece, token.copy = token.copy[: token.most], token.copy[token.most :]
        if not token.copy:
            self.end(token)
        return message({"next": token.number, "left": len(token.copy)}, None, piece)

    # What is received

    def token(self, number, *states):
        if not is_number(number):
            raise Refused("no-token")
        token = self.under_way.get(number)
        if token is None and self.has("a token is accepted twice"):
            token = self.spent.get(number)
        if token is None or token.state not in states:
            raise Refused("unknown-token")
        return token

    def end(self, token):
        self.under_way.pop(token.number, None)
        self.spent[token.number] = token

    def is_void(self, token):
        """Returns whether the target was invalidated or removed after the request was sent."""
        void = token.number < self.invalidated.get(token.request.key, 0)
        return void and not self.has("a response is stored after an invalidation of its target")

    def received(self, line, head, body):
        if not is_number(line["received"]):
            raise Refused("no-token")
        at = time_in(line)
        check_rest(line, body)
        token = self.token(line["received"], "sent", "more")
        response = Response(line, head, body, (line.get("sent", token.at), at))
        return self.receive(line, token, response)

    def receive(self, line, token, response):
        request = token.request
        if not request.is_looked_up:
            self.invalidate(request, response)
            return self.passed_on(line, token, response)
        if response.status == 304 and token.is_check:
            return self.confirm(line, token, response)
        one = self.one_of(token)
        stands_in = one is not None and one.may_stand_in(request.asked, response.received)
        if response.status in FAILURES and stands_in:
            return self.stand_in(line, token, one, response.received, response.status)
        failed = 500 <= response.status < 600 and token.one is not None
        if self.is_void(token) or (failed and not self.has("a failure replaces a stored response")):
            return self.passed_on(line, token, response)
        return self.take(line, token, response, stands_in)

    def one_of(self, token):
        return find(self.stored.get(token.request.key, []), lambda one: one.id == token.one)

    def stand_in(self, line, token, one, now, status=None):
        """Returns the answer by a stale response in place of a failure (RFC 5861, section 4)."""
        left = one.left(now)
        member = self.member(why=token.why, status=status, left=left, detail="stale-if-error")
        self.end(token)
        if token.is_due:
            return notice(done=token.id)
        return self.by_stored(line, token.request, one, now, member, token.id)

    def passed_on(self, line, token, response, **said):
        """Returns the answer by the received response, or `done` for a request that nobody waits for."""
        is_known = said.pop("is_known", False)
        self.end(token)
        if token.is_due:
            return notice(done=token.id)
        member = self.member(why=token.why, status=response.status, **said)
        head = self.received_head(token, response, is_known, member)
        if response.body is None and not is_known:
            return message({"answer": token.id, "rest": True}, head, b"")
        return self.in_pieces(line, token.id, token.request, head, b"" if is_known else response.body)

    def received_head(self, token, response, is_known, member):
        """Returns the head of the answer by a received response, or of the 304 in its place."""
        fields = dated(response.fields, response.received)
        if is_known:
            return self.head(304, of_304(fields), member, token.request.method, 0)
        return self.head(response.status, fields, member, token.request.method, response.length)

    def take(self, line, token, response, stands_in):
        """Stores the response, if it may be, and returns the answer."""
        request = token.request
        if request.method == "HEAD" and response.status == 200 and self.freshen(token, response):
            return self.passed_on(line, token, response)
        if response.status in (206, 304):
            return self.passed_on(line, token, response)
        length = None if response.body is None else len(response.body)
        is_whole = length is None or is_complete(request.method, response.status, response.fields, length)
        if not is_whole and not self.has("a body of another length is stored"):
            return self.passed_on(line, token, response, detail="incomplete")
        fields = stored_fields(response.fields, response.sent, response.received)
        if fields is None:
            return self.passed_on(line, token, response, detail="field named by Connection")
        made = self.made(request, response, fields)
        is_known = token.is_check and made.is_known_by(request.method, request.fields)
        worth = made.is_worth_storing(response.received)
        if worth and response.is_collected and (response.length or 0) <= self.most:
            return self.collect(token, response, made, is_known, stands_in)
        self.supersede(token, response.received)
        if not worth or length is None:
            return self.passed_on(line, token, response, is_known=is_known)
        fits = length <= self.most
        if fits:
            self.put(request.key, made, response.body)
        return self.passed_on(line, token, response, is_known=is_known, stored=fits, left=made.left(response.received))

    def made(self, request, response, fields):
        """Returns the received response as it is stored (section 3)."""
        asked = Asked(request.method, request.target, needed(request.asked.fields, fields))
        fields = {"cache-status": [""], **fields}
        return Stored(asked, response.status, fields, not self.private, response.sent, self.faults)

    def put(self, key, one, body):
        one.id, one.body = self.next_id, body
        self.next_id += 1
        self.stored.setdefault(key, []).insert(0, one)

    def drop(self, key, is_dropped):
        """Removes stored responses of a target, and returns how many."""
        before = self.stored.get(key, [])
        self.stored[key] = [one for one in before if not is_dropped(one)]
        return len(before) - len(self.stored[key])

    def supersede(self, token, now):
        """Removes what the response replaces, and what can't be used again."""
        request = token.request

        def is_superseded(one):
            replaced = one.method == request.method and (one.id == token.one or one.matches(request.asked))
            return replaced or not one.can_be_used_again(now)

        self.drop(request.key, is_superseded)

    # Bodies on their way

    def collect(self, token, response, made, is_known, stands_in):
        token.response, token.copy = response, b""
        if stands_in or token.is_due:
            token.state = "more"
            return notice(more=token.id, token=token.number, store=self.most)
        token.state = "collect"
        member = self.member(why=token.why, status=response.status, stored=True, left=made.left(response.received))
        head = self.received_head(token, response, is_known, member)
        members = {"answer": token.id, "token": token.number, "store": self.most}
        return message(members if is_known else {**members, "rest": True}, head, b"")

    def collecting(self, number, body):
        token = self.token(number, "collect", "more")
        if len(token.copy) + len(body) > self.most:
            raise Refused("too-long")
        return token

    def part(self, line, head, body):
        token = self.collecting(line["part"], body)
        token.copy += body
        return notice(part=token.number)

    def complete(self, line, head, body):
        if "rest" in line:
            raise Refused("no-rest")
        token = self.collecting(line["complete"], body)
        token.response.set_body(token.copy + body)
        answered = token.state == "collect"
        reply = self.receive({} if answered else line, token, token.response)
        self.end(token)
        return notice(done=token.id) if answered else reply

    def failed(self, line, head, body):
        if not is_number(line["failed"]):
            raise Refused("no-token")
        at = time_in(line)
        token = self.token(line["failed"], "sent", "collect", "more", "pieces")
        return self.lose(line, token, at, line.get("why"))

    def lose(self, line, token, at, why):
        """Returns the reply if there is no response."""
        one = self.one_of(token)
        if token.state in ("collect", "pieces") or token.is_due:
            self.end(token)
            return notice(done=token.id)
        if one is not None and one.may_stand_in(token.request.asked, at):
            return self.stand_in(line, token, one, at)
        return self.no_response(token, at, why)

    # Validations

    def confirm(self, line, token, response):
        """Renews the validated response by a 304 that confirms it, or sends the request itself."""
        request, one = token.request, self.one_of(token)
        fields = stored_fields(response.fields, response.sent, response.received)
        if one is None or fields is None or not one.is_confirmed_by(response.fields):
            return self.send_again(token, response)
        renewed = self.renewed(one, request, response, fields)
        worth = renewed.is_worth_storing(response.received)
        self.replace(request.key, one, renewed if worth else None)
        self.end(token)
        if token.is_due:
            return notice(done=token.id)
        left = renewed.left(response.received)
        member = self.member(why=token.why, status=304, stored=worth, left=left)
        return self.by_stored(line, request, renewed, response.received, member, token.id)

    def renewed(self, one, request, response, fields):
        """Returns the stored response with the received fields (section 4.3.4)."""
        merged = updated(one.fields, fields)
        asked = Asked(one.method_of(request.asked), request.target, needed(request.asked.fields, merged))
        sent = one.time if self.has("a 304 leaves the age") else response.sent
        renewed = Stored(asked, one.status, merged, not self.private, sent, self.faults)
        renewed.id, renewed.body = one.id, one.body
        return renewed

    def replace(self, key, one, other):
        at = self.stored[key].index(one)
        self.stored[key][at : at + 1] = [other] if other else []

    def send_again(self, token, response):
        self.drop(token.request.key, lambda one: one.id == token.one)
        self.end(token)
        if token.is_due:
            return notice(done=token.id)
        return self.send(token.id, token.request, response.received, token.why)

    def freshen(self, token, response):
        """Renews or removes what is stored for GET by a response to HEAD, and returns whether there was any."""
        asked, received = token.request.asked, response.fields
        key = token.request.key
        has_validator = "etag" in received or "last-modified" in received
        of_get = [one for one in self.stored.get(key, []) if one.method == "GET" and one.answers_once_validated(asked)]
        same = find(of_get, lambda one: has_validator and not differs(one, received))
        outdated = [one for one in of_get if one is not same and (has_validator or differs(one, received))]
        if not same and not outdated:
            return False
        fields = stored_fields(received, response.sent, response.received)
        if same and fields is None:
            return True
        self.drop(key, lambda one: one in outdated)
        if same:
            renewed = self.renewed(same, token.request, response, fields)
            if self.has("a response to HEAD replaces a body"):
                renewed.body = response.body or b""
            self.replace(key, same, renewed if renewed.is_worth_storing(response.received) else None)
        return True

    # What is removed

    def invalidate(self, request, response):
        """Removes what an unsafe request may have changed (section 4.4)."""
        if request.method in SAFE or (response.status >= 400 and not self.has("an error invalidates")):
            return
        named = [first(response.fields, name) for name in ("location", "content-location")]
        for key in {request.key, *(self.named_target(request, name) for name in named if name)} - {None}:
            self.void(key)

    def named_target(self, request, reference):
        """Returns the text of the target that a reference names at the request's origin, or None."""
        scheme, authority, path = split_target(reference)
        if authority is None:
            return request.origin + path
        origin = origin_of(scheme, authority)
        same = origin == request.origin or (not request.scheme and "//" + host_of(scheme, authority) == request.origin)
        return request.origin + (path or "/") if same or self.has("another origin is invalidated") else None

    def void(self, key):
        """Removes what is stored for a target, also what is under way."""
        self.invalidated[key] = self.next_token
        return self.drop(key, lambda one: True)

    def remove(self, line, head, body):
        target = line.get("target")
        scheme, authority, path = split_target(target) if isinstance(target, str) else ("", None, "")
        if not authority:
            raise Refused("no-target")
        path = path or "/"
        removed = sum(self.void(key) for key in (origin_of(scheme, authority) + path, "//" + host_of(scheme, authority) + path))
        return notice(removed=line["remove"], responses=removed)

    def sweep(self, line, head, body):
        at = time_in(line)
        removed = sum(self.drop(key, lambda one: not one.can_be_used_again(at)) for key in list(self.stored))
        return notice(swept=line["sweep"], removed=removed)

    def stats(self, line, head, body):
        counts = {
            "responses": sum(map(len, self.stored.values())), "under_way": len(self.under_way), "frames": self.frames,
            "hits": self.hits, "validations": self.validations, "misses": self.misses, "errors": self.errors,
        }
        return notice(stats=line["stats"], **counts)

    def quit(self, line, head, body):
        return notice(quit=line["quit"])


FRAMES = {
    "ask": Cache.ask, "received": Cache.received, "failed": Cache.failed, "part": Cache.part, "complete": Cache.complete,
    "next": Cache.next, "remove": Cache.remove, "sweep": Cache.sweep, "stats": Cache.stats, "quit": Cache.quit,
}
WITH_ID = {"ask", "remove", "sweep", "stats", "quit"}


def find(stored, is_wanted):
    return next((one for one in stored if is_wanted(one)), None)


def is_number(value):
    return isinstance(value, int) and not isinstance(value, bool) and value >= 0


def time_in(line):
    if not is_number(line.get("at")) or line["at"] > LAST:
        raise Refused("no-time")
    return line["at"]


def check_rest(line, body):
    if "rest" in line and (body or not (line["rest"] is True or is_number(line["rest"]))):
        raise Refused("no-rest")


def differs(one, received):
    """Returns whether a response to HEAD has another value than the stored response (section 4.3.5)."""
    compared = [name for name in ("etag", "last-modified", "content-length") if name in received]
    return any(first(one.fields, name) != first(received, name) for name in compared)


def marked(status, fields, member):
    """Returns the head of an answer, with the members of earlier caches and this one."""
    earlier = [piece for piece in pieces_under(fields, "cache-status") if piece]
    return "HTTP/1.1", str(status), {**fields, "cache-status": [", ".join([*earlier, member])]}
