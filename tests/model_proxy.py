"""What `--proxy` adds to the model of `cacheserve` (docs/RULES.md, the section on a proxy). Sections are of RFC 9110."""
from model import Cache, Request, marked, message, split_target
from model_fields import dated, first, forwarded, is_complete, number, pieces_under

NAME = "1.1 cacheserve"


def with_via(fields):
    """Returns the fields with the proxy's own member of Via (section 7.6.3)."""
    return {**fields, "via": [", ".join([*fields.get("via", []), NAME])]}


class SentRequest(Request):
    """A request as a proxy sends it on."""

    def __init__(self, line, head, body):
        super().__init__(line, head, body)
        self.received = self.fields
        _, authority, path = split_target(self.target)
        fields = {name: lines for name, lines in forwarded(self.fields).items() if name != "expect"}
        fields["host"] = [first(self.fields, "host") if authority is None else authority]
        length = len(body) or line.get("rest", True)
        if length is not True:
            fields["content-length"] = [str(length)]
        if self.method in ("OPTIONS", "TRACE") and "max-forwards" in fields:
            fields["max-forwards"] = [str(int(first(fields, "max-forwards")) - 1)]
        self.set_head(path or "/", with_via(fields))

    def refusal(self):
        """Returns the status and the detail of the proxy's own answer, or None."""
        if len(self.received["host"]) > 1:
            return 400, "host"
        if any(piece == NAME for piece in pieces_under(self.received, "via")):
            return 508, "loop"
        if self.method in ("OPTIONS", "TRACE") and first(self.received, "max-forwards") == "0":
            return 200, "max-forwards"
        return None


def is_cut(method, response):
    """Returns whether a Content-Length isn't the length of the body (RFC 9112, section 8)."""
    length = None if response.body is None else len(response.body)
    return length is not None and not is_complete(method, response.status, response.fields, length)


class Proxy(Cache):
    """A cache that is a proxy."""

    def request(self, line, head, body):
        return SentRequest(line, head, body)

    def refusal(self, line, request):
        refusal = request.refusal()
        return self.own(line["ask"], *refusal, request.method, line["at"]) if refusal else None

    def head(self, status, fields, member, method, length):
        """Returns the head of an answer as a proxy sends it on."""
        version, status, fields = marked(status, fields, member)
        lengths = {number(piece) for piece in pieces_under(fields, "content-length")}
        fields = with_via({name: lines for name, lines in forwarded(fields).items() if name != "content-length"})
        if status == "205":
            length = 0
        elif method == "HEAD" or status == "304":
            length = min(lengths) if len(lengths) == 1 else None
        if length is not None and status != "204":
            fields["content-length"] = [str(length)]
        return version, status, fields

    def own(self, id, status, detail, method, at=None):
        """Returns an answer that the proxy makes itself."""
        fields = {} if at is None else dated({}, at)
        return message({"answer": id}, self.head(status, fields, self.member(detail=detail), method, 0), b"")

    def unanswered(self, id, request):
        return self.own(id, 504, "only-if-cached", request.method)

    def receive(self, line, token, response):
        if is_cut(token.request.method, response):
            return self.lose({}, token, response.received, "invalid")
        return super().receive(line, token, response)

    def passed_on(self, line, token, response, **said):
        if token.request.method == "HEAD" or response.status in (204, 205, 304):
            response.set_body(b"")
        return super().passed_on(line, token, response, **said)

    def no_response(self, token, at, why):
        self.end(token)
        status, detail = (502, "response cut off") if why == "invalid" else (504, "no response")
        return self.own(token.id, status, detail, token.request.method, at)
