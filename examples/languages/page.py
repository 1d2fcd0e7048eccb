"""Stores a page, and sends it again four seconds later without asking the origin server."""
from http_cache_semantics import CachePolicy, Fresh, Request, Response

page = Request("GET", "/page", {"Host": "example.com"})
policy = CachePolicy(page, Response(200, {"Cache-Control": "max-age=10"}), received=1704067200)
decision = policy.before_request(page, now=1704067204)
if policy.is_storable() and isinstance(decision, Fresh):
    print(decision.response.status, decision.response.get("age"))  # and the stored body after it
