"""Decides when a stored HTTP response may be used again (RFC 7234), with the proved library.

>>> from http_cache_semantics import CachePolicy, Fresh, Request, Response
>>> page = CachePolicy(Request("GET", "/a"), Response(200, {"Cache-Control": "max-age=10"}), received=0)
>>> page.is_storable(), page.time_to_live(4)
(True, 6.0)
>>> isinstance(page.before_request(Request("GET", "/a"), now=4), Fresh)
True

A policy decides for one stored response. It is stored as `policy.to_bytes()` beside the body, and read by
`CachePolicy.from_bytes`. Times are seconds since 1970 (int, float, Decimal or Fraction) or a datetime with a time zone,
and default to the time of the call.
"""
from ._errors import (
    BadArgument,
    DateNotPrintable,
    HeaderMapFull,
    LibraryNotFound,
    Malformed,
    Refused,
)
from ._library import library_version
from ._messages import Headers, Request, Response
from ._options import CacheOptions, Time
from ._policy import (
    CachePolicy,
    Choice,
    Fresh,
    Freshness,
    Modified,
    NotModified,
    Stale,
    StaleUse,
    Storability,
    choose,
    joined,
    updated,
)

__all__ = [
    "BadArgument",
    "CacheOptions",
    "CachePolicy",
    "Choice",
    "DateNotPrintable",
    "Fresh",
    "Freshness",
    "HeaderMapFull",
    "Headers",
    "LibraryNotFound",
    "Malformed",
    "Modified",
    "NotModified",
    "Refused",
    "Request",
    "Response",
    "Stale",
    "StaleUse",
    "Storability",
    "Time",
    "choose",
    "joined",
    "library_version",
    "updated",
]
