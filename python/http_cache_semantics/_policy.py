"""Policies: what a cache decides for one stored response. Every decision is a call of the library."""
from __future__ import annotations

from ctypes import byref, c_size_t, c_uint32
from dataclasses import dataclass
from typing import Any, NamedTuple, Optional, Sequence, Tuple, Union

from ._library import Buffer, DurationStruct, called, filled, library
from ._messages import Headers, Request, Response, request_from, request_of, response_from, response_of
from ._options import CacheOptions, Time, time_struct

RequestLike = Union[Request, Tuple[str, str, Headers]]
ResponseLike = Union[Response, Tuple[int, Headers]]

_NANOSECONDS = 1_000_000_000
# Most results are shorter, so a call is seldom repeated with a longer buffer.
_USUAL_SIZE = 4096
_FRESH, _VALIDATE, _NO_MATCH = range(3)
_NOT_MODIFIED = 0

# The words for the values of enum hcs_permission from 1, for the bits of enum hcs_obstacle, and for the values of enum
# hcs_source.
_PERMISSIONS = ("Expires", "max-age", "s-maxage", "public", "status")
_OBSTACLES = (
    "no-store of the request",
    "method",
    "status",
    "no-store",
    "private",
    "Authorization",
    "nothing allows it",
)
_SOURCES = (
    "not storable",
    "no-cache",
    "Set-Cookie in a shared cache",
    "Vary: *",
    "proxy-revalidate",
    "s-maxage",
    "max-age",
    "Expires is no date",
    "Expires isn't after Date",
    "Expires",
    "Last-Modified",
    "immutable",
    "nothing says how long",
)


@dataclass(frozen=True)
class Fresh:
    """The stored response answers the request: send the stored body under the head `response`."""

    response: Response


@dataclass(frozen=True)
class Stale:
    """The stored response may not be sent yet: send `request` to the origin server.

    If `matches` is true, it validates the stored response: pass the received response to `after_response`. Else the stored
    response is not for the client's request, which `request` then is, and the received response gets its own policy."""

    request: Request
    matches: bool


@dataclass(frozen=True)
class NotModified:
    """The stored response is still valid: keep its body under `policy`, and send it under the head `response`."""

    policy: "CachePolicy"
    response: Response


@dataclass(frozen=True)
class Modified:
    """The received response replaces the stored one. `response` is its head; store its body if `policy.is_storable()`."""

    policy: "CachePolicy"
    response: Response


class Storability(NamedTuple):
    """Whether a response may be stored (RFC 7234, section 3), and what allows it, or all that forbids it."""

    storable: bool
    reasons: Tuple[str, ...]


class Freshness(NamedTuple):
    """A freshness lifetime in seconds (RFC 7234, section 4.2.1), and what decides it."""

    lifetime: float
    source: str


class StaleUse(NamedTuple):
    """Which uses of a stale response are allowed (RFC 5861)."""

    while_revalidating: bool
    after_error: bool


@dataclass(frozen=True)
class Choice:
    """The stored response that is used for a request: the index of its policy, and what to do."""

    index: int
    decision: Union[Fresh, Stale]


def _sized(data: bytes) -> Tuple[bytes, int]:
    return data, len(data)


def _decision(code: int, head: bytes, asked: Request) -> Union[Fresh, Stale]:
    if code == _FRESH:
        return Fresh(response_from(head))
    if code == _VALIDATE:
        return Stale(request_from(head), True)
    return Stale(asked, False)


class CachePolicy:
    """The policy of a response: whether it may be stored, how long it stays fresh, and which requests it answers.

    `request` is the request that was sent, `response` is the received response, and `received` is the time of its receipt.
    Messages are `Request` and `Response`, or tuples of their members.

    Raises `Malformed` if a message can't be sent, and `HeaderMapFull` if it has too many fields. Raises `BadArgument` if an
    option or a time is out of range, and `MemoryError`. Every call that has such arguments raises these errors."""

    __slots__ = ("_form", "_options", "_struct")

    def __init__(
        self,
        request: RequestLike,
        response: ResponseLike,
        received: Optional[Time] = None,
        options: CacheOptions = CacheOptions(),
    ) -> None:
        self._options, self._struct = options, options._struct()
        heads = _sized(request_of(request).head()) + _sized(response_of(response).head())
        arguments = (byref(self._struct), *heads, time_struct(received))
        _, [self._form] = filled(lambda *out: library().hcs_new(*arguments, *out), [Buffer(_USUAL_SIZE)])

    @classmethod
    def from_bytes(cls, form: bytes, options: CacheOptions = CacheOptions()) -> "CachePolicy":
        """Returns the policy of a stored form.

        Raises `Malformed` if the bytes are no stored form: then forget the response. The form has the options of its
        policy. Of `options` only `form` is used, for later stored forms."""
        policy = cls.__new__(cls)
        policy._options, policy._struct, policy._form = options, options._struct(), bytes(form)
        policy.storability()
        return policy

    def to_bytes(self) -> bytes:
        """Returns the stored form, to be kept beside the body."""
        return self._form

    def _given(self) -> Tuple[Any, ...]:
        return byref(self._struct), self._form, len(self._form)

    def _filled(self, name: str, *arguments: Any) -> Tuple[int, bytes]:
        call = getattr(library(), name)
        code, [result] = filled(lambda *out: call(*self._given(), *arguments, *out), [Buffer(_USUAL_SIZE)])
        return code, result

    def _duration(self, name: str, now: Optional[Time]) -> int:
        found = DurationStruct()
        called(name, *_sized(self._form), time_struct(now), byref(found))
        return found.in_nanoseconds()

    def is_storable(self) -> bool:
        """Returns whether the response may be stored (RFC 7234, section 3)."""
        return self.storability().storable

    def storability(self) -> Storability:
        """Returns whether the response may be stored, and what allows it, or all that forbids it."""
        bits = c_uint32()
        permission = called("hcs_storability", *_sized(self._form), byref(bits))
        if permission:
            return Storability(True, (_PERMISSIONS[permission - 1],))
        return Storability(False, tuple(words for i, words in enumerate(_OBSTACLES) if bits.value >> i & 1))

    def freshness(self) -> Freshness:
        """Returns the freshness lifetime, and what decides it (RFC 7234, section 4.2.1)."""
        lifetime = DurationStruct()
        source = called("hcs_freshness", *_sized(self._form), byref(lifetime))
        return Freshness(lifetime.in_nanoseconds() / _NANOSECONDS, _SOURCES[source])

    def age(self, now: Optional[Time] = None) -> float:
        """Returns the current age in seconds (RFC 7234, section 4.2.3)."""
        return self.age_ns(now) / _NANOSECONDS

    def age_ns(self, now: Optional[Time] = None) -> int:
        """Returns the current age in nanoseconds."""
        return self._duration("hcs_age", now)

    def time_to_live(self, now: Optional[Time] = None) -> float:
        """Returns for how many seconds the response stays fresh, or 0.0 if it is stale."""
        return self.time_to_live_ns(now) / _NANOSECONDS

    def time_to_live_ns(self, now: Optional[Time] = None) -> int:
        """Returns for how many nanoseconds the response stays fresh, or 0 if it is stale."""
        return self._duration("hcs_time_to_live", now)

    def is_stale(self, now: Optional[Time] = None) -> bool:
        """Returns whether the response is stale."""
        return self.time_to_live_ns(now) == 0

    def before_request(self, request: RequestLike, now: Optional[Time] = None) -> Union[Fresh, Stale]:
        """Returns what to do with a request: send the stored response, or send a request (RFC 7234, section 4).

        Raises `DateNotPrintable` if `now` is before 1900, and what the constructor raises."""
        asked = request_of(request)
        return _decision(*self._filled("hcs_before", *_sized(asked.head()), time_struct(now)), asked)

    def after_response(
        self, request: RequestLike, response: ResponseLike, now: Optional[Time] = None
    ) -> Union[NotModified, Modified]:
        """Returns what to store and send after the response to a validating request (RFC 7234, section 4.3.3).

        `request` is the client's request, for which `before_request` returned a `Stale` that matches. If a 304 yields
        `Modified`, it selects another response: send the request again without its conditions."""
        heads = _sized(request_of(request).head()) + _sized(response_of(response).head())
        arguments = (*self._given(), *heads, time_struct(now))
        buffers = [Buffer(_USUAL_SIZE), Buffer(_USUAL_SIZE)]
        code, [form, head] = filled(lambda *out: library().hcs_after(*arguments, *out), buffers)
        policy = CachePolicy.__new__(CachePolicy)
        policy._options, policy._struct, policy._form = self._options, self._struct, form
        if code == _NOT_MODIFIED:
            return NotModified(policy, response_from(head))
        return Modified(policy, response_from(head))

    def fresh_at(self, request: RequestLike, now: Optional[Time] = None) -> bool:
        """Returns whether `before_request` would return `Fresh`."""
        return called("hcs_fresh_at", *self._given(), *_sized(request_of(request).head()), time_struct(now)) == 1

    def may_be_used(self, request: RequestLike, now: Optional[Time] = None) -> bool:
        """Returns whether the stored response may be used without validation, as a cache looks a request up.

        All lines of a field count, a HEAD is answered by what is stored for GET, and a stale response isn't used if it
        forbids that, whatever `max-stale` says (RFC 9111, sections 4 and 4.2.4)."""
        return called("hcs_may_be_used", *self._given(), *_sized(request_of(request).head()), time_struct(now)) == 1

    def explain(self, request: RequestLike, name: str, now: Optional[Time] = None) -> str:
        """Returns why the stored response answers the request or doesn't, as a member of Cache-Status (RFC 9211).

        `name` is the name of the cache. A member is such as `ExampleCache; hit; ttl=7`."""
        arguments = (*_sized(request_of(request).head()), time_struct(now), *_sized(name.encode()))
        return self._filled("hcs_explain", *arguments)[1].decode()

    def stale_use(self, request: RequestLike, now: Optional[Time] = None) -> StaleUse:
        """Returns which uses of the stale response are allowed (RFC 5861, sections 3 and 4).

        They are the use while it is validated, and the use after an error of the origin server."""
        bits = called("hcs_stale_use", *self._given(), *_sized(request_of(request).head()), time_struct(now))
        return StaleUse(bool(bits & 1), bool(bits & 2))

    def response_at(self, now: Optional[Time] = None) -> Response:
        """Returns the head under which the stored body may be sent at `now`, fresh or stale.

        It has every field line that may be forwarded, and Age (RFC 9111, section 5.1)."""
        arguments = (*_sized(self._form), time_struct(now))
        _, [head] = filled(lambda *out: library().hcs_response_at(*arguments, *out), [Buffer(_USUAL_SIZE)])
        return response_from(head)

    def is_not_modified_for(self, request: RequestLike) -> bool:
        """Returns whether a 304 answers the preconditions of the request (RFC 9110, section 13.2.2)."""
        return called("hcs_is_not_modified_for", *self._given(), *_sized(request_of(request).head())) == 1

    def is_confirmed_by(self, response: ResponseLike) -> bool:
        """Returns whether a received 304 selects the stored response (RFC 7234, section 4.3.4)."""
        return called("hcs_is_confirmed_by", *self._given(), *_sized(response_of(response).head())) == 1

    def __eq__(self, other: object) -> bool:
        return isinstance(other, CachePolicy) and self._form == other._form

    def __hash__(self) -> int:
        return hash(self._form)

    def __reduce__(self) -> Tuple[Any, ...]:
        return CachePolicy.from_bytes, (self._form, self._options)

    def __repr__(self) -> str:
        storable, reasons = self.storability()
        return f"<CachePolicy {'' if storable else 'not '}storable: {', '.join(reasons)}>"


def choose(policies: Sequence[CachePolicy], request: RequestLike, now: Optional[Time] = None) -> Optional[Choice]:
    """Returns which of several stored responses is used for a request (RFC 7234, sections 4 and 4.1).

    It is the first fresh response to the request, else the first response to it, which has to be validated, else None. Raises
    what `before_request` raises."""
    asked, forms = request_of(request), [policy.to_bytes() for policy in policies]
    struct, index = CacheOptions()._struct(), c_size_t()
    lengths = (c_size_t * len(forms))(*map(len, forms))
    stored = (*_sized(b"".join(forms)), lengths, len(forms))
    arguments = (byref(struct), *stored, *_sized(asked.head()), time_struct(now), byref(index))
    code, [head] = filled(lambda *out: library().hcs_choose(*arguments, *out), [Buffer(_USUAL_SIZE)])
    return None if code == _NO_MATCH else Choice(index.value, _decision(code, head, asked))


def _made(name: str, *heads: bytes) -> Response:
    call, struct = getattr(library(), name), CacheOptions()._struct()
    sized = [it for head in heads for it in _sized(head)]
    _, [head] = filled(lambda *out: call(byref(struct), *sized, *out), [Buffer(_USUAL_SIZE)])
    return response_from(head)


def joined(response: ResponseLike) -> Response:
    """Returns the response with one field line for each name (RFC 9110, section 5.3).

    A policy sends only the last line of each field. A cache that keeps all lines joins them before it makes the policy."""
    return _made("hcs_joined", response_of(response).head())


def updated(stored: ResponseLike, received: ResponseLike) -> Response:
    """Returns the stored response updated with the fields of a received 304 (RFC 9111, section 3.2)."""
    return _made("hcs_updated", response_of(stored).head(), response_of(received).head())
