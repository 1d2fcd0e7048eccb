"""The options of a cache, and times, as the shared library reads them."""
from __future__ import annotations

import datetime
import math
import secrets
import time
from dataclasses import dataclass
from decimal import Decimal
from fractions import Fraction
from typing import Optional, Tuple, Union

from ._errors import BadArgument
from ._library import CacheStruct, TimeStruct

Time = Union[int, float, Decimal, Fraction, datetime.datetime]
Seconds = Union[int, float, Decimal, Fraction, datetime.timedelta]

_NANOSECONDS = 1_000_000_000
_EPOCH = datetime.datetime(1970, 1, 1, tzinfo=datetime.timezone.utc)
_FORMS = {"compact": 0, "json": 1}
# They are drawn once per process, so that no sender of field names can find out which names collide.
_SECRETS = (secrets.randbits(64), secrets.randbits(64))


def _nanoseconds(seconds: Union[int, float, Decimal, Fraction]) -> int:
    if isinstance(seconds, int):
        return seconds * _NANOSECONDS
    try:
        return math.floor(Fraction(seconds) * _NANOSECONDS)
    except (OverflowError, ValueError) as e:
        raise BadArgument(f"neither a time nor a duration: {seconds}") from e


def _of_delta(delta: datetime.timedelta) -> int:
    return (delta.days * 86_400 + delta.seconds) * _NANOSECONDS + delta.microseconds * 1000


def _since_1970(at: Optional[Time]) -> int:
    if at is None:
        return time.time_ns()
    if not isinstance(at, datetime.datetime):
        return _nanoseconds(at)
    if at.tzinfo is None:
        raise BadArgument("a datetime needs a time zone")
    return _of_delta(at - _EPOCH)


def time_struct(at: Optional[Time]) -> TimeStruct:
    """Returns a time as the library's struct. None is the time of the call."""
    seconds, nanoseconds = divmod(_since_1970(at), _NANOSECONDS)
    if not -(2**63) <= seconds < 2**63:
        raise BadArgument(f"the time is out of range: {at}")
    return TimeStruct(seconds, nanoseconds)


def _parts(seconds: Seconds) -> Tuple[int, int]:
    nanoseconds = _of_delta(seconds) if isinstance(seconds, datetime.timedelta) else _nanoseconds(seconds)
    if not 0 <= nanoseconds < 2**64 * _NANOSECONDS:
        raise BadArgument(f"the duration is out of range: {seconds}")
    return divmod(nanoseconds, _NANOSECONDS)


@dataclass(frozen=True)
class CacheOptions:
    """How a cache behaves.

    `shared`: whether it serves more than one user.
    `heuristic`: the fraction of the time from Last-Modified to Date that is the lifetime of a response that states none.
    `immutable_min_time_to_live`: the least lifetime in seconds of a response with `immutable` and no stated lifetime.
    `ignore_cargo_cult`: whether a response with `pre-check` and `post-check` loses its `no-cache` and `no-store`.
    `form`: stored forms are written as `compact` bytes or as `json`; both are read."""

    shared: bool = True
    heuristic: Union[Fraction, int, Tuple[int, int]] = Fraction(1, 10)
    immutable_min_time_to_live: Seconds = 86_400
    ignore_cargo_cult: bool = False
    form: str = "compact"

    def _struct(self) -> CacheStruct:
        ratio = Fraction(*self.heuristic) if isinstance(self.heuristic, tuple) else Fraction(self.heuristic)
        if self.form not in _FORMS:
            raise BadArgument(f"form is neither compact nor json: {self.form!r}")
        if not (0 <= ratio.numerator < 2**32 and ratio.denominator < 2**32):
            raise BadArgument(f"heuristic is out of range: {self.heuristic}")
        seconds, nanoseconds = _parts(self.immutable_min_time_to_live)
        return CacheStruct(
            *_SECRETS, seconds, nanoseconds, ratio.numerator, ratio.denominator,
            bool(self.shared), bool(self.ignore_cargo_cult), _FORMS[self.form],
        )
