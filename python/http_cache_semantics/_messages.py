"""Requests and responses, and the heads of HTTP/1.1 messages that the library reads and writes (RFC 9112)."""
from __future__ import annotations

import re
from dataclasses import dataclass, field
from typing import Iterable, List, Mapping, Optional, Sequence, Tuple, Union

from ._errors import Malformed

Value = Union[str, bytes, int]
Headers = Union[Mapping[str, Union[Value, Sequence[Value]]], Iterable[Tuple[str, Value]]]

# Each of these would end a line early, so a value could begin another field (RFC 9110, section 5.5).
_LINE_ENDS = "\r\n\0"
_WORD_ENDS = re.compile(r"[\x00-\x20\x7f]")


def _text(value: Value) -> str:
    """Returns a value as text. Bytes are decoded as ISO 8859-1, as in http.client."""
    return value.decode("latin-1") if isinstance(value, bytes) else str(value)


def _values(value: Union[Value, Sequence[Value]]) -> Sequence[Value]:
    return (value,) if isinstance(value, (str, bytes, int)) else value


def _pairs(headers: Headers) -> Tuple[Tuple[str, str], ...]:
    if isinstance(headers, Mapping):
        return tuple((name, _text(one)) for name, values in headers.items() for one in _values(values))
    return tuple((name, _text(value)) for name, value in headers)


class _Message:
    headers: Tuple[Tuple[str, str], ...]

    def get_all(self, name: str) -> List[str]:
        """Returns the values of a field, one for each field line."""
        lower = name.lower()
        return [value for this, value in self.headers if this.lower() == lower]

    def get(self, name: str, default: Optional[str] = None) -> Optional[str]:
        """Returns the value of a field's first line."""
        return next(iter(self.get_all(name)), default)

    def _head(self, first_line: str) -> bytes:
        lines = [f"{name}: {value}" for name, value in self.headers]
        names = "".join([name for name, _ in self.headers])
        if ":" in names or any(end in "".join(lines) for end in _LINE_ENDS):
            raise Malformed(f"a field name has a colon, or a field has CR, LF or NUL, among {self.headers}")
        return _encoded("\r\n".join([first_line, *lines, "\r\n"]))


def _encoded(text: str) -> bytes:
    try:
        return text.encode("latin-1")
    except UnicodeEncodeError as e:
        raise Malformed(f"{e.object[e.start]!r} is not in ISO 8859-1: pass UTF-8 as bytes") from None


@dataclass(frozen=True)
class Request(_Message):
    """A request: its method, its target (RFC 9112, section 3.2) and its header fields, as a mapping or as pairs.

    A value of a mapping may be a list, with an item for each field line."""

    method: str
    target: str
    headers: Headers = field(default=())  # type: ignore[assignment]

    def __post_init__(self) -> None:
        object.__setattr__(self, "headers", _pairs(self.headers))

    def head(self) -> bytes:
        """Returns the head of the HTTP/1.1 message."""
        for word in (self.method, self.target):
            if not word or _WORD_ENDS.search(word):
                raise Malformed(f"the method or the target is empty, or has a space or a control character: {word!r}")
        return self._head(f"{self.method} {self.target} HTTP/1.1")


@dataclass(frozen=True)
class Response(_Message):
    """A response without its body: its status and its header fields, as a mapping or as pairs."""

    status: int
    headers: Headers = field(default=())  # type: ignore[assignment]

    def __post_init__(self) -> None:
        object.__setattr__(self, "headers", _pairs(self.headers))

    def head(self) -> bytes:
        """Returns the head of the HTTP/1.1 message, without a reason phrase."""
        return self._head(f"HTTP/1.1 {int(self.status)} ")


def _lines(head: bytes) -> Tuple[str, Tuple[Tuple[str, str], ...]]:
    first, *lines = head.decode("latin-1").split("\r\n")[:-2]
    return first, tuple(tuple(line.split(": ", 1)) for line in lines)  # type: ignore[misc]


def request_from(head: bytes) -> Request:
    """Returns the request whose head the library wrote."""
    first, headers = _lines(head)
    method, target, _ = first.split(" ")
    return Request(method, target, headers)


def response_from(head: bytes) -> Response:
    """Returns the response whose head the library wrote."""
    first, headers = _lines(head)
    return Response(int(first.split(" ")[1]), headers)


def request_of(request: Union[Request, Tuple[str, str, Headers]]) -> Request:
    return request if isinstance(request, Request) else Request(*request)


def response_of(response: Union[Response, Tuple[int, Headers]]) -> Response:
    return response if isinstance(response, Response) else Response(*response)
