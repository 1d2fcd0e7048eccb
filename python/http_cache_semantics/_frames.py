"""Writes the frames of `cacheserve` (docs/PROTOCOL.md), and reads the outcomes from its replies."""
from __future__ import annotations

import json
import math
import time
from collections import deque
from dataclasses import dataclass
from typing import Any, Callable, Deque, Dict, Generic, NamedTuple, NoReturn, Optional, Tuple, TypeVar, Union

PROTOCOL = 1
# How many seconds a reply may take, unless the caller says otherwise.
REPLY_SECONDS = 30.0
# The exit status of a process whose directory can't be used.
_NOT_OPENED = 6
# These are made once, since `json.dumps` and `json.loads` with options look for them at each call.
_encoded, _decoded = json.JSONEncoder(separators=(",", ":")).encode, json.JSONDecoder().decode
_NO_RESPONSE = "no-response"
# The codes after which a cancelled call has nothing to end, or can't end it. An older process writes none.
_NOTHING_LEFT = (_NO_RESPONSE, "unknown-token", "out-of-memory", "")


class CacheError(Exception):
    """Raised if the process refuses a frame. Nothing that is stored or under way has changed.

    `code` is the code of docs/PROTOCOL.md that names what is wrong, or "" if the process wrote none.
    """

    def __init__(self, why: str, code: str = "") -> None:
        super().__init__(why)
        self.code = code


class NoResponse(CacheError):
    """Raised if the origin server sent no response, and no stored response may be used instead."""


class CacheGone(CacheError):
    """Raised if the process has ended, or was ended since it didn't reply in time. Its requests under way are lost."""


class StoreNotOpened(CacheGone):
    """Raised if the process can't use its directory, which another process may be using."""


@dataclass(frozen=True)
class Send:
    """A request to send to the origin server. The caller reports its outcome by `received` or `failed`.

    With `rest` its body is the one that the caller has kept. `life` is the number of the process that chose the token, since
    the next process uses the same tokens again.
    """

    token: int
    head: bytes
    body: bytes
    rest: bool
    life: int


@dataclass(frozen=True)
class Answer:
    """The response to a request. `due` is a request to send meanwhile; the reply to its response is a `Done`.

    With `rest` its body is the body of the received response, which the caller has kept. With `store` the caller collects a
    copy of that body, of at most so many bytes, and hands it over by `part` and `complete`. With `left` so many bytes of the
    answer's own body follow, by `next`. `token` is 0 if there is neither.
    """

    head: bytes
    body: bytes
    rest: bool
    due: Optional[Send] = None
    store: Optional[int] = None
    left: int = 0
    token: int = 0
    life: int = 0


@dataclass(frozen=True)
class More:
    """Nothing is answered yet: the caller collects the body, of at most `store` bytes.

    The reply to `complete` is an `Answer`, or a `Done` if nobody waits for one.
    """

    token: int
    store: int
    life: int


@dataclass(frozen=True)
class Wait:
    """Another request is under way, and its response may be stored. The caller asks again, without `wait`, once it is over."""

    token: int
    life: int


@dataclass(frozen=True)
class Done:
    """The reply to the response to a request that was sent after an answer: nothing is left to do."""


@dataclass(frozen=True)
class Piece:
    """The next bytes of a stored body, and how many follow them."""

    body: bytes
    left: int


Outcome = Union[Answer, Send, More, Wait, Done]
# What names a request under way.
UnderWay = Union[Send, Answer, More]
# The length of a body that stays with the caller, True if it isn't known yet, or None if the body is in the frame.
Rest = Union[int, bool, None]


class Frame(NamedTuple):
    """A frame that the process has written."""

    line: Dict[str, Any]
    head: bytes
    body: bytes
    request: bytes


def now_ms() -> int:
    """Returns the current time as frames have it, in milliseconds since 1970."""
    return time.time_ns() // 1_000_000


def bytes_of(line: Dict[str, Any], head: bytes, body: bytes) -> bytes:
    if head or body:
        line = {**line, "head": len(head), "body": len(body)}
    return b"%s\n%s%s" % (_encoded(line).encode(), head, body)


class FrameReader:
    """Reads frames from the bytes that the process writes."""

    def __init__(self) -> None:
        # What was fed, from the index `_at` of the first on. A long body is joined once.
        self._fed: Deque[bytes] = deque()
        self._at = self._unread = 0
        self._line: Optional[Dict[str, Any]] = None

    def feed(self, data: bytes) -> None:
        self._fed.append(data)
        self._unread += len(data)

    def next(self) -> Optional[Frame]:
        """Returns the next frame, or None if it isn't whole. Raises `CacheGone` if a line is none of a frame."""
        if self._line is None:
            length = self._line_length()
            if not length:
                return None
            self._line = _line_of(self._taken(length))
        line = self._line
        head, body, request = line.get("head", 0), line.get("body", 0), line.get("request", 0)
        if self._unread < head + body + request:
            return None
        self._line = None
        return Frame(line, self._taken(head), self._taken(body), self._taken(request))

    def _line_length(self) -> int:
        """Returns the length of the line that is next, or 0 if it isn't whole."""
        while self._fed:
            end = self._fed[0].find(b"\n", self._at)
            if end >= 0:
                return end + 1 - self._at
            if len(self._fed) == 1:
                break
            self._fed.appendleft(self._fed.popleft() + self._fed.popleft())
        return 0

    def _taken(self, count: int) -> bytes:
        self._unread -= count
        parts = []
        while count:
            first = self._fed[0]
            parts.append(first[self._at : self._at + count])
            count -= len(parts[-1])
            self._at += len(parts[-1])
            if self._at == len(first):
                self._fed.popleft()
                self._at = 0
        return b"".join(parts)


def _line_of(text: bytes) -> Dict[str, Any]:
    try:
        line = _decoded(text.decode())
        if isinstance(line, dict):
            return line
    except ValueError:
        pass
    shown = text[:80].decode(errors="replace").strip()
    raise CacheGone(f"the program cacheserve wrote a line that isn't one of a frame: {shown!r}")


def time_or_now(at: Optional[int]) -> int:
    return now_ms() if at is None else at


def ask_line(at: Optional[int], rest: Rest, pieces: Optional[int], wait: bool) -> Dict[str, Any]:
    line: Dict[str, Any] = {"ask": 0, "at": time_or_now(at)}
    if rest is not None:
        line["rest"] = rest
    if pieces is not None:
        line["pieces"] = pieces
    if wait:
        line["wait"] = True
    return line


def received_line(
    send: Send, sent: Optional[int], at: Optional[int], rest: Rest, collect: bool, pieces: Optional[int]
) -> Dict[str, Any]:
    line = {"received": send.token, "at": time_or_now(at)}
    return _with(line, sent=sent, rest=rest, collect=collect or None, pieces=pieces)


def failed_line(token: int, why: str, at: Optional[int], pieces: Optional[int] = None) -> Dict[str, Any]:
    return _with({"failed": token, "at": time_or_now(at), "why": why}, pieces=pieces)


def complete_line(of: UnderWay, pieces: Optional[int]) -> Dict[str, Any]:
    return _with({"complete": of.token}, pieces=pieces)


def _with(line: Dict[str, Any], **members: Any) -> Dict[str, Any]:
    line.update((name, value) for name, value in members.items() if value is not None)
    return line


def outcome_of(life: int, frame: Frame) -> Outcome:
    """Returns the outcome of a request from a reply. Raises `CacheError` if the process refuses the frame."""
    line = frame.line
    if "answer" in line:
        if frame.request:
            due = Send(line["token"], frame.request, b"", False, life)
            return Answer(frame.head, frame.body, "rest" in line, due)
        token = line.get("token", 0)
        return Answer(frame.head, frame.body, "rest" in line, None, line.get("store"), line.get("left", 0), token, life)
    if "send" in line:
        return Send(line["token"], frame.head, frame.body, "rest" in line, life)
    if "more" in line:
        return More(line["token"], line["store"], life)
    if "wait" in line:
        return Wait(line["token"], life)
    if "done" in line:
        return Done()
    return _refused(line)


def check_part(frame: Frame) -> None:
    """Raises `CacheError` if the process refuses a part."""
    if "part" not in frame.line:
        _refused(frame.line)


def piece_of(frame: Frame) -> Piece:
    """Returns the next piece of a body from a reply. Raises `CacheError` if the process refuses the frame."""
    if "next" not in frame.line:
        _refused(frame.line)
    return Piece(frame.body, frame.line["left"])


def _refused(line: Dict[str, Any]) -> NoReturn:
    why, code = line.get("error", f"cacheserve wrote a reply of an unknown kind: {line}"), line.get("code", "")
    raise NoResponse(why, code) if code == _NO_RESPONSE else CacheError(why, code)


def count_of(frame: Frame, name: str) -> int:
    if name not in frame.line:
        _refused(frame.line)
    return int(frame.line[name])


def token_left(reply: Dict[str, Any]) -> int:
    """Returns the token of a request that a reply leaves under way, if the call that it is for has been cancelled, or 0."""
    if "wait" in reply or "error" in reply and reply.get("code", "") in _NOTHING_LEFT:
        return 0
    named = reply.get("part") or ("left" in reply and reply["left"] > 0 and reply.get("next")) or reply.get("token")
    return named or 0


Signal = TypeVar("Signal")


class Waits(Generic[Signal]):
    """The requests under way that a `Wait` has named, with what signals their ends."""

    def __init__(self, made: Callable[[], Signal], give: Callable[[Signal], object]) -> None:
        """`made` makes a signal, and `give` gives it."""
        self._made, self._give = made, give
        self._by_token: Dict[int, Signal] = {}

    def see(self, token: int, reply: Dict[str, Any]) -> None:
        """Takes note of the reply to a frame, which has a token unless `token` is 0."""
        if "wait" in reply:
            if reply["token"] not in self._by_token:
                self._by_token[reply["token"]] = self._made()
        elif token in self._by_token and "store" not in reply and "part" not in reply:
            if "error" in reply and reply.get("code") != _NO_RESPONSE:
                return
            signal = self._by_token[token]
            if "send" in reply:
                # The request goes on under another token, and some call may still look for this one.
                self._by_token[reply["token"]] = signal
                return
            self._by_token = {known: other for known, other in self._by_token.items() if other is not signal}
            self._give(signal)

    def signal(self, wait: Wait) -> Optional[Signal]:
        """Returns what signals the end of a request, or None if it is over."""
        return self._by_token.get(wait.token)

    def end(self) -> None:
        """Gives all signals, since the process has ended."""
        for signal in self._by_token.values():
            self._give(signal)
        self._by_token.clear()


def check_protocol(line: Dict[str, Any]) -> None:
    if line.get("protocol") != PROTOCOL:
        raise CacheError(f"the process speaks protocol {line.get('protocol')}, not {PROTOCOL}")


def checked_timeout(seconds: float, name: str = "timeout") -> float:
    """Returns a time limit. Raises `ValueError` unless it is a positive number."""
    is_number = isinstance(seconds, (int, float)) and not isinstance(seconds, bool)
    if not is_number or not 0 < seconds < math.inf:
        raise ValueError(f"{name} isn't a positive number of seconds: {seconds!r}")
    return seconds


def no_reply(seconds: float) -> CacheGone:
    """Returns the exception for a process that hasn't replied for so many seconds."""
    return CacheGone(f"cacheserve hasn't replied for {seconds:g} s")


def gone(status: Optional[int], stderr: bytes) -> CacheGone:
    """Returns the exception for a process that has ended, with what it wrote on standard error."""
    text = stderr.decode(errors="replace").strip() or f"cacheserve has ended with status {status}"
    return StoreNotOpened(text) if status == _NOT_OPENED else CacheGone(text)
