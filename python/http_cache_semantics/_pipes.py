"""The process `cacheserve` and its pipes for code that blocks. It waits for no reply longer than a time limit."""
from __future__ import annotations

import contextlib
import os
import select
import subprocess
import time
from typing import IO, List, Optional

from ._frames import CacheGone, Frame, FrameReader, gone, no_reply

_AT_ONCE = 65_536
# The longest wait of one call of the system, which takes milliseconds as a C int.
_LONGEST_WAIT = 86_400.0


class Pipes:
    """A process and its three pipes, with how many seconds a reply may take."""

    def __init__(self, words: List[str], timeout: float) -> None:
        """Starts a process. Raises `OSError`."""
        pipe = subprocess.PIPE
        # In a session of its own, so that only the caller gets the SIGINT of a Ctrl-C.
        self.process = subprocess.Popen(words, bufsize=0, stdin=pipe, stdout=pipe, stderr=pipe, start_new_session=True)
        self._in, self._out, self._err = (_not_blocking(pipe) for pipe in self._all())
        self._timeout = timeout
        self._due = 0.0
        self._frames = FrameReader()

    def _all(self) -> List[Optional[IO[bytes]]]:
        return [self.process.stdin, self.process.stdout, self.process.stderr]

    def reply(self, frame: bytes) -> Frame:
        """Writes a frame, and returns the next that the process writes. Raises `CacheGone`."""
        self._due = time.monotonic() + self._timeout
        try:
            self._write(frame)
            return self._frame()
        except OSError as error:
            raise self._gone() from error

    def _write(self, data: bytes) -> None:
        left = memoryview(data)
        while left:
            try:
                left = left[os.write(self._in, left) :]
            except BlockingIOError:
                self._wait(self._in, select.POLLOUT)

    def _frame(self) -> Frame:
        found = self._frames.next()
        while not found:
            self._wait(self._out, select.POLLIN)
            data = os.read(self._out, _AT_ONCE)
            if not data:
                raise self._gone()
            self._frames.feed(data)
            found = self._frames.next()
        return found

    def _wait(self, descriptor: int, event: int) -> None:
        poll = select.poll()
        poll.register(descriptor, event)
        while True:
            left = self._due - time.monotonic()
            # If the caller was held up, there may be a reply although the time is over.
            if poll.poll(max(0.0, min(left, _LONGEST_WAIT)) * 1000):
                return
            if left <= 0:
                raise no_reply(self._timeout)

    def _gone(self) -> CacheGone:
        """Returns the exception for a process that has closed a pipe, once it has ended."""
        with contextlib.suppress(subprocess.TimeoutExpired):
            self.process.wait(max(0.0, self._due - time.monotonic()))
        stderr = b""
        with contextlib.suppress(BlockingIOError):
            stderr = os.read(self._err, _AT_ONCE)
        return gone(self.process.poll(), stderr)

    def end(self, seconds: float) -> None:
        """Ends the process, which may take so long to close its directory."""
        _close(self.process.stdin)
        with contextlib.suppress(subprocess.TimeoutExpired):
            self.process.wait(seconds)
        self.kill()

    def kill(self) -> None:
        self.process.kill()
        self.process.wait()
        self.close()

    def close(self) -> None:
        for pipe in self._all():
            _close(pipe)


def _not_blocking(pipe: Optional[IO[bytes]]) -> int:
    assert pipe
    os.set_blocking(pipe.fileno(), False)
    return pipe.fileno()


def _close(pipe: Optional[IO[bytes]]) -> None:
    with contextlib.suppress(OSError):
        if pipe:
            pipe.close()
