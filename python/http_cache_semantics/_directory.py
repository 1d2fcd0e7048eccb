"""Removes the directory of a process. The names of its files are those of `http_cache_disk_store`."""
from __future__ import annotations

import contextlib
import fcntl
import os
import re
from typing import Optional

from ._frames import StoreNotOpened

_NAME = re.compile(r"[0-9a-f]{16}(\.head|\.tmp)?")


def remove_directory(path: Optional[str]) -> None:
    """Removes the stored responses of a directory, and the directory unless it has other files.

    Raises `StoreNotOpened` if another process uses the directory.
    """
    if path is None:
        return
    try:
        lock = open(os.path.join(path, "lock"), "r+b")
    except (FileNotFoundError, NotADirectoryError):
        return
    with lock:
        try:
            fcntl.flock(lock, fcntl.LOCK_EX | fcntl.LOCK_NB)
        except BlockingIOError as error:
            raise StoreNotOpened(f"{path}: another process uses the directory") from error
        _remove_files(path)
    with contextlib.suppress(OSError):
        os.rmdir(path)


def _remove_files(path: str) -> None:
    names = [name for name in os.listdir(path) if _NAME.fullmatch(name)]
    for name in [*names, "lock"]:
        with contextlib.suppress(FileNotFoundError):
            os.unlink(os.path.join(path, name))
