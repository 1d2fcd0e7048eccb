"""Finds the program `cacheserve`, and returns the command that starts it."""
from __future__ import annotations

import os
import shutil
import subprocess
from dataclasses import dataclass, fields
from pathlib import Path
from typing import List, Optional

from ._frames import CacheError

_ROOT = Path(__file__).resolve().parent.parent.parent


class ProgramNotFound(CacheError):
    """Raised if the program `cacheserve` isn't found or can't be started."""


@dataclass(frozen=True)
class ProcessOptions:
    """The options of the process, which docs/PROTOCOL.md and the README of `cacheserve` explain. None is its default.

    `program` is the path of `cacheserve`. By default it is the value of the environment variable CACHESERVE. If that isn't set,
    it is the first that is found: in the folder of this package, the proved one of this repository, or the one on PATH.
    """

    program: Optional[str] = None
    dir: Optional[str] = None
    private: bool = False
    proxy: bool = False
    name: Optional[str] = None
    sync: bool = False
    responses: Optional[int] = None
    bytes: Optional[int] = None
    stored_body: Optional[int] = None
    variants: Optional[int] = None
    requests: Optional[int] = None
    head: Optional[int] = None
    body: Optional[int] = None

    def command(self) -> List[str]:
        """Returns the command that starts the process. Raises `ProgramNotFound`."""
        words = [self.program or found_program()]
        for field in fields(self):
            value = getattr(self, field.name)
            if field.name == "program" or value is None or value is False:
                continue
            words.append("--" + field.name.replace("_", "-"))
            if value is not True:
                words.append(str(value))
        return words


def found_program() -> str:
    """Returns the path of `cacheserve`, as `ProcessOptions` says. Raises `ProgramNotFound`."""
    named = os.environ.get("CACHESERVE")
    if named:
        return named
    beside = Path(__file__).parent / "cacheserve"
    if beside.exists():
        return str(beside)
    of_repository = _ROOT / "bin/sources"
    if of_repository.exists():
        sources = subprocess.run([of_repository], stdin=subprocess.DEVNULL, capture_output=True, text=True).stdout.strip()
        proved = _ROOT / "crates/cacheserve/out/proved" / sources
        if sources and proved.exists():
            return str(proved)
    on_path = shutil.which("cacheserve")
    if on_path:
        return on_path
    raise ProgramNotFound(
        "cacheserve isn't built for these sources: `bin/prove cacheserve` builds it, in about an hour on 4 "
        "processors; or let the environment variable CACHESERVE name it"
    )
