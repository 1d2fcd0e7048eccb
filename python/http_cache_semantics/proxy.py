"""A caching reverse proxy in front of one origin server, over the process `cacheserve --proxy`.

It moves bytes between connections and measures time and lengths. The process decides what is stored and used again, and writes
the heads. The proxy speaks plain HTTP/1.1: the server in front of it does TLS, X-Forwarded-For and X-Forwarded-Proto
(docs/DEPLOY.md). After SIGTERM or SIGINT it ends once the requests under way have ended.
"""
from __future__ import annotations

import argparse
import asyncio
import os
import re
import signal
import sys

from . import _arguments
from .process import AsyncCache, CacheError, CacheGone, ProcessOptions

_NAME = "cacheserve"


async def run(words: argparse.Namespace) -> None:
    """Serves until SIGTERM or SIGINT. Raises `OSError` if it can't listen, and `CacheError` if there is no such program."""
    # These need h11, whose absence `main` reports.
    from .connection import Client, Room
    from .listen import Listener, most_clients
    from .origin import Origin, OriginServer
    from .service import Log, Proxy

    stop, log, room, url = asyncio.Event(), Log(), Room(words.memory), words.origin
    origin = Origin(url.host, url.port, url.is_tls, url.text, response=words.timeout, idle=words.idle)
    options = ProcessOptions(
        words.program, words.dir, proxy=True, name=words.name, sync=words.sync, responses=words.responses,
        bytes=words.bytes, stored_body=words.stored_body, variants=words.variants,
    )  # fmt: skip
    name = re.sub(rb"[^!#$%&'*+\-.^_`|~0-9A-Za-z]", b"-", (words.name or _NAME).encode())
    cache = AsyncCache(options, words.cache_timeout)
    proxy = Proxy(cache, OriginServer(origin, room), room, log, name, words.collapse, words.log)

    def lost(client: Client) -> None:
        proxy.clients.discard(client)
        listener.lost()

    def made() -> Client:
        return Client(room, words.idle, origin.longest_head, proxy.serve, lost)

    listener = Listener(most_clients(origin.kept), made, log.say)
    await listener.open(*words.listen)
    try:
        await proxy.cache.start()
    except CacheGone as error:
        proxy.keeper.lost(error)
    for number in (signal.SIGTERM, signal.SIGINT):
        asyncio.get_running_loop().add_signal_handler(number, stop.set)
    log.say(f"listens on http://{_shown(*words.listen)} for {url.text}")
    await stop.wait()
    listener.close()
    await proxy.stop()


def main() -> None:
    words = _arguments.parsed(__doc__)
    try:
        if words.uvloop:
            _install_uvloop()
        asyncio.run(run(words))
    except KeyboardInterrupt:
        # Before the signals were handled.
        sys.exit(128 + signal.SIGINT)
    except ImportError as error:
        if error.name != "h11":
            raise
        sys.exit("proxy: needs h11: python3 -m pip install h11, or Debian's python3-h11")
    except CacheError as error:
        sys.exit(f"proxy: {error}")
    except OSError as error:
        why = os.strerror(error.errno).lower() if (error.errno or 0) > 0 else error.strerror or str(error)
        sys.exit(f"proxy: --listen {_shown(*words.listen)}: {why}")


def _install_uvloop() -> None:
    try:
        import uvloop
    except ImportError:
        sys.exit("proxy: --uvloop needs uvloop: python3 -m pip install uvloop, or Debian's python3-uvloop")
    uvloop.install()


def _shown(host: str, port: int) -> str:
    return f"[{host}]:{port}" if ":" in host else f"{host}:{port}"


if __name__ == "__main__":
    main()
