"""Runs the proxy with a fault that the tests have to notice. The first argument names it:

- `clock` stops the clock, and `vary` removes Vary from responses: the load notices these
- `unread` keeps connections to the origin server although bytes of them are unread, and `stall` takes a body that ends with the
  connection for whole when nothing more comes: the attacks notice these
"""
import sys

from http_cache_semantics import _frames, origin, proxy
from http_cache_semantics.wire import BadMessage

FAULT = sys.argv.pop(1)
START = _frames.now_ms()
fields_of, feed, piece = origin._fields_of, origin.OriginConnection.feed, origin.Response.piece


def fields_without_vary(event):
    return [field for field in fields_of(event) if field[0].lower() != b"vary"]


def feed_always(connection, data):
    connection.server, server = None, connection.server
    feed(connection, data)
    connection.server = server


async def piece_or_end(response):
    try:
        return await piece(response)
    except BadMessage as error:
        if "stalled" not in str(error):
            raise
        response._is_read = True
        return b""


if FAULT == "clock":
    _frames.now_ms = origin.now_ms = lambda: START
elif FAULT == "vary":
    origin._fields_of = fields_without_vary
elif FAULT == "unread":
    origin.OriginConnection.is_quiet = True
    origin.OriginConnection.feed = feed_always
else:
    origin.Response.piece = piece_or_end
proxy.main()
