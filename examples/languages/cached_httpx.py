"""Requests a page twice: python3 cached_httpx.py http://127.0.0.1:8000/"""
import sys

import httpx

from http_cache_semantics.transport import CacheTransport

with httpx.Client(transport=CacheTransport("cache")) as client:
    for _ in range(2):
        print(client.get(sys.argv[1]).extensions["from_cache"])
