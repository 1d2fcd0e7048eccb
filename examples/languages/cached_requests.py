"""Requests a page twice: python3 cached_requests.py http://127.0.0.1:8000/"""
import sys

import requests

from http_cache_semantics.adapter import CacheAdapter

session = requests.Session()
session.mount("http://", CacheAdapter("cache"))
for _ in range(2):
    print(session.get(sys.argv[1]).from_cache)
