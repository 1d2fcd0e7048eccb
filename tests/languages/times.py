"""Prints the microseconds of each call of the Python package on a scene, and of CacheControl if it is installed.

    times.py SCENE

Each number is the least of eleven runs."""
import io
import json
import sys
import time

import http_cache_semantics as hcs


def message(given, first):
    return first, [tuple(pair) for pair in given["headers"]]


def least(call, count=1000):
    best = float("inf")
    for _ in range(11):
        start = time.perf_counter()
        for _ in range(count):
            call()
        best = min(best, (time.perf_counter() - start) / count)
    return best * 1e6


def show(name, call):
    print(f"  {name:34} {least(call):7.1f}")


def of_package(scene):
    asked, (fresh, stale, received) = scene["request"], scene["steps"]
    request = hcs.Request(asked["method"], asked["uri"], [tuple(pair) for pair in asked["headers"]])
    both = scene["response"], received["response"]
    response, confirming = (hcs.Response(*message(it, it["status"])) for it in both)
    start, at_fresh, at_stale = (seconds for seconds, _ in (scene["received"], fresh["at"], stale["at"]))
    policy = hcs.CachePolicy(request, response, start)
    assert isinstance(policy.before_request(request, at_fresh), hcs.Fresh)
    assert policy.before_request(request, at_stale).matches
    assert isinstance(policy.after_response(request, confirming, at_stale), hcs.NotModified)
    show("CachePolicy(..)", lambda: hcs.CachePolicy(request, response, start))
    show("before_request, fresh", lambda: policy.before_request(request, at_fresh))
    show("before_request, stale", lambda: policy.before_request(request, at_stale))
    show("after_response, a 304", lambda: policy.after_response(request, confirming, at_stale))
    show("fresh_at", lambda: policy.fresh_at(request, at_fresh))
    show("response_at", lambda: policy.response_at(at_fresh))


def of_cachecontrol(scene):
    from cachecontrol.cache import DictCache
    from cachecontrol.controller import CacheController
    from requests import Request
    from urllib3 import HTTPResponse

    body, fields = b"x" * 100, dict(map(tuple, scene["response"]["headers"]))
    fields["Date"] = time.strftime("%a, %d %b %Y %H:%M:%S GMT", time.gmtime())
    for name in ("Content-Length", "Connection"):
        fields.pop(name)
    asked = dict(map(tuple, scene["request"]["headers"]))
    request = Request("GET", "http://www.example.com" + scene["request"]["uri"], headers=asked).prepare()

    def response():
        return HTTPResponse(body=io.BytesIO(body), status=200, headers=fields, preload_content=False)

    controller = CacheController(DictCache(), cache_etags=True)
    controller.cache_response(request, response(), body)
    assert controller.cached_request(request), "not stored"
    show("CacheControl: cache_response", lambda: controller.cache_response(request, response(), body))
    show("CacheControl: cached_request, fresh", lambda: controller.cached_request(request))
    show("CacheControl: conditional_headers", lambda: controller.conditional_headers(request))


def main():
    with open(sys.argv[1]) as file:
        scene = json.load(file)
    of_package(scene)
    try:
        of_cachecontrol(scene)
    except ImportError as e:
        print(f"  CacheControl is left out: {e}")
    except AssertionError:
        print("  CacheControl is left out: it doesn't store this response")


if __name__ == "__main__":
    main()
