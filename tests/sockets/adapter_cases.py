"""Runs the cases for a private cache by CacheAdapter over real sockets, with the program that $CACHESERVE names.

Cases that `requests` can't send are left out: other forms of target, bytes on the connection, an empty query. So are the cases
of what an intermediary does."""
import sys

sys.dont_write_bytecode = True
from cases_over_sockets import STEP, OriginServer, run_cases
from cases import KNOWN, load, needs_bytes, request_of

# Categories and ids.
OF_INTERMEDIARIES = {"proxy", "hop-by-hop", "te", "keep-alive-resp"}


def is_written_by_requests(case):
    asked = [step["request"] for step in case["steps"]]
    others = ("absolute", "raw_target", "chunked")
    return not any(
        any(request.get(name) for name in others)
        or request.get("path", "").endswith("?")
        or request.get("method", "GET") != request.get("method", "GET").upper()
        for request in asked
    )


NO_RESPONSE = {"status": 504, "headers": [], "body": b"", "is_cut_off": False}


def by_requests():
    """Returns a function that sends a request by `requests`, and what closes its session."""
    import requests
    from http_cache_semantics.adapter import CacheAdapter

    session = requests.Session()
    session.headers.clear()
    session.trust_env = False
    session.mount("http://", CacheAdapter(pool_maxsize=100))

    def ask(method, url, headers, body):
        try:
            got = session.request(method, url, headers=dict(headers), data=body, allow_redirects=False, timeout=20)
        except requests.RequestException:
            return NO_RESPONSE
        fields = [[name, value] for name, value in got.raw.headers.iteritems()]
        return {"status": got.status_code, "headers": fields, "body": got.content, "is_cut_off": False}

    return ask, session.close


def cases_of(send, origin):
    """Returns the cases, and a function that sends the request of a step by a function of a library."""

    def ask(case, number, now):
        """Returns the answer. The libraries raise an exception if there is none, and a proxy answers 504 then."""
        request = request_of(case, case["steps"][number], now)
        headers = {STEP: f"{case['id']}.{number}"}
        for name, value in request["headers"]:
            if name.lower() != "content-length":
                known = next((other for other in headers if other.lower() == name.lower()), name)
                headers[known] = f"{headers[known]}, {value}" if known in headers else value
        url, body = f"http://127.0.0.1:{origin.port}{request['target']}", bytes.fromhex(request["body_hex"]) or None
        return send(request["method"], url, [(name, value.encode("latin-1")) for name, value in headers.items()], body)

    cases = [case for case in load() if case["cache"] != "shared" and not OF_INTERMEDIARIES & {case["category"], case["id"]}]
    return [case for case in cases if is_written_by_requests(case) and not case.get("wire") and not needs_bytes(case)], ask


def main(send, close):
    """Runs the cases by a function that sends a request. Returns 0 if they pass."""
    origin = OriginServer()
    cases, ask = cases_of(send, origin)
    passed, wrong = run_cases(origin, cases, ask)
    close()
    print(len(cases), passed, *wrong, sep="\n")
    return 0 if [line.split(":")[0] for line in wrong] == KNOWN and passed["must"] == 155 else 1


if __name__ == "__main__":
    sys.exit(main(*by_requests()))
