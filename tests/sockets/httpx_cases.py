"""Runs the cases of adapter_cases.py by CacheTransport."""
import sys

sys.dont_write_bytecode = True
import httpx
from adapter_cases import NO_RESPONSE, main
from http_cache_semantics.transport import CacheTransport


def by_httpx():
    """Returns a function that sends a request by `httpx`, and what closes its client."""
    inner = httpx.HTTPTransport(limits=httpx.Limits(max_connections=None))
    client = httpx.Client(transport=CacheTransport(transport=inner), trust_env=False, timeout=20)
    client.headers.clear()

    def ask(method, url, headers, body):
        try:
            got = client.request(method, url, headers=headers, content=body)
        except httpx.HTTPError:
            return NO_RESPONSE
        fields = [[name.decode("latin-1"), value.decode("latin-1")] for name, value in got.headers.raw]
        return {"status": got.status_code, "headers": fields, "body": got.content, "is_cut_off": False}

    return ask, client.close


if __name__ == "__main__":
    sys.exit(main(*by_httpx()))
