"""Runs the scenarios of `requests` with a plain session, with CacheAdapter and with CacheControl, with the program $CACHESERVE.

With CacheAdapter a program sees what it sees with a plain session, but for what caching changes. Each scenario runs twice on a
session: first the origin server's responses are compared, and then stored ones, whose fields are compared by name and value."""
import logging
import unittest

import requests
from http_cache_semantics.adapter import CacheAdapter
from requests_scenarios import SCENARIOS
from scenario_origin import answer
from stream_origin import StreamOrigin

try:
    from cachecontrol import CacheControlAdapter
except ImportError:
    CacheControlAdapter = None

# What caching adds to a response, and what a stored response doesn't have.
ADDED = ("cache-status", "age")
OF_CONNECTION = ("connection", "transfer-encoding")
ONCE_SENT = ("reason", "version", "cookies")
# Here the second run differs, since a stored response has no chunks.
WITH_CHUNKS = {"pieces", "raw bytes"}
# Here the first run has stored responses, too.
STORED_AT_ONCE = {"conditional"}
# CacheControl answers a conditional request with the whole page.
UNLIKE_CACHECONTROL = {"conditional"}


def comparable(facts, is_stored):
    """Returns facts without what caching changes."""
    if isinstance(facts, (list, tuple)):
        return [comparable(fact, is_stored) for fact in facts]
    if not isinstance(facts, dict):
        return facts
    kept = {}
    for name, fact in facts.items():
        if name in ("fields", "headers"):
            kept[name] = comparable_fields(fact if name == "fields" else fact.items(), is_stored)
        elif not (is_stored and name in ONCE_SENT):
            kept[name] = comparable(fact, is_stored)
    return kept


def comparable_fields(fields, is_stored):
    fields = [(name, value) for name, value in fields if name.lower() not in ADDED]
    if not is_stored:
        return fields
    joined = {}
    for name, value in fields:
        if name.lower() not in OF_CONNECTION:
            joined.setdefault(name.lower(), []).append(" ".join(value.split()))
    return {name: ", ".join(values) for name, values in joined.items()}


def requests_of(asked):
    """Returns requests without what differs from one run to another, and without validators."""
    others = ("authorization", "if-none-match")

    def kept(request):
        return [field for field in request["headers"] if field[0].lower() not in others]

    return [{**request, "headers": kept(request)} for request in asked]


class Scenarios(unittest.TestCase):
    maxDiff = 2000

    @classmethod
    def setUpClass(cls):
        logging.getLogger("http_cache_semantics").setLevel(logging.CRITICAL)
        cls.origin = StreamOrigin(answer)
        cls.plain = {name: cls.facts(name, None, 2) for name in SCENARIOS}

    @classmethod
    def tearDownClass(cls):
        cls.origin.stop()

    @classmethod
    def facts(cls, name, adapter, runs):
        """Returns the facts of a scenario in each run, and the requests that the origin server has seen."""
        with requests.Session() as session:
            session.trust_env = False
            if adapter:
                session.mount("http://", adapter)
            start = len(cls.origin.asked)
            facts = [SCENARIOS[name](session, cls.origin.base) for _ in range(runs)]
            return facts, requests_of(cls.origin.asked[start:])

    def test_with_cacheadapter(self):
        for name in SCENARIOS:
            with self.subTest(name):
                (facts, asked), (wanted, asked_plainly) = self.facts(name, CacheAdapter(), 2), self.plain[name]
                for run in range(1 if name in WITH_CHUNKS else 2):
                    is_stored = run > 0 or name in STORED_AT_ONCE
                    self.assertEqual(comparable(facts[run], is_stored), comparable(wanted[run], is_stored), f"in run {run}")
                self.assertEqual([request for request in asked if request not in asked_plainly], [])

    @unittest.skipUnless(CacheControlAdapter, "no python3-cachecontrol")
    def test_with_cachecontrol(self):
        unlike = set()
        for name, (wanted, _) in self.plain.items():
            facts, _ = self.facts(name, CacheControlAdapter(), 1)
            if comparable(facts[0], False) != comparable(wanted[0], False):
                unlike.add(name)
        self.assertEqual(unlike, UNLIKE_CACHECONTROL)


if __name__ == "__main__":
    if CacheControlAdapter is None:
        print("left out: scenarios of requests with CacheControl: no python3-cachecontrol")
    unittest.main()
