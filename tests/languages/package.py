"""Tests the messages, times, errors and policies of the Python package. The expected results follow from RFC 7234."""
import copy
import datetime
import doctest
import os
import pickle
import subprocess
import sys
import threading
import unittest
from decimal import Decimal
from fractions import Fraction

import http_cache_semantics as hcs
from http_cache_semantics import CachePolicy, Request, Response

START = 1704067200
PAGE = Request("GET", "/a")
UTC = datetime.timezone.utc


def policy(fields=None, options=hcs.CacheOptions(), received=START):
    return CachePolicy(PAGE, Response(200, fields or {"Cache-Control": "max-age=10"}), received, options)


class Messages(unittest.TestCase):
    def test_fields_are_pairs(self):
        one = Response(200, {"A": "1", "B": ["2", b"\xff"], "C": 3})
        self.assertEqual(one.headers, (("A", "1"), ("B", "2"), ("B", "\xff"), ("C", "3")))
        self.assertEqual(one, Response(200, [("A", "1"), ("B", "2"), ("B", b"\xff"), ("C", "3")]))
        self.assertEqual((one.get("b"), one.get_all("b")), ("2", ["2", "\xff"]))
        self.assertEqual((one.get("d"), one.get("d", "0"), one.get_all("d")), (None, "0", []))

    def test_heads(self):
        self.assertEqual(Request("GET", "/a", {"A": b"\xff"}).head(), b"GET /a HTTP/1.1\r\nA: \xff\r\n\r\n")
        self.assertEqual(Response(304).head(), b"HTTP/1.1 304 \r\n\r\n")

    def test_no_value_begins_a_field(self):
        for value in ("1\r\nB: 2", "1\nB: 2", "1\rB: 2", "1\0"):
            with self.assertRaises(hcs.Malformed):
                Request("GET", "/a", {"A": value}).head()
        for name in ("A: 1\r\nB", "A: 1", "A\nB"):
            with self.assertRaises(hcs.Malformed):
                Request("GET", "/a", {name: "1"}).head()

    def test_no_word_ends_a_request_line(self):
        for method, target in (("GET", "/a b"), ("GET", "/a\r\nB: 1"), ("GET /b", "/a"), ("", "/a"), ("GET", "")):
            with self.assertRaises(hcs.Malformed):
                Request(method, target).head()

    def test_what_the_library_does_not_read(self):
        for fields in ({"a b": "1"}, {"": "1"}, {"a": "\x7f"}):
            with self.assertRaises(hcs.Malformed):
                policy(fields)
        with self.assertRaises(hcs.Malformed):
            policy({"a": "\u2028"})

    def test_tuples_are_messages(self):
        made = CachePolicy(("GET", "/a", {}), (200, {"Cache-Control": "max-age=10"}), START)
        self.assertEqual(made, policy())
        self.assertTrue(made.fresh_at(("GET", "/a", []), START + 9))


class Times(unittest.TestCase):
    def test_kinds(self):
        zone = datetime.timezone(datetime.timedelta(hours=5))
        at = datetime.datetime(2024, 1, 1, 5, 0, 4, 250_000, tzinfo=zone)
        for now in (START + 4.25, Decimal("1704067204.25"), Fraction(START * 4 + 17, 4), at):
            self.assertEqual(policy().age_ns(now), 4_250_000_000)
        self.assertEqual(policy().age_ns(START + 4), 4_000_000_000)
        self.assertEqual(policy().age_ns(START + Fraction(1, 10**9)), 1)

    def test_before_1970(self):
        early = policy(received=Fraction(-5, 4))
        self.assertEqual(early.age_ns(datetime.datetime(1970, 1, 1, tzinfo=UTC)), 1_250_000_000)

    def test_now_is_the_default(self):
        made = CachePolicy(PAGE, Response(200, {"Cache-Control": "max-age=1000"}))
        self.assertLess(made.age(), 500)
        self.assertTrue(made.fresh_at(PAGE))

    def test_no_times(self):
        for now in (float("nan"), float("inf"), 1e30, 10**30, datetime.datetime(2024, 1, 1), 3e11):
            with self.assertRaises(hcs.BadArgument):
                policy().age(now)
        with self.assertRaises(hcs.DateNotPrintable):
            policy().before_request(PAGE, -2_300_000_000)

    def test_durations(self):
        one = policy({"Cache-Control": "max-age=10", "Age": "3"})
        self.assertEqual((one.age(START + 1.5), one.time_to_live(START + 1.5)), (4.5, 5.5))
        self.assertEqual((one.is_stale(START + 6.5), one.is_stale(START + 7)), (False, True))


class Options(unittest.TestCase):
    def test_sharing(self):
        private = {"Cache-Control": "private, max-age=10"}
        self.assertFalse(policy(private).is_storable())
        self.assertTrue(policy(private, hcs.CacheOptions(shared=False)).is_storable())

    def test_heuristic(self):
        fields = {"Date": "Mon, 01 Jan 2024 00:00:00 GMT", "Last-Modified": "Sun, 31 Dec 2023 23:58:20 GMT"}
        for heuristic, lifetime in ((Fraction(1, 10), 10), ((1, 4), 25), (1, 100), (0, 0)):
            self.assertEqual(policy(fields, hcs.CacheOptions(heuristic=heuristic)).freshness().lifetime, lifetime)

    def test_immutable(self):
        fields = {"Cache-Control": "immutable"}
        for least, lifetime in ((60, 60.0), (1.5, 1.5), (datetime.timedelta(hours=1), 3600.0)):
            options = hcs.CacheOptions(immutable_min_time_to_live=least)
            self.assertEqual(policy(fields, options).freshness().lifetime, lifetime)
        self.assertEqual(policy(fields).freshness().lifetime, 86400.0)

    def test_cargo_cult(self):
        fields = {"Cache-Control": "pre-check=0, post-check=0, no-store, max-age=10"}
        self.assertFalse(policy(fields).is_storable())
        self.assertTrue(policy(fields, hcs.CacheOptions(ignore_cargo_cult=True)).is_storable())

    def test_no_options(self):
        wrong = [("heuristic", -1), ("heuristic", (1, 2**40)), ("form", "xml"), ("immutable_min_time_to_live", -1)]
        for name, value in wrong:
            with self.assertRaises(hcs.BadArgument):
                policy(options=hcs.CacheOptions(**{name: value}))


class Policies(unittest.TestCase):
    def test_forms(self):
        for form, first in (("compact", b"\x01"), ("json", b"{")):
            made = policy(options=hcs.CacheOptions(form=form))
            self.assertEqual(made.to_bytes()[:1], first)
            read = CachePolicy.from_bytes(made.to_bytes())
            self.assertEqual((read, hash(read)), (made, hash(made)))
            self.assertEqual(read.time_to_live(START + 4), 6.0)
            self.assertEqual(pickle.loads(pickle.dumps(made)), made)
            self.assertEqual(copy.deepcopy(made), made)

    def test_no_forms(self):
        for form in (b"", b"{}", b"\x01", b"\x02", b"null", policy().to_bytes()[:-1], policy().to_bytes() + b" x"):
            with self.assertRaises(hcs.Malformed):
                CachePolicy.from_bytes(form)

    def test_a_request_that_matches_nothing_is_sent_as_it_is(self):
        asked = Request("GET", "/b", {"X": "1"})
        self.assertEqual(policy().before_request(asked, START), hcs.Stale(asked, False))

    def test_validation(self):
        tagged = policy({"Cache-Control": "max-age=10", "ETag": '"1"'})
        stale = tagged.before_request(PAGE, START + 12)
        self.assertEqual((stale.matches, stale.request.get("if-none-match")), (True, '"1"'))
        kept = tagged.after_response(PAGE, Response(304, {"ETag": '"1"'}), START + 12)
        self.assertIsInstance(kept, hcs.NotModified)
        self.assertEqual(kept.policy.time_to_live(START + 12), 10.0)
        new = tagged.after_response(PAGE, Response(200, {"Cache-Control": "no-store"}), START + 12)
        self.assertIsInstance(new, hcs.Modified)
        self.assertFalse(new.policy.is_storable())

    def test_results_longer_than_usual(self):
        large = policy({"Cache-Control": "max-age=10", "X-A": "v" * 100_000})
        self.assertEqual(len(large.response_at(START).get("x-a")), 100_000)
        renewed = large.after_response(PAGE, Response(200, {"X-B": "w" * 100_000}), START)
        self.assertEqual(renewed.response.get("x-b"), "w" * 100_000)

    def test_too_many_fields(self):
        with self.assertRaises(hcs.HeaderMapFull):
            policy([(f"x{i}", "1") for i in range(40_000)])

    def test_a_name_that_is_no_token(self):
        self.assertEqual(policy().explain(PAGE, "Example Cache", START), '"Example Cache"; hit; ttl=10')

    def test_choice(self):
        """Tests RFC 7234, sections 4 and 4.1: only matching responses, fresh ones before stale ones, the first of several."""

        def varied(language, fields):
            asked = Request("GET", "/a", {"Accept-Language": language})
            return CachePolicy(asked, Response(200, {"Vary": "Accept-Language", "X-L": language, **fields}), START)

        german = varied("de", {"Cache-Control": "max-age=10"})
        stale = varied("en", {"Cache-Control": "max-age=1"})
        english = varied("en", {"Cache-Control": "max-age=10", "Age": "3"})
        asked = Request("GET", "/a", {"Accept-Language": "en"})
        chosen = hcs.choose([german, stale, english, english], asked, START + 4)
        self.assertEqual((chosen.index, chosen.decision.response.get("age")), (2, "7"))
        chosen = hcs.choose([german, stale, english], asked, START + 8)
        self.assertEqual((chosen.index, chosen.decision.matches), (1, True))
        self.assertIsNone(hcs.choose([german, stale], Request("GET", "/a", {"Accept-Language": "fr"}), START))
        self.assertIsNone(hcs.choose([], asked, START))
        with self.assertRaises(hcs.DateNotPrintable):
            hcs.choose([german, english], asked, -2_300_000_000)

    def test_threads(self):
        made, wrong = policy(), []

        def ask(seconds):
            for _ in range(300):
                if made.fresh_at(PAGE, START + seconds) != (seconds < 10):
                    wrong.append(seconds)

        threads = [threading.Thread(target=ask, args=(seconds,)) for seconds in (1, 9, 10, 11)]
        for thread in threads:
            thread.start()
        for thread in threads:
            thread.join()
        self.assertEqual(wrong, [])


class Examples(unittest.TestCase):
    def test_examples_of_the_docs(self):
        found = doctest.testmod(hcs)
        self.assertEqual((found.failed, found.attempted > 3), (0, True))


class Loading(unittest.TestCase):
    def refused(self, library):
        program = "import http_cache_semantics; http_cache_semantics.library_version()"
        environment = {**os.environ, "HTTP_CACHE_SEMANTICS_LIBRARY": library}
        run = subprocess.run([sys.executable, "-c", program], env=environment, capture_output=True, text=True)
        self.assertEqual(run.returncode, 1)
        return run.stderr

    def test_no_library(self):
        self.assertIn("LibraryNotFound: /nowhere.so can't be loaded", self.refused("/nowhere.so"))

    def test_another_library(self):
        self.assertIn("LibraryNotFound: libc.so.6 has no hcs_new", self.refused("libc.so.6"))

    def test_causes(self):
        self.assertTrue(issubclass(hcs.Refused, ValueError))
        for cause in (hcs.Malformed, hcs.HeaderMapFull, hcs.DateNotPrintable, hcs.BadArgument):
            self.assertTrue(issubclass(cause, hcs.Refused))
        self.assertTrue(issubclass(hcs.LibraryNotFound, ImportError))


if __name__ == "__main__":
    unittest.main()
