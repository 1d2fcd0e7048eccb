"""Checks each number of a report against numbers that are worked out from the rows of another audit and from the file.

What later loads send, and what the advice saves, is worked out by a second walk over the recording, with the advised headers.
For a later visit the requests of the first load are repeated at the end of the recording, with times, Date and Expires moved.
The program makes these walks by --json-lines. The costs of their rows are added up here."""
import copy
import json
import re
import subprocess
from datetime import datetime, timedelta, timezone
from email.utils import format_datetime, parsedate_to_datetime

from costs import ASKED, FRESH, VALIDATE, Recorded, audited, header, is_same, part, sent_at, whole

DELAYS = (3600, 86400, 7 * 86400, 30 * 86400)
CONDITIONS = ("if-none-match", "if-modified-since")
ADVISED = re.compile(r"      -> (?:Cache-Control: )?(.*?)((?:, and )?an ETag)?((?:, and )?answer 304 to its ETag)?$")


def took(entry):
    """Returns how long a request took, or zero if the entry doesn't have it."""
    time = entry.get("time")
    return timedelta(milliseconds=time if isinstance(time, (int, float)) and not isinstance(time, bool) and 0 <= time < 1e12 else 0)


def is_asked(row):
    return row["verdict"] in ASKED and row.get("received") != "failed"


def kilobytes(count):
    tenths = (count + 50) // 100
    return f"{tenths // 10}.{tenths % 10} kB"


def rounded(count, unit):
    return count // unit + (2 * (count % unit) >= unit)


def duration(seconds):
    for unit, size, least in (("d", 86400, 86400), ("h", 3600, 3600), ("min", 60, 180)):
        if seconds >= least:
            return f"{rounded(seconds, size)} {unit}"
    return f"{seconds} s"


def stripped(url):
    return re.sub(r"^https?://", "", url)


def shortened(url, host):
    rest = stripped(url)
    return rest[len(host):] if rest.split("/")[0] == host else rest


def column(url, host):
    """Returns a url as it is in a column of the report, which is 33 bytes wide."""
    short = shortened(url, host)
    return short if len(short) <= 33 else short[:15] + ".." + short[-16:]


def moved(value, by):
    try:
        at = parsedate_to_datetime(value)
        return format_datetime((at.replace(tzinfo=timezone.utc) + by), usegmt=True) if value.endswith("GMT") else value
    except (TypeError, ValueError, IndexError, OverflowError):
        return value


def moved_headers(listed, by):
    """Returns headers with the first Date and the first Expires moved."""
    seen, made = set(), []
    for one in listed if isinstance(listed, list) else []:
        name = str(part(one, "name")).lower()
        if name in ("date", "expires") and name not in seen:
            seen.add(name)
            one = {**one, "value": moved(str(one.get("value")), by)}
        made.append(one)
    return made


class Session:
    """A recording, the rows of another audit, and the numbers that follow from them."""

    def __init__(self, program, words, recording, rows):
        self.program, self.words = program, words
        self.recorded = Recorded(recording, rows)
        self.rows = self.recorded.rows
        self.asked = [i for i in self.recorded.order if is_asked(self.rows[i])]
        self.repeats = [i for i in self.asked if self.recorded.is_first(i)]
        self.urls = list(dict.fromkeys(self.rows[i]["url"] for i in self.asked))
        self.sample = {}
        for i in self.asked:
            self.sample.setdefault(self.rows[i]["url"], i)
        pages = [i for i in self.recorded.order if self.recorded.page(i)]
        first = (pages or self.recorded.order)[0]
        self.host = stripped(self.rows[first].get("url", "")).split("/")[0]
        self.in_full = set(self.recorded.in_full)
        self.changing = self.changing_urls()

    def full_index(self, i):
        """Returns the index of the entry with the full response to a request, or the request's own index if there is none."""
        if self.recorded.is_full(i):
            return i
        source = self.rows[i].get("from_entry")
        return i if source is None else source

    def mark(self, url):
        entry = self.recorded.entries[self.full_index(self.sample[url])]
        return part(entry, "response", "content", "text") or header(entry, "etag") or header(entry, "last-modified")

    def changing_urls(self):
        """Returns the urls that differ only in their query and have one mark, each with its url without the query."""
        bases = {}
        for url in self.urls:
            if "?" in url:
                bases.setdefault(url.split("?")[0], []).append(url)
        found = {base: urls for base, urls in bases.items()
                 if len(urls) > 1 and len({self.mark(url) for url in urls}) == 1 and self.mark(urls[0]) is not None}
        return {url: base for base, urls in found.items() for url in urls}

    def cost(self, i, row, entries, in_full):
        """Returns the cost of a row for the request of an entry: bytes, answers 304, and responses of unknown size."""
        full = self.recorded.full(i)
        if row["verdict"] == FRESH:
            return 0, 0, 0
        if row["verdict"] == VALIDATE and self.is_confirmed(i, row, entries, in_full):
            size = None if full is None else whole(part(self.recorded.entries[full], "response", "headersSize"))
            return size or 0, 1, 0
        return (0, 0, 1) if full is None else (self.rows[full].get("sent", 0), 0, 0)

    def is_confirmed(self, i, row, entries, in_full):
        if row.get("status") == 304:
            return True
        if self.rows[i]["url"] in in_full or row.get("from_entry") is None:
            return False
        return is_same(entries[row["from_entry"]], entries[row["i"]])

    def walked(self, log):
        return {row["i"]: row for row in audited(self.program, log, self.words) if "i" in row}

    def copies(self, log, delay):
        """Returns the entries of a later visit: the requests of the first load, so many seconds after the end of the log."""
        entries = log["entries"]
        walked = [i for i in self.recorded.order if self.rows[i]["verdict"] != "skipped"]
        begun = next(sent_at(entries[i]) for i in walked if self.recorded.is_first(i))
        ended = max(sent_at(entries[i]) + took(entries[i]) for i in walked)
        by = ended - begun + timedelta(seconds=delay)
        made = []
        for i in self.repeats:
            own, full = entries[i], copy.deepcopy(entries[self.full_index(i)])
            url = own["request"]["url"]
            if self.rows[i]["url"] in self.changing:
                url += "&visit" if "?" in url else "?visit"
            asked = [one for one in part(full, "request", "headers") or [] if str(part(one, "name")).lower() not in CONDITIONS]
            full["request"] = {**full["request"], "method": own["request"]["method"], "url": url, "headers": asked}
            full["response"]["headers"] = moved_headers(full["response"].get("headers"), by)
            for name in ("text", "encoding"):
                (part(full, "response", "content") or {}).pop(name, None)
            full["startedDateTime"] = (sent_at(own) + by).astimezone(timezone.utc).isoformat()
            full["time"] = own.get("time")
            full.pop("pageref", None)
            made.append(full)
        return made

    def visit(self, log, delay, in_full):
        """Returns the cost of a visit, and for each url whether it is sent again or confirmed by a 304, and its bytes."""
        copies = self.copies(log, delay)
        entries = log["entries"] + copies
        rows = self.walked({**log, "entries": entries})
        total, acts, costs = [0, 0, 0], {}, {}
        for k, i in enumerate(self.repeats):
            row, url = rows[len(log["entries"]) + k], self.rows[i]["url"]
            cost = self.cost(i, row, entries, in_full)
            total = [a + b for a, b in zip(total, cost)]
            again, confirmed = acts.get(url, (False, False))
            acts[url] = again or (row["verdict"] != FRESH and not cost[1]), confirmed or bool(cost[1])
            costs[url] = costs.get(url, 0) + cost[0]
        return total, acts, costs

    def url_costs(self, rows, entries, in_full):
        """Returns the bytes of the requests of each url in the first load, and in later loads."""
        costs = {}
        for i in self.asked:
            both = costs.setdefault(self.rows[i]["url"], [0, 0])
            both[not self.recorded.is_first(i)] += self.cost(i, rows[i], entries, in_full)[0]
        return costs

    def later(self):
        """Returns the bytes of each url in the later loads, and how many of its requests sent some."""
        found = {}
        for i in self.asked:
            if not self.recorded.is_first(i):
                sent = self.rows[i].get("sent") or 0
                both = found.get(self.rows[i]["url"], (0, 0))
                found[self.rows[i]["url"]] = both[0] + sent, both[1] + (sent > 0)
        return found


def word(act):
    return "again" if act[0] else "304" if act[1] else "-"


def total_text(total):
    return f"{rounded(total[0], 1000)} kB + {total[1]} x 304" + (f" + {total[2]} unknown" if total[2] else "")


def advised(session, text):
    """Returns the urls that the report lists to change first, with its advice for each."""
    by_short = {}
    for url in session.urls:
        by_short.setdefault(column(url, session.host), url)
    found, lines = {}, text.splitlines()
    for before, line in zip(lines, lines[1:]):
        match = ADVISED.match(line)
        if match:
            found[by_short[before.split()[0]]] = match[1], bool(match[2]), bool(match[3])
    return found


def advised_in(found):
    """Returns all urls that have an advice in the object of --json, with the advice for each."""
    sent = [(one["url"], one["send"]) for one in [*found["changes"], *found["visited"]] if one["send"]]
    return {url: (send["cache_control"] or "", send["etag"], send["answer_304"]) for url, send in sent}


def is_by_visit(session):
    return not any(not session.recorded.is_first(i) for i in session.recorded.order if session.rows[i]["verdict"] != "skipped")


def wanted_change(session, url, visits, then, costs, costs_then, costs_alone):
    """Returns the costs of a url that the object has to have: those now, with what is advised, and with 304s alone."""
    now, after = (visits[1][2][url], then[1][2][url]) if is_by_visit(session) else (costs[url][1], costs_then[url][1])
    first = {"first_load_now": costs[url][0], "first_load_then": costs_then[url][0]}
    return {"cost_now": now, "cost_then": after, **first, "by_304_now": costs[url][1], "by_304_then": costs_alone[url][1]}


def object_faults(session, found, visits, then, costs, costs_then, costs_alone):
    """Returns how many parts of the object of --json were checked, and those with other numbers than the walks."""
    faults = []
    for one in found["changes"]:
        wanted = wanted_change(session, one["url"], visits, then, costs, costs_then, costs_alone)
        faults += [] if wanted.items() <= one.items() and one["cost_then"] < one["cost_now"] else [(one, wanted)]
    for one, seconds, now, after in zip(found["visits"], DELAYS, visits, then):
        wanted = {"after_seconds": seconds, "now": now[0], "then": after[0]}
        got = {name: list(one[name].values()) if name != "after_seconds" else one[name] for name in wanted}
        in_order = {name: [value[1], value[0], value[2]] if name != "after_seconds" else value for name, value in wanted.items()}
        faults += [] if got == in_order else [(one, wanted)]
    words = {"again": "again", "304": "304", "-": "nothing"}
    for one in found["visited"]:
        acts = [words[word(acts.get(one["url"], (False, False)))] for _, acts, _ in visits]
        faults += [] if one["visits"] == acts else [(one, acts)]
    guesses = guesses_of(session, visits)
    # Without a row that stores one of these urls, only the browser's own answers show their lifetimes.
    faults += [] if guesses is None or found["guesses"] == guesses else [(found["guesses"], guesses)]
    return len(found["changes"]) + len(found["visits"]) + len(found["visited"]) + 1, faults


def with_advice(session, advice):
    """Returns the recording with the advised headers in each response of these urls."""
    log = copy.deepcopy(session.recorded.log)
    for i, entry in enumerate(log["entries"]):
        headers = advice.get(session.rows[i].get("url"))
        if not headers or session.rows[i]["verdict"] == "skipped":
            continue
        names = (["cache-control"] if headers[0] else []) + (["etag"] if headers[1] else [])
        kept = [one for one in entry["response"].get("headers") or [] if str(part(one, "name")).lower() not in names]
        added = [{"name": "Cache-Control", "value": headers[0]}] if headers[0] else []
        added += [{"name": "ETag", "value": '"1"'}] if headers[1] else []
        entry["response"]["headers"] = kept + added
    return log


def plain(session, log):
    """Returns a recording without the queries that change."""
    log = {**log, "entries": [dict(entry) if isinstance(entry, dict) else entry for entry in log["entries"]]}
    for i, entry in enumerate(log["entries"]):
        base = session.changing.get(session.rows[i].get("url"))
        if base:
            entry["request"] = {**entry["request"], "url": entry["request"]["url"].split("?")[0]}
    return log


def pick_lines(session, advice, visits, then, costs, costs_then, costs_alone):
    """Yields the pieces of the lines on what to change first."""
    later = session.later()
    by_visit = is_by_visit(session)
    for url in advice:
        short = column(url, session.host)
        size = visits[1][2][url] if by_visit else later[url][0]
        yield [f"  {short} ", kilobytes(size)]
        saved = visits[1][2][url] - then[1][2][url] if by_visit else costs[url][1] - costs_then[url][1]
        words = f"saves {kilobytes(saved)}" if saved > 0 else "it saves nothing"
        first, alone = costs[url][0] - costs_then[url][0], costs[url][1] - costs_alone[url][1]
        words += f", and {kilobytes(first)} in the first load" if first > 0 else ""
        words += f" ({kilobytes(alone)} by the 304s alone)" if alone > 0 else ""
        yield [words]


def order_of(session, advice, visits, then, costs, costs_then):
    """Returns the urls to change first among those with an advice: at most five, for which most is saved.

    Each has at least a hundredth of all bytes, and its full response is a 200."""
    later = session.later()
    by_visit = is_by_visit(session)
    sizes = visits[1][2] if by_visit else {url: both[0] for url, both in later.items()}
    all_bytes = visits[1][0][0] if by_visit else sum(sizes.values())

    def status(url):
        return part(session.recorded.entries[session.full_index(session.sample[url])], "response", "status")

    def saved(url):
        return visits[1][2][url] - then[1][2][url] if by_visit else costs[url][1] - costs_then[url][1]

    listed = [url for url in session.urls if url in advice and sizes.get(url) and sizes[url] * 100 >= all_bytes and status(url) == 200]
    return sorted((url for url in listed if saved(url) > 0), key=lambda url: -saved(url))[:5]


def guesses_of(session, visits):
    """Returns the sums of the urls that state no lifetime, or None if there are none."""
    found = {}
    for url in session.urls:
        i = session.sample[url]
        row = session.rows[i]
        status = part(session.recorded.entries[session.full_index(i)], "response", "status")
        by, seconds = row.get("by"), row.get("new_lifetime")
        if session.recorded.is_first(i) and by == "last-modified" and seconds is not None and status < 400:
            found[url] = seconds, session.rows[session.full_index(i)].get("sent", 0)
    if not found:
        return None
    guesses, sizes = zip(*found.values())
    counts = [sum(word(acts.get(url, (0, 0))) == "304" for url in found) for _, acts, _ in visits]
    return {"urls": len(found), "bytes": sum(sizes), "least": min(guesses), "most": max(guesses), "answers_304": counts}


def guess_pieces(session, visits):
    """Returns the pieces of the line on urls that state no lifetime."""
    found = guesses_of(session, visits)
    if not found:
        return []
    counts = "".join(f"{count:<6}" for count in found["answers_304"])
    return [[f"  {found['urls']} that say no lifetime, {kilobytes(found['bytes'])}, guessed as "
             f"{duration(found['least'])} to {duration(found['most'])}; by a 304: {counts}"]]


def act_lines(session, visits, text):
    """Returns how many lines of the report on later visits were compared, and the lines that differ from the walks."""
    section = re.search(r"thirty days\n(.*?)  the whole page: ", text, re.S)
    by_short = {column(url, session.host): url for url in reversed(session.urls)}
    count, faults = 0, []
    for line in section[1].splitlines() if section else []:
        url = by_short.get(line.split()[0])
        if url is None:
            continue
        wanted = "".join(f"{word(acts.get(url, (False, False))):<6}" for _, acts, _ in visits)
        size = kilobytes(session.rows[session.full_index(session.sample[url])].get("sent", 0))
        count += 1
        faults += [] if wanted in line and size in line else [(line, size, wanted)]
    return count, faults


def query_pieces(session, log, in_full):
    """Returns the pieces of the lines on changing queries: what later loads save without them, if other advice is taken."""
    cut = plain(session, log)
    rows, rows_cut = session.walked(log), session.walked(cut)
    made = []
    for base in sorted(set(session.changing.values())):
        urls = [url for url, of in session.changing.items() if of == base]
        later = [i for i in session.asked if not session.recorded.is_first(i) and session.rows[i]["url"].split("?")[0] == base]
        before = sum(session.cost(i, rows[i], log["entries"], in_full)[0] for i in later)
        after = sum(session.cost(i, rows_cut[i], cut["entries"], in_full)[0] for i in later)
        saved = f" (saves {kilobytes(before - after)})" if before > after else ""
        made.append([f"  {column(base, session.host)} ", f"{len(urls)} urls, one response -> leave the query out{saved}"])
    return made[:12]


def apart_word(row):
    """Returns the words for a request that isn't judged."""
    words = {"internal": "redirected by the browser", "preflight": "preflights", "range": "by Range"}
    if row["verdict"] == "skipped":
        return row["reason"]
    return row["method"] if row["verdict"] == "passed" else words.get(row["verdict"], "failed or aborted")


def apart_lines(session):
    """Returns the lines on what isn't judged: how many requests there are of each kind, and their bytes."""
    found = {}
    for i in session.recorded.order:
        row = session.rows[i]
        if not is_asked(row):
            both = found.setdefault(apart_word(row), [0, 0])
            both[0] += 1
            both[1] += row.get("sent") or 0
    return [[f"  {number} {word}" + (f" ({kilobytes(size)})" if size else "")] for word, (number, size) in found.items()]


def hit_pieces(session):
    """Returns the piece on how many repeated requests need nothing, and what that saves."""
    rows = [session.rows[i] for i in session.asked]
    fresh, repeated = sum(row["verdict"] == FRESH for row in rows), sum(bool(row.get("repeated")) for row in rows)
    saved = sum(row.get("saved") or 0 for row in rows if row["verdict"] == FRESH)
    part = (200 * fresh + repeated) // (2 * repeated) if repeated else 0
    return [[f"  {fresh} of {repeated} repeated requests need nothing ({part} %), which saves {rounded(saved, 1000)} kB"]]


def kept(row):
    """Returns what a cache does with the response of a row, or an empty text if it received none."""
    if row.get("received") in ("stored", "updated", "updated other"):
        return f"{duration(row['new_lifetime'])} by {row['by']}"
    return "not stored: " + ", ".join(row["reasons"]) if row.get("received") == "not storable" else ""


def both_pieces(session, others):
    """Returns the pieces of the lines on urls that the two kinds of cache store differently, the largest first."""
    found = []
    for url in session.urls:
        i = session.sample[url]
        own, other = kept(session.rows[i]), kept(others[i])
        if own and other and own != other:
            found.append((-session.rows[session.full_index(i)].get("sent", 0), url, own, other))
    ordered = sorted(found, key=lambda one: one[0])[:12]
    return [[f"  {column(url, session.host)} ", own, other] for _, url, own, other in ordered]


def order_pieces(session, advice, visits, text):
    """Returns the pieces of the lines on what is in order. The urls that look wrong are read from the report."""
    section = re.search(r"\nLOOKS WRONG\n(.*?)\n\n", text + "\n\n", re.S)
    wrong = {line.split()[0] for line in section[1].splitlines()} if section else set()
    wrong_more = bool(section and "more: --lines" in section[1])
    later = session.later()
    made = []
    for url in session.urls if not wrong_more else []:
        i = session.sample[url]
        row, short = session.rows[i], column(url, session.host)
        if url in advice or short in wrong or not session.recorded.is_first(i) or row.get("received") not in ("stored", "updated"):
            continue
        acts = [acts.get(url, (False, False)) for _, acts, _ in visits]
        size, number = later.get(url, (0, 0))
        each = f" ({kilobytes(size // number)})" if number and size // number else ""
        if row["by"] == "no-cache" and acts[1] == (False, True):
            made.append(["no-cache, and answered by a 304: ", short + each])
        elif row["by"] not in ("no-cache", "last-modified") and not any(any(act) for act in acts):
            made.append(["nothing is asked for thirty days: ", short])
    return made if len(made) <= 12 else []


def visit_faults(program, recordings):
    """Returns how many lines were checked, and the faults.

    A recording is its name, its bytes, the words of the command line, and the rows of another audit."""
    count, faults = 0, []
    recordings = list(recordings)
    walks = {(name.split(".")[0], tuple(words)): {row["i"]: row for row in rows} for name, _, words, rows in recordings}
    for name, recording, words, rows in recordings:
        others = walks.get((name.split(".")[0], () if words == ["--private"] else ("--private",)), {})
        words = words or ["--shared"]
        session = Session(program, words, recording, rows)
        if not session.repeats:
            continue
        text = subprocess.run([program, *words], input=recording, capture_output=True, timeout=60).stdout.decode()
        log, entries = session.recorded.log, session.recorded.entries
        visits = [session.visit(log, delay, session.in_full) for delay in DELAYS]
        found = json.loads(subprocess.run([program, "--json", *words], input=recording, capture_output=True, timeout=60).stdout)
        advice, every = advised(session, text), advised_in(found)
        faults += [(name, "the object has other advice", url) for url in advice if every.get(url) != advice[url]]
        changed = with_advice(session, every)
        still = session.in_full - {url for url, headers in every.items() if headers[2]}
        then = [session.visit(changed, delay, still) for delay in DELAYS]
        rows_now, rows_then = session.walked(log), session.walked(changed)
        costs = session.url_costs(rows_now, entries, session.in_full)
        costs_then = session.url_costs(rows_then, changed["entries"], still)
        costs_alone = session.url_costs(rows_now, entries, still)
        wanted = [["the whole page: " + "".join("  " + total_text(total) for total, _, _ in visits)],
                  ["with what is advised: " + "".join("  " + total_text(total) for total, _, _ in then)],
                  *pick_lines(session, advice, visits, then, costs, costs_then, costs_alone),
                  *guess_pieces(session, visits), *query_pieces(session, changed, still), *apart_lines(session), *hit_pieces(session),
                  *(both_pieces(session, others) if "--ignore-request-no-cache" not in words else []),
                  *order_pieces(session, advice, visits, text)]
        lines = text.splitlines()
        count += len(wanted) + 1
        faults += [(name, pieces) for pieces in wanted if not any(all(piece in line for piece in pieces) for line in lines)]
        first = order_of(session, every, visits, then, costs, costs_then)
        faults += [(name, list(advice), first)] if list(advice) != first else []
        for checked, wrong in (act_lines(session, visits, text), object_faults(session, found, visits, then, costs, costs_then, costs_alone)):
            count += checked
            faults += [(name, *one) for one in wrong]
    return count, faults
