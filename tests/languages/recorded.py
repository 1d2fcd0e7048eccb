"""Runs the recorded scripts of crates/vectors/stdin by the shared library and by the Rust crate.

A field value of a head has no blanks at its ends. So such blanks are removed from messages, from the recorded answers and from
the answers that are compared with them."""
import json
import subprocess
from fractions import Fraction
from pathlib import Path

import http_cache_semantics as hcs
from http_cache_semantics._library import library
from http_cache_semantics._messages import request_from

ROOT = Path(__file__).resolve().parent.parent.parent
BLANKS = " \t"
# The numbers of scripts whose answers depend on a blank at an end of a value, such as of an Age. No head can have it.
BY_BLANKS = {118, 144, 174, 176, 179, 234, 263}


def messages_of(script):
    steps = [step for step in script["steps"] if step != "restart"]
    found = [script["request"], script["response"]]
    for step in steps:
        found += [step[name] for name in ("ask", "receive", "response") if name in step]
    return found


def has_blank_ends(script):
    values = [value for message in messages_of(script) for _, value in message["headers"]]
    return any(value != value.strip(BLANKS) for value in values)


def recorded():
    """Returns each script whose messages can be sent as heads, with its number and its answer."""
    lines = (ROOT / "crates/vectors/stdin").read_text(encoding="utf-8").splitlines()
    every = [(number, json.loads(line)) for number, line in enumerate(lines, 1)]
    assert all(has_blank_ends(it["script"]) for number, it in every if number in BY_BLANKS)
    return [(number, it["script"], it["answer"]) for number, it in every if number not in BY_BLANKS]


def trimmed_line(line):
    name, colon, value = line.partition(": ")
    if not colon or not line.startswith("  "):
        return line
    return f"{name}: {bytes.fromhex(value).strip(BLANKS.encode()).hex()}"


def trimmed(answer):
    return [trimmed_line(line) for line in answer]


def fields_of(message):
    return [(name, value.encode().strip(BLANKS.encode())) for name, value in message["headers"]]


def request_in(message):
    return hcs.Request(message["method"], message["uri"].encode().decode("latin-1"), fields_of(message))


def response_in(message):
    return hcs.Response(message["status"], fields_of(message))


def exact(time):
    return Fraction(time[0]) + Fraction(time[1], 10**9)


def field_lines(message):
    """Returns the lines of a message's fields, in the order of their names."""
    in_order = sorted(message.headers, key=lambda pair: pair[0])
    return [f"  {name}: {value.encode('latin-1').hex()}" for name, value in in_order]


class Replay:
    """A run of a script by the Python package. Before each step the policy is stored and read back."""

    def __init__(self, script, form):
        chosen = script["options"]
        self.script = script
        self.options = hcs.CacheOptions(
            shared=chosen["shared"],
            heuristic=tuple(chosen["cache_heuristic"]),
            immutable_min_time_to_live=exact(chosen["immutable_min_time_to_live"]),
            ignore_cargo_cult=chosen["ignore_cargo_cult"],
            form=form,
        )
        self.lines = []

    def run(self):
        now = exact(self.script["received"])
        request, response = request_in(self.script["request"]), response_in(self.script["response"])
        self.policy = hcs.CachePolicy(request, response, now, self.options)
        seconds, nanoseconds = divmod(self.policy.time_to_live_ns(now), 10**9)
        self.lines.append(f"storable {self.word(self.policy.is_storable())} ttl {seconds}.{nanoseconds:09}")
        self.state(now)
        for step in self.script["steps"]:
            self.step(step)
        return self.lines

    def step(self, step):
        self.policy = hcs.CachePolicy.from_bytes(self.policy.to_bytes(), self.options)
        if step == "restart":
            self.lines.append("restarted")
            return
        now = exact(step["at"])
        if "ask" in step:
            self.ask(request_in(step["ask"]), now)
        else:
            self.receive(request_in(step["receive"]), response_in(step["response"]), now)
        self.state(now)

    @staticmethod
    def word(truth):
        return "true" if truth else "false"

    def state(self, now):
        policy = self.policy
        storable, stale = self.word(policy.is_storable()), self.word(policy.is_stale(now))
        age, left = policy.age_ns(now), policy.time_to_live_ns(now)
        self.lines.append(f"  state storable {storable} age {age} ttl {left} stale {stale}")

    def unmatched(self, request, now):
        """Returns the request that the library writes if nothing matches. The package returns the client's request instead."""
        head, at = request.head(), hcs._options.time_struct(now)
        code, out = self.policy._filled("hcs_before", head, len(head), at)
        return request_from(out) if code == 2 else None

    def ask(self, request, now):
        found = self.policy.before_request(request, now)
        if isinstance(found, hcs.Fresh):
            self.lines.append(f"fresh age {found.response.get('age')}")
            self.lines += [f"  status {found.response.status}", *field_lines(found.response)]
            return
        sent = found.request if found.matches else self.unmatched(request, now)
        self.lines.append(f"stale matches {self.word(found.matches)}")
        self.lines += [f"  method {sent.method}", f"  target {sent.target}", *field_lines(sent)]

    def receive(self, request, response, now):
        found = self.policy.after_response(request, response, now)
        word = "not-modified" if isinstance(found, hcs.NotModified) else "modified"
        self.lines.append(f"{word} status {found.response.status}")
        self.lines += [f"  status {found.response.status}", *field_lines(found.response)]
        self.policy = found.policy


def difference(number, got, wanted):
    """Returns a list with a message if an answer differs from the recorded one, else an empty list."""
    got, wanted = trimmed(got), trimmed(wanted)
    if got == wanted:
        return []
    at = next((i for i, pair in enumerate(zip(got, wanted)) if pair[0] != pair[1]), min(len(got), len(wanted)))
    return [f"script {number}, line {at + 1}: wanted {wanted[at:at + 1]}, got {got[at:at + 1]}"]


def through_the_library(form):
    """Returns the differences of scripts by the shared library, with stored forms of one kind."""
    assert library().hcs_version() > 0
    differ = []
    for number, script, answer in recorded():
        try:
            got = Replay(script, form).run()
        except (ValueError, MemoryError) as e:
            got = [repr(e)]
        differ += difference(number, got, answer)
    return differ


def commands_of(message, first):
    yield first
    for name, value in fields_of(message):
        yield f"field {name.encode().hex()} {value.hex()}"


def request_commands(message):
    return commands_of(message, f"request {message['method']} {message['uri']}")


def response_commands(message):
    return commands_of(message, f"response {message['status']}")


def time_command(time):
    return f"time {time[0]} {time[1]}"


def rust_commands(script):
    """Yields the commands of a script for rust/examples/replay.rs."""
    chosen = script["options"]
    numbers = [chosen["shared"], chosen["ignore_cargo_cult"], *chosen["cache_heuristic"]]
    numbers += chosen["immutable_min_time_to_live"]
    yield " ".join(["options", *(str(int(number)) for number in numbers)])
    yield from request_commands(script["request"])
    yield from response_commands(script["response"])
    yield from (time_command(script["received"]), "new")
    for step in script["steps"]:
        yield "restart"
        if step == "restart":
            continue
        yield from request_commands(step.get("ask") or step["receive"])
        if "response" in step:
            yield from response_commands(step["response"])
        yield from (time_command(step["at"]), "ask" if "ask" in step else "receive")


def after_restarts(script, answer):
    """Yields the recorded lines with a restart before each step that isn't a restart."""
    lines = [line for line in answer if line != "restarted"]
    steps = iter(script["steps"])
    for line in lines:
        if not line.startswith(" ") and not line.startswith("storable "):
            yield from restarts_before(steps)
        yield line
    yield from ("restarted" for _ in steps)


def restarts_before(steps):
    for step in steps:
        yield "restarted"
        if step != "restart":
            return


def through_rust(program):
    """Returns the differences of scripts by the Rust crate."""
    differ = []
    for number, script, answer in recorded():
        given = "\n".join(rust_commands(script)) + "\n"
        ended = subprocess.run([program], input=given, capture_output=True, text=True, timeout=60)
        got = ended.stdout.splitlines() if ended.returncode == 0 else [ended.stderr[-300:]]
        differ += difference(number, got, list(after_restarts(script, answer)))
    return differ
