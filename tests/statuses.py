"""Checks the exit statuses of cacheaudit, and what it writes on standard error."""
import gzip
import json
import re
import resource
import subprocess
import tempfile
import zlib
from pathlib import Path

EXAMPLE = Path(__file__).resolve().parent.parent / "examples" / "session.har"
OPTIONS = ["--private", "--shared", "--heuristic", "--lines", "--json", "--json-lines", "--by-url", "--no-query", "--ignore-request-no-cache", "--with",
           "--fail-under"]
# The last words of command lines that bin/cacheaudit refuses by itself.
EARLY = ["--lins", "-", "b.har", "--heuristic"]
UNKNOWN = "cacheaudit: unknown argument '{}'; --help lists them\n"
NOT_TEXT = "cacheaudit: an argument isn't UTF-8; --help lists them\n"
NO_VALUE = "cacheaudit: {}: no value; --help lists them\n"
FRACTION = "cacheaudit: --heuristic: not a fraction N/D: '{}'\n"
TOGETHER = "cacheaudit: {} and {} can't be used together\n"
NOTHING = "cacheaudit: no entry was audited\n"
CHANGE = "cacheaudit: --with: "
RATE = "cacheaudit: --fail-under: not a whole number from 0 to 100: '{}'\n"
FEW = "cacheaudit: 4 of 13 repeated requests are hits, fewer than {} %\n"
LIMIT = 48 << 20


def hostile_changes(recording):
    """Returns runs with hostile changes of headers, in the form of `runs`."""
    return [
        (["--with", "*" * 5000 + ": ETag: a"], recording, 0, ""),
        (["--with", "*a" * 5000 + "b: ETag: a"], recording, 0, ""),
        (["--with", "h*" * 50 + ": Vary: *"], recording, 0, ""),
        (["--with", "\x1b[2J\u202e*: ETag: a"], recording, 0, ""),
        (["--with", ": ETag: a"], recording, 0, ""),
        (["--with", "*: ETag: " + "x" * 100_000], recording, 0, ""),
        (["--with", "*: Vary: " + "*," * 2_000], recording, 0, ""),
        (["--with", "*: ETag: \u00e9\u202e"], recording, 0, ""),
        (["--with", "*: Content-Length: -1"], recording, 0, ""),
        (["--with", "*: Date: Fri, 31 Dec 9999 23:59:59 GMT"], recording, 0, ""),
        (["--with", "*: Cache-Control: max-age=" + "9" * 1000], recording, 0, ""),
        (["--with", "*: ETag: a\r\nSet-Cookie: b=1"], recording, 64, CHANGE + "not a header value: '*: ETag: a??Set-Cookie: b=1'\n"),
        (["--with", "*: ETag: \x7f"], recording, 64, CHANGE + "not a header value: '*: ETag: ?'\n"),
        (["--with", "*: Cache-Control\r\nX: y: 1"], recording, 64, CHANGE + "not a header name: '*: Cache-Control??X: y: 1'\n"),
        (["--with", "*: \u00e9: 1"], recording, 64, CHANGE + "not a header name: '*: ??: 1'\n"),
        (["--with", "*: " + "a" * 100_000 + ": b"], recording, 64, CHANGE + f"not a header name: '*: {'a' * 95}..{'a' * 97}: b'\n"),
        (["--with", b"*: ETag: \xff"], recording, 64, NOT_TEXT),
        (["--\x1b[2J\u202e\nx"], recording, 64, UNKNOWN.format("--?[2J????x")),
    ]


def runs():
    """Returns runs: the words of a command line, the input, the status, and what is written on standard error."""
    text = EXAMPLE.read_text()
    bytes_of = EXAMPLE.read_bytes()
    fault = "cacheaudit: recording: "
    compressed = fault + "compressed; unpack it first, as by gunzip\n"
    utf16 = fault + "UTF-16; save it as UTF-8 first\n"
    return [
        ([], bytes_of, 0, ""),
        ([], b"", 2, fault + "empty\n"),
        ([], gzip.compress(bytes_of), 2, compressed),
        *[([], zlib.compress(bytes_of, level), 2, compressed) for level in (0, 1, 6, 9)],
        *[([], text.encode(form), 2, utf16) for form in ("utf-16", "utf-16-le", "utf-16-be")],
        ([], b"\xfe\xff" + text.encode("utf-16-be"), 2, utf16),
        ([], b"[" * 128 + b"]" * 128, 2, fault + "nested too deeply at line 1, column 1"),
        ([], b"[\n\n" + b"[" * 127 + b"]" * 128, 2, fault + "nested too deeply at line 3, column 12"),
        ([], b'["' + b"[" * 128 + b'"]', 1, NOTHING),
        ([], b"[" * 127 + b"]" * 127, 1, NOTHING),
        ([], b"[\n1e400]", 2, fault + "a number out of range at line 2, column "),
        ([], b"[1e300]", 1, NOTHING),
        ([], b"{", 2, fault + "not JSON at line 1, column 1\n"),
        ([], b'[\n"\xff"]', 2, fault + "not JSON at line 2, column "),
        ([], b'{"log":{}}', 2, fault + "no list of entries at log.entries, nor at entries\n"),
        ([], b'{"log":{"entries":{}}}', 2, fault + "no list of entries at log.entries, nor at entries\n"),
        ([], b"[]", 1, NOTHING),
        ([], b"HTTP/1.1 20 OK\r\n\r\n", 2, "cacheaudit: heads: not a response head at line 1\n"),
        ([], b"HTTP/1.1 100 \r\n\r\n", 2, "cacheaudit: heads: no response head\n"),
        *[(words, b"HTTP/1.1 200 \r\n\r\n", 0, "") for words in ([], ["--lines"], ["--fail-under", "50"], ["--with", "*: ETag:"])],
        (["--json-lines"], b'{"entries":[1,null]}', 1, NOTHING),
        (["--lins"], b"", 64, UNKNOWN.format("--lins")),
        (["-"], b"", 64, UNKNOWN.format("-")),
        ([str(EXAMPLE), "b.har"], b"", 64, "cacheaudit: a second file: 'b.har'\n"),
        (["--heuristic"], b"", 64, NO_VALUE.format("--heuristic")),
        (["--heuristic", "1/0"], b"", 64, FRACTION.format("1/0")),
        (["--heuristic", "1"], b"", 64, FRACTION.format("1")),
        (["--with"], b"", 64, NO_VALUE.format("--with")),
        (["--with", "*: ETag"], b"", 64, CHANGE + "not `PATTERN: HEADER: VALUE`: '*: ETag'\n"),
        (["--with", "*"], b"", 64, CHANGE + "not `PATTERN: HEADER: VALUE`: '*'\n"),
        (["--with", "*: E Tag: x"], b"", 64, CHANGE + "not a header name: '*: E Tag: x'\n"),
        (["--with", "*: : x"], b"", 64, CHANGE + "not a header name: '*: : x'\n"),
        (["--with", "*: ETag: a\nb"], b"", 64, CHANGE + "not a header value: '*: ETag: a?b'\n"),
        (["--with", "*: ETag:"], bytes_of, 0, ""),
        (["--with", "*: ETag: : "], bytes_of, 0, ""),
        (["--with", "*: ETag:", "--with", "a: b: c"], b"[]", 1, NOTHING),
        *hostile_changes(bytes_of),
        (["--fail-under", "101"], b"", 64, RATE.format("101")),
        (["--fail-under", "-1"], b"", 64, RATE.format("-1")),
        (["--fail-under", "60 "], b"", 64, RATE.format("60 ")),
        (["--fail-under"], b"", 64, NO_VALUE.format("--fail-under")),
        (["--fail-under", "1", "--with", "*: ETag:"], bytes_of, 64, TOGETHER.format("--with", "--fail-under")),
        (["--lines", "--fail-under", "30"], bytes_of, 0, ""),
        (["--shared", "--fail-under", "31"], bytes_of, 4, FEW.format(31)),
        (["--private", "--fail-under", "31"], bytes_of, 0, ""),
        (["--fail-under", "100"], b"[]", 1, NOTHING),
        (["--by-url"], bytes_of, 0, ""),
        (["--by-url"], b"[]", 1, NOTHING),
        (["--by-url", "--fail-under", "1"], bytes_of, 64, TOGETHER.format("--by-url", "--fail-under")),
        (["--by-url", "--with", "*: ETag:"], bytes_of, 64, TOGETHER.format("--by-url", "--with")),
        ([str(EXAMPLE.parent / "nothing.har")], b"", 2, f"cacheaudit: {EXAMPLE.parent}/nothing.har: "),
        ([str(EXAMPLE.parent)], b"", 2, "cacheaudit: "),
        (["\x1b[2J\n\u202e.har"], b"", 2, "cacheaudit: ?[2J????.har: "),
    ]


def ended(program, words, given):
    return subprocess.run([program, *words], input=given, capture_output=True, timeout=60)


def is_ended_so(run, status, error):
    """Returns whether a run has the status and prints the error. An error without a line end is only the line's beginning."""
    text = run.stderr.decode()
    if status == 2 and run.stdout or text.count("\n") != (status != 0):
        return False
    return run.returncode == status and (text == error or not error.endswith("\n") and error and text.startswith(error))


def option_faults(program):
    """Checks --help, --version, other forms of a recording, and options. Returns how many checks there were, and the faults."""
    log = json.loads(EXAMPLE.read_text())["log"]
    forms = [b"\xef\xbb\xbf" + EXAMPLE.read_bytes(), json.dumps(log).encode(), json.dumps(log["entries"]).encode()]
    usage = ended(program, ["--help", "--nothing"], b"")
    version = ended(program, ["--version"], b"")
    example = ended(program, ["--lines"], EXAMPLE.read_bytes())
    report = ended(program, [], EXAMPLE.read_bytes())
    checks = [
        ("help", usage.returncode == 0 and not usage.stderr and all(word.encode() in usage.stdout for word in OPTIONS)),
        ("version", version.returncode == 0 and re.fullmatch(rb"cacheaudit \d+\.\d+\.\d+\n", version.stdout)),
        ("forms", all(ended(program, ["--lines"], form).stdout == example.stdout for form in forms)),
        ("file", ended(program, ["--lines", str(EXAMPLE)], b"").stdout == example.stdout != b""),
        ("shared", ended(program, ["--lines", "--shared"], EXAMPLE.read_bytes()).stdout == example.stdout),
        ("private", ended(program, ["--lines", "--private"], EXAMPLE.read_bytes()).stdout != example.stdout),
        ("the last of two", ended(program, ["--lines", "--private", "--shared"], EXAMPLE.read_bytes()).stdout == example.stdout),
        ("a report", report.stdout and report.stdout != example.stdout),
        ("a report of a browser's", ended(program, ["--private"], EXAMPLE.read_bytes()).stdout == report.stdout),
        ("a report of a CDN's", ended(program, ["--shared"], EXAMPLE.read_bytes()).stdout != report.stdout),
    ]
    return len(checks), [("options", name) for name, holds in checks if not holds]


def limit():
    resource.setrlimit(resource.RLIMIT_AS, (LIMIT, LIMIT))


def without_memory(program):
    """Checks a run that has no memory for its input. Returns a count, and the faults.

    A build with a memory checker doesn't start under the limit, so the run is left out."""
    if subprocess.run([program, "--version"], capture_output=True, preexec_fn=limit).returncode != 0:
        return 1, []
    with tempfile.TemporaryFile() as file:
        file.write(b"[" + b" " * (2 * LIMIT) + b"]")
        file.seek(0)
        run = subprocess.run([program], stdin=file, capture_output=True, preexec_fn=limit, timeout=60)
    texts = ("cacheaudit: out of memory\n", "cacheaudit: recording: out of memory\n")
    is_so = any(is_ended_so(run, 3, text) for text in texts)
    return 1, [] if is_so else [("out of memory", run.returncode, run.stderr)]


def early_faults():
    """Checks that bin/cacheaudit refuses words without the program, within two seconds, and by the program's line."""
    command, faults = EXAMPLE.parent.parent / "bin" / "cacheaudit", []
    for words, _, status, error in (run for run in runs() if run[2] == 64 and run[0][-1] in EARLY):
        run = subprocess.run([command, *words], input=b"", capture_output=True, timeout=2)
        if not is_ended_so(run, status, error):
            faults.append(("bin/cacheaudit", words, run.returncode, run.stderr, "wanted", error))
    return len(EARLY), faults


def status_faults(program):
    """Returns how many runs and checks there are, and the faults."""
    counted = [option_faults(program), without_memory(program), early_faults()]
    faults = [fault for _, some in counted for fault in some]
    wanted = runs()
    for words, given, status, error in wanted:
        run = ended(program, words, given)
        if not is_ended_so(run, status, error):
            faults.append(("status", words, given[:40], run.returncode, run.stderr, "wanted", status, error))
    return len(wanted) + sum(number for number, _ in counted), faults
