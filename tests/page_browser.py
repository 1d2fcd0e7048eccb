"""Opens pages in Chromium, if it is installed. No page may send a request or run a text of a recording. Each page has to be
readable without scripts and in a narrow window."""
import re
import shutil
import subprocess
import tempfile
from pathlib import Path

NAMES = ["chromium", "chromium-browser", "google-chrome"]
FLAGS = ["--headless", "--no-sandbox", "--disable-gpu", "--hide-scrollbars", "--disable-background-networking", "--disable-sync",
         "--no-first-run", "--disable-component-update", "--virtual-time-budget=3000", "--enable-logging=stderr",
         "--allow-file-access-from-files", "--host-resolver-rules=MAP * ~NOTFOUND"]
# The requests that Chromium sends by itself. They fail, since no name is resolved.
OWN = r"https?://[a-z0-9.-]*\.(?:google|googleapis|gvt1)\.com/"
# A page that shows another one in a narrow frame and in a frame without scripts. Its title is set to four values. Two are
# widths in the first frame. The others are the number of elements, and whether the tools are hidden, in the second.
FRAMES = """<!DOCTYPE html><title>-</title><iframe id="narrow" width="360" height="900" src="page.html"></iframe>
<iframe id="still" sandbox="allow-same-origin" src="page.html"></iframe><script>
onload = function () {
  var page = function (id) { return document.getElementById(id).contentDocument; };
  var narrow = page("narrow").documentElement, still = page("still");
  var count = still.querySelectorAll("tr,li,td,th,p,h1,h2,h3,style").length;
  document.title = narrow.scrollWidth + " " + narrow.clientWidth + " " + count + " " + still.getElementById("tools").hidden;
};</script>"""


def browser():
    return next(filter(None, map(shutil.which, NAMES)), None)


def opened(program, path, folder):
    """Opens a page. Returns its tree, the lines of the console, and the URLs of its requests."""
    log = Path(folder) / "net.json"
    words = [program, *FLAGS, f"--user-data-dir={folder}/profile", f"--log-net-log={log}", "--dump-dom", path.as_uri()]
    ended = subprocess.run(words, capture_output=True, timeout=120)
    messages = [line for line in ended.stderr.decode(errors="replace").splitlines() if "CONSOLE" in line]
    asked = re.findall(r'"url":"((?!file:|data:|chrome)[^"]*)"', log.read_text(errors="replace")) if log.exists() else ["no log"]
    asked = [url for url in asked if not re.match(OWN, url)]
    return ended.stdout.decode(errors="replace"), messages, asked


def elements(text):
    return len(re.findall(r"<(?:tr|li|td|th|p|h1|h2|h3|style)\b", text.split("<script>")[0]))


def title(text):
    return re.search(r"<title>(.*?)</title>", text, re.DOTALL)[1]


def faults_of(program, name, text):
    faults = []
    with tempfile.TemporaryDirectory() as folder:
        path = Path(folder) / "page.html"
        path.write_text(text)
        (Path(folder) / "frames.html").write_text(FRAMES)
        tree, messages, asked = opened(program, path, folder)
        faults += [(name, "the console", line) for line in messages] + [(name, "asked for", url) for url in asked]
        if title(tree) != title(text):
            faults.append((name, "another title", title(tree)))
        if tree.count("<script") != 1 or "<table class=\"all\"" not in tree or 'aria-sort="ascending"' not in tree and "<button" not in tree:
            faults.append((name, "the script didn't run, or another did"))
        frames, _, _ = opened(program, Path(folder) / "frames.html", folder)
        found = title(frames).split()
        if len(found) != 4 or int(found[0]) > int(found[1]):
            faults.append((name, "scrolls sideways", found))
        if found[2:] != [str(elements(text)), "true"]:
            faults.append((name, "other elements without a script", found, elements(text)))
    return faults


def browser_faults(pages):
    """Returns how many answers were checked, and the faults. A page is its name and its text."""
    program = browser()
    if program is None:
        print("left out: pages in a browser, since Chromium isn't installed")
        return 0, []
    return 5 * len(pages), [fault for name, text in pages for fault in faults_of(program, name, text)]
