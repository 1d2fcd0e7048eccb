"""Reads a page of HTML strictly: each tag is closed, each attribute is in the sources, and each link has a target."""
import base64
import hashlib
import html
import re
from html.parser import HTMLParser
from pathlib import Path

SOURCES = Path(__file__).resolve().parent.parent / "crates" / "http_cache_show" / "src"
EMPTY = {"meta", "link", "input"}
BLOCKS = {"tr", "li", "p", "h1", "h2", "h3", "title", "summary", "pre"}
# The attributes with a number in them.
NUMBERS = {("rect", "width", "N%"), ("svg", "height", "N"), ("a", "href", "#rN"), ("tr", "id", "rN"), ("td", "data-v", "N"),
           ("h3", "data-v", "N"), ("td", "class", "c cN")}

# The letters for what became of a request, which are classes too.
LETTERS = "FVBNSYCURMEA"


def attributes_of_sources():
    """Returns the attributes in the constants of the sources, and the classes of the letters of the timeline."""
    text = "".join(path.read_text() for path in SOURCES.glob("*.rt")).replace('\\"', '"')
    return {(name.lower(), value) for name, value in re.findall(r'([A-Za-z-]+)="([^"]*)"', text)} | {("hidden", None)} | {("class", letter) for letter in LETTERS}


KNOWN = attributes_of_sources()


class Page(HTMLParser):
    """A page that is read: its faults, the texts of its blocks, its tags, its style, its script and its policy."""

    def __init__(self, text):
        super().__init__(convert_charrefs=True)
        self.faults, self.open, self.ids, self.links = [], [], [], []
        self.blocks, self.parts, self.raw, self.tags = [], [], {"style": [], "script": []}, []
        self.policy = ""
        self.feed(text)
        self.close()
        self.faults += [("not closed", tag) for tag, _ in self.open]
        self.faults += [("leads nowhere", link) for link in self.links if link not in self.ids]
        self.faults += [("twice", it) for it in set(self.ids) if self.ids.count(it) > 1] if len(set(self.ids)) < len(self.ids) else []

    def handle_starttag(self, tag, attributes):
        self.tags.append(tag)
        for name, value in attributes:
            pattern = (tag, name, re.sub(r"\d+", "N", value or ""))
            if (name, value) not in KNOWN and pattern not in NUMBERS:
                self.faults.append(("an attribute", tag, name, value))
            if name == "id":
                self.ids.append(value)
            if name == "href" and not value.startswith("data:"):
                self.links.append(value[1:] if value.startswith("#") else value)
            if name == "content" and "script-src" in value:
                self.policy = value
        if tag not in EMPTY:
            self.open.append((tag, len(self.parts)))

    def handle_startendtag(self, tag, attributes):
        self.handle_starttag(tag, attributes)
        if tag not in EMPTY:
            self.handle_endtag(tag)

    def handle_endtag(self, tag):
        if not self.open or self.open[-1][0] != tag:
            self.faults.append(("closes nothing", tag))
            return
        _, begin = self.open.pop()
        if tag in BLOCKS:
            self.blocks.append((tag, " ".join(" ".join(self.parts[begin:]).split())))

    def handle_data(self, text):
        within = self.open[-1][0] if self.open else ""
        if within in self.raw:
            self.raw[within].append(text)
        else:
            self.parts.append(text)

    def handle_comment(self, text):
        self.faults.append(("a comment", text[:80]))

    def handle_pi(self, text):
        self.faults.append(("an instruction", text[:80]))

    def text(self):
        return "".join(self.parts)


def hash_of(text):
    return "sha256-" + base64.b64encode(hashlib.sha256(text.encode()).digest()).decode()


def page_faults(text):
    """Reads a page. Returns it, and its faults."""
    page = Page(text)
    faults = page.faults
    for name, source in (("style", f"{name_of('style')}"), ("script", f"{name_of('script')}")):
        parts = page.raw[name]
        whole = "".join(parts)
        if page.tags.count(name) != 1 or f"<{name}>{whole}</{name}>" != source:
            faults.append(("not the one of the sources", name))
        if f"{name}-src '{hash_of(whole)}'" not in page.policy:
            faults.append(("not the hash of the policy", name))
    if "unsafe" in page.policy or "default-src 'none'" not in page.policy:
        faults.append(("a weak policy", page.policy))
    if re.search("[\0-\x09\x0b-\x1f\x7f-\x9f\u200b-\u200f\u2028-\u202e\u2060-\u206f\ufeff]", text):
        faults.append(("a character that isn't seen",))
    return page, faults


def name_of(name):
    """Returns the element `style` or `script` as the sources have it."""
    source = (SOURCES / f"{name}.rt").read_text()
    return source.split('r##"', 1)[1].rsplit('"##;', 1)[0]


def shown(text):
    """Returns a text as a page shows it."""
    return "".join(f"[U+{ord(c):04X}]" if is_unseen(ord(c)) else c for c in text)


def is_unseen(c):
    ranges = [(0, 0x1f), (0x7f, 0x9f), (0xad, 0xad), (0x34f, 0x34f), (0x61c, 0x61c), (0x115f, 0x1160), (0x17b4, 0x17b5),
              (0x180b, 0x180f), (0x200b, 0x200f), (0x2028, 0x202e), (0x2060, 0x206f), (0x3164, 0x3164), (0xfe00, 0xfe0f),
              (0xfeff, 0xfeff), (0xffa0, 0xffa0), (0xfff9, 0xfffb), (0x1bca0, 0x1bca3), (0x1d173, 0x1d17a), (0xe0000, 0xe0fff)]
    return any(low <= c <= high for low, high in ranges)


def escaped(text):
    """Returns a text as the file of a page has it."""
    return html.escape(shown(text), quote=True).replace("&#x27;", "&#39;")
