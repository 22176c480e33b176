"""Reads pages with HTML+TIME and makes SMIL's tree of them, so that they are translated as SMIL files are.

The body is a par. An element with a timeContainer becomes that container, and one of the namespace
of time what its name says. Any other element with times becomes a text that lasts until its parent
ends, or an img, with the times; what is timed in it stands behind it, since it isn't its container.
So does an element without times whose clicks or other events begin or end something.
"""

import re
from html.parser import HTMLParser

from smil_xml import DEEPEST, Element, Fault

CONTAINERS = ("par", "seq", "excl")
ALONE = ("set", "img", "audio", "video", "animation", "ref", "media", "transitionFilter")
TIMES = ("begin", "dur", "end", "repeat", "repeatCount", "repeatDur", "min", "max", "restart", "fill", "timeAction",
         "beginWith", "beginAfter", "beginEvent", "endEvent", "syncBehavior", "class")
ENDING = ("dur", "end", "repeat", "repeatCount", "repeatDur")
REFERRING = {"beginWith": ("begin", "{}.begin"), "beginAfter": ("begin", "{}.end"), "beginEvent": ("begin", "{}"),
             "endEvent": ("end", "{}")}
SPELLINGS = {name.lower(): name for name in (
    *TIMES, "timeContainer", "timeline", "endsync", "restartDefault", "fillDefault", "targetElement", "attributeName",
    "clipBegin", "clipEnd", "syncMaster", "syncTolerance", "autoReverse", "priorityClass", "systemBitrate",
    "systemCaptions", "systemLanguage", "accessKey", "transitionFilter")}
VOID = ("area", "base", "br", "col", "embed", "hr", "img", "input", "link", "meta", "param", "source", "track", "wbr")
BLOCKS = ("p", "div", "ul", "ol", "dl", "table", "form", "hr", "h1", "h2", "h3", "h4", "h5", "h6")
CLOSING = {"li": ("li", "p"), "td": ("td", "th", "p"), "th": ("td", "th", "p"), "tr": ("tr", "td", "th", "p"),
           "dt": ("dt", "dd", "p"), "dd": ("dt", "dd", "p"), "option": ("option",),
           **dict.fromkeys(BLOCKS, ("p",))}
LONGEST_TITLE = 80
REFERRED = re.compile(r"(?:^|;)\s*([A-Za-z_][A-Za-z0-9_-]*)\.")
CLASSES = re.compile(r"(?:^|\s)time(?:\s|$)")
EVENT = re.compile(r"(^|\.)on([a-z]+)$")
MARKS = {b"\xef\xbb\xbf": "utf-8-sig", b"\xff\xfe": "utf-16", b"\xfe\xff": "utf-16"}
CHARSET = re.compile(rb"""<meta\b[^>]*\bcharset\s*=\s*["']?\s*([A-Za-z0-9._:-]+)""", re.I)


class Page(HTMLParser):
    """A page whose HTML is no XML: void and unclosed elements, names in any case. Its root is the first of `top`."""

    def __init__(self, name):
        super().__init__()
        self.name = name
        self.top = Element("", {}, 0)
        self.opened = [self.top]

    def handle_starttag(self, tag, attrs):
        """Opens an element behind those that end where it begins, as a `p` before a `div`. Raises Fault too deep."""
        name = tag.split(":")[-1]
        while tag == name and self.opened[-1].name in CLOSING.get(name, ()):
            self.close_one()
        values = {spelled(key): value or "" for key, value in attrs}
        element = Element(SPELLINGS.get(name, name), values, self.getpos()[0], tag.rpartition(":")[0])
        self.opened[-1].children.append(element)
        if tag not in VOID:
            self.opened.append(element)
        if len(self.opened) > DEEPEST:
            raise Fault(f"{self.name}:{self.getpos()[0]}: elements stand more than {DEEPEST} deep")

    def handle_startendtag(self, tag, attrs):
        """Opens an element and closes it."""
        self.handle_starttag(tag, attrs)
        if tag not in VOID:
            self.handle_endtag(tag)

    def handle_endtag(self, tag):
        """Closes the innermost open element of this name, with all in it; nothing where none is open."""
        name = SPELLINGS.get(tag.split(":")[-1], tag.split(":")[-1])
        places = [place for place, element in enumerate(self.opened) if element.name == name]
        if places and places[-1] > 0:
            while len(self.opened) > places[-1]:
                self.close_one()

    def close_one(self):
        """Closes the innermost open element, whose words are its parent's too."""
        closed = self.opened.pop()
        self.opened[-1].pieces += closed.pieces[:20]

    def handle_data(self, data):
        """Takes in words."""
        self.opened[-1].pieces.append(data)


def spelled(name):
    """The name of an attribute without its prefix, its letters as SMIL spells them."""
    front, _, last = name.rpartition(":")
    return name if front == "xml" else SPELLINGS.get(last.lower(), last)


def is_page(text):
    """Whether a text begins as HTML does."""
    return re.match(r"\s*(?:<\?xml[^>]*>\s*)?(?:<!--.*?-->\s*)*<(?:!doctype\s+html|html)\b", text, re.I | re.S)


def decoded(data):
    """The text of a page in bytes: by its byte order mark, what it says of itself, as UTF-8, or as browsers read it."""
    marked = next((encoding for mark, encoding in MARKS.items() if data.startswith(mark)), None)
    said = CHARSET.search(data[:1024])
    for encoding in (marked, said and said[1].decode(), "utf-8"):
        try:
            if encoding:
                return data.decode(encoding)
        except (LookupError, UnicodeDecodeError):
            pass
    return data.decode("cp1252", "replace")


def page(data, name):
    """The html element of a page in bytes that is no XML, or None. Raises Fault where it is too deep."""
    text = decoded(data)
    if not is_page(text):
        return None
    reader = Page(name)
    reader.feed(text)
    reader.close()
    return next((element for element in reader.top.all() if element.name == "html"), None)


def as_smil(root):
    """SMIL's tree of a page: a par with what is timed in it. None where it has no body, or nothing is timed."""
    body = next((element for element in root.children if element.name == "body"), None)
    if body is None:
        return None
    made = Timed(body).container(body, values_of(body), "par")
    return made if made.children else None


def values_of(element):
    """The attributes of an element without prefixes, those of the first HTML+TIME in the words of the second."""
    values = {}
    for written, value in element.attributes.items():
        name = spelled(written)
        if name in REFERRING:
            name, form = REFERRING[name]
            value = form.format(EVENT.sub(r"\1\2", value))
        values["timeContainer" if name == "timeline" else name] = value
    return values


class Timed:
    """What is timed in the body of a page. `referred` are the ids that its times begin with."""

    def __init__(self, body):
        self.referred = set()
        for element in body.all():
            values = values_of(element)
            for name in ("begin", "end"):
                self.referred.update(REFERRED.findall(values.get(name, "")))

    def plays(self, values):
        """Whether an element of a page with these attributes plays by itself, or is waited for."""
        times = any(name in values and (name != "class" or CLASSES.search(values[name])) for name in TIMES)
        return times or values.get("id") in self.referred

    def container(self, element, values, kind):
        """A container of this kind with what is timed in an element."""
        kept = {name: value for name, value in values.items() if name not in ("timeContainer", "class", "style")}
        made = Element(kind, kept, element.line)
        made.children = [found for child in element.children for found in self.within(child)]
        return made

    def within(self, element):
        """What plays in an element of a page, itself among it, in the order of the page."""
        values = values_of(element)
        kind = values.get("timeContainer")
        if kind in CONTAINERS:
            return [self.container(element, values, kind)]
        if element.prefix and element.name in (*CONTAINERS, "priorityClass", "switch"):
            return [self.container(element, values, element.name)]
        own = []
        if element.prefix and element.name in ALONE or element.name.startswith("animate"):
            made = Element("ref" if element.name == "media" else element.name, values, element.line)
            own = made.children = [child for child in element.children if child.name in ("set", "param")]
            shown_here = [made]
        else:
            shown_here = [shown(element, values)] if self.plays(values) else []
        return shown_here + [found for child in element.children if child not in own for found in self.within(child)]


def shown(element, values):
    """A medium that stands for an element of the page: its words are its title; it lasts where nothing ends it."""
    kept = {name: value for name, value in values.items() if name not in ("timeContainer", "class", "style", "alt")}
    if not any(name in kept for name in ENDING):
        kept["dur"] = "indefinite"
    words = element.text()[:LONGEST_TITLE]
    if words and "title" not in kept:
        kept["title"] = words
    return Element("img" if element.name == "img" else "text", kept, element.line)
