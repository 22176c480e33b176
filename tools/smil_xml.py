"""Reads XML files as trees of elements, each with its line and the text in it."""

import html
import re
from xml.parsers import expat

DEEPEST = 400


class Fault(Exception):
    """Why a file can't be read or written, as one line that begins with its name."""


class Element:
    """An element of a file. `text` is what stands in it and below it, white space as it is."""

    def __init__(self, name, attributes, line, prefix=""):
        self.name = name
        self.prefix = prefix
        self.attributes = attributes
        self.line = line
        self.children = []
        self.pieces = []

    def text(self):
        """The words in the element and below it, with one space between them."""
        return " ".join(" ".join(self.pieces).split())

    def all(self):
        """The element and all below it, in the order of the file."""
        waiting = [self]
        while waiting:
            element = waiting.pop()
            yield element
            waiting.extend(reversed(element.children))


def read_xml(data, name):
    """The root element of an XML text in bytes. Prefixes of element names are dropped, those of attributes stay.

    Raises Fault, which begins with `name`, where it can't be read.
    """
    try:
        return parsed(data, name)
    except (ValueError, LookupError):
        return parsed(decoded(data, name), name)
    except expat.ExpatError as fault:
        if fault.code == 18:
            return parsed(decoded(data, name), name)
        raise Fault(f"{name}:{fault.lineno}: no XML: {expat.ErrorString(fault.code)}") from None


def decoded(data, name):
    """The text of a file in an encoding that expat doesn't know. Raises Fault where Python doesn't know it either."""
    match = re.match(rb"""\s*<\?xml[^>]*encoding=["']([A-Za-z0-9._-]+)["']""", data)
    try:
        return data.decode(match[1].decode() if match else "utf-8")
    except (LookupError, UnicodeDecodeError):
        raise Fault(f"{name}:1: the encoding {match[1].decode() if match else 'utf-8'} can't be read") from None


class Growth:
    """The elements of a file as a parser tells of them, below one without a name."""

    def __init__(self, parser, name):
        self.parser = parser
        self.name = name
        self.top = Element("", {}, 0)
        self.opened = [self.top]
        self.last = None  # the element that the last words stood in, and nothing has begun or ended since
        parser.StartElementHandler = self.start
        parser.EndElementHandler = self.end
        parser.CharacterDataHandler = self.words
        parser.SkippedEntityHandler = self.skipped

    def start(self, tag, attributes):
        """Opens an element. Raises Fault where it is nested too deep."""
        self.last = None
        line = self.parser.CurrentLineNumber
        if len(self.opened) > DEEPEST:
            raise Fault(f"{self.name}:{line}: elements stand more than {DEEPEST} deep")
        prefix, _, local = tag.rpartition(":")
        element = Element(local, attributes, line, prefix)
        self.opened[-1].children.append(element)
        self.opened.append(element)

    def end(self, _):
        """Closes the innermost open element, whose words are its parent's too."""
        self.last = None
        closed = self.opened.pop()
        self.opened[-1].pieces += closed.pieces[:20]

    def words(self, piece):
        """Takes in words, behind those that came right before them in the same element."""
        if self.last is self.opened[-1]:
            self.last.pieces[-1] += piece
        else:
            self.last = self.opened[-1]
            self.last.pieces.append(piece)

    def skipped(self, entity, is_parameter):
        """Takes in the words of an entity that the file doesn't define, as HTML does."""
        if not is_parameter:
            self.words(html.unescape(f"&{entity};"))


def parsed(text, name):
    """The root element of a text or of bytes. Raises Fault where it is no XML, or nested too deep."""
    parser = expat.ParserCreate()
    parser.buffer_text = True
    growth = Growth(parser, name)
    if isinstance(text, str):
        text = re.sub(r"""^(\s*<\?xml[^>]*?)\s+encoding=["'][^"']*["']""", r"\1", text)
    try:
        parser.Parse(text, True)
    except expat.ExpatError as fault:
        if fault.code == 18:
            raise
        raise Fault(f"{name}:{fault.lineno}: no XML: {expat.ErrorString(fault.code)}") from None
    return growth.top.children[0]
