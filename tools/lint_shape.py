"""Says why a line is no node line: which cause, and at which byte, counted from 1."""

import difflib
import re

from transcript import KINDS

OTHER_NAMES = {"picture": "img", "image": "img", "photo": "img", "sound": "audio", "music": "audio", "movie": "video",
               "film": "video", "sequence": "seq", "parallel": "par", "exclusive": "excl", "div": "par", "p": "text",
               "caption": "text", "subtitle": "text", "animate": "set"}
LEFT_OUT = ("switch", "prefetch", "smilText", "body")
QUOTES = "\u201c\u201d\u201e\u2018\u2019\u00ab\u00bb"
NAME = re.compile(r'[^\s"=\']+')


def cause_of(line, saved=False):
    """The place of the fault in a node line, in characters from 0, and a sentence; None where there is none.

    `saved` says that the outline has serials.
    """
    if line.strip(" ") == "%%":
        return 0, "the outline has no node"
    front = len(line) - len(line.lstrip(" \t"))
    text = line[front:]
    return of_front(line[:front], text) or of_kind(front, text) or of_attributes(line, front, saved)


def is_no_node(line):
    """Whether a line in bytes begins as a comment or as XML; it may be refused for its depth then."""
    return line.lstrip(b" \t").startswith((b"#", b"//", b"/*", b"--", b";", b"<"))


def of_front(indentation, text):
    """The fault of what a line begins with, as `cause_of` gives it."""
    if text.startswith("<"):
        return len(indentation), "this is XML, and an outline has none; tools/smil2outline.py makes one of a SMIL file"
    if text.startswith(("#", "//", "/*", "--", ";")):
        return len(indentation), "a comment is a line of its own, with # at its first byte"
    if "\t" in indentation:
        return indentation.index("\t"), "a tab stands before the node; each level is two spaces"
    if len(indentation) % 2:
        stand = "space stands" if len(indentation) == 1 else "spaces stand"
        return 0, f"{len(indentation)} {stand} before the node; each level is two"
    if re.match(r"outline(?: |$)", text):
        return len(indentation), "the header of an outline with serials is its first line, as `outline 2 next 8`"
    return None


def of_kind(front, text):
    """The fault of the kind of a node, as `cause_of` gives it."""
    kind = re.split(r"[ \t]", text, maxsplit=1)[0]
    if kind in (*KINDS, *LEFT_OUT):
        return None
    if "=" in kind or '"' in kind:
        return front, "no kind stands before the attributes, as par or img"
    right = next((known for known in KINDS if known.lower() == kind.lower()), None)
    if right:
        return front, f"{kind} is written {right}; case counts"
    word = re.match(r"[A-Za-z]*", kind)[0]
    near = OTHER_NAMES.get(word.lower()) or next(iter(difflib.get_close_matches(word, KINDS, 1)), None)
    hint = f"{near} is meant, perhaps" if near else f"there are {', '.join(KINDS)}"
    return front, f"no kind is called {kind}; {hint}"


def of_attributes(line, front, saved):
    """The fault of what stands behind the kind, as `cause_of` gives it."""
    place = front + len(re.match(r"[^ \t]*", line[front:])[0])
    serial = re.match(r" +#[1-9][0-9]{0,8}(?= |$)", line[place:])
    if saved and not serial:
        return place, "this outline has serials: behind the kind stands # and a number"
    place += len(serial[0]) if saved and serial else 0
    names = set()
    while line[place:].strip(" "):
        fault = of_gap(line, place)
        start = place + len(line[place:]) - len(line[place:].lstrip(" "))
        name = NAME.match(line, start)
        fault = fault or of_one(line, start, name)
        if fault:
            return fault
        if name[0] in names:
            return start, f"the attribute {name[0]} stands twice"
        names.add(name[0])
        place = line.index('"', line.index('"', name.end()) + 1) + 1
    return None


def of_gap(line, place):
    """The fault of what parts two attributes, the first of which ends at a place."""
    gap = re.match(r"[ \t]*", line[place:])[0]
    rest = line[place + len(gap):]
    if "\t" in gap:
        return place + gap.index("\t"), "a tab stands here; spaces alone part attributes"
    if rest.startswith(("#", "//", "<!--", "/*")) and not re.match(r"#[0-9]+(?: |$)", rest):
        return place + len(gap), "a comment is a line of its own, with # at its first byte"
    if re.match(r"#[0-9]+(?: |$)", rest):
        return place + len(gap), "a serial stands here, and only an outline that begins `outline 2 next N` has those"
    if rest.startswith(("/>", ">")):
        return place + len(gap), "this is XML; a node line has no angle brackets"
    if rest.startswith((",", ";")):
        return place + len(gap), "spaces alone part attributes"
    if not gap:
        return place, "a space is missing before this attribute"
    return None


def of_one(line, start, name):
    """The fault of the attribute at a place, whose name was matched there."""
    if name is None:
        return start, "an attribute is missing here: a name, an equals sign, and a value in double quotes"
    rest = line[name.end():]
    spaced = re.match(r"[ \t]*=[ \t]*", rest)
    if not spaced:
        return start, f"{name[0]} has no value: an attribute is a name, an equals sign, and a value in double quotes"
    behind = rest[spaced.end():]
    if spaced[0] != "=" and behind[:1] in ('"', "'", *QUOTES):
        return name.end() + (0 if rest[0] in " \t" else 1), "no space may stand around the equals sign"
    if behind.startswith("'"):
        return name.end() + spaced.end(), "the value stands in single quotes; double quotes are wanted"
    if behind[:1] and behind[0] in QUOTES:
        return name.end() + spaced.end(), "the value stands in typographic quotes; straight double quotes are wanted"
    if not behind.startswith('"'):
        return name.end() + spaced.end(), "the value has no quotes; double quotes are wanted"
    if '"' not in behind[1:]:
        return name.end() + spaced.end(), "the double quote at the end of the value is missing"
    return None
