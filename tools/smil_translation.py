"""Makes the outline of a SMIL file: its nodes with their attributes, and a warning for each thing left out."""

import re
from dataclasses import dataclass, replace
from urllib.parse import urljoin

from smil_clock import clip_moment
from smil_names import Names
from smil_tests import READ, Tests, id_of, is_test, modern, tests_of
from smil_values import LONGEST_LIST, TEXTS, Values, within

CONTAINERS = ("par", "seq", "excl")
MEDIA = ("img", "text", "brush", "audio", "video", "animation", "textstream", "ref")
CONTINUOUS = ("audio", "video", "animation", "textstream", "ref")
KINDS = (*CONTAINERS, "priorityClass", *MEDIA, "set")
SILENT = ("metadata", "meta", "param", "desc", "head", "layout", "customAttributes", "title")
TIMING = ("begin", "dur", "end", "min", "max", "repeatCount", "repeatDur", "restart", "fill", "restartDefault",
          "fillDefault")
ENDING = ("end", "dur", "repeatCount", "repeatDur", "repeat")
ORDER = ("id", *READ, *TIMING, "endsync", "peers", "higher", "lower", *TEXTS, "targetElement", "attributeName", "to")
LEFT_OUT = {
    "speed": "time manipulations are left out", "accelerate": "time manipulations are left out",
    "decelerate": "time manipulations are left out", "autoReverse": "time manipulations are left out",
    "syncBehavior": "nothing slips", "syncTolerance": "nothing slips", "syncMaster": "nothing slips",
    "syncBehaviorDefault": "nothing slips", "syncToleranceDefault": "nothing slips",
    "pauseDisplay": "left out", "expr": "left out; the element is always taken", "endsync": "left out on this element",
    "timeContainer": "left out", "timeAction": "left out", "mediaRepeat": "left out",
}
CLIPS = {"clipBegin": ("clipBegin", "clip-begin"), "clipEnd": ("clipEnd", "clip-end")}
NODES, REFERENCES, LONGEST_LINE, DEPTHS = 8000, 32000, 16384, 32
LISTS = re.compile(r' (?:begin|end)="([^"]*)"')
REFERENCE = re.compile(r"(?:^|;)(?![ \t+-]*[0-9]|indefinite)[^;]")


@dataclass(frozen=True)
class Place:
    """Where a node comes to stand.

    `depth` is its level in the outline, from 0, and `switches` how many switches stand above it;
    `parent` is the kind of its time parent, None for the root; sources are joined to `base`;
    `chosen` says that its parent in the outline is a switch.
    """

    depth: int = 0
    switches: int = 0
    parent: str | None = None
    base: str = ""
    chosen: bool = False

    def below(self, kind, base):
        """The place of the children of a node of this kind that stands here."""
        if kind == "switch":
            return replace(self, depth=self.depth + 1, switches=self.switches + 1, base=base, chosen=True)
        return Place(self.depth + 1, self.switches, kind, base)


class Translation:
    """The outline of one file, as it is made.

    `lines` are its node lines; `warnings` have a line of the file, an element's name and a sentence;
    `clips` are dictionaries: element, source, and begin and end in the media in milliseconds, None
    for an end that the file doesn't say. `start` is a smil_wall.Start or None; `spoken` makes a ref
    of each text without sound; `base` is the address of the file.
    """

    def __init__(self, tests=None, start=None, spoken=False, base=""):
        self.tests = tests or Tests()
        self.start = start
        self.spoken = spoken
        self.base = base
        self.lines = []
        self.warnings = []
        self.clips = []
        self.names = None
        self.values = None
        self.fills = True

    def warn(self, element, what):
        """Keeps a warning of an element."""
        self.warnings.append((element.line, element.name, what))

    # ---- the whole

    def document(self, root):
        """Makes the outline of a root element. False where it has no body, and is no par, seq or excl itself."""
        body = next((child for child in root.children if child.name == "body"), None) if root.name == "smil" else root
        if body is None or body.name not in ("body", *CONTAINERS):
            return False
        self.names = Names(root)
        for element, written, chosen in self.names.changed:
            self.warn(element, f'id "{written}" is written {chosen}')
        self.values = Values(self.names, self.start, self.warn)
        self.fills = not any("fillDefault" in element.attributes for element in root.all())
        self.tests.declare(root)
        base = address(self.base, root.attributes.get("xml:base", ""))
        self.node(body, "seq" if body.name == "body" else body.name, self.top(root, body, base))
        self.missing()
        return True

    def top(self, root, body, base):
        """The place of the body. Where there are wall clock items to keep, the root gets an id and has no begin."""
        if self.start is None or not has_wall_clock(root):
            return Place(base=base)
        if "begin" not in body.attributes:
            if id_of(body) is None:
                body.attributes["id"] = self.names.new("seq" if body.name == "body" else body.name)
            return Place(base=base)
        self.warn(body, "stands in a par of its own, since wall clock times are counted from a root without begin")
        top = self.names.new("par")
        self.names.used.add(top)
        self.lines.append(f'par id="{top}"')
        return Place(1, 0, "par", base)

    def missing(self):
        """Names what refers to an id that the outline doesn't have."""
        for element, what, name in self.values.referred:
            if name not in self.names.used:
                self.warn(element, f"{what}: the outline has no {name}, so this never comes")

    def misfit(self):
        """Why the outline would be refused as a whole, or None. Of a switch the largest choice counts."""
        would = "could" if any(line.split()[0] == "switch" for line in self.lines) else "would"
        nodes = largest(self.lines, lambda line: 1)
        references = largest(self.lines, references_in)
        if nodes > NODES:
            return f"the outline {would} have {nodes} nodes, and {NODES} is the limit"
        if references > REFERENCES:
            return f"the outline {would} have {references} references, and {REFERENCES} is the limit"
        return None

    # ---- nodes

    def node(self, element, kind, place):
        """Writes an element as a node of this kind, with all below it."""
        base = address(place.base, element.attributes.get("xml:base", ""))
        inner = [child for child in element.children if child.name == "set"] if kind in MEDIA else []
        wrapped = bool(inner) and (place.parent != "par" or place.chosen)
        if place.depth - place.switches + wrapped >= DEPTHS:
            self.warn(element, f"left out, with all below it: deeper than {DEPTHS} levels")
            return
        values = self.attributes(element, kind, place.parent, base)
        if wrapped:
            place = self.wrap(element, values, place)
        self.write(element, kind, values, place.depth)
        for child in inner:
            self.beside(child, values, place.depth, base)
        if kind in MEDIA or kind == "set":
            self.childless(element, kind, inner)
        else:
            self.children(element, kind, place.below(kind, base))

    def childless(self, element, kind, inner):
        """Warns of children that a media element or a set can't have here, but for those in `inner`."""
        for child in element.children:
            if child.name not in SILENT and child not in inner:
                self.warn(child, f"left out: {kind} has no children here")

    def wrap(self, element, values, place):
        """Writes a par for a media element and its sets, which takes over when it begins; gives their place."""
        moved = {name: values.pop(name) for name in ("begin", "restart", *READ) if name in values}
        kept = {"fill": values["fill"]} if "fill" in values else {}
        self.write(element, "par", {**moved, "endsync": values["id"], **kept}, place.depth)
        self.warn(element, "stands in a par of its own, with the set in it")
        return place.below("par", place.base)

    def write(self, element, kind, values, depth):
        """Writes a node line; a text that makes it too long is left out."""
        def line():
            return "  " * depth + " ".join([kind, *(f'{name}="{values[name]}"' for name in ORDER if name in values)])
        for name in ("src", "title", "alt", "to", "region"):
            if len(line().encode()) > LONGEST_LINE and values.pop(name, None) is not None:
                what = f"{name}: left out, since the line would have more than {LONGEST_LINE} bytes"
                self.warnings.append((element.line, kind, what))
        self.lines.append(line())

    def beside(self, element, media, depth, base):
        """Writes a set that stands within a media element beside it, timed and chosen by it.

        `media` are the values of the media element.
        """
        values = self.attributes(element, "set", "media", base)
        values.setdefault("targetElement", media["id"])
        plain = self.names.reference(media["id"])
        begin = ";".join(within(item, plain) for item in values.get("begin", "0s").split(";"))
        end = [within(item, plain) for item in values["end"].split(";")] if "end" in values else []
        values.update(begin=begin, end=";".join([*end, f"{plain}.end"][:LONGEST_LIST]))
        tests = {name: media[name] for name in READ if name in media}
        self.write(element, "set", {**tests, **values}, depth)

    def children(self, element, kind, place):
        """Writes the children of a node at a place; strays beside a priorityClass come into a class of their own."""
        children = self.taken(element)
        mixed = kind == "excl" and any(name == "priorityClass" for _, name in children)
        for child, name in children:
            if name == "priorityClass" and place.parent != "excl":
                self.warn(child, "left out: a priorityClass stands in an excl")
            elif mixed and name != "priorityClass":
                self.warn(child, "stands beside a priorityClass, and comes into one of its own")
                self.lines.append("  " * place.depth + "priorityClass")
                self.node(child, name, place.below("priorityClass", place.base))
            else:
                self.node(child, name, place)

    # ---- what is taken

    def taken(self, element):
        """The children that come into the outline, each with its kind there; of a link in a switch the first."""
        pairs = []
        for child in element.children:
            found = self.kept(child, element) if self.passes(child) else []
            pairs += found[:1] if element.name == "switch" else found
        return pairs

    def kept(self, child, parent):
        """What comes into the outline for one child, as `taken` has it."""
        if child.name == "text" and self.spoken and is_alone(child, parent):
            self.warn(child, "has no sound: it becomes a ref; tell its length by a media order")
            return [(child, "ref")]
        if child.name in KINDS:
            return [(child, child.name)]
        if child.name == "a":
            self.warn(child, "the link is left out, what stands in it stays")
            hand_down_tests(child)
            return self.taken(child)
        if child.name == "switch":
            return [(child, "switch")] if self.is_open(child) else self.choice(child)
        if child.name == "smilText":
            self.warn(child, "becomes a textstream; tell its length by a media order")
            return [(child, "textstream")]
        if child.name not in SILENT:
            self.warn(child, "left out")
        return []

    def passes(self, element):
        """Whether the tests on an element hold, as far as something decides them."""
        failed = self.tests.failed(element)
        if failed:
            self.warn(element, f"left out: {failed}")
        return failed is None

    def is_open(self, switch):
        """Whether smilplay is to choose in a switch: a test on it or on what stands in it is kept."""
        return any(self.tests.kept(element) for element in (switch, *switch.children))

    def choice(self, element):
        """The one child of a switch that is taken: the first whose tests hold."""
        decided = []
        for place, child in enumerate(element.children):
            decided += [self.tests.decides(*test) for test in tests_of(child)]
            found = [] if self.tests.failed(child) else self.kept(child, element)[:1]
            if found and not (decided and all(decided)):
                line = found[0][0].line
                self.warn(element, f"its first child is taken, the {found[0][0].name} in line {line}" if place == 0
                          else f"the {found[0][0].name} in line {line} is taken")
            if found:
                return found
        return []

    # ---- attributes

    def attributes(self, element, kind, parent, base):
        """The attributes that a node has in the outline, by their names."""
        values = self.tests.kept(element)
        for name, value in element.attributes.items():
            if name in ("id", "xml:id"):
                values["id"] = self.names.plain(id_of(element))
            elif name == "repeat" and is_of(kind, "repeatCount"):
                self.warn(element, "repeat is written repeatCount")
                values["repeatCount"] = self.values.read(element, "repeatCount", value, parent)
            elif is_of(kind, name):
                value = address(base, value) if name == "src" else value
                values[name] = self.values.read(element, name, value, parent)
            else:
                self.stray(element, name, value)
        self.identify(element, kind, values)
        if kind in CONTINUOUS:
            self.clip(element, kind, values)
        return {name: value for name, value in values.items() if value is not None}

    def stray(self, element, name, value):
        """Warns of an attribute that doesn't come into the outline, where it bears on timing."""
        if name in LEFT_OUT:
            self.warn(element, f"{name}: {LEFT_OUT[name]}")
        elif is_test(name):
            if not self.tests.decides(name, value) and not self.tests.keeps(name, value):
                self.warn(element, f"{name}: left out; the test counts as passed")
        elif name in (*TIMING, "repeat"):
            self.warn(element, f"{name}: left out on this element")

    def identify(self, element, kind, values):
        """Gives a node its id: one that stands twice goes, and media elements without one get a new one."""
        if values.get("id") in self.names.used:
            self.warn(element, f'id "{values.pop("id")}" stands twice, and is left out here')
        if "id" not in values and kind in MEDIA:
            values["id"] = self.names.new(kind)
        if "id" in values:
            self.names.used.add(values["id"])

    # ---- clips

    def clip(self, element, kind, values):
        """Gives a clip its length as `dur`, and keeps its place in the media.

        A clip that isn't sound gets `fill="freeze"` too where its `auto` would mean another fill with
        the `dur` than without it.
        """
        begin, end = (self.clip_moment(element, name) for name in ("clipBegin", "clipEnd"))
        if begin is None and end is None:
            return
        begin = begin or 0
        self.clips.append({"element": values["id"], "source": values.get("src"), "begin": begin, "end": end})
        if values.get("dur") not in (None, "media"):
            return
        if end is None:
            self.warn(element, "the clip has no end: tell its length by a media order")
        elif end < begin:
            self.warn(element, "the clip ends before it begins; its length is left out")
        else:
            if kind != "audio" and self.fills and not any(name in values for name in (*ENDING, "fill")):
                values["fill"] = "freeze"
            values["dur"] = f"{end - begin}ms"

    def clip_moment(self, element, name):
        """The milliseconds of clipBegin or clipEnd by any of its spellings, None where there is none."""
        spelling = next((spelling for spelling in CLIPS[name] if spelling in element.attributes), None)
        if spelling is None:
            return None
        moment = clip_moment(element.attributes[spelling])
        if moment is None:
            self.warn(element, f'{spelling}="{element.attributes[spelling]}": left out')
        return moment


def is_of(kind, name):
    """Whether a kind has the attribute in an outline, its id and tests aside."""
    if kind in ("priorityClass", "switch"):
        return kind == "priorityClass" and name in ("peers", "higher", "lower")
    if name in ("targetElement", "attributeName", "to"):
        return kind == "set"
    if name == "endsync":
        return kind in ("par", "excl")
    return name in TIMING or name == "title" or (name in TEXTS and kind != "set")


def address(base, reference):
    """Where a reference leads from a base; the reference itself where they can't be joined."""
    try:
        return urljoin(base, reference)
    except ValueError:
        return reference


def is_alone(child, parent):
    """Whether a child of a par stands there with nothing that has a length."""
    return parent.name == "par" and not any(other.name in (*CONTINUOUS, *CONTAINERS) for other in parent.children)


def hand_down_tests(link):
    """Gives the tests of a link to what stands in it; a test of the same name there stays."""
    tests = {modern(name): value for name, value in link.attributes.items() if is_test(name)}
    for child in link.children:
        own = {modern(name) for name in child.attributes}
        child.attributes.update({name: value for name, value in tests.items() if name not in own})


def has_wall_clock(root):
    """Whether a begin or end list of a file has a wall clock item."""
    return any("wallclock(" in element.attributes.get(name, "") for element in root.all() for name in ("begin", "end"))


def references_in(line):
    """How many items of a node line's lists are neither offsets nor `indefinite`."""
    return sum(len(REFERENCE.findall(value)) for value in LISTS.findall(line))


def largest(lines, count_of):
    """The greatest sum of `count_of` over the lines of an outline that one choice in its switches can have."""
    totals, kinds = [0], [""]
    for line in [*lines, ""]:
        depth = (len(line) - len(line.lstrip(" "))) // 2
        while len(totals) > depth + 1:
            below, kind = totals.pop(), kinds.pop()
            totals[-1] = max(totals[-1], below) if kinds[-1] == "switch" else totals[-1] + below
        kinds.append(line.split()[0] if line else "")
        totals.append(count_of(line) if line and kinds[-1] != "switch" else 0)
    return totals[0]
