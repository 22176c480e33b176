"""Warns of what a document surely doesn't mean: references that lead nowhere, elements that never begin, and those
that end where they begin. Each warning is for the document as it is loaded; an edit may change it."""

import re

from smil_clock import CLOCK, milliseconds

WORD = r"[A-Za-z_](?:[A-Za-z0-9_]|\\[.-])*"
OFFSET = re.compile(rf"([+-]?)[ \t]*({CLOCK})$")
SYNC = re.compile(rf"({WORD})\.(begin|end)(?![A-Za-z0-9_])")
REPEAT = re.compile(rf"(?:({WORD})\.)?repeat\(([0-9]+)\)")
KEY = re.compile(r"access[kK]ey\((.)\)")
EVENT = re.compile(rf"(?:({WORD})\.)?([A-Za-z_][A-Za-z0-9_]*)")
DISCRETE = ("img", "text", "brush")
CONTAINERS = ("par", "seq", "excl")


class Item:
    """An item of a begin or end list.

    `kind` is offset, indefinite, wallclock, sync, repeat, key or event; `base` an id or None; `what`
    begin or end of a sync, a number of a repeat, a key, an event's name, or the milliseconds of an offset.
    """

    def __init__(self, text):
        self.text = text.strip(" \t")
        self.kind, self.base, self.what = self.read()

    def read(self):
        """The kind, the base and what it is about."""
        text = self.text
        offset = OFFSET.match(text)
        if offset:
            return "offset", None, milliseconds(offset[2]) * (-1 if offset[1] == "-" else 1)
        if text == "indefinite" or text.startswith("wallclock("):
            return text.split("(")[0], None, None
        for kind, form in (("sync", SYNC), ("repeat", REPEAT)):
            match = form.match(text)
            if match:
                return kind, plain(match[1]), match[2]
        key = KEY.match(text)
        if key:
            return "key", None, key[1]
        match = EVENT.match(text)
        return "event", plain(match[1]) if match else None, match[2] if match else text


def plain(reference):
    """The id that a reference means, None of None."""
    return None if reference is None else reference.replace("\\", "")


def items_of(node, name):
    """The items of a node's begin or end list; of none where it has no such list."""
    return [Item(text) for text in node.attributes[name].split(";")] if name in node.attributes else []


class Remark:
    """Something to be said of a node: the attribute that it is about, or None, and a sentence."""

    def __init__(self, node, attribute, sentence):
        self.node = node
        self.attribute = attribute
        self.sentence = sentence


def warnings_of(document):
    """The warnings of a document as session.Document has it, in its order."""
    nodes = list(document.ordered())
    begins = Beginnings(document, nodes)
    found = []
    for node in nodes:
        found += lost_references(document, node)
        never = begins.why_never(node)
        if never:
            found.append(Remark(node, "begin" if "begin" in node.attributes else None, f"it never begins: {never}"))
        elif begins.can_begin[node]:
            short = why_short(node)
            if short:
                found.append(Remark(node, None, f"it ends where it begins: {short}"))
    return found


def lost_references(document, node):
    """Warnings of the references of a node to ids that no element has."""
    for name in ("begin", "end"):
        for item in items_of(node, name):
            if item.base is not None and item.base not in document.ids:
                yield Remark(node, name, f"no element has the id {item.base}, so {item.text} never comes")
    target = node.attributes.get("targetElement", "").strip(" \t")
    if target and target not in document.ids:
        yield Remark(node, "targetElement", f"no element has the id {target}, so nothing is set")
    child = node.attributes.get("endsync", "").strip(" \t")
    if child not in ("", "first", "last", "all") and child not in map(name_of, time_children(node)):
        yield Remark(node, "endsync", f"no child has the id {child}, so the last end counts")


def name_of(node):
    """The id of a node, None where it has none."""
    return node.attributes.get("id")


class Beginnings:
    """Which elements of a document can begin: what follows from offsets, keys and events, and what waits for those."""

    def __init__(self, document, nodes):
        self.document = document
        self.before = {node: other for parent in nodes for other, node in zip(parent.children, parent.children[1:])}
        self.can_begin = {node: False for node in nodes}
        changed = True
        while changed:
            changed = False
            for node in nodes:
                if not self.can_begin[node] and self.why_not(node) is None:
                    self.can_begin[node] = changed = True

    def why_never(self, node):
        """Why a node never begins, None where it can or where its parent never does either."""
        parent = parent_of(node)
        if self.can_begin[node] or node.kind == "priorityClass" or (parent and not self.can_begin[parent]):
            return None
        return self.why_not(node)

    def why_not(self, node):
        """Why a node doesn't begin by what is known so far to begin, None where it does."""
        parent = parent_of(node)
        if node.kind == "priorityClass" or parent is None:
            return None
        if not self.can_begin[parent]:
            return "what it stands in never begins"
        if parent.kind == "seq":
            return self.why_not_in_seq(node, parent)
        if "begin" not in node.attributes:
            return "a child of an excl waits for its begin list, and it has none" if parent.kind == "excl" else None
        items = items_of(node, "begin")
        if any(self.comes(node, item) for item in items):
            return why_ended_before(node, items)
        if all(item.kind == "indefinite" for item in items):
            return "its begin is indefinite, and no order begins an element"
        return "what its begin waits for never comes"

    def why_not_in_seq(self, node, parent):
        """The same for a child of a seq, which waits for the end of the one before it."""
        before = self.before.get(node)
        if before is None:
            return None
        if not self.can_begin[before]:
            return "the element before it in the seq never begins"
        return "the element before it in the seq never ends" if never_ends(before) else None

    def comes(self, node, item):
        """Whether an item of a node's begin list can give a time."""
        if item.kind == "indefinite":
            return False
        base = node if item.base is None else self.document.nodes.get(self.document.ids.get(item.base))
        if item.kind in ("sync", "repeat"):
            return base is not None and self.can_begin[base]
        return base is not None


def parent_of(node):
    """The time parent of a node: a priorityClass has none of its own, and hands on the excl above it."""
    parent = node.parent
    return parent.parent if parent is not None and parent.kind == "priorityClass" else parent


def why_ended_before(node, items):
    """Why a node with a begin doesn't begin after all: each end that it has comes before each begin."""
    ends = items_of(node, "end")
    if not ends or any(item.kind != "offset" for item in [*items, *ends]):
        return None
    if max(item.what for item in ends) < min(item.what for item in items):
        return "each of its ends comes before each of its begins"
    return None


def time_children(node):
    """The children of a node; those of a priorityClass in its place."""
    parts = [child.children if child.kind == "priorityClass" else [child] for child in node.children]
    return [child for part in parts for child in part]


def clock_of(node, name):
    """The milliseconds of a clock value, None where the node has another value there or none."""
    value = node.attributes.get(name, "").strip(" \t")
    return milliseconds(value) if re.match(CLOCK + "$", value) else None


def never_ends(node):
    """Whether an element surely plays on until what it stands in ends."""
    if "end" in node.attributes or clock_of(node, "repeatDur") is not None or clock_of(node, "max") is not None:
        return False
    words = [node.attributes.get(name, "").strip(" \t") for name in ("dur", "repeatCount", "repeatDur")]
    if clock_of(node, "dur") == 0:
        return False
    return words[0] == "indefinite" or (bool(clock_of(node, "dur")) and "indefinite" in words[1:])


def why_short(node):
    """Why each interval of a node has the length 0, None where one may be longer."""
    if node.kind == "priorityClass" or clock_of(node, "min"):
        return None
    if clock_of(node, "max") == 0:
        return "its max is 0"
    if clock_of(node, "dur") is not None:
        return "its dur is 0" if clock_of(node, "dur") == 0 else None
    stated = any(name in node.attributes for name in ("dur", "repeatCount", "repeatDur"))
    if ("end" in node.attributes and not stated) or node.attributes.get("dur", "").strip() == "indefinite":
        return None
    if node.kind in DISCRETE:
        return f"without dur the length of {'an img' if node.kind == 'img' else 'a ' + node.kind} is 0" + kept(node)
    return why_empty(node) if node.kind in CONTAINERS else None


def kept(node):
    """What is seen of a node of length 0, as far as its own fill says it."""
    fill = node.attributes.get("fill", "auto").strip(" \t")
    if fill == "remove":
        return ", so it is never seen"
    return ", so only its fill shows it"


def why_empty(node):
    """Why a container without a duration ends at once, None where it may not."""
    children = time_children(node)
    if not children:
        return f"the {node.kind} has no children and no dur"
    if node.kind == "seq" or node.attributes.get("endsync", "last").strip(" \t") in ("all", "first"):
        return None
    if all(waits(child, node) for child in children):
        return f"all in the {node.kind} waits for events or keys, and it has no dur; dur=\"indefinite\" keeps it"
    return None


def waits(node, parent):
    """Whether a child of a par or an excl begins by events, keys or repeats alone, or not at all."""
    if "begin" not in node.attributes:
        return parent.kind == "excl"
    return all(item.kind in ("event", "key", "repeat", "indefinite") for item in items_of(node, "begin"))
