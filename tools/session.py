"""Reads a session of smilplay: its orders by their lines, and the document that they load and edit.

A document keeps the nodes that were removed in their places, so that what was told of them can be
shown. Nothing is checked here: only orders that the program accepted are to be carried out.
"""

import re

from smil_choice import Preferences, chosen_lines

EDITS = ("set", "unset", "insert", "remove")

HEADER = re.compile(r"outline +2 +next +([0-9]+) *$")
_ATTRIBUTE = re.compile(r'([^\s"=]+)="([^"]*)"')
_EDIT = re.compile(r'(?:set|unset) (\S+) +([^\s"]+)(?: +"(.*)")? *$')


class Node:
    """An element of a document.

    `born` and `gone` are numbers of orders, `gone` None while it stands; `line` is its line in the
    session, None where an order inserted it. `edits` have the number of an order, an attribute, and
    its value before and after, None for none.
    """

    def __init__(self, serial, kind, attributes, parent, born):
        self.line = None
        self.serial = serial
        self.kind = kind
        self.attributes = attributes
        self.parent = parent
        self.children = []
        self.born = born
        self.gone = None
        self.edits = []

    def name(self):
        """As the transcript has it: the id, or `#` and the serial."""
        return self.attributes.get("id") or f"#{self.serial}"

    def depth(self):
        """How many elements stand above it."""
        return 0 if self.parent is None else self.parent.depth() + 1


def node_of(line, parent, born, serial):
    """The node of a node line; a serial that stands in the line goes before the one given."""
    words = line.split(None, 2)
    if len(words) > 1 and re.match(r"#[0-9]+$", words[1]):
        serial = int(words[1][1:])
    return Node(serial, words[0], dict(_ATTRIBUTE.findall(line)), parent, born)


def plain_lines(lines):
    """The node lines of an outline with serials, each with its place from 0: nothing is chosen there."""
    for place, line in enumerate(lines):
        if line.strip(" \t") and not line.startswith("#") and not HEADER.match(line):
            yield place, line


class Document:
    """The nodes of a presentation by their serials, and their serials by their ids."""

    def __init__(self):
        self.nodes = {}
        self.ids = {}
        self.roots = []
        self.next = 1

    def load(self, lines, order=0, preferences=None, first=1):
        """Reads an outline, the lines between `load` and `%%`, the first of which is line `first` of the session.

        What the preferences don't choose is left out; without them those before any `prefer` line count.
        """
        header = next((match for match in map(HEADER.match, lines) if match), None)
        taken = list(plain_lines(lines) if header else chosen_lines(lines, preferences or Preferences()))
        above = []
        for place, line in taken:
            depth = (len(line) - len(line.lstrip(" "))) // 2
            node = node_of(line.strip(" "), above[depth - 1] if depth else None, order, self.next)
            node.line = first + place
            above[depth:] = [node]
            self.add(node, None)
        if header:
            self.next = int(header[1])

    def add(self, node, place):
        """Puts a node among the children of its parent: at the end, or at a place that counts those that stand."""
        self.nodes[node.serial] = node
        self.next = max(self.next, node.serial + 1)
        if "id" in node.attributes:
            self.ids[node.attributes["id"]] = node.serial
        if node.parent is None:
            self.roots.append(node)
        elif place is None:
            node.parent.children.append(node)
        else:
            standing = [index for index, child in enumerate(node.parent.children) if child.gone is None]
            index = standing[place - 1] if place <= len(standing) else len(node.parent.children)
            node.parent.children.insert(index, node)

    def find(self, reference):
        """The node of an id or of `#` and a serial, or None."""
        serial = int(reference[1:]) if re.match(r"#[0-9]+$", reference) else self.ids.get(reference)
        return self.nodes.get(serial)

    def edit(self, rest, order):
        """Carries out what stands behind the presentation's name in a set, unset, insert or remove."""
        words = rest.split(None, 3)
        node = self.find(words[1])
        if node is None:
            return
        if words[0] == "insert":
            self.add(node_of(words[3], node, order, self.next), int(words[2]))
        elif words[0] == "remove":
            self.remove(node, order)
        else:
            match = _EDIT.match(rest)
            self.give(node, match[2], match[3], order)

    def remove(self, node, order):
        """Takes a node away with all below it."""
        node.gone = order
        self.ids.pop(node.attributes.get("id"), None)
        for child in node.children:
            if child.gone is None:
                self.remove(child, order)

    def give(self, node, attribute, value, order):
        """Gives an attribute a value, or takes it away where the value is None."""
        if attribute == "id":
            self.ids.pop(node.attributes.get("id"), None)
        node.edits.append((order, attribute, node.attributes.pop(attribute, None), value))
        if value is not None:
            node.attributes[attribute] = value
            if attribute == "id":
                self.ids[value] = node.serial

    def ordered(self):
        """Every node, also those that were removed, in document order."""
        waiting = self.roots[::-1]
        while waiting:
            node = waiting.pop()
            yield node
            waiting.extend(reversed(node.children))


def openings_of(lines):
    """For each line the number, from 1, of the first line of the load in which it stands; None outside loads."""
    opened = None
    for number, line in enumerate(lines, 1):
        if opened is None and line.split(None, 1)[:1] == ["load"]:
            opened = number
        yield opened
        if opened is not None and line.strip(" ") == "%%":
            opened = None


class Session:
    """The lines of a session, which the transcript counts from 1."""

    def __init__(self, lines):
        self.lines = [line.rstrip("\r\n") for line in lines]
        self.openings = None
        self.saved = {}

    def line(self, number):
        """A line without the spaces around it; empty where there is no such line."""
        return self.lines[number - 1].strip(" ") if 0 < number <= len(self.lines) else ""

    def name(self, number):
        """The presentation that a line is about: the word behind `load` or `close`, else the first word."""
        words = self.line(number).split()
        if words[:1] in (["load"], ["close"]):
            return words[1] if len(words) > 1 else ""
        return words[0] if words else ""

    def opening(self, number):
        """The first line of the load in which a line stands, None outside loads."""
        if self.openings is None:
            self.openings = list(openings_of(self.lines))
        return self.openings[number - 1] if 0 < number <= len(self.openings) else None

    def is_saved(self, number):
        """Whether a line stands in an outline with serials."""
        opening = self.opening(number)
        if opening not in self.saved:
            self.saved[opening] = opening is not None and any(map(HEADER.match, self.outline(opening)))
        return self.saved[opening]

    def preferences(self, number):
        """What is preferred before a line."""
        wanted, inside = Preferences(), False
        for line in self.lines[:number - 1]:
            words = line.split()
            inside = words[:1] == ["load"] or (inside and words != ["%%"])
            if not inside and len(words) == 3 and words[0] == "prefer":
                wanted.prefer(words[1], words[2])
        return wanted

    def outline(self, number):
        """The lines of the outline that the load in this line opens."""
        lines = []
        for line in self.lines[number:]:
            if line.strip(" ") == "%%":
                break
            lines.append(line)
        return lines

    def order(self, number):
        """The first word of an order behind the name (or `load`, `close`), and all that stands behind the name."""
        words = self.line(number).split(None, 1)
        if not words:
            return "", ""
        if words[0] in ("load", "close"):
            return words[0], ""
        rest = words[1].strip(" ") if len(words) > 1 else ""
        return rest.split(" ")[0], rest


class Order:
    """An answered order: its line, text, first word, moment behind it, refusal or None, and what was told.

    `told` has each change and each gone line with the node that it is of.
    """

    def __init__(self, line, text, word, moment, refusal=None):
        self.line = line
        self.text = text
        self.word = word
        self.moment = moment
        self.refusal = refusal
        self.told = []


class Telling:
    """What a transcript tells of one presentation: its orders, and its document.

    Without a session the document is a flat list of the names that were told.
    """

    def __init__(self, session, name):
        self.session = session
        self.name = name
        self.document = Document()
        self.orders = []

    def node(self, name):
        """The node of a name in the transcript; one that no order made is made here."""
        node = self.document.find(name)
        if node is None:
            serial = int(name[1:]) if re.match(r"#[0-9]+$", name) else -len(self.document.nodes) - 1
            node = Node(serial, "", {} if name.startswith("#") else {"id": name}, None, len(self.orders))
            self.document.add(node, None)
        return node

    def take(self, told, last):
        """Takes in the answer to an accepted order."""
        number = len(self.orders)
        word, rest = self.session.order(last["line"]) if self.session else ("", "")
        order = Order(last["line"], self.session.line(last["line"]) if self.session else "", word, last["moment"])
        if word == "load":
            line = last["line"]
            self.document.load(self.session.outline(line), number, self.session.preferences(line), line + 1)
        gone = [(self.node(record["element"]), record) for record in told if record["type"] == "gone"]
        if word in EDITS:
            self.document.edit(rest, number)
        for node, _ in gone:
            node.gone = number
        changes = [record for record in told if record["type"] == "change"]
        order.told = gone + [(self.node(record["element"]), record) for record in changes]
        self.orders.append(order)

    def refuse(self, record):
        """Takes in a refusal, where the session says that it is of this presentation."""
        text = self.session.line(record["line"]) if self.session else ""
        if text.split(" ")[0] == self.name:
            now = self.orders[-1].moment if self.orders else 0
            self.orders.append(Order(record["line"], text, self.session.order(record["line"])[0], now, record["word"]))


def telling_of(answers, session=None, name=None):
    """What is told of a presentation, by default that of the first answer; of its last load where it was closed."""
    telling, fresh = None, True
    for told, last in answers:
        if last is not None and last["type"] == "refusal" and telling and not fresh:
            telling.refuse(last)
        if last is None or last["type"] != "ok" or not ("moment" in last or last.get("closed")):
            continue
        if last["presentation"] != (name or last["presentation"]):
            continue
        name = last["presentation"]
        if last.get("closed"):
            fresh = True
        else:
            telling, fresh = (Telling(session, name) if fresh else telling), False
            telling.take(told, last)
    return telling or Telling(session, name or "nothing")
