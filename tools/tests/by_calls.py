#!/usr/bin/env python3
"""Plays sessions twice, by lines and by calls, and compares what each order changes.

usage: by_calls.py LIBRARY SESSION..

Each order that a call can give is given by it in the second session, loads and closes too, and its records, as change
lines, must be the lines that the first session answers; where it is refused its word and its line must be the same, and
of a load its column. Writes each difference, and ends with 1 where there is one.
"""

import re
import sys
from pathlib import Path

sys.path.insert(0, str(Path(__file__).parents[2] / "embed"))

from tenphsar import REFUSED, Refused, Session

CLOCK = re.compile(r"(?:(?:(?P<h>[0-9]+):)?(?P<m>[0-5][0-9]):(?P<s>[0-5][0-9])|(?P<count>[0-9]+))(?P<part>\.[0-9]+)?"
                   r"(?P<unit>h|min|s|ms)?")
UNITS = {"h": 3_600_000, "min": 60_000, "s": 1000, "ms": 1, None: 1000}
UNSAID = ["!", "unsaid"]
SAVED = re.compile(r' *[A-Za-z]+ #(?P<serial>[0-9]+)(?: id="(?P<id>[^"]*)")?')

SET = re.compile(r' *(?P<name>\S+) +set +(?P<node>\S+) +(?P<attribute>[^" ]+) +"(?P<value>[^"]*)" *')
INSERT = re.compile(r" *(?P<name>\S+) +insert +(?P<node>\S+) +(?P<place>[0-9]{1,9}) +(?P<line>\S.*)")


def milliseconds(text):
    """A clock value in milliseconds, rounded down; None where it is none that this program reads."""
    found = CLOCK.fullmatch(text)
    if not found:
        return None
    whole = found["count"]
    if whole is None:
        if found["unit"]:
            return None
        whole, unit = (int(found["h"] or 0) * 60 + int(found["m"])) * 60 + int(found["s"]), 1000
    else:
        unit = UNITS[found["unit"]]
    digits = (found["part"] or ".")[1:]
    return int(whole) * unit + (int(digits or 0) * unit // 10 ** len(digits))


class Nodes:
    """The nodes of the presentations of a session, by their ids and serials."""

    def __init__(self, session):
        self.session = session

    def of(self, name):
        """The serials of a presentation's nodes, by their ids."""
        try:
            saved = self.session.order(f"{name} save")
        except Refused:
            return {}
        found = (SAVED.match(line) for line in saved.splitlines()[1:-1])
        return {node["id"]: int(node["serial"]) for node in found if node and node["id"] is not None}


def element(word, ids):
    """The serial of an element that a line names, 0 where there is none."""
    if word.startswith("#"):
        return int(word[1:]) if word[1:].isdigit() else None
    return ids.get(word, 0)


def call_of(words, ids):
    """The call that gives the order of a line, by its method and its arguments; None where there is none."""
    match words:
        case [name, "advance" | "seek" as order, length] if milliseconds(length) is not None:
            return order, name, milliseconds(length)
        case [name, "event", node, event] if element(node, ids) is not None:
            return "event", name, element(node, ids), event
        case [name, "media", node, length] if None not in (milliseconds(length), element(node, ids)):
            return "media", name, element(node, ids), milliseconds(length)
        case ["close", name]:
            return "unload", name
        case [name, "key", key] if len(key) == 1:
            return "key", name, key
        case [name, "unset" | "remove" as order, node, *attribute] if element(node, ids) is not None:
            return (order, name, element(node, ids), *attribute) if len(attribute) == (order == "unset") else None
    return None


def edit_of(line, ids):
    """The same of a line whose last word may have spaces in it."""
    if found := SET.fullmatch(line):
        node = element(found["node"], ids)
        return node is not None and ("set", found["name"], node, found["attribute"], found["value"])
    if found := INSERT.fullmatch(line):
        node = element(found["node"], ids)
        return node is not None and ("insert", found["name"], node, int(found["place"]), found["line"])
    return None


def line_of(change, before, after):
    """The change line of a record, by the ids before the order and after it."""
    ids = before if change.state == "gone" else after
    name = next((name for name, serial in ids.items() if serial == change.element), f"#{change.element}")
    if change.state == "gone":
        return f"{change.moment} {name} gone"
    return f"{change.moment} {name} {' '.join(map(str, change[2:]))}"


def by_call(session, call, nodes, before):
    """The answer to an order by its call, but for its last line: the lines of its changes, or its refusal's word."""
    order, *given = call
    try:
        changes = getattr(session, order)(*given) or []
    except Refused as refused:
        return ["!", *refusal_of(order, refused)]
    except ValueError:
        return UNSAID
    after = nodes.of(given[0])
    return [line_of(change, before, after) for change in changes]


def refusal_of(order, refused):
    """What is compared of a refusal; the columns of an edit by a call are those of another line."""
    return refused.line, refused.word, refused.column if order == "load" else None


def expected(order, code, answer):
    """What a call is to tell of the order that has this answer."""
    text = answer.decode()
    return ["!", *refusal_of(order, Refused.of_answer(text))] if code == REFUSED else text.splitlines()[:-1]


def agree(told, wanted):
    """Whether a call told what it is to tell. An order that no line can say is refused where the line is read."""
    return told == wanted or (told == UNSAID and wanted[:1] == ["!"] and wanted[2] in ("not-a-command", "bad-value"))


def orders(path):
    """The orders of a session, each with the number of its first line: a line, or the lines of a load."""
    load = []
    for number, line in enumerate(path.read_bytes().split(b"\n"), 1):
        line = line.removesuffix(b"\r")
        words = line.split()
        if load or words[:1] == [b"load"]:
            load.append(line)
            if words != [b"%%"]:
                continue
        yield number - max(len(load) - 1, 0), load or [line]
        load = []
    if load:
        yield number, load


def load_of(lines):
    """The call that gives a load of these lines; None where a line has no text, or it doesn't end."""
    try:
        first, *outline, last = (line.decode() for line in lines)
    except UnicodeDecodeError:
        return None
    if last.split() != ["%%"] or not outline:
        return None
    match first.split():
        case ["load", name]:
            return "load", name, "\n".join(outline)
        case ["load", name, "at", start]:
            return "load", name, "\n".join(outline), start
    return None


def order_of(lines, nodes):
    """The call that gives an order, or None, and the ids of the nodes before it."""
    if len(lines) > 1:
        return load_of(lines), {}
    said = lines[0].decode("utf-8", "replace")
    words = said.split()
    ids = nodes.of(words[0]) if len(words) > 1 and words[0] not in ("load", "close") else {}
    return (None if said.startswith("#") else call_of(words, ids) or edit_of(said, ids)) or None, ids


def give(session, lines):
    """Gives lines to a session, and gives the code and the answer of the last of them."""
    return [session.line(line) for line in lines][-1]


def compare(library, path):
    """Plays a session, and gives how many orders were given by calls, and the differences."""
    count, differences = 0, []
    with Session(library) as by_lines, Session(library) as by_calls, Session(library) as shown:
        nodes = Nodes(shown)
        for number, lines in orders(path):
            call, ids = order_of(lines, nodes)
            code, answer = give(by_lines, lines)
            give(shown, lines)
            if not call:
                give(by_calls, lines)
                continue
            count += 1
            told, wanted = by_call(by_calls, call, nodes, ids), expected(call[0], code, answer)
            if told == UNSAID:
                give(by_calls, lines)
            if not agree(told, wanted):
                differences.append(f"{path}:{number}: {told} instead of {wanted}")
    return count, differences


def main(library, *paths):
    """Plays sessions, and gives 1 where something differs, or where no order was given by a call."""
    played = [compare(library, Path(path)) for path in paths]
    differences = [one for _, found in played for one in found]
    count = sum(orders for orders, _ in played)
    print(*differences, f"{count} orders by calls", sep="\n")
    return 1 if differences or not count else 0


if __name__ == "__main__":
    sys.exit(main(*sys.argv[1:]) if len(sys.argv) > 2 else __doc__)
