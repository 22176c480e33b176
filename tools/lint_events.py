"""Explains why an event or a key did nothing, by the views, the history and the diary that smilplay tells."""

import difflib

from lint_document import items_of, parent_of
from session import Session, telling_of
from smilplay import transcript_of
from transcript import answers_of

MOST = 20


class Silent:
    """An event or key that changed nothing.

    `order` is as session.Order has it, `name` the presentation, `document` what it had then.
    """

    def __init__(self, order, name, document):
        self.order = order
        self.name = name
        self.document = document
        words = order.text.split()
        self.word = order.word
        self.base = document.find(words[2]) if self.word == "event" and len(words) > 3 else None
        self.what = words[-1]

    def is_meant(self, node, item):
        """Whether an item of a node's list waits for this."""
        if self.word == "key":
            return item.kind == "key" and item.what == self.what
        if item.kind != "event" or item.what != self.what:
            return False
        return self.base is (node if item.base is None else self.document.find(item.base))

    def waiting(self):
        """The nodes that wait for this, each with the lists, begin or end, in which it does."""
        for node in standing(self.document):
            lists = [name for name in ("begin", "end")
                     if any(self.is_meant(node, item) for item in items_of(node, name))]
            if lists:
                yield node, lists


def standing(document):
    """The nodes of a document that were not removed, in its order."""
    return [node for node in document.ordered() if node.gone is None]


def silent_orders(lines, transcript, name):
    """The events and keys of a presentation that changed nothing, at most MOST, each with the document then."""
    session, found = Session(lines), []
    telling = telling_of(answers_of(transcript.splitlines()), session, name)
    for order in telling.orders:
        if order.refusal is None and order.word in ("event", "key") and not order.told:
            found.append(order.line)
    for line in found[:MOST]:
        before = telling_of(answers_up_to(transcript, line), Session(lines[:line]), name)
        yield Silent(before.orders[-1], name, before.document)


def answers_up_to(transcript, line):
    """The answers to the lines of a session up to this one."""
    answers = answers_of(transcript.splitlines())
    return [answer for answer in answers if answer[1] is not None and answer[1]["line"] <= line]


def explained(program, lines, silent):
    """Sentences that say why an event or key did nothing. Raises OSError where the program can't be started."""
    waiting = list(silent.waiting())
    if not waiting:
        return [nobody_waits(silent)]
    line = silent.order.line
    asked = [f"{silent.name} show", lines[line - 1], f"{silent.name} diary"]
    asked += [f"{silent.name} history {node.name()}" for node, _ in waiting]
    session = [*lines[:line - 1], *asked]
    told_then = answers_of(transcript_of(program, "run", session).splitlines())
    answers = {last["line"]: told for told, last in told_then if last}
    views = {record["element"]: record for record in answers.get(line, []) if record["type"] == "change"}
    passed = passed_in(answers.get(line + 2, []))
    sentences = []
    for place, (node, lists) in enumerate(waiting):
        reasons = [why(node, name, views, passed) for name in lists]
        history = [record for record in answers.get(line + 3 + place, []) if record["type"] == "interval"]
        sentences.append(f"{node.name()} waits for it to {' and to '.join(lists)}: {'; '.join(reasons)}{past(history)}")
    return sentences


def passed_in(diary):
    """The serials of the elements that an excl let pass in the last moment of a diary."""
    entries = [record for record in diary if record["type"] == "entry"]
    last = entries[-1]["moment"] if entries else None
    return {int(record["element"][1:]) for record in entries if record["step"] == "passed" and record["moment"] == last}


def past(history):
    """The last interval of a history, as the end of a sentence; moments in milliseconds."""
    if not history:
        return " (it has not begun so far)"
    last = history[-1]
    return f" (history: from {last['begin']} to {last['end']}, {last['how']})"


def nobody_waits(silent):
    """What to say of an event or key that nothing waits for: what is waited for that looks like it."""
    if silent.word == "key":
        keys = sorted({item.what for _, item in all_items(silent.document) if item.kind == "key"})
        return f"nothing waits for the key {silent.what}" + (f"; there are {' '.join(keys)}" if keys else "")
    events = [(node, item) for node, item in all_items(silent.document) if item.kind == "event"]
    nothing = f"nothing waits for {silent.what} of {silent.base.name() if silent.base else 'it'}"
    here = sorted({item.what for node, item in events if silent.base is base_of(silent.document, node, item)})
    if here:
        near = difflib.get_close_matches(silent.what, here, 1, 0.5)
        return f"{nothing}; what is waited for is {near[0] if near else ', '.join(here)}"
    others = sorted({shown(node, item) for node, item in events if item.what == silent.what})
    return nothing + (f"; what is waited for is {', '.join(others[:3])}" if others else "")


def all_items(document):
    """Each item of each begin and end list of a document, with its node."""
    return [(node, item) for node in standing(document) for name in ("begin", "end") for item in items_of(node, name)]


def base_of(document, node, item):
    """The node whose events an item of a node waits for, None where there is none."""
    return node if item.base is None else document.find(item.base)


def shown(node, item):
    """An event as a reference: its element and its name."""
    return f"{item.base or node.name()}.{item.what}"


def why(node, name, views, passed):
    """Why a node didn't begin, or end, by an event that its list `name` has. `views` are those before the event."""
    view = views.get(node.name())
    state = view["state"] if view else "idle"
    deaf = why_deaf(node, views)
    if deaf:
        return deaf
    if name == "end":
        return "its min, or an end that is no later, decides" if state in ("active", "paused") else \
            f"it is {state}, and only an active element hears what ends it"
    restart = restart_of(node)
    if state in ("active", "paused") and restart != "always":
        return f"it is {state}, and its restart is {restart}"
    if restart == "never" and view and view["finished"]:
        return "it has played, and its restart is never"
    if node.serial in passed:
        return "it began, and the excl let it pass for what plays (peers or lower is never)"
    return "it heard it, and no interval follows: its end list or the end of what it stands in comes before"


def why_deaf(node, views):
    """Why a node hears nothing: what it stands in doesn't play, or stands. None where it hears."""
    parent = parent_of(node)
    view = views.get(parent.name()) if parent else None
    if view and view["state"] != "active":
        return f"{parent.name()}, in which it stands, is {view['state']}, so it hears nothing"
    above = parent
    while above is not None:
        view = views.get(above.name())
        if view and view["state"] == "paused":
            return f"{above.name()}, in which it stands, is paused, so it hears nothing"
        above = parent_of(above)
    return None


def restart_of(node):
    """The restart that counts for a node, by restartDefault of what it stands in where it has none."""
    own = node.attributes.get("restart", "default").strip(" \t")
    while own == "default" and node is not None:
        given = node.attributes.get("restartDefault", "inherit").strip(" \t")
        own, node = (given, None) if given != "inherit" else (own, node.parent)
    return "always" if own == "default" else own
