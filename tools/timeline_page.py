"""Makes the page of timeline.py: what a transcript tells as data, put together with the files in the folder `page`.

The page takes the data apart itself, so that it can show how things stood after any order. `data_of`
says what is in them. Times are milliseconds.
"""

import json
from pathlib import Path

STATES = ("active", "paused", "deferred", "frozen", "waiting", "done", "idle", "gone")
WORDS = {None: "-", "indefinite": "i", "unresolved": "u", "?": "?"}
FOLDER = Path(__file__).resolve().parent / "page"
SCRIPTS = ("told", "shown", "words", "tree", "canvases", "panels", "actions", "input", "start")


def page_of(telling, compare=None, first=None, last=None, only=()):
    """The whole page of a session.Telling, opened at an order and a part of the time, both in milliseconds or None.

    Raises ValueError where `compare` is no accepted order's line, or `only` names no element.
    """
    data = data_of(telling)
    lines = [order.line for order in telling.orders if order.refusal is None]
    if compare is not None and compare not in lines:
        raise ValueError(f"no accepted order to {telling.name} in line {compare}")
    for name in only:
        if telling.document.find(name) is None:
            raise ValueError(f"no element {name}")
    data["start"] = {"compare": compare, "from": first, "to": last, "only": list(only)}
    text = json.dumps(data, ensure_ascii=False, separators=(",", ":")).replace("<", "\\u003c")
    return put_together(text)


def put_together(data):
    """The page with its style, its scripts and these data, which are a text of JavaScript. Raises OSError."""
    def text(name):
        return (FOLDER / name).read_text(encoding="utf-8")
    scripts = "\n".join(text(f"{name}.js") for name in SCRIPTS)
    page = text("page.html").replace("/*STYLE*/", text("page.css"))
    front, behind = page.split("/*DATA*/null;\n/*SCRIPT*/")
    return f"{front}{data};\n{scripts}{behind}"


def data_of(telling):
    """The data of the page.

    nodes    in document order: place of the parent or -1, kind, id, serial, order of birth, order of its
             end or -1, attributes as they are at last, edits (order, attribute, value before, value after)
    orders   line, first word, text, moment behind it, refusal or 0, how many changes came before it
    changes  seven numbers each: node, moment since the last change, state, begin behind the moment, end
             behind the begin, iteration, finished; in place of an unknown time the letter of its word
    """
    nodes = list(telling.document.ordered())
    places = {node: place for place, node in enumerate(nodes)}
    orders, changes, views, moment = [], [], {}, 0
    for order in telling.orders:
        orders.append([order.line, order.word, order.text, order.moment, order.refusal or 0, len(changes) // 7])
        for node, record in order.told:
            view = view_of(record)
            if views.get(node) != view:
                views[node] = view
                changes += change_of(places[node], record, moment)
                moment = record["moment"]
    return {"name": telling.name, "tree": telling.session is not None, "orders": orders, "changes": changes,
            "nodes": [row_of(node, places) for node in nodes]}


def row_of(node, places):
    """What `data_of` says of a node; `places` are those of all nodes."""
    attributes = {name: value for name, value in node.attributes.items() if name != "id"}
    return [places[node.parent] if node.parent else -1, node.kind, node.attributes.get("id", ""), node.serial,
            node.born, -1 if node.gone is None else node.gone, attributes, node.edits]


def view_of(record):
    """What a change tells besides its moment, to be compared."""
    if record["type"] == "gone":
        return "gone"
    return record["state"], record["begin"], record["end"], record["iteration"], record["finished"]


def change_of(place, record, moment):
    """The seven numbers of a change, the last of which was at this moment."""
    if record["type"] == "gone":
        return [place, record["moment"] - moment, STATES.index("gone"), "-", "-", 0, 0]
    begin, end = record["begin"], record["end"]
    return [place, record["moment"] - moment, STATES.index(record["state"]), behind(begin, record["moment"]),
            behind(end, begin if isinstance(begin, int) else record["moment"]),
            record["iteration"], record["finished"]]


def behind(time, start):
    """A time as it stands behind another one, or the letter of its word."""
    return time - start if isinstance(time, int) else WORDS[time]
