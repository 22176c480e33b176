"""Random sessions, for tests that compare two ways to play them."""

import random

MEDIA = ("img", "text", "audio", "video", "animation", "ref")
TIMES = ("0s", "500ms", "1s", "2.5s", "4s", "00:00:07", "-1s", "indefinite")
EVENTS = ("click", "activateEvent", "focusInEvent")
FACTS = ("dur", "end", "repeatCount", "repeatDur", "fill", "restart", "min", "max")
VALUES = {
    "dur": ("1s", "3s", "250ms", "indefinite", "media"),
    "end": ("2s", "6s", "indefinite", "e1.end+1s", "e2.click", "accesskey(b)"),
    "repeatCount": ("2", "1.5", "indefinite"),
    "repeatDur": ("5s", "indefinite"),
    "fill": ("freeze", "hold", "remove"),
    "restart": ("always", "whenNotActive", "never"),
    "min": ("1s", "2s"),
    "max": ("2s", "9s"),
}


def begin(draw, count):
    """A begin list: offsets, syncbase and event items, and access keys."""
    other = f"e{draw.randint(1, count)}"
    items = (draw.choice(TIMES), f"{other}.begin+{draw.randint(0, 3)}s", f"{other}.end", f"{other}.{draw.choice(EVENTS)}",
             f"{other}.repeat(1)", "accesskey(a)")
    return ";".join(draw.sample(items, draw.choice((1, 1, 2, 3))))


def attributes(draw, serial, count, parent):
    """The attributes of an element; in a seq it begins by an offset."""
    written = [f'id="e{serial}"']
    if draw.random() < 0.6:
        written.append(f'begin="{draw.choice(TIMES[:6]) if parent == "seq" else begin(draw, count)}"')
    for name in draw.sample(FACTS, draw.choice((0, 1, 1, 2))):
        written.append(f'{name}="{draw.choice(VALUES[name])}"')
    return " ".join(written)


def opened(draw, kind, parents, lines):
    """Opens an element that has children; an excl may have them in a priority class."""
    parents.append(kind)
    if kind == "excl" and draw.random() < 0.5:
        peers = draw.choice(("stop", "pause", "defer", "never"))
        lines.append(f'{"  " * len(parents)}priorityClass peers="{peers}"')
        parents.append("priorityClass")


def closed(parents):
    """Leaves an element that has children, and with a priority class its excl; the root stays."""
    number = 2 if parents[-1] == "priorityClass" else 1
    if len(parents) > number:
        del parents[-number:]


def outline(draw, count):
    """The lines of an outline with so many elements besides its root and the priority classes."""
    kind = draw.choice(("par", "seq", "excl"))
    lines, parents = [kind], []
    opened(draw, kind, parents, lines)
    for serial in range(1, count + 1):
        kind = draw.choice((*MEDIA, "par", "seq", "excl"))
        lines.append(f"{'  ' * len(parents)}{kind} {attributes(draw, serial, count, parents[-1])}")
        if kind not in MEDIA:
            opened(draw, kind, parents, lines)
        while draw.random() < 0.3:
            closed(parents)
    return lines


def order(draw, count):
    """An order to the presentation `d`."""
    element = f"e{draw.randint(1, count)}"
    name = draw.choice(FACTS)
    return "d " + draw.choice((
        f"advance {draw.choice((1, 40, 1000, 2500, 20000))}ms", f"advance {draw.randint(0, 3000)}ms",
        f"event {element} {draw.choice(EVENTS)}", f"key {draw.choice('abc')}", f"media {element} {draw.randint(1, 9)}s",
        f"seek {draw.randint(0, 12000)}ms", f'set {element} {name} "{draw.choice(VALUES[name])}"', f"unset {element} {name}",
        f'set {element} begin "{begin(draw, count)}"', f"remove {element}", "show", "save",
        f'insert #1 1 img id="n{draw.randint(1, 99)}" dur="2s"'))


def sessions(seed, number):
    """The text of so many sessions, one after another; the same for each call with these words."""
    draw = random.Random(seed)
    lines = []
    for _ in range(number):
        count = draw.randint(1, 9)
        lines += ["load d", *outline(draw, count), "%%", *(order(draw, count) for _ in range(draw.randint(3, 25))), "close d"]
    return "".join(line + "\n" for line in lines)
