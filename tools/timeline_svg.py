"""Draws timelines as an SVG picture: a row for each element, a bar for each of its states. Places are in pixels."""

from xml.sax.saxutils import escape

from timeline_states import Part

COLOURS = {"active": "#2e8b57", "standing": "#f2d694", "paused": "#e6a117", "deferred": "#8e63ce",
           "frozen": "#5f8fbf", "waiting": "#9a9a9a"}
MEANINGS = {"active": "plays", "standing": "in what is paused", "paused": "paused by an excl",
            "deferred": "put off by an excl", "frozen": "ended, kept by its fill", "waiting": "foreseen"}
ROW, BAR, TOP, LETTER, GAP, INDENT = 24, 14, 46, 7.3, 12, 12
STEPS = (1, 2, 5, 10, 20, 50, 100, 200, 500, 1000, 2000, 5000, 10000, 15000, 30000, 60000, 120000, 300000, 600000,
         900000, 1800000, 3600000, 7200000, 14400000, 28800000, 86400000, 172800000, 604800000)


class Scale:
    """Carries moments to places on the axis. `first` and `last` may be None: then all that is told is shown."""

    def __init__(self, timelines, width, first=None, last=None):
        moments = [0]
        for timeline, _ in timelines:
            moments.append(timeline.now)
            for row in timeline.rows().values():
                moments += [part.begin for part in row] + [part.end for part in row if part.end is not None]
        self.first = min(moments) if first is None else first
        self.last = max(moments) if last is None else last
        if self.first >= self.last:
            self.last = self.first + 1000
        self.width = width

    def place(self, moment):
        """The place of a moment on the axis; one beyond its ends stands there."""
        moment = min(max(moment, self.first), self.last)
        return round((moment - self.first) * self.width / (self.last - self.first), 1)

    def wide(self, part):
        """How wide a part is, in pixels."""
        return (part.end - part.begin) * self.width / (self.last - self.first) if part.end is not None else self.width

    def has(self, part):
        """Whether a part is drawn, at least in part."""
        return part.begin <= self.last and (part.end is None or part.end > self.first)

    def ticks(self):
        """The moments that have a line and a word on the axis."""
        step = next((step for step in STEPS if (self.last - self.first) / step <= self.width / 56), STEPS[-1])
        return range(-(-self.first // step) * step, self.last + 1, step)


def clock(moment):
    """A moment as the axis shows it."""
    sign, rest = ("-", -moment) if moment < 0 else ("", moment)
    seconds, fraction = divmod(rest, 1000)
    shown = f".{fraction:03d}".rstrip("0").rstrip(".")
    if seconds < 60:
        return f"{sign}{seconds}{shown} s"
    minutes, seconds = divmod(seconds, 60)
    hours, minutes = divmod(minutes, 60)
    days, hours = divmod(hours, 24)
    if days:
        return f"{sign}{days}d {hours}:{minutes:02d}" + (f":{seconds:02d}{shown}" if seconds or fraction else "")
    return f"{sign}{hours}:{minutes:02d}:{seconds:02d}{shown}" if hours else f"{sign}{minutes}:{seconds:02d}{shown}"


def drawn_parts(row, scale):
    """The parts to be drawn, each with its begin and end on the axis and how much of that it fills.

    What is narrower than a pixel is gathered by pixels.
    """
    found, columns = [], {}
    for part in (part for part in row if scale.has(part)):
        begin, end = scale.place(part.begin), scale.width if part.end is None else scale.place(part.end)
        if part.foreseen or scale.wide(part) >= 1:
            found.append((part, begin, end, 1))
        else:
            first, last, filled = columns.get((int(begin), part.state), (part.begin, part.end, 0))
            columns[int(begin), part.state] = (first, part.end, filled + scale.wide(part))
    return found + gathered(columns)


def gathered(columns):
    """The parts of pixels: neighbours of one state that are filled alike are one."""
    found = []
    for (x, state), (begin, end, filled) in columns.items():
        filled = min(1, max(0.3, round(filled, 1)))
        last = found[-1] if found else None
        if last and last[0].state == state and last[2] == x and last[3] == filled:
            found[-1] = (Part(state, last[0].begin, end), last[1], x + 1, filled)
        else:
            found.append((Part(state, begin, end), x, x + 1, filled))
    return found


def bar(name, part, left, top, place):
    """A part of a row; `place` has its begin and end on the axis, and how much of that it fills."""
    begin, end, filled = place
    colour = COLOURS[part.state]
    width = round(max(end - begin, 1), 1)
    style = (f'fill="{colour}" fill-opacity="0.22" stroke="{colour}" stroke-dasharray="4 3"' if part.foreseen
             else f'fill="{colour}"' + (f' opacity="{filled}"' if filled < 1 else "")
             + (' stroke="white" stroke-width="0.6"' if width >= 3 and filled == 1 else ""))
    until = "open" if part.end is None else part.end
    return (f'<rect class="bar" data-element="{escape(name)}" data-state="{part.state}" data-from="{part.begin}" '
            f'data-to="{until}" x="{round(left + begin, 1)}" y="{top + (ROW - BAR) // 2}" '
            f'width="{width}" height="{BAR}" rx="{2 if filled == 1 else 0}" {style}>'
            f'<title>{escape(name)}: {part.state} from {part.begin} to {until}</title></rect>')


def diamond(name, part, x, top):
    """An interval of length 0."""
    middle = top + ROW // 2
    points = f"{round(x - 4, 1)},{middle} {x},{middle - 6} {round(x + 4, 1)},{middle} {x},{middle + 6}"
    return (f'<polygon class="instant" data-element="{escape(name)}" data-at="{part.begin}" points="{points}" '
            f'fill="{COLOURS["active"]}" stroke="white" stroke-width="0.6">'
            f'<title>{escape(name)}: begins and ends at {part.begin}</title></polygon>')


def axis(scale, left, bottom):
    """The lines and words of the time axis, down to `bottom`."""
    for tick in scale.ticks():
        x = round(left + scale.place(tick), 1)
        yield f'<line x1="{x}" y1="{TOP}" x2="{x}" y2="{bottom}" stroke="#dddddd"/>'
        yield f'<text x="{x}" y="{TOP - 6}" text-anchor="middle" font-size="10" fill="#666666">{clock(tick)}</text>'


def panel(timeline, caption, nodes, scale, left):
    """The lines of one panel, whose axis begins at `left`."""
    bottom = TOP + ROW * len(nodes)
    yield from axis(scale, left, bottom)
    for place, node in enumerate(nodes):
        for part, *drawn_at in drawn_parts(timeline.rows().get(node, []), scale):
            yield bar(node.name(), part, left, TOP + ROW * place, drawn_at)
        for part in timeline.instants.get(node, []):
            if scale.first <= part.begin <= scale.last:
                yield diamond(node.name(), part, round(left + scale.place(part.begin), 1), TOP + ROW * place)
    if scale.first <= timeline.now <= scale.last:
        x = round(left + scale.place(timeline.now), 1)
        yield f'<line class="now" x1="{x}" y1="{TOP - 2}" x2="{x}" y2="{bottom}" stroke="#cc2222" stroke-width="1.5"/>'
    yield f'<text x="{left}" y="18" font-size="12" fill="#222222">{escape(caption)}</text>'


def legend(states, top, whole):
    """What the colours mean: the lines of the picture, and the place below them."""
    lines, left = [], GAP
    for state in [state for state in COLOURS if state in states]:
        word = f"{state}: {MEANINGS[state]}"
        if left > GAP and left + 17 + len(word) * 6.7 > whole:
            left, top = GAP, top + 18
        lines.append(f'<rect x="{round(left, 1)}" y="{top}" width="12" height="12" rx="2" fill="{COLOURS[state]}"/>')
        lines.append(f'<text x="{round(left + 17, 1)}" y="{top + 10}" font-size="11" fill="#444444">{word}</text>')
        left += 17 + len(word) * 6.7 + GAP
    return lines, top + 24


def label(node, y, tree):
    """The name of a row, with its kind and indentation where the tree is known."""
    kind = f' <tspan fill="#888888">{escape(node.kind)}</tspan>' if tree else ""
    x = GAP + (INDENT * node.depth() if tree else 0)
    return f'<text x="{x}" y="{y}" font-size="12">{escape(node.name())}{kind}</text>'


def label_width(node, tree):
    """How wide the name of a row is."""
    return LETTER * len(node.name() + (f" {node.kind}" if tree else "")) + (INDENT * node.depth() if tree else 0)


def chosen(telling, timelines, only):
    """The nodes that get a row: those that were told, and of them those in `only` and below, where it isn't empty.

    Raises ValueError where a name in `only` is of no element.
    """
    told = {node for timeline, _ in timelines for node in timeline.parts}
    nodes = [node for node in telling.document.ordered() if node in told]
    if not only:
        return nodes
    tops = set(map(telling.document.find, only))
    if None in tops:
        raise ValueError(f"no element {next(name for name in only if telling.document.find(name) is None)}")
    return [node for node in nodes if is_within(node, tops, telling.session is not None)]


def is_within(node, tops, tree):
    """Whether a node is one of those in `tops` or, where the tree is known, stands below one."""
    while tree and node.parent is not None and node not in tops:
        node = node.parent
    return node in tops


def picture(telling, timelines, width, first=None, last=None, only=()):
    """The whole SVG text."""
    tree, name = telling.session is not None, telling.name
    nodes = chosen(telling, timelines, only)
    scale = Scale(timelines, width, first, last)
    left = GAP * 2 + max([label_width(node, tree) for node in nodes] + [LETTER * len(name)])
    whole = left + (width + 2 * GAP + 16) * len(timelines)
    states = {part.state for timeline, _ in timelines for node in nodes for part in timeline.rows().get(node, [])}
    meanings, bottom = legend(states, TOP + ROW * len(nodes) + 16, whole)
    lines = [f'<svg xmlns="http://www.w3.org/2000/svg" width="{round(whole)}" height="{bottom}" '
             f'viewBox="0 0 {round(whole)} {bottom}" font-family="monospace">',
             f'<title>{escape(name)}</title>', '<rect width="100%" height="100%" fill="white"/>',
             f'<text x="{GAP}" y="18" font-size="12" font-weight="bold">{escape(name)}</text>']
    lines += [label(node, TOP + ROW * place + 16, tree) for place, node in enumerate(nodes)]
    for place, (timeline, caption) in enumerate(timelines):
        caption = (caption + ", " if caption else "") + f"at {clock(timeline.now)}"
        lines += panel(timeline, caption, nodes, scale, round(left + (width + 2 * GAP + 16) * place, 1))
    return "\n".join([*lines, *meanings, "</svg>", ""])
