"""What a transcript tells of the elements of a presentation, as states from moment to moment, in milliseconds."""

DRAWN = ("active", "standing", "paused", "deferred", "frozen")
PLAYED = ("active", "paused", "frozen", "done")


class Part:
    """An element's state from a moment to another one, None for one that isn't known."""

    def __init__(self, state, begin, end, interval=None, foreseen=False):
        self.state = state
        self.begin = begin
        self.end = end
        self.interval = interval
        self.foreseen = foreseen


class Timeline:
    """What was told of the elements of one presentation, by their nodes."""

    def __init__(self):
        self.now = 0
        self.parts = {}
        self.views = {}
        self.instants = {}
        self.log = []
        self.drawn = None

    def take(self, order, as_edit=False):
        """Takes in the answer to an order."""
        self.drawn = None
        forward = order.moment > self.now
        if order.moment < self.now:
            self.cut_back(order.moment)
        self.now = order.moment
        for node, record in order.told:
            if record["type"] == "gone":
                self.end_row(node, record, as_edit)
            else:
                self.change(node, record, as_edit, forward)

    def cut_back(self, moment):
        """Drops what was told of moments later than this one."""
        touched = {}
        while self.log and self.log[-1][0] > moment:
            touched[self.log.pop()[1]] = True
        for node in touched:
            for parts in (self.parts[node], self.instants[node]):
                while parts and parts[-1].begin > moment:
                    parts.pop()
            self.log.append((moment, node))

    def row(self, node):
        """The parts of a node, to be added to."""
        parts = self.parts.get(node)
        if parts is None:
            parts = self.parts[node] = []
            self.instants[node] = []
        return parts

    def end_row(self, node, record, as_edit):
        """Takes in that a node was removed; with `as_edit` as if it had never been."""
        if as_edit:
            self.row(node).clear()
            self.instants[node].clear()
        else:
            append(self.row(node), Part("gone", record["moment"], None))
            self.log.append((record["moment"], node))
        self.views.pop(node, None)

    def change(self, node, record, as_edit, forward):
        """Takes in a change of a node: with `as_edit` its past is drawn anew; `forward` says that time went on."""
        parts, old = self.row(node), self.views.get(node)
        self.views[node] = record
        if as_edit:
            begins = [view["begin"] for view in (old, record) if view and isinstance(view["begin"], int)]
            parts[:] = [part for part in parts if begins and part.begin < min(begins)] + past_of(record)
        else:
            tell(parts, record, forward)
            self.log.append((record["moment"], node))
        ended = record["state"] in ("done", "frozen")
        if ended and isinstance(record["begin"], int) and record["begin"] == record["end"]:
            self.instants[node].append(Part("active", record["begin"], record["begin"]))

    def rows(self):
        """Each node with its parts, which follow one another without gaps or overlaps."""
        if self.drawn is None:
            self.drawn = {node: self.drawn_row(node, parts) for node, parts in self.parts.items()}
            self.drawn = {node: standing(row, self.still(node)) for node, row in self.drawn.items()}
        return self.drawn

    def drawn_row(self, node, parts):
        """The parts of a node that are drawn, each up to the next one, and what is foreseen behind them."""
        row = []
        for part, following in zip(parts, parts[1:] + [None]):
            end = self.now if following is None else following.begin
            if part.state in DRAWN and part.begin < end:
                row.append(Part(part.state, part.begin, end, part.interval))
        return joined(row) + self.foreseen(node)

    def foreseen(self, node):
        """What is known to come of an element."""
        view = self.views.get(node)
        if view is None or view["state"] not in ("active", "waiting", "paused"):
            return []
        begin = self.now if view["state"] != "waiting" else view["begin"]
        ends = [end for end in (view["end"], *self.ends_above(node)) if isinstance(end, int)]
        if not isinstance(begin, int) or view["end"] == "?" or (ends and min(ends) <= begin):
            return []
        return [Part(view["state"], max(begin, self.now), min(ends) if ends else None, foreseen=True)]

    def ends_above(self, node):
        """The ends of the elements above a node, of those that play."""
        while node.parent is not None:
            node = node.parent
            view = self.views.get(node)
            if view is not None and view["state"] in ("active", "paused"):
                yield view["end"]

    def still(self, node):
        """When something above a node was paused: pairs of moments, None for an end that isn't known."""
        pairs = []
        while node.parent is not None:
            node = node.parent
            pairs += [(part.begin, part.end) for part in self.drawn.get(node, []) if part.state == "paused"]
        return sorted(pairs, key=lambda pair: pair[0])


def append(parts, part):
    """Puts a part behind others; those that don't begin before it go."""
    while parts and parts[-1].begin >= part.begin:
        parts.pop()
    parts.append(part)


def tell(parts, record, forward):
    """Puts a state behind others. A seek forward tells where it leads: the interval says what came before."""
    moment, begin, end, state = record["moment"], record["begin"], record["end"], record["state"]
    interval = (begin, record["iteration"])
    if forward and state in PLAYED and isinstance(begin, int):
        moment = min(moment, end) if state in ("done", "frozen") and isinstance(end, int) else moment
        last = parts[-1] if parts else None
        if begin < moment and not (last and last.state in PLAYED and last.interval[0] == begin):
            append(parts, Part("active", begin, None, interval))
    append(parts, Part(state, moment, None, interval))


def standing(row, still):
    """A row in which what played while something above it was paused stands."""
    if not still:
        return row
    parts = []
    for part in row:
        cuts = [pair for pair in still if part.state == "active" and before(pair[0], part.end)
                and before(part.begin, pair[1])]
        begin = part.begin
        for first, last in cuts:
            if begin < first:
                parts.append(Part("active", begin, first, part.interval, part.foreseen))
            begin, until = max(begin, first), last if before(last, part.end) else part.end
            if before(begin, until):
                parts.append(Part("standing", begin, until, part.interval, part.foreseen))
            begin = until
            if begin is None:
                break
        if begin is not None and before(begin, part.end):
            parts.append(Part(part.state, begin, part.end, part.interval, part.foreseen))
    return joined(parts)


def before(one, other):
    """Whether a moment comes before another one, where None comes after all."""
    return one is not None and (other is None or one < other)


def past_of(record):
    """The past of an element, drawn anew from one view of it."""
    begin, end, state = record["begin"], record["end"], record["state"]
    if state in ("waiting", "idle", "deferred") or not isinstance(begin, int):
        return []
    if state in ("done", "frozen"):
        return [Part("active", begin, None), Part(state, end, None)]
    if state == "paused":
        return [Part("active", begin, None), Part(state, record["moment"], None)]
    return [Part(state, begin, None, (begin, record["iteration"]))]


def joined(row):
    """The parts of a row, of which neighbours of one state, begin and iteration are one."""
    parts = []
    for part in row:
        last = parts[-1] if parts else None
        if last and (last.state, last.interval, last.end, last.foreseen) == (part.state, part.interval, part.begin,
                                                                              part.foreseen):
            last.end = part.end
        else:
            parts.append(part)
    return parts


def timelines_of(telling, compare=None):
    """The timelines to be drawn, each with its caption: one, or that before an order and that after it.

    Raises ValueError where no accepted order stands in the line `compare`.
    """
    timeline = Timeline()
    for order in telling.orders:
        if order.refusal is None and order.line == compare:
            earlier = Timeline()
            for other in telling.orders[:telling.orders.index(order)]:
                earlier.take(other)
            timeline.take(order, as_edit=True)
            return [(earlier, f"before line {compare}"), (timeline, f"after line {compare}")]
        timeline.take(order)
    if compare is not None:
        raise ValueError(f"no accepted order to {telling.name} in line {compare}")
    return [(timeline, "")]
