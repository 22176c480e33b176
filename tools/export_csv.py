"""The intervals of a presentation as CSV. Times are milliseconds."""

import csv
import io

WITHIN = ("active", "standing", "paused")
COLUMNS = ("presentation", "element", "kind", "source", "title", "begin", "end", "state", "iterations", "paused")


class Interval:
    """An interval of an element.

    `end` is None where it isn't known; `playing` says that it goes on at the present moment;
    `paused` is how long it was paused; `iterations` how many it began.
    """

    def __init__(self, node, begin, end=None):
        self.node = node
        self.begin = begin
        self.end = end
        self.playing = False
        self.paused = 0
        self.iterations = 1

    def take(self, part):
        """Takes in a timeline_states.Part of it that follows what was taken in so far."""
        self.end = part.end
        self.paused += part.end - part.begin if part.state in ("paused", "standing") else 0
        self.iterations = max(self.iterations, part.interval[1] + 1)


def intervals_in(timeline, node):
    """The intervals of positive length that a timeline_states.Timeline has of a node, by begin."""
    found = []
    for part in timeline.rows()[node]:
        if part.state in WITHIN and not part.foreseen:
            if not found or found[-1].begin != part.interval[0]:
                found.append(Interval(node, part.interval[0]))
            found[-1].take(part)
    view = timeline.views.get(node)
    if view and view["state"] in ("active", "paused"):
        if not found or found[-1].begin != view["begin"]:
            found.append(Interval(node, view["begin"]))
        found[-1].playing = True
        found[-1].iterations = max(found[-1].iterations, view["iteration"] + 1)
        found[-1].end = view["end"] if isinstance(view["end"], int) else None
    return found


def intervals_of(timeline):
    """All intervals of a timeline_states.Timeline by begin, those of length 0 too; those to come are left out."""
    found = [interval for node in timeline.rows() for interval in intervals_in(timeline, node)]
    found += [Interval(node, part.begin, part.end) for node, parts in timeline.instants.items() for part in parts]
    return sorted(found, key=lambda interval: interval.begin)


def csv_of(telling, timeline):
    """The intervals as CSV, a header first."""
    text = io.StringIO()
    table = csv.writer(text, lineterminator="\n")
    table.writerow(COLUMNS)
    for interval in intervals_of(timeline):
        node, end = interval.node, "" if interval.end is None else interval.end
        source, title = (node.attributes.get(name, "") for name in ("src", "title"))
        state = "playing" if interval.playing else "ended"
        table.writerow([telling.name, node.name(), node.kind, source, title, interval.begin, end, state,
                        interval.iterations, interval.paused])
    return text.getvalue()
