"""The media elements of a presentation as OpenTimelineIO's JSON. Times are milliseconds, at the rate 1000."""

import json

TRACKS = {"Video": ("img", "brush", "video", "animation", "textstream", "ref", "text"), "Audio": ("audio",)}
RATE = 1000


class Stretch:
    """A stretch in which a media element plays, in milliseconds; `offset` is where in its media it begins."""

    def __init__(self, node, begin, end, offset):
        self.node = node
        self.begin = begin
        self.end = end
        self.offset = offset


def stretches_of(timeline, node):
    """The stretches in which an element plays: after a pause its media goes on, with an iteration it begins anew."""
    played, last = 0, None
    for part in timeline.rows().get(node, []):
        if part.state != "active" or part.end is None:
            continue
        if not part.foreseen:
            played, last = (played if part.interval == last else 0), part.interval
        yield Stretch(node, part.begin, part.end, played)
        played += part.end - part.begin


def merged(stretches):
    """Stretches of which one that goes on where the last one ended is one with it."""
    found = []
    for one in stretches:
        if found and found[-1].end == one.begin and found[-1].offset + one.begin - found[-1].begin == one.offset:
            found[-1].end = one.end
        else:
            found.append(one)
    return found


def tracks_of(stretches):
    """The stretches in as few tracks as hold them, those of a track one behind the other."""
    tracks = []
    for one in sorted(stretches, key=lambda one: (one.begin, one.end)):
        track = next((track for track in tracks if track[-1].end <= one.begin), None)
        if track is None:
            tracks.append([one])
        else:
            track.append(one)
    return tracks


def time_range(start, length):
    """A range of OpenTimelineIO, in milliseconds."""
    return {"OTIO_SCHEMA": "TimeRange.1", "start_time": {"OTIO_SCHEMA": "RationalTime.1", "rate": RATE, "value": start},
            "duration": {"OTIO_SCHEMA": "RationalTime.1", "rate": RATE, "value": length}}


def clip_of(one, begins):
    """A clip of OpenTimelineIO; `begins` are where clips begin in their media, by ids."""
    node, source = one.node, one.node.attributes.get("src")
    reference = {"OTIO_SCHEMA": "MissingReference.1", "available_range": None, "metadata": {}, "name": ""}
    if source:
        reference.update({"OTIO_SCHEMA": "ExternalReference.1", "target_url": source})
    start = begins.get(node.attributes.get("id"), 0) + one.offset
    return {"OTIO_SCHEMA": "Clip.1", "name": node.attributes.get("title") or node.name(), "effects": [], "markers": [],
            "enabled": True, "media_reference": reference, "source_range": time_range(start, one.end - one.begin),
            "metadata": {"smilplay": {"element": node.name(), "kind": node.kind}}}


def gap(length):
    """A gap of OpenTimelineIO, in milliseconds."""
    return {"OTIO_SCHEMA": "Gap.1", "name": "", "effects": [], "markers": [], "enabled": True,
            "source_range": time_range(0, length), "metadata": {}}


def track_of(name, kind, stretches, begins):
    """A track of OpenTimelineIO: clips, and gaps where nothing plays."""
    children, at = [], 0
    for one in stretches:
        if one.begin > at:
            children.append(gap(one.begin - at))
        children.append(clip_of(one, begins))
        at = one.end
    return {"OTIO_SCHEMA": "Track.1", "name": name, "kind": kind, "children": children, "effects": [], "markers": [],
            "enabled": True, "source_range": None, "metadata": {}}


def otio_of(telling, timeline, begins):
    """The media elements as OpenTimelineIO's JSON. Raises ValueError where none plays."""
    tracks = []
    for kind, kinds in TRACKS.items():
        nodes = [node for node in telling.document.ordered() if node.kind in kinds]
        stretches = [one for node in nodes for one in merged(stretches_of(timeline, node))]
        stretches = [one for one in stretches if one.end > max(one.begin, 0)]
        for number, track in enumerate(tracks_of(stretches), 1):
            tracks.append(track_of(f"{kind} {number}", kind, track, begins))
    if not tracks:
        raise ValueError("no media element plays")
    stack = {"OTIO_SCHEMA": "Stack.1", "name": "tracks", "children": tracks, "effects": [], "markers": [],
             "enabled": True, "source_range": None, "metadata": {}}
    whole = {"OTIO_SCHEMA": "Timeline.1", "name": telling.name, "global_start_time": None, "metadata": {},
             "tracks": stack}
    return json.dumps(whole, ensure_ascii=False, indent=1) + "\n"
