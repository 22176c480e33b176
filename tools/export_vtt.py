"""The text elements of a presentation as WebVTT. Times are milliseconds."""

import base64
import re
from urllib.parse import unquote_to_bytes

SEEN = ("active", "standing", "paused", "frozen")


def words_of(node):
    """What a text element says: the text of a data source, else its alt, else its title; empty where it has none."""
    match = re.match(r"data:([^,]*),(.*)$", node.attributes.get("src", ""), re.DOTALL)
    if match:
        data = unquote_to_bytes(match[2])
        try:
            data = base64.b64decode(data, validate=True) if match[1].endswith(";base64") else data
        except ValueError:
            return ""
        return data.decode("utf-8", "replace")
    return node.attributes.get("alt") or node.attributes.get("title") or ""


def stamp(moment):
    """A moment in milliseconds as WebVTT writes it."""
    seconds, rest = divmod(max(moment, 0), 1000)
    return f"{seconds // 3600:02}:{seconds // 60 % 60:02}:{seconds % 60:02}.{rest:03}"


def seen(timeline, node):
    """When an element is seen, from and to in milliseconds; what is foreseen without a known end is left out."""
    pairs = []
    for part in timeline.rows().get(node, []):
        if part.state not in SEEN or part.end is None:
            continue
        if pairs and pairs[-1][1] == part.begin:
            pairs[-1][1] = part.end
        else:
            pairs.append([part.begin, part.end])
    return [(max(begin, 0), end) for begin, end in pairs if end > max(begin, 0)]


def vtt_of(telling, timeline):
    """The text elements as WebVTT. Raises ValueError where no text element says anything."""
    texts = [node for node in telling.document.ordered() if node.kind == "text" and words_of(node).strip()]
    if not texts:
        raise ValueError("no text element has a data source, an alt or a title")
    cues = sorted((begin, end, place, node) for place, node in enumerate(texts) for begin, end in seen(timeline, node))
    lines = ["WEBVTT", ""]
    for begin, end, _, node in cues:
        words = "\n".join(line for line in words_of(node).splitlines() if line.strip())
        safe = words.replace("&", "&amp;").replace("<", "&lt;").replace(">", "&gt;")
        lines += [node.name(), f"{stamp(begin)} --> {stamp(end)}", safe, ""]
    return "\n".join(lines)
