"""Reads a transcript of smilplay: a record for each line, and the answers that the lines make up.

A record is a dictionary whose "type" is one of

  change    an element's state from a moment on: moment, element, state, begin, end, iteration, finished
  gone      an element was removed: moment, element
  interval  a line of `history`: element, begin, end, how
  value     a line of `values`: target, attribute, value, setter
  layer     a line of `stack`: setter, value
  entry     a line of `diary`: moment, step, and element, begin, start, end, event, length or key
  now       the last line of `diary`: moment
  outline   a line of an outline, as `text`, `save`, `diary` and `check` tell it: text
  ok        the end of an accepted order: line, presentation, and moment or closed; of a line
            `prefer` and in `check` there is neither, and a preference is told as of `prefer`
  refusal   a refused order: line, word, and column where the word has one
  verdict   the line of `audit`: right, and entries or place
  text      any other line, as the usage line: text

A time is a number of milliseconds, one of the words "indefinite", "unresolved" and "?", or None for `-`.
"""

import re
import signal

STATES = ("active", "paused", "deferred", "frozen", "waiting", "done", "idle")
KINDS = ("par", "seq", "excl", "priorityClass", "img", "text", "brush", "audio", "video", "animation",
         "textstream", "ref", "set")

_NUMBER = re.compile(r"-?[0-9]+$")
_INTERVAL = re.compile(r'([^\s"]+) from (\S+) to (\S+) (ended|cut|playing)$')
_VALUE = re.compile(r'([^\s"]+) ([^\s"]+) "([^"]*)" ([^\s"]+)$')
_LAYER = re.compile(r'([^\s"]+) "([^"]*)"$')
_BEHIND_STEP = {"began": "begin", "deferred": "begin", "passed": "begin", "repeated": "start", "ended": "end",
                "event": "event", "media": "length"}


def time_of(word):
    """The time that a word of a line tells."""
    if word.isdecimal():
        return int(word)
    if word == "-":
        return None
    return int(word) if _NUMBER.match(word) else word


def record_of(line):
    """The record of one line, which has no line end."""
    words = line.split(" ")
    if len(words) == 7 and words[0].isdecimal() and words[2] in STATES:
        return _timed(words)
    if words[0] == "ok" and len(words) in (3, 4) and words[1].isdigit():
        return _ok(words)
    if words[0] == "!" and len(words) in (3, 4):
        return _refusal(words)
    if _NUMBER.match(words[0]) and len(words) > 1:
        return _timed(words) or {"type": "text", "text": line}
    if words[0] in ("now", "yes", "no") and len(words) == 2 and _NUMBER.match(words[1]):
        return _counted(words[0], int(words[1]))
    return _told(line)


def _counted(word, number):
    """The record of a word with a number."""
    if word == "now":
        return {"type": "now", "moment": number}
    return {"type": "verdict", "right": word == "yes", ("entries" if word == "yes" else "place"): number}


def _ok(words):
    record = {"type": "ok", "line": int(words[1]), "presentation": words[2]}
    if len(words) == 4 and words[3] == "closed":
        record["closed"] = True
    elif len(words) == 4:
        record["moment"] = int(words[3])
    return record


def _refusal(words):
    record = {"type": "refusal", "line": int(words[1]), "word": words[2]}
    if len(words) == 4:
        record["column"] = int(words[3])
    return record


def _timed(words):
    """The record of a line that begins with a moment, or None."""
    moment = int(words[0])
    if len(words) == 7 and words[2] in STATES:
        return {"type": "change", "moment": moment, "element": words[1], "state": words[2],
                "begin": time_of(words[3]), "end": time_of(words[4]),
                "iteration": int(words[5]), "finished": int(words[6])}
    if len(words) == 3 and words[2] == "gone":
        return {"type": "gone", "moment": moment, "element": words[1]}
    return _entry(moment, words)


def _entry(moment, words):
    record = {"type": "entry", "moment": moment, "step": words[1]}
    if words[1] == "key" and len(words) == 3:
        record["key"] = words[2]
    elif words[1] in ("cut", "paused", "resumed") and len(words) == 3:
        record["element"] = words[2]
    elif words[1] in _BEHIND_STEP and len(words) == 4:
        record["element"] = words[2]
        record[_BEHIND_STEP[words[1]]] = words[3] if words[1] == "event" else time_of(words[3])
    else:
        return None
    return record


def _told(line):
    match = _INTERVAL.match(line)
    if match:
        return {"type": "interval", "element": match[1], "begin": time_of(match[2]), "end": time_of(match[3]),
                "how": match[4]}
    match = _VALUE.match(line)
    if match:
        return {"type": "value", "target": match[1], "attribute": match[2], "value": match[3], "setter": match[4]}
    match = _LAYER.match(line)
    if match:
        return {"type": "layer", "setter": match[1], "value": match[2]}
    first = line.strip().split(" ")[0]
    if first in KINDS or first == "%%" or line.startswith("outline "):
        return {"type": "outline", "text": line}
    return {"type": "text", "text": line}


def records_of(lines):
    """The record of each line, line ends dropped."""
    for line in lines:
        yield record_of(line.rstrip("\n"))


def answers_of(lines):
    """Each answer: the records before its last one, and its last one, an ok or a refusal.

    Lines behind the last answer, as those of `gen`, come with None in place of a last record.
    """
    told = []
    for record in records_of(lines):
        if record["type"] in ("ok", "refusal"):
            yield told, record
            told = []
        else:
            told.append(record)
    if told:
        yield told, None


def end_with_pipe():
    """Lets a tool end quietly when nobody reads on, as in `.. | head`."""
    if hasattr(signal, "SIGPIPE"):
        signal.signal(signal.SIGPIPE, signal.SIG_DFL)
