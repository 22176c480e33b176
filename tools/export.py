#!/usr/bin/env python3
"""Writes what a transcript tells in the forms that other programs read.

usage: export.py FORM [--session FILE] [--name NAME] [--clips FILE] [TRANSCRIPT]

The transcript is read from the file or from the standard input. FORM is one of

  jsonl  JSON lines, as jsonl.py writes them, of all presentations
  csv    a line for each interval: presentation, element, kind, source, title, begin, end, state,
         iterations, paused. Times are whole milliseconds; state is `ended`, or `playing` where the
         interval goes on, and then the end is the foreseen one or empty; paused is how long an excl
         held it up to then
  vtt    WebVTT: a cue for each time that a text element is seen, playing, paused or kept by its fill.
         What it says is the text of a `data:` source, else its alt, else its title
  otio   OpenTimelineIO: a clip for each stretch in which a media element plays, in as many tracks as
         are needed; rate 1000, so that values are milliseconds

  --session FILE  the session of this transcript: without it neither kinds nor sources are known, so
                  vtt and otio need it
  --name NAME     the presentation; without it, that of the first answer
  --clips FILE    for otio, where in its media each clip begins, as smil2outline.py --clips writes it

What was told counts, up to the present moment, and of what plays then the end that is foreseen. So
advance to the end first. A seek back takes back what came later. The exit number is 1 where a file
can't be read or nothing is told, and 2 where the words can't be read.
"""

import json
import sys

from export_csv import csv_of
from export_otio import otio_of
from export_vtt import vtt_of
from jsonl import objects_of
from session import Session, telling_of
from timeline_states import timelines_of
from transcript import answers_of, end_with_pipe

USAGE = __doc__.split("\n\n")[1]


class Options:
    """What the words of a call say. Raises ValueError where they can't be read."""

    NAMES = {"--session": "session", "--name": "name", "--clips": "clips"}

    def __init__(self, words):
        self.session = self.name = self.clips = None
        if not words or words[0] not in ("jsonl", "csv", "vtt", "otio"):
            raise ValueError("the first word is jsonl, csv, vtt or otio")
        self.form, words = words[0], words[1:]
        while words and words[0].startswith("-"):
            if len(words) < 2 or words[0] not in self.NAMES:
                raise ValueError(f"{words[0]} is no option, or a word is missing behind it")
            setattr(self, self.NAMES[words[0]], words[1])
            words = words[2:]
        if len(words) > 1:
            raise ValueError("one transcript at most")
        if self.form in ("vtt", "otio") and self.session is None:
            raise ValueError(f"{self.form} needs --session")
        self.transcript = words[0] if words else None


def begins_in(path):
    """Where in its media each clip of a file of clips begins, in milliseconds, by ids. Raises OSError, and ValueError
    for a file that isn't one."""
    with open(path, encoding="utf-8") as lines:
        return {clip["element"]: clip["begin"] for clip in map(json.loads, lines)}


def exported(options, lines):
    """The text that the options ask for. Raises OSError for files, and ValueError where nothing is told."""
    if options.form == "jsonl":
        return "".join(json.dumps(record, ensure_ascii=False) + "\n" for record in objects_of(lines))
    session = None
    if options.session is not None:
        with open(options.session, encoding="utf-8", errors="replace") as orders:
            session = Session(orders)
    telling = telling_of(answers_of(lines), session, options.name)
    if not telling.orders:
        raise ValueError(f"nothing is told of {options.name}" if options.name else "nothing is told of a presentation")
    timeline = timelines_of(telling)[0][0]
    if options.form == "csv":
        return csv_of(telling, timeline)
    if options.form == "vtt":
        return vtt_of(telling, timeline)
    return otio_of(telling, timeline, begins_in(options.clips) if options.clips else {})


def main(words):
    """Does what the words of a call say, and gives the exit number."""
    if words in (["--help"], ["-h"]):
        print(__doc__.strip())
        return 0
    try:
        options = Options(words)
    except ValueError as fault:
        print(f"export.py: {fault}\n{USAGE}", file=sys.stderr)
        return 2
    try:
        sys.stdin.reconfigure(encoding="utf-8", errors="replace")
        with open(options.transcript, encoding="utf-8", errors="replace") if options.transcript else sys.stdin as lines:
            sys.stdout.write(exported(options, lines))
    except OSError as fault:
        print(f"export.py: {fault.filename}: {fault.strerror}", file=sys.stderr)
        return 1
    except (ValueError, KeyError, TypeError) as fault:
        print(f"export.py: {fault}", file=sys.stderr)
        return 1
    return 0


if __name__ == "__main__":
    end_with_pipe()
    sys.exit(main(sys.argv[1:]))
