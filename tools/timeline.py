#!/usr/bin/env python3
"""Draws a transcript as an SVG picture, or as a page to look around in: a bar for each state of each element.

usage: timeline.py [--html] [--session FILE] [--name NAME] [--compare LINE] [--from CLOCK] [--to CLOCK]
                   [--only REF] [--width PIXELS] [TRANSCRIPT] > FILE

The transcript is read from the file or from the standard input. Full bars are what was told up to
the present moment, which is a red line; pale bars with a broken edge are what is foreseen, up to
the foreseen end of what stands above. A foreseen bar without a known end goes to the right edge. A
diamond is an interval of length 0.

  --html          one page that needs nothing else: tree, axis to zoom and move, states at a cursor,
                  orders, what each edit changed. Its keys are shown by `?`
  --session FILE  the session of this transcript. Rows then stand in the order of the document, with
                  kinds and indentation, and what stands inside a paused element is drawn so
  --name NAME     the presentation; without it, that of the first answer
  --compare LINE  two panels side by side: as it was told before the order in this line of the
                  session, and after it. In the right one the past of the elements that the order
                  changed is drawn anew from their new intervals, as for an edit
  --from CLOCK    the first moment that is drawn, as 90s or 01:30
  --to CLOCK      the last one
  --only REF      only this element, and with --session what is in it; it may be given several times
  --width PIXELS  the width of a panel's time axis, from 100 to 10000; 560 without it

A seek back drops what was told of later moments. The exit number is 1 where a file can't be read or
there is no such order, and 2 where the words can't be read.
"""

import re
import sys

from session import Session, telling_of
from smil_clock import CLOCK, milliseconds
from timeline_page import page_of
from timeline_states import timelines_of
from timeline_svg import picture
from transcript import answers_of, end_with_pipe

USAGE = __doc__.split("\n\n")[1]


class Options:
    """What the words of a call say. Raises ValueError where they can't be read."""

    NAMES = {"--session": "session", "--name": "name", "--compare": "compare", "--from": "first", "--to": "last",
             "--width": "width"}

    def __init__(self, words):
        self.html, self.only = False, []
        self.session = self.name = self.compare = self.first = self.last = None
        self.width = "560"
        while words and words[0].startswith("-"):
            words = self.take(words)
        if len(words) > 1:
            raise ValueError
        self.transcript = words[0] if words else None
        self.compare = None if self.compare is None else number_of(self.compare)
        self.first, self.last = moment_of(self.first), moment_of(self.last)
        self.width = number_of(self.width)
        if not 100 <= self.width <= 10000:
            raise ValueError

    def take(self, words):
        """Takes in an option, and gives the words behind it. Raises ValueError where it can't be read."""
        if words[0] == "--html":
            self.html = True
            return words[1:]
        if len(words) < 2 or words[0] not in (*self.NAMES, "--only"):
            raise ValueError
        if words[0] == "--only":
            self.only.append(words[1])
        else:
            setattr(self, self.NAMES[words[0]], words[1])
        return words[2:]


def number_of(word):
    """The number in a word of up to nine digits. Raises ValueError for any other word."""
    if not re.match(r"[0-9]{1,9}$", word):
        raise ValueError
    return int(word)


def moment_of(word):
    """The milliseconds of a clock value, None of None. Raises ValueError for any other word."""
    if word is None:
        return None
    if not re.match(CLOCK + "$", word):
        raise ValueError
    return milliseconds(word)


def drawn(options):
    """The text that the options ask for. Raises OSError where a file can't be read, ValueError where there is no such
    order or element."""
    session = None
    if options.session is not None:
        with open(options.session, encoding="utf-8", errors="replace") as lines:
            session = Session(lines)
    if options.transcript is None:
        sys.stdin.reconfigure(encoding="utf-8", errors="replace")
    with (open(options.transcript, encoding="utf-8", errors="replace") if options.transcript else sys.stdin) as lines:
        telling = telling_of(answers_of(lines), session, options.name)
    if options.html:
        return page_of(telling, options.compare, options.first, options.last, options.only)
    timelines = timelines_of(telling, options.compare)
    return picture(telling, timelines, options.width, options.first, options.last, options.only)


def main(words):
    """Does what the words of a call say, and gives the exit number."""
    if words in (["--help"], ["-h"]):
        print(__doc__.strip())
        return 0
    try:
        options = Options(words)
    except ValueError:
        print(USAGE, file=sys.stderr)
        return 2
    try:
        sys.stdout.write(drawn(options))
    except OSError as fault:
        print(f"timeline.py: {fault.filename}: {fault.strerror}", file=sys.stderr)
        return 1
    except ValueError as fault:
        print(f"timeline.py: {fault}", file=sys.stderr)
        return 1
    return 0


if __name__ == "__main__":
    end_with_pipe()
    sys.exit(main(sys.argv[1:]))
