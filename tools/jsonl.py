#!/usr/bin/env python3
"""Turns a transcript of smilplay into JSON lines: an object for each line.

usage: jsonl.py [TRANSCRIPT]

The transcript is read from the file, or from the standard input. Each object has a "type" and the
fields of that type, which transcript.py lists. An object that belongs to an accepted order has two
fields more: "order", the order's line in the session, and "presentation". Objects are written as
soon as their answer is whole, so jsonl.py can stand in a pipe. The exit number is 1 where the file
can't be read, and 2 where the words can't be read.
"""

import json
import sys

from transcript import answers_of, end_with_pipe


def objects_of(lines):
    """The objects of a transcript, in its order."""
    for told, last in answers_of(lines):
        for record in told:
            if last and last["type"] == "ok":
                record = dict(record, order=last["line"], presentation=last["presentation"])
            yield record
        if last:
            yield last


def main(words):
    """Does what the words of a call say, and gives the exit number."""
    if words in (["--help"], ["-h"]):
        print(__doc__.strip())
        return 0
    if len(words) > 1:
        print("usage: jsonl.py [TRANSCRIPT]", file=sys.stderr)
        return 2
    try:
        with open(words[0], encoding="utf-8", errors="replace") if words else sys.stdin as lines:
            for record in objects_of(lines):
                print(json.dumps(record, ensure_ascii=False), flush=True)
    except OSError as fault:
        print(f"jsonl.py: {fault.filename}: {fault.strerror}", file=sys.stderr)
        return 1
    return 0


if __name__ == "__main__":
    end_with_pipe()
    sys.exit(main(sys.argv[1:]))
