#!/usr/bin/env python3
"""Runs the definitions: what has to be believed, executed as it stands.

usage: definitions.py [--counts] SESSION [WORD ..]
       definitions.py --explain ELEMENT MOMENT [--of NAME] SESSION
       definitions.py --cover [SESSION ..]
       definitions.py --changes [NUMBER [SECONDS]]
       definitions.py --rules

The definitions of crates/*/specs are read, translated to Python clause by clause and run; only the kit's prelude is
written in Python (tools/definitions/kit.py). Printed is what smilplay writes for the session with these words, which
are those of SESSION.args where no WORD is given, or `run`; the exit number is smilplay's.

--counts   prints in place of it for each order the number of its first line, and how often intervals are evaluated
           for it: at least and at most; and then the sums.
--explain  prints which definitions give an element its interval and its view at a moment of the presentation that the
           session loads last, or of NAME: its lists and what each item gives, its facts, its interval, its view.
           MOMENT is in milliseconds, and not behind the session's last moment.
--cover    runs sessions, all examples and those of the pages where none is given, and prints the clauses that none
           of them uses.
--changes  changes single places of the definitions behind each rule of docs/TIMING.md, up to NUMBER of each (2), and
           tells which session sees each change, or that none does; of each change for at most so many seconds.
--rules    changes a definition behind each rule of docs/TIMING.md as tools/definitions/rules.txt says, and tells
           whether the session that stands there sees it.

It needs Python 3.8 and nothing else. It tells in its own words what it can't read: the file, the line and the form.
"""

import gc
import sys
import threading
from pathlib import Path

sys.path.insert(0, str(Path(__file__).resolve().parent))
sys.dont_write_bytecode = True

from definitions import syntax  # noqa: E402
from definitions.modules import Missing  # noqa: E402
from definitions.sessions import Definitions, counts_text, text_of, words_of  # noqa: E402

DEPTH = 1_000_000
STACK = 512 * 1024 * 1024


def write(text):
    """Writes bytes to the standard output, and hands them on at once."""
    sys.stdout.buffer.write(text)
    sys.stdout.buffer.flush()


def play(session, words):
    """Prints the transcript of a session."""
    return Definitions().serve(words or words_of(session), text_of(session), write)


def count(session):
    """Prints the numbers of evaluations of a session."""
    print(counts_text(Definitions(), text_of(session)), end="")
    return 0


def main(words):
    """Does what the words ask for, and gives the exit number."""
    if not words or words[0] in ("--help", "-h"):
        print(__doc__.strip())
        return 0 if words else 2
    if words[0] == "--counts" and len(words) == 2:
        return count(words[1])
    if words[0] == "--explain" and len(words) >= 4:
        from definitions.explain import explain
        return explain(words[1:])
    if words[0] == "--cover":
        from definitions.cover import cover
        return cover(words[1:])
    if words[0] == "--changes":
        from definitions.mutants import main as changes
        return changes(words[1:])
    if words[0] == "--rules":
        from definitions.rules import main as rules
        return rules()
    if words[0].startswith("--"):
        print("usage: definitions.py [--counts] SESSION [WORD ..], or --help", file=sys.stderr)
        return 2
    return play(words[0], words[1:])


def with_room(words):
    """Runs in a thread with room for deep recursion: lists are walked by recursion."""
    ended = []

    def run():
        try:
            ended.append(main(words))
        except (Missing, syntax.Unreadable, OSError) as why:
            print(f"definitions.py: {why}", file=sys.stderr)
            ended.append(2)

    gc.disable()                # values have no cycles
    sys.setrecursionlimit(DEPTH)
    threading.stack_size(STACK)
    thread = threading.Thread(target=run)
    thread.start()
    thread.join()
    return ended[0] if ended else 3


if __name__ == "__main__":
    sys.exit(with_room(sys.argv[1:]))
