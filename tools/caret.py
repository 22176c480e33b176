#!/usr/bin/env python3
"""Shows the refused lines of a session, each with a sentence and with a ^ under the column at fault.

usage: caret.py SESSION [TRANSCRIPT]
       caret.py --lint [--program SMILPLAY] SESSION

SESSION is the file of script lines. The transcript, of `run` or `check`, is read from the file or
from the standard input:

    smilplay run < show.play | caret.py show.play

With --lint the session is played here, by the smilplay in PATH or by the one that --program names.
Then each fault of a load is shown, and not its first one alone; and behind the faults, as warnings,
references to ids that no element has, elements that never begin or that end where they begin, and
events and keys that changed nothing, with the reason. What is said of more than three elements is
said once. Only what a load chooses is looked at.

The exit number is 1 where an order was refused or a file can't be read, 2 where the words can't be
read, else 0; warnings change nothing. docs/REFUSALS.md says more of each word.
"""

import re
import sys

from lint_document import warnings_of
from lint_events import explained, silent_orders
from lint_load import Load, all_faults
from lint_shape import cause_of, is_no_node
from session import Document, Session
from smilplay import found, transcript_of
from transcript import end_with_pipe, records_of

USAGE = __doc__.split("\n\n")[1]
MEANINGS = {
    "long-line": "the line has more than 16,384 bytes",
    "not-a-command": "the line can't be read as an order",
    "unfinished-load": "the input ends before the %% of this load",
    "bad-outline": "this is no node line: the kind, the shape or the indentation is wrong, or a name stands twice",
    "depth-jump": "the node is more than one level deeper than the line before",
    "too-deep": "the node would have depth 32",
    "bad-place": "the node, the event or the history may not stand here",
    "unknown-attribute": "the kind doesn't have this attribute",
    "unsupported": "SMIL has this, and this profile leaves it out",
    "bad-value": "the value, or this item of it, can't be read",
    "too-many-items": "the list has more than 32 items",
    "duplicate-id": "another node has this id",
    "too-many-elements": "the document would have more than 8,000 nodes",
    "too-many-references": "the document would have more than 32,000 references",
    "no-presentation": "no presentation of this name is held",
    "name-taken": "a presentation of this name is held already",
    "too-many-presentations": "64 presentations are held",
    "no-element": "the document has no such node",
    "root": "the root can't be removed",
    "not-continuous": "only audio, video, animation, textstream and ref have a length of their own",
    "log-full": "the event log has 50,000 entries",
    "beyond-horizon": "the moment would be above 10^12 ms",
    "diary-full": "the diary would have more than 1,000,000 entries",
    "memory": "out of memory",
    "not-yet": "this can be read and not yet played",
    "bad-serial": "the serial stands twice, or isn't below the next one",
    "no-anchor": "a wall clock item is counted from a root that has an id and no begin",
}
WIDEST, OFTEN = 120, 3


def shown_width(front):
    """How many characters the first bytes of a line take on the screen."""
    return len(front.decode("utf-8", "replace"))


def window(text, column):
    """A part of the line of at most WIDEST characters with the column in it, and the column there, both from 0."""
    if len(text) <= WIDEST:
        return text, column
    first = max(0, min(column - WIDEST // 2, len(text) - WIDEST))
    return text[first:first + WIDEST], column - first


def marked(line, column):
    """A line in bytes, and a ^ under one of its columns, counted in characters from 0; None for no ^."""
    text, place = window(line.decode("utf-8", "replace").replace("\t", " "), column or 0)
    yield "  " + text
    if column is not None:
        yield "  " + " " * place + "^"


def shown(name, line, refusal, saved=False):
    """The lines that show one refusal; `line` is the line of the session, in bytes, of an outline with serials where
    `saved` is true."""
    meaning = MEANINGS.get(refusal["word"], "a word that this tool does not know")
    column, place = None, f"{name}:{refusal['line']}"
    if "column" in refusal:
        column, place = shown_width(line[:refusal["column"] - 1]), f"{place}:{refusal['column']}"
    elif refusal["word"] == "bad-place" and "why" in refusal:
        column, meaning = len(line) - len(line.lstrip(b" ")), refusal["why"]
    elif refusal["word"] == "bad-outline" or (refusal["word"] == "depth-jump" and is_no_node(line)):
        text = line.decode("utf-8", "replace")
        cause = cause_of(text, saved)
        column, meaning = cause or (None, meaning)
        place += "" if column is None else f":{len(text[:column].encode()) + 1}"
    yield f"{place}: {refusal['word']}: {meaning}"
    yield from marked(line, column)


def refusals(name, lines, records):
    """The lines that show each refusal among the records of a transcript."""
    session = Session([line.decode("utf-8", "replace") for line in lines])
    for record in records:
        if record["type"] == "refusal":
            line = lines[record["line"] - 1] if record["line"] <= len(lines) else b""
            yield from shown(name, line, record, session.is_saved(record["line"]))


class Linter:
    """A session as it is played and looked through. `lines` are those of the file, in bytes without line ends.

    Raises OSError where the program can't be started.
    """

    def __init__(self, name, lines, program):
        self.name = name
        self.lines = lines
        self.program = program
        self.texts = [line.decode("utf-8", "surrogateescape") for line in lines]
        self.session = Session([line.decode("utf-8", "replace") for line in lines])
        self.transcript = transcript_of(program, "run", self.texts)
        self.refusals = [record for record in records_of(self.transcript.splitlines()) if record["type"] == "refusal"]

    def faults(self):
        """Every refusal: of a load all its faults, and the number alone of the orders that are refused for its sake."""
        lost = {}
        for refusal in self.refusals:
            opening = self.session.opening(refusal["line"])
            if opening is not None and refusal["word"] not in ("name-taken", "too-many-presentations", "diary-full"):
                lost.setdefault(self.session.name(opening), [opening, 0])
                load = Load(self.texts[opening - 1], opening, self.behind(opening), self.preferring(opening))
                for fault in all_faults(self.program, load) or [refusal]:
                    yield from shown(self.name, self.line(fault["line"]), fault, self.session.is_saved(fault["line"]))
            elif refusal["word"] == "no-presentation" and self.session.name(refusal["line"]) in lost:
                lost[self.session.name(refusal["line"])][1] += 1
            else:
                yield from shown(self.name, self.line(refusal["line"]), refusal)
        for name, (opening, count) in lost.items():
            if count:
                yield f"{self.name}:{opening}: {count} orders to {name} are refused, since this load is"

    def line(self, number):
        """A line in bytes; empty where there is no such line."""
        return self.lines[number - 1] if 0 < number <= len(self.lines) else b""

    def behind(self, opening):
        """The lines of a load behind its first one, up to `%%`."""
        count = len(self.session.outline(opening))
        return self.texts[opening:opening + count + 1]

    def preferring(self, opening):
        """The `prefer` lines before a line."""
        return [line for line in self.texts[:opening - 1] if re.match(r" *prefer +[a-z]+ +\S+ *$", line)]

    def warnings(self):
        """What the documents that were loaded surely don't mean, and why events and keys changed nothing."""
        names = set()
        for opening in self.loaded():
            document = Document()
            document.load(self.session.outline(opening), 0, self.session.preferences(opening), opening + 1)
            for remarks in alike(warnings_of(document)):
                shown_once = len(remarks) > OFTEN
                for remark in remarks[:1] if shown_once else remarks:
                    yield from self.warning(remark, len(remarks) - 1 if shown_once else 0)
            names.add(self.session.name(opening))
        for name in sorted(names):
            for silent in silent_orders(self.session.lines, self.transcript, name):
                yield f"{self.name}:{silent.order.line}: warning: nothing changed"
                yield from marked(self.line(silent.order.line), None)
                yield from (f"  {sentence}" for sentence in explained(self.program, self.texts, silent))

    def loaded(self):
        """The first lines of the loads that were accepted."""
        for record in records_of(self.transcript.splitlines()):
            if record["type"] == "ok" and self.session.order(record["line"])[0] == "load":
                yield record["line"]

    def warning(self, remark, others):
        """The lines that show a remark on a node, with a ^ under the attribute that it is about.

        `others` is how many other nodes it is about.
        """
        line = self.line(remark.node.line)
        text = line.decode("utf-8", "replace")
        found_at = text.find(f' {remark.attribute}="') + 1 if remark.attribute else len(text) - len(text.lstrip(" "))
        place = f"{self.name}:{remark.node.line}:{len(text[:found_at].encode()) + 1}"
        also = f" (here and at {others} other elements)" if others else ""
        yield f"{place}: warning: {remark.node.name()}: {remark.sentence}{also}"
        yield from marked(line, found_at)


def alike(remarks):
    """The remarks that say the same together, in the order of the first of each."""
    groups = {}
    for remark in remarks:
        groups.setdefault(remark.sentence, []).append(remark)
    return list(groups.values())


def session_lines(path):
    """The lines of a file in bytes, without line ends. Raises OSError where it can't be read."""
    with open(path, "rb") as session:
        lines = [line.rstrip(b"\r\n") for line in session.read().split(b"\n")]
    return lines[:-1] if lines[-1] == b"" else lines


def lint(path, program):
    """Shows all that can be said of a session; gives the exit number. Raises OSError where it can't be played."""
    linter = Linter(path, session_lines(path), found(program))
    for line in linter.faults():
        print(line)
    for line in linter.warnings():
        print(line)
    return 1 if linter.refusals else 0


def show_refusals(path, transcript):
    """Shows the refusals of a transcript, None for the standard input; gives the exit number. Raises OSError."""
    lines, count = session_lines(path), 0
    with open(transcript, encoding="utf-8", errors="replace") if transcript else sys.stdin as told:
        for line in refusals(path, lines, records_of(told)):
            print(line)
            count += 1
    return 1 if count else 0


def main(words):
    """Does what the words of a call say, and gives the exit number."""
    if words in (["--help"], ["-h"]):
        print(__doc__.strip())
        return 0
    linting, program = words[:1] == ["--lint"], None
    words = words[1:] if linting else words
    if linting and words[:1] == ["--program"] and len(words) > 1:
        program, words = words[1], words[2:]
    if not 1 <= len(words) <= (1 if linting else 2) or any(word.startswith("-") for word in words):
        print(USAGE, file=sys.stderr)
        return 2
    try:
        return lint(words[0], program) if linting else show_refusals(words[0], (words + [None])[1])
    except OSError as fault:
        print(f"caret.py: {fault.filename}: {fault.strerror}", file=sys.stderr)
        return 1


if __name__ == "__main__":
    end_with_pipe()
    sys.exit(main(sys.argv[1:]))
