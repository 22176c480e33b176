"""Finds all faults of a load, of which smilplay tells the first: by reading it again without what was at fault.

What is at fault is left out so that the columns of the rest stay: spaces take the place of an
attribute, and a line that can't be read becomes its bare kind. So what hangs on it may be missed.
"""

import re

from lint_document import CONTAINERS
from smilplay import transcript_of
from transcript import KINDS, records_of

MOST = 100
BARE = re.compile(r"( *)([A-Za-z]*)")
WHOLE = ("too-many-elements", "too-many-references", "bad-serial", "memory", "unfinished-load", "not-a-command")


class Load:
    """A load as its faults are taken out of it. `opening` is its first line and its number, `lines` are those behind
    it up to `%%`, `before` are the `prefer` lines before it. Lines are texts without line ends."""

    def __init__(self, opening, number, lines, before=()):
        self.opening = opening
        self.number = number
        self.lines = list(lines)
        self.before = list(before)
        self.shift = [0] * len(self.lines)

    def first_fault(self, program):
        """The refusal of what is left, as transcript.py has it, with its line in the session; None for none."""
        session = [*self.before, self.opening, *self.lines]
        for record in records_of(transcript_of(program, "check", session).splitlines()):
            if record["type"] == "refusal":
                place = record["line"] - len(self.before) - 2
                found = dict(record, line=self.number + place + 1, place=place)
                if record["word"] == "bad-place":
                    found["why"] = self.why_misplaced(place)
                if "column" in record:
                    found["column"] += self.shift[place] if 0 <= place < len(self.lines) else 0
                return found
        return None

    def take_out(self, fault):
        """Takes out what a fault is about. False where nothing can be taken out, so that reading again is no use."""
        place, word = fault["place"], fault["word"]
        if word in WHOLE or not 0 <= place < len(self.lines) or self.lines[place].strip(" ") == "%%":
            return False
        before = self.lines[:]
        if word == "no-anchor":
            self.lines = [blanked(line, r'(?:begin|end)="[^"]*wallclock\([^"]*"') for line in self.lines]
        elif word == "duplicate-id":
            self.lines[place] = blanked(self.lines[place], r'id="[^"]*"')
        elif word == "depth-jump":
            self.raise_block(place)
        elif word in ("bad-place", "too-deep"):
            self.misplaced(place)
        elif "column" in fault and fault["column"] - self.shift[place] > len(BARE.match(self.lines[place])[0]):
            self.lines[place] = without_attribute(self.lines[place], fault["column"] - self.shift[place])
        else:
            self.lines[place] = self.bare(place)
        return self.lines != before

    def depth(self, place):
        """The level of a line, from 0."""
        return (len(self.lines[place]) - len(self.lines[place].lstrip(" "))) // 2

    def block(self, place):
        """The places of a line and of all deeper ones behind it."""
        end = place + 1
        while end < len(self.lines) and self.lines[end].strip(" ") != "%%" and (
                not self.lines[end].strip() or self.depth(end) > self.depth(place)):
            end += 1
        return range(place, end)

    def above(self, place):
        """The kind of what a line stands in, None for a root."""
        for other in range(place - 1, -1, -1):
            line = self.lines[other]
            if line.strip() and not line.startswith("#") and self.depth(other) < self.depth(place):
                return line.split()[0]
        return None

    def why_misplaced(self, place):
        """Why a node may not stand in a line."""
        kind, above = self.lines[place].split()[0], self.above(place)
        if above is None:
            first = not any(line.strip() and not line.startswith("#") for line in self.lines[:place])
            return f"the root is a par, seq or excl, and no {kind}" if first else "a second root; an outline has one"
        if above not in (*CONTAINERS, "priorityClass", "switch"):
            return f"{above} has no children"
        if kind == "priorityClass":
            return "a priorityClass stands in an excl, beside others of its kind alone"
        return f"{kind} stands beside a priorityClass; all children of this excl have to be in one"

    def raise_block(self, place):
        """Brings a line that is too deep, with all below it, to one level below the node before it."""
        above = next((other for other in range(place - 1, -1, -1) if self.lines[other].strip()
                      and not self.lines[other].startswith("#")), None)
        levels = self.depth(place) - (0 if above is None else self.depth(above) + 1)
        for other in self.block(place):
            if self.lines[other].startswith("  " * levels):
                self.lines[other] = self.lines[other][2 * levels:]
                self.shift[other] += 2 * levels

    def misplaced(self, place):
        """Takes a node away that may not stand where it does, with all below it; a root becomes a par."""
        if self.depth(place) == 0 and not any(line.strip() and not line.startswith("#") for line in self.lines[:place]):
            self.lines[place] = "par"
            return
        for other in self.block(place):
            self.lines[other] = ""

    def bare(self, place):
        """A line of its kind alone, a par where that can't be read and nodes stand below it; else an empty line."""
        line = self.lines[place].replace("\t", "  ")
        spaces, word = BARE.match(line).groups()
        kind = next((kind for kind in KINDS if kind.lower() == word.lower()), None)
        spaces = " " * (len(spaces) // 2 * 2)
        holds = len(self.block(place)) > 1
        bare = f"{spaces}{kind}" if kind else f"{spaces}par" if holds or not spaces else ""
        return bare if bare != self.lines[place] else ""


def blanked(line, pattern):
    """A line with as many spaces in the place of what a pattern finds behind a space."""
    return re.sub(" " + pattern, lambda match: " " * len(match[0].encode()), line)


def without_attribute(line, column):
    """A line with spaces in the place of the attribute in which a column stands, in bytes from 1."""
    for match in re.finditer(r' [^\s"]+="[^"]*"', line):
        first = len(line[:match.start()].encode())
        if first < column <= first + len(match[0].encode()) + 1:
            return line[:match.start()] + " " * len(match[0].encode()) + line[match.end():]
    return line


def all_faults(program, load):
    """Every fault of a load that is found, at most MOST, in the order of its lines: refusals as transcript.py has
    them. Raises OSError where the program can't be started."""
    faults = []
    while len(faults) < MOST:
        fault = load.first_fault(program)
        if fault is None:
            break
        faults.append({name: value for name, value in fault.items() if name != "place"})
        if not load.take_out(fault):
            break
    return sorted(faults, key=lambda fault: (fault["line"], fault.get("column", 0)))
