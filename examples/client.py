#!/usr/bin/env python3
"""Holds smilplay by pipes, and shows what is on the screen at each second.

usage: client.py SMILPLAY
"""

import re
import subprocess
import sys

LAST = re.compile(r"ok [0-9]+ |! ")
SHOW = ["load show", "excl", '  priorityClass peers="pause"', '    par id="lesson" begin="0s" dur="5s"',
        '      video id="film" dur="indefinite"', '      text id="caption" dur="3s"',
        '    text id="help" begin="film.click" dur="2s"', "%%"]


def parents_of(outline):
    """The parent of each element, by the names that a transcript has for them, from an outline without serials."""
    parents, above = {}, []
    for serial, line in enumerate(outline, 1):
        depth = (len(line) - len(line.lstrip(" "))) // 2
        name = re.search(r' id="([^"]*)"', line)
        above[depth:] = [name[1] if name else f"#{serial}"]
        parents[above[depth]] = above[depth - 1] if depth > 0 else None
    return parents


class Player:
    """A smilplay that runs, and what it has told of each element of one presentation."""

    def __init__(self, program):
        self.process = subprocess.Popen([program, "run"], stdin=subprocess.PIPE, stdout=subprocess.PIPE, text=True)
        self.states = {}
        self.parents = {}

    def load(self, *lines):
        """Sends a load, whose outline says which element stands in which."""
        self.parents = parents_of(lines[1:-1])
        return self.order(*lines)

    def order(self, *lines):
        """Sends the lines of one order, takes in its changes, and gives the last line of the answer."""
        self.process.stdin.write("".join(line + "\n" for line in lines))
        self.process.stdin.flush()
        for line in self.process.stdout:
            if LAST.match(line):
                return line.rstrip("\n")
            words = line.split()
            self.states[words[1]] = words[2]
        raise EOFError("smilplay has ended")

    def stands(self, element):
        """Whether an element, or one that it stands in, is paused."""
        while element is not None and self.states.get(element) != "paused":
            element = self.parents[element]
        return element is not None

    def screen(self):
        """What is to be seen: each element without children that is active, paused or frozen."""
        media = [element for element in self.states if element not in self.parents.values()]
        shown = [f"{element} ({'stands' if self.stands(element) else self.states[element]})"
                 for element in media if self.states[element] in ("active", "paused", "frozen")]
        return ", ".join(shown) or "nothing"

    def close(self):
        """Ends the session, and gives the exit number."""
        self.process.stdin.close()
        return self.process.wait()


def main(program):
    player = Player(program)
    player.load(*SHOW)
    for second in range(9):
        if second == 2:
            print(player.order("show event film click"))
        print(f"{second} s: {player.screen()}")
        player.order("show advance 1s")  # a player waits here until its clock has moved on
    print(player.order("show event nobody click"))
    return player.close()


if __name__ == "__main__":
    sys.exit(main(sys.argv[1]) if len(sys.argv) == 2 and sys.argv[1][0] != "-" else __doc__)
