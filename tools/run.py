#!/usr/bin/env python3
"""Calls smilplay, and says on the standard error what its exit number means, where that isn't 0 or 1.

usage: run.py SMILPLAY [WORD..]

SMILPLAY is the path of the program or its name in PATH; the words are handed on, and so are the
standard input and output:

    run.py smilplay run < show.play > show.txt

The exit number is that of smilplay; 127 where there is no such program, and 128 and its number where
a signal ended it, as in a shell.
"""

import signal
import subprocess
import sys

from smilplay import MEANINGS, found


def sentence(program, number):
    """What to say of an exit number, or of the number of a signal below 0; None where the transcript says it."""
    if number < 0:
        return f"{program}: ended by the signal {signal.Signals(-number).name}"
    if number in (0, 1):
        return None
    return f"{program}: exit number {number}: {MEANINGS.get(number, 'none of smilplay')}"


def main(words):
    """Does what the words of a call say, and gives the exit number."""
    if words in (["--help"], ["-h"]):
        print(__doc__.strip())
        return 0
    if not words or words[0].startswith("-"):
        print(__doc__.split("\n\n")[1], file=sys.stderr)
        return 2
    try:
        number = subprocess.run([found(words[0]), *words[1:]], check=False).returncode
    except OSError as fault:
        print(f"run.py: {words[0]}: {fault.strerror}", file=sys.stderr)
        return 127
    except KeyboardInterrupt:
        return 128 + signal.SIGINT
    said = sentence(words[0], number)
    if said:
        print(said, file=sys.stderr)
    return 128 - number if number < 0 else number


if __name__ == "__main__":
    sys.exit(main(sys.argv[1:]))
