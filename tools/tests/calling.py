"""Calls of the program and the tools, for the tests."""

import os
import subprocess
import sys
from pathlib import Path

TOP = Path(__file__).resolve().parent.parent.parent
TOOLS = TOP / "tools"
EXAMPLES = TOP / "examples"


def program():
    """The path of the smilplay that is tested."""
    return os.environ["SMILPLAY"]


def smilplay(word, text):
    """What the program writes for a session."""
    return subprocess.run([program(), word], input=text, capture_output=True, text=True, check=False).stdout


def call(path, *words, text="", folder=None):
    """A Python program's exit number, output and error output."""
    run = subprocess.run([sys.executable, "-B", str(path), *map(str, words)], input=text, capture_output=True,
                         text=True, check=False, cwd=folder)
    return run.returncode, run.stdout, run.stderr
