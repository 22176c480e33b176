"""Calls smilplay, and says what its exit numbers mean. Texts are lines without their ends."""

import shutil
import subprocess

MEANINGS = {
    0: "every order was accepted; or the diary is right",
    1: "an order was refused; or the diary is wrong",
    2: "the words are others than run, check, gen NUMBER and audit",
    3: "a read failed: the orders that were whole before it are answered",
    4: "a write failed: what was to be written is lost",
    5: "there was no memory to begin with, or an order was answered `memory`",
    6: "the input has more than 67,108,864 bytes: the orders that were whole before are answered",
    7: "a word can't be read",
}


def found(program=None):
    """The path of the program: the one given, or that of smilplay in PATH. Raises OSError where there is none."""
    path = shutil.which(program or "smilplay")
    if path is None:
        raise OSError(None, "no such program; --program names it", program or "smilplay")
    return path


def transcript_of(program, word, lines):
    """What the program answers to lines without line ends, as a text. Raises OSError where it can't be started."""
    text = "".join(line + "\n" for line in lines).encode("utf-8", "surrogateescape")
    run = subprocess.run([program, word], input=text, capture_output=True, check=False)
    return run.stdout.decode("utf-8", "replace")
