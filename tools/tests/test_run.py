"""Tests run.py: that what it says of exit numbers is right, with the program brought to each of them."""

import re
import subprocess
import sys
import unittest

from calling import EXAMPLES, TOOLS, TOP, call, program
from smilplay import MEANINGS


def bash(command, **streams):
    """The exit number, output and error output of a shell command, in which $RUN is run.py and $SMILPLAY the program."""
    script = f"set -o pipefail; RUN() {{ '{sys.executable}' -B '{TOOLS / 'run.py'}' \"$@\"; }}; {command}"
    run = subprocess.run(
        ["bash", "-c", script],
        capture_output=True,
        text=True,
        check=False,
        env={"SMILPLAY": program(), "PATH": "/usr/bin:/bin"},
        **streams,
    )
    return run.returncode, run.stdout, run.stderr


class Numbers(unittest.TestCase):
    def test_nothing_is_said_where_the_transcript_says_it(self):
        for session, status in (("load d\npar\n%%\n", 0), ("fly\n", 1)):
            found, out, err = call(TOOLS / "run.py", program(), "run", text=session)
            self.assertEqual((found, err, bool(out)), (status, "", True))

    def test_words(self):
        status, out, err = call(TOOLS / "run.py", program(), "play")
        self.assertEqual((status, err.count("\n")), (2, 1))
        self.assertIn(f"exit number 2: {MEANINGS[2]}", err)

    def test_a_read_that_fails(self):
        status, _, err = bash('RUN "$SMILPLAY" run <&-')
        self.assertEqual(status, 3)
        self.assertIn("exit number 3: a read failed", err)

    def test_a_write_that_fails(self):
        status, _, err = bash(f'RUN "$SMILPLAY" run < {EXAMPLES}/first.play > /dev/full')
        self.assertEqual(status, 4)
        self.assertIn("exit number 4: a write failed", err)

    def test_an_input_that_is_too_long(self):
        status, _, err = bash('head -c 67108865 /dev/zero | tr "\\0" "\\n" | RUN "$SMILPLAY" run')
        self.assertEqual(status, 6)
        self.assertIn("exit number 6: the input has more", err)

    def test_no_memory(self):
        session = "load d\npar\n" + '  img dur="1s"\n' * 7000 + "%%\n"
        status, out, err = bash("RUN bash -c 'ulimit -v 12000; exec \"$SMILPLAY\" run'", input=session)
        self.assertEqual((status, out), (5, "! 1 memory\n"))
        self.assertIn("exit number 5: there was no memory", err)

    def test_a_word_that_cannot_be_read(self):
        status, _, err = bash("RUN \"$SMILPLAY\" $'\\xff'")
        self.assertEqual(status, 7)
        self.assertIn("exit number 7: a word can't be read", err)

    def test_no_program_and_signals(self):
        status, _, err = call(TOOLS / "run.py", "nowhere", "run")
        self.assertEqual((status, err.count("\n"), "Traceback" in err), (127, 1, False))
        status, _, err = bash("RUN /bin/sh -c 'kill -9 $$'")
        self.assertEqual((status, "SIGKILL" in err), (137, True))

    def test_help_and_usage(self):
        self.assertIn("usage: run.py", call(TOOLS / "run.py", "--help")[1])
        self.assertEqual(call(TOOLS / "run.py")[0], 2)

    def test_each_number_of_the_manual_has_its_sentence(self):
        script = (TOP / "docs" / "SCRIPT.md").read_text()
        numbers = re.findall(r"^\| ([0-9]) \| ", script[script.index("## The exit number") :], re.MULTILINE)
        self.assertEqual([int(number) for number in numbers], list(MEANINGS))


if __name__ == "__main__":
    unittest.main()
