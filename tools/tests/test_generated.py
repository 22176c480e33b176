"""Tests the library by generated sessions: that C and Python answer as the program does."""

import subprocess
import sys
import unittest

import generating
from calling import program
from test_embed import EMBED, lacking, made


def run(words, text):
    """A command's exit number and output."""
    told = subprocess.run(list(map(str, words)), input=text, stdout=subprocess.PIPE, check=False)
    return told.returncode, told.stdout


@unittest.skipIf(lacking(), lacking())
class Generated(unittest.TestCase):
    def test_c(self):
        text = generating.sessions(11, 1000).encode()
        self.assertEqual(run([made()[0]], text), run([program(), "run"], text))

    def test_python(self):
        text = generating.sessions(12, 300).encode()
        self.assertEqual(run([sys.executable, "-B", EMBED / "tenphsar.py", made()[1]], text), run([program(), "run"], text))


if __name__ == "__main__":
    unittest.main()
