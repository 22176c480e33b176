"""Tests that pip installs the Python module with its library, without a network."""

import os
import subprocess
import sys
import tempfile
import unittest
from pathlib import Path

from calling import TOP
from test_embed import lacking, made

FOLDER = TOP / "embed" / "python"
USED = """
from tenphsar import Refused, Session
with Session() as session:
    print(session.order("load d", "par", '  img dur="2s"', "%%"), end="")
    print(session.moment("d"), session.next("d"))
"""


def call(*words, **variables):
    """A command's exit number and all that it writes."""
    run = subprocess.run(list(map(str, words)), stdout=subprocess.PIPE, stderr=subprocess.STDOUT, text=True, check=False,
                         env={**os.environ, **variables})
    return run.returncode, run.stdout


def lacks_pip():
    """Whether this Python can't make an environment with pip."""
    return call(sys.executable, "-c", "import ensurepip, venv")[0] != 0


@unittest.skipIf(lacking(), lacking())
@unittest.skipIf(lacks_pip(), "this Python has no venv with pip")
class Installed(unittest.TestCase):
    def test_pip_installs_it(self):
        with tempfile.TemporaryDirectory() as held:
            python = Path(held) / "bin" / "python"
            self.assertEqual(call(sys.executable, "-m", "venv", held)[0], 0)
            install = (python, "-m", "pip", "--disable-pip-version-check", "install", "--no-index", FOLDER)
            code, told = call(*install, TENPHSAR_LIBRARY=str(Path(held) / "none.so"))
            self.assertNotEqual(code, 0)
            self.assertIn("none.so, and there is no such file", told)
            code, told = call(*install, TENPHSAR_LIBRARY=str(made()[1]))
            self.assertEqual(code, 0, told)
            run = subprocess.run([python, "-c", USED], cwd=held, capture_output=True, text=True, check=False)
            self.assertEqual(run.stdout.splitlines(), ["0 #1 active 0 2000 0 0", "0 #2 active 0 2000 0 0", "ok 1 d 0", "0 2000"])


if __name__ == "__main__":
    unittest.main()
