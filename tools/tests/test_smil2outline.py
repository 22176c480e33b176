"""Tests smil2outline.py on the files in the folder smil, written after the Recommendation's examples."""

import unittest
from pathlib import Path

from calling import TOOLS, call, smilplay
from smil_clock import milliseconds

FILES = sorted((Path(__file__).resolve().parent / "smil").glob("*.smil"))


class Outlines(unittest.TestCase):
    def test_there_are_files(self):
        self.assertGreaterEqual(len(FILES), 10)

    def test_outlines_and_warnings(self):
        for file in FILES:
            wanted = file.with_suffix(".outline")
            status, out, err = call(TOOLS / "smil2outline.py", file.name, folder=file.parent)
            self.assertEqual((status, out), (0, wanted.read_text()) if wanted.exists() else (1, ""), file.name)
            self.assertEqual(err, file.with_suffix(".warnings").read_text(), file.name)

    def test_the_program_reads_every_outline(self):
        for file in FILES:
            if file.with_suffix(".outline").exists():
                _, out, _ = call(TOOLS / "smil2outline.py", "--load", "d", file)
                self.assertTrue(smilplay("check", out).endswith("ok 1 d\n"), file.name)
                self.assertIn("ok 1 d 0\n", smilplay("run", out), file.name)

    def test_milliseconds(self):
        rows = (("02:30:03", 9003000), ("00:10.5", 10500), ("3.2h", 11520000), ("45min", 2700000), ("5ms", 5),
                ("12.467", 12467), ("0.0009999", 0))
        for clock, wanted in rows:
            self.assertEqual(milliseconds(clock), wanted)

    def test_help_and_usage(self):
        self.assertIn("usage: smil2outline.py", call(TOOLS / "smil2outline.py", "--help")[1])
        self.assertEqual(call(TOOLS / "smil2outline.py")[0], 2)


if __name__ == "__main__":
    unittest.main()
