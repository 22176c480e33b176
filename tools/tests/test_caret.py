"""Tests caret.py."""

import re
import tempfile
import unittest
from pathlib import Path

from calling import EXAMPLES, TOOLS, TOP, call, smilplay
from caret import MEANINGS


class Caret(unittest.TestCase):
    def shown(self, session):
        with tempfile.TemporaryDirectory() as folder:
            Path(folder, "s.play").write_text(session)
            return call(TOOLS / "caret.py", "s.play", text=smilplay("run", session), folder=folder)

    def test_the_mark_stands_under_the_column(self):
        status, out, _ = self.shown('load d\npar alt="é\u20ac" dur="x"\n%%\n')
        self.assertEqual(status, 1)
        self.assertEqual(out.splitlines(), ["s.play:2:22: bad-value: the value, or this item of it, can't be read",
                                            '  par alt="é\u20ac" dur="x"', "  " + " " * 18 + "^"])

    def test_a_word_without_column_has_no_mark(self):
        _, out, _ = self.shown("d fly\n")
        self.assertEqual(out.splitlines(), ["s.play:1: not-a-command: the line can't be read as an order", "  d fly"])

    def test_a_long_line_is_shown_in_part(self):
        _, out, _ = self.shown('load d\npar alt="' + "a" * 900 + '" dur="x" title="' + "b" * 900 + '"\n%%\n')
        _, text, mark = out.splitlines()
        self.assertEqual((len(text), text[len(mark) - 1]), (122, "x"))

    def test_nothing_refused(self):
        self.assertEqual(self.shown("load d\npar\n%%\n"), (0, "", ""))

    def test_every_column_of_the_examples_is_in_its_line(self):
        for path in sorted(EXAMPLES.glob("*.play")):
            status, out, _ = call(TOOLS / "caret.py", path, f"{path}.stdout")
            refused = re.search("^! ", Path(f"{path}.stdout").read_text(), re.MULTILINE)
            self.assertEqual(status, 1 if refused else 0)
            self.assertNotIn("does not know", out)

    def test_every_refusal_is_known_here_and_in_the_manual(self):
        script = (TOP / "docs" / "SCRIPT.md").read_text()
        words = re.findall(r"^\| [0-9]+ \| `([a-z-]+)`", script, re.MULTILINE)
        self.assertEqual(set(words), set(MEANINGS))
        sections = re.findall(r"^### ([a-z-]+)$", (TOP / "docs" / "REFUSALS.md").read_text(), re.MULTILINE)
        self.assertEqual(sorted(words), sorted(sections))

    def test_help_and_usage(self):
        self.assertIn("usage: caret.py", call(TOOLS / "caret.py", "--help")[1])
        self.assertEqual(call(TOOLS / "caret.py")[0], 2)


if __name__ == "__main__":
    unittest.main()
