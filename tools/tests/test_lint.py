"""Tests caret.py --lint: causes of faults, all faults of a load, warnings, and events that did nothing."""

import re
import tempfile
import unittest
from pathlib import Path

from calling import EXAMPLES, TOOLS, call, program, smilplay
from lint_document import Item, warnings_of
from lint_shape import cause_of
from session import Document

LINT = Path(__file__).resolve().parent / "lint"


def linted(session):
    """The exit number and the output of the linter for a session."""
    with tempfile.TemporaryDirectory() as folder:
        Path(folder, "s.play").write_text(session)
        return call(TOOLS / "caret.py", "--lint", "--program", program(), "s.play", folder=folder)


def remarks(*lines):
    """The node and the sentence of each warning of an outline."""
    document = Document()
    document.load(lines)
    return [(remark.node.name(), remark.sentence) for remark in warnings_of(document)]


class Shapes(unittest.TestCase):
    def test_each_cause_has_its_place_and_its_words(self):
        rows = (
            ("<par>", 0, "XML"),
            ('par id="x"/>', 10, "XML"),
            ("\timg", 0, "a tab"),
            ('par\tid="x"', 3, "a tab"),
            ("par id='x'", 7, "single quotes"),
            ("par id=\u201cx\u201d", 7, "typographic"),
            ("par id=x", 7, "no quotes"),
            ('par id="x', 7, "at the end of the value"),
            ('par id = "x"', 6, "around the equals sign"),
            ('par id= "x"', 7, "around the equals sign"),
            ("picture", 0, "img is meant"),
            ("vidoe", 0, "video is meant"),
            ("PAR", 0, "PAR is written par"),
            ("  # c", 2, "a comment"),
            ('par id="x" # c', 11, "a comment"),
            ('par id="x" // c', 11, "a comment"),
            ('id="x"', 0, "no kind stands"),
            (" par", 0, "1 space stands"),
            ("   par", 0, "3 spaces stand"),
            ('par id="x"src="y"', 10, "a space is missing"),
            ('par id="x" id="y"', 11, "stands twice"),
            ("par x", 4, "has no value"),
            ('par id="x", dur="2s"', 10, "spaces alone"),
            ("par #3", 4, "a serial"),
            ("%%", 0, "no node"),
        )
        for line, place, words in rows:
            found = cause_of(line)
            self.assertEqual(found[0], place, line)
            self.assertIn(words, found[1], line)
            told = smilplay("check", f"load d\n{line}\n%%\n" if line != "%%" else "load d\n%%\n")
            self.assertIn("depth-jump" if line == "  # c" else "bad-outline", told, line)

    def test_a_comment_that_is_too_deep_is_called_a_comment(self):
        _, out, _ = linted("load d\n  # c\npar\n%%\n")
        self.assertIn("s.play:2:3: depth-jump: a comment is a line of its own", out)

    def test_a_node_line_has_no_cause(self):
        for line in ("par", '  img id="a"  dur="2s" ', 'priorityClass peers="stop"', "switch"):
            self.assertIsNone(cause_of(line))
        self.assertIsNone(cause_of('par #3 id="x"', True))
        self.assertIn("serials", cause_of('par id="x"', True)[1])

    def test_the_cause_is_shown_without_the_linter_too(self):
        with tempfile.TemporaryDirectory() as folder:
            Path(folder, "s.play").write_text("load d\npar alt=\u00e9\n%%\n")
            _, out, _ = call(TOOLS / "caret.py", "s.play", text="! 2 bad-outline\n", folder=folder)
        self.assertEqual(
            out,
            "s.play:2:9: bad-outline: the value has no quotes; double quotes are wanted\n"
            "  par alt=\u00e9\n          ^\n",
        )


class AllFaults(unittest.TestCase):
    def test_the_sessions_of_the_folder(self):
        for name, status in (("faults", 1), ("warnings", 0)):
            found, out, err = call(TOOLS / "caret.py", "--lint", "--program", program(), f"{name}.play", folder=LINT)
            self.assertEqual((found, out, err), (status, (LINT / f"{name}.wanted").read_text(), ""))

    def test_a_fault_hides_no_other_one(self):
        faulty = ['img dur="x"', 'img fill="y"', "imgg", 'img begin="1s;;"', 'img dur="1s" max="z"', "par x"]
        _, out, _ = linted("load d\npar\n" + "".join(f"  {line}\n" for line in faulty) + "%%\n")
        self.assertEqual(
            re.findall(r"^s\.play:([0-9]+):([0-9]+): ", out, re.MULTILINE),
            [("3", "12"), ("4", "13"), ("5", "3"), ("6", "17"), ("7", "21"), ("8", "7")],
        )

    def test_why_a_node_may_not_stand_where_it_does(self):
        rows = (
            ("img", "the root is a par, seq or excl, and no img"),
            ("par\npar", "a second root; an outline has one"),
            ("par\n  img\n    text", "img has no children"),
            ("par\n  priorityClass", "a priorityClass stands in an excl"),
            ("excl\n  priorityClass\n  img", "img stands beside a priorityClass"),
            ("excl\n  img\n  priorityClass", "beside others of its kind alone"),
        )
        for outline, words in rows:
            out = linted(f"load d\n{outline}\n%%\n")[1]
            self.assertRegex(out, f"bad-place: .*{words}")

    def test_what_is_said_of_many_elements_is_said_once(self):
        out = linted("load d\npar\n" + "  img\n" * 9 + "%%\n")[1]
        self.assertEqual(out.count("warning"), 1)
        self.assertIn(" (here and at 8 other elements)\n", out)

    def test_columns_stay_where_a_line_was_too_deep(self):
        _, out, _ = linted('load d\npar\n      img dur="x"\n%%\n')
        self.assertIn("s.play:3: depth-jump", out)
        self.assertIn("s.play:3:16: bad-value", out)

    def test_what_is_preferred_before_the_load_is_read_with_it(self):
        session = (
            'prefer language fr\nload d\npar\n  switch\n    img systemLanguage="fr" dur="x"\n    img dur="y"\n%%\n'
        )
        _, out, _ = linted(session)
        self.assertEqual((out.count("bad-value"), out.count('"y"')), (1, 0))

    def test_a_load_that_is_refused_for_its_name_is_not_read_again(self):
        self.assertEqual(linted("load d\npar\n%%\nload d\npar\n%%\n")[1].count("name-taken"), 1)

    def test_wall_clock_items_without_an_anchor_are_one_fault(self):
        _, out, _ = linted(
            'load d at 2026-01-01T00:00:00Z\npar\n  img begin="wallclock(2026-01-01)"\n  img dur="x"\n%%\n'
        )
        self.assertEqual((out.count("no-anchor"), out.count("bad-value")), (1, 1))

    def test_help_usage_and_faults_in_one_line(self):
        for words in (("--lint",), ("--lint", "a", "b"), ("--what", "a"), ("a", "b", "c")):
            self.assertEqual(call(TOOLS / "caret.py", *words)[0], 2, words)
        for words in (
            ("nowhere.play",),
            (EXAMPLES / "first.play", "nowhere.txt"),
            ("--lint", "--program", program(), "nowhere.play"),
            ("--lint", "--program", "nowhere", EXAMPLES / "first.play"),
        ):
            status, out, err = call(TOOLS / "caret.py", *words)
            self.assertEqual((status, out, err.count("\n"), "Traceback" in err), (1, "", 1, False), words)


class Warnings(unittest.TestCase):
    def test_items(self):
        for text, wanted in (
            ("2s", ("offset", None, 2000)),
            ("- 1.5", ("offset", None, -1500)),
            ("indefinite", ("indefinite", None, None)),
            ("a\\.b.end+2s", ("sync", "a.b", "end")),
            ("a.click", ("event", "a", "click")),
            ("click", ("event", None, "click")),
            ("a.endEvent", ("event", "a", "endEvent")),
            ("repeat(2)", ("repeat", None, "2")),
            ("a.repeat(3)", ("repeat", "a", "3")),
            ("accesskey(x)", ("key", None, "x")),
            ("wallclock(2026-01-01)", ("wallclock", None, None)),
        ):
            item = Item(text)
            self.assertEqual((item.kind, item.base, item.what), wanted)

    def test_what_never_begins(self):
        self.assertEqual(
            remarks(
                "par",
                '  img id="a" begin="indefinite" dur="1s"',
                '  img id="b" begin="a.end" dur="1s"',
                '  excl dur="9s"',
                '    img id="c" dur="1s"',
                '  img id="d" begin="3s" end="1s" dur="9s"',
                '  par id="e" begin="d.begin" dur="1s"',
                '    img dur="2s"',
            ),
            [
                ("a", "it never begins: its begin is indefinite, and no order begins an element"),
                ("b", "it never begins: what its begin waits for never comes"),
                ("c", "it never begins: a child of an excl waits for its begin list, and it has none"),
                ("d", "it never begins: each of its ends comes before each of its begins"),
                ("e", "it never begins: what its begin waits for never comes"),
            ],
        )

    def test_what_may_begin_is_passed_over(self):
        self.assertEqual(
            remarks(
                "par",
                '  img id="a" begin="b.end;3s" dur="1s"',
                '  img id="b" begin="a.end" dur="1s"',
                "  seq",
                '    img dur="indefinite" end="a.click"',
                '    img dur="2s"',
                '  img begin="accesskey(x)" end="2s"',
                "  audio",
                '  set id="s" targetElement="a" attributeName="x" to="y"',
            ),
            [],
        )

    def test_the_program_never_plays_what_is_said_to_end_at_once_or_never_to_begin(self):
        for path in sorted(EXAMPLES.glob("*.play")):
            lines = path.read_text().splitlines()
            if (
                not lines
                or "load " not in lines[0]
                or re.search(r"^\S+ (?:set|unset|insert|remove|media) ", path.read_text(), re.MULTILINE)
            ):
                continue
            document = Document()
            document.load(lines[1 : lines.index("%%")])
            told = Path(f"{path}.stdout").read_text()
            for remark in warnings_of(document):
                if "it never begins" in remark.sentence:
                    self.assertNotRegex(told, rf"(?m)^[0-9]+ {re.escape(remark.node.name())} active ")
                elif "ends where it begins" in remark.sentence:
                    for begin, end in re.findall(
                        rf"(?m)^[0-9]+ {re.escape(remark.node.name())} (?:done|frozen) (\S+) (\S+) ", told
                    ):
                        self.assertEqual(begin, end)


class Events(unittest.TestCase):
    def why(self, outline, *orders):
        """The sentence on the last of the orders."""
        _, out, _ = linted(
            "load d\n" + "".join(line + "\n" for line in outline) + "%%\n" + "".join(f"d {order}\n" for order in orders)
        )
        return out.splitlines()[-1].strip()

    def test_each_reason(self):
        outline = [
            'par id="p"',
            '  img id="a" begin="click" dur="2s" restart="whenNotActive"',
            '  img id="b" begin="0s" end="p.stop" dur="1s"',
            '  par id="q" begin="9s" dur="1s"',
            '    img id="c" begin="p.go" dur="1s"',
            '  img id="n" begin="key1" dur="1s" restart="never"',
        ]
        for orders, words in (
            (
                ("event a click", "event a click"),
                "it is active, and its restart is whenNotActive (history: from 0 to 2000, playing)",
            ),
            (
                ("advance 2s", "event p stop"),
                "b waits for it to end: it is done, and only an active element hears what ends it",
            ),
            (("event p go",), "q, in which it stands, is waiting, so it hears nothing"),
            (("event n key1", "advance 2s", "event n key1"), "it has played, and its restart is never"),
            (("event a clack",), "nothing waits for clack of a; what is waited for is click"),
            (("event b click",), "nothing waits for click of b; what is waited for is a.click"),
            (("key x",), "nothing waits for the key x"),
        ):
            self.assertIn(words, self.why(outline, *orders), orders)

    def test_what_an_excl_lets_pass_and_what_is_paused(self):
        outline = [
            'par id="p"',
            '  excl dur="indefinite"',
            '    priorityClass peers="never"',
            '      img id="a" begin="0s" dur="9s"',
            '      img id="b" begin="click" dur="9s"',
        ]
        self.assertIn("the excl let it pass", self.why(outline, "event b click"))
        outline = [
            'excl id="x"',
            '  priorityClass peers="pause"',
            '    par id="one" begin="0s" dur="9s"',
            '      par dur="9s"',
            '        img id="in" begin="click" dur="1s"',
            '    img id="two" begin="1s" dur="5s"',
        ]
        self.assertIn(
            "one, in which it stands, is paused, so it hears nothing", self.why(outline, "advance 2s", "event in click")
        )


if __name__ == "__main__":
    unittest.main()
