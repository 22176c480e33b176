"""Tests by the sources what no clause can say: that every evaluation is counted by the counter of its session.

A clause says by how much a counter rises, and only `evaluate` and `evaluate_absent` of smil_interval
can raise one. What it can't say is that no second counter is made, and that no interval is found
without `evaluate`.
"""

import re
import unittest

from calling import TOP

# The library too counts the evaluations of a line by a counter made for it, since its caller is told of none.
PROGRAMS = ("smilplay", "smil_test_sessions", "smil_test_plays", "smil_test_texts", "tenphsar")
# What every crate may take from smil_interval, besides types: the calls that count, and a comparison of intervals.
CALLS = {"evaluate", "evaluate_absent", "is_same_interval"}
COUNTERS = re.compile(r"\bledger::(?:\{.*)?\bBlank\b|\bBlank::new\b|\bSteps(?:::<\w+>)?::new\b|\.open::<")


def code(path):
    """The lines of a source file with their numbers, without comments and imports of definitions."""
    text = re.sub(r"^[ \t]*//.*$|^[ \t]*ghost use [^;]*;", lambda found: "\n" * found[0].count("\n"),
                  path.read_text(encoding="utf-8"), flags=re.MULTILINE)
    return enumerate(text.split("\n"), 1)


def taken(line):
    """What a line takes from smil_interval besides types, by `use` or by a path: calls, modules, `*` and `self`."""
    parts = re.findall(r"\bsmil_interval\b(?:::(\{[^}]*\}|\w+|\*))?", line)
    names = {name for part in parts for name in re.findall(r"[\w*]+", part) or ["self"]}
    return {name for name in names if not name[0].isupper()}


class Counting(unittest.TestCase):
    def setUp(self):
        self.files = [(path.relative_to(TOP / "crates").parts[0], path)
                      for path in sorted((TOP / "crates").glob("*/src/**/*.rt"))]

    def found(self, shown):
        """The crates in which a call gives something of a line of code, with the first place in each."""
        places = {}
        for crate, path in self.files:
            for number, line in code(path):
                if shown(line):
                    places.setdefault(crate, f"{path.relative_to(TOP)}:{number}")
        return places

    def test_counters_are_made_in_the_programs_alone(self):
        places = self.found(COUNTERS.search)
        self.assertEqual(set(places), {*PROGRAMS, "smil_interval"}, places)
        self.assertEqual(places.pop("smil_interval").split(":")[0], "crates/smil_interval/src/steps.rt")

    def test_a_counter_rises_where_an_interval_is_evaluated_alone(self):
        places = self.found(lambda line: re.search(r"\.tick\(", line))
        self.assertEqual(set(places), {"smil_interval"}, places)
        ticks = [line for crate, path in self.files if crate == "smil_interval" for _, line in code(path)
                 if ".tick(" in line]
        self.assertEqual([line.strip() for line in ticks], ["steps.tick();"] * 2)

    def test_intervals_are_searched_by_evaluate_and_the_program_of_cases_alone(self):
        places = self.found(lambda line: taken(line) - CALLS)
        self.assertEqual(set(places) - {"smil_interval"}, {"smil_test_texts"}, places)


if __name__ == "__main__":
    unittest.main()
