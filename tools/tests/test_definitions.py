"""Tests of the definitions as they run: what they give for the sessions that are stored."""

import contextlib
import functools
import io
import sys
import threading
import unittest
from pathlib import Path

sys.path.insert(0, str(Path(__file__).resolve().parent.parent))

from definitions import collection, explain, kit, mutants, rules, values
from definitions.modules import Library, Missing
from definitions.sessions import CRATES, ENTRIES, Definitions, counts_text

FAST = """load d
par dur="30ms"
  excl id="x" dur="25ms"
    priorityClass peers="pause"
      video id="film" begin="0ms" dur="9ms" repeatCount="1.5"
      text id="help" begin="film.click;20ms" dur="3ms"
  img id="late" begin="film.end+1ms" dur="2ms"
%%
d advance 4ms
d event film click
d advance 30ms
d history film
d seek 3ms
d advance 9ms
"""


def in_room(function, *arguments):
    """Calls a function where there is room for deep recursion."""
    results, errors = [], []

    def run():
        try:
            results.append(function(*arguments))
        except BaseException as error:
            errors.append(error)

    limit = sys.getrecursionlimit()
    sys.setrecursionlimit(1_000_000)
    size = threading.stack_size(512 * 1024 * 1024)
    thread = threading.Thread(target=run)
    thread.start()
    thread.join()
    threading.stack_size(size)
    sys.setrecursionlimit(limit)
    if errors:
        raise errors[0]
    return results[0]


def written(definitions, words, text):
    values.forget()
    parts = []
    status = definitions.serve(words, text, parts.append)
    return b"".join(parts), status


@functools.lru_cache(maxsize=None)
def of_the_crates():
    """The definitions of the crates, read once for all tests, which are run one by one."""
    return Definitions()


class Sessions(unittest.TestCase):
    @property
    def definitions(self):
        return of_the_crates()

    def check(self, sessions):
        for session in sessions:
            if session.name not in collection.LEFT_OUT:
                with self.subTest(session.name):
                    found, _ = in_room(written, self.definitions, session.words, session.text)
                    self.assertEqual(found.decode(), session.wanted.decode())

    def test_examples(self):
        self.check(collection.examples())

    def test_pages(self):
        self.check(collection.page_sessions())

    def test_states_are_valid_and_diaries_lawful(self):
        for session in collection.all_sessions():
            if session.words == ["run"]:
                with self.subTest(session.name):
                    self.assertEqual(in_room(lambda: list(self.definitions.unlawful(session.text))), [])

    def test_worked_presentations_hold(self):
        worked = in_room(lambda: dict(self.definitions.worked()))
        self.assertGreater(len(worked), 10)
        self.assertEqual([name for name, holds in worked.items() if not holds], [])

    def test_left_out_stand_in_the_repository(self):
        names = {session.name for session in collection.examples()}
        self.assertEqual(set(collection.LEFT_OUT) - names, set())

    def test_exit_numbers(self):
        cases = ((["run"], b"", 0), (["run"], b"x\n", 1), (["play"], b"", 2), (["gen", "1"], b"", 0))
        for words, text, status in cases:
            self.assertEqual(in_room(written, self.definitions, words, text)[1], status)

    def test_each_step_by_itself(self):
        fast, _ = in_room(written, self.definitions, ["run"], FAST.encode())
        values.FOLLOWS[0] = False
        try:
            slow, _ = in_room(written, self.definitions, ["run"], FAST.encode())
        finally:
            values.FOLLOWS[0] = True
        self.assertEqual(fast.decode(), slow.decode())
        self.assertIn("paused", fast.decode())

    def test_counts(self):
        for session in collection.counted_sessions():
            with self.subTest(session.name):
                found = in_room(counts_text, self.definitions, session.text)
                self.assertEqual(found, session.wanted.decode())

    def test_whole_transcript_at_once(self):
        transcript = self.definitions.program.definition("smil_top.Transcript", "transcript_by")
        told = in_room(lambda: transcript(self.definitions.at("run"), self.definitions.orders(FAST.encode())))
        self.assertEqual(bytes(told.text), in_room(written, self.definitions, ["run"], FAST.encode())[0])


class Tools(unittest.TestCase):
    def test_explanation(self):
        tour = str(collection.TOP / "examples/tour.play")
        out = io.StringIO()
        with contextlib.redirect_stdout(out):
            status = in_room(explain.explain, ["film", "6000", tour])
        self.assertEqual(status, 0)
        self.assertIn("interval_of = (Some {begin = 0; end = (At 10000)})", out.getvalue())
        self.assertIn("smil_model/specs/interval/Intervals.antt:", out.getvalue())

    def test_a_change_is_seen(self):
        tries = mutants.Tries()
        first = [session for session in collection.examples() if session.name == "examples/first.play"]
        in_room(tries.use, first)
        library = tries.program.library
        seen = [in_room(tries.seen_by, change)
                for change in mutants.changes_of(library, "smil_model.shown.Lines", "ok_line")]
        self.assertNotEqual(set(seen), {None})

    def test_what_cannot_be_read_is_said(self):
        module, name = ENTRIES["first line"]
        library = Library(CRATES)
        text = library.module(module).path.read_text(encoding="utf-8")
        spoiled = text.replace("first_line (single line) =", "first_line (single line) = )")
        definitions = Definitions(change=(module, spoiled))
        with self.assertRaises(Missing) as raised:
            definitions.at("first line")
        self.assertIn("no rule for", str(raised.exception))

    def test_kit(self):
        for text, parts in ((b"a\r\nb\n\nc", (b"a", b"b", b"", b"c")), (b"", ()), (b"\n", (b"",)), (b"a\r", (b"a\r",))):
            self.assertEqual(kit.lines(tuple(text)), tuple(map(tuple, parts)))
        self.assertEqual(kit.decimal(-12), tuple(b"-12"))
        self.assertEqual(kit.quotient(7, 0), 0)


class Rules(unittest.TestCase):
    """The rules of docs/TIMING.md, each with a change of a definition and the session that sees it."""

    def test_each_row_has_one(self):
        told, words = rules.told(), [rule.words for rule in rules.rules()]
        self.assertEqual([row for row in told if sum(map(row.startswith, words)) != 1], [])
        self.assertEqual(len(told), len(words))

    def test_each_is_seen_or_has_a_reason(self):
        tries, named = mutants.Tries(), rules.sessions()
        in_room(tries.translate, rules.ENTERED)
        for rule in rules.rules():
            with self.subTest(rule.words):
                if rule.session:
                    self.assertTrue(in_room(rules.sees, tries, rule, named[rule.session]))
                else:
                    self.assertTrue(rule.reason)


class Lines(unittest.TestCase):
    """Numbers that stand for a stretch."""

    def test_comparison_ends_a_stretch(self):
        with values.Stretch(1) as stretch:
            self.assertTrue(values.line(3, 0, 1) < 10)
        self.assertEqual(stretch.end, 7)
        with values.Stretch(1) as stretch:
            self.assertFalse(10 <= values.line(3, 0, 1))
        self.assertEqual(stretch.end, 7)
        with values.Stretch(1) as stretch:
            self.assertFalse(values.line(3, 0, 2) == 8)
        self.assertEqual(stretch.end, values.NEVER)

    def test_fold_is_followed(self):
        calls = []

        def step(place, before):
            calls.append(place)
            return before + (1 if place < 1000 else 0)

        function = values.Fold(lambda: 0, step, True, True)
        for place, wanted in ((0, 0), (1, 1), (999, 999), (1000, 1000), (1001, 1000), (10 ** 9, 1000)):
            self.assertEqual(function((), place), wanted)
        self.assertLess(len(calls), 20)

    def test_loop_is_followed(self):
        calls = []

        def step(count, state):
            calls.append(state)
            return values.Again(count - 1, state + 1) if state < 10 ** 6 else state

        function = values.Loop(lambda count, state: state, step, 0)
        self.assertEqual(function((10 ** 9, 0)), 10 ** 6)
        self.assertEqual(function((5, 0)), 5)
        self.assertLess(len(calls), 20)


if __name__ == "__main__":
    unittest.main()
