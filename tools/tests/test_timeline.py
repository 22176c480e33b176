"""Tests timeline.py: that its bars stand where the transcript says."""

import os
import tempfile
import unittest
from pathlib import Path
from xml.etree import ElementTree

from calling import EXAMPLES, TOOLS, call, smilplay
from timeline_svg import clock

SVG = "{http://www.w3.org/2000/svg}"
PAUSED = """load d
excl
  priorityClass peers="pause"
    par id="lesson" begin="0s" dur="10s"
      audio id="voice" dur="indefinite"
    img id="help" begin="lesson.help" dur="5s"
%%
d advance 3s
d event lesson help
d advance 6s
"""


def picture(*words, text):
    status, out, err = call(TOOLS / "timeline.py", *words, text=text)
    assert status == 0, err
    return ElementTree.fromstring(out)


def bars(root):
    """Element, state, from and to of each bar, with whether it is foreseen."""
    return [(bar.get("data-element"), bar.get("data-state"), bar.get("data-from"), bar.get("data-to"),
             bar.get("fill-opacity") is not None) for bar in root.iter(SVG + "rect") if bar.get("class") == "bar"]


def played(session, *words):
    """The picture of a session, drawn with the session's tree."""
    with tempfile.TemporaryDirectory() as folder:
        place = Path(folder) / "d.play"
        place.write_text(session)
        return picture("--session", place, *words, text=smilplay("run", session))


class Timeline(unittest.TestCase):
    def setUp(self):
        self.kiosk = (EXAMPLES / "kiosk.play.stdout").read_text()
        self.tour = (EXAMPLES / "tour.play.stdout").read_text()

    def test_bars_are_the_states_that_were_told(self):
        found = [bar for bar in bars(picture(text=self.kiosk)) if bar[0] in ("film", "call")]
        self.assertEqual(found, [
            ("film", "active", "0", "5000", False), ("film", "paused", "5000", "28000", False),
            ("film", "active", "28000", "80000", False), ("film", "active", "80000", "83000", True),
            ("call", "deferred", "9000", "19000", False), ("call", "active", "19000", "25000", False)])

    def test_bars_stand_at_their_moments(self):
        root = picture("--width", "830", text=self.kiosk)
        placed = [bar for bar in root.iter(SVG + "rect") if bar.get("class") == "bar"]
        left = min(float(bar.get("x")) for bar in placed)
        rows = {}
        for bar in placed:
            begin, end = int(bar.get("data-from")), int(bar.get("data-to"))
            self.assertAlmostEqual(float(bar.get("x")) - left, begin / 100, delta=0.11)
            self.assertAlmostEqual(float(bar.get("width")), (end - begin) / 100, delta=0.11)
            rows.setdefault(bar.get("y"), []).append((begin, end, bar.get("data-element")))
        for row in rows.values():
            self.assertEqual(len({element for _, _, element in row}), 1)
            for (_, end, _), (begin, _, _) in zip(row, row[1:]):
                self.assertLessEqual(end, begin)
        now = next(line for line in root.iter(SVG + "line") if line.get("class") == "now")
        self.assertAlmostEqual(float(now.get("x1")) - left, 800, delta=0.11)

    def test_nothing_stands_outside(self):
        for example in ("kiosk", "quiz", "slide_show", "talking_book", "hundred_presentations"):
            root = picture(text=(EXAMPLES / f"{example}.play.stdout").read_text())
            width, height = float(root.get("width")), float(root.get("height"))
            for bar in root.iter(SVG + "rect"):
                if bar.get("x") is not None:
                    self.assertLessEqual(float(bar.get("x")) + float(bar.get("width")), width)
                    self.assertLessEqual(float(bar.get("y")) + float(bar.get("height")), height)

    def test_before_and_after_an_edit(self):
        root = picture("--compare", "13", text=self.tour)
        self.assertEqual([bar for bar in bars(root) if bar[0] == "help"], [
            ("help", "active", "4000", "6000", False), ("help", "active", "6000", "7000", True),
            ("help", "active", "4000", "6000", False), ("help", "active", "6000", "9000", True)])
        captions = [text.text for text in root.iter(SVG + "text")]
        self.assertIn("before line 13, at 6 s", captions)
        self.assertIn("after line 13, at 6 s", captions)

    def test_the_past_after_an_edit_is_drawn_anew(self):
        edit = 'load d\npar dur="9s"\n  img id="a" dur="5s"\n%%\nd advance 4s\nd set a dur "3s"\n'
        found = bars(picture("--compare", "6", text=smilplay("run", edit)))
        self.assertEqual([bar for bar in found if bar[0] == "a"], [
            ("a", "active", "0", "4000", False), ("a", "active", "4000", "5000", True),
            ("a", "active", "0", "3000", False)])

    def test_an_element_that_was_removed(self):
        session = 'load d\npar id="p" dur="9s"\n  img id="a" dur="5s"\n%%\nd advance 4s\nd remove a\nd advance 2s\n'
        transcript = smilplay("run", session)
        self.assertEqual([bar for bar in bars(picture(text=transcript)) if bar[0] == "a"],
                         [("a", "active", "0", "4000", False)])
        self.assertEqual([bar for bar in bars(picture("--compare", "6", text=transcript)) if bar[0] == "a"],
                         [("a", "active", "0", "4000", False), ("a", "active", "4000", "5000", True)])

    def test_a_seek_back_drops_what_came_later(self):
        found = bars(picture(text=self.tour))
        self.assertEqual([bar for bar in found if bar[0] != "#1"], [("film", "active", "0", "10000", False)])

    def test_one_presentation_of_several(self):
        root = picture("--name", "b", text=(EXAMPLES / "two_presentations.play.stdout").read_text())
        self.assertEqual({bar[0] for bar in bars(root)}, {"#1", "i"})

    def test_a_seek_forward_draws_what_lies_on_its_way(self):
        book = (EXAMPLES / "talking_book.play.stdout").read_text()
        found = {bar[0]: bar[1:4] for bar in bars(picture(text=book))}
        self.assertEqual([found[name] for name in ("c1s1a", "c1s2a", "c2s1a", "c2s2a")], [
            ("active", "0", "4200"), ("active", "4200", "10500"), ("active", "10500", "15500"), ("active", "15500", "19000")])

    def test_foreseen_bars_end_with_what_stands_above(self):
        found = bars(played('load d\npar dur="9s"\n  seq id="s" repeatCount="indefinite"\n    img id="a" dur="50s"\n%%\nd advance 1s\n'))
        self.assertEqual([bar for bar in found if bar[4]], [
            ("#1", "active", "1000", "9000", True), ("s", "active", "1000", "9000", True), ("a", "active", "1000", "9000", True)])

    def test_what_stands_in_something_paused(self):
        found = bars(played(PAUSED))
        self.assertEqual([bar for bar in found if bar[0] == "voice"], [
            ("voice", "active", "0", "3000", False), ("voice", "standing", "3000", "8000", False),
            ("voice", "active", "8000", "9000", False), ("voice", "active", "9000", "15000", True)])

    def test_instants_are_drawn(self):
        root = picture(text=smilplay("run", 'load d\npar dur="9s"\n  img id="a" begin="2s"\n  img id="b" dur="0s"\n%%\nd advance 3s\n'))
        found = [(mark.get("data-element"), mark.get("data-at")) for mark in root.iter(SVG + "polygon")]
        self.assertEqual(sorted(found), [("a", "2000"), ("b", "0")])

    def test_rows_of_a_session_stand_in_its_order_with_kinds(self):
        root = played(PAUSED)
        labels = ["".join(text.itertext()) for text in root.iter(SVG + "text") if text.get("y") in ("62", "86", "110", "134")]
        self.assertEqual(labels, ["#1 excl", "lesson par", "voice audio", "help img"])

    def test_a_part_of_the_time_and_of_the_elements(self):
        found = bars(played(PAUSED, "--from", "2s", "--to", "5s", "--only", "lesson"))
        self.assertEqual({bar[0] for bar in found}, {"lesson", "voice"})
        self.assertEqual([bar[1:4] for bar in found if bar[0] == "lesson"], [("active", "0", "3000"), ("paused", "3000", "8000")])
        self.assertEqual(call(TOOLS / "timeline.py", "--only", "nobody", text=self.tour)[0], 1)

    def test_bars_narrower_than_a_pixel_stay_coloured(self):
        root = played('load d\npar dur="10h"\n  seq repeatCount="indefinite"\n    img id="a" dur="5s"\n    img id="b" dur="15s"\n%%\nd advance 10h\n')
        found = [bar for bar in root.iter(SVG + "rect") if bar.get("data-element") == "b"]
        self.assertEqual(sum(float(bar.get("width")) for bar in found), 560)
        self.assertEqual({bar.get("stroke") for bar in found}, {None})
        self.assertLess(len(found), 561)
        for bar in found:
            self.assertIn(bar.get("opacity"), ("0.6", "0.7", "0.8", "0.9"))

    def test_the_time_is_linear_in_the_transcript(self):
        session = 'load d\npar\n  seq repeatCount="indefinite"\n    img id="a" dur="2s"\n    img id="b" dur="2s"\n%%\nd advance 16h\n'
        transcript = smilplay("run", session)
        self.assertGreater(transcript.count("\n"), 72000)
        began = os.times()
        picture(text=transcript)
        self.assertLess(os.times().children_user - began.children_user, 3)

    def test_clock(self):
        for moment, shown in ((90061000, "1d 1:01:01"), (172800000, "2d 0:00"), (0, "0 s"), (1500, "1.5 s"), (61000, "1:01"), (3600250, "1:00:00.25"), (-2000, "-2 s")):
            self.assertEqual(clock(moment), shown)

    def test_help_and_usage(self):
        self.assertIn("usage: timeline.py", call(TOOLS / "timeline.py", "--help")[1])
        for words in (["--width", "x"], ["--width"], ["--what"], ["a", "b"], ["--width", "5"], ["--from", "x"], ["--only"]):
            self.assertEqual(call(TOOLS / "timeline.py", *words)[0], 2)
        self.assertEqual(call(TOOLS / "timeline.py", "--compare", "999", text=self.tour)[0], 1)


if __name__ == "__main__":
    unittest.main()
