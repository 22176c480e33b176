"""Tests export.py: that each form is read back as what was told."""

import csv
import io
import json
import re
import subprocess
import tempfile
import unittest
from pathlib import Path

from calling import EXAMPLES, TOOLS, call, smilplay

TOOL = TOOLS / "export.py"
DEBIAN = "/usr/bin/python3"
CAPTIONS = """load show
par
  video id="film" src="film.mp4" begin="1s" title="The film"
  text id="one" src="data:,Ahoy%2C%20%3C%E2%82%AC%3E%20%26%20co." begin="1s" dur="2500ms"
  text id="two" src="data:text/plain;base64,VHdvIGxpbmVzCgpvZiBpdA==" begin="4s" dur="2s" fill="freeze"
  text id="three" alt="never seen" begin="two.click" dur="1s"
  text id="four" title="coming" begin="9s" dur="1s"
  img id="i" src="a.png" dur="2s" repeatCount="2"
%%
show media film 3s
show advance 8s
"""


def exported(form, session, *words):
    """The exit number, output and error output for a session that is played here."""
    with tempfile.TemporaryDirectory() as folder:
        Path(folder, "s.play").write_text(session)
        return call(TOOL, form, "--session", "s.play", *words, text=smilplay("run", session), folder=folder)


def has(module):
    """Whether Debian's Python has a module."""
    return (
        Path(DEBIAN).exists()
        and subprocess.run([DEBIAN, "-c", f"import {module}"], capture_output=True, check=False).returncode == 0
    )


class Csv(unittest.TestCase):
    def rows(self, session):
        status, out, err = exported("csv", session)
        self.assertEqual((status, err), (0, ""))
        return list(csv.DictReader(io.StringIO(out)))

    def test_each_interval_has_a_line(self):
        rows = {row["element"]: row for row in self.rows(CAPTIONS)}
        self.assertEqual(set(rows), {"#1", "film", "one", "two", "i"})
        self.assertEqual(
            rows["film"],
            {
                "presentation": "show",
                "element": "film",
                "kind": "video",
                "source": "film.mp4",
                "title": "The film",
                "begin": "1000",
                "end": "4000",
                "state": "ended",
                "iterations": "1",
                "paused": "0",
            },
        )
        self.assertEqual([rows["i"][name] for name in ("end", "iterations")], ["4000", "2"])
        self.assertEqual([rows["#1"][name] for name in ("end", "state")], ["10000", "playing"])

    def test_lines_are_the_intervals_that_the_program_tells(self):
        for name in (
            "kiosk",
            "talking_book",
            "quiz",
            "slide_show",
            "access_keys",
            "emergency",
            "length_zero",
            "catching_up",
        ):
            session = (EXAMPLES / f"{name}.play").read_text()
            rows = self.rows(session)
            elements = list(dict.fromkeys(row["element"] for row in rows))
            who = rows[0]["presentation"]
            told = smilplay(
                "run", session.rstrip("\n") + "\n" + "".join(f"{who} history {element}\n" for element in elements)
            )
            wanted = re.findall(r"^(\S+) from (\S+) to (\S+) (?:ended|cut|playing)$", told, re.MULTILINE)
            for element in elements:
                mine = [(row["begin"], row["end"]) for row in rows if row["element"] == element]
                intervals = [
                    (begin, end if end.lstrip("-").isdigit() else "") for one, begin, end in wanted if one == element
                ]
                self.assertEqual(mine[-1], intervals[-1], (name, element))
                self.assertLessEqual(set(mine), set(intervals), (name, element))

    def test_how_long_an_excl_held_it_up(self):
        session = (EXAMPLES / "kiosk.play").read_text()
        self.assertEqual({row["element"]: row["paused"] for row in self.rows(session)}["film"], "23000")


class WebVtt(unittest.TestCase):
    WANTED = [
        ("one", "00:00:01.000", "00:00:03.500", "Ahoy, &lt;\u20ac&gt; &amp; co."),
        ("two", "00:00:04.000", "00:00:08.000", "Two lines\nof it"),
    ]

    def test_a_cue_for_each_time_that_a_text_is_seen(self):
        status, out, err = exported("vtt", CAPTIONS)
        self.assertEqual((status, err), (0, ""))
        self.assertTrue(out.startswith("WEBVTT\n\n"))
        cues = [block.split("\n", 2) for block in out.strip().split("\n\n")[1:]]
        self.assertEqual([(name, *times.split(" --> "), text) for name, times, text in cues], self.WANTED)

    @unittest.skipUnless(has("webvtt"), "Debian's python3-webvtt is missing")
    def test_a_library_reads_it_back(self):
        with tempfile.TemporaryDirectory() as folder:
            place = Path(folder, "s.vtt")
            place.write_text(exported("vtt", CAPTIONS)[1])
            script = f"import webvtt, json; print(json.dumps([[c.start, c.end, c.raw_text if hasattr(c, 'raw_text') else c.text] for c in webvtt.read({str(place)!r})]))"
            run = subprocess.run([DEBIAN, "-c", script], capture_output=True, text=True, check=True)
        self.assertEqual([tuple(cue) for cue in json.loads(run.stdout)], [cue[1:] for cue in self.WANTED])

    def test_nothing_to_say(self):
        status, out, err = exported("vtt", 'load d\npar\n  text id="t" dur="2s"\n%%\n')
        self.assertEqual((status, out, err.count("\n")), (1, "", 1))


class Otio(unittest.TestCase):
    def tracks(self, session, *words):
        status, out, err = exported("otio", session, *words)
        self.assertEqual((status, err), (0, ""))
        whole = json.loads(out)
        self.assertEqual((whole["OTIO_SCHEMA"], whole["tracks"]["OTIO_SCHEMA"]), ("Timeline.1", "Stack.1"))
        return whole["tracks"]["children"]

    def clips(self, tracks):
        """Of each clip its element, where it begins on the timeline, its place in the media, and its length."""
        found = []
        for track in tracks:
            at = 0
            for child in track["children"]:
                start, length = (child["source_range"][name]["value"] for name in ("start_time", "duration"))
                if child["OTIO_SCHEMA"] == "Clip.1":
                    found.append((child["metadata"]["smilplay"]["element"], at, start, length))
                at += length
        return sorted(found)

    def test_clips_stand_where_the_elements_play(self):
        tracks = self.tracks(CAPTIONS)
        self.assertEqual({track["kind"] for track in tracks}, {"Video"})
        found = self.clips(tracks)
        self.assertIn(("film", 1000, 0, 3000), found)
        self.assertEqual([clip[1:] for clip in found if clip[0] == "i"], [(0, 0, 2000), (2000, 0, 2000)])

    def test_after_a_pause_the_media_goes_on(self):
        session = (EXAMPLES / "kiosk.play").read_text()
        self.assertEqual(
            [clip[1:] for clip in self.clips(self.tracks(session)) if clip[0] == "film"],
            [(0, 0, 5000), (28000, 5000, 55000)],
        )

    def test_clips_of_a_file_begin_where_it_says(self):
        with tempfile.TemporaryDirectory() as folder:
            clips = Path(folder) / "clips.jsonl"
            _, out, _ = call(
                TOOLS / "smil2outline.py", "--load", "d", "--clips", clips, TOOLS / "data" / "daisy202.smil"
            )
            tracks = self.tracks(out + "d advance 30s\n", "--clips", clips)
        self.assertIn(("au_0002", 2349, 2349, 2751), self.clips(tracks))
        self.assertEqual(tracks[-1]["children"][1]["media_reference"]["target_url"], "hb01.mp3")

    @unittest.skipUnless(has("opentimelineio"), "there is no opentimelineio (Debian has no package of it)")
    def test_a_library_reads_it_back(self):
        with tempfile.TemporaryDirectory() as folder:
            place = Path(folder, "s.otio")
            place.write_text(exported("otio", CAPTIONS)[1])
            script = f"import opentimelineio as o; t = o.adapters.read_from_file({str(place)!r}); print(t.duration().value, len(list(t.each_clip())))"
            run = subprocess.run([DEBIAN, "-c", script], capture_output=True, text=True, check=True)
        self.assertEqual(run.stdout.split()[0], "10000.0")


class Calls(unittest.TestCase):
    def test_json_lines_are_those_of_jsonl(self):
        text = smilplay("run", CAPTIONS)
        self.assertEqual(call(TOOL, "jsonl", text=text)[1], call(TOOLS / "jsonl.py", text=text)[1])

    def test_help_usage_and_faults_in_one_line(self):
        self.assertIn("usage: export.py", call(TOOL, "--help")[1])
        for words in ((), ("xml",), ("vtt",), ("csv", "--what", "x"), ("csv", "a", "b"), ("csv", "--session")):
            self.assertEqual(call(TOOL, *words)[0], 2, words)
        for words in (
            ("csv", "nowhere.txt"),
            ("csv", "--session", "nowhere.play"),
            ("csv", "--name", "nobody"),
            ("otio", "--session", EXAMPLES / "first.play", "--clips", "nowhere"),
            ("otio", "--session", EXAMPLES / "first.play", "--clips", EXAMPLES / "first.play"),
        ):
            status, out, err = call(TOOL, *words, text="ok 1 d 0\n")
            self.assertEqual((status, out, err.count("\n"), "Traceback" in err), (1, "", 1, False), words)


if __name__ == "__main__":
    unittest.main()
