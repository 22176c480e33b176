"""Tests smil2outline.py on files of the kinds that are found in the wild, and on whole books, in tools/data."""

import json
import random
import tempfile
import unittest
import zipfile
from pathlib import Path

from calling import TOOLS, call, smilplay
from smil_clock import clip_moment, mended_clock
from smil_tests import Tests
from smil_translation import Translation
from smil_values import within
from smil_wall import Start
from smil_xml import read_xml

DATA = TOOLS / "data"
FILES = sorted(path for path in DATA.glob("*.smil") if path.with_suffix(".warnings").exists())
TOOL = TOOLS / "smil2outline.py"


def outline(text, *words):
    """The exit number, output and error output for a SMIL text."""
    with tempfile.TemporaryDirectory() as folder:
        place = Path(folder) / "a.smil"
        place.write_bytes(text if isinstance(text, bytes) else text.encode())
        return call(TOOL, *words, "a.smil", folder=folder)


def text_of(place):
    return place.read_text() if place.exists() else ""


class Kinds(unittest.TestCase):
    def test_there_are_ten(self):
        self.assertEqual(len(FILES), 10)

    def test_outlines_warnings_and_clips(self):
        for file in FILES:
            with tempfile.TemporaryDirectory() as folder:
                clips = Path(folder) / "clips"
                status, out, err = call(TOOL, "--clips", clips, file.name, folder=DATA)
                self.assertEqual((status, out), (0, text_of(file.with_suffix(".outline"))), file.name)
                self.assertEqual(err, text_of(file.with_suffix(".warnings")), file.name)
                self.assertEqual(text_of(clips), text_of(file.with_suffix(".clips")), file.name)

    def test_the_program_reads_every_outline(self):
        for file in FILES:
            if file.with_suffix(".outline").exists():
                _, out, _ = call(TOOL, "--load", "d", file)
                self.assertTrue(smilplay("check", out).endswith("ok 1 d\n"), file.name)

    def test_a_page_with_times_plays_by_them(self):
        _, out, _ = call(TOOL, "--load", "d", DATA / "html_time.smil")
        told = smilplay("run", out + "d advance 3s\nd event open click\nd advance 20s\n")
        for line in ("3000 menu active 3000 indefinite 0 0", "3500 text3 active 3500 indefinite 0 0",
                     "13000 slides done 0 13000 1 1", "18000 #15 active 18000 indefinite 0 0",
                     "21000 later done 13000 21000 1 1"):
            self.assertIn(line + "\n", told)

    def test_every_clip_has_an_element_in_the_outline(self):
        for file in DATA.glob("*.clips"):
            ids = text_of(file.with_suffix(".outline"))
            for line in file.read_text().splitlines():
                clip = json.loads(line)
                self.assertIn(f' id="{clip["element"]}"', ids)
                self.assertEqual(set(clip), {"element", "source", "begin", "end"})

    def test_a_talking_book_plays_to_its_end_without_a_length_told(self):
        _, out, _ = call(TOOL, "--load", "d", DATA / "daisy202.smil")
        told = smilplay("run", out + "d advance 30s\n")
        self.assertIn("5100 hb_0001 done 0 5100 0 1\n", told)
        self.assertIn("20444 #1 frozen 0 20444 0 1\n", told)


class Options(unittest.TestCase):
    def test_the_first_of_a_switch_whose_tests_hold(self):
        self.assertIn("720p", call(TOOL, "--bitrate", "2500000", "--lang", "eng", DATA / "abr.smil")[1])
        self.assertIn("1080p", call(TOOL, "--bitrate", "9000000", "--lang", "eng", DATA / "abr.smil")[1])
        status, out, err = call(TOOL, "--lang", "fr", DATA / "smil3.smil")
        self.assertEqual((status, "fr.mp3" in out, "en.mp3" in out, "switch" in err), (0, True, False, False))

    def test_tests_by_name_or_value(self):
        for words, count in (((), 15), (("--test", "pagenum=on"), 18), (("--test", "note=off"), 12)):
            self.assertEqual(call(TOOL, *words, DATA / "daisy3.smil")[1].count("\n"), count)
        self.assertNotIn("hb_0002", call(TOOL, "--test", "footnote-on=off", DATA / "daisy202.smil")[1])
        self.assertNotIn("textstream", call(TOOL, "--test", "systemCaptions=off", DATA / "realplayer.smil")[1])

    def test_words_that_cannot_be_read(self):
        for words in (
            (),
            ("--load", "1 x", "f"),
            ("--load", "load", "f"),
            ("--bitrate", "x", "f"),
            ("--test", "x", "f"),
            ("--what", "x", "f"),
            ("--lang",),
            ("--at", "2026-11-30", "f"),
            ("--at", "2026-02-30T08:00:00Z", "f"),
            ("a", "b"),
        ):
            status, out, err = call(TOOL, *words)
            self.assertEqual((status, out, len(err.splitlines())), (2, "", 3), words)


class Pages(unittest.TestCase):
    """Pages with HTML+TIME: XML or not, of either edition."""

    def lines(self, text):
        status, out, err = outline(text)
        self.assertEqual(status, 0, err)
        return out.splitlines()

    def test_a_page_in_xml_keeps_the_case_of_its_names(self):
        text = (
            '<html xmlns="http://www.w3.org/1999/xhtml" xmlns:t="urn:schemas-microsoft-com:time"><body>'
            '<div timeContainer="seq"><p timeAction="visibility" dur="2s">A</p></div></body></html>'
        )
        self.assertEqual(self.lines(text), ["par", "  seq", '    text id="text1" dur="2s" title="A"'])

    def test_the_first_edition_in_any_case(self):
        text = (
            '<HTML><BODY><DIV ID=a T:TIMELINE=par T:DUR=4s><IMG SRC=x.png T:BEGIN=1s></DIV>'
            '<P T:BEGINWITH=a T:REPEATCOUNT=2 T:DUR=1s>B<P T:BEGINEVENT="k.onclick">C<B ID=k>D</B></BODY></HTML>'
        )
        self.assertEqual(self.lines(text), [
            "par", '  par id="a" dur="4s"', '    img id="img1" begin="1s" dur="indefinite" src="x.png"',
            '  text id="text1" begin="a.begin" dur="1s" repeatCount="2" title="B"',
            '  text id="text2" begin="k.click" dur="indefinite" title="C D"',
            '  text id="k" dur="indefinite" title="D"'])

    def test_what_ends_where_the_next_begins(self):
        text = (
            '<html><body><table><tr class=time timeContainer=par dur=2s><td class=time dur=1s>A'
            '<tr class=time timeContainer=par dur=3s><th class=time dur=1s><p>B</table>'
            '<p class=time dur=1s>C<div class=time timeContainer=seq><dl><dt class=time dur=1s>D<dd class=time dur=2s>E</dl></div>'
        )
        self.assertEqual(self.lines(text), [
            "par", '  par dur="2s"', '    text id="text1" dur="1s" title="A"', '  par dur="3s"',
            '    text id="text2" dur="1s" title="B"', '  text id="text3" dur="1s" title="C"', "  seq",
            '    text id="text4" dur="1s" title="D"', '    text id="text5" dur="2s" title="E"'])

    def test_a_medium_that_is_never_closed_keeps_what_stands_behind_it(self):
        text = (
            '<html><body><t:video id=v src=a.wmv begin="b.click"><t:set attributeName=src to=b.wmv begin=1s></t:set>'
            '<button id=b>Go</button><t:transitionFilter type=fade dur=1s /><p class=time dur=1s>A</body></html>'
        )
        status, out, err = outline(text)
        self.assertEqual((status, err), (0, "a.smil:1: transitionFilter: left out\n"))
        self.assertEqual(out.splitlines(), [
            "par", '  video id="v" begin="b.click" src="a.wmv"',
            '  set begin="v.begin+1s" end="v.end" targetElement="v" attributeName="src" to="b.wmv"',
            '  text id="b" dur="indefinite" title="Go"', '  text id="text1" dur="1s" title="A"'])

    def test_the_encoding_of_a_page(self):
        text = '<!doctype html><html><head>{}</head><body><p class=time dur=2s>é<br></body></html>'
        wanted = ["par", '  text id="text1" dur="2s" title="é"']
        for mark, encoding, said in (("\ufeff", "utf-8", ""), ("\ufeff", "utf-16-le", ""), ("\ufeff", "utf-16-be", ""),
                                     ("", "latin-1", ""), ("", "cp1252", "<meta charset=nothing>"), ("", "utf-8", ""),
                                     ("", "cp437", '<meta http-equiv=a content="text/html; charset=cp437">')):
            self.assertEqual(self.lines((mark + text.format(said)).encode(encoding)), wanted, (encoding, said))

    def test_a_page_that_is_nested_too_deep(self):
        status, out, err = outline("<html><body>" + "<div begin=1s>" * 3000)
        self.assertEqual((status, out, err), (1, "", "a.smil:1: elements stand more than 400 deep\n"))

    def test_a_page_without_times_has_no_outline(self):
        for text in ("<!doctype html><html><body><p>A<br></body></html>", "<html><head/></html>", "<html>"):
            status, out, err = outline(text)
            self.assertEqual((status, out, len(err.splitlines())), (1, "", 1), text)


class KeptSwitches(unittest.TestCase):
    def played(self, outline_, *preferences):
        """The views at moment 0 of an outline that is loaded by these preferences."""
        return smilplay("run", "".join(f"prefer {one}\n" for one in preferences) + f"load d\n{outline_}%%\n")

    def test_the_program_chooses_by_its_preferences(self):
        status, out, err = call(TOOL, "--keep-switch", DATA / "abr.smil")
        self.assertEqual((status, err), (0, ""))
        self.assertIn("  switch\n    video id=", out)
        self.assertIn(" video1 active", self.played(out, "language en,eng", "bitrate 9000000"))
        self.assertIn(" video2 active", self.played(out, "language eng", "bitrate 2500000"))

    def test_what_options_decide_is_no_question_any_more(self):
        _, out, _ = call(TOOL, "--keep-switch", "--lang", "fr", DATA / "smil3.smil")
        self.assertNotIn("switch", out)
        text = (
            '<seq><switch><img id="a" systemLanguage="fr" system-captions="on"/><img id="b" systemLanguage="de"/>'
            '<img id="c" systemRequired="x"/></switch></seq>'
        )
        _, out, err = outline(text, "--keep-switch", "--lang", "fr")
        self.assertEqual(out, 'seq\n  switch\n    img id="a" systemCaptions="on"\n    img id="c"\n')
        self.assertIn("systemRequired: left out; the test counts as passed", err)

    def test_tests_outside_a_switch_and_those_of_links_and_sets(self):
        _, out, _ = outline(
            '<par systemBitrate="56000"><a system-language="fr"><img id="a"/><img id="b" systemLanguage="de"/>'
            '</a><img id="m" systemCaptions="on" dur="2s"><set attributeName="x" to="y"/></img></par>',
            "--keep-switch",
        )
        self.assertEqual(
            out,
            'par systemBitrate="56000"\n  img id="a" systemLanguage="fr"\n  img id="b" systemLanguage="de"\n'
            '  img id="m" systemCaptions="on" dur="2s"\n  set systemCaptions="on" begin="m.begin" end="m.end" '
            'targetElement="m" attributeName="x" to="y"\n',
        )
        self.assertNotIn(" m ", self.played(out))

    def test_a_medium_with_a_set_in_a_switch_is_one_choice(self):
        _, out, _ = outline(
            '<par><switch><img id="m" systemLanguage="fr"><set attributeName="x" to="y"/></img><img id="n"/>'
            "</switch></par>",
            "--keep-switch",
        )
        self.assertIn('  switch\n    par systemLanguage="fr" endsync="m"\n      img id="m"\n      set begin=', out)
        self.assertIn(" n ", self.played(out))
        self.assertNotIn(" n ", self.played(out, "language fr"))

    def test_values_that_the_program_cannot_read(self):
        for test in ('systemScreenSize="large"', 'systemBitrate="x"', 'systemCPU="arm"'):
            _, out, err = outline(f'<par><img id="a" {test}/></par>', "--keep-switch")
            self.assertEqual((out, err.count("counts as passed")), ('par\n  img id="a"\n', 1))

    def test_of_a_switch_the_largest_choice_has_to_fit(self):
        branch = '<par systemLanguage="xx">' + "<img/>" * 4000 + "</par>"
        self.assertEqual(outline(f"<par><switch>{branch * 3}</switch></par>", "--keep-switch")[0], 0)
        status, _, err = outline(f"<par><switch>{branch * 2}</switch><switch>{branch}</switch></par>", "--keep-switch")
        self.assertEqual((status, err), (1, "a.smil: the outline could have 8003 nodes, and 8000 is the limit\n"))


class MadeUp(unittest.TestCase):
    KINDS = ("par", "seq", "excl", "priorityClass", "switch", "a", "img", "text", "audio", "set", "smilText", "foo")
    VALUES = {
        "begin": (
            "2s",
            "wallclock(2026-11-30T08:00:10)",
            "wallclock(08:01)",
            "wallclock(",
            "a.click",
            "id(b)(end)",
            "",
            "-5s",
            "0;1:5",
        ),
        "end": ("5s", "wallclock(2026-11-30T09:00Z)", "click", ";"),
        "dur": ("2s", ".5", "x", "indefinite"),
        "id": ("a", "b", "1x", "a.b"),
        "systemLanguage": ("fr", "en, de", "x_y"),
        "system-bitrate": ("56000", "x"),
        "systemCaptions": ("on", "yes"),
        "systemCPU": ("arm",),
        "clipBegin": ("npt=1s", "x"),
        "clipEnd": ("3s",),
        "src": ("a.mp3", "http://["),
        "title": ("t&quot;x",),
        "endsync": ("a", "id(b)", "media"),
        "repeatCount": ("2", "0"),
        "peers": ("pause",),
        "targetElement": ("a",),
        "attributeName": ("x",),
        "to": ("1",),
    }

    def element(self, chance, depth):
        kind = chance.choice(self.KINDS if depth < 5 else ("img", "audio"))
        names = chance.sample(list(self.VALUES), chance.randint(0, 4))
        attributes = "".join(f' {name}="{chance.choice(self.VALUES[name])}"' for name in names)
        below = "".join(self.element(chance, depth + 1) for _ in range(chance.randint(0, 3 if depth < 5 else 1)))
        return f"<{kind}{attributes}>{below}</{kind}>"

    def test_the_program_reads_the_outline_of_any_file(self):
        chance = random.Random(7)
        for _ in range(60):
            begin = chance.choice(("", ' begin="1s"', ' id="a"'))
            root = read_xml(
                f"<smil><body{begin}>{''.join(self.element(chance, 0) for _ in range(4))}</body></smil>".encode(), "f"
            )
            start = chance.choice((None, Start("2026-11-30T08:00:00+01:00")))
            translation = Translation(Tests(chance.choice(((), ("fr",))), keep=chance.random() < 0.7), start)
            self.assertTrue(translation.document(root))
            session = [
                chance.choice(("prefer language fr", "prefer captions on", "prefer bitrate 9")),
                f"load d at {start.text}" if start else "load d",
                *translation.lines,
                "%%",
                "",
            ]
            self.assertEqual(smilplay("check", "\n".join(session))[-7:], "ok 2 d\n", session)


class WallClock(unittest.TestCase):
    def test_items_are_kept_and_count_from_the_start(self):
        text = '<par><img id="a" begin="wallclock(2026-11-30T08:00:10+01:00)" dur="5s" end="wallclock( 2026-11-30T07:00:13Z ) + 1s"/></par>'
        status, out, err = outline(text, "--load", "d", "--at", "2026-11-30T08:00:00+01:00")
        self.assertEqual(
            (status, out),
            (
                0,
                'load d at 2026-11-30T08:00:00+01:00\npar id="par1"\n  img id="a" begin="wallclock('
                '2026-11-30T08:00:10+01:00)" dur="5s" end="wallclock(2026-11-30T07:00:13Z)+1s"\n%%\n',
            ),
        )
        self.assertIn(" is written wallclock(2026-11-30T07:00:13Z)+1s", err)
        self.assertIn("0 a waiting 10000 14000 0 0\n", smilplay("run", out))

    def test_times_without_date_or_zone_are_those_of_the_start(self):
        for item, wanted in (
            ("08:00:10", "2026-11-30T08:00:10+01:00"),
            ("T07:00Z", "2026-11-30T07:00Z"),
            ("2026-12-01T09:30", "2026-12-01T09:30+01:00"),
            ("2026-12-01", "2026-12-01T00:00+01:00"),
        ):
            _, out, _ = outline(
                f'<par id="p"><img id="a" begin="wallclock({item})"/></par>', "--at", "2026-11-30T08:00:00+01:00"
            )
            self.assertEqual(out, f'par id="p"\n  img id="a" begin="wallclock({wanted})"\n')
            self.assertIn("ok 1 d 0", smilplay("run", f"load d at 2026-11-30T08:00:00+01:00\n{out}%%\n"))

    def test_a_root_with_a_begin_comes_into_a_par(self):
        _, out, _ = outline(
            '<smil><body begin="2s"><img id="a" end="wallclock(08:01)" dur="1h"/></body></smil>',
            "--load",
            "d",
            "--at",
            "2026-11-30T08:00:00Z",
        )
        self.assertIn(
            '\npar id="par1"\n  seq begin="2s"\n    img id="a" dur="1h" end="wallclock(2026-11-30T08:01Z)"\n', out
        )
        self.assertIn("2000 a active 2000 60000 0 0\n", smilplay("run", out + "d advance 2s\n"))

    def test_a_time_that_comes_again_and_again_becomes_its_next_ones(self):
        text = '<par id="p"><par id="a" begin="wallclock(R/2026-01-01T09:00/P1D)" end="wallclock(R/2026-01-01T17:00/P1D)"/></par>'
        status, out, err = outline(text, "--load", "d", "--at", "2026-11-30T10:00:00+01:00")
        self.assertEqual((status, out.count("wallclock("), err.count("is written as 32 times, up to")), (0, 64, 2))
        told = smilplay("run", out + "d advance 24h\n")
        self.assertIn("0 a active -3600000 25200000 0 0\n", told)
        for item in (
            "R/9999-12-31T00:00Z/P1W",
            "R/2200-01-01/P1D",
            "R/2026-01-01T09:00:00.25Z/P999W",
            "R/0001-01-01/PT1M",
        ):
            for at in ("2026-11-30T10:00:00Z", "9999-12-30T10:00:00Z", "0001-01-01T00:00:00Z"):
                _, out, _ = outline(
                    f'<par id="p"><img id="a" begin="wallclock({item});1s"/></par>', "--load", "d", "--at", at
                )
                self.assertIn("ok 1 d", smilplay("check", out))
        self.assertIn("82800000 a active 82800000 111600000 0 1\n", told)

    def test_what_cannot_be_kept(self):
        for item in (
            "2026-02-30",
            "2026-13-01T00:00Z",
            "24:00",
            "R/2026-01-01T09:00/P0D",
            "R5/2026-01-01/P1D",
            "2090-01-01",
            "2026-01-01T00:00Z)x(",
        ):
            _, out, err = outline(f'<par><img id="a" begin="wallclock({item})"/></par>', "--at", "2026-11-30T08:00:00Z")
            self.assertIn('begin="indefinite"', out)
            self.assertIn("is left out\n", err)
        self.assertIn("is left out; --at keeps it", outline('<par><img begin="wallclock(12:00)"/></par>')[2])


class Begins(unittest.TestCase):
    def test_a_begin_of_which_nothing_is_left_is_indefinite(self):
        _, out, err = outline(
            '<par><img begin="wallclock(2026-01-01)" dur="1s"/><img begin="x!;2s"/><img begin=""/></par>'
        )
        self.assertEqual(
            out,
            'par\n  img id="img1" begin="indefinite" dur="1s"\n  img id="img2" begin="2s"\n'
            '  img id="img3" begin="indefinite"\n',
        )
        self.assertEqual(err.count("so it becomes indefinite"), 2)

    def test_a_set_in_a_medium_comes_beside_it(self):
        for item, beside in (
            ("2s", "m.begin+2s"),
            ("0s", "m.begin"),
            ("-1s", "m.begin-1s"),
            ("click", "m.click"),
            ("click + 1s", "m.click + 1s"),
            ("x.end", "x.end"),
            ("indefinite", "indefinite"),
            ("accesskey(b)", "accesskey(b)"),
        ):
            self.assertEqual(within(item, "m"), beside)
        _, out, _ = outline(
            '<seq><img id="m" begin="1s" fill="hold"><set attributeName="a" to="b" end="m.click"/></img></seq>'
        )
        self.assertEqual(
            out,
            'seq\n  par begin="1s" fill="hold" endsync="m"\n    img id="m" fill="hold"\n'
            '    set begin="m.begin" end="m.click;m.end" targetElement="m" attributeName="a" to="b"\n',
        )

    def test_ids_are_none_that_something_refers_to(self):
        _, out, err = outline('<par><img dur="1s"/><img begin="img1.click" dur="1s"/><img id="img3"/></par>')
        self.assertIn('img id="img2" dur="1s"', out)
        self.assertIn('img id="img4" begin="img1.click"', out)
        self.assertIn("the outline has no img1, so this never comes", err)

    def test_clip_moments(self):
        for value, wanted in (
            ("npt=2.349s", 2349),
            ("0:00:04.250", 4250),
            ("9100ms", 9100),
            ("1:50", 110000),
            (".5s", 500),
            ("npt=0:01:00", 60000),
            ("smpte-25=00:00:10:05", 10200),
            ("smpte=00:00:10:00", 10010),
            ("smpte-30-drop=00:10:00:00", 599999),
            ("marker=x", None),
            ("", None),
            ("smpte=1:2", None),
        ):
            self.assertEqual(clip_moment(value), wanted, value)

    def test_mended_clocks(self):
        for value, wanted in (("1:10", "01:10"), (".5s", "0.5s"), ("5 s", "5s"), ("01:10", "01:10"), ("x", "x")):
            self.assertEqual(mended_clock(value), wanted)

    def test_a_clip_keeps_its_last_picture_as_without_a_duration(self):
        for attributes, wanted in (
            ("", 'dur="1000ms" fill="freeze"'),
            ('fill="remove"', 'dur="1000ms" fill="remove"'),
            ('dur="5s"', 'dur="5s"'),
            ('end="9s"', 'dur="1000ms" end="9s"'),
        ):
            _, out, _ = outline(f'<par><video id="v" clipBegin="1s" clipEnd="2s" {attributes}/></par>')
            self.assertIn(f'  video id="v" {wanted}\n', out)


class Limits(unittest.TestCase):
    def test_what_does_not_fit_is_said_and_not_written(self):
        status, out, err = outline("<par>" + "<img/>" * 8000 + "</par>")
        self.assertEqual(
            (status, out, err), (1, "", "a.smil: the outline would have 8001 nodes, and 8000 is the limit\n")
        )
        waits = ";".join(["a.click"] * 32)
        status, out, err = outline('<par><img id="a"/>' + f'<img begin="{waits}"/>' * 1001 + "</par>")
        self.assertEqual(
            (status, out, err), (1, "", "a.smil: the outline would have 32032 references, and 32000 is the limit\n")
        )

    def test_a_text_that_is_too_long_for_a_line_is_left_out(self):
        status, out, err = outline(f'<par><img src="data:,{"x" * 17000}" dur="1s"/></par>')
        self.assertEqual((status, out), (0, 'par\n  img id="img1" dur="1s"\n'))
        self.assertIn("src: left out, since the line would have more than 16384 bytes", err)

    def test_what_is_said_of_many_places_is_said_once(self):
        err = outline("<par>" + "<foo/>" * 50 + "</par>")[2]
        self.assertEqual(err, "a.smil:1: foo: left out (here and in 49 other places)\n")


class Faults(unittest.TestCase):
    def test_each_is_one_line(self):
        for text in (
            "",
            "<par>",
            "<par>" * 1500,
            "<html/>",
            "<?xml version='1.0' encoding='klingon'?><par/>",
            '<?xml version="1.0" encoding="shift_jis"?><par title="'.encode() + b'\x80\xff"/>',
        ):
            status, out, err = outline(text)
            self.assertEqual((status, out, err.count("\n")), (1, "", 1), err)
        for words in (
            ("nowhere.smil",),
            (".",),
            ("--clips", "nowhere/x", DATA / "mms.smil"),
            ("--parts", "nowhere", DATA / "daisy"),
        ):
            with tempfile.TemporaryDirectory() as folder:
                status, _, err = call(TOOL, *words, folder=folder)
            self.assertEqual((status, "Traceback" in err), (1, False), words)

    def test_an_address_that_cannot_be_joined_stays(self):
        self.assertEqual(
            outline('<par xml:base="http://x/"><img id="a" src="http://[y"/><img id="b" src="y"/></par>')[:2],
            (0, 'par\n  img id="a" src="http://[y"\n  img id="b" src="http://x/y"\n'),
        )

    def test_encodings_that_expat_does_not_know(self):
        text = '<?xml version="1.0" encoding="Shift_JIS"?><par title="港"/>'
        self.assertEqual(outline(text.encode("shift_jis"))[:2], (0, 'par title="港"\n'))


class Books(unittest.TestCase):
    def epub(self, folder):
        place = Path(folder) / "harbour.epub"
        with zipfile.ZipFile(place, "w") as book:
            for file in sorted(path for path in (DATA / "epub").rglob("*") if path.is_file()):
                book.write(file, file.relative_to(DATA / "epub"))
        return place

    def test_an_epub_is_a_load_for_each_part_in_reading_order(self):
        with tempfile.TemporaryDirectory() as folder:
            place, clips = self.epub(folder), Path(folder) / "clips"
            status, out, err = call(TOOL, "--load", "book", "--clips", clips, place)
            self.assertEqual((status, err), (0, ""))
            self.assertEqual(
                [line for line in out.splitlines() if line[0] in "#l"],
                ["# OEBPS/smil/dawn.smil 1 Dawn", "load book1", "# OEBPS/smil/noon.smil 2 Noon", "load book2"],
            )
            self.assertIn('audio id="audio1" dur="3250ms" src="OEBPS/audio/book.mp3"', out)
            self.assertEqual(
                json.loads(clips.read_text().splitlines()[2]),
                {"element": "audio1", "source": "OEBPS/audio/book.mp3", "begin": 1000, "end": 4250, "part": 2},
            )
            told = smilplay("run", out + "book2 advance 6s\n")
            self.assertIn("5000 #1 frozen 0 5000 0 1\n", told)

    def test_a_daisy_folder_is_an_outline_for_each_part(self):
        with tempfile.TemporaryDirectory() as folder:
            status, out, _ = call(TOOL, "--parts", folder, DATA / "daisy")
            self.assertEqual((status, out), (0, "001.outline hb0001.smil The harbour\n002.outline hb0002.smil Dawn\n"))
            self.assertEqual((Path(folder) / "002.outline").read_text(), text_of(DATA / "daisy202.outline"))

    def test_paths_as_they_are_written_in_the_wild(self):
        with tempfile.TemporaryDirectory() as folder:
            place = Path(folder) / "x.epub"
            with zipfile.ZipFile(place, "w") as book:
                book.writestr("META-INF/container.xml", '<container><rootfiles><rootfile full-path="o/My%20Book.opf"/></rootfiles></container>')
                book.writestr("o/my book.opf", '<package><manifest><item id="c" href="a%20b.xhtml" media-overlay="s"/>'
                              '<item id="s" href="Part.smil" media-type="application/smil+xml"/></manifest>'
                              '<spine><itemref idref="c"/></spine></package>')
                book.writestr("o/part.smil", '<smil><body><audio src="a.mp3" clipEnd="2s"/></body></smil>')
            status, out, err = call(TOOL, place)
            self.assertEqual((status, err), (0, ""))
            self.assertEqual(out.splitlines(), ["# o/part.smil", "load part1", "seq",
                                                '  audio id="audio1" dur="2000ms" src="o/a.mp3"', "%%"])

    def test_a_daisy_book_whose_names_differ_in_case(self):
        with tempfile.TemporaryDirectory() as folder:
            Path(folder, "NCC.HTML").write_text(
                '<!DOCTYPE html PUBLIC "-//W3C//DTD XHTML 1.0 Transitional//EN" "http://www.w3.org/TR/xhtml1/DTD/xhtml1-transitional.dtd">'
                '<html><body><h1><a href="S1.SMIL#a">F&ouml;rord</a></h1><h2><a href="s1.smil#b">Två</a></h2></body></html>')
            Path(folder, "s1.smil").write_text('<smil><body><seq><audio src="a.mp3" clip-end="npt=1s"/></seq></body></smil>')
            status, out, err = call(TOOL, folder)
            self.assertEqual((status, err), (0, ""))
            self.assertEqual(out.splitlines()[:2], ["# s1.smil Förord", "load part1"])
            self.assertEqual(out.count("load "), 1)

    def test_a_zip_that_is_no_book(self):
        with tempfile.TemporaryDirectory() as folder:
            place = Path(folder) / "x.epub"
            with zipfile.ZipFile(place, "w") as book:
                book.writestr("a.txt", "a")
            status, out, err = call(TOOL, place)
            self.assertEqual((status, out, err.count("\n")), (1, "", 1))


if __name__ == "__main__":
    unittest.main()
