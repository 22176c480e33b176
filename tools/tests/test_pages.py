"""Tests that pages and files belong together."""

import re
import unittest

import places
from calling import EXAMPLES, TOOLS, TOP, call, program

MODULES = ("transcript.py", "session.py", "timeline_page.py", "smil_xml.py", "smil_book.py", "smil_clock.py",
           "smil_names.py", "smil_tests.py", "smil_translation.py", "smil_values.py", "smil_wall.py",
           "smil_choice.py", "smil_html.py", "smilplay.py", "export_csv.py", "export_vtt.py", "export_otio.py",
           "timeline_states.py", "timeline_svg.py", "lint_shape.py", "lint_load.py", "lint_document.py", "lint_events.py")


def dependencies():
    """What each crate depends on, by its name."""
    lines = [line.split(":") for line in (TOP / "crates.txt").read_text().splitlines()]
    return {name.split()[0]: others.split() for name, others in lines}


def headings_of(page):
    """The anchors of a page's headings."""
    return {re.sub(r"[^a-z0-9_ -]", "", line.lower()).strip().replace(" ", "-")
            for line in re.findall(r"^#+ (.*)$", page.read_text(), re.MULTILINE)}


class Pages(unittest.TestCase):
    def setUp(self):
        self.readme = (TOP / "README.md").read_text()

    def test_the_first_session_is_the_tour(self):
        self.assertIn(f"```play\n{(EXAMPLES / 'tour.play').read_text()}```\n", self.readme)

    def test_the_picture_is_that_of_the_tour(self):
        _, out, _ = call(TOOLS / "timeline.py", "--compare", "13", EXAMPLES / "tour.play.stdout")
        self.assertEqual((TOP / "docs" / "tour.svg").read_text(), out)

    def test_every_page_is_named(self):
        for page in (TOP / "docs").iterdir():
            self.assertIn(f"docs/{page.name}", self.readme)

    def test_links_lead_to_a_file_and_a_heading(self):
        for page in [*TOP.glob("*.md"), *TOP.glob("*/*.md")]:
            for path, heading in re.findall(r"\]\(([^)#:]*)(?:#([^)]*))?\)", page.read_text()):
                to = page.parent / path if path else page
                self.assertTrue(to.exists(), f"{page.name}: {path}")
                if heading:
                    self.assertIn(heading, headings_of(to), f"{page.name}: {path}#{heading}")

    def test_the_rules_name_what_is_there(self):
        text = places.PAGE.read_text()
        self.assertGreater(len(list(places.rules_of(text))), 80)
        self.assertEqual(list(places.faults_of(text)), [])

    def test_the_first_page_is_short(self):
        self.assertLessEqual(len(self.readme.split()), 700)
        self.assertLessEqual(len((TOP / "docs" / "PROVED.md").read_text().split()), 3000)

    def test_every_crate_has_its_room_and_what_is_proved_of_it(self):
        rooms = (TOP / "docs" / "ARCHITECTURE.md").read_text()
        proved = (TOP / "docs" / "PROVED.md").read_text()
        for crate in dependencies():
            self.assertRegex(rooms, rf"(?m)^\|[^|]*`{crate}`")
            self.assertRegex(proved, rf"(?m)^\|[^|]*\b{crate}\b")

    def test_the_house_has_every_crate_above_those_that_it_depends_on(self):
        text = (TOP / "docs" / "ARCHITECTURE.md").read_text()
        floors, floor = {}, 0
        for line in text[text.index("```house") + 8:].split("```")[0].splitlines()[2:]:
            words = line.split()
            floor = int(words.pop(0)) if words[0].isdigit() else floor
            floors.update(dict.fromkeys(words, floor))
        uses = dependencies()
        self.assertEqual(set(floors), set(uses))
        for crate, others in uses.items():
            for other in set(others) & set(floors):
                self.assertGreater(floors[crate], floors[other], f"{crate} on {other}")

    def test_every_example_is_listed(self):
        listed = (EXAMPLES / "README.md").read_text()
        sessions = sorted(EXAMPLES.glob("*.play"))
        for session in sessions:
            self.assertIn(f"| `{session.name}` |", listed)
        self.assertEqual(listed.count(".play` |"), len(sessions))
        self.assertEqual([path.name for path in EXAMPLES.glob("*.args") if path.read_text() == "run\n"], [])

    def test_a_word_that_no_name_has_is_a_fault(self):
        status, out, err = call(TOOLS / "test.py", "--only", "no name has this", program())
        self.assertEqual((status, out.splitlines()[-1]), (1, "0 passed, 0 failed"))
        self.assertIn("nothing has no name has this in its name", err)

    def test_every_tool_tells_its_usage(self):
        listed = (TOOLS / "README.md").read_text()
        for tool in sorted(TOOLS.glob("*.py")):
            self.assertIn(f"`{tool.name}`", listed)
            if tool.name not in MODULES:
                status, out, err = call(tool, "--help")
                self.assertEqual((status, err), (0, ""))
                self.assertIn(f"usage: {tool.name}", out)


if __name__ == "__main__":
    unittest.main()
