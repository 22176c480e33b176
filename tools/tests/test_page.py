"""Tests the page of timeline.py: its data and, where there is a Chromium, what it shows and how it is used."""

import json
import re
import shutil
import subprocess
import tempfile
import time
import unittest
from pathlib import Path

from calling import EXAMPLES, TOOLS, call, smilplay
from session import Session, telling_of
from timeline_states import timelines_of
from timeline_page import data_of, page_of
from transcript import answers_of

CHROMIUM = shutil.which("chromium") or shutil.which("chromium-browser") or shutil.which("google-chrome")
EDITED = """load d
par id="p" dur="9s"
  img id="a" dur="5s" title="A </script> & more"
%%
d advance 4s
d set a dur "3s"
d insert p 1 text id="b" dur="2s"
d fly
d remove b
d advance 1s
"""


def telling(session, transcript=None, name=None):
    transcript = smilplay("run", session) if transcript is None else transcript
    return telling_of(answers_of(transcript.splitlines(True)), Session(session.splitlines(True)), name)


def example(name):
    return telling((EXAMPLES / f"{name}.play").read_text(), (EXAMPLES / f"{name}.play.stdout").read_text())


def shown_by(page, script):
    """What a script writes, as JSON, that runs in the page behind its own."""
    watch = "<script>const faults = []; addEventListener('error', event => faults.push(event.message));</script>"
    probe = (
        f"<script>const found = (() => {{{script}}})(); paintNow();"
        "document.body.textContent = 'FOUND' + JSON.stringify(faults.length ? faults : found) + 'END';</script></body>"
    )
    with tempfile.TemporaryDirectory() as folder:
        place = Path(folder) / "page.html"
        place.write_text(page.replace("<head>", "<head>" + watch).replace("</body>", probe), encoding="utf-8")
        run = subprocess.run(
            [
                CHROMIUM,
                "--headless",
                "--no-sandbox",
                "--disable-gpu",
                f"--user-data-dir={folder}/user",
                "--window-size=1300,800",
                "--dump-dom",
                f"file://{place}",
            ],
            capture_output=True,
            text=True,
            check=False,
            timeout=120,
        )
    text = re.search(r"FOUND(.*)END", run.stdout, re.DOTALL)
    assert text, run.stdout[-2000:] + run.stderr[-2000:]
    return json.loads(text[1].replace("&lt;", "<").replace("&gt;", ">").replace("&amp;", "&"))


class Data(unittest.TestCase):
    def test_nodes_stand_in_document_order_with_their_births_and_ends(self):
        data = data_of(telling(EDITED))
        self.assertEqual(
            [node[:6] for node in data["nodes"]],
            [[-1, "par", "p", 1, 0, -1], [0, "text", "b", 3, 3, 5], [0, "img", "a", 2, 0, -1]],
        )
        self.assertEqual(data["nodes"][2][7], [(2, "dur", "5s", "3s")])

    def test_orders_have_their_lines_and_refusals(self):
        data = data_of(telling(EDITED))
        self.assertEqual(
            [(order[0], order[1], order[4]) for order in data["orders"]],
            [
                (1, "load", 0),
                (5, "advance", 0),
                (6, "set", 0),
                (7, "insert", 0),
                (8, "fly", "not-a-command"),
                (9, "remove", 0),
                (10, "advance", 0),
            ],
        )

    def test_the_page_stands_alone_and_no_text_ends_its_script(self):
        page = page_of(telling(EDITED))
        self.assertIn("A \\u003c/script> & more", page)
        self.assertEqual(page.count("</script>"), 1)
        self.assertIsNone(re.search(r"(?:src|href)=[\"']?http|@import|url\(", page))

    def test_a_long_transcript_takes_little_time_and_room(self):
        session = (
            'load d\nseq repeatCount="indefinite"\n'
            + "".join(f'  img id="i{n}" dur="5s"\n' for n in range(8))
            + "%%\nd advance 40h\n"
        )
        transcript = smilplay("run", session)
        self.assertGreater(transcript.count("\n"), 72000)
        began = time.process_time()
        page = page_of(telling(session, transcript))
        self.assertLess(time.process_time() - began, 4)
        self.assertLess(len(page), 8 * 1024 * 1024)

    def test_faults_are_one_line(self):
        for words in (
            ["--html", "nowhere.txt"],
            ["--html", "--session", "nowhere.play"],
            ["--html", "--only", "nobody"],
            ["--html", "--compare", "77"],
        ):
            status, out, err = call(TOOLS / "timeline.py", *words, text="ok 1 d 0\n")
            self.assertEqual((status, out, err.count("\n")), (1, "", 1), err)


@unittest.skipUnless(CHROMIUM, "there is no Chromium")
class Browser(unittest.TestCase):
    def rows(self, told, compare=None):
        """The bars that the page draws, and those of the SVG, of each node."""
        places = {node: place for place, node in enumerate(told.document.ordered())}
        timeline = timelines_of(told, compare)[-1][0]
        wanted = [[] for _ in places]
        for node, row in timeline.rows().items():
            wanted[places[node]] = [
                [part.state, part.begin, "open" if part.end is None else part.end, part.foreseen] for part in row
            ]
        script = "return nodes.map(node => now.bars(node.place).map(bar => [bar.state, bar.from, bar.to === Infinity ? 'open' : bar.to, bar.foreseen]));"
        if compare:
            script = f"chooseOrder(orders.findIndex(order => order.line === {compare}), 'after'); " + script
        return shown_by(page_of(told), script), wanted

    def test_the_page_draws_the_bars_of_the_picture(self):
        for name, compare in (
            ("kiosk", None),
            ("talking_book", None),
            ("quiz", None),
            ("tour", 13),
            ("live_editing", None),
        ):
            found, wanted = self.rows(example(name), compare)
            self.assertEqual(found, wanted, name)

    def test_what_stands_in_something_paused_is_drawn_so(self):
        session = """load d
excl
  priorityClass peers="pause"
    par id="lesson" begin="0s" dur="10s"
      audio id="voice"
      img id="loop" dur="indefinite"
    img id="help" begin="lesson.help" dur="5s"
%%
d advance 3s
d event lesson help
d advance 2s
"""
        found, wanted = self.rows(telling(session))
        self.assertEqual(found, wanted)
        self.assertEqual(
            found[3], [["active", 0, 3000, False], ["standing", 3000, 5000, False], ["standing", 5000, "open", True]]
        )

    def test_keys_cursor_folding_and_packing(self):
        found = shown_by(
            page_of(example("kiosk")),
            """
            const press = (box, key, more) => { box.focus(); box.dispatchEvent(new KeyboardEvent("keydown", {key, bubbles: true, ...more})); };
            const seen = {};
            moveTo(0); press(bars, "ArrowRight"); seen.next = shown.cursor;
            press(bars, "End"); seen.end = shown.cursor;
            moveTo(12000); seen.film = now.at(nodes.findIndex(node => node.name === "film"), 12000).state;
            seen.text = bars.getAttribute("aria-valuetext");
            const span = shown.to - shown.from; press(bars, "+"); seen.closer = shown.to - shown.from < span;
            press(bars, "0"); seen.all = rows.length;
            press(tree, "Home"); press(tree, "ArrowDown"); seen.row = nodes[shown.node].name;
            press(tree, "ArrowLeft"); seen.folded = rows.length;
            press(tree, "p"); seen.packed = rows.filter(row => row.packed).length;
            press(tree, "d"); press(tree, "d");
            press(tree, "b"); seen.mode = shown.mode;
            paintNow(); seen.roles = document.querySelectorAll('[role="treeitem"][aria-level]').length;
            return seen;""",
        )
        self.assertEqual(
            found,
            {
                "next": 5000,
                "end": 80000,
                "film": "paused",
                "closer": True,
                "all": 9,
                "row": "pages",
                "text": "12 s: 2 active, 1 paused, 1 deferred; screen plays",
                "folded": 7,
                "packed": 1,
                "mode": "both",
                "roles": 7,
            },
        )

    def test_wheel_drag_click_and_search(self):
        found = shown_by(
            page_of(example("kiosk")),
            """
            Element.prototype.setPointerCapture = () => {};
            const box = bars.getBoundingClientRect(), seen = {};
            const send = (target, name, x, y, more) => target.dispatchEvent(new (name === "wheel" ? WheelEvent : PointerEvent)(name, {clientX: box.left + x, clientY: box.top + y, bubbles: true, cancelable: true, ...more}));
            const x = moment => xOf(moment, box.width), span = () => Math.round(shown.to - shown.from);
            send(bars, "pointerdown", x(10000), 100); send(bars, "pointerup", x(10000), 100);
            seen.clicked = Math.abs(shown.cursor - 10000) < 200; seen.row = nodes[shown.node].name;
            const all = span(); send(bars, "wheel", 100, 50, {deltaY: -300, ctrlKey: true}); seen.closer = span() < all;
            const from = shown.from; send(bars, "wheel", 100, 50, {deltaY: 100, shiftKey: true}); seen.later = shown.from > from;
            const held = shown.from; send(bars, "pointerdown", 200, 50); send(bars, "pointermove", 260, 50); send(bars, "pointerup", 260, 50); seen.dragged = shown.from < held;
            fit(); send(axis, "pointerdown", x(40000), -40); send(axis, "pointermove", x(50000), -40); send(axis, "pointerup", x(50000), -40);
            seen.carried = Math.abs(shown.cursor - 50000) < 200;
            const mark = xOf(20000, box.width); send(axis, "pointerdown", mark, -10); send(axis, "pointerup", mark, -10); seen.line = orders[shown.order].line;
            $("latest").click(); $("find").value = "gui"; $("find").dispatchEvent(new Event("input")); seen.found = rows.map(row => nodes[row.place].name);
            return seen;""",
        )
        self.assertEqual(
            found,
            {
                "clicked": True,
                "row": "guide",
                "closer": True,
                "later": True,
                "dragged": True,
                "carried": True,
                "line": 25,
                "found": ["screen", "pages", "guide"],
            },
        )

    def test_before_and_after_an_edit_side_by_side(self):
        found = shown_by(
            page_of(example("tour"), compare=13),
            """
            $("beside").click(); paintNow();
            const [left, right] = panes(), place = nodes.findIndex(node => node.name === "help"), box = bars.getBoundingClientRect();
            const at = (pane, moment) => momentAt({clientX: box.left + pane.left + xOf(moment, pane.wide)});
            const ends = [left, right].map(pane => pane.telling.bars(place).at(-1).to);
            return {count: panes().length, captions: [left.caption, right.caption], ends, same: left.wide === right.wide,
                    apart: right.left >= left.wide, moments: [left, right].map(pane => Math.round(at(pane, 4000))),
                    checked: document.querySelector('[aria-checked="true"]').id};""",
        )
        self.assertEqual(
            found,
            {
                "count": 2,
                "captions": ["before line 13", "after line 13"],
                "ends": [7000, 9000],
                "same": True,
                "apart": True,
                "moments": [4000, 4000],
                "checked": "beside",
            },
        )

    def test_only_what_is_in_sight_is_in_the_page(self):
        session = (
            "load d\npar\n"
            + "".join(f'  par id="p{n}"\n    img id="i{n}" dur="5s"\n' for n in range(2500))
            + "%%\nd advance 1s\n"
        )
        found = shown_by(
            page_of(telling(session)),
            """
            shown.packed.clear(); restate(); paintNow();
            return [nodes.length, rows.length, document.querySelectorAll(".row").length < 60];""",
        )
        self.assertEqual(found, [5001, 5001, True])


if __name__ == "__main__":
    unittest.main()
