"""Tests transcript.py and jsonl.py."""

import json
import unittest

from calling import EXAMPLES, TOOLS, call, smilplay
from transcript import answers_of, record_of

SESSION = """load d
par dur="9s"
  img id="ok" begin="accesskey(k)" dur="2s"
  text id="from" begin="0s" dur="indefinite"
  set id="s" targetElement="from" attributeName="x" to="a b" begin="1s"
%%
d key k
d event from click
d advance 3s
d values
d stack from x
d history ok
d diary
d remove ok
d fly
d set from dur "x"
close d
"""


class Records(unittest.TestCase):
    def test_lines_have_their_records(self):
        rows = [
            ("4000 help active 4000 ? 0 1", {"type": "change", "moment": 4000, "element": "help", "state": "active",
                                             "begin": 4000, "end": "?", "iteration": 0, "finished": 1}),
            ("-1 #2 idle - - 0 0", {"type": "change", "moment": -1, "element": "#2", "state": "idle", "begin": None,
                                    "end": None, "iteration": 0, "finished": 0}),
            ("5 cut gone", {"type": "gone", "moment": 5, "element": "cut"}),
            ("5 cut #3", {"type": "entry", "moment": 5, "step": "cut", "element": "#3"}),
            ("5 event #3 click", {"type": "entry", "moment": 5, "step": "event", "element": "#3", "event": "click"}),
            ("5 media #3 60", {"type": "entry", "moment": 5, "step": "media", "element": "#3", "length": 60}),
            ("5 key x", {"type": "entry", "moment": 5, "step": "key", "key": "x"}),
            ("now 7", {"type": "now", "moment": 7}),
            ("yes 4", {"type": "verdict", "right": True, "entries": 4}),
            ("no 3", {"type": "verdict", "right": False, "place": 3}),
            ("ok 3 prefer", {"type": "ok", "line": 3, "presentation": "prefer"}),
            ("ok 3 d 40", {"type": "ok", "line": 3, "presentation": "d", "moment": 40}),
            ("ok 3 d closed", {"type": "ok", "line": 3, "presentation": "d", "closed": True}),
            ("ok 3 d", {"type": "ok", "line": 3, "presentation": "d"}),
            ("! 3 bad-value 17", {"type": "refusal", "line": 3, "word": "bad-value", "column": 17}),
            ("! 3 root", {"type": "refusal", "line": 3, "word": "root"}),
            ("ok from 0 to unresolved playing", {"type": "interval", "element": "ok", "begin": 0,
                                                 "end": "unresolved", "how": "playing"}),
            ('ok region "a b" ok', {"type": "value", "target": "ok", "attribute": "region", "value": "a b",
                                    "setter": "ok"}),
            ('ok "a b"', {"type": "layer", "setter": "ok", "value": "a b"}),
            ('  text alt="a " title=" z"', {"type": "outline", "text": '  text alt="a " title=" z"'}),
            ("%%", {"type": "outline", "text": "%%"}),
            ("lines 18", {"type": "text", "text": "lines 18"}),
        ]
        for line, record in rows:
            self.assertEqual(record_of(line), record)

    def test_every_line_of_a_session_is_known(self):
        lines = smilplay("run", SESSION).splitlines()
        self.assertNotIn("text", [record_of(line)["type"] for line in lines])
        answers = list(answers_of(lines))
        self.assertEqual(len(answers), 12)
        self.assertEqual([last["line"] for _, last in answers], [1, *range(7, 18)])

    def test_every_line_of_the_examples_is_known(self):
        for path in sorted(EXAMPLES.glob("*.play.stdout")):
            if path.name.startswith(("generated", "unknown")):
                continue
            for line in path.read_text().splitlines():
                self.assertNotEqual(record_of(line)["type"], "text", f"{path.name}: {line}")


class JsonLines(unittest.TestCase):
    def test_an_object_for_each_line(self):
        transcript = smilplay("run", SESSION)
        status, out, _ = call(TOOLS / "jsonl.py", text=transcript)
        objects = [json.loads(line) for line in out.splitlines()]
        self.assertEqual((status, len(objects)), (0, len(transcript.splitlines())))
        self.assertEqual(objects[0]["order"], 1)
        self.assertEqual({record["presentation"] for record in objects if "presentation" in record}, {"d"})

    def test_help_and_usage(self):
        self.assertIn("usage: jsonl.py", call(TOOLS / "jsonl.py", "--help")[1])
        self.assertEqual(call(TOOLS / "jsonl.py", "a", "b")[0], 2)


if __name__ == "__main__":
    unittest.main()
