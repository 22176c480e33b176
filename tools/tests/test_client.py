"""Tests examples/client.py."""

import unittest

from calling import EXAMPLES, call, program


class Client(unittest.TestCase):
    def test_the_screen_at_each_second(self):
        status, out, _ = call(EXAMPLES / "client.py", program())
        self.assertEqual((status, out.splitlines()), (1, [
            "0 s: film (active), caption (active)", "1 s: film (active), caption (active)", "ok 11 show 2000",
            "2 s: film (stands), caption (stands), help (active)", "3 s: film (stands), caption (stands), help (active)",
            "4 s: film (active), caption (active)", "5 s: film (active)", "6 s: film (active)", "7 s: nothing",
            "8 s: nothing", "! 19 no-element"]))

    def test_usage(self):
        self.assertIn("usage: client.py", call(EXAMPLES / "client.py")[2])


if __name__ == "__main__":
    unittest.main()
