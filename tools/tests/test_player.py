"""Tests the page of embed/page in a browser, by mouse and by keyboard."""

import sys
import threading
import unittest

import browser
from calling import TOP
from test_wasm import MODULE

PAGE = TOP / "embed" / "page"
sys.path.insert(0, str(PAGE))
import serve  # pylint: disable=wrong-import-position

FILM = """excl id="lesson"
  priorityClass peers="pause"
    video id="film" begin="0s" repeatCount="indefinite" src="media/film.webm" alt="The film"
    img id="help" begin="film.click;accesskey(h)" dur="60s" src="media/help.svg" alt="Help"
"""
LOADED = "document.querySelector('#elements tr') !== null"
WITH_MEMORY64 = 133
CONTROLS = ("button", "combobox", "textbox", "slider")
CLOCK = "parseFloat(document.querySelector('#clock').textContent)"


def lacking():
    """What is not here that the tests need, or None."""
    if browser.version() < WITH_MEMORY64:
        return f"there is no Chromium of version {WITH_MEMORY64} or later"
    if not MODULE.exists():
        return f"there is no {MODULE}, which embed/wasm/module.py makes"
    return None


def state(name, word):
    """Whether the table has an element in a state, as an expression."""
    return f"document.querySelector('#elements tr[data-name={name}]')?.dataset.state === {word!r}"


def end_of(name):
    """What the table has as the end of an element, as an expression."""
    return f"document.querySelector('#elements tr[data-name={name}]')?.cells[3].textContent"


@unittest.skipIf(lacking(), lacking())
class Player(unittest.TestCase):
    def setUp(self):
        self.server = serve.server(0, MODULE)
        self.addCleanup(self.server.server_close)
        self.addCleanup(self.server.shutdown)
        threading.Thread(target=self.server.serve_forever, daemon=True).start()

    def opened(self, outline=FILM, **how):
        """A browser with the page, which plays an outline; it says nothing on the console in the end."""
        try:
            page = browser.Browser(f"http://127.0.0.1:{self.server.server_port}/", **how)
        except (OSError, TimeoutError) as fault:
            self.skipTest(f"Chromium doesn't start here: {fault}")
        self.addCleanup(page.close)
        self.assertTrue(page.wait(LOADED, 40))
        self.come(page, f"{end_of('film')} === '6.000 s'")
        self.load(page, outline)
        self.addCleanup(lambda: self.assertEqual(page.said, []))
        return page

    def load(self, page, outline):
        """Writes an outline into its field and loads it."""
        page.click("#outline")
        page.type(outline)
        page.click("#load")

    def come(self, page, expression):
        """Waits until an expression is true, and fails where it doesn't come to be."""
        self.assertTrue(page.wait(expression), f"{expression}: {page.ask('document.body.innerText')}")

    def test_by_mouse(self):
        page = self.opened()
        page.click("#play")
        self.come(page, f"{CLOCK} > 0.8 && document.querySelector('video').currentTime > 0.5")
        page.click("[data-name=film]")
        self.come(page, f"{state('film', 'paused')} && {state('help', 'active')}")
        self.come(page, "document.querySelector('video').paused && document.querySelector('.img:not([hidden])') !== null")
        stood = page.ask("document.querySelector('video').currentTime")
        self.edit(page, "help", "dur", "1s")
        self.come(page, f"{state('help', 'done')} && {state('film', 'active')}")
        self.come(page, f"document.querySelector('video').currentTime > {stood} + 0.3")
        page.click("#timeline", 0.112)
        self.come(page, f"{state('help', 'idle')} && {state('film', 'active')}")
        page.click("#play")
        page.click("#start")
        self.come(page, f"{CLOCK} === 0 && document.querySelector('video').currentTime === 0")

    def edit(self, page, element, attribute, value):
        """Sets an attribute by the form."""
        page.ask(f"document.querySelector('#element').value = {element!r}")
        for field, text in (("#attribute", attribute), ("#value", value)):
            page.click(field)
            page.type(text)
        page.press("Enter")

    def test_by_keyboard(self):
        page = self.opened()
        self.tab_to(page, "play")
        page.press(" ")
        self.come(page, f"{CLOCK} > 0.3")
        page.press("h")
        self.come(page, f"{state('help', 'active')} && {state('film', 'paused')}")
        self.tab_to(page, "moment")
        page.press("Home")
        self.come(page, state("help", "idle"))
        self.tab_to(page, "film")
        page.press("Enter")
        self.come(page, f"{state('help', 'active')} && {state('film', 'paused')}")
        for name in ("start", "rate", "example", "outline", "load", "element", "attribute", "value", "unset"):
            self.tab_to(page, name)

    def tab_to(self, page, name):
        """Goes by the Tab key to a field, or to what is on the stage."""
        for _ in range(30):
            page.press("Tab")
            if page.ask("document.activeElement.id || document.activeElement.dataset.name || ''") == name:
                return
        self.fail(f"no Tab leads to {name}")

    def test_each_control_has_a_name(self):
        page = self.opened()
        page.call("Accessibility.enable")
        nodes = page.call("Accessibility.getFullAXTree")["nodes"]
        controls = [node for node in nodes if node.get("role", {}).get("value") in CONTROLS and not node["ignored"]]
        self.assertGreaterEqual(len(controls), 13)
        self.assertEqual([node for node in controls if not node.get("name", {}).get("value")], [])

    def test_it_sleeps(self):
        page = self.opened('par\n  img id="a" dur="100s" src="media/night.svg"\n')
        page.click("#play")
        self.come(page, f"{CLOCK} > 0.2")
        before = page.ask("parseInt(document.querySelector('#engine').textContent)")
        self.come(page, f"{CLOCK} > 2")
        self.assertEqual(page.ask("parseInt(document.querySelector('#engine').textContent)"), before)

    def test_refusals(self):
        page = self.opened('par\n  img id="a" dur="soon"')
        self.come(page, "document.querySelector('#refusal').textContent === 'Refused: bad-value, line 2, column 19'")
        self.load(page, 'par\n  img id="a" dur="2s"\n  audio id="b" src="media/tune.webm"')
        self.come(page, f"{end_of('b')} === '5.008 s' && document.querySelector('#refusal').textContent === ''")

    def test_it_fits(self):
        for width, scheme in ((1280, "light"), (1280, "dark"), (390, "light"), (390, "dark")):
            with self.subTest(width=width, scheme=scheme):
                page = self.opened(width=width, height=800, scheme=scheme)
                self.assertLessEqual(page.ask("document.documentElement.scrollWidth"), width)
                top = "document.querySelector('#outline').getBoundingClientRect().top + scrollY"
                before = page.ask(top)
                page.click("#play")
                self.come(page, f"{CLOCK} > 0.3")
                page.press("h")
                self.come(page, state("help", "active"))
                self.assertEqual(page.ask(top), before)
                page.close()


if __name__ == "__main__":
    unittest.main()
