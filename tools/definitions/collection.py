"""The sessions of the repository: the examples, and those that stand in its pages."""

import importlib.util
from collections import namedtuple
from pathlib import Path

from .sessions import TOP, words_of

# a session: where it stands, the words of the program, its text, and the transcript that is stored
Session = namedtuple("Session", "name words text wanted")

# what stands in the place of words for the counts of a session, and for what holds of its presentations
COUNTS = ["--counts"]
JUDGED = ["--judged"]

# the sessions that the definitions don't run in seconds, and why
LEFT_OUT = {
    "examples/signage_week.play": "a week has more than a thousand happenings, each by all those before it",
}
# those that take so long that only the tests run them: they take about ten seconds
SLOW = {"examples/hundred_presentations.play"}


def test_module():
    """tools/test.py, which knows the pages."""
    spec = importlib.util.spec_from_file_location("test_of_tools", TOP / "tools" / "test.py")
    module = importlib.util.module_from_spec(spec)
    spec.loader.exec_module(module)
    return module


def examples():
    for path in sorted((TOP / "examples").glob("*.play")):
        wanted = Path(f"{path}.stdout").read_bytes()
        yield Session(str(path.relative_to(TOP)), words_of(path), path.read_bytes(), wanted)


def page_sessions():
    test = test_module()
    for page in test.pages():
        lines = page.read_text().split("\n")
        for words, text, block in test.session_parts(lines):
            yield Session(f"{page.relative_to(TOP)}:{block.first}", words, text.encode(), block.text(lines).encode())


def counted_sessions():
    """The examples of which it is stored how often intervals are evaluated for each order."""
    for path in sorted((TOP / "tools" / "tests" / "counts").glob("*.txt")):
        name = f"examples/{path.stem}.play"
        yield Session(f"counts of {name}", COUNTS, (TOP / name).read_bytes(), path.read_bytes())


def judged_sessions():
    """The examples whose presentations at the end are asked for those that are no states, or not lawful: none is."""
    for session in examples():
        if session.words == ["run"]:
            yield Session(f"presentations of {session.name}", JUDGED, session.text, b"")


def all_sessions():
    """Those that the definitions run in a moment, shorter texts first."""
    found = [s for s in (*examples(), *page_sessions(), *counted_sessions()) if s.name not in LEFT_OUT and s.name not in SLOW]
    return sorted(found, key=lambda session: len(session.text))
