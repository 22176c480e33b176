#!/usr/bin/env python3
"""Tests the manual, the examples and the tools against a built smilplay.

usage: test.py [--fill] [--only WORD] SMILPLAY

SMILPLAY is the path of the program. Three things are run:

  pages     every session and command in README.md, */README.md and docs/*.md. A session is a fenced
            block `play` and the next block, `transcript`; `play check` calls the program with
            the word check. In a block `console` each line behind `$ ` is a command for bash, which
            runs in a folder of its own with the repository's examples and tools in it; the lines
            behind it are what it prints.
  examples  every examples/NAME.play, with the words of NAME.play.args, or with `run` where there is
            none, against NAME.play.stdout.
  tools     the tests in tools/tests.

Nothing is written into the repository. With --fill the blocks that differ are written anew in their
pages instead, examples/NAME.play.stdout where it differs, and the numbers of lines in docs/TIMING.md.
--only runs what has WORD in its name, and fails where nothing has.
The last line is `N passed, M failed`; the exit number is 0 where M is 0, else 1.
"""

import os
import re
import subprocess
import sys
import tempfile
import unittest
from pathlib import Path

TOP = Path(__file__).resolve().parent.parent
SECONDS = 300


def run_session(program, words, text):
    """What the program writes for a session, with its exit number."""
    run = subprocess.run([program, *words], input=text, capture_output=True, timeout=SECONDS, check=False)
    return run.stdout.decode("utf-8", "replace"), run.returncode


def status_of(words, transcript):
    """The exit number that belongs to a session's words and its transcript."""
    if words[0] not in ("run", "check", "gen", "audit"):
        return 2
    return 1 if re.search(r"^! |^no [0-9]+$", transcript, re.MULTILINE) else 0


class Block:
    """A fenced block of a page: its info words and the places of its lines."""

    def __init__(self, info, first, end):
        self.info = info
        self.first = first
        self.end = end

    def text(self, lines):
        """What stands in it, of the lines of its page."""
        return "".join(line + "\n" for line in lines[self.first:self.end])


def blocks_of(lines):
    """The fenced blocks of a page's lines."""
    blocks = []
    opened = None
    for place, line in enumerate(lines):
        if not line.startswith("```"):
            continue
        if opened is None:
            opened = Block(line[3:].split(), place + 1, None)
        else:
            opened.end = place
            blocks.append(opened)
            opened = None
    return blocks


def session_parts(lines):
    """Each session of a page: its words, its text, and the block of its transcript.

    Raises ValueError where a session has no transcript behind it.
    """
    blocks = blocks_of(lines)
    for block, following in zip(blocks, blocks[1:] + [None]):
        if block.info[:1] == ["play"]:
            if following is None or following.info != ["transcript"]:
                raise ValueError(f"line {block.first}: a play block without a transcript behind it")
            yield block.info[1:] or ["run"], block.text(lines), following


def commands_of(text):
    """The commands of a console block."""
    return [line[2:] for line in text.splitlines() if line.startswith("$ ")]


def console_output(program, text):
    """A console block as it is when its commands are run."""
    with tempfile.TemporaryDirectory() as folder:
        for name in ("examples", "tools"):
            os.symlink(TOP / name, Path(folder) / name)
        os.mkdir(Path(folder) / "bin")
        os.symlink(Path(program).resolve(), Path(folder) / "bin" / "smilplay")
        environment = dict(os.environ, PYTHONDONTWRITEBYTECODE="1", LC_ALL="C.UTF-8",
                           PATH=f"{folder}/bin:{os.environ.get('PATH', '/usr/bin:/bin')}")
        lines = []
        for command in commands_of(text):
            run = subprocess.run(["bash", "-c", command], cwd=folder, env=environment, check=False,
                                 stdin=subprocess.DEVNULL, stdout=subprocess.PIPE, stderr=subprocess.STDOUT,
                                 timeout=SECONDS)
            lines += ["$ " + command, *run.stdout.decode("utf-8", "replace").splitlines()]
        return "".join(line + "\n" for line in lines)


def outline_as_read(program, text, canonical):
    """The outline itself, its canonical form, or its refusal."""
    found, status = run_session(program, ["check"], f"load d\n{text}%%\n".encode())
    if status != 0:
        return found
    return found[:found.rindex("ok ")] if canonical else text


class Report:
    """Counts what passed, failed and was left out, and says what failed and what was left out."""

    def __init__(self):
        self.passed = 0
        self.failed = 0
        self.skipped = 0

    def say(self, name, wanted, found):
        """Counts a test by what was wanted and what was found, and shows both where they differ."""
        if wanted == found:
            self.passed += 1
            return True
        self.failed += 1
        print(f"FAILED {name}\n--- wanted\n{wanted}--- found\n{found}---", flush=True)
        return False

    def skip(self, name, reason):
        """Counts a test that can't be run here."""
        self.skipped += 1
        print(f"SKIPPED {name}: {reason}", flush=True)


def page_results(program, lines):
    """For each tested block of a page: the block, its line, what stands in it, and what it should be."""
    for words, text, block in session_parts(lines):
        found, status = run_session(program, words, text.encode())
        if status != status_of(words, found):
            found += f"exit number {status}\n"
        yield block, block.text(lines), found
    for block in blocks_of(lines):
        text = block.text(lines)
        if block.info == ["console"]:
            yield block, text, console_output(program, text)
        elif block.info[:1] == ["outline"]:
            yield block, text, outline_as_read(program, text, block.info[1:] == ["canonical"])


def test_page(program, page, fill, report):
    lines = page.read_text().split("\n")
    results = sorted(page_results(program, lines), key=lambda result: result[0].first)
    for block, text, found in reversed(results):
        if fill and text != found:
            lines[block.first:block.end] = found.splitlines()
        else:
            report.say(f"{page.relative_to(TOP)}:{block.first}", text, found)
    if fill:
        page.write_text("\n".join(lines))


def words_of(session):
    """The words with which an example is run."""
    words = Path(f"{session}.args")
    return words.read_text().split("\n")[:-1] if words.exists() else ["run"]


def test_example(program, session, fill, report):
    """Tests an example, or writes its transcript anew."""
    words = words_of(session)
    found, status = run_session(program, words, session.read_bytes())
    if status != status_of(words, found):
        found += f"exit number {status}\n"
    wanted = Path(f"{session}.stdout")
    if fill and (not wanted.exists() or wanted.read_text() != found):
        wanted.write_text(found)
    else:
        report.say(str(session.relative_to(TOP)), wanted.read_text(), found)


def fill_places():
    """Writes the lines of functions in docs/TIMING.md anew."""
    import places  # of tools/tests

    places.PAGE.write_text(places.filled(places.PAGE.read_text()))


def test_tools(program, only, report):
    """Runs the tests of the tools that have a word in their name; one that lacks something here says what."""
    os.environ["SMILPLAY"] = str(Path(program).resolve())
    suite = unittest.defaultTestLoader.discover(str(TOP / "tools" / "tests"), top_level_dir=str(TOP / "tools" / "tests"))
    for test in tests_of(suite):
        if only in test.id():
            result = unittest.TestResult()
            test.run(result)
            for _, trace in result.errors + result.failures:
                print(trace)
            for _, reason in result.skipped:
                report.skip(test.id(), reason)
            if not result.skipped:
                report.say(test.id(), "passed\n", "passed\n" if result.wasSuccessful() else "failed\n")


def tests_of(suite):
    """Each test of a suite, of those in it too."""
    for part in suite:
        if isinstance(part, unittest.TestSuite):
            yield from tests_of(part)
        else:
            yield part


def pages():
    """The pages that are tested."""
    return [TOP / "README.md", *sorted(TOP.glob("*/README.md")), *sorted((TOP / "docs").glob("*.md"))]


def main(words):
    """Does what the words of a call say, and gives the exit number."""
    sys.dont_write_bytecode = True
    sys.path[:0] = [str(TOP / "tools"), str(TOP / "tools" / "tests")]
    fill = "--fill" in words
    words = [word for word in words if word != "--fill"]
    only = ""
    if len(words) > 1 and words[0] == "--only":
        only, words = words[1], words[2:]
    if words in (["--help"], ["-h"]):
        print(__doc__.strip())
        return 0
    if len(words) != 1 or words[0].startswith("-"):
        print("usage: test.py [--fill] [--only WORD] SMILPLAY", file=sys.stderr)
        return 2
    if not os.access(words[0], os.X_OK):
        print(f"test.py: no program at {words[0]}", file=sys.stderr)
        return 2
    if fill:
        fill_places()
    report = Report()
    for page in pages():
        if only in str(page.relative_to(TOP)):
            test_page(words[0], page, fill, report)
    for session in sorted((TOP / "examples").glob("*.play")):
        if only in str(session.relative_to(TOP)):
            test_example(words[0], session, fill, report)
    test_tools(words[0], only, report)
    if report.skipped:
        print(f"{report.skipped} skipped, for want of what SKIPPED lines name")
    print(f"{report.passed} passed, {report.failed} failed")
    if only and not fill and report.passed + report.failed == 0:
        print(f"test.py: nothing has {only} in its name", file=sys.stderr)
        return 1
    return 1 if report.failed else 0


if __name__ == "__main__":
    sys.exit(main(sys.argv[1:]))
