"""Tests the library by the programs of embed: that they write the transcripts of the examples."""

import functools
import os
import shutil
import subprocess
import sys
import tempfile
import unittest
from pathlib import Path

from calling import EXAMPLES, TOP, call

EMBED = TOP / "embed"
ARCHIVE = Path(os.environ.get("LIBTENPHSAR", TOP / "crates" / "tenphsar" / "out" / "libtenphsar.a"))


def lacking():
    """What is not here that the tests need, or None."""
    if shutil.which("cc") is None:
        return "there is no C compiler"
    if not ARCHIVE.exists():
        return f"there is no {ARCHIVE}, which embed/build.py makes"
    return None


def compile_in(folder, *words):
    """Calls the C compiler, with all warnings as errors."""
    subprocess.run(["cc", "-O2", "-Wall", "-Wextra", "-Werror", f"-I{EMBED}", *map(str, words)], cwd=folder, check=True)


@functools.cache
def made():
    """The C player and the shared library, in a folder that goes with the last of them."""
    held = tempfile.TemporaryDirectory()
    folder = Path(held.name)
    player, shared = folder / "play", folder / "libtenphsar.so"
    compile_in(folder, EMBED / "play.c", EMBED / "heap.c", ARCHIVE, "-o", player)
    compile_in(folder, "-shared", "-fPIC", EMBED / "heap.c", "-Wl,--whole-archive", ARCHIVE, "-Wl,--no-whole-archive",
               "-o", shared)
    return player, shared, held


@unittest.skipIf(lacking(), lacking())
class Embedded(unittest.TestCase):
    def sessions(self):
        """Each example that is run, with its transcript."""
        for session in sorted(EXAMPLES.glob("*.play")):
            if not Path(f"{session}.args").exists():
                yield session, Path(f"{session}.stdout").read_bytes()

    def plays(self, *words):
        """Compares what a program writes for each session with its transcript."""
        for session, transcript in self.sessions():
            with self.subTest(session.name):
                run = subprocess.run(list(map(str, words)), input=session.read_bytes(), capture_output=True, check=False)
                refused = any(line.startswith(b"! ") for line in transcript.splitlines())
                self.assertEqual((run.returncode, run.stdout), (int(refused), transcript))

    def test_c_plays_each_example(self):
        self.plays(made()[0])

    def test_python_plays_each_example(self):
        self.plays(sys.executable, "-B", EMBED / "tenphsar.py", made()[1])

    def test_calls_play_each_example(self):
        run = subprocess.run([sys.executable, "-B", TOP / "tools" / "tests" / "by_calls.py", made()[1],
                              *(session for session, _ in self.sessions())],
                             cwd=EMBED, capture_output=True, text=True, check=False)
        self.assertEqual((run.returncode, run.stderr), (0, ""), run.stdout)

    def test_the_screen(self):
        text = "\n".join((
            "from tenphsar import Session",
            "def tell(session):",
            "    print(session.moment('d'), *(' '.join(map(str, one)) for one in session.screen('d')), sep='; ')",
            f"with Session({str(made()[1])!r}) as session:",
            "    session.order('load d', 'par dur=\"30s\"', '  excl dur=\"20s\"', '    priorityClass peers=\"pause\"',",
            "                  '      par begin=\"0s\" dur=\"12s\"',"
            "                  '        video id=\"v\" dur=\"5s\" repeatCount=\"2\"',",
            "                  '      img begin=\"7s\" dur=\"3s\"', '  text dur=\"2s\" fill=\"freeze\"', '%%')",
            "    for moment in (0, 1500, 6000, 8000, 11000, 16000):",
            "        session.seek('d', moment)",
            "        tell(session)",
            "    print(session.screen('e'))",
            "    print(*(session.find(name, node) for name, node in (('d', 'v'), ('d', 'w'), ('e', 'v'))))"))
        run = subprocess.run([sys.executable, "-B", "-c", text], cwd=EMBED, capture_output=True, text=True, check=False)
        self.assertEqual((run.stderr, run.stdout.splitlines()), ("", [
            "0; 1 playing 0 0; 2 playing 0 0; 4 playing 0 0; 5 playing 0 0; 7 playing 0 0",
            "1500; 1 playing 1500 0; 2 playing 1500 0; 4 playing 1500 0; 5 playing 1500 0; 7 playing 1500 0",
            "6000; 1 playing 6000 0; 2 playing 6000 0; 4 playing 6000 0; 5 playing 1000 1; 7 frozen 2000 0",
            "8000; 1 playing 8000 0; 2 playing 8000 0; 4 standing 7000 0; 5 standing 2000 1; 6 playing 1000 0; "
            "7 frozen 2000 0",
            "11000; 1 playing 11000 0; 2 playing 11000 0; 4 playing 8000 0; 5 playing 3000 1; 7 frozen 2000 0",
            "16000; 1 playing 16000 0; 2 playing 16000 0; 7 frozen 2000 0", "[]", "5 None None"]))

    def test_loads(self):
        text = "\n".join((
            "from tenphsar import Refused, Session",
            "def tell(give, *given):",
            "    try: print(*(' '.join(map(str, one)) for one in give(*given) or []), sep='; ')",
            "    except Refused as refused: print('!', refused.line, refused.word, refused.column)",
            "    except ValueError as fault: print(fault)",
            f"with Session({str(made()[1])!r}) as session:",
            "    tell(session.load, 'd', 'par\\n\\n  img id=\"a\" dur=\"2s\"')",
            "    tell(session.load, 'd', 'par')",
            "    tell(session.load, 'e', 'par\\n  img dur=\"x\"')",
            "    tell(session.load, 'e', 'par\\n%%')",
            "    tell(session.load, 'no name', 'par')",
            "    tell(session.load, 'e', 'par', 'never')",
            "    tell(session.load, 'e' * 20000, 'par')",
            "    tell(session.load, 'e', '')",
            "    tell(session.advance, 'd', 2000)",
            "    tell(session.advance, 'e', 2000)",
            "    tell(session.unload, 'e')",
            "    tell(session.unload, 'd')",
            "    print(session.moment('d'))",
            "    session.line(b'load f')",
            "    tell(session.load, 'f', 'par')",
            "    tell(session.unload, 'f')"))
        run = subprocess.run([sys.executable, "-B", "-c", text], cwd=EMBED, capture_output=True, text=True, check=False)
        self.assertEqual((run.stderr, run.stdout.splitlines()), ("", [
            "0 1 active 0 2000 0 0; 0 2 active 0 2000 0 0", "! 6 name-taken None", "! 11 bad-value 12",
            "! 15 bad-outline None", "! 17 not-a-command None", "! 20 not-a-command None", "no line can say this",
            "! 25 bad-outline None", "2000 1 frozen 0 2000 0 1; 2000 2 done 0 2000 0 1", "! 27 no-presentation None",
            "! 28 no-presentation None", "", "None", "a load hasn't ended", "a load hasn't ended"]))

    def test_usage(self):
        self.assertIn("usage: tenphsar.py", call(EMBED / "tenphsar.py")[2])

    def test_the_module(self):
        text = "\n".join((
            "from tenphsar import Refused, Session",
            f"with Session({str(made()[1])!r}) as session:",
            "    print(session.order('load d', 'par', '  img dur=\"2s\"', '%%'), end='')",
            "    print(session.moment('d'), session.moment('e'), session.next('d'), session.next('e'))",
            "    try: session.order('d event x click')",
            "    except Refused as refused: print(refused.line, refused.word, refused.column)",
            "    print(session.order('d advance 3s'), end='')",
            "    print(session.moment('d'), session.next('d'))",
            "try: session.moment('d')",
            "except ValueError as closed: print(closed)"))
        run = subprocess.run([sys.executable, "-B", "-c", text], cwd=EMBED, capture_output=True, text=True, check=False)
        self.assertEqual(run.stdout.splitlines(), [
            "0 #1 active 0 2000 0 0", "0 #2 active 0 2000 0 0", "ok 1 d 0", "0 None 2000 None", "5 no-element None",
            "2000 #1 frozen 0 2000 0 1", "2000 #2 done 0 2000 0 1", "ok 6 d 3000", "3000 None", "the session is closed"])


if __name__ == "__main__":
    unittest.main()
