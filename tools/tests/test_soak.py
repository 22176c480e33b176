"""Tests the library where memory runs out, and over hours of play: the programs of bench/soak."""

import ctypes
import functools
import re
import shutil
import subprocess
import sys
import tempfile
import unittest
from pathlib import Path

from calling import EXAMPLES, TOP
from test_embed import ARCHIVE, EMBED, compile_in, lacking

sys.path.insert(0, str(EMBED))
from tenphsar import Refused, Session  # pylint: disable=wrong-import-position

SOAK = TOP / "bench" / "soak"
EVERY = "50"
EVERY_UNDER_VALGRIND = "2000"
HOURS = "12"
FILM = ("load d", "excl", '  priorityClass peers="pause"', '    video id="film" begin="0s" repeatCount="3"',
        '    img id="help" begin="film.click;accesskey(h)" dur="3s"', "%%")
CALLS = (("media", 3, 6000), ("advance", 2000), ("event", 3, "click"), ("advance", 1000), ("set", 4, "dur", "5s"),
         ("insert", 2, 1, 'img id="more" begin="help.end" dur="4s"'), ("advance", 9000), ("key", "h"), ("unset", 4, "dur"),
         ("remove", 5), ("seek", 1000), ("advance", 30000))


@functools.cache
def made():
    """The programs, in a folder that goes with the last of them."""
    held = tempfile.TemporaryDirectory()
    for name in ("fail", "loop"):
        compile_in(held.name, SOAK / f"{name}.c", SOAK / "heap.c", ARCHIVE, "-o", name)
    compile_in(held.name, "-shared", "-fPIC", SOAK / "heap.c", "-Wl,--whole-archive", ARCHIVE, "-Wl,--no-whole-archive",
               "-o", "libsoak.so")
    return held


def sessions():
    """The examples that are run."""
    return [str(path) for path in sorted(EXAMPLES.glob("*.play")) if not Path(f"{path}.args").exists()]


def played(library, lines):
    """The answers of a session in Python without the numbers of lines; an order that lacks memory is given once more."""
    told, order, at = [], 0, 0
    with Session(library) as session:
        while at < len(lines):
            code, answer = session.line(lines[at])
            at += 1
            if re.fullmatch(rb"! [0-9]+ memory\n", answer):
                at = order
            elif code:
                told.append(re.sub(rb"(?m)^(ok|!) [0-9]+", rb"\1", answer))
                order = at
    return told


def once_more(call):
    """What a call gives; it is made once more where memory lacks."""
    try:
        return call()
    except MemoryError:
        return call()
    except Refused as refused:
        if refused.word != "memory":
            raise
        return call()


def called(library):
    """What the calls of a session in Python give that plays a film by them."""
    with Session(library) as session:
        once_more(lambda: session.order(*FILM))
        told = [once_more(functools.partial(getattr(session, name), "d", *given)) for name, *given in CALLS]
        return told, session.screen("d"), session.moment("d")


@unittest.skipIf(lacking(), lacking())
class Soak(unittest.TestCase):
    def run_in(self, *words):
        """What a program says, which ends with 0."""
        run = subprocess.run(words, cwd=made().name, capture_output=True, text=True, check=False)
        self.assertEqual(run.returncode, 0, run.stdout + run.stderr)
        return run.stdout

    def test_allocations_that_fail(self):
        told = self.run_in("./fail", EVERY, *sessions())
        self.assertRegex(told, rf"^{len(sessions())} sessions, [0-9]{{3,}} failing allocations\n$")

    def test_allocations_that_fail_in_python(self):
        library = f"{made().name}/libsoak.so"
        heap = ctypes.CDLL(library)
        for path in sessions():
            lines = Path(path).read_bytes().splitlines()
            heap.soak_fail_at(ctypes.c_ulong(0))
            answers = played(library, lines)
            for number in range(3, heap.soak_calls(), 20 * int(EVERY)):
                heap.soak_fail_at(ctypes.c_ulong(number))
                try:
                    self.assertEqual(played(library, lines), answers, f"{path}: allocation {number}")
                except MemoryError:
                    pass
                self.assertEqual(heap.soak_blocks(), 0)
        heap.soak_fail_at(ctypes.c_ulong(1))
        with self.assertRaises(MemoryError):
            Session(library)
        heap.soak_fail_at(ctypes.c_ulong(0))

    def test_calls_where_allocations_fail(self):
        library = f"{made().name}/libsoak.so"
        heap = ctypes.CDLL(library)
        heap.soak_fail_at(ctypes.c_ulong(0))
        told = called(library)
        self.assertGreater(sum(map(len, told[0])), 12)
        for number in range(1, heap.soak_calls() + 1):
            heap.soak_fail_at(ctypes.c_ulong(number))
            try:
                self.assertEqual(called(library), told, f"allocation {number}")
            except MemoryError:
                self.assertLess(number, 10)
            self.assertEqual(heap.soak_blocks(), 0)
        heap.soak_fail_at(ctypes.c_ulong(0))

    @unittest.skipIf(shutil.which("valgrind") is None, "there is no valgrind")
    def test_no_byte_is_misused(self):
        self.run_in("valgrind", "-q", "--error-exitcode=9", "--leak-check=full", "./fail", EVERY_UNDER_VALGRIND, *sessions())

    def test_hours_of_a_loop(self):
        told = self.run_in("./loop", HOURS, "0").splitlines()
        self.assertEqual(len(told), int(HOURS))
        self.assertEqual(len({line.split(":")[1].rpartition(",")[0] for line in told[2:]}), 1)


if __name__ == "__main__":
    unittest.main()
