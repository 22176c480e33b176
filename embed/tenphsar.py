#!/usr/bin/env python3
"""The timing engine for Python, by ctypes over libtenphsar.so.

usage: tenphsar.py LIBRARY < SESSION

Writes the transcript of a session, as `smilplay run` does. As a module:

    with Session("./libtenphsar.so") as session:
        session.order("load show", "par", '  img id="a" dur="3s"', "%%")
        print(session.order("show advance 1s"), session.moment("show"))
        for change in session.advance("show", 2000):
            print(change.moment, change.element, change.state)
"""

import ctypes
import re
import sys
from typing import NamedTuple

REFUSAL = re.compile(r"! (?P<line>[0-9]+) (?P<word>[a-z-]+)(?: (?P<column>[0-9]+))?\n")
ACCEPTED = 1
REFUSED = 2
OUT_OF_MEMORY = -1
BAD_ARGUMENT = -3
OPEN_LOAD = -4
CHANGES_AT_ONCE = 64

# The greatest moment or length, in milliseconds, the greatest number that names an element, and the greatest key.
HORIZON = 10**12
LAST_SERIAL = 2**32 - 1
LAST_KEY = 255

STATES = "idle", "waiting", "active", "paused", "deferred", "frozen", "done", "gone"
SHOWINGS = "nothing", "playing", "standing", "frozen"
TIMES = "-", "at", "indefinite", "unresolved", "?"
WORDS = {
    1: "long-line", 2: "not-a-command", 4: "bad-outline", 5: "depth-jump", 6: "too-deep", 7: "bad-place",
    8: "unknown-attribute", 9: "unsupported", 10: "bad-value", 11: "too-many-items", 12: "duplicate-id",
    13: "too-many-elements", 14: "too-many-references", 15: "no-presentation", 16: "name-taken",
    17: "too-many-presentations", 18: "no-element", 19: "root", 20: "not-continuous", 21: "log-full",
    22: "beyond-horizon", 23: "diary-full", 24: "memory", 25: "not-yet", 26: "bad-serial", 27: "no-anchor",
}


class Refused(Exception):
    """An order that can't be carried out; nothing has changed.

    `line` counts the session's lines from 1, `word` is one of docs/REFUSALS.md, and `column` counts the bytes of the
    line at fault from 1, None where the word has no column. An order that was given by a call counts as a line.
    """

    def __init__(self, word, line=None, column=None):
        super().__init__(" ".join(str(part) for part in ("!", line, word, column) if part is not None))
        self.word, self.line, self.column = word, line, column

    @classmethod
    def of_answer(cls, answer):
        """The refusal of an answer's text."""
        found = REFUSAL.fullmatch(answer)
        return cls(found["word"], int(found["line"]), int(found["column"]) if found["column"] else None)


class Change(NamedTuple):
    """What an order changed of an element, at a moment in milliseconds of document time.

    `element` is its serial, and `state` the word of its state; of one that is "gone" nothing else is told. `begin` and
    `end` are moments, or one of the words "-", "indefinite", "unresolved" and "?". `iteration` counts from 0, and
    `finished` the intervals that have finished.
    """

    moment: int
    element: int
    state: str
    begin: int | str
    end: int | str
    iteration: int
    finished: int


class OnScreen(NamedTuple):
    """What is on the screen of an element, by its serial.

    `showing` is "playing", "standing" where it or an element above it is paused, or "frozen". `position` is where its
    media is, in milliseconds from the begin of the present iteration, which counts from 0.
    """

    element: int
    showing: str
    position: int
    iteration: int


class ScreenRecord(ctypes.Structure):
    """The same as C has it."""

    _fields_ = [
        ("position", ctypes.c_int64), ("element", ctypes.c_uint32), ("iteration", ctypes.c_uint32),
        ("showing", ctypes.c_uint32), ("reserved", ctypes.c_uint32),
    ]


class PlaceRecord(ctypes.Structure):
    """Where a call was refused, as C has it."""

    _fields_ = [("line", ctypes.c_uint32), ("column", ctypes.c_uint32)]


class ChangeRecord(ctypes.Structure):
    """A record as C has it."""

    _fields_ = [
        ("moment", ctypes.c_int64), ("begin", ctypes.c_int64), ("end", ctypes.c_int64),
        ("element", ctypes.c_uint32), ("iteration", ctypes.c_uint32), ("finished", ctypes.c_uint32),
        ("state", ctypes.c_uint8), ("begin_is", ctypes.c_uint8), ("end_is", ctypes.c_uint8),
        ("reserved", ctypes.c_uint8),
    ]

    def change(self):
        """What it says."""
        begin = self.begin if TIMES[self.begin_is] == "at" else TIMES[self.begin_is]
        end = self.end if TIMES[self.end_is] == "at" else TIMES[self.end_is]
        return Change(self.moment, self.element, STATES[self.state], begin, end, self.iteration, self.finished)


def within(number, most):
    """The number, if it is from 0 to the greatest; else raises ValueError."""
    if not 0 <= number <= most:
        raise ValueError("no line can say this")
    return number


def load_library(path):
    """The shared library at a path, with the types of its calls."""
    library = ctypes.CDLL(path)
    handle, text, size = ctypes.POINTER(ctypes.c_void_p), ctypes.c_char_p, ctypes.c_size_t
    code, time, serial = ctypes.c_int32, ctypes.c_int64, ctypes.c_uint32
    for name, result, *others in (
        ("open", code),
        ("line", code, text, size),
        ("size", size),
        ("answer", size, size, text, size),
        ("moment", time, text, size),
        ("next", time, text, size),
        ("load", code, text, size, text, size, text, size),
        ("unload", code, text, size),
        ("fault", None, ctypes.POINTER(PlaceRecord)),
        ("advance", code, text, size, time),
        ("seek", code, text, size, time),
        ("event", code, text, size, serial, text, size),
        ("media", code, text, size, serial, time),
        ("key", code, text, size, ctypes.c_uint8),
        ("set", code, text, size, serial, text, size, text, size),
        ("unset", code, text, size, serial, text, size),
        ("insert", code, text, size, serial, serial, text, size),
        ("remove", code, text, size, serial),
        ("find", time, text, size, text, size),
        ("screen", code, text, size, size, ctypes.POINTER(ScreenRecord)),
        ("count", size),
        ("changes", size, size, ctypes.POINTER(ChangeRecord), size),
        ("close", None),
    ):
        call = getattr(library, f"tenphsar_{name}")
        call.argtypes, call.restype = [handle, *others], result
    return library


class Session:
    """Up to 64 presentations, each under its name. It is used on the thread that opened it."""

    def __init__(self, path="libtenphsar.so"):
        """Opens a session of the shared library at a path. Raises MemoryError where there is no memory for it."""
        self._library = load_library(path)
        self._handle = ctypes.c_void_p()
        self._is_open = self._library.tenphsar_open(self._handle) != OUT_OF_MEMORY
        if not self._is_open:
            raise MemoryError("no memory for a session")

    def line(self, line):
        """Takes in a line of bytes without its line feed, and gives its code and its answer, in bytes.

        The code is 0 where the line has no answer, 1 where its order was accepted and 2 where it was refused. Raises
        ValueError where the session is closed, or has had 4,294,967,295 lines.
        """
        self._check()
        code = self._library.tenphsar_line(self._handle, line, len(line))
        if code < 0:
            raise ValueError("the session takes no more lines")
        size = self._library.tenphsar_size(self._handle)
        answer = ctypes.create_string_buffer(size + 1)
        self._library.tenphsar_answer(self._handle, 0, answer, size)
        return code, answer.raw[:size]

    def order(self, *lines):
        """Takes in the lines of one order, and gives the answer to the last of them.

        Raises Refused where it is refused.
        """
        code, answer = 0, b""
        for line in lines:
            code, answer = self.line(line.encode())
            if code == REFUSED:
                raise Refused.of_answer(answer.decode())
        return answer.decode()

    def load(self, name, outline, start=""):
        """Loads a presentation under a name, from the lines of an outline, and gives what is told of it, as the list of
        its changes. `start` is the instant of moment 0, as a line says it.

        Raises what `advance` does; `Refused` has the line at fault, as the session counts the lines.
        """
        first, text = start.encode(), outline.encode()
        return self._change("load", name, first, len(first), text, len(text))

    def unload(self, name):
        """Closes the presentation of a name. Raises what `advance` does."""
        self._change("unload", name)

    def advance(self, name, by):
        """Moves a presentation on by a length, in milliseconds, and gives what changed, as the list of its changes.

        Raises Refused where the order is refused, MemoryError where memory ran out, and ValueError where an argument is
        out of range, a load that was begun by lines hasn't ended, or the session is closed or takes no more lines. Then
        nothing has changed.
        """
        return self._change("advance", name, within(by, HORIZON))

    def seek(self, name, to):
        """Moves a presentation to a moment of document time, in milliseconds; backward, later events, lengths and keys
        are removed. Gives and raises what `advance` does."""
        return self._change("seek", name, within(to, HORIZON))

    def event(self, name, element, event):
        """Tells of an event on an element, by its serial, at the present moment. Gives and raises what `advance`
        does."""
        said = event.encode()
        return self._change("event", name, within(element, LAST_SERIAL), said, len(said))

    def media(self, name, element, length):
        """Tells the length of an element's media, in milliseconds. Gives and raises what `advance` does."""
        return self._change("media", name, within(element, LAST_SERIAL), within(length, HORIZON))

    def key(self, name, key):
        """Tells of a press of an access key, one character. Gives and raises what `advance` does."""
        return self._change("key", name, within(ord(key), LAST_KEY))

    def set(self, name, element, attribute, value):
        """Gives an attribute of an element, by its serial, a value. Gives and raises what `advance` does."""
        word, text = attribute.encode(), value.encode()
        return self._change("set", name, within(element, LAST_SERIAL), word, len(word), text, len(text))

    def unset(self, name, element, attribute):
        """Takes an attribute of an element, by its serial, away. Gives and raises what `advance` does."""
        word = attribute.encode()
        return self._change("unset", name, within(element, LAST_SERIAL), word, len(word))

    def insert(self, name, element, place, node):
        """Inserts a node, a line of an outline without its spaces in front, as the child of an element, by its serial,
        at a place from 1. Gives and raises what `advance` does."""
        text = node.encode()
        return self._change("insert", name, within(element, LAST_SERIAL), within(place, LAST_SERIAL), text, len(text))

    def remove(self, name, element):
        """Removes an element, by its serial, with all below it. Gives and raises what `advance` does."""
        return self._change("remove", name, within(element, LAST_SERIAL))

    def find(self, name, node):
        """The serial of the node with an id, in a presentation; None where there is no such node or no such
        presentation. Raises MemoryError where memory ran out, and ValueError where the session is closed.
        """
        self._check()
        called, named = name.encode(), node.encode()
        serial = self._library.tenphsar_find(self._handle, called, len(called), named, len(named))
        if serial < 0:
            raise MemoryError("no memory for the call")
        return serial or None

    def screen(self, name):
        """What is on the screen of a presentation at its present moment, in document order: each element that is
        active or frozen. It is empty where there is no such presentation. Raises ValueError where the session is
        closed.
        """
        self._check()
        called, record = name.encode(), ScreenRecord()
        found, index = [], 0
        while self._library.tenphsar_screen(self._handle, called, len(called), index, record):
            if record.showing:
                found.append(OnScreen(record.element, SHOWINGS[record.showing], record.position, record.iteration))
            index += 1
        return found

    def _change(self, order, name, *given):
        """Gives an order by its call, and gives the changes that its records tell."""
        self._check()
        called = name.encode()
        code = getattr(self._library, f"tenphsar_{order}")(self._handle, called, len(called), *given)
        if WORDS.get(code) == "memory":
            raise MemoryError("no memory for the order")
        if code > 0:
            place = PlaceRecord()
            self._library.tenphsar_fault(self._handle, place)
            raise Refused(WORDS[code], place.line, place.column or None)
        if code < 0:
            raise ValueError({BAD_ARGUMENT: "no line can say this", OPEN_LOAD: "a load hasn't ended"}.get(
                code, "the session takes no more lines"))
        return list(self._changes())

    def _changes(self):
        """The changes of the last order, some at a time."""
        records = (ChangeRecord * CHANGES_AT_ONCE)()
        first = 0
        while copied := self._library.tenphsar_changes(self._handle, first, records, CHANGES_AT_ONCE):
            yield from (record.change() for record in records[:copied])
            first += copied

    def moment(self, name):
        """The present moment of the presentation of a name, in milliseconds; None where there is none.

        Raises ValueError where the session is closed.
        """
        self._check()
        called = name.encode()
        moment = self._library.tenphsar_moment(self._handle, called, len(called))
        return None if moment < 0 else moment

    def next(self, name):
        """The moment at which something comes next in the presentation of a name, in milliseconds; None where nothing
        does, or there is none. Up to it no change is told.

        Raises ValueError where the session is closed.
        """
        self._check()
        called = name.encode()
        moment = self._library.tenphsar_next(self._handle, called, len(called))
        return None if moment < 0 else moment

    def close(self):
        """Ends the session, and gives its memory back. A session that was closed stays so."""
        if self._is_open:
            self._library.tenphsar_close(self._handle)
        self._is_open = False

    def _check(self):
        if not self._is_open:
            raise ValueError("the session is closed")

    def __enter__(self):
        return self

    def __exit__(self, *_):
        self.close()


def main(path):
    """Writes the transcript of the session on the standard input; gives 1 where an order was refused, else 0."""
    status = 0
    with Session(path) as session:
        for line in sys.stdin.buffer:
            code, answer = session.line(line.removesuffix(b"\n").removesuffix(b"\r"))
            sys.stdout.buffer.write(answer)
            status = max(status, code - ACCEPTED)
    return status


if __name__ == "__main__":
    sys.exit(main(sys.argv[1]) if len(sys.argv) == 2 and not sys.argv[1].startswith("-") else __doc__)
