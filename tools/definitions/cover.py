"""Which clauses of the definitions no session uses."""

import re

from . import collection, values
from .collection import Session
from .sessions import ENTRIES, TOP, Definitions, text_of, words_of

REASONS = TOP / "tools" / "definitions" / "unused.txt"


def reasons():
    """Why clauses are used by no session: pairs of a pattern of their names and a reason."""
    found = []
    for line in REASONS.read_text(encoding="utf-8").splitlines() if REASONS.exists() else []:
        pattern, _, reason = line.partition(": ")
        if reason and not line.startswith("#"):
            found.append((re.compile(pattern), reason))
    return found


def named(library, module, name, line):
    """A clause as it is named: its definition, its number, and where it stands."""
    clauses = library.module(module).clauses[name]
    place = [clause.line for clause in clauses].index(line)
    path = library.module(module).path.relative_to(TOP)
    return f"{module}.{name}/{place}", f"{path}:{line}"


def unused(sessions, counted):
    """The clauses that the sessions don't use: their names and places."""
    definitions = Definitions(cover=True)
    for entry in ENTRIES:
        definitions.at(entry)
    for session in sessions:
        values.forget()
        if session.words != collection.COUNTS:
            definitions.serve(session.words, session.text, lambda text: None)
        if counted and session.words == ["run"]:
            list(definitions.counts(session.text))
    program = definitions.program
    for number in sorted(set(program.clauses) - program.covered, key=lambda n: program.clauses[n]):
        yield named(program.library, *program.clauses[number])


def cover(words):
    if words:
        sessions = [Session(word, words_of(word), text_of(word), None) for word in words]
    else:
        sessions = list(collection.all_sessions())
    known, left = reasons(), 0
    for name, place in unused(sessions, counted=True):
        reason = next((reason for pattern, reason in known if pattern.fullmatch(name)), None)
        if reason is None or words:
            left += 1
            print(f"{name} ({place})", flush=True)
    print(f"{left} clauses are used by no session" + ("" if words else " and have no reason"))
    return 1 if left and not words else 0
