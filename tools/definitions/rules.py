"""The rules of docs/TIMING.md, each with a change of a definition behind it and the session that sees it.

They stand in tools/definitions/rules.txt. A change is of the text of a file: what stands in it once becomes something
else. A session sees it where its transcript becomes another.
"""

import signal
from collections import namedtuple

from . import collection, mutants, syntax
from .code import Translation
from .modules import Missing, Module
from .sessions import ENTRIES, LAWS, TOP

RULES = TOP / "tools" / "definitions" / "rules.txt"
ENTERED = (*ENTRIES, *LAWS)
LONGEST = 60                # seconds of processor time for a session

# a rule by its first words: the file that is changed, pairs of what stands in it and what comes in its place, the
# session that sees it, and where none does, why
Rule = namedtuple("Rule", "words file changes session reason")


def rules():
    """The rules with their changes, in the order of the file."""
    for block in RULES.read_text(encoding="utf-8").split("\n\n"):
        fields = [line.split(": ", 1) for line in block.splitlines() if line and not line.startswith("#")]
        if fields:
            found = dict(fields)
            olds, news = ([value for key, value in fields if key == word] for word in ("old", "new"))
            yield Rule(found["rule"], found.get("file"), list(zip(olds, news)), found.get("seen by"),
                       found.get("unseen"))


def told():
    """The rules that docs/TIMING.md tells, by what stands in their rows."""
    page = (TOP / "docs" / "TIMING.md").read_text(encoding="utf-8")
    return [words for words, _ in mutants.table_of(page) if not words.startswith("**")]


def changed(library, rule):
    """A rule's file with the change in it, and the names of the definitions that become others."""
    before = library.module(rule.file)
    text = before.path.read_text(encoding="utf-8")
    for old, new in rule.changes:
        if text.count(old) != 1:
            raise Missing(f"{rule.words}: stands {text.count(old)} times in {rule.file}: {old}")
        text = text.replace(old, new)
    after = Module(rule.file, before.path)
    for item in syntax.read(text):
        after.add(item)
    kinds = (before.clauses, after.clauses), (before.records, after.records)
    return after, [name for old, new in kinds for name in new if new[name] != old.get(name)]


def put(program, rule):
    """Puts the change of a rule into translated definitions."""
    after, names = changed(program.library, rule)
    used = [name for name in names if (rule.file, name) in program.ready]
    if not used:
        raise Missing(f"{rule.words}: no session uses what is changed in {rule.file}")
    program.library.modules[rule.file] = after
    program.library.scopes.pop(rule.file, None)
    for name in used:
        exec(Translation(program, rule.file, name).text(), program.space)
    program.translate()


def sessions():
    """All sessions that may see a change, by their names."""
    every = (*collection.examples(), *collection.page_sessions(), *collection.counted_sessions(),
             *collection.judged_sessions())
    return {session.name: session for session in every}


def sees(tries, rule, session):
    """Whether a session sees the change of a rule: it has a transcript by it still, and another one."""
    def other():
        signal.setitimer(signal.ITIMER_VIRTUAL, LONGEST)
        try:
            put(tries.program, rule)
            tries.reset()
            return mutants.outcome(tries.definitions, session) != session.wanted
        except Exception as why:
            return repr(why)

    answer = mutants.in_a_process(other)
    if isinstance(answer, str):
        raise Missing(f"{rule.words}: {answer}")
    return answer


def main():
    """Tries each rule, prints it with its session, and gives 1 where one isn't seen."""
    tries, named, left = mutants.Tries(), sessions(), 0
    tries.translate(ENTERED)
    for rule in rules():
        seen = rule.session and sees(tries, rule, named[rule.session])
        left += not seen and not rule.reason
        print(f"{'seen by ' + rule.session if seen else rule.reason or 'NOT SEEN'}: {rule.words}", flush=True)
    print(f"{left} rules have no session that sees a change of them, and no reason")
    return 1 if left else 0
