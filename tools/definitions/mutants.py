"""Changes single places of the definitions and tells which of them no session sees.

A change is of one place in one clause: a test that is stricter or laxer, begin in place of end, an operand or an
argument left out, a branch that is always or never taken, a case dropped. It is seen where a session's transcript
becomes another, or where it has none any more. Only sessions that use the clause are run, each change in a process of
its own.
"""

import gc
import json
import os
import random
import re
import signal
import time
from collections import namedtuple

from . import collection, syntax, values
from .code import Translation, names_in
from .sessions import ENTRIES, TOP, Definitions, counts_text
from .syntax import Apply, Dot, If, Lambda, Let, Name, Number, Operator, PName, Record, Tuple

Change = namedtuple("Change", "module name clause number old new")

SECONDS = 2                 # of processor time that a session is given, and ten times what it takes as it stands
NO_MEANING = "none: it has no meaning"
ENDLESS = "one that doesn't end"
REASONS = TOP / "tools" / "definitions" / "unseen.txt"
NAMES = {"int_lt": ["int_le"], "int_le": ["int_lt"], "nat_lt": ["nat_le"], "nat_le": ["nat_lt"],
         "least_time": ["greatest_time"], "greatest_time": ["least_time"], "list_any": ["list_all"],
         "list_all": ["list_any"], "true": ["false"], "false": ["true"], "min": ["max"], "Begin": ["End"],
         "End": ["Begin"], "is_in_seq": ["is_in_excl"], "is_in_excl": ["is_in_seq"]}
FIELDS = {"begin": ["end"], "end": ["begin"], "first": ["latest"], "latest": ["first"], "peers": ["higher"],
          "higher": ["lower"], "lower": ["peers"], "finish": ["begin"], "min": [], "value": ["moment"],
          "moment": ["value"]}
LEFT_OUT = {"suc", "reverse", "not", "rising", "rising_times"}   # f x becomes x
LAST_STAYS = {"filter": 1, "drop": 1, "take": 1, "without": 1}                   # f a x becomes x
OPERATORS = {"+ℤ": ["-ℤ"], "-ℤ": ["+ℤ"], "+": ["-"], "-": ["+"], "/": ["*"]}
ONE_SIDE = {"&&", "||", "++"}


# ---- changed trees

def changes_at(tree, scope):
    """What may stand in the place of a tree."""
    if isinstance(tree, Name):
        yield from (Name(name) for name in NAMES.get(tree.name, []) if name in scope or name in ("true", "false"))
    elif isinstance(tree, Number):
        yield Number(tree.value + 1)
    elif isinstance(tree, Dot):
        yield from (Dot(tree.base, field) for field in FIELDS.get(tree.field, []))
    elif isinstance(tree, Operator):
        if tree.name in ONE_SIDE:
            yield tree.left
            yield tree.right
        yield from (Operator(name, tree.left, tree.right) for name in OPERATORS.get(tree.name, []))
    elif isinstance(tree, If):
        yield tree.yes
        yield tree.no
    elif isinstance(tree, Apply) and isinstance(tree.function, Name):
        if tree.function.name in LEFT_OUT and len(tree.arguments) == 1:
            yield tree.arguments[0]
        if LAST_STAYS.get(tree.function.name) == len(tree.arguments) - 1:
            yield tree.arguments[-1]


def changed(tree, scope):
    """Each tree with one place changed, with what stood there and what stands there now."""
    for new in changes_at(tree, scope):
        yield new, tree, new
    for rebuilt, part in places_of(tree):
        for new, old, now in changed(part, scope):
            yield rebuilt(new), old, now


def places_of(tree):
    """The parts of a tree, each with what makes the tree of another part in its place."""
    if isinstance(tree, Record):
        for place, (name, part) in enumerate(tree.fields):
            yield (lambda new, place=place, name=name: tree._replace(
                fields=tree.fields[:place] + [(name, new)] + tree.fields[place + 1:])), part
    elif isinstance(tree, Apply):
        yield (lambda new: Apply(new, tree.arguments)), tree.function
        for place, part in enumerate(tree.arguments):
            yield (lambda new, place=place: Apply(
                tree.function, tree.arguments[:place] + [new] + tree.arguments[place + 1:])), part
    elif isinstance(tree, Tuple):
        for place, part in enumerate(tree.items):
            yield (lambda new, place=place: Tuple(tree.items[:place] + [new] + tree.items[place + 1:])), part
    elif isinstance(tree, (Lambda, Let, If, Operator, Dot)):
        for field in tree._fields:
            part = getattr(tree, field)
            if isinstance(part, tuple) and field not in ("parameters", "type", "names") and not isinstance(part, str):
                yield (lambda new, field=field: tree._replace(**{field: new})), part


def changes_of(library, module, name):
    """The changes of a definition, in their order."""
    clauses = library.module(module).clauses[name]
    scope, number = library.scope(module), 0
    for place, clause in enumerate(clauses):
        if place + 1 < len(clauses) and all(isinstance(p, PName) and (p.name == "_" or p.name not in scope)
                                            for p in clauses[-1].patterns):
            yield Change(module, name, place, number, clause, None)
            number += 1
        for body, old, new in changed(clause.body, scope):
            yield Change(module, name, place, number, old, (clause._replace(body=body), new))
            number += 1


def written(tree):
    """A tree in the language's spelling, in short."""
    if isinstance(tree, syntax.Clause):
        return "the case"
    if isinstance(tree, Name):
        return tree.name
    if isinstance(tree, (Number, syntax.Text)):
        return repr(tree.value) if isinstance(tree, syntax.Text) else str(tree.value)
    if isinstance(tree, Apply):
        return " ".join([inner(tree.function)] + [inner(a) for a in tree.arguments])
    if isinstance(tree, Dot):
        return f"{inner(tree.base)}.{tree.field}"
    if isinstance(tree, Operator):
        return f"{inner(tree.left)} {tree.name} {inner(tree.right)}"
    if isinstance(tree, If):
        return f"if {written(tree.test)} then {written(tree.yes)} else {written(tree.no)}"
    if isinstance(tree, Lambda):
        return f"λ {' '.join(name for name, _ in tree.parameters)}. {written(tree.body)}"
    if isinstance(tree, Let):
        return f"let {tree.name} = {written(tree.value)} in {written(tree.body)}"
    if isinstance(tree, Tuple):
        return "(" + ", ".join(map(written, tree.items)) + ")"
    if isinstance(tree, Record):
        return "record {" + "; ".join(f"{name} = {written(value)}" for name, value in tree.fields) + "}"
    return "?"


def inner(tree):
    plain = isinstance(tree, (Name, Number, Dot, Tuple, Record))
    return written(tree) if plain else f"({written(tree)})"


def said(change):
    new = "left out" if change.new is None else "→ " + written(change.new[1])
    return f"{change.module}.{change.name}/{change.clause}: {written(change.old)} {new}"


# ---- trying

def outcome(definitions, session):
    """What the definitions write for a session."""
    if session.words == collection.COUNTS:
        return counts_text(definitions, session.text).encode()
    if session.words == collection.JUDGED:
        return "".join(f"{name}\n" for name in definitions.unlawful(session.text)).encode()
    text = []
    definitions.serve(session.words, session.text, text.append)
    return b"".join(text)


class Tries:
    """Sessions with the clauses that each uses, and definitions that are changed and put back."""

    def __init__(self, most=float("inf")):
        """`most` is how long, in seconds of processor time, a session is looked for that sees a change."""
        self.most = most
        self.definitions = Definitions()
        self.program = self.definitions.program
        self.sessions = []

    def use(self, sessions):
        """Runs the sessions as they stand, and keeps what each uses, and how long it takes."""
        covering = Definitions(cover=True)
        program = covering.program
        for session in sessions:
            program.covered.clear()
            values.forget()
            started = time.process_time()
            if outcome(covering, session) != session.wanted:
                print(f"{session.name} is left out: it differs before any change")
                continue
            used = {program.clauses[number] for number in program.covered}
            self.sessions.append((time.process_time() - started, session, used))
        self.translate(ENTRIES)

    def translate(self, entries):
        """Translates what is entered so, and all that this uses."""
        for entry in entries:
            self.definitions.at(entry)
        self.reset()
        gc.collect()

    def likely(self, module, clause):
        """The sessions that use a clause, first those that use much of its file in little time."""
        found = [(seconds / (1 + sum(1 for other in used if other[0] == module)), seconds, session)
                 for seconds, session, used in self.sessions if clause in used]
        return [(seconds, session) for _, seconds, session in sorted(found, key=lambda one: one[0])]

    def reset(self):
        values.forget()
        for name, value in self.program.space.items():
            if name.endswith("_value") and isinstance(value, list):
                value.clear()

    def seen_by(self, change):
        """The name of the first session that sees a change, or None."""
        return in_a_process(lambda: self.first_other(change))

    def is_other(self, session, seconds):
        """Whether a session has another transcript by the definitions as they are now, or none in so many seconds."""
        signal.setitimer(signal.ITIMER_VIRTUAL, seconds)
        self.reset()
        try:
            return outcome(self.definitions, session) != session.wanted
        except (Exception, RecursionError):
            return True

    def first_other(self, change):
        module = self.program.library.module(change.module)
        clauses = module.clauses[change.name]
        line = clauses[change.clause].line
        others = clauses[:change.clause] + ([change.new[0]] if change.new else []) + clauses[change.clause + 1:]
        module.clauses[change.name] = others
        try:
            text = Translation(self.program, change.module, change.name).text()
            exec(text, self.program.space)
            self.program.translate()
        except Exception:
            return NO_MEANING
        started = time.process_time()
        for seconds, session in self.likely(change.module, (change.module, change.name, line)):
            if time.process_time() - started > self.most:
                return None
            if self.is_other(session, SECONDS + 10 * seconds):
                return session.name
        return None


def in_a_process(function):
    """What a function gives, called in a process of its own; what it changes stays there."""
    reading, writing = os.pipe()
    child = os.fork()
    if child == 0:
        try:
            os.write(writing, json.dumps(function()).encode())
        finally:
            os._exit(0)
    os.close(writing)
    with os.fdopen(reading, "rb") as answers:
        answer = answers.read()
    os.waitpid(child, 0)
    return json.loads(answer) if answer else ENDLESS


# ---- which places

def table_of(page):
    """The rows of the first table with a column `Definition`: pairs of the first column and that one."""
    place = None
    for line in page.splitlines():
        cells = [cell.strip() for cell in line.strip("|").split(" | ")] if line.startswith("|") else []
        if cells and "Definition" in [cell.strip("| ") for cell in cells]:
            place = [cell.strip("| ") for cell in cells].index("Definition")
        elif place is not None and not cells:
            return
        elif place is not None and len(cells) > place and not line.startswith("|---"):
            yield cells[0].strip("| "), cells[place]


def rows():
    """The rules of docs/TIMING.md with the definitions that state them: pairs of a file's name and a name."""
    page = (TOP / "docs" / "TIMING.md").read_text(encoding="utf-8")
    for rule, definitions in list(table_of(page)):
        found, file = [], None
        for word in re.findall(r"`([\w.]+)`", definitions):
            if "." in word:
                file, word = word.split(".")[-2:]
            if file:
                found.append((file, word))
        if found:
            yield rule, found


def located(program, file, name):
    """The translated definition of a name in a file of this name."""
    return [key for key in program.ready if key[1] == name and key[0].split(".")[-1] == file]


def below(program, key):
    """The definitions that a definition uses, of its own file."""
    module = program.library.module(key[0])
    used = set().union(*(names_in(clause.body) for clause in module.clauses.get(key[1], [])))
    return [(key[0], name) for name in sorted(used) if (key[0], name) in program.ready and name != key[1]]


def try_rule(tries, names, each, known):
    """The outcomes of changes of a rule's definitions, and of those of their files that they use; each definition is
    tried once, up to `each` changes of it."""
    program = tries.program
    keys = [key for file, name in names for key in located(program, file, name)]
    keys += [other for key in keys for other in below(program, key) if other not in keys]
    for key in dict.fromkeys(keys):
        if key in known or key[1] not in program.library.module(key[0]).clauses:
            continue
        known[key] = []
        changes = list(changes_of(program.library, *key))
        random.Random(str(key)).shuffle(changes)
        for change in changes:
            if len(known[key]) == each:
                break
            session = tries.seen_by(change)
            if session != NO_MEANING:
                known[key].append((change, session))
                print(f"  {'unseen' if session is None else 'seen by ' + session}: {said(change)}", flush=True)
    return [outcome for key in dict.fromkeys(keys) for outcome in known.get(key, [])]


def try_rows(tries, each):
    """Each rule with what became of changes of its definitions, and the changes that no session sees and no reason
    is given for."""
    known, unseen_rules = {}, []
    for rule, names in rows():
        print(f"rule: {rule}", flush=True)
        outcomes = try_rule(tries, names, each, known)
        if outcomes and all(session is None for _, session in outcomes):
            unseen_rules.append(rule)
    outcomes = [outcome for found in known.values() for outcome in found]
    unseen = [said(change) for change, session in outcomes if session is None]
    known_reasons = reasons()
    left = [text for text in unseen if text not in known_reasons]
    print(f"{len(outcomes)} changes tried, {len(unseen)} of them seen by no session, {len(left)} of these with no reason")
    for text in left:
        print(f"  {text}")
    for rule in unseen_rules:
        print(f"no change of this rule is seen: {rule}")
    return 1 if left or unseen_rules else 0


def reasons():
    """Why some changes are seen by no session: by the change, as it is written."""
    lines = REASONS.read_text(encoding="utf-8").split("\n") if REASONS.exists() else []
    pairs = [line.split(" because ") for line in lines if " because " in line]
    return {change: reason for change, reason in pairs}


def main(words):
    each = int(words[0]) if words else 2
    tries = Tries(*map(float, words[1:2]))
    tries.use(collection.all_sessions())
    return try_rows(tries, each)
