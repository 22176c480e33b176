"""What is asked of the definitions for a session: its transcript, its exit number, and the counts of its orders."""

import sys
from pathlib import Path

from . import kit, syntax, values
from .code import Program

TOP = Path(__file__).resolve().parent.parent.parent
CRATES = TOP / "crates"

# The definitions that a session enters by. All others are found by the names that these use.
ENTRIES = {
    "orders": ("smil_top.Cut", "orders"),
    "first line": ("smil_top.Cut", "first_line"),
    "empty session": ("smil_top.Session", "empty_session"),
    "run": ("smil_top.Answers", "answer_of"),
    "check": ("smil_top.Answers", "check_of"),
    "untold": ("smil_top.Transcript", "untold"),
    "with answer": ("smil_top.Transcript", "with_answer"),
    "session after": ("smil_top.Laws", "session_after"),
    "least": ("smil_top.Evaluations", "least_of"),
    "most": ("smil_top.Evaluations", "most_of"),
    "summary": ("smil_top.Summary", "summary"),
    "generated": ("smil_top.Summary", "session_told"),
    "audit": ("smil_top.Auditing", "audit_text"),
    "asked": ("smil_words.Words", "mode_of"),
    "usage": ("smil_top.Words", "usage_line"),
    "status": ("smil_top.Serving", "status_of"),
    "exit number": ("smil_top.Words", "exit_number_of"),
}

# what holds of each presentation of a session: it is a state, and its diary is lawful
LAWS = {
    "is state": ("smil_model.shown.Orders", "IsState"),
    "is lawful": ("smil_model.diary.Lawful", "IsLawful"),
    "history": ("smil_model.shown.Orders", "resolved_history"),
}

# the files whose records without parameters are worked presentations: all that such a record says has to hold
WORKED = ("smil_worked", "smil_live.WorkedCounts")

# statuses that no definition gives a value: what an audit that finds no fault ends with, what another ends with,
# and what faulty words end with (specs/Serving says of each what was written)
CLEAN, REFUSED, WORDS = (f"smil_top.status.Status.{name}" for name in ("Clean", "Refused", "Words"))


def is_proposition(record):
    """Whether a record states something, in place of keeping values: its first field is an equation, or more."""
    return isinstance(record.fields[0][1], syntax.Operator)


def codes(text):
    return tuple(text.encode())


class Definitions:
    """The definitions, at hand by what they are for."""

    def __init__(self, crates=CRATES, **how):
        self.program = Program(crates, **how)

    def at(self, entry):
        return self.program.definition(*(ENTRIES.get(entry) or LAWS[entry]))

    def orders(self, text):
        return self.at("orders")(kit.lines(tuple(text)))

    def answers(self, mode, text):
        """Each order of an input, with its answer and what is told after it."""
        answer, with_answer = self.at(mode), self.at("with answer")
        told = self.at("untold")()
        for order in self.orders(text):
            given = answer(told.session, order)
            told = with_answer(told, given)
            yield order, given, told
            if values.REMEMBERED[0] > values.MOST_REMEMBERED:
                values.forget()

    def unlawful(self, text):
        """The names of the presentations at the end of a session that are no states, or whose diary is not lawful."""
        told = None
        for _, _, told in self.answers("run", text):
            pass
        for one in told.session.held if told else ():
            history = self.at("history")(one.presentation)
            if not self.at("is state")(one.presentation) or not self.at("is lawful")(history):
                yield bytes(one.name).decode()

    def worked(self):
        """The worked presentations that the definitions state, each with whether it holds."""
        crates = self.program.library.crates
        for place in WORKED:
            crate, _, file = place.partition(".")
            for path in sorted((crates / crate / "specs").glob(f"{file or '*'}.antt")):
                module = self.program.library.module(f"{crate}.{path.stem}")
                for record in module.records.values():
                    if record.fields and not record.parameters and is_proposition(record):
                        yield record.name, self.program.definition(module.name, record.name)()

    def mode(self, words):
        """What words ask for: `run`, `check`, `audit`, or a number to generate; None where they are faulty."""
        asked = self.at("asked")(tuple(map(codes, words)))
        if asked.tag == "None":
            return None
        mode = asked.args[0]
        return mode.args[0] if mode.args else mode.tag.rpartition(".")[2].lower()

    def exit_number(self, status):
        return self.at("exit number")(values.Con(status) if isinstance(status, str) else status)

    def serve(self, words, text, write):
        """Writes what the program writes for an input, and gives its exit number."""
        mode = self.mode(words)
        if mode is None:
            write(bytes(self.at("usage")()))
            return self.exit_number(WORDS)
        if mode == "audit":
            answer = bytes(self.at("audit")(kit.lines(tuple(text))))
            write(answer)
            return self.exit_number(CLEAN if answer.startswith(b"yes") else REFUSED)
        if not isinstance(mode, str):
            write(bytes(self.at("summary")(mode)))
            return self.exit_number(self.at("status")(self.at("generated")(mode)))
        told, written = self.at("untold")(), 0
        for _, _, told in self.answers(mode, text):
            write(bytes(told.text[written:]))
            written = len(told.text)
        return self.exit_number(self.at("status")(told))

    def counts(self, text):
        """For each order the number of its first line, and how often intervals are evaluated for it: at least,
        and at most."""
        first, least, most, after = (self.at(name) for name in ("first line", "least", "most", "session after"))
        session = self.at("empty session")()
        for order, given, _ in self.answers("run", text):
            yield first(order), least(session, order), most(session, order)
            session = after(session, given)


def counts_text(definitions, text):
    """The counts of a session, line by line, and their sums behind them."""
    lines, sums = [], [0, 0]
    for line, least, most in definitions.counts(text):
        lines.append(f"{line} {least} {most}\n")
        sums = [sums[0] + least, sums[1] + most]
    return "".join(lines) + f"all {sums[0]} {sums[1]}\n"


def text_of(session):
    """The bytes of a session's file, or of the standard input for `-`."""
    return sys.stdin.buffer.read() if session == "-" else Path(session).read_bytes()


def words_of(session):
    """The words that stand beside a session, in SESSION.args; `run` where there are none."""
    beside = Path(f"{session}.args")
    return beside.read_text().split("\n")[:-1] if beside.exists() else ["run"]
