"""Why an element has its interval and its view at a moment: the definitions that gave them, with their values."""

import sys

from . import values
from .sessions import Definitions, text_of
from .values import shown

EXPLAINED = {
    "who": ("smil_grammar.Scripts", "who_of"),
    "node": ("smil_model.shown.Orders", "node_of"),
    "as of": ("smil_model.shown.Orders", "as_of"),
    "history": ("smil_model.shown.Orders", "resolved_history"),
    "table": ("smil_model.interval.Current", "current_table"),
    "in table": ("smil_model.interval.Current", "in_table"),
    "begin list": ("smil_model.document.Defaults", "begin_list"),
    "end list": ("smil_model.document.Defaults", "end_list"),
    "item": ("smil_grammar.Spellings", "item_text"),
    "item times": ("smil_model.interval.Instances", "item_times"),
    "begin times": ("smil_model.interval.Instances", "begin_times"),
    "end times": ("smil_model.interval.Instances", "end_times"),
    "facts": ("smil_model.interval.Current", "facts_of"),
    "interval": ("smil_model.interval.Intervals", "interval_of"),
    "view": ("smil_model.shown.Views", "view_of"),
}
BEGIN, END = (values.Con(f"smil_model.document.Edge.{name}") for name in ("Begin", "End"))
ALL, TWO = 99, 2            # how many levels of definitions are told


class Trace:
    """Writes the definitions that are used, each with its clause's place and its value, indented by who uses it."""

    def __init__(self):
        self.lines = None
        self.depth = 0
        self.deepest = ALL

    def __call__(self, module, name, line, arguments, value_of):
        if self.lines is None or self.depth > self.deepest:
            return value_of()
        place = len(self.lines)
        self.lines.append("")
        self.depth += 1
        value = value_of()
        self.depth -= 1
        path = f"{module.split('.')[0]}/specs/{'/'.join(module.split('.')[1:])}.antt:{line}"
        self.lines[place] = f"{'  ' * (self.depth + 1)}{name} = {shortened(shown(value))}    ({path})"
        return value

    def of(self, deepest, function, *arguments):
        """What a definition gives, and the lines of what it used."""
        values.forget()
        self.lines, self.deepest = [], deepest
        value = function(*arguments)
        lines, self.lines = self.lines, None
        return value, lines


def shortened(text, most=100):
    return text if len(text) <= most else text[:most - 3] + "..."


class Explanation:
    def __init__(self, session, name):
        self.trace = Trace()
        self.definitions = Definitions(trace=self.trace)
        told = None
        for _, _, told in Definitions().answers("run", text_of(session)):
            pass
        held = told.session.held if told else ()
        named = [one for one in held if name is None or bytes(one.name).decode() == name]
        if not named:
            raise OSError(f"the session holds no presentation{' ' + name if name else ''} at its end")
        self.presentation = named[-1].presentation

    def at(self, entry):
        return self.definitions.program.definition(*EXPLAINED[entry])

    def tell(self, element, moment):
        who = self.at("who")(tuple(element.encode()))
        nodes = self.presentation.document.nodes
        node = self.at("node")(nodes, who.args[0]) if who.tag == "Some" else who
        if node.tag == "None":
            raise OSError(f"there is no element {element}")
        node = node.args[0]
        if moment > self.presentation.now:
            raise OSError(f"the session ends at {self.presentation.now}")
        history = self.at("history")(self.at("as of")(self.presentation, moment))
        in_table = self.at("in table")
        table = self.at("table")(history, moment)

        def intervals(serial):
            return in_table(table, serial)

        print(f"{element} at {moment}, behind {len(history.diary)} entries of the diary")
        self.tell_list("begin", BEGIN, self.at("begin list")(nodes, node), history, intervals, moment, node)
        self.tell_list("end", END, self.at("end list")(node), history, intervals, moment, node)
        begins, begin_lines = self.trace.of(0, self.at("begin times"), history, intervals, moment, node)
        ends, end_lines = self.trace.of(0, self.at("end times"), history, intervals, moment, node)
        facts, fact_lines = self.trace.of(1, self.at("facts"), history, intervals, moment, node)
        _, interval_lines = self.trace.of(ALL, self.at("interval"), facts, begins, ends)
        _, view_lines = self.trace.of(TWO, self.at("view"), history, moment, intervals, node)
        for title, lines in (("instance times", begin_lines + end_lines), ("facts", fact_lines),
                             ("current interval", interval_lines), ("view", view_lines)):
            print(title, *lines, sep="\n")

    def tell_list(self, title, edge, items, history, intervals, moment, node):
        print(f"{title} list")
        if not items:
            print("  none")
        for item in items:
            times, lines = self.trace.of(1, self.at("item times"), history, intervals, moment, node, edge, item)
            print(f"  {bytes(self.at('item')(item)).decode()} gives {shown(times)}", *lines[:4], sep="\n  ")


def explain(words):
    element, moment, rest = words[0], words[1], words[2:]
    name = None
    if rest[:1] == ["--of"]:
        name, rest = rest[1], rest[2:]
    if len(rest) != 1 or not moment.isdigit():
        print("usage: definitions.py --explain ELEMENT MOMENT [--of NAME] SESSION", file=sys.stderr)
        return 2
    Explanation(rest[0], name).tell(element, int(moment))
    return 0
