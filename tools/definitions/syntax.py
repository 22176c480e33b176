"""The part of the antt language in which the definitions are written, read into trees.

Read are files of `specs`: `use` lines, `mod` lines, fixities, signatures with their clauses, records, data
types, and blocks `module _ ... where`. What stands outside this part is answered by Unreadable, with the place.
"""

import re
from collections import namedtuple


class Unreadable(Exception):
    """A text that the reader has no rule for."""


# ---- trees

Number = namedtuple("Number", "value")
Text = namedtuple("Text", "value")
Name = namedtuple("Name", "name")
Dot = namedtuple("Dot", "base field")                    # `r.field`, `module.Constructor`, `pair.0`
Apply = namedtuple("Apply", "function arguments")
Operator = namedtuple("Operator", "name left right")
Lambda = namedtuple("Lambda", "parameters body")         # parameters: pairs of a name and a type or None
Let = namedtuple("Let", "name type value body")
If = namedtuple("If", "test yes no")
Record = namedtuple("Record", "base fields")             # fields: pairs of a name and a tree
Tuple = namedtuple("Tuple", "items")
Binder = namedtuple("Binder", "names type implicit")     # `(x y : A)` or `{A : Type 0}`, before an arrow or a ×

PNumber = namedtuple("PNumber", "value")
PName = namedtuple("PName", "name")                      # a variable, or a constructor without arguments
PConstructor = namedtuple("PConstructor", "name arguments")
PCons = namedtuple("PCons", "head tail")
PNil = namedtuple("PNil", "")
PTuple = namedtuple("PTuple", "items")

Use = namedtuple("Use", "path names alias")              # names: pairs of a name and what it is called here
Signature = namedtuple("Signature", "name type line")
Clause = namedtuple("Clause", "name patterns body line last")
Proof = namedtuple("Proof", "name line")                 # what is proved of definitions, in a file of definitions
Unread = namedtuple("Unread", "name line why")           # an item that the reader has no rule for, by its first word
RecordType = namedtuple("RecordType", "name parameters type fields line last")
DataType = namedtuple("DataType", "name parameters type constructors line last")

# how tightly an operator binds, and to which side it leans, as in the kit
BINDS = {
    "→": (0, "right"), "⊎": (1, "right"), "×": (2, "right"), "≡": (4, "none"), "≢": (4, "none"),
    "+ℤ": (6, "left"), "-ℤ": (6, "left"), "*ℤ": (7, "left"), ">>=": (10, "left"), "||": (30, "left"),
    "&&": (35, "left"), "==": (40, "none"), "<": (50, "none"), "≤": (50, "none"), "<ℤ": (50, "none"),
    "≤ℤ": (50, "none"), "+": (65, "left"), "-": (65, "left"), "++": (65, "left"), "∷": (67, "right"),
    "*": (70, "left"), "/": (70, "left"), "%": (70, "left"), "^": (75, "right"),
}
ELSE_BINDS = 5.5
RESERVED = {"let", "in", "if", "then", "else", "do", "record", "where", "use", "pub", "abbrev", "data", "module",
            "mod", "infix", "infixl", "infixr", "elim", "λ", ":", "=", "←"}

# ---- tokens

Token = namedtuple("Token", "kind text line column first")
PIECES = re.compile(
    r"""(?P<newline>\n)|(?P<space>[ \t]+)|(?P<comment>--[^\n]*)|(?P<text>"(?:[^"\\\n]|\\.)*")|«(?P<escaped>[^»]*)»"""
    r"""|(?P<mark>[(){};,.])|(?P<name>[^\s(){}.;,@"«»]+)""")
ESCAPES = {"n": "\n", "t": "\t", "r": "\r", "0": "\0", '"': '"', "\\": "\\"}


def tokens_of(text):
    """The tokens of a file; `first` says that a token is the first one of its line."""
    tokens, place, line, start, first = [], 0, 1, 0, True
    while place < len(text):
        found = PIECES.match(text, place)
        if not found:
            raise Unreadable(f"line {line}: {text[place:place + 20]!r}")
        kind, word, column = found.lastgroup, found.group(found.lastgroup), place - start
        before, place = place, found.end()
        if kind == "newline":
            line, start, first = line + 1, place, True
            continue
        if kind in ("space", "comment"):
            continue
        if kind == "mark":
            joined = word == "." and before and not text[before - 1].isspace() and not text[place:place + 1].isspace()
            kind = "dot" if joined else word
        elif kind == "escaped":
            kind = "name"
        elif kind == "name" and word[0].isdigit():
            kind = "number"
        elif kind == "name" and word in RESERVED:
            kind = word
        elif kind == "name" and word in BINDS:
            kind = "operator"
        tokens.append(Token(kind, word, line, column, first))
        first = False
    tokens.append(Token("end", "", line + 1, -1, True))
    return tokens


def unquoted(text):
    return re.sub(r"\\(.)", lambda found: ESCAPES[found.group(1)], text[1:-1])


# ---- the reader

class Reader:
    """Reads the items of a file. A token that is the first of its line and stands no further right than the
    item, or than the steps of a `do` block, ends what is being read, unless it stands in brackets."""

    def __init__(self, text):
        self.tokens = tokens_of(text)
        self.place = 0
        self.columns = [-1]
        self.operators = set()

    # -- tokens

    def peek(self):
        token = self.tokens[self.place]
        if token.first and token.column <= self.columns[-1]:
            return Token("end", token.text, token.line, token.column, True)
        return token

    def take(self, kind=None):
        token = self.peek()
        if kind is not None and token.kind != kind:
            raise Unreadable(f"line {token.line}: {token.text!r} stands where `{kind}` is wanted")
        self.place += 1
        return token

    def opened(self, kind):
        self.take(kind)
        self.columns.append(-1)

    def closed(self, kind):
        self.take(kind)
        self.columns.pop()

    def fail(self):
        token = self.peek()
        raise Unreadable(f"line {token.line}: no rule for {token.text!r}")

    # -- items

    def items(self, column=0):
        """The items that begin at this column, up to one that stands further left."""
        found = []
        while True:
            token = self.tokens[self.place]
            if token.kind == "end" or token.column < column:
                return found
            start, columns = self.place, list(self.columns)
            try:
                self.columns.append(column)
                self.place += 1
                found.extend(self.item(token))
                if not self.tokens[self.place].first:
                    self.fail()
            except Unreadable as why:
                found.append(Unread(token.text, token.line, str(why)))
                self.place = start + 1
                self.skip_item(column)
            self.columns = columns

    def skip_item(self, column):
        """On to the next item, behind one that is not read."""
        while self.tokens[self.place].kind != "end":
            token = self.tokens[self.place]
            if token.first and token.column <= column and token.kind not in (")", "}"):
                return
            self.place += 1

    def last_line(self):
        return self.tokens[self.place - 1].line

    def item(self, token):
        if token.kind == "pub":
            return self.item(self.take())
        if token.kind == "use":
            return [self.use()]
        if token.kind == "mod":
            self.take("name")
            return []
        if token.kind in ("infix", "infixl", "infixr"):
            self.take("number")
            self.operators.add(self.take("name").text.strip("◌"))
            return []
        if token.kind == "abbrev":
            return [self.signature(token)]
        if token.kind == "record":
            return [self.record_type(token)]
        if token.kind == "data":
            return [self.data_type(token)]
        if token.kind == "module":
            return self.module_block()
        if token.kind == "name" and self.peek().kind == ":":
            self.skip_item(self.columns[-1])
            return [Proof(token.text, token.line)]
        self.place -= 1
        return [self.clause(token)]

    def module_block(self):
        self.take("name")
        parameters = []
        while self.peek().kind in ("(", "{"):
            parameters.append(self.binder())
        self.take("where")
        column = self.tokens[self.place].column
        self.columns.append(-1)
        found = self.items(column)
        self.columns.pop()
        if all(parameter.implicit for parameter in parameters):
            return found
        return [Unread(item.name, item.line, f"line {item.line}: it stands in a block with parameters")
                for item in found if hasattr(item, "line")]

    def use(self):
        path = [self.take("name").text]
        while self.peek().kind == "dot":
            self.take()
            if self.peek().kind == "{":
                break
            path.append(self.take().text)
        names, alias = [], None
        if self.peek().kind == "{":
            self.opened("{")
            while self.peek().kind != "}":
                name = self.take().text
                called = name
                if self.peek().text == "as":
                    self.take()
                    called = self.take().text
                names.append((name, called))
                if self.peek().kind == ",":
                    self.take()
            self.closed("}")
        elif self.peek().text == "as":
            self.take()
            alias = self.take("name").text
        else:
            alias = path[-1]
        return Use(".".join(path), names, alias)

    def signature(self, token):
        if self.peek().kind == "pub":
            self.take()
        name = self.take().text
        while self.peek().kind == "{":
            self.skip_braces()
        self.take(":")
        return Signature(name, self.expression(), token.line)

    def record_type(self, token):
        name, parameters, of_type = self.type_head()
        fields = self.typed_names()
        return RecordType(name, parameters, of_type, fields, token.line, self.last_line())

    def data_type(self, token):
        name, parameters, of_type = self.type_head()
        constructors = self.typed_names()
        return DataType(name, parameters, of_type, constructors, token.line, self.last_line())

    def type_head(self):
        name, parameters = self.take().text, []
        while self.peek().kind in ("(", "{"):
            parameters.append(self.binder())
        self.take(":")
        of_type = self.expression()
        self.take("where")
        return name, parameters, of_type

    def typed_names(self):
        """The fields of a record, or the constructors of a data type."""
        column, found = self.tokens[self.place].column, []
        if column <= self.columns[-1]:
            return found
        while self.tokens[self.place].first and self.tokens[self.place].column == column:
            self.columns.append(column)
            self.columns[-1] = column - 1
            if self.peek().kind == "pub":
                self.take()
            name = self.take().text
            self.columns[-1] = column
            self.take(":")
            found.append((name, self.expression()))
            self.columns.pop()
        return found

    def clause(self, token):
        patterns, name = [], None
        if token.kind == "name" and self.tokens[self.place + 1].kind != "operator":
            self.place += 1
            name = token.text
        else:
            self.columns[-1] -= 1
            patterns.append(self.pattern_atom())
            self.columns[-1] += 1
            name = self.take().text
        while self.peek().kind != "=":
            if self.peek().kind == "{":
                self.skip_braces()
            else:
                patterns.append(self.pattern_atom())
        self.take("=")
        body = self.expression()
        return Clause(name, patterns, body, token.line, self.last_line())

    # -- patterns

    def pattern_atom(self):
        token = self.take()
        if token.kind == "(":
            self.columns.append(-1)
            pattern = self.pattern()
            self.closed(")")
            return pattern
        if token.kind == "number":
            return PNumber(int(token.text.replace("_", "")))
        if token.text == "[]":
            return PNil()
        if token.kind != "name":
            raise Unreadable(f"line {token.line}: the pattern {token.text!r}")
        if self.peek().kind == "dot":
            self.take()
            return PConstructor(token.text + "." + self.take().text, [])
        return PName(token.text)

    def pattern(self):
        """A pattern in brackets: a constructor with its arguments, `x ∷ xs`, or parts with commas."""
        first = self.pattern_atom()
        arguments = []
        while self.peek().kind not in (")", ",", "operator"):
            arguments.append(self.pattern_atom())
        if arguments:
            name = first.name if isinstance(first, (PName, PConstructor)) else self.fail()
            first = PConstructor(name, arguments)
        if self.peek().text == "∷":
            self.take()
            return PCons(first, self.pattern())
        if self.peek().kind == ",":
            items = [first]
            while self.peek().kind == ",":
                self.take()
                rest = self.pattern()
                items.extend(rest.items if isinstance(rest, PTuple) else [rest])
            return PTuple(items)
        return first

    # -- expressions

    def skip_braces(self):
        """An implicit argument, which has no part in what is computed."""
        self.opened("{")
        depth = 1
        while depth:
            kind = self.take().kind
            depth += (kind == "{") - (kind == "}")
        self.columns.pop()

    def binder(self):
        closing = ")" if self.peek().kind == "(" else "}"
        self.opened(self.peek().kind)
        names = []
        while self.peek().kind != ":":
            names.append(self.take().text)
        self.take(":")
        of_type = self.expression()
        self.closed(closing)
        return Binder(names, of_type, closing == "}")

    def opens_binder(self):
        """Whether `(` stands here, then names, then `:`."""
        if self.peek().kind not in ("(", "{"):
            return False
        place = self.place + 1
        while self.tokens[place].kind == "name":
            place += 1
        return place > self.place + 1 and self.tokens[place].kind == ":"

    def expression(self, least=0):
        if self.opens_binder():
            left = self.binder()
            while self.opens_binder():
                left = Binder(left.names + self.binder().names, left.type, left.implicit)
            if self.peek().text not in ("→", "×"):
                self.fail()
            name = self.take().text
            return Operator(name, left, self.expression(0))
        left = self.operand()
        while self.peek().kind == "operator":
            name = self.peek().text
            binds, side = BINDS[name]
            if binds < least:
                break
            self.take()
            left = Operator(name, left, self.expression(binds if side == "right" else binds + .25))
        return left

    def operand(self):
        kind = self.peek().kind
        if kind == "let":
            return self.let()
        if kind == "if":
            self.take()
            test = self.expression()
            self.take("then")
            yes = self.expression()
            self.take("else")
            return If(test, yes, self.expression(ELSE_BINDS))
        if kind == "do":
            return self.do_block()
        if kind == "λ":
            return self.lambda_()
        function, arguments = self.atom(), []
        while True:
            kind = self.peek().kind
            if kind == "{":
                self.skip_braces()
            elif kind in ("name", "number", "text", "(", "record"):
                arguments.append(self.atom())
            elif kind == "λ":
                arguments.append(self.lambda_())
            else:
                return Apply(function, arguments) if arguments else function

    def let(self):
        self.take("let")
        name, of_type = self.take("name").text, None
        if self.peek().kind == ":":
            self.take()
            of_type = self.expression()
        self.take("=")
        value = self.expression()
        self.take("in")
        return Let(name, of_type, value, self.expression())

    def lambda_(self):
        self.take("λ")
        parameters = []
        while self.peek().kind != ".":
            if self.peek().kind == "(":
                bound = self.binder()
                parameters.extend((name, bound.type) for name in bound.names)
            else:
                parameters.append((self.take("name").text, None))
        self.take(".")
        return Lambda(parameters, self.expression())

    def do_block(self):
        """The steps of a `do` block, as the binds that they stand for."""
        self.take("do")
        column, steps = self.tokens[self.place].column, []
        while not steps or (self.tokens[self.place].first and self.tokens[self.place].column == column):
            self.columns.append(column - 1 if not steps else column - 1)
            name = None
            if self.tokens[self.place + 1].kind == "←":
                name = self.take().text
                self.columns[-1] = column
                self.take("←")
            else:
                first = self.tokens[self.place]
                self.tokens[self.place] = first._replace(first=False)
                self.columns[-1] = column
            steps.append((name, self.expression()))
            self.columns.pop()
        if steps[-1][0] is not None:
            raise Unreadable(f"line {self.last_line()}: a do block ends with a bind")
        body = steps[-1][1]
        for name, value in reversed(steps[:-1]):
            body = Operator(">>=", value, Lambda([(name or "_", None)], body))
        return body

    def atom(self):
        token = self.take()
        if token.kind == "(":
            self.columns.append(-1)
            tree = self.expression()
            items = [tree]
            while self.peek().kind == ",":
                self.take()
                if self.peek().kind != ")":
                    items.append(self.expression())
            self.closed(")")
            tree = items[0] if len(items) == 1 else Tuple(items)
        elif token.kind == "record":
            tree = self.record()
        elif token.kind == "number":
            tree = Number(int(token.text.replace("_", "")))
        elif token.kind == "text":
            tree = Text(unquoted(token.text))
        elif token.kind == "name":
            tree = Name(token.text)
        else:
            raise Unreadable(f"line {token.line}: no rule for {token.text!r}")
        while self.peek().kind == "dot":
            self.take()
            tree = Dot(tree, self.take().text)
        return tree

    def record(self):
        base = None if self.peek().kind == "{" else self.atom()
        self.opened("{")
        fields = []
        while self.peek().kind != "}":
            name = self.take().text
            self.take("=")
            fields.append((name, self.expression()))
            if self.peek().kind == ";":
                self.take()
        self.closed("}")
        return Record(base, fields)


def read(text):
    """The items of a file, in their order."""
    return Reader(text).items()
