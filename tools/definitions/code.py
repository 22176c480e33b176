"""Definitions, translated to Python as they stand, clause by clause, and run.

A definition becomes a function of the number of arguments that its clauses have. Arguments that are functions are
Python functions of as many arguments as their type says. What a definition that holds lists of records was asked is
remembered. A definition that goes down from `suc k` to `k` is run as a fold or a loop of `values`, where it has that
form.
"""

import keyword
import re
from functools import partial

from . import kit, values
from .modules import Definition, Library, Missing, parameter_types, result_type
from .syntax import (Apply, Binder, Dot, If, Lambda, Let, Name, Number, Operator, PCons, PConstructor, PName, PNil,
                     PNumber, PTuple, Record, Text, Tuple)

PLAIN = re.compile(r"[^0-9A-Za-z_]")


def plain(name):
    return PLAIN.sub("_", name)


def field_name(name):
    if name.isdigit():
        return "_" + name
    return name + "_" if keyword.iskeyword(name) or name in ("token", "fields") else name


def same(a, b):
    """Whether two values are the same."""
    x, y = values.key_of(a), values.key_of(b)
    return x is y or x == y


class Local:
    """A variable: its name in Python, and how many arguments it takes; None where that isn't known."""

    def __init__(self, code, takes=None):
        self.code = code
        self.takes = takes


class Program:
    """Definitions that run. `definition(module, name)` gives a Python function."""

    def __init__(self, crates, change=None, cover=False, trace=None):
        self.library = Library(crates, change)
        self.space = dict(kit.SPACE, Con=values.Con, NONE=values.NONE, Again=values.Again, partial=partial, same=same,
                          updated=values.updated, key_of=values.key_of,
                          key_of_list=values.key_of_list, remember=values.remember, hold=values.hold)
        self.ready = {}             # (module, name): the name in Python
        self.waiting = []
        self.shapes = {}            # (module, name): the number of arguments of its clauses
        self.covered = set() if cover else None
        self.clauses = {}           # number: (module, name, line)
        self.trace = trace
        self.counter = 0
        self.space["covered"] = self.covered
        if trace:
            self.space["traced"] = trace
        for name, (_, _, function) in kit.KIT.items():
            self.space["kit_" + plain(name)] = function

    def fresh(self, name):
        self.counter += 1
        return f"{plain(name)}_{self.counter}"

    def definition(self, module, name):
        """The function of a definition, with all that it needs."""
        code = self.reference(module, name)
        self.translate()
        return self.space[code]

    def reference(self, module, name):
        key = module, name
        if key not in self.ready:
            self.ready[key] = f"{plain(module)}__{plain(name)}"
            self.waiting.append(key)
        return self.ready[key]

    def translate(self):
        """Translates what is waiting, and what that needs."""
        while self.waiting:
            module, name = self.waiting.pop()
            try:
                text = Translation(self, module, name).text()
            except Missing as why:
                raise Missing(f"{module}.{name}: {why}") from None
            exec(compile(text, f"{module}.{name}", "exec"), self.space)

    def shape(self, module, name):
        """How many arguments the clauses of a definition have, and how many its type has."""
        key = module, name
        if key not in self.shapes:
            found = self.library.module(module)
            if name in found.records:
                parameters = [p for p in found.records[name].parameters if not p.implicit]
                count = sum(len(p.names) for p in parameters)
                self.shapes[key] = count, [p.type for p in parameters for _ in p.names]
            else:
                clauses = found.clauses.get(name)
                if not clauses or name not in found.signatures:
                    raise Missing(f"{module}.{name} has no clauses that can be read{found.not_read()}")
                self.shapes[key] = len(clauses[0].patterns), parameter_types(found.signatures[name].type)
        return self.shapes[key]

    def takes_of_field(self, name):
        """How many arguments a record's field of this name takes."""
        for module in list(self.library.modules.values()):
            for record in module.records.values():
                for field, of_type in record.fields:
                    if field == name:
                        takes = self.library.arguments_of(module.name, of_type)
                        if takes:
                            return takes
        return None

    def number_of(self, module, name, line):
        number = len(self.clauses)
        self.clauses[number] = module, name, line
        return number


class Translation:
    """One definition in Python."""

    def __init__(self, program, module, name):
        self.program = program
        self.library = program.library
        self.module = module
        self.name = name
        self.scope = self.library.scope(module)
        self.file = self.library.module(module)
        self.code = program.ready[module, name]
        self.recursion = None       # how a recursive call is written, in a fold or a loop

    # -- definitions

    def text(self):
        if self.name in self.file.records:
            return self.proposition()
        if self.name in self.file.proofs:
            raise Missing("it is a proof, and no definition")
        faults = self.file.faults_of(self.name)
        if faults:
            raise Missing(f"{self.file.path}, {faults[0]}")
        signature = self.file.signatures.get(self.name)
        clauses = self.file.clauses.get(self.name)
        if signature is None or not clauses:
            raise Missing(f"it has no clauses that can be read{self.file.not_read()}")
        count, types = self.program.shape(self.module, self.name)
        if any(len(clause.patterns) != count for clause in clauses):
            raise Missing("its clauses differ in their numbers of arguments")
        self.takes = [self.library.arguments_of(self.module, t) for t in types]
        if count == 0:
            return self.constant(clauses[0])
        form = self.number_form(clauses, count)
        if form is not None:
            return form
        kept = self.is_kept(types[:count])
        inner = self.code + ("_anew" if kept else "")
        lines = self.function(inner, clauses, count)
        if kept:
            lines += self.memory(inner, types[:count])
        return "\n".join(lines) + "\n"

    def constant(self, clause):
        lines = [f"def {self.code}_anew():", *self.marks(clause), f"    return {self.expression(clause.body, {})}",
                 f"{self.code}_value = []", f"def {self.code}():", f"    if not {self.code}_value:",
                 f"        {self.code}_value.append({self.code}_anew())", f"    return {self.code}_value[0]"]
        return "\n".join(lines) + "\n"

    def proposition(self):
        """A record of what has to hold: whether all of it does."""
        record = self.file.records[self.name]
        names = [name for p in record.parameters if not p.implicit for name in p.names]
        env = {name: Local(self.program.fresh(name)) for name in names}
        holds = " and ".join(self.expression(of_type, env) for _, of_type in record.fields) or "True"
        return f"def {self.code}({', '.join(env[name].code for name in names)}):\n    return {holds}\n"

    def is_kept(self, types):
        """Whether what it was asked is remembered: it holds lists of records, and is no walk along a list."""
        if any(self.takes[place] for place in range(len(types))):
            return False
        if any(isinstance(p, (PCons, PNil)) for c in self.file.clauses[self.name] for p in c.patterns):
            return False
        if isinstance(result_type(self.file.signatures[self.name].type), Name) and \
                result_type(self.file.signatures[self.name].type).name == "Type":
            return False
        return any(self.library.holds_records(self.module, t) for t in types)

    def memory(self, inner, types):
        names = [f"x{place}" for place in range(len(types))]
        keys = [self.key(name, of_type) for name, of_type in zip(names, types)]
        memory = f"{self.code}_memory"
        self.program.space[memory] = {}
        values.MEMORIES.append(self.program.space[memory])
        return [f"def {self.code}({', '.join(names)}):", f"    key = ({', '.join(keys)},)",
                f"    found = {memory}.get(key)", "    if found is None:",
                f"        return remember({memory}, key, {inner}, ({', '.join(names)},))",
                "    if found[1] is not None:", "        hold(found[1])", "    return found[0]"]

    def key(self, name, of_type):
        """What stands for an argument in the memory's keys, by its type."""
        if isinstance(of_type, Name) and of_type.name in ("ℕ", "ℤ", "Bool"):
            return name
        if isinstance(of_type, Name) and of_type.name in self.scope and self.scope[of_type.name].kind == "type":
            return f"({name}.token or key_of({name}))"
        if isinstance(of_type, Apply) and of_type.function == Name("List"):
            return f"key_of_list({name})"
        return f"key_of({name})"

    def marks(self, clause, indent="    "):
        """What notes that a clause is used."""
        number = self.program.number_of(self.module, self.name, clause.line)
        return [f"{indent}covered.add({number})"] if self.program.covered is not None else []

    def function(self, code, clauses, count):
        arguments = [f"a{place}" for place in range(count)]
        lines = [f"def {code}({', '.join(arguments)}):"]
        closed = False
        for clause in clauses:
            tests, binds, env = [], [], {}
            for place, (argument, pattern) in enumerate(zip(arguments, clause.patterns)):
                self.match(pattern, argument, tests, binds, env, self.takes[place])
            indent = "    "
            if tests:
                lines.append(f"    if {' and '.join(tests)}:")
                indent += "    "
            else:
                closed = True
            used = names_in(clause.body)
            lines += [f"{indent}{env[name].code} = {value}" for name, value in binds if name in used]
            lines += self.marks(clause, indent)
            if self.program.trace:
                lines.append(f"{indent}return traced({self.module!r}, {self.name!r}, {clause.line}, "
                             f"({', '.join(arguments)},), lambda: {self.expression(clause.body, env)})")
            else:
                lines += self.tail(clause.body, env, indent)
            if closed:
                break
        if not closed:
            lines.append(f"    raise ValueError('no clause of {self.module}.{self.name}')")
        return lines

    def tail(self, tree, env, indent):
        """The statements that give the value of a tree."""
        if isinstance(tree, Let):
            local = Local(self.program.fresh(tree.name), self.library.arguments_of(self.module, tree.type) or None)
            return [f"{indent}{local.code} = {self.expression(tree.value, env)}",
                    *self.tail(tree.body, dict(env, **{tree.name: local}), indent)]
        if isinstance(tree, If):
            return [f"{indent}if {self.expression(tree.test, env)}:", *self.tail(tree.yes, env, indent + "    "),
                    *self.tail(tree.no, env, indent)]
        return [f"{indent}return {self.expression(tree, env)}"]

    # -- recursion on a number

    def number_form(self, clauses, count):
        """A definition `f .. zero ..`, `f .. (suc k) ..` as a fold or a loop, where it is one."""
        if len(clauses) != 2:
            return None
        base, step = clauses
        places = [place for place in range(count) if base.patterns[place] == PName("zero")
                  and isinstance(step.patterns[place], PConstructor) and step.patterns[place].name == "suc"
                  and isinstance(step.patterns[place].arguments[0], PName)]
        if len(places) != 1:
            return None
        place = places[0]
        others = [p for q, p in enumerate(base.patterns + step.patterns) if q % count != place]
        if not all(isinstance(p, PName) and not self.is_constructor(p.name) for p in others):
            return None
        down = step.patterns[place].arguments[0].name
        calls = list(calls_of(step.body, self.name, count))
        if not calls or count_of_name(step.body, self.name) != len(calls):
            return None
        if any(call.arguments[place] != Name(down) for call in calls):
            return None
        stays = [Name(p.name) for q, p in enumerate(step.patterns) if q != place]
        if all([a for q, a in enumerate(call.arguments) if q != place] == stays for call in calls):
            return self.fold_form(base, step, place, down, count)
        if only_last(step.body, self.name, count):
            return self.loop_form(base, step, place, count)
        return None

    def is_constructor(self, name):
        found = self.scope.get(name)
        return found is not None and (found.kind == "constructor"
                                      or found.kind == "kit" and found.name in {**kit.CONSTRUCTORS, **kit.CONSTANTS})

    def fold_form(self, base, step, place, down, count):
        others = [q for q in range(count) if q != place]
        lines = []
        base_env = {base.patterns[q].name: Local(f"a{q}", self.takes[q] or None) for q in others}
        lines += [f"def {self.code}_base({', '.join(f'a{q}' for q in others)}):", *self.marks(base),
                  *self.tail(base.body, base_env, "    ")]
        env = {step.patterns[q].name: Local(f"a{q}", self.takes[q] or None) for q in others}
        env[down] = Local("place")
        self.recursion = lambda call, _env: "before"
        lines += [f"def {self.code}_step({', '.join([f'a{q}' for q in others] + ['place', 'before'])}):",
                  *self.marks(step), *self.tail(step.body, env, "    ")]
        self.recursion = None
        without = replaced_calls(step.body, self.name, count)
        kept = not any(self.takes[q] for q in others)
        self.program.space["Fold"] = values.Fold
        lines += [f"{self.code}_fold = Fold({self.code}_base, {self.code}_step, {down in names_in(without)}, {kept})",
                  f"def {self.code}({', '.join(f'a{q}' for q in range(count))}):",
                  f"    return {self.code}_fold(({''.join(f'a{q}, ' for q in others)}), a{place})"]
        return "\n".join(lines) + "\n"

    def loop_form(self, base, step, place, count):
        names = [f"a{q}" for q in range(count)]
        base_env = {p.name: Local(f"a{q}", self.takes[q] or None) for q, p in enumerate(base.patterns) if q != place}
        env = {p.name: Local(f"a{q}", self.takes[q] or None) for q, p in enumerate(step.patterns) if q != place}
        env[step.patterns[place].arguments[0].name] = Local("down")
        lines = [f"def {self.code}_base({', '.join(names)}):", *self.marks(base),
                 *self.tail(base.body, base_env, "    "),
                 f"def {self.code}_step({', '.join(names)}):", f"    down = a{place} - 1", *self.marks(step)]
        self.recursion = lambda call, inner: f"Again({', '.join(self.arguments(call.arguments, self.takes, inner))})"
        lines += self.tail(step.body, env, "    ")
        self.recursion = None
        self.program.space["Loop"] = values.Loop
        lines += [f"{self.code}_loop = Loop({self.code}_base, {self.code}_step, {place})",
                  f"def {self.code}({', '.join(names)}):", f"    return {self.code}_loop(({', '.join(names)},))"]
        return "\n".join(lines) + "\n"

    # -- patterns

    def match(self, pattern, value, tests, binds, env, takes=None):
        """The tests that a value passes, and what its parts are called."""
        if isinstance(pattern, PNumber):
            tests.append(f"{value} == {pattern.value}")
        elif isinstance(pattern, PNil):
            tests.append(f"not {value}")
        elif isinstance(pattern, PTuple):
            for place, part in enumerate(pattern.items):
                self.match(part, f"{value}[{place}]", tests, binds, env)
        elif isinstance(pattern, PCons):
            tests.append(value)
            self.match(pattern.head, f"{value}[0]", tests, binds, env)
            self.match(pattern.tail, f"{value}[1:]", tests, binds, env)
        elif isinstance(pattern, PName):
            self.match_name(pattern.name, value, tests, binds, env, takes)
        else:
            self.match_constructor(pattern, value, tests, binds, env)

    def match_name(self, name, value, tests, binds, env, takes):
        if name == "_":
            return
        found = self.scope.get(name)
        if found is not None and found.kind == "kit" and name in ("true", "false", "zero"):
            tests.append({"true": value, "false": f"not {value}", "zero": f"{value} == 0"}[name])
        elif self.is_constructor(name):
            tests.append(f"{value}.tag == {self.constructor(name).tag!r}")
        else:
            env[name] = Local(self.program.fresh(name), takes or None)
            binds.append((name, value))

    def match_constructor(self, pattern, value, tests, binds, env):
        numbers = {"suc": (f"{value} > 0", f"({value} - 1)"), "pos": (f"{value} >= 0", value),
                   "negsuc": (f"{value} < 0", f"(-{value} - 1)")}
        if pattern.name in numbers:
            test, part = numbers[pattern.name]
            tests.append(test)
            self.match(pattern.arguments[0], part, tests, binds, env)
            return
        found = self.constructor(pattern.name)
        if found is None:
            raise Missing(f"the constructor {pattern.name}")
        tests.append(f"{value}.tag == {found.tag!r}")
        for place, part in enumerate(pattern.arguments):
            takes = self.library.arguments_of(found.module, found.types[place]) if found.types else None
            self.match(part, f"{value}.args[{place}]", tests, binds, env, takes)

    def constructor(self, name):
        """The constructor that a name stands for here, if it stands for one."""
        if "." in name:
            front, _, last = name.rpartition(".")
            prefix = self.scope.get("." + front)
            return Definition("constructor", prefix.module, last, f"{prefix.tag}.{last}") if prefix else None
        found = self.scope.get(name)
        if found is None:
            return None
        if found.kind == "kit" and found.name in kit.CONSTRUCTORS:
            return Definition("constructor", None, found.name, kit.CONSTRUCTORS[found.name])
        return found if found.kind == "constructor" else None

    # -- expressions

    def expression(self, tree, env):
        """The value of a tree, in Python."""
        return getattr(self, "of_" + type(tree).__name__.lower())(tree, env)

    def of_number(self, tree, env):
        return str(tree.value)

    def of_text(self, tree, env):
        return repr(tree.value)

    def of_tuple(self, tree, env):
        return "(" + "".join(self.expression(item, env) + ", " for item in tree.items) + ")"

    def of_let(self, tree, env):
        local = Local(self.program.fresh(tree.name), self.library.arguments_of(self.module, tree.type) or None)
        body = self.expression(tree.body, dict(env, **{tree.name: local}))
        return f"(lambda {local.code}: {body})({self.expression(tree.value, env)})"

    def of_if(self, tree, env):
        return (f"({self.expression(tree.yes, env)} if {self.expression(tree.test, env)} "
                f"else {self.expression(tree.no, env)})")

    def of_lambda(self, tree, env):
        return self.callable_lambda(tree, len(tree.parameters), env)

    def of_binder(self, tree, env):
        raise Missing("a quantifier can't be computed")

    def of_record(self, tree, env):
        fields = [(field_name(name), self.field_value(name, value, env)) for name, value in tree.fields]
        if tree.base is not None:
            inside = ", ".join(f"{name}={value}" for name, value in fields)
            return f"updated({self.expression(tree.base, env)}, {inside})"
        names = tuple(name for name, _ in fields)
        make = "make_" + "_".join(names)
        if make not in self.program.space:
            self.program.space[make] = values.record_class(names)
        return f"{make}({', '.join(value for _, value in fields)})"

    def field_value(self, name, tree, env):
        takes = self.program.takes_of_field(name)
        return self.callable(tree, takes, env) if takes and self.is_callable(tree, env) else self.expression(tree, env)

    def is_callable(self, tree, env):
        """Whether a tree is a function as it stands, for a field whose name is also that of a number elsewhere."""
        if isinstance(tree, Lambda):
            return True
        head = tree.function if isinstance(tree, Apply) else tree
        given = len(tree.arguments) if isinstance(tree, Apply) else 0
        if isinstance(head, Name) and head.name not in env:
            found = self.scope.get(head.name)
            if found and found.kind == "definition":
                return len(self.program.shape(found.module, found.name)[1]) > given
        return False

    def of_operator(self, tree, env):
        if tree.name == ">>=":
            return self.bind(tree, env)
        if tree.name in ("→", "×") and isinstance(tree.left, Binder):
            raise Missing("a quantifier can't be computed")
        if tree.name == "∷":
            return self.list_of(tree, env)
        return kit.OPERATORS[tree.name].format(self.expression(tree.left, env), self.expression(tree.right, env))

    def list_of(self, tree, env):
        items = []
        while isinstance(tree, Operator) and tree.name == "∷":
            items.append(self.expression(tree.left, env))
            tree = tree.right
        front = "(" + ", ".join(items) + ",)"
        return front if tree == Name("[]") else f"({front} + {self.expression(tree, env)})"

    def bind(self, tree, env):
        found = self.scope.get(">>=")
        if found is None:
            raise Missing("the operator >>=")
        code = self.program.reference(found.module, ">>=")
        return f"{code}({self.expression(tree.left, env)}, {self.callable(tree.right, 1, env)})"

    def of_dot(self, tree, env):
        if isinstance(tree.base, Name) and tree.base.name not in env and "." + tree.base.name in self.scope:
            return self.made(self.constructor(f"{tree.base.name}.{tree.field}"), [], env)
        if isinstance(tree.base, Name) and tree.field == "now" and tree.base.name not in env:
            return self.expression(tree.base, env)      # what a constant refers to
        base = self.expression(tree.base, env)
        return f"{base}[{tree.field}]" if tree.field.isdigit() else f"{base}.{field_name(tree.field)}"

    def of_name(self, tree, env):
        return self.call(tree, [], env)

    def of_apply(self, tree, env):
        return self.call(tree.function, tree.arguments, env)

    def made(self, found, arguments, env):
        if found.tag == "None":
            return "NONE"
        takes = [self.library.arguments_of(found.module, t) for t in found.types or ()]
        inside = self.arguments(arguments, takes, env)
        return f"Con({found.tag!r}, ({', '.join(inside)},))" if inside else self.lone(found.tag)

    def lone(self, tag):
        """A constructor without arguments, which is made once."""
        code = "lone_" + plain(tag)
        self.program.space.setdefault(code, values.Con(tag))
        return code

    def arguments(self, trees, takes, env):
        return [self.callable(tree, takes[place], env) if place < len(takes) and takes[place]
                else self.expression(tree, env) for place, tree in enumerate(trees)]

    def call(self, head, arguments, env):
        """A function with arguments."""
        if isinstance(head, Dot):
            found = None
            if isinstance(head.base, Name) and head.base.name not in env and "." + head.base.name in self.scope:
                found = self.constructor(f"{head.base.name}.{head.field}")
            if found is not None:
                return self.made(found, arguments, env)
            inside = ", ".join(self.expression(a, env) for a in arguments)
            return f"{self.expression(head, env)}({inside})"
        if not isinstance(head, Name):
            inside = ", ".join(self.expression(a, env) for a in arguments)
            return f"({self.expression(head, env)})({inside})" if arguments else self.expression(head, env)
        if head.name in env:
            return self.call_local(env[head.name], arguments, env)
        if head.name == self.name and self.recursion is not None:
            return self.recursion(Apply(head, arguments), env)
        return self.call_global(head.name, arguments, env)

    def call_local(self, local, arguments, env):
        if not arguments:
            return local.code
        inside = [self.expression(a, env) for a in arguments]
        if local.takes is not None and local.takes > len(arguments):
            return f"partial({local.code}, {', '.join(inside)})"
        if local.takes is not None and local.takes < len(arguments):
            return f"{local.code}({', '.join(inside[:local.takes])})({', '.join(inside[local.takes:])})"
        return f"{local.code}({', '.join(inside)})"

    def call_global(self, name, arguments, env):
        found = self.scope.get(name)
        if found is None:
            if name in kit.CONSTANTS:
                return kit.CONSTANTS[name]
            raise Missing(f"the name {name}")
        if found.kind == "constructor":
            return self.made(found, arguments, env)
        if found.kind == "constant":
            return repr(self.library.constant(*found.module, found.name))
        if found.kind == "kit":
            return self.call_kit(found.name, arguments, env)
        if found.kind == "type" and found.name not in self.library.module(found.module).records:
            raise Missing(f"the type {name} has no value")
        if found.kind not in ("definition", "type"):
            raise Missing(f"the name {name}")
        count, types = self.program.shape(found.module, found.name)
        takes = [self.library.arguments_of(found.module, t) for t in types]
        return self.applied(self.program.reference(found.module, found.name), count, takes, arguments, env)

    def call_kit(self, name, arguments, env):
        if name in kit.CONSTANTS and not arguments:
            return kit.CONSTANTS[name]
        if name in kit.CONSTRUCTORS:
            return self.made(Definition("constructor", None, name, kit.CONSTRUCTORS[name]), arguments, env)
        if name not in kit.KIT:
            raise Missing(f"the kit's {name}")
        count, functions, _ = kit.KIT[name]
        takes = [functions.get(place, 0) for place in range(count)]
        return self.applied("kit_" + plain(name), count, takes, arguments, env)

    def applied(self, code, count, takes, arguments, env):
        inside = self.arguments(arguments, takes, env)
        if len(inside) == count:
            return f"{code}({', '.join(inside)})"
        if len(inside) < count:
            return f"partial({', '.join([code] + inside)})" if inside else code
        return f"{code}({', '.join(inside[:count])})({', '.join(inside[count:])})"

    # -- functions

    def callable(self, tree, count, env):
        """A tree whose value is a function, as a Python function of so many arguments."""
        if isinstance(tree, Lambda):
            return self.callable_lambda(tree, count, env)
        takes = self.takes_of(tree, env)
        if takes is None or takes == count:
            return self.expression(tree, env)
        names = [self.program.fresh("x") for _ in range(count)]
        locals_ = {"\0" + name: Local(name) for name in names}
        spread = Apply(tree, [Name(key) for key in locals_])
        return f"(lambda {', '.join(names)}: {self.expression(flat(spread), dict(env, **locals_))})"

    def takes_of(self, tree, env):
        """How many arguments the Python function of a tree takes; None where it is as many as are wanted."""
        head, given = (tree.function, len(tree.arguments)) if isinstance(tree, Apply) else (tree, 0)
        if isinstance(head, Dot) and isinstance(head.base, Name) and "." + head.base.name in self.scope \
                and head.base.name not in env:
            return -1               # a constructor
        if not isinstance(head, Name):
            return None if isinstance(head, Dot) else -1
        if head.name in env:
            return None if env[head.name].takes is None else env[head.name].takes - given
        found = self.scope.get(head.name)
        if found is None:
            return None
        if found.kind == "constructor" or found.kind == "kit" and found.name in kit.CONSTRUCTORS:
            return -1
        if found.kind == "kit":
            return kit.KIT[found.name][0] - given if found.name in kit.KIT else None
        if found.kind == "definition":
            return self.program.shape(found.module, found.name)[0] - given
        return None

    def callable_lambda(self, tree, count, env):
        names = tree.parameters[:count]
        inner = dict(env)
        codes = []
        for name, of_type in names:
            local = Local(self.program.fresh("unused" if name == "_" else name),
                          self.library.arguments_of(self.module, of_type) or None)
            inner[name] = local
            codes.append(local.code)
        rest = tree.parameters[count:]
        if rest:
            body = self.callable_lambda(Lambda(rest, tree.body), len(rest), inner)
        elif len(names) < count:
            more = [self.program.fresh("x") for _ in range(count - len(names))]
            locals_ = {"\0" + name: Local(name) for name in more}
            body = self.expression(flat(Apply(tree.body, [Name(key) for key in locals_])), dict(inner, **locals_))
            codes += more
        else:
            body = self.expression(tree.body, inner)
        return f"(lambda {', '.join(codes)}: {body})"


def flat(tree):
    """An application whose function is one, as one."""
    if isinstance(tree.function, Apply):
        return Apply(tree.function.function, tree.function.arguments + tree.arguments)
    return tree


# ---- walks over trees

def parts_of(tree):
    if isinstance(tree, (Number, Text, Name)) or tree is None or isinstance(tree, str):
        return
    if isinstance(tree, Record):
        if tree.base is not None:
            yield tree.base
        for _, value in tree.fields:
            yield value
    elif isinstance(tree, Lambda):
        yield tree.body
    elif isinstance(tree, Tuple):
        yield from tree.items
    elif isinstance(tree, Apply):
        yield tree.function
        yield from tree.arguments
    elif isinstance(tree, Dot):
        yield tree.base
    elif isinstance(tree, Let):
        yield tree.value
        yield tree.body
    elif isinstance(tree, If):
        yield from (tree.test, tree.yes, tree.no)
    elif isinstance(tree, Operator):
        yield from (tree.left, tree.right)
    elif isinstance(tree, Binder):
        yield tree.type


def names_in(tree):
    if isinstance(tree, Name):
        return {tree.name}
    return set().union(*(names_in(part) for part in parts_of(tree))) if tree is not None else set()


def count_of_name(tree, name):
    if isinstance(tree, Name):
        return int(tree.name == name)
    return sum(count_of_name(part, name) for part in parts_of(tree))


def calls_of(tree, name, count):
    if isinstance(tree, Apply) and tree.function == Name(name) and len(tree.arguments) == count:
        yield tree
    for part in parts_of(tree):
        yield from calls_of(part, name, count)


def replaced_calls(tree, name, count):
    """A tuple of what stands beside the calls of a function."""
    if isinstance(tree, Apply) and tree.function == Name(name) and len(tree.arguments) == count:
        return Tuple([])
    if isinstance(tree, Name) or not list(parts_of(tree)):
        return tree
    return Tuple([replaced_calls(part, name, count) for part in parts_of(tree)])


# a kit function that ends with a call of its first argument
ENDS_WITH_CALL = {"option_map_or"}


def only_last(tree, name, count):
    """Whether each call of a function is the last thing that is done."""
    if count_of_name(tree, name) == 0:
        return True
    if isinstance(tree, Apply) and tree.function == Name(name) and len(tree.arguments) == count:
        return not any(count_of_name(a, name) for a in tree.arguments)
    if isinstance(tree, If):
        both = only_last(tree.yes, name, count) and only_last(tree.no, name, count)
        return both and not count_of_name(tree.test, name)
    if isinstance(tree, Let):
        return not count_of_name(tree.value, name) and only_last(tree.body, name, count)
    if isinstance(tree, Apply) and isinstance(tree.function, Name) and tree.function.name in ENDS_WITH_CALL:
        first, *rest = tree.arguments
        return isinstance(first, Lambda) and only_last(first.body, name, count) and not any(
            count_of_name(a, name) for a in rest)
    return False
