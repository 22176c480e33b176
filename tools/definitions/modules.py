"""The files of definitions: what each declares, and what each name in it stands for.

A definition, a constructor, a record or a constant is named by the module in which it stands, `smil_model.diary.Diary`,
and its own name. Constants and the types of Rust stand in the `.rt` sources of a crate; of these only the values of
constants are read, since `use` lines tell the constructors.
"""

import re
from pathlib import Path

from . import syntax

CONSTANT = re.compile(r"^pub const (\w+): [^=]+ = ([^;]+);", re.M)
BYTES = re.compile(r'^b"((?:[^"\\]|\\.)*)"$')
CAST = re.compile(r" as \w+")


class Missing(Exception):
    """A name, or a form, for which there is no translation."""


class Module:
    """A file of definitions."""

    def __init__(self, name, path):
        self.name = name
        self.path = path
        self.signatures = {}
        self.clauses = {}
        self.records = {}
        self.data = {}
        self.constructors = {}      # of the data types that are declared here: name to (tag, types of arguments)
        self.uses = []
        self.unread = []
        self.proofs = set()

    def add(self, item):
        if isinstance(item, syntax.Use):
            self.uses.append(item)
        elif isinstance(item, syntax.Signature):
            self.signatures[item.name.replace("◌", "")] = item
        elif isinstance(item, syntax.Clause):
            self.clauses.setdefault(item.name, []).append(item)
        elif isinstance(item, syntax.RecordType):
            self.records[item.name] = item
        elif isinstance(item, syntax.DataType):
            self.data[item.name] = item
            for name, of_type in item.constructors:
                self.constructors[name] = (f"{self.name}.{item.name}.{name}", parameter_types(of_type))
        elif isinstance(item, syntax.Proof):
            self.proofs.add(item.name)
        else:
            self.unread.append(item)

    def not_read(self):
        """Where the file has items that aren't read, and why."""
        return "".join(f"; {self.path}, {item.why}" for item in self.unread)

    def faults_of(self, name):
        """Why clauses of a definition aren't read; those of an operator may begin with a bracket."""
        plain = name.isidentifier()
        return [item.why for item in self.unread if item.name == name or not plain and item.name == "("]


def parameter_types(of_type):
    """The types of the explicit arguments."""
    found = []
    while isinstance(of_type, syntax.Operator) and of_type.name == "→":
        if not isinstance(of_type.left, syntax.Binder):
            found.append(of_type.left)
        elif not of_type.left.implicit:
            found.extend([of_type.left.type] * len(of_type.left.names))
        of_type = of_type.right
    return found


def result_type(of_type):
    while isinstance(of_type, syntax.Operator) and of_type.name == "→":
        of_type = of_type.right
    return of_type


class Definition:
    """What a name stands for: `kind` is definition, constructor, prefix, constant, kit or type."""

    def __init__(self, kind, module=None, name=None, tag=None, types=()):
        self.kind = kind
        self.module = module
        self.name = name
        self.tag = tag
        self.types = types


class Library:
    """All files of definitions below a folder of crates, read as they are needed."""

    def __init__(self, crates, change=None):
        self.crates = Path(crates)
        self.change = change        # a changed text of one file, for trying changes: (module, text)
        self.modules = {}
        self.constants = {}
        self.scopes = {}

    # -- files

    def module(self, name):
        if name not in self.modules:
            crate, *parts = name.split(".")
            path = self.crates / crate / "specs" / ("/".join(parts) + ".antt")
            if not path.exists():
                raise Missing(f"there is no file of definitions {name}")
            text = path.read_text(encoding="utf-8")
            if self.change and self.change[0] == name:
                text = self.change[1]
            module = self.modules[name] = Module(name, path)
            for item in syntax.read(text):
                module.add(item)
        return self.modules[name]

    def constant(self, crate, path, name):
        """The value of a constant of a Rust source."""
        key = crate, path
        if key not in self.constants:
            source = self.crates / crate / "src" / ("/".join(path.split(".")) + ".rt")
            self.constants[key] = dict(CONSTANT.findall(source.read_text(encoding="utf-8")))
        text = self.constants[key].get(name)
        if text is None:
            raise Missing(f"the constant {name} of {crate}/src/{path}.rt")
        quoted = BYTES.match(text)
        if quoted:
            return tuple(syntax.unquoted('"' + quoted.group(1) + '"').encode())
        plain = CAST.sub("", text).replace("_", "")
        if plain.isdigit():
            return int(plain)
        raise Missing(f"the constant {name} = {text}")

    # -- names

    def scope(self, name):
        """What each name in a file stands for."""
        if name not in self.scopes:
            module = self.module(name)
            scope = self.scopes[name] = {}
            for use in module.uses:
                self.add_use(scope, use)
            for own in module.records:
                scope[own] = Definition("type", name, own)
            for own in module.data:
                scope[own] = Definition("type", name, own)
            for own, (tag, types) in module.constructors.items():
                scope[own] = Definition("constructor", name, own, tag, types)
            for own in module.signatures:
                scope[own] = Definition("definition", name, own)
        return self.scopes[name]

    def add_use(self, scope, use):
        parts = use.path.split(".")
        if parts[0] != "Rattle" or not (self.crates / parts[1] / "specs").is_dir():
            for name, called in use.names:
                scope[called.replace("◌", "")] = Definition("kit", None, name.replace("◌", ""))
            return
        crate, rest = parts[1], parts[3:]
        if rest[:1] == ["declared"]:
            self.add_declared(scope, use, crate, rest[1:])
            return
        for name, called in use.names:
            found = self.handed_on(".".join([crate] + rest), name.replace("◌", ""))
            if found:
                scope[called.replace("◌", "")] = found

    def add_declared(self, scope, use, crate, rest):
        if rest[-1] == "TheConstants":
            for name, called in use.names:
                scope[called] = Definition("constant", (crate, ".".join(rest[:-1])), name)
        elif rest[-1] == "TheVariants":
            owner = f"{crate}.{'.'.join(rest[:-1])}"
            if use.names:
                for name, called in use.names:
                    scope[called] = Definition("constructor", owner, name, f"{owner}.{name}")
            else:
                scope["." + use.alias] = Definition("prefix", owner, None, owner)
        else:
            for name, called in use.names:
                scope[called] = Definition("type", f"{crate}.{'.'.join(rest)}", name)

    def handed_on(self, module, name, seen=()):
        """What another file gives under a name."""
        if module in seen:
            return None
        try:
            return self.scope(module).get(name)
        except Missing:
            return None

    # -- types

    def arguments_of(self, module, of_type):
        """How many arguments the values of a type take: 0 where they are no functions."""
        if of_type is None:
            return 0
        if isinstance(of_type, syntax.Operator) and of_type.name == "→":
            return len(parameter_types(of_type)) + self.arguments_of(module, result_type(of_type))
        if isinstance(of_type, syntax.Name):
            found = self.scope(module).get(of_type.name)
            if found and found.kind == "definition":
                clauses = self.module(found.module).clauses.get(found.name, [])
                if len(clauses) == 1 and not clauses[0].patterns:
                    return self.arguments_of(found.module, clauses[0].body)
        return 0

    def holds_records(self, module, of_type, depth=0):
        """Whether the values of a type hold lists of records: such arguments are worth a memory."""
        if isinstance(of_type, syntax.Apply) and of_type.function == syntax.Name("List"):
            inner = of_type.arguments[0]
            return not (isinstance(inner, syntax.Name) and inner.name in ("ℕ", "ℤ", "Bool")
                        or isinstance(inner, syntax.Apply) and inner.function == syntax.Name("List"))
        if isinstance(of_type, syntax.Name) and depth < 4:
            found = self.scope(module).get(of_type.name)
            if found and found.kind == "type" and found.module in self.modules:
                record = self.modules[found.module].records.get(found.name)
                return record is not None and any(
                    self.holds_records(found.module, field, depth + 1) for _, field in record.fields)
        return False
