"""The names and places in docs/TIMING.md: whether they are there, and the numbers of their lines."""

import re

from calling import TOP

PAGE = TOP / "docs" / "TIMING.md"
CRATES = TOP / "crates"
_PLACE = re.compile(r"`(\w+)` (smil\w+/src/[\w/]+\.rt):([0-9]+)")
_EDIT = re.compile(r"`(smil\w+)/(\w+)`")
_CASE = re.compile(r"cases `([\w-]+)`")
_DEFINITION = re.compile(r"`(?:(\w+)\.)?(\w+)`(?: in `([\w/]+)`)?")


def line_of(path, name):
    """The line, from 1, in which a function or a constant of this name begins in a file of a crate; 0 where there is none."""
    file = CRATES / path
    begin = re.compile(rf"\s*(?:pub(?:\(crate\))? )?(?:fn|const) {name}\b")
    lines = file.read_text().splitlines() if file.exists() else []
    return next((number for number, line in enumerate(lines, 1) if begin.match(line)), 0)


def filled(text):
    """The page with the lines at which its functions are."""
    return _PLACE.sub(lambda m: f"`{m[1]}` {m[2]}:{line_of(m[2], m[1]) or m[3]}", text)


def rules_of(text):
    """The folders of definitions and the cells of each rule."""
    folders = []
    for line in text[text.index("## The rules"):text.index("## The laws")].splitlines():
        cells = [cell.strip() for cell in re.split(r"(?<!\\)\|", line)[1:-1]]
        if len(cells) == 6 and cells[0].startswith("**"):
            folders = re.findall(r"`([\w/]+)`", cells[3])
        elif len(cells) == 6 and cells[0] not in ("Rule", "---"):
            yield folders, cells


def specs_in(folder):
    """The folder of definitions that a topic or a rule names: `specs` itself, one in it, or one by its path."""
    return TOP / folder if folder.startswith("crates/") else CRATES / "smil_model" / "specs" / ("" if folder == "specs" else folder)


def is_defined(folders, file, name):
    begin = re.compile(rf"^(?:abbrev )?(?:pub )?(?:record |data |abbrev )?{name}\b", re.MULTILINE)
    paths = [specs_in(folder) / f"{file}.antt" for folder in folders]
    return any(path.exists() and begin.search(path.read_text()) for path in paths)


def laws_of(text):
    """The names of laws: those of the rules, and those of the table of laws."""
    for _, cells in rules_of(text):
        for named in re.findall(r"laws? ((?:`\w+`(?:, )?)+)", cells[5]):
            yield from re.findall(r"\w+", named)
    for line in text[text.index("## The laws"):].splitlines():
        if line.startswith("| `"):
            yield from re.findall(r"`(\w+)`", line.split("|")[1])


def faults_of(text):
    """What is named and isn't there."""
    functions = {name for file in CRATES.glob("*/src/**/*.rt") for name in re.findall(r"fn (\w+)", file.read_text())}
    yield from (f"no law {name}" for name in laws_of(text) if name not in functions)
    cases = {line.split(" ")[0] for line in (CRATES / "smil_test_texts" / "stdin").read_text().splitlines()}
    for folders, cells in rules_of(text):
        file = None
        for own, name, folder in _DEFINITION.findall(cells[3]) if "`smil_model`" not in cells[3] else []:
            file = own or file
            behind = cells[3].split(f"`{own}.{name}`" if own else f"`{name}`", 1)[1]
            into = folder or next(iter(re.findall(r"^[^;]*? in `([\w/]+)`", behind)), None)
            if not is_defined([into] if into else folders, file, name):
                yield f"no definition {file}.{name}"
        for name, path, number in _PLACE.findall(cells[4]):
            if line_of(path, name) != int(number):
                yield f"{name} isn't at {path}:{number}"
        for crate, edit in _EDIT.findall(cells[5]):
            if not (CRATES / crate / "must-fail" / f"{edit}.edit").exists():
                yield f"no edit {crate}/{edit}"
        for word in _CASE.findall(cells[5]):
            if word not in cases:
                yield f"no case {word}"
