"""Tests the files for shells, editors and man, with what this machine has of them."""

import json
import os
import re
import shutil
import subprocess
import tempfile
import unittest
from pathlib import Path

import textmate
from calling import EXAMPLES, TOP, smilplay

SHOWN = """# comment
prefer captions on
load show at 2026-12-01T12:00:00Z
par #1 id="text" begin="0s;a.end+1.5s;00:10"
  switch
  prefetch
  set to="x" begin="wallclock(2026-12-01)"
%%
show advance 2s
set set #3 dur "indefinite"
outline 2 next 3
2000 began #2 -500
2000 cut #3
2500 event #2 click
now 3000
"""
WANTED = ["[Comment]# comment", "[Prefer]prefer[] [Preferred]captions[] on",
          "[Load]load[] [Loaded]show[] [At]at[] [Instant]2026-12-01T12:00:00Z",
          '[Container]par[] [Serial]#1[] [Attribute]id[Equals]=[Value]"text"[] [Attribute]begin[Equals]='
          '[Value]"[Clock]0s[Value];a.end+[Clock]1.5s[Value];[Clock]00:10[Value]"',
          "[Container]  switch", "[Unsupported]  prefetch",
          '[Media]  set[] [Attribute]to[Equals]=[Value]"x"[] [Attribute]begin[Equals]='
          '[Value]"wallclock([Instant]2026-12-01[Value])"', "[End]%%",
          "[Name]show[] [Order]advance[] [Clock]2s",
          '[Name]set[] [Order]set[] [Serial]#3[] dur [Value]"[Word]indefinite[Value]"',
          "[Header]outline 2 next 3", "[Moment]2000[] [Entry]began[] [Serial]#2[] [Moment]-500",
          "[Moment]2000[] [Entry]cut[] [Serial]#3", "[Moment]2500[] [Entry]event[] [Serial]#2[] click",
          "[Entry]now[] [Moment]3000"]
SCOPED = """[comment.line.number-sign]# comment
[keyword.control]prefer [support.variable]captions[constant.language] on
[keyword.control]load [entity.name]show [keyword.control]at [constant.numeric.instant]2026-12-01T12:00:00Z
[storage.type.container]par [variable.other.serial]#1 [entity.other.attribute-name]id[keyword.operator]=\
[string.quoted.double]"text" [entity.other.attribute-name]begin[keyword.operator]=[string.quoted.double]"\
[constant.numeric.clock]0s[string.quoted.double];a.end+[constant.numeric.clock]1.5s[string.quoted.double];\
[constant.numeric.clock]00:10[string.quoted.double]"
  [storage.type.container]switch
  [invalid.illegal.unsupported]prefetch
  [storage.type.element]set [entity.other.attribute-name]to[keyword.operator]=[string.quoted.double]"x" \
[entity.other.attribute-name]begin[keyword.operator]=[string.quoted.double]"wallclock(\
[constant.numeric.instant]2026-12-01[string.quoted.double])"
[keyword.control.end]%%
[entity.name]show [keyword.control]advance [constant.numeric.clock]2s
[entity.name]set [keyword.control]set [variable.other.serial]#3 []dur [string.quoted.double]"\
[constant.language]indefinite[string.quoted.double]"
[meta.preprocessor]outline 2 next [constant.numeric]3
[constant.numeric.moment]2000 [keyword.control]began [variable.other.serial]#2 [constant.numeric.moment]-500
[constant.numeric.moment]2000 [keyword.control]cut [variable.other.serial]#3
[constant.numeric.moment]2500 [keyword.control]event [variable.other.serial]#2 []click
[keyword.control]now [constant.numeric.moment]3000
"""
VIM = r"""syntax on
syntax clear
unlet! b:current_syntax
source SYNTAX
let shown = []
for l in range(1, line('$'))
  let [before, text] = ['', '']
  for c in range(1, col([l, '$']) - 1)
    let name = synIDattr(synID(l, c, 1), 'name')
    let text .= name != before ? '[' . substitute(name, 'smilplay', '', '') . ']' : ''
    let [before, text] = [name, text . getline(l)[c - 1]]
  endfor
  call add(shown, text)
endfor
call writefile(shown, 'shown')
qa!
"""


class Vim(unittest.TestCase):
    @unittest.skipUnless(shutil.which("vim"), "no vim")
    def test_colours(self):
        with tempfile.TemporaryDirectory() as folder:
            Path(folder, "s.play").write_text(SHOWN)
            syntax = TOP / "editors" / "vim" / "syntax" / "smilplay.vim"
            Path(folder, "s.vim").write_text(VIM.replace("SYNTAX", str(syntax)))
            subprocess.run(["vim", "-es", "-i", "NONE", "-n", "-u", "NONE", "-N", "s.play", "-S", "s.vim"], cwd=folder,
                           stdin=subprocess.DEVNULL, timeout=60, check=False)
            self.assertEqual(Path(folder, "shown").read_text().splitlines(), WANTED)


class TextMate(unittest.TestCase):
    def setUp(self):
        self.grammar = json.loads((TOP / "editors" / "vscode" / "smilplay.tmLanguage.json").read_text())
        self.rules = self.grammar["repository"]

    def rule_of(self, line):
        """The rule that takes a line, the first one that fits at its front."""
        for included in self.grammar["patterns"]:
            name = included["include"][1:]
            rule = self.rules[name]
            if re.match(rule.get("match", rule.get("begin")), line):
                return name
        return None

    def test_every_pattern_can_be_read(self):
        text = json.dumps(self.grammar)
        for name in re.findall(r'"include": "#([a-z]+)"', text):
            self.assertIn(name, self.rules)
        for rule in self.rules.values():
            for part in ("match", "begin", "end"):
                re.compile(rule.get(part, ""))

    def test_each_line_has_its_rule(self):
        self.assertEqual([self.rule_of(line) for line in SHOWN.splitlines()],
                         ["comment", "prefer", "load", "node", "node", "node", "node", "end", "order", "order", "header",
                          "entry", "entry", "entry", "entry"])

    def test_every_line_of_the_examples_has_a_rule(self):
        for name in ("tour", "kiosk", "quiz", "emergency", "captions", "hundred_presentations", "saved_and_loaded",
                     "opening_hours", "captions_by_language", "slow_lines"):
            for line in (EXAMPLES / f"{name}.play").read_text().splitlines():
                self.assertIsNotNone(self.rule_of(line), line)

    def test_values(self):
        clock = re.compile(self.rules["clock"]["match"])
        self.assertEqual(clock.findall("0s;a.end+1.5s;00:10 id9 a-2"), ["0s", "1.5s", "00:10"])


@unittest.skipUnless(textmate.LIBRARY, "Debian's libonig5 is missing")
class Oniguruma(unittest.TestCase):
    """The grammar, read by the engine that VS Code has."""

    def setUp(self):
        read = json.loads((TOP / "editors" / "vscode" / "smilplay.tmLanguage.json").read_text())
        self.grammar = textmate.Grammar(read, textmate.Engine())

    def test_every_pattern_can_be_read(self):
        for rule in self.grammar.rules.values():
            for part in ("match", "begin", "end"):
                self.grammar.engine.pattern(rule.get(part, ""))
        with self.assertRaises(ValueError):
            self.grammar.engine.pattern("(")

    def test_scopes(self):
        self.assertEqual("".join(self.grammar.shown(line) + "\n" for line in SHOWN.splitlines()), SCOPED)

    def test_a_faulty_line_leaves_the_next_one_as_it_is(self):
        for line in ('par id="a', '  img id="a"b', '  img begin="1s;"x" dur="2s', 'd set a begin "1s', 'd set a "b" "c'):
            self.assertIn("[string.quoted.double]", self.grammar.shown(line))

    def test_every_line_of_the_examples_has_scopes(self):
        bare = []
        for session in sorted(EXAMPLES.glob("*.play")):
            for line in session.read_text().splitlines():
                shown = self.grammar.shown(line)
                bare += [line] if line.strip() and "[" not in shown else []
        self.assertEqual(sorted(set(bare)), ["d shown", "frobnicate", "outline 3 next 4", "outline 3 next 5",
                                             "prefer speed 3"])

    def test_every_quoted_value_and_kind_of_the_examples_has_its_scope(self):
        for session in sorted(EXAMPLES.glob("*.play")):
            for line in session.read_text().splitlines():
                scopes = self.grammar.scopes(line)
                for value in re.finditer(rb'"[^"]*"', line.encode() if "#" not in line[:1] else b""):
                    for names in scopes[slice(*value.span())]:
                        self.assertIn("string.quoted.double.smilplay", names, line)
                kind = re.match(r" +(par|seq|excl|img|text|audio|video)(?= [a-zA-Z]+=|$)", line)
                if kind:
                    self.assertRegex(scopes[kind.start(1)][0], "^storage.type", line)


class VsCode(unittest.TestCase):
    """The folder, by what VS Code asks of an extension's manifest and of a language's configuration."""

    FOLDER = TOP / "editors" / "vscode"
    CATEGORIES = ("Programming Languages", "Snippets", "Linters", "Themes", "Debuggers", "Formatters", "Keymaps", "SCM Providers",
                  "Other", "Extension Packs", "Language Packs", "Data Science", "Machine Learning", "Visualization",
                  "Notebooks", "Education", "Testing", "AI", "Chat")

    def setUp(self):
        self.package = json.loads((self.FOLDER / "package.json").read_text())
        self.language = json.loads((self.FOLDER / "language-configuration.json").read_text())

    def within(self, path):
        """The file of the folder that a path of the manifest names."""
        self.assertRegex(path, r"^\./[^/].*$")
        place = (self.FOLDER / path).resolve()
        self.assertEqual(place.parent, self.FOLDER.resolve())
        return place

    def test_the_manifest(self):
        package = self.package
        self.assertLessEqual({"name", "version", "publisher", "engines"}, set(package))
        self.assertRegex(package["name"], r"^[a-z0-9][a-z0-9-]*$")
        self.assertRegex(package["publisher"], r"^[a-z0-9][a-z0-9-]*$")
        self.assertEqual(package["version"], (TOP / "VERSION").read_text().strip())
        self.assertRegex(package["engines"]["vscode"], r"^\^1\.[0-9]+\.[0-9]+$")
        self.assertLessEqual(set(package["categories"]), set(self.CATEGORIES))
        self.assertFalse({"main", "browser", "activationEvents"} & set(package), "it has no code to start")
        self.assertEqual(set(package["contributes"]), {"languages", "grammars"})

    def test_the_language_and_its_grammar(self):
        language, = self.package["contributes"]["languages"]
        self.assertEqual(set(language), {"id", "aliases", "extensions", "configuration"})
        self.assertRegex(language["id"], r"^[a-z][a-z0-9-]*$")
        self.assertEqual(language["extensions"], [".play"])
        self.assertTrue(self.within(language["configuration"]).exists())
        grammar, = self.package["contributes"]["grammars"]
        self.assertEqual(set(grammar), {"language", "scopeName", "path"})
        self.assertEqual(grammar["language"], language["id"])
        read = json.loads(self.within(grammar["path"]).read_text())
        self.assertEqual(read["scopeName"], grammar["scopeName"])

    def test_the_way_of_the_readme_installs_it(self):
        readme = (TOP / "editors" / "README.md").read_text()
        name = "{publisher}.{name}-{version}".format(**self.package)
        self.assertIn(f"cp -r editors/vscode ~/.vscode/extensions/{name}`", readme)

    def test_the_configuration_has_what_its_schema_has(self):
        shapes = {"comments": dict, "brackets": list, "autoClosingPairs": list, "surroundingPairs": list, "wordPattern": str,
                  "indentationRules": dict, "folding": dict}
        for name, value in self.language.items():
            self.assertIsInstance(value, shapes[name], name)
        for pair in self.language["brackets"] + self.language["surroundingPairs"]:
            self.assertEqual([type(part) for part in pair], [str, str])
        for pair in self.language["autoClosingPairs"]:
            self.assertEqual({name: type(part) for name, part in pair.items()}, {"open": str, "close": str})
        self.assertEqual(set(self.language["indentationRules"]), {"increaseIndentPattern", "decreaseIndentPattern"})
        self.assertEqual(self.language["folding"], {"offSide": True})

    def test_comments_and_indentation(self):
        self.assertEqual(self.language["comments"], {"lineComment": {"comment": "#", "noIndent": True}})
        self.assertTrue(re.match(self.language["indentationRules"]["increaseIndentPattern"], '  seq id="a"'))
        self.assertFalse(re.match(self.language["indentationRules"]["increaseIndentPattern"], '  img id="a"'))
        self.assertEqual(re.fullmatch(self.language["wordPattern"], "slide-1.b")[0], "slide-1.b")

    @unittest.skipUnless(shutil.which("node"), "no node")
    def test_its_patterns_are_those_of_javascript(self):
        patterns = [self.language["wordPattern"], *self.language["indentationRules"].values()]
        run = subprocess.run(["node", "-e", "JSON.parse(process.argv[1]).forEach(p => new RegExp(p))", json.dumps(patterns)],
                             capture_output=True, text=True, check=False)
        self.assertEqual((run.returncode, run.stderr), (0, ""))


class OtherShells(unittest.TestCase):
    ZSH = r"""
zmodload zsh/zpty
zpty shell zsh -f -i
zpty -w shell "fpath=($1 \$fpath); autoload -Uz compinit; compinit -u -D; bindkey '^I' list-choices; LISTMAX=1000; print READ'Y'"
zpty -r shell told '*READY*'
zpty -n -w shell "smilplay $2"$'\t'
for turn in {1..50}; do
  sleep 0.1
  while zpty -r -t shell told; do print -rn -- $told; done
done
zpty -d shell
"""

    @unittest.skipUnless(shutil.which("fish"), "Debian's fish is missing")
    def test_fish(self):
        for typed, wanted in (("", ["audit", "check", "gen", "run"]), ("c", ["check"]), ("gen 90", ["90", "900"]), ("run ", [])):
            script = f"source {TOP}/completion/smilplay.fish; complete --do-complete 'smilplay {typed}'"
            with tempfile.TemporaryDirectory() as home:
                run = subprocess.run(["fish", "--no-config", "-c", script], cwd=home, capture_output=True, text=True, check=False,
                                     env=dict(os.environ, HOME=home))
            self.assertEqual([line.split("\t")[0] for line in run.stdout.splitlines()], wanted, run.stderr)

    @unittest.skipUnless(shutil.which("zsh"), "Debian's zsh is missing")
    def test_zsh(self):
        run = subprocess.run(["zsh", "-f", "-c", self.ZSH, "zsh", str(TOP / "completion"), ""], capture_output=True, text=True,
                             check=False, timeout=60)
        for word in ("audit", "check", "gen", "run"):
            self.assertRegex(run.stdout, rf"{word} +-- ")

    def test_each_shell_has_the_words_of_the_manual(self):
        script = (TOP / "docs" / "SCRIPT.md").read_text()
        words = re.findall(r"^\| `([a-z]+)(?: N)?` \| ", script[script.index("## The words"):script.index("## Orders")], re.MULTILINE)
        self.assertEqual(len(words), 4)
        for word in words:
            self.assertRegex((TOP / "completion" / "_smilplay").read_text(), rf"'{word}:")
            self.assertRegex((TOP / "completion" / "smilplay.fish").read_text(), rf"--arguments {word} ")


class Completion(unittest.TestCase):
    def completed(self, *words):
        script = (f"source {TOP}/completion/smilplay.bash; COMP_WORDS=(\"$@\"); COMP_CWORD=$(($# - 1)); "
                  "_smilplay; printf '%s\\n' \"${COMPREPLY[@]}\"")
        run = subprocess.run(["bash", "-c", script, "bash", "smilplay", *words], cwd=EXAMPLES, capture_output=True,
                             text=True, check=False)
        return sorted(run.stdout.split())

    def test_words(self):
        self.assertEqual(self.completed(""), ["audit", "check", "gen", "run"])
        self.assertEqual(self.completed("c"), ["check"])
        self.assertEqual(self.completed("gen", "90"), ["90", "900"])
        self.assertEqual(self.completed("run", ""), [])
        self.assertEqual(self.completed("run", "<", "kiosk.play."), ["kiosk.play.stdout"])

    @unittest.skipUnless(shutil.which("shellcheck"), "no shellcheck")
    def test_shellcheck(self):
        run = subprocess.run(["shellcheck", "-s", "bash", TOP / "completion" / "smilplay.bash"], capture_output=True,
                             text=True, check=False)
        self.assertEqual((run.returncode, run.stdout), (0, ""))


class ManualPage(unittest.TestCase):
    def setUp(self):
        self.path = TOP / "docs" / "smilplay.1"
        self.text = self.path.read_text()

    @unittest.skipUnless(shutil.which("groff"), "no groff")
    def test_groff_has_no_warning(self):
        run = subprocess.run(["groff", "-mdoc", "-ww", "-Tascii", self.path], capture_output=True, text=True, check=False)
        self.assertEqual((run.returncode, run.stderr), (0, ""))

    @unittest.skipUnless(shutil.which("mandoc"), "no mandoc")
    def test_mandoc_has_no_warning(self):
        run = subprocess.run(["mandoc", "-T", "lint", "-W", "warning", self.path], capture_output=True, text=True,
                             check=False)
        self.assertEqual(run.stdout, "")

    def test_source(self):
        for line in self.text.splitlines():
            self.assertRegex(line, r"^.{0,79}[^ ]$")

    def test_orders_and_exit_numbers_are_those_of_the_manual(self):
        script = (TOP / "docs" / "SCRIPT.md").read_text()
        orders = re.findall(r"^\| `(?:NAME )?([a-z]+)[^`]*` \| `",
                            script[script.index("## Orders"):script.index("## A load")], re.MULTILINE)
        self.assertEqual(set(re.findall(r"^\.It (?:Ar name )?Cm ([a-z]+)", self.text, re.MULTILINE)),
                         set(orders) | {"run", "check", "gen", "audit"})
        numbers = re.findall(r"^\| ([0-9]) \| ", script[script.index("## The exit number"):], re.MULTILINE)
        self.assertEqual(re.findall(r"^\.It ([0-9])$", self.text, re.MULTILINE), numbers)

    def test_the_example_is_what_the_program_writes(self):
        example = self.text[self.text.index(".Bd"):self.text.index(".Ed")].splitlines()
        end = example.index("END")
        self.assertEqual(smilplay("run", "".join(line + "\n" for line in example[2:end])).splitlines(), example[end + 1:])


if __name__ == "__main__":
    unittest.main()
