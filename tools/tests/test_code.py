"""Tests the code of the tools: that each public name says what it is, and that no function is long."""

import ast
import unittest

from calling import TOOLS, TOP

LONGEST = 40
WIDEST = 121


def definitions(tree, within=""):
    """Each class and function of a module that isn't within a function, by its name with its class."""
    for node in tree.body:
        if isinstance(node, (ast.ClassDef, ast.FunctionDef)):
            yield within + node.name, node
        if isinstance(node, ast.ClassDef):
            yield from definitions(node, f"{within}{node.name}.")


class Code(unittest.TestCase):
    def setUp(self):
        self.modules = {path.name: ast.parse(path.read_text()) for path in sorted(TOOLS.glob("*.py"))}

    def test_every_public_name_says_what_it_is(self):
        for name, module in self.modules.items():
            self.assertTrue(ast.get_docstring(module), name)
            for called, node in definitions(module):
                if not any(part.startswith(("_", "test_")) for part in called.split(".")):
                    self.assertTrue(ast.get_docstring(node), f"{name}: {called}")

    def test_what_a_function_raises_is_said(self):
        for name, module in self.modules.items():
            for called, node in definitions(module):
                raised = {part.exc.func.id for part in ast.walk(node) if isinstance(part, ast.Raise)
                          and isinstance(part.exc, ast.Call) and isinstance(part.exc.func, ast.Name)}
                if isinstance(node, ast.FunctionDef) and not node.name.startswith("_"):
                    for kind in raised:
                        self.assertIn(kind, ast.get_docstring(node), f"{name}: {called}")

    def test_functions_are_short_and_lines_fit(self):
        for name, module in self.modules.items():
            for called, node in definitions(module):
                if isinstance(node, ast.FunctionDef):
                    self.assertLessEqual(node.end_lineno - node.lineno + 1, LONGEST, f"{name}: {called}")
        for path in sorted(TOOLS.glob("*.py")):
            for number, line in enumerate(path.read_text().splitlines(), 1):
                self.assertLessEqual(len(line), WIDEST, f"{path.relative_to(TOP)}:{number}")


if __name__ == "__main__":
    unittest.main()
