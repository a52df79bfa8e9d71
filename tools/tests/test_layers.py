"""Tests that the packages of tools/ are layers: a module imports those of its own layer and of the layers before it, no modules
import each other in a circle, and the path of Python's modules is that of the interpreter."""
import ast
import glob
import os
import re
import unittest

from tests.places import TOOLS, TOP

# Each layer with the modules of `afdx` that stand on it below.
LAYERS = ("afdx.files", "afdx.model", "afdx.document", "afdx.reckon", "afdx.runs", "afdx.page", "afdx.commands", "afdx.facade", "afdx", "gate", "tests")


def modules():
    """Each module by its dotted name, with its text."""
    found = {}
    for path in glob.glob(os.path.join(TOOLS, "*", "**", "*.py"), recursive=True):
        name = os.path.relpath(path, TOOLS)[: -len(".py")].replace(os.sep, ".").removesuffix(".__init__")
        with open(path, encoding="utf-8") as file:
            found[name] = file.read()
    return found


def imported(text, names):
    """The modules of these names that a text imports, wherever it does."""
    found = set()
    for node in ast.walk(ast.parse(text)):
        if isinstance(node, ast.Import):
            found |= {it.name for it in node.names}
        elif isinstance(node, ast.ImportFrom):
            own = [f"{node.module}.{it.name}" for it in node.names]
            found |= {it if it in names else node.module for it in own}
    return found & names


def layer_of(name):
    return next(i for i, layer in enumerate(LAYERS) if name == layer or name.startswith(layer + "."))


def circle(of):
    """A circle of modules, or nothing: those that import none of the rest are taken away until none is left."""
    rest = {name: set(found) for name, found in of.items()}
    while bare := [name for name, found in rest.items() if not found]:
        for name in bare:
            del rest[name]
        for found in rest.values():
            found.difference_update(bare)
    return sorted(rest)


class Layers(unittest.TestCase):
    def setUp(self):
        self.texts = modules()
        self.of = {name: imported(text, set(self.texts)) - {name} for name, text in self.texts.items()}

    def test_the_reader_of_imports(self):
        names = {"afdx.files", "afdx.files.program", "gate"}
        text = "import gate\ndef f():\n    from afdx.files import program, Fault\n"
        self.assertEqual(imported(text, names), names)
        self.assertEqual(circle({"a": {"b"}, "b": {"c"}, "c": {"b"}, "d": set()}), ["a", "b", "c"])

    def test_no_layer_imports_one_above_it(self):
        self.assertGreater(len(self.of), 80)
        wrong = [(name, it) for name, found in self.of.items() for it in found if layer_of(it) > layer_of(name)]
        self.assertEqual(wrong, [])

    def test_no_circle(self):
        # A package's own file stands for its modules where a name of it is taken.
        self.assertEqual(circle(self.of), [])

    def test_the_path_of_modules_stays(self):
        texts = dict(self.texts)
        for name in ("afdx", "test"):
            with open(os.path.join(TOP, name), encoding="utf-8") as file:
                texts[name + " (script)"] = file.read()
        wrong = [name for name, text in texts.items() if re.search(r"sys\.path\.(insert)\(", text) and not name.endswith("test_layers")]
        self.assertEqual(wrong, [])

    def test_imports_stand_at_the_head(self):
        """Those of modules of tools/: where one stands in a function, a circle is hidden."""
        wrong = []
        for name, text in self.texts.items():
            tree = ast.parse(text)
            # What type checkers alone read is no import.
            typed = [node for it in tree.body if isinstance(it, ast.If) and ast.unparse(it.test) == "TYPE_CHECKING" for node in it.body]
            head = tree.body + typed
            inner = [node for node in ast.walk(tree) if isinstance(node, (ast.Import, ast.ImportFrom)) and node not in head]
            wrong += [(name, node.lineno) for node in inner if imported(ast.unparse(node), set(self.texts))]
        self.assertEqual(wrong, [])


if __name__ == "__main__":
    unittest.main()
