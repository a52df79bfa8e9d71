"""Tests that each library which the product is to be made with is used at its place, and no other thing does its work: the
crate's line in crates.txt names it, and its code, without comments, texts and tests, takes from it what does the work. Every
enum whose name ends in `Fault` is derived with `thiserror`, and can be shown by `Debug`."""
import functools
import glob
import os
import re
import unittest

from gate.library_places import PLACES, USE, code_in, taken
from tests.places import TOP

FAULT = re.compile(r"((?:#\[[^\]]*\]\s*)*)(?:pub(?:\(\w+\))? )?enum (\w*Fault)\b")
DERIVED = re.compile(r"#\[derive\(([^)]*)\)\]")


def sources():
    """The text of crates.txt, and of each file of code that is no test, by its path."""
    found = {"crates.txt": os.path.join(TOP, "crates.txt")}
    for path in glob.glob(os.path.join(TOP, "crates", "*", "src", "**", "*.rt"), recursive=True):
        found[os.path.relpath(path, TOP)] = path
    texts = {}
    for name, path in found.items():
        if "/src/tests" not in name:
            with open(path, encoding="utf-8") as file:
                texts[name] = file.read()
    return texts


def libraries_of(texts, crate):
    """What crates.txt names for a crate."""
    found = re.search(rf"^{crate}:(.*)$", texts["crates.txt"], re.MULTILINE)
    return found[1].split() if found else []


def code_of(texts, crate):
    """The code of each file of a crate."""
    return [code_in(text) for name, text in texts.items() if name.startswith(f"crates/{crate}/src/")]


def enums_of(texts):
    """Each enum of a fault: its file, the code there, its attributes and its name."""
    for path, text in texts.items():
        if "enum " in text and "Fault" in text:
            for attributes, name in FAULT.findall(code_in(text)):
                yield path, code_in(text), attributes, name


@functools.cache
def does(code, library, name):
    """Whether a file names what does the work, beside the line that takes it."""
    if re.search(rf"\b{library}::(?:\w+::)*{name}\b", USE.sub("", code)):
        return True
    called = taken(code, library).get(name)
    return bool(called and re.search(rf"\b{called}\b", USE.sub("", code)))


def faults_of_places(texts):
    """A line for each library that is not used at its place."""
    for place in PLACES:
        if place.library not in libraries_of(texts, place.crate):
            yield f"{place.library}: crates.txt does not name it for {place.crate}, in which {place.purpose}"
        codes = code_of(texts, place.crate)
        for name in place.names:
            if not any(does(code, place.library, name) for code in codes):
                yield f"{place.library}: {name} is not used in {place.crate}, in which {place.purpose}"


def faults_of_enums(texts):
    """A line for each enum of a fault that is not derived with `thiserror`, or not shown by `Debug`."""
    for path, code, attributes, name in enums_of(texts):
        crate = path.split("/")[1]
        derived = {it.strip() for row in DERIVED.findall(attributes) for it in row.split(",")}
        if not derived & {"thiserror::Error", taken(code, "thiserror").get("Error")}:
            yield f"thiserror: {name} of {path} does not derive its Error"
        elif "thiserror" not in libraries_of(texts, crate):
            yield f"thiserror: crates.txt does not name it for {crate}, which has {name}"
        if "Debug" not in derived:
            yield f"Debug: {name} of {path} does not derive it"


def faults_of(texts):
    return [*faults_of_places(texts), *faults_of_enums(texts)]


class Libraries(unittest.TestCase):
    @classmethod
    def setUpClass(cls):
        cls.texts = sources()

    def test_each_is_used_at_its_place(self):
        self.assertEqual(list(faults_of_places(self.texts)), [])

    def test_each_fault_is_derived(self):
        self.assertEqual(list(faults_of_enums(self.texts)), [])
        self.assertGreaterEqual(len(list(enums_of(self.texts))), 13)


def changed(texts, path, old, new):
    """The same texts, with a pattern replaced in one of them, or in each file of a crate."""
    found = {name: re.sub(old, new, text, flags=re.MULTILINE) for name, text in texts.items() if name.startswith(path)}
    if all(found[name] == texts[name] for name in found):
        raise ValueError(f"{path} has no {old}")
    return texts | found


class Taken(unittest.TestCase):
    """A copy without one of them is reported."""

    @classmethod
    def setUpClass(cls):
        cls.texts = sources()
        cls.before = faults_of(cls.texts)

    def reports(self, texts, beginning):
        self.assertTrue([it for it in faults_of(texts) if it not in self.before and it.startswith(beginning)], beginning)

    def test_a_library_that_is_taken_out_is_reported(self):
        for library, _, crate, _, names in PLACES:
            with self.subTest(library):
                self.reports(changed(self.texts, "crates.txt", rf"^({crate}:.*) {library}\b", r"\1"), library)
                folder = f"crates/{crate}/src/"
                for name in names:
                    # What is left is a comment, a text, or the line that takes the name.
                    self.reports(changed(self.texts, folder, rf"\b{name}\b", f"Other /* {library}::{name} */"), library)
                self.reports(changed(self.texts, folder, rf"^(\s*)(use {library}\b)", r"\1// \2"), library)

    def test_an_enum_that_derives_less_is_reported(self):
        for path, _, _, name in enums_of(self.texts):
            with self.subTest(name):
                for word, said in (("Error", "thiserror"), ("Debug", "Debug")):
                    old = rf"^(#\[derive\([^)]*)\b(?:thiserror::)?{word}\b([^)]*\)\]\s*(?:pub )?enum {name}\b)"
                    self.reports(changed(self.texts, path, old, r"\1Clone\2"), f"{said}: {name}")
                self.reports(changed(self.texts, "crates.txt", rf"^({path.split('/')[1]}:.*) thiserror\b", r"\1"), "thiserror")

    def test_an_enum_that_is_new_is_reported(self):
        texts = self.texts | {"crates/turns/src/new.rt": "use thiserror::Error;\n#[derive(Clone, Copy)]\npub enum NewFault {\n}\n"}
        self.reports(texts, "thiserror: NewFault")
        self.reports(texts, "Debug: NewFault")


if __name__ == "__main__":
    unittest.main()
