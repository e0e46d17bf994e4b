"""Reads what bin/check-docs compares: the names in the sources of crates, and the parts of Markdown files."""

import glob
import os
import re

FUNCTION = re.compile(r" *(?:pub(?:\([a-z]+\))? )?(?:unsafe )?(?:const )?fn (\w+)")
CLAUSE = re.compile(r" *(?:ensures\*?|requires) (\w+) \{")
VARIANT = re.compile(r"    ([A-Z]\w*)(?:[ ({,]|$)")
TYPE = re.compile(r"(?:pub |pub\(crate\) )?(?:struct|enum|trait) (\w+)")
DEFINITION = re.compile(r"^ *(?:abbrev |unfoldable |recursive )*pub (?:record |data )?(\w+)", re.MULTILINE)
BLOCK = re.compile(r"^ *``` *(\w*).*\n((?:.*\n)*?) *```.*$", re.MULTILINE)
ITEM = re.compile(r"^.*\S.*(?:\n(?! *(?:-|\d+\.) |\||#).*\S.*)*", re.MULTILINE)
UNSAFE = re.compile(r"^(?! *//).*\bunsafe\b", re.MULTILINE)


def text_of(path):
    with open(path, encoding="utf-8") as file:
        return file.read()


class Crate:
    """The names of a crate, or of several: functions and types, clauses with the function of each, definitions and
    wrong bodies; and the files with `unsafe`."""

    def __init__(self, *folders):
        self.folders, self.functions, self.clauses, self.unsafe = folders, set(), set(), set()
        self.sources = {path: text_of(path) for path in self.files("src/**/*.rt")}
        for path, text in self.sources.items():
            self.read(text.split("\n"))
            self.unsafe.update([path] if UNSAFE.search(text) else [])
        self.definitions = {name for path in self.files("specs/**/*.antt") for name in DEFINITION.findall(text_of(path))}
        self.bodies = {os.path.basename(path).removesuffix(".edit") for path in self.files("must-fail/*.edit")}

    def files(self, pattern):
        return [path for folder in self.folders for path in glob.glob(f"{folder}/{pattern}", recursive=True)]

    def read(self, lines):
        function = None
        for line in lines:
            if it := FUNCTION.match(line):
                function = it[1]
                self.functions.add(function)
            elif it := CLAUSE.match(line):
                self.clauses.add((function, it[1]))
            elif it := TYPE.match(line) or VARIANT.match(line):
                self.functions.add(it[1])
            elif "ghost output" in line or re.match(r"impl .*Display for ", line):
                self.functions.update(("fmt", "Display"))
                self.clauses.add(("Display", "output"))

    def has(self, name):
        """Whether a path of names, as `Shared::meet`, or a module is one of the crate's."""
        names = self.functions | self.definitions
        return names.issuperset(name.split("::")) or bool(self.files(f"specs/{name}.antt") + self.files(f"src/{name}.rt"))


class Document:
    """A Markdown file: its blocks of code, the rows of its tables and its paragraphs, with line numbers; `text` lacks blocks."""

    def __init__(self, path):
        self.path, self.folder, text = path, os.path.dirname(path), text_of(path)
        self.blocks = [(1 + text.count("\n", 0, it.start()), it[1], it[2]) for it in BLOCK.finditer(text)]
        self.text = BLOCK.sub(lambda it: "\n" * it[0].count("\n"), text)
        self.prose = [*enumerate(self.text.split("\n"), 1)]

    def paragraphs(self):
        """Each heading, paragraph, item of a list and row of a table, with the whole text of its section."""
        number = 1
        for section in re.split(r"^(?=#)", self.text, flags=re.MULTILINE):
            yield from ((number + section.count("\n", 0, it.start()), it[0], section) for it in ITEM.finditer(section))
            number += section.count("\n")

    def rows(self):
        """The rows of the tables, each as a dictionary from the heads of its columns."""
        heads = None
        for number, line in self.prose:
            cells = [it.strip() for it in line.split("|")[1:-1]] if line.startswith("|") else None
            if cells and heads and not line.startswith("|-"):
                yield number, dict(zip(heads, cells))
            elif not heads or not cells:
                heads = cells

    def anchors(self):
        heads = (line.lstrip("# ") for _, line in self.prose if line.startswith("#"))
        return {re.sub(r"[^\w -]", "", head.lower()).replace(" ", "-") for head in heads}
