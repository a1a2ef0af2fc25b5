"""Definitions of specs/ as the text has them: which module declares which names, what each definition cites, what it says of itself."""
import glob
import os
import re

USE = re.compile(r"(?:pub )?use ([\w.«»]+?)(?:\.\{([^{}]*)\})?(?: as (\w+))?$")
NAME = r"[^\s(){}]+"
HEAD = re.compile(r"(?:abbrev |unfoldable |pub |record |data |private )*(" + NAME + ")")
INSIDE = re.compile(r"  (?:abbrev |pub |record |data )*(" + NAME + r")(?= :| \(| \{)")
WORD = re.compile(r"(?<![\w«»'.])([^\W\d][\w«»'-]*)(?:\.([^\W\d][\w«»'-]*))?")
BINDERS = re.compile(r"λ ([^.]*)\.|[({]((?:[\w'«»-]+ )+): ")


def declares(line):
    """The name that a line at the margin declares or goes on with."""
    if fixity := re.match(r"infix\w* \d+ (\S+)", line):
        return fixity[1]
    if line.startswith("module "):
        return line
    if equation := re.match(r"\([^)]*\) (\S+) ", line):
        return "◌" + equation[1] + "◌"
    return HEAD.match(line)[1]


class Definition:
    """One definition: its module, the names that it declares, its comment and its text."""

    def __init__(self, module, name, comment):
        self.module, self.names, self.comment, self.lines = module, [name], comment, []
        self.first = self.last = 0  # its lines in the file, with its comment

    @property
    def name(self):
        return self.names[0]

    @property
    def text(self):
        return "\n".join(self.lines)

    def add(self, lines):
        self.lines += lines
        inside = INSIDE.match(lines[-1])
        if inside and re.match(r"(pub )?data |module ", next(l for l in self.lines if not l.startswith("infix"))):
            if inside[1] not in self.names:
                self.names.append(inside[1])


class Module:
    """A file of specs/: its imports, its aliases, and its definitions in order."""

    def __init__(self, path):
        self.path = path
        parts = path[: -len(".antt")].split("/")
        self.crate, self.name = parts[1], ".".join(["Rattle"] + parts[1:])
        self.inner = "inner" in parts[3:-1] or parts[-1] == "inner"
        self.imports, self.aliases, self.definitions, self.head, self.declared = {}, {}, [], [], {}
        self.read(open(path, encoding="utf-8").read().split("\n"))

    def read(self, lines):
        waiting = []  # comment lines whose definition has not come yet
        for number, line in enumerate(lines):
            if use := USE.match(line):
                self.take_import(*use.groups())
                if waiting and not self.head:
                    self.head, waiting = waiting, []
            elif line == "":
                if waiting and not self.head and not self.definitions:
                    self.head, waiting = waiting, []
            elif line.startswith("--"):
                waiting.append(line)
            elif line[0] in " )}]" or line.startswith("unfolding "):
                self.definitions[-1].add(waiting + [line])
                self.definitions[-1].last = number
                waiting = []
            elif not re.match(r"(pub )?mod ", line):
                name = declares(line)
                if not self.definitions or name not in self.definitions[-1].names:
                    self.definitions.append(Definition(self, name, waiting))
                    self.definitions[-1].first = number - len(waiting)
                    waiting = []
                self.definitions[-1].add(waiting + [line])
                self.definitions[-1].last = number
                waiting = []
        for one in self.definitions:
            for name in one.names:
                self.declared[name] = one

    def take_import(self, module, names, alias):
        if names is None:
            self.aliases[alias or module.split(".")[-1]] = module
        for item in (names or "").split(","):
            if item.strip():
                name, _, other = item.strip().partition(" as ")
                self.imports[other or name] = (module, name)


def modules():
    """All modules of specs/, by name."""
    paths = glob.glob("crates/*/specs/**/*.antt", recursive=True)
    return {m.name: m for m in map(Module, sorted(paths))}


def bound(text):
    """The names that a text binds itself."""
    names = set()
    for found in BINDERS.finditer(text):
        names.update((found[1] or found[2] or "").split())
    return names


def cited(text, imports, aliases, declared, every):
    """The definitions that a text cites, by the names that stand where it does."""
    text = re.sub(r"(^|\s)--\s.*", "", text)
    own = bound(text)
    found = []

    def take(module, name):
        if module not in every:  # a constructor or a field, from the module of its type
            module, _, name = module.rpartition(".")
        if module in every and name in every[module].declared:
            found.append(every[module].declared[name])

    for word in WORD.finditer(text):
        first, second = word[1], word[2]
        if second and first in aliases:
            take(aliases[first], second)
        if first in own:
            continue
        if first in declared:
            found.append(declared[first])
        elif first in imports:
            take(*imports[first])
    for name in list(imports) + list(declared):
        if name.startswith("◌") and " " + name.strip("◌") + " " in text:
            if name in declared:
                found.append(declared[name])
            else:
                take(*imports[name])
    return found


def cites(one, every):
    """The definitions that this one cites, each once, in the order of its text."""
    module, seen = one.module, []
    for other in cited(one.text, module.imports, module.aliases, module.declared, every):
        if other is not one and other not in seen:
            seen.append(other)
    return seen


def reached(roots, every):
    """The definitions that these reach, in reading order: what a definition cites stands before it."""
    order, state = [], {}
    for root in roots:
        stack = [(root, iter(cites(root, every)))] if root not in state else []
        state.setdefault(root, 1)
        while stack:
            one, rest = stack[-1]
            for other in rest:
                if other not in state:
                    state[other] = 1
                    stack.append((other, iter(cites(other, every))))
                    break
            else:
                stack.pop()
                order.append(one)
    return order
