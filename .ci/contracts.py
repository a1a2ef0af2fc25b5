"""What the public functions of the crates promise, as the text has it: the definitions that their clauses name."""
import glob
import re

from definitions import cited

USE = re.compile(r"^\s*ghost use ([\w.«»]+?)(?:\.\{([^{}]*)\})?(?: as (\w+))?;", re.M)


OPEN = re.compile(r"\s*(?:pub(?:\([^)]*\))? )?(trait|impl)\b(.*)")


def tail(path):
    """The last name of a path without its generic arguments."""
    return re.sub(r"<.*", "", path).split("::")[-1].strip(" &'")


def owner(kind, head):
    """The type whose items a block of a trait or an impl has."""
    head = head.strip()
    while kind == "impl" and head.startswith("<"):  # generic parameters
        depth = 0
        for at, sign in enumerate(head):
            depth += (sign == "<") - (sign == ">" and head[at - 1] != "-")
            if depth == 0:
                break
        head = head[at + 1 :].strip()
    if kind == "impl" and " for " in head:
        head = head.split(" for ", 1)[1]
    return re.match(r"[&'\w:]*", head)[0].rstrip(":").split("::")[-1].strip("&'")


def exported(crate):
    """The names that a crate gives to others: what its root, and modules that are public there, declare as public or pass on."""
    names, todo = set(), [f"crates/{crate}/src/lib.rt"]
    while todo:
        path = todo.pop()
        try:
            text = open(path, encoding="utf-8").read()
        except FileNotFoundError:
            continue
        names.update(re.findall(r"^pub (?:struct|enum|trait|fn|type|const) (\w+)", text, re.M))
        for use in re.findall(r"^pub use ([^;]+);", text, re.M):
            names.update(re.findall(r"(\w+)(?=\s*(?:[,}]|$))", use))
        folder = path[: -len("lib.rt")] if path.endswith("/lib.rt") else path[: -len(".rt")] + "/"
        todo += [f"{folder}{name}.rt" for name in re.findall(r"^pub mod (\w+);", text, re.M)]
    return names


class Source:
    """A file of src/: its ghost imports and the texts of its public contracts."""

    def __init__(self, path, public):
        self.path, self.crate, self.public = path, path.split("/")[1], public
        text = open(path, encoding="utf-8").read()
        self.imports, self.aliases, self.contracts = {}, {}, []
        for use in USE.finditer(text):
            if use[2] is None:
                self.aliases[use[3] or use[1].split(".")[-1]] = use[1]
            for item in (use[2] or "").replace("\n", " ").split(","):
                if item.strip():
                    name, _, alias = item.strip().partition(" as ")
                    self.imports[alias or name] = (use[1], name)
        self.read(text.split("\n"))

    def read(self, lines):
        """Public functions, functions of traits and of impls of traits; ghost items of traits and of impls, but invariants."""
        blocks, at = [], 0
        while at < len(lines):
            line = lines[at]
            depth = len(line) - len(line.lstrip(" "))
            while blocks and line.strip() and depth <= blocks[-1][0]:
                blocks.pop()
            if start := OPEN.match(line):
                given = owner(start[1], start[2]) in self.public
                blocks.append((depth, given, given and (start[1] == "trait" or " for " in start[2])))
            within, opened = blocks[-1][1:] if blocks else (None, False)
            function = re.match(r"\s*(pub |pub\(crate\) )?(?:const |unsafe )*fn (\w+)", line)
            ghost = re.match(r"\s*ghost (\w+)\s*(?:[:=({<]|$)", line)
            if function:
                text, end = [], at
                while True:
                    text.append(lines[end])
                    if re.match(rf" {{{depth}}}(\{{|\}})", lines[end]) and end > at or lines[end].rstrip().endswith((";", "{}")) \
                            or end == at and lines[end].rstrip().endswith("{"):
                        break
                    end += 1
                if opened or function[1] == "pub " and (within if blocks else function[2] in self.public):
                    self.contracts.append((function[2], "\n".join(l for l in text if not l.strip().startswith("//"))))
                at = end
            elif ghost and opened and ghost[1] not in ("use", "invariant"):
                text, end = [lines[at]], at
                while text[-1].rstrip()[-1:] != ";" and end + 1 < len(lines):
                    end += 1
                    text.append(lines[end])
                self.contracts.append((ghost[1], "\n".join(text)))
                at = end
            at += 1


def sources():
    """All files of src/ of all crates."""
    public = {path.split("/")[1]: exported(path.split("/")[1]) for path in glob.glob("crates/*/src")}
    return [Source(path, public[path.split("/")[1]]) for path in sorted(glob.glob("crates/*/src/**/*.rt", recursive=True))]


def named(source, every, only=None):
    """The definitions that the public contracts of a file name; of the function `only` alone, where that is given."""
    found = []
    for name, text in source.contracts:
        if only is None or name == only:
            for one in cited(text, source.imports, source.aliases, {}, every):
                if one not in found:
                    found.append(one)
    return found
