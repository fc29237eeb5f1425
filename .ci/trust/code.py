"""The types and functions of a crate's src/, with their contracts."""
import os
import re
from dataclasses import dataclass

from refusal.functions import functions, sources
from trust.scope import Scope

TOP = re.compile(r"(?:pub(?:\([^)]*\))? )?(?:unsafe )?(struct|enum|union|trait|const|static|type|impl)\b(?:<.*?>(?= ))? ?([^{;=]*)")
CLAUSE = re.compile(r"\b(requires|ensures)(?: (\w+))? \{")
BROUGHT = re.compile(r"(?m)^ *(?:pub(?:\([^)]*\))? )?use (\w+)((?:::\w+)*)(?:::\{([^}]*)\})?;")


@dataclass(frozen=True)
class Item:
    """A type, constant, trait or `impl`: its kind, the name that it has or that it is for, its trait, if it is an `impl` of one,
    its file and its text."""

    kind: str
    name: str
    trait: str
    file: str
    text: str
    first: int  # its lines
    last: int


class Crate:
    """A crate's code."""

    def __init__(self, name):
        self.name, self.texts = name, sources(f"crates/{name}")
        self.items = [it for file, text in self.texts.items() for it in items(file, text)]
        self.functions = [it for it in functions(self.texts) if not it.is_test]
        self.scopes = {file: Scope.of("\n".join(it for it in text.split("\n") if it.startswith("ghost use"))) for file, text in self.texts.items()}
        self.brought = {file: brought(text) for file, text in self.texts.items()}
        self.root = "src/lib.rt" if "src/lib.rt" in self.texts else "src/main.rt"

    def owner(self, function):
        """The `impl` or trait that a function is of."""
        return next((it for it in self.items if it.file == function.file and it.kind in ("impl", "trait") and it.first < function.first <= it.last), None)

    def methods(self, type_name, method=None):
        """The functions of a type or trait, or that of this name."""
        return [it for it in self.functions if (own := self.owner(it)) and type_name in (own.name, own.trait) and method in (None, last(it.path))]

    def free(self, name):
        """The functions of this name that are no methods."""
        return [it for it in self.functions if last(it.path) == name and not self.owner(it)]

    def defined(self, name, file=None):
        """The type, trait or constant of this name, that of the file where there are several."""
        found = [it for it in self.items if it.kind != "impl" and it.name == name]
        return next((it for it in found if it.file == file), found[0] if found else None)

    def model(self, name):
        """What says how contracts see a type, if anything does."""
        return next((it for it in self.items if it.kind == "impl" and (it.name, it.trait) == (name, "Model")), None)

    def is_public(self, function):
        """Whether a function that is no method can be called by other crates."""
        text = self.texts[function.file].split("\n")
        if not any(line.startswith("pub fn ") for line in text[function.first - 1 : function.last]):
            return False
        module = function.file.removeprefix("src/").removesuffix(".rt").replace("/", "::")
        shown = self.brought[self.root].get(last(function.path), "") or re.search(rf"(?m)^pub mod {module.split('::')[0]};", self.texts[self.root])
        return bool(shown)

    def is_shown(self, function):
        """Whether a method is part of what its type offers: public, or one of a trait."""
        own, lines = self.owner(function), self.texts[function.file].split("\n")[function.first - 1 : function.last]
        return bool(own and own.trait) or any(line.lstrip().startswith("pub fn ") for line in lines)

    def has(self, owner, name):
        """Whether a type or trait has a method, a variant or another part of this name."""
        return bool(self.methods(owner, name)) or any(re.search(rf"\b{name}\b", it.text) for it in self.items if owner in (it.name, it.trait))

    def names(self, name):
        """Whether there is a function, type or constant of this name."""
        return bool(self.free(name) or self.defined(name))

    def head(self, function):
        """What stands before the body: the signature, and the clauses, each with its name, if it has one."""
        lines = self.texts[function.file].split("\n")[function.first - 1 :]
        # (a law has the body `{}`, and a trait's own function mostly none)
        end = function.body - function.first if function.body else next(k for k, it in enumerate(lines) if re.search(r"(^| )\{\}$|;$", it)) + 1
        text = "\n".join(it for it in lines[:end] if not it.lstrip().startswith("//"))
        marks = [*CLAUSE.finditer(text)]
        clauses = [(it[2], inside(text, it.end())) for it in marks]
        return text[: marks[0].start()] if marks else text, clauses

    def scope(self, function):
        """What is imported where the function stands."""
        own = self.owner(function)
        return (Scope.of(own.text) if own else Scope()).inside(self.scopes[function.file])


def items(file, text):
    """The items of a file. In formatted text one ends where its line does, or at a bracket that begins a line."""
    lines = text.split("\n")
    for n, line in enumerate(lines):
        if found := TOP.match(line):
            end = next((k for k in range(n, len(lines)) if (k > n and lines[k][:1] in ("}", "]", ")")) or (k == n and line[-1:] in (";", "}"))), n)
            head = found[2].split(" where ")[0].strip()
            trait, _, of = head.rpartition(" for ") if found[1] == "impl" else ("", "", head)
            yield Item(found[1], bare(of), bare(trait), file, "\n".join(lines[n : end + 1]), n + 1, end + 1)


def bare(name):
    """A name without its path and its parameters."""
    found = re.match(r"(?:\w+::)*(\w+)", name.strip())
    return found[1] if found else ""


def brought(text):
    """The crates that the names of a file are brought from."""
    names = {}
    for crate, path, inner in BROUGHT.findall(text):
        for name in re.findall(r"\w+", inner) or [path.rpartition("::")[2] or crate]:
            names[name] = crate
    return names


def last(path):
    return path.rpartition("::")[2]


def inside(text, start):
    """What stands in the braces that open before this place."""
    depth = 1
    for end in range(start, len(text)):
        depth += {"{": 1, "}": -1}.get(text[end], 0)
        if not depth:
            return text[start:end]
    return text[start:]


def crates():
    """The crates, by name, in the order of crates.txt."""
    with open("crates.txt", encoding="utf-8") as it:
        names = [line.split(":")[0].strip() for line in it if ":" in line]
    return {name: Crate(name) for name in names if os.path.isdir(f"crates/{name}")}
