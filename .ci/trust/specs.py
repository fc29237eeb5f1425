"""The definitions of the files of specs/."""
import glob
import re

from trust.scope import Scope, is_operator_in, words

BEGINS = re.compile(r"(?:(?:abbrev|unfoldable) )?(?:pub )?(?:(record|data) )?(\S+)(?= [:({]|$)")
CONSTRUCTOR = re.compile(r" +(?:pub )?(\w+) :")


class Module:
    """A file of definitions: the text of each by its name, and which one each name belongs to, constructors too."""

    def __init__(self, crate, name, text):
        self.crate, self.name, self.scope = crate, name, Scope.of(text)
        self.texts, self.homes = {}, {}
        above, own, kind = "", None, None
        for line in text.split("\n"):
            if line.startswith("module "):
                # (what stands in a module speaks of its parameters)
                above, own = line, None
            elif not line.strip() or line.lstrip().startswith("--"):
                continue
            elif begins := begun(line.removeprefix("  ") if above else line):
                above = above if line.startswith(" ") else ""
                kind, own = begins
                self.texts[own], self.homes[own] = f"{above}\n{line}", own
            elif own:
                self.texts[own] += f"\n{line}"
                if kind == "data" and (constructor := CONSTRUCTOR.match(line)):
                    self.homes[constructor[1]] = own

    def reached_from(self, name):
        """What the definition names, each with its module."""
        text = self.texts[self.homes[name]]
        own = {first for first, _ in words(text)} | {it for it in self.homes if is_operator_in(it, text)}
        yield from self.scope.named_in(text)
        yield from ((self.crate, self.name, self.homes[it]) for it in own & self.homes.keys())


def begun(line):
    """The kind of a definition, if it is a `record` or a `data`, and its name, where the line begins one."""
    found = BEGINS.match(line) if re.match(r"(abbrev|unfoldable|pub|record|data) ", line) and not line.startswith("pub use ") else None
    return found and found.groups()


def modules():
    """The modules of the crates' specs/, by crate and name."""
    found = {}
    for file in sorted(glob.glob("crates/*/specs/**/*.antt", recursive=True)):
        _, crate, _, path = file.removesuffix(".antt").split("/", 3)
        if path != "Lib":
            with open(file, encoding="utf-8") as it:
                found[crate, path.replace("/", ".")] = Module(crate, path.replace("/", "."), it.read())
    return found
