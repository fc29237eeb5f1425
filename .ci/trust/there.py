"""Whether what the pages name is there."""
import glob
import os
import re

from trust.pages import TOKEN, spelled

NAMED = re.compile(r"`(\w+)::(\w+)`")
UNDERSCORED = re.compile(r"`([a-z][a-z0-9]*(?:_[a-z0-9]+)+)`")
FILE = re.compile(r"[\w.{}, /-]*/[\w.{}, -]+|[\w-]+\.(?:rt|antt|md|py|c|txt|edit)")
EDIT = re.compile(r"((?:fx_)?\w+)/([a-z0-9_]+)")
# What stands for any name, as crates/NAME/src, and what a build makes.
OPEN = re.compile(r"[A-Z]{4,}(?!\w*\.md)|\.\.\.|\bout/")
WORDY = ("crates/", "bench/", "examples/", ".ci/", "gate", "crates.txt")


class Names:
    """The files of the repository, how their paths can end, and the words in them."""

    def __init__(self, repository):
        self.crates = repository.crates
        self.files = {*files_here()}
        self.ends = {path[at:] for path in self.files for at in [0, *(it.end() for it in re.finditer("/", path))]}
        self.words = {word for path in self.files if path.startswith(WORDY) and os.path.isfile(path) for word in words_of(path)}

    def missing_from(self, page):
        """What a page names that is not there, each once."""
        yield from dict.fromkeys([*self.missing_names(page), *self.missing_files(page)])

    def missing_names(self, page):
        """What it names by `Type::name` or `crate::name`, or with an underscore."""
        for owner, name in NAMED.findall(page):
            of_crate = owner in self.crates and self.crates[owner].names(name)
            if not of_crate and not any(code.has(owner, name) for code in self.crates.values()):
                yield f"{owner}::{name}"
        yield from (it for it in UNDERSCORED.findall(page) if it not in self.words)

    def missing_files(self, page):
        """The files and wrong bodies that it names."""
        for token in TOKEN.findall(page):
            for path in spelled(token) if FILE.fullmatch(token) and not OPEN.search(token) else ():
                path = path.strip().partition(" --")[0].removeprefix("./").rstrip("/")
                if not self.is_there(path):
                    yield path
        yield from (it for it in re.findall(r"\bdocs/\w+\.md", page) if it not in self.files)

    def is_there(self, path):
        edit = EDIT.fullmatch(path)
        if edit and os.path.isdir(f"crates/{edit[1]}"):
            return f"crates/{path}" in self.files or bool(glob.glob(f"crates/{edit[1]}/*/{edit[2]}.edit"))
        is_path = re.match(r"(crates|docs|bench|\.ci|fx_\w+)/|.*\.\w+$", path)
        return not is_path or bool({path, f"{path}.antt", f"{path}.rt"} & self.ends)


def files_here():
    """The files of the repository, and its folders."""
    for at, folders, files in os.walk("."):
        folders[:] = [it for it in folders if it not in (".git", "out", "__pycache__")]
        yield from (f"{at}/{it}"[2:] for it in [*files, *folders])


def words_of(path):
    """The words of a file, and of its name."""
    with open(path, encoding="utf-8", errors="replace") as it:
        return re.findall(r"\w+", f"{path} {it.read()}")
