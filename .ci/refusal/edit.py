"""An edit: the texts that it puts in place of others, and the functions whose bodies it changes."""
import re
from dataclasses import dataclass

from refusal.functions import at_line

CONSTANT = re.compile(r"(?:pub(?:\(.*?\))? )?const (\w+)")


class DoesNotApply(Exception):
    """Why an edit is none of this crate."""


@dataclass(frozen=True)
class Edit:
    name: str
    pairs: tuple  # of a file's path, the old text and the new one
    functions: frozenset  # the paths of those that it changes

    def applied(self, texts):
        """The texts with the edit, or None where an old text does not stand in them exactly once."""
        texts = dict(texts)
        for path, old, new in self.pairs:
            if texts[path].count(old) != 1:
                return None
            # (neither text has a line break, so each line keeps its number)
            texts[path] = texts[path].replace(old, new)
        return texts


def read(file, name, texts, found):
    """The edit of a file, for a crate with these texts and functions."""
    path, old, pairs, changed, texts = None, None, [], set(), dict(texts)
    with open(file, encoding="utf-8") as it:
        lines = it.read().split("\n")
    for line in lines:
        if line.startswith("file: "):
            path = line.removeprefix("file: ").strip()
        elif line.startswith("old: "):
            old = line.removeprefix("old: ")
        elif line.startswith("new:"):
            if path not in texts or not old:
                raise DoesNotApply(f"a 'new:' line has no 'old:' before it, or there is no source file {path}")
            if texts[path].count(old) != 1:
                raise DoesNotApply(f"an 'old:' text is in {path} {texts[path].count(old)} times, and not once")
            changed |= changed_by(path, texts[path][: texts[path].index(old)].count("\n") + 1, texts, found)
            pairs.append((path, old, line.removeprefix("new:").removeprefix(" ")))
            texts[path], old = texts[path].replace(*pairs[-1][1:]), None
    if not pairs:
        raise DoesNotApply("it has no 'old:' and 'new:' pair")
    return Edit(name, tuple(pairs), frozenset(changed))


def changed_by(path, line, texts, found):
    """The functions whose bodies a change of this line changes."""
    own = at_line(found, path, line)
    if own and own.body and line >= own.body:
        return {own.path}
    constant = CONSTANT.match(texts[path].split("\n")[line - 1])
    changed = naming(constant[1], texts, found) if constant and not own else set()
    if not changed:
        raise DoesNotApply(f"line {line} of {path} is in no function's body, nor a constant that bodies alone name")
    return changed


def naming(constant, texts, found):
    """The functions whose bodies name a constant: none where anything else names it, but for imports and itself."""
    of = set()
    for file, text in texts.items():
        for n, line in enumerate(text.split("\n"), 1):
            if not re.search(rf"\b{constant}\b", line) or re.match(rf"\s*//|\s*(pub )?use |(pub(\(.*?\))? )?const {constant}\b", line):
                continue
            own = at_line(found, file, n)
            if own and own.is_test:
                continue
            if not own or not own.body or n < own.body:
                return set()
            of.add(own.path)
    return of
