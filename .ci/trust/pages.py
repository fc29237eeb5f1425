"""What the pages of the docs cite."""
import re
from dataclasses import dataclass, field

TOKEN = re.compile(r"`([^`]+)`")
# In brackets at the end of what is claimed stand the contracts that carry it.
BRACKETS = re.compile(r"\(((?:the \w+ of )?`[^()]*(?:\([^()]*\)[^()]*)*)\)")
# (a word like racePair is none of the code)
CODE = re.compile(r"(?:\w+::)?(?:[a-z_][a-z0-9_]*|[A-Z]\w+)")
CRATE = re.compile(r"`(fx_\w+|fibers)`")


@dataclass
class Cited:
    """Functions or types that are cited together: their names, the clauses of them that are meant, the file they are in, and
    whether it is the invariant of a type."""

    place: str
    crates: tuple  # those of the section
    names: list = field(default_factory=list)
    clauses: list = field(default_factory=list)
    file: str = ""
    of_invariant: bool = False


def spelled(token):
    """The paths that one with braces stands for."""
    found = re.search(r"\{([^{}]*)\}", token)
    if not found:
        return [token]
    return [path for part in found[1].split(",") for path in spelled(token[: found.start()] + part.strip() + token[found.end() :])]


def rows(page):
    """The lines of a page that are no code, each with its number, the crates of its section, and the texts that cite contracts:
    the column `contract` of a table, or what stands in brackets elsewhere."""
    crates, column = (), None
    for n, line in enumerate(page.split("\n"), 1):
        if line.startswith(("    ", "\t")):
            continue
        if line.startswith(("#", "**`")):
            crates = tuple(CRATE.findall(line.split("**:")[0]))
        cells = [it.strip() for it in re.split(r"(?<!\\)\|", line)[1:-1]] if line.startswith("|") else []
        if not cells:
            column = None
        elif "contract" in cells:
            column = cells.index("contract")
            continue
        whole = [cells[column]] if column is not None and column < len(cells) else []
        yield n, line, crates, whole or BRACKETS.findall(line), bool(whole)


def citations(name, page):
    """What a page cites, each group of functions or types by itself; and whether it stands where all that does is cited."""
    for n, _, crates, texts, is_sure in rows(page):
        for text in texts:
            for cited in groups(f"{name}:{n}", crates, text):
                yield cited, is_sure


def groups(place, crates, text):
    """The groups of a text that cites."""
    cited, end, folder, is_clause = Cited(place, crates), 0, "", False
    for found in TOKEN.finditer(text):
        before, token, end = text[end : found.start()], found[1], found.end()
        if cited.names and (cited.file or re.search(r"[;()]|told by|; ", before) or is_clause and not re.fullmatch(r",? (and )?", before)):
            yield cited
            cited, is_clause = Cited(place, crates), False
        if re.search(r"\bclauses? $", before):
            is_clause = True
        if token.endswith(".rt") or token.endswith("/src"):
            folder = token.rpartition("/")[0] or folder
            cited.file = token if "/" in token else f"{folder}/{token}"
            if not re.fullmatch(r" in ", before):
                yield cited
                cited = Cited(place, crates)
        elif is_clause:
            cited.clauses.append(token)
        elif CODE.fullmatch(token):
            cited.of_invariant = "invariant" in before or cited.of_invariant
            cited.names.append(f"{token}::poll" if before.endswith("the poll of ") else token)
    if cited.names:
        yield cited


def block(page, which):
    """What stands between the comments of a list of the page, or None."""
    found = re.search(rf"(?ms)^<!-- trusted: {which} -->\n(.*?)^<!-- end -->$", page)
    return found and found[1]


def listed(text):
    """The files that a list names, in its order."""
    return [path for token in TOKEN.findall(text) for path in spelled(token) if re.fullmatch(r"\w+/(specs|src)/[\w/]+", path)]
