"""The functions of a crate, found in its formatted text and named as rattle names them."""
import os
import re
from dataclasses import dataclass

FN = re.compile(r"( *)(?:pub(?:\(.*?\))? )?(?:const )?fn (\w+)")
IMPL = re.compile(r"(?:unsafe )?impl(?:<.*?>)? (?:(?:\w+::)*(\w+)(?:<(\w+).*?)? for )?(\w+)")
TYPE = re.compile(r"(?m)^(?:pub(?:\(.*?\))? )?(?:struct|enum|union) (\w+)")


@dataclass(frozen=True)
class Function:
    """A function: rattle's path of it, its file, and its lines, of which the body begins at one. A trait's own has no body."""

    path: str
    closures: str  # how the paths of the closures in it begin
    file: str
    first: int
    body: int | None
    last: int
    cycle: str | None
    is_test: bool
    is_default: bool  # a trait's own, with a body


def sources(folder):
    """The texts of a crate's .rt files, by their path in it."""
    texts = {}
    for at, _, files in os.walk(f"{folder}/src"):
        for name in sorted(files):
            if name.endswith(".rt"):
                with open(f"{at}/{name}", encoding="utf-8") as it:
                    texts[os.path.relpath(f"{at}/{name}", folder)] = it.read()
    return texts


def functions(texts):
    """The functions of these files. A name that rattle does not know ends in an edit that fails, never in one that passes."""
    modules = {file: "" if file in ("src/lib.rt", "src/main.rt") else "::".join(file[4:-3].split("/")) for file in texts}
    homes = {}
    for file, text in texts.items():
        for name in TYPE.findall(text):
            homes.setdefault(name, []).append(modules[file])
    return [it for file, text in texts.items() for it in in_file(file, text.split("\n"), modules[file], homes)]


def in_file(file, lines, module, homes):
    """The functions of a file, which know the `impl` or inner module that they stand in."""
    inner, impl = "", None
    for n, line in enumerate(lines):
        if line[:1].strip():
            opened = re.match(r"mod (\w+) \{", line)
            inner, impl = opened[1] if opened else "" if line == "}" else inner, IMPL.match(line)
        named = FN.match(line)
        if not named:
            continue
        place, own = module, named[2]
        if impl and named[1]:
            trait, of, kind = impl.groups()
            own = f"{kind}{trait or ''}{of or ''}::{own}"
            # (a type's own methods go by where the type is declared)
            if not trait and place not in homes.get(kind, [place]):
                place = homes[kind][0]
        elif inner:
            place = joined(place, inner)
        first, body, last = span(lines, n, named[1])
        above = "\n".join(lines[first - 1 : n])
        cycle = re.search(r"#\[cycle\((\w+)\)\]", above)
        is_test = inner == "tests" or "tests" in file or "#[test]" in above
        is_default = bool(named[1]) and not impl and not inner
        yield Function(joined(place, own), joined(place, "fn", f"{own}::"), file, first, body, last, cycle and cycle[1], is_test, is_default)


def joined(*parts):
    return "::".join(it for it in parts if it)


def span(lines, n, indent):
    """Of the function whose `fn` is lines[n]: its first line, with what stands above it, the first of its body, if it has one, and its last."""
    first, body, last = n, None, n
    while first and lines[first - 1].strip() and (lines[first - 1].lstrip().startswith("///") or not re.search(r"[{};]$", lines[first - 1])):
        first -= 1
    # (in formatted text a body ends at a brace as far in as its `fn`)
    if not re.search(r"\{.*\}$", lines[n]):
        last = next((k for k in range(n, len(lines)) if lines[k].startswith(f"{indent}}}")), n)
    for k in range(n, last):
        if lines[k] == f"{indent}{{" or lines[k].endswith("{") and (k == n or lines[k].startswith(f"{indent})")):
            body = k + 2
            break
    return first + 1, body, last + 1


def callees(found, texts):
    """The functions that each function may call, by their names alone, so that a call that is not one may be among them."""
    of_name, named = {}, {}
    for it in found:
        of_name.setdefault(it.path.split("::")[-1], set()).add(it.path)
    for it in found:
        words = set(re.findall(r"\w+", "\n".join(texts[it.file].split("\n")[(it.body or it.last) - 1 : it.last])))
        named[it.path] = {path for word in words & of_name.keys() for path in of_name[word]} | named.get(it.path, set())
    return named


def reached(paths, calls):
    """What is called from these functions, near or far, and they themselves."""
    seen, left = set(), [*paths]
    while left:
        path = left.pop()
        if path not in seen:
            seen.add(path)
            left += calls.get(path, ())
    return seen


def at_line(found, file, line):
    """The innermost function that has the line."""
    return next((it for it in reversed(found) if it.file == file and it.first <= line <= it.last), None)
