"""The definitions that contracts and types reach."""
import re

from trust.code import crates
from trust.scope import Scope
from trust.specs import modules

TYPE = re.compile(r"\b[A-Z]\w*")
PART = re.compile(r"(?m)^ +(?:pub(?:\([^)]*\))? )?(\w+): (.*)$")
COMMENTS = re.compile(r"(?m)^ *(//.*|ghost use .*)$")


class Repository:
    """The definitions of specs/ and the code of all crates.

    A definition is known by its crate, its module and its name. A type of the code, of which the kit makes a module
    `declared..`, by its crate, its file, which ends in `.rt`, and its name."""

    def __init__(self):
        self.crates, self.modules = crates(), modules()

    def reached(self, names):
        """All that these names reach, and what they name."""
        seen, left = set(), [*names]
        while left:
            known = self.known(*left.pop())
            if known and known not in seen:
                seen.add(known)
                left += self.type_reaches(*known) if known[1].endswith(".rt") else self.modules[known[:2]].reached_from(known[2])
        return seen

    def known(self, crate, module, name):
        """The definition or the type that a name of a module is."""
        if module.endswith(".rt"):
            return crate, module, name
        if module.startswith("declared."):
            return self.declared(crate, module.split(".")[1:], name)
        if own := self.modules.get((crate, module)):
            if name in own.homes:
                return crate, module, own.homes[name]
            if name in own.scope.names:
                return self.known(*own.scope.names[name])
        return None

    def declared(self, crate, path, name):
        """The type or constant of a module that the kit makes: the path of its file, its name, and maybe what of it."""
        code = self.crates[crate]
        for n in range(len(path) - 1, -1, -1):
            file = f"src/{'/'.join(path[:n])}.rt" if n else code.root
            if file in code.texts:
                item = code.defined(name if path[n] == "TheConstants" else path[n], file)
                return item and (crate, item.file, item.name)
        return None

    def contract(self, crate, function, clauses=()):
        """What a function's contract names, or these clauses of it, and the types of its signature."""
        code = self.crates[crate]
        signature, told = code.head(function)
        text = "\n".join(body for name, body in told if not clauses or name in clauses)
        return [*self.types(crate, function.file, signature), *code.scope(function).named_in(text)]

    def types(self, crate, file, text):
        """The types of the repository that a text of the code names."""
        return [(home[0], home[1].file, home[1].name) for name in TYPE.findall(text) if (home := self.home(crate, file, name))]

    def home(self, crate, file, name):
        """The crate and the item of a name of the code, where it is one of the repository."""
        of = self.crates[crate].brought[file].get(name, crate)
        of = crate if of in ("crate", "self", "super") else of
        if of not in self.crates:
            return None
        if item := self.crates[of].defined(name, file if of == crate else None):
            return of, item
        root = self.crates[of].root
        return self.home(of, root, name) if (of, root) != (crate, file) and name in self.crates[of].brought[root] else None

    def type_reaches(self, crate, file, name, with_invariant=False):
        """What a type rests on: what contracts see of it, where it has a view, else its parts."""
        code = self.crates[crate]
        item, model = code.defined(name, file), code.model(name)
        text = COMMENTS.sub("", item.text)
        if not model:
            return [*Scope.of(item.text).inside(code.scopes[item.file]).named_in(text), *self.types(crate, item.file, text)]
        seen, _, kept = COMMENTS.sub("", model.text).partition("ghost invariant")
        # (a part that the view names is seen as its own type says)
        parts = "".join(part for name, part in PART.findall(text) if re.search(rf"\.{name}\b", seen))
        names = Scope.of(model.text).inside(code.scopes[model.file]).named_in(seen + kept * with_invariant)
        return [*names, *self.types(crate, item.file, parts)]

    def files(self, names):
        """The files of specs/, in reading order, and those of src/ that these names reach."""
        reached = {it[:2] for it in self.reached(names)}
        specs = self.in_reading_order({f"{crate}/specs/{it.replace('.', '/')}" for crate, it in reached if not it.endswith(".rt")})
        return specs, [f"{crate}/{it.removesuffix('.rt')}" for crate in self.crates for of, it in sorted(reached) if of == crate and it.endswith(".rt")]

    def in_reading_order(self, paths):
        """Files of specs/, definitions before what uses them, and those of a lower crate first."""
        rank = {name: n for n, name in enumerate(self.crates)}
        left, ordered = sorted(paths, key=lambda it: (rank[it.partition("/")[0]], it)), []
        while left:
            ready = next((it for it in left if not self.uses(it) & {*left} - {it}), left[0])
            left.remove(ready)
            ordered.append(ready)
        return ordered

    def uses(self, path):
        """The files of specs/ that one imports."""
        crate, _, module = path.split("/", 2)
        scope = self.modules[crate, module.replace("/", ".")].scope
        imported = {it[:2] for it in scope.names.values()} | {*scope.modules.values()}
        return {f"{of}/specs/{it.replace('.', '/')}" for of, it in imported}
