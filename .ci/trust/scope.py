"""What the names of a text stand for, by the imports of specs/ above it."""
import re

IMPORT = re.compile(r"(?m)^ *(?:pub |ghost )?use Rattle\.(fx_\w+|fibers)\.specs\.([\w.]*\w)(?:\.\{([^}]*)\}| as (\w+))?;?$")
NAME = re.compile(r"(?<![\w.'])([A-Za-z_][\w']*)((?:\.[A-Za-z_][\w']*)*)")
OPERATOR = re.compile(r"◌(\S+)◌")
COMMENT = re.compile(r"(?m)(?:--|//).*$")


class Scope:
    """The names that are imported, each with the module and the name there, and the modules that have a name here."""

    def __init__(self, names=(), modules=()):
        self.names, self.modules = dict(names), dict(modules)

    @staticmethod
    def of(text):
        """The scope below the imports of a text."""
        scope = Scope()
        for crate, module, names, alias in IMPORT.findall(text):
            if alias:
                scope.modules[alias] = crate, module
            for name in filter(None, re.split(r"[,\s]+(?!as )(?<! as )", names.strip())):
                there, _, here = name.partition(" as ")
                scope.names[here or there] = crate, module, there
        return scope

    def inside(self, outer):
        """The scope with what stands outside of it."""
        return Scope({**outer.names, **self.names}, {**outer.modules, **self.modules})

    def named_in(self, text):
        """The names, each with its module, that a text names by this scope."""
        for first, rest in words(text):
            if first in self.names:
                yield self.names[first]
            elif first in self.modules and rest:
                yield *self.modules[first], rest
        yield from (target for name, target in self.names.items() if is_operator_in(name, text))


def words(text):
    """The names of a text, each with what follows it after a dot, if anything."""
    return [(first, rest.split(".")[1] if rest else "") for first, rest in NAME.findall(COMMENT.sub("", text))]


def is_operator_in(name, text):
    sign = OPERATOR.fullmatch(name)
    return sign is not None and f" {sign[1]} " in text
