"""The lists of what is to be read."""
import itertools
import re

from trust.pages import block, listed


class List:
    """A list: its name, the files of specs/ that it has, in reading order, and those of src/."""

    def __init__(self, name, specs, code=()):
        self.name, self.specs, self.code = name, specs, code

    def faults(self, page, repository):
        """Where what the page has for it differs."""
        text = block(page, self.name)
        if text is None:
            yield "it is not there"
            return
        told = listed(text)
        yield from (f"it has not {it}" for it in [*self.specs, *self.code] if it not in told)
        yield from (f"it has {it}, which no such contract reaches" for it in told if it not in self.specs and it not in self.code)
        yield from (f"it has {it} twice" for it in {it for it in told if told.count(it) > 1})
        if (count := re.search(r"(\d+) files", text)) and int(count[1]) != len(self.specs):
            yield f"it says {count[0]}, and there are {len(self.specs)}"
        known = set()
        for path in (it for it in told if it in self.specs):
            known.add(path)
            too_late = {it for it in repository.uses(path) if it in self.specs} - known
            yield from (f"{path} stands before {it}, which it uses" for it in sorted(too_late))

    def text(self):
        """What is to stand there."""
        lines = [f"{len(self.specs)} files, in reading order:", "", "| crate | definitions |", "|---|---|"]
        lines += [f"| `{crate}` | {braced(paths)} |" for crate, paths in by_crate(self.specs)]
        if self.code:
            lines += ["", "They speak of types of the code: " + ", ".join(braced(paths) for _, paths in by_crate(self.code)) + "."]
        return "\n".join(lines)

    def put_into(self, page):
        """The page with that text."""
        begins, ends = f"<!-- trusted: {self.name} -->\n", "<!-- end -->"
        old = block(page, self.name)
        return page if old is None else page.replace(f"{begins}{old}{ends}", f"{begins}{self.text()}\n{ends}")


def by_crate(paths):
    """Paths, those of a crate that come together as one."""
    return [(crate, [*those]) for crate, those in itertools.groupby(paths, lambda it: it.partition("/")[0])]


def braced(paths):
    """Paths of one folder as one."""
    folder, names = "/".join(paths[0].split("/")[:2]), [it.split("/", 2)[2] for it in paths]
    return f"`{folder}/{names[0] if len(names) == 1 else '{' + ','.join(names) + '}'}`"
