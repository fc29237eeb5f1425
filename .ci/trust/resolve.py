"""What the citations of the docs stand for."""
import re

from trust.code import last


class Resolver:
    """Finds what is cited in a repository."""

    def __init__(self, repository):
        self.repository = repository
        self.crates = {name: code for name, code in repository.crates.items() if not name.endswith("_tests")}

    def roots(self, cited):
        """What the cited contracts name, and what is wrong with the citation."""
        names, wrong = [], []
        if cited.file and not cited.names:
            return self.of_file(cited.file)
        functions = []
        for name in cited.names:
            found, others = self.of_name(name, cited)
            functions += found
            names += others or ()
            if not found and others is None:
                wrong.append(f"there is no {name}" + (f" in {cited.file}" if cited.file else ""))
        for crate, function in functions:
            has = {it for it, _ in self.crates[crate].head(function)[1]}
            if cited.clauses and not has & {*cited.clauses}:
                wrong.append(f"{last(function.path)} of {crate} has no clause {', '.join(cited.clauses)}")
            names += self.repository.contract(crate, function, cited.clauses)
        known = {it for crate, function in functions for it, _ in self.crates[crate].head(function)[1]}
        wrong += [f"no clause {it} is one of {', '.join(cited.names)}" for it in cited.clauses if functions and it not in known]
        return names, wrong

    def of_file(self, path):
        """The contracts of a file's public functions, or of all where none is public."""
        crate, _, file = path.partition("/")
        code = self.crates.get(crate)
        found = [it for it in code.functions if it.file == file] if code else []
        shown = [it for it in found if code.is_shown(it)] or found
        return [it for function in shown for it in self.repository.contract(crate, function)], [] if found else [f"{path} is no file with a function"]

    def of_name(self, name, cited):
        """The functions of a name, each with its crate, or else what it names otherwise: None where there is no such name."""
        own, _, method = name.rpartition("::")
        near = [cited.file.partition("/")[0]] if cited.file else [own] if own in self.crates else cited.crates
        if own and own not in self.crates:
            for crates in (near, self.crates):
                if found := [(crate, it) for crate in crates for it in self.crates[crate].methods(own, method)]:
                    return found, None
            return [], None
        if functions := self.functions(method, [it for it in near if it in self.crates], cited.file.partition("/")[2]):
            return functions, None
        return [], self.types(method, near, cited.of_invariant) or self.definitions(method, near) or ([] if self.is_part(method, near) else None)

    def functions(self, name, near, file):
        """The functions of this name that are no methods: those of the crates that are near, else of the only crate that has a
        public one, or one at all."""
        found = [(crate, it) for crate in near for it in self.crates[crate].free(name) if file in ("src", "") or it.file == file]
        if found or file:
            return found
        every = [(crate, it) for crate, code in self.crates.items() for it in code.free(name)]
        shown = [it for it in every if self.crates[it[0]].is_public(it[1])] or every
        return shown if len({crate for crate, _ in shown}) == 1 else []

    def types(self, name, near, of_invariant):
        """What a type of these crates rests on, and the contracts of its methods; or its invariant alone."""
        for crate in near or self.crates:
            code = self.crates[crate]
            if item := code.defined(name):
                methods = [] if of_invariant else [it for it in code.methods(name) if code.is_shown(it)]
                contracts = [it for method in methods for it in self.repository.contract(crate, method)]
                return [(crate, item.file, name), *self.repository.type_reaches(crate, item.file, name, with_invariant=True), *contracts]
        return []

    def definitions(self, name, near):
        """The definitions of this name, of the crates that are near, or of all."""
        found = [(crate, module, name) for (crate, module), it in self.repository.modules.items() if name in it.homes and crate in self.crates]
        return [it for it in found if it[0] in near] or found

    def is_part(self, name, near):
        """Whether it is a member of a record of specs/ or of a trait, or what these crates bring from the kit."""
        member = re.compile(rf"(?m)^ +(?:pub |ghost ){name} ?:")
        texts = [text for module in self.repository.modules.values() for text in module.texts.values()]
        texts += [it.text for code in self.crates.values() for it in code.items if it.kind == "trait"]
        return any(member.search(it) for it in texts) or any(name in names for crate in near for names in self.crates[crate].brought.values())
