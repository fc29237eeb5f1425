"""The wrong bodies of one crate, tried in rounds."""
import os
import shutil
import tempfile
from collections import Counter

from refusal import edit as edits
from refusal.evidence import KEEPS, OF_STUB, against, is_answer, verdict_on
from refusal.functions import callees, functions, reached, sources
from refusal.kit import check
from refusal.stubs import stubs

HARMLESS = "let _ = ();"

# How many functions are tried as a control, where one is not proved for what it calls.
MOST_CONTROLS = 4


class Trial:
    """The edits of a crate, and how many of them, and of the controls, have passed and failed."""

    def __init__(self, crate, folder):
        self.crate, self.name = crate, crate.name
        self.texts = sources(crate.folder)
        self.found = functions(self.texts)
        self.calls = callees(self.found, self.texts)
        folder = f"{crate.folder}/{folder}"
        self.edits = sorted(f"{folder}/{it}" for it in os.listdir(folder) if it.endswith(".edit")) if os.path.isdir(folder) else []
        self.passed, self.failed, self.rounds, self.tried = 0, 0, 0, set()

    def lines(self):
        return sum(text.count("\n") for text in self.texts.values())

    def passes(self, what, why):
        self.passed += 1
        self.say(f"{what}: {why}")

    def fails(self, what, why):
        self.failed += 1
        self.say(f"{what}: FAILED: {why}")

    def say(self, text):
        print(f"{self.name} {text}", flush=True)

    def run(self):
        """Tries all edits, and gives how many passed and how many failed."""
        left = self.readable()
        with tempfile.TemporaryDirectory(prefix="refused-kept-") as room:
            first, later = f"{room}/first", f"{room}/later"
            os.mkdir(first)
            while left:
                chosen = self.next_round(left)
                left = [it for it in left if it not in chosen]
                self.rounds += 1
                if self.rounds > 1:
                    # (what a round left is of its wrong bodies; the next one goes on from the first alone)
                    shutil.rmtree(later, ignore_errors=True)
                    shutil.copytree(first, later)
                self.round(chosen, first if self.rounds == 1 else later)
        return self.passed, self.failed

    def readable(self):
        """The edits that apply to the crate."""
        good = []
        for file in self.edits:
            name = os.path.basename(file).removesuffix(".edit")
            try:
                good.append(edits.read(file, name, self.texts, self.found))
            except edits.DoesNotApply as why:
                self.fails(name, f"it does not apply: {why}")
        return good

    def next_round(self, left):
        """As many of these edits as may stand together."""
        chosen, used, texts = [], set(), self.texts
        for edit in left:
            if not edit.functions & used and (more := edit.applied(texts)):
                texts, used = more, used | edit.functions
                chosen.append(edit)
        return chosen

    def round(self, chosen, kept):
        """Tries these edits in one check."""
        label = f"round {self.rounds}"
        changed = {path for it in chosen for path in it.functions}
        controls = self.controls(changed)
        self.tried |= changed
        if not controls:
            self.fails(label, "no function is left for a control")
            return
        texts = self.texts
        for edit in chosen:
            texts = edit.applied(texts)
        asked = {*changed, controls[0].path}
        said, seconds = self.check(texts, controls[0], kept, asked)
        self.say(f"{label}: {len(chosen)} edits, {seconds:.0f} s of a processor")
        if not is_answer(said, self.name):
            why = next((it for it in said.split("\n") if "error: " in it), said.strip().split("\n")[-1])
            for edit in chosen:
                self.fails(edit.name, f"its round did not come to the proofs: {why[:200]}")
            return
        shown = against(said, self.name, functions(texts))
        for edit in chosen:
            self.judge(edit, shown, said)
        for path in shown.keys() - changed - {controls[0].path}:
            self.fails(label, f"{path} is changed by no edit, and yet has an open goal: {shown[path]}")
        self.judge_stubs(label, asked, said)
        self.judge_controls(controls, texts, kept, said)

    def check(self, texts, control, kept, asked):
        """Checks the functions that are asked for, of these texts and a control, with stubs for those that are not."""
        return check(self.crate, with_harmless(texts, control), kept, asked, stubs(self.found, self.texts, asked))

    def judge_stubs(self, label, asked, said):
        """Fails where the check does not take a stub for proved."""
        for it in stubs(self.found, self.texts, asked):
            told = verdict_on(it.path, said, self.name)
            if told and not OF_STUB.fullmatch(told):
                self.fails(label, f"no stub stands for {it.path}: {told[:200]}")

    def judge_controls(self, controls, texts, kept, said):
        """Passes the first control that is proved. One that has an open goal fails, and so do all if none is proved.

        What a function stands on by its types, no text of it names: so one may have no proof of which the edits are the
        reason. The next one is tried then, in a check of its own."""
        for control in controls:
            said = said or self.check(texts, control, kept, {control.path})[0]
            shown, told = against(said, self.name, functions(texts)), verdict_on(control.path, said, self.name)
            if control.path in shown:
                return self.fails(f"control {control.path}", f"a body that does the same has an open goal: {shown[control.path]}")
            if told and KEEPS.fullmatch(told):
                return self.passes(f"control {control.path}", "proved")
            said = None
        return self.fails(f"control {control.path}", f"it is not proved: {told or 'the check says nothing of it'}")

    def judge(self, edit, shown, said):
        goals = [(path, shown[path]) for path in sorted(edit.functions) if path in shown]
        if goals:
            self.passes(edit.name, "refused, " + ": ".join(goals[0]))
        else:
            told = "; ".join(f"{path}: {verdict_on(path, said, self.name) or 'nothing'}" for path in sorted(edit.functions))
            self.fails(edit.name, f"no goal of its own function is open ({told[:200]})")

    def controls(self, changed):
        """Functions that the round leaves as they are, with all that they call: best of a file that the round changes."""
        free = [it for it in self.found if it.body and it.last > it.body and not it.is_test and not reached([it.path], self.calls) & changed]
        beside = {it.file for it in self.found if it.path in changed}
        free = [it for it in free if it.file in beside] or free
        # (what calls a function that an earlier round spoilt may be kept as not proved)
        free = [it for it in free if not reached(self.calls[it.path], self.calls) & self.tried] or free
        first = self.rounds % len(free) if free else 0
        return one_of_each_file_first(free[first:] + free[:first])[:MOST_CONTROLS]


def one_of_each_file_first(found):
    """These functions, and the second ones of their files after the first. Those of one file may stand on the same types, so
    that where one has no proof for what these do, its neighbours have none."""
    before = Counter()
    nth = []
    for it in found:
        nth.append(before[it.file])
        before[it.file] += 1
    return [it for _, it in sorted(zip(nth, found), key=lambda pair: pair[0])]


def with_harmless(texts, control):
    """The texts with a statement that does nothing at the head of the control's body."""
    lines = texts[control.file].split("\n")
    lines[control.body - 1] = f"{HARMLESS} {lines[control.body - 1]}"
    return {**texts, control.file: "\n".join(lines)}
