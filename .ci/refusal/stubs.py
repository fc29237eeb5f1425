"""What stands in a round for the functions that it leaves as they are: a body that does nothing, and a hole for a proof."""
import glob
import os
import re
import shutil

STUB = "unreachable!()"


def stubs(found, texts, asked):
    """The functions that a stub may stand for: none that is asked for, or in a cycle of calls with one that is, and none of
    which the body says what the result's type is."""
    cycles = {it.cycle for it in found if it.cycle and it.path in asked}
    free = [it for it in found if it.body and it.last > it.body and it.path not in asked and it.cycle not in cycles]
    return [it for it in free if not (it.is_test or it.is_default or is_impl(it, texts))]


def is_impl(function, texts):
    head = "\n".join(texts[function.file].split("\n")[function.first - 1 : function.body - 1])
    return re.search(r"->[^{]*\bimpl\b", head) is not None


def with_stubs(texts, stubbed):
    """The texts with a stub for the body of each of these functions, which then calls none. Each line keeps its number."""
    lines = {file: text.split("\n") for file, text in texts.items()}
    for it in stubbed:
        head = lines[it.file][it.first - 1 : it.body - 1]
        body = [STUB, *[""] * (it.last - 1 - it.body)]
        lines[it.file][it.first - 1 : it.last - 1] = [line.replace(f"#[cycle({it.cycle})]", "") for line in head] + body
    return {file: "\n".join(of) for file, of in lines.items()}


def put_holes(room, crate, stubbed):
    """Has a hole stand for the proof of each of these functions, in a copy of the crate."""
    for it in stubbed:
        place, name = f"{room}/proofs/{it.path.replace('::', '/')}", it.path.split("::")[-1]
        shutil.rmtree(f"{room}/proofs/{it.closures.removesuffix('::').replace('::', '/')}", ignore_errors=True)
        of_cycle = glob.glob(f"{room}/proofs/**/+{it.cycle}/*.antt", recursive=True) if it.cycle else []
        for file in [*glob.glob(f"{place}/*.antt"), *of_cycle]:
            if os.path.basename(file) in ("Answers.antt", "Invariants.antt", "Proof.antt"):
                os.remove(file)
        os.makedirs(place, exist_ok=True)
        with open(f"{place}/Proof.antt", "w", encoding="utf-8") as proof:
            proof.write(f"use Rattle.{crate}.proofs.{it.path.replace('::', '.')}.Statement.{{statement}}\n\n")
            proof.write(f"pub {name}_spec : {{M : Type 1}} → statement M\n{name}_spec = ?\n")
