"""What a check says against functions in their own right."""
import re

from refusal.functions import at_line

# An error of a proof that only names what an edit took away.
OF_NAMES = re.compile(r"was not admitted|is not in scope|has no field|has no `|is no name|not defined")
OPEN = re.compile(r"note: (?:\./)?(src/\S+?):(\d+):\d+: (it is not proved.*)")
ANSWER = re.compile(r"(?:\./)?proofs/(\S+)/(?:Answers|Invariants|Proof)\.antt:\d+:\d+: error: (.*)")

# What a check past holes says of a stub, and of a function that keeps its contract: no goal is open, or those of stubs alone.
OF_STUB = re.compile(r"depends on a hole in `[^`]*\.Proof\.\w+_spec`")
KEEPS = re.compile(rf"no holes|{OF_STUB.pattern}(, `[^`]*\.Proof\.\w+_spec`)*")


def against(said, crate, found):
    """The functions that have an open goal, each with the first one: by its path, or what else was named.

    - A goal of its lines is not proved.
    - The search for its proof did not prove a goal.
    - Its own Answers, Invariants or Proof have an error that is no mere matter of names. A cycle of calls has one such
      file, in which the goal's name begins with the function's, and a function that calls itself has it in a folder +NAME.

    That it calls what is not proved is no goal of its own: every caller of a wrong body says that."""
    shown = {}
    for line in said.split("\n"):
        for path, goal in in_line(line, crate, found):
            shown.setdefault(path, goal)
    return shown


def in_line(line, crate, found):
    if open_goal := OPEN.match(line):
        file, at, text = open_goal.groups()
        own = at_line(found, file, int(at))
        yield own.path if own else f"{file}:{at}", (re.search(r"\(`([^`]+)`", text) or ["", text[:90]])[1]
    elif search := re.match(rf"fn {crate}::(\S+): no proof: .*did not prove ([^;]*)", line):
        yield owner(search[1], found), search[2].replace("`", "")
    elif (answer := ANSWER.match(line)) and not OF_NAMES.search(answer[2]):
        goal = (re.match(r"`([^`]+)`", answer[2]) or ["", answer[2][:90]])[1].removeprefix("goal.")
        folder = answer[1].split("/")[-1]
        cycle = in_cycle(folder[1:], goal, found) if folder.startswith("+") else None
        yield cycle or owner(answer[1].replace("+", "").replace("/", "::"), found), goal


def owner(path, found):
    """The function of this path, or that in which the closure of this path stands."""
    return next((it.path for it in found if path == it.path or path.startswith(it.closures)), path)


def in_cycle(cycle, goal, found):
    return next((it.path for it in found if it.cycle == cycle and goal.startswith(it.path.split("::")[-1] + "-")), None)


def is_answer(said, crate):
    """Whether a check came as far as the proofs."""
    return re.search(rf"(?m)^fn {crate}::", said) is not None


def verdict_on(path, said, crate):
    """What the check says of a function in the end, if anything."""
    told = re.search(rf"(?m)^fn {crate}::{re.escape(path)}: (.*)$", said)
    return told and told[1]
