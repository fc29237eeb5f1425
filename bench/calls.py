"""What `bench/words` and `bench/rings` have in common: what a call costs that a program makes so often."""
import re
import subprocess
import sys
import time
from pathlib import Path

RUNS = 5


def program_of(crate):
    """The program of a crate, once it is built."""
    program = Path(__file__).resolve().parent.parent / "crates" / crate / "out" / crate
    if not program.exists():
        sys.exit(f"there is no {program}: build the program first, as the head of {Path(sys.argv[0]).name} says")
    return program


def instructions(program, few, many, words):
    """The instructions that a call takes, by those of many calls less those of few."""
    def counted(count):
        ran = subprocess.run(["valgrind", "--tool=callgrind", "--callgrind-out-file=/dev/null", program, *words(count)],
                             stderr=subprocess.PIPE, check=True)
        return int(re.search(rb"Collected : (\d+)", ran.stderr)[1])
    return (counted(many) - counted(few)) / (many - few)


def nanoseconds(program, few, many, words):
    """The time that a call takes, by the best of some runs of many calls less that of few."""
    def seconds(count):
        best = float("inf")
        for _ in range(RUNS):
            begin = time.perf_counter()
            subprocess.run([program, *words(count)], check=True)
            best = min(best, time.perf_counter() - begin)
        return best
    return (seconds(many) - seconds(few)) / (many - few) * 1e9
