"""What is used of the kit: its crates, and one check of a crate in a copy."""
import importlib.util
import os
import shutil
import subprocess
import tempfile

from refusal.stubs import put_holes, with_stubs

# What a check is taken to need at most.
BYTES_A_CHECK = 5_000_000_000


def library():
    """The kit's own library, beside the page that `rt doc` names."""
    page = subprocess.run(["rt", "doc"], capture_output=True, text=True, check=True).stdout.strip()
    spec = importlib.util.spec_from_file_location("rtlib", f"{os.path.dirname(page)}/bin/rtlib.py")
    made = importlib.util.module_from_spec(spec)
    spec.loader.exec_module(made)
    return made


RTLIB = library()
# (the first call sets a signal's handler, which only the main thread may)
RTLIB.guarded()


def crates_here():
    """The crates of the repository."""
    return RTLIB.crates_below(os.getcwd())


def unbuilt_below(crate):
    """The name of a library below the crate that is not built, or older than its files, if there is one."""
    for it in crate.below():
        if not os.path.isdir(it.rlib) or any(os.path.getmtime(file) > os.path.getmtime(it.rlib) for file in files_of(it)):
            return it.name
    return None


def files_of(crate):
    return [f"{at}/{it}" for part in RTLIB.PARTS for at, _, names in os.walk(f"{crate.folder}/{part}") for it in names]


def lanes():
    """How many checks run side by side."""
    with open("/proc/meminfo", encoding="utf-8") as it:
        free = next(1024 * int(line.split()[1]) for line in it if line.startswith("MemAvailable"))
    return max(1, min(len(os.sched_getaffinity(0)), free // BYTES_A_CHECK))


def check(crate, texts, kept, only, stubbed):
    """Checks these functions of the crate with these texts in place of its own, with stubs for others, over what is kept in a folder from earlier checks.
    Gives what was said and the processor seconds."""
    with tempfile.TemporaryDirectory(prefix="refused-") as room, tempfile.TemporaryFile("w+", errors="replace") as said:
        for part in RTLIB.PARTS:
            if os.path.isdir(f"{crate.folder}/{part}"):
                shutil.copytree(f"{crate.folder}/{part}", f"{room}/{part}")
        for path, text in with_stubs(texts, stubbed).items():
            with open(f"{room}/{path}", "w", encoding="utf-8") as it:
                it.write(text)
        put_holes(room, crate.name, stubbed)
        words = [RTLIB.RATTLE, "check", *crate.words(["--jobs", "1"], keeps=False), "--incremental", kept, "--allow-holes"]
        words += [it for path in sorted(only) for it in ("--only", path)]
        how = {"cwd": room, "stdin": subprocess.DEVNULL, "stdout": said, "stderr": subprocess.STDOUT}
        _, _, used = os.wait4(subprocess.Popen([*RTLIB.guarded(), *words], **how).pid, 0)
        said.seek(0)
        return said.read(), used.ru_utime + used.ru_stime
