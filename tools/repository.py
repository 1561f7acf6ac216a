"""The crates of the repository, for the scripts beside this file: who uses whom, how large one is, and copies of one with its kept proofs.

It reaches into the kit: rt keeps what it built of a crate in out/, and the library that others use in out/rlib, which a copy has to have beside it. It
would be unnecessary if rt could check a changed copy of a crate over what was built before.
"""

import os
import re
import shutil
import sys
from pathlib import Path

ROOT = Path(__file__).resolve().parent.parent
CRATES = ROOT / "crates"
RT = os.environ.get("RT", "rt")
# the same, which makes the sum of a crate's sources once
QUICK_RT = (sys.executable, str(ROOT / "tools" / "quick_rt.py"))
PARTS = ("src", "specs", "proofs", "data", "stdin", "stdout", "args", "status")


def crates_used():
    """The libraries that each crate names in crates.txt, in its order."""
    lines = (line.partition(":") for line in (ROOT / "crates.txt").read_text(encoding="utf-8").splitlines() if not line.startswith("#"))
    return {name: rest.split() for name, mark, rest in lines if mark}


def crates_below():
    """The libraries of this repository that each crate uses, itself included; lowest first."""
    used = crates_used()
    below = lambda name: {name}.union(*(below(it) for it in used[name] if it in used))
    return dict(sorted(((name, below(name)) for name in used), key=lambda it: len(it[1])))


def filled(text):
    """How many lines of a text aren't blank."""
    return sum(1 for line in text.splitlines() if line.strip())


def code_lines(crate):
    """How many lines that aren't blank a crate's code has, without its tests: a file of tests, or the module of tests that ends a file."""
    count = 0
    for file in (CRATES / crate / "src").rglob("*.rt"):
        text = file.read_text(encoding="utf-8")
        before, mark, rest = text.partition("#[cfg(test)]")
        # `#[cfg(test)] mod tests;` names a file
        count += 0 if file.stem == "tests" else filled(before if mark and not re.match(r"\s*mod \w+;", rest) else text)
    return count


def linked(source, target):
    """Links a file, or copies it to another disk. `rt` puts a new file in the place of one that it kept, so the first one stays as it was."""
    try:
        os.link(source, target)
    except OSError:
        shutil.copy2(source, target)


def copied(crate, below, room, kept="out"):
    """Copies a crate into an empty folder, with what its checks kept, and the built libraries below it; the other crates are only named."""
    for name in ("crates.txt", "HANDLES"):
        shutil.copy(ROOT / name, room)
    for name in below:
        source, target = CRATES / name, Path(room) / "crates" / name
        is_used = name in below[crate]
        for part in (*PARTS, kept if name == crate else "out/rlib") if is_used else ("src",):
            if (source / part).is_dir():
                is_made = part.startswith("out")
                shutil.copytree(source / part, target / part, copy_function=linked if is_made else shutil.copy2)
            elif (source / part).is_file():
                shutil.copy(source / part, target / part)
    return Path(room) / "crates" / crate
