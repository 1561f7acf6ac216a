"""Times the proof of each function, by the progress lines of `rt check --jobs 1`, and prints a line for each: crate, function, seconds.

    python3 tools/dear_functions.py [CRATE ..] [--lanes N] > out/functions.tsv

A function's time is the prover's processor time since the progress line before its own: it holds the lemma files that are first cited there. The
time up to the first function, which loads the libraries, is the crate's row `start`. The crates' libraries must be built (`make run`); each crate's
own proofs are made anew, in a copy.

It reaches into the kit: it finds the prover among the processes by its name `rattle`. It would be unnecessary if `rt check` said what each function took.
"""

import argparse
import os
import re
import subprocess
import sys
import tempfile
from concurrent.futures import ThreadPoolExecutor
from pathlib import Path

from repository import QUICK_RT, ROOT, copied, crates_below

PROGRESS = re.compile(r"^checked (\S+), \d+ of ")


def prover_seconds(folder):
    """The processor time that the provers have used which work in a folder."""
    seconds = 0.0
    for pid in filter(str.isdigit, os.listdir("/proc")):
        try:
            if os.readlink(f"/proc/{pid}/cwd") == str(folder):
                fields = Path("/proc", pid, "stat").read_text(encoding="utf-8", errors="replace").rpartition(")")
                # 11 and 12 are user and system time, after the name
                times = fields[2].split()[11:13] if "(rattle" in fields[0] else ()
                seconds += sum(map(int, times)) / os.sysconf("SC_CLK_TCK")
        except OSError:
            pass
    return seconds


def timed(crate, below):
    """The functions of a crate with the seconds that each took; None where the crate isn't proved."""
    rows = []
    with tempfile.TemporaryDirectory(prefix="dear-") as room:
        folder, last = copied(crate, below, room, kept="out/rlib"), 0.0
        how = {"stdin": subprocess.DEVNULL, "stdout": subprocess.PIPE, "stderr": subprocess.STDOUT, "text": True, "errors": "replace"}
        with subprocess.Popen([*QUICK_RT, "check", "--jobs", "1"], cwd=folder, **how) as ran:
            for line in ran.stdout:
                if found := PROGRESS.match(line):
                    now = prover_seconds(folder.resolve())
                    rows.append((crate, found[1] if rows else "start", now - last))
                    last = now
    return None if ran.returncode else rows


def main():
    parser = argparse.ArgumentParser(description=__doc__.split("\n")[0])
    parser.add_argument("crates", nargs="*")
    parser.add_argument("--lanes", type=int, default=1)
    given = parser.parse_args()
    below = crates_below()
    names = given.crates or [name for name in below if (ROOT / "crates" / name / "src" / "lib.rt").is_file()]
    with ThreadPoolExecutor(given.lanes) as lanes:
        timings = list(lanes.map(lambda it: timed(it, below), names))
    for crate, function, seconds in (row for rows in timings for row in rows or []):
        print(f"{crate}\t{function}\t{seconds:.1f}")
    failed = [name for name, rows in zip(names, timings) if rows is None]
    if failed:
        sys.exit(f"not proved, or not built below: {' '.join(failed)}")


if __name__ == "__main__":
    main()
