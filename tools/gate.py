"""Runs the gate (rt ci) and prints how its processor time is divided, as a table by kind and one by crate, for docs/GATE.md.

    python3 tools/gate.py                       # what rt says goes to out/gate.log
    python3 tools/gate.py must-fail ical_tree   # of another command of rt: here the edits of one crate

Twice a second it reads from /proc what each prover and compiler that runs below has used, so each is short by half a second at most; what no sample
saw, as rt itself and the programs that are run, is `rest`. The status is that of rt.

It reaches into the kit: by the words with which rt starts the prover `rattle`, and by the names of its folders `rt-edit-`, it tells what a process
works for. It would be unnecessary if `rt ci` said what each of its steps took.
"""

import os
import resource
import subprocess
import sys
import time
from collections import Counter
from pathlib import Path

from repository import CRATES, ROOT, RT, code_lines

TICKS = os.sysconf("SC_CLK_TCK")
KINDS = ("proofs", "tests", "proofs for edits", "edits", "programs", "compilers")


def kind_of(folder, words):
    """What a process of the prover is for."""
    if os.path.basename(folder).startswith("rt-edit-"):
        # the crate as it is now is checked over a folder `seed`, before its edits and after them; each edit over a copy
        kept = os.path.basename(words[words.index("--incremental") + 1]) if "--incremental" in words else ""
        return "proofs for edits" if kept == "seed" else "edits"
    if "--test" in words:
        return "tests"
    if Path(folder, "src", "main.rt").is_file():
        return "programs" if words[1] == "check" else "compilers"
    return "proofs"


def sample(processes, gate):
    """Reads what each process of the toolchain that the gate has started has used so far, as (crate, kind, seconds)."""
    for pid in filter(str.isdigit, os.listdir("/proc")):
        try:
            fields = Path("/proc", pid, "stat").read_text(encoding="utf-8", errors="replace").rpartition(")")[2].split()
            key = (int(fields[19]), int(pid))
            if key not in processes:
                words = Path("/proc", pid, "cmdline").read_text(encoding="utf-8", errors="replace").split("\0")
                folder = os.readlink(f"/proc/{pid}/cwd")
                is_ours = folder.startswith(f"{ROOT}/") or os.path.basename(folder).startswith(f"rt-edit-{gate}-")
                # what isn't the prover yet may become it: rt starts it by way of a small program of Python
                if os.path.basename(words[0]) != "rattle" or not is_ours:
                    continue
                crate = words[words.index("--crate-name") + 1] if "--crate-name" in words else ""
                processes[key] = (crate, kind_of(folder, words), 0)
            # 11 and 12 are user and system time, after the name
            processes[key] = (*processes[key][:2], (int(fields[11]) + int(fields[12])) / TICKS)
        except (OSError, IndexError):
            pass


def main():
    (ROOT / "out").mkdir(exist_ok=True)
    processes, start = {}, time.monotonic()
    with open(ROOT / "out" / "gate.log", "w", encoding="utf-8") as log:
        gate = subprocess.Popen([RT, *(sys.argv[1:] or ["ci"])], cwd=ROOT, stdin=subprocess.DEVNULL, stdout=log, stderr=log)
        while gate.poll() is None:
            sample(processes, gate.pid)
            time.sleep(0.5)
    spent = resource.getrusage(resource.RUSAGE_CHILDREN)
    whole, seconds, crates = spent.ru_utime + spent.ru_stime, Counter(), {}
    for crate, kind, used in processes.values():
        seconds[kind] += used
        crates.setdefault(crate, Counter())[kind] += used
    lines = sum(code_lines(it.name) for it in CRATES.iterdir())
    print(f"{whole / 60:.0f} processor minutes, user and sys together, in {(time.monotonic() - start) / 60:.0f} minutes on the clock;", end=" ")
    print(f"{whole / 60 / lines * 1000:.1f} processor minutes for 1,000 lines of code.\n\n| Kind | Processor minutes | Share |\n|---|---:|---:|")
    for kind, used in [*((it, seconds[it]) for it in KINDS), ("rest", whole - seconds.total()), ("all", whole)]:
        print(f"| {kind} | {used / 60:.1f} | {100 * used / whole:.0f} % |")
    print(f"\n| Crate, in processor seconds | {' | '.join(KINDS)} | all |\n|---|{'---:|' * (len(KINDS) + 1)}")
    for crate, own in crates.items():
        print(f"| `{crate}` | {' | '.join(f'{own[kind]:.0f}' for kind in KINDS)} | {own.total():,.0f} |")
    return gate.returncode


if __name__ == "__main__":
    sys.exit(main())
