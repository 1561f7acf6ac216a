"""Proves the libraries that a program uses, side by side where they don't use each other, and says on standard error how far it is.

    python3 tools/prove.py [CRATE]

Only libraries that were never built, or are older than a source of theirs or of one that they use, are proved here, as many at once as there are
processors and memory. `rt run`, which comes next, looks at all of them again. `rt` locks a crate with all that it uses, so each is proved in a
copy, and what it made is taken over. What the prover says is in out/build/.

It reaches into the kit: the time of a crate's out/rlib/stamp is when rt built its library. It would be unnecessary if `rt run` proved the libraries
that it needs side by side, and said how far it is.
"""

import os
import shutil
import subprocess
import sys
import tempfile
import time
from concurrent.futures import FIRST_COMPLETED, ThreadPoolExecutor, wait
from pathlib import Path

from repository import QUICK_RT, ROOT, copied, crates_below

LOGS = ROOT / "out" / "build"
# what a job of a check may take, in octets
LARGEST = 3 << 30


def lanes():
    """How many jobs may run side by side: one a processor, as many as memory holds."""
    lines = Path("/proc/meminfo").read_text(encoding="utf-8").splitlines()
    memory = next(int(it.split()[1]) << 10 for it in lines if it.startswith("MemAvailable:"))
    return max(1, min(len(os.sched_getaffinity(0)), memory // LARGEST))


def spent(since):
    minutes, seconds = divmod(round(time.monotonic() - since), 60)
    return f"{minutes} min {seconds:02} s" if minutes else f"{seconds} s"


def last_change(crate):
    """When a source, a definition or a proof of a crate was changed last, in seconds."""
    files = [it for part in ("src", "specs", "proofs") for it in (ROOT / "crates" / crate / part).rglob("*") if it.is_file()]
    return max(it.stat().st_mtime for it in files)


def is_built(crate, below):
    """Whether its library was built since the last change of it and of all that it uses."""
    stamp = ROOT / "crates" / crate / "out" / "rlib" / "stamp"
    return stamp.is_file() and stamp.stat().st_mtime >= max(map(last_change, below[crate]))


def proved(crate, below, jobs):
    """Proves and builds a library in a copy, and takes over what came of it; its status."""
    with tempfile.TemporaryDirectory(prefix="prove-") as room, open(LOGS / f"{crate}.log", "w", encoding="utf-8") as log:
        folder = copied(crate, below, room)
        words = [*QUICK_RT, "lib", "--jobs", str(jobs)]
        status = subprocess.run(words, cwd=folder, stdin=subprocess.DEVNULL, stdout=log, stderr=subprocess.STDOUT).returncode
        # also of a crate that isn't proved: the next run begins with what is
        if (folder / "out").is_dir():
            shutil.rmtree(ROOT / "crates" / crate / "out", ignore_errors=True)
            shutil.move(folder / "out", ROOT / "crates" / crate / "out")
    return status


def main():
    crate = sys.argv[1] if len(sys.argv) > 1 else "roombox"
    below, start = crates_below(), time.monotonic()
    left = [it for it in below if it in below[crate] - {crate} and not is_built(it, below)]
    count, room, running = len(left), lanes(), {}
    if not left:
        print(f"now {crate} itself is checked and built", file=sys.stderr)
        return 0
    LOGS.mkdir(parents=True, exist_ok=True)
    print(f"proving {count} libraries with {room} jobs side by side; {LOGS.relative_to(ROOT)}/ has the details", file=sys.stderr)
    with ThreadPoolExecutor(count) as pool:
        while left or running:
            busy = {name for name, _ in running.values()}
            # first what most others wait for
            ready = sorted((it for it in left if not (below[it] - {it}) & {*left, *busy}), key=lambda it: -sum(it in below[other] for other in left))
            for place, name in enumerate(ready):
                idle = room - sum(jobs for _, jobs in running.values())
                if idle > 0:
                    # what no other library waits for goes into more jobs of one
                    jobs = max(1, idle // (len(ready) - place))
                    left.remove(name)
                    running[pool.submit(proved, name, below, jobs)] = name, jobs
            for done in wait(running, return_when=FIRST_COMPLETED).done:
                name, _ = running.pop(done)
                if done.result():
                    left.clear()
                    print(f"{name} isn't proved: see {LOGS.relative_to(ROOT)}/{name}.log", file=sys.stderr)
                    return 1
                print(f"{count - len(left) - len(running)} of {count}: {name}, {spent(start)}", file=sys.stderr)
    print(f"now {crate} itself is proved and built", file=sys.stderr)
    return 0


if __name__ == "__main__":
    sys.exit(main())
