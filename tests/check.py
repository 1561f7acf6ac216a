"""Runs the scripts of this folder side by side: a line for each as it ends, and `N passed, M failed` at the end.

    python3 tests/check.py bin/roombox [NAME ..] [--kind alone] [--jobs N] [--python /usr/bin/python3]
    python3 tests/check.py --counts        # writes what the last runs counted into the table of docs/ASSURANCE.md

A script is of one kind: `alone` needs the program and the tools that stand beside its name, `servers` and `browser` need such, and `long` needs an hour, or the programs
of the example crates beside this one. What a script prints is kept in out/check/NAME.log. Its last line says `N cases, M failed`: a script that says nothing of that
form, or has no case, has failed. So has one that lacks a tool: that is said, and it isn't run. It ends with 1 if one failed.
"""

import argparse
import os
import re
import shutil
import subprocess
import sys
import time
from concurrent.futures import ThreadPoolExecutor
from pathlib import Path
from threading import Lock

ROOT = Path(__file__).resolve().parent.parent
LOGS = ROOT / "out" / "check"
PAGE = ROOT / "docs" / "ASSURANCE.md"
BEGIN, END = "<!-- table: tests/check.py -->", "<!-- end of table -->"
# no script may last longer, in seconds; those of `long` have hours
LIMIT = {"alone": 1800, "servers": 3600, "browser": 3600, "long": 6 * 3600}

# of each script its kind, the Python modules and the tools that it needs (`root` is the user), and its words; the slowest first, as they are begun in this order
SCRIPTS = {
    "refused_memory": ("alone", "gcc", []),
    "rows": ("alone", "", ["--jobs", "2"]),
    "box": ("alone", "root strace mount", []),
    "mail": ("alone", "strace", []),
    "certificate_by_dateutil": ("alone", "dateutil", []),
    "failing_devices": ("alone", "gcc", []),
    "expand_by_dateutil": ("alone", "dateutil", []),
    "doors": ("alone", "dateutil", []),
    "messages_by_model": ("alone", "dateutil", []),
    "reports": ("alone", "root mount", []),
    "agenda": ("alone", "dateutil", []),
    "recorded_day": ("alone", "dateutil", []),
    "moved_box": ("alone", "root dateutil", []),
    "limits": ("alone", "", []),
    "organisers_by_model": ("alone", "", []),
    "subscribers": ("alone", "khal dateutil", []),
    "guide": ("alone", "bash awk groff", []),
    "installed": ("alone", "make dpkg-deb man systemd-analyze", []),
    "page": ("alone", "dateutil", []),
    "refused_lines": ("alone", "", []),
    "calendars_by_icalendar": ("alone", "icalendar dateutil", []),
    "fuzz": ("alone", "", ["--seconds", "60"]),
    "real_program": ("alone", "", []),
    "meetings": ("alone", "", []),
    "zone_table": ("alone", "", []),
    "mail_programs": ("servers", "mutt s-nail mblaze", []),
    "mail_server": ("servers", "root postfix", []),
    "calendar_server": ("servers", "root dateutil", []),
    "many_boxes": ("servers", "redis redis-server", []),
    "pictures": ("browser", "chromium", []),
    "schedules_by_model": ("long", "dateutil", ["bin/schedule_examples"]),
    "schedules_in_memory": ("long", "gcc", ["--schedules", "bin/schedule_examples"]),
    "memory_in_process": ("long", "gcc", ["bin/worked_examples", "bin/command_examples"]),
    "counted_instances": ("long", "dateutil", ["--counted", "bin/worked_examples", "--judge", "100"]),
    "long_fuzz": ("long", "", ["--seconds", "3600"]),
}
# those that are another script with other words, and the programs that a tool's name stands for
FILES = {"schedules_in_memory": "refused_memory", "counted_instances": "certificate_by_dateutil", "long_fuzz": "fuzz"}
TOOLS = {"mblaze": "mshow", "postfix": "/usr/sbin/postfix"}
MODULES = ("dateutil", "icalendar", "redis")


def lacks(python, needed):
    """What isn't there of what a script needs."""
    def is_there(tool):
        if tool == "root":
            return os.geteuid() == 0
        if tool in MODULES:
            return subprocess.run([python, "-c", f"import {tool}"], capture_output=True, check=False).returncode == 0
        return shutil.which(TOOLS.get(tool, tool)) is not None
    return [tool for tool in needed.split() if not is_there(tool)]


def verdict(status, text):
    """Whether a script passed, and its last line: it must say how many cases it had, and that none failed."""
    last = text.strip().splitlines()[-1:] or ["it said nothing"]
    counted = re.match(r"(\d+) cases, (\d+) failed", last[0])
    return status == 0 and counted is not None and int(counted[1]) > 0 and counted[2] == "0", last[0] if status is not None else "it didn't end"


class Runs:
    def __init__(self, program, python):
        self.program, self.python, self.lock = program, python, Lock()
        LOGS.mkdir(parents=True, exist_ok=True)

    def tells(self, name, passed, said, seconds=0):
        with self.lock:
            print(f"{'ok  ' if passed else 'FAIL'} {name:24} {seconds:5.0f} s  {said}", flush=True)
        return passed

    def run(self, name):
        kind, needed, words = SCRIPTS[name]
        log = LOGS / f"{name}.log"
        missing = lacks(self.python, needed)
        if missing:
            log.unlink(missing_ok=True)
            return self.tells(name, False, f"not run, {' and '.join(missing)} missing")
        of_crates = any(word.startswith("bin/") for word in words)
        script = [self.python, str(ROOT / "tests" / f"{FILES.get(name, name)}.py"), *([] if of_crates else [self.program]), *words]
        begun = time.monotonic()
        with log.open("w") as file:
            try:
                status = subprocess.run(script, cwd=ROOT, stdin=subprocess.DEVNULL, stdout=file, stderr=subprocess.STDOUT, timeout=LIMIT[kind], check=False).returncode
            except subprocess.TimeoutExpired:
                status = None
        passed, said = verdict(status, log.read_text(errors="replace"))
        return self.tells(name, passed, said if passed else f"{said}; see out/check/{name}.log", time.monotonic() - begun)


def counts():
    """Writes the third column of the table: what the logs say that are there, and what stood there of the others."""
    text = PAGE.read_text(encoding="utf-8")
    head, _, rest = text.partition(BEGIN)
    table, _, rest = rest.partition(END)
    lines, listed = [], []
    for line in table.splitlines():
        columns = line.rstrip(" |").split(" | ")
        name = re.match(r"\| `(\w+)` \|", line)
        listed += [name[1]] if name else []
        log = LOGS / f"{name[1]}.log" if name else None
        if log and log.exists():
            passed, said = verdict(0, log.read_text(errors="replace"))
            columns[-1] = said if passed else "failed"
        lines.append(" | ".join(columns) + " |" if name else line)
    PAGE.write_text(head + BEGIN + "\n".join(lines) + "\n" + END + rest, encoding="utf-8")
    missing = SCRIPTS.keys() - set(listed)
    print(f"no row for {', '.join(sorted(missing))}" if missing else f"{len(listed)} rows")
    return 1 if missing else 0


def main():
    parser = argparse.ArgumentParser()
    parser.add_argument("program", nargs="?", default=str(ROOT / "bin" / "roombox"))
    parser.add_argument("names", nargs="*")
    parser.add_argument("--kind", choices=LIMIT, default="alone")
    parser.add_argument("--jobs", type=int, default=os.cpu_count())
    parser.add_argument("--python", default=sys.executable)
    parser.add_argument("--counts", action="store_true")
    words = parser.parse_args()
    if words.counts:
        return counts()
    unknown = set(words.names) - SCRIPTS.keys()
    if unknown:
        sys.exit(f"no script {', '.join(sorted(unknown))}: {', '.join(SCRIPTS)}")
    runs = Runs(str(Path(words.program).resolve()), words.python)
    names = words.names or [name for name, (kind, _, _) in SCRIPTS.items() if kind == words.kind]
    with ThreadPoolExecutor(words.jobs) as pool:
        passed = sum(pool.map(runs.run, names))
    print(f"{passed} passed, {len(names) - passed} failed")
    return 0 if passed == len(names) else 1


if __name__ == "__main__":
    sys.exit(main())
