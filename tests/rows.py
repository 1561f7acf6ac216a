"""Runs rows of the example crates one by one: each is printed as it ends, and one by its name takes seconds.

    python3 tests/rows.py bin/roombox [--row TEXT]              # commands.txt of command_examples, by the commands of the program itself
    python3 tests/rows.py bin/worked_examples [--row TEXT]      # the tables of a crate, by its own program: bin/ or out/try/ (tests/tried.py)

TEXT is in the names of the rows that are run. What has to come out stands beside the row or in the crate's `stdout`, as for `rt ci`, which runs the program once for
all of them. Rows of `name-zone` have no command: only the crate's program runs them.
"""

import argparse
import os
import tempfile
import threading
import time
from concurrent.futures import ThreadPoolExecutor
from pathlib import Path

from lib.cases import Cases
from lib.program import DATA, ROOT, ended, of_arguments, read

# the tables of each crate, in the order in which its program answers them: each row is a line of `stdout`
TABLES = {
    "text_examples": ["lines.txt", "values.txt", "trees.txt", "days.txt", "rules.txt", "zones.txt", "zone-names.txt", "doors.txt"],
    "worked_examples": ["messages.txt", "residues.txt", "events.txt", "calendars.txt", "organisers.txt"],
    "command_examples": ["commands.txt", "folders.txt"],
    "schedule_examples": ["schedules.txt", "random.txt"],
}
ROOM = "mailto:r1@example.com"
DAY = ["--from", "20250310T000000Z", "--until", "20250311T000000Z"]
# behind these a reason is said
REASONS = (b"roombox: refused 90\n", b"roombox: device\n")


def rows_of(data, table):
    return [line for line in (data / table).read_text(encoding="utf-8").splitlines() if line.strip() and not line.startswith("#")]


def name_of(row):
    return row.split("|")[0].strip()


# ---- the rows of commands, by the program


def words_of(call, columns, folder, octets):
    """The words of a row's command; files that it names are written."""
    def file(name, octets):
        Path(folder, name).write_bytes(octets)
        return str(Path(folder, name))
    asked = columns[3]
    if call in ("agenda", "free", "published"):
        more = {"agenda": [], "free": ["--free"], "published": ["--ics"]}[call]
        return ["agenda", file("calendar", octets), asked or ROOM, *DAY, *more]
    if call == "check":
        return ["check", file("calendar", octets), file("certificate", read(*asked.split())), ROOM]
    if call == "explain":
        return ["explain", *octets.decode().split()[:1]]
    return {"serve": ["serve"], "calendar": ["keep", ROOM], "certificate": ["keep", "--certificate", ROOM], "explain-object": ["explain"],
            "expand": ["expand", *([f"--zone={asked}"] if asked else [])]}[call]


def by_command(program, row):
    """What came out, and what has to."""
    columns = [it.strip() for it in row.split("|")]
    octets, wanted = read(*columns[2].split()), (int(columns[6]), read(*columns[4].split()), read(*columns[5].split()))
    with tempfile.TemporaryDirectory() as folder:
        status, out, said = ended(program, *words_of(columns[1], columns, folder, octets), given=octets)
    # a row has no usage fault, and no reason, as no preamble or file is named there
    first = said.partition(b"\n")[0] + b"\n"
    said = b"" if status == 2 and said.startswith(b"error: ") else first if first in REASONS else said
    return (status, out, said), wanted


# ---- the rows of a crate, by its program


class Folders:
    """For each thread a folder with the files of a crate, whose tables are written anew for each row."""

    def __init__(self, crate, parent):
        self.data, self.parent, self.own = ROOT / "crates" / crate / "data", parent, threading.local()
        self.tables = TABLES[crate]

    def of_row(self, table, row):
        if not hasattr(self.own, "folder"):
            self.own.folder = Path(tempfile.mkdtemp(dir=self.parent))
            for file in self.data.iterdir():
                if file.name not in self.tables:
                    os.symlink(file, self.own.folder / file.name)
        for other in self.tables:
            (self.own.folder / other).write_text(row + "\n" if other == table else "", encoding="utf-8")
        return self.own.folder


def by_crate(program, folders, table, row, line):
    status, out, said = ended(program, cwd=folders.of_row(table, row))
    return (status, out.decode(), said.decode()), (0, line + "\n", "")


def works(program, parent):
    """Each row's name, and what runs it: it gives what came out, and what has to."""
    crate = Path(program).name
    if crate not in TABLES:
        return [(name_of(row), lambda row=row: by_command(program, row)) for row in rows_of(DATA, "commands.txt") if row.split("|")[1].strip() != "name-zone"]
    folders = Folders(crate, parent)
    rows = [(table, row) for table in folders.tables for row in rows_of(folders.data, table)]
    lines = (ROOT / "crates" / crate / "stdout").read_text(encoding="utf-8").splitlines()
    if len(rows) != len(lines):
        raise RuntimeError(f"{len(rows)} rows, and {len(lines)} lines of stdout")
    return [(name_of(row), lambda table=table, row=row, line=line: by_crate(program, folders, table, row, line)) for (table, row), line in zip(rows, lines)]


def main():
    parser = argparse.ArgumentParser()
    parser.add_argument("program", nargs="?")
    parser.add_argument("--row", default="")
    parser.add_argument("--jobs", type=int, default=os.cpu_count())
    words, cases, lock = parser.parse_args(), Cases(), threading.Lock()

    def tries(work):
        name, run = work
        begun = time.monotonic()
        found, wanted = run()
        with lock:
            print(f"{'ok' if found == wanted else 'differs'} {name} ({time.monotonic() - begun:.2f} s)", flush=True)
            cases.holds(name, found, wanted)

    with tempfile.TemporaryDirectory() as parent, ThreadPoolExecutor(words.jobs) as pool:
        list(pool.map(tries, [work for work in works(of_arguments(), parent) if words.row in work[0]]))
    cases.end()


if __name__ == "__main__":
    main()
