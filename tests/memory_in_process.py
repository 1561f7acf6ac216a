"""Refuses each allocation of calls in turn, and has the program itself make the same call again: what it holds has to be as it was, and the second call gives the answer.

    python3 tests/memory_in_process.py bin/worked_examples [bin/command_examples]

The cases are lines of the tables of these programs: those that say `again` of a room and an organiser who take messages (worked_examples, src/again.rt), and
those that say `runs` of a box over folders in memory (command_examples, src/scene.rt). What has to come out stands in their `stdout`, with how many calls were
made: one more where one found no memory. An allocation that is refused elsewhere in the program, as where it reads a table, ends the case with `out of memory`.

The refusing is done by the shim of tests/refused_memory.py. It prints for each case how many allocations of its calls were refused, and of the rest.
"""

import os
import sys
import tempfile
from pathlib import Path

from lib.cases import Cases
from lib.program import ROOT, shim
from refused_memory import SHIM, refusing, swept

CRATES = ROOT / "crates"
# A program's table, the word that its cases have, the other tables that it reads, and what is said of one call and of one more.
TABLES = {
    "worked_examples": ("messages.txt", "| again |", ("residues.txt", "events.txt", "calendars.txt", "organisers.txt"), "0 again", "1 again"),
    "command_examples": ("folders.txt", "| runs |", ("commands.txt",), "1 runs", "2 runs"),
}


def cases_of(crate):
    """The lines of the table that are such cases."""
    table, word, _, _, _ = TABLES[crate]
    lines = (CRATES / crate / "data" / table).read_text(encoding="ascii").splitlines()
    return [line for line in lines if word in line and not line.startswith("#")]


def expected(crate, name):
    """What is printed of a case with memory enough, and what with one more call."""
    _, _, _, once, twice = TABLES[crate]
    lines = (CRATES / crate / "stdout").read_text(encoding="utf-8").splitlines()
    whole = next(line for line in lines if line.startswith(f"{name}: "))
    if whole.count(once) != 1:
        sys.exit(f"{name}: no count of calls in {whole!r}")
    return whole + "\n", whole.replace(once, twice) + "\n"


def folder_of(crate, line, folder):
    """A folder with the files of a crate, and this line as its table."""
    table, _, others, _, _ = TABLES[crate]
    for file in (CRATES / crate / "data").iterdir():
        if file.name not in (table, *others):
            os.symlink(file, Path(folder, file.name))
    Path(folder, table).write_text(line + "\n", encoding="ascii")
    for name in others:
        Path(folder, name).write_text("", encoding="ascii")


def tries(cases, program, crate, line, library):
    """Refuses allocation 1, 2, .. of a case until none is left, and says how many calls were made again, and how many allocations were refused elsewhere."""
    name = line.split(" | ")[0]
    whole, more = expected(crate, name)
    # where a file of the case is read, no memory is an io::Error, as is a file that isn't there
    may_be = ("", whole, more, f"{name}: out of memory\n", f"{name}: unreadable case\n")
    made = []
    with tempfile.TemporaryDirectory() as folder:
        folder_of(crate, line, folder)

        def again(number):
            status, out, said = refusing([program], b"", library, number, cwd=folder)
            if status < 0 or out.decode() not in may_be:
                return False, (status, out, said)
            made.append(out.decode())
            return made[-1] == whole, None

        refused, wrong = swept(again)
    calls = made.count(more)
    cases.tells(name, wrong or [] if calls else ["no call was made again"])
    print(f"{name}: {calls} allocations of its calls refused in turn, and {refused - calls} others", flush=True)


def main():
    cases = Cases()
    with tempfile.TemporaryDirectory() as folder:
        library = shim(folder, SHIM)
        for program, crate in zip(sys.argv[1:], TABLES):
            cases.holds(f"{crate} has such cases", bool(cases_of(crate)), True)
            for line in cases_of(crate):
                tries(cases, os.path.abspath(program), crate, line, library)
    cases.end()


if __name__ == "__main__":
    main()
