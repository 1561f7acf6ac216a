"""Counts what has to be read to believe a clause of a call: the clause, and the definitions that its names use, file by file.

    python3 tools/reading_paths.py [CRATE/src/FILE.rt.FUNCTION.CLAUSE ..]

Without names: the paths of docs/DEFINITIONS.md, a line a file. Followed are the names of `specs/` of every crate of the repository: those of
`profile`, and the *representation specs*, by which a crate says what its values represent. A definition is a block between empty lines, its
comment with it. Not followed are std, and Rust's own types. Lines that are empty, and imports, aren't counted.
"""

import re
import sys
from collections import Counter

from repository import CRATES

IMPORT = re.compile(r"^\s*(?:ghost |pub )*use Rattle\.(\w+)\.specs\.([\w.]+?)(?:\.\{([^}]*)\}| as (\w+));?\s*$", re.MULTILINE)
# in a module with parameters a definition is indented
DEFINED = re.compile(r"^ *(?:pub )?(?:abbrev|unfoldable|data|record)(?: pub)? ([^\s:({]+)", re.MULTILINE)
CONSTRUCTOR = re.compile(r"^ +(\w+) :", re.MULTILINE)
WORD = re.compile(r"(?:([A-Za-z_][\w-]*)\.)?([A-Za-z_][\w-]*)")
# a field where a record is declared or made, and those that are looked at behind a dot
FIELD = re.compile(r"(?m)^ +pub \w+ :|[{;] *\w+ =(?!=)|(?<=\)|\d)\.\w+")

PATHS = {
    "the checker's yes": ["clash_check/src/checking.rt.check.free", "clash_check/src/checking.rt.check.yes"],
    "the headline": [
        "room_books/src/room.rt.kept.passes",
        "room_books/src/room.rt.kept.spells",
        "clash_check/src/checking.rt.check.free",
        "clash_check/src/checking.rt.check.yes",
        "room_books/src/room.rt.take.accepted",
        "room_books/src/room.rt.take.declined",
    ],
    "every schedule": [f"sched_box/src/schedules.rt.play.{clause}" for clause in ("plays", "booked", "confirmed", "clear", "spells", "kept")],
    "all of what serve writes": ["sched_box/src/serving.rt.serve_stream.whole"],
}


def imports(text):
    """Where the names of a file come from: those that it names, and those behind the name of a module."""
    names, modules = {}, {}
    for crate, module, listed, alias in IMPORT.findall(text):
        where = (crate, module.replace(".", "/"))
        if alias:
            modules[alias] = where
        for item in filter(None, (it.strip() for it in listed.split(","))):
            name, _, own = item.partition(" as ")
            names[(own or name).strip()] = (where, name.strip())
    return names, modules


class File:
    """The blocks of a file of `specs/`, by the names that they define, and where its other names come from."""

    def __init__(self, path):
        text = path.read_text(encoding="utf-8")
        self.names, self.modules = imports(text)
        self.blocks, self.named = [], {}
        for block in text.split("\n\n"):
            lines = [line for line in block.split("\n") if line.strip() and not line.lstrip().startswith("use ")]
            names = DEFINED.findall("\n".join(lines))
            if any(line.lstrip().startswith(("pub data ", "data ")) for line in lines):
                names += CONSTRUCTOR.findall("\n".join(lines))
            for name in names:
                self.named.setdefault(name, len(self.blocks))
            self.blocks.append(lines)


def wanted(file, where, text):
    """The definitions that a text names, as (place of a file, name). What only names a field isn't one."""
    code = FIELD.sub(" ", "\n".join(line.split("--")[0] for line in text.split("\n")))
    for module, name in WORD.findall(code):
        if module in file.modules:
            yield file.modules[module], name
            continue
        word = module or name
        if word in file.named:
            yield where, word
        elif word in file.names:
            yield file.names[word]


def read(files, start):
    """The blocks that definitions use, as (place of a file, number of the block)."""
    found, left = set(), list(start)
    while left:
        where, name = left.pop()
        file = files.get(where)
        if file is None:
            continue
        if name not in file.named:
            if name in file.names and file.names[name][0] != where:
                left.append(file.names[name])
            continue
        block = (where, file.named[name])
        if block not in found:
            found.add(block)
            left += wanted(file, where, "\n".join(file.blocks[block[1]]))
    return found


def clause(path):
    """The text of a clause of a function, and the names of its file."""
    file, function, name = re.fullmatch(r"(.+\.rt)\.(\w+)\.(\w+)", path).groups()
    text = (CRATES / file).read_text(encoding="utf-8")
    begin = re.search(rf"^ *pub(?:\(crate\))? fn {function}\b", text, re.MULTILINE)
    if not begin:
        sys.exit(f"no function {function} in {file}")
    head = re.compile(rf"^ *ensures {name} \{{", re.MULTILINE).search(text, begin.start())
    if not head:
        sys.exit(f"no clause {name} of {function} in {file}")
    end, depth = head.end(), 1
    while depth:
        depth += {"{": 1, "}": -1}.get(text[end], 0)
        end += 1
    own = File.__new__(File)
    own.names, own.modules = imports(text)
    own.named = {}
    return own, text[head.start() : end]


def believed(clauses):
    """How many lines these clauses have, and how many of each file of `specs/` they need."""
    files, contracts, blocks = {}, 0, set()
    for path in sorted(CRATES.glob("*/specs/**/*.antt")):
        crate, _, *rest = path.relative_to(CRATES).with_suffix("").parts
        files[(crate, "/".join(rest))] = File(path)
    for one in clauses:
        own, text = clause(one)
        contracts += len(text.split("\n"))
        blocks |= read(files, wanted(own, None, text))
    lines = Counter()
    for where, block in blocks:
        lines[where] += len(files[where].blocks[block])
    return contracts, lines


def main():
    paths = {"the clauses given": sys.argv[1:]} if sys.argv[1:] else PATHS
    for path, clauses in paths.items():
        contracts, lines = believed(clauses)
        profile = sum(count for (crate, _), count in lines.items() if crate == "profile")
        print(f"{path}: {lines.total() + contracts} lines: {contracts} of contracts, {profile} of profile, {lines.total() - profile} of representation specs")
        for where in sorted(lines, key=lambda it: (it[0] != "profile", it)):
            print(f"    {where[0]}/{where[1]} {lines[where]}")


if __name__ == "__main__":
    main()
