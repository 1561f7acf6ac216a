"""Writes two tables of docs/DEFINITIONS.md: what has to be read to believe what, and the files of `profile`.

    python3 docs/tables/definitions.py [--check]

What is read counts tools/reading_paths.py, from the clauses that it begins at. The files are in an order in which each comes after those that it uses.
What one defines is the comment at its head; the names are those of its own that most files of code import.
"""

import collections
import re
import sys

from pages import CRATES, DEFINED, head, put, row
from reading_paths import PATHS, believed, imports

SPECS = CRATES / "profile" / "specs"
# how a path begins, in words, and how its column in the table of files is headed
BEGINNINGS = {
    "the checker's yes": ("`free`, `yes` of `check`", "yes"),
    "the headline": ("`passes`, `spells` of `Room::kept`; `free`, `yes` of `check`; `accepted`, `declined` of `Room::take`", "headline"),
    "every schedule": ("`plays`, `booked`, `confirmed`, `clear`, `spells`, `kept` of `play`", "schedules"),
    "all of what serve writes": ("`whole` of `serve_stream`", "serve"),
}


def reading(found):
    """The table of the paths."""
    yield head(("To believe", "Begin with the clauses", "Contracts", "`profile`", "Representation"), 3)
    for name, (contracts, lines) in found.items():
        own = sum(count for (crate, _), count in lines.items() if crate == "profile")
        yield row((name, BEGINNINGS[name][0], contracts, own, lines.total() - own))


def head_of(text):
    """The comment at the head of a file, as one text."""
    lines = []
    for line in text.split("\n"):
        if not line.startswith("--"):
            break
        lines.append(line[2:].strip())
    return " ".join(lines).replace("|", "\\|")


def used(text):
    """The files of `profile` that a file imports."""
    names, modules = imports(text)
    return [where[1] for where in [it[0] for it in names.values()] + list(modules.values()) if where[0] == "profile"]


def ordered(texts):
    """The files, each after those that it uses; of those that nothing parts in the order of Lib.antt and of the folders."""
    found = []

    def add(name):
        if name not in found and name in texts:
            for one in used(texts[name]):
                add(one)
            found.append(name)

    for name in texts:
        add(name)
    return found


def files(found):
    """The table of the files of `profile`."""
    places = [path.relative_to(SPECS).with_suffix("").as_posix() for path in sorted(SPECS.rglob("*.antt"))]
    # what only lists others has a folder of its name
    places = [name for name in places if name != "Lib" and not (SPECS / name).is_dir()]
    first = ["text", "faults", "series", "events", "checker", "rooms", "organisers", "streams", "Headline"]
    places.sort(key=lambda it: ((first + [it.split("/")[0]]).index(it.split("/")[0]), it))
    texts = {name: (SPECS / f"{name}.antt").read_text(encoding="utf-8") for name in places}
    cited = collections.Counter()
    for source in CRATES.glob("*/src/**/*.rt"):
        for name, (where, own) in imports(source.read_text(encoding="utf-8"))[0].items():
            cited[(where, own)] += 1
    columns = [BEGINNINGS[name][1] for name in found]
    yield head(("File", "What it defines", "Names that contracts cite most", *columns), len(columns))
    for name in ordered(texts):
        where = ("profile", name)
        own = dict.fromkeys(DEFINED.findall(texts[name]))
        own = sorted((it for it in own if cited[(where, it)]), key=lambda it: -cited[(where, it)])[:6]
        counts = (str(lines[where] or "") for _, lines in found.values())
        yield row((f"`{name}`", head_of(texts[name]), ", ".join(f"`{it}`" for it in own), *counts))


def main():
    found = {name: believed(clauses) for name, clauses in PATHS.items()}
    return put(__doc__, [("DEFINITIONS.md", made.__name__, "".join(made(found))) for made in (reading, files)])


if __name__ == "__main__":
    sys.exit(main())
