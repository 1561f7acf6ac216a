"""Writes the table of docs/DEFINITIONS.md, "The words of the code": each type that a crate offers, what it is, its definition and the RFC's word.

    python3 docs/tables/vocabulary.py [--check]

A type is offered where `src/lib.rt` of a library has it in a `pub use`. What it is says the first sentence of its doc comment. Its definition in
`profile` and its word in the RFCs are in docs/tables/vocabulary.tsv: crate, types, definitions and word, parted by TABs. Faults are a type that is
offered and has no line there, a line that names a type that no crate offers (it is left out), and a definition that profile hasn't.
"""

import re
import sys

from pages import CRATES, DEFINED, ROOT, head, put, row
from public_calls import LEFT_OUT
from repository import crates_below

DATA = ROOT / "docs" / "tables" / "vocabulary.tsv"
EXPORT = re.compile(r"^pub use (\w+)[\w:]*?::(?:\{([^}]*)\}|(\w+));", re.MULTILINE)
SENTENCE = re.compile(r".+?[.?](?= |$)")


def is_type(name):
    return name[0].isupper() and not name.isupper()


def offered():
    """The types that each crate offers, as (crate, type)."""
    for lib in sorted(CRATES.glob("*/src/lib.rt")):
        crate = lib.parts[-3]
        if crate in LEFT_OUT:
            continue
        for module, several, one in EXPORT.findall(lib.read_text(encoding="utf-8")):
            # what another crate offers has its row there
            if (CRATES / module).is_dir():
                continue
            for item in filter(None, (it.strip() for it in (several or one).split(","))):
                name = item.split(" as ")[-1].strip()
                if is_type(name):
                    yield crate, name


def rows():
    """The lines of the data: a crate, its types, their definitions, and the RFC's word."""
    for line in DATA.read_text(encoding="utf-8").splitlines():
        crate, own, meant, word = line.split("\t")
        yield crate, re.findall(r"\w+", own), re.findall(r"\w+", meant), word


def said(crate, name):
    """The first sentence of a type's doc comment."""
    said = re.compile(rf"((?:^ *///[^\n]*\n)+)(?:^ *#\[[^\n]*\n)*^ *pub (?:struct|enum|trait|type) {name}\b", re.MULTILINE)
    for path in sorted((CRATES / crate / "src").glob("*.rt")):
        if found := said.search(path.read_text(encoding="utf-8")):
            text = " ".join(line.strip().removeprefix("///").strip() for line in found[1].strip().split("\n"))
            return SENTENCE.match(text)[0].replace("|", "\\|")
    return "-"


def table():
    lines, last = [head(("Type", "What it is", "Definition", "RFC term"))], None
    place = {crate: number for number, crate in enumerate(crates_below())}
    names = lambda words: ", ".join(f"`{it}`" for it in words) or "-"
    types = set(offered())
    there = [(crate, [it for it in own if (crate, it) in types], meant, word) for crate, own, meant, word in rows()]
    for crate, own, meant, word in sorted((it for it in there if it[1]), key=lambda it: place[it[0]]):
        lines += [f"| **{crate}** | | | |\n"] * (crate != last)
        lines.append(row((names(own), " ".join(said(crate, it) for it in own), names(meant), word)))
        last = crate
    return "".join(lines)


def faults():
    texts = "\n".join(path.read_text(encoding="utf-8") for path in (CRATES / "profile" / "specs").rglob("*.antt"))
    definitions, types = set(DEFINED.findall(texts)), set(offered())
    named = {(crate, name) for crate, own, _, _ in rows() for name in own}
    found = [f"{crate}: no definition {name} in profile" for crate, _, meant, _ in rows() for name in meant if name not in definitions]
    found += [f"{crate}: {name} has no line in {DATA.relative_to(ROOT)}" for crate, name in sorted(types - named)]
    return found + [f"{crate}: {name} isn't offered" for crate, name in sorted(named - types)]


if __name__ == "__main__":
    sys.exit(put(__doc__, [("DEFINITIONS.md", "", table())], faults()))
