"""What the scripts beside this file share: where the tools are, and how a table gets between its two marker comments.

A script has `if __name__ == "__main__": sys.exit(put(__doc__, tables(), faults))`. Without an argument it writes its tables; with --check it
changes nothing, and ends with 1 where a table isn't that of the sources. Either way it ends with 1 where there is a fault.
"""

import sys
from pathlib import Path

sys.path.append(str(Path(__file__).resolve().parent.parent.parent / "tools"))
from reading_paths import CRATES, DEFINED
from repository import ROOT

__all__ = ["CRATES", "DEFINED", "ROOT", "head", "put", "row"]
END = "<!-- end of table -->\n"


def row(cells):
    return "| " + " | ".join(f"{cell:,}" if isinstance(cell, int) else cell for cell in cells) + " |\n"


def head(cells, numbers=0):
    """The head of a table, of which the last columns are numbers."""
    return row(cells) + "|---" * (len(cells) - numbers) + "|---:" * numbers + "|\n"


def put(said, tables, faults=()):
    """Puts each (document, name, text) between its marker comments, or only compares it; the status."""
    script, only_compares = Path(sys.argv[0]).name, sys.argv[1:] == ["--check"]
    if sys.argv[1:] and not only_compares:
        sys.exit(said)
    stale = False
    for document, name, made in tables:
        page = ROOT / "docs" / document
        begin = f"<!-- table: docs/tables/{script}{' ' * bool(name)}{name} -->\n"
        before, first, rest = page.read_text(encoding="utf-8").partition(begin)
        old, last, after = rest.partition(END)
        if not (first and last):
            sys.exit(f"docs/{document} hasn't the marker comments {begin.strip()} and {END.strip()}")
        if old != made and only_compares:
            print(f"docs/{document}: the table {name} is stale: run docs/tables/{script}".replace("  ", " "))
        stale |= old != made
        if not only_compares:
            page.write_text(before + begin + made + END + after, encoding="utf-8")
    for fault in faults:
        print(fault)
    return int(bool(faults) or (only_compares and stale))
