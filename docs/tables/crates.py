"""Writes what the documents say of all crates: in ARCHITECTURE what each is and uses, and the picture of it; in GATE how large each is.

    python3 docs/tables/crates.py [--check]

What a crate is says the head of its root file. What it uses is of crates.txt, without what the others that it uses bring along. In the picture a
crate stands above all that it uses; `profile`, which all use, is left out.
"""

import re
import sys
from html import escape

from pages import CRATES, ROOT, head, put, row
from repository import code_lines, crates_below, crates_used, filled

PICTURE = ROOT / "docs" / "pictures" / "crates.svg"
WIDE, HIGH, BETWEEN, ABOVE = 132, 26, 14, 40
TEST = re.compile(r"^\s*#\[test\]", re.MULTILINE)


def head_of(crate):
    """The first paragraph of the comment at the head of a crate's root file."""
    folder, lines = CRATES / crate / "src", []
    root = folder / "lib.rt" if (folder / "lib.rt").is_file() else folder / "main.rt"
    for line in root.read_text(encoding="utf-8").split("\n"):
        if not line.startswith("//!") or line == "//!":
            break
        lines.append(line.removeprefix("//!").strip())
    return " ".join(lines).replace("|", "\\|")


def uses():
    """What each crate is and uses."""
    below, text = crates_below(), head(("Crate", "What it is", "Uses, with what these use"))
    for crate, names in crates_used().items():
        brought = set().union(*(below[name] - {name} for name in names if name in below), set())
        own = [name if name in below else f"`{name}`" for name in names if name not in brought]
        text += row((f"`{crate}`", head_of(crate), ", ".join(own) or "nothing"))
    return text


def levels(used):
    """The crates by how many are below them on the longest way down, from the lowest on; each near those that it uses."""
    height = {}
    for name in crates_below():
        if name in used:
            height[name] = 1 + max((height[it] for it in used[name]), default=-1)
    rows = [sorted(it for it in height if height[it] == level) for level in range(max(height.values()) + 1)]
    place = {}
    for names in rows:
        middle = lambda name: sum(place[it] for it in used[name]) / max(1, len(used[name]))
        names.sort(key=lambda name: (middle(name), name))
        place |= {name: (number + 0.5) / len(names) for number, name in enumerate(names)}
    return rows


def picture():
    """Which crate uses which, as text; a line is left out if another way leads down to the same crate."""
    below = {name: set(it) - {name, "profile"} for name, it in crates_below().items() if name != "profile"}
    used = {name: {it for it in mine if not any(it in below[other] for other in mine)} for name, mine in below.items()}
    rows, spot = levels(used), {}
    wide = max(map(len, rows)) * (WIDE + BETWEEN) + BETWEEN
    high = len(rows) * (HIGH + ABOVE) + BETWEEN
    for level, names in enumerate(rows):
        gap = (wide - len(names) * WIDE) / (len(names) + 1)
        for number, name in enumerate(names):
            spot[name] = (round(gap + number * (WIDE + gap)), high - BETWEEN - HIGH - level * (HIGH + ABOVE))
    parts = [
        f'<svg xmlns="http://www.w3.org/2000/svg" viewBox="0 0 {wide} {high}" role="img" font-family="sans-serif" font-size="13">',
        "<title>Which crate uses which</title>",
        f'<rect width="{wide}" height="{high}" fill="white"/>',
    ]
    for name in spot:
        for other in sorted(used[name]):
            (x, y), (u, v) = spot[name], spot[other]
            parts.append(f'<line x1="{x + WIDE // 2}" y1="{y + HIGH}" x2="{u + WIDE // 2}" y2="{v}" stroke="gray"/>')
    for name, (x, y) in spot.items():
        parts.append(f'<rect x="{x}" y="{y}" width="{WIDE}" height="{HIGH}" rx="4" fill="#eef3fa" stroke="#456"/>')
        parts.append(f'<text x="{x + WIDE // 2}" y="{y + 17}" text-anchor="middle">{escape(name)}</text>')
    return "\n".join([*parts, "</svg>", ""])


def sizes():
    """How many lines that aren't blank the code, the definitions and the proofs of each crate have, and how many edits and tests there are."""
    lines = lambda crate, part: sum(filled(it.read_text(encoding="utf-8")) for it in (CRATES / crate / part).rglob("*.antt"))
    columns, counts = ("Code", "Definitions and specs", "Proofs", "Must-fail edits", "Planted edits", "Tests"), {}
    for crate in crates_below():
        edits = [len(list((CRATES / crate / folder).glob("*.edit"))) for folder in ("must-fail", "planted")]
        tests = sum(len(TEST.findall(it.read_text(encoding="utf-8"))) for it in (CRATES / crate / "src").rglob("*.rt"))
        counts[f"`{crate}`"] = (code_lines(crate), lines(crate, "specs"), lines(crate, "proofs"), *edits, tests)
    counts["all"] = [sum(column) for column in zip(*counts.values())]
    return head(("Crate", *columns), 6) + "".join(row((name, *own)) for name, own in counts.items())


def main():
    text = picture()
    is_stale = PICTURE.read_text(encoding="utf-8") != text
    if sys.argv[1:] == []:
        PICTURE.write_text(text, encoding="utf-8")
    faults = [f"{PICTURE.relative_to(ROOT)} isn't that of crates.txt"] if is_stale and sys.argv[1:] else []
    return put(__doc__, [("ARCHITECTURE.md", "", uses()), ("GATE.md", "sizes", sizes())], faults)


if __name__ == "__main__":
    sys.exit(main())
