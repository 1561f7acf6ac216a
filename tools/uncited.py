"""Names the lemmas under proofs/ that nothing cites: what only a removed proof needed, and what stands on that alone.

    python3 tools/uncited.py [CRATE ..]     # a line for each file: its path and its names; the last line counts them

A lemma is looked for by its signature, `name : ..`, at most two columns in. Its name counts as cited where it occurs in any crate outside of its own
lines, in comments too. Worked examples are cited by nobody, and stay; answers and invariants are found by their names. The status is 1 where there is one.
"""

import re
import sys
from collections import Counter

from repository import ROOT

SIGNATURE = re.compile(r"( {0,2})(?:pub )?([\w'-]+) : ")
WORD = re.compile(r"[^\s(){}\[\],;.:=]+")


def lemmas(lines):
    """The name of each lemma, and the places of its lines: those further in, those that begin with its name, and the brackets that close it."""
    for place, line in enumerate(lines):
        if not (match := SIGNATURE.match(line)):
            continue
        margin, name = match[1], match[2]
        own = re.compile(rf"{margin}(?: |{re.escape(name)}(?: |$)|[)\]}}])")
        end = place + 1
        while end < len(lines) and (own.match(lines[end]) or (not lines[end] and end + 1 < len(lines) and lines[end + 1].startswith(f"{margin} "))):
            end += 1
        yield name, range(place, end)


def is_looked_at(file):
    return "proofs" in file.parts and file.name not in ("Answers.antt", "Invariants.antt", "Lib.antt") and not file.stem.endswith(("Example", "Examples"))


def uncited(texts, counted):
    """The names of each file; those that are found are taken from what is counted, so that what they alone cite is found at the next look."""
    found = {}
    for file, lines in texts.items():
        for name, places in list(lemmas(lines)) if is_looked_at(file) else []:
            own = Counter(word for place in places for word in WORD.findall(lines[place]))
            if name not in found.get(file, []) and counted[name] == own[name]:
                found.setdefault(file, []).append(name)
                counted.subtract(own)
    return found


def main():
    files = [it for end in ("rt", "antt", "edit") for it in sorted((ROOT / "crates").glob(f"*/**/*.{end}")) if "out" not in it.relative_to(ROOT).parts]
    texts = {file: file.read_text(encoding="utf-8").split("\n") for file in files}
    counted = Counter(word for lines in texts.values() for line in lines for word in WORD.findall(line))
    names, seen = {}, None
    while seen != sum(map(len, names.values())):
        seen = sum(map(len, names.values()))
        for file, more in uncited(texts, counted).items():
            names.setdefault(file, []).extend(it for it in more if it not in names.get(file, []))
    wanted = [it for it in sorted(names) if not sys.argv[1:] or it.relative_to(ROOT).parts[1] in sys.argv[1:]]
    for file in wanted:
        print(file.relative_to(ROOT), *names[file])
    print(f"{sum(len(names[it]) for it in wanted)} lemmas that nothing cites")
    return 1 if wanted else 0


if __name__ == "__main__":
    sys.exit(main())
