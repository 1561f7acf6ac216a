"""Figures of the code's shape: how many private functions have one use, how many functions have more than five parameters, and how long the proofs of
each crate are.

    python3 tools/shape.py

They are read from the sources, by name inside a file: good to a few in a hundred.
"""

import re
from collections import Counter

from repository import CRATES

FUNCTION = re.compile(r"^\s*(?P<public>pub(?:\([a-z]+\))? )?(?:const )?fn (?P<name>\w+)(?:<[^>]*>)?\((?P<parameters>[^)]*)\)", re.MULTILINE)
CLAUSE = re.compile(r"\s*(?://|ensures|requires|ghost)")
# programs of examples and laws, which do nothing for a user
OTHERS = {"example_cases", "text_examples", "worked_examples", "command_examples", "schedule_examples", "device_tests", "box_laws", "sched_laws"}


def sources():
    """The code of each source file without its comments and clauses, with its crate."""
    for path in sorted(CRATES.glob("*/src/**/*.rt")):
        crate = path.relative_to(CRATES).parts[0]
        if crate not in OTHERS:
            text = path.read_text(encoding="utf-8")
            yield crate, "\n".join(it for it in text.splitlines() if not CLAUSE.match(it))


def parameters_of(function):
    """How many parameters a function has beside `self`."""
    given = (it.strip() for it in function["parameters"].split(","))
    return sum(1 for it in given if ":" in it)


def count_sources():
    """How many private functions there are, how many have one use in their file, and by crate how many functions have more than five parameters."""
    private = once = 0
    many = Counter()
    for crate, code in sources():
        for function in FUNCTION.finditer(code):
            many[crate] += parameters_of(function) > 5
            if function["public"]:
                continue
            private += 1
            once += len(re.findall(rf"\b{function['name']}\b", code)) == 2
    return private, once, +many


def main():
    private, once, many = count_sources()
    print(f"private functions: {private}, with one use in their file: {once}")
    print(f"functions of more than five parameters: {many.total()} (" + ", ".join(f"{crate} {count}" for crate, count in many.most_common()) + ")")
    for crate in sorted({crate for crate, _ in sources()}):
        lines = sum(len(it.read_text(encoding="utf-8").splitlines()) for it in (CRATES / crate / "proofs").rglob("*.antt"))
        print(f"lines of proofs of {crate}: {lines}")


main()
