"""Tries planted edits: wrong programs, one small change each, that the prover must refuse.

    python3 tools/attack.py [CRATE ..] [--since COMMIT] [--left] [--lanes N]
    python3 tools/attack.py --check      tries none: each edit has to apply, those that ATTACKS names have to be there, no two may make the
                                         same program, and there are at most 500

With no crate: all that have a folder planted/. --since takes the crates that changed since a commit, and those above them. The verdict of each
edit goes into out/attack.tsv, as soon as it is known: its crate and name, the verdict, and a sum of its text and of the sources, definitions and
proofs of its crate and of all that it uses. --left takes the edits that this file doesn't have as refused with the sources as they are.

The edits are in crates/NAME/planted/*.edit, in the form of must-fail/: a line `file: src/lib.rt`, then pairs of lines `old: TEXT` and
`new: TEXT`, where the old text occurs once in the file; here a text may go on with the lines below it. `rt ci` tries those of must-fail/ one
by one; these are tried in rounds, for a fifth of the time or less. A round is one `rt check --jobs 1` of a fresh copy of the proved crate with edits
of different functions in it, at most 24: with more of them a check takes more memory than that of the crate itself, and what is cut off is
lost. A round looks at these functions only (--only), not at those that call them. Each edit is judged by the goals of its own function: a function that
fails only because it calls another one doesn't count. What is outside src/, or in no function's body, is tried alone, by the functions of its modules,
and so is each edit that its round didn't refuse; what these don't refuse is tried by a check of the whole crate. An edit is let through where the crate
is still proved with it alone; one that can't be applied or read shows nothing, and counts as let through.
The last line is `N refused, M let through`. The status is 0 where none was let through, 1 where one was, 2 where nothing could be tried.
"""

import argparse
import hashlib
import os
import re
import resource
import subprocess
import sys
import tempfile
from collections import namedtuple
from concurrent.futures import ThreadPoolExecutor

from repository import CRATES, QUICK_RT, ROOT, copied, crates_below

FUNCTION = re.compile(r"^( *)(?:pub(?:\([^)]*\))? )?(?:const )?(?:unsafe )?fn (\w+)")
IMPL = re.compile(r"^impl(?:<[^{]*?>)? (?:([\w:]+)(?:<.*>)? for )?&?(?:'\w+ )?(?:mut )?(\w+)")
# a type of std that a trait of ours is written for: rt check spells it in one word, as VecU8
OF_STD = re.compile(r"^impl (\w+) for (&\[u8\]|Vec<u8>)")
VERDICT = re.compile(r"^fn (\S+): (.*)$", re.MULTILINE)
# where the front end couldn't read a source: the file, the line, and what is wrong there
ERROR_AT = re.compile(r"^(?:\./)?(src/\S+?\.rt):(\d+):\d+: (error.*)$", re.MULTILINE)
BY_A_CALL = re.compile(r"no proof: it calls .* not proved")
# the second is said of a closure with conditions
PROVED = ("proved", "proved where its callers give what it asks")
# a function or module that --only names and the crate hasn't, or has several times
UNFIT_PATH = re.compile(r"^rattle: error: .*", re.MULTILINE)
# a goal that no proof text names
UNPROVED = re.compile(r"^note: (?:\./)?(src/\S+?\.rt):(\d+):\d+: it is not proved ", re.MULTILINE)
# what a proof file says where an edit took away a name that it cites; such a refusal shows little
BY_A_NAME = re.compile(r"has no field|is not in scope|has no `|was not admitted")
# a lemma that isn't proved any more, and so what cites it isn't
OF_A_LEMMA = re.compile(r"depends? on `([^`]+)`, which was (?:not admitted|rejected)")
# the lemmas that weren't looked at for that reason
NOT_CHECKED = re.compile(r"^\S+: error: (\d+ declarations? that depends? on `[^`]+`, .*) not checked: (.*)$", re.MULTILINE)

LEDGER, PAGE = ROOT / "out" / "attack.tsv", ROOT / "docs" / "ATTACKS.md"
# edits of a round, and in all
MOST, MOST_IN_ALL = 24, 500

# An edit: its crate, its name, its (file, old, new), and the ends of the names of the functions that it changes; None where one isn't known.
Edit = namedtuple("Edit", "crate name pairs functions")


def pairs_of(text):
    """The (file, old, new) of an edit. A text goes on with the lines below it; a `new:` without a text drops the old one."""
    pairs, file, texts = [], None, None
    for line in text.rstrip("\n").split("\n"):
        if line.startswith("file: "):
            file, texts = line[len("file: ") :].strip(), None
        elif line.startswith("old: "):
            texts = [[line[len("old: ") :]], []]
            pairs.append((file, *texts))
        elif line.startswith("new:") and texts and not texts[1]:
            texts[1].append(line[len("new:") :].removeprefix(" "))
        elif texts:
            texts[1 if texts[1] else 0].append(line)
    return [(file, "\n".join(old), "\n".join(new)) for file, old, new in pairs if new]


def function_at(crate, file, text, place):
    """The end of the name of the function whose body holds a place of a source text, as rt check prints it: a method is named after its type's module."""
    kind, found, is_body = "", None, False
    for line in text.split("\n")[: text[:place].count("\n") + 1]:
        if line.startswith("impl"):
            match, of_std = IMPL.match(line), OF_STD.match(line)
            kind = match[2] + (match[1] or "").rpartition(":")[2] if match else "?"
            if of_std:
                kind = ("RefSliceU8" if of_std[2] == "&[u8]" else "VecU8") + of_std[1]
        elif line.startswith("}"):
            kind, found = "", None
        if match := FUNCTION.match(line):
            # the body begins at the end of a line, or below the clauses
            found, is_body = (match[1], match[2]), line.endswith("{")
        elif found and line == found[0] + "}":
            found = None
        elif found and line == found[0] + "{":
            is_body = True
    module = [] if file in ("src/lib.rt", "src/main.rt") else file[len("src/") : -len(".rt")].split("/")
    return "::".join(["", kind, found[1]] if kind else [crate, *module, found[1]]) if found and is_body else None


def read_edit(crate, path):
    """An edit of a file, and why it can't be applied, if so."""
    pairs, functions, texts, wrong = pairs_of(path.read_text(encoding="utf-8")), set(), {}, None
    for file, old, new in pairs:
        source = CRATES / crate / file
        text = texts.get(file) or (source.read_text(encoding="utf-8") if source.is_file() else "")
        if text.count(old) != 1:
            wrong = wrong or f"an old text occurs in {file} {text.count(old)} times"
        if old == new:
            wrong = wrong or "it changes nothing"
        functions.add(function_at(crate, file, text, text.find(old)) if file.startswith("src/") else None)
        # a further pair applies to what the earlier ones made
        texts[file] = text.replace(old, new)
    return Edit(crate, path.stem, pairs, None if None in functions else frozenset(functions)), wrong if pairs else "it has no pair"


def rounds_of(edits):
    """Edits of different functions together, so many at most; those of no known function alone."""
    rounds = []
    for edit in edits:
        fits = lambda it: len(it) < MOST and all(other.functions and not other.functions & edit.functions for other in it)
        room = next((it for it in rounds if edit.functions and fits(it)), None)
        rounds.append([edit]) if room is None else room.append(edit)
    return rounds


def edited(crate, edits):
    """The texts of the files with these edits, and the first edit whose old text isn't there once beside the others."""
    texts = {}
    for edit in edits:
        for file, old, new in edit.pairs:
            text = texts.get(file) or (CRATES / crate / file).read_text(encoding="utf-8")
            if text.count(old) != 1:
                return texts, edit
            texts[file] = text.replace(old, new)
    return texts, None


def paths_of(crate, edit):
    """The names, as --only takes them, of the functions of an edit or, where these aren't known, of the modules of its files; none where that isn't known."""
    if edit.functions:
        return {it[2:] if it.startswith("::") else it.partition("::")[2] for it in edit.functions}
    found = set()
    for file, _, _ in edit.pairs:
        part, _, path = file.partition("/")
        module = path.rpartition(".")[0]
        if part == "specs":
            module = re.sub(r"(?<=[a-z])([A-Z])", r"_\1", module).lower()
        if part in ("src", "specs"):
            if module in ("lib", "main") or not (CRATES / crate / "src" / f"{module}.rt").is_file():
                return set()
            found.add(module.replace("/", "::"))
    return found


def checked(crate, below, texts, paths):
    """What rt check says of a copy of the crate with these texts, of these functions and modules or, of none, of all; and whether that is proved."""
    with tempfile.TemporaryDirectory(prefix="attack-") as room:
        folder = copied(crate, below, room)
        for file, text in texts.items():
            (folder / file).write_text(text, encoding="utf-8")
        how = {"stdin": subprocess.DEVNULL, "stdout": subprocess.PIPE, "stderr": subprocess.STDOUT, "errors": "replace"}
        only = [word for it in sorted(paths) for word in ("--only", it)]
        ran = subprocess.run([*QUICK_RT, "check", "--jobs", "1", *only], cwd=folder, **how)
        return ran.stdout, ran.returncode == 0


def misread(said, texts, edits):
    """The edit at which, or next to which, the front end says that it can't read a source, and what it says."""
    if not (found := ERROR_AT.search(said)):
        return None, said[:200]
    file, line, what = found[1], int(found[2]), found[3]

    def distance(edit):
        places = [(texts[file].find(new) if new else -1, new) for at, _, new in edit.pairs if at == file]
        lines = [(texts[file][:at].count("\n") + 1, new.count("\n")) for at, new in places if at >= 0]
        return min((max(first - line, line - first - more, 0) for first, more in lines), default=len(texts[file]))

    return min((it for it in edits if any(at == file for at, _, _ in it.pairs)), key=distance, default=None), what


def is_in(name, functions):
    """Is the name that of one of these functions, or of a closure in one (`module::fn::FUNCTION::any`; of a method, of any module)?"""
    for it in functions:
        above, _, own = it.rpartition("::")
        closure = f"::fn::{own}::" if it.startswith("::") else f"{above}::fn::{own}::"
        # where a type has several, From is spelled with what it is from
        if name.endswith(it) or closure in name or (it.endswith("From::from") and re.search(rf"{it[:-6]}\w+::from$", name)):
            return True
    return False


def is_open(crate, said, functions, texts):
    """Is a goal of one of these functions open for which no proof text was written? It is told at the function's head, or in its body."""
    for file, line in UNPROVED.findall(said):
        text = texts.get(file) or (CRATES / crate / file).read_text(encoding="utf-8")
        lines = text.split("\n")
        starts = (sum(len(it) + 1 for it in lines[:at]) for at in range(int(line) - 1, min(int(line) + 30, len(lines))))
        if next((it for it in (function_at(crate, file, text, at) for at in starts) if it), None) in functions:
            return True
    return False


def is_by_name(said, error, seen=frozenset()):
    """Is an error about a name alone? If it is about a lemma that isn't proved any more, the errors of that lemma decide, or of what it cites."""
    lemma = OF_A_LEMMA.search(error)
    if not lemma or lemma[1] in seen:
        return bool(lemma or BY_A_NAME.search(error))
    own = re.findall(rf"^(?:\./)?proofs/\S+: error: (`{re.escape(lemma[1])}`: .*(?:\n[ \t].*)*)$", said, re.MULTILINE)
    cited = [why for why, names in NOT_CHECKED.findall(said) if lemma[1] in re.split("[ ,()]+", names)]
    return all(is_by_name(said, it, seen | {lemma[1]}) for it in own or cited)


def refusal(said, functions):
    """How the goals of one of these functions refuse it; None where they don't. Of no functions: of any."""
    for name, verdict in VERDICT.findall(said):
        if (not functions or is_in(name, functions)) and verdict not in PROVED and not BY_A_CALL.match(verdict):
            at = re.escape("proofs/" + "/".join(name.split("::")[1:]) + "/")
            # what is wrong may be on the indented lines below
            errors = re.findall(rf"^(?:\./)?{at}\S+: error: (.*(?:\n[ \t].*)*)$", said, re.MULTILINE)
            is_named = errors and all(is_by_name(said, it) for it in errors) and "did not prove" not in verdict
            return "by a name alone" if is_named else "by its goals"
    return None


def judged(crate, said, edit, texts):
    """How the goals of the functions of an edit refuse it; None where they don't."""
    how = refusal(said, edit.functions)
    return "by its goals" if how == "by a name alone" and is_open(crate, said, edit.functions or (), texts) else how


def tried(crate, below, edits, is_whole=False):
    """Yields each edit of a round with what came of it: how it was refused, or why it was let through."""
    texts, unfit = edited(crate, edits)
    paths = [set() if is_whole else paths_of(crate, it) for it in edits]
    only = set().union(*paths) if all(paths) else set()
    if unfit and len(edits) > 1:
        yield from tried(crate, below, [it for it in edits if it is not unfit])
        yield from tried(crate, below, [unfit])
        return
    said, is_proved = checked(crate, below, texts, only)
    is_read = is_proved or "logic=not-proved" in said or "\nonly=" in said
    no_path = [] if is_read else [edit for edit, named in zip(edits, paths) if any(f"`{it}`" in line for line in UNFIT_PATH.findall(said) for it in named)]
    if no_path:
        for edit in no_path:
            yield from tried(crate, below, [edit], True)
        if rest := [it for it in edits if it not in no_path]:
            yield from tried(crate, below, rest)
    elif not is_read:
        wrong, what = misread(said, texts, edits)
        wrong = wrong or edits[0]
        yield wrong, None, f"it can't be compiled: {what}"
        if rest := [it for it in edits if it is not wrong]:
            yield from tried(crate, below, rest)
    elif len(edits) == 1 and only:
        how = None if is_proved else judged(crate, said, edits[0], texts)
        yield from [(edits[0], how, "")] if how == "by its goals" else tried(crate, below, edits, True)
    elif len(edits) == 1:
        how = None if is_proved else judged(crate, said, edits[0], texts) or (refusal(said, None) and "by the goals of another function") or "in a definition"
        yield edits[0], how, "" if how else "the crate is still proved with it"
    else:
        for edit in edits:
            how = judged(crate, said, edit, texts)
            yield from [(edit, how, "")] if how else tried(crate, below, [edit])


def sum_of(texts):
    return hashlib.sha256("\0".join(texts).encode()).hexdigest()[:12]


def sums_of(below):
    """Of each crate the sum of its sources, definitions and proofs, and of those of all that it uses."""
    own = {}
    for crate in below:
        files = sorted(it for part in ("src", "specs", "proofs") for it in (CRATES / crate / part).rglob("*") if it.is_file())
        own[crate] = sum_of(text for it in files for text in (str(it.relative_to(ROOT)), it.read_text(encoding="utf-8")))
    return {crate: sum_of(own[it] for it in sorted(below[crate])) for crate in below}


def edit_sum(edit, sums):
    return sum_of([sums[edit.crate], *(text for pair in edit.pairs for text in pair)])


def known():
    """What came of each edit when it was tried last: the verdict and the sum."""
    lines = LEDGER.read_text(encoding="utf-8").splitlines() if LEDGER.is_file() else []
    return {name: (verdict, own) for name, verdict, own in (it.split("\t") for it in lines)}


def note(results, sums):
    """Adds what came of some edits; the last line of an edit counts."""
    with open(LEDGER, "a", encoding="utf-8") as ledger:
        for edit, how, why in results:
            verdict = f"refused {how}" if how else f"LET THROUGH: {why}"
            ledger.write(f"{edit.crate}/{edit.name}\t{' '.join(verdict.split())}\t{edit_sum(edit, sums)}\n")


def attack(crate, below, edits, sums):
    """Tries a round, prints what came of it, and notes it."""
    results = list(tried(crate, below, edits))
    note(results, sums)
    for edit, how, why in results:
        if how != "by its goals":
            print(f"{crate}/{edit.name}: " + (f"refused {how}" if how else f"LET THROUGH: {why}"), flush=True)
    print(f"{crate}: {sum(1 for it in results if it[1])} of {len(edits)} refused", flush=True)
    return results


def changed_since(commit, below):
    """The crates of which a file changed since a commit, and those above them."""
    said = subprocess.run(["git", "diff", "--name-only", commit, "--", "crates"], cwd=ROOT, stdout=subprocess.PIPE, text=True, check=True).stdout
    changed = {line.split("/")[1] for line in said.splitlines()}
    return [name for name in below if changed & below[name]]


def faults(names):
    """How many edits of these crates there are, and what is wrong with them, before any is tried."""
    paths, found, programs = [it for name in names for it in sorted((CRATES / name).glob("*/*.edit"))], [], {}
    for path in paths:
        edit, wrong = read_edit(path.parts[-3], path)
        if not wrong:
            made = frozenset((file, " ".join(text.split())) for file, text in edited(edit.crate, [edit])[0].items())
            other = programs.setdefault((edit.crate, made), path)
            wrong = "" if other == path else f"the same program as that of {other.relative_to(CRATES)}"
        if wrong:
            found.append(f"{path.relative_to(CRATES)}: {wrong}")
    named = PAGE.read_text(encoding="utf-8").partition("\n## Wrong bodies that have a name\n")[2].partition("\n## ")[0]
    for crate, edits in re.findall(r"(\w+): ((?:`\w+`(?:, )?)+)", named):
        found += [f"{crate}/{it} isn't there, which {PAGE.name} names" for it in re.findall(r"\w+", edits) if not list((CRATES / crate).glob(f"*/{it}.edit"))]
    return len(paths), found + ([f"there are {len(paths)} edits, and not {MOST_IN_ALL} at most"] if len(paths) > MOST_IN_ALL else [])


def is_proved(crate):
    """Is a crate proved without an edit? Also what judges the edits has to see no refusal there."""
    how = {"stdin": subprocess.DEVNULL, "stdout": subprocess.PIPE, "stderr": subprocess.STDOUT, "errors": "replace"}
    ran = subprocess.run([*QUICK_RT, "check"], cwd=CRATES / crate, **how)
    return not ran.returncode and not refusal(ran.stdout, None)


def main():
    parser = argparse.ArgumentParser(description=__doc__.split("\n")[0])
    parser.add_argument("crates", nargs="*")
    parser.add_argument("--since", metavar="COMMIT")
    parser.add_argument("--left", action="store_true", help="the edits that weren't refused yet with these sources")
    parser.add_argument("--check", action="store_true", help="whether each edit applies; none is tried")
    parser.add_argument("--lanes", type=int, default=max(1, (os.cpu_count() or 1) // 2), help="rounds side by side, of up to 4 GB each")
    given, below = parser.parse_args(), crates_below()
    if unknown := {*given.crates} - {*below}:
        parser.error(f"no such crate: {' '.join(sorted(unknown))}")
    names = given.crates or (changed_since(given.since, below) if given.since else list(below))
    if given.check:
        count, found = faults(names)
        print(*found, f"{count} edits, {len(found)} faults", sep="\n")
        return int(bool(found))
    LEDGER.parent.mkdir(exist_ok=True)
    rounds, bad, sums, before = [], [], sums_of(below), known() if given.left else {}
    is_left = lambda it: before.get(f"{it.crate}/{it.name}", ("", ""))[1] != edit_sum(it, sums) or "LET THROUGH" in before[f"{it.crate}/{it.name}"][0]
    for crate in names:
        read = [read_edit(crate, it) for it in sorted((CRATES / crate / "planted").glob("*.edit"))]
        bad += [(edit, None, why) for edit, why in read if why]
        edits = [edit for edit, why in read if not why and is_left(edit)]
        if edits:
            print(f"{crate}: {len(edits)} edits", flush=True)
            if not is_proved(crate):
                print(f"{crate} isn't proved without an edit: see rt check in its folder", file=sys.stderr)
                return 2
            rounds += [(crate, it) for it in rounds_of(edits)]
    note(bad, sums)
    with ThreadPoolExecutor(given.lanes) as lanes:
        results = sum(lanes.map(lambda it: attack(it[0], below, it[1], sums), rounds), bad)
    through = [(edit, why) for edit, how, why in results if how is None]
    used = resource.getrusage(resource.RUSAGE_CHILDREN)
    print(f"{len(rounds)} rounds, {used.ru_utime + used.ru_stime:.0f} processor seconds with the check of what is proved")
    for edit, why in through:
        print(f"let through: {edit.crate}/{edit.name}: {why}")
    print(f"{len(results) - len(through)} refused, {len(through)} let through")
    return 1 if through else 0


if __name__ == "__main__":
    sys.exit(main())
