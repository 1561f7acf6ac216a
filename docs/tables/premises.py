"""Lists what somebody who trusts the definitions and the prover still has to believe, and writes it as a table of docs/ASSURANCE.md.

    python3 docs/tables/premises.py [--check]

Three kinds of premises are looked for in what crates offer. *Asked*: a `requires` of a call, which each caller in this repository is proved to meet,
and a caller elsewhere has to. *Represents*: a definition of a crate's own, not of `profile`, that stands left of an arrow in a clause: the clause says
nothing of a value for which it doesn't hold. *Told*: a ghost member of a trait, by which a reader, a writer or a folder says what it holds. Each is
`proved`, `tested` or `trusted`, as VERDICTS says; one without a verdict is a fault, and so is a verdict for what isn't there.
"""

import re
import sys

from pages import CRATES, DEFINED, head, put, row

import public_calls
from public_calls import blanked, closing, title
from repository import crates_below

GHOST = re.compile(r"\bghost (\w+)\b(?! *use)")

# (kind, what): (verdict, why, or where)
ASKED = "each call in this repository meets it"
TAKEN = "a law of what is taken, proved of each reader there is"
VERDICTS = {
    ("asked", "Folder::sync_temp"): ("proved", ASKED + "; a temporary has been written"),
    ("asked", "Folder::publish"): ("proved", ASKED + "; a temporary has been written"),
    ("asked", "MemoryFolder::sync_temp"): ("proved", ASKED + "; a temporary has been written"),
    ("asked", "MemoryFolder::publish"): ("proved", ASKED + "; a temporary has been written"),
    ("asked", "Rule::form_day"): ("proved", ASKED + "; a weekday"),
    ("asked", "NamedZones::named"): ("proved", ASKED + "; each table that `NamedZones::of` made has it"),
    ("asked", "EventComponent::instances_in"): ("proved", ASKED + "; the event was read from octets, which those of a `Message` were (its ghost field)"),
    ("asked", "are_apart"): ("proved", ASKED + "; a modulus below 2^40, arcs around it"),
    ("asked", "is_apart"): ("proved", ASKED + "; a modulus below 2^40, arcs around it"),
    ("asked", "reaches"): ("proved", ASKED + "; a modulus below 2^40, residues around it"),
    ("asked", "residues"): ("proved", ASKED + "; a modulus"),
    ("asked", "span_end"): ("proved", ASKED + "; years 1 to 9999, a period, a width"),
    ("asked", "Drawn::regular_from"): ("proved", ASKED + "; a series of the calendar"),
    ("asked", "Drawn::period_days"): ("proved", ASKED + "; a series of the calendar"),
    ("asked", "Drawn::width"): ("proved", ASKED + "; a series of the calendar"),
    ("asked", "Drawn::residues"): ("proved", ASKED + "; a series of the calendar, a modulus"),
    ("asked", "Drawn::begin"): ("proved", ASKED + "; a series of the calendar"),
    ("asked", "Drawn::draw"): ("proved", ASKED + "; a series of the calendar"),
    ("asked", "Drawn::single"): ("proved", ASKED + "; a single of the calendar"),
    ("represents", "Represents"): ("proved", "a room has a book that messages led to (`reached`, in its type); `new` and `take` keep it"),
    ("represents", "Keeps"): ("proved", "`new` gives an organiser that keeps the empty book, each call one that keeps the next"),
    ("represents", "RepresentsHistory"): ("proved", "`Held::new` represents no part; `take`, `take_all` and `with` each the history with one more"),
    ("represents", "RepresentsMessage"): ("proved", "a `Message` can't be made but by `Message::read`, whose clause gives it"),
    ("represents", "SaysComponent"): ("proved", "of each component of a `Message` (`Message::read`)"),
    ("represents", "HasInstances"): ("proved", "of each component of a `Message` that has its instances (`Message::read`)"),
    ("represents", "IsWorldOf"): ("proved", "`play` gives a world that is of one that the steps lead to"),
    ("represents", "PlaysTo"): ("proved", "`play` ends in a world to which its steps lead"),
    ("represents", "IsMasterOf"): ("proved", "a `Series` has a master that says it (in its type)"),
    ("represents", "SameParts"): ("proved", "a premise of the law that order and repeats don't matter, nothing else"),
    ("represents", "AreKeptClear"): ("tested", "that an older certificate is of a calendar that was clear: a premise of `extend`, which examples call, and the program doesn't"),
    ("represents", "AreKeptFrom"): ("tested", "which series an older certificate is of: a premise of `extend` and `certificate_from`, as `AreKeptClear`"),
    ("represents", "IsNaming"): ("proved", "`Naming` counts the events of a calendar as they are read; `Calendar::read_naming` gives it"),
    ("represents", "IsKeptBy"): ("proved", "the text that `Room::calendar_text` gives; there is no other"),
    ("represents", "RefusesBy"): ("proved", "which fault a refusal has; read in the other direction, of any refusal"),
    ("represents", "IfRefused"): ("proved", "which fault a refusal has; read in the other direction, of any refusal"),
    ("represents", "IfRefusedStream"): ("proved", "which fault a refusal has; read in the other direction, of any refusal"),
    ("represents", "IsObjectOf"): ("proved", "what was handed to the writer, when it says a tree"),
    ("represents", "IsComing"): ("proved", "`Drawing::new` begins with all that is coming"),
    ("represents", "IsSingleAt"): ("proved", "the single at a place of the list"),
    ("represents", "MayLeave"): ("proved", "what a stop may leave, of the folder in memory"),
    ("represents", "RunsWith"): ("proved", "the configuration spells hosts, or it doesn't"),
    ("represents", "RunsNone"): ("proved", "the configuration spells hosts, or it doesn't"),
    ("represents", "RunsLogged"): ("proved", "the configuration spells hosts, or it doesn't"),
    ("represents", "ComparesWith"): ("proved", "the configuration spells hosts, or it doesn't"),
    ("told", "Journal.passes"): ("proved", "of `Log`, which writes the line of a name that is left alone; `Nobody` is told nothing"),
    ("told", "Journal.begins"): ("proved", "of `Log`, which says the name of a new file; `Nobody` is told nothing"),
    ("told", "Journal.tells"): ("proved", "of `Log`, which writes the line of an object; `Nobody` is told nothing"),
    ("told", "Input.remaining"): ("tested", "a slice of octets and an inbox in memory tell it; a device doesn't before its end, and `device_tests` and the scripts of `tests/` compare"),
    ("told", "Input.lent"): ("tested", "what was lent and not consumed; as `remaining`"),
    ("told", "Input.has_failed"): ("tested", "`DeviceReader` marks it when a read fails: `device_tests`, `tests/failing_devices.py`"),
    ("told", "Input.has_ended"): ("tested", "`DeviceReader` marks it when a read gives nothing, and reads no more: `device_tests`, `tests/failing_devices.py`"),
    ("told", "Input.takes"): ("proved", "of a slice of octets, and of `Recorder`, which keeps the octets; of a device and of the door only what may follow them is told"),
    ("told", "Input.known_follows"): ("proved", TAKEN),
    ("told", "Input.takes_follows"): ("proved", TAKEN),
    ("told", "Input.takes_known"): ("proved", TAKEN),
    ("told", "Input.takes_more"): ("proved", TAKEN),
    ("told", "Input.takes_nothing"): ("proved", TAKEN),
    ("told", "Input.fills"): ("tested", "how often it was filled, of a reader that counts; a device doesn't"),
    ("told", "Output.contents"): ("tested", "a `Vec` tells it; a device doesn't, and `device_tests` compares"),
    ("told", "Output.has_failed"): ("tested", "`DeviceWriter` marks it when a write or a flush fails: `device_tests`, `tests/failing_devices.py`"),
    ("told", "Output.may_lose"): ("tested", "what a writer may hold back until it is flushed: `device_tests`"),
    ("told", "Folder.is_known"): ("trusted", "`MemoryFolder` tells what it holds; a disk doesn't"),
    ("told", "Folder.image"): ("trusted", "what a disk holds under each name; `MemoryFolder` is proved"),
    ("told", "Folder.may_leave"): ("trusted", "that a disk keeps what it says it has synced, and makes a link whole or not at all"),
    ("told", "Folder.moment"): ("trusted", "a count of what happened; nothing measures it"),
    ("told", "Folder.left_since"): ("trusted", "what a stop at some moment might have left, as `may_leave`"),
    ("told", "Folder.temporary"): ("trusted", "the file without a name; nobody else writes to an outbox"),
    ("told", "Folder.failed"): ("tested", "`tests/box.py` has each call of the system fail in turn"),
    ("told", "Explained.reason"): ("tested", "the failure that a `DiskFolder` noted last; `tests/box.py` has each call of the system fail in turn"),
    ("told", "Folder.counts_held"): ("proved", "which failures are counted, of each folder there is"),
    ("told", "Folder.counts_now"): ("proved", "which failures are counted, of each folder there is"),
    ("told", "Folder.only_now"): ("proved", "which failures are counted, of each folder there is"),
    ("told", "Recurs.member"): ("proved", "of `Series`, by its own contracts"),
    ("told", "Recurs.period"): ("proved", "of `Series`, by its own contracts"),
    ("told", "Recurs.regular"): ("proved", "of `Series`, by its own contracts"),
    ("told", "Recurs.listed"): ("proved", "of `Series`, by its own contracts"),
    ("told", "AttendeeLines.line"): ("proved", "of each that writes lines of attendees"),
    ("told", "Drawn.calendar"): ("proved", "of `Drawing`, whose calendar was read"),
    ("told", "Drawn.coming"): ("proved", "of `Drawing`"),
    ("told", "Drawn.count"): ("proved", "of `Drawing`"),
}
KINDS = {
    "asked": "*Asked of a caller (`requires`)*",
    "represents": "*What a value has to represent, for a clause to say something of it*",
    "told": "*What a trait's value tells, in ghost members*",
}


def own_definitions():
    """The names that a crate other than `profile` defines in its specs/, and `profile` doesn't."""
    found = {}
    for path in CRATES.glob("*/specs/**/*.antt"):
        for name in DEFINED.findall(path.read_text(encoding="utf-8")):
            found.setdefault(name, set()).add(path.relative_to(CRATES).parts[0])
    return {name for name, crates in found.items() if "profile" not in crates}


def asked(crates):
    """Each call that asks something of its caller."""
    return {("asked", title(call)) for crate in crates for call in crate.calls if any(kind == "requires" for kind, _, _ in call.clauses)}


def represented(crates):
    """Each definition of a crate's own that a clause has left of an arrow; those of laws, which call nothing, aside."""
    own, found = own_definitions(), set()
    for crate in crates:
        for call in crate.calls:
            if call.parameters or call.answer:
                for kind, _, words in call.clauses:
                    premises = words.split("→")[:-1] if kind == "ensures" else []
                    found |= {("represents", word) for part in premises for word in re.findall(r"\b[A-Z]\w+\b", part) if word in own}
    return found


def told(crates):
    """Each ghost member of a trait that crates offer."""
    found = set()
    for crate in crates:
        for module in crate.sources:
            text = blanked((CRATES / crate.name / "src" / f"{module}.rt").read_text(encoding="utf-8"))
            for trait in re.finditer(r"\bpub trait (\w+)[^{]*\{", text):
                body = text[trait.end() : closing(text, trait.end() - 1)]
                found |= {("told", f"{trait[1]}.{member}") for member in GHOST.findall(body) if member != "use"}
    return found


def rows(found):
    """The table's rows, kind by kind, in the order of VERDICTS."""
    text = head(("Premise", "It is", "Why, or where"))
    for kind, name in KINDS.items():
        text += f"| {name} | | |\n"
        text += "".join(row((f"`{what}`", *said)) for (its, what), said in VERDICTS.items() if its == kind and (its, what) in found)
    return text


def main():
    crates = [public_calls.Crate(name) for name in crates_below() if name not in public_calls.LEFT_OUT]
    found = asked(crates) | represented(crates) | told(crates)
    wrong = [f"no verdict: {kind} {what}" for kind, what in sorted(found - set(VERDICTS))]
    wrong += [f"not there: {kind} {what}" for kind, what in sorted(set(VERDICTS) - found)]
    return put(__doc__, [("ASSURANCE.md", "", rows(found))], wrong)


if __name__ == "__main__":
    sys.exit(main())
