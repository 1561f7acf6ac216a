"""Writes two tables of the documents for users: what each number means (docs/REFERENCE.md), and which zones of producers are read (docs/DOORS.md).

    python3 docs/tables/users.py [--check]

What a number means is the text that `roombox explain NUMBER` prints, as crates/sched_cli/src has it; tests/guide.py compares the table with the program.
The figures of producers are those of docs/tables/producers/refused.txt, which docs/tables/doors.py prints.
"""

import re
import sys

from pages import CRATES, ROOT, head, put, row

# a text of `explain`, as it stands in the source
EXPLAINED = re.compile(r'"(\d+): ((?:[^"\\]|\\.)+?)\. What to do: ((?:[^"\\]|\\.)+)\.\\n"')
# a line of docs/tables/producers/refused.txt
COUNTED = re.compile(r"(\w+) (single|endless|moved)( --zones)? (\d+) zones, read as they came (\d+), now (\d+)")
PRODUCERS = {
    "gnome": "GNOME (evolution-data-server 3.46)",
    "libical": "libical 3.0.16, the whole history",
    "icu": "Thunderbird's ICU 72",
    "kde": "KDE (KCalendarCore 5.103)",
    "kde --zones": "KDE, with FILE",
    "khal": "khal 0.10.5",
    "ruby": "ruby-icalendar 2.8",
    "vobject": "vobject 0.9.6",
    "none --zones": "no VTIMEZONE at all, with FILE (sabre/vobject)",
}


def refusals():
    """Each number that is explained, in their order."""
    texts = "".join(path.read_text(encoding="utf-8") for path in sorted((CRATES / "sched_cli" / "src").glob("*.rt")))
    rows = {int(number): [text.replace('\\"', '"') for text in said] for number, *said in EXPLAINED.findall(texts)}
    yield head(("No", "Meaning", "What to do"))
    for number in sorted(rows):
        yield row((str(number), *rows[number]))


def producers():
    """Of each producer and kind of meeting how many zones are read as they came, and how many behind the door."""
    counts = {}
    for producer, kind, zones, known, came, now in COUNTED.findall((ROOT / "docs" / "tables" / "producers" / "refused.txt").read_text(encoding="utf-8")):
        counts[producer + zones, kind] = f"{came}, {now} of {known}"
    yield head(("Producer", "each week, without an end", "single", "one instance moved"), 3)
    for producer, name in PRODUCERS.items():
        yield row((name, *(counts[producer, kind] for kind in ("endless", "single", "moved"))))


if __name__ == "__main__":
    sys.exit(put(__doc__, [("REFERENCE.md", "refusals", "".join(refusals())), ("DOORS.md", "producers", "".join(producers()))]))
