"""Lets calendar clients read what roombox prints: the kept calendar of a room, and its agenda that is published. Each has to show the hours that were booked.

    python3 tests/subscribers.py bin/roombox

The rooms are those of the streams in examples/ and of a few streams here; the hours that they booked in 2025 are reckoned by dateutil, as in tests/agenda.py.
The clients are khal, which shows instances itself; icalendar, by which each VEVENT of what is published is read; and vobject, by which rules are expanded. They
are Debian's packages khal, python3-icalendar and python3-vobject.
"""

import os
import re
import shutil
import subprocess
import tempfile
from datetime import datetime, timedelta
from pathlib import Path

from lib.calendars import Calendar, instances
from lib.cases import Cases
from lib.program import ROOT, kept, of_arguments, with_calendar
from lib.streams import PREAMBLE, message, vevent
from lib.streams import R1 as ROOM
from lib.zones import EPOCH, moment

# Debian's packages are there for its own Python.
PYTHON = "/usr/bin/python3"
FROM, UNTIL = "20250101T000000Z", "20260101T000000Z"

KHAL = """[calendars]
[[room]]
path = {folder}/calendar
type = calendar
[locale]
timeformat = %H:%M:%S
dateformat = %Y-%m-%d
longdateformat = %Y-%m-%d
datetimeformat = %Y-%m-%d %H:%M:%S
longdatetimeformat = %Y-%m-%d %H:%M:%S
default_timezone = UTC
local_timezone = UTC
[sqlite]
path = {folder}/khal.db
[default]
default_calendar = room
"""

# What icalendar reads of a published object: a line for each VEVENT.
BY_ICALENDAR = """
import sys
import icalendar
whole = icalendar.Calendar.from_ical(sys.stdin.buffer.read())
assert str(whole["X-WR-CALNAME"]) == str(whole["NAME"]) and "METHOD" not in whole
for event in whole.walk("VEVENT"):
    print(event["DTSTART"].dt.strftime("%Y%m%dT%H%M%SZ"), event["DTEND"].dt.strftime("%Y%m%dT%H%M%SZ"), event["SUMMARY"])
"""

# What vobject makes of a calendar: a line for each instance before the given year.
BY_VOBJECT = """
import datetime
import sys
import vobject
utc = datetime.timezone.utc
whole = vobject.readOne(sys.stdin.read())
overridden = {(e.uid.value, e.recurrence_id.value.astimezone(utc)) for e in whole.vevent_list if hasattr(e, "recurrence_id")}
for event in whole.vevent_list:
    first = event.dtstart.value
    lasts = event.dtend.value - first if hasattr(event, "dtend") else event.duration.value
    starts = [first]
    if event.getrruleset():
        starts = []
        for start in event.getrruleset(addRDate=True):
            start = start if start.tzinfo else start.replace(tzinfo=first.tzinfo)
            if start.astimezone(utc).year >= int(sys.argv[1]):
                break
            starts.append(start)
    for start in starts:
        if not hasattr(event, "recurrence_id") and (event.uid.value, start.astimezone(utc)) in overridden:
            continue
        end = start.astimezone(utc) + lasts
        print(start.astimezone(utc).strftime("%Y%m%dT%H%M%SZ"), end.strftime("%Y%m%dT%H%M%SZ"))
"""


def asked(*events):
    """A stream with a REQUEST of these VEVENTs: each a UID, the start of an hour, and more lines."""
    return message("REQUEST", *(vevent(uid, start=start, lines=("DURATION:PT1H", *more)) for uid, start, *more in events))


def streams():
    """Name, and stream, of each room."""
    found = [(path.stem, path.read_bytes().decode()) for path in sorted((ROOT / "examples").glob("*.ics-stream"))]
    return [(name, text) for name, text in found if f"room {ROOM}\n" in text.replace("\r\n", "\n")] + [
        ("an empty room", PREAMBLE),
        ("two meetings with one UID", PREAMBLE + asked(("a", "20250310T090000Z")) + asked(("a", "20250310T110000Z")).replace("ann@", "bob@")),
        ("a UID of commas", PREAMBLE + asked(("a\\,b\\;c", "20250310T090000Z"))),
        ("every second Tuesday but one, and a day more", PREAMBLE + asked(("s", "20250107T090000Z", "RRULE:FREQ=WEEKLY;INTERVAL=2;COUNT=9", "EXDATE:20250121T090000Z", "RDATE:20250122T120000Z"))),
        ("one of a series is moved", PREAMBLE + asked(("s", "20250107T090000Z", "RRULE:FREQ=DAILY;COUNT=5"), ("s", "20250109T150000Z", "RECURRENCE-ID:20250109T090000Z"))),
        ("a series without end", PREAMBLE + asked(("s", "20251201T230000Z", "RRULE:FREQ=DAILY"))),
    ]


def run(words, given=""):
    return subprocess.run(words, input=given.encode(), capture_output=True, timeout=300)


def lines_of(words, given):
    ended = run(words, given)
    if ended.returncode:
        raise RuntimeError(f"{words[:2]}: {ended.returncode}, {ended.stderr.decode()[-400:]}")
    return ended.stdout.decode().splitlines()


def shown_by_khal(text):
    """What khal shows of a calendar in 2025: starts and ends."""
    with tempfile.TemporaryDirectory() as folder:
        Path(folder, "calendar").mkdir()
        Path(folder, "config").write_text(KHAL.format(folder=folder))
        path = Path(folder, "read.ics")
        path.write_bytes(text.encode())
        environment = {**os.environ, "HOME": folder, "XDG_CONFIG_HOME": folder, "XDG_DATA_HOME": folder}
        if "BEGIN:VEVENT" in text:
            subprocess.run(["khal", "-c", f"{folder}/config", "import", "--batch", "-a", "room", path], env=environment, capture_output=True, check=True, timeout=300)
        form = "{start-date-long} {start-time} {end-date-long} {end-time}"
        ended = subprocess.run(["khal", "-c", f"{folder}/config", "list", "--notstarted", "--format", form, "--day-format", "", "2025-01-01", "2026-01-01"], env=environment,
                               capture_output=True, timeout=300)
    read = lambda day, time: (datetime.strptime(f"{day} {time}", "%Y-%m-%d %H:%M:%S") - EPOCH) // timedelta(seconds=1)
    words = [line.split() for line in ended.stdout.decode().splitlines() if re.match(r"\d{4}-", line)]
    # what lasts over midnight is listed on each of its days
    return sorted({(read(*it[:2]), read(*it[2:4])) for it in words if it[0].startswith("2025")})


def shown_by_icalendar(text):
    return sorted(tuple(moment(it) for it in line.split()[:2]) for line in lines_of([PYTHON, "-c", BY_ICALENDAR], text))


def shown_by_vobject(text):
    if "BEGIN:VEVENT" not in text:
        return []
    return sorted(tuple(moment(it) for it in line.split()) for line in lines_of([PYTHON, "-c", BY_VOBJECT, "2026"], text))


def has(module):
    return os.path.exists(PYTHON) and run([PYTHON, "-c", f"import {module}"]).returncode == 0


def clients():
    """The clients that are here: of each its name, what it reads, and how. khal and vobject know no zone of the room, which whole days and times without zone go by."""
    found = []
    if shutil.which("khal"):
        found += [("khal", "kept", shown_by_khal), ("khal", "published", shown_by_khal)]
    if has("icalendar"):
        found.append(("icalendar", "published", shown_by_icalendar))
    if has("vobject"):
        found += [("vobject", "kept", shown_by_vobject), ("vobject", "published", shown_by_vobject)]
    return found


def main():
    program, cases, readers = of_arguments(), Cases(), clients()
    for missing in {"khal", "icalendar", "vobject"} - {it[0] for it in readers}:
        cases.lacks(f"what {missing} shows", missing)
    for name, stream in streams():
        calendar = kept(program, stream)
        published = with_calendar(program, calendar, "agenda", ROOM, "--from", FROM, "--until", UNTIL, "--ics")[1]
        wanted = instances(Calendar(calendar, ROOM), moment(FROM), moment(UNTIL))
        floating = "VALUE=DATE" in calendar or re.search(r"DTSTART:\d{8}T\d{6}\r", calendar)
        for client, what, read in readers:
            if what == "published" or not floating:
                cases.holds(f"{name}: what {client} shows of what is {what}", read(calendar if what == "kept" else published), wanted)
    cases.end()


if __name__ == "__main__":
    main()
