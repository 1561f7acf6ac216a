#!/usr/bin/env python3
"""Measures `roombox adapt` on what calendar programs write of each zone: the table of docs/DOORS.md.

    python3 docs/tables/doors.py bin/roombox FOLDER [ZONES]

FOLDER has a file NAME.zones for each producer, which the programs of docs/tables/producers/ write: records ended by an octet 0, each a line with the zone's name
and its VTIMEZONE. A record's first line may begin with `single`, `endless` or `moved`, where the VTIMEZONE is for that meeting alone. NAME.objects has
whole objects in the same form. The meeting is of 15 April 2025 at 09:00: a single, one that is repeated each week for ever, and an instance moved to
11:00. A row a producer: how many objects a room reads as they are, and how many after `adapt`, without ZONES and with it; then the zones that stay
refused, and those whose instances up to 2036 aren't those of zoneinfo, by name: `own` where the producer's own text says so, WRONG where it doesn't.
"""

import bisect
import collections
import datetime as dt
import re
import subprocess
import sys
import zoneinfo
from pathlib import Path

from dateutil.rrule import rrulestr

KINDS = ("single", "endless", "moved")
FORM = "%Y%m%dT%H%M%S"
FIRST = dt.datetime(2025, 4, 15, 9)
WEEKS = 559
END = dt.datetime(2038, 1, 1)
UTC = dt.timezone.utc
PREAMBLE = b"now 20250102T000000Z\nroom mailto:room1@example.com\n\n"
Meeting = collections.namedtuple("Meeting", "kind zone octets")


# ---- the objects

def lines_of(octets):
    return octets.replace(b"\r\n", b"\n").replace(b"\n ", b"").decode().splitlines()


def event_lines(kind, name):
    quoted = f'"{name}"' if set(name) & set(":;,") else name
    times = {
        "single": [("DTSTART", 9), ("DTEND", 10)],
        "endless": [("DTSTART", 9), ("DTEND", 10)],
        "moved": [("RECURRENCE-ID", 9), ("DTSTART", 11), ("DTEND", 12)],
    }[kind]
    lines = [f"{word};TZID={quoted}:20250415T{hour:02}0000" for word, hour in times]
    return ["BEGIN:VEVENT", "UID:u", "DTSTAMP:20250101T080000Z", "ORGANIZER:mailto:ann@example.com", "ATTENDEE:mailto:room1@example.com",
            *lines, *(["RRULE:FREQ=WEEKLY"] if kind == "endless" else []), "END:VEVENT"]


def with_event(kind, zone, vtimezone):
    """The object of a VTIMEZONE, or of none where it is empty."""
    # ICU writes its property without a name where a program doesn't give it one
    text = [line if ":" in line or line.startswith(" ") else f"X-TZINFO:{line}" for line in vtimezone.decode().splitlines() if line]
    said = [line.partition(":")[2] for line in lines_of(vtimezone) if line.startswith("TZID")]
    name = said[0] if said else zone
    head = ["BEGIN:VCALENDAR", "VERSION:2.0", "PRODID:x", "METHOD:REQUEST"]
    return "\r\n".join([*head, *text, *event_lines(kind, name), "END:VCALENDAR", ""]).encode()


def meetings(path):
    for record in path.read_bytes().split(b"\0"):
        head, _, text = record.partition(b"\n")
        *kind, zone = head.decode().split(" ")
        if not zone:
            continue
        for each in kind or KINDS:
            yield Meeting(each, zone, text if path.suffix == ".objects" else with_event(each, zone, text))


# ---- the program

def adapted(program, octets, words=()):
    """The objects of a stream afterwards."""
    stream = b"\r\n".join(octets)
    out = subprocess.run([program, "adapt", *words], input=stream, stdout=subprocess.PIPE, check=True).stdout
    return [part.lstrip() + b"END:VCALENDAR\r\n" for part in out.split(b"END:VCALENDAR")[:-1]]


def refused(program, octets):
    """The places of the objects that a room refuses."""
    stream = PREAMBLE + b"\r\n".join(octets)
    out = subprocess.run([program, "serve"], input=stream, stdout=subprocess.PIPE, check=True).stdout
    return {int(place) - 1 for place in re.findall(rb"^REFUSED;OBJECT=(\d+):", out, re.MULTILINE)}


# ---- what a VTIMEZONE says

def offset_of(text):
    sign, hours, minutes, seconds = re.fullmatch(r"([+-])(\d\d)(\d\d)(\d\d)?", text).groups()
    size = dt.timedelta(hours=int(hours), minutes=int(minutes), seconds=int(seconds or 0))
    return -size if sign == "-" else size


def local_of(text):
    return dt.datetime.strptime(text[:15], FORM)


def local_onsets(part, start, before):
    """The local times of the onsets of STANDARD or DAYLIGHT."""
    onsets = {local_of(text) for text in part["RDATE"]}
    if "RRULE" not in part:
        return onsets | {start}
    until = re.search(r";?UNTIL=(\d{8}T\d{6})(Z?)", part["RRULE"])
    last = END
    if until:
        last = min(local_of(until[1]) + (before if until[2] else dt.timedelta()), END)
    rule = part["RRULE"].replace(until[0], "") if until else part["RRULE"]
    return onsets | set(rrulestr(rule.strip(";"), dtstart=start).between(start, last, inc=True))


def parts_of(octets):
    """The properties of each STANDARD and DAYLIGHT, of the VTIMEZONE that the meeting names."""
    zones, name, part = collections.defaultdict(list), None, None
    wanted = None
    for line in lines_of(octets):
        head, _, value = line.partition(":")
        word = head.partition(";")[0]
        if line in ("BEGIN:STANDARD", "BEGIN:DAYLIGHT"):
            part = {"RDATE": []}
        elif line in ("END:STANDARD", "END:DAYLIGHT"):
            zones[name].append(part)
            part = None
        elif part is not None and word == "RDATE":
            part["RDATE"] += value.split(",")
        elif part is not None:
            part[word] = value
        elif word == "TZID":
            name = value
        elif word in ("DTSTART", "RECURRENCE-ID") and "TZID=" in line:
            wanted = re.search(r'TZID="?(.*?)"?(;VALUE=DATE-TIME)?:\d{8}T', line)[1]
    return zones[wanted]


def starts(octets, locals_):
    """What the local times mean by the object's own text."""
    changes = []
    for part in parts_of(octets):
        before, after = offset_of(part["TZOFFSETFROM"]), offset_of(part["TZOFFSETTO"])
        changes += [(local - before, before, after) for local in local_onsets(part, local_of(part["DTSTART"]), before)]
    changes.sort()
    instants = [change[0] for change in changes]

    def offset_at(instant):
        place = bisect.bisect_right(instants, instant)
        return changes[place - 1][2] if place else changes[0][1]

    offsets = {change[1] for change in changes} | {change[2] for change in changes}
    return [min((local - offset for offset in offsets if offset_at(local - offset) == offset), default=None) for local in locals_]


def judged(before, after, meeting):
    """Whether its instances are those of zoneinfo, or else those of its own text."""
    count = WEEKS if meeting.kind == "endless" else 1
    first = FIRST.replace(hour=11) if meeting.kind == "moved" else FIRST
    locals_ = [first + dt.timedelta(weeks=week) for week in range(count)]
    zone = zoneinfo.ZoneInfo(meeting.zone)
    found = starts(after, locals_)
    if found == [local.replace(tzinfo=zone).astimezone(UTC).replace(tzinfo=None) for local in locals_]:
        return "as zoneinfo"
    return "own" if parts_of(before) and found == starts(before, locals_) else "WRONG"


# ---- the table

def measure(program, path, zones):
    all_ = list(meetings(path))
    octets = [meeting.octets for meeting in all_]
    as_came = refused(program, octets)
    for words in [()] + ([("--zones", zones)] if zones else []):
        after = adapted(program, octets, words)
        assert len(after) == len(all_), "as many objects come out as go in"
        left = refused(program, after)
        for kind in KINDS:
            places = [place for place, meeting in enumerate(all_) if meeting.kind == kind]
            print(path.stem, kind, *words[:1], f"{len(places)} zones, read as they came {len(set(places) - as_came)}, now {len(set(places) - left)}", flush=True)
            print("  refused:", *[all_[place].zone for place in places if place in left])
            changed = [place for place in places if place in as_came and place not in left]
            says = {place: judged(octets[place], after[place], all_[place]) for place in changed}
            for word in ("own", "WRONG"):
                names = [all_[place].zone for place in changed if says[place] == word]
                if names:
                    print(f"  {word}:", *names)


def main():
    program, folder, *zones = sys.argv[1:]
    for path in sorted(Path(folder).glob("*.*")):
        if path.suffix in (".zones", ".objects"):
            measure(program, path, zones[0] if zones else None)


if __name__ == "__main__":
    main()
