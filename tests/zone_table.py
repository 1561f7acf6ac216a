"""Compares the known zones of crates/text_examples with the system's: the current rules of fifteen zones as VTIMEZONEs, and what Python's zoneinfo says of them.

    python3 tests/zone_table.py             # without the program: rows.py and the gate hold the zones of roombox against the rows
    python3 tests/zone_table.py --write     # writes the files anew, when zones have changed

NAME.ics is an object whose one component is the VTIMEZONE, by the POSIX rule at the end of the system's file of
that zone. NAME.txt has a row for each onset of 2025 to 2037, one second before it, at it and after it
(`at INSTANT OFFSET`), and for local times half an hour and a day around each (`local LOCAL INSTANT`, the first of
two, and in a gap read with the offset before it, as PEP 495 has it with fold=0). A zone of no onsets has rows of
each year's first day. A rule that no accepted form can say gets the row `refused 40`. zone-names.txt has the names,
and for each of them `stdout` has the line `ok NAME ROWS`.
"""

import datetime as dt
import pathlib
import re
import sys
import zoneinfo

from lib.cases import Cases
from lib.program import ROOT

ZONES = [
    "America/New_York", "America/Sao_Paulo", "Europe/London", "Europe/Berlin", "Europe/Moscow", "Asia/Kolkata",
    "Asia/Tokyo", "Australia/Sydney", "Australia/Lord_Howe", "Pacific/Auckland", "America/Santiago",
    "Africa/Cairo", "Asia/Kathmandu", "America/St_Johns", "Pacific/Honolulu",
]
CRATE = ROOT / "crates" / "text_examples"
DATA = CRATE / "data"
FILES = pathlib.Path("/usr/share/zoneinfo")
WEEKDAYS = ["SU", "MO", "TU", "WE", "TH", "FR", "SA"]
EPOCH = dt.datetime(1970, 1, 1)
UTC = dt.timezone.utc
NAME = r"(?:<[^>]+>|[A-Za-z]+)"


def seconds(text):
    """The seconds of `[+-]h[:m[:s]]`."""
    sign = -1 if text.startswith("-") else 1
    parts = [int(x) for x in text.lstrip("+-").split(":")] + [0, 0]
    return sign * (3600 * parts[0] + 60 * parts[1] + parts[2])


def offset_text(offset):
    size = abs(offset)
    text = "%s%02d%02d" % ("-" if offset < 0 else "+", size // 3600, size // 60 % 60)
    return text + ("%02d" % (size % 60) if size % 60 else "")


def rule_date(year, month, week, weekday):
    """The date of `Mm.w.d` in a year; weekday 0 is Sunday."""
    first = dt.date(year, month, 1)
    day = first + dt.timedelta((weekday - (first.weekday() + 1)) % 7 + 7 * (week - 1))
    while day.month != month:
        day -= dt.timedelta(7)
    return day


def rule_lines(rule):
    """DTSTART and RRULE of `Mm.w.d/time`."""
    place, _, time = rule.partition("/")
    month, week, weekday = [int(x) for x in place[1:].split(".")]
    total = seconds(time) if time else 7200
    shift, second = divmod(total, 86400)
    start = dt.datetime.combine(rule_date(1970, month, week, weekday), dt.time()) + dt.timedelta(seconds=total)
    name = WEEKDAYS[(weekday + shift) % 7]
    if shift == 0:
        days = "BYMONTH=%d;BYDAY=%d%s" % (month, -1 if week == 5 else week, name)
    elif week < 5:
        numbers = [7 * week - 6 + shift + k for k in range(7)]
        days = "BYMONTH=%d;BYMONTHDAY=%s;BYDAY=%s" % (month, ",".join(map(str, numbers)), name)
    else:
        # the days after the last ones of the month: as days of the year, counted from its end
        last = (dt.date(2026, 1, 1) - dt.date(2025, month + 1, 1)).days + 1 - shift
        days = "BYYEARDAY=%s;BYDAY=%s" % (",".join(str(-last - 6 + k) for k in range(7)), name)
    return start.strftime("DTSTART:%Y%m%dT%H%M%S"), "RRULE:FREQ=YEARLY;" + days


def parts(rule):
    """The parts of a VTIMEZONE for a POSIX rule, and whether one of the accepted forms says it."""
    found = re.fullmatch(r"%s([-+:\d]+)(?:%s([-+:\d]+)?,([^,]+),([^,]+))?" % (NAME, NAME), rule)
    standard = -seconds(found[1])
    if not found[3]:
        return [("STANDARD", "DTSTART:19700101T000000", None, standard, standard)], True
    daylight = -seconds(found[2]) if found[2] else standard + 3600
    begin, end = rule_lines(found[3]), rule_lines(found[4])
    return [("STANDARD", *end, daylight, standard), ("DAYLIGHT", *begin, standard, daylight)], \
        not any("BYYEARDAY" in x[1] for x in (begin, end))


def object_text(rule):
    lines = ["BEGIN:VCALENDAR", "VERSION:2.0", "BEGIN:VTIMEZONE", "TZID:Z"]
    for kind, start, each, before, after in parts(rule)[0]:
        lines += ["BEGIN:" + kind, start] + ([each] if each else [])
        lines += ["TZOFFSETFROM:" + offset_text(before), "TZOFFSETTO:" + offset_text(after), "END:" + kind]
    return "".join(x + "\r\n" for x in lines + ["END:VTIMEZONE", "END:VCALENDAR"])


def offset_at(zone, instant):
    return int(dt.datetime.fromtimestamp(instant, UTC).astimezone(zone).utcoffset().total_seconds())


def onsets(zone):
    """The instants of 2025 to 2037 at which the offset changes."""
    at = int(dt.datetime(2025, 1, 1, tzinfo=UTC).timestamp())
    end = int(dt.datetime(2038, 1, 1, tzinfo=UTC).timestamp())
    found = []
    while at < end:
        if offset_at(zone, at) != offset_at(zone, at + 86400):
            low, high = at, at + 86400
            while high - low > 1:
                middle = (low + high) // 2
                low, high = (middle, high) if offset_at(zone, middle) == offset_at(zone, low) else (low, middle)
            found.append(high)
        at += 86400
    return found


def local_row(zone, local):
    instant = int((EPOCH + dt.timedelta(seconds=local)).replace(tzinfo=zone, fold=0).timestamp())
    return "local %s %d" % ((EPOCH + dt.timedelta(seconds=local)).strftime("%Y%m%dT%H%M%S"), instant)


def rows(zone):
    changes = onsets(zone)
    if not changes:
        changes = [int(dt.datetime(y, 1, 1, tzinfo=UTC).timestamp()) for y in range(2025, 2038)]
    for onset in changes:
        for instant in (onset - 1, onset, onset + 1):
            yield "at %d %d" % (instant, offset_at(zone, instant))
        for step in (-86400, -5400, -1800, -1, 0, 1, 1800, 5400, 86400):
            yield local_row(zone, onset + offset_at(zone, onset - 1) + step)


def main():
    cases, told = Cases(), (CRATE / "stdout").read_text().splitlines()
    names = [line for line in (DATA / "zone-names.txt").read_text().splitlines() if not line.startswith("#")]
    cases.holds("zone-names.txt", names, [place.split("/")[1].lower() for place in ZONES])
    for place in ZONES:
        name = place.split("/")[1].lower()
        rule = (FILES / place).read_bytes().split(b"\n")[-2].decode()
        lines = list(rows(zoneinfo.ZoneInfo(place))) if parts(rule)[1] else ["refused 40"]
        for file, text in ((f"{name}.ics", object_text(rule)), (f"{name}.txt", "".join(it + "\n" for it in lines))):
            if "--write" in sys.argv:
                (DATA / file).write_bytes(text.encode())
            cases.holds(file, (DATA / file).read_bytes().decode(), text)
        cases.holds(f"the line of {name} in stdout", f"ok {name} {len(lines)}" in told, True)
    cases.end()


if __name__ == "__main__":
    main()
