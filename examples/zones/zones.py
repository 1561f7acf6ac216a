#!/usr/bin/env python3
"""Writes one iCalendar object with a VTIMEZONE for each zone of the system's tzdata, for `roombox adapt --zones FILE`:

    python3 examples/zones/zones.py > zones.ics
    python3 examples/zones/zones.py --from 1990 Europe/Berlin Asia/Tokyo > two.ics

What it says of a zone is right from the first day of a year on, 2000 if --from says no other. README.md tells the rest.
"""
import argparse
import datetime as dt
import zoneinfo

# the last year whose changes are written as dates, where they follow no rule
LAST_YEAR = 2037
# how many years a rule has to hold for: in so many each date of a week comes up
RULE_YEARS = 40
# not zones of a place, but what a system makes of them
NO_NAMES = {"localtime", "posixrules", "Factory"}
UTC = dt.timezone.utc
# no two changes since 2000 are nearer than this
STEP = dt.timedelta(days=3)
WEEKDAYS = ["MO", "TU", "WE", "TH", "FR", "SA", "SU"]


def offset_at(zone, instant):
    return instant.astimezone(zone).utcoffset()


def change_between(zone, early, late):
    """The first instant with the offset of the later one; there is one change between the two."""
    wanted = offset_at(zone, late)
    while late - early > dt.timedelta(seconds=1):
        middle = (early + (late - early) / 2).replace(microsecond=0)
        if offset_at(zone, middle) == wanted:
            late = middle
        else:
            early = middle
    return late


def changes_of(zone, first_year, last_year):
    """The changes of those years: the local time before the clocks are set, the offset before and the offset after."""
    early = dt.datetime(first_year, 1, 1, tzinfo=UTC)
    end = dt.datetime(last_year + 1, 1, 1, tzinfo=UTC)
    before = offset_at(zone, early)
    while early < end:
        late = early + STEP
        after = offset_at(zone, late)
        if before != after:
            at = change_between(zone, early, late)
            yield at.replace(tzinfo=None) + before, before, after
        early, before = late, after


def rule_of(changes):
    """The RRULE of one change a year, all in one month, on one weekday, at one time and with the same offsets. None where there is none."""
    kinds = {(local.month, local.weekday(), local.time(), before, after) for local, before, after in changes}
    if len(kinds) != 1:
        return None
    (month, weekday, _, _, _), = kinds
    first = min(local.day for local, _, _ in changes)
    last = max(local.day for local, _, _ in changes)
    if last - first != 6:
        return None
    rule = f"RRULE:FREQ=YEARLY;BYMONTH={month};BYDAY="
    month_days = (dt.date(2001 + month // 12, month % 12 + 1, 1) - dt.timedelta(days=1)).day
    if last == month_days and month != 2:
        return f"{rule}-1{WEEKDAYS[weekday]}"
    if first % 7 == 1:
        return f"{rule}{first // 7 + 1}{WEEKDAYS[weekday]}"
    days = ",".join(str(day) for day in range(first, last + 1))
    return f"{rule}{WEEKDAYS[weekday]};BYMONTHDAY={days}"


def rules_from(changes, year):
    """The two rules that the changes follow from a year on, each with its first change. None where they don't."""
    later = [change for change in changes if change[0].year >= year]
    ahead = [change for change in later if change[2] > change[1]]
    back = [change for change in later if change[2] < change[1]]
    if len(ahead) != RULE_YEARS + LAST_YEAR - year + 1 or len(back) != len(ahead):
        return None
    rules = [(group[0], rule_of(group)) for group in (ahead, back)]
    return rules if all(rule for _, rule in rules) else None


def offset_text(offset):
    seconds = int(offset.total_seconds())
    text = "%s%02d%02d" % ("-" if seconds < 0 else "+", abs(seconds) // 3600, abs(seconds) // 60 % 60)
    return text + ("%02d" % (abs(seconds) % 60) if seconds % 60 else "")


def part_lines(change, more):
    local, before, after = change
    kind = "DAYLIGHT" if after > before else "STANDARD"
    return [f"BEGIN:{kind}", f"DTSTART:{local:%Y%m%dT%H%M%S}", f"TZOFFSETFROM:{offset_text(before)}", f"TZOFFSETTO:{offset_text(after)}",
            *more, f"END:{kind}"]


def date_parts(changes):
    """A part for each two offsets, with a date for each change from the one to the other."""
    groups = {}
    for change in changes:
        groups.setdefault(change[1:], []).append(change)
    lines = []
    for group in groups.values():
        dates = [f"RDATE:{local:%Y%m%dT%H%M%S}" for local, _, _ in group[1:]]
        lines += part_lines(group[0], dates)
    return lines


def zone_lines(name, first_year):
    """The VTIMEZONE of a zone, right from the year on."""
    zone = zoneinfo.ZoneInfo(name)
    changes = list(changes_of(zone, first_year, LAST_YEAR + RULE_YEARS))
    # Rules begin in the earliest year since when there are no others; what comes before it is dates.
    for year in range(first_year, LAST_YEAR + 1):
        rules = rules_from(changes, year)
        if rules:
            lines = date_parts([change for change in changes if change[0].year < year])
            for first, rule in rules:
                lines += part_lines(first, [rule])
            break
    else:
        lines = date_parts([change for change in changes if change[0].year <= LAST_YEAR])
    if not lines:
        offset = offset_at(zone, dt.datetime(first_year, 1, 1, tzinfo=UTC))
        lines = part_lines((dt.datetime(1970, 1, 1), offset, offset), [])
    return ["BEGIN:VTIMEZONE", f"TZID:{name}", *lines, "END:VTIMEZONE"]


def main():
    parser = argparse.ArgumentParser()
    parser.add_argument("--from", dest="first_year", type=int, default=2000, metavar="YEAR")
    parser.add_argument("names", nargs="*", metavar="NAME")
    words = parser.parse_args()
    names = words.names or sorted(zoneinfo.available_timezones() - NO_NAMES)
    lines = ["BEGIN:VCALENDAR", "VERSION:2.0", "PRODID:-//roombox//zones of tzdata//EN"]
    for name in names:
        lines += zone_lines(name, words.first_year)
    lines += ["END:VCALENDAR", ""]
    print("\r\n".join(lines), end="")


if __name__ == "__main__":
    main()
