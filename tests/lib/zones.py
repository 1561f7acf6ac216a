"""Times, and the clocks of zones: by zoneinfo, or reckoned from what a VTIMEZONE or the words of a room say."""

import re
from datetime import date, datetime, timedelta, timezone
from zoneinfo import ZoneInfo

from lib.objects import first

EPOCH = datetime(1970, 1, 1)
DAY = 86_400
# the first second of the year 10000
HORIZON = 253_402_300_800
# in so many days the calendar does the same again: 400 years
CYCLE = 146_097
WEEKDAYS = ["MO", "TU", "WE", "TH", "FR", "SA", "SU"]
# The words of a room's zone. They were written by hand, and are its rules of today, in any case from the year 2009 on; those of Sao Paulo from 2020 on.
WORDS = {
    "UTC": "+0000",
    "America/New_York": "-0500 -0400 11 1SU 0200 3 2SU 0200",
    "Europe/Berlin": "+0100 +0200 10 -1SU 0300 3 -1SU 0200",
    "Australia/Sydney": "+1000 +1100 4 1SU 0300 10 1SU 0200",
    "Pacific/Auckland": "+1200 +1300 4 1SU 0300 9 -1SU 0200",
    "Asia/Kolkata": "+0530",
    "Australia/Lord_Howe": "+1030 +1100 4 1SU 0200 10 1SU 0200",
    # what is called standard there is an hour more, and holds in summer
    "Europe/Dublin": "+0100 +0000 3 -1SU 0100 10 -1SU 0200",
    # the clocks skip the midnight of a day in March
    "America/Havana": "-0500 -0400 11 1SU 0100 3 2SU 0000",
    "America/Sao_Paulo": "-0300",
}


def part(kind, start, before, after, rule=None):
    """The lines of a part of a VTIMEZONE."""
    rules = [f"RRULE:FREQ=YEARLY;{rule}"] if rule else []
    return [f"BEGIN:{kind}", f"DTSTART:{start}", *rules, f"TZOFFSETFROM:{before}", f"TZOFFSETTO:{after}", f"END:{kind}"]


# What a VTIMEZONE says of the zones that objects name, as the program writes it again.
PARTS = {
    "Europe/Berlin": part("STANDARD", "19961027T030000", "+0200", "+0100", "BYMONTH=10;BYDAY=-1SU") + part("DAYLIGHT", "19810329T020000", "+0100", "+0200", "BYMONTH=3;BYDAY=-1SU"),
    "America/New_York": part("STANDARD", "20071104T020000", "-0400", "-0500", "BYMONTH=11;BYDAY=1SU") + part("DAYLIGHT", "20070311T020000", "-0500", "-0400", "BYMONTH=3;BYDAY=2SU"),
    "Australia/Lord_Howe": part("STANDARD", "20080406T020000", "+1100", "+1030", "BYMONTH=4;BYDAY=1SU") + part("DAYLIGHT", "20081005T020000", "+1030", "+1100", "BYMONTH=10;BYDAY=1SU"),
    "Asia/Kolkata": part("STANDARD", "19700101T000000", "+0530", "+0530"),
}


def vtimezone(zone, name=None):
    return ["BEGIN:VTIMEZONE", f"TZID:{name or zone}", *PARTS[zone], "END:VTIMEZONE"]


# ---- times: an instant is a number of seconds from 1970-01-01T00:00:00Z, and a local time the same of what a clock shows


def seconds(moment):
    return (moment - EPOCH) // timedelta(seconds=1)


def moment(text):
    """The local time of a text, in seconds from 1970-01-01T00:00:00; of a date its first."""
    return seconds(local_of(text))


def local_of(text):
    """The local time of a text; of a date its first."""
    return datetime.strptime(text.rstrip("Z"), "%Y%m%dT%H%M%S" if "T" in text else "%Y%m%d")


def stamp(instant):
    """An instant in the form of RFC 5545 3.3.5."""
    return (EPOCH + timedelta(seconds=instant)).strftime("%Y%m%dT%H%M%SZ").zfill(16)


# ---- clocks by zoneinfo


def means(local, zone):
    """The instant that a local time means by the name of a zone, None is UTC: the first of two, and in a gap the one that is read with the offset before."""
    return int(local.replace(tzinfo=ZoneInfo(zone) if zone else timezone.utc, fold=0).timestamp())


def clock(instant, zone):
    """What the clocks of a zone show at an instant."""
    return datetime.fromtimestamp(instant, ZoneInfo(zone) if zone else timezone.utc).replace(tzinfo=None)


class Known:
    """The clocks of a zone by its name."""

    def __init__(self, name):
        self.name = name

    def means(self, local):
        return means(EPOCH + timedelta(seconds=local), self.name)

    def offset(self, instant):
        return seconds(clock(instant, self.name)) - instant


# ---- clocks that are reckoned


def offset_of(text):
    sign = -1 if text[0] == "-" else 1
    return sign * (int(text[1:3]) * 3600 + int(text[3:5]) * 60 + int(text[5:7] or 0))


class Part:
    def __init__(self, own):
        self.start = moment(first(own, "DTSTART")[1])
        self.rule = first(own, "RRULE")
        self.before = offset_of(first(own, "TZOFFSETFROM")[1])
        self.after = offset_of(first(own, "TZOFFSETTO")[1])
        if self.rule:
            self.parts = dict(it.split("=") for it in self.rule[1].split(";"))
        self.years = {}

    def day(self, year):
        """The one day of a year that the rule names."""
        month = int(self.parts["BYMONTH"])
        days = [date(year, month, n) for n in range(1, 32) if valid(year, month, n)]
        numbers, word = self.parts.get("BYMONTHDAY"), self.parts.get("BYDAY")
        if word:
            count, weekday = re.fullmatch(r"([+-]?\d*)(\w\w)", word).groups()
            named = [it for it in days if it.weekday() == WEEKDAYS.index(weekday)]
            if numbers:
                return next(it for it in named if str(it.day) in numbers.split(","))
            return named[int(count) - 1 if int(count) > 0 else int(count)]
        return days[int(numbers) - 1]

    def onset(self, year):
        """That of a year, none before DTSTART."""
        if year not in self.years:
            local = seconds(datetime.combine(self.day(year), datetime.min.time())) + self.start % DAY
            self.years[year] = local - self.before if local // DAY >= self.start // DAY else None
        return self.years[year]

    def first_onset(self):
        if not self.rule:
            return self.start - self.before
        year = (EPOCH + timedelta(seconds=self.start)).year
        return next(it for it in map(self.onset, range(year, year + 3)) if it is not None)


def valid(year, month, day):
    try:
        date(year, month, day)
        return True
    except ValueError:
        return False


class Zone:
    """The clocks of a VTIMEZONE, or of UTC."""

    def __init__(self, parts=()):
        self.parts = [] if len({it for part in parts for it in (part.before, part.after)}) == 1 else list(parts)
        self.offsets = sorted({it for part in parts for it in (part.before, part.after)} or {0})
        self.firsts = [it.first_onset() for it in self.parts]

    def period(self):
        return CYCLE if len(self.parts) == 2 else 1

    def onsets(self, around):
        """The onsets in the years about an instant."""
        year = (EPOCH + timedelta(seconds=min(max(around, -62_000_000_000), HORIZON - 1))).year
        found = []
        for part in self.parts:
            if not part.rule:
                found.append((part.first_onset(), part.before, part.after))
                continue
            for it in range(max(year - 1, 1), min(year + 2, 10_000)):
                if (onset := part.onset(it)) is not None:
                    found.append((onset, part.before, part.after))
        return sorted(found)

    def offset(self, instant):
        if not self.parts:
            return self.offsets[0]
        begun = [it for it in self.onsets(instant) if it[0] <= instant]
        if begun:
            return begun[-1][2]
        return min((part.first_onset(), part.before) for part in self.parts)[1]

    def means(self, local):
        if not self.parts:
            return local - self.offsets[0]
        shown = [local - it for it in self.offsets if self.offset(local - it) == it]
        if shown:
            return min(shown)
        return next(local - before for onset, before, after in self.onsets(local) if onset + before <= local < onset + after)


def zone_of_words(words):
    """The clocks of a room, by the words of X-ROOM-ZONE."""
    offsets = words.split(" ")[:2]
    rules = words.split(" ")[2:]
    if not rules:
        lines = [("DTSTART", {}, "19700101T000000"), ("TZOFFSETFROM", {}, words), ("TZOFFSETTO", {}, words)]
        return Zone([Part(lines)])
    parts = []
    for before, after, (month, day, time) in ((offsets[1], offsets[0], rules[:3]), (offsets[0], offsets[1], rules[3:])):
        parts.append(Part([("DTSTART", {}, f"19700101T{time}00"), ("RRULE", {}, f"FREQ=YEARLY;BYMONTH={month};BYDAY={day}"), ("TZOFFSETFROM", {}, before), ("TZOFFSETTO", {}, after)]))
    return Zone(parts)
