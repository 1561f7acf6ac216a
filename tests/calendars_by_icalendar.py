"""Makes random calendars of one room, and compares what `roombox check` answers with what it must. What a calendar says is what icalendar, a library of
Python, parses of its text; its local times are read by zoneinfo; and which instances it confirms is worked out here, from docs/REFERENCE.md. So nothing of
roombox, and nothing that the maker of the text knows, is in the answers.

    python3 tests/calendars_by_icalendar.py bin/roombox [--calendars 100] [--seed 1]

Of 20 calendars 9 are clear, 9 have a clash, one has a series and one a wrong count in its certificate. Then the rows of the crate worked_examples are judged in
the same way, `data/calendars.txt` by their lines of `stdout`; and icalendar parses the events of `data/events.txt`, what it says is expanded with dateutil's
rruleset, and that is compared with their lines.

The years are 2009 to 2037: in these the zones have the rules that their VTIMEZONEs say. The durations are read by the library's pattern, since
its own value makes one number of days and seconds. It needs Debian's python3-icalendar.
"""

import argparse
import random
from datetime import datetime, timedelta, timezone
from functools import cache
from itertools import combinations
from zoneinfo import ZoneInfo

from dateutil.rrule import rruleset, rrulestr
from icalendar import Calendar
from icalendar.cal import types_factory
from icalendar.prop import DURATION_REGEX, vDuration

from lib.cases import Cases
from lib.program import ROOT, checked, of_arguments
from lib.streams import folded
from lib.streams import R1 as ROOM
from lib.zones import seconds

UTC = timezone.utc
CRATE = ROOT / "crates" / "worked_examples"
DAY, HALF_HOUR = timedelta(days=1), timedelta(minutes=30)


# ---- instants, without their zone: this script asks zoneinfo itself


def written(local):
    return local.strftime("%Y%m%dT%H%M%S")


def stamp(instant):
    return written(instant) + "Z"


def means(local, zone):
    """The instant that a local time means: the first of two; in a gap with the offset before."""
    return local.replace(tzinfo=zone).astimezone(UTC).replace(tzinfo=None) if zone else local


def later(instant, days, seconds, zone):
    """So many days later by the clocks of the zone, and then so many seconds."""
    if days:
        instant = means(local_time(instant, zone or UTC) + timedelta(days=days), zone)
    return instant + timedelta(seconds=seconds)


def in_seconds(at, slot, end):
    return f"{seconds(slot)} {seconds(at)} {seconds(end)}"


# ---- what a calendar says


class Length(vDuration):
    """A DURATION in days and seconds."""

    def __init__(self, length):
        self.days, self.seconds = length

    @staticmethod
    def from_ical(text):
        weeks, days, hours, minutes, seconds = (int(number or 0) for number in DURATION_REGEX.match(text).groups()[1:])
        return 7 * weeks + days, 3600 * hours + 60 * minutes + seconds


types_factory["duration"] = Length


def zone_of(value):
    """The zone of a property's times, None for UTC."""
    return ZoneInfo(value.params["TZID"]) if "TZID" in value.params else None


def read(time, zone):
    """The instant of a parsed time, by zoneinfo: the zone that the library put on it reads gaps and folds otherwise."""
    if zone is None and time.tzinfo is None:
        raise ValueError("a time without zone")
    return means(time.replace(tzinfo=None), zone)


def instant(event, name):
    return read(event[name].dt, zone_of(event[name]))


def all_of(event, name):
    """The values of all lines of that name."""
    values = event.get(name, [])
    return values if isinstance(values, list) else [values]


def instants(event, name):
    """The instants of RDATE or EXDATE."""
    return {read(time.dt, zone_of(line)) for line in all_of(event, name) for time in line.dts}


def end_of(event, start):
    """When the instance ends that begins at this instant: DTEND gives exact seconds, days of a DURATION are nominal."""
    if "DTEND" in event:
        return start + (instant(event, "DTEND") - instant(event, "DTSTART"))
    if "DURATION" in event:
        length = event["DURATION"]
        return later(start, length.days, length.seconds, zone_of(event["DTSTART"]))
    return start


def is_override(event):
    return "RECURRENCE-ID" in event


def meeting_of(event):
    """Organiser and UID. An organiser is compared in lower case."""
    organiser = event.get("ORGANIZER")
    return organiser and organiser.lower(), str(event["UID"])


def is_kept(event):
    """Whether the room has accepted the event, by the first line of its address, and it isn't cancelled."""
    answers = [attendee.params.get("PARTSTAT", "") for attendee in all_of(event, "ATTENDEE") if attendee.lower() == ROOM]
    return answers[:1] != [] and answers[0].upper() == "ACCEPTED" and event.get("STATUS", "").upper() != "CANCELLED"


def replaced_slots(events):
    """The starts that an override is for, whatever its state, each with its meeting."""
    return [(meeting_of(event), instant(event, "RECURRENCE-ID")) for event in events if is_override(event)]


def instances(event, replaced):
    """The instances of an event without RRULE, each start, slot and end: of a master those that neither EXDATE nor an override takes away."""
    start = instant(event, "DTSTART")
    if is_override(event):
        return [(start, instant(event, "RECURRENCE-ID"), end_of(event, start))]
    starts = ({start} | instants(event, "RDATE")) - instants(event, "EXDATE")
    return [(start, start, end_of(event, start)) for start in starts if (meeting_of(event), start) not in replaced]


def is_well_formed(events):
    """Whether each VEVENT has another meeting or slot, and none ends before it begins. Else the calendar is refused."""
    masters = [meeting_of(event) for event in events if not is_override(event)]
    replaced = replaced_slots(events)
    starts = [instant(event, "DTSTART") for event in events]
    ends = [end_of(event, start) for event, start in zip(events, starts)]
    twice = len(set(masters)) < len(masters) or len(set(replaced)) < len(replaced)
    return not twice and all(start <= end for start, end in zip(starts, ends))


def share_an_instant(first, second):
    """Whether two instances do. An end isn't in its instance, so one of no length shares none."""
    return max(first[0], second[0]) < min(first[2], second[2])


def said(events):
    """How many series are confirmed, how many singles, and whether two of these share an instant."""
    kept = [event for event in events if is_kept(event)]
    replaced = replaced_slots(events)
    others = [event for event in kept if "RRULE" not in event]
    singles = [single for event in others for single in instances(event, replaced)]
    clash = any(share_an_instant(*pair) for pair in combinations(singles, 2))
    return len(kept) - len(others), len(singles), clash


# ---- a random calendar

NEW_YORK, PARIS, SYDNEY = "America/New_York", "Europe/Paris", "Australia/Sydney"
LORD_HOWE, KOLKATA = "Australia/Lord_Howe", "Asia/Kolkata"
# of each zone the onset, the rule and the two offsets of STANDARD, and of DAYLIGHT if it has that
ZONES = {
    NEW_YORK: [("20071104T020000", "11;BYDAY=1SU", "-0400", "-0500"), ("20070311T020000", "3;BYDAY=2SU", "-0500", "-0400")],
    PARIS: [("19961027T030000", "10;BYDAY=-1SU", "+0200", "+0100"), ("19810329T020000", "3;BYDAY=-1SU", "+0100", "+0200")],
    SYDNEY: [("20080406T030000", "4;BYDAY=1SU", "+1100", "+1000"), ("20081005T020000", "10;BYDAY=1SU", "+1000", "+1100")],
    LORD_HOWE: [("20080406T020000", "4;BYDAY=1SU", "+1100", "+1030"), ("20081005T020000", "10;BYDAY=1SU", "+1030", "+1100")],
    KOLKATA: [("19700101T000000", None, "+0530", "+0530")],
}
ANN, BOB = "mailto:ann@example.com", "mailto:bob@example.com"
SHORT = ["PT30M", "PT1H", "PT1H", "PT1H30M", "PT2H", "P0DT1H", "PT0S"]
LONG = ["P1D", "P1D", "PT24H", "P1DT30M", "P2D", "P1W"]


def one_in(count):
    return random.randrange(count) == 0


def some(values, most):
    return random.sample(values, min(len(values), random.randint(0, most)))


def vtimezone(name):
    """The lines of a zone, its parts in any order."""
    lines = ["BEGIN:VTIMEZONE", "TZID:" + name]
    parts = list(zip(["STANDARD", "DAYLIGHT"], ZONES[name]))
    for kind, (onset, month, before, after) in random.sample(parts, len(parts)):
        rule = ["RRULE:FREQ=YEARLY;BYMONTH=" + month] if month else []
        lines += ["BEGIN:" + kind, "DTSTART:" + onset, *rule, "TZOFFSETFROM:" + before, "TZOFFSETTO:" + after, "END:" + kind]
    return lines + ["END:VTIMEZONE"]


def local_time(moment, zone):
    """What the clocks of the zone show."""
    return moment.replace(tzinfo=UTC).astimezone(zone).replace(tzinfo=None)


@cache
def changes(name, year):
    """The instants of a year at which the clocks of the zone are set."""
    times = [datetime(year, 1, 1) + HALF_HOUR * count for count in range(48 * 365)]
    offsets = [local_time(time, ZoneInfo(name)) - time for time in times]
    return [time for time, before, after in zip(times[1:], offsets, offsets[1:]) if before != after]


def shown(moment, zone):
    """What the clocks of the zone show, or, now and then, a time that they skip and that means the same."""
    local = local_time(moment, zone)
    skipped = [local - back for back in (HALF_HOUR, 2 * HALF_HOUR) if means(local - back, zone) == moment]
    return random.choice([local, *skipped])


class Times:
    """The times of a calendar: on half hours around one instant, many of them near it or where something ends."""

    def __init__(self):
        self.zones = random.sample(list(ZONES), random.choices([0, 1, 2], [5, 5, 1])[0])
        year = random.randint(2009, 2036)
        some_day = datetime(year, 1, 2) + timedelta(days=random.randrange(360), hours=9)
        every = [(zone, change) for zone in self.zones for change in changes(zone, year)]
        self.change = random.choice(every) if every and random.randrange(6) else None
        self.middle = self.change[1] if self.change else some_day
        self.reach = random.choice([10, 40, 120])
        self.ends = []

    def moment(self):
        if self.ends and one_in(3):
            return random.choice(self.ends)
        reach = random.choice([4, self.reach, self.reach])
        return self.middle + HALF_HOUR * random.randint(-reach, reach)

    def line(self, name, moments):
        """A property with these times, in UTC or by the clocks of a zone."""
        zone = random.choice([None, *self.zones, *self.zones])
        if zone is None:
            return name + (";VALUE=DATE-TIME" if one_in(12) else "") + ":" + ",".join(map(stamp, moments))
        quoted = zone if random.randrange(8) else f'"{zone}"'
        return f"{name};TZID={quoted}:" + ",".join(written(shown(moment, ZoneInfo(zone))) for moment in moments)

    def lines(self, name, moments):
        """One property, or two, with these times."""
        cut = random.choice([0, 0, len(moments) // 2])
        return [self.line(name, part) for part in (moments[:cut], moments[cut:]) if part]

    def length(self, start):
        """DURATION, DTEND, or neither."""
        if one_in(3):
            end = start + HALF_HOUR * random.choice([0, 1, 2, 2, 3, 4, 48, 49])
            self.ends.append(end)
            return [self.line("DTEND", [end])]
        text = random.choice(LONG if one_in(4) else SHORT)
        days, seconds = Length.from_ical(text)
        self.ends += [later(start, days, seconds, zone) for zone in [None, *map(ZoneInfo, self.zones)]]
        return ["DURATION:" + text] if random.randrange(12) else []


def attendees():
    """The lines of those asked; the room has accepted in three of four."""
    answer = random.choice(["DECLINED", "TENTATIVE", "NEEDS-ACTION", None]) if one_in(4) else random.choice(["ACCEPTED"] * 9 + ["accepted"])
    address = ROOM if random.randrange(8) else "MAILTO:R1@Example.COM"
    name = ';CN="Room: 1, big"' if one_in(10) else ""
    lines = ["ATTENDEE" + name + (f";PARTSTAT={answer}" if answer else "") + ":" + address]
    if one_in(10):
        lines.append("ATTENDEE;PARTSTAT=DECLINED:" + ROOM)
    if one_in(8):
        lines.insert(0, "ATTENDEE;PARTSTAT=ACCEPTED:mailto:cid@example.com")
    return lines if not one_in(25) else ["ATTENDEE;PARTSTAT=ACCEPTED:mailto:r2@example.com"]


def plain(meeting, lines):
    """A VEVENT of a meeting that the room has accepted."""
    organiser, uid = meeting
    return ["BEGIN:VEVENT", "UID:" + uid, *lines, "ORGANIZER:" + organiser, "ATTENDEE;PARTSTAT=ACCEPTED:" + ROOM, "END:VEVENT"]


def vevent(meeting, lines):
    """A VEVENT of a meeting with these lines, in any order, in any state."""
    organiser, uid = meeting
    lines = lines + ["UID:" + uid]
    if organiser:
        lines.append("ORGANIZER:" + (organiser if random.randrange(8) else "MAILTO:" + organiser[7:].title()))
    if one_in(4):
        lines.append("STATUS:" + random.choice(["CONFIRMED", "TENTATIVE", "CANCELLED", "CANCELLED", "cancelled"]))
    if one_in(6):
        lines.append(random.choice(["TRANSP:TRANSPARENT", "SEQUENCE:2", "DTSTAMP:20250101T000000Z", "SUMMARY:Plan\\, and talk"]))
    random.shuffle(lines)
    # attendees are in their order: of two lines of one address the first counts
    place = random.randint(0, len(lines))
    alarm = ["BEGIN:VALARM", "TRIGGER:-PT5M", "DURATION:P1D", "ATTENDEE;PARTSTAT=ACCEPTED:" + ROOM, "END:VALARM"] if one_in(40) else []
    return ["BEGIN:VEVENT", *lines[:place], *attendees(), *lines[place:], *alarm, "END:VEVENT"]


def another(meeting):
    """A meeting of the same UID, of another organiser or of none."""
    organiser, uid = meeting
    return random.choice([one for one in (ANN, BOB, None) if one != organiser]), uid


def vevents(times, meeting):
    """The VEVENTs of a meeting: a master, overrides, or both."""
    starts = [times.moment() for _ in range(random.choice([1, 1, 2, 3, 5]))]
    odd = [times.moment() for _ in range(2)]
    taken = some(starts, 2) + some(odd, 1) if one_in(2) else []
    lines = [times.line("DTSTART", starts[:1]), *times.length(starts[0])]
    lines += times.lines("RDATE", starts[1:] + some(starts, 1) if len(starts) > 1 else [])
    lines += times.lines("EXDATE", taken)
    if one_in(8):
        lines.append("RRULE:" + random.choice(["FREQ=DAILY;COUNT=3", "FREQ=WEEKLY;INTERVAL=2", "FREQ=MONTHLY;COUNT=2"]))
    events = [vevent(meeting, lines)] if not one_in(6) else []
    for slot in some(starts + odd + taken, random.choice([1, 1, 3])):
        start = slot if one_in(3) else times.moment()
        own = meeting if random.randrange(8) else another(meeting)
        events.append(vevent(own, [times.line("RECURRENCE-ID", [slot]), times.line("DTSTART", [start]), *times.length(start)]))
    return events


def of_a_day(times, start, name):
    """The lines of a meeting that takes a day from this instant on, maybe its second."""
    zone, first = ZoneInfo(name), start - random.choice([0, 3, 3]) * DAY
    length = random.choice(["DURATION:P1D", "DURATION:P1D", "DURATION:PT24H", "DURATION:PT24H", times.line("DTEND", [first + DAY])])
    second = [times.line("RDATE", [start])] if first < start else []
    return [f"DTSTART;TZID={name}:{written(shown(first, zone))}", length, *second]


def in_gap_or_fold(change, name):
    """A local time that the clocks skip or show twice, as they are set then, and the instants that it could mean."""
    before, after = (local_time(moment, ZoneInfo(name)) - moment for moment in (change - HALF_HOUR, change))
    local = change + min(before, after) + HALF_HOUR * random.randrange(abs(after - before) // HALF_HOUR)
    return local, [local - before, local - after]


def near_a_change(times):
    """Two meetings: one that depends on how the clocks are read, and one that begins or ends as another reading would have it."""
    name, change = times.change
    if one_in(2):
        start = change - HALF_HOUR * random.randint(1, 47)
        lines = of_a_day(times, start, name)
        span = sorted([start + DAY, later(start, 1, 0, ZoneInfo(name))])
    else:
        local, readings = in_gap_or_fold(change, name)
        lines = [f"DTSTART;TZID={name}:{written(local)}", "DURATION:PT30M"]
        start = random.choice(readings)
        span = [start, start + HALF_HOUR]
    beside = [times.line("DTSTART", span[:1]), times.line("DTEND", span[1:])]
    return [plain((ANN, "n"), lines), plain((BOB, "n"), beside)]


def meetings(count):
    """So many meetings, or fewer. Now and then two have one UID under two organisers."""
    uids = random.choice([["a", "b", "c", "d", "e"], ["a", "A"], ["a\\, b", "a", "a\\\\"]])
    every = [(organiser, uid) for organiser in (ANN, ANN, BOB, None) for uid in uids]
    weights = [8 if organiser else 1 for organiser, _ in every]
    return list(dict.fromkeys(random.choices(every, weights, k=count)))


def made():
    """The text of a calendar."""
    times = Times()
    near = near_a_change(times) if times.change and random.randrange(3) else []
    count = random.choice([0, 0, 1, 1, 2] if near else [1, 1, 2, 2, 2, 3, 8])
    events = [*near, *[event for meeting in meetings(count) for event in vevents(times, meeting)]][:12]
    parts = random.sample(events, len(events))
    lines = [line for event in events for line in event]
    zones = [vtimezone(zone) for zone in times.zones if one_in(8) or any(zone in line for line in lines)]
    parts = parts + zones if one_in(6) else zones + parts
    lines = ["BEGIN:VCALENDAR", "VERSION:2.0", *[line for part in parts for line in part], "END:VCALENDAR"]
    return folded(lines).decode()


# ---- what is answered


CLEAR, CLASH, SERIES, WRONG = "clear", "a clash", "a series", "a wrong count"
KINDS = [CLEAR, CLASH] * 9 + [SERIES, WRONG]


def judged(text, singles):
    """What is answered to a calendar and a certificate of so many singles: what the program prints, and how many instances it makes."""
    series, count, clash = said(Calendar.from_ical(text).walk("VEVENT"))
    if series or singles != count:
        return "no 82", 0
    return "no 84" if clash else "yes", count


def case(kind):
    """A calendar of that kind, and how many singles its certificate says; None where none came of it."""
    text = made()
    events = Calendar.from_ical(text).walk("VEVENT")
    if not events or not is_well_formed(events):
        return None
    series, count, clash = said(events)
    if bool(series) != (kind == SERIES):
        return None
    if kind == WRONG:
        return text, random.choice([number for number in (count - 1, count + 1, count + 2) if number >= 0])
    # nearly all of those that are clear have something that could clash
    if kind != SERIES and (clash != (kind == CLASH) or count < 2 and random.randrange(8)):
        return None
    return text, count


def certificate(singles):
    return f"ROOMCERT 1\nSINGLES {singles}\nSERIES 0\nDONE\n"


def calendars(cases, program, count):
    tried = 0
    while tried < count:
        one = case(KINDS[tried % len(KINDS)])
        if one:
            tried += 1
            cases.holds(f"calendar {tried}, {one[0]!r}", checked(program, one[0], certificate(one[1]), ROOM)[1], judged(*one)[0] + "\n")


def told(word):
    return dict(line.split(": ", 1) for line in (CRATE / "stdout").read_text(encoding="utf-8").splitlines() if line.startswith(word))


def rows(cases):
    answers = told("calendar ")
    for row in (CRATE / "data" / "calendars.txt").read_text(encoding="utf-8").splitlines():
        name, _, text, asked = row.split(" | ")
        # as the tables of the crate spell octets
        text = "\\".join(it.replace("\\r", "\r").replace("\\n", "\n") for it in text.split("\\\\"))
        answer, made = judged(text, int(asked.partition("SINGLES ")[2].partition("\\")[0]))
        cases.holds(name, answers[name], f"{answer}{' 0 0' * (answer != 'yes')}, {made} made")


# ---- the events of the other table


def starts_by_dateutil(event, replaced):
    """The starts of a master, by dateutil; each day of its rule, by its own clock, is read by zoneinfo."""
    every = rruleset()
    local, zone = event["DTSTART"].dt.replace(tzinfo=None), zone_of(event["DTSTART"])
    days = rrulestr(event["RRULE"].to_ical().decode(), dtstart=local) if "RRULE" in event else [local]
    for start in [*(means(day, zone) for day in days), *instants(event, "RDATE")]:
        every.rdate(start)
    for slot in [*instants(event, "EXDATE"), *(slot for _, slot in replaced)]:
        every.exdate(slot)
    return every


def expanded(events):
    """The instances of one meeting, in order: start, slot and end."""
    replaced = replaced_slots(events)
    masters = [event for event in events if not is_override(event)]
    found = [(start, start, end_of(event, start)) for event in masters for start in starts_by_dateutil(event, replaced)]
    return sorted([one for event in events if is_override(event) for one in instances(event, replaced)] + found)


def first_shared(step, found):
    """The answer to `overlap START END`."""
    start, end = (datetime(1970, 1, 1) + timedelta(seconds=int(word)) for word in step.split()[1:])
    shared = [one for one in found if max(one[0], start) < min(one[2], end)]
    return in_seconds(*shared[0]) if shared else "none"


def events(cases):
    """The table of events, and what the library parses of them: how many instances they have."""
    many, lines = 0, told("event ")
    for row in (CRATE / "data" / "events.txt").read_text(encoding="utf-8").splitlines():
        name, _, text, _, *steps = row.split(" | ")
        found = expanded(Calendar.from_ical(text.replace("\\r\\n", "\r\n")).walk("VEVENT"))
        answers = [", ".join(in_seconds(*one) for one in found[:12])] + [first_shared(step, found) for step in steps]
        many += len(found)
        cases.holds(name, " | ".join(answers), lines[name])
    return many


def main():
    parser = argparse.ArgumentParser()
    parser.add_argument("program", nargs="?")
    parser.add_argument("--calendars", type=int, default=100)
    parser.add_argument("--seed", type=int, default=1)
    words, cases = parser.parse_args(), Cases()
    random.seed(words.seed)
    calendars(cases, of_arguments(), words.calendars)
    rows(cases)
    cases.end(f"{events(cases)} instances of events")


if __name__ == "__main__":
    main()
