"""Calendars as they are read without the program: the days of rules are those of dateutil, and clocks those of lib/zones.py."""

import re
from datetime import timedelta
from itertools import islice
from math import gcd, lcm

from dateutil.rrule import rrulestr

from lib.objects import components, first, lines_of, own_lines
from lib.zones import CYCLE, DAY, EPOCH, HORIZON, WEEKDAYS, Part, Zone, moment, seconds, zone_of_words

FIRST = -DAY
# the longest period of a certificate, in days
MOST = 2_932_897


def is_date(value):
    return len(value) == 8


def lasting(text):
    """The days and the seconds of a DURATION."""
    weeks, days, hours, minutes, rest = (int(it or 0) for it in re.fullmatch(r"\+?P(?:(\d+)W)?(?:(\d+)D)?(?:T(?:(\d+)H)?(?:(\d+)M)?(?:(\d+)S)?)?", text).groups())
    return 7 * weeks + days, 3600 * hours + 60 * minutes + rest


class Event:
    def __init__(self, own, zones, room, clocks):
        self.own, self.clocks = own, clocks
        params, value = first(own, "DTSTART")
        self.is_fixed, self.is_date = "TZID" in params or value.endswith("Z"), is_date(value)
        self.zone = self.zone_of(params, value, zones)
        self.local = moment(value)
        self.start = self.zone.means(self.local)
        self.days, self.seconds = self.length(zones)
        rule = first(own, "RRULE")
        self.rule = rule and rule[1].upper()
        slot = first(own, "RECURRENCE-ID")
        self.slot = slot and self.instant(slot, zones)
        self.added, self.taken = self.listed("RDATE", zones), self.listed("EXDATE", zones)
        self.meeting = (first(own, "ORGANIZER") or ({}, ""))[1].lower(), first(own, "UID")[1]
        asked = [params for name, params, value in own if name == "ATTENDEE" and value.lower() == room]
        status = first(own, "STATUS")
        self.kept = bool(asked) and asked[0].get("PARTSTAT", "").upper() == "ACCEPTED" and not (status and status[1].upper() == "CANCELLED")

    def zone_of(self, params, value, zones):
        """That of TZID, UTC, or of what isn't fixed the clocks of the room."""
        return zones[params["TZID"]] if "TZID" in params else Zone() if value.endswith("Z") else self.clocks

    def instant(self, said, zones):
        params, value = said
        return self.zone_of(params, value, zones).means(moment(value))

    def length(self, zones):
        if end := first(self.own, "DTEND"):
            if self.is_fixed:
                return 0, self.instant(end, zones) - self.start
            later = moment(end[1]) - self.local
            return (later // DAY, 0) if self.is_date else (0, later)
        if said := first(self.own, "DURATION"):
            return lasting(said[1])
        return (1 if self.is_date else 0), 0

    def listed(self, name, zones):
        return [self.instant((params, it), zones) for own, params, value in self.own if own == name for it in value.split(",")]



    def width(self):
        return self.days * DAY + self.seconds + (self.zone.offsets[-1] - self.zone.offsets[0] if self.days else 0)

    def end(self, start):
        """Days are added to the local time, of a date to its midnight, also where the clocks skip that; the rest is exact."""
        if self.days:
            local = start + self.zone.offset(start)
            midnight = local - local % DAY
            local = midnight if self.is_date and self.zone.means(midnight) == start else local
            start = self.zone.means(local + self.days * DAY)
        return start + self.seconds

    def parts(self):
        return dict(it.split("=") for it in self.rule.split(";"))

    def rule_starts(self):
        """Each resolved start of the rule before the horizon, ascending, exceptions or not."""
        parts = self.parts()
        until = parts.pop("UNTIL", None)
        text = "RRULE:" + ";".join(f"{name}={value}" for name, value in parts.items())
        for local in rrulestr(text, dtstart=EPOCH + timedelta(seconds=self.local)):
            start = self.zone.means(seconds(local))
            # an instant, or what the clocks of the start show; a date is its last second
            at = start if until and self.is_fixed and until.endswith("Z") else seconds(local)
            if start >= HORIZON or until and at > moment(until) + (DAY - 1) * is_date(until):
                return
            yield start

    def starts(self, most=None):
        """Those of a master: of its rule, of which so many are drawn at most, or its own; and of RDATE, without those of EXDATE."""
        given = {*islice(self.rule_starts(), most)} if self.rule else {self.start}
        return (given | {*self.added}) - {*self.taken}

    def period(self):
        """Of its rule and its zone; None past the most."""
        days = self.rule_period()
        both = days and lcm(days, self.zone.period())
        return both if both and both <= MOST else None

    def rule_period(self):
        parts = self.parts()
        if "COUNT" in parts or "UNTIL" in parts:
            return 1
        k, frequency = int(parts.get("INTERVAL", 1)), parts["FREQ"]
        if frequency == "DAILY":
            dates = "BYMONTH" in parts or "BYMONTHDAY" in parts
            return lcm(k, CYCLE) if dates else lcm(k, 7) if "BYDAY" in parts else k
        if frequency == "WEEKLY":
            return lcm(7 * k, CYCLE) if "BYMONTH" in parts else 7 * k
        whole = 4800 if frequency == "MONTHLY" else 400
        return CYCLE * lcm(k, whole) // whole

    def weekdays(self):
        """Those that BYDAY names, without its numbers, Monday being 0; None where there is no BYDAY."""
        named = self.parts().get("BYDAY")
        return named and {WEEKDAYS.index(it[-2:]) for it in named.split(",")}

    def stride(self):
        """After how many days the form of its rule allows the same days."""
        parts = self.parts()
        k, week = int(parts.get("INTERVAL", 1)), 7 if "BYDAY" in parts else 1
        return {"DAILY": lcm(k, week), "WEEKLY": 7 * k}.get(parts["FREQ"], week)

    def allows(self, day):
        """Whether the form of its rule allows a day, counted from 1970-01-01, of any sign."""
        parts = self.parts()
        k, first, named = int(parts.get("INTERVAL", 1)), self.local // DAY, self.weekdays()
        # 1970-01-01 was a Thursday
        weekday = lambda it: (it + 3) % 7
        week = lambda it: (it + 3 - WEEKDAYS.index(parts.get("WKST", "MO"))) // 7
        if parts["FREQ"] == "WEEKLY":
            return (week(day) - week(first)) % k == 0 and weekday(day) in (named or {weekday(first)})
        in_step = parts["FREQ"] != "DAILY" or (day - first) % k == 0
        return in_step and (named is None or weekday(day) in named)

    def residues(self, m):
        """Where its instances can start modulo m seconds, which are whole days: by each offset of its zone on each day, of any sign, that the form allows."""
        days = m // DAY
        # the days modulo `days` of a class modulo the stride are all of its class modulo this
        step = gcd(self.stride(), days)
        classes = {it % step for it in range(self.stride()) if self.allows(it)}
        allowed = [it for it in range(days) if it % step in classes]
        return sorted({(it * DAY + self.local % DAY - offset) % m for it in allowed for offset in self.zone.offsets})


def clocks_of_object(text):
    """The zones of an object by their names, as its VTIMEZONEs say them, and the clocks of a room that it names."""
    found = components(lines_of(text))
    named = first(own_lines(lines_of(text)), "X-ROOM-ZONE")
    zones = {}
    for kind, own, inner in found:
        if kind == "VTIMEZONE" and first(own, "TZID"):
            # of two of one name the first counts
            zones.setdefault(first(own, "TZID")[1].replace("\\,", ","), inner)
    return {name: Zone([Part(it[1]) for it in inner]) for name, inner in zones.items()}, zone_of_words(named[1]) if named else Zone()


def events_of(text, zones, clocks, room=""):
    return [Event(own, zones, room, clocks) for kind, own, _ in components(lines_of(text)) if kind == "VEVENT"]


def expansion(text, zones, clocks, most=None):
    """What is listed of an event, a master and its overrides: of each instance its start, its slot and its end, in order; the first so many of them."""
    events = events_of(text, zones, clocks)
    slots = {it.slot for it in events if it.slot is not None}
    found = [(it.start, it.slot, it.end(it.start)) for it in events if it.slot is not None]
    for master in (it for it in events if it.slot is None):
        drawn = most and most + len(slots) + len(master.taken)
        found += [(start, start, master.end(start)) for start in master.starts(drawn) - slots]
    return sorted(found)[:most]


class Series:
    """A master with RRULE by its rule alone."""

    def __init__(self, event, replaced):
        self.event, self.hidden = event, {*event.taken, *replaced}

    def starts(self, bound):
        for start in self.event.rule_starts():
            if start >= min(bound, HORIZON):
                return
            if start >= FIRST and start not in self.hidden:
                yield start

    def past(self):
        """The least instant after all that it doesn't do again."""
        event = self.event
        last = [*event.rule_starts()][-1:] if {"COUNT", "UNTIL"} & {*event.parts()} else []
        return max([event.start, *(it for it in self.hidden if FIRST <= it < HORIZON), *(it + 43_200 for it in event.zone.firsts), *last]) + 1


class Calendar:
    """The kept calendar of a room: its series, and its singles, each a start and an end."""

    def __init__(self, text, room):
        events = events_of(text, *clocks_of_object(text), room)
        replaced = {}
        for event in events:
            if event.slot is not None:
                replaced.setdefault(event.meeting, set()).add(event.slot)
        self.series, self.singles = [], []
        for event in events:
            if not event.kept:
                continue
            if event.slot is not None:
                self.singles.append((event.start, event.end(event.start)))
                continue
            hidden = replaced.get(event.meeting, set())
            own = {event.start}
            if event.rule:
                self.series.append(Series(event, hidden))
                own = set()
            given = {*event.rule_starts()} if event.rule and event.added else set()
            for start in sorted({*own, *(it for it in event.added if it not in given)}):
                if start not in hidden and start not in event.taken and FIRST <= start < HORIZON:
                    self.singles.append((start, event.end(start)))


def instances(calendar, start, end):
    """Those of a kept calendar that share an instant with the span, by start."""
    found = list(calendar.singles)
    for series in calendar.series:
        found += [(it, series.event.end(it)) for it in series.starts(end)]
    return sorted((a, b) for a, b in found if max(a, start) < min(b, end))
