"""Lists the instances of events by `roombox expand`, and by dateutil and zoneinfo, libraries of Python, and compares the lines.

    python3 tests/expand_by_dateutil.py bin/roombox [--rules 300] [--events 300] [--days 1000] [--seed 1]
    python3 tests/expand_by_dateutil.py bin/roombox --only "days 1 17"        # one case by its name: what it is, and both answers

What has to come out is read from the same text by lib/calendars.py. The cases:

- `rules`: random rules in UTC. Most of them have BYSETPOS, and of those most count from the end;
- `events`: a rule with RDATE, EXDATE and overrides, half of them in UTC, the others in New York, in gaps and folds too;
- `days`: whole days and times without zone in the zone of a room, by `--zone=WORDS`. One in ten starts in UTC. RDATE, EXDATE and RECURRENCE-ID are dates, times
  without zone, times in UTC and times in New York, whatever form DTSTART has; there is a DTEND, a DURATION or neither; UNTIL is a date, a time without zone or
  one in UTC;
- the rows of crates/command_examples that say what `expand` prints, whose expected lines were written by hand or by zoneinfo: they, too, are read here once
  more; and the events of worked_examples, whose lines are in its `stdout`.

The words of each zone are its rules from the year that stands beside them on, and no event is before that or after 2037. dateutil counts set positions of the
first week from DTSTART on, where RFC 5545 counts them from the week's first day: a WEEKLY rule is compared if it starts on that day. It also goes on to the year
9999 where a rule has no day: what isn't made within half a second is left out.
"""

import argparse
import random
import signal
from datetime import datetime, timedelta
from itertools import islice

from dateutil.rrule import rrulestr

from lib.calendars import clocks_of_object, expansion
from lib.cases import Cases
from lib.program import DATA, ROOT, of_arguments, read, run
from lib.streams import folded
from lib.zones import WEEKDAYS, WORDS, Known, Zone, clock, means, stamp, vtimezone, zone_of_words

NEW_YORK = "America/New_York"
# zones of rooms, and the first year in which the words are their rules
ROOM_ZONES = {NEW_YORK: 2008, "Europe/Berlin": 2008, "Australia/Sydney": 2009, "Pacific/Auckland": 2009, "Asia/Kolkata": 2008, "Australia/Lord_Howe": 2009,
              "Europe/Dublin": 2008, "America/Sao_Paulo": 2020}
LAST = 2036
LISTED = 40
YEARS = 8


class TooSlow(Exception):
    pass


def ring(_signal, _frame):
    raise TooSlow


def quickly(make):
    """What is made, None where dateutil takes too long. The bell may ring once more while it is being put off."""
    made = None
    try:
        try:
            signal.setitimer(signal.ITIMER_REAL, 0.5)
            made = make()
        finally:
            signal.setitimer(signal.ITIMER_REAL, 0)
    except TooSlow:
        made = None
    signal.setitimer(signal.ITIMER_REAL, 0)
    return made


# ---- random rules


def numbers(chance, most, least_count, most_count, from_the_end):
    """A list of places, as in BYMONTHDAY and BYSETPOS."""
    signs = [-1] if from_the_end else [1, -1]
    count = chance.randint(least_count, most_count)
    return ",".join(str(chance.choice(signs) * chance.randint(1, most)) for _ in range(count))


def parts(chance):
    """The parts of a rule, without its end."""
    frequency = chance.choice(["DAILY", "WEEKLY", "MONTHLY", "MONTHLY", "YEARLY"])
    given = {"FREQ": frequency}
    if chance.random() < 0.4:
        given["INTERVAL"] = str(chance.choice([1, 2, 3, 7]))
    if chance.random() < 0.4:
        given["WKST"] = chance.choice(WEEKDAYS)
    if chance.random() < 0.7:
        given["BYDAY"] = ",".join(chance.sample(WEEKDAYS, chance.randint(1, 5)))
    if frequency != "WEEKLY" and chance.random() < 0.4:
        given["BYMONTHDAY"] = numbers(chance, 31, 1, 6, False)
    if chance.random() < 0.3 or len(given) == 1:
        given["BYMONTH"] = ",".join(map(str, chance.sample(range(1, 13), chance.randint(1, 4))))
    if any(name in given for name in ("BYDAY", "BYMONTHDAY", "BYMONTH")) and chance.random() < 0.9:
        from_the_end = chance.random() < 0.7
        most = chance.choice([1, 2, 4, 30]) if from_the_end else 6
        given["BYSETPOS"] = numbers(chance, most, 1, 3, from_the_end)
    return given


def text_of(given):
    return ";".join(f"{name}={value}" for name, value in given.items())


def days_of(given, start, years, most):
    """The first days of a rule without its end, within some years."""
    return list(islice(rrulestr(f"RRULE:{text_of(given)};UNTIL={start.year + years}0101T000000", dtstart=start), most))


def rule(chance, first=1970, last=2030):
    """A rule, its first day, from that of some year on, and the days that it has; None where none can be had."""
    given = parts(chance)
    earliest = datetime(chance.randint(first, last), chance.randint(1, 12), chance.randint(1, 28), 9)
    found = days_of(given, earliest, YEARS // 2, 1)
    if not found:
        return None
    start = found[0]
    if given["FREQ"] == "WEEKLY" and WEEKDAYS[start.weekday()] != given.get("WKST", "MO"):
        return None
    end, most = {"UNTIL": f"{start.year + YEARS}0101T000000Z"}, LISTED
    if chance.random() < 0.3:
        most = chance.randint(1, 20)
        end = {"COUNT": str(most)}
    days = days_of(given, start, YEARS, most)
    if not days or days[0] != start or ("COUNT" in end and len(days) < most):
        return None
    return text_of(given | end), start, days


# ---- objects


def event(lines):
    return ["BEGIN:VEVENT", "UID:a", "DTSTAMP:20250101T000000Z", *lines, "END:VEVENT"]


def whole(events, zone=()):
    return ["BEGIN:VCALENDAR", "VERSION:2.0", *zone, *(line for lines in events for line in lines), "END:VCALENDAR"]


def written(local):
    return local.strftime("%Y%m%dT%H%M%S")


def some(chance, found, most):
    return chance.sample(found, min(len(found), chance.randint(0, most)))


def a_rule(chance):
    """An object with a rule alone, in UTC."""
    made = rule(chance)
    return made and (whole([event([f"DTSTART:{written(made[1])}Z", "DURATION:PT1H", "RRULE:" + made[0]])]), None)


def an_event(chance, most=None):
    """An object with lists and overrides. 01:30 is shown twice in New York's November, 02:30 never in its March."""
    made = rule(chance)
    if made is None:
        return None
    text, start, days = made
    zone = NEW_YORK if 2008 <= start.year <= 2028 and chance.random() < 0.7 else None
    hour, minute = chance.choice([(1, 30), (2, 30), (9, 0)])
    start = start.replace(hour=hour, minute=minute)
    days = [means(day, zone) for day in rrulestr("RRULE:" + text.replace("Z", ""), dtstart=start)]
    odd = [days[0] + 3600 * chance.randint(1, 9000) for _ in range(6)]
    added = some(chance, odd, 4) + some(chance, days, 1)
    taken = some(chance, days, 5) + some(chance, odd, 2)
    slots = list(dict.fromkeys(some(chance, days, 3) + some(chance, odd, 1) + some(chance, taken, 1)))
    lines = [f"DTSTART;TZID={NEW_YORK}:{written(start)}" if zone else f"DTSTART:{written(start)}Z", "DURATION:" + chance.choice(["PT1H", "P1D", "P1DT30M", "PT0S"]), "RRULE:" + text]
    lines += [f"{name}:" + ",".join(map(stamp, times)) for name, times in (("RDATE", added), ("EXDATE", taken)) if times]
    events = [event(lines)]
    for slot in slots:
        moved = slot + 60 * chance.randint(-5000, 5000)
        events.append(event(["RECURRENCE-ID:" + stamp(slot), "DTSTART:" + stamp(moved), "DURATION:PT2H"]))
    chance.shuffle(events)
    return whole(events, vtimezone(NEW_YORK) if zone else ()), None


# ---- whole days and times without zone

# some are skipped or shown twice in one of the zones, and midnight is the first of a day
HOURS = [(0, 0), (0, 0), (1, 30), (1, 45), (2, 0), (2, 30), (9, 0), (23, 30)]


class Time:
    """A time as it is written: a date, a time without zone, one in New York, or one in UTC; and its instant in the zone of the room."""

    def __init__(self, form, local, zone):
        self.form, self.local = form, local
        self.instant = means(local, {"utc": None, "new york": NEW_YORK}.get(form, zone))

    def parameters(self, chance):
        """Any that says its form."""
        said = {"new york": [f";TZID={NEW_YORK}"], "date": [";VALUE=DATE", ";VALUE=date", ""]}
        return chance.choice(said.get(self.form, [";VALUE=DATE-TIME", "", ""]))

    def text(self):
        return f"{self.local:%Y%m%d}" if self.form == "date" else written(self.local) + "Z" * (self.form == "utc")

    def line(self, chance, name):
        return f"{name}{self.parameters(chance)}:{self.text()}"


def spelled(chance, instant, zone):
    """An instant in a form that can say it."""
    local, there = clock(instant, zone), clock(instant, NEW_YORK)
    ways = [Time("utc", clock(instant, None), zone), *[Time("floating", local, zone)] * 2, *[Time("date", local, zone)] * 3, Time("new york", there, zone)]
    return chance.choice([way for way in ways if way.instant == instant and (way.form != "date" or (local.hour, local.minute, local.second) == (0, 0, 0))])


def odd(chance, first, zone):
    """A time of any form within a year."""
    day = first.replace(hour=0, minute=0) + timedelta(days=chance.randint(0, 365))
    form = chance.choice(["date", "date", "floating", "floating", "utc", "new york"])
    hour, minute = (0, 0) if form == "date" else chance.choice(HOURS)
    return Time(form, day + timedelta(hours=hour, minutes=minute), zone)


def listed(chance, name, times):
    """The lines of RDATE or EXDATE: one for all, as far as they have no TZID, or one for each form, in any order."""
    times = chance.sample(times, len(times))
    zoned, others = [time for time in times if time.form == "new york"], [time for time in times if time.form != "new york"]
    groups = [zoned, others] if chance.random() < 0.5 else [zoned, *([time for time in others if time.form == form] for form in ("date", "floating", "utc"))]
    lines = []
    for group in groups:
        own = group[0].parameters(chance) if len({time.form for time in group}) == 1 else ""
        lines += [f"{name}{own}:" + ",".join(time.text() for time in group)] if group else []
    return chance.sample(lines, len(lines))


def lasting(chance, start):
    """The line that says how long an event lasts which starts so, if any."""
    days, later, choice = chance.randint(0, 3), chance.choice([0, 0, 1800, 5400, 86_399]), chance.random()
    if start.form == "date":
        end = Time("date", start.local + timedelta(days=days), None)
        said = ["DURATION:" + chance.choice([f"P{days}D", f"P{days}DT0S"])] if days else ["DURATION:PT0S"]
        return [] if choice < 0.3 else [end.line(chance, "DTEND")] if choice < 0.6 else said
    # so many seconds later by the clock; in UTC the clock is exact
    end = Time(start.form, start.local + timedelta(days=days, seconds=later), None)
    return [] if choice < 0.2 else [end.line(chance, "DTEND")] if choice < 0.6 else [f"DURATION:P{days}DT{later}S"] if days else [f"DURATION:PT{later}S"]


def bounded(chance, text, start):
    """The rule with COUNT, or with an UNTIL in any form, and its days on the clock of its start; a `Z` has a meaning beside a start in UTC alone."""
    plain = ";".join(it for it in text.split(";") if not it.startswith("UNTIL="))
    if plain == text:
        return text, list(rrulestr("RRULE:" + text, dtstart=start.local))
    days = list(rrulestr(f"RRULE:{plain};UNTIL={min(start.local.year + 8, LAST)}0101T000000", dtstart=start.local))
    last = chance.choice(days)
    form = chance.choice(["date", "date", "local", "utc", "before"])
    if form == "date":
        said, until = last.strftime("%Y%m%d"), last.replace(hour=23, minute=59, second=59)
    else:
        until = last - timedelta(seconds=form == "before" and last > start.local)
        said = written(until) + "Z" * (form != "local" or start.form == "utc")
    return f"{plain};UNTIL={said}", [day for day in days if day <= until]


def a_day(chance):
    """An object, and the name of the zone in which it is read."""
    zone, first_year = chance.choice(list(ROOM_ZONES.items()))
    made = rule(chance, first_year, LAST - 13)
    if made is None:
        return None
    form = chance.choices(["date", "floating", "utc"], [5, 4, 1])[0]
    hour, minute = (0, 0) if form == "date" else chance.choice(HOURS)
    start = Time(form, made[1].replace(hour=hour, minute=minute), zone)
    text, days = bounded(chance, made[0], start)
    on_rule = [means(local, None if form == "utc" else zone) for local in days]
    others = [odd(chance, start.local, zone) for _ in range(6)]
    added = some(chance, others, 4) + [spelled(chance, instant, zone) for instant in some(chance, on_rule, 1)]
    starts = sorted({*on_rule, *(time.instant for time in added)})
    taken = [spelled(chance, instant, zone) for instant in some(chance, starts, 5)] + some(chance, others, 2)
    slots = [spelled(chance, instant, zone) for instant in some(chance, starts, 3)] + some(chance, others, 1)
    lines = [start.line(chance, "DTSTART"), *lasting(chance, start), "RRULE:" + text, *listed(chance, "RDATE", added), *listed(chance, "EXDATE", taken)]
    events = [event(chance.sample(lines, len(lines)))]
    for slot in {time.instant: time for time in slots}.values():
        moved = odd(chance, start.local, zone)
        moved = Time(moved.form if moved.form != "new york" else "utc", moved.local, zone)
        events.append(event([slot.line(chance, "RECURRENCE-ID"), moved.line(chance, "DTSTART"), *lasting(chance, moved)]))
    return whole(chance.sample(events, len(events)), vtimezone(NEW_YORK)), zone


# ---- both answers


def lines_of(found):
    """What `roombox expand` prints of instances."""
    return "".join(f"{stamp(slot)} {stamp(start)} {end - start}\n" for start, slot, end in found)


def by_name(name):
    """The random case of a kind, a seed and a number: its lines and the name of a zone, None where dateutil makes none of it."""
    make = {"rules": a_rule, "events": an_event, "days": a_day}[name.split(" ")[0]]
    return quickly(lambda: make(random.Random(name)))


def compared(cases, program, name, made, shown=False):
    lines, zone = made
    limit = LISTED if name.startswith("rules") else 100_000
    octets, clocks = folded(lines), Known(zone) if zone else Zone()
    found = expansion(octets.decode(), {NEW_YORK: Known(NEW_YORK)}, clocks, limit)
    ran = run(program, "expand", "--limit", str(limit), *([f"--zone={WORDS[zone]}"] if zone else []), given=octets)
    if shown or ran != (0, lines_of(found), ""):
        print(octets.decode(), zone and WORDS[zone])
    cases.holds(name, ran, (0, lines_of(found), ""))
    return len(found)


def random_cases(cases, program, kind, wanted, seed):
    """So many cases that dateutil makes something of."""
    count = number = instances = 0
    while count < wanted:
        made = by_name(f"{kind} {seed} {number}")
        if made:
            instances += compared(cases, program, f"{kind} {seed} {number}", made)
            count += 1
        number += 1
    return instances


# ---- rows

def rows(cases, program):
    """Those of the commands of `expand`, and of what they print as it was written once."""
    count = 0
    for row in (DATA / "commands.txt").read_text(encoding="utf-8").splitlines():
        columns = [it.strip() for it in row.split("|")]
        if row.startswith("#") or len(columns) < 7 or columns[1] != "expand" or not columns[2].split()[-1].startswith(("zoned-", "placed-")):
            continue
        name, _, files, words, output, errors, status = columns
        octets = read(*files.split())
        lines, said = (b"" if it == "nothing" else read(it) for it in (output, errors))
        ran = run(program, "expand", *([f"--zone={words}"] if words else []), given=octets)
        cases.holds(f"the row {name}", ran, (int(status), lines.decode(), said.decode()))
        if status == "0":
            zones, _ = clocks_of_object(octets.decode())
            found = expansion(octets.decode(), zones, zone_of_words(words) if words else Zone(), 100)
            cases.holds(f"the row {name}, by dateutil", lines_of(found), lines.decode())
            count += 1
    return count


def events(cases):
    """The events of the crate worked_examples: the first twelve instances of each in seconds, and which is the first that shares an instant with each of two spans."""
    crate, instances = ROOT / "crates" / "worked_examples", 0
    told = dict(line.split(": ", 1) for line in (crate / "stdout").read_text(encoding="utf-8").splitlines() if line.startswith("event "))
    in_seconds = lambda it: f"{it[1]} {it[0]} {it[2]}"
    for row in (crate / "data" / "events.txt").read_text(encoding="utf-8").splitlines():
        name, _, text, _, *steps = row.split(" | ")
        found = expansion(text.replace("\\r\\n", "\r\n"), {NEW_YORK: Known(NEW_YORK)}, Zone())
        answers = [", ".join(map(in_seconds, found[:12]))]
        for step in steps:
            start, end = map(int, step.split()[1:])
            answers.append(next((in_seconds(it) for it in found if max(it[0], start) < min(it[2], end)), "none"))
        instances += len(found)
        cases.holds(name, told[name], " | ".join(answers))
    return instances


def main():
    parser = argparse.ArgumentParser()
    parser.add_argument("program", nargs="?")
    for kind, count in (("rules", 300), ("events", 300), ("days", 1000)):
        parser.add_argument(f"--{kind}", type=int, default=count)
    parser.add_argument("--seed", type=int, default=1)
    parser.add_argument("--only")
    words = parser.parse_args()
    signal.signal(signal.SIGALRM, ring)
    program, cases = of_arguments(), Cases()
    if words.only:
        compared(cases, program, words.only, by_name(words.only), shown=True)
        cases.end()
    instances = sum(random_cases(cases, program, kind, getattr(words, kind), words.seed) for kind in ("rules", "events", "days"))
    again = rows(cases, program)
    instances += events(cases)
    cases.end(f"{instances} instances", f"{again} rows read again")


if __name__ == "__main__":
    main()
