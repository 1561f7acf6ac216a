"""Random streams of messages, answered by the program and by the model of lib/books.py.

    python3 tests/messages_by_model.py bin/roombox [--streams 300] [--seed 1]
    python3 tests/messages_by_model.py bin/roombox --only "1 17"          # one stream by its seed and number

Each stream has REQUESTs, ADDs and CANCELs of few meetings for one to three rooms, each of which goes by the clocks of its own zone: times in UTC and in
four zones, near gaps and folds, whole days and times without zone, which are other instants in each room; RRULE, RDATE, EXDATE, nominal days, instances by
RECURRENCE-ID, two of which may be one instance in one room and two in another, or one in each, which is refused; statuses, cancellations without a start;
older messages late, and messages again. Now and then the preamble has a zone line that is none. Compared are the answers to each object, octet by octet but for
the clash that a decline names, which has to be one; each room's kept calendar, octet by octet; how many singles and series its certificate counts; and that
`check` says yes to it.
A weekly rule without an end is followed for 30 years: within 28 of them every year has come with each weekday on each date, and so with every change of the
clocks.
"""

import argparse
import itertools
import random
from collections import Counter, namedtuple
from datetime import datetime, timedelta
from types import SimpleNamespace

from dateutil.rrule import rrulestr

from lib.books import Message, RoomBook, judged
from lib.cases import Cases
from lib.program import checked, of_arguments, run, without_reason
from lib.zones import PARTS, WEEKDAYS, WORDS, clock, means, stamp, vtimezone

ROOMS = ["mailto:r1@example.com", "mailto:r2@example.com", "mailto:r3@example.com"]
NOW = "20250102T000000Z"
ROOM_ZONES = [None, "Asia/Kolkata", "America/New_York", "Australia/Sydney", "Australia/Lord_Howe", "Europe/Dublin", "America/Havana"]
# where rules without an end are no longer followed
HORIZON = means(datetime(2056, 1, 1), None)
# words that mean no zone
NO_WORDS = ["", "noon", "-05", "+2400", "-0000", "+000000", "+053000", "+0530 ", " +0530", "Asia/Kolkata", "-0500 -0400", "-0500 -0500 11 1SU 0200 3 2SU 0200",
            "-0500 -0400 11 1SU 0200 03 2SU 0200", "-0500 -0400 11 +1SU 0200 3 2SU 0200", "-0500 -0400 11 5SU 0200 3 2SU 0200", "-0500 -0400 11 1su 0200 3 2SU 0200",
            "-0500 -0400 11 1SU 2400 3 2SU 0200", "-0500 -0400 13 1SU 0200 3 2SU 0200", "-0600 +0601 11 1SU 0200 3 2SU 0200", "-0500 -0400 3 2SU 0200 3 2SU 0200",
            "-0500 -0400 11 1SU 0200 3 2SU 0200 ", "-0500  -0400 11 1SU 0200 3 2SU 0200", "-0500 -0400 11 1SU 020000 3 2SU 020000"]


class Time(namedtuple("Time", "form local zone")):
    """What a text says: `fixed`, by the clocks of a zone or in UTC, `floating` without zone, or a `date`, by the clocks of whoever reads it."""

    def instant(self, room):
        return means(self.local, self.zone if self.form == "fixed" else room)

    def as_written(self):
        return self.form, means(self.local, self.zone)

    def text(self):
        return f"{self.local:%Y%m%d}" if self.form == "date" else f"{self.local:%Y%m%dT%H%M%S}" + "Z" * (self.form == "fixed" and self.zone is None)


def midnight(local):
    return local.replace(hour=0, minute=0, second=0)


def written(rng, name, time, alias):
    value = {"date": [";VALUE=DATE", ";VALUE=DATE", ""], "floating": [";VALUE=DATE-TIME", "", ""], "fixed": [f";TZID={alias.get(time.zone)}" * (time.zone is not None)]}
    return f"{name}{rng.choice(value[time.form])}:{time.text()}"


def renamed(rng, time, rooms, zones):
    """A time that is the same instant in one of the rooms, mostly named in another way."""
    room, zone = rng.choice(rooms), rng.choice([None, *zones])
    at = time.instant(room)
    ways = [Time("fixed", clock(at, zone), zone), Time("floating", clock(at, room), None), Time("date", midnight(clock(at, room)), None)]
    ways = [way for way in ways if way.instant(room) == at]
    return rng.choice([way for way in ways if way.form != time.form and rng.random() < 0.9] or ways or [time])


def listed(rng, name, times, alias):
    """The lines of a list: one for each zone, and one for all others, or one for the dates and one for what is left."""
    shuffled = rng.sample(times, len(times))
    lines = []
    for zone in {time.zone: None for time in shuffled if time.zone}:
        lines.append(f"{name};TZID={alias[zone]}:{','.join(time.text() for time in shuffled if time.zone == zone)}")
    rest = [time for time in shuffled if not time.zone]
    dates = [time for time in rest if time.form == "date"] if rng.random() < 0.6 else []
    others = [time for time in rest if time not in dates]
    lines += [f"{name};VALUE=DATE:{','.join(time.text() for time in dates)}" for _ in dates[:1]]
    return lines + [f"{name}:{','.join(time.text() for time in others)}" for _ in others[:1]]


# ---- what a message says


class Rule:
    """A rule without its UNTIL, and up to which instant or to which local date that allows starts."""

    def __init__(self, text, until=None, date=None):
        self.text, self.until, self.date = text, until, date

    def days(self, local, form, zone):
        """Its local times. Beside a start that isn't fixed UNTIL is compared with them, else with what they mean."""
        for day in rrulestr("RRULE:" + self.text, dtstart=local):
            end = means(day, zone if form == "fixed" else None)
            if (self.until is not None and end > self.until) or (self.date is not None and day.date() > self.date):
                return
            yield day


def rule_for(rng, local, form, zone):
    """A rule that gives its own start, and its text in a message."""
    own, other = WEEKDAYS[local.weekday()], rng.choice(WEEKDAYS)
    every = rng.choice(["", ";INTERVAL=2", ";INTERVAL=1"])
    days = rng.choice([f"FREQ=DAILY{every}", f"FREQ=WEEKLY{every}", f"FREQ=WEEKLY{every};BYDAY={other},{own}", f"FREQ=DAILY;BYDAY={own},{other}", "FREQ=MONTHLY",
                       f"FREQ=MONTHLY;BYMONTHDAY={local.day}", f"FREQ=MONTHLY;BYDAY={(local.day + 6) // 7}{own}", "FREQ=YEARLY"])
    ending = rng.choices(["count", "until", "date", "never"], [6, 2, 2, 1])[0]
    if ending == "never":
        return Rule("FREQ=WEEKLY"), "FREQ=WEEKLY"
    if ending == "count":
        text = f"{days};COUNT={rng.randrange(1, 7)}"
        return Rule(text), ";".join(rng.sample(text.split(";"), len(text.split(";"))))
    far = local + timedelta(days=rng.randrange(0, 12))
    if rng.random() < 0.7:
        # at one of its own starts, or just beside it
        far = rng.choice(list(itertools.islice(Rule(days).days(local, form, zone), 4)))
    if ending == "date":
        return Rule(days, date=far.date()), f"UNTIL={far.strftime('%Y%m%d')};{days}"
    until = means(far, zone) + rng.choice([0, 0, 1, 3600, 50_000, -1 if far > local else 0])
    return Rule(days, until=until), f"{days};UNTIL={stamp(until)[:-1] if zone is None and rng.random() < 0.3 else stamp(until)}"


def changes(zone, year):
    """The days of a year on which the clocks of a zone are set."""
    days = [datetime(year, 1, 1) + timedelta(days=number) for number in range(365)]
    return [day for day in days if zone and means(day + timedelta(days=1), zone) - means(day, zone) != 86_400]


def some_days(rng, rooms, zones):
    """Two days of one year, near changes of the clocks of rooms or of zones that are named."""
    year = rng.choice([2025, 2026])
    near = [day for zone in [*rooms, *rooms, *zones] for day in changes(zone, year)] or [datetime(year, 3, 31)]
    first = rng.choice(near)
    return [first, rng.choice([first + timedelta(days=rng.choice([-1, 1, 1, 2])), rng.choice(near)])]


def when(rng, days):
    """A local time on one of few days, half of them in the hours in which clocks are set."""
    return rng.choice(days) + timedelta(minutes=30 * rng.randrange(rng.choice([8, 48])))


def some_time(rng, scene, forms):
    form = rng.choice(forms)
    local = when(rng, scene.days)
    return Time(form, midnight(local) if form == "date" else local, rng.choice([None, *scene.zones]) if form == "fixed" else None)


# what the times of a stream are drawn from: days, the zones that are named, and those of its rooms
Scene = namedtuple("Scene", "days zones rooms")
FORMS = ["fixed", "fixed", "fixed", "date", "date", "floating"]


def said(rng, scene, slot, revision, starts, own=None):
    own = own or some_time(rng, scene, FORMS)
    form, local, zone = own
    others = [some_time(rng, scene, FORMS) for _ in range(rng.randrange(4))]
    added = [] if slot is not None or rng.random() < 0.5 else others
    taken = [] if rng.random() < 0.6 else rng.sample([own, *others], rng.randrange(1, 2 + len(others)))
    rule, rule_text = rule_for(rng, local, form, zone) if slot is None and rng.random() < 0.5 else (None, None)
    given = [Time(form, day, zone) for day in itertools.islice(rule.days(local, form, zone), 4)] if rule else [own]
    if rule and rng.random() < 0.2:
        taken = taken + rng.sample(given, rng.randrange(1, 1 + len(given)))
    starts += [*given, *added]
    added, taken = ([renamed(rng, time, scene.rooms, scene.zones) if rng.random() < 0.4 else time for time in times] for times in (added, taken))
    whole_days = rng.random() < 0.2
    days, seconds = (1 if whole_days else 0, rng.choice([0, 1800]) if whole_days else rng.choice([0, 1800, 3600, 5400]))
    if form == "date":
        days, seconds = rng.choice([0, 1, 1, 1, 2]), 0
    return SimpleNamespace(own=own, days=days, seconds=seconds, added=added, taken=taken, rule_text=rule_text, slot=slot, revision=revision, names=[room for room in ROOMS if rng.random() < 0.8],
                           cancelled=rng.random() < 0.1, without_start=False)


def lines_of(rng, uid, event, alias, method):
    sequence, moment = event.revision
    lines = ["BEGIN:VEVENT", f"UID:{uid}", f"SEQUENCE:{sequence}", f"DTSTAMP:{stamp(moment)}", "ORGANIZER:mailto:ann@example.com", *(f"ATTENDEE:{room}" for room in event.names)]
    if event.slot is not None and method != "ADD":
        lines.append(written(rng, "RECURRENCE-ID", event.slot, alias))
    if not event.without_start:
        lines.append(written(rng, "DTSTART", event.own, alias))
        length = (f"P{event.days}D" if event.days else "P") + (f"T{event.seconds // 60}M" if event.seconds or not event.days else "")
        end = event.own.local + timedelta(days=event.days, seconds=event.seconds)
        # a DTEND without zone is exact seconds later, also where these are days
        if (event.own.form == "date" or (event.own.form == "floating" and not event.days)) and rng.random() < 0.5:
            lines.append(written(rng, "DTEND", Time(event.own.form, end, None), alias))
        elif event.own.form != "date" or event.days != 1 or rng.random() < 0.5:
            # a date without DTEND and DURATION lasts a day
            lines.append(f"DURATION:{length}")
    if event.rule_text:
        lines.append(f"RRULE:{event.rule_text}")
    for name, times in (("RDATE", event.added), ("EXDATE", event.taken)):
        lines += listed(rng, name, times, alias)
    if event.cancelled and method != "CANCEL":
        lines.append("STATUS:CANCELLED")
    return lines + ["END:VEVENT"]


def stream(rng, rooms):
    """The texts of messages to rooms of these zones."""
    zones = rng.sample(list(PARTS), 2)
    scene = Scene(some_days(rng, rooms, zones), zones, rooms)
    messages, starts, moment = [], {}, 1_735_689_600
    for _ in range(rng.randrange(4, 12)):
        if messages and rng.random() < 0.2:
            messages.append(rng.choice(messages))
            continue
        uid = rng.choice("abc")
        own = starts.setdefault(uid, [])
        method = rng.choices(["REQUEST", "CANCEL", "ADD"], [6, 2, 1])[0]
        # each message has a moment of its own, so two bodies of one revision are of one message
        moment += 1
        sequence = rng.randrange(3)

        def slot(named):
            """Of an instance that others of the message name already, now and then."""
            if named and rng.random() < 0.4:
                return renamed(rng, rng.choice(named), rooms, zones)
            others = [time for time in own if time.as_written() not in [it.as_written() for it in named]]
            time = rng.choice(others) if others and rng.random() < 0.7 else some_time(rng, scene, FORMS)
            return renamed(rng, time, rooms, zones) if rng.random() < 0.4 else time

        events = []
        if method == "ADD":
            for _ in range(rng.randrange(1, 3)):
                again = renamed(rng, events[0].slot, rooms, zones) if events and rng.random() < 0.4 else None
                event = said(rng, scene, 0, (sequence, moment), [], again)
                event.slot = event.own
                events.append(event)
        else:
            events = [said(rng, scene, None, (sequence, moment), own)] if rng.random() < 0.8 else []
            for _ in range(rng.randrange(0 if events else 1, 4)):
                named = [event.slot for event in events if event.slot]
                events.append(said(rng, scene, slot(named), (rng.randrange(3), moment), []))
        if method == "CANCEL" and rng.random() < 0.5:
            for event in events:
                event.without_start, event.added, event.taken = True, [], []
                event.names = rng.choice([event.names, []])
        alias = {zone: rng.choice([zone, zone.split("/")[1], f"Z{n}"]) for n, zone in enumerate(zones)}
        named = [line for zone in zones for line in vtimezone(zone, alias[zone])]
        shuffled = rng.sample(events, len(events))
        text = ["BEGIN:VCALENDAR", "VERSION:2.0", f"METHOD:{method}", *named, *(line for event in shuffled for line in lines_of(rng, uid, event, alias, method)), "END:VCALENDAR"]
        messages.append("".join(line + "\r\n" if len(line) <= 75 else line[:70] + "\r\n " + line[70:] + "\r\n" for line in text))
    return messages


def preamble(rng, rooms):
    """The rooms, each with its zone: the line of a zone before or after that of its room, and none for UTC now and then."""
    lines = [f"now {NOW}", *(f"room {address}" for address in rooms)]
    for address, zone in rooms.items():
        if zone or rng.random() < 0.3:
            lines.insert(rng.randrange(len(lines) + 1), f"zone {rng.choice([address, address, address.upper()])} {WORDS[zone or 'UTC']}")
    return lines


def spoiled(rng, rooms, lines):
    """The lines with one of a zone that makes them no preamble."""
    room, words = rng.choice(list(rooms)), rng.choice([WORDS[zone or "UTC"] for zone in ROOM_ZONES])
    zoned = [line for line in lines if line.startswith("zone ")]
    wrong = [f"zone mailto:r9@example.com {words}", f"zone {room}", f"zone {room} {rng.choice(NO_WORDS)}", f"zone {room} {rng.choice(NO_WORDS)}", f"zone  {room} {words}",
             f"zone {room}  {words}", f"zone {room} {words} ", f"Zone {room} {words}", f"zone\t{room} {words}", f"zone {words} {room}", f"zone r1 {words}", "zone", "zone "]
    wrong += [*zoned, *(f"{line.rsplit('.com', 1)[0]}.com {words}" for line in zoned)] * 2
    line = rng.choice(wrong)
    # of a room that has a zone the line is its second; else it stands alone
    others = lines if line in zoned or line.split(" ")[:2] in [it.split(" ")[:2] for it in zoned] else [it for it in lines if it not in zoned]
    # a zone of whom a box hosts as an organiser is none either
    others = others + ["organiser mailto:r9@example.com"] * (rng.random() < 0.5)
    return [*others[:1], line, *others[1:]] if rng.random() < 0.5 else [*others, line]


# ---- both


def expected(stream, books, met):
    """What is answered to each object of a stream: texts, each with the decisions of its declines."""
    for number, text in enumerate(stream, 1):
        said = Message(text)
        met["objects"] += 1
        if said.refused:
            met["refused"] += 1
            yield f"REFUSED;OBJECT={number}:{said.refused}\r\n", []
            continue
        for book in books:
            for answer, declines in book.take(said, NOW):
                met.update(word.lower() for word in ("PARTSTAT=ACCEPTED", "PARTSTAT=DECLINED", "METHOD:REFRESH") for _ in range(answer.count(word)))
                yield answer, declines


def compared(cases, program, name, met):
    """One stream: what it is, and what differs."""
    rng = random.Random(f"messages {name}")
    rooms = dict(zip(ROOMS[: rng.choice([1, 2, 2, 3, 3])], rng.sample([*ROOM_ZONES, None], 3)))
    messages = stream(rng, list(rooms.values()))
    lines = preamble(rng, rooms)
    refused, end = rng.random() < 0.08, rng.choice(["\n", "\n", "\r\n"])
    lines = spoiled(rng, rooms, lines) if refused else lines
    text = "".join(line + end for line in [*lines, ""]) + "".join(messages)
    failed = cases.failed
    if refused:
        met["refused preambles"] += 1
        for words in (["serve"], *(["keep", *more, room] for room in rooms for more in ([], ["--certificate"]))):
            status, out, said = run(program, *words, given=text)
            cases.holds(f"stream {name}: {words}", (status, out, without_reason(said)), (3, "", "roombox: refused 90\n"))
    else:
        books = [RoomBook(room, zone, HORIZON) for room, zone in rooms.items()]
        answers = list(expected(messages, books, met))
        status, out, said = run(program, "serve", given=text)
        faults = judged("".join(text for text, _ in answers), [it for _, declines in answers for it in declines], out)
        cases.tells(f"stream {name}", [*faults, *([(status, said)] if status or said else [])])
        met["gave way"] += sum(book.given_way for book in books)
        for book in books:
            runs = [run(program, "keep", *more, book.room, given=text) for more in ([], ["--certificate"])]
            cases.holds(f"stream {name}: what {book.room} keeps, in {book.zone}", runs[0], (0, book.calendar(), ""))
            # of a certificate what it counts; certificate_by_dateutil.py has the rest
            counted = "SINGLES {}\nSERIES {}\n".format(*book.counts())
            cases.holds(f"stream {name}: the certificate of {book.room}", (runs[1][0], runs[1][1].partition("\n")[2][:len(counted)], runs[1][2]), (0, counted, ""))
            cases.holds(f"stream {name}: the checker", checked(program, runs[0][1], runs[1][1], book.room)[:2], (0, "yes\n"))
    if cases.failed > failed:
        print(text, flush=True)


def main():
    parser = argparse.ArgumentParser()
    parser.add_argument("program", nargs="?")
    parser.add_argument("--streams", type=int, default=300)
    parser.add_argument("--seed", type=int, default=1)
    parser.add_argument("--only")
    words, cases, met = parser.parse_args(), Cases(), Counter()
    for name in [words.only] if words.only else [f"{words.seed} {number}" for number in range(words.streams)]:
        compared(cases, of_arguments(), name, met)
    cases.end(*(f"{count} {what}" for what, count in sorted(met.items())))


if __name__ == "__main__":
    main()
