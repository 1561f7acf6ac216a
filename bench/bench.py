"""Measures roombox and prints one table. Each line names the work, its size, the time, the rate, the peak memory, and the
growth of the time from a tenth of the size. The peak counts the moment before the program begins too, so it is never less than
this script's own, about 15 MiB.

    python3 bench/bench.py bin/roombox bin/text_examples bin/worked_examples bin/schedule_examples [--large]

With --large the last table has streams and a calendar of 1 GB (bench/hostile.py).
"""

import os
import random
import re
import sys
import tempfile
from datetime import datetime, timedelta

from boxes import boxes
from groups import groups
from hostile import hostile_sizes
from residues import residues
from runs import LISTED, SENT, checked, fed, in_new_york, in_utc, least, run, serve, with_files
from schedules import schedules
from spans import spans
from texts import EVENT, FIRST, IN_NEW_YORK, NEW_YORK, REQUEST, ROOM, SERIES, certificate_of, crlf, preamble, recurring, rule_of_lists, stamp

NEW_YORK_WORDS = "-0500 -0400 11 1SU 0200 3 2SU 0200"
# A meeting of DAYS days in a row, of half an hour each: EXDATE takes one away, and an override moves another.
DAYS = 12
LISTED_DAYS = EVENT.replace("DURATION:PT3600S", "RDATE:{others}\nEXDATE:{excepted}\nDURATION:PT1800S") + EVENT.replace(
    "DTSTART:{start}\nDURATION:PT3600S", "RECURRENCE-ID:{slot}\nDTSTART:{moved}\nDURATION:PT1800S"
)
ZONE = """BEGIN:VTIMEZONE
TZID:Z{number}
BEGIN:STANDARD
DTSTART:16010101T030000
TZOFFSETFROM:+0200
TZOFFSETTO:+0100
RRULE:FREQ=YEARLY;BYMONTH=10;BYDAY=-1SU
END:STANDARD
BEGIN:DAYLIGHT
DTSTART:16010101T020000
TZOFFSETFROM:+0100
TZOFFSETTO:+0200
RRULE:FREQ=YEARLY;BYMONTH=3;BYDAY=-1SU
END:DAYLIGHT
END:VTIMEZONE
"""
ZONED = """BEGIN:VEVENT
UID:zoned@example.com
{recurrence}DTSTART;TZID=Z{number}:20250610T090000
DURATION:PT1H
END:VEVENT
"""
ENDLESS = """BEGIN:VEVENT
UID:series-{number}@example.com
DTSTAMP:20250101T000000Z
ORGANIZER:mailto:ann@example.com
ATTENDEE;PARTSTAT=ACCEPTED:{room}
DTSTART{start}
DURATION:PT1H
RRULE:{rule}
END:VEVENT
"""
# The most RDATEs, EXDATEs and overrides of an event in a message.
MOST_DATES, MOST_OVERRIDES = 366, 199
# Instants in 2026 and in 9000 that instances are looked for from.
SOON, LATE = 1_780_000_000, 221_900_000_000
# Each starts on its own first day.
RULES = (
    ("instances of a day each", "19700101T090000Z", "FREQ=DAILY"),
    ("last weekdays of the month", "19700130T090000Z", "FREQ=MONTHLY;BYDAY=MO,TU,WE,TH,FR;BYSETPOS=-1"),
)
# Rules to jump in, each with the day on which it begins; and the days to jump to.
SEEKS = (
    ("19700101", "FREQ=DAILY"),
    ("19700101", "FREQ=DAILY;BYMONTH=1;BYDAY=TH,SU"),
    ("19700101", "FREQ=WEEKLY"),
    ("19700101", "FREQ=WEEKLY;BYDAY=TU,TH"),
    ("19700101", "FREQ=MONTHLY"),
    ("19700130", "FREQ=MONTHLY;BYDAY=MO,TU,WE,TH,FR;BYSETPOS=-1"),
    ("19700101", "FREQ=YEARLY"),
    ("19700301", "FREQ=YEARLY;BYMONTH=3;BYDAY=1SU"),
)
NEAR, FAR = "19710101", "90000101"
TIMES = 100_000
# Events that an overlap is looked for in.
EVENTS = 2_000
# The meetings of a room that are revised: an even number, below the limit of a room.
MEETINGS = 9_000
# How often one instance of a meeting is revised.
REVISIONS = 1_000
# Endless series of a room beside which another one is revised.
ENDLESS_ONES = 60
# How often an event is listed, so that the program's own start counts for little.
TURNS = 20


def requests(count, rooms=1):
    """A stream of requests, none of which clashes with another, spread over the rooms in turn."""
    yield preamble(rooms)
    for number in range(count):
        room = ROOM.format(number % rooms)
        yield crlf(REQUEST.format(number=number, room=room, start=stamp(number), extra=""))


def whole_days(count, zone=None):
    """A stream of requests of one room, each of a whole day, one day after another."""
    yield preamble(1, zone)
    for number in range(count):
        day = (FIRST + timedelta(days=number)).strftime("%Y%m%d")
        text = REQUEST.replace("DTSTART:{start}\nDURATION:PT1H", "DTSTART;VALUE=DATE:{start}")
        yield crlf(text.format(number=number, room=ROOM.format(0), start=day, extra=""))


def declines(count):
    """A request that is accepted, and so many others onto its time."""
    yield preamble(1)
    for number in range(count + 1):
        yield crlf(REQUEST.format(number=number, room=ROOM.format(0), start=stamp(0), extra=""))


def revisions(count):
    """So many revisions of MEETINGS meetings of one room, after these. Every second one asks for a busy time: that of the meeting before it."""
    yield from requests(MEETINGS)
    for number in range(count):
        turn, meeting = divmod(number, MEETINGS)
        # a meeting moves after all others, and back
        hour = meeting - meeting % 2 + (MEETINGS if turn % 2 == 0 else 0)
        request = REQUEST.replace("SEQUENCE:0", f"SEQUENCE:{turn + 1}")
        yield crlf(request.format(number=meeting, room=ROOM.format(0), start=stamp(hour), extra=""))


def changes(count):
    """So many messages for MEETINGS meetings of one room, after these: in turn one that cancels a meeting, a revision that asks for its hour
    again, and the same once more."""
    yield from requests(MEETINGS)
    for number in range(count):
        turn, meeting = divmod(number // 3, MEETINGS)
        cancels = number % 3 == 0
        message = REQUEST.replace("SEQUENCE:0", f"SEQUENCE:{2 * turn + (1 if cancels else 2)}")
        if cancels:
            message = message.replace("METHOD:REQUEST", "METHOD:CANCEL")
        yield crlf(message.format(number=meeting, room=ROOM.format(0), start=stamp(meeting), extra=""))


def overridden(count):
    """A meeting of so many overrides beside its whole, and then REVISIONS revisions of the last one, which moves to and fro."""
    vevent = REQUEST[REQUEST.index("BEGIN:VEVENT") : REQUEST.index("END:VCALENDAR")]
    head, tail = REQUEST[: REQUEST.index("BEGIN:VEVENT")], "END:VCALENDAR\n"
    one = lambda slot, start, sequence: vevent.replace("SEQUENCE:0", f"SEQUENCE:{sequence}").format(
        number=0, room=ROOM.format(0), start=stamp(start), extra=f"RECURRENCE-ID:{stamp(slot)}\n" if slot else ""
    )
    yield preamble(1)
    yield crlf(head + "".join(one(slot, slot, 0) for slot in range(count + 1)) + tail)
    for number in range(REVISIONS):
        yield crlf(head + one(count, count + 1 - number % 2, number + 1) + tail)


def days_in_zones(count):
    """One message to 64 rooms in zones: days each week, so many of which are moved to others. For each room it is put on the room's clocks."""
    vevent = REQUEST[REQUEST.index("BEGIN:VEVENT") : REQUEST.index("END:VCALENDAR")].replace("DTSTART:{start}\nDURATION:PT1H", "DTSTART;VALUE=DATE:{start}")
    day = lambda number: (FIRST + timedelta(days=number)).strftime("%Y%m%d")
    rooms = f"{ROOM.format(0)}\n" + "".join(f"ATTENDEE:{ROOM.format(room)}\n" for room in range(1, 64))
    one = lambda start, extra: vevent.format(number=0, room=rooms.rstrip("\n"), start=start, extra=extra)
    moved = (one(day(7 * week + 1), f"RECURRENCE-ID;VALUE=DATE:{day(7 * week)}\n") for week in range(count))
    yield preamble(64, NEW_YORK_WORDS)
    yield crlf(REQUEST[: REQUEST.index("BEGIN:VEVENT")] + one(day(0), "RRULE:FREQ=WEEKLY\n") + "".join(moved) + "END:VCALENDAR\n")


def large_objects(count):
    """A stream of requests of about 1 MB each, most of it in folded lines."""
    folded = "DESCRIPTION:" + "\n ".join("x" * 74 for _ in range(13_000)) + "\n"
    yield preamble(1)
    for number in range(count):
        yield crlf(REQUEST.format(number=number, room=ROOM.format(0), start=stamp(number), extra=folded))


def calendar(count):
    yield crlf("BEGIN:VCALENDAR\nVERSION:2.0\nPRODID:-//bench//EN\n")
    for number in range(count):
        yield crlf(EVENT.format(number=number, room=ROOM.format(0), start=stamp(number)))
    yield crlf("END:VCALENDAR\n")


def calendar_of_days(count):
    """So many meetings by RDATE, each with a day taken away and one moved by half an hour."""
    yield crlf("BEGIN:VCALENDAR\nVERSION:2.0\nPRODID:-//bench//EN\n")
    for number in range(count):
        block, hour = divmod(number, 24)
        hours = [24 * (DAYS * block + day) + hour for day in range(DAYS)]
        days = [stamp(place) for place in hours]
        moved = (FIRST + timedelta(hours=hours[2], minutes=30)).strftime("%Y%m%dT%H%M%SZ")
        others = ",".join(days[1:])
        room = ROOM.format(0)
        yield crlf(LISTED_DAYS.format(number=number, start=days[0], others=others, excepted=days[1], slot=days[2], moved=moved, room=room))
    yield crlf("END:VCALENDAR\n")


def endless(rules, zone=""):
    """A calendar of endless series, each an hour long, and each begins an hour after the one before."""
    yield crlf("BEGIN:VCALENDAR\nVERSION:2.0\nPRODID:-//bench//EN\n" + zone)
    for number, rule in enumerate(rules):
        start = f";TZID=America/New_York:20250106T{9 + number:02}0000" if zone else f":20250106T{9 + number:02}0000Z"
        yield crlf(ENDLESS.format(number=number, room=ROOM.format(0), start=start, rule=rule))
    yield crlf("END:VCALENDAR\n")


def beside_a_series(count):
    """So many singles at noon, one a day, beside an endless daily series."""
    yield from list(endless(["FREQ=DAILY"]))[:-1]
    for number in range(count):
        start = (datetime(2025, 1, 6, 12) + timedelta(days=number)).strftime("%Y%m%dT%H%M%SZ")
        yield crlf(EVENT.format(number=number, room=ROOM.format(0), start=start))
    yield crlf("END:VCALENDAR\n")


def two_series(zone=""):
    """Requests for two endless daily series of one room, an hour apart."""
    yield preamble(1)
    for number in range(2):
        yield recurring(number, f"20250106T{9 + number:02}0000Z", "FREQ=DAILY", zone=zone)


def singles_then_series(count, series):
    """Requests for so many singles at noon, one a day, and then for so many endless daily series at nine, ten .."""
    yield preamble(1)
    for number in range(count):
        start = (datetime(2025, 1, 6, 12) + timedelta(days=number)).strftime("%Y%m%dT%H%M%SZ")
        yield crlf(REQUEST.format(number=number, room=ROOM.format(0), start=start, extra=""))
    for number in range(series):
        yield recurring(count + number, "20250106T090000Z", "FREQ=DAILY")


def beside_many(count):
    """Requests for ENDLESS_ONES endless series, each once in 97 years, and then so many revisions of a short daily one, which moves to and fro."""
    yield preamble(1)
    for number in range(ENDLESS_ONES):
        start = (datetime(2025, 3, 3) + timedelta(hours=number)).strftime("%Y%m%dT%H%M%SZ")
        yield recurring(number, start, "FREQ=YEARLY;INTERVAL=97")
    for sequence in range(count):
        yield recurring(ENDLESS_ONES, f"20250610T{9 + sequence % 2:02}0000Z", "FREQ=DAILY;COUNT=5", sequence)


def cancelled_one_by_one(count):
    """A request for a long weekly series, and then so many cancellations of one instance each."""
    yield preamble(1)
    yield recurring(0, "20250106T090000Z", "FREQ=WEEKLY;COUNT=20000")
    cancel = REQUEST.replace("METHOD:REQUEST", "METHOD:CANCEL").replace("SEQUENCE:0", "SEQUENCE:1")
    for number in range(count):
        start = (datetime(2025, 1, 6, 9) + timedelta(weeks=number)).strftime("%Y%m%dT%H%M%SZ")
        yield crlf(cancel.format(number=0, room=ROOM.format(0), start=start, extra=f"RECURRENCE-ID:{start}\n"))


def stores(count, people=1):
    """So many meetings that one organiser stores, each for so many people."""
    store = REQUEST.replace("METHOD:REQUEST\n", "")
    lines = "".join(f"ATTENDEE:{ROOM.format(person)}\n" for person in range(1, people))
    yield b"now 20250102T000000Z\norganiser mailto:ann@example.com\n\n"
    for number in range(count):
        yield crlf(store.format(number=number, room=ROOM.format(0), start=stamp(number), extra=lines))


def replies(count, people):
    """And a reply to each meeting of each of the people."""
    yield from stores(count, people)
    reply = REQUEST.replace("METHOD:REQUEST", "METHOD:REPLY").replace("ATTENDEE:", "ATTENDEE;PARTSTAT=ACCEPTED:")
    for number in range(count):
        for person in range(people):
            yield crlf(reply.format(number=number, room=ROOM.format(person), start=stamp(number), extra=""))


def after(program, pieces, accepted, first, first_accepted, **word):
    """The seconds that a stream takes beyond those of its first part: of each the least of three runs, since their difference may be small."""
    pieces, first = list(pieces), list(first)
    whole, peak, size = least(lambda: serve(program, pieces, accepted, **word), 3)
    part, _, _ = least(lambda: serve(program, first, first_accepted, **word), 3)
    return max(whole - part, 1e-3), peak, size


HISTORY = """BEGIN:VTIMEZONE
TZID:Berlin
BEGIN:STANDARD
TZOFFSETFROM:+005328
TZOFFSETTO:+0100
DTSTART:18930401T000000
END:STANDARD
BEGIN:STANDARD
TZOFFSETFROM:+0200
TZOFFSETTO:+0100
DTSTART:19800928T030000
RRULE:FREQ=YEARLY;UNTIL=19950924T010000Z;BYMONTH=9;BYDAY=-1SU
END:STANDARD
BEGIN:DAYLIGHT
TZOFFSETFROM:+0100
TZOFFSETTO:+0200
DTSTART:19810329T020000
RRULE:FREQ=YEARLY;BYMONTH=3;BYDAY=-1SU
END:DAYLIGHT
BEGIN:STANDARD
TZOFFSETFROM:+0200
TZOFFSETTO:+0100
DTSTART:19961027T030000
RRULE:FREQ=YEARLY;BYMONTH=10;BYDAY=-1SU
END:STANDARD
END:VTIMEZONE
"""


def with_history(count):
    """Requests in a zone whose VTIMEZONE has history, one in an object."""
    zoned = REQUEST.replace("BEGIN:VEVENT", HISTORY + "BEGIN:VEVENT", 1).replace("DTSTART:{start}\nDURATION", "DTSTART;TZID=Berlin:{start}\nDURATION", 1)
    for number in range(count):
        yield crlf(zoned.format(number=number, room=ROOM.format(0), start=stamp(number).rstrip("Z"), extra=""))


def dates_of_a_zone(count):
    """One request in a zone of so many dates."""
    first = datetime(1900, 1, 1)
    dates = ",".join((first + timedelta(days=number)).strftime("%Y%m%dT%H%M%S") for number in range(count))
    part = f"BEGIN:STANDARD\nTZOFFSETFROM:+0000\nTZOFFSETTO:+0100\nDTSTART:18990101T000000\nRDATE:{dates}\nEND:STANDARD\n"
    zone = f"BEGIN:VTIMEZONE\nTZID:Berlin\n{part}END:VTIMEZONE\n"
    yield next(with_history(1)).replace(crlf(HISTORY), crlf(zone))


def names_of_zones(count):
    """One request with so many EXDATEs, each in a zone of its own, whose VTIMEZONE has history."""
    zones = "".join(HISTORY.replace("TZID:Berlin", f"TZID:{number}") for number in range(count))
    dates = "".join(f"EXDATE;TZID={number}:20250101T000000\n" for number in range(count))
    text = next(with_history(1)).replace(crlf("BEGIN:VEVENT\n"), crlf(zones + "BEGIN:VEVENT\n" + dates), 1)
    yield text


def adapt(program, pieces, most):
    """Seconds, peak octets and the size of objects that the door makes readable, none of which has history then."""
    ran, size = fed([program, "adapt"], pieces)
    if ran.status != 0 or ran.output.count(b"BEGIN:STANDARD") > most:
        sys.exit(f"adapt: status {ran.status}, {ran.output.count(b'BEGIN:STANDARD')} parts")
    return ran.seconds, ran.peak, size


def check(program, pieces, singles, series=0):
    """The checker's yes to a calendar of so many singles and series."""
    return checked(program, pieces, certificate_of(singles, series).encode())


def agenda(program, pieces, first, until, lines):
    """So many lines of what a calendar confirms from a day on and before another."""
    span = ["--from", f"{first:%Y%m%d}T000000Z", "--until", f"{until:%Y%m%d}T000000Z"]
    ran, size = with_files([program, "agenda", ROOM.format(0), *span], pieces)
    if ran.status or ran.output.count(b"\n") != lines:
        sys.exit(f"agenda: status {ran.status}, {ran.output.count(bytes([10]))} lines")
    return ran.seconds, ran.peak, size


def series_with_exceptions(dates):
    """A daily series with so many RDATEs and EXDATEs and a like share of overrides, and how many instances it has."""
    overrides = dates * MOST_OVERRIDES // MOST_DATES
    day = lambda number, hour: f"{FIRST + timedelta(days=number):%Y%m%d}T{hour:02}0000Z"
    listed = lambda hour: ",".join(day(number, hour) for number in range(0, 2 * dates, 2))
    series = SERIES.format(start=day(0, 9), rule=f"FREQ=DAILY;COUNT={3 * dates}\nRDATE:{listed(15)}\nEXDATE:{listed(9)}")
    moved = "".join(
        SERIES[SERIES.index("BEGIN:VEVENT") : SERIES.index("END:VCALENDAR")]
        .format(start=day(number, 11), rule="")
        .replace("RRULE:\n", f"RECURRENCE-ID:{day(number, 9)}\n")
        for number in range(1, 2 * overrides, 2)
    )
    return series.replace("END:VCALENDAR", moved + "END:VCALENDAR"), 3 * dates


def all_instances(program, series, count):
    """All instances of an event, of which there are so many, run a few times."""
    found = [fed([program, "expand", "--limit", str(count + 1)], [crlf(series)])[0] for _ in range(TURNS)]
    for ran in found:
        if ran.status != 0 or ran.output.count(b"\n") != count:
            sys.exit(f"expand: status {ran.status}, {ran.output[:60]} in place of {count} lines")
    return sum(ran.seconds for ran in found), max(ran.peak for ran in found)


def overlaps(program, instant):
    """Events read anew and the first instance from an instant on looked for, as a table of worked examples."""
    asked = f"overlap {instant} {instant + 86_400}"
    text = IN_NEW_YORK.format(start="19700101T090000", rule="FREQ=DAILY").replace("\n", "\\r\\n")
    with tempfile.TemporaryDirectory() as folder:
        for table in ("messages.txt", "residues.txt", "calendars.txt", "organisers.txt"):
            open(os.path.join(folder, table), "w", encoding="ascii").close()
        with open(os.path.join(folder, "events.txt"), "w", encoding="ascii") as file:
            file.writelines(f"{number} | text | {text} | {asked}\n" for number in range(EVENTS))
        ran = run([os.path.abspath(program)], folder=folder)
    if ran.status != 0 or ran.output.count(b"\n") != EVENTS or b"none" in ran.output:
        sys.exit(f"overlaps: status {ran.status}, {ran.output[:80]}")
    return ran.seconds, ran.peak


def zoned(count):
    """An event of so many VEVENTs, each of which names a zone of its own: each zone is read once."""
    zones = "".join(ZONE.format(number=number) for number in range(count))
    events = "".join(ZONED.format(number=number, recurrence=f"RECURRENCE-ID:{stamp(number)}\n" if number else "") for number in range(count))
    return f"BEGIN:VCALENDAR\nVERSION:2.0\n{zones}{events}END:VCALENDAR\n", count


def seek(program, start, rule, target):
    """The seconds of many jumps from a rule's first day to a day, without those of the program itself."""
    ran, _ = fed([program, "seeks"], [f"jumps | seek | {rule} | {start} | 99991231 | {target} | {TIMES}\n".encode()])
    if ran.status != 0 or not re.fullmatch(rb"jumps: \d{8}\n", ran.output):
        sys.exit(f"seek: status {ran.status}, {ran.output!r} for {rule}")
    return ran.seconds, ran.peak


def seeks(program):
    """How much longer the jump to the year 9000 takes than the one to 1971, for each rule with INTERVAL 1 and 7."""
    for interval in (1, 7):
        for start, rule in SEEKS:
            near, _ = seek(program, start, f"{rule};INTERVAL={interval}", NEAR)
            far, peak = seek(program, start, f"{rule};INTERVAL={interval}", FAR)
            words = rule.removeprefix("FREQ=")
            line(f"to 9000: {words[:22]} by {interval}", TIMES, far, f"{int(TIMES / far)}/s", peak, f"{far / near:.1f}")


def quickly(program, calendar_text, certificate_text):
    """Input that is no calendar, or no certificate: an answer of `no`."""
    ran, size = with_files([program, "check", ROOM.format(0)], [calendar_text], [certificate_text])
    if ran.status != 1 or not ran.output.startswith(b"no "):
        sys.exit(f"check: status {ran.status}, {ran.output!r}")
    return ran.seconds, ran.peak, size


def line(work, count, seconds, rate, peak, growth=""):
    print(f"{work:<38}{count:>9}{seconds:>9.2f}{rate:>16}{peak / 2**20:>10.1f}{growth:>8}")


def grown(work, sizes, measure, rate):
    """A line for each size. From the second on it has the growth of the time since the one before."""
    before = None
    for size in sizes:
        seconds, peak, *octets = measure(size)
        done = f"{octets[0] / seconds / 1e6:.0f} MB/s" if rate == "octets" else f"{int((rate or size) / seconds)}/s"
        line(work, size, seconds, done, peak, f"{seconds / before:.1f}" if before else "")
        before = seconds


def main():
    program = sys.argv[1]
    print(f"{'work':<38}{'objects':>9}{'seconds':>9}{'rate':>16}{'peak MiB':>10}{'growth':>8}")
    grown("requests for one room", (1_000, 10_000), lambda count: serve(program, requests(count), count), None)
    for rooms in (16, 50):
        grown(f"the same requests over {rooms} rooms", (1_000, 10_000), lambda count: serve(program, requests(count, rooms), count), None)
    grown("requests of a whole day each", (1_000, 10_000), lambda count: serve(program, whole_days(count), count), None)
    grown("the same of a room in New York", (1_000, 10_000), lambda count: serve(program, whole_days(count, NEW_YORK_WORDS), count), None)
    grown("days moved in 64 rooms of a zone", (19, 190), lambda count: serve(program, days_in_zones(count), 64 * (count + 1)), None)
    grown("objects with history at the door", (1_000, 10_000), lambda count: adapt(program, with_history(count), count), None)
    grown("dates of a zone at the door", (2_000, 20_000), lambda count: adapt(program, dates_of_a_zone(count), 1), "octets")
    grown("zones of an object at the door", (140, 1_400), lambda count: adapt(program, names_of_zones(count), count + 1), "octets")
    grown("singles, of which an agenda has a day", (10_000, 100_000), lambda count: agenda(program, calendar(count), datetime(2025, 1, 7), datetime(2025, 1, 8), 24), None)
    listed = lambda days: agenda(program, endless(["FREQ=DAILY"]), datetime(9000, 1, 1), datetime(9000, 1, 1) + timedelta(days=days), days)
    grown("days in the year 9000 of an agenda", (10_000, 100_000), listed, None)
    grown("requests onto one busy time", (6_000, 60_000), lambda count: serve(program, declines(count), 1), None)
    revised = lambda count: serve(program, revisions(count), MEETINGS + count // 2)
    grown(f"revisions of {MEETINGS:,} meetings", (10_000, 100_000), revised, None)
    changed = lambda count: serve(program, changes(count), MEETINGS + (count + 1) // 3 + count // 3)
    grown("a third cancels, a third revisions, a third repeats", (10_000, 100_000), changed, None)
    revised = lambda count: serve(program, overridden(count), count + 1 + REVISIONS)
    grown("overrides, one revised 1,000 times", (MOST_OVERRIDES // 10, MOST_OVERRIDES), revised, REVISIONS)
    grown("stores of one organiser", (1_000, 10_000), lambda count: serve(program, stores(count), count, word=SENT), None)
    replied = lambda count: after(program, replies(count, 1), count, stores(count), count, word=SENT)
    grown("replies to them", (1_000, 10_000), replied, None)
    replied = lambda count: after(program, replies(1, count), 1, stores(1, count), 1, word=SENT)
    grown("replies of as many people to one store", (1_000, 10_000), replied, None)
    grown("people of one store", (2_500, 25_000), lambda count: serve(program, stores(1, count), 1, word=SENT), None)
    grown("objects of 1 MB with folded lines", (20,), lambda count: serve(program, large_objects(count), count), "octets")
    grown("singles checked", (100_000, 1_000_000), lambda count: check(program, calendar(count), count), "octets")
    days = lambda count: check(program, calendar_of_days(count), count * (DAYS - 1))
    grown(f"meetings of {DAYS} days checked", (10_000, 100_000), days, "octets")
    grown("pairs of two endless daily series", (3,), lambda _: check(program, endless(["FREQ=DAILY"] * 2), 0, 2), None)
    grown("the same in New York", (3,), lambda _: check(program, endless(["FREQ=DAILY"] * 2, NEW_YORK), 0, 2), None)
    grown("pairs of 8 endless weekly series", (36,), lambda _: check(program, endless(["FREQ=WEEKLY"] * 8), 0, 8), None)
    grown("singles beside an endless daily series", (1_000, 10_000), lambda count: check(program, beside_a_series(count), count, 1), None)
    grown("a room's two endless daily series", (2,), lambda count: serve(program, two_series(), count), None)
    grown("the same in New York", (2,), lambda count: serve(program, two_series(NEW_YORK), count), None)
    joined = lambda count: after(program, singles_then_series(count, 1), count + 1, singles_then_series(count, 0), count)
    grown("a daily series asked beside singles", (1_000, 9_999), joined, None)
    grown("instances of a series cancelled", (1_000, 10_000), lambda count: serve(program, cancelled_one_by_one(count), 1), None)
    revised = lambda count: after(program, beside_many(count), ENDLESS_ONES + count, beside_many(0), ENDLESS_ONES)
    grown(f"revisions of a series beside {ENDLESS_ONES} endless", (100, REVISIONS), revised, None)
    for work, start, rule in RULES:
        grown(work, (9_500, 95_000), lambda count: in_utc(program, start, rule, count), None)
    grown("instances of a day each in New York", (9_500, 95_000), lambda count: in_new_york(program, count), None)
    grown("RDATEs, as many EXDATEs, half overrides", (MOST_DATES // 10, MOST_DATES), lambda count: all_instances(program, *series_with_exceptions(count)), None)
    soon, _ = overlaps(sys.argv[3], SOON)
    late, peak = overlaps(sys.argv[3], LATE)
    line("first overlap in 9000 against 2026", EVENTS, late, f"{int(EVENTS / late)}/s", peak, f"{late / soon:.1f}")
    grown("VEVENTs of an event, a zone each", (20, 200), lambda count: all_instances(program, *zoned(count)), None)
    seeks(sys.argv[2])
    listed = lambda count: in_utc(program, "19700101T090000Z", rule_of_lists(count), LISTED)
    grown("entries in each list of a rule", (36, 366), listed, LISTED)
    empty = b"BEGIN:VCALENDAR\r\nVERSION:2.0\r\nEND:VCALENDAR\r\n"
    odd = (
        ("a calendar of 0 octets", b"", b""),
        ("a calendar of 10 MB of A", b"A" * 10_000_000, b""),
        ("a calendar of 10 MB of random octets", random.Random(7).randbytes(10_000_000), b""),
        ("a certificate of 10 MB of digits", empty, b"7" * 10_000_000),
    )
    for work, calendar_text, certificate_text in odd:
        seconds, peak, size = quickly(program, calendar_text, certificate_text)
        line(work, 1, seconds, f"{size / seconds / 1e6:.0f} MB/s", peak)
    spans(program, sys.argv[3])
    residues(program)
    groups(program)
    schedules(sys.argv[4])
    boxes(program)
    hostile_sizes(program, "--large" in sys.argv)


if __name__ == "__main__":
    main()
