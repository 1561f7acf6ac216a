"""Compares `roombox agenda` with instances that Python computes of random calendars (lib/calendars.py), and tries its words.

    python3 tests/agenda.py bin/roombox [--calendars 60] [--seed 1]

Local times are compared with those of zoneinfo. What `--ics` prints is read here, line by line: its VEVENTs have to have the hours of those instances, and
UIDs of their own. Clients read it in tests/subscribers.py.
"""

import argparse
import random
import re

from lib.calendars import Calendar, instances
from lib.cases import Cases
from lib.program import checked, kept, of_arguments, with_calendar
from lib.random_calendars import calendar_text
from lib.streams import ANN, NOW, PREAMBLE, R1, calendar
from lib.zones import DAY, WORDS, clock, moment, stamp

START = moment("20250101T000000Z")
OTHER = "mailto:r2@example.com"
EMPTY = calendar()
ONE = calendar("BEGIN:VEVENT", "UID:a\\,b", "DTSTAMP:20250101T000000Z", f"ORGANIZER:{ANN}", f"ATTENDEE;PARTSTAT=ACCEPTED:{R1}", "DTSTART:20250415T070000Z", "DTEND:20250415T080000Z", "END:VEVENT")
# The zones that are asked for: each has the same rules in all years that are asked for here.
ZONES = ["America/New_York", "Europe/Berlin", "Australia/Lord_Howe", "Asia/Kolkata", "UTC"]


def run(program, text, *words):
    return with_calendar(program, text, "agenda", *words)


def free(found, start, end):
    spans = []
    for a, b in found:
        if start < a:
            spans.append((start, a))
        start = max(start, b)
    return spans + ([(start, end)] if start < end else [])


def local(instant, name):
    """The local time of an instant, in the form of RFC 5545 3.3.5."""
    return clock(instant, name).strftime("%Y%m%dT%H%M%S").zfill(15)


def with_local(lines, name):
    """These lines as they have to be with local times: behind the first two words those of the zone."""
    shown = []
    for line in lines.splitlines():
        start, end, *rest = line.split(" ", 2)
        shown.append(" ".join([start, end, local(moment(start), name), local(moment(end), name), *rest]))
    return "".join(line + "\n" for line in shown)


def faults_of_object(text, wanted, start):
    """What is wrong with an object that is published of instances, each a start and an end; nothing where it is as it has to be."""
    octets = text.encode()
    found = []
    if not octets.endswith(b"\r\n") or any(it.endswith(b"\r") for it in octets.split(b"\r\n")) or octets.count(b"\n") != octets.count(b"\r\n"):
        found.append("line breaks")
    if any(len(it) > 75 for it in octets.split(b"\r\n")):
        found.append("a line of more than 75 octets")
    lines = [it for it in re.sub(r"\r\n[ \t]", "", text).split("\r\n") if it]
    head = ["BEGIN:VCALENDAR", "VERSION:2.0", "PRODID:-//iTIP room box//EN", "NAME:r1@example.com", "X-WR-CALNAME:r1@example.com"]
    if lines[:5] != head or lines[-1] != "END:VCALENDAR":
        found.append(f"not around it: {lines[:5]}, {lines[-1]}")
    events, uids = [], set()
    body = lines[5:-1]
    for at in range(0, len(body), 8):
        begin, uid, made, first, last, who, transparent, end = body[at:at + 8]
        if begin != "BEGIN:VEVENT" or end != "END:VEVENT" or made != f"DTSTAMP:{stamp(start)}" or transparent != "TRANSP:OPAQUE" or not who.startswith("SUMMARY:"):
            found.append(f"VEVENT {body[at:at + 8]}")
        uids.add(uid)
        events.append((moment(first.removeprefix("DTSTART:")), moment(last.removeprefix("DTEND:"))))
    if len(uids) != len(events):
        found.append("a UID twice")
    if sorted(events) != wanted or [it[0] for it in events] != [it[0] for it in wanted]:
        found.append(f"instances {events}")
    return found


def spans_of(lines):
    return [tuple(moment(it) for it in line.split(" ")[:2]) for line in lines.splitlines()]


def random_cases(cases, program, count, seed):
    for number in range(count):
        chance = random.Random(f"agenda {seed} {number}")
        text = calendar_text(chance)
        read = Calendar(text, R1)
        for turn in range(4):
            start = START + chance.randint(-400, 1500) * DAY + chance.randint(0, 95) * 900
            end = start + chance.choice([900, 3600, DAY, 7 * DAY, 40 * DAY])
            words = [R1, "--from", stamp(start), "--until", stamp(end)]
            asked_about(cases, f"agenda {seed} {number}, {turn}", lambda *more: run(program, text, *words, *more), instances(read, start, end), start, end, chance.choice(ZONES))


def asked_about(cases, name, asked, wanted, start, end, zone):
    """What is asked about one span of one calendar."""
    status, lines, _ = asked()
    found = spans_of(lines)
    cases.holds(name, (status, sorted(found), [it[0] for it in found]), (0, wanted, [it[0] for it in wanted]))
    cases.holds(f"{name}, in {zone}", asked(f"--zone={WORDS[zone]}")[:2], (0, with_local(lines, zone)))
    status, published, _ = asked("--ics")
    cases.holds(f"{name}, published", (status, faults_of_object(published, wanted, start)), (0, []))
    wanted = free(wanted, start, end)
    status, lines, _ = asked("--free")
    is_free = 0 if wanted == [(start, end)] else 1
    cases.holds(f"{name}, what is free", (status, spans_of(lines)), (is_free, wanted))
    cases.holds(f"{name}, what is free in {zone}", asked("--free", f"--zone={WORDS[zone]}")[:2], (is_free, with_local(lines, zone)))


def rows():
    """What is asked of one meeting from 07:00 to 08:00, and of an empty room, with status and standard output by hand."""
    berlin = f"--zone={WORDS['Europe/Berlin']}"
    published = (
        "BEGIN:VCALENDAR\r\nVERSION:2.0\r\nPRODID:-//iTIP room box//EN\r\nNAME:r1@example.com\r\nX-WR-CALNAME:r1@example.com\r\nBEGIN:VEVENT\r\n"
        "UID:20250415T070000Z mailto:ann@example.com a\\,b\r\nDTSTAMP:20250415T000000Z\r\nDTSTART:20250415T070000Z\r\nDTEND:20250415T080000Z\r\n"
        "SUMMARY:ann@example.com\r\nTRANSP:OPAQUE\r\nEND:VEVENT\r\nEND:VCALENDAR\r\n"
    )
    none = published[:published.index("BEGIN:VEVENT")] + "END:VCALENDAR\r\n"
    late = ONE.replace("DTSTART:20250415T070000Z", "DTSTART:99991231T230000Z").replace("DTEND:20250415T080000Z", "DURATION:PT2H")
    line = "20250415T070000Z 20250415T080000Z a\\,b mailto:ann@example.com\n"
    day = ["--from", "20250415T000000Z", "--until", "20250416T000000Z"]
    return [
        ("the meeting of a day", ONE, [R1, *day], 0, line),
        ("all that is confirmed", ONE, [R1], 0, line),
        ("a span that ends where it begins", ONE, [R1, "--from", "20250415T060000Z", "--until", "20250415T070000Z"], 0, ""),
        ("a span that begins where it ends", ONE, [R1, "--from", "20250415T080000Z"], 0, ""),
        ("its last second", ONE, [R1, "--from", "20250415T075959Z", "--until", "20250415T080000Z"], 0, line),
        ("what is free of a day", ONE, [R1, *day, "--free"], 1, "20250415T000000Z 20250415T070000Z\n20250415T080000Z 20250416T000000Z\n"),
        ("an hour that is free", ONE, [R1, "--from", "20250415T080000Z", "--until", "20250415T090000Z", "--free"], 0, "20250415T080000Z 20250415T090000Z\n"),
        ("an hour that isn't", ONE, [R1, "--from", "20250415T070000Z", "--until", "20250415T080000Z", "--free"], 1, ""),
        ("free without an end is no question", ONE, [R1, "--from", "20250415T070000Z", "--free"], 0, "20250415T080000Z -\n"),
        ("an empty room", EMPTY, [R1, *day], 0, ""),
        ("an empty room is free", EMPTY, [R1, *day, "--free"], 0, "20250415T000000Z 20250416T000000Z\n"),
        ("local times in summer", ONE, [R1, *day, berlin], 0, "20250415T070000Z 20250415T080000Z 20250415T090000 20250415T100000 a\\,b mailto:ann@example.com\n"),
        ("local times of what is free", ONE, [R1, "--from", "20250415T080000Z", "--until", "20250415T230000Z", "--free", berlin], 0,
         "20250415T080000Z 20250415T230000Z 20250415T100000 20250416T010000\n"),
        ("UTC as a zone", ONE, [R1, *day, "--zone=+0000"], 0, "20250415T070000Z 20250415T080000Z 20250415T070000 20250415T080000 a\\,b mailto:ann@example.com\n"),
        ("an end in year 10000 has a local time west of Greenwich", late, [R1, "--from", "99991231T000000Z", "--zone=-0500"], 0,
         "99991231T230000Z - 99991231T180000 99991231T200000 a\\,b mailto:ann@example.com\n"),
        ("and none east of it", late, [R1, "--from", "99991231T000000Z", "--zone=+0100"], 0, "99991231T230000Z - - - a\\,b mailto:ann@example.com\n"),
        ("before year 1 no clock shows a time", ONE, [R1, "--until", "00010101T010000Z", "--free", "--zone=-0100"], 0, "00010101T000000Z 00010101T010000Z - 00010101T000000\n"),
        ("no zone", ONE, [R1, *day, "--zone=Europe/Berlin"], 2, ""),
        ("an object for subscribing", ONE, [R1, *day, "--ics"], 0, published),
        ("an object of an empty room", EMPTY, [R1, *day, "--ics"], 0, none),
        ("an object's end in year 10000 is the last second before it", late, [R1, "--from", "99991231T000000Z", "--until", "99991231T235959Z", "--ics"], 0,
         published.replace("20250415T070000Z", "99991231T230000Z").replace("20250415T080000Z", "99991231T235959Z").replace("20250415T000000Z", "99991231T000000Z")),
        ("an object without an end", ONE, [R1, "--from", "20250415T080000Z", "--ics"], 2, ""),
        ("an object without a beginning", ONE, [R1, "--until", "20250415T080000Z", "--ics"], 2, ""),
        ("an object of what is free", ONE, [R1, *day, "--ics", "--free"], 2, ""),
        ("an object is in UTC, whatever zone is shown", ONE, [R1, *day, "--ics", berlin], 0, published),
        ("no stamp", ONE, [R1, "--from", "2025-04-15"], 2, ""),
        ("a local time", ONE, [R1, "--until", "20250415T080000"], 2, ""),
        ("an end before its start", ONE, [R1, "--from", "20250415T080000Z", "--until", "20250415T080000Z"], 2, ""),
        ("no address", ONE, ["r1"], 2, ""),
        ("no calendar", "BEGIN:VCALENDAR\r\n", [R1], 3, ""),
    ]


def vevent(uid, *lines):
    """A VEVENT of an hour on 15 April 2025."""
    return ["BEGIN:VEVENT", f"UID:{uid}", "DTSTAMP:20250101T000000Z", "ORGANIZER:mailto:ann@example.com", *lines, "DTSTART:20250415T070000Z", "DTEND:20250415T080000Z", "END:VEVENT"]


def calendar_of(*events):
    return calendar(*(line for it in events for line in it))


def said_rows():
    """What is said on standard error of calendars that others export, and of a room that isn't there: with the status and both outputs by hand."""
    day = ["--from", "20250415T000000Z", "--until", "20250416T000000Z"]
    line = "20250415T070000Z 20250415T080000Z {} mailto:ann@example.com\n"
    none = f"roombox: no event names {OTHER}\n"
    here, accepted = f"ATTENDEE:{R1}", f"ATTENDEE;PARTSTAT=ACCEPTED:{R1}"
    outlook = calendar_of(vevent("a", here), vevent("b", f"ATTENDEE;CN=Room 1;ROLE=NON-PARTICIPANT;CUTYPE=RESOURCE:{R1}"))
    nextcloud = calendar_of(vevent("a", accepted), vevent("b", f"ATTENDEE;PARTSTAT=TENTATIVE:{R1}"))
    apple = calendar_of(vevent("a", "LOCATION:r1@example.com"), vevent("b", "LOCATION:r1@example.com", "ATTENDEE;PARTSTAT=ACCEPTED:mailto:bob@example.com"))
    many = calendar_of(*(vevent(f"e{it}", f"ATTENDEE;PARTSTAT=ACCEPTED:{OTHER}", *([accepted] if it == 30 else [])) for it in range(60)))
    return [
        ("a room that isn't there", ONE, [OTHER, *day], 3, "", none),
        ("it isn't free", ONE, [OTHER, *day, "--free"], 3, "", none),
        ("it isn't free without an end", ONE, [OTHER, "--free"], 3, "", none),
        ("it has no object", ONE, [OTHER, *day, "--ics"], 3, "", none),
        ("it has no page", ONE, [OTHER, *day, "--html"], 3, "", none),
        ("an address is compared in lower case", ONE, [R1.upper(), *day], 0, line.format("a\\,b"), ""),
        ("and is shown so", ONE, [OTHER.upper(), *day], 3, "", none),
        ("a name is shown in printable ASCII", ONE, ["mailto:r%\u00e9@example.com", *day], 3, "", "roombox: no event names mailto:r%25%C3%A9@example.com\n"),
        ("an empty calendar names no room", EMPTY, [OTHER, *day, "--free"], 0, "20250415T000000Z 20250416T000000Z\n", ""),
        ("ATTENDEE without PARTSTAT, as Outlook exports it", outlook, [R1, *day], 0, "", f"roombox: 2 events name {R1} and aren't accepted\n"),
        ("such hours are free", outlook, [R1, *day, "--free"], 0, "20250415T000000Z 20250416T000000Z\n", f"roombox: 2 events name {R1} and aren't accepted\n"),
        ("one of two is tentative, as Nextcloud exports it", nextcloud, [R1, *day], 0, line.format("a"), f"roombox: 1 event names {R1} and isn't accepted\n"),
        ("and free says so with status 1", nextcloud, [R1, *day, "--free"], 1, "20250415T000000Z 20250415T070000Z\n20250415T080000Z 20250416T000000Z\n",
         f"roombox: 1 event names {R1} and isn't accepted\n"),
        ("the room in LOCATION alone, as Apple exports it", apple, [R1, *day], 3, "", f"roombox: no event names {R1}\n"),
        ("one event of sixty names the room", many, [R1, *day], 0, line.format("e30"), ""),
        ("those of another room aren't counted", calendar_of(vevent("a", accepted), vevent("b", f"ATTENDEE:{OTHER}")), [R1, *day], 0, line.format("a"), ""),
        ("declined events are counted", calendar_of(vevent("a", f"ATTENDEE;PARTSTAT=DECLINED:{R1}")), [R1, *day], 0, "", f"roombox: 1 event names {R1} and isn't accepted\n"),
        ("cancelled ones aren't", calendar_of(vevent("a", here, "STATUS:CANCELLED")), [R1, *day], 0, "", ""),
        ("of two lines of one address the first counts", calendar_of(vevent("a", here, accepted)), [R1, *day], 0, "", f"roombox: 1 event names {R1} and isn't accepted\n"),
        ("two masters of one meeting", calendar_of(vevent("b", accepted), vevent("a\\,b", accepted), vevent("c", accepted), vevent("a\\,b", accepted)), [R1, *day], 3, "", "roombox: refused 53\nroombox: UID a,b\n"),
        ("two meetings of one UID aren't", calendar_of(vevent("a", accepted), [it.replace("ann@", "bob@") for it in vevent("a", accepted)], vevent("c", accepted), vevent("c", accepted)), [R1, *day], 3, "",
         "roombox: refused 53\nroombox: UID c\n"),
        ("two overrides of one instance", calendar_of(vevent("a", accepted), *[vevent("o", accepted, "RECURRENCE-ID:20250415T070000Z") for _ in range(2)]), [R1, *day], 3, "", "roombox: refused 54\nroombox: UID o\n"),
        ("an end before its start", calendar_of(vevent("a", accepted), [it.replace("T080000Z", "T060000Z") for it in vevent("late\\, is", accepted)]), [R1, *day], 3, "", "roombox: refused 50\nroombox: UID late, is\n"),
        ("a VEVENT without UID has none to tell", calendar_of([it for it in vevent("a", accepted) if not it.startswith("UID")]), [R1, *day], 3, "", "roombox: refused 61\n"),
        ("a refused calendar is refused for any room", "BEGIN:VCALENDAR\r\n", [OTHER], 3, "", "roombox: refused 21\n"),
    ]


def of_check(cases, program):
    """`check` says for which UID it refuses a calendar, where `agenda` says so behind the number; of a calendar that can be read it says nothing."""
    for name, text, words, _, _, said in said_rows():
        number, _, uid = said.partition("\n")
        wanted = (1, "no 80\n", uid) if number.startswith("roombox: refused ") else (1, "no 81 1\n", "")
        cases.holds(f"check, {name}", checked(program, text, "", words[0]), wanted)


def of_kept(cases, program):
    """What `keep` writes passes for its room, without a word: also a declined instance of a series that was accepted, and a room that has nothing."""
    event = vevent("plan", f"ATTENDEE:{R1}")
    series = calendar(*event[:-1], "RRULE:FREQ=DAILY;COUNT=3", "END:VEVENT", method="REQUEST")
    gone = calendar(event[0], "RECURRENCE-ID:20250416T070000Z", "SEQUENCE:1", *event[1:], method="CANCEL")
    stream = f"{NOW}room {R1}\nroom {OTHER}\n\n" + series + gone
    for room, lines in ((R1, 2), (OTHER, 0)):
        found = run(program, kept(program, stream, room=room), room)
        cases.holds(f"what keep writes for {room}", (found[0], found[1].count("\n"), found[2]), (0, lines, ""))
    text = kept(program, stream)
    found = run(program, text, OTHER, "--free", "--from", "20250415T000000Z", "--until", "20250416T000000Z")
    cases.holds("the kept calendar of another room", ("STATUS:CANCELLED" in text, found), (True, (3, "", f"roombox: no event names {OTHER}\n")))


def by_hand(cases, program):
    for name, text, words, status, wanted, said in said_rows():
        cases.holds(name, run(program, text, *words), (status, wanted, said))
    for name, text, words, status, wanted in rows():
        cases.holds(name, run(program, text, *words)[:2], (status, wanted))
    text = kept(program, PREAMBLE)
    cases.holds("what keep prints of an empty room", run(program, text, R1)[:2], (0, ""))
    cases.holds("an empty room, as keep prints it, is free", run(program, text, R1, "--from", "20250415T140000Z", "--until", "20250415T150000Z", "--free")[0], 0)
    of_kept(cases, program)
    of_check(cases, program)


def tries(by_hand, random_cases):
    """Tries the cases by hand and so many random ones of a seed, as the command line says."""
    parser = argparse.ArgumentParser()
    parser.add_argument("program", nargs="?")
    parser.add_argument("--calendars", type=int, default=60)
    parser.add_argument("--seed", type=int, default=1)
    words, cases, program = parser.parse_args(), Cases(), of_arguments()
    by_hand(cases, program)
    random_cases(cases, program, words.calendars, words.seed)
    cases.end()


if __name__ == "__main__":
    tries(by_hand, random_cases)
