"""Tries the statements of docs/GUIDE.md and docs/REFERENCE.md with the program, and the links of all documents.

    python3 tests/guide.py bin/roombox

Each case says what the guide says, what goes in, and what has to come out; what is expected was written from the guide and from the RFCs, never from
the program's output.
"""

import re
import shutil
import subprocess
import sys
import tempfile
from pathlib import Path

from lib.cases import Cases
from lib.program import ROOT, of_arguments, run
from lib.streams import NOW, OBJECT, PREAMBLE, R1, ROOM, answers, changed, message, request, unfolded, vevent

sys.path.insert(0, str(ROOT / "docs" / "tables"))
import man_page  # noqa: E402

ANN = "organiser mailto:ann@example.com\n"


def preambles(cases, program):
    """What is no preamble: the number of the line, why it is none, and the line."""
    word = "it doesn't begin with `now `, `room `, `zone ` or `organiser `"
    for what, text, reason in [
        ("no line", "", "line 1: no empty line stands before the first object: BEGIN:VCALENDAR"),
        ("no now", ROOM + "\n", "no line is `now` and a time"),
        ("two of now", NOW + NOW + ROOM + "\n", "line 2: it is a second `now`: now 20250102T000000Z"),
        ("a now that is no time", "now 2025-01-02\n" + ROOM + "\n", "line 1: behind `now ` is no time such as 20250102T000000Z: now 2025-01-02"),
        ("no room", NOW + "\n", "no line names a room or an organiser"),
        ("one room twice", NOW + ROOM + ROOM + "\n", f"line 3: a line before it names this room: room {R1}"),
        ("the room twice in another case", NOW + ROOM + "room MAILTO:R1@EXAMPLE.COM\n\n", "line 3: a line before it names this room: room MAILTO:R1@EXAMPLE.COM"),
        ("two spaces", NOW + "room  mailto:r1@example.com\n\n", "line 2: it has no address such as mailto:r1@example.com: room  mailto:r1@example.com"),
        ("a space behind", NOW + "room mailto:r1@example.com \n\n", "line 2: it has no address such as mailto:r1@example.com: room mailto:r1@example.com "),
        ("no address of an organiser", NOW + ROOM + "organiser ann\n\n", "line 3: it has no address such as mailto:r1@example.com: organiser ann"),
        ("upper case", "NOW 20250102T000000Z\n" + ROOM + "\n", f"line 1: {word}: NOW 20250102T000000Z"),
        ("a comment", "# rooms\n" + NOW + ROOM + "\n", f"line 1: {word}: # rooms"),
        ("a byte order mark", "\ufeff" + NOW + ROOM + "\n", f"line 1: {word}: %EF%BB%BFnow 20250102T000000Z"),
        ("a line of 201 octets", NOW + "x" * 201 + "\n\n", f"line 2: {word}: " + "x" * 200 + ".."),
        ("a line of 200 octets", NOW + "x" * 200 + "\n\n", f"line 2: {word}: " + "x" * 200),
        ("lines that end with CRLF", NOW.replace("\n", "\r\n") + "rom r1\r\n\r\n", f"line 2: {word}: rom r1"),
        ("an empty line first", "\n" + NOW + ROOM + "\n", "no line names a room or an organiser"),
        ("no empty line", NOW + ROOM, "line 3: no empty line stands before the first object: BEGIN:VCALENDAR"),
        ("one organiser twice", NOW + ROOM + ANN + ANN + "\n", "line 4: a line before it names this organiser: organiser mailto:ann@example.com"),
        ("257 organisers", NOW + ROOM + "".join(f"organiser mailto:o{n}@example.com\n" for n in range(257)) + "\n", "line 259: it is one organiser more than 256: organiser mailto:o256@example.com"),
        ("65 rooms", NOW + "".join(f"room mailto:r{n}@example.com\n" for n in range(65)) + "\n", "line 66: it is one room more than 64: room mailto:r64@example.com"),
        ("two zones of one room", NOW + ROOM + f"zone {R1} -0500\nzone {R1} +0100\n\n", f"line 4: a line before it gives this room a zone: zone {R1} +0100"),
        ("the same zone twice", NOW + ROOM + f"zone {R1} {YORK}\nzone {R1} {YORK}\n\n", f"line 4: a line before it gives this room a zone: zone {R1} {YORK}"),
        ("a zone of no room", NOW + ROOM + "zone mailto:r2@example.com -0500\n\n", "line 3: no line names this room: zone mailto:r2@example.com -0500"),
        ("a zone of an organiser", NOW + ROOM + ANN + "zone mailto:ann@example.com -0500\n\n", "line 4: no line names this room: zone mailto:ann@example.com -0500"),
        ("words of no zone", NOW + ROOM + f"zone {R1} America/New_York\n\n", f"line 3: behind the address are no words that mean a zone: zone {R1} America/New_York"),
        ("a zone without words", NOW + ROOM + f"zone {R1}\n\n", f"line 3: behind the address are no words that mean a zone: zone {R1}"),
        ("two spaces before words", NOW + ROOM + f"zone {R1}  -0500\n\n", f"line 3: behind the address are no words that mean a zone: zone {R1}  -0500"),
        ("a zone without an address", NOW + ROOM + "zone r1 -0500\n\n", "line 3: it has no address such as mailto:r1@example.com: zone r1 -0500"),
        ("65 zones", NOW + ROOM + "".join(f"zone mailto:r{n}@example.com +0100\n" for n in range(65)) + "\n", "line 67: it is one zone more than 64: zone mailto:r64@example.com +0100"),
    ]:
        # where the preamble has no end, the object is taken as part of it
        found = run(program, given=text + request())
        cases.holds(f"preamble with {what}", found, (3, "", f"roombox: refused 90\nroombox: {reason}\n"))
    for what, octets, reason in [
        ("nothing", b"", "there is no preamble"),
        ("no UTF-8", NOW.encode() + b"room mailto:r\xff@example.com\n\n", "the preamble isn't UTF-8"),
        ("65,537 octets", (NOW + ROOM + "x" * 65_600).encode(), f"line 3: {word}: " + "x" * 200 + ".."),
        ("rooms without an end", (NOW + "room mailto:r@example.com\n").encode() + b"\xff" * 65_600, "no empty line is among the first 65536 octets"),
    ]:
        cases.holds(f"preamble with {what}", run(program, given=octets), (3, "", f"roombox: refused 90\nroombox: {reason}\n"))
    cases.holds("64 rooms", answers(program, request(room="mailto:r63@example.com"), preamble=NOW + "".join(f"room mailto:r{n}@example.com\n" for n in range(64)) + "\n"), ["ACCEPTED"])
    cases.holds("CRLF in the preamble", answers(program, request(), preamble=PREAMBLE.replace("\n", "\r\n")), ["ACCEPTED"])
    cases.holds("empty lines between objects", answers(program, request(), "\r\n\r\n", request("b", start="20250310T100000Z", lines=("DURATION:PT1H",))), ["ACCEPTED", "ACCEPTED"])


def decisions(cases, program):
    a, busy = request(), request("b", start="20250310T093000Z", lines=("DURATION:PT1H",))
    cases.holds("touching ends", answers(program, a, request("b", start="20250310T100000Z", lines=("DURATION:PT1H",))), ["ACCEPTED", "ACCEPTED"])
    cases.holds("no length", answers(program, a, request("b", start="20250310T093000Z", lines=())), ["ACCEPTED", "ACCEPTED"])
    cases.holds("a repeat", answers(program, a, busy, busy, a), ["ACCEPTED", "DECLINED", "DECLINED", "ACCEPTED"])
    away = request(sequence=1, start="20250311T090000Z", lines=("DURATION:PT1H",))
    cases.holds("a decline stays", answers(program, a, busy, away, busy), ["ACCEPTED", "DECLINED", "ACCEPTED", "DECLINED"])
    cases.holds("a greater SEQUENCE asks again", answers(program, a, busy, away, request("b", 1, "20250310T093000Z", ("DURATION:PT1H",))), ["ACCEPTED", "DECLINED", "ACCEPTED", "ACCEPTED"])
    cases.holds("a later DTSTAMP asks again", answers(program, a, busy, away, request("b", 0, "20250310T093000Z", ("DURATION:PT1H",), stamp="20250101T000001Z")), ["ACCEPTED", "DECLINED", "ACCEPTED", "ACCEPTED"])
    cases.holds("it may overlap its own old time", answers(program, a, request(sequence=1, start="20250310T093000Z", lines=("DURATION:PT1H",))), ["ACCEPTED", "ACCEPTED"])
    cases.holds("an older one gets no reply", answers(program, away, a), ["ACCEPTED"])
    b = request("b", start="20250310T120000Z", lines=("DURATION:PT1H",))
    moved = request("b", 1, "20250310T093000Z", ("DURATION:PT1H",))
    again = request("c", start="20250310T120000Z", lines=("DURATION:PT1H",))
    cases.holds("a declined change gives the old time up", answers(program, a, b, moved, again), ["ACCEPTED", "ACCEPTED", "DECLINED", "ACCEPTED"])
    given_back = request(sequence=1, lines=("DURATION:PT0S",))
    cases.holds("PT0S gives the time back", answers(program, a, given_back, busy), ["ACCEPTED", "ACCEPTED", "ACCEPTED"])
    dropped = request(sequence=1, room="mailto:other@example.com")
    cases.holds("a room that isn't named any more keeps its booking", answers(program, a, dropped, busy), ["ACCEPTED", "DECLINED"])
    cancel = request(method="CANCEL")
    cases.holds("a CANCEL gives the room back", answers(program, a, cancel, busy), ["ACCEPTED", "ACCEPTED"])
    cases.holds("so does a cancelled status", answers(program, a, request(sequence=1, lines=("DURATION:PT1H", "STATUS:CANCELLED")), busy), ["ACCEPTED", "ACCEPTED"])
    cases.holds("a CANCEL stays", answers(program, cancel, a, busy), ["ACCEPTED"])
    cases.holds("a greater SEQUENCE is decided after a CANCEL", answers(program, a, cancel, request(sequence=1)), ["ACCEPTED", "ACCEPTED"])
    cases.holds("an older CANCEL changes nothing", answers(program, request(sequence=1), cancel, busy), ["ACCEPTED", "DECLINED"])
    nobody = cancel.replace("ATTENDEE:mailto:r1@example.com\r\n", "")
    cases.holds("a CANCEL that names nobody", answers(program, a, nobody, busy), ["ACCEPTED", "ACCEPTED"])
    cases.holds("a CANCEL for another room", answers(program, a, request(method="CANCEL", room="mailto:r2@example.com"), busy), ["ACCEPTED", "DECLINED"])
    cases.holds("a meeting in the past", answers(program, request(start="20200310T090000Z", lines=("DURATION:PT1H",))), ["ACCEPTED"])
    cases.holds("a room that isn't hosted", answers(program, request(room="mailto:r2@example.com")), [])


def instances(cases, program):
    nine, noon, next_day = "20250310T090000Z", "20250310T120000Z", "20250311T090000Z"
    a, busy = request(), request("b", start="20250310T093000Z", lines=("DURATION:PT1H",))
    busy_noon, busy_next = request("c", start=noon, lines=("DURATION:PT1H",)), request("d", start=next_day, lines=("DURATION:PT1H",))
    moved = message("REQUEST", vevent(), vevent(start=next_day, slot=nine))
    cases.holds("an instance takes the place of the whole's start", answers(program, moved, busy, busy_next), ["ACCEPTED", "ACCEPTED", "ACCEPTED", "DECLINED"])
    beside = message("REQUEST", vevent(), vevent(start=noon, slot=next_day))
    cases.holds("an instance beside the whole", answers(program, beside, busy, busy_noon), ["ACCEPTED", "ACCEPTED", "DECLINED", "DECLINED"])
    cases.holds("instances alone", answers(program, message("REQUEST", vevent(slot=nine), vevent(start=noon, slot=noon)), busy_noon), ["ACCEPTED", "ACCEPTED", "DECLINED"])
    cases.holds("one decision", answers(program, busy_noon, beside, busy), ["ACCEPTED", "DECLINED", "DECLINED", "ACCEPTED"])
    cases.holds("two of one meeting that overlap", answers(program, message("REQUEST", vevent(), vevent(slot=noon))), ["DECLINED", "DECLINED"])
    found = unfolded(run(program, given=PREAMBLE + message("REQUEST", vevent(start=noon, slot=noon), vevent(start=next_day, slot=next_day), vevent()))[1]).split("\r\n")
    cases.holds("the whole first, then by original start", [line for line in found if line.startswith(("UID", "RECURRENCE-ID"))],
                ["UID:a", "UID:a", f"RECURRENCE-ID:{noon}", "UID:a", f"RECURRENCE-ID:{next_day}"])
    elsewhere = message("REQUEST", vevent(sequence=1, room="mailto:r2@example.com"), vevent(sequence=1, start=next_day, slot=nine))
    cases.holds("a VEVENT that doesn't name the room", answers(program, a, elsewhere, busy, busy_next), ["ACCEPTED", "ACCEPTED", "ACCEPTED", "DECLINED"])
    cases.holds("a newer whole drops its instances", answers(program, beside, request(sequence=1), busy_noon), ["ACCEPTED", "ACCEPTED", "ACCEPTED", "ACCEPTED"])
    gone = message("CANCEL", vevent(sequence=1, slot=nine))
    cases.holds("a CANCEL of an instance", answers(program, a, gone, busy), ["ACCEPTED", "ACCEPTED"])
    cases.holds("a CANCEL of an instance before the whole", answers(program, gone, a, busy), ["ACCEPTED", "ACCEPTED"])
    cases.holds("a newer whole drops the CANCEL of an instance", answers(program, a, gone, request(sequence=2), busy), ["ACCEPTED", "ACCEPTED", "DECLINED"])
    ended = request(sequence=1, method="CANCEL")
    cases.holds("beside a cancelled whole one of its revision", answers(program, ended, message("REQUEST", vevent(sequence=1, slot=nine))), [])
    cases.holds("beside a cancelled whole a newer one", answers(program, ended, message("REQUEST", vevent(sequence=2, slot=nine))), ["ACCEPTED"])
    found = unfolded(run(program, given=PREAMBLE + message("REQUEST", vevent(sequence=3), vevent(start=next_day, slot=nine)))[1]).split("\r\n")
    cases.holds("an instance has the revision of the whole", [line for line in found if line.startswith("SEQUENCE")], ["SEQUENCE:3", "SEQUENCE:3"])
    with tempfile.TemporaryDirectory() as folder:
        calendar, certificate = Path(folder, "r1.ics"), Path(folder, "r1.cert")
        text = run(program, "keep", R1, given=PREAMBLE + a + gone)[1]
        cases.holds("a cancelled start in the kept calendar", text.split("\r\n")[12:-2], [
            "BEGIN:VEVENT", "UID:a", f"RECURRENCE-ID:{nine}", "SEQUENCE:1", "DTSTAMP:20250101T000000Z", f"DTSTART:{nine}", "DURATION:PT0S", "STATUS:CANCELLED",
            "ORGANIZER:mailto:ann@example.com", "ATTENDEE;PARTSTAT=DECLINED:mailto:r1@example.com", "END:VEVENT"])
        calendar.write_text(text, newline="")
        certificate.write_text(run(program, "keep", "--certificate", R1, given=PREAMBLE + a + gone)[1], newline="")
        cases.holds("its certificate", certificate.read_text(), "ROOMCERT 1\nSINGLES 0\nSERIES 0\nDONE\n")
        cases.holds("its yes", run(program, "check", calendar, certificate, R1)[:2], (0, "yes\n"))


def added(cases, program):
    nine, noon = "20250310T090000Z", "20250310T120000Z"
    a, busy = request(), request("b", start="20250310T093000Z", lines=("DURATION:PT1H",))
    add = message("ADD", vevent(sequence=1))
    lines = unfolded(run(program, given=PREAMBLE + add)[1]).split("\r\n")
    cases.holds("the reply to an ADD and the REFRESH behind it", lines, [
        "BEGIN:VCALENDAR", "VERSION:2.0", "PRODID:-//iTIP room box//EN", "METHOD:REPLY", "BEGIN:VEVENT", "UID:a", f"RECURRENCE-ID:{nine}", "SEQUENCE:1",
        "DTSTAMP:20250102T000000Z", "ORGANIZER:mailto:ann@example.com", "ATTENDEE;PARTSTAT=ACCEPTED:mailto:r1@example.com", "REQUEST-STATUS:2.0;Success", "END:VEVENT", "END:VCALENDAR",
        "BEGIN:VCALENDAR", "VERSION:2.0", "PRODID:-//iTIP room box//EN", "METHOD:REFRESH", "BEGIN:VEVENT", "UID:a", "DTSTAMP:20250102T000000Z", "ORGANIZER:mailto:ann@example.com",
        "ATTENDEE:mailto:r1@example.com", "END:VEVENT", "END:VCALENDAR", ""])
    found = unfolded(run(program, given=PREAMBLE + message("ADD", vevent(sequence=1, slot=noon)))[1]).split("\r\n")
    cases.holds("RECURRENCE-ID in an ADD", [line for line in found if line.startswith("RECURRENCE-ID")], [f"RECURRENCE-ID:{nine}"])
    cases.holds("an ADD repeated", answers(program, add, add), ["ACCEPTED", "REFRESH", "ACCEPTED"])
    cases.holds("an ADD that is declined", answers(program, busy, add), ["ACCEPTED", "DECLINED", "REFRESH"])
    cases.holds("an ADD that is cancelled", answers(program, message("ADD", vevent(sequence=1, lines=("DURATION:PT1H", "STATUS:CANCELLED")))), ["REFRESH"])
    other = message("ADD", vevent(sequence=1), vevent(sequence=1, start=noon, room="mailto:r2@example.com"))
    cases.holds("an ADD whose new part isn't for this room", answers(program, add, other), ["ACCEPTED", "REFRESH", "ACCEPTED", "REFRESH"])
    cases.holds("an ADD for another room", answers(program, message("ADD", vevent(sequence=1, room="mailto:r2@example.com"))), [])
    cases.holds("an ADD to a meeting", answers(program, a, message("ADD", vevent(sequence=1, start=noon))), ["ACCEPTED", "ACCEPTED"])
    cases.holds("an ADD to a declined meeting", answers(program, busy, a, message("ADD", vevent(sequence=1, start=noon))), ["ACCEPTED", "DECLINED", "ACCEPTED"])
    cases.holds("an ADD to a cancelled meeting", answers(program, request(method="CANCEL"), add), ["ACCEPTED"])
    cases.holds("the whole after an ADD", answers(program, add, request(start=noon, lines=("DURATION:PT1H",)), busy), ["ACCEPTED", "REFRESH", "ACCEPTED", "DECLINED"])
    two = PREAMBLE[:-1] + "room mailto:r2@example.com\n\n"
    cases.holds("each room asks", answers(program, message("ADD", vevent(sequence=1, lines=("DURATION:PT1H", "ATTENDEE:mailto:r2@example.com"))), preamble=two), ["ACCEPTED", "REFRESH"] * 2)


def replies(cases, program):
    lines = unfolded(run(program, given=PREAMBLE + request())[1]).split("\r\n")
    cases.holds("an accepted reply", lines, [
        "BEGIN:VCALENDAR", "VERSION:2.0", "PRODID:-//iTIP room box//EN", "METHOD:REPLY", "BEGIN:VEVENT", "UID:a", "SEQUENCE:0", "DTSTAMP:20250102T000000Z",
        "ORGANIZER:mailto:ann@example.com", "ATTENDEE;PARTSTAT=ACCEPTED:mailto:r1@example.com", "REQUEST-STATUS:2.0;Success", "END:VEVENT", "END:VCALENDAR", ""])
    busy = request("\u00dcber a", start="20250310T093000Z", lines=("DURATION:PT1H",))
    text = unfolded(run(program, given=PREAMBLE + request() + busy)[1])
    status = [line for line in text.split("\r\n") if line.startswith("REQUEST-STATUS:4.1")]
    cases.holds("seven words", status, ["REQUEST-STATUS:4.1;Event conflict.  Date-time is busy.;20250310T093000Z 20250310T090000Z mailto:ann@example.com a "
                                        "20250310T093000Z mailto:ann@example.com %C3%9Cber%20a"])
    two = PREAMBLE[:-1] + "room mailto:r2@example.com\n\n"
    both = request(lines=("DURATION:PT1H", "ATTENDEE:mailto:r2@example.com"), room=R1)
    named = [line.split(":", 1)[1] for line in unfolded(run(program, given=two + both)[1]).split("\r\n") if line.startswith("ATTENDEE")]
    cases.holds("two rooms, in the order of the preamble", named, [R1, "mailto:r2@example.com"])
    status, out, said = run(program, given=PREAMBLE + request(method="PUBLISH"))
    cases.holds("a refused object", (status, out, said), (0, "REFUSED;OBJECT=1:60\r\n", ""))


def refusals(cases, program):
    def one(text):
        return answers(program, text)

    def number(text):
        found = one(text)
        return found[0].rpartition(":")[2] if found and found[0].startswith("REFUSED") else found

    for method in ("REPLY", "REFRESH", None):
        cases.holds(f"METHOD {method} where no organiser is hosted", number(request(method=method)), "70")
    for method in ("PUBLISH", "COUNTER", "DECLINECOUNTER", "FOO"):
        cases.holds(f"METHOD {method}", number(request(method=method)), "60")
    cases.holds("a CANCEL without DTSTART", one(request(method="CANCEL", lines=()).replace("DTSTART:20250310T090000Z\r\n", "")), [])
    cases.holds("a REQUEST without DTSTART", number(request(lines=()).replace("DTSTART:20250310T090000Z\r\n", "")), "61")
    cases.holds("a CANCEL without ORGANIZER", number(request(method="CANCEL").replace("ORGANIZER:mailto:ann@example.com\r\n", "")), "63")
    slot = "20250310T090000Z"
    cases.holds("two VEVENTs without RECURRENCE-ID", number(message("REQUEST", vevent(), vevent())), "53")
    cases.holds("two VEVENTs of one instance", number(message("REQUEST", vevent(slot=slot), vevent(slot=slot))), "54")
    cases.holds("two VEVENTs of an ADD that start together", number(message("ADD", vevent(slot=slot), vevent())), "54")
    cases.holds("two UIDs", number(message("REQUEST", vevent(), vevent("b", slot=slot))), "62")
    cases.holds("RANGE in an ADD", number(message("ADD", vevent(slot=slot)).replace("RECURRENCE-ID:", "RECURRENCE-ID;RANGE=THISANDFUTURE:")), "65")
    berlin = "RECURRENCE-ID;TZID=Europe/Berlin:20250310T100000"
    cases.holds("RECURRENCE-ID in a zone that isn't there", number(message("REQUEST", vevent(slot=slot)).replace("RECURRENCE-ID:" + slot, berlin)), "43")
    cases.holds("RRULE", one(request(lines=("DURATION:PT1H", "RRULE:FREQ=DAILY"))), ["ACCEPTED"])
    cases.holds("RRULE in an ADD", number(message("ADD", vevent(lines=("DURATION:PT1H", "RRULE:FREQ=DAILY")))), "67")
    cases.holds("RRULE beside RECURRENCE-ID", number(message("REQUEST", vevent(slot=slot, lines=("DURATION:PT1H", "RRULE:FREQ=DAILY")))), "67")
    cases.holds("a start that isn't on its rule", number(request(lines=("DURATION:PT1H", "RRULE:FREQ=WEEKLY;BYDAY=TU"))), "34")
    cases.holds("TZID of a zone that isn't there", number(request().replace("DTSTART:20250310T090000Z", "DTSTART;TZID=Europe/Berlin:20250310T090000")), "43")
    cases.holds("a UTC time with TZID", number(request().replace("DTSTART:", "DTSTART;TZID=Europe/Berlin:")), "11")
    cases.holds("a period in RDATE", number(request(lines=("DURATION:PT1H", "RDATE;VALUE=PERIOD:20250311T090000Z/PT1H"))), "56")
    many = ",".join(f"20250311T{hour:02}{minute:02}00Z" for hour in range(7) for minute in range(60))[:17 * 367 - 1]
    cases.holds("367 times of RDATE", number(request(lines=("DURATION:PT0S", "RDATE:" + many))), "56")
    cases.holds("366 times of RDATE", one(request(lines=("DURATION:PT0S", "RDATE:" + many[:17 * 366 - 1]))), ["ACCEPTED"])
    cases.holds("RDATE in an ADD", number(message("ADD", vevent(lines=("DURATION:PT1H", "RDATE:20250311T090000Z")))), "67")
    cases.holds("RDATE beside RECURRENCE-ID", number(message("REQUEST", vevent(slot=slot, lines=("DURATION:PT1H", "RDATE:20250311T090000Z")))), "67")
    cases.holds("a whole day and an end in UTC", number(request().replace("DTSTART:20250310T090000Z", "DTSTART;VALUE=DATE:20250310")), "57")
    cases.holds("a parameter without =", number(request().replace("ATTENDEE:", "ATTENDEE;X-FOO:")), "2")
    cases.holds("a mail before it", number("Content-Type: text/calendar\r\n\r\n" + request()), "23")
    cases.holds("a mail's text before it", number("Hello\r\n" + request()), "1")
    cases.holds("no address", number(request().replace("ORGANIZER:mailto:ann@example.com", "ORGANIZER:ann@example.com")), "15")
    cases.holds("unknown lines", one(request(lines=("DURATION:PT1H", "X-FOO:bar", "GEO:1;2"))), ["ACCEPTED"])


def kept(cases, program):
    stream = PREAMBLE + request()
    with tempfile.TemporaryDirectory() as folder:
        calendar, certificate = Path(folder, "r1.ics"), Path(folder, "r1.cert")
        text = run(program, "keep", R1, given=stream)[1]
        calendar.write_text(text, newline="")
        cases.holds("the kept calendar", text.split("\r\n"), [
            "BEGIN:VCALENDAR", "VERSION:2.0", "PRODID:-//iTIP room box//EN", "BEGIN:VEVENT", "UID:a", "SEQUENCE:0", "DTSTAMP:20250101T000000Z", "DTSTART:20250310T090000Z",
            "DURATION:PT3600S", "ORGANIZER:mailto:ann@example.com", "ATTENDEE;PARTSTAT=ACCEPTED:mailto:r1@example.com", "END:VEVENT", "END:VCALENDAR", ""])
        text = run(program, "keep", "--certificate", R1, given=stream)[1]
        certificate.write_text(text, newline="")
        cases.holds("its certificate", text, "ROOMCERT 1\nSINGLES 1\nSERIES 0\nDONE\n")
        cases.holds("yes", run(program, "check", calendar, certificate, R1)[:2], (0, "yes\n"))
        cases.holds("a mistyped room", run(program, "check", calendar, certificate, "mailto:typo@example.com")[:2], (1, "no 82\n"))
        certificate.write_text("ROOMCERT 1\nSINGLES 0\nSERIES 0\nDONE\n", newline="")
        cases.holds("a calendar that doesn't name the room", run(program, "check", calendar, certificate, "mailto:typo@example.com")[:2], (0, "yes\n"))
        certificate.write_text("ROOMCERT 1\r\nSINGLES 1\r\nSERIES 0\r\nDONE\r\n", newline="")
        cases.holds("CRLF in a certificate", run(program, "check", calendar, certificate, R1)[:2], (1, "no 81 1\n"))
        calendar.write_text("no calendar", newline="")
        cases.holds("no calendar", run(program, "check", calendar, certificate, R1)[:2], (1, "no 80\n"))
        cases.holds("keep of a room that isn't hosted", run(program, "keep", "mailto:r2@example.com", given=stream), (3, "", "roombox: refused 90\nroombox: the preamble doesn't name the room mailto:r2@example.com\n"))


def zones(cases, program):
    def zone(rule):
        return "\r\n".join(["BEGIN:VTIMEZONE", "TZID:Z", "BEGIN:STANDARD", "DTSTART:16010101T030000", "TZOFFSETFROM:+0200", "TZOFFSETTO:+0100", f"RRULE:FREQ=YEARLY;{rule}BYDAY=-1SU;BYMONTH=10",
                            "END:STANDARD", "BEGIN:DAYLIGHT", "DTSTART:16010101T020000", "TZOFFSETFROM:+0100", "TZOFFSETTO:+0200", f"RRULE:FREQ=YEARLY;{rule}BYDAY=-1SU;BYMONTH=3",
                            "END:DAYLIGHT", "END:VTIMEZONE"])

    def expanded(rule, event="DTSTART;TZID=Z:20250310T100000\r\nDURATION:PT1H"):
        text = "\r\n".join(["BEGIN:VCALENDAR", "VERSION:2.0", zone(rule), "BEGIN:VEVENT", "UID:a", event, "END:VEVENT", "END:VCALENDAR", ""])
        return run(program, "expand", given=text)

    cases.holds("INTERVAL=1 in a zone", expanded("INTERVAL=1;")[:2], (0, "20250310T090000Z 20250310T090000Z 3600\n"))
    cases.holds("INTERVAL=2 in a zone", expanded("INTERVAL=2;"), (3, "", "roombox: refused 40\n"))
    cases.holds("nominal days", expanded("", "DTSTART;TZID=Z:20250329T120000\r\nDURATION:P1D")[:2], (0, "20250329T110000Z 20250329T110000Z 82800\n"))
    cases.holds("a cancelled event", expanded("", "DTSTART:20250310T090000Z\r\nDURATION:PT1H\r\nSTATUS:CANCELLED")[:2], (0, "20250310T090000Z 20250310T090000Z 3600\n"))


def zone_of(name, standard, daylight):
    """A VTIMEZONE with the two changes of today: month, day of the week, hour of each, and the offsets."""
    part = lambda kind, month, day, hour, before, after: [f"BEGIN:{kind}", f"DTSTART:19700101T{hour:02}0000", f"RRULE:FREQ=YEARLY;BYMONTH={month};BYDAY={day}", f"TZOFFSETFROM:{before}", f"TZOFFSETTO:{after}", f"END:{kind}"]
    return ["BEGIN:VTIMEZONE", f"TZID:{name}", *part("STANDARD", *standard), *part("DAYLIGHT", *daylight), "END:VTIMEZONE"]


def times_in_zones(cases, program):
    europe = ((10, "-1SU", 3, "+0200", "+0100"), (3, "-1SU", 2, "+0100", "+0200"))
    america = ((11, "1SU", 2, "-0400", "-0500"), (3, "2SU", 2, "-0500", "-0400"))
    berlin, paris, york = zone_of("Berlin", *europe), zone_of("Paris", *europe), zone_of("York", *america)

    def timed(uid, zone, name, start, lines=("DURATION:PT1H",), slot=None, sequence=0, method="REQUEST"):
        event = [line.replace("DTSTART:", f"DTSTART;TZID={name}:") for line in vevent(uid, sequence, start, lines, slot=slot)]
        return message(method, zone, event)

    def tried(what, wanted, *objects):
        cases.holds(what, answers(program, *objects), wanted)

    morning = timed("a", berlin, "Berlin", "20250310T100000")
    tried("10:00 in Berlin is 09:00Z", ["ACCEPTED", "DECLINED", "ACCEPTED"], morning, request("b", start="20250310T093000Z"), request("c", start="20250310T100000Z", lines=("DURATION:PT1H",)))
    tried("the other name of a zone is the same part", ["ACCEPTED", "ACCEPTED"], morning, timed("a", paris, "Paris", "20250310T100000"))
    tried("a listed time in a zone", ["ACCEPTED", "DECLINED"], timed("a", berlin, "Berlin", "20250310T100000", ("DURATION:PT1H", "RDATE;TZID=Berlin:20250311T100000")), request("b", start="20250311T093000Z", lines=("DURATION:PT1H",)))
    tried("an excepted time in a zone", ["ACCEPTED", "ACCEPTED"], timed("a", berlin, "Berlin", "20250310T100000", ("DURATION:PT1H", "RDATE;TZID=Berlin:20250311T100000", "EXDATE:20250311T090000Z")), request("b", start="20250311T093000Z", lines=("DURATION:PT1H",)))
    tried("two of a list overlap", ["DECLINED"], timed("a", berlin, "Berlin", "20250310T100000", ("DURATION:PT1H", "RDATE:20250310T093000Z")))
    tried("the first of two instants", ["ACCEPTED", "DECLINED", "ACCEPTED"], timed("a", berlin, "Berlin", "20251026T023000", ("DURATION:PT30M",)), request("b", start="20251026T003000Z", lines=("DURATION:PT30M",)), request("c", start="20251026T013000Z", lines=("DURATION:PT30M",)))
    tried("a listed instance is moved", ["ACCEPTED", "ACCEPTED", "ACCEPTED", "DECLINED"],
          message("REQUEST", vevent("a", lines=("DURATION:PT1H", "RDATE:20250311T090000Z")), vevent("a", start="20250311T150000Z", slot="20250311T090000Z")), request("b", start="20250311T090000Z", lines=("DURATION:PT1H",)),
          request("c", start="20250311T150000Z", lines=("DURATION:PT1H",)))
    tried("an added instance in a zone", ["ACCEPTED", "ACCEPTED", "DECLINED"], morning, timed("a", berlin, "Berlin", "20250317T100000", sequence=1, method="ADD"), request("b", start="20250317T090000Z", lines=("DURATION:PT1H",)))
    tried("a CANCEL without DTSTART frees", ["ACCEPTED", "ACCEPTED"], morning, request("a", 1, method="CANCEL", lines=()).replace("DTSTART:20250310T090000Z\r\n", ""), request("b"))
    stream = PREAMBLE + morning + timed("n", york, "York", "20250312T100000") + timed("p", paris, "Paris", "20250311T100000", ("DURATION:P1D", "RDATE:20250316T090000Z,20250315T090000Z,20250316T090000Z", "EXDATE:19600101T000000Z,20250315T090000Z"))
    lines = unfolded(run(program, "keep", R1, given=stream)[1]).split("\r\n")
    cases.holds("each zone once, in order of first use", [line for line in lines if line.startswith("TZID:") or "TZID=" in line],
                ["TZID:Z1", "TZID:Z2", "DTSTART;TZID=Z1:20250310T100000", "DTSTART;TZID=Z2:20250312T100000", "DTSTART;TZID=Z1:20250311T100000"])
    cases.holds("lists in UTC, ascending, each once", [line for line in lines if line.startswith(("RDATE", "EXDATE", "DURATION"))],
                ["DURATION:PT3600S", "DURATION:PT3600S", "DURATION:P1D", "RDATE:20250315T090000Z,20250316T090000Z", "EXDATE:20250315T090000Z"])
    cases.holds("and how many", run(program, "keep", "--certificate", R1, given=stream)[1], "ROOMCERT 1\nSINGLES 4\nSERIES 0\nDONE\n")


YORK = "-0500 -0400 11 1SU 0200 3 2SU 0200"


def dated(uid="a", date="20250310", lines=(), sequence=0, slot=None, method="REQUEST"):
    """A message of a whole day, or, by a longer text, of a time without zone."""
    start = f"DTSTART;VALUE=DATE:{date}" if len(date) == 8 else f"DTSTART:{date}"
    event = [start if line.startswith("DTSTART:") else line.replace("RECURRENCE-ID:2", "RECURRENCE-ID;VALUE=DATE:2") if slot and len(slot) == 8 else line
             for line in vevent(uid, sequence, lines=lines, slot=slot)]
    return message(method, event)


def whole_days(cases, program):
    """The section "Forms of time" of the reference: rooms, which go by UTC."""
    def tried(what, wanted, *objects):
        cases.holds(what, answers(program, *objects), wanted)

    def hour(uid, start):
        return request(uid, start=start, lines=("DURATION:PT1H",))

    def lines_of(*objects):
        lines = unfolded(run(program, "keep", R1, given=PREAMBLE + "".join(objects))[1]).split("\r\n")
        return [line for line in lines if line.startswith(("RECURRENCE-ID", "DTSTART", "DURATION", "RRULE", "RDATE", "EXDATE", "STATUS"))]

    tried("a whole day is from 00:00Z to 00:00Z", ["ACCEPTED", "ACCEPTED", "DECLINED", "DECLINED", "ACCEPTED"],
          dated(), hour("b", "20250309T230000Z"), hour("c", "20250310T000000Z"), hour("d", "20250310T230000Z"), hour("e", "20250311T000000Z"))
    tried("a day that is shown as free holds the room too", ["ACCEPTED", "DECLINED"], dated(lines=("TRANSP:TRANSPARENT",)), hour("b", "20250310T090000Z"))
    tried("a time without zone is one of UTC", ["ACCEPTED", "DECLINED", "ACCEPTED"], dated(date="20250310T090000", lines=("DTEND:20250310T100000",)), request("b", start="20250310T093000Z"), hour("c", "20250310T100000Z"))
    tried("a date up to the day after is one request with the date alone", ["ACCEPTED", "ACCEPTED", "ACCEPTED"], dated(), dated(lines=("DTEND;VALUE=DATE:20250311",)), dated(lines=("DURATION:P1D",)))
    tried("in the other order too", ["ACCEPTED", "ACCEPTED", "ACCEPTED"], dated(lines=("DURATION:P1D",)), dated(lines=("DTEND:20250311",)), dated())
    tried("its 24 hours in UTC are another one", ["ACCEPTED"], dated(), request(start="20250310T000000Z", lines=("DURATION:P1D",)))
    tried("a date up to itself holds nothing", ["ACCEPTED", "ACCEPTED"], dated(lines=("DTEND;VALUE=DATE:20250310",)), hour("b", "20250310T090000Z"))
    tried("two days", ["ACCEPTED", "DECLINED", "ACCEPTED"], dated(lines=("DTEND;VALUE=DATE:20250312",)), hour("b", "20250311T230000Z"), hour("c", "20250312T000000Z"))
    daily = "RRULE:FREQ=DAILY;COUNT=3"
    tried("EXDATE as a date frees its day", ["ACCEPTED", "ACCEPTED", "DECLINED"], dated(lines=(daily, "EXDATE;VALUE=DATE:20250311")), hour("b", "20250311T090000Z"), hour("c", "20250312T090000Z"))
    tried("and not what starts at nine", ["ACCEPTED", "DECLINED"], dated(date="20250310T090000", lines=("DURATION:PT1H", daily, "EXDATE;VALUE=DATE:20250311")), hour("b", "20250311T090000Z"))
    tried("a CANCEL of one day", ["ACCEPTED", "ACCEPTED", "DECLINED"], dated(lines=(daily,)), dated(slot="20250311", date="20250311", sequence=1, method="CANCEL"), hour("b", "20250311T090000Z"), hour("c", "20250310T090000Z"))
    tried("a date and 24 hours", ["REFUSED;OBJECT=1:57"], dated(lines=("DURATION:PT24H",)))
    tried("a date and an end without zone", ["REFUSED;OBJECT=1:57"], dated(lines=("DTEND:20250311T000000",)))
    tried("a date before its own", ["REFUSED;OBJECT=1:50"], dated(lines=("DTEND;VALUE=DATE:20250309",)))
    tried("the last date", ["REFUSED;OBJECT=1:52"], dated(date="99991231"))
    tried("a date and its first instant are one instance", ["ACCEPTED"], message("REQUEST", vevent(slot="20250310T000000Z"), [line.replace("RECURRENCE-ID:", "RECURRENCE-ID;VALUE=DATE:") for line in vevent(slot="20250310")]))
    cases.holds("a date is kept as a date", lines_of(dated()), ["DTSTART;VALUE=DATE:20250310", "DURATION:P1D"])
    cases.holds("a time without zone is kept so", lines_of(dated(date="20250310T090000", lines=("DTEND:20250310T100000",))), ["DTSTART:20250310T090000", "DURATION:PT3600S"])
    cases.holds("no length is kept as no seconds", lines_of(dated(lines=("DTEND;VALUE=DATE:20250310",))), ["DTSTART;VALUE=DATE:20250310", "DURATION:PT0S"])
    for until, wanted in (("20250312", "20250312"), ("20250312T000000Z", "20250312"), ("20250311T235959Z", "20250311"), ("20250312T000000", "20250312"), ("99991231T235959Z", "99991231")):
        cases.holds(f"UNTIL={until} beside a date", lines_of(dated(lines=("RRULE:FREQ=WEEKLY;UNTIL=" + until,)))[-1], "RRULE:FREQ=WEEKLY;UNTIL=" + wanted)
    cases.holds("UNTIL a second before a time without zone", lines_of(dated(date="20250310T090000", lines=("RRULE:FREQ=DAILY;UNTIL=20250312T085959Z",)))[-1], "RRULE:FREQ=DAILY;UNTIL=20250311")
    lists = ("RDATE;VALUE=DATE:20250316,20250315", "RDATE:20250318T090000,20250320T090000Z,20250315", "EXDATE:19600101T000000Z,19600101,00010101T000000")
    cases.holds("lists in up to three lines each", lines_of(dated(lines=lists)),
                ["DTSTART;VALUE=DATE:20250310", "DURATION:P1D", "RDATE:20250320T090000Z", "RDATE:20250318T090000", "RDATE;VALUE=DATE:20250315,20250316", "EXDATE:00010101T000000", "EXDATE;VALUE=DATE:19600101"])
    cases.holds("an instance is kept by its instant", lines_of(dated(slot="20250310", lines=("DTEND;VALUE=DATE:20250312",))), ["RECURRENCE-ID:20250310T000000Z", "DTSTART;VALUE=DATE:20250310", "DURATION:P2D"])


def rooms_in_zones(cases, program):
    """The same section: rooms whose preamble has their zone."""
    york, both = (NOW + rooms + f"zone {R1} {YORK}\n\n" for rooms in (ROOM, ROOM + "room mailto:r2@example.com\n"))

    def tried(what, wanted, *objects, preamble=york):
        cases.holds(what, answers(program, *objects, preamble=preamble), wanted)

    def hour(uid, start, room=R1):
        return request(uid, start=start, lines=("DURATION:PT1H",), room=room)

    day = dated("ad", "20250309")
    tried("the last hour of a day of 23", ["ACCEPTED", "DECLINED", "ACCEPTED"], day, hour("b", "20250310T033000Z"), hour("c", "20250310T040000Z"))
    tried("the hour before it begins", ["ACCEPTED", "ACCEPTED"], day, hour("b", "20250309T040000Z"))
    tried("in UTC that hour is of the day", ["ACCEPTED", "DECLINED"], day, hour("b", "20250309T040000Z"), preamble=PREAMBLE)
    tried("a zone before its room", ["ACCEPTED", "DECLINED"], day, hour("b", "20250310T033000Z"), preamble=f"zone {R1} {YORK}\n" + PREAMBLE)
    tried("a zone of the address in upper case", ["ACCEPTED", "DECLINED"], day, hour("b", "20250310T033000Z"), preamble=f"zone {R1.upper()} {YORK}\n" + PREAMBLE)
    tried("+0000 is UTC", ["ACCEPTED", "ACCEPTED"], day, hour("b", "20250310T033000Z"), preamble=f"zone {R1} +0000\n" + PREAMBLE)
    two = f"{R1}\r\nATTENDEE:mailto:r2@example.com"
    tried("one request, two rooms in two zones", ["ACCEPTED", "ACCEPTED", "DECLINED", "ACCEPTED"], hour("b", "20250310T033000Z", two), day.replace(f"ATTENDEE:{R1}", f"ATTENDEE:{two}"), preamble=both)
    weeks = dated("w", "20250302", ("RRULE:FREQ=WEEKLY",))
    tried("a CANCEL of a day", ["ACCEPTED", "ACCEPTED"], weeks, dated("w", "20250309", (), 1, slot="20250309", method="CANCEL"), hour("b", "20250310T033000Z"))
    tried("an added day", ["ACCEPTED", "ACCEPTED", "DECLINED"], weeks, dated("w", "20250312", method="ADD"), hour("b", "20250313T033000Z"))
    local = [line if not line.startswith("RECURRENCE") else "RECURRENCE-ID:20250311T050000" for line in vevent("t", start="20250311T150000Z", slot="x")]
    fixed = vevent("t", start="20250311T120000Z", slot="20250311T090000Z")
    tried("two VEVENTs of one slot", ["ACCEPTED"], message("REQUEST", fixed, local))
    tried("of which the greater counts", ["ACCEPTED", "ACCEPTED", "DECLINED"], message("REQUEST", local, fixed), hour("b", "20250311T120000Z"), hour("c", "20250311T150000Z"))
    tried("in UTC they are of two", ["ACCEPTED", "ACCEPTED"], message("REQUEST", fixed, local), preamble=PREAMBLE)
    tried("two by one local time", ["REFUSED;OBJECT=1:54"], message("REQUEST", local, local))
    status, calendar, said = run(program, "keep", R1, given=york + day)
    cases.holds("a kept calendar names the zone", [line for line in calendar.splitlines() if line.startswith(("PRODID", "X-ROOM", "DTSTART"))], ["PRODID:-//iTIP room box//EN", f"X-ROOM-ZONE:{YORK}", "DTSTART;VALUE=DATE:20250309"])
    cases.holds("none for UTC", "X-ROOM-ZONE" in run(program, "keep", R1, given=f"zone {R1} +0000\n" + PREAMBLE + day)[1], False)
    certificate = run(program, "keep", "--certificate", R1, given=york + weeks + day)[1]
    with tempfile.TemporaryDirectory() as folder:
        paths = Path(folder, "c"), Path(folder, "k")
        for path, text in zip(paths, (run(program, "keep", R1, given=york + weeks + day)[1], certificate)):
            path.write_text(text, newline="")
        cases.holds("what is kept passes", run(program, "check", *paths, R1)[:2], (0, "yes\n"))


def rooms_of_a_zone(cases, program):
    """The same section: `expand --zone`, and X-ROOM-ZONE in a calendar."""
    def expanded(words, *lines):
        event = "\r\n".join(["BEGIN:VCALENDAR", "VERSION:2.0", "BEGIN:VEVENT", "UID:a", *lines, "END:VEVENT", "END:VCALENDAR", ""])
        return run(program, "expand", f"--zone={words}", given=event)

    def printed(*instances):
        return 0, "".join(f"{at} {at} {seconds}\n" for at, seconds in instances), ""

    cases.holds("a day of 23 hours", expanded(YORK, "DTSTART;VALUE=DATE:20250309"), printed(("20250309T050000Z", 82800)))
    cases.holds("a day of 25 hours", expanded(YORK, "DTSTART;VALUE=DATE:20251102"), printed(("20251102T040000Z", 90000)))
    cases.holds("a day in UTC", expanded("+0000", "DTSTART;VALUE=DATE:20250309"), printed(("20250309T000000Z", 86400)))
    cases.holds("a day half an hour off", expanded("+0530", "DTSTART:20250310"), printed(("20250309T183000Z", 86400)))
    cases.holds("a gap", expanded(YORK, "DTSTART:20250309T023000", "DURATION:PT1H"), printed(("20250309T073000Z", 3600)))
    cases.holds("a fold", expanded(YORK, "DTSTART:20251102T013000", "DURATION:PT1H"), printed(("20251102T053000Z", 3600)))
    cases.holds("an end by the clock", expanded(YORK, "DTSTART:20250309T013000", "DTEND:20250309T033000"), printed(("20250309T063000Z", 7200)))
    cases.holds("Dublin, where summer is standard", expanded("+0100 +0000 3 -1SU 0100 10 -1SU 0200", "DTSTART;VALUE=DATE:20250330", "RRULE:FREQ=DAILY;COUNT=2"), printed(("20250330T000000Z", 82800), ("20250330T230000Z", 86400)))
    cases.holds("each Monday", expanded(YORK, "DTSTART;VALUE=DATE:20250303", "RRULE:FREQ=WEEKLY;COUNT=2"), printed(("20250303T050000Z", 86400), ("20250310T040000Z", 86400)))
    cases.holds("forms that don't go together", expanded(YORK, "DTSTART;VALUE=DATE:20250309", "DURATION:PT1H"), (3, "", "roombox: refused 57\n"))
    for words in ("noon", "", "0500", "-0000", "-0500 -0400", YORK + " ", YORK.replace(" 3 ", " 03 "), YORK.replace("1SU", "5SU"), YORK.replace("1SU", "+1SU"), YORK.replace("-0400", "-0500"), YORK.replace("0200", "2400")):
        found = expanded(words, "DTSTART;VALUE=DATE:20250309")
        cases.holds(f"the words {words!r}", (found[0], found[1], found[2].startswith("error: ")), (2, "", True))

    def checked(own, *events):
        with tempfile.TemporaryDirectory() as folder:
            calendar, certificate = Path(folder, "c"), Path(folder, "k")
            accepted = [line.replace("ATTENDEE:", "ATTENDEE;PARTSTAT=ACCEPTED:") for event in events for line in event]
            calendar.write_text("\r\n".join(["BEGIN:VCALENDAR", "VERSION:2.0", *own, *accepted, "END:VCALENDAR", ""]), newline="")
            certificate.write_text(f"ROOMCERT 1\nSINGLES {len(events)}\nSERIES 0\nDONE\n", newline="")
            return run(program, "check", calendar, certificate, R1)[:2]

    day = [line.replace("DTSTART:", "DTSTART;VALUE=DATE:") for line in vevent(start="20250310", lines=())]
    before, after = vevent("b", start="20250310T030000Z"), vevent("c", start="20250311T040000Z")
    cases.holds("a day in New York touches two hours", checked([f"X-ROOM-ZONE:{YORK}"], day, before, after), (0, "yes\n"))
    cases.holds("it overlaps one where no zone is named", checked([], day, before, after), (1, "no 84\n"))
    cases.holds("parameters are ignored", checked([f"x-room-zone;X-A=b:{YORK}"], day, before, after), (0, "yes\n"))
    cases.holds("two zones", checked(["X-ROOM-ZONE:+0530", "X-ROOM-ZONE:+0530"], before, after), (1, "no 80\n"))
    cases.holds("words of no zone", checked(["X-ROOM-ZONE:America/New_York"], before, after), (1, "no 80\n"))
    cases.holds("UTC by its words", checked(["X-ROOM-ZONE:+0000"], day, after), (0, "yes\n"))
    cases.holds("a message's X-ROOM-ZONE is ignored", answers(program, request().replace("METHOD:", "X-ROOM-ZONE:noon\r\nMETHOD:")), ["ACCEPTED"])


def recurring(uid="s", sequence=0, start="20250310T090000Z", rule="FREQ=DAILY;COUNT=3", lines=(), length="PT1H"):
    """A REQUEST of a series; without more of three days from a Monday on."""
    return request(uid, sequence, start, (f"DURATION:{length}", f"RRULE:{rule}", *lines))


def series(cases, program):
    first, second, third = "20250310T090000Z", "20250311T090000Z", "20250312T090000Z"
    hour = ("DURATION:PT1H",)

    def tried(what, wanted, *objects):
        cases.holds(what, answers(program, *objects), wanted)

    def status(*objects):
        """What the last decline says."""
        lines = unfolded(run(program, given=PREAMBLE + "".join(objects))[1]).split("\r\n")
        return [line.partition(".;")[2] or line for line in lines if line.startswith(("REQUEST-STATUS:4.1", "X-ROOM-LIMIT"))][-1:]

    def words(instant, *instances):
        return [" ".join([instant, *(f"{slot} mailto:ann@example.com {uid}" for slot, uid in instances)])]

    three = recurring()
    tried("a series", ["ACCEPTED", "DECLINED", "ACCEPTED"], three, request("b", start=third, lines=hour), request("c", start="20250313T090000Z", lines=hour))
    tried("a single before a series", ["ACCEPTED", "DECLINED"], request("b", start=third, lines=hour), three)
    mondays, leap_days = recurring("w", rule="FREQ=WEEKLY"), recurring("y", start="20240229T090000Z", rule="FREQ=YEARLY")
    tried("a clash in the year 2044", ["ACCEPTED", "DECLINED"], mondays, leap_days)
    cases.holds("it is named, if no other is there", status(mondays, recurring("y", start="20240229T090000Z", rule="FREQ=YEARLY;COUNT=6")), words("20440229T090000Z", ("20440229T090000Z", "w"), ("20440229T090000Z", "y")))
    tried("endless series one after the other", ["ACCEPTED", "ACCEPTED"], mondays, recurring("y", start="20240229T100000Z", rule="FREQ=YEARLY"))
    cases.holds("a series that clashes with itself", status(recurring(length="PT30H", rule="FREQ=DAILY;COUNT=2")), words(second, (first, "s"), (second, "s")))
    cases.holds("an instance on another one of its series", status(three, message("REQUEST", vevent("s", 1, second, slot=third))), words(second, (second, "s"), (third, "s")))
    tried("RDATE within its own rule", ["DECLINED"], recurring(lines=("RDATE:20250311T093000Z",)))
    tried("RRULE in another order is the same part", ["ACCEPTED", "ACCEPTED", "ACCEPTED"], three, recurring(rule="COUNT=3;FREQ=DAILY;INTERVAL=1;WKST=MO"), three)
    tried("the greater RRULE of one revision counts", ["ACCEPTED", "ACCEPTED"], three, recurring(rule="FREQ=DAILY;COUNT=4"), three)
    tried("a revision over its own old times", ["ACCEPTED", "ACCEPTED"], three, recurring(sequence=1, start="20250310T093000Z"))
    tried("a declined revision gives the old times up", ["ACCEPTED", "ACCEPTED", "DECLINED", "ACCEPTED"], request("b", start="20250320T090000Z", lines=hour), three, recurring(sequence=1, start="20250320T090000Z"), request("c", start=second, lines=hour))
    gone = message("CANCEL", vevent("s", 1, second, slot=second))
    tried("a CANCEL of one instance", ["ACCEPTED", "ACCEPTED", "DECLINED"], three, gone, request("b", start=second, lines=hour), request("c", start=third, lines=hour))
    tried("a CANCEL of one instance before its series", ["ACCEPTED", "ACCEPTED"], gone, request("b", start=second, lines=hour), three)
    tried("a newer series has it again", ["ACCEPTED", "ACCEPTED", "DECLINED"], three, gone, recurring(sequence=2), request("b", start=second, lines=hour))
    tried("a CANCEL of a series", ["ACCEPTED", "ACCEPTED"], three, request("s", 1, method="CANCEL"), request("b", start=second, lines=hour))
    tried("an instance is moved", ["ACCEPTED", "ACCEPTED", "ACCEPTED", "DECLINED"], three, message("REQUEST", vevent("s", 1, "20250311T150000Z", slot=second)), request("b", start=second, lines=hour), request("c", start="20250311T153000Z", lines=hour))
    tried("an instance is added", ["ACCEPTED", "ACCEPTED", "DECLINED"], three, message("ADD", vevent("s", 0, "20250313T090000Z")), request("b", start="20250313T090000Z", lines=hour))
    tried("EXDATE of a series", ["ACCEPTED", "ACCEPTED"], recurring(lines=(f"EXDATE:{second}",)), request("b", start=second, lines=hour))

    many = [recurring(f"s{n}", start=f"20250310T{n // 6:02}{n % 6}000Z", rule="FREQ=DAILY;COUNT=2", length="PT10M") for n in range(65)]
    cases.holds("the 65th series", status(*many), ["X-ROOM-LIMIT:SERIES"])
    cases.holds("the limit comes before a clash", status(*many[:64], recurring("s64", start="20250310T000000Z", rule="FREQ=DAILY;COUNT=2")), ["X-ROOM-LIMIT:SERIES"])
    tried("64 series and a single", ["ACCEPTED"] * 65, *many[:64], request("b", start="20250310T120000Z", lines=hour))
    none_left = message("CANCEL", vevent("s0", 1, "20250310T000000Z", slot="20250310T000000Z"), vevent("s0", 1, "20250311T000000Z", slot="20250311T000000Z"))
    cases.holds("a series without a start left counts", status(*many[:64], none_left, many[64]), ["X-ROOM-LIMIT:SERIES"])
    tried("until it is cancelled", ["ACCEPTED"] * 65, *many[:64], none_left, request("s0", 1, method="CANCEL"), many[64])
    tried("or has a newer revision", ["ACCEPTED"] * 66, *many[:64], none_left, request("s0", 2, "20250310T000000Z", ("DURATION:PT10M",)), many[64])


def kept_series(cases, program):
    def lines_of(*objects):
        return unfolded(run(program, "keep", R1, given=PREAMBLE + "".join(objects))[1]).split("\r\n")

    def rule_of(rule, start="20250310T090000Z"):
        return [line for line in lines_of(recurring(start=start, rule=rule)) if line.startswith("RRULE")]

    def certified(what, wanted, *objects):
        """The certificate is this one, and the checker says yes to it and the calendar."""
        stream = PREAMBLE + "".join(objects)
        with tempfile.TemporaryDirectory() as folder:
            calendar, certificate = Path(folder, "r1.ics"), Path(folder, "r1.cert")
            for path, words in ((calendar, ("keep", R1)), (certificate, ("keep", "--certificate", R1))):
                path.write_text(run(program, *words, given=stream)[1], newline="")
            cases.holds(what, (certificate.read_text(), run(program, "check", calendar, certificate, R1)[1]), (wanted, "yes\n"))

    cases.holds("RRULE in one order", rule_of("WKST=SU;BYDAY=TH,MO,TH;INTERVAL=2;UNTIL=20250601T120000Z;FREQ=WEEKLY"), ["RRULE:FREQ=WEEKLY;UNTIL=20250601T120000Z;INTERVAL=2;BYDAY=MO,TH;WKST=SU"])
    cases.holds("what is implied isn't written", rule_of("FREQ=MONTHLY;INTERVAL=1;BYSETPOS=1,-1,1;BYDAY=FR,MO;WKST=MO;COUNT=3", "20250303T090000Z"), ["RRULE:FREQ=MONTHLY;COUNT=3;BYDAY=MO,FR;BYSETPOS=-1,1"])
    cases.holds("months before days", rule_of("FREQ=YEARLY;BYMONTHDAY=-1,10;BYMONTH=4,3;COUNT=4"), ["RRULE:FREQ=YEARLY;COUNT=4;BYMONTH=3,4;BYMONTHDAY=-1,10"])
    cases.holds("UNTIL as a date", rule_of("FREQ=DAILY;UNTIL=20250312"), ["RRULE:FREQ=DAILY;UNTIL=20250312"])
    york = zone_of("York", (11, "1SU", 2, "-0400", "-0500"), (3, "2SU", 2, "-0500", "-0400"))
    event = [line.replace("DTSTART:", "DTSTART;TZID=York:") for line in vevent("s", 0, "20250310T090000", ("DURATION:PT1H", "RRULE:FREQ=YEARLY;UNTIL=99991231T220000"))]
    cases.holds("UNTIL past year 9999", [line for line in lines_of(message("REQUEST", york, event)) if line.startswith("RRULE:FREQ=YEARLY;U")], ["RRULE:FREQ=YEARLY;UNTIL=99991231T235959Z"])
    cases.holds("RRULE before the lists", [line.partition(":")[0] for line in lines_of(recurring(lines=("EXDATE:20250311T090000Z", "RDATE:20250311T150000Z")))][3:-2],
                ["BEGIN", "UID", "SEQUENCE", "DTSTAMP", "DTSTART", "DURATION", "RRULE", "RDATE", "EXDATE", "ORGANIZER", "ATTENDEE;PARTSTAT=ACCEPTED", "END"])
    gone = message("CANCEL", vevent("s", 1, "20250311T090000Z", slot="20250311T090000Z"))
    cases.holds("a cancelled start of a series", [line for line in lines_of(recurring(), gone) if line.startswith(("RECURRENCE-ID", "STATUS"))], ["RECURRENCE-ID:20250311T090000Z", "STATUS:CANCELLED"])
    one = "ROOMCERT 1\nSINGLES 0\nSERIES 1\nPAIR 1 1 RES 86400\nDONE\n"
    two = "ROOMCERT 1\nSINGLES 0\nSERIES 2\nPAIR 1 1 RES 172800\nPAIR 1 2 RES 172800\nPAIR 2 2 RES 172800\nDONE\n"
    # of days that are before those of the other series, at the same hour
    before, beside = recurring("t", start="20250301T090000Z", rule="FREQ=DAILY;COUNT=2"), two.replace("172800", "86400")
    certified("its certificate", one, recurring(), gone)
    certified("two endless series", two, recurring(rule="FREQ=DAILY;INTERVAL=2"), recurring("t", start="20250311T090000Z", rule="FREQ=DAILY;INTERVAL=2"))
    certified("RDATE is a single unless the rule gives it", one.replace("SINGLES 0", "SINGLES 1"), recurring(lines=("RDATE:20250311T150000Z,20250312T090000Z",)))
    moved = message("REQUEST", vevent("s", 1, "20250311T150000Z", slot="20250311T090000Z"))
    certified("so is an instance with a VEVENT of its own", one.replace("SINGLES 0", "SINGLES 1"), recurring(), moved)
    # the last start is on the 12th, also where it is excepted
    excepted = recurring(lines=("EXDATE:20250310T090000Z,20250311T090000Z,20250312T090000Z",))
    group = "ROOMCERT 2\nSINGLES 0\nSERIES 2\nGROUP 20250313T000000Z 1 1 2\nDONE\n"
    certified("two series that residues don't settle are a group", group, recurring(), before)
    certified("one all of whose starts are excepted", group, excepted, before)
    certified("a third at an hour of its own is beside the group", group.replace("SERIES 2", "SERIES 3").replace("DONE", "PAIR 1 3 RES 86400\nPAIR 2 3 RES 86400\nPAIR 3 3 RES 86400\nDONE"),
              recurring(), before, recurring("u", start="20250310T110000Z", rule="FREQ=DAILY"))
    certified("two that no number of days settles", beside.replace("1 2 RES 86400", "1 2 END"), recurring(rule="FREQ=YEARLY;INTERVAL=21"), before)
    certified("a series all of whose starts are excepted", one, excepted)

    def judged(certificate, *objects):
        with tempfile.TemporaryDirectory() as folder:
            calendar, text = Path(folder, "r1.ics"), Path(folder, "r1.cert")
            calendar.write_text(run(program, "keep", R1, given=PREAMBLE + "".join(objects))[1], newline="")
            text.write_text(certificate, newline="")
            return run(program, "check", calendar, text, R1)[1]

    cases.holds("a RES of other days that is allowed", judged(one.replace("86400", "259200"), recurring(rule="FREQ=DAILY;INTERVAL=2")), "yes\n")
    for what, seconds in (("no days", 0), ("a part of a day", 86401), ("421 days", 36374400)):
        cases.holds(f"a RES of {what}", judged(one.replace("86400", str(seconds)), recurring()), "no 83 1 1\n")
    cases.holds("a RES whose arcs meet", judged(beside, recurring(), before), "no 83 1 2\n")
    cases.holds("a SPAN instead of it", judged(beside.replace("RES 86400", "SPAN 20250313T000000Z 1"), recurring(), before), "yes\n")
    cases.holds("a line for each of them", judged(beside.replace("1 2 RES 86400", "1 2 SPAN 20250313T000000Z 1"), recurring(), before), "yes\n")
    cases.holds("a group instead of that", judged(group, recurring(), before), "yes\n")
    cases.holds("a group of them from the last start on", judged(group.replace("20250313T000000Z", "20250312T090000Z"), recurring(), before), "no 83 1 2\n")
    cases.holds("a group of no days", judged(group.replace("Z 1 ", "Z 0 "), recurring(), before), "no 83 1 2\n")
    cases.holds("a group in version 1", judged(group.replace("ROOMCERT 2", "ROOMCERT 1"), recurring(), before), "no 81 4\n")
    cases.holds("a group and a line of its pair", judged(group.replace("DONE", "PAIR 1 1 RES 86400\nDONE"), recurring(), before), "no 81 5\n")
    cases.holds("version 2 without a group", judged(beside.replace("ROOMCERT 1", "ROOMCERT 2").replace("1 2 RES 86400", "1 2 SPAN 20250313T000000Z 1"), recurring(), before), "yes\n")


def numbers_of_reference():
    """Of each number in the table of docs/REFERENCE.md what `explain` has to print."""
    table = (ROOT / "docs" / "REFERENCE.md").read_text(encoding="utf-8").partition("<!-- table: docs/tables/users.py refusals -->")[2].partition("<!-- end of table -->")[0]
    rows = [[cell.strip() for cell in line.split("|")[1:-1]] for line in table.splitlines() if line[:3].strip("| ").isdigit()]
    return {int(number): f"{number}: {meaning}. What to do: {advice}.\n" for number, meaning, advice in rows}


def explained(cases, program):
    found = {number: run(program, "explain", str(number)) for number in range(256)}
    cases.holds("the table of numbers is what is explained", {number: text for number, (status, text, _) in found.items() if status == 0}, numbers_of_reference())
    cases.holds("the first and the last of each kind are among them", [number for number in (1, 6, 10, 16, 20, 25, 30, 34, 40, 44, 50, 57, 60, 67, 70, 73, 80, 84, 90) if number not in numbers_of_reference()], [])
    cases.holds("another number is a usage fault", found[45][:2], (2, ""))
    cases.holds("so is one that is gone", found[55][:2], (2, ""))
    cases.holds("so is a word", run(program, "explain", "no")[:2], (2, ""))
    for line, number in [("REFUSED;OBJECT=3:43", 43), ("REFUSED;OBJECT=3:43\r", 43), ("roombox: refused 90", 90), ("no 82", 82), ("no 81 5", 81), ("no 83 1 2", 83), (" 61 ", 61)]:
        cases.holds(f"explain of the line {line!r}", run(program, "explain", line), (0, numbers_of_reference()[number], ""))
    for line in ("REFUSED;OBJECT=3:45", "REFUSED;OBJECT=3", "roombox: refused", "no  82", "yes", "roombox: device"):
        cases.holds(f"no number is in the line {line!r}", run(program, "explain", line)[:2], (2, ""))


def explained_objects(cases, program):
    """`explain` without a number: the number, and the place where one line has the fault. The lines were counted by hand, from 1."""
    zone = "BEGIN:VTIMEZONE|TZID:Z|BEGIN:STANDARD|DTSTART:19700101T000000|TZOFFSETFROM:+1|TZOFFSETTO:+0100|END:STANDARD|END:VTIMEZONE|BEGIN:VEVENT"
    folded = "ORGANIZER;CN=Ann:| mailto:ann@example.com"
    alarm = "UID:a|BEGIN:VALARM|DURATION:x|END:VALARM"
    slot = "DURATION:PT1H|RECURRENCE-ID:20250310T090000Z"
    for what, wanted, changes in [
        ("a mail's text before it", "1 at line 1", {1: "Dear room|BEGIN:VCALENDAR"}),
        ("a mail's text behind its head", "1 at line 2", {1: "From: ann|Dear room|BEGIN:VCALENDAR"}),
        ("a name with a space", "2 at line 10", {10: "DURA TION:PT1H"}),
        ("a parameter without =", "2 at line 8", {8: "ATTENDEE;RSVP:mailto:r1@example.com"}),
        ("a quote that isn't closed", "3 at line 7", {7: 'ORGANIZER;CN="Ann:mailto:ann@example.com'}),
        ("a control octet", "4 at line 10", {10: "DURATION:PT1H\x07"}),
        ("DTSTAMP that is no time", "10 at line 6: DTSTAMP", {6: "DTSTAMP:2025"}),
        ("month 13", "10 at line 9: DTSTART", {9: "DTSTART:20251310T090000Z"}),
        ("a name in lower case", "10 at line 6: dtstamp", {6: "dtstamp:2025"}),
        ("a UTC time with TZID", "11 at line 9: DTSTART", {9: "DTSTART;TZID=Europe/Berlin:20250310T090000Z"}),
        ("no duration", "12 at line 10: DURATION", {10: "DURATION:1H"}),
        ("no duration, behind an alarm with none", "12 at line 13: DURATION", {5: alarm, 10: "DURATION:1H"}),
        ("no offset in a zone", "13 at line 8: TZOFFSETFROM", {4: zone, 9: "DTSTART;TZID=Z:20250310T090000"}),
        ("an empty UID", "14 at line 5: UID", {5: "UID:"}),
        ("no address", "15 at line 8: ATTENDEE", {8: "ATTENDEE:r1"}),
        ("no address, on a folded line", "15 at line 7: ORGANIZER", {7: "ORGANIZER;CN=Ann Example:a|  nn@example.com"}),
        ("no address, behind a folded line", "15 at line 9: ATTENDEE", {7: folded, 8: "ATTENDEE:r1"}),
        ("the second attendee", "15 at line 9: ATTENDEE", {8: "ATTENDEE:mailto:r1@example.com|ATTENDEE:r2"}),
        ("a negative SEQUENCE", "16 at line 11: SEQUENCE", {10: "DURATION:PT1H|SEQUENCE:-1"}),
        ("BEGIN without END", "21 at line 1: BEGIN", {12: ""}),
        ("another VERSION", "24 at line 2: VERSION", {2: "VERSION:1.0"}),
        ("no VERSION", "24 at line 1: BEGIN", {2: ""}),
        ("an hourly rule", "30 at line 11: RRULE", {10: "DURATION:PT1H|RRULE:FREQ=HOURLY"}),
        ("month 13 in a rule", "31 at line 11: RRULE", {10: "DURATION:PT1H|RRULE:FREQ=YEARLY;BYMONTH=13"}),
        ("a rule without FREQ", "32 at line 11: RRULE", {10: "DURATION:PT1H|RRULE:COUNT=3"}),
        ("COUNT beside UNTIL", "33 at line 11: RRULE", {10: "DURATION:PT1H|RRULE:FREQ=DAILY;COUNT=3;UNTIL=20250320T000000Z"}),
        ("a Monday isn't a Tuesday", "34 at line 11: RRULE", {10: "DURATION:PT1H|RRULE:FREQ=WEEKLY;BYDAY=TU"}),
        ("a zone without a part", "40 at line 4: BEGIN\nVTIMEZONE at line 4: neither STANDARD nor DAYLIGHT is in it. `roombox adapt` hands the object on as it is.", {4: "BEGIN:VTIMEZONE|TZID:Z|END:VTIMEZONE|BEGIN:VEVENT", 9: "DTSTART;TZID=Z:20250310T090000"}),
        ("a zone that isn't there", "43 at line 9: DTSTART", {9: "DTSTART;TZID=Europe/Berlin:20250310T090000"}),
        ("two times in a zone that isn't there", "43 at line 9: DTSTART", {9: "DTSTART;TZID=Europe/Berlin:20250310T090000", 10: "DTEND;TZID=Europe/Berlin:20250310T100000"}),
        ("DTEND before DTSTART", "50 at line 10: DTEND", {10: "DTEND:20250309T090000Z"}),
        ("a negative duration", "51 at line 10: DURATION", {10: "DURATION:-PT1H"}),
        ("367 days", "51 at line 10: DURATION", {10: "DURATION:P367D"}),
        ("a start in 1960", "52 at line 9: DTSTART", {9: "DTSTART:19600310T090000Z"}),
        ("a start and an end in 1960", "52 at line 9: DTSTART", {9: "DTSTART:19600310T090000Z", 10: "DTEND:19600310T100000Z"}),
        ("two VEVENTs without RECURRENCE-ID", "53 at line 12: BEGIN", {11: "|".join(["END:VEVENT", *OBJECT[3:11]])}),
        ("a date with TZID", "11 at line 9: DTSTART", {9: "DTSTART;TZID=Europe/Berlin:20250310"}),
        ("eight digits as a date-time", "11 at line 9: DTSTART", {9: "DTSTART;VALUE=DATE-TIME:20250310"}),
        ("the last date", "52 at line 9: DTSTART", {9: "DTSTART;VALUE=DATE:99991231", 10: ""}),
        ("an hour beside a date", "57 at line 10: DURATION", {9: "DTSTART;VALUE=DATE:20250310"}),
        ("a date and an end in UTC", "57 at line 10: DTEND", {9: "DTSTART;VALUE=DATE:20250310", 10: "DTEND:20250311T000000Z"}),
        ("a time without zone and an end in UTC", "57 at line 10: DTEND", {9: "DTSTART:20250310T090000", 10: "DTEND:20250310T100000Z"}),
        ("a store of an instance by its date", "57 at line 9: RECURRENCE-ID", {3: "", 10: "RECURRENCE-ID;VALUE=DATE:20250310"}),
        ("a period", "56 at line 11: RDATE", {10: "DURATION:PT1H|RDATE;VALUE=PERIOD:20250311T090000Z/PT1H"}),
        ("PUBLISH", "60 at line 3: METHOD", {3: "METHOD:PUBLISH"}),
        ("no UID", "61 at line 4: BEGIN\nVEVENT at line 4: it has no UID.", {5: ""}),
        ("UID twice", "61 at line 6: UID\nVEVENT at line 4: UID occurs twice in it.", {5: "UID:a|UID:b"}),
        ("two lines alike", "61 at line 6: UID\nVEVENT at line 4: UID occurs twice in it.", {5: "UID:a|UID:a"}),
        ("no DTSTAMP", "61 at line 4: BEGIN\nVEVENT at line 4: it has no DTSTAMP.", {6: ""}),
        ("no DTSTART", "61 at line 4: BEGIN\nVEVENT at line 4: it has no DTSTART.", {9: ""}),
        ("no DTSTART in an ADD", "61 at line 4: BEGIN\nVEVENT at line 4: it has no DTSTART.", {3: "METHOD:ADD", 9: ""}),
        ("no DTSTART in a store", "61 at line 3: BEGIN\nVEVENT at line 3: it has no DTSTART.", {3: "", 9: ""}),
        ("no DTSTAMP in a store", "61 at line 3: BEGIN\nVEVENT at line 3: it has no DTSTAMP.", {3: "", 6: ""}),
        ("neither in a store", "61 at line 3: BEGIN\nVEVENT at line 3: it has no DTSTAMP.", {3: "", 6: "", 9: ""}),
        ("SEQUENCE twice", "61 at line 12: SEQUENCE\nVEVENT at line 4: SEQUENCE occurs twice in it.", {10: "DURATION:PT1H|SEQUENCE:1|SEQUENCE:2"}),
        ("RRULE twice in an ADD", "61 at line 12: RRULE\nVEVENT at line 4: RRULE occurs twice in it.", {3: "METHOD:ADD", 10: "DURATION:PT1H|RRULE:FREQ=DAILY;COUNT=2|RRULE:FREQ=WEEKLY;COUNT=2"}),
        ("a VEVENT of its own name in lower case", "61 at line 4: begin\nvevent at line 4: it has no UID.", {4: "begin:vevent", 5: "", 11: "end:vevent"}),
        ("DTEND behind DURATION", "61 at line 11: DTEND\nVEVENT at line 4: DURATION stands beside DTEND in it.", {10: "DURATION:PT1H|DTEND:20250310T100000Z"}),
        ("the second of two VEVENTs without a UID", "61 at line 12: BEGIN\nVEVENT at line 12: it has no UID.", {11: "|".join(["END:VEVENT", OBJECT[3], *OBJECT[5:11]])}),
        ("a VEVENT behind a VTODO without a UID", "61 at line 6: BEGIN\nVEVENT at line 6: it has no UID.", {4: "BEGIN:VTODO|END:VTODO|BEGIN:VEVENT", 5: ""}),
        ("an alarm with the UID", "61 at line 4: BEGIN\nVEVENT at line 4: it has no UID.", {5: "BEGIN:VALARM|UID:a|END:VALARM"}),
        ("no ORGANIZER", "63 at line 4: BEGIN\nVEVENT at line 4: it has no ORGANIZER.", {7: ""}),
        ("an END of another component", "20 at line 11: END", {11: "END:VTODO"}),
        ("an END of another component, behind a right one", "20 at line 13: END", {4: "BEGIN:VTODO|END:VTODO|BEGIN:VEVENT", 11: "END:VTODO"}),
        ("an END too early, before a right one", "20 at line 6: END", {5: "UID:a|END:VCALENDAR"}),
        ("an END in lower case of another component", "20 at line 11: end", {11: "end:vtodo"}),
        ("components nine deep", "22 at line 17: BEGIN", {10: "DURATION:PT1H|" + "|".join(["BEGIN:X"] * 7 + ["END:X"] * 7)}),
        ("components nine deep, behind an alarm", "22 at line 19: BEGIN", {5: "UID:a|BEGIN:VALARM|END:VALARM", 10: "DURATION:PT1H|" + "|".join(["BEGIN:X"] * 7 + ["END:X"] * 7)}),
        ("a line before its VCALENDAR", "23 at line 1: X-A", {1: "X-A:1|BEGIN:VCALENDAR"}),
        ("a component before its VCALENDAR", "23 at line 1: BEGIN", {1: "BEGIN:VTODO|END:VTODO|BEGIN:VCALENDAR"}),
        ("a VCALENDAR inside it", "23 at line 11: BEGIN", {10: "DURATION:PT1H|BEGIN:VCALENDAR|END:VCALENDAR"}),
        ("RANGE", "65 at line 11: RECURRENCE-ID", {10: "DURATION:PT1H|RECURRENCE-ID;RANGE=THISANDFUTURE:20250310T090000Z"}),
        ("no VEVENT", "66", dict.fromkeys(range(4, 12), "")),
        ("RRULE beside RECURRENCE-ID", "67 at line 12: RRULE", {10: slot + "|RRULE:FREQ=DAILY"}),
    ]:
        number = wanted.partition(" ")[0]
        meaning = run(program, "explain", number)[1]
        cases.holds(f"explain of an object with {what}", run(program, "explain", given=changed(changes)), (1, f"refused {wanted}\n{meaning}", ""))
        # an END:VCALENDAR too early ends the object, and what is behind it is the next one
        cases.holds(f"serve refuses {what} with the same number", answers(program, changed(changes))[:1], [f"REFUSED;OBJECT=1:{number}"])
    for what, wanted, octets in [
        ("not UTF-8", "5 at line 10", changed({10: "SUMMARY:?|DURATION:PT1H"}).encode().replace(b"?", b"\xff")),
        ("too long", "6", changed({10: "|".join(["DURATION:PT1H"] + ["X-PAD:" + "x" * 1000] * 1100)}).encode()),
        ("a stream, whose first line has no colon", "1 at line 1", (PREAMBLE + changed({})).encode()),
        ("lines that end with LF", "43 at line 9: DTSTART", changed({9: "DTSTART;TZID=Z:20250310T090000"}).replace("\r\n", "\n").encode()),
    ]:
        meaning = run(program, "explain", wanted.partition(" ")[0])[1]
        cases.holds(f"explain of an object that is {what}", run(program, "explain", given=octets), (1, f"refused {wanted}\n{meaning}", ""))
    # a line that has the fault, and isn't the one that the object is refused for, isn't named
    other = "BEGIN:VTIMEZONE|TZID:U|BEGIN:STANDARD|DTSTART:{start}|TZOFFSETFROM:{offset}|TZOFFSETTO:+0100|END:STANDARD|END:VTIMEZONE|"
    part = "BEGIN:VTIMEZONE|TZID:Z|BEGIN:X-PART|TZOFFSETFROM:+1|END:X-PART|" + zone.split("|", 2)[2]
    for what, wanted, changes in [
        ("an offset, and one of a zone that isn't used", "13 at line 16: TZOFFSETFROM", {4: other.format(start="19700101T000000", offset="+1") + zone, 9: "DTSTART;TZID=Z:20250310T090000"}),
        ("a time, and one of a zone that isn't used", "11 at line 25: DTSTART", {4: other.format(start="19700101", offset="+0100") + zone.replace("+1|", "+0100|"), 9: "DTSTART;TZID=Z:20250310T090000Z"}),
        ("an offset, and one of another part", "13 at line 11: TZOFFSETFROM", {4: part, 9: "DTSTART;TZID=Z:20250310T090000"}),
        ("a time, and one of a VTODO", "10 at line 9: DTSTAMP", {4: "BEGIN:VTODO|DTSTAMP:2025|END:VTODO|BEGIN:VEVENT", 6: "DTSTAMP:2025"}),
        ("an address, and one of an alarm", "15 at line 12: ATTENDEE", {5: "UID:a|BEGIN:VALARM|ATTENDEE:x|END:VALARM", 8: "ATTENDEE:mailto:r1@example.com|ATTENDEE:y"}),
        ("a first line that continues nothing", "1 at line 1", {1: " Dear room|BEGIN:VCALENDAR"}),
    ]:
        cases.holds(f"explain never names a wrong line: {what}", run(program, "explain", given=changed(changes))[1].partition("\n")[0], f"refused {wanted}")
    if not shutil.which("awk"):
        cases.lacks("the recipe with awk", "awk")
    else:
        recipe = next(line for line in (ROOT / "docs" / "GUIDE.md").read_text(encoding="utf-8").splitlines() if line.startswith("    awk "))
        stream = (PREAMBLE + changed({}) + "\r\n" + changed({5: "UID:b"}) + changed({9: "DTSTART;TZID=Z:20250310T090000"}) + changed({5: ""})).encode()
        cut = subprocess.run(["sh", "-c", recipe.partition(" stream |")[0]], input=stream, capture_output=True).stdout
        cases.holds("the recipe that cuts out the third object", cut.decode(), changed({9: "DTSTART;TZID=Z:20250310T090000"}))
    for method in ("CANCEL", "REPLY", "REFRESH"):
        lacking = changed({3: f"METHOD:{method}", 9: "", 10: "STATUS:CONFIRMED|STATUS:TENTATIVE"})
        said = "refused 61 at line 10: STATUS\nVEVENT at line 4: STATUS occurs twice in it.\n"
        cases.holds(f"explain of a {method} with STATUS twice, which needs no DTSTART", run(program, "explain", given=lacking)[1].partition("61: ")[0], said)
    for method, wanted in [("REQUEST", "a REQUEST"), ("ADD", "an ADD"), ("CANCEL", "a CANCEL"), ("REPLY", "a REPLY"), ("REFRESH", "a REFRESH"), (None, "a store")]:
        taken = changed({3: f"METHOD:{method}" if method else ""})
        cases.holds(f"explain of {wanted}", run(program, "explain", given=taken), (0, f"not refused: {wanted}\n", ""))


def reported(cases, program):
    """`serve --report`: on standard error a line for each object that came to nothing, and the counts at the end; standard output as without it."""
    good, zone, twice = changed({}), changed({9: "DTSTART;TZID=Z:20250310T090000"}), changed({5: "UID:a|UID:a"})
    known = ", UID a, ORGANIZER mailto:ann@example.com"
    asked = ", REQUEST" + known
    long, longer = "u" * 200, "u" * 201
    for what, objects, lines, wanted in [
        ("no object", [], [], "0 objects, 0 refused"),
        ("none refused", [good, good], [f"object 2: changed nothing{asked}"], "2 objects, 0 refused"),
        ("three refused", [zone, good, twice, zone, good], [f"object 1: refused 43{asked}", f"object 3: refused 61{asked}", f"object 4: refused 43{asked}", f"object 5: changed nothing{asked}"], "5 objects, 3 refused (43: 2, 61: 1)"),
        ("one object", [zone], [f"object 1: refused 43{asked}"], "1 object, 1 refused (43: 1)"),
        ("all refused", [twice, twice], [f"object 1: refused 61{asked}", f"object 2: refused 61{asked}"], "2 objects, 2 refused (61: 2)"),
        ("the numbers in their order", [changed({7: ""}), twice, zone, changed({10: "DURATION:1H"})],
         ["object 1: refused 63, REQUEST, UID a", f"object 2: refused 61{asked}", f"object 3: refused 43{asked}", f"object 4: refused 12{asked}"], "4 objects, 4 refused (12: 1, 43: 1, 61: 1, 63: 1)"),
        ("a refusal by an organiser's state", [changed({3: "METHOD:REPLY"}), good], [f"object 1: refused 70, REPLY{known}"], "2 objects, 1 refused (70: 1)"),
        ("a decline isn't a refusal", [good, changed({5: "UID:b"})], [], "2 objects, 0 refused"),
        ("a room that isn't hosted", [changed({8: "ATTENDEE:mailto:r9@example.com"})], [f"object 1: reached no room{asked}"], "1 object, 0 refused"),
        ("what is older", [changed({10: "DURATION:PT1H|SEQUENCE:2"}), changed({10: "DURATION:PT1H|SEQUENCE:1"})], [f"object 2: stale{asked}"], "2 objects, 0 refused"),
        ("a second cancel", [good, changed({3: "METHOD:CANCEL", 10: "SEQUENCE:1"}), changed({3: "METHOD:CANCEL", 10: "SEQUENCE:1"})], [f"object 3: changed nothing, CANCEL{known}"], "3 objects, 0 refused"),
        ("a store without METHOD", [changed({3: ""})], ["object 1: refused 70" + known], "1 object, 1 refused (70: 1)"),
        ("no METHOD, UID or ORGANIZER", ["BEGIN:VCALENDAR\r\nEND:VCALENDAR\r\n"], ["object 1: refused 24"], "1 object, 1 refused (24: 1)"),
        ("no object at all", ["what\r\n"], ["object 1: refused 1"], "1 object, 1 refused (1: 1)"),
        ("names in lower case, parameters and a fold", [changed({3: "method:REQUEST", 5: "uid;x=1:a", 7: 'organizer;CN="Ann: A":mailto:ann@| example.com', 10: "DURATION:1H"})], [f"object 1: refused 12{asked}"], "1 object, 1 refused (12: 1)"),
        ("the first line of each name", [changed({5: "UID:a|UID:b", 7: "ORGANIZER:mailto:ann@example.com|ORGANIZER:mailto:bob@example.com"})], [f"object 1: refused 61{asked}"], "1 object, 1 refused (61: 1)"),
        ("octets that aren't printable ASCII", [changed({5: "UID:%\u00e9|DURATION:x"})], ["object 1: refused 61, REQUEST, UID %25%C3%A9, ORGANIZER mailto:ann@example.com"], "1 object, 1 refused (61: 1)"),
        ("a UID of 200 octets", [changed({5: f"UID:{long}", 10: "DURATION:x"})], [f"object 1: refused 12, REQUEST, UID {long}, ORGANIZER mailto:ann@example.com"], "1 object, 1 refused (12: 1)"),
        ("a UID of 201 octets", [changed({5: f"UID:{longer}", 10: "DURATION:x"})], [f"object 1: refused 12, REQUEST, UID {long}.., ORGANIZER mailto:ann@example.com"], "1 object, 1 refused (12: 1)"),
    ]:
        stream = PREAMBLE + "".join(objects)
        without = run(program, "serve", given=stream)
        cases.holds(f"without a report, {what}", (without[0], without[2]), (0, ""))
        said = "".join(f"roombox: {line}\n" for line in [*lines, wanted])
        cases.holds(f"a report of {what}", run(program, "serve", "--report", given=stream), (0, without[1], said))
    two = NOW + ROOM + "room mailto:r2@example.com\n\n"
    both = changed({8: "ATTENDEE:mailto:r1@example.com|ATTENDEE:mailto:r2@example.com"})
    cases.holds("one of two rooms knows it already, the other one doesn't", run(program, "serve", "--report", given=two + good + both)[2], "roombox: 2 objects, 0 refused\n")
    cases.holds("both know it", run(program, "serve", "--report", given=two + both + good)[2], f"roombox: object 2: changed nothing{asked}\nroombox: 2 objects, 0 refused\n")
    store = NOW + ROOM + ANN + "\n" + changed({3: ""}) * 2
    cases.holds("of what an organiser takes nothing is said", run(program, "serve", "--report", given=store)[2], "roombox: 2 objects, 0 refused\n")
    early = "roombox: refused 90\nroombox: line 1: it doesn't begin with `now `, `room `, `zone ` or `organiser `: now\n"
    cases.holds("no report of a stream that ends early", run(program, "serve", "--report", given="now\n\n" + good), (3, "", early))
    cases.holds("no report of nothing", run(program, "serve", "--report"), (3, "", "roombox: refused 90\nroombox: there is no preamble\n"))


def command_line(cases, program):
    """Help, usage faults, the man page and the completion."""
    for given, argument in [(("expand", "--limit", "0"), "--limit <N>"), (("expand", "--limit", "100001"), "--limit <N>"), (("expand", "--limit", "100,000"), "--limit <N>"),
                            (("keep", "r1"), "<ROOM>"), (("check", "a", "b", "r1"), "<ROOM>"), (("explain", "45"), "[NUMBER]"), (("explain", "no"), "[NUMBER]")]:
        status, out, said = run(program, *given)
        cases.holds(f"a bad word: {given}", (status, out, said.startswith(f"error: invalid value '{given[-1]}' for '{argument}': "), said.endswith("\n\nFor more information, try '--help'.\n")), (2, "", True, True))
    for given in [("what",), ("keep",), ("expand", "--limt", "1"), ("explain", "43", "44"), ("serve", "--report", "x"), ("box", "config", "inbox")]:
        status, out, said = run(program, *given)
        cases.holds(f"a bad word: {given}", (status, out, said.startswith("error: "), said.endswith("\n\nFor more information, try '--help'.\n")), (2, "", True, True))
    cases.holds("the greatest limit", run(program, "expand", "--limit", "100000", given="\r\n".join(OBJECT[:2] + OBJECT[3:]))[:2], (0, "20250310T090000Z 20250310T090000Z 3600\n"))
    top, commands = man_page.all_help(program)
    cases.holds("the statuses of the help", [int(number) for number, _ in top.statuses()], [0, 1, 2, 3, 4, 5])
    for name, help in commands.items():
        text = "\n".join(line for lines in help.paragraphs for line in lines)
        cases.holds(f"the help of {name} says its statuses, where the numbers are, and an example", [part in text for part in ("Exit status: 0 ", "docs/REFERENCE.md", "Example: roombox ")], [True] * 3)
    cases.holds("the man page is made from the help (make man)", (ROOT / "docs" / "roombox.1").read_text(encoding="utf-8"), man_page.man_page(program))
    script = ROOT / "docs" / "roombox.bash"
    cases.holds("so is the completion", script.read_text(encoding="utf-8"), man_page.completion(program))
    if not shutil.which("bash"):
        cases.lacks("the completion", "bash")
    else:
        for line, wanted in [("roombox ex", "expand explain"), ("roombox b", "box"), ("roombox serve --", "--report --adapt --zones --help"), ("roombox keep --c", "--certificate"), ("roombox keep ", ""), ("roombox --v", "--version")]:
            line = line.split(" ")
            made = f"source '{script}'; COMP_WORDS=({' '.join(repr(word) for word in line)}); COMP_CWORD={len(line) - 1}; _roombox; echo \"${{COMPREPLY[*]}}\""
            cases.holds(f"completed: {line}", subprocess.run(["bash", "-c", made], capture_output=True, text=True).stdout, wanted + "\n")
    if not shutil.which("groff"):
        cases.lacks("the man page as groff shows it", "groff")
    else:
        shown = subprocess.run(["groff", "-man", "-Tutf8", "-ww", "-P-cbou", str(ROOT / "docs" / "roombox.1")], capture_output=True)
        cases.holds("groff shows the man page without a warning", (shown.returncode, shown.stderr.decode(), b"EXIT STATUS" in shown.stdout), (0, "", True))


def logged(cases, program):
    # what came on each day, the first file without a line break at its end; the guide's own line appends it to the log
    recipe = next(line.strip() for line in (ROOT / "docs" / "GUIDE.md").read_text(encoding="utf-8").splitlines() if line.endswith(">> log"))
    days = [
        {"1.ics": request().removesuffix("\r\n")},
        {"1.ics": request("b", start="20250310T093000Z", lines=("DURATION:PT1H",)), "2.ics": request("c", start="20250310T120000Z", lines=("DURATION:PT1H",)).removesuffix("\n")},
        {"1.ics": request("d", start="20250310T123000Z", lines=("DURATION:PT1H",))},
    ]
    found = []
    with tempfile.TemporaryDirectory() as folder:
        for day in days:
            new = Path(folder, "new")
            new.mkdir()
            for name, text in day.items():
                (new / name).write_bytes(text.encode())
            subprocess.run(["sh", "-c", recipe], cwd=folder, check=True)
            shutil.rmtree(new)
            found.append(answers(program, Path(folder, "log").read_bytes().decode()))
    answered = ["ACCEPTED", "DECLINED", "ACCEPTED", "DECLINED"]
    cases.holds("a log of files without a last line break", found, [answered[:1], answered[:3], answered])
    together = request().removesuffix("\r\n") + request("b", start="20250310T120000Z", lines=("DURATION:PT1H",))
    cases.holds("a line break is missing between two objects", answers(program, together, request("c")), ["REFUSED;OBJECT=1:20", "ACCEPTED"])
    spoiled = request().replace("END:VCALENDAR", "END:VCALENDAR ")
    cases.holds("a spoiled END", answers(program, spoiled + request("b"), request("c")), ["REFUSED;OBJECT=1:20", "ACCEPTED"])
    cases.holds("something between two objects", answers(program, request(), "From ann\r\n" + request("b"), request("c")), ["ACCEPTED", "REFUSED;OBJECT=2:1", "DECLINED"])


def examples(cases, program):
    """Each NAME.ics-stream of examples/ has what is written for it beside it, as NAME.replies."""
    folder = ROOT / "examples"
    streams, written = ({path.stem for path in folder.glob(f"*.{kind}")} for kind in ("ics-stream", "replies"))
    cases.holds("each example of a stream has its replies", streams, written)
    for name in sorted(streams & written):
        found = run(program, "serve", given=(folder / f"{name}.ics-stream").read_bytes())
        cases.holds(f"the example {name}", found, (0, (folder / f"{name}.replies").read_bytes().decode(), ""))
    found = run(program, "expand", "--limit", "3", given=(folder / "every-second-tuesday.ics").read_bytes())
    cases.holds("the example of expand", found, (0, "".join(f"{day}T090000Z {day}T090000Z 3600\n" for day in ("20250107", "20250121", "20250204")), ""))
    found = run(program, "expand", f"--zone={YORK}", given=(folder / "whole-day.ics").read_bytes())
    days = (("20250308T050000Z", 86400), ("20250309T050000Z", 82800), ("20250310T040000Z", 86400))
    cases.holds("the example of whole days", found, (0, "".join(f"{day} {day} {seconds}\n" for day, seconds in days), ""))


def organisers(cases, program):
    """The section "Organisers": what is written for a store, and what of REPLY and REFRESH."""
    def told(*objects):
        """Of each object that is written METHOD, SEQUENCE, STATUS where there is one, and the attendees; REFUSED lines as they are."""
        said = []
        for line in unfolded(run(program, given=NOW + ROOM + ANN + "\n" + "".join(objects))[1]).splitlines():
            name, _, value = line.partition(":")
            if line.startswith("METHOD") or line.startswith("REFUSED"):
                said.append([value] if name == "METHOD" else line)
            elif name in ("SEQUENCE", "STATUS"):
                said[-1].append(value)
            elif name.startswith("ATTENDEE"):
                said[-1].append(value.removeprefix("mailto:").partition("@")[0])
        return said

    def stored(*attendees, sequence=None, lines=(), uid="s", own=()):
        event = [f"UID:{uid}", "DTSTAMP:20250101T000000Z", "ORGANIZER:mailto:ann@example.com", "DTSTART:20250401T090000Z", "DURATION:PT1H", *lines, *own]
        event += [f"SEQUENCE:{sequence}"] if sequence is not None else []
        return message(None, ["BEGIN:VEVENT", *event, *(f"ATTENDEE{it}" for it in attendees), "END:VEVENT"])

    def spoken(method, who="r1", sequence=0, uid="s"):
        event = [f"UID:{uid}", "DTSTAMP:20250102T000000Z", "ORGANIZER:mailto:ann@example.com", f"SEQUENCE:{sequence}", f"ATTENDEE;PARTSTAT=ACCEPTED:mailto:{who}@example.com"]
        return message(method, ["BEGIN:VEVENT", *event, "END:VEVENT"])

    one, two = ":mailto:r1@example.com", ":mailto:r2@example.com"
    cases.holds("the store's own SEQUENCE at first", told(stored(one, sequence=4)), [["REQUEST", "4", "r1"]])
    cases.holds("then at least one more", told(stored(one, sequence=4), stored(one, sequence=2)), [["REQUEST", "4", "r1"], ["REQUEST", "5", "r1"]])
    cases.holds("or its own greater one", told(stored(one), stored(one, sequence=9)), [["REQUEST", "0", "r1"], ["REQUEST", "9", "r1"]])
    cases.holds("no SEQUENCE is left", told(stored(one, sequence=2147483647), stored(one)), [["REQUEST", "2147483647", "r1"], "REFUSED;OBJECT=2:72"])
    for agent in ("CLIENT", "NONE", "X-OTHER"):
        cases.holds(f"SCHEDULE-AGENT={agent}", told(stored(f";SCHEDULE-AGENT={agent}{one}")), [])
        cases.holds(f"SCHEDULE-AGENT={agent} beside another", told(stored(f";SCHEDULE-AGENT={agent}{one}", two)), [["REQUEST", "0", "r1", "r2"]])
    cases.holds("SCHEDULE-AGENT=server", told(stored(f";SCHEDULE-AGENT=server{one}")), [["REQUEST", "0", "r1"]])
    cases.holds("one is gone", told(stored(one, two), stored(two)), [["REQUEST", "0", "r1", "r2"], ["REQUEST", "1", "r2"], ["CANCEL", "1", "r1"]])
    cases.holds("one is left to a client now", told(stored(one, two), stored(one, f";SCHEDULE-AGENT=CLIENT{two}")), [["REQUEST", "0", "r1", "r2"], ["REQUEST", "1", "r1", "r2"]])
    left_and_off = stored(one, f";SCHEDULE-AGENT=CLIENT{two}", lines=("STATUS:CANCELLED",))
    cases.holds("called off, one is left to a client now", told(stored(one, two), left_and_off), [["REQUEST", "0", "r1", "r2"], ["CANCEL", "1", "CANCELLED", "r1", "r2"]])
    off = stored(one, lines=("STATUS:CANCELLED",))
    cases.holds("called off", told(stored(one, two), off, off), [["REQUEST", "0", "r1", "r2"], ["CANCEL", "1", "CANCELLED", "r1", "r2"], ["CANCEL", "2", "CANCELLED", "r1"]])
    cases.holds("the organiser among the attendees", told(stored(":mailto:ann@example.com", one)), [["REQUEST", "0", "ann", "r1"]])
    cases.holds("the organiser alone", told(stored(":mailto:ann@example.com")), [])
    cases.holds("a REPLY", told(stored(one), spoken("REPLY")), [["REQUEST", "0", "r1"]])
    cases.holds("a REPLY to an older store", told(stored(one), stored(one), spoken("REPLY")), [["REQUEST", "0", "r1"], ["REQUEST", "1", "r1"]])
    cases.holds("a REPLY past the last store", told(stored(one), spoken("REPLY", sequence=1)), [["REQUEST", "0", "r1"], "REFUSED;OBJECT=2:71"])
    cases.holds("a REPLY for a meeting that isn't known", told(spoken("REPLY")), ["REFUSED;OBJECT=1:71"])
    cases.holds("a REPLY of a stranger", told(stored(one), spoken("REPLY", "r2")), [["REQUEST", "0", "r1"], "REFUSED;OBJECT=2:73"])
    cases.holds("a REFRESH", told(stored(one), spoken("REFRESH")), [["REQUEST", "0", "r1"]] * 2)
    cases.holds("a REFRESH after it was called off", told(off, spoken("REFRESH")), [["CANCEL", "0", "CANCELLED", "r1"]] * 2)
    cases.holds("a REFRESH after a cancellation to nobody", told(stored(f";SCHEDULE-AGENT=NONE{one}", lines=("STATUS:CANCELLED",)), spoken("REFRESH")), [["CANCEL", "0", "CANCELLED"]])
    lines = unfolded(run(program, given=NOW + ANN + "\n" + stored(one, lines=("SUMMARY;LANGUAGE=en:Plan", "SUMMARY:b", "LOCATION:here")))[1]).split("\r\n")
    cases.holds("a REQUEST as it is shown", lines[4:], [
        "BEGIN:VEVENT", "UID:s", "SEQUENCE:0", "DTSTAMP:20250102T000000Z", "DTSTART:20250401T090000Z", "DURATION:PT3600S", "SUMMARY:Plan", "ORGANIZER:mailto:ann@example.com",
        "ATTENDEE;PARTSTAT=NEEDS-ACTION;RSVP=TRUE:mailto:r1@example.com", "END:VEVENT", "END:VCALENDAR", ""])


def anchors_of(text):
    """The names by which a page's headings are linked to: in lower case, without punctuation, a hyphen for each space."""
    headings = re.findall(r"^#+ (.*)$", re.sub(r"^```.*?^```", "", text, flags=re.DOTALL | re.MULTILINE), re.MULTILINE)
    return [re.sub(r"[^\w\- ]", "", it.lower()).replace(" ", "-") for it in headings]


def documents(cases, program):
    """The links of the documents, the reply that README shows, and the tables that scripts write for users."""
    pages = [ROOT / "README.md", ROOT / "CHANGELOG.md", *sorted((ROOT / "docs").glob("*.md")), *sorted((ROOT / "examples").glob("*/README.md"))]
    texts = {page: page.read_text(encoding="utf-8") for page in pages}
    for page, text in texts.items():
        links = [it.partition("#") for it in re.findall(r"\]\(([^)\s]+)\)", text) if "://" not in it]
        aims = [((page.parent / name).resolve() if name else page, anchor) for name, _, anchor in links]
        cases.holds(f"what {page.relative_to(ROOT)} links to is there", sorted(str(aim) for aim, _ in aims if not aim.exists()), [])
        cases.holds(f"the anchors that {page.relative_to(ROOT)} links to are there", sorted(f"{aim.name}#{anchor}" for aim, anchor in aims if anchor and anchor not in anchors_of(texts.get(aim, ""))), [])
        cases.holds(f"no two headings of {page.relative_to(ROOT)} are one anchor", sorted({it for it in anchors_of(text) if anchors_of(text).count(it) > 1}), [])
    first = texts[ROOT / "README.md"].splitlines()[:40]
    shown = [line.strip() for line in first if line.startswith("    ") and not line.strip().startswith(("$", "make"))]
    replied = iter((ROOT / "examples" / "first-request.replies").read_text(encoding="utf-8").splitlines())
    cases.holds("the first screen of README shows the first reply, in its order", ("METHOD:REPLY" in shown, [line for line in shown if line != ".." and line not in replied]), (True, []))
    made = subprocess.run([sys.executable, ROOT / "docs" / "tables" / "users.py", "--check"], capture_output=True, text=True)
    cases.holds("the tables for users are made from their sources (docs/tables/users.py)", (made.returncode, made.stderr), (0, ""))


def main():
    cases, program = Cases(), of_arguments()
    for part in (preambles, decisions, instances, added, replies, refusals, kept, zones, times_in_zones, whole_days, rooms_in_zones, rooms_of_a_zone, series, kept_series, organisers, explained, explained_objects, reported, command_line, logged, examples, documents):
        part(cases, program)
    cases.end()


if __name__ == "__main__":
    main()
