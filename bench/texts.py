"""The texts that the scripts beside this file send: requests, calendars, zones, series and certificates."""

from datetime import datetime, timedelta

ROOM = "mailto:r{}@example.com"
FIRST = datetime(2025, 1, 6)
REQUEST = """BEGIN:VCALENDAR
VERSION:2.0
PRODID:-//bench//EN
METHOD:REQUEST
BEGIN:VEVENT
UID:meeting-{number}@example.com
SEQUENCE:0
DTSTAMP:20250101T000000Z
ORGANIZER:mailto:ann@example.com
ATTENDEE:{room}
DTSTART:{start}
DURATION:PT1H
{extra}END:VEVENT
END:VCALENDAR
"""
EVENT = """BEGIN:VEVENT
UID:meeting-{number}@example.com
SEQUENCE:0
DTSTAMP:20250101T000000Z
DTSTART:{start}
DURATION:PT3600S
ORGANIZER:mailto:ann@example.com
ATTENDEE;PARTSTAT=ACCEPTED:{room}
END:VEVENT
"""
SERIES = """BEGIN:VCALENDAR
VERSION:2.0
PRODID:-//bench//EN
BEGIN:VEVENT
UID:series@example.com
DTSTAMP:20250101T000000Z
ORGANIZER:mailto:ann@example.com
DTSTART:{start}
DURATION:PT1H
RRULE:{rule}
END:VEVENT
END:VCALENDAR
"""
NEW_YORK = """BEGIN:VTIMEZONE
TZID:America/New_York
BEGIN:STANDARD
DTSTART:20071104T020000
RRULE:FREQ=YEARLY;BYMONTH=11;BYDAY=1SU
TZOFFSETFROM:-0400
TZOFFSETTO:-0500
END:STANDARD
BEGIN:DAYLIGHT
DTSTART:20070311T020000
RRULE:FREQ=YEARLY;BYMONTH=3;BYDAY=2SU
TZOFFSETFROM:-0500
TZOFFSETTO:-0400
END:DAYLIGHT
END:VTIMEZONE
"""
IN_NEW_YORK = SERIES.replace("DTSTART:", "DTSTART;TZID=America/New_York:").replace("BEGIN:VEVENT", NEW_YORK + "BEGIN:VEVENT")
PARIS = """BEGIN:VTIMEZONE
TZID:Europe/Paris
BEGIN:STANDARD
DTSTART:19961027T030000
TZOFFSETFROM:+0200
TZOFFSETTO:+0100
RRULE:FREQ=YEARLY;BYMONTH=10;BYDAY=-1SU
END:STANDARD
BEGIN:DAYLIGHT
DTSTART:19970330T020000
TZOFFSETFROM:+0100
TZOFFSETTO:+0200
RRULE:FREQ=YEARLY;BYMONTH=3;BYDAY=-1SU
END:DAYLIGHT
END:VTIMEZONE
"""
# Values of each list of a rule. A list of any length goes round in them, so that its days are the same.
LISTS = (
    ("BYMONTH", range(1, 13)),
    ("BYMONTHDAY", range(1, 32)),
    ("BYDAY", ("MO", "TU", "WE", "TH", "FR", "SA", "SU")),
    ("BYSETPOS", range(1, 37)),
)


def stamp(number):
    """The start of meeting `number`: each has an hour of its own."""
    return (FIRST + timedelta(hours=number)).strftime("%Y%m%dT%H%M%SZ")


def crlf(text):
    return text.replace("\n", "\r\n").encode()


def preamble(rooms, zone=None):
    """So many rooms, each in this zone."""
    lines = ["now 20250102T000000Z"] + ["room " + ROOM.format(room) for room in range(rooms)]
    lines += [f"zone {ROOM.format(room)} {zone}" for room in range(rooms) if zone]
    return ("\n".join(lines) + "\n\n").encode()


def recurring(number, start, rule, sequence=0, zone=""):
    """A request for a series, in UTC or in New York."""
    request = REQUEST.replace("SEQUENCE:0", f"SEQUENCE:{sequence}").replace("BEGIN:VEVENT", zone + "BEGIN:VEVENT", 1)
    if zone:
        request = request.replace("DTSTART:{start}", "DTSTART;TZID=America/New_York:{start}")
        start = start.removesuffix("Z")
    return crlf(request.format(number=number, room=ROOM.format(0), start=start, extra=f"RRULE:{rule}\n"))


def in_paris(number, start, rule):
    return recurring(number, start, rule, zone=PARIS).replace(b"TZID=America/New_York", b"TZID=Europe/Paris")


def rule_of_lists(count):
    """A rule of so many entries in each list. The days are always the first 36 of the year."""
    parts = [f"{name}=" + ",".join(str(values[place % len(values)]) for place in range(count)) for name, values in LISTS]
    return ";".join(["FREQ=YEARLY", *parts])


def certificate_of(singles, series):
    """The certificate of a calendar of so many singles and series."""
    pairs = "".join(f"PAIR {i} {j} END\n" for i in range(1, series + 1) for j in range(i, series + 1))
    return f"ROOMCERT 1\nSINGLES {singles}\nSERIES {series}\n{pairs}DONE\n"
