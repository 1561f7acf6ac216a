"""Random series for a room, as messages and as calendars that it may keep."""

from datetime import datetime, timedelta

from lib.streams import ANN, R1, calendar

ZONES = {
    "America/New_York": (("STANDARD", "20071104T020000", "FREQ=YEARLY;BYMONTH=11;BYDAY=1SU", "-0400", "-0500"),
                         ("DAYLIGHT", "20070311T020000", "FREQ=YEARLY;BYMONTH=3;BYDAY=2SU", "-0500", "-0400")),
    "Europe/Paris": (("STANDARD", "19961027T030000", "FREQ=YEARLY;BYMONTH=10;BYDAY=-1SU", "+0200", "+0100"),
                     ("DAYLIGHT", "19970330T020000", "FREQ=YEARLY;BYMONTH=3;BYDAY=-1SU", "+0100", "+0200")),
    # Its clocks are set by half an hour.
    "Lord_Howe": (("STANDARD", "20080406T020000", "FREQ=YEARLY;BYMONTH=4;BYDAY=1SU", "+1100", "+1030"),
                  ("DAYLIGHT", "20081005T020000", "FREQ=YEARLY;BYMONTH=10;BYDAY=1SU", "+1030", "+1100")),
    "Once": (("STANDARD", "20251102T020000", None, "-0400", "-0500"),),
    "India": (("STANDARD", "19700101T000000", None, "+0530", "+0530"),),
    "Nepal": (("STANDARD", "19700101T000000", None, "+0545", "+0545"),),
}
# Each rule with the days, from a Monday, on which it may begin. For dateutil a day has to be both where BYDAY names one with a number and one without.
RULES = (
    ("FREQ=DAILY", 0), ("FREQ=DAILY;INTERVAL=3", 0), ("FREQ=DAILY;BYDAY=MO,WE,FR", 0), ("FREQ=DAILY;INTERVAL=2;BYDAY=MO,TU,WE,TH,FR", 0), ("FREQ=DAILY;BYMONTH=1", 0),
    ("FREQ=DAILY;INTERVAL=421", 0), ("FREQ=WEEKLY", 0), ("FREQ=WEEKLY;BYDAY=MO,TU,WE,TH,FR", 0), ("FREQ=WEEKLY;INTERVAL=2;BYDAY=MO,SU", 0),
    ("FREQ=WEEKLY;INTERVAL=2;BYDAY=TU,SU;WKST=SU", 1), ("FREQ=WEEKLY;INTERVAL=3;BYDAY=MO,WE,SA;WKST=WE", 0), ("FREQ=WEEKLY;INTERVAL=61", 0), ("FREQ=WEEKLY;BYMONTH=1,7", 0),
    ("FREQ=MONTHLY", 0), ("FREQ=MONTHLY;INTERVAL=7", 0), ("FREQ=MONTHLY;BYDAY=1MO", 0), ("FREQ=MONTHLY;INTERVAL=5;BYDAY=1MO,-1FR", 0),
    ("FREQ=MONTHLY;BYDAY=MO,TU;BYSETPOS=1", 0), ("FREQ=YEARLY", 0), ("FREQ=YEARLY;INTERVAL=3", 0), ("FREQ=YEARLY;BYDAY=1MO", 0), ("FREQ=YEARLY;INTERVAL=5;BYMONTH=1;BYDAY=MO,TH", 0),
    ("FREQ=YEARLY;INTERVAL=21", 0), ("FREQ=YEARLY;INTERVAL=19", 0),
)
LENGTHS = ("PT15M", "PT30M", "PT30M", "PT1H", "PT90M", "PT2H", "PT0S", "PT24H", "PT25H")
# Days are nominal.
DAYS = ("P1D", "P1DT1H", "P2D")


def vtimezone(name):
    lines = ["BEGIN:VTIMEZONE", f"TZID:{name}"]
    for kind, start, rule, before, after in ZONES[name]:
        lines += [f"BEGIN:{kind}", f"DTSTART:{start}", *([f"RRULE:{rule}"] if rule else []), f"TZOFFSETFROM:{before}", f"TZOFFSETTO:{after}", f"END:{kind}"]
    return [*lines, "END:VTIMEZONE"]


def vevent(number, sequence, *lines):
    return ["BEGIN:VEVENT", f"UID:m{number}", f"SEQUENCE:{sequence}", "DTSTAMP:20250101T000000Z", f"ORGANIZER:{ANN}", f"ATTENDEE:{R1}", *lines, "END:VEVENT"]


# Of rooms in calendars.
ROOM_ZONES = ("-0500 -0400 11 1SU 0200 3 2SU 0200", "+0100 +0200 10 -1SU 0300 3 -1SU 0200", "+1030 +1100 4 1SU 0200 10 1SU 0200", "+0530", "+0000")


def timed(chance, number, zone):
    """The lines of a series' times: with a zone those by which the series of a room are one behind the other by its clocks; else any zone or none, at an hour
    of its own where that is so, or whole days."""
    rule, day = chance.choice(RULES)
    end = chance.choice(["", "", "", "", f";COUNT={chance.randint(1, 40)}", f";UNTIL={chance.randint(2026, 2600)}0131T000000Z"])
    hour, minute, length = number, 0, "PT1H"
    if zone is None:
        zone = chance.choice([None, None, *ZONES])
        hour, minute = chance.choice([number, 1, 2]), chance.choice([0, 30])
        length = chance.choice(DAYS if "DAILY" not in rule and chance.random() < 0.3 else LENGTHS)
    local = datetime(2025, 1, 6 + day, hour, minute) + timedelta(weeks=52 * chance.randint(0, 1) * (rule in ("FREQ=DAILY", "FREQ=WEEKLY")))
    start = f"DTSTART;TZID={zone}:{local:%Y%m%dT%H%M%S}" if zone else f"DTSTART:{local:%Y%m%dT%H%M%S}{chance.choice(['Z', 'Z', ''])}"
    if zone is None and chance.random() < 0.25:
        start, length = f"DTSTART;VALUE=DATE:{local:%Y%m%d}", chance.choice(["P1D", "P1D", "P2D", "PT0S"])
    taken = f"{chance.randint(1965, 2700)}{chance.randint(1, 12):02}01"
    excepted = [chance.choice([f"EXDATE:{taken}T{number:02}0000Z", f"EXDATE:{taken}T{number:02}0000", f"EXDATE;VALUE=DATE:{taken}"])] if chance.random() < 0.3 else []
    return zone, [start, f"DURATION:{length}", f"RRULE:{rule}{end}", *excepted]


def request(chance, number, zone):
    """A series, and perhaps the cancellation of an instance that may be none."""
    zone, lines = timed(chance, number, zone)
    messages = [calendar(*(vtimezone(zone) if zone else []), *vevent(number, 0, *lines), method="REQUEST")]
    if chance.random() < 0.3:
        messages.append(calendar(*vevent(number, 1, f"RECURRENCE-ID:{chance.randint(1970, 2400)}0203T0{chance.randint(0, 9)}0000Z"), method="CANCEL"))
    return messages


def one_zone(chance):
    """The zone in which the series of a room are one behind the other, in some rooms."""
    return chance.choice([None, None, *ZONES]) if chance.random() < 0.5 else None


def calendar_text(chance):
    """A calendar of series that the room has accepted, and of singles, whether they clash or not."""
    zone, zones, events = one_zone(chance), {}, []
    for number in range(3, 3 + chance.randint(1, 4)):
        named, lines = timed(chance, number, zone)
        zones |= {named: vtimezone(named)} if named else {}
        events.append(vevent(number, 0, *lines))
    for number in range(chance.choice([0, 0, 2])):
        start = f"{chance.randint(2025, 2027)}{chance.randint(1, 12):02}{chance.randint(1, 28):02}T{chance.randint(0, 23):02}{chance.choice(['00', '30'])}00{chance.choice(['Z', ''])}"
        events.append(vevent(100 + number, 0, f"DTSTART:{start}", f"DURATION:{chance.choice(['PT30M', 'PT1H', 'PT0S', 'P2D'])}"))
    named = [f"X-ROOM-ZONE:{chance.choice(ROOM_ZONES)}"] if chance.random() < 0.6 else []
    text = calendar(*named, *(it for zone in zones.values() for it in zone), *(it for event in events for it in event))
    return text.replace(f"ATTENDEE:{R1}", f"ATTENDEE;PARTSTAT=ACCEPTED:{R1}")
