"""Streams: a preamble and objects, as texts, and the words of what is answered."""

from lib.program import run

NOW = "now 20250102T000000Z\n"
R1, R2 = "mailto:r1@example.com", "mailto:r2@example.com"
ANN = "mailto:ann@example.com"
ROOM = f"room {R1}\n"
PREAMBLE = NOW + ROOM + "\n"
HEAD = ["BEGIN:VCALENDAR", "VERSION:2.0", "PRODID:-//test//EN"]
# what the program writes
OWN_HEAD = ["BEGIN:VCALENDAR", "VERSION:2.0", "PRODID:-//iTIP room box//EN"]
# An object that isn't refused, a content line each; the line of number n is OBJECT[n - 1].
OBJECT = ["BEGIN:VCALENDAR", "VERSION:2.0", "METHOD:REQUEST", "BEGIN:VEVENT", "UID:a", "DTSTAMP:20250101T000000Z", "ORGANIZER:mailto:ann@example.com",
          "ATTENDEE:mailto:r1@example.com", "DTSTART:20250310T090000Z", "DURATION:PT1H", "END:VEVENT", "END:VCALENDAR"]


def crlf(*lines):
    return "".join(line + "\r\n" for line in lines)


def calendar(*lines, method=None, head=HEAD):
    """An object of these lines."""
    return crlf(*head, *[f"METHOD:{method}"] * bool(method), *lines, "END:VCALENDAR")


def vevent(uid="a", sequence=0, start="20250310T090000Z", lines=("DURATION:PT1H",), room=R1, stamp="20250101T000000Z", slot=None):
    named = [f"RECURRENCE-ID:{slot}"] if slot else []
    event = [f"UID:{uid}", *named, f"SEQUENCE:{sequence}", f"DTSTAMP:{stamp}", f"ORGANIZER:{ANN}", f"ATTENDEE:{room}", f"DTSTART:{start}", *lines]
    return ["BEGIN:VEVENT", *event, "END:VEVENT"]


def message(method, *events):
    """An object of VEVENTs, each its lines."""
    return calendar(*(line for event in events for line in event), method=method)


def request(uid="a", sequence=0, start="20250310T090000Z", lines=("DTEND:20250310T100000Z",), method="REQUEST", room=R1, stamp="20250101T000000Z"):
    return message(method, vevent(uid, sequence, start, lines, room, stamp))


def changed(changes):
    """OBJECT with other lines: of each number the text that takes its place, "" for none, several lines divided by `|`."""
    lines = []
    for number, line in enumerate(OBJECT, 1):
        text = changes.get(number, line)
        lines += text.split("|") if text else []
    return crlf(*lines)


def folded(lines):
    """The octets of lines, each in physical lines of at most 75 octets, no character split."""
    out = bytearray()
    for line in lines:
        size = 0
        for character in line:
            octets = character.encode()
            if size + len(octets) > 75:
                out += b"\r\n "
                size = 1
            out += octets
            size += len(octets)
        out += b"\r\n"
    return bytes(out)


def unfolded(text):
    return text.replace("\r\n ", "")


def spelled(octets, digits="X"):
    """As a column of a table spells octets, and as `stdout` does, with digits in lower case."""
    known = {13: "\\r", 10: "\\n", 92: "\\\\"}
    return "".join(known.get(it) or (chr(it) if 32 <= it < 127 else f"\\x{it:02{digits}}") for it in octets)


def answers(program, *objects, preamble=PREAMBLE):
    """The words of what is answered: ACCEPTED, DECLINED, REFRESH, or a REFUSED line."""
    words = []
    for line in unfolded(run(program, given=preamble + "".join(objects))[1]).splitlines():
        if line.startswith("ATTENDEE;PARTSTAT="):
            words.append(line.split("=")[1].split(":")[0])
        elif line.startswith("REFUSED"):
            words.append(line)
        elif line == "METHOD:REFRESH":
            words.append("REFRESH")
    return words
