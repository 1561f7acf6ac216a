"""Runs `roombox adapt` on the objects of real programs (tests/producers) and on cases of its own, there and back.

    python3 tests/doors.py bin/roombox

Each object has to be read afterwards, to differ from what came in only in its VTIMEZONEs, and to have the instances that Python's zoneinfo
computes by the name of its zone. What the cases have to give is written by hand.
"""

import datetime as dt
import subprocess
import tempfile
import zoneinfo
from pathlib import Path

from lib.calendars import expansion
from lib.cases import Cases
from lib.program import of_arguments
from lib.zones import Known, Zone, moment, stamp

FOLDER = Path(__file__).parent / "producers"
# the objects of doors.txt
CASES = Path(__file__).parent.parent / "crates" / "text_examples" / "data"
UTC = dt.timezone.utc
# instances are compared up to here
END = dt.datetime(2036, 1, 1)
MOST = "700"
FORM = "%Y%m%dT%H%M%S"

# the zones that the producers call by another name
NAMES = {
    "/freeassociation.sourceforge.net/America/New_York": "America/New_York",
    "/freeassociation.sourceforge.net/Europe/Berlin": "Europe/Berlin",
    "/freeassociation.sourceforge.net/America/Sao_Paulo": "America/Sao_Paulo",
    "/freeassociation.sourceforge.net/Europe/Moscow": "Europe/Moscow",
    "EST": "America/New_York",  # vobject names it so
}
# khal states the change on each side of the start and no other: from this instant on its text says one offset for ever
STATED = {"khal--03-weekly-endless.ics": (moment("20251102T060000Z"), -5 * 3600)}
# refused without FILE: what they bear is no VTIMEZONE at all
WITHOUT_ZONES = {"kde--07b-instance-moved.ics": "43", "sabre--02-single-tzid.ics": "43"}

cases = Cases()


def run(program, *words, given):
    return subprocess.run([program, *words], input=given, stdout=subprocess.PIPE, stderr=subprocess.PIPE, check=False)


def adapted(program, octets, zones=None):
    """What comes out, and the lines of the report."""
    words = ["--zones", zones] if zones else []
    end = run(program, "adapt", "--report", *words, given=octets)
    return end.stdout, end.stderr.decode().splitlines()


def instances(program, octets):
    """The starts before END, or what is said instead."""
    end = run(program, "expand", "--limit", MOST, given=octets)
    if end.returncode:
        return end.stderr.decode().strip()
    starts = [line.split()[1] for line in end.stdout.decode().splitlines()]
    return [start for start in starts if start < END.strftime(FORM)]


def lines_of(octets):
    return octets.replace(b"\r\n", b"\n").replace(b"\n ", b"").decode().splitlines()


def without_zones(octets):
    """The lines outside VTIMEZONEs."""
    kept, inside = [], False
    for line in lines_of(octets):
        inside = inside or line == "BEGIN:VTIMEZONE"
        if not inside:
            kept.append(line)
        inside = inside and line != "END:VTIMEZONE"
    return kept


# ---- the objects of real programs

def time_of(line):
    """The local time of a line, and the name of its zone: UTC for a time in UTC, and, as nothing else is said, for one without zone."""
    text = line.rpartition(":")[2]
    name = line.partition("TZID=")[2].partition(";")[0].rpartition(":")[0] if "TZID=" in line else ""
    if "VALUE=DATE" in line and "DATE-TIME" not in line:
        return dt.datetime.strptime(text, "%Y%m%d"), "UTC"
    name = line.partition("TZID=")[2].partition(";VALUE")[0].removesuffix(":" + text) if "TZID=" in line else "UTC"
    return dt.datetime.strptime(text.rstrip("Z"), FORM), name


class Stated(Known):
    """The clocks of a zone, but those of one offset from some local time on."""

    def __init__(self, name, since, offset):
        super().__init__(name)
        self.since, self.stated = since, offset

    def means(self, local):
        return local - self.stated if local - self.stated >= self.since else super().means(local)


class Names(dict):
    """The clocks of the zones that the producers name."""

    def __init__(self, file):
        super().__init__()
        self.file = file

    def __missing__(self, name):
        known = NAMES.get(name, name)
        return Stated(known, *STATED[self.file]) if self.file in STATED else Known(known)


def wanted_starts(file, octets):
    """The starts by zoneinfo, or by the producer's own text where that says otherwise."""
    found = [stamp(start) for start, _, _ in expansion(octets.decode(), Names(file), Zone(), int(MOST))]
    return [start for start in found if start < END.strftime(FORM)]


def producers(program, zones):
    files = sorted(FOLDER.glob("*.ics"))
    cases.holds("how many objects there are", len(files), 25)
    for file in files:
        octets = file.read_bytes()
        out, _ = adapted(program, octets)
        said = run(program, "explain", given=out).stdout.decode().splitlines()[0]
        if file.name in WITHOUT_ZONES:
            cases.holds(f"{file.name} without FILE", said.split()[:2], ["refused", WITHOUT_ZONES[file.name]])
            out, _ = adapted(program, octets, zones)
            said = run(program, "explain", given=out).stdout.decode().splitlines()[0]
        cases.holds(f"{file.name}: read", said, "not refused: a REQUEST")
        cases.holds(f"{file.name}: other lines", without_zones(out), without_zones(octets))
        cases.holds(f"{file.name}: instances", instances(program, out), wanted_starts(file.name, octets))


# ---- cases

def part(kind, start, before, after, *more):
    return [f"BEGIN:{kind}", f"DTSTART:{start}", f"TZOFFSETFROM:{before}", f"TZOFFSETTO:{after}", *more, f"END:{kind}"]


def zone(*parts, name="Z"):
    return ["BEGIN:VTIMEZONE", f"TZID:{name}", *[line for lines in parts for line in lines], "END:VTIMEZONE"]


def event(*more, name="Z", start="20250311T090000"):
    return ["BEGIN:VEVENT", "UID:u", "DTSTAMP:20250101T000000Z", "ORGANIZER:mailto:ann@example.com", "ATTENDEE:mailto:r1@example.com",
            f"DTSTART;TZID={name}:{start}", *more, "END:VEVENT"]


def calendar(*components, end="\r\n"):
    lines = ["BEGIN:VCALENDAR", "VERSION:2.0", "PRODID:x", "METHOD:REQUEST", *[line for lines in components for line in lines], "END:VCALENDAR", ""]
    return end.join(lines).encode()


def pair(until=None, name="Z"):
    """Berlin's two rules, with a change of long ago before them; they may end in a year."""
    end = (f";UNTIL={until}0330T010000Z", f";UNTIL={until}1026T010000Z") if until else ("", "")
    return zone(
        part("STANDARD", "18930401T000000", "+005328", "+0100"),
        part("DAYLIGHT", "19810329T020000", "+0100", "+0200", f"RRULE:FREQ=YEARLY;BYMONTH=3;BYDAY=-1SU{end[0]}"),
        part("STANDARD", "19961027T030000", "+0200", "+0100", f"RRULE:FREQ=YEARLY;BYMONTH=10;BYDAY=-1SU{end[1]}"), name=name)


# Casablanca's changes of 2025 and 2026
DATES = zone(
    part("DAYLIGHT", "20250223T030000", "+0100", "+0000", "RDATE:20260215T030000"),
    part("STANDARD", "20240414T020000", "+0000", "+0100", "RDATE:20250406T020000", "RDATE:20260322T020000"))
WEEKLY = "RRULE:FREQ=WEEKLY"


def two(change):
    """One change of long ago and one at this local time."""
    return zone(part("STANDARD", "20000101T000000", "+0000", "+0100"), part("STANDARD", change, "+0100", "+0200"))


def stays(program, name, octets, zones=None):
    cases.holds(name, adapted(program, octets, zones), (octets, []))


def becomes(program, name, octets, *starts, zones=None, report="roombox: object 1: made readable"):
    """It becomes readable, with these first starts, and only its VTIMEZONEs are others."""
    out, said = adapted(program, octets, zones)
    cases.holds(f"{name}: report", said, [report])
    cases.holds(f"{name}: starts", instances(program, out)[:len(starts)], list(starts))
    cases.holds(f"{name}: other lines", without_zones(out), without_zones(octets))
    return out


def where_tables_end(program):
    for until in ("2030", "2035"):
        stays(program, f"a pair with UNTIL {until} isn't taken as endless", calendar(pair(until), event(WEEKLY)))
    for until in ("2036", "2037"):
        out = becomes(program, f"a pair with UNTIL {until} goes on", calendar(pair(until), event(WEEKLY)), "20250311T080000Z",
                      report="roombox: object 1: Z goes on after its last onset")
        late = run(program, "expand", "--limit", "1000", given=out).stdout.decode()
        cases.holds(f"summer 2038 after a pair with UNTIL {until}", "20380706T070000Z" in late, True)
    becomes(program, "a pair with UNTIL 2030 for a single", calendar(pair("2030"), event()), "20250311T080000Z")


def missing_zones(program, folder):
    file = folder / "list.ics"
    file.write_bytes(calendar(pair(), zone(name="Empty")))
    missing, empty = calendar(event(WEEKLY)), calendar(zone(), event(WEEKLY))
    stays(program, "a missing VTIMEZONE without FILE", missing)
    stays(program, "an empty VTIMEZONE without FILE", empty)
    becomes(program, "a missing VTIMEZONE with FILE", missing, "20250311T080000Z", zones=file)
    becomes(program, "an empty VTIMEZONE with FILE", empty, "20250311T080000Z", zones=file)
    stays(program, "a name that FILE hasn't", calendar(event(WEEKLY, name="Y")), file)
    stays(program, "a name that is empty in FILE", calendar(event(WEEKLY, name="Empty")), file)
    own = calendar(two("20250310T090000"), event(WEEKLY))
    becomes(program, "FILE gives way to the object", own, "20250311T070000Z", zones=file)
    out, said = adapted(program, missing + missing, file)
    cases.holds("a zone that two objects use: report", said, [f"roombox: object {k}: made readable" for k in (1, 2)])
    cases.holds("a zone that two objects use: octets", out, adapted(program, missing, file)[0] * 2)


def first_used_time(program):
    for change, first in [("20250309T090000", "07"), ("20250310T090000", "07"), ("20250311T075959", "07"), ("20250311T080000", "07"),
                          ("20250311T080001", "08"), ("20250311T090000", "08"), ("20250311T090001", "08"), ("20250312T090000", "08")]:
        becomes(program, f"a change at {change}", calendar(two(change), event(WEEKLY)), f"20250311T{first}0000Z", "20250318T070000Z")


def times_that_end(program):
    becomes(program, "a single between two dates", calendar(DATES, event()), "20250311T090000Z")
    until = calendar(DATES, event(WEEKLY + ";UNTIL=20250422T000000Z"))
    becomes(program, "UNTIL across one date", until, "20250311T090000Z", "20250318T090000Z", "20250325T090000Z", "20250401T090000Z",
            "20250408T080000Z", "20250415T080000Z")
    stays(program, "UNTIL across three dates", calendar(DATES, event(WEEKLY + ";UNTIL=20260501T000000Z")))
    stays(program, "no end in a zone of dates", calendar(DATES, event(WEEKLY)))
    out = becomes(program, "a nominal day across a change", calendar(pair(), event("DURATION:P1D", start="20250329T120000")), "20250329T110000Z")
    cases.holds("its length", run(program, "expand", given=out).stdout, b"20250329T110000Z 20250329T110000Z 82800\n")
    stays(program, "a nominal day in a zone of dates", calendar(DATES, event("DURATION:P1D", start="20250405T120000")))


def one_offset(program):
    same = zone(part("STANDARD", "19000101T000000", "+0530", "+0530", "RDATE:19000101T000000"))
    becomes(program, "an RDATE equal to its DTSTART", calendar(same, event(WEEKLY)), "20250311T033000Z")


def spellings(program):
    odd = zone(*[part("STANDARD", "20000101T000000", "+0000", "+0100"), part("STANDARD", "20200101T000000", "+0100", "+0200")], name="A:B\\;C\\,D")
    becomes(program, "a name with : ; and ,", calendar(odd, event(WEEKLY, name='"A:B;C,D"')), "20250311T070000Z")
    whole = calendar(pair(), event(WEEKLY))
    folded = whole.replace(b"BYMONTH=3;", b"BYMO\r\n NTH=3;").replace(b"DTSTART;TZID=Z:2025", b"DTSTART;TZ\r\n ID=Z:20\r\n 25")
    becomes(program, "folded lines", folded, "20250311T080000Z", "20250318T080000Z")
    out = becomes(program, "lines ended by LF", calendar(pair(), event(WEEKLY), end="\n"), "20250311T080000Z")
    cases.holds("they stay so", b"\nBEGIN:VEVENT\nUID:u\n" in out, True)
    out = becomes(program, "lines ended by CRLF", whole, "20250311T080000Z")
    cases.holds("they stay too", b"\r\nBEGIN:VEVENT\r\nUID:u\r\n" in out, True)


def other_zones(program):
    stays(program, "no VEVENT", calendar(pair("2030")))
    stays(program, "a zone that a room reads", calendar(zone(part("STANDARD", "20000101T000000", "+0000", "+0100")), event(WEEKLY)))
    unused = "\r\n".join(pair("2030", name="Unused")).encode()
    out = becomes(program, "a VTIMEZONE that no time names", calendar(pair("2030", name="Unused"), pair(), event(WEEKLY)), "20250311T080000Z")
    cases.holds("it stays as it is", unused in out, True)
    becomes(program, "of two VTIMEZONEs of one name the first", calendar(two("20200101T000000"), pair(), event(WEEKLY)), "20250311T070000Z")
    stays(program, "of two VTIMEZONEs of one name the first isn't had", calendar(pair("2030"), pair(), event(WEEKLY)))


# ---- serve, keep and box behind the door

EXAMPLES = Path(__file__).parent.parent / "examples"
PREAMBLE = "now 20250102T000000Z\r\nroom mailto:{}\r\n\r\n"


def streams():
    """The examples, and all objects of real programs in one stream, for the room of each."""
    for file in sorted(EXAMPLES.glob("*.ics-stream")):
        yield file.name, file.read_bytes()
    objects = b"".join(file.read_bytes() + b"\r\n" for file in sorted(FOLDER.glob("*.ics")))
    for room in ("room1@example.com", "room1@rooms.example.net"):
        yield f"objects of real programs for {room}", PREAMBLE.format(room).encode() + objects


def room_of(stream):
    lines = stream.decode().splitlines()
    return next(line.split()[1] for line in lines if line.startswith("room "))


def behind_a_preamble(program):
    """An object is made readable behind a preamble too, whose lines stay as they are; so is one in lower case."""
    alone = (FOLDER / "gnome--03-weekly-endless.ics").read_bytes()
    readable, _ = adapted(program, alone)
    cases.holds("an object without a preamble changes", readable != alone, True)
    for end in ("\r\n", "\n"):
        preamble = PREAMBLE.format("room1@example.com").replace("\r\n", end).encode()
        cases.holds(f"behind a preamble with {end!r}", adapted(program, preamble + alone)[0], preamble + readable)
    lower = alone.replace(b"BEGIN:VCALENDAR", b"begin:vcalendar", 1)
    cases.holds("an object in lower case", adapted(program, lower)[0], readable.replace(b"BEGIN:VCALENDAR", b"begin:vcalendar", 1))


def octet_by_octet(program, words, octets):
    """What comes out where the octets come one at a time."""
    with tempfile.TemporaryFile() as file:
        child = subprocess.Popen([program, *words], stdin=subprocess.PIPE, stdout=file, bufsize=0)
        for octet in octets:
            child.stdin.write(bytes([octet]))
        child.stdin.close()
        child.wait()
        file.seek(0)
        return file.read()


def however_the_octets_come(program):
    """Of a stream comes out what comes out of its objects alone, with the empty lines and byte order marks before them, at once or octet by octet."""
    objects = [file.read_bytes() for file in sorted(FOLDER.glob("*.ics"))]
    mark = b"\xef\xbb\xbf"
    fronts = [b"", b"\n", b"\r\n", b"\n\r\n\n", mark, b"\r", b"\n" + mark, b"\n \n", mark + b"\r\n"]
    alone = [front + one for front in fronts for one in objects]
    wanted = b"".join(adapted(program, one)[0] for one in alone)
    cases.holds("a stream of all objects", adapted(program, b"".join(alone))[0], wanted)
    cases.holds("its objects octet by octet", octet_by_octet(program, ["adapt"], b"".join(alone)), wanted)
    cases.holds("some of them are made readable", wanted != b"".join(alone), True)
    for name, stream in streams():
        cases.holds(f"{name}: octet by octet", octet_by_octet(program, ["serve", "--adapt"], stream), run(program, "serve", "--adapt", given=stream).stdout)


def behind_the_door(program, folder, zones):
    """With --adapt each command answers what it answers behind the pipe; without it, what it answers alone."""
    for name, stream in streams():
        for words in ([], ["--zones", str(zones)]):
            readable = run(program, "adapt", *words, given=stream).stdout
            if "room " not in stream.decode().partition("BEGIN")[0]:
                continue
            served = run(program, "serve", given=readable)
            cases.holds(f"{name}: serve", run(program, "serve", "--adapt", *words, given=stream).stdout, served.stdout)
            room = room_of(stream)
            kept = run(program, "keep", room, given=readable)
            cases.holds(f"{name}: keep", run(program, "keep", "--adapt", *words, room, given=stream).stdout, kept.stdout)
            box = folder / "box"
            (box / "inbox").mkdir(parents=True, exist_ok=True)
            config, _, objects = stream.replace(b"\r\n", b"\n").partition(b"\n\n")
            now = next(line.split()[1] for line in config.decode().splitlines() if line.startswith("now "))
            (box / "config").write_bytes(b"".join(line + b"\n" for line in config.splitlines() if not line.startswith(b"now ")))
            (box / "inbox" / f"00000001-{now}.ics").write_bytes(objects)
            out = Path(tempfile.mkdtemp(dir=folder))
            run(program, "box", "--adapt", *words, str(box / "config"), str(box / "inbox"), str(out), given=b"")
            (box / "inbox" / f"00000001-{now}.ics").unlink()
            cases.holds(f"{name}: box", (out / f"00000001-{now}.out").read_bytes(), served.stdout)


# rules of other forms that ended: GNOME's of some Sundays, and libical's whole history
HISTORIES = ["door-days-sao-paulo-endless.ics", "door-days-moscow.ics"]


def histories(program, folder):
    """Weekly meetings in zones with such rules are booked behind the door, at the instants of zoneinfo, and alone they are refused."""
    room = "mailto:r1@example.com"
    for name in HISTORIES:
        octets = (CASES / name).read_bytes()
        stream = PREAMBLE.format("r1@example.com").encode() + octets
        cases.holds(f"{name}: serve alone", run(program, "serve", given=stream).stdout, b"REFUSED;OBJECT=1:40\r\n")
        reply = lines_of(run(program, "serve", "--adapt", given=stream).stdout)
        cases.holds(f"{name}: the reply", [line for line in reply if line.startswith("ATTENDEE")], [f"ATTENDEE;PARTSTAT=ACCEPTED:{room}"])
        kept = run(program, "keep", "--adapt", room, given=stream).stdout
        cases.holds(f"{name}: instances", instances(program, kept), wanted_starts(name, octets))
        calendar_file, certificate = folder / "kept.ics", folder / "kept.certificate"
        calendar_file.write_bytes(kept)
        certificate.write_bytes(run(program, "keep", "--adapt", "--certificate", room, given=stream).stdout)
        cases.holds(f"{name}: check", run(program, "check", str(calendar_file), str(certificate), room, given=b"").stdout, b"yes\n")


# ---- the way back

# series in a zone, to each of which a moved instance is added, and instances of their own
SERIES = ["cyrus-gnome--03-weekly-endless", "cyrus-ruby--04-weekly-until", "gnome--03-weekly-endless", "gnome-unclamped--03-weekly-endless",
          "kde--03-weekly-endless", "khal--03-weekly-endless", "libical--03-weekly-endless", "ruby--03-weekly-endless",
          "thunderbird-icaljs--03-weekly-endless", "vobject--03-weekly-endless"]
MOVED = ["cyrus-ruby--07b-instance-moved", "kde--07b-instance-moved"]
TWO_ROOMS = "now 20250102T000000Z\r\nroom mailto:room1@example.com\r\nroom mailto:room1@rooms.example.net\r\n\r\n".encode()
REFUSED_LINE = b"REFUSED;OBJECT=2:40\r\n"


def shifted(line, shift):
    """The line of a time that much later on its clock."""
    text = line.rpartition(":")[2]
    return line.removesuffix(text) + (dt.datetime.strptime(text, FORM) + shift).strftime(FORM)


def with_moved(octets, weeks=1):
    """A weekly series of which the instance after so many weeks is an hour later."""
    lines = lines_of(octets)
    moved = []
    for line in lines[lines.index("BEGIN:VEVENT"):lines.index("END:VEVENT") + 1]:
        if line.startswith("DTSTART"):
            moved.append("RECURRENCE-ID" + shifted(line, dt.timedelta(weeks=weeks)).removeprefix("DTSTART"))
        if line.startswith(("DTSTART", "DTEND")):
            line = shifted(line, dt.timedelta(weeks=weeks, hours=1))
        if not line.startswith("RRULE"):
            moved.append(line)
    return octets.replace(b"END:VCALENDAR", "\r\n".join([*moved, "END:VCALENDAR"]).encode())


def parts_of(lines, name):
    """The components of this name, each as its lines."""
    found, inside = [], False
    for line in lines:
        if line == f"BEGIN:{name}":
            found.append([])
            inside = True
        if inside:
            found[-1].append(line)
        inside = inside and line != f"END:{name}"
    return found


def zones_by_name(lines):
    return {next(line for line in part if line.startswith("TZID")).partition(":")[2]: part for part in parts_of(lines, "VTIMEZONE")}


def instant_of(line):
    """The instant that a line of a time names, by zoneinfo."""
    local, name = time_of(line)
    return local.replace(tzinfo=UTC if name == "UTC" else zoneinfo.ZoneInfo(NAMES.get(name, name))).astimezone(UTC)


def is_instance(line):
    return line.startswith(("RECURRENCE-ID:", "RECURRENCE-ID;"))


def told_lines(original, answer):
    """The lines of the VEVENTs of an answer, where each instance that the original names has the line that it has there."""
    own = {instant_of(line): line for line in lines_of(original) if is_instance(line)}
    return [[own.get(instant_of(line), line) if is_instance(line) else line for line in part] for part in parts_of(lines_of(answer), "VEVENT")]


def told(program, folder, octets, answer, *words):
    file = folder / "original.ics"
    file.write_bytes(octets)
    end = run(program, "adapt", "--reply-to", str(file), *words, given=answer)
    cases.holds(f"status of adapt --reply-to {words}", (end.returncode, end.stderr), (0, b""))
    return end.stdout


def in_its_words(name, original, wanted, out, zones):
    """What comes out has these VEVENTs, and the VTIMEZONEs of the original, or those of FILE, for the names in it."""
    lines = lines_of(out)
    cases.holds(f"{name}: VEVENTs", parts_of(lines, "VEVENT"), wanted)
    its, known = zones_by_name(lines), zones_by_name(lines_of(original))
    used = {time_of(line)[1] for part in wanted for line in part if "TZID=" in line}
    cases.holds(f"{name}: names of zones", set(its), used)
    for used_name, part in its.items():
        if used_name in known:
            cases.holds(f"{name}: VTIMEZONE {used_name}", part, known[used_name])
        else:
            cases.holds(f"{name}: the VTIMEZONE is from FILE", zones is not None, True)


def the_way_back(program, folder, zones):
    """Answers in the words of the objects of real programs."""
    refused = calendar(pair("2030"), event(WEEKLY))
    for name in SERIES + MOVED:
        alone = (FOLDER / f"{name}.ics").read_bytes()
        octets = alone if name in MOVED else with_moved(alone)
        words = ["--zones", str(zones)] if name.startswith("kde--07b") else []
        served = run(program, "serve", "--adapt", *words, given=TWO_ROOMS + octets + b"\r\n" + refused).stdout
        answer, _, behind = served.partition(b"REFUSED")
        cases.holds(f"{name}: the other object is refused", b"REFUSED" + behind, REFUSED_LINE)
        cases.holds(f"{name}: an instance is answered", any(map(is_instance, lines_of(answer))), True)
        wanted = told_lines(octets, answer)
        cases.holds(f"{name}: the answer itself names it otherwise", wanted != parts_of(lines_of(answer), "VEVENT"), True)
        out = told(program, folder, octets, served, *words)
        cases.holds(f"{name}: the REFUSED line", out[-len(REFUSED_LINE):], REFUSED_LINE)
        in_its_words(name, octets, wanted, out.removesuffix(REFUSED_LINE), zones if words else None)
        single = told(program, folder, octets, served, "--single", *words)
        cases.holds(f"{name} --single: the REFUSED line", single[-len(REFUSED_LINE):], REFUSED_LINE)
        in_its_words(f"{name} --single", octets, wanted, single, zones if words else None)
        each = parts_of(lines_of(single), "VCALENDAR")
        cases.holds(f"{name} --single: VEVENTs of an object", [part.count("BEGIN:VEVENT") for part in each], [1] * len(wanted))


def two_moved(program, folder):
    """Each instance that the original names has its line, the second too."""
    octets = calendar(pair(name="Europe/Berlin"), event(WEEKLY, name="Europe/Berlin"))
    moved = calendar(pair(name="Europe/Berlin"), event(WEEKLY, name="Europe/Berlin"))
    for weeks in (1, 2):
        part = parts_of(lines_of(with_moved(octets, weeks)), "VEVENT")[1]
        moved = moved.replace(b"END:VCALENDAR", "\r\n".join([*part, "END:VCALENDAR"]).encode())
    preamble = b"now 20250102T000000Z\r\nroom mailto:r1@example.com\r\n\r\n"
    answer = run(program, "serve", "--adapt", given=preamble + moved).stdout
    wanted = told_lines(moved, answer)
    cases.holds("two moved: lines", sum(map(is_instance, [line for part in wanted for line in part])), sum(map(is_instance, lines_of(answer))))
    cases.holds("two moved: both are named", {line for part in wanted for line in part if is_instance(line)}, {line for line in lines_of(moved) if is_instance(line)})
    in_its_words("two moved", moved, wanted, told(program, folder, moved, answer), None)


NEW_YORK = zone(
    part("DAYLIGHT", "20070311T020000", "-0500", "-0400", "RRULE:FREQ=YEARLY;BYMONTH=3;BYDAY=2SU"),
    part("STANDARD", "20071104T020000", "-0400", "-0500", "RRULE:FREQ=YEARLY;BYMONTH=11;BYDAY=1SU"), name="America/New_York")


def what_organisers_send(program, folder):
    """A stored meeting goes out with the zone that it names, and not with Z1."""
    preamble = b"now 20250102T000000Z\r\norganiser mailto:ann@example.com\r\n\r\n"
    for name, its_zone in (("Europe/Berlin", pair(name="Europe/Berlin")), ("America/New_York", NEW_YORK)):
        stored = with_moved(calendar(its_zone, event(WEEKLY, name=name)).replace(b"METHOD:REQUEST\r\n", b""))
        answer = run(program, "serve", "--adapt", given=preamble + stored).stdout
        cases.holds(f"a meeting in {name}: the zone of what is sent", set(zones_by_name(lines_of(answer))), {"Z1"})
        out, asked = lines_of(told(program, folder, stored, answer)), lines_of(stored)
        cases.holds(f"a meeting in {name}: VTIMEZONEs", zones_by_name(out), zones_by_name(asked))
        cases.holds(f"a meeting in {name}: instances", [line for line in out if is_instance(line)], [line for line in asked if is_instance(line)])
        starts = [[instant_of(line) for line in lines if line.startswith("DTSTART;TZID")] for lines in (out, asked)]
        cases.holds(f"a meeting in {name}: starts", *starts)


def words_that_do_not_go(program, folder):
    """--single without --reply-to, and --reply-to with --report, are usage faults; a file that isn't there is a device's."""
    file = folder / "original.ics"
    file.write_bytes(calendar(pair(), event()))
    for words, status in ((["--single"], 2), (["--reply-to", str(file), "--report"], 2), (["--reply-to"], 2), (["--reply-to", str(folder / "none")], 4),
                          (["--reply-to", str(file), "--zones", str(folder / "none")], 4)):
        cases.holds(f"adapt {' '.join(words)}", run(program, "adapt", *words, given=b"").returncode, status)


def what_stays(program, folder):
    """Lines that no object has, and what answers no instance of the original."""
    octets = calendar(pair(), event())
    other = b"BEGIN:VCALENDAR\r\nVERSION:2.0\r\nPRODID:x\r\nMETHOD:REPLY\r\nBEGIN:VEVENT\r\nUID:u\r\nRECURRENCE-ID:20250401T070000Z\r\nEND:VEVENT\r\nEND:VCALENDAR\r\n"
    unnamed = other.replace(b"BEGIN:VEVENT", ("\r\n".join([*parts_of(lines_of(octets), "VTIMEZONE")[0], "BEGIN:VEVENT"])).encode())
    for answer in (b"", b"\r\n", b"\n\r\n\n", unnamed, REFUSED_LINE * 2, b"REFUSED;OBJECT=1:40", other, b"\n" + other + b"\n" + other + REFUSED_LINE + other, other[:40], b"x"):
        for words in ([], ["--single"]):
            cases.holds(f"{answer[:20]!r} stays {words}", told(program, folder, octets, answer, *words), answer)


def what_answers_no_object(program, folder):
    """An original that is no object is refused by its number, before anything is written."""
    octets, file = calendar(pair(), event()), folder / "original.ics"
    for original, number in ((b"", 23), (b"x\r\n", 1), (octets[:octets.index(b"PRODID")], 21), (octets + octets, 23), (octets.replace(b"METHOD:REQUEST", b"METHOD"), 1)):
        file.write_bytes(original)
        for words in ([], ["--single"]):
            end = run(program, "adapt", "--reply-to", str(file), *words, given=octets)
            cases.holds(f"{original[:20]!r} is refused {words}", (end.returncode, end.stdout, end.stderr), (3, b"", b"roombox: refused %d\n" % number))


def main():
    program = of_arguments()
    with tempfile.TemporaryDirectory() as place:
        folder = Path(place)
        berlin = folder / "berlin.ics"
        berlin.write_bytes(calendar(pair(name="Europe/Berlin"), pair(name="America/New_York")))
        producers(program, berlin)
        where_tables_end(program)
        missing_zones(program, folder)
        first_used_time(program)
        times_that_end(program)
        one_offset(program)
        spellings(program)
        other_zones(program)
        behind_a_preamble(program)
        however_the_octets_come(program)
        behind_the_door(program, folder, berlin)
        histories(program, folder)
        the_way_back(program, folder, berlin)
        two_moved(program, folder)
        what_organisers_send(program, folder)
        words_that_do_not_go(program, folder)
        what_stays(program, folder)
        what_answers_no_object(program, folder)
    cases.end()


if __name__ == "__main__":
    main()
