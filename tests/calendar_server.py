"""Keeps the rooms of a calendar server: Cyrus IMAP, which knows users, their calendars, and scheduling (RFC 6638), but answers for no room.

    python3 tests/calendar_server.py bin/roombox

Ann and Bob store their meetings on the server by CalDAV. It puts an invitation into the Inbox of each room, which goes through `roombox serve --adapt`; the
answer is stored in the room's own copy of the meeting, and the server tells it to the organiser. What a room keeps is published to the server and read back by a
client (python3-caldav) and by the server itself, which expands series and says when the room is busy. The hours that they have to show are reckoned
by dateutil and zoneinfo from the meetings, and never taken from what came out.

The server has a folder, two ports and users of its own, and is stopped at the end. It wants root and Debian's packages cyrus-caldav, cyrus-imapd and
python3-caldav.
"""

import base64
import http.client
import imaplib
import os
import re
import socket
import subprocess
import tempfile
import time
from datetime import datetime, timedelta, timezone
from pathlib import Path
from zoneinfo import ZoneInfo

from dateutil.rrule import rrulestr

from lib.cases import Cases
from lib.program import ROOT, of_arguments

PROGRAM = of_arguments()
PYTHON = "/usr/bin/python3"
CYRUS = Path("/usr/lib/cyrus/bin")
NEEDED = {"cyrus-caldav": CYRUS / "httpd", "cyrus-imapd": CYRUS / "imapd", "python3-caldav": Path("/usr/lib/python3/dist-packages/caldav")}
R1, R2 = "r1@example.com", "r2@example.com"
ROOMS = {R1: "r1", R2: "r2"}
USERS = ["ann", "bob", "r1", "r2", "publisher-r1", "publisher-r2"]
PREAMBLE = f"now 20330101T000000Z\nroom mailto:{R1}\nroom mailto:{R2}\nzone mailto:{R2} +0100 +0200 10 -1SU 0300 3 -1SU 0200\n\n"
BERLIN, YORK = ZoneInfo("Europe/Berlin"), ZoneInfo("America/New_York")
# the name and the VTIMEZONE that GNOME gives New York, with rules that end in 2037: a room reads them behind the door alone
NAME = "/freeassociation.sourceforge.net/America/New_York"
GNOME = (ROOT / "tests" / "producers" / "gnome--03-weekly-endless.ics").read_text()
ZONE = GNOME[GNOME.index("BEGIN:VTIMEZONE"):GNOME.index("BEGIN:VEVENT")].splitlines()
FROM, UNTIL = datetime(2033, 1, 1, tzinfo=timezone.utc), datetime(2034, 1, 1, tzinfo=timezone.utc)

IMAPD = """configdirectory: {folder}/conf
proc_path: {folder}/run/proc
mboxname_lockpath: {folder}/run/lock
partition-default: {folder}/spool
defaultpartition: default
unixhierarchysep: yes
admins: cyrus
httpmodules: caldav
calendar_user_address_set: example.com
caldav_allowscheduling: on
allowplaintext: yes
sasl_pwcheck_method: alwaystrue
sasl_mech_list: PLAIN
"""
MASTER = """START {{
  recover cmd="{cyrus}/ctl_cyrusdb -r -C {folder}/imapd.conf"
}}
SERVICES {{
  imap cmd="{cyrus}/imapd -C {folder}/imapd.conf" listen="127.0.0.1:{imap}" prefork=0 maxchild=5
  http cmd="{cyrus}/httpd -C {folder}/imapd.conf" listen="127.0.0.1:{http}" prefork=0 maxchild=5
}}
EVENTS {{
}}
"""

# What the client python3-caldav shows of a calendar in 2033: starts and ends, and what each is called. `expand` lets the server say the instances.
CLIENT = """
import sys
from datetime import date, datetime, timezone
import caldav
import icalendar
user, url, expand = sys.argv[1:4]
calendar = caldav.Calendar(client=caldav.DAVClient(url, username=user, password="x"), url=url)
for found in calendar.date_search(start=datetime(2033, 1, 1, tzinfo=timezone.utc), end=datetime(2034, 1, 1, tzinfo=timezone.utc), expand=expand == "expand"):
    for event in icalendar.Calendar.from_ical(found.data).walk("VEVENT"):
        if str(event.get("STATUS", "")) == "CANCELLED":
            continue
        start = event["DTSTART"].dt
        end = event["DTEND"].dt if "DTEND" in event else start + event["DURATION"].dt
        shown = [it.astimezone(timezone.utc).strftime("%Y%m%dT%H%M%SZ") if isinstance(it, datetime) else it.strftime("%Y%m%d") for it in (start, end)]
        print(*shown, event.get("SUMMARY", event["UID"]))
"""


# ---- the server


def free_port():
    with socket.socket() as it:
        it.bind(("127.0.0.1", 0))
        return it.getsockname()[1]


class Server:
    """Cyrus in a folder of its own."""

    def __init__(self, folder):
        self.folder, self.imap, self.http = Path(folder), free_port(), free_port()
        for name in ("conf/db", "conf/log", "conf/msg", "conf/socket", "conf/proc", "conf/sync", "run", "spool"):
            (self.folder / name).mkdir(parents=True)
        (self.folder / "imapd.conf").write_text(IMAPD.format(folder=folder))
        (self.folder / "cyrus.conf").write_text(MASTER.format(folder=folder, cyrus=CYRUS, imap=self.imap, http=self.http))
        subprocess.run(["chown", "-R", "cyrus:mail", folder], check=True)
        words = ["cyrmaster", "-D", "-C", f"{folder}/imapd.conf", "-M", f"{folder}/cyrus.conf", "-p", f"{folder}/pid"]
        self.master = subprocess.Popen(words, stdin=subprocess.DEVNULL, stdout=subprocess.DEVNULL, stderr=subprocess.DEVNULL)
        self.name_users()

    def name_users(self):
        for _ in range(100):
            try:
                mailboxes = imaplib.IMAP4("127.0.0.1", self.imap)
                break
            except OSError:
                time.sleep(0.2)
        mailboxes.login("cyrus", "x")
        for user in [*USERS, "late"]:
            mailboxes.create(f"user/{user}")
        mailboxes.logout()
        # a user has calendars and an Inbox when it has come once: what is sent to it before is lost
        for user in USERS:
            self.listed(user, "Inbox")

    def asked(self, user, method, path, body="", **headers):
        """What the server answers: status, heads and text."""
        line = http.client.HTTPConnection("127.0.0.1", self.http, timeout=60)
        named = {"Authorization": "Basic " + base64.b64encode(f"{user}:x".encode()).decode(), **{name.replace("_", "-"): value for name, value in headers.items()}}
        line.request(method, path, body.encode(), named)
        answer = line.getresponse()
        found = answer.status, answer.headers, answer.read().decode()
        line.close()
        return found

    def listed(self, user, name):
        """The paths of the objects of a calendar."""
        wanted = '<D:propfind xmlns:D="DAV:"><D:prop><D:getetag/></D:prop></D:propfind>'
        _, _, text = self.asked(user, "PROPFIND", f"/dav/calendars/user/{user}/{name}/", wanted, Depth="1", Content_Type="text/xml")
        return sorted(re.findall(r"<D:href>([^<]*\.ics)</D:href>", text))

    def stop(self):
        self.master.terminate()
        self.master.wait(30)


def lines_of(text):
    return [line for line in re.sub(r"\r?\n[ \t]", "", text).replace("\r\n", "\n").split("\n") if line]


def text_of(lines):
    return "".join(line + "\r\n" for line in lines)


def events_of(lines):
    """The VEVENTs, each from its BEGIN to its END: the places of the two in the lines."""
    begins, ends = ([at for at, line in enumerate(lines) if line == f"{word}:VEVENT"] for word in ("BEGIN", "END"))
    return list(zip(begins, ends))


def slot_of(event):
    return next((line for line in event if line.startswith("RECURRENCE-ID")), None)


def partstat(line):
    return re.search(r"PARTSTAT=([A-Z-]+)", line)[1]


def renewed(line):
    """The line with the next SEQUENCE, or with the moment as DTSTAMP, if it is one of these."""
    if line.startswith("SEQUENCE:"):
        return f"SEQUENCE:{int(line[9:]) + 1}"
    return f"DTSTAMP:{stamp(datetime.now(timezone.utc))}" if line.startswith("DTSTAMP:") else line


# ---- the organisers


class Organiser:
    """Stores meetings as a calendar client does: each is an object of its own, which is read before it is changed."""

    def __init__(self, server, name):
        self.server, self.name = server, name

    def path(self, uid):
        return f"/dav/calendars/user/{self.name}/Default/{uid}.ics"

    def stores(self, uid, *times, rooms=(R1,)):
        people = [f"ORGANIZER:mailto:{self.name}@example.com", f"ATTENDEE;PARTSTAT=ACCEPTED:mailto:{self.name}@example.com"]
        people += [f"ATTENDEE;CUTYPE=ROOM;PARTSTAT=NEEDS-ACTION;RSVP=TRUE:mailto:{room}" for room in rooms]
        event = ["BEGIN:VEVENT", f"UID:{uid}", "SEQUENCE:1", f"DTSTAMP:{stamp(datetime.now(timezone.utc))}", f"SUMMARY:{uid}", *people, *times, "END:VEVENT"]
        zone = ZONE if any("TZID" in line for line in times) else []
        return self.put(uid, ["BEGIN:VCALENDAR", "VERSION:2.0", "PRODID:-//a client//EN", *zone, *event, "END:VCALENDAR"])

    def put(self, uid, lines):
        return self.server.asked(self.name, "PUT", self.path(uid), text_of(lines), Content_Type="text/calendar; charset=utf-8")[0]

    def stored(self, uid):
        return lines_of(self.server.asked(self.name, "GET", self.path(uid))[2])

    def changes(self, uid, change):
        """Stores the meeting anew with a new revision, each of its lines changed, or left out if nothing comes of it."""
        return self.put(uid, [new for line in map(renewed, self.stored(uid)) if (new := change(line))])

    def moves(self, uid, slot, *times):
        """One instance of a series gets other times; who is asked to come stays."""
        lines = self.stored(uid)
        begin, end = events_of(lines)[0]
        people = [line for line in lines[begin:end] if re.match("UID|SUMMARY|ORGANIZER|ATTENDEE", line)]
        lines[end + 1:end + 1] = ["BEGIN:VEVENT", "SEQUENCE:1", f"DTSTAMP:{stamp(datetime.now(timezone.utc))}", slot, *people, *times, "END:VEVENT"]
        return self.put(uid, [*lines[:end + 1], *map(renewed, lines[end + 1:])])

    def removes(self, uid):
        return self.server.asked(self.name, "DELETE", self.path(uid))[0]

    def sees(self, uid, room=R1, slot=None):
        """The answer of a room that the organiser sees."""
        lines = self.stored(uid)
        for begin, end in events_of(lines):
            if slot_of(lines[begin:end]) == slot:
                return partstat(next(line for line in lines[begin:end] if line.startswith("ATTENDEE") and line.lower().endswith(f":mailto:{room}")))


# ---- the rooms


class Rooms:
    """Brings what is in the Inboxes of the rooms to roombox, and its answers back; docs/GUIDE.md says how a log is kept."""

    def __init__(self, server):
        self.server, self.log, self.replies = server, "", ""
        self.taken, self.clashes = [], {}

    def run(self, *words, given):
        ended = subprocess.run([PROGRAM, *words], input=given.encode(), capture_output=True, timeout=300)
        return ended.returncode, ended.stdout.decode()

    def answer(self):
        """Takes all that is in the Inboxes."""
        for address, user in ROOMS.items():
            for path in self.server.listed(user, "Inbox"):
                text = self.server.asked(user, "GET", path)[2]
                self.server.asked(user, "DELETE", path)
                self.take(text)

    def take(self, text):
        method = re.search("METHOD:([A-Z]+)", text)[1]
        self.log += text + "\r\n"
        status, replies = self.run("serve", "--adapt", given=PREAMBLE + self.log)
        before, self.replies = self.replies, replies
        new = replies[len(before):]
        self.taken.append((method, status, replies.startswith(before), "REFUSED" in new))
        if method == "REQUEST":
            with tempfile.NamedTemporaryFile("w", newline="", suffix=".ics") as original:
                original.write(text)
                original.flush()
                self.bring_back(lines_of(self.run("adapt", "--reply-to", original.name, given=new)[1]))

    def bring_back(self, lines):
        """Stores each answer in the room's own copy of the meeting, in the VEVENT that it is of."""
        for begin, end in events_of(lines):
            event = lines[begin:end]
            uid = next(line for line in event if line.startswith("UID:"))
            attendee = next(line for line in event if line.startswith("ATTENDEE"))
            address = attendee.rsplit("mailto:", 1)[1].lower()
            self.clashes.update({uid[4:]: line for line in event if line.startswith("REQUEST-STATUS:4.1")})
            self.mark(ROOMS[address], address, uid, slot_of(event), partstat(attendee))

    def mark(self, user, address, uid, slot, word):
        for path in self.server.listed(user, "Default"):
            lines = lines_of(self.server.asked(user, "GET", path)[2])
            if uid not in lines:
                continue
            for begin, end in events_of(lines):
                if slot_of(lines[begin:end]) == slot:
                    lines[begin:end] = [re.sub("PARTSTAT=[A-Z-]+", f"PARTSTAT={word}", line) if line.startswith("ATTENDEE") and line.lower().endswith(f"mailto:{address}") else line for line in lines[begin:end]]
            status = self.server.asked(user, "PUT", path, text_of(lines), Content_Type="text/calendar; charset=utf-8")[0]
            if status not in (201, 204):
                raise RuntimeError(f"{path}: {status}")

    def kept(self, room):
        return self.run("keep", "--adapt", f"mailto:{room}", given=PREAMBLE + self.log)[1]

    def checked(self, room):
        with tempfile.TemporaryDirectory() as folder:
            calendar, certificate = Path(folder, "kept.ics"), Path(folder, "kept.cert")
            calendar.write_text(self.kept(room), newline="")
            certificate.write_text(self.run("keep", "--certificate", "--adapt", f"mailto:{room}", given=PREAMBLE + self.log)[1], newline="")
            return self.run("check", str(calendar), str(certificate), f"mailto:{room}", given="")

    def agenda(self, room):
        with tempfile.TemporaryDirectory() as folder:
            calendar = Path(folder, "kept.ics")
            calendar.write_text(self.kept(room), newline="")
            return self.run("agenda", str(calendar), f"mailto:{room}", "--from", stamp(FROM), "--until", stamp(UNTIL), "--ics", given="")[1]


# ---- a day of meetings


def stamp(at):
    return at.astimezone(timezone.utc).strftime("%Y%m%dT%H%M%SZ")


def utc(start, minutes=60):
    """The lines of a meeting in UTC."""
    begin = datetime.strptime(start, "%Y%m%dT%H%M")
    return [f"DTSTART:{begin:%Y%m%dT%H%M%S}Z", f"DTEND:{begin + timedelta(minutes=minutes):%Y%m%dT%H%M%S}Z"]


def asked(cases, server, rooms):
    """What Ann and Bob store, and what they see afterwards."""
    ann, bob = Organiser(server, "ann"), Organiser(server, "bob")

    def sees(what, organiser, uid, wanted, room=R1, slot=None):
        rooms.answer()
        cases.holds(what, organiser.sees(uid, room, slot), wanted)

    cases.holds("the server takes a meeting", ann.stores("plan", *utc("20330308T1400")), 201)
    cases.holds("before an answer", ann.sees("plan"), "NEEDS-ACTION")
    sees("a free hour", ann, "plan", "ACCEPTED")
    bob.stores("review", *utc("20330308T1430"))
    sees("a clash", bob, "review", "DECLINED")
    cases.holds("the clash that is named", rooms.clashes.get("review", "").split(";")[2:], ["20330308T143000Z 20330308T140000Z mailto:ann@example.com plan 20330308T143000Z mailto:bob@example.com review"])
    # nine o'clock in New York each Monday: 14:00 UTC, and 13:00 from 14 March on
    ann.stores("standup", f"DTSTART;TZID={NAME}:20330228T090000", f"DTEND;TZID={NAME}:20330228T100000", "RRULE:FREQ=WEEKLY")
    sees("a series without an end", ann, "standup", "ACCEPTED")
    bob.stores("before", *utc("20330307T1400"))
    sees("its hour before the change of clocks", bob, "before", "DECLINED")
    bob.stores("after", *utc("20330314T1400"))
    sees("the same hour after the change", bob, "after", "ACCEPTED")
    bob.stores("summer", *utc("20330321T1330", 30))
    sees("its hour after the change", bob, "summer", "DECLINED")
    slot = f"RECURRENCE-ID;TZID={NAME}:20330321T090000"
    ann.moves("standup", slot, f"DTSTART;TZID={NAME}:20330322T110000", f"DTEND;TZID={NAME}:20330322T120000")
    sees("an instance that is moved", ann, "standup", "ACCEPTED", slot=slot)
    cases.holds("and the series itself", ann.sees("standup"), "ACCEPTED")
    bob.changes("summer", lambda line: line.replace("T140000Z", "T134500Z"))
    sees("the hour that became free", bob, "summer", "ACCEPTED")
    bob.stores("late", *utc("20330322T1530"))
    sees("where it was moved to", bob, "late", "DECLINED")
    bob.stores("monthly", "DTSTART:20330401T160000Z", "DURATION:PT90M", "RRULE:FREQ=MONTHLY;BYDAY=1FR;COUNT=6", "EXDATE:20330603T160000Z", "RDATE:20330610T160000Z")
    sees("first Fridays, one of them a week later", bob, "monthly", "ACCEPTED")
    ann.stores("june", *utc("20330603T1600"))
    sees("the Friday that was left out", ann, "june", "ACCEPTED")
    ann.stores("instead", *utc("20330610T1700"))
    sees("and the one in its place", ann, "instead", "DECLINED")
    bob.stores("offsite", "DTSTART;VALUE=DATE:20330501", "DTEND;VALUE=DATE:20330502", rooms=(R2,))
    sees("a whole day in Berlin", bob, "offsite", "ACCEPTED", R2)
    ann.stores("night", *utc("20330430T2130"), rooms=(R2,))
    sees("its first half hour", ann, "night", "DECLINED", R2)
    ann.stores("evening", *utc("20330430T2100"), rooms=(R2,))
    sees("the hour before it", ann, "evening", "ACCEPTED", R2)
    ann.stores("all", *utc("20330502T0800"), rooms=(R1, R2))
    sees("two rooms, the first", ann, "all", "ACCEPTED", R1)
    cases.holds("two rooms, the second", ann.sees("all", R2), "ACCEPTED")
    bob.stores("same", *utc("20330502T0830"), rooms=(R1, R2))
    sees("a clash in two rooms, the first", bob, "same", "DECLINED", R1)
    cases.holds("a clash in two rooms, the second", bob.sees("same", R2), "DECLINED")
    cases.holds("a meeting is removed", ann.removes("plan"), 204)
    rooms.answer()
    bob.changes("review", lambda line: line.replace("T143000Z", "T143500Z"))
    sees("its hour is free", bob, "review", "ACCEPTED")
    ann.changes("all", lambda line: "" if line.lower().endswith(R2) else line)
    rooms.answer()
    bob.stores("instead-of-all", *utc("20330502T0800"), rooms=(R2,))
    sees("a room that isn't asked any more is free", bob, "instead-of-all", "ACCEPTED", R2)
    ann.changes("all", lambda line: line.replace("20330502", "20330503"))
    sees("a meeting that is moved", ann, "all", "ACCEPTED")
    bob.changes("same", lambda line: "" if line.lower().endswith(R2) else line.replace("T093000Z", "T091500Z"))
    sees("its old hour is free", bob, "same", "ACCEPTED")
    ann.stores("lost", *utc("20330601T0800"), rooms=("late@example.com",))
    cases.holds("a user who hasn't come yet gets nothing", ([line for line in ann.stored("lost") if "late@" in line and "SCHEDULE-STATUS=1.1" in line] != [], server.listed("late", "Inbox")), (True, []))
    kinds = [method for method, *_ in rooms.taken]
    cases.holds("each is read", {tuple(rest) for _, *rest in rooms.taken}, {(0, True, False)})
    cases.holds("the server sent REQUEST and CANCEL", set(kinds), {"REQUEST", "CANCEL"})
    return kinds


def wanted():
    """The hours of 2033 in each room, by dateutil and zoneinfo."""
    one = lambda start, minutes=60: (at := datetime.strptime(start, "%Y%m%dT%H%M").replace(tzinfo=timezone.utc), at + timedelta(minutes=minutes))
    mondays = [at.replace(tzinfo=YORK) for at in rrulestr("FREQ=WEEKLY;UNTIL=20340101T000000", dtstart=datetime(2033, 2, 28, 9))]
    standup = [at if (at.month, at.day) != (3, 21) else datetime(2033, 3, 22, 11, tzinfo=YORK) for at in mondays]
    fridays = [at.replace(tzinfo=timezone.utc) for at in rrulestr("FREQ=MONTHLY;BYDAY=1FR;COUNT=6", dtstart=datetime(2033, 4, 1, 16))]
    monthly = [at if (at.month, at.day) != (6, 3) else at + timedelta(days=7) for at in fridays]
    first = [one("20330308T1435", 55), one("20330314T1400"), one("20330321T1330", 15), one("20330603T1600"), one("20330503T0800"), one("20330502T0830", 45)]
    first += [(at.astimezone(timezone.utc), at.astimezone(timezone.utc) + timedelta(hours=1)) for at in standup]
    first += [(at, at + timedelta(minutes=90)) for at in monthly]
    day = datetime(2033, 5, 1, tzinfo=BERLIN), datetime(2033, 5, 2, tzinfo=BERLIN)
    return {R1: sorted(first), R2: sorted([tuple(at.astimezone(timezone.utc) for at in day), one("20330430T2100"), one("20330502T0800")])}


# ---- what is published


def published(server, user, name, objects):
    """Makes a calendar of the user on the server, and puts the objects there: the statuses."""
    calendar = f"/dav/calendars/user/{user}/{name}"
    statuses = [server.asked(user, "MKCALENDAR", f"{calendar}/")[0]]
    return statuses + [server.asked(user, "PUT", f"{calendar}/{number}.ics", text, Content_Type="text/calendar; charset=utf-8")[0] for number, text in enumerate(objects)]


def parted(text):
    """An object for each UID, with the VTIMEZONEs that it names, as RFC 4791 4.1 wants it."""
    lines = lines_of(text)
    zones = re.findall(r"BEGIN:VTIMEZONE\n(?:.*\n)*?END:VTIMEZONE\n", "".join(line + "\n" for line in lines))
    by_uid = {}
    for begin, end in events_of(lines):
        event = lines[begin:end + 1]
        by_uid.setdefault(next(line for line in event if line.startswith("UID")), []).extend(event)
    for events in by_uid.values():
        named = [line for zone in zones if f"TZID={re.search('TZID:(.*)', zone)[1]}:" in "\n".join(events) for line in zone.split("\n") if line]
        yield text_of(["BEGIN:VCALENDAR", "VERSION:2.0", "PRODID:-//a publisher//EN", *named, *events, "END:VCALENDAR"])


def read_back(server, user, name, how):
    """What the client shows: starts and ends; of a whole day, which has no zone, those in Berlin."""
    ended = subprocess.run([PYTHON, "-c", CLIENT, user, f"http://127.0.0.1:{server.http}/dav/calendars/user/{user}/{name}/", how], capture_output=True, text=True, timeout=300)
    if ended.returncode:
        return ended.stderr[-600:]
    day = lambda text: datetime.strptime(text, "%Y%m%d").replace(tzinfo=BERLIN).astimezone(timezone.utc)
    return sorted({tuple(moment(word) if "T" in word else day(word) for word in line.split(" ")[:2]) for line in ended.stdout.splitlines()})


def moment(text):
    return datetime.strptime(text, "%Y%m%dT%H%M%SZ").replace(tzinfo=timezone.utc)


def busy(server, user, name):
    """When the server says that the calendar is busy."""
    query = f'<C:free-busy-query xmlns:C="urn:ietf:params:xml:ns:caldav"><C:time-range start="{stamp(FROM)}" end="{stamp(UNTIL)}"/></C:free-busy-query>'
    text = server.asked(user, "REPORT", f"/dav/calendars/user/{user}/{name}/", query, Depth="1", Content_Type="text/xml")[2]
    found = []
    for span in re.findall(r"(\w+Z)/(\w+)", "\n".join(line for line in lines_of(text) if line.startswith("FREEBUSY"))):
        begin = moment(span[0])
        found.append((begin, begin + lasting(span[1]) if span[1].startswith("P") else moment(span[1])))
    return merged(found)


def lasting(text):
    days, hours, minutes, rest = (int(it or 0) for it in re.fullmatch(r"P(?:(\d+)D)?(?:T(?:(\d+)H)?(?:(\d+)M)?(?:(\d+)S)?)?", text).groups())
    return timedelta(days=days, hours=hours, minutes=minutes, seconds=rest)


def merged(spans):
    """The spans without what they share, and those that touch as one."""
    found = []
    for begin, end in sorted(spans):
        if found and begin <= found[-1][1]:
            found[-1] = found[-1][0], max(found[-1][1], end)
        else:
            found.append((begin, end))
    return found


def shown(cases, server, rooms):
    """The published hours of each room are those that dateutil reckons."""
    for room, hours in wanted().items():
        name = ROOMS[room]
        # one meeting in two rooms has one UID in both, which Cyrus takes once of a user
        user = f"publisher-{name}"
        cases.holds(f"{name}: the checker", rooms.checked(room), (0, "yes\n"))
        for what, text in (("agenda", rooms.agenda(room)), ("kept", rooms.kept(room))):
            cases.holds(f"{name}: the server takes what is {what}", set(published(server, user, what, parted(text))), {201})
            cases.holds(f"{name}: the client reads what is {what}", read_back(server, user, what, "expand" if what == "kept" else "as it is"), hours)
            # a kept whole day has no zone, and the server takes it for one of UTC
            if what == "agenda" or "VALUE=DATE" not in text:
                cases.holds(f"{name}: when the server is busy by what is {what}", busy(server, user, what), merged(hours))
    return sum(map(len, wanted().values()))


def main():
    cases = Cases()
    missing = [name for name, path in NEEDED.items() if not path.exists()] + ([] if os.geteuid() == 0 else ["root"])
    if missing:
        cases.lacks("the rooms of a server", " and ".join(missing))
        cases.end()
    with tempfile.TemporaryDirectory() as folder:
        os.chmod(folder, 0o755)
        server = Server(str(Path(folder, "cyrus")))
        try:
            rooms = Rooms(server)
            kinds = asked(cases, server, rooms)
            hours = shown(cases, server, rooms)
        finally:
            server.stop()
    print(f"{len(kinds)} messages of Cyrus, {kinds.count('CANCEL')} of them CANCEL, and {hours} instances read back")
    cases.end()


if __name__ == "__main__":
    main()
