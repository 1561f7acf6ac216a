"""Writes invitations with mail programs, and reads with mail programs what comes back: mutt, s-nail and mblaze, each at each end of the way by examples/mail.

    python3 tests/mail_programs.py bin/roombox

Each program gets an object as a file to attach and makes a mail of it in its own way: without the parameter `method`, in the encoding and charset that it chooses. Each then opens
the mail with the answer, shows what is in it for people, and saves its calendar part. An organiser of the box invites by mail too, and the answer that a
person writes with such a program comes back. What is expected was written by hand, from RFC 5546 and docs/GUIDE.md.

mutt and s-nail, which speak to a terminal, get one. They are Debian's packages mutt, s-nail and mblaze.
"""

import os
import pty
import re
import select
import shutil
import subprocess
import tempfile
import time
from pathlib import Path

from lib.cases import Cases
from lib.program import MEMORY
from lib.streams import folded
from lib.zones import vtimezone
from mail import ANN, PROGRAM, ROOM, Post, calendar_of, reply

WORDS = {**os.environ, "LC_ALL": "C.UTF-8", "TERM": "xterm", "LINES": "40", "COLUMNS": "100"}
FOOTER = "This was written by the program that keeps the rooms. It reads invitations and nothing else."
LONG = "Büro für Räume, zweiter Stock, hinten links, neben der Treppe, die zum Keller führt"


# ---- objects


def object_of(method, uid, start, *lines, end="\r\n", organiser=ANN, room=ROOM, zone=()):
    event = ["BEGIN:VEVENT", f"UID:{uid}", "DTSTAMP:20250101T000000Z", f"ORGANIZER;CN=Ann Example:mailto:{organiser}", f'ATTENDEE;CUTYPE=ROOM;RSVP=TRUE;CN="{LONG}":mailto:{room}', start, *lines, "END:VEVENT"]
    named = ["BEGIN:VCALENDAR", "PRODID:-//a person//EN", "VERSION:2.0", f"METHOD:{method}", *zone, *event, "END:VCALENDAR"]
    return folded(named).decode().replace("\r\n", end)


BERLIN = vtimezone("Europe/Berlin")


# ---- terminals


def at_terminal(words, keys, folder):
    """Runs a program at a terminal, and types the next of the keys whenever it has said nothing for a while; what it said."""
    process, terminal = pty.fork()
    if process == 0:
        os.chdir(folder)
        os.execvpe(words[0], words, {**WORDS, "HOME": str(folder)})
    said, keys, latest = b"", list(keys), time.monotonic() + 60
    while time.monotonic() < latest:
        ready, _, _ = select.select([terminal], [], [], 0.7)
        if ready:
            try:
                octets = os.read(terminal, 65536)
            except OSError:
                break
            if not octets:
                break
            said += octets
        elif keys:
            os.write(terminal, keys.pop(0).encode())
    else:
        os.kill(process, 9)
    os.waitpid(process, 0)
    os.close(terminal)
    return said.decode(errors="replace")


# ---- mail programs


class Program:
    """A mail program of one person, with a folder of its own; sendmail leaves its mails where the box takes them."""

    def __init__(self, parent, post, sender=ANN):
        self.folder = Path(tempfile.mkdtemp(dir=parent))
        self.sender, self.sendmail = sender, self.folder / "sendmail"
        # as a mail server delivers it
        self.sendmail.write_text(f"""#!/bin/sh
name=$(date +%s).M$(date +%N | cut -c1-6)P$$.office
{{ echo "Return-Path: <{sender}>"; cat; }} > "{post.arriving}/tmp/$name" && mv "{post.arriving}/tmp/$name" "{post.arriving}/new/"
""")
        self.sendmail.chmod(0o755)
        self.set_up()

    def set_up(self):
        pass

    def run(self, words, given=""):
        ended = subprocess.run(words, input=given.encode(), capture_output=True, cwd=self.folder, env={**WORDS, "HOME": str(self.folder)}, timeout=120)
        if ended.returncode:
            raise RuntimeError(f"{words}: {ended.returncode}, {ended.stderr.decode()[-300:]}")
        return ended.stdout.decode()

    def attached(self, text):
        path = self.folder / "invite.ics"
        path.write_text(text, newline="")
        return path

    def maildir_with(self, mail):
        """A maildir that holds this mail alone."""
        maildir = Path(tempfile.mkdtemp(dir=self.folder))
        for name in ("tmp", "new", "cur"):
            (maildir / name).mkdir()
        shutil.copy(mail, maildir / "new" / "1741000000.M1P1.office")
        return maildir


class Mutt(Program):
    def set_up(self):
        shown = self.folder / "show"
        shown.write_text(f'#!/bin/sh\ncat > "{self.folder}/shown"\n')
        shown.chmod(0o755)
        (self.folder / "muttrc").write_text(f"""set sendmail="{self.sendmail}" from="{self.sender}" realname="Ann Example" charset=utf-8 send_charset="us-ascii:utf-8" mbox_type=Maildir
set folder="{self.folder}" copy=no quit=yes print=yes print_decode=yes print_command="{shown}" mailcap_path=/dev/null
unset wait_key mark_old confirmappend
alternative_order text/plain
""")

    def sends(self, to, subject, text):
        self.run(["mutt", "-n", "-F", "muttrc", "-s", subject, "-a", str(self.attached(text)), "--", to], "Please see the invitation.\n")

    def opens(self, mail, keys):
        at_terminal(["mutt", "-n", "-R", "-F", "muttrc", "-f", str(self.maildir_with(mail)), "-e", f'push "{keys}"'], ["q", "q", "q"], self.folder)

    def shows(self, mail):
        (self.folder / "shown").unlink(missing_ok=True)
        self.opens(mail, "<print-message><quit>")
        return (self.folder / "shown").read_text()

    def saves(self, mail):
        (self.folder / "saved").unlink(missing_ok=True)
        self.opens(mail, f"<view-attachments><last-entry><save-entry><kill-line>{self.folder}/saved<enter><exit><quit>")
        return (self.folder / "saved").read_text()


class SNail(Program):
    SET = ["-:/", "-S", "v15-compat", "-S", "ttycharset=utf-8"]

    def sends(self, to, subject, text):
        self.run(["s-nail", *self.SET, "-S", f"mta={self.sendmail}", "-S", f"from=Ann Example <{self.sender}>", "-s", subject, "-a", str(self.attached(text)), to], "Please see the invitation.\n")

    def shows(self, mail):
        return self.run(["s-nail", *self.SET, "-R", "-#", "-f", str(self.maildir_with(mail))], "type 1\nexit\n")

    def saves(self, mail):
        saved = self.folder / "saved"
        saved.unlink(missing_ok=True)
        # it asks for a name of each part
        at_terminal(["s-nail", *self.SET, "-S", "line-editor-disable", "-R", "-f", str(self.maildir_with(mail))], ["write 1\n", "\n", f"{saved}\n", "exit\n", "exit\n"], self.folder)
        return saved.read_text()


class MBlaze(Program):
    def set_up(self):
        (self.folder / ".mblaze").mkdir()
        (self.folder / ".mblaze" / "profile").write_text("FQDN: office.example.com\n")

    def sends(self, to, subject, text):
        date, own = (self.run([word]).strip() for word in ("mdate", "mgenmid"))
        head = f"From: Ann Example <{self.sender}>\nTo: {to}\nSubject: {subject}\nDate: {date}\nMessage-Id: {own}\n"
        self.run([str(self.sendmail)], self.run(["mmime"], f"{head}\nPlease see the invitation.\n\n#text/calendar {self.attached(text)}\n"))

    def shows(self, mail):
        return self.run(["mshow", str(mail)])

    def saves(self, mail):
        number = re.search(r"(\d+): text/calendar", self.run(["mshow", "-t", str(mail)]))[1]
        return self.run(["mshow", "-O", str(mail), number])


PROGRAMS = {"mutt": Mutt, "s-nail": SNail, "mblaze": MBlaze}
TOOL = {"mutt": "mutt", "s-nail": "s-nail", "mblaze": "mmime"}


# ---- the way


def left(post):
    """The paths of the mails that left, in the order of the answers."""
    return sorted((post.leaving / "new").iterdir(), key=lambda path: path.name.split(".", 1)[1])


def lines_of(text):
    return text.replace("\r\n", "\n").replace("\n ", "").split("\n")


def without_stamp(lines):
    return [line for line in lines if not line.startswith("DTSTAMP")]


def answers(uid, word, status, sequence=0):
    return without_stamp(reply(uid, ANN, word, status, "", sequence))


def invitations():
    """Of each invitation its name, the object, and what the room says to it: of each VEVENT of the answer the word, and a sentence."""
    lf = object_of("REQUEST", "b", "DTSTART:20250310T110000Z", "DURATION:PT1H", end="\n")
    zoned = object_of("REQUEST", "c", "DTSTART;TZID=Europe/Berlin:20250311T090000", "DTEND;TZID=Europe/Berlin:20250311T100000", "RRULE:FREQ=WEEKLY", "SUMMARY:Grüße", zone=BERLIN)
    day = object_of("REQUEST", "d", "DTSTART;VALUE=DATE:20250313", "SUMMARY:" + "ä" * 200)
    booked = f"{ROOM} is booked for your meeting."
    return [
        ("a meeting", object_of("REQUEST", "a", "DTSTART:20250310T090000Z", "DURATION:PT1H", "SUMMARY:Entwurf prüfen"), "a", "ACCEPTED", "2.0;Success", booked),
        ("lines that end with LF", lf, "b", "ACCEPTED", "2.0;Success", booked),
        ("a series in a zone", zoned, "c", "ACCEPTED", "2.0;Success", booked),
        ("a whole day, and a long line", day, "d", "ACCEPTED", "2.0;Success", booked),
        ("a clash", object_of("REQUEST", "e", "DTSTART:20250310T093000Z", "DURATION:PT1H"), "e", "DECLINED",
         "4.1;Event conflict.  Date-time is busy.;20250310T093000Z 20250310T090000Z mailto:ann@example.com a 20250310T093000Z mailto:ann@example.com e",
         f"{ROOM} is not booked for your meeting: two meetings would be in it on Monday, 10 March 2025, 09:30 UTC"),
    ]


def each_with_each(cases, parent, programs):
    """Each invitation is written with one program, and its answer read with each."""
    for writer in programs:
        post = Post(parent)
        person = PROGRAMS[writer](parent, post)
        readers = {name: PROGRAMS[name](parent, post) for name in programs}
        for number, (what, text, uid, word, status, sentence) in enumerate(invitations()):
            person.sends(ROOM, f"Meeting {number}: {what}", text)
            cases.holds(f"{writer} sends {what}", (post.run(), post.left(), len(post.objects())), ([0, 0, 0], 0, number + 1))
            cases.holds(f"{writer}: the object of {what}", lines_of(post.objects()[-1].decode().rstrip()), lines_of(text.rstrip()))
            mails = left(post)
            cases.holds(f"{writer}: a mail for {what}", len(mails), number + 1)
            method, lines = calendar_of(post.sent()[-1])
            cases.holds(f"{writer}: the answer to {what}", (method, without_stamp(lines)), ("REPLY", answers(uid, word, status)))
            for name, reader in readers.items():
                shown, saved = reader.shows(mails[-1]), reader.saves(mails[-1])
                shown = re.sub(r"\s*\n", " ", shown)
                cases.holds(f"{name} shows the answer to {what} of {writer}", [words in shown for words in (sentence, FOOTER, f"Meeting {number}: {what}")], [True] * 3)
                cases.holds(f"{name} saves the answer to {what} of {writer}", without_stamp(lines_of(saved)), answers(uid, word, status))
        person.sends(ROOM, "Called off", object_of("CANCEL", "a", "DTSTART:20250310T090000Z", "SEQUENCE:1"))
        cases.holds(f"{writer} calls a meeting off", (post.run(), len(left(post))), ([0, 0, 0], len(invitations())))
        again = object_of("REQUEST", "e", "DTSTART:20250310T093000Z", "DURATION:PT1H", "SEQUENCE:1")
        person.sends(ROOM, "Again", again)
        cases.holds(f"{writer} asks again", (post.run(), without_stamp(calendar_of(post.sent()[-1])[1])), ([0, 0, 0], answers("e", "ACCEPTED", "2.0;Success", 1)))


def told(cases, parent, programs):
    """What can't be read, and what names no room, is told to the one who wrote it; each program shows it."""
    for writer in programs:
        post = Post(parent)
        person = PROGRAMS[writer](parent, post)
        person.sends(ROOM, "A zone that isn't there", object_of("REQUEST", "z", "DTSTART;TZID=Nowhere:20250310T090000"))
        person.sends("room9@example.com", "Another room", object_of("REQUEST", "y", "DTSTART:20250310T090000Z", room="room9@example.com"))
        cases.holds(f"{writer} sends two faults", post.run(), [0, 0, 0])
        mails = {re.search("^Subject: (.*)$", path.read_text(), re.MULTILINE)[1]: path for path in left(post)}
        cases.holds(f"{writer} hears of both", sorted(mails), ["Not booked: A zone that isn't there", "Not booked: Another room"])
        for name in programs:
            reader = PROGRAMS[name](parent, post)
            for subject, words in (("Not booked: A zone that isn't there", "no VTIMEZONE has the name that TZID gives"), ("Not booked: Another room", "It names room9@example.com.")):
                if subject in mails:
                    shown = reader.shows(mails[subject])
                    cases.holds(f"{name} shows {subject!r} of {writer}", words in re.sub(r"\s*\n", " ", shown), True)


def tentative(lines, person):
    """The REPLY of a person who may come, made of the lines of the invitation."""
    mine = [line for line in lines if line and not line.startswith(("ATTENDEE", "SUMMARY"))]
    place = mine.index("END:VEVENT")
    answered = [*mine[:place], f"ATTENDEE;PARTSTAT=TENTATIVE:mailto:{person}", *mine[place:]]
    return "".join(line + "\r\n" for line in answered).replace("METHOD:REQUEST", "METHOD:REPLY")


def organisers(cases, parent, programs):
    """An organiser of the box invites Bob by mail; he reads it with a program and answers with it, and the box has his answer."""
    for name in programs:
        post = Post(parent, f"room mailto:{ROOM}\norganiser mailto:{ANN}\n")
        stored = object_of("REQUEST", "s", "DTSTART:20250401T090000Z", "DURATION:PT1H", "SUMMARY:Grüße\\, und mehr", "ATTENDEE:mailto:bob@example.com").replace("METHOD:REQUEST\r\n", "")
        (post.box / "inbox" / "00000001-20250102T000000Z.ics").write_text(stored, newline="")
        cases.holds(f"{name}: a store", post.run(), [0, 0, 0])
        bob = PROGRAMS[name](parent, post, "bob@example.com")
        shown, saved = bob.shows(left(post)[0]), bob.saves(left(post)[0])
        said = ("ann@example.com invites you.", "Grüße, und mehr: Tuesday, 1 April 2025, 09:00 UTC", "Invitation: Grüße, und mehr")
        cases.holds(f"{name} shows the invitation", [words in shown for words in said], [True] * 3)
        lines = lines_of(saved)
        cases.holds(f"{name} saves the invitation", ["METHOD:REQUEST" in lines, "SUMMARY:Grüße\\, und mehr" in lines, len([line for line in lines if line.startswith("ATTENDEE")])], [True, True, 2])
        bob.sends(ANN, "Perhaps", tentative(lines, "bob@example.com"))
        cases.holds(f"{name}: the answer comes", (post.run(), len(post.objects())), ([0, 0, 0], 2))
        stream = b"now 20250103T000000Z\n" + (post.box / "config").read_bytes() + b"\n" + b"\r\n".join(post.objects())
        seen = subprocess.run([PROGRAM, "meetings", f"mailto:{ANN}"], input=stream, capture_output=True).stdout.decode()
        cases.holds(f"{name}: what the organiser sees", [line for line in lines_of(seen) if "bob@" in line and "PARTSTAT=TENTATIVE" in line] != [], True)


def main():
    cases = Cases()
    programs = [name for name in PROGRAMS if shutil.which(TOOL[name])]
    for name in PROGRAMS.keys() - set(programs):
        cases.lacks(f"mails by {name}", TOOL[name])
    where = MEMORY if os.access(MEMORY, os.W_OK) else None
    with tempfile.TemporaryDirectory(dir=where) as parent:
        for part in (each_with_each, told, organisers):
            part(cases, parent, programs)
    cases.end()


if __name__ == "__main__":
    main()
