"""Brings mails to a box by examples/mail/roombox_mail.py and looks at what comes back: invitations as eight producers send them, mails that aren't
invitations, faults and who is told of them, and runs that are stopped.

    python3 tests/mail.py bin/roombox [FOLDER]

tests/mails/ has the eight mails, each beside the object that it brings. What is expected was written by hand, from RFC 5546, RFC 6047, RFC 3834 and
docs/GUIDE.md, and never from what came out. FOLDER is where the folders of the tests are made; if none is given, it is memory, since each
mail is synced several times. It needs strace.
"""

import base64
import email
import email.policy
import os
import random
import re
import shutil
import subprocess
import sys
import tempfile
import time
from pathlib import Path

from lib.cases import Cases
from lib.program import MEMORY, ROOT, of_arguments

PROGRAM = of_arguments()
MAIL = str(ROOT / "examples" / "mail" / "roombox_mail.py")
MAILS = ROOT / "tests" / "mails"
ROOM = "room1@example.com"
BOX = "rooms@example.com"
ANN = "ann@example.com"
SEED = 20_250_303
MANY, KILLS, BY_SENDMAIL = 10_000, 60, 400


# ---- folders and mails


class Post:
    """A box, the maildir that feeds it, and the maildir where its mails go."""

    def __init__(self, parent, config=f"room mailto:{ROOM}\n"):
        self.folder = Path(tempfile.mkdtemp(dir=parent))
        self.box, self.arriving, self.leaving = (self.folder / name for name in ("box", "arriving", "leaving"))
        for folder in (self.box / "inbox", self.box / "outbox", *(self.arriving / name for name in ("tmp", "new", "cur"))):
            folder.mkdir(parents=True)
        (self.box / "config").write_text(config)
        self.count = 0

    def deliver(self, *mails):
        for octets in mails:
            self.count += 1
            name = f"{1_741_000_000 + self.count // 10}.M{self.count}P7.office"
            (self.arriving / "new" / name).write_bytes(octets if isinstance(octets, bytes) else octets.encode())

    def taking(self):
        return [sys.executable, MAIL, "take", str(self.box), str(self.arriving)]

    def answering(self):
        return ["flock", str(self.box / "inbox"), PROGRAM, "box", "--adapt", *(str(self.box / name) for name in ("config", "inbox", "outbox"))]

    def sending(self, *way):
        return [sys.executable, MAIL, "send", str(self.box), "--sender", BOX, "--roombox", PROGRAM, *(way or ("--maildir", str(self.leaving)))]

    def run(self):
        """Takes, answers and sends; what each ended with."""
        return [subprocess.run(words, stdin=subprocess.DEVNULL, stdout=subprocess.DEVNULL).returncode for words in (self.taking(), self.answering(), self.sending())]

    def objects(self):
        """The octets of the inbox, in the order of its names."""
        return [path.read_bytes() for path in sorted((self.box / "inbox").glob("*.ics"))]

    def sent(self):
        """The mails that left, in the order of the answers that they are of; of those without an answer in any order."""
        paths = sorted((self.leaving / "new").iterdir(), key=lambda path: path.name.split(".", 1)[1]) if self.leaving.exists() else []
        return [email.message_from_bytes(path.read_bytes(), policy=email.policy.default) for path in paths]

    def subjects(self):
        """The subjects of the mails that left, which are of ASCII, sorted."""
        heads = [path.read_bytes().split(b"\n\n", 1)[0].decode() for path in (self.leaving / "new").iterdir()]
        return sorted(re.search("^Subject: (.*)$", head, re.MULTILINE)[1] for head in heads)

    def left(self):
        return len(os.listdir(self.arriving / "new"))


def event(uid, start, *lines, room=ROOM, organiser=ANN):
    named = [f"UID:{uid}", "DTSTAMP:20250101T000000Z", f"ORGANIZER:mailto:{organiser}", f"ATTENDEE:mailto:{room}", f"DTSTART:{start}", *lines]
    return ["BEGIN:VEVENT", *named, "END:VEVENT"]


def calendar(*lines, method="REQUEST"):
    named = [f"METHOD:{method}"] if method else []
    return "".join(line + "\n" for line in ["BEGIN:VCALENDAR", "VERSION:2.0", *named, *lines, "END:VCALENDAR"])


def request(uid, start="20250310T090000Z", **how):
    return calendar(*event(uid, start, "DURATION:PT1H", **how))


def refused(uid):
    """A zone that isn't there: 43 in the line of DTSTART, the ninth."""
    return calendar(*event(uid, "20250310T090000Z", "DURATION:PT1H")).replace("DTSTART:20250310T090000Z", "DTSTART;TZID=Nowhere:20250310T090000")


def mail(text, kind="text/calendar; method=REQUEST; charset=utf-8", number=1, lines=(), sender=ANN, path=None):
    """A mail that is one part."""
    named = [f"Return-Path: <{sender if path is None else path}>", f"From: Ann Example <{sender}>", f"To: {ROOM}", f"Message-ID: <{number}@office.example.com>",
             "Date: Mon, 3 Mar 2025 10:00:00 +0100", f"Subject: Meeting {number}", "MIME-Version: 1.0", f"Content-Type: {kind}", *lines]
    return "\n".join(named) + "\n\n" + text


def parts(*several, number=1, kind="mixed"):
    """A mail of several parts, each a pair of its Content-Type and its text."""
    text = "".join(f"--cut\nContent-Type: {own}\n\n{body}\n" for own, body in several)
    return mail(text + "--cut--\n", f'multipart/{kind}; boundary="cut"', number)


def lf(octets):
    return octets.replace(b"\r\n", b"\n").decode().rstrip("\n") + "\n"


# ---- what was sent


def calendar_of(message):
    """The METHOD that the calendar part's header names, and the lines of its object; None if there is no such part."""
    found = [part for part in message.walk() if part.get_content_type() == "text/calendar"]
    if not found:
        return None
    octets = found[0].get_payload(decode=True)
    return found[0].get_param("method"), octets.decode().replace("\r\n ", "").split("\r\n")


def text_of(message):
    return message.get_body(("plain",)).get_content()


def reply(uid, organiser, word, status, stamp, sequence=0):
    """The lines of a room's reply."""
    return ["BEGIN:VCALENDAR", "VERSION:2.0", "PRODID:-//iTIP room box//EN", "METHOD:REPLY", "BEGIN:VEVENT", f"UID:{uid}", f"SEQUENCE:{sequence}", f"DTSTAMP:{stamp}",
            f"ORGANIZER:mailto:{organiser}", f"ATTENDEE;PARTSTAT={word}:mailto:{ROOM}", f"REQUEST-STATUS:{status}", "END:VEVENT", "END:VCALENDAR", ""]


def summary(message):
    """To whom, and under which subject."""
    return message["To"], message["Subject"]


# ---- mails of producers


def producers(cases, parent):
    """Each brings the object that lies beside it, and its organiser hears whether the room is booked."""
    known = [("google", "6c3p8s1h2k5v9d4m7q0t3u8w1y@google.com", 0, "Invitation: Weekly planning @ Weekly from 2pm to 3pm on Wednesday (room1@example.com)"),
             ("exchange", "040000008200E00074C5B7101A82E00800000000B0C1D2E3F48BDB01000000000000000010000000A1B2C3D4E5F60718293A4B5C6D7E8F90", 0, "Entwurf prüfen"),
             ("apple", "3B1F6C2A-8D47-4E59-9A0C-5F7E2B6D1C84", 0, "Call with the New York office"), ("thunderbird", "tb-03u", 0, "Invitation: Büro für Räume"),
             ("nextcloud", "c0a1b2d3-5e6f-4789-90ab-cdef01234567", 2, "Invitation: Sprint review"), ("kde", "kde-03u", 0, "Weekly endless UTC"),
             ("gnome", "gnome-03u", 1, "Weekly endless UTC"), ("cyrus", "cyrus-01", 1, "Single in UTC")]
    post = Post(parent)
    post.deliver(*((MAILS / f"{name}.eml").read_bytes() for name, _, _, _ in known))
    cases.holds("eight producers", (post.run(), post.left()), ([0, 0, 0], 0))
    cases.holds("their objects", list(map(lf, post.objects())), [(MAILS / f"{name}.ics").read_text() for name, _, _, _ in known])
    cases.holds("an object in base64 has the octets that were sent", post.objects()[1].count(b"\r\n"), (MAILS / "exchange.ics").read_text().count("\n"))
    stamps = [path.stem.split("-")[1] for path in sorted((post.box / "inbox").iterdir())]
    sent = post.sent()
    cases.holds("eight replies", [summary(message) for message in sent], [(ANN, f"{'Declined' if name == 'nextcloud' else 'Accepted'}: {subject}") for name, _, _, subject in known])
    # from half past two on the sprint review is in the weekly planning, which was there first
    clash = "4.1;Event conflict.  Date-time is busy.;20250312T133000Z 20250312T130000Z mailto:ann@example.com 6c3p8s1h2k5v9d4m7q0t3u8w1y@google.com " \
            "20250312T133000Z mailto:ann@example.com c0a1b2d3-5e6f-4789-90ab-cdef01234567"
    said = [("DECLINED", clash) if name == "nextcloud" else ("ACCEPTED", "2.0;Success") for name, _, _, _ in known]
    wanted = [("REPLY", reply(uid, ANN, word, status, stamp, sequence)) for (_, uid, sequence, _), (word, status), stamp in zip(known, said, stamps)]
    cases.holds("what the replies bring", list(map(calendar_of, sent)), wanted)
    cases.holds("in words", text_of(sent[7]).split("\n")[0], "room1@example.com is booked for your meeting.")
    cases.holds("a decline in words", text_of(sent[4]).split("\n")[0], "room1@example.com is not booked for your meeting: two meetings would be in it on Wednesday, 12 March 2025, "
                "13:30 UTC: one of ann@example.com (of Wednesday, 12 March 2025, 13:00 UTC) and one of ann@example.com (of Wednesday, 12 March 2025, 13:30 UTC).")
    heads = [(message["From"], message["Sender"], message["In-Reply-To"], message["Auto-Submitted"], message.get_content_type()) for message in sent]
    cases.holds("their heads", heads[7], (ROOM, BOX, "<cyrus-caldav-4711-1741000000-0@imap.example.com>", "auto-replied", "multipart/alternative"))
    cases.holds("each mail has an id of its own", len({message["Message-ID"] for message in sent}), 8)


def in_its_words(cases, parent):
    """GNOME's series with a moved instance, whose VTIMEZONE no room reads as it is: a mail for each of the two, in the words of the invitation."""
    zone = "/freeassociation.sourceforge.net/America/New_York"
    series = (ROOT / "tests" / "producers" / "gnome--03-weekly-endless.ics").read_text()
    moved = ["BEGIN:VEVENT", "UID:gnome-03", "DTSTAMP:20250101T080000Z", f"RECURRENCE-ID;TZID={zone}:20250319T090000", f"DTSTART;TZID={zone}:20250319T140000", f"DTEND;TZID={zone}:20250319T150000",
             "SUMMARY:Weekly endless", "SEQUENCE:1", f"ORGANIZER:mailto:{ANN}", f"ATTENDEE:mailto:{ROOM}", "END:VEVENT", "END:VCALENDAR", ""]
    post = Post(parent)
    post.deliver(mail(series.replace("END:VCALENDAR\n", "\n".join(moved))))
    cases.holds("a series of GNOME's by mail", (post.run(), post.left()), ([0, 0, 0], 0))
    sent = list(map(calendar_of, post.sent()))
    cases.holds("a mail for each VEVENT", [(method, lines.count("BEGIN:VEVENT")) for method, lines in sent], [("REPLY", 1), ("REPLY", 1)])
    cases.holds("the series and the instance", [[line for line in lines if line.startswith("RECURRENCE-ID")] for _, lines in sent], [[], [f"RECURRENCE-ID;TZID={zone}:20250319T090000"]])
    wanted = series.replace("\n ", "")
    wanted = wanted[wanted.index("BEGIN:VTIMEZONE"):wanted.index("BEGIN:VEVENT")].splitlines()
    lines = sent[1][1]
    cases.holds("with the VTIMEZONE that the mail brought", lines[lines.index("BEGIN:VTIMEZONE"):lines.index("BEGIN:VEVENT")], wanted)
    cases.holds("both are booked", [[line for line in lines if line.startswith("ATTENDEE")] for _, lines in sent], [[f"ATTENDEE;PARTSTAT=ACCEPTED:mailto:{ROOM}"]] * 2)


def again(cases, parent):
    """The same mail twice is one object and one reply, in one run and in two; the same invitation in another mail is answered again."""
    post = Post(parent)
    one = mail(request("a"))
    post.deliver(one, "Received: by another way\n" + one)
    cases.holds("a mail twice at once", (post.run(), len(post.objects()), len(post.sent())), ([0, 0, 0], 1, 1))
    post.deliver(one)
    cases.holds("a mail again", (post.run(), len(post.objects()), len(post.sent()), post.left()), ([0, 0, 0], 1, 1, 0))
    post.deliver(mail(request("a"), number=2))
    cases.holds("another mail with the same", (post.run(), len(post.objects()), [summary(message) for message in post.sent()]),
                ([0, 0, 0], 2, [(ANN, "Accepted: Meeting 1"), (ANN, "Accepted: Meeting 2")]))


def in_order(cases, parent):
    """The first mail gets the room, in the order of the seconds and microseconds of the names in the maildir."""
    post = Post(parent)
    for number, name in [(1, "1741000000.M9P7.office"), (2, "1741000000.M10P7.office"), (3, "999999999.M5P7.office"), (4, "1741000000.M10000P7.office:2,")]:
        (post.arriving / "new" / name).write_text(mail(request(f"m{number}"), number=number))
    cases.holds("mails in another order", post.run(), [0, 0, 0])
    cases.holds("by seconds and microseconds", [summary(message)[1] for message in post.sent()],
                ["Accepted: Meeting 3", "Declined: Meeting 1", "Declined: Meeting 2", "Declined: Meeting 4"])
    cases.holds("they were seen", sorted(os.listdir(post.arriving / "cur")), sorted(
        ["1741000000.M9P7.office:2,S", "1741000000.M10P7.office:2,S", "999999999.M5P7.office:2,S", "1741000000.M10000P7.office:2,S"]))


# ---- what a mail may hold


def no_invitations(cases, parent):
    """These bring nothing, and nobody hears of it."""
    returned = mail(request("r", organiser=ROOM).replace("METHOD:REQUEST", "METHOD:REPLY"), "text/calendar; method=REPLY")
    nested = "".join(f"Content-Type: multipart/mixed; boundary=b{depth}\n\n--b{depth}\n" for depth in range(1_000))
    post = Post(parent)
    post.deliver(
        mail("Is the room free on Thursday?\n", "text/plain"), mail("<p>Buy this</p>\n", "text/html", 2), b"", b"\x00\xff" * 500, b"no mail at all",
        parts(("text/plain", "the agenda"), ("application/pdf", "%PDF"), number=3), parts(("application/ics; name=invite.ics", request("x")), number=4),
        # a mail that comes back, and one that was passed on as a whole: what is in them was for somebody else
        parts(("text/plain", "no such user"), ("message/delivery-status", "Action: failed\n"), ("message/rfc822", returned), number=5, kind="report"),
        parts(("message/rfc822", mail(request("f"))), number=6), mail("BEGIN:VCARD\nEND:VCARD\n", "text/vcard", 7), mail("no boundary", "multipart/mixed", 8), nested)
    cases.holds("no invitations", (post.run(), post.objects(), post.sent(), post.left()), ([0, 0, 0], [], [], 0))
    cases.holds("they are kept", len(os.listdir(post.arriving / "cur")), 12)


def several_objects(cases, parent):
    """An object of its own for each that a part has, and for each part; copies for people aren't counted."""
    post = Post(parent)
    two = request("a") + "\n\n" + request("b", "20250310T100000Z")
    post.deliver(mail(two))
    cases.holds("two objects in a part", (post.run(), list(map(lf, post.objects()))), ([0, 0, 0], [request("a"), request("b", "20250310T100000Z")]))
    cases.holds("two replies", [message["Subject"] for message in post.sent()], ["Accepted: Meeting 1"] * 2)
    post = Post(parent)
    named = "text/calendar; method=REQUEST"
    post.deliver(parts((named, request("a")), (named, request("a").replace("\n", "\r\n")), ("text/calendar", request("copy")), (named, request("b", "20250310T100000Z"))))
    cases.holds("parts and copies", (post.run(), [re.search("UID:(.*)", lf(octets))[1] for octets in post.objects()]), ([0, 0, 0], ["a", "b"]))
    post = Post(parent)
    folded = request("a").replace("END:VCALENDAR", "end:vcalendar")
    post.deliver(mail(folded.rstrip("\n")), mail(request("b", "20250310T100000Z") + "-- \nthe list's own words\n", number=2))
    cases.holds("in lower case, and without a line break at the end", (post.run(), len(post.objects())), ([0, 0, 0], 3))
    cases.holds("text behind an object is refused alone", [message["Subject"] for message in post.sent()], ["Accepted: Meeting 1", "Accepted: Meeting 2", "Not booked: Meeting 2"])
    cases.holds("it is a line without a colon", re.findall(r"refused (\d+) at line (\d+)", text_of(post.sent()[2])), [("1", "1")])


def no_objects(cases, parent):
    """A calendar part without an object gives no file, and the sender is told what is wrong."""
    post = Post(parent)
    post.deliver(mail(""), mail("\r\n\r\n", number=2), mail(calendar(*event("a", "20250310T090000Z"), method=None), "text/calendar", 3), mail(request("b"), "text/calendar; method=CANCEL", 4))
    cases.holds("no objects", (post.run(), post.objects()), ([0, 0, 0], []))
    sent = sorted(post.sent(), key=summary)
    cases.holds("who is told of them", list(map(summary, sent)), [(ANN, f"Not booked: Meeting {number}") for number in (1, 2, 3, 4)])
    texts = list(map(text_of, sent))
    words = ["is empty", "is empty", "has no METHOD", "says that it brings a CANCEL, and its calendar says REQUEST"]
    cases.holds("what is wrong with them", [word in text for word, text in zip(words, texts)], [True] * 4)
    cases.holds("and never again", (post.run(), len(post.sent())), ([0, 0, 0], 4))


def methods(cases, parent):
    """The part's header says the METHOD if the object doesn't; an object that says it needs no header."""
    post, event_text = Post(parent), calendar(*event("a", "20250310T090000Z"), method=None)
    post.deliver(mail(event_text), mail(request("b"), "text/calendar", 2), mail(request("c"), "text/calendar; method=request", 3),
                 mail(calendar(*event("d", "20250310T090000Z"), method=None), "text/calendar; method*=us-ascii'en'REQUEST", 4))
    cases.holds("METHOD of the part", post.run(), [0, 0, 0])
    wanted = [event_text.replace("BEGIN:VCALENDAR\n", "BEGIN:VCALENDAR\nMETHOD:REQUEST\n"), request("b"), request("c"),
              calendar(*event("d", "20250310T090000Z"), method=None).replace("BEGIN:VCALENDAR\n", "BEGIN:VCALENDAR\nMETHOD:REQUEST\n")]
    cases.holds("the objects have it", list(map(lf, post.objects())), wanted)
    # inside a VEVENT it isn't that of the object: roombox would take this for what an organiser stores
    hidden = calendar("BEGIN:VEVENT", "METHOD:REQUEST", *event("e", "20250310T090000Z")[1:], method=None)
    post = Post(parent, f"room mailto:{ROOM}\norganiser mailto:{ANN}\n")
    post.deliver(mail(hidden, "text/calendar"))
    cases.holds("METHOD inside of an event", (post.run(), post.objects(), len(post.sent())), ([0, 0, 0], [], 1))
    odd = [event_text.replace("BEGIN:VCALENDAR", begin) for begin in ("BEGIN:VCAL\n ENDAR", "begin;x=y:vcalendar", "\ufeff\n\nBEGIN:VCALENDAR")]
    post = Post(parent)
    post.deliver(*(mail(text, number=number) for number, text in enumerate(odd)))
    cases.holds("METHOD behind other forms of BEGIN", (post.run(), [len(re.findall("\nMETHOD:REQUEST\n", octets.decode())) for octets in post.objects()]), ([0, 0, 0], [1, 1, 1]))
    # behind an END that is folded, or that has a byte order mark, comes another object, without METHOD
    for what, end, sent in [("folded", request("f").replace("END:VCALENDAR", "END:VCAL\n ENDAR"), ["Accepted: Meeting 1"]), ("marked", "\ufeffEND:VCALENDAR\n", [])]:
        post = Post(parent, f"room mailto:{ROOM}\norganiser mailto:{ANN}\n")
        post.deliver(mail(end + calendar(*event("g", "20250310T090000Z"), method=None), "text/calendar"))
        cases.holds(f"an object behind one whose end is {what}", (post.run(), len(post.objects()), [message["Subject"] for message in post.sent()]),
                    ([0, 0, 0], len(sent), [*sent, "Not booked: Meeting 1"]))


def charsets(cases, parent):
    """Texts of any charset come into the inbox as UTF-8; what can't be read in its charset comes as it is."""
    text = request("a").replace("DURATION", "SUMMARY:Büro\nDURATION")
    post, named = Post(parent), "text/calendar; method=REQUEST; charset={}"
    coded = "Content-Transfer-Encoding: base64"

    def in_base64(octets, charset, number):
        return mail(base64.encodebytes(octets).decode(), named.format(charset), number, [coded])

    post.deliver(mail(text.replace("ü", "=FC"), named.format("iso-8859-1"), 1, ["Content-Transfer-Encoding: quoted-printable"]), in_base64(text.encode("utf-16"), "utf-16", 2),
                 mail(text, named.format("windows-1252"), 3).encode("cp1252"), mail(text, named.format("us-ascii"), 4), mail(text, named.format("x-unknown"), 5),
                 mail(text, "text/calendar; method=REQUEST", 6), in_base64(b"\xef\xbb\xbf" + text.encode(), "utf-8", 7), in_base64(text.encode("cp1252"), "utf-8", 8))
    cases.holds("eight charsets", post.run(), [0, 0, 0])
    cases.holds("in UTF-8", [octets.decode() for octets in post.objects()[:6]], [text] * 6)
    cases.holds("a byte order mark stays", post.objects()[6], b"\xef\xbb\xbf" + text.encode())
    cases.holds("what isn't UTF-8 is refused", (post.objects()[7], summary(post.sent()[-1]), "5: not UTF-8" in text_of(post.sent()[-1])), (text.encode("cp1252"), (ANN, "Not booked: Meeting 8"), True))


# ---- who is told


def told(cases, parent):
    """The sender of a refused object, and of one that names no room, is told what was wrong, once."""
    post = Post(parent)
    post.deliver(mail(refused("a")), mail(request("b", room="room2@example.com"), number=2), mail(calendar(*event("c", "20250310T090000Z", room="x@example.com"), method="CANCEL"), "text/calendar", 3),
                 mail(calendar("BEGIN:VEVENT", "UID:d", "DTSTAMP:20250101T000000Z", f"ORGANIZER:mailto:{ANN}", "END:VEVENT", method="CANCEL"), "text/calendar", 4),
                 mail(request("e").replace("METHOD:REQUEST", "METHOD:PUBLISH"), "text/calendar", 5))
    cases.holds("refused and without a room", post.run(), [0, 0, 0])
    sent = post.sent()
    cases.holds("who is told", [(message["From"], *summary(message), message["In-Reply-To"], message["Auto-Submitted"], calendar_of(message)) for message in sent],
                [(BOX, ANN, f"Not booked: Meeting {number}", f"<{number}@office.example.com>", "auto-replied", None) for number in (1, 2, 3, 5)])
    words = ["refused 43 at line 9: DTSTART\n43: no VTIMEZONE has the name that TZID gives. What to do: ", "Your REQUEST names none of the rooms that are kept here",
             "Your CANCEL names none of the rooms that are kept here", "60: METHOD twice, or another word than REQUEST"]
    cases.holds("of what", [word in text_of(message) for word, message in zip(words, sent)], [True] * 4)
    cases.holds("what was named, and what there is", [word in text_of(sent[1]) for word in ("It names room2@example.com.", "The rooms are room1@example.com.")], [True, True])
    post.deliver(mail(refused("a")), mail(request("b", room="room2@example.com"), number=2))
    cases.holds("once", (post.run(), len(post.sent())), ([0, 0, 0], 4))
    # a message that is older than what the room has is no fault
    post = Post(parent)
    newer = request("a").replace("UID:a", "UID:a\nSEQUENCE:1")
    post.deliver(mail(newer), mail(request("a"), number=2))
    cases.holds("an older message", (post.run(), len(post.objects()), [message["Subject"] for message in post.sent()]), ([0, 0, 0], 2, ["Accepted: Meeting 1"]))


def one_notice(cases, parent):
    """All that was wrong with a mail is in one notice, beside the replies to what was right."""
    post = Post(parent)
    named = "text/calendar; method=REQUEST"
    post.deliver(parts((named, refused("a")), (named, request("b")), (named, request("c", room="room2@example.com")), (named, ""), ("text/plain", "see you")))
    cases.holds("four parts", (post.run(), [summary(message) for message in post.sent()]), ([0, 0, 0], [(ANN, "Accepted: Meeting 1"), (ANN, "Not booked: Meeting 1")]))
    words = ["refused 43", "none of the rooms", "is empty"]
    cases.holds("three faults in one notice", [text_of(post.sent()[1]).count(word) for word in words], [1, 1, 1])


def not_told(cases, parent):
    """Nobody is told if a program wrote, a list, nobody, or the box itself; and nobody of a REPLY. Replies to what is right are sent to all of them."""
    forms = [dict(lines=["Auto-Submitted: auto-generated"]), dict(lines=["Auto-Submitted: auto-replied (by x); a=b"]), dict(lines=["List-Id: <all.example.com>"]), dict(path=""),
             dict(sender=ROOM), dict(sender=BOX.upper()), dict(sender="not an address"), dict(lines=["auto-submitted: auto-notified"]), dict(lines=["Auto-Submitted: no", "Auto-Submitted: auto-replied"])]
    post = Post(parent)
    post.deliver(*(mail(refused(f"m{number}"), number=number, **form) for number, form in enumerate(forms)))
    post.deliver(mail(request("r").replace("METHOD:REQUEST", "METHOD:REPLY"), "text/calendar; method=REPLY", 20), mail(request("s"), "text/calendar; method=REPLY", 21))
    cases.holds("nobody is told", (post.run(), len(post.objects()), post.sent()), ([0, 0, 0], len(forms) + 1, []))
    post.deliver(*(mail(request(f"n{number}", f"20250311T{number:02}0000Z"), number=30 + number, **form) for number, form in enumerate(forms)))
    cases.holds("but a room replies", (post.run(), [summary(message) for message in post.sent()]), ([0, 0, 0], [(ANN, f"Accepted: Meeting {30 + number}") for number in range(len(forms))]))
    post = Post(parent)
    post.deliver(mail(refused("a"), lines=["Auto-Submitted: No"]), mail(refused("b"), number=2, lines=["Auto-Submitted: no (a person)", "Reply-To: Bob <bob@example.com>"]))
    cases.holds("a person is told", (post.run(), [summary(message)[0] for message in post.sent()]), ([0, 0, 0], [ANN, "bob@example.com"]))
    without = mail(refused("c"), number=3).replace(f"Return-Path: <{ANN}>\n", "")
    post.deliver(without)
    cases.holds("also if no return path was noted", (post.run(), len(post.sent())), ([0, 0, 0], 3))


def odd_heads(cases, parent):
    """A Message-ID of any length comes back as it was; a subject of any letters is one line, without what can't be printed."""
    post, long = Post(parent), f"<{'a' * 100}@office.example.com>"
    post.deliver(mail(request("a")).replace("<1@office.example.com>", long).replace("Subject: Meeting 1", "Subject: =?utf-8?b?w7xiZXI=?=\n\tall =?utf-8?q?=00=0A=07Bcc=3A_x=40example=2Ecom?="),
                 mail(request("b"), number=2).replace("Subject: Meeting 2", "Subject: =?nothing?q?=FF?= \udc80").encode("utf-8", "surrogateescape"))
    cases.holds("odd heads", post.run(), [0, 0, 0])
    sent = post.sent()
    cases.holds("a long Message-ID", (sent[0]["In-Reply-To"].strip(), sent[0]["References"].strip()), (long, long))
    cases.holds("a subject of two lines", (sent[0]["Subject"], sent[0]["Bcc"]), ("Accepted: über all  Bcc: x@example.com", None))
    cases.holds("a subject that can't be read", len(sent), 2)


# ---- organisers of the box


def organisers(cases, parent):
    """What an organiser stores goes to those whom it is left to the server to invite; a REFRESH is answered to the one who sent it."""
    post = Post(parent, f"room mailto:{ROOM}\norganiser mailto:{ANN}\n")
    people = [f"ATTENDEE:mailto:{name}@example.com" for name in ("bob", "cleo")] + ["ATTENDEE;SCHEDULE-AGENT=CLIENT:mailto:dan@example.com", "ATTENDEE:urn:uuid:1"]
    stored = calendar(*event("s", "20250401T090000Z", "DURATION:PT1H", "SUMMARY:Plan\\, and more", *people), method=None)
    (post.box / "inbox" / "00000001-20250102T000000Z.ics").write_text(stored)
    cases.holds("a store", (post.run(), [(message["From"], *summary(message), calendar_of(message)[0]) for message in post.sent()]),
                ([0, 0, 0], [(ANN, f"{ROOM}, bob@example.com, cleo@example.com", "Invitation: Plan, and more", "REQUEST")]))
    cases.holds("a store in words", text_of(post.sent()[0]).split("\n")[:2], ["ann@example.com invites you.", "Plan, and more: Tuesday, 1 April 2025, 09:00 UTC"])
    asked = calendar("BEGIN:VEVENT", "UID:s", "DTSTAMP:20250102T000000Z", f"ORGANIZER:mailto:{ANN}", "ATTENDEE:mailto:cleo@example.com", "END:VEVENT", method="REFRESH")
    post.deliver(mail(asked, "text/calendar; method=REFRESH", sender="cleo@example.com"))
    cases.holds("a REFRESH", (post.run(), [(summary(message)[0], calendar_of(message)[0]) for message in post.sent()[1:]]), ([0, 0, 0], [("cleo@example.com", "REQUEST")]))
    without = stored.replace("ATTENDEE:mailto:bob@example.com\n", "")
    (post.box / "inbox" / "00000003-20250103T000000Z.ics").write_text(without)
    cases.holds("a store without one", (post.run(), [(*summary(message), calendar_of(message)[0]) for message in post.sent()[2:]]),
                ([0, 0, 0], [(f"{ROOM}, cleo@example.com", "Invitation: Plan, and more", "REQUEST"), ("bob@example.com", "Cancelled: your meeting", "CANCEL")]))


# ---- handed to sendmail


def sendmail_in(folder, ending=":"):
    """A program in place of sendmail: it leaves its words and the mail in a folder, whole or not at all."""
    folder.mkdir(exist_ok=True)
    (folder / "handed").mkdir(exist_ok=True)
    program = folder / "sendmail"
    program.write_text(f'#!/bin/sh\nset -e\nown=$(mktemp -p "{folder}")\n{{ echo "$@"; cat; }} > "$own"\n{ending}\nmv "$own" "{folder}/handed/"\n')
    program.chmod(0o755)
    return program


def by_sendmail(cases, parent):
    """A mail that sendmail takes is sent once; one that it doesn't take stays, and others aren't kept waiting by it."""
    post = Post(parent)
    post.deliver(*(mail(request(f"m{number}", f"20250310T{number:02}0000Z", organiser="bad@example.com" if number == 1 else ANN), number=number) for number in range(3)))
    cases.holds("three mails", [subprocess.run(words, stdout=subprocess.DEVNULL).returncode for words in (post.taking(), post.answering())], [0, 0])
    program = sendmail_in(post.folder / "mta", 'if grep -q "^To: bad@" "$own"; then exit 75; fi')
    ended = subprocess.run(post.sending("--sendmail", str(program)), stdout=subprocess.PIPE, text=True)
    handed = [path.read_text() for path in (post.folder / "mta" / "handed").iterdir()]
    cases.holds("one isn't taken", (ended.returncode, ended.stdout, len(handed)), (1, "3 answers, 2 mails handed over, 1 left\n", 2))
    cases.holds("the words of sendmail", {text.split("\n")[0] for text in handed}, {f"-i -t -f {BOX}"})
    program = sendmail_in(post.folder / "mta")
    ended = subprocess.run(post.sending("--sendmail", str(program)), stdout=subprocess.PIPE, text=True)
    cases.holds("the next run sends it", (ended.returncode, ended.stdout, len(os.listdir(post.folder / "mta" / "handed"))), (0, "0 answers, 1 mails handed over, 0 left\n", 3))
    ended = subprocess.run(post.sending("--sendmail", "/nowhere/sendmail"), capture_output=True, text=True)
    cases.holds("no sendmail", (ended.returncode, ended.stderr), (1, "roombox_mail: /nowhere/sendmail isn't a program\n"))


# ---- runs that are stopped


def side_by_side(cases, parent):
    """Nothing gets a name in an inbox that somebody has locked; several runs at once take and send each mail once."""
    post = Post(parent)
    post.deliver(mail(request("a")))
    holding = subprocess.Popen(["flock", str(post.box / "inbox"), "sh", "-c", "echo held; sleep 1"], stdout=subprocess.PIPE)
    holding.stdout.readline()
    taking = subprocess.Popen(post.taking(), stdout=subprocess.DEVNULL)
    time.sleep(0.6)
    found = post.objects()
    cases.holds("a locked inbox", (found, holding.wait(), taking.wait(), len(post.objects())), ([], 0, 0, 1))
    holding.stdout.close()
    post.deliver(*many_mails(300))
    for words in (post.taking(), post.answering(), post.sending()):
        runs = [subprocess.Popen(words, stdout=subprocess.DEVNULL) for _ in range(4)]
        cases.holds(f"four times {words[2]} at once", [run.wait() for run in runs], [0] * 4)
    cases.holds("each is sent once", sorted(message["Subject"] for message in post.sent()), sorted(["Accepted: Meeting 1", *expected(300)[1]]))


STEPS = ("rename", "fsync", "unlink", "mkdir", "rmdir", "write")
FEW = [mail(request("a")), mail(refused("b"), number=2), mail(request("c", "20250310T100000Z") + request("d", "20250310T110000Z"), number=3), mail("", number=4), mail("hello", "text/plain", 5)]
FEW_SENT = ["Accepted: Meeting 1", "Accepted: Meeting 3", "Accepted: Meeting 3", "Not booked: Meeting 2", "Not booked: Meeting 4"]


def with_calls(words, call, inject=()):
    """Runs the words under strace; the status, and how often they made the call."""
    with tempfile.NamedTemporaryFile(mode="r") as log:
        ended = subprocess.run(["strace", "-qq", "-o", log.name, "-e", f"trace={call}", *inject, *words], stdin=subprocess.DEVNULL, capture_output=True)
        return ended.returncode, sum(line.startswith(f"{call}(") for line in log)


def stopped_at(cases, parent, call, how, number):
    """Stops a run of `take`, and one of `send`, at one call; how many were, and whether the next run does the rest."""
    post = Post(parent)
    post.deliver(*FEW)
    inject = ("-e", f"inject={call}:{how}:when={number}")
    took = with_calls(post.taking(), call, inject)[0]
    subprocess.run(post.answering(), check=True)
    sent = with_calls(post.sending(), call, inject)[0]
    cases.holds(f"after {call} {number}, {how}", post.run(), [0, 0, 0])
    found = ([re.search("UID:(.*)", lf(octets))[1] for octets in post.objects()], sorted(message["Subject"] for message in post.sent()), post.left())
    cases.holds(f"what {call} {number}, {how}, leaves", found, (["a", "b", "c", "d"], FEW_SENT, 0))
    shutil.rmtree(post.folder)
    return (took != 0) + (sent != 0)


def stopped_at_each_step(cases, parent):
    """A run of `take`, and one of `send`, is killed at each of its calls that change a folder, or the call fails; the next run does the rest."""
    if not shutil.which("strace"):
        return cases.lacks("runs that are stopped at each step", "strace")
    stops = 0
    for call in STEPS:
        post = Post(parent)
        post.deliver(*FEW)
        by_take = with_calls(post.taking(), call)[1]
        subprocess.run(post.answering(), check=True)
        often = max(by_take, with_calls(post.sending(), call)[1])
        for number in range(1, often + 1):
            stops += stopped_at(cases, parent, call, "signal=KILL", number) + stopped_at(cases, parent, call, "error=ENOSPC", number)
    print(f"{stops} runs stopped at a step")


def kind_of(number):
    """Of many mails, what the one of this number is."""
    return "copy" if number % 10 == 9 else "other" if number % 7 == 6 else "refused" if number % 11 == 10 else "invitation"


def many_mails(count):
    """So many mails: most are invitations to hours that are free, some are copies of the one before, some have a fault, some are no invitations."""
    mails = []
    for number in range(count):
        kind = kind_of(number)
        day, hour = divmod(number, 24)
        year, day = divmod(day, 336)
        start = f"{2025 + year}{1 + day // 28:02}{1 + day % 28:02}T{hour:02}0000Z"
        mails.append({"copy": mails[-1] if mails else "", "other": mail("hello", "text/plain", number), "refused": mail(refused(f"m{number}"), number=number),
                      "invitation": mail(request(f"m{number}", start), number=number)}[kind])
    return mails


def expected(count):
    """The numbers of the mails that bring objects, and the subjects of what is sent."""
    objects = [number for number in range(count) if kind_of(number) in ("invitation", "refused")]
    return objects, sorted(f"{'Accepted' if kind_of(number) == 'invitation' else 'Not booked'}: Meeting {number}" for number in objects)


def killed_after(words, seconds):
    """Begins a program of Python and kills it, that process alone, after this time. Whether it was killed."""
    begun = subprocess.Popen(words, stdin=subprocess.DEVNULL, stdout=subprocess.DEVNULL)
    try:
        begun.wait(seconds)
        return False
    except subprocess.TimeoutExpired:
        begun.kill()
        begun.wait()
        return True


def stopped(cases, parent, count, kills, way, subjects):
    """Many mails, whose runs are killed at random moments; then a run that isn't."""
    post, chance = Post(parent), random.Random(SEED)
    post.deliver(*many_mails(count))
    killed = 0
    for _ in range(kills):
        killed += killed_after(post.taking(), chance.uniform(0.05, 1.2))
        subprocess.run(post.answering(), check=True)
        killed += killed_after(post.sending(*way(post)), chance.uniform(0.05, 1.2))
    for words in (post.taking(), post.answering(), post.sending(*way(post))):
        subprocess.run(words, check=True, stdout=subprocess.DEVNULL)
    objects, wanted = expected(count)
    cases.holds(f"{count} mails: some runs were killed", killed > kills // 4, True)
    cases.holds(f"{count} mails: each object is there once, in the order of the mails", [int(re.search("UID:m(.*)", lf(octets))[1]) for octets in post.objects()], objects)
    cases.holds(f"{count} mails: each is answered once", subjects(post), wanted)
    cases.holds(f"{count} mails: nothing is left to do", (post.left(), os.listdir(post.box / "mail" / "queue"), os.listdir(post.box / "mail" / "faults")), (0, [], []))
    print(f"{count} mails: {killed} runs killed")


def stopped_maildir(cases, parent):
    stopped(cases, parent, MANY, KILLS, lambda post: (), Post.subjects)


def stopped_sendmail(cases, parent):
    """The same by a sendmail that takes its time: it is killed by nobody, and what it was given is sent once."""
    def way(post):
        return ("--sendmail", str(sendmail_in(post.folder / "mta", "sleep 0.02")))

    def subjects(post):
        texts = [path.read_text() for path in (post.folder / "mta" / "handed").iterdir()]
        return sorted(re.search("^Subject: (.*)$", text, re.MULTILINE)[1] for text in texts)

    stopped(cases, parent, BY_SENDMAIL, KILLS // 2, way, subjects)


def no_maildir(cases, parent):
    """Before the first mail there is no maildir: that is said in words, and the next run takes what has come."""
    post = Post(parent)
    shutil.rmtree(post.arriving)
    ran = subprocess.run(post.taking(), stdin=subprocess.DEVNULL, stdout=subprocess.PIPE, stderr=subprocess.PIPE, text=True)
    said = f"roombox_mail: {post.arriving} is no maildir yet: the mail server makes it when the first mail comes\n"
    cases.holds("no maildir yet", (ran.returncode, ran.stdout, ran.stderr), (1, "", said))
    (post.arriving / "new").mkdir(parents=True)
    post.deliver(mail(request("first")))
    cases.holds("a maildir with the first mail", (post.run(), len(post.objects())), ([0, 0, 0], 1))


def unstopped(cases, parent):
    """How long so many mails take, and that a second run has nothing to do."""
    post = Post(parent)
    post.deliver(*many_mails(MANY))
    seconds = []
    for words in (post.taking(), post.answering(), post.sending()):
        begun = time.monotonic()
        cases.holds(f"{MANY} mails: {words[-1]}", subprocess.run(words, stdout=subprocess.DEVNULL).returncode, 0)
        seconds.append(time.monotonic() - begun)
    cases.holds(f"{MANY} mails: what is sent", post.subjects(), expected(MANY)[1])
    sent = len(post.subjects())
    cases.holds(f"{MANY} mails: a second run", (post.run(), len(post.subjects())), ([0, 0, 0], sent))
    print(f"{MANY} mails: taken in {seconds[0]:.1f} s, answered in {seconds[1]:.1f} s, {sent} mails sent in {seconds[2]:.1f} s")


def main():
    cases = Cases()
    parts = [no_maildir, producers, in_its_words, again, in_order, no_invitations, several_objects, no_objects, methods, charsets, told, one_notice, not_told, odd_heads, organisers, by_sendmail, side_by_side, stopped_at_each_step,
             unstopped, stopped_maildir, stopped_sendmail]
    where = sys.argv[2] if len(sys.argv) > 2 else MEMORY if os.access(MEMORY, os.W_OK) else None
    with tempfile.TemporaryDirectory(dir=where) as parent:
        for part in parts:
            part(cases, parent)
    cases.end()


if __name__ == "__main__":
    main()
