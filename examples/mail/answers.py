"""The mails that an answer of roombox becomes: one for each object that is sent, and one to the sender of what was refused or reached no room."""

import json
import re
import subprocess
from email import charset, encoders
from email.header import Header
from email.mime.base import MIMEBase
from email.mime.multipart import MIMEMultipart
from email.mime.text import MIMEText
from email.utils import formatdate, make_msgid

from adapting import adapted_back
from calendars import addresses, events_of, first_value, method_of, split_objects
from mails import ADDRESS
from wording import FOOTER, no_room_text, plain, refused_text, subject_of, text_of

REFUSED = re.compile(rb"^REFUSED;OBJECT=\d+:(\d+)\r?\n", re.MULTILINE)
TO_ROOMS = ("REQUEST", "ADD", "CANCEL")
UTF_8 = charset.Charset("utf-8")
UTF_8.body_encoding = charset.QP


# ---- who gets an object


def mail_address(address):
    """What a mail can be sent to; None if the address isn't one of mail."""
    found = plain(address).split("?")[0]
    return found if address.lower().startswith("mailto:") and ADDRESS.fullmatch(found) else None


def left_to_others(stored):
    """Of a stored meeting those whom its own calendar program invites: no VEVENT leaves them to the server (RFC 6638 7.1)."""
    lines = [line for event in events_of(stored) for line in event if line.name == "ATTENDEE"]
    ours = {line.value.lower() for line in lines if line.parameters.get("SCHEDULE-AGENT", "SERVER").upper() == "SERVER"}
    return {line.value.lower() for line in lines} - ours


def uid_of(octets):
    return next((first_value(event, "UID") for event in events_of(octets)), None)


def cause_of(octets, message):
    """The object of the message which an organiser's object answers: the last of its meeting that is a store or a REFRESH."""
    found = [piece for piece in split_objects(message) if method_of(piece) in (None, "REFRESH") and uid_of(piece) == uid_of(octets)]
    return found[-1] if found else b""


def receivers_of(octets, message):
    """Whom the object is for, which answers this message."""
    method, organisers, attendees = method_of(octets), addresses(octets, "ORGANIZER"), addresses(octets, "ATTENDEE")
    if method in ("REPLY", "REFRESH"):
        return organisers
    cause = cause_of(octets, message)
    if method_of(cause) == "REFRESH":
        # what was sent goes once more to the one who asked
        return addresses(cause, "ATTENDEE")
    without = left_to_others(cause) if method == "REQUEST" else set()
    return [address for address in attendees if address not in organisers and address not in without]


def speakers_of(octets):
    return addresses(octets, "ATTENDEE" if method_of(octets) in ("REPLY", "REFRESH") else "ORGANIZER")


# ---- a mail


def in_header(text):
    """A stranger's text in a header: one line, without what can't be printed. What looks encoded is encoded, so that it is shown as it is."""
    line = "".join(letter for letter in text if letter.isprintable())[:200]
    return Header(line, "us-ascii" if line.isascii() and "=?" not in line else "utf-8")


def text_part(text):
    return MIMEText(f"{text}\n\n-- \n{FOOTER}\n", "plain", UTF_8)


def calendar_part(octets):
    """The object, with the octets that it has."""
    part = MIMEBase("text", "calendar", method=method_of(octets), charset="UTF-8", component="VEVENT")
    part.set_payload(octets)
    encoders.encode_base64(part)
    return part


def addressed(mail, sender, speaker, receivers, subject, answered):
    """The mail with its head. `answered` is what is known of the mail that it answers, if it does.

    The library's older classes are used, since the newer ones read what they are given and fail at some of what strangers write."""
    mail["From"] = speaker
    if speaker != sender:
        mail["Sender"] = sender
    mail["To"] = ", ".join(receivers)
    mail["Subject"] = in_header(subject)
    mail["Date"] = formatdate()
    mail["Message-ID"] = make_msgid(domain=sender.rpartition("@")[2])
    mail["Auto-Submitted"] = "auto-replied"
    if answered and answered["message_id"]:
        mail["In-Reply-To"] = mail["References"] = answered["message_id"]
    return mail


def mail_with(octets, message, sender, answered):
    """The mail that brings an object to those whom it is for; None if none of them has a mail address."""
    receivers = [found for found in map(mail_address, receivers_of(octets, message)) if found]
    if not receivers and answered and answered["sender"]:
        # an organiser without a mail address wrote the mail, or had it written
        receivers = [answered["sender"]]
    if not receivers:
        return None
    speaker = next((found for found in map(mail_address, speakers_of(octets)) if found), sender)
    mail = MIMEMultipart("alternative", _subparts=[text_part(text_of(octets)), calendar_part(octets)])
    return addressed(mail, sender, speaker, receivers, subject_of(octets, answered["subject"] if answered else ""), answered)


def notice(complaints, sender, answered):
    """The plain mail that says what was wrong."""
    subject = f"Not booked: {answered['subject'] or 'your mail'}"
    return addressed(text_part("\n\n".join(complaints)), sender, sender, [answered["sender"]], subject, answered)


# ---- what was wrong


def explained(roombox, number, message):
    """What roombox says about a refusal: of the object itself if it says the same number, else of the number."""
    of_object = subprocess.run([roombox.program, "explain"], input=message, capture_output=True)
    if re.match(rb"refused %d\b" % number, of_object.stdout):
        return of_object.stdout.decode(errors="replace")
    return subprocess.run([roombox.program, "explain", str(number)], stdin=subprocess.DEVNULL, capture_output=True, text=True).stdout


def complaints_about(box, stem, roombox):
    """What was wrong with the objects of a message, each as a text."""
    message, answer = box.message(stem), box.answer(stem)
    refused = [int(number) for number in REFUSED.findall(answer)]
    if refused:
        return [refused_text(explained(roombox, number, message)) for number in refused]
    rooms, named = box.rooms(), addresses(message, "ATTENDEE")
    is_to_all = method_of(message) == "CANCEL" and not named
    if method_of(message) in TO_ROOMS and not is_to_all and not set(rooms) & set(named):
        return [no_room_text(message, rooms)]
    return []


def answered_by(box, stem):
    """What is known of the mail that brought this message; None if none did."""
    found = box.senders / stem
    return json.loads(found.read_bytes()) if found.exists() else None


def may_be_written_to(address, box, sender):
    """Somebody else than this box itself."""
    ours = {plain(room) for room in box.rooms()} | {sender.lower()}
    return address is not None and address.lower() not in ours


def mails_of(box, stem, sender, roombox):
    """All mails that the answer of this name becomes, in their order."""
    message, answered = box.message(stem), answered_by(box, stem)
    objects = split_objects(adapted_back(REFUSED.sub(b"", box.answer(stem)), message, roombox))
    found = [mail_with(octets, message, sender, answered) for octets in objects]
    # the notice of a mail comes with the answer to its last object
    if answered and answered["stems"][-1] == stem and may_be_written_to(answered["sender"], box, sender):
        complaints = answered["faults"] + [text for each in answered["stems"] for text in complaints_about(box, each, roombox)]
        if complaints:
            found.append(notice(complaints, sender, answered))
    return [mail.as_bytes() for mail in found if mail]


def mail_of_faults(box, answered, sender):
    """The notice of a mail without objects; None if nobody may be told."""
    if not may_be_written_to(answered["sender"], box, sender):
        return None
    return notice(answered["faults"], sender, answered).as_bytes()
