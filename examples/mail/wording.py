"""What people read in the mails: sentences for each answer of roombox, and for what was wrong with a message."""

import re
from datetime import datetime
from urllib.parse import unquote

from calendars import addresses, events_of, first_value, method_of, values

CLASH = re.compile(r"4\.1;[^;]*;(\S+) (\S+) (\S+) \S+ (\S+) (\S+) \S+")
LIMITS = {"SERIES": "series", "SINGLES": "single meetings"}
DECLINED_TOO = "What was booked for this meeting before, if anything was, is given up. Choose another time or another room, and send the invitation again."
FOOTER = "This was written by the program that keeps the rooms. It reads invitations and nothing else."


def plain(address):
    """The address as people write it."""
    return re.sub(r"^mailto:", "", unquote(address), flags=re.IGNORECASE)


def listed(several):
    return ", ".join(plain(address) for address in several)


def unescaped(text):
    """A TEXT without its escapes, as one line."""
    return " ".join(re.sub(r"\\(.)", lambda found: " " if found[1] in "nN" else found[1], text).split())


def moment(stamp):
    """A date-time for people; what isn't one stays as it is."""
    try:
        found = datetime.strptime(stamp.removesuffix("Z"), "%Y%m%dT%H%M%S")
    except ValueError:
        return stamp
    return f"{found:%A}, {found.day} {found:%B %Y}, {found:%H:%M} {'UTC' if stamp.endswith('Z') else 'local time'}"


def meeting_of(event):
    """Your meeting, or the instance of it that the VEVENT is."""
    slot = first_value(event, "RECURRENCE-ID")
    return f"your meeting's instance of {moment(slot)}" if slot else "your meeting"


# ---- a room's reply


def why_declined(event):
    limit = LIMITS.get(first_value(event, "X-ROOM-LIMIT"))
    if limit:
        return f"it has as many {limit} as it can have."
    clash = CLASH.match(first_value(event, "REQUEST-STATUS") or "")
    if not clash:
        return "it can't take place there."
    instant, one_start, one, other_start, other = clash.groups()
    both = " and ".join(f"one of {plain(whose)} (of {moment(start)})" for start, whose in ((one_start, one), (other_start, other)))
    return f"two meetings would be in it on {moment(instant)}: {both}."


def reply_sentence(event):
    """What a VEVENT of a room's REPLY says."""
    attendee = next(line for line in event if line.name == "ATTENDEE")
    room, meeting = plain(attendee.value), meeting_of(event)
    if attendee.parameters.get("PARTSTAT") == "ACCEPTED":
        return f"{room} is booked for {meeting}."
    return f"{room} is not booked for {meeting}: {why_declined(event)}"


def reply_text(octets):
    sentences = [reply_sentence(event) for event in events_of(octets)]
    return "\n".join([*sentences, *([DECLINED_TOO] if is_declined(octets) else [])])


def is_declined(octets):
    return any(line.parameters.get("PARTSTAT") == "DECLINED" for event in events_of(octets) for line in event if line.name == "ATTENDEE")


# ---- the others


def refresh_text(octets):
    room = listed(addresses(octets, "ATTENDEE"))
    return f"{room} knows only instances of a meeting of yours, and asks for the whole of it. Send the invitation of the whole meeting once more."


def title_of(events, otherwise):
    return next((unescaped(value) for event in events for value in values(event, "SUMMARY") if unescaped(value)), otherwise)


def event_line(event):
    return f"{title_of([event], 'A meeting')}: {moment(first_value(event, 'DTSTART') or '')}"


def request_text(octets):
    return "\n".join([f"{listed(addresses(octets, 'ORGANIZER'))} invites you.", *map(event_line, events_of(octets))])


def cancel_text(octets):
    organiser = listed(addresses(octets, "ORGANIZER"))
    return f"{organiser} has called the meeting off, or goes on without you."


TEXTS = {"REPLY": reply_text, "REFRESH": refresh_text, "REQUEST": request_text, "CANCEL": cancel_text}


def text_of(octets):
    return TEXTS[method_of(octets)](octets)


def subject_of(octets, subject):
    """The subject of the mail with this object; `subject` is that of the mail which it answers, and may be empty."""
    word = {"REFRESH": "Please send again", "REQUEST": "Invitation", "CANCEL": "Cancelled"}.get(method_of(octets))
    if word is None:
        word = "Declined" if is_declined(octets) else "Accepted"
    return f"{word}: {subject or title_of(events_of(octets), 'your meeting')}"


# ---- what was wrong


def no_room_text(octets, rooms):
    """For a message to rooms that names none of these."""
    named = addresses(octets, "ATTENDEE")
    invited = f"It names {listed(named)}." if named else "It names nobody as an attendee."
    kept = f"The rooms are {listed(rooms)}" if rooms else "There are none"
    return (f"Your {method_of(octets)} names none of the rooms that are kept here, and has booked and changed nothing. {invited}\n"
            f"{kept}. Put the one that you want among the attendees of the meeting, and send it again.")


def refused_text(explanation):
    """For an object that roombox refuses, with what it says about that."""
    return f"A calendar object in your mail was refused, and has booked and changed nothing:\n\n{explanation.strip()}\n\nMend this, and send it again."
