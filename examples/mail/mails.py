"""What a mail brings (RFC 6047): the objects in it, and who is told if they can't be taken."""

import email
import email.policy
import hashlib
import re
from dataclasses import dataclass, field
from email.errors import MessageError
from email.header import decode_header, make_header
from email.utils import collapse_rfc2231_value, getaddresses

from adapting import adapted
from calendars import method_of, split_objects, with_method

ADDRESS = re.compile(r"[A-Za-z0-9.!#$%&'*+/=?^_`{|}~-]+@[A-Za-z0-9._-]+")
WORD = re.compile(r"[A-Z-]+")
MESSAGE_ID = re.compile(r"<[!-;=?-~]+>")
# texts that Python decodes by other means than a charset
NO_CHARSETS = {"idna", "punycode", "unicode_escape", "raw_unicode_escape"}
EMPTY = "The calendar part of your mail is empty."
NO_METHOD = "The calendar in your mail has no METHOD, so it isn't an invitation. Send the meeting from your calendar program, with the room as an attendee."
OTHER_METHOD = "Your mail says that it brings a {0}, and its calendar says {1}. Send the meeting again from your calendar program."


@dataclass
class Mail:
    """A mail as it came. `key` is the same for each copy of one mail; `sender` is whom a fault may be told, if anybody."""
    key: str
    sender: str | None
    subject: str
    message_id: str | None
    objects: list = field(default_factory=list)
    faults: list = field(default_factory=list)


# ---- its parts


def parts_of(message):
    """The parts without parts of their own. A mail that is part of this one, as in a bounce, is left alone."""
    if message.get_content_maintype() == "message":
        return
    if message.is_multipart():
        for part in message.get_payload():
            yield from parts_of(part)
    else:
        yield message


def method_named(part):
    """The METHOD that the part's own header names, in upper case."""
    named = collapse_rfc2231_value(part.get_param("method") or "").strip().upper()
    return named if WORD.fullmatch(named) else None


def calendar_parts(message):
    """The parts text/calendar. If one names its METHOD, as RFC 6047 wants it, only those that do: the others are copies for people."""
    parts = [part for part in parts_of(message) if part.get_content_type() == "text/calendar"]
    return [part for part in parts if method_named(part)] or parts


def in_utf8(octets, charset):
    """The text in UTF-8. What isn't a text in this charset stays as it is: roombox says whether it can be read."""
    if charset in NO_CHARSETS:
        return octets
    try:
        return octets.decode(charset).encode()
    except (LookupError, UnicodeError):
        return octets


def calendar_text(part):
    return in_utf8(part.get_payload(decode=True) or b"", part.get_content_charset("utf-8"))


# ---- whom it is from


def header(message, name):
    """What the header says, as one line."""
    raw = str(message.get(name, ""))
    try:
        raw = str(make_header(decode_header(raw)))
    except (LookupError, ValueError, MessageError):
        # it stays as it was written
        pass
    return " ".join(raw.split())


def first_address(message, name):
    found = [address for _, address in getaddresses([str(value) for value in message.get_all(name, [])]) if ADDRESS.fullmatch(address)]
    return found[0] if found else None


def may_be_told(message):
    """Whether a program may write to the sender (RFC 3834): not to one that is a program itself, nor to a list, nor to nobody."""
    automatic = [str(value).split(";")[0].split("(")[0].strip().lower() for value in message.get_all("Auto-Submitted", [])]
    return_paths = [str(value).strip() for value in message.get_all("Return-Path", [])]
    return all(word == "no" for word in automatic) and "List-Id" not in message and not any(path in ("", "<>") for path in return_paths)


def sender_of(message):
    if not may_be_told(message):
        return None
    return first_address(message, "Reply-To") or first_address(message, "From")


# ---- the whole


def key_of(message, texts):
    """The same for each copy of a mail, whatever way it came: by what its writer wrote."""
    pieces = [str(message.get(name, "")).encode("utf-8", "surrogateescape") for name in ("Message-ID", "From", "Date")]
    digest = hashlib.sha256()
    for piece in [*pieces, *texts]:
        digest.update(b"%d:" % len(piece) + piece)
    return digest.hexdigest()[:40]


def add_object(mail, octets, named):
    """Takes an object with its METHOD, which the part's header or the object itself says."""
    own = method_of(octets)
    if own and named and own != named:
        mail.faults.append(OTHER_METHOD.format(named, own))
    elif not own and not named:
        mail.faults.append(NO_METHOD)
    else:
        mail.objects.append(adapted(octets if own else with_method(octets, named)))
    if "REPLY" in (own, named):
        mail.sender = None


def read_parts(message):
    parts = [(calendar_text(part), method_named(part)) for part in calendar_parts(message)]
    mail = Mail(key_of(message, [text for text, _ in parts]), sender_of(message), header(message, "Subject"), None)
    found = MESSAGE_ID.search(str(message.get("Message-ID", "")))
    mail.message_id = found[0] if found else None
    # a copy for people has the same lines
    for text, named in {text.replace(b"\r\n", b"\n"): (text, named) for text, named in parts}.values():
        pieces = split_objects(text)
        if not pieces:
            mail.faults.append(EMPTY)
        for piece in pieces:
            add_object(mail, piece, named)
    return mail


def read_mail(octets):
    """The mail in these octets; None if they can't be read as one."""
    try:
        return read_parts(email.message_from_bytes(octets, policy=email.policy.compat32))
    except Exception:
        # strangers write these octets, and the library doesn't say what it raises: one mail must not stop all that come after it
        return None
