"""The objects of iCalendar (RFC 5545) in octets: where one ends, and what its lines say. roombox alone judges them."""

import re
from dataclasses import dataclass

BYTE_ORDER_MARK = b"\xef\xbb\xbf"
# a line with its continuations
FOLDED = re.compile(rb"[^\n]*(?:\n[ \t][^\n]*)*(?:\n|\Z)")
FOLD = re.compile(rb"\r?\n[ \t]")
# the first line of an object, behind a byte order mark and empty lines
FIRST = re.compile(rb"(?:\xef\xbb\xbf)?[\r\n]*([^\n]*(?:\n[ \t][^\n]*)*\n)")
NAME = re.compile(r"[^;:]*")
PARAMETER = re.compile(r';([^=;:"]+)=((?:"[^"]*"|[^";:])*)')


@dataclass(frozen=True)
class Line:
    """A content line: its name and the names of its parameters are in upper case."""
    name: str
    parameters: dict
    value: str


def ends_object(folded):
    """Whether this is the line that ends an object, whatever its case, also if it is the object's first."""
    line = FOLD.sub(b"", folded.removeprefix(BYTE_ORDER_MARK).removesuffix(b"\n")).removesuffix(b"\r")
    return line.lower() == b"end:vcalendar"


def split_objects(octets):
    """The objects that stand one after another, cut as roombox cuts a stream: so none of them hides another one. What is behind the last is an object
    too; empty lines aren't."""
    ends = [found.end() for found in FOLDED.finditer(octets) if ends_object(found[0])]
    pieces = [octets[begin:end].lstrip(b"\r\n") for begin, end in zip([0, *ends], [*ends, len(octets)])]
    return [piece for piece in pieces if piece.removeprefix(BYTE_ORDER_MARK).strip(b"\r\n")]


def read_line(text):
    """The line that this text is; what isn't one has its text as its name."""
    name = NAME.match(text)
    parameters, at = {}, name.end()
    while found := PARAMETER.match(text, at):
        parameters.setdefault(found[1].upper(), found[2].strip('"'))
        at = found.end()
    return Line(name[0].upper(), parameters, text[at + 1:])


def lines_of(octets):
    """The content lines, each with its continuations."""
    text = octets.removeprefix(BYTE_ORDER_MARK).decode("utf-8", "replace")
    unfolded = re.sub(r"\r?\n[ \t]", "", text)
    return [read_line(line.removesuffix("\r")) for line in unfolded.split("\n") if line.strip("\r")]


def placed(octets):
    """Pairs of a line, but for END, and the names of the components that it is in, from the outermost on; a BEGIN is in its own."""
    around = ()
    for line in lines_of(octets):
        if line.name == "END":
            around = around[:-1]
            continue
        if line.name == "BEGIN":
            around += (line.value.upper(),)
        yield line, around


def method_of(octets):
    """The METHOD of the calendar itself, in upper case; None if it has none."""
    found = [line.value.strip().upper() for line, around in placed(octets) if line.name == "METHOD" and len(around) == 1]
    return found[0] if found else None


def with_method(octets, method):
    """The object with this METHOD behind its first line, if that is a BEGIN; else roombox refuses it in any case."""
    first = FIRST.match(octets)
    if not first or not any(line.name == "BEGIN" for line in lines_of(first[1])):
        return octets
    ended = b"\r\n" if first[1].endswith(b"\r\n") else b"\n"
    return octets[:first.end()] + b"METHOD:" + method.encode("ascii", "replace") + ended + octets[first.end():]


def events_of(octets):
    """The lines of each VEVENT, without those of the components inside it."""
    events = []
    for line, around in placed(octets):
        if around[1:] != ("VEVENT",):
            continue
        if line.name == "BEGIN":
            events.append([])
        else:
            events[-1].append(line)
    return events


def values(event, name):
    return [line.value for line in event if line.name == name]


def first_value(event, name):
    return next(iter(values(event, name)), None)


def addresses(octets, name):
    """The addresses under this property of all VEVENTs, in lower case, each once, in their order."""
    return list(dict.fromkeys(value.lower() for event in events_of(octets) for value in values(event, name)))
