"""Puts bad lines into random objects, and compares the number and the line that `roombox explain` prints with what docs/REFERENCE.md says.

    python3 tests/refused_lines.py bin/roombox [--objects 2000] [--seed 1] [--only NUMBER] [--show]

Without them an object is a message or a store that isn't refused. Of each its number, the line that is to blame and its place in the order of
reading ("Which number comes first") are known as it is put in; of several the first in that order counts. No answer of the program is used, and
no reader. What REFERENCE leaves open isn't asked: of two lines that have to do with each other only one is put in. `--show` runs no program, and
prints the objects with what has to come out; `--only` takes one object.
"""

import argparse
import random
import re
from datetime import date

from lib.cases import Cases
from lib.program import ended, of_arguments
from lib.streams import R1
from lib.zones import WEEKDAYS

METHODS = [None, "REQUEST", "ADD", "CANCEL", "REPLY", "REFRESH"]
NEED_NO_START, BY_FIXED, OF_ONE = ("CANCEL", "REPLY", "REFRESH"), (None, "REPLY"), ("REPLY", "REFRESH")
FORMS = ["utc", "zone", "local", "date"]
# the order of reading: of an object; of a VEVENT, where the numbers are judged of all its lines; and of a part of a VTIMEZONE
UTF8, LINE, TREE, OPEN, VERSION, METHOD, EVENTS, EVENT, MEETING, WHOLE, INSTANCE, ATTENDEES = range(12)
STEPS = ["UID", "ORGANIZER", "DTSTAMP", "SEQUENCE", "STATUS", "RECURRENCE-ID", "DTSTART", "DTEND", "DURATION", "RRULE", "RDATE", "EXDATE", "ATTENDEE",
         57, 50, 51, 52, 67, 34]
LISTS, ZONED, ENDS = ["RDATE", "EXDATE", "ATTENDEE"], ["RECURRENCE-ID", "DTSTART", "DTEND", "RDATE", "EXDATE"], ("DTEND", "DURATION")
OF_PART = ["RDATE", "DTSTART", "TZOFFSETFROM", "TZOFFSETTO", "RRULE"]

# ---- bad lines and bad ends of lines, each with its number; octets that aren't UTF-8 are spelled as Python escapes them

BAD_LINES = [
    (1, "Dear room"), (1, 'X-A;B="x:y"'), (2, "X A:1"), (2, "X-A;RSVP:1"), (2, ":x"), (2, "X-A;B C=d:1"), (2, "X-A\x07:1"), (3, 'X-A;B="x:y'),
    (3, 'X-A;B=x"y":z'), (3, 'X-A;B="x"y:z\x01'), (4, "X-A:a\x07"), (4, "X-A:\x7f"), (4, "X-A:a\rb"), (4, "X-A:a\r"), (5, "X-A:\udcff"),
    (5, "X-A:\udcc0\udc80"), (5, "\udce2\udc82"), *[(20, "END:X-NONE")] * 3]
TIMES = [
    (10, ":20251310T090000Z"), (10, ":2025Z"), (11, ":2025"), (11, ":20250310T0900"), (11, ";TZID=Z:20250310T090000Z"), (11, ";TZID=Q:20250310"),
    (11, ";VALUE=DATE:20250310T090000"), (11, ";VALUE=DATE-TIME:20250310"), (43, ";TZID=Q:20250310T090000"), (56, ";VALUE=PERIOD:20250310T090000Z")]
MORE_TIMES = [*TIMES, (10, ":20250310T090000Z,20250230T090000Z"), (11, ":20250310,x,2025Z"), (43, ";TZID=Q:20250310T090000,20250311T090000")]
ADDRESSES = [(15, ":r1"), (15, ":mailto:"), (15, ":1a:b"), (15, ":mailto:a b"), (15, ":mailto:" + "x" * 1020)]
BAD = {
    "UID": [(14, ":"), (14, ":" + "u" * 1025)], "ORGANIZER": ADDRESSES, "ATTENDEE": ADDRESSES, "DTSTART": TIMES, "DTEND": TIMES, "STATUS": [],
    "DTSTAMP": [(10, ":2025"), (10, ":20250101T000000"), (10, ":20250230T000000Z")], "SEQUENCE": [(16, ":-1"), (16, ":2147483648"), (16, ":")],
    "RECURRENCE-ID": [*TIMES, (65, ";RANGE=THISANDFUTURE:20250310T090000Z")], "RDATE": [*MORE_TIMES, (56, ":20250310,20250310T090000Z/PT1H")],
    "EXDATE": MORE_TIMES, "DURATION": [(12, ":1H"), (12, ":P"), (12, ":P1DT"), (12, ":P1H"), (51, ":-PT1H"), (51, ":P4294967296D")],
    "RRULE": [(30, ":FREQ=HOURLY"), (30, ":FREQ=DAILY;BYHOUR=3"), (30, ":FREQ=DAILY;"), (30, ":FREQ=HOURLY;COUNT=0"), (31, ":FREQ=YEARLY;BYMONTH=13"),
              (31, ":INTERVAL=0"), (32, ":COUNT=3"), (32, ":FREQ=DAILY;FREQ=DAILY"), (33, ":FREQ=DAILY;COUNT=2;UNTIL=20260101")]}
BAD_IN_PART = {
    "RDATE": [], "DTSTART": [(11, ":19700101"), (11, ":x"), (11, ";VALUE=DATE:19700101"), (40, ":19700101T000000Z"), (40, ";TZID=Z:19700101T000000")],
    "TZOFFSETFROM": [(13, ":+1"), (13, ":-0000"), (13, ":0100")], "TZOFFSETTO": [(13, ":+2400"), (13, ":")],
    "RRULE": [(40, ":FREQ=YEARLY;BYMONTH=11;BYDAY=1SU;UNTIL=20300101T000000Z"), (40, ":FREQ=DAILY")]}

# ---- of an object that isn't refused: parts of zones, behind UTC; and what nobody looks at, in a VEVENT, in a part of a zone and beside the VEVENTs

STANDARD = ["STANDARD", "DTSTART:20071104T020000", "TZOFFSETFROM:-0400", "TZOFFSETTO:-0500"]
DAYLIGHT = ["DAYLIGHT", "DTSTART:20070311T020000", "TZOFFSETFROM:-0500", "TZOFFSETTO:-0400", "RRULE:FREQ=YEARLY;BYMONTH=3;BYDAY=2SU"]
ONE_OFFSET = ["DAYLIGHT", "DTSTART:19700101T000000", "TZOFFSETFROM:-0300", "TZOFFSETTO:-0300"]
ZONES = [[[*STANDARD, "RRULE:FREQ=YEARLY;BYMONTH=11;BYDAY=1SU"], DAYLIGHT], [STANDARD], [ONE_OFFSET]]
ALARM, X_PART = ["BEGIN:VALARM", "UID:", "DURATION:x", "DTSTART:x", "ATTENDEE:y", "END:VALARM"], ["BEGIN:X-PART", "TZOFFSETTO:1", "END:X-PART"]
OTHERS = [["BEGIN:VTODO", "DTSTAMP:2025", *ALARM, "END:VTODO"],
          ["BEGIN:VTIMEZONE", "TZID:U", "BEGIN:STANDARD", "DTSTART:x", "TZOFFSETTO:1", "END:STANDARD", "END:VTIMEZONE"]]


class Line:
    """A logical line; nobody looks at one that is idle."""

    def __init__(self, text, idle=False):
        self.text, self.idle = text, idle

    def is_of(self, names):
        return not self.idle and re.split("[:;]", self.text)[0] in names


def own(block, name):
    return [it for it in block if it.is_of([name])]


class Draft:
    """An object that is made. Its lines are in blocks, of which each VEVENT and each part of its zone is one."""

    def __init__(self, chance):
        self.chance, self.method, self.faults, self.claimed, self.parts, self.zone = chance, chance.choice(METHODS), [], set(), [], []
        self.events = [self.event(number) for number in range(chance.randint(1, 3))]
        blocks = [[it] for it in self.events]
        if any(";TZID=Z:" in it.text for event in self.events for it in event):
            parts = chance.choice(ZONES)
            self.parts = [self.component(*it, idle=X_PART) for it in chance.sample(parts, len(parts))]
            self.zone = [Line("BEGIN:VTIMEZONE"), Line("TZID:Z"), Line("X-B:", True)]
            blocks.insert(chance.randint(0, len(blocks)), [self.zone, *self.parts, [Line("END:VTIMEZONE")]])
        for texts in OTHERS:
            blocks.insert(chance.randint(0, len(blocks)), [[Line(it, True) for it in texts]] * (chance.random() < 0.2))
        self.begin, self.end, self.before, self.behind = Line("BEGIN:VCALENDAR"), Line("END:VCALENDAR"), [], []
        self.head, self.tail = [self.begin, Line("X-B:", True)], [Line("X-B:", True), self.end]
        self.blocks = [self.before, self.head, *(it for found in blocks for it in found), self.tail, self.behind]
        for text in ["VERSION:2.0", "PRODID:-//test//EN", *[f"METHOD:{self.method}"] * bool(self.method)]:
            self.put(chance.choice([self.head, self.head, self.tail]), text)

    def component(self, name, *texts, idle):
        """A component of these lines, in any order, and perhaps of some that nobody looks at."""
        chunks = [[Line(it)] for it in texts] + [[Line(it, True) for it in idle]] * (self.chance.random() < 0.2)
        self.chance.shuffle(chunks)
        return [Line(f"BEGIN:{name}"), *(line for chunk in chunks for line in chunk), Line(f"END:{name}")]

    def moment(self, day, hour, forms):
        """The end of a line with a time of March 2025."""
        form, text = self.chance.choice(forms), f"202503{day:02}"
        return f";VALUE=DATE:{text}" if form == "date" else f"{';TZID=Z' * (form == 'zone')}:{text}T{hour:02}0000{'Z' * (form == 'utc')}"

    def event(self, number):
        """A VEVENT: the instance of a day of its own, or the whole meeting."""
        chance, method, is_instance = self.chance, self.method, number > 0 or self.chance.random() < 0.4
        lines = ["UID:u", chance.choice(["ORGANIZER", 'ORGANIZER;CN="Ann: 1"']) + ":mailto:ann@example.com", "DTSTAMP:20250101T000000Z"]
        if is_instance and (method != "ADD" or chance.random() < 0.3):
            lines.append("RECURRENCE-ID" + self.moment(2 + number, 9, FORMS[:2] if method in BY_FIXED else FORMS))
        if method not in NEED_NO_START or chance.random() < 0.6:
            start = self.moment(12 + number, 9, FORMS)
            lines += ["DTSTART" + start, *chance.choice([[], ["DTEND" + start.replace("T09", "T11")], ["DURATION:P1D"]])]
        if not is_instance and method != "ADD":
            lines += chance.choice([[], ["RRULE:FREQ=DAILY"], ["RRULE:FREQ=WEEKLY;COUNT=4"], ["RRULE:FREQ=MONTHLY;UNTIL=20260101"]])
            lines += ["RDATE" + self.moment(20, hour, FORMS) for hour in range(chance.randint(0, 2))]
        lines += ["EXDATE" + self.moment(21, hour, FORMS) for hour in range(chance.randint(0, 2))]
        addresses = [f"ATTENDEE:{R1}", f"ATTENDEE;RSVP=TRUE:{R1.upper()}", "ATTENDEE:mailto:r2@example.com"]
        lines += addresses[:chance.randint(1, 2) if method in OF_ONE else chance.randint(0, 3)]
        more = chance.sample(["SEQUENCE:3", "STATUS:CONFIRMED", 'SUMMARY:\u00e9\u20ac\U0001f4c5: "x', 'X-A;B="c;d:e",f;G=:"'], chance.randint(0, 4))
        return self.component("VEVENT", *lines, *more, idle=ALARM)

    def claims(self, *keys):
        """Whether nothing that was put in has to do with these."""
        is_free = self.claimed.isdisjoint(keys)
        self.claimed.update(keys if is_free else ())
        return is_free

    def put(self, block, text, at=None):
        """A line among those of a component, not in one inside it; or at a place of any block."""
        line = Line(text)
        places = [it for it in range(1, len(block)) if not (block[it - 1].idle and block[it].idle)] if at is None else [at]
        block.insert(self.chance.choice(places), line)
        return line

    def places(self):
        return {id(line): at for at, line in enumerate(line for block in self.blocks for line in block)}

    def spoil(self, blocks, order, number, taken, kept, texts, blame):
        """From blocks the lines of some names are taken, others have to stay as they are, and lines are put in. To blame is a line; or of those
        that are put in the one of a name, or of a place in the text."""
        if not self.claims(*(it if isinstance(it, tuple) else (id(blocks[0]), it) for it in (*taken, *kept))):
            return
        for block in blocks:
            block[:] = [it for it in block if not it.is_of(taken)]
        lines = [self.put(self.chance.choice(blocks), it) for it in texts]
        if isinstance(blame, int):
            places = self.places()
            blame = sorted(lines, key=lambda it: places.get(id(it), 0))[blame]
        self.faults.append((order, number, own(lines, blame)[0] if isinstance(blame, str) else blame))

    def first(self):
        """The number and the line of the fault that counts, None where there is none. A zone is read where a time names it first."""
        places, found = self.places(), []
        naming = next((((*step(number, name, 1), places.get(id(line), 0)), line) for number, event in enumerate(self.events) for name in ZONED
                       for line in own(event, name) if re.match(r"[A-Z-]+;TZID=Z:\d{8}T\d{6}(,|$)", line.text)), None)
        for order, number, line in self.faults:
            if order[0] == "zone":
                order, line = naming and naming[0] + order[1:], line or (naming and naming[1])
            if order and (line is None or id(line) in places):
                found.append(((*order, places.get(id(line), 0)), number, line))
        return min(found, key=lambda it: it[0])[1:] if found else None


def step(number, name, is_value=0):
    """The place in the order of reading where it is judged how often a property is in a VEVENT, what its value is, or what all its lines say."""
    return EVENT, number, 2 * STEPS.index(name) + is_value


# ---- what can be put in, as rows: order, number, taken, kept, texts, blame


def rows_of_values(draft, number, event):
    """A value of a VEVENT, or a property that is missing or there twice."""
    name = draft.chance.choice(list(BAD))
    taken = () if name in LISTS else ENDS if name in ENDS else (name,)
    rows = [(step(number, name, 1), fault, taken, (), [name + end], 0) for fault, end in BAD[name]]
    texts = [it.text for it in own(event, name)] + [name + end for _, end in BAD[name]]
    if taken and texts:
        rows.append((step(number, name), 61, taken, (), [draft.chance.choice(texts), texts[0]], 1))
    if name in ("UID", "ORGANIZER", "DTSTAMP") or (name == "DTSTART" and draft.method not in NEED_NO_START):
        rows.append((step(number, name), 63 if name == "ORGANIZER" else 61, taken, (), [], event[0]))
    if name in ("RDATE", "EXDATE"):
        dates = name + ":" + ",".join(f"{year}0310" for year in range(1990, 2190))
        rows.append((step(number, name, 1), 56, (), (), [dates, dates], 1))
    if name in ENDS:
        rows += [(step(number, "DTEND"), 61, taken, (), [f"DTEND{end}", f"DURATION:{length}"], 1) for _, end in TIMES for length in ("x", "PT1H")]
    return rows


def rows_of_times(draft, number, event):
    """Lines of a VEVENT that don't go together, each good by itself."""
    slot, start, name = own(event, "RECURRENCE-ID"), own(event, "DTSTART"), "RECURRENCE-ID"
    rows = [(step(number, 52), 52, (), (52,), [f"RDATE:20250310,{day}"], 0) for day in ("99991231", "19600101")]
    if slot:
        rows.append((step(number, 52), 52, (name,), (52,), [slot[0].text.replace(":2025", ":1960")], 0))
    if slot and draft.method in BY_FIXED:
        rows += [(step(number, 57), 57, (name,), (57,), [f"{name}:20250310{time}"], 0) for time in ("", "T090000")]
    if slot or draft.method == "ADD":
        lines = draft.chance.choice([["RRULE:FREQ=DAILY"], ["RDATE:20250401T090000Z"], ["RRULE:FREQ=DAILY", "RDATE:20250401T090000Z"]])
        rows.append((step(number, 67), 67, ("RRULE",), (name,), lines, 0))
    end = start[0].text.removeprefix("DTSTART") if start else ""
    day = re.search(r":(2025031\d)(T|$)", end)
    if day and not slot and draft.method != "ADD":
        weekday = WEEKDAYS[(date.fromisoformat(day[1]).weekday() + draft.chance.randint(1, 6)) % 7]
        rows.append((step(number, 34), 34, ("RRULE",), ("DTSTART",), [f"RRULE:FREQ=WEEKLY;BYDAY={weekday}"], 0))
    other = ";VALUE=DATE:20251231" if "TZID" in end or end.endswith("Z") else ":20251231T000000Z"
    changes = [(50, "DTEND", end, end.replace(":2025", ":2024")), (51, "DTEND", end, end.replace(":2025", ":2027")), (51, "DURATION", end, ":P53W"),
               (52, "DTSTART", end.replace(":2025", ":1960"), ""), (52, "DTSTART", ";VALUE=DATE:99991231", ""), (57, "DTEND", end, other),
               (57, "DURATION", ";VALUE=DATE:20250310", ":PT1H")]
    changes += [(52, "DTEND", ";TZID=Z:99991231T100000", ";TZID=Z:99991231T230000")] * bool(draft.zone)
    return rows + [(step(number, fault), fault, ("DTSTART", *ENDS), (fault,), [f"DTSTART{begin}", *[blame + last] * bool(last)], blame)
                   for fault, blame, begin, last in changes if start]


def rows_of_meeting(draft, number, event):
    """A VEVENT beside the others."""
    rows, name = [], "DTSTART" if draft.method == "ADD" else "RECURRENCE-ID"
    if draft.method in OF_ONE:
        rows += [((ATTENDEES,), 64, ("ATTENDEE",), (), it, event[0]) for it in ([], [f"ATTENDEE:{R1}", "ATTENDEE:mailto:r3@example.com"])]
    if len(draft.events) > 1:
        rows += [((MEETING,), 62, (it,), (), [f"{it}:mailto:v{number}"], draft.events[max(number, 1)][0]) for it in ("UID", "ORGANIZER")]
    whole = [it for it in draft.events if it is event or not own(it, name)]
    if draft.method != "ADD" and len(whole) > 1:
        rows.append(((WHOLE,), 53, (name,), (), [], whole[1][0]))
    for at, other in enumerate(draft.events):
        if other is not event and own(event, name) and own(other, name):
            rows.append(((INSTANCE,), 54, (name, *ENDS), ((id(other), name),), [own(other, name)[0].text], draft.events[max(number, at)][0]))
    return rows


def rows_of_part(draft, part):
    """A line of a part of the zone, in the order in which they are read; or what both parts say together."""
    name, later, is_standard = draft.chance.choice(OF_PART), draft.parts[-1], part[0].text == "BEGIN:STANDARD"
    # the lines of the first part are read before its kind is asked for, and the rules behind the other lines
    order = "zone", 0 if part is draft.parts[0] and name != "RRULE" else 2 - is_standard, 2 * OF_PART.index(name)
    if name == "RDATE":
        return [(order, 40, (), (), ["RDATE:20250310T090000"], 0)]
    if name == "RRULE" and part is later is draft.parts[0]:
        return [(order, 40, (), (), ["RRULE:FREQ=YEARLY;BYMONTH=11;BYDAY=1SU"], 0)] * is_standard
    rows = [((*order[:2], order[2] + 1), fault, (name,), (), [name + end], 0) for fault, end in BAD_IN_PART[name]]
    rows += [(order, 40, (name,), (), [], part[0]), (order, 40, (name,), (), [f"{name}:x", f"{name}:-0500"], 1)]
    if part is not later:
        rows.append((("zone", 3), 41, ("TZOFFSETTO",), (), ["TZOFFSETTO:-0700"], later[0]))
        rows += [(("zone", 4), 42, ("RRULE",), ((id(later), "RRULE"),), [it.text], later[0]) for it in own(later, "RRULE")]
    return rows


def bad_row(draft):
    """A row of a VEVENT, of the zone or of the VCALENDAR, each number that there is as often as another."""
    number = draft.chance.randrange(len(draft.events))
    event = draft.events[number]
    found = [([event], rows(draft, number, event)) for rows in [rows_of_values] * 6 + [rows_of_times] * 3 + [rows_of_meeting] * 2]
    found += [([part], rows_of_part(draft, part)) for part in draft.parts * 2]
    found += [([draft.zone], [(("zone", -1), 43, ("TZID",), (), ["TZID:z"], None)])] * bool(draft.zone)
    rows = [((VERSION,), 24, ("VERSION",), (), [], draft.begin)]
    for name, order, fault, good, bad in [("VERSION", VERSION, 24, "2.0", "1.0"), ("METHOD", METHOD, 60, "REQUEST", "PUBLISH")]:
        rows += [((order,), fault, (name,), (), [f"{name}:{bad}"], 0), ((order,), fault, (name,), (), [f"{name}:{good}"] * 2, 1)]
    blocks, rows = draft.chance.choice([*found, ([draft.head, draft.tail], rows)])
    if rows:
        fault = draft.chance.choice(sorted({it[1] for it in rows}))
        draft.spoil(blocks, *draft.chance.choice([it for it in rows if it[1] == fault]))


def bad_line(draft):
    """A line that is bad wherever it is."""
    (number, text), block = draft.chance.choice(BAD_LINES), draft.chance.choice(draft.blocks)
    line = draft.put(block, text, draft.chance.randrange(len(block) or 1))
    draft.faults.append(((UTF8 if number == 5 else LINE if number < 5 else TREE,), number, line))


def bad_tree(draft):
    """Components that don't go together, in one way alone; no VEVENT; or a part too many of the zone."""
    chance, event, before, behind = draft.chance, draft.chance.choice(draft.events), draft.before, draft.behind
    if not draft.claims("tree"):
        return
    begin, end = (next(it for it in event if it.text == f"{word}:VEVENT") for word in ("BEGIN", "END"))
    what = chance.choice(["a line", "a line", "depth", "END", "END and all behind it", "END of VCALENDAR", "VEVENTs", "a third part"])
    if what == "a line":
        lines = [(20, event, "END:VCALENDAR"), *((23, block, "BEGIN:VCALENDAR") for block in (event, behind)), (23, before, "BEGIN:VTODO")]
        number, block, text = chance.choice([*lines, (23, before, "X-A:1"), (23, behind, "X-A:1")])
        fault = (TREE,), number, draft.put(block, text, None if block is event else 0)
    elif what == "depth":
        depth, block, outer = chance.choice([(1, draft.head, draft.begin), (2, event, begin)])
        fault = (TREE,), 22, [draft.put(block, "BEGIN:X-PART", block.index(outer) + 1) for _ in range(8)][depth - 1]
    elif what == "VEVENTs":
        draft.blocks = [it for it in draft.blocks if not any(it is other for other in draft.events)]
        fault = (EVENTS,), 66, None
    elif what == "a third part" and len(draft.parts) < 2:
        return
    elif what == "a third part":
        draft.blocks.insert(draft.blocks.index(draft.parts[1]), draft.component(*STANDARD, idle=X_PART))
        fault = ("zone", 0.5), 40, draft.zone[0]
    else:
        fault = {"END": ((TREE,), 20, draft.end), "END and all behind it": ((OPEN,), 21, begin), "END of VCALENDAR": ((OPEN,), 21, draft.begin)}[what]
        (draft.end if what == "END of VCALENDAR" else end).text = "X-B:"
        if what == "END and all behind it":
            del draft.blocks[next(at for at, it in enumerate(draft.blocks) if it is event) + 1:]
    draft.faults.append(fault)


# ---- objects, and what has to come out


def written(draft):
    """The octets of an object; and of each of its lines the physical line on which it begins, and its name."""
    chance, out, places = draft.chance, bytearray(b"\xef\xbb\xbf" * (draft.chance.random() < 0.1)), {}
    often, breaks = chance.choice([0, 0.1, 0.5]), chance.choice([[b"\n"], [b"\r\n"], [b"\r\n"], [b"\n", b"\r\n"]])
    for line in (line for block in draft.blocks for line in block):
        text = re.sub("^(BEGIN:.*|END:.*|[A-Z-]+)", lambda it: it[0].lower(), line.text) if chance.random() < 0.05 else line.text
        octets = text.encode(errors="surrogateescape")
        pieces = chance.choice([[b""], [b"", b""], [b"", b"\t"]]) if chance.random() < often / 2 else []
        places[id(line)] = out.count(b"\n") + len(pieces) + 1, re.split("[:;]", text)[0]
        folds = sorted(chance.randint(0, len(octets)) for _ in range(chance.randint(1, 3) if chance.random() < often else 0))
        spans = enumerate(zip([0, *folds], [*folds, len(octets)]))
        for piece in pieces + [chance.choice([b" ", b"\t"]) * bool(at) + octets[start:end] for at, (start, end) in spans]:
            out += piece + (b"\r\n" if piece.endswith(b"\r") else chance.choice(breaks))
    return bytes(out) if chance.random() < 0.8 or out.endswith(b"\r\r\n") else bytes(out).rstrip(b"\r\n"), places


def made(seed, number):
    """The octets of an object, and the first line that `explain` has to print of it."""
    chance = random.Random(f"refused {seed} {number}")
    draft, most = Draft(chance), chance.choice([0] + [1] * 9 + [2] * 6 + [3] * 4)
    while len(draft.faults) < most:
        chance.choice([bad_row] * 26 + [bad_line] * 3 + [bad_tree] * 3)(draft)
    octets, places = written(draft)
    fault, line = draft.first() or (None, None)
    at, name = places.get(id(line), (0, ""))
    # where the octets of the line are no content line, there is no property: a CR at the end is taken off there
    is_content = fault and (fault > 5 or line is not None and line.text.endswith("\r"))
    return octets, f"refused {fault}" + f" at line {at}" * bool(at) + f": {name}" * bool(at and is_content) if fault else "not refused"


def compared(text):
    """Of 40 to 42 `explain` names the line that is in the way, and not that of the refusal: the number alone is compared."""
    return text.partition(" at line ")[0] if text.startswith(("refused 40", "refused 41", "refused 42")) else text


def main():
    parser = argparse.ArgumentParser()
    parser.add_argument("program", nargs="?")
    parser.add_argument("--objects", type=int, default=2000)
    parser.add_argument("--seed", type=int, default=1)
    parser.add_argument("--only", type=int)
    parser.add_argument("--show", action="store_true")
    words, cases, program = parser.parse_args(), Cases(), of_arguments()
    for number in range(words.objects) if words.only is None else [words.only]:
        octets, wanted = made(words.seed, number)
        shown = [f"{at:4} {line!r}" for at, line in enumerate(octets.split(b"\n"), 1)]
        if words.show:
            print("\n".join([f"{number}: {wanted}", *shown]))
            continue
        status, out, said = ended(program, "explain", given=octets)
        found = status, compared(re.sub("^not refused: .*", "not refused", out.decode().partition("\n")[0])), said
        differs = found != (int(wanted != "not refused"), compared(wanted), b"")
        cases.tells(f"object {number} of the seed {words.seed}", [f"found {found}, wanted {wanted!r}", *shown] * differs)
    cases.end(f"{cases.count} objects, {cases.failed} differ")


if __name__ == "__main__":
    main()
