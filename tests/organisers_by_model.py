"""Random conversations of organisers, answered by the program and by the model of lib/books.py.

    python3 tests/organisers_by_model.py bin/roombox [--streams 500] [--seed 1]
    python3 tests/organisers_by_model.py bin/roombox --only "1 17"    # one stream by its seed and number: it, and both answers if they differ
    python3 tests/organisers_by_model.py --table N          # prints N cases of what organisers show, for crates/worked_examples/data/organisers.txt,
    python3 tests/organisers_by_model.py --table N --days   # and N with whole days and times without zone

Each stream has two organisers and stores, replies and refreshes of a few meetings: instances by RECURRENCE-ID before and behind the whole meeting, RDATE
and EXDATE, times in UTC and in two zones, whole days and times without zone, which are sent as they came, SUMMARY with escapes, attendees that occur twice,
agents of each kind, statuses, a SEQUENCE near the last one; replies to older and newer stores, of strangers, of two attendees; objects of organisers that aren't
hosted, with METHODs that aren't taken, with two VEVENTs for the whole or for one instance. Compared is all that is written, octet by octet.
"""

import argparse
import random
import sys
from collections import Counter
from datetime import datetime, timedelta

from lib.books import MOST, RANKS, Message, OrganiserBook
from lib.cases import Cases
from lib.program import of_arguments, run
from lib.streams import HEAD, folded, spelled
from lib.zones import EPOCH, vtimezone

NOW = "20250102T000000Z"
ORGANISERS = ["mailto:ann@example.com", "mailto:bob@example.com"]
STRANGER = "mailto:eve@example.com"
PEOPLE = ["mailto:r1@example.com", "mailto:r2@example.com", "mailto:cid@example.com", "mailto:dora@example.com", ORGANISERS[0]]
# the offsets of zones in the days of the meetings
ZONES = {"America/New_York": timedelta(hours=-5), "Asia/Kolkata": timedelta(hours=5, minutes=30)}


def escaped(text):
    return text.replace("\\", "\\\\").replace(";", "\\;").replace(",", "\\,").replace("\n", "\\n")


def utc(at):
    return at.strftime("%Y%m%dT%H%M%SZ")


def unfixed(form, at):
    """A time that isn't in UTC and has no TZID: its parameters and its text."""
    return (";VALUE=DATE", f"{at:%Y%m%d}") if form == "date" else ("", f"{at:%Y%m%dT%H%M%S}")


class Event:
    """One VEVENT: a start in UTC, in a zone in winter, without zone or as a date, its length in seconds, times that are added and taken away."""

    # whether whole days and times without zone are drawn
    with_days = True

    def __init__(self, draw, uid, instance):
        self.uid, self.instance = uid, instance
        self.start = datetime(2025, 1, 6, 9) + timedelta(days=draw.randrange(20), minutes=30 * draw.randrange(16))
        self.seconds = draw.choice([0, 1800, 3600, 86_400, 90_000])
        self.zone = draw.choice([None, None, None, *ZONES])
        self.days = draw.random() < 0.2
        dates = [self.start + timedelta(days=draw.randrange(1, 9)) for _ in range(draw.choice([0, 0, 1, 3]))]
        self.added = [] if instance else dates
        self.taken = [it for it in dates if draw.random() < 0.4]
        self.form, self.forms = "fixed", ["fixed"]
        if Event.with_days:
            self.draw_form(draw)
        self.added, self.taken = ([(draw.choice(self.forms) if Event.with_days else "fixed", it) for it in dates] for dates in (self.added, self.taken))
        self.cancelled = draw.random() < 0.12
        self.sequence = draw.choice([None, None, 0, 1, 2, 3, 7])
        self.summary = draw.choice([None, "Plan", "", "a, b; c\\d\ne", "Straße " * 12])
        self.lines = [(draw.choice(PEOPLE), draw.choice([None, None, None, None, "SERVER", "server", "CLIENT", "NONE", "X-OTHER"])) for _ in range(draw.randrange(0, 5))]

    def draw_form(self, draw):
        """A third of the events are whole days or without zone; half of all have lists of any form."""
        self.form = draw.choice(["fixed"] * 4 + ["date", "floating"])
        if draw.random() < 0.5:
            self.forms = ["fixed", "date", "floating"]
        if self.form != "fixed":
            self.zone = None
        if self.form == "date":
            self.start, self.days = self.start.replace(hour=0, minute=0), True
            self.seconds = 86_400 * draw.choice([0, 1, 1, 2])

    def length(self):
        whole = self.seconds == 86_400 or (self.form == "date" and self.seconds)
        return f"P{self.seconds // 86_400}D" if self.days and whole else f"PT{self.seconds}S"

    def first(self):
        """The line of DTSTART."""
        if self.form != "fixed":
            return "DTSTART" + ":".join(unfixed(self.form, self.start))
        return f"DTSTART;TZID={self.zone}:{self.start + ZONES[self.zone]:%Y%m%dT%H%M%S}" if self.zone else f"DTSTART:{utc(self.start)}"

    def given(self, draw, organiser):
        """Its lines as a client writes them, in any order."""
        lines = [f"UID:{escaped(self.uid)}", "DTSTAMP:20250101T000000Z", f"ORGANIZER:{draw.choice([organiser, organiser.upper()])}"]
        lines.append(self.first())
        lines += self.end(draw) if Event.with_days else [f"DURATION:{self.length()}"]
        if self.instance:
            lines.append(f"RECURRENCE-ID:{utc(self.instance)}")
        if self.sequence is not None:
            lines.append(f"SEQUENCE:{self.sequence}")
        if self.cancelled:
            lines.append("STATUS:CANCELLED")
        if self.summary is not None:
            lines.append(f"SUMMARY;LANGUAGE=de:{escaped(self.summary)}")
        for word, times in ("RDATE", self.added), ("EXDATE", self.taken):
            lines += [f"{word}:{utc(at)}" if form == "fixed" else word + ":".join(unfixed(form, at)) for form, at in times]
        draw.shuffle(lines)
        attendees = [f"ATTENDEE{';SCHEDULE-AGENT=' + agent if agent else ''};CN=x:{address}" for address, agent in self.lines]
        return ["BEGIN:VEVENT", *lines, *attendees, "END:VEVENT"]

    def end(self, draw):
        """The line that says how long it lasts, if any."""
        if self.form == "date" and self.seconds == 86_400 and draw.random() < 0.4:
            return []
        if self.form == "date" and draw.random() < 0.5:
            return ["DTEND" + ":".join(unfixed("date", self.start + timedelta(seconds=self.seconds)))]
        if self.form == "floating" and not self.days and draw.random() < 0.5:
            return ["DTEND" + ":".join(unfixed("floating", self.start + timedelta(seconds=self.seconds)))]
        return [f"DURATION:{self.length()}"]


class Hosts:
    """What organisers keep, and what they answer to each object: octets, or the number of a refusal."""

    def __init__(self):
        self.books = {organiser: OrganiserBook(organiser) for organiser in ORGANISERS}

    def last(self, organiser, uid):
        return self.books[organiser].stores.get(escaped(uid)) if organiser in self.books else None

    def answer(self, octets):
        message = Message(octets.decode())
        sent = message.refused or (self.books[message.organiser].take(message, NOW) if message.organiser in self.books else 70)
        return sent if isinstance(sent, int) else "".join(sent).encode()


def calendar(method, lines):
    return [*HEAD, *[f"METHOD:{method}"] * bool(method), *lines, "END:VCALENDAR"]


def one_store(draw, hosts, organiser, uid):
    whole = [None] if draw.random() < 0.9 else []
    instances = draw.sample([datetime(2025, 1, 7, 9) + timedelta(days=it) for it in range(4)], draw.choice([0, 0, 1, 2]))
    slots = whole + instances or [datetime(2025, 1, 7, 9)]
    draw.shuffle(slots)
    events = [Event(draw, uid, it) for it in slots]
    if draw.random() < 0.02:
        events[0].sequence = draw.choice([MOST, MOST - 1])
    zone = [it for name in dict.fromkeys(it.zone for it in events if it.zone) for it in vtimezone(name, name)]
    lines = [it for event in events for it in event.given(draw, organiser)]
    fault = draw.random()
    if fault < 0.04:
        # the first VEVENT once more
        return calendar(None, zone + events[0].given(draw, organiser) + lines)
    if fault < 0.06:
        return calendar("PUBLISH", zone + lines)
    if 0.08 <= fault < 0.11 and Event.with_days and any(it.instance for it in events):
        # an organiser's book has no clocks that such an instance could be on
        forms = [";VALUE=DATE:20250107", ":20250107", ":20250107T090000"]
        return calendar(None, zone + ["RECURRENCE-ID" + draw.choice(forms) if it.startswith("RECURRENCE-ID") else it for it in lines])
    if fault < 0.08:
        other = Event(draw, uid + "x", None)
        more = vtimezone(other.zone, other.zone) if other.zone else []
        return calendar(None, zone + more + lines + other.given(draw, organiser))
    return calendar(None, zone + lines)


def one_reply(draw, hosts, organiser, uid):
    stored = hosts.last(organiser, uid)
    last, lines = stored.sequence if stored else 0, []
    likely = [it.slot and EPOCH + timedelta(seconds=it.slot) for it in stored.components] if stored and draw.random() < 0.7 else []
    slots = list(dict.fromkeys([*likely, None, datetime(2025, 1, 7, 9), datetime(2025, 1, 8, 9)]))[: draw.choice([1, 1, 2])]
    people = sorted(stored.named) if stored and stored.named and draw.random() < 0.9 else PEOPLE
    doubled = draw.random() < 0.05
    for slot in slots:
        by = draw.choice(people + [STRANGER] * (draw.random() < 0.1))
        rank = draw.randrange(5)
        word = draw.choice([RANKS[rank], RANKS[rank].lower()]) if rank else draw.choice([None, "NEEDS-ACTION", "X-OTHER"])
        sequence = draw.choice([None, last, last, last, last, max(0, last - 1), min(MOST, last + (draw.random() < 0.2))])
        stamp = f"202501{draw.randrange(1, 4):02}T000000Z"
        event = [f"UID:{escaped(uid)}", f"DTSTAMP:{stamp}", f"ORGANIZER:{organiser}", *[f"SEQUENCE:{sequence}" for _ in [1] if sequence is not None]]
        event += [f"RECURRENCE-ID:{utc(slot)}" for _ in [1] if slot]
        attendees = [f"ATTENDEE{';PARTSTAT=' + word if word else ''}:{by}"]
        if draw.random() < 0.1:
            attendees.append(f"ATTENDEE;PARTSTAT=DECLINED:{by.upper()}")
        if doubled:
            attendees.append("ATTENDEE:mailto:zed@example.com")
        lines += ["BEGIN:VEVENT", *event, *attendees, "END:VEVENT"]
    if Event.with_days and any(slots) and draw.random() < 0.05:
        unfixed_lines = [it[:-1] if it.startswith("RECURRENCE-ID") else it for it in lines]
        return calendar("REPLY", unfixed_lines)
    if doubled:
        return calendar("REPLY", lines)
    return calendar(draw.choice(["REPLY", "reply"]), lines)


def one_refresh(draw, hosts, organiser, uid):
    by = draw.choice(PEOPLE + [STRANGER])
    event = [f"UID:{escaped(uid)}", "DTSTAMP:20250101T000000Z", f"ORGANIZER:{organiser}"]
    if draw.random() < 0.06:
        return calendar("REFRESH", ["BEGIN:VEVENT", *event, "END:VEVENT"])
    if Event.with_days and draw.random() < 0.3:
        event.append("RECURRENCE-ID;VALUE=DATE:20250107")
    return calendar("REFRESH", ["BEGIN:VEVENT", *event, f"ATTENDEE:{by}", "END:VEVENT"])


def conversation(draw, organisers):
    """Objects, and what is answered to each: octets, or the number of a refusal."""
    hosts, objects = Hosts(), []
    for _ in range(draw.randrange(1, 18)):
        organiser, uid = draw.choice(organisers), draw.choice(["s", "s", "s", "t", "a;b"])
        kind = draw.choice([one_store] * (1 if hosts.last(organiser, uid) else 8) + [one_reply] * 5 + [one_refresh])
        octets = folded(kind(draw, hosts, organiser, uid))
        objects.append((octets, hosts.answer(octets)))
    return hosts, objects


def expected(objects):
    out = b""
    for number, (_, answer) in enumerate(objects, 1):
        out += f"REFUSED;OBJECT={number}:{answer}\r\n".encode() if isinstance(answer, int) else answer
    return out


def print_table(count, with_days):
    Event.with_days = with_days
    for number in range(count):
        hosts, objects = conversation(random.Random(f"{'days' if with_days else 'table'} {number}"), ORGANISERS[:1])
        stream = b"".join(octets for octets, _ in objects)
        for uid in sorted(hosts.books[ORGANISERS[0]].stores):
            plain = uid.replace("\\", "")
            name = f"conversation {'of days ' if with_days else ''}{number}, what is shown of {plain.replace(';', ' ')}"
            print(f"{name} | shown | {spelled(stream)} | {plain}")
            print(f"{name}: {spelled(hosts.books[ORGANISERS[0]].text(uid).encode(), 'x')}", file=sys.stderr)


def compared(cases, program, name, met):
    _, objects = conversation(random.Random(name), [*ORGANISERS, ORGANISERS[0], STRANGER])
    stream = "".join([f"now {NOW}\n", *(f"organiser {it}\n" for it in ORGANISERS), "\n"]).encode() + b"".join(octets for octets, _ in objects)
    met.update(["objects"] * len(objects) + ["refused"] * sum(isinstance(answer, int) for _, answer in objects))
    ran, wanted = run(program, given=stream), (0, expected(objects).decode(), "")
    if ran != wanted:
        print(stream.decode(), "\n---- the program\n" + ran[1], "\n---- the model\n" + wanted[1])
    cases.holds(f"stream {name}", ran, wanted)


def main():
    parser = argparse.ArgumentParser()
    parser.add_argument("program", nargs="?")
    parser.add_argument("--streams", type=int, default=500)
    parser.add_argument("--seed", type=int, default=1)
    parser.add_argument("--only")
    parser.add_argument("--table", type=int)
    parser.add_argument("--days", action="store_true")
    words = parser.parse_args()
    if words.table is not None:
        print_table(words.table, words.days)
        return
    cases, met = Cases(), Counter()
    for name in [words.only] if words.only else [f"{words.seed} {number}" for number in range(words.streams)]:
        compared(cases, of_arguments(), name, met)
    cases.end(*(f"{count} {what}" for what, count in sorted(met.items())))


if __name__ == "__main__":
    main()
