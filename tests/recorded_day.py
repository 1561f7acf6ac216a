"""Replays a day of messages in other orders: what each room knows of each meeting is the same afterwards, and nothing that it confirmed clashes.

    python3 tests/recorded_day.py bin/roombox [--orders 10] [--seed 1]

A day is recorded: four organisers ask for four rooms in zones, change and cancel meetings and single instances, add instances, take rooms away and ask for others; a fifth
one, whom the box hosts, stores meetings, and people reply to it and ask it for a refresh. The messages come in random orders, some of them more than once. Then:

- each message is sent once more, in the order of the day: it is answered by the rooms whose newest revision it has, of the meeting or of an instance, and by no other. Which
  these are lib/books.py says from the messages alone; so they are the same in each order;
- what the hosted organiser sees is the same in each order;
- the checker says yes to each kept calendar;
- the instances of all that was accepted, reckoned by that model from the messages, share no instant, and they are those of the kept calendar and of its agenda.
"""

import argparse
import random
import re
from collections import Counter
from dataclasses import dataclass, field
from datetime import datetime, timedelta, timezone
from zoneinfo import ZoneInfo

from dateutil.rrule import rrulestr

from lib import books
from lib.calendars import Calendar, instances
from lib.cases import Cases
from lib.program import checked, kept, of_arguments, run, with_calendar
from lib.streams import calendar
from lib.zones import WORDS, moment, vtimezone

MESSAGES = 200
# where rules without an end are no longer followed: past SPAN
HORIZON = moment("20270103T000000Z")
NOW = "20250303T190000Z"
NAMES = {"UTC": "UTC", "Berlin": "Europe/Berlin", "York": "America/New_York"}
ZONES = {zone: ZoneInfo(name) for zone, name in NAMES.items()}
ROOMS = {f"mailto:r{number}@example.com": zone for number, zone in enumerate(["UTC", "Berlin", "York", "UTC"], 1)}
PEOPLE = ["ann", "bob", "cleo", "dan"]
HOST = "mailto:eve@example.com"
PREAMBLE = f"now {NOW}\n" + "".join(f"room {room}\nzone {room} {WORDS[NAMES[zone]]}\n" for room, zone in ROOMS.items()) + f"organiser {HOST}\n\n"
SPAN = "20250101T000000Z", "20270101T000000Z"
RULES = ["FREQ=DAILY;COUNT=5", "FREQ=WEEKLY;COUNT=8", "FREQ=WEEKLY", "FREQ=WEEKLY;INTERVAL=2;BYDAY=TU,TH;COUNT=9", "FREQ=MONTHLY;BYMONTHDAY={day};COUNT=4", "FREQ=WEEKLY;UNTIL=20261201T235959Z"]
SPOILED = "BEGIN:VCALENDAR\r\nEND:VCALENDAR\r\n"


# ---- messages


def days_of(rule, start):
    """The local starts of a rule. No UNTIL here is so near to a start that the offset of the zone matters."""
    return rrulestr(rule.replace("59Z", "59"), dtstart=start)


@dataclass
class Event:
    """A VEVENT: of the meeting, or of the instance whose original start is `slot`, an instant."""

    uid: str
    organiser: str
    sequence: int
    stamp: str
    rooms: tuple
    zone: str = "UTC"
    start: datetime = None
    minutes: int = 60
    is_day: bool = False
    rule: str = ""
    left_out: tuple = ()
    slot: datetime = None

    def time(self, local):
        return f"{local:%Y%m%dT%H%M%S}"

    def property(self, name, local):
        return f"{name};VALUE=DATE:{local:%Y%m%d}" if self.is_day else f"{name}:{self.time(local)}Z" if self.zone == "UTC" else f"{name};TZID={self.zone}:{self.time(local)}"

    def lines(self):
        lines = ["BEGIN:VEVENT", f"UID:{self.uid}", f"SEQUENCE:{self.sequence}", f"DTSTAMP:{self.stamp}", f"ORGANIZER:mailto:{self.organiser}@example.com", *(f"ATTENDEE:{room}" for room in self.rooms)]
        lines += [f"RECURRENCE-ID:{self.slot:%Y%m%dT%H%M%SZ}"] if self.slot else []
        if self.start:
            lines += [self.property("DTSTART", self.start), f"DURATION:P{self.minutes // 1440}D" if self.is_day else f"DURATION:PT{self.minutes}M"]
        lines += [f"RRULE:{self.rule}"] if self.rule else []
        return lines + [self.property("EXDATE", local) for local in self.left_out] + ["END:VEVENT"]


@dataclass
class Message:
    method: str
    events: list

    def text(self):
        zones = [line for zone in ("Berlin", "York") if any(event.zone == zone and event.start and not event.is_day for event in self.events) for line in vtimezone(NAMES[zone], zone)]
        return calendar(*zones, *(line for event in self.events for line in event.lines()), method=self.method)


# ---- a day


@dataclass
class Meeting:
    """A meeting as its organiser has it."""

    whole: Event
    sequence: int = 0
    is_cancelled: bool = False
    moved: dict = field(default_factory=dict)


class Day:
    """What the organisers send in the course of a day."""

    def __init__(self, chance):
        self.chance, self.meetings, self.messages, self.second = chance, [], [], 0
        often = {self.asks: 6, self.moves_all: 3, self.repeats: 1, self.moves_one: 4, self.moves_both: 2, self.cancels_one: 2, self.cancels: 2, self.adds: 3, self.takes_away: 2, self.asks_more: 1}
        actions = [action for action, count in often.items() for _ in range(count)]
        while len(self.messages) < MESSAGES:
            self.chance.choice(actions if self.meetings else [self.asks])()

    def stamp(self):
        self.second += self.chance.randint(20, 170)
        return f"{datetime(2025, 3, 3, 8) + timedelta(seconds=self.second):%Y%m%dT%H%M%SZ}"

    def sends(self, method, *events):
        self.messages.append(Message(method, list(events)))

    def time(self):
        return datetime(2025, 3, 10) + timedelta(days=self.chance.randint(0, 45), hours=self.chance.randint(7, 18), minutes=self.chance.choice([0, 0, 15, 30]))

    def asked_rooms(self):
        return tuple(sorted(self.chance.sample(sorted(ROOMS), self.chance.choice([1, 1, 1, 2, 2, 3]))))

    def event(self, meeting, **how):
        """The whole meeting with a new revision."""
        meeting.sequence += 1
        old = meeting.whole
        named = {name: getattr(old, name) for name in ("uid", "organiser", "rooms", "zone", "start", "minutes", "is_day", "rule", "left_out")}
        return Event(**{**named, "sequence": meeting.sequence, "stamp": self.stamp(), **how})

    def asks(self):
        chance = self.chance
        rule = chance.choice(["", "", "", *RULES])
        start, is_day = self.time(), chance.random() < 0.1
        if "BYDAY" in rule:
            start += timedelta(days=(1 - start.weekday()) % 7)
        start = start.replace(hour=0, minute=0) if is_day else start
        rule = "" if is_day and "UNTIL" in rule else rule.format(day=start.day)
        zone = "UTC" if is_day else chance.choice(["UTC", "Berlin", "York"])
        whole = Event(f"m{len(self.meetings)}", chance.choice(PEOPLE), 0, self.stamp(), self.asked_rooms(), zone, start, 1440 if is_day else chance.choice([15, 30, 60, 60, 90, 240]), is_day, rule)
        self.meetings.append(Meeting(whole))
        self.sends("REQUEST", whole)

    def one(self, wants=lambda meeting: True):
        found = [meeting for meeting in self.meetings if wants(meeting)]
        return self.chance.choice(found) if found else None

    def alive(self):
        return self.one(lambda meeting: not meeting.is_cancelled)

    def series(self):
        return self.one(lambda meeting: not meeting.is_cancelled and meeting.whole.rule and not meeting.whole.is_day)

    def slot_of(self, meeting):
        """An original start of a series, and the local time there."""
        local = days_of(meeting.whole.rule, meeting.whole.start)[self.chance.randint(0, 3)]
        return local.replace(tzinfo=ZONES[meeting.whole.zone]).astimezone(timezone.utc), local

    def renewed(self, meeting, event, method="REQUEST", *others):
        meeting.whole, meeting.is_cancelled, meeting.moved = event, False, {}
        self.sends(method, event, *others)

    def moves_all(self):
        meeting = self.one()
        start = meeting.whole.start + timedelta(days=7 * self.chance.randint(0, 2))
        later = start + timedelta(minutes=0 if meeting.whole.is_day else self.chance.choice([-60, 30, 60, 120]))
        start = later if later.date() == start.date() else start
        rule = re.sub(r"BYMONTHDAY=\d+", f"BYMONTHDAY={start.day}", meeting.whole.rule)
        rule = "" if start.day > 28 and "MONTHDAY" in rule else rule
        self.renewed(meeting, self.event(meeting, start=start, rule=rule))

    def repeats(self):
        """The same with a later DTSTAMP, as when a title was changed."""
        meeting = self.alive()
        if meeting and not meeting.moved:
            meeting.sequence -= 1
            self.renewed(meeting, self.event(meeting))

    def moves_one(self):
        if meeting := self.series():
            slot, local = self.slot_of(meeting)
            event = self.event(meeting, slot=slot, start=local + timedelta(minutes=self.chance.choice([-30, 15, 60, 180, 1440])), rule="", left_out=())
            meeting.moved[slot] = event
            self.sends("REQUEST", event)

    def moves_both(self):
        """A message that has the whole and one of its instances."""
        if meeting := self.series():
            slot, local = self.slot_of(meeting)
            whole = self.event(meeting)
            one = Event(whole.uid, whole.organiser, whole.sequence, whole.stamp, self.asked_rooms() if self.chance.random() < 0.3 else whole.rooms, whole.zone, local + timedelta(minutes=90), 30, slot=slot)
            self.renewed(meeting, whole, "REQUEST", one)

    def cancels_one(self):
        if meeting := self.series():
            slot, _ = self.slot_of(meeting)
            self.sends("CANCEL", self.event(meeting, slot=slot, start=None, rule="", left_out=()))

    def cancels(self):
        if meeting := self.alive():
            meeting.is_cancelled = True
            self.sends("CANCEL", self.event(meeting, start=None, rule="", left_out=(), rooms=self.chance.choice([(), meeting.whole.rooms])))

    def adds(self):
        if meeting := self.one(lambda meeting: not meeting.is_cancelled and not meeting.whole.is_day):
            self.sends("ADD", self.event(meeting, start=self.time(), rule="", left_out=()))

    def takes_away(self):
        """A room isn't asked any more: it gets a CANCEL, the others a REQUEST."""
        if meeting := self.one(lambda meeting: not meeting.is_cancelled and len(meeting.whole.rooms) > 1):
            gone = self.chance.choice(meeting.whole.rooms)
            event = self.event(meeting, rooms=tuple(room for room in meeting.whole.rooms if room != gone))
            self.renewed(meeting, event)
            self.sends("CANCEL", Event(event.uid, event.organiser, event.sequence, event.stamp, (gone,)))

    def asks_more(self):
        if meeting := self.one():
            event = self.event(meeting, rooms=tuple(sorted({*meeting.whole.rooms, *self.asked_rooms()})), left_out=() if meeting.whole.is_day or not meeting.whole.rule else (self.slot_of(meeting)[1],))
            self.renewed(meeting, event)


# ---- the host


def store(uid, start, *people):
    return calendar("BEGIN:VEVENT", f"UID:{uid}", "DTSTAMP:20250303T080000Z", f"ORGANIZER:{HOST}", *(f"ATTENDEE:{it}" for it in people), f"DTSTART:{start}", "DURATION:PT1H", f"SUMMARY:{uid}", "END:VEVENT")


def to_host(method, uid, stamp, attendee):
    return calendar("BEGIN:VEVENT", f"UID:{uid}", "SEQUENCE:0", f"DTSTAMP:{stamp}", f"ORGANIZER:{HOST}", attendee, "END:VEVENT", method=method)


GUESTS = ["mailto:fay@example.com", "mailto:gus@example.com"]
STORES = [store(f"e{number}", f"202504{10 + number}T120000Z", *sorted(ROOMS)[:1 + number % 3], *GUESTS) for number in range(5)]


def conversation(chance):
    """Replies and refreshes of guests; and of each guest and meeting the answer with the latest DTSTAMP."""
    texts, latest = [], {}
    for number in range(5):
        for guest in GUESTS:
            for turn in range(chance.randint(0, 3)):
                stamp, word = f"20250303T1{turn}{chance.randint(10, 59)}00Z", chance.choice(["ACCEPTED", "DECLINED", "TENTATIVE"])
                texts.append(to_host("REPLY", f"e{number}", stamp, f"ATTENDEE;PARTSTAT={word}:{guest}"))
                latest[f"e{number}", guest] = word
            if chance.random() < 0.3:
                texts.append(to_host("REFRESH", f"e{number}", "20250303T120000Z", f"ATTENDEE:{guest}"))
    return texts, latest


# ---- what a room knows


def expected(texts):
    """The books of the rooms that took these messages, by the model; and of each message who answers it with which revisions once it is sent again: the rooms, each
    with the slots of its VEVENTs that count and their SEQUENCE. Both are the same in each order of the messages."""
    said = [books.Message(text) for text in texts]
    rooms = {room: books.RoomBook(room, NAMES[zone] if zone != "UTC" else None, HORIZON, [(it, NOW) for it in said]) for room, zone in ROOMS.items()}
    answers = []
    for it in said:
        parts = [(room, part) for room, book in rooms.items() for part in books.in_order({part for part, _ in books.parts_of(it, room, book.zone)}) if part in book.view and part.kind == books.SET]
        answers.append([(room, part.slot, part.revision[0]) for room, part in parts])
    return rooms, answers


# ---- runs


def answered(text):
    """The replies to one object: room, slot, SEQUENCE, and the word."""
    found = []
    for event in re.findall(r"BEGIN:VEVENT\r\n(.*?)END:VEVENT", text.replace("\r\n ", ""), re.DOTALL):
        slot = re.search(r"RECURRENCE-ID:(\w+)", event)
        slot = slot and moment(slot[1])
        room, word = re.search(r"ATTENDEE;PARTSTAT=(\w+):(.*)\r", event).group(2, 1)
        found.append((room, slot, int(re.search(r"SEQUENCE:(\d+)", event)[1]), word))
    return found


def in_order(chance, texts):
    """In a random order, one in six twice and some three times; later ones at any place."""
    order = texts + chance.sample(texts, len(texts) // 6) + chance.sample(texts, len(texts) // 20)
    chance.shuffle(order)
    return order


def replayed(cases, program, number, day, messages, people, chance, met):
    """One order of the day, of which this is expected."""
    rooms, wanted = day
    order = in_order(chance, messages + people)
    stream = PREAMBLE + "\r\n".join(STORES + order) + "\r\n"
    # behind the day, and behind each message that is sent once more, comes an object that is refused
    status, replies, _ = run(program, "serve", given=stream + "".join(text + SPOILED + "\r\n" for text in ["", *(text + "\r\n" for text in messages)]))
    before, *again, rest = re.split(r"REFUSED;OBJECT=\d+:24\r\n", replies)
    cases.holds(f"order {number}: the day", (status, len(again), rest, replies.count("REFUSED")), (0, len(messages), "", len(messages) + 1))
    met.update(word.lower() for word in re.findall(r"METHOD:REFRESH|ACCEPTED|DECLINED", before))
    found, meetings = [answered(text) for text in again], [(it.organiser, it.uid) for it in map(books.Message, messages)]
    cases.holds(f"order {number}: who answers which revision", [[it[:3] for it in reply] for reply in found], wanted)
    cases.holds(f"order {number}: nobody asks for a refresh again", [text for text in again if "METHOD:REFRESH" in text], [])
    for room, book in rooms.items():
        accepted = {(slot, *meeting) for meeting, reply in zip(meetings, found) for who, slot, _, word in reply if who == room and word == "ACCEPTED"}
        hours = [(start, end) for _, _, start, end in book.confirmed(lambda part: (part.slot, *part.meeting) in accepted)]
        checks(cases, program, number, room, stream, sorted(hours), met)
    return run(program, "meetings", HOST, given=stream)


def checks(cases, program, number, room, stream, hours, met):
    """The kept calendar of a room, its certificate and its agenda, against the hours that were reckoned."""
    clashes = [(one, other) for one, other in zip(hours, hours[1:]) if other[0] < one[1]]
    cases.holds(f"order {number}, {room}: no two clash", clashes, [])
    calendar, certificate = kept(program, stream, room=room), kept(program, stream, "--certificate", room=room)
    cases.holds(f"order {number}, {room}: the checker", checked(program, calendar, certificate, room)[:2], (0, "yes\n"))
    span = tuple(map(moment, SPAN))
    seconds = [it for it in hours if max(it[0], span[0]) < min(it[1], span[1])]
    cases.holds(f"order {number}, {room}: the kept calendar", instances(Calendar(calendar, room), *span), seconds)
    lines = with_calendar(program, calendar, "agenda", room, "--from", SPAN[0], "--until", SPAN[1])[1].splitlines()
    cases.holds(f"order {number}, {room}: its agenda", sorted(tuple(moment(it) for it in line.split(" ")[:2]) for line in lines), seconds)
    met["instances"] += len(seconds)


def main():
    parser = argparse.ArgumentParser()
    parser.add_argument("program", nargs="?")
    parser.add_argument("--orders", type=int, default=10)
    parser.add_argument("--seed", type=int, default=1)
    words, cases, met, program = parser.parse_args(), Cases(), Counter(), of_arguments()
    day = Day(random.Random(f"day {words.seed}"))
    people, latest = conversation(random.Random(f"people {words.seed}"))
    kinds = Counter(message.method for message in day.messages)
    views = []
    texts = [message.text() for message in day.messages]
    known = expected(texts)
    for number in range(words.orders):
        views.append(replayed(cases, program, number, known, texts, people, random.Random(f"order {words.seed} {number}"), met))
    cases.holds("what the hosted organiser sees is one in all orders", len(set(views)), 1)
    text = views[0][1].replace("\r\n ", "")
    seen = {(uid, guest): word for event in re.findall(r"BEGIN:VEVENT.*?END:VEVENT", text, re.DOTALL) for uid in re.findall(r"UID:(\w+)", event)
            for guest in GUESTS for word in re.findall(rf"ATTENDEE;[^:]*PARTSTAT=([A-Z-]+)[^:]*:{guest}\r", event) if word != "NEEDS-ACTION"}
    cases.holds("and it is the latest of each guest", seen, latest)
    print(f"{len(day.messages)} messages ({', '.join(f'{count} {kind}' for kind, count in sorted(kinds.items()))}) and {len(people)} of guests in {words.orders} orders: "
          + ", ".join(f"{count} {what}" for what, count in sorted(met.items())))
    cases.end()


if __name__ == "__main__":
    main()
