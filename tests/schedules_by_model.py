"""Random schedules, played by the program and by a simulation: it keeps all messages, and at each step computes every book anew, by lib/books.py, from what its
owner took.

    python3 tests/schedules_by_model.py bin/schedule_examples [--schedules 10000] [--seed 1] [--jobs 2]
    python3 tests/schedules_by_model.py bin/schedule_examples --only 1-17     # one schedule by its seed and number
    python3 tests/schedules_by_model.py --tables FOLDER [--schedules 500]     # writes the schedules as tables, to be run by `rt try --cases FOLDER`
    python3 tests/schedules_by_model.py --answers FILE [--schedules 500]      # and judges what was printed for them
    python3 tests/schedules_by_model.py --table N       # prints N schedules for crates/schedule_examples/data/random.txt, and the lines of stdout
    python3 tests/schedules_by_model.py --table N --days    # the same with whole days and times without zone
    python3 tests/schedules_by_model.py --table N --zones   # the same, and with rooms that go by the clocks of zones

A schedule has one to three rooms, one or two organisers, of which one may have the address of a room, and stores of two meetings: the whole and instances
of it, each with its own attendees, agents, statuses and SEQUENCE; RRULE with an end and without, RDATE, EXDATE, nominal days, times in UTC and in a zone,
whole days and times without zone, which each room reads on the clocks of its own zone; stores that are refused. What was sent is delivered late, again, out of
order, to others than it was for, or never; moments stand still and go back.

After each step are compared: all messages sent, octet by octet (the clash that a decline names is free: the two instances have to be there and to clash);
what the room keeps whose step it was, or what the organiser shows of its meetings and sees of answers; and all of that at the end. And the simulation sees
that what an organiser sees accepted is booked, that all that the organisers' texts show for a room, read on its clocks, is confirmed in its book, and that
what is confirmed is clear.

Days of rules are dateutil's, clocks are zoneinfo's. A rule without an end is followed for 500 days from January 2025 on: all rules without one are daily or
weekly, of intervals up to three days or two weeks, so they meet within 42 days on either side of a change of the clocks, or never. Where zones change their
clocks in the same weeks, so that there are fewer days between two changes, the intervals are one day or one week: all changes are on Sundays, and within
the 500 days is each of them.
"""

import argparse
import random
import re
import subprocess
import sys
import tempfile
from collections import Counter, namedtuple
from concurrent.futures import ProcessPoolExecutor
from datetime import datetime, timedelta
from pathlib import Path

from lib.books import MOST, SET, Message, OrganiserBook, RoomBook, clash_in, judged, parts_of
from lib.cases import Cases
from lib.streams import HEAD, folded, spelled
from lib.zones import EPOCH, WEEKDAYS, WORDS, clock, means, stamp, vtimezone

# the zones that objects name, and those of rooms; some change their clocks less than 42 days before or after New York does
ZONES = ["America/New_York", "Asia/Kolkata"]
NEAR_NEW_YORK = {"Australia/Sydney", "Australia/Lord_Howe", "Europe/Dublin", "America/Havana"}
ROOM_ZONES = [None, *ZONES, "Australia/Sydney", "Australia/Lord_Howe", "Europe/Dublin", "America/Havana"]
FIRST_DAY = datetime(2025, 1, 6)
# where rooms go by zones: days before changes of their clocks
FIRST_DAYS = [datetime(2024, 10, 5), datetime(2024, 10, 26), datetime(2024, 11, 2), datetime(2025, 3, 8), datetime(2025, 3, 29), datetime(2025, 4, 5)]
# where rules without an end are no longer followed
HORIZON = int((FIRST_DAY + timedelta(days=500) - EPOCH).total_seconds())
# so many schedules are one table
TOGETHER = 25


# ---- a world


Step = namedtuple("Step", "kind who what moment")


class World:
    """What was taken by whom, and all that was sent. The books are computed anew at each step."""

    def __init__(self, rooms, organisers):
        """Of rooms, each with its zone."""
        self.zones = rooms
        self.taken = {("room", it): [] for it in rooms} | {("organiser", it): [] for it in organisers}
        # the text of each message, and the decisions that its declines are of
        self.sent, self.met = [], Counter()
        self.compute()

    def compute(self):
        self.rooms = {it: RoomBook(it, self.zones[it], HORIZON, taken) for (kind, it), taken in self.taken.items() if kind == "room"}
        self.organisers = {it: OrganiserBook(it, taken) for (kind, it), taken in self.taken.items() if kind == "organiser"}

    def play(self, step):
        self.met[step.kind] += 1
        if step.kind == "store":
            message, host = Message(step.what), ("organiser", step.who)
            may = message.method == "" and not message.refused
        elif step.what < len(self.sent):
            message = Message(self.sent[step.what][0])
            host = "room" if message.method in ("REQUEST", "CANCEL") else "organiser", step.who
            may = True
        else:
            may = False
        if may and host in self.taken:
            self.taken[host].append((message, step.moment))
            self.compute()
            self.send(host, message)

    def send(self, host, message):
        kind, address = host
        if kind == "organiser":
            sent = self.organisers[address].sent
            refused = isinstance(sent, int)
            self.sent += [] if refused else [(text, []) for text in sent]
            self.met["nothing" if refused else "heard" if message.method else "stored"] += 1
            return
        self.met[message.method] += 1
        for text, declines in self.rooms[address].reply:
            self.sent.append((text, declines))
            self.met["declined" if declines else "accepted"] += 1

    def faults(self):
        """Where a claim about every schedule fails."""
        for room, book in self.rooms.items():
            booked = book.booked()
            if clash_in(booked):
                yield f"{room} is booked twice"
            shown = []
            for organiser in self.organisers.values():
                for uid in organiser.stores:
                    shown += shown_for(room, self.zones[room], Message(organiser.text(uid)))
                    yield from self.not_booked(organiser, uid, room, book)
            self.met["shown instances"] += len(shown)
            if not set(shown) <= set(booked) or clash_in(shown):
                yield f"the texts show for {room} what isn't confirmed or clashes"

    def not_booked(self, organiser, uid, room, book):
        """What an organiser sees accepted, and the room doesn't have accepted in its view."""
        last = organiser.stores[uid]
        request = {part.slot: part for part, _ in parts_of(Message(last.request()), room, self.zones[room])} if not last.off else {}
        for slot in {it[1] for it in organiser.replies if it[0] == uid}:
            if organiser.seen(uid, slot, room) == "ACCEPTED":
                self.met["seen accepted"] += 1
                part = request.get(slot)
                if part is None or part.kind != SET or part not in book.view or not book.is_accepted(part):
                    yield f"{organiser.organiser} sees {room} accepted for {uid} {slot}, which isn't booked"


def shown_for(room, zone, text):
    """The instances that an organiser's text shows confirmed for a room, on the clocks of its zone."""
    found, overrides = [], {it.slot for it in text.components}
    for it in text.components:
        if not it.cancelled and it.attendees.get(room, {}).get("PARTSTAT") == "ACCEPTED":
            starts = {(at, at) for at in it.starts(zone, HORIZON) - overrides} if it.slot is None else {(it.slot, it.own(zone))}
            found += [((it.organiser, it.uid), slot, at, it.end(at, zone)) for slot, at in starts]
    return found


# ---- random schedules


def address(name):
    return f"mailto:{name}@example.com"


class Drawing:
    """One random schedule: who is hosted, and its steps, drawn beside the world that they lead to."""

    # whether whole days and times without zone are drawn, and whether rooms have zones
    with_days = with_zones = True

    def __init__(self, seed):
        self.draw = draw = random.Random(f"schedule {seed}")
        self.rooms = ["r1", "r2", "r3"][: draw.choice([1, 1, 2, 2, 3])]
        self.organisers = ["ann", "ben"][: draw.choice([1, 2, 2])]
        if draw.random() < 0.1:
            self.organisers[-1] = "r1"
        self.people = [*self.rooms, *self.rooms, "zed", self.organisers[0]]
        self.uids = ["u", "v"][: draw.choice([1, 2, 2, 2])]
        self.zones = {room: draw.choice([None, *ROOM_ZONES]) if Drawing.with_zones else None for room in self.rooms}
        self.first = draw.choice([FIRST_DAY, *FIRST_DAYS]) if Drawing.with_zones else FIRST_DAY
        self.moment = datetime(2025, 1, 2)
        self.delivered = set()

    def step(self, world):
        chance = self.draw.random()
        self.moment += timedelta(seconds=1 if chance < 0.7 else 0 if chance < 0.85 else -self.draw.randrange(1, 4))
        moment = f"{self.moment:%Y%m%dT%H%M%SZ}"
        fresh = [it for it in range(len(world.sent)) if it not in self.delivered]
        if not world.sent or self.draw.random() < (0.2 if fresh else 0.5):
            organiser = self.draw.choice(self.organisers)
            return Step("store", address(self.draw.choice([organiser] * 20 + ["nobody", *self.organisers])), self.store(address(organiser)), moment)
        number = self.draw.choice(fresh) if fresh and self.draw.random() < 0.7 else self.draw.randrange(len(world.sent) + (self.draw.random() < 0.1))
        self.delivered.add(number)
        return Step("deliver", address(self.receiver(world, number)), number, moment)

    def receiver(self, world, number):
        everybody = [*self.rooms, *self.organisers, "zed"]
        if number >= len(world.sent) or self.draw.random() < 0.12:
            return self.draw.choice(everybody)
        message = Message(world.sent[number][0])
        named = [message.organiser] if message.method == "REPLY" else [it for component in message.components for it in component.attendees]
        return self.draw.choice([it for it in everybody if address(it) in named and it != "zed"] or everybody)

    def store(self, organiser):
        """An object to store, with faults now and then."""
        draw, uid = self.draw, self.draw.choice(self.uids)
        # of what is fixed: the zone by whose clocks it is drawn, so that in a room of that zone it is beside what isn't fixed
        self.drawn_in = draw.choice([None, *self.zones.values()]) if Drawing.with_zones else None
        start = self.first + timedelta(days=draw.randrange(2), minutes=30 * draw.randrange(18, 21))
        if Drawing.with_days and draw.random() < 0.25:
            # so that dates and times are at one instant
            start = start.replace(hour=0, minute=0)
        slots = [start + timedelta(days=it) for it in draw.sample(range(3), draw.choice([0, 0, 0, 1, 1, 2]))]
        slots = ([None] if draw.random() < 0.85 or not slots else []) + slots
        draw.shuffle(slots)
        if draw.random() < 0.02:
            slots.append(slots[0])
        shared = self.attendees()
        self.zone_names = {}
        events = [line for slot in slots for line in self.event(organiser, uid, slot, start, shared)]
        method = ["METHOD:PUBLISH"] if draw.random() < 0.01 else []
        zones = [line for zone, name in self.zone_names.items() for line in vtimezone(zone, name)]
        return folded([*HEAD, *method, *zones, *events, "END:VCALENDAR"]).decode()

    def attendees(self):
        agents = [None] * 8 + ["SERVER", "server", "CLIENT", "client", "NONE", "X-OTHER"]
        return [(self.draw.choice(self.people), self.draw.choice(agents)) for _ in range(self.draw.choice([0, 1, 1, 1, 2, 2, 3, 4]))]

    def event(self, organiser, uid, slot, start, shared):
        draw = self.draw
        own = (start if slot is None else slot) + timedelta(minutes=draw.choice([0, 0, 0, 30, 60]) if slot else 0)
        zone = draw.choice([None, None, None, *ZONES])
        form = draw.choice(["fixed"] * 4 + ["date", "floating"]) if Drawing.with_days else "fixed"
        if form != "fixed":
            zone = None
        if form == "date":
            own = own.replace(hour=0, minute=0)
        lines = [f"UID:{uid}", "DTSTAMP:20250101T000000Z", f"ORGANIZER:{draw.choice([organiser, organiser.upper()])}", self.timed("DTSTART", own, zone, form)]
        seconds, days = draw.choice([1800, 3600, 3600, 5400, 0]), draw.random() < 0.08
        if form == "date":
            lines += draw.choice([[], [], ["DURATION:P1D"], ["DURATION:P2D"], ["DURATION:PT0S"], *([self.timed("DTEND", own + timedelta(days=it), None, form)] for it in range(3))])
        elif days:
            lines.append(draw.choice(["DURATION:P1D", "DURATION:P1DT1H", "DURATION:P1W"]))
        elif draw.random() < 0.3:
            # one of another form is refused
            other = Drawing.with_days and draw.random() < 0.03
            lines.append(self.timed("DTEND", own, zone, ("floating" if form == "fixed" else "fixed") if other else form, seconds))
        elif seconds or draw.random() < 0.5:
            lines.append(draw.choice([f"DURATION:PT{seconds // 60}M", f"DURATION:PT{seconds}S"]))
        if slot is None:
            lines += self.recurring(own, zone, form)
        else:
            unfixed = Drawing.with_days and draw.random() < 0.03
            lines.append(self.timed("RECURRENCE-ID", slot, None if unfixed else draw.choice([None, zone]), draw.choice(["date", "floating"]) if unfixed else "fixed"))
        if draw.random() < 0.4:
            lines.append(f"SEQUENCE:{draw.choice([0, 1, 2, 3, 5, 9])}" if draw.random() < 0.97 else f"SEQUENCE:{draw.choice([MOST, MOST - 1])}")
        if draw.random() < 0.12:
            lines.append(f"STATUS:{draw.choice(['CANCELLED', 'CANCELLED', 'cancelled', 'CONFIRMED'])}")
        if draw.random() < 0.3:
            lines.append(f"SUMMARY;LANGUAGE=de:{draw.choice(['Plan', 'a' + chr(92) + ', b', 'Straße ' * 12])}")
        draw.shuffle(lines)
        named = shared if draw.random() < 0.6 else self.attendees()
        lines += [f"ATTENDEE{';SCHEDULE-AGENT=' + agent if agent else ''};CN=x:{address(name)}" for name, agent in named]
        return ["BEGIN:VEVENT", *lines, "END:VEVENT"]

    def fixed(self, at, later=0):
        """In UTC, so many seconds after what the clocks show."""
        return EPOCH + timedelta(seconds=means(at, self.drawn_in) + later)

    def timed(self, name, at, zone, form="fixed", later=0):
        """A property whose value is an instant, in UTC or by the clocks of a zone; or a time without zone, or a date."""
        if form == "date":
            return f"{name}{self.draw.choice([';VALUE=DATE', ';VALUE=DATE', ''])}:{at:%Y%m%d}"
        if form == "floating":
            return f"{name}:{at + timedelta(seconds=later):%Y%m%dT%H%M%S}"
        at = self.fixed(at, later)
        if zone is None:
            return f"{name}:{at:%Y%m%dT%H%M%SZ}"
        self.zone_names[zone] = zone.split("/")[1]
        return f"{name};TZID={self.zone_names[zone]}:{clock(means(at, None), zone):%Y%m%dT%H%M%S}"

    def recurring(self, start, zone, form):
        """RRULE, RDATE and EXDATE of a whole meeting."""
        draw, lines = self.draw, []
        if draw.random() < 0.45:
            local = clock(means(self.fixed(start), None), zone) if form == "fixed" else start
            lines.append("RRULE:" + self.rule(local, start, form))
        near = [start + timedelta(days=it, minutes=draw.choice([0, 0, 60])) for it in range(5)]
        for name, chance in (("RDATE", 0.25), ("EXDATE", 0.25)):
            if draw.random() < chance:
                dates = draw.sample(near, draw.choice([1, 1, 2]))
                apart = draw.random() < 0.5
                if Drawing.with_days and draw.random() < 0.5:
                    lines += [self.timed(name, it, None, draw.choice(["fixed", "date", "date", "floating"])) for it in dates]
                    continue
                lines += [self.timed(name, it, draw.choice([None, zone])) for it in dates] if apart else [f"{name}:" + ",".join(f"{self.fixed(it):%Y%m%dT%H%M%SZ}" for it in dates)]
        return lines

    def rule(self, local, start, form_of_start):
        draw, own, other = self.draw, WEEKDAYS[local.weekday()], self.draw.choice(WEEKDAYS)
        weekly = ["FREQ=WEEKLY", f"FREQ=WEEKLY;BYDAY={other},{own}"]
        if draw.random() < 0.25:
            if Drawing.with_zones and form_of_start == "date" and draw.random() < 0.9:
                # whole days each day without an end are gone through to the year 9999 where the clocks are set, in each decision beside them
                return "FREQ=WEEKLY"
            if NEAR_NEW_YORK & {*self.zones.values()}:
                return draw.choice(["FREQ=DAILY", *weekly])
            return draw.choice(["FREQ=DAILY", "FREQ=DAILY;INTERVAL=2", "INTERVAL=3;FREQ=DAILY", *weekly, "FREQ=WEEKLY;INTERVAL=2"])
        daily = ["FREQ=DAILY", "FREQ=DAILY", "FREQ=DAILY;INTERVAL=2", f"FREQ=DAILY;BYDAY={own},{other}"]
        monthly = ["FREQ=MONTHLY", f"FREQ=MONTHLY;BYDAY={(local.day + 6) // 7}{own}", f"FREQ=MONTHLY;BYMONTHDAY={local.day}"]
        form = draw.choice([*daily, *weekly, *monthly])
        if "MONTHLY" not in form and draw.random() < 0.3:
            until = start + timedelta(days=draw.randrange(0, 12))
            if form_of_start == "fixed":
                until = self.fixed(until)
            elif draw.random() < 0.5:
                return f"{form};UNTIL={until + timedelta(seconds=draw.choice([0, 0, 1, 3600, 80_000])):%Y%m%dT%H%M%S}" + draw.choice(["", "Z"])
            return f"{form};UNTIL=" + draw.choice([f"{until:%Y%m%dT%H%M%SZ}", f"{until + timedelta(days=1):%Y%m%d}"])
        return f"COUNT={draw.choice([1, 2, 3, 3, 4, 5])};{form}"


# ---- the program beside the simulation


def said(wanted):
    """An answer, a word or the text of an object, as it is printed."""
    return spelled(wanted.encode(), "x")


def octets_of(text):
    return text.encode().decode("unicode_escape").encode("latin-1")


def name_of(whom):
    return whom.split(":")[1].split("@")[0]


class Case:
    """A schedule as a line of a table, with questions behind each step or at the end alone, and what is to be answered."""

    def __init__(self, seed, steps, at_end=False):
        self.seed, self.at_end, self.columns, self.wanted, self.faults = seed, at_end, [], [], []
        drawing = Drawing(seed)
        self.world = World({address(it): zone for it, zone in drawing.zones.items()}, [address(it) for it in drawing.organisers])
        # an address that is given twice counts once
        twice = [drawing.rooms[0]] * (drawing.draw.random() < 0.1)
        self.columns = [f"rooms {' '.join([*drawing.rooms, *twice])}", f"organisers {' '.join(drawing.organisers)}"]
        self.columns += [f"zone {it} {WORDS[zone]}" for it, zone in drawing.zones.items() if zone]
        for number in range(drawing.draw.randrange(2, steps + 1)):
            step = drawing.step(self.world)
            self.add(step)
            self.ask_of(lambda whom: whom == step.who and not at_end)
            self.faults += [f"after step {number}: {it}" for it in self.world.faults()]
        if at_end:
            self.ask_sent()
        self.ask_of(lambda whom: True)

    def add(self, step):
        told = len(self.world.sent)
        self.columns.append(f"now {step.moment}")
        if step.kind == "store":
            self.columns.append(f"octets {name_of(step.who)} {spelled(step.what.encode())}")
        else:
            self.columns.append(f"deliver {step.what} {name_of(step.who)}")
        self.world.play(step)
        if not self.at_end:
            self.ask_sent()
            for number in range(told, len(self.world.sent)):
                self.ask(f"sent {number}", self.world.sent[number])

    def ask_sent(self):
        """The METHODs of all messages."""
        self.ask("sent", " ".join(re.search(r"METHOD:(\w+)", text)[1] for text, _ in self.world.sent) or "none")

    def ask_of(self, is_asked):
        """What some hosts keep, show and see."""
        for room, book in self.world.rooms.items():
            if is_asked(room):
                self.ask(f"kept {name_of(room)}", book.calendar())
        for organiser, book in self.world.organisers.items():
            for uid in book.stores if is_asked(organiser) else []:
                self.ask(f"shown {name_of(organiser)} {uid}", book.text(uid))
                slot = next((it[1] for it in reversed(book.replies) if it[0] == uid), None)
                asked = f"seen {name_of(organiser)} {uid} {'whole' if slot is None else stamp(slot)}"
                for whom in [*self.world.rooms, address("zed")]:
                    self.ask(f"{asked} {name_of(whom)}", (book.seen(uid, slot, whom) or "none").lower().replace("-", " "))

    def ask(self, question, answer):
        self.columns.append(question)
        self.wanted.append((question, len([it for it in self.columns if it.startswith(("octets", "deliver"))]) - 1, answer))

    def line(self):
        return " | ".join([f"schedule {self.seed}", *self.columns])

    def judged(self, answers):
        """What differs from what was to be answered."""
        named = {}
        if len(answers) != len(self.wanted):
            yield f"{len(answers)} answers, not {len(self.wanted)}: {answers[:3]}"
            return
        for (question, step, wanted), found in zip(self.wanted, answers):
            if isinstance(wanted, tuple):
                faults = ["not sent"] if found == "none" else judged(*wanted, octets_of(found).decode(), named)
                yield from (f"step {step}, {question}: {it}" for it in faults)
            elif found != said(wanted):
                yield f"step {step}, {question}: {found}\n    not {said(wanted)}"


def answers_of(text):
    """The answers to each line of a table, by the name of its case."""
    return {name: answers.split(" | ") for name, _, answers in (line.partition(": ") for line in text.splitlines()) if name.startswith("schedule ")}


def played(program, seeds, steps):
    """What is wrong with each of some schedules, and what they met."""
    cases = [Case(seed, steps) for seed in seeds]
    with tempfile.TemporaryDirectory() as folder:
        table = Path(folder, "table")
        table.write_text("".join(case.line() + "\n" for case in cases), encoding="ascii")
        ran = subprocess.run([program, str(table)], capture_output=True, check=False)
    return judgement(cases, ran.stdout.decode(), ran.returncode)


def judgement(cases, printed, status=0):
    answers, met, wrong = answers_of(printed), Counter(), []
    for case in cases:
        found = [f"status {status}"] * bool(status) + case.faults + list(case.judged(answers.get(f"schedule {case.seed}", [])))
        met.update(case.world.met)
        wrong.append((case.seed, found, case.line()))
    return wrong, met


def main():
    parser = argparse.ArgumentParser()
    parser.add_argument("program", nargs="?")
    parser.add_argument("--schedules", type=int, default=10_000)
    parser.add_argument("--steps", type=int, default=24, help="at most so many in a schedule")
    parser.add_argument("--seed", type=int, default=1)
    parser.add_argument("--only")
    parser.add_argument("--jobs", type=int, default=2)
    parser.add_argument("--tables", type=Path)
    parser.add_argument("--answers", type=Path)
    parser.add_argument("--table", type=int)
    parser.add_argument("--days", action="store_true")
    parser.add_argument("--zones", action="store_true")
    words = parser.parse_args()
    if words.table:
        Drawing.with_days, Drawing.with_zones = words.days or words.zones, words.zones
        for number in range(words.table):
            case = Case(f"{'zones' if words.zones else 'days' if words.days else 'table'} {number}", 16, at_end=True)
            print(case.line())
            print(f"schedule {case.seed}: " + " | ".join(said(it) for _, _, it in case.wanted), file=sys.stderr)
        return
    seeds = [words.only] if words.only else [f"{words.seed}-{number}" for number in range(words.schedules)]
    parts = [seeds[place:place + TOGETHER] for place in range(0, len(seeds), TOGETHER)]
    if words.tables:
        for number, part in enumerate(parts):
            Path(words.tables, f"{number:04}").write_text("".join(Case(seed, words.steps).line() + "\n" for seed in part))
        return
    cases, met = Cases(), Counter()
    with ProcessPoolExecutor(words.jobs) as pool:
        if words.answers:
            results = [judgement([Case(seed, words.steps) for seed in seeds], words.answers.read_text())]
        else:
            program = str(Path(words.program).resolve())
            results = pool.map(played, [program] * len(parts), parts, [words.steps] * len(parts))
        for found, counted in results:
            met.update(counted)
            for seed, differences, line in found:
                cases.tells(f"schedule {seed}", [*differences[:3], line] if differences else [])
    cases.end(*(f"{count} {what}" for what, count in sorted(met.items())))


if __name__ == "__main__":
    main()
