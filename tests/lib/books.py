"""What rooms and organisers keep and answer: a model that was written from docs/REFERENCE.md and the RFCs alone. It reads the texts of messages, and writes what
is to be sent.

Days of rules are dateutil's, clocks are zoneinfo's. A rule without an end is followed up to an instant that the caller chooses: by then all that two such rules
can do together has to have come.
"""

import functools
from collections import namedtuple
from datetime import timedelta

from dateutil.rrule import rrulestr

from lib.streams import OWN_HEAD, folded, unfolded
from lib.zones import DAY, EPOCH, PARTS, WEEKDAYS, WORDS, clock, local_of, means, stamp

MOST = 2_147_483_647
# of two bodies of one revision the cancelled one counts, then the absent one
SET, ABSENT, CANCELLED = 0, 1, 2
RANKS = ["NEEDS-ACTION", "TENTATIVE", "ACCEPTED", "DELEGATED", "DECLINED"]


@functools.lru_cache(maxsize=20_000)
def rule_starts(text, local, zone, by_clock, horizon):
    """The starts that a rule gives, up to its end, or for a rule without an end those before the horizon. UNTIL is compared by the clock, or as an instant."""
    parts = dict(it.split("=") for it in text.split(";"))
    until = parts.pop("UNTIL", None)
    endless = until is None and "COUNT" not in parts
    starts = []
    for day in rrulestr("RRULE:" + ";".join(f"{name}={value}" for name, value in parts.items()), dtstart=local):
        at = means(day, zone)
        if endless and at >= horizon:
            break
        if until and (f"{day:%Y%m%d}" > until if len(until) == 8 else (means(day, None) if by_clock else at) > means(local_of(until), None)):
            break
        starts.append(at)
    return starts


# ---- reading


def property_of(line):
    """Its name, its parameters and its value; no parameter here is quoted."""
    head, _, value = line.partition(":")
    name, *parameters = head.split(";")
    return name.upper(), dict(it.split("=", 1) for it in parameters), value


def form_of(parameters, text):
    """Fixed is what is in UTC or has TZID."""
    return "date" if len(text) == 8 else "fixed" if text.endswith("Z") or "TZID" in parameters else "floating"


class Said(namedtuple("Said", "form at")):
    """A time as it is said: its form, and its instant, of what isn't fixed the one in UTC."""

    def instant(self, room):
        """In a room of this zone."""
        return self.at if self.form == "fixed" else means(EPOCH + timedelta(seconds=self.at), room)


class Component:
    """A VEVENT: which instance it is, when it is, its revision and its attendees."""

    def __init__(self, properties, zones, method):
        self.attendees = {}
        found = {}
        self.lists = {"RDATE": [], "EXDATE": []}
        for name, parameters, value in properties:
            if name == "ATTENDEE":
                self.attendees.setdefault(value.lower(), parameters)
            elif name in ("RDATE", "EXDATE"):
                self.lists[name] += [self.said(parameters, it, zones) for it in value.split(",")]
            else:
                found[name] = parameters, value
        value_of = lambda name, default=None: found.get(name, ({}, default))[1]
        self.uid, self.organiser = value_of("UID"), value_of("ORGANIZER", "").lower()
        self.sequence, self.stamp, self.summary, self.rule = int(value_of("SEQUENCE", 0)), value_of("DTSTAMP"), value_of("SUMMARY", ""), value_of("RRULE")
        self.cancelled = value_of("STATUS", "").upper() == "CANCELLED"
        # an ADD has instances by their own starts
        named = "DTSTART" if method == "ADD" else "RECURRENCE-ID"
        self.slot_said = self.said(*found[named], zones) if named in found else None
        # where it doesn't depend on a room
        self.slot = self.slot_said and self.slot_said.at
        self.suits = True
        self.answer = next((it.get("PARTSTAT", "").upper() for it in self.attendees.values()), "")
        if "DTSTART" in found:
            parameters, value = found["DTSTART"]
            self.zone, self.local = zones.get(parameters.get("TZID")), local_of(value)
            self.start, self.form = means(self.local, self.zone), form_of(parameters, value)
            self.days, self.seconds = self.length(value_of("DURATION"), found.get("DTEND"), zones)
            # DTEND has the form of DTSTART, and a date lasts whole days
            self.suits = form_of(*found.get("DTEND", found["DTSTART"])) == self.form and not (self.form == "date" and self.seconds)

    @staticmethod
    def said(parameters, value, zones):
        return Said(form_of(parameters, value), means(local_of(value), zones.get(parameters.get("TZID"))))

    def length(self, duration, end, zones):
        if end:
            seconds = self.said(*end, zones).at - self.start
            return (seconds // DAY, 0) if self.form == "date" else (0, seconds)
        if self.form == "date" and duration is None:
            return 1, 0
        days, _, rest = (duration or "PT0S")[1:].partition("T")
        seconds, number = 0, ""
        for character in rest:
            if character.isdigit():
                number += character
            else:
                seconds, number = seconds + int(number) * {"H": 3600, "M": 60, "S": 1}[character], ""
        return int(days[:-1] or 0) * (7 if days.endswith("W") else 1), seconds

    def slot_in(self, room):
        return self.slot_said and self.slot_said.instant(room)

    def clocks(self, room):
        """The zone of the clocks that show the start, in a room of this zone."""
        return self.zone if self.form == "fixed" else room

    def own(self, room):
        return means(self.local, self.clocks(room))

    def end(self, start, room):
        """Days are added to the local time, of a date to its midnight, also where the clocks skip that; the rest is exact."""
        if not self.days:
            return start + self.seconds
        zone = self.clocks(room)
        local = clock(start, zone)
        midnight = local.replace(hour=0, minute=0, second=0)
        if self.form == "date" and means(midnight, zone) == start:
            local = midnight
        return means(local + timedelta(days=self.days), zone) + self.seconds

    def on_rule(self, room, horizon):
        return rule_starts(self.rule, self.local, self.clocks(room), self.form != "fixed", horizon) if self.rule else []

    def starts(self, room, horizon):
        times = {name: {it.instant(room) for it in said} for name, said in self.lists.items()}
        return {*(self.on_rule(room, horizon) if self.rule else [self.own(room)]), *times["RDATE"]} - times["EXDATE"]

    def content(self, names):
        """The lines that say when it is, in the one form that is written, by the names of the zones."""
        if self.form == "fixed":
            yield f"DTSTART;TZID={names[self.zone]}:{self.local:%Y%m%dT%H%M%S}" if self.zone else f"DTSTART:{stamp(self.start)}"
        else:
            yield f"DTSTART;VALUE=DATE:{self.local:%Y%m%d}" if self.form == "date" else f"DTSTART:{self.local:%Y%m%dT%H%M%S}"
        yield "DURATION:P" + f"{self.days}D" * bool(self.days) + f"T{self.seconds}S" * bool(self.seconds or not self.days)
        if self.rule:
            yield "RRULE:" + rule_written(self.rule, None if self.form == "fixed" else self.local)
        for name, times in self.lists.items():
            # in UTC, without zone, and dates
            for form, size in (("fixed", 16), ("floating", 15), ("date", 8)):
                texts = sorted({stamp(it.at)[:size] for it in times if it.form == form})
                if texts:
                    yield f"{name}{';VALUE=DATE' * (form == 'date')}:" + ",".join(texts)


def rule_written(text, unfixed):
    """A rule in the one form that is written, beside a start that isn't fixed, if any. The rules here have no BYSETPOS or WKST, and UNTIL without `Z` only
    beside such a start, or beside one in UTC."""
    parts = dict(it.split("=") for it in text.split(";"))
    if unfixed and len(parts.get("UNTIL", "")) > 8:
        until = local_of(parts["UNTIL"])
        parts["UNTIL"] = f"{until - timedelta(days=until.time() < unfixed.time()):%Y%m%d}"
    if len(parts.get("UNTIL", "")) == 15:
        parts["UNTIL"] += "Z"
    if parts.get("INTERVAL") == "1":
        del parts["INTERVAL"]
    if "BYDAY" in parts:
        days = {(int(it[:-2] or 0), WEEKDAYS.index(it[-2:])) for it in parts["BYDAY"].split(",")}
        parts["BYDAY"] = ",".join((str(number) if number else "") + WEEKDAYS[day] for number, day in sorted(days))
    order = ["FREQ", "COUNT", "UNTIL", "INTERVAL", "BYMONTH", "BYMONTHDAY", "BYDAY"]
    return ";".join(f"{name}={parts[name]}" for name in order if name in parts)


class Message:
    """What an object says: its METHOD, in capitals, and its VEVENTs; and by which number it is refused, whoever takes it, 0 if it isn't."""

    def __init__(self, text):
        self.method, self.components, zones, block, events = "", [], {}, None, []
        for line in unfolded(text).split("\r\n")[:-1]:
            name, parameters, value = property_of(line)
            if line in ("BEGIN:VEVENT", "BEGIN:VTIMEZONE"):
                block = []
            elif line == "END:VTIMEZONE":
                zones[block[0][2]] = next(it for it in PARTS if PARTS[it] == [it[3] for it in block[1:]])
            elif line == "END:VEVENT":
                events.append([it[:3] for it in block])
            elif block is None or name == "METHOD":
                self.method = value.upper() if name == "METHOD" else self.method
            else:
                block.append((name, parameters, value, line))
        self.components = [Component(event, zones, self.method) for event in events]
        self.uid, self.organiser = self.components[0].uid, self.components[0].organiser
        self.refused = self.fault()

    def fault(self):
        """RFC 5546, 3.2: one meeting, and each instance of it once; a speaker speaks for itself."""
        slots = [it.slot_said for it in self.components]
        if self.method not in ("", "REQUEST", "ADD", "CANCEL", "REPLY", "REFRESH"):
            return 60
        if any((it.uid, it.organiser) != (self.uid, self.organiser) for it in self.components):
            return 62
        # an organiser has no clocks that an instance without zone could be on
        if self.method in ("", "REPLY") and any(it and it.form != "fixed" for it in slots):
            return 57
        if len(set(slots)) < len(slots):
            return 53 if slots.count(None) > 1 else 54
        if any(it.rule and it.slot_said for it in self.components):
            return 67
        if self.method in ("REPLY", "REFRESH") and any(len(it.attendees) != 1 for it in self.components):
            return 64
        return 0 if all(it.suits for it in self.components) else 57


# ---- writing


def with_zones(method, blocks, own=()):
    """The text of an object of VEVENTs, each a component or None and a function of the names of the zones that gives its lines; and own lines of it."""
    used = dict.fromkeys(component.zone for component, _ in blocks if component and component.zone)
    names = {zone: f"Z{number}" for number, zone in enumerate(used, 1)}
    zones = [line for zone in used for line in ["BEGIN:VTIMEZONE", f"TZID:{names[zone]}", *PARTS[zone], "END:VTIMEZONE"]]
    events = [line for _, lines in blocks for line in ["BEGIN:VEVENT", *lines(names), "END:VEVENT"]]
    return folded([*OWN_HEAD, *[f"METHOD:{method}"] * bool(method), *own, *zones, *events, "END:VCALENDAR"]).decode()


def instance_line(slot):
    return [] if slot is None else [f"RECURRENCE-ID:{stamp(slot)}"]


# ---- a room, from the messages that it took


Part = namedtuple("Part", "meeting slot revision kind body")


def parts_of(message, room, zone):
    """The parts of a message for a room of this zone, each with its component. There are none where it isn't addressed to the room."""
    if message.method == "CANCEL":
        found = [(it, CANCELLED) for it in message.components if room in it.attendees or not it.attendees]
    elif any(room in it.attendees for it in message.components):
        found = [(it, CANCELLED if it.cancelled else SET if room in it.attendees else ABSENT) for it in message.components]
    else:
        found = []
    whole = [(it.sequence, it.stamp) for it in message.components if it.slot_said is None]
    for component, kind in found:
        body = ()
        if kind == SET:
            body = (*component.content({component.zone: "Z"}), *(PARTS[component.zone] if component.zone else ()))
        yield Part((message.organiser, message.uid), component.slot_in(zone), max([(component.sequence, component.stamp), *whole]), kind, body), component


def greatest_of(parts):
    """The greatest whole of each meeting, and the greatest part for each instance."""
    greatest = {}
    for part in parts:
        key = part.meeting, part.slot
        greatest[key] = max(greatest.get(key, part), part, key=lambda it: it[2:])
    return greatest


def view_of(parts):
    """Of all parts ever taken those that count: the greatest ones, but of instances those that the whole doesn't outdo."""
    greatest = greatest_of(parts)
    view = set()
    for part in greatest.values():
        whole = greatest.get((part.meeting, None))
        if part.slot is None or whole is None or part.revision > whole.revision or (part.revision == whole.revision and whole.kind != CANCELLED):
            view.add(part)
    return view


# what a decision found: its number, its moment, and what would be confirmed
Decision = namedtuple("Decision", "number accepted moment held")


def in_order(parts):
    return sorted(parts, key=lambda it: (it.slot is not None, it.slot))


class RoomBook:
    def __init__(self, room, zone, horizon, taken=()):
        """From nothing, by all messages that the room of this zone took, with their moments; `reply` is the answer to the last. It is a text and the decisions
        that its declines are of; behind it may come the text of a REFRESH."""
        self.room, self.zone, self.horizon = room, zone, horizon
        self.parts, self.components, self.answers, self.reply, self.view, self.given_way = [], {}, {}, [], set(), 0
        for message, moment in taken:
            self.reply = self.take(message, moment)

    def take(self, message, moment):
        found = list(parts_of(message, self.room, self.zone))
        # of two for one instance in this room the greater counts
        claims = {part: dict(found)[part] for part in greatest_of(dict(found)).values()}
        self.given_way += len(found) - len(claims)
        had_whole = any(part.slot is None and part.meeting == (message.organiser, message.uid) for part in self.parts)
        before = self.view
        self.parts += claims
        self.components.update(claims)
        self.view = view_of(self.parts)
        fresh = [part for part in claims if part in self.view and part not in before]
        asked = [part for part in fresh if part.kind == SET]
        if asked:
            held = self.confirmed(lambda part: part in asked or self.is_accepted(part))
            # one number for a decision, whoever computes it again
            decision = Decision((self.room, len(self.answers)), not clash_in(held), moment, held)
            self.answers.update({part: decision for part in asked})
        shown = in_order(part for part in claims if part.kind == SET and part in self.view)
        sent = [self.written_reply(shown)] if shown else []
        return sent + [(self.refresh(message, moment), [])] * (message.method == "ADD" and fresh != [] and not had_whole)

    def is_accepted(self, part):
        return part in self.answers and self.answers[part].accepted

    def confirmed(self, accepts):
        """The instances of accepted parts: meeting, slot, start, end."""
        return [(part.meeting, *instance) for part in self.view if part.kind == SET and accepts(part) for instance in self.instances(part)]

    def instances(self, part):
        component = self.components[part]
        if part.slot is not None:
            own = component.own(self.zone)
            return [(part.slot, own, component.end(own, self.zone))]
        hidden = {it.slot for it in self.view if it.meeting == part.meeting and it.slot is not None}
        return [(at, at, component.end(at, self.zone)) for at in component.starts(self.zone, self.horizon) if at not in hidden]

    def booked(self):
        return self.confirmed(self.is_accepted)

    def counts(self):
        """How many singles and how many series are confirmed."""
        accepted = [part for part in self.view if part.kind == SET and self.is_accepted(part)]
        singles = 0
        for part in accepted:
            on_rule = {*self.components[part].on_rule(self.zone, self.horizon)} if part.slot is None else set()
            singles += sum(at not in on_rule for _, at, _ in self.instances(part))
        return singles, sum(part.slot is None and self.components[part].rule is not None for part in accepted)

    def written_reply(self, shown):
        blocks = []
        for part in shown:
            decision = self.answers[part]
            word = "ACCEPTED" if decision.accepted else "DECLINED"
            status = "2.0;Success" if decision.accepted else "4.1;Event conflict.  Date-time is busy.;"
            lines = [f"UID:{part.meeting[1]}", *instance_line(part.slot), f"SEQUENCE:{part.revision[0]}", f"DTSTAMP:{decision.moment}",
                     f"ORGANIZER:{part.meeting[0]}", f"ATTENDEE;PARTSTAT={word}:{self.room}", f"REQUEST-STATUS:{status}"]
            blocks.append((None, lambda names, lines=lines: lines))
        return with_zones("REPLY", blocks), [self.answers[part] for part in shown if not self.answers[part].accepted]

    def refresh(self, message, moment):
        lines = [f"UID:{message.uid}", f"DTSTAMP:{moment}", f"ORGANIZER:{message.organiser}", f"ATTENDEE:{self.room}"]
        return with_zones("REFRESH", [(None, lambda names: lines)])

    def calendar(self):
        """What the room keeps: accepted meetings in order of first arrival, and the starts of accepted wholes that don't take place."""
        blocks = []
        for meeting in dict.fromkeys(part.meeting for part in self.parts):
            of_it = in_order(part for part in self.view if part.meeting == meeting)
            has_whole = any(part.slot is None and self.is_accepted(part) for part in of_it)
            for part in of_it:
                if self.is_accepted(part):
                    blocks.append((self.components[part], self.kept(part, self.components[part])))
                elif has_whole and part.slot is not None:
                    blocks.append((None, self.kept(part, None)))
        return with_zones(None, blocks, [f"X-ROOM-ZONE:{WORDS.get(self.zone)}"] * bool(self.zone))

    def kept(self, part, component):
        def lines(names):
            content = component.content(names) if component else [f"DTSTART:{stamp(part.slot)}", "DURATION:PT0S", "STATUS:CANCELLED"]
            return [f"UID:{part.meeting[1]}", *instance_line(part.slot), f"SEQUENCE:{part.revision[0]}", f"DTSTAMP:{part.revision[1]}", *content,
                    f"ORGANIZER:{part.meeting[0]}", f"ATTENDEE;PARTSTAT={'ACCEPTED' if component else 'DECLINED'}:{self.room}"]
        return lines


def clash_in(held):
    """Whether two of these instances share an instant."""
    spans = sorted((start, end) for _, _, start, end in held if start < end)
    return any(after[0] < before[1] for before, after in zip(spans, spans[1:]))


# ---- an organiser, from the stores and the replies that it took


class Stored:
    """A store that was taken: its revision, whom it is sent to, and what is sent."""

    def __init__(self, organiser, message, last, moment):
        self.components, self.uid, self.organiser, self.moment = message.components, message.uid, organiser, moment
        own = max(it.sequence for it in self.components)
        self.sequence = max(own, last.sequence + 1) if last else own
        self.off = any(it.cancelled and it.slot is None for it in self.components)
        self.named = list(dict.fromkeys(address for it in self.components for address in it.attendees))
        agents = [(address, parameters.get("SCHEDULE-AGENT", "SERVER").upper()) for it in self.components for address, parameters in it.attendees.items()]
        by_server = {address for address, agent in agents if agent == "SERVER"}
        self.left = [it for it in self.named if it in by_server and it != organiser]
        before = last.left if last else []
        # whom no component names any more; a meeting that is called off is cancelled for all of both stores
        gone = [it for it in before if it not in (self.left if self.off else self.named)]
        self.told = self.left + gone
        # what a REFRESH is answered by, and what follows the store
        self.object = self.cancel(self.told) if self.off else self.request()
        self.sent = [self.object] * bool(self.told if self.off else self.left) + [self.cancel(gone)] * bool(gone and not self.off)

    def cancel(self, to):
        lines = [f"UID:{self.uid}", f"SEQUENCE:{self.sequence}", f"DTSTAMP:{self.moment}", *["STATUS:CANCELLED"] * self.off, f"ORGANIZER:{self.organiser}",
                 *(f"ATTENDEE:{it}" for it in to)]
        return with_zones("CANCEL", [(None, lambda names: lines)])

    def request(self):
        return self.written("REQUEST", lambda component, address: "PARTSTAT=NEEDS-ACTION;RSVP=TRUE")

    def written(self, method, parameters):
        def block(component):
            return lambda names: [
                f"UID:{self.uid}", *instance_line(component.slot), f"SEQUENCE:{self.sequence}", f"DTSTAMP:{self.moment}", *component.content(names),
                *["STATUS:CANCELLED"] * component.cancelled, f"SUMMARY:{component.summary}", f"ORGANIZER:{self.organiser}",
                *(f"ATTENDEE;{parameters(component, address)}:{address}" for address in component.attendees)]
        return with_zones(method, [(component, block(component)) for component in self.components])


class OrganiserBook:
    def __init__(self, organiser, taken=()):
        """From nothing, by all that the organiser was given, with the moments; `sent` is what follows the last: texts, or the number of a refusal."""
        self.organiser, self.stores, self.replies, self.sent = organiser, {}, [], []
        for message, moment in taken:
            self.sent = self.take(message, moment)

    def take(self, message, moment):
        """Texts, or the number of a refusal."""
        if message.refused:
            return message.refused
        if message.organiser != self.organiser:
            return 70
        return self.store(message, moment) if message.method == "" else self.spoken(message)

    def store(self, message, moment):
        stored = Stored(self.organiser, message, self.stores.get(message.uid), moment)
        if stored.sequence > MOST:
            return 72
        self.stores[message.uid] = stored
        return stored.sent

    def spoken(self, message):
        """Of a REPLY or a REFRESH, which say whose they are."""
        last = self.stores.get(message.uid)
        speakers = [next(iter(it.attendees)) for it in message.components]
        if not last or message.method == "REPLY" and any(it.sequence > last.sequence for it in message.components):
            return 71
        if not all(it in last.named for it in speakers):
            return 73
        if message.method == "REFRESH":
            return [last.object]
        rank = lambda answer: RANKS.index(answer) if answer in RANKS else 0
        self.replies += [(message.uid, it.slot, by, it.sequence, it.stamp, rank(it.answer)) for it, by in zip(message.components, speakers)]
        return []

    def seen(self, uid, slot, attendee):
        """Of the answers to the last store the latest, and of these the one of the greatest rank."""
        last = self.stores.get(uid)
        if last is None or attendee not in last.named:
            return None
        said = [(stamp, rank) for *key, sequence, stamp, rank in self.replies if key == [uid, slot, attendee] and sequence == last.sequence]
        return RANKS[max(said)[1]] if said else "NEEDS-ACTION"

    def text(self, uid):
        """What is shown of a meeting."""
        stored = self.stores[uid]
        state = lambda component, address: f"PARTSTAT={self.seen(uid, component.slot, address)}" + ";SCHEDULE-STATUS=1.1" * (address in stored.told)
        return stored.written(None, state)


# ---- what a decline names


def names_clash(data, held):
    """Whether the seven words name two of these instances that clash, the first one first, at the later start."""
    words = data.split(" ")
    if len(words) != 7:
        return False
    at, *keys = words
    first, second = ([it for it in held if (stamp(it[1]), *it[0]) == (slot, organiser, uid)] for slot, organiser, uid in (keys[:3], keys[3:]))
    if len(first) != 1 or len(second) != 1:
        return False
    (meeting, slot, start, end), (other_meeting, other_slot, other_start, other_end) = first[0], second[0]
    return (start, *meeting, slot) < (other_start, *other_meeting, other_slot) and start < end and other_start < min(end, other_end) and at == stamp(other_start)


def judged(wanted, declines, found, named=None):
    """What is wrong with a text that was sent: it is to be this octet by octet, but for the clash that a decline names, which has to be one, and one for each
    decision once and for all: those are noted by their numbers."""
    named = {} if named is None else named
    data = iter([it.rpartition(";")[2] for it in unfolded(found).split("\r\n") if it.startswith("REQUEST-STATUS:4.1;")])
    declines, whole = iter(declines), []
    for line in unfolded(wanted).split("\r\n")[:-1]:
        if line.startswith("REQUEST-STATUS:4.1;"):
            decision, said = next(declines), next(data, "")
            if named.setdefault(decision.number, said) != said or not names_clash(said, decision.held):
                yield f"names no clash, or another than before: {said}"
            line += said
        whole.append(line)
    if folded(whole).decode() != found:
        yield f"{found}\n    not {folded(whole).decode()}"
