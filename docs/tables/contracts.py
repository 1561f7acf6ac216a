"""Writes the tables of docs/CONTRACTS.md: what the contract of each call says, from the comments that stand at it.

    python3 docs/tables/contracts.py [--check]
    python3 docs/tables/contracts.py --left       lists the calls that crates offer and no table has

A table answers one question; CALLS below says which calls are in it. A row has the call's doc comment (`///`) and its clauses: the name of a
clause, the comment above it, and in brackets the definitions of `specs/` that it names. Which calls a crate offers is what
tools/public_calls.py finds. The text is read, and not proved: `rt check` says whether a clause holds.
"""

import fnmatch
import re
import sys

from pages import CRATES, DEFINED, head, put, row

import public_calls
from public_calls import CLAUSE, END_OF_TYPES, NAME, closing, title
from repository import crates_below

# what takes arguments: a type of values, as `record pub Book : Type 0`, says nothing of a call
OF_ARGUMENTS = re.compile(DEFINED.pattern + r"(?=[\s:({])(?!\s*(?:: Type 0|where\b|=))", re.MULTILINE)
RELATION = re.compile(r"\b[A-Z]\w*\b")

# For each table the crates and their calls; `*` stands for any letters, as `Type::*` for all calls of a type.
CALLS = {
    "free": {
        "clash_check": ["check", "judge", "judge_read", "certificate_means_clear", "yes_means_free", "check_clash", "Drawing::new"],
        "room_books": ["runs_stay_clear", "answers_stay", "accepted_where_clear", "Room::new", "Room::take", "Room::kept", "kept_texts_pass", "kept_texts_spell", "kept_calendar_is_of_room", "one_kept_calendar", "served_texts_pass"],
        "clash_cert": ["make", "extend", "certificate_of", "certificate_from", "group", "certificate_written", "one_certificate_made"],
        "cal_period": ["clash_of_pair", "clash_alone", "NewSeries::clash_with", "single_beside_series", "first_sharer", "residues", "settling_residues", "residues_settle", "are_apart",
                       "is_apart", "span_of_pair", "span_of_members", "spans_settle", "common_period", "series_repeat", "periods_are_multiples", "Recurs::period_days",
                       "Recurs::regular_from", "Recurs::recurs"],
        "itip_order": ["greatest_by_slot", "Held::new", "Held::take", "Held::take_all", "Held::with", "Held::view", "Held::is_new_in", "same_parts_same_view", "view_is_lasting"],
        "cal_events": ["first_overlap", "Series::first_sharer", "known_by_start"],
    },
    "read": {
        "ical_lines": ["Unfolded::read", "split_line", "without_mark", "Line::*", "Lines::next_text", "cut", "Cutter::*", "object_ends_with_its_line", "first_line_end"],
        "ical_tree": ["read_object", "Object::read", "one_tree", "Properties::of", "Properties::optional", "Properties::required"],
        "cal_days": ["Day::of", "Day::of_number", "Day::number", "Day::weekday", "number_at", "one_date", "same_after_400_years", "periods_grow", "PeriodIndex::of"],
        "ical_values": ["Stamp::read", "LocalTime::read", "Duration::read", "UtcOffset::read", "Text::read", "Text::read_uid", "Address::read", "Sequence::read", "read_date",
                        "LocalTime::of_day", "LocalTime::day_and_second", "seconds_at"],
        "cal_rules": ["RuleText::read", "one_rule", "Rule::new", "Rule::holds", "Rule::seek", "Rule::days", "Rule::last_not_after", "Rule::text", "Rule::period_days",
                      "base_days_repeat", "rule_days_repeat", "shifts_are_multiples", "common_multiple", "form_days_repeat"],
        "cal_zones": ["zone_name", "Zone::read", "Zone::single", "Zone::pair", "one_zone", "Zone::offset", "Zone::offsets", "Zone::first_onsets", "Zone::resolve", "Zone::last_day",
                      "Zone::regular_from", "Zone::period_days", "zones_repeat", "RoomZone::*", "Clock::*"],
        "cal_events": ["read_meeting", "Method::*", "Property::*", "Presence::*", "judge_time", "When::instant", "is_in_event_dates", "one_event", "one_zoned_time", "EventComponent::singles", "EventComponent::series",
                       "EventComponent::instances_in", "Time::instant_in", "Event::read", "Event::instances", "Event::first_overlap", "one_meeting", "one_instance",
                       "all_instances", "Calendar::*", "Naming::*", "blamed_uid", "one_calendar_text", "singles_are_confirmed", "series_and_singles_divide", "zone_named_keeps", "Series::*", "all_starts",
                       "series_are_said", "calendar_series_are_said", "instances_last"],
        "itip_messages": ["Message::*", "MessageComponent::slot_in", "MessageComponent::instances_in", "MessageComponent::names", "MessageComponent::without_instances",
                          "Attendees::contains", "component_lines", "one_message", "one_content"],
        "cal_agenda": ["*"],
    },
    "written": {
        "ical_lines": ["write_line", "write_property", "write_pieces", "lines_read_back", "read_lines_are_content"],
        "ical_tree": ["write_object"],
        "ical_values": ["Stamp::write", "LocalTime::write", "Duration::write", "UtcOffset::write", "Text::write", "text_reads_back", "Address::write", "address_reads_back",
                        "Sequence::write", "stamp_text", "local_text", "offset_text", "sequence_text", "escaped_text"],
        "cal_rules": ["RuleText::write", "Rule::write", "values_read_back", "rule_reads_back", "written_means_the_same"],
        "cal_zones": ["Zone::write", "zone_reads_back"],
        "itip_messages": ["write_event", "write_reply", "write_refresh", "replies_read_back", "answers_read_back", "refreshes_read_back", "replies_are_heard", "refreshes_are_heard",
                          "write_request", "write_meeting", "write_cancel", "stored_texts_can_be_sent", "requests_read_back", "cancels_read_back", "shown_reads_back", "zone_lines"],
        "clash_cert": ["Certificate::read", "Certificate::write", "one_certificate", "first_wrong_line_is_one"],
        "room_books": ["Room::calendar_text", "Room::certificate_text", "answers_name_texts"],
    },
    "door": {
        "cal_doors": ["GeneralZone::read", "date_at_start_adds_nothing", "GeneralZone::from_instant", "GeneralZone::between", "GeneralZone::table_end", "Run::once", "Run::yearly",
                      "one_general_zone", "zones_are_general", "NamedZones::of", "NamedZones::named", "is_time_line", "adapt", "adapted_says_the_same", "adapted_has_the_same_instances", "tables_go_on_alike", "zones_are_clocks", "starts_are_known", "returned", "split"],
        "cal_events": ["instances_are_on_clocks"],
        "sched_doors": ["Door::pass", "adapted_takes_place_as_before"],
        "sched_cli": ["run_adapt", "run_returned"],
    },
    "organisers": {
        "organiser_books": ["Organiser::*"],
    },
    "schedules": {
        "sched_box": ["play", "World::room", "World::organiser", "World::sent"],
        "sched_laws": ["*"],
    },
    "program": {
        "sched_devices": ["Input::*", "Output::*", "DeviceReader::with_capacity", "Recorder::new", "Recorder::octets", "DeviceWriter::new", "Folder::*", "MemoryFolder::restart"],
        "sched_box": ["Config::*", "read_preamble", "Objects::next_object", "serve", "serve_stream*", "keep", "shown_meetings", "run_box*", "compare_box", "MessageName::*"],
        "box_laws": ["*"],
        "fault_places": ["place_of", "in_the_way", "flaw_in_object"],
        "sched_cli": ["run_serve*", "run_keep", "run_check", "run_expand", "run_agenda", "run_free", "run_explain*", "run_folders*", "run_[!ar]*"],
    },
}


class Documented(public_calls.Source):
    """A file whose calls are kept with their comments: those above the call, and those above each of its clauses."""

    def __init__(self, path):
        self.raw = path.read_text(encoding="utf-8")
        self.comments = {}
        super().__init__(path)

    def call(self, place, owner, trait, is_open):
        end = super().call(place, owner, trait, is_open)
        self.comments[id(self.calls[-1])] = (comment_above(self.raw, place, "///"), self.clauses_at(place))
        return end

    def clauses_at(self, place):
        """Each clause of the call whose name begins here, as (name, comment, words)."""
        place = NAME.match(self.text, place).end()
        if self.text[place] == "<":
            place = closing(self.text, place, ["<>"])
        end = END_OF_TYPES.search(self.text, closing(self.text, place)).start()
        found = []
        while clause := CLAUSE.match(self.text, end):
            end = closing(self.text, clause.end() - 1)
            found.append((clause[1], clause[2], comment_above(self.raw, clause.start(1), "//"), self.text[clause.end() : end - 1]))
        return found


def comment_above(text, place, mark):
    """The lines of a comment that stand directly above a place, as one text; attributes between them are passed over."""
    lines = text[: text.rfind("\n", 0, place) + 1].split("\n")[:-1]
    found = []
    for line in reversed(lines):
        line = line.strip()
        if line.startswith(mark) and (mark == "///" or not line.startswith("///")):
            found.append(line[len(mark) :].strip())
        elif not line.startswith("#["):
            break
    return " ".join(" ".join(reversed(found)).split())


def definitions():
    """The names that the crates define, but for those of types of values."""
    return {name for path in CRATES.glob("*/specs/**/*.antt") for name in OF_ARGUMENTS.findall(path.read_text(encoding="utf-8"))}


def documented(crate):
    """The calls that a crate offers, as (title, call, doc comment, clauses)."""
    comments = {}
    for source in crate.sources.values():
        comments |= source.comments
    return [(title(call), call, *comments[id(call)]) for call in crate.calls]


def said(clauses, known):
    """What the clauses say: their names, the comments above them, and the definitions that they name."""
    parts = []
    for kind, name, comment, words in clauses:
        named = ", ".join(f"`{word}`" for word in dict.fromkeys(RELATION.findall(words)) if word in known)
        first = " ".join(filter(None, ("asks" if kind == "requires" else "", f"`{name}`" if name else "")))
        if comment or named:
            text = f"{comment} ({named})" if comment and named else comment or named
            parts.append(f"{first}: {text}" if name else f"{first} {text}".strip())
    return "<br>".join(parts)


def chosen(wanted, offered):
    """The offered calls of a list of titles, in the order of that list, each once; those that aren't offered are faults."""
    found, faults = [], []
    for one in wanted:
        calls = [it for it in offered if fnmatch.fnmatchcase(it[0], one)]
        faults += [] if calls else [one]
        found += [it for it in calls if it not in found]
    return found, faults


def table(name, crates, known, wrong):
    """The rows of a table. What isn't offered, or has no comment, is wrong; what implements a trait needs none."""
    text = head(("Call", "What it does", "Its clauses, with the definitions that they name"))
    for crate, wanted in CALLS[name].items():
        calls, faults = chosen(wanted, documented(crates[crate]))
        wrong += [f"{crate}: {it} isn't offered" for it in faults] + [f"{crate}: {it[0]} has no doc comment" for it in calls if not (it[2] or it[1].trait)]
        text += f"| **{crate}** | | |\n"
        for one, call, comment, clauses in calls:
            law = " (a law)" if not call.parameters and not call.answer else ""
            text += row((f"`{one}`{law}", *(it.replace("|", "\\|") for it in (comment, said(clauses, known)))))
    return text


def main():
    public_calls.Source = Documented
    crates = {name: public_calls.Crate(name) for name in crates_below() if name not in public_calls.LEFT_OUT}
    if sys.argv[1:] == ["--left"]:
        for name, crate in crates.items():
            has = {it[0] for lists in CALLS.values() for it in chosen(lists.get(name, []), documented(crate))[0]}
            print(f"{name}: " + ", ".join(it[0] for it in documented(crate) if it[0] not in has))
        return 0
    wrong = []
    return put(__doc__, [("CONTRACTS.md", name, table(name, crates, definitions(), wrong)) for name in CALLS], wrong)


if __name__ == "__main__":
    sys.exit(main())
