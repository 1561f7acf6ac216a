"""Tries `roombox meetings`: what an organiser has stored, with the answers that were seen.

    python3 tests/meetings.py bin/roombox

Each case has its input, a status and what standard output has to be, written by hand from docs/REFERENCE.md and RFC 6638 (3.2.9, 4.2, 7.3).
"""

from lib.cases import Cases
from lib.program import ROOT, of_arguments, run
from lib.streams import ANN, OWN_HEAD, R1, calendar

BOB = "mailto:bob@example.com"
PREAMBLE = f"now 20250102T000000Z\nroom {R1}\norganiser {ANN}\norganiser {BOB}\n\n"


def store(uid, *attendees, organiser=ANN, day="20250401", more=()):
    """A meeting of an hour from 09:00 on, which its organiser stores."""
    return calendar("BEGIN:VEVENT", f"UID:{uid}", "DTSTAMP:20250101T000000Z", f"ORGANIZER:{organiser}", *(f"ATTENDEE:{it}" for it in attendees), f"DTSTART:{day}T090000Z",
                    f"DTEND:{day}T100000Z", "SUMMARY:Plan", *more, "END:VEVENT")


def answer(uid, attendee, word, sequence=0, organiser=ANN, stamp="20250102T000000Z"):
    return calendar("BEGIN:VEVENT", f"UID:{uid}", f"SEQUENCE:{sequence}", f"DTSTAMP:{stamp}", f"ORGANIZER:{organiser}", f"ATTENDEE;PARTSTAT={word}:{attendee}", "END:VEVENT", method="REPLY")


def shown(uid, *attendees, organiser=ANN, day="20250401", sequence=0, more=()):
    """What is shown of such a meeting; each attendee is an address, its PARTSTAT, and whether it was sent a message."""
    seen = [f"ATTENDEE;PARTSTAT={word}{';SCHEDULE-STATUS=1.1' if sent else ''}:{address}" for address, word, sent in attendees]
    return calendar("BEGIN:VEVENT", f"UID:{uid}", f"SEQUENCE:{sequence}", "DTSTAMP:20250102T000000Z", f"DTSTART:{day}T090000Z", "DURATION:PT3600S", *more, "SUMMARY:Plan",
                    f"ORGANIZER:{organiser}", *seen, "END:VEVENT", head=OWN_HEAD)


def rows():
    """Name, words behind `meetings`, input, status, standard output."""
    asked = (R1, "NEEDS-ACTION", True)
    conversation = (ROOT / "examples/organiser-conversation.ics-stream").read_bytes().decode()
    return [
        ("nothing is stored", [ANN], PREAMBLE, 0, ""),
        ("a meeting that nobody answered", [ANN], PREAMBLE + store("s", R1), 0, shown("s", asked)),
        ("a meeting that the room accepted", [ANN], PREAMBLE + store("s", R1) + answer("s", R1, "ACCEPTED"), 0, shown("s", (R1, "ACCEPTED", True))),
        ("of two answers the later counts", [ANN], PREAMBLE + store("s", R1) + answer("s", R1, "DECLINED", stamp="20250103T000000Z") + answer("s", R1, "ACCEPTED"), 0, shown("s", (R1, "DECLINED", True))),
        ("an answer to an older store counts no longer", [ANN], PREAMBLE + store("s", R1) + answer("s", R1, "ACCEPTED") + store("s", R1, day="20250402"), 0,
         shown("s", asked, day="20250402", sequence=1)),
        ("a conversation of the examples", [ANN], conversation, 0, shown("s", asked, day="20250402", sequence=1)),
        ("each meeting once, by the octets of their UIDs", [ANN],
         PREAMBLE + store("b", R1) + store("a10", R1) + store("a9", R1) + store("B", R1) + store("a", R1) + store("é", R1), 0,
         "".join(shown(uid, asked) for uid in ["B", "a", "a10", "a9", "b", "é"])),
        ("a UID with escapes", [ANN], PREAMBLE + store("x\\,y\\;z", R1), 0, shown("x\\,y\\;z", asked)),
        ("only the meetings of this organiser", [BOB], PREAMBLE + store("s", R1) + store("s", R1, organiser=BOB, day="20250403"), 0, shown("s", asked, organiser=BOB, day="20250403")),
        ("an address in capitals", ["MAILTO:Ann@Example.com"], PREAMBLE + store("s", R1), 0, shown("s", asked)),
        ("one who is left to a client was sent nothing", [ANN], PREAMBLE + store("s", R1).replace(f"ATTENDEE:{R1}", f"ATTENDEE;SCHEDULE-AGENT=CLIENT:{R1}"), 0, shown("s", (R1, "NEEDS-ACTION", False))),
        ("a meeting that was called off", [ANN], PREAMBLE + store("s", R1) + store("s", R1, more=("STATUS:CANCELLED",)), 0, shown("s", asked, sequence=1, more=("STATUS:CANCELLED",))),
        ("a store that is refused changes nothing", [ANN], PREAMBLE + store("s", R1) + store("s", R1).replace("DTSTART", "DTSTARTS"), 0, shown("s", asked)),
        ("no objects", [ANN], f"now 20250102T000000Z\norganiser {ANN}\n", 0, ""),
        ("an organiser whom the preamble doesn't name", ["mailto:eve@example.com"], PREAMBLE + store("s", R1), 3, ""),
        ("a room isn't an organiser", [R1], PREAMBLE + store("s", R1), 3, ""),
        ("no preamble", [ANN], store("s", R1), 3, ""),
        ("no address", ["ann"], PREAMBLE, 2, ""),
        ("no organiser", [], PREAMBLE, 2, ""),
        ("zones without --adapt", [ANN, "--zones", "zones.ics"], PREAMBLE, 2, ""),
        ("behind the door", [ANN, "--adapt"], PREAMBLE + store("s", R1) + answer("s", R1, "ACCEPTED"), 0, shown("s", (R1, "ACCEPTED", True))),
        ("behind the door, without a preamble", [ANN, "--adapt"], store("s", R1), 3, ""),
    ]


def main():
    cases, program = Cases(), of_arguments()
    for name, words, given, status, wanted in rows():
        found = run(program, "meetings", *words, given=given)
        cases.holds(name, found[:2], (status, wanted))
        if status != 2:
            said = found[2].startswith("roombox: refused 90\nroombox: ") if status == 3 else not found[2]
            cases.holds(f"{name}: what is said", said, True)
    cases.end()


if __name__ == "__main__":
    main()
