"""Refuses each allocation of a run in turn, and looks at what the program then does: status 5, `roombox: memory` on standard error,
and on standard output a beginning of the right answers that holds whole answers alone.

    python3 tests/refused_memory.py bin/roombox
    python3 tests/refused_memory.py --schedules bin/schedule_examples

Of a schedule, which the second program plays, it sees that the answer is that there is no memory, or what it is with ample memory.

The refusing is done by a small shim over the C library's allocator, built by gcc in a temporary folder.
"""

import os
import sys
import tempfile
from pathlib import Path

from lib.cases import Cases
from lib.program import ROOT, ended, of_arguments, read, run, shim
from lib.streams import crlf
from lib.zones import WORDS

NEW_YORK = WORDS["America/New_York"]
# a box, or a schedule, that needs more allocations than so many has no end
MOST = 100_000
# so many runs that go on as with ample memory come after the last allocation
QUIET = 100
SHIM = r"""
#define _GNU_SOURCE
#include <dlfcn.h>
#include <errno.h>
#include <stdlib.h>

static long calls, refused = -1;

static int refuse(void) {
    if (refused < 0) {
        const char *text = getenv("REFUSED_ALLOCATION");
        refused = text ? atol(text) : 0;
    }
    return ++calls == refused;
}

void *malloc(size_t size) {
    static void *(*real)(size_t);
    if (!real) real = dlsym(RTLD_NEXT, "malloc");
    if (refuse()) { errno = ENOMEM; return NULL; }
    return real(size);
}

void *realloc(void *old, size_t size) {
    static void *(*real)(void *, size_t);
    if (!real) real = dlsym(RTLD_NEXT, "realloc");
    if (refuse()) { errno = ENOMEM; return NULL; }
    return real(old, size);
}

int posix_memalign(void **out, size_t align, size_t size) {
    static int (*real)(void **, size_t, size_t);
    if (!real) real = dlsym(RTLD_NEXT, "posix_memalign");
    if (refuse()) return ENOMEM;
    return real(out, align, size);
}

void *aligned_alloc(size_t align, size_t size) {
    static void *(*real)(size_t, size_t);
    if (!real) real = dlsym(RTLD_NEXT, "aligned_alloc");
    if (refuse()) { errno = ENOMEM; return NULL; }
    return real(align, size);
}
"""


# What is published of the meeting of calendar-a, and what an organiser shows of the meeting that it stores in organiser-conversation.
PUBLISHED = crlf("BEGIN:VCALENDAR", "VERSION:2.0", "PRODID:-//iTIP room box//EN", "NAME:r1@example.com", "X-WR-CALNAME:r1@example.com", "BEGIN:VEVENT",
                 "UID:20250310T090000Z mailto:ann@example.com a", "DTSTAMP:20250310T000000Z", "DTSTART:20250310T090000Z", "DTEND:20250310T100000Z", "SUMMARY:ann@example.com",
                 "TRANSP:OPAQUE", "END:VEVENT", "END:VCALENDAR").encode()
SHOWN = crlf("BEGIN:VCALENDAR", "VERSION:2.0", "PRODID:-//iTIP room box//EN", "BEGIN:VEVENT", "UID:s", "SEQUENCE:1", "DTSTAMP:20250102T000000Z", "DTSTART:20250402T090000Z",
             "DURATION:PT3600S", "SUMMARY:Plan", "ORGANIZER:mailto:ann@example.com", "ATTENDEE;PARTSTAT=NEEDS-ACTION;SCHEDULE-STATUS=1.1:mailto:r1@example.com", "END:VEVENT",
             "END:VCALENDAR").encode()
# An object whose METHOD isn't read, and that has no VEVENT.
REFUSED = b"BEGIN:VCALENDAR\r\nVERSION:2.0\r\nMETHOD:PUBLISH\r\nEND:VCALENDAR\r\n"


def meaning_of(program, number):
    return run(program, "explain", str(number))[1].encode()


def produced(name):
    return (ROOT / "tests" / "producers" / f"{name}.ics").read_bytes()


def ample(words, stream):
    """What a run writes that has memory enough."""
    return ended(*words, given=stream)[1]


def swept(again):
    """Refuses allocation 1, 2, .. until none is left to refuse: how many were refused, and what was wrong with a run, if anything. `again` makes the run whose
    allocation of that number is refused: it gives whether the run went on as with ample memory, else what is wrong with its end."""
    refused = quiet = 0
    for number in range(1, MOST):
        goes_on, wrong = again(number)
        if goes_on:
            # the program did without it, or made fewer allocations than that
            quiet += 1
            if quiet > QUIET:
                return refused, []
            continue
        quiet, refused = 0, refused + 1
        if wrong:
            return refused, [f"allocation {number} refused: {wrong}"]
    return refused, ["no end"]


def refusing(words, stream, library, number, **how):
    return ended(*words, given=stream, env=dict(os.environ, LD_PRELOAD=library, REFUSED_ALLOCATION=str(number)), **how)


def row(words, stream, wholes, library, status=0):
    """Of a command: `wholes` are the outputs that an early end may leave, `status` is that of the whole run."""
    def again(number):
        found, out, said = refusing(words, stream, library, number)
        wrong = (found, said) != (5, b"roombox: memory\n") or out not in wholes
        return (found, out) == (status, wholes[-1]), wrong and (found, out, said)
    return again


def box_of(folder, config, messages):
    """A configuration, an inbox of these messages under their names, and an empty outbox: the words of `box`, and the outbox."""
    config_at, inbox, outbox = (Path(folder, name) for name in ("config", "inbox", "outbox"))
    config_at.write_bytes(config)
    inbox.mkdir()
    outbox.mkdir()
    for name, octets in messages.items():
        (inbox / f"{name}.ics").write_bytes(octets)
    return ["box", str(config_at), str(inbox), str(outbox)], outbox


def held(outbox):
    """What the outbox holds under each name, but the temporary."""
    return {path.name: path.read_bytes() for path in sorted(outbox.iterdir()) if not path.name.startswith(".")}


def box(program, config, messages, answers, library):
    """Of a box: each end leaves the answers to the first files, and another run those to all of them."""
    whole = {name + ".out": answer for name, answer in zip(sorted(messages), answers)}
    beginnings = [dict(list(whole.items())[:count]) for count in range(len(whole) + 1)]

    def again(number):
        with tempfile.TemporaryDirectory() as folder:
            words, outbox = box_of(folder, config, messages)
            found = refusing([program, *words], b"", library, number)
            left = held(outbox)
            if (found[0], left) == (0, whole):
                return True, None
            if found != (5, b"", b"roombox: memory\n") or left not in beginnings:
                return False, (found, left)
            later = ended(program, *words)
            return False, ((later[0], later[2]), held(outbox)) != ((0, b""), whole) and ("a later run", later, held(outbox))
    return again


def schedule(program, table, whole, library):
    """Of a schedule, a table of one line, by the program that plays it."""
    name = Path(table).read_text(encoding="ascii").split(" | ")[0]
    # nothing is said of a table that wasn't read whole, and a file of an object that wasn't is unreadable
    may_be = [b"", *(f"{name}: {it}\n".encode() for it in ("out of memory", "unreadable case"))]

    def again(number):
        found = refusing([program, table], b"", library, number, cwd=ROOT / "crates" / "schedule_examples" / "data")
        return found[1] == whole, (found[1] not in may_be or found[0] < 0) and found
    return again


def tries(cases, name, again):
    refused, wrong = swept(again)
    cases.tells(name, wrong or ([] if refused else ["no allocation was refused: a build with checks has an allocator of its own"]))
    print(f"{name}: {refused} allocations, each refused in turn", flush=True)


def rows(program, folder):
    """A name, the words, the input, the outputs that may be left, and the status of the whole run."""
    accepted, declined = read("accepted-a"), read("declined-b")
    room = "mailto:r1@example.com"
    decline = read("preamble", "request-a", "request-b-busy")
    two_series = ("preamble", "request-series-k", "request-series-l")
    kept, certificate, days, days_certificate, original = (str(Path(folder, name)) for name in ("kept.ics", "kept.cert", "days.ics", "days.cert", "original.ics"))
    for path, name in ((kept, "calendar-a"), (certificate, "certificate-1"), (days, "calendar-day-of-new-york"), (days_certificate, "certificate-3")):
        Path(path).write_bytes(read(name))
    # what the door makes, and what it tells on the way back, tests/doors.py judges
    history, moved = produced("gnome--03-weekly-endless"), produced("cyrus-ruby--07b-instance-moved")
    Path(original).write_bytes(moved)
    readable = ample([program, "adapt"], history)
    answer = ample([program, "serve", "--adapt"], b"now 20250102T000000Z\nroom mailto:room1@example.com\nroom mailto:room1@rooms.example.net\n\n" + moved)
    back = [program, "adapt", "--reply-to", original, "--single"]
    page = [program, "agenda", kept, room, "--html", "--from", "20250309T000000Z", "--until", "20250312T000000Z", f"--zone={NEW_YORK}"]
    conversation = (ROOT / "examples" / "organiser-conversation.ics-stream").read_bytes()
    return [
        # the first octet of an object is handed on as soon as it has come
        ("an object with history at the door", [program, "adapt"], history, [b"", readable[:1], readable]),
        ("an answer on its way back", back, answer, [b"", ample(back, answer)]),
        ("an agenda", [program, "agenda", kept, room], b"", [b"", b"20250310T090000Z 20250310T100000Z a mailto:ann@example.com\n"]),
        ("when a room is free", [program, "agenda", kept, room, "--free", "--from", "20250310T000000Z", "--until", "20250311T000000Z"], b"",
         [b"", b"20250310T000000Z 20250310T090000Z\n20250310T100000Z 20250311T000000Z\n"], 1),
        ("an agenda with local times", [program, "agenda", kept, room, "--zone=+0100 +0200 10 -1SU 0300 3 -1SU 0200"], b"",
         [b"", b"20250310T090000Z 20250310T100000Z 20250310T100000 20250310T110000 a mailto:ann@example.com\n"]),
        ("an agenda that is published", [program, "agenda", kept, room, "--ics", "--from", "20250310T000000Z", "--until", "20250311T000000Z"], b"", [b"", PUBLISHED]),
        # what a page says, tests/page.py judges
        ("a page for a room's door", page, b"", [b"", ample(page, b"")]),
        ("the meetings of an organiser", [program, "meetings", "mailto:ann@example.com"], conversation, [b"", SHOWN]),
        ("what of a zone is in the way", [program, "explain"], read("explain-head", "zone-with-until", "explain-event"), [b"", read("explained-with-until")], 1),
        ("an accepted request", [program, "serve"], read("preamble", "request-a"), [b"", accepted]),
        ("a declined request", [program, "serve"], decline, [b"", accepted, accepted + declined]),
        ("an ADD", [program, "serve"], read("preamble", "add-n-two"), [b"", read("accepted-n-two-instances", "refresh-n")]),
        ("an ADD that comes again", [program, "serve"], read("preamble", "add-n", "add-n"), [b"", read("accepted-n-instance", "refresh-n"), read("accepted-n-instance", "refresh-n", "accepted-n-instance")]),
        ("a series, and a single in it", [program, "serve"], read("preamble", "request-series-d", "request-behind-the-gap"), [b"", read("accepted-series-d"), read("accepted-series-d", "declined-behind-the-gap")]),
        ("a monthly and a yearly series", [program, "serve"], read(*two_series), [b"", read("accepted-series-k"), read("accepted-series-k", "accepted-series-l")]),
        ("their calendar", [program, "keep", room], read(*two_series), [b"", read("calendar-series-k-l")]),
        ("their certificate", [program, "keep", "--certificate", room], read(*two_series), [b"", read("certificate-series-k-l")]),
        ("a series with an instance of its own", [program, "serve"], read("preamble", "request-series-h-excepted"), [b"", read("accepted-series-h-excepted")]),
        ("a series that is declined", [program, "serve"], read("preamble", "request-series-h"), [b"", read("declined-series-h")]),
        ("the kept calendar of a series", [program, "keep", room], read("preamble", "request-series-h-excepted"), [b"", read("calendar-series-h-excepted")]),
        ("a kept calendar", [program, "keep", room], decline, [b"", read("calendar-a")]),
        ("a kept calendar with a hidden start", [program, "keep", room], read("preamble", "cancel-a-instance-sequence-1", "request-a"), [b"", read("calendar-a-hidden")]),
        ("a store, its second revision and a refresh", [program, "serve"], read("preamble-organiser", "store-s-two", "store-s", "reply-s-1", "refresh-s"), [b"", read("sent-s-two-0"), read("sent-s-two-0", "sent-s-1", "taken-out-r2-1"), read("sent-s-two-0", "sent-s-1", "taken-out-r2-1", "sent-s-1")]),
        ("a store twice, and replies to it", [program, "serve"], read("preamble-organiser", "store-s", "store-s", "reply-s-2", "reply-s-0"), [b"", read("sent-s-0"), read("sent-s-0", "sent-s-1"), read("sent-s-0", "sent-s-1", "refused-3-71")]),
        ("a meeting that is called off", [program, "serve"], read("preamble-organiser", "store-s-cancelled"), [b"", read("called-off-s-0")]),
        ("a series in a zone that is stored", [program, "serve"], read("preamble-organiser", "store-s-series"), [b"", read("sent-s-series-3")]),
        ("a check", [program, "check", kept, certificate, room], b"", [b"", b"yes\n"]),
        ("lists of whole days", [program, "serve"], read("preamble", "request-lists-of-days", "request-b-busy"), [b"", accepted, read("accepted-a", "declined-b-within-the-day")]),
        ("their calendar", [program, "keep", room], read("preamble", "request-lists-of-days"), [b"", read("calendar-lists-of-days")]),
        ("a store of times without zone", [program, "serve"], read("preamble-organiser", "store-s-without-zone"), [b"", read("sent-s-without-zone-0")]),
        ("a day of a room in New York", [program, "serve"], read("preamble-in-new-york", "request-day-ad", "request-late-b2"), [b"", read("accepted-ad"), read("accepted-ad", "declined-b2-by-ad")]),
        ("its calendar names the zone", [program, "keep", room], read("preamble-in-new-york", "request-day-ad", "request-late-b2", "request-next-c2"), [b"", read("calendar-ad-c2-in-new-york")]),
        ("two parts of one slot", [program, "serve"], read("preamble-in-new-york", "request-one-slot-or-two"), [b"", read("accepted-t-one-slot")]),
        ("a series of days, one of them moved", [program, "keep", room], read("preamble-in-new-york", "request-sundays-one-moved"), [b"", read("calendar-su-one-moved")]),
        ("whole days of New York", [program, "expand", f"--zone={NEW_YORK}"], read("zoned-begin", "placed-11"), [b"", read("placed-11-days")]),
        ("a check of whole days of New York", [program, "check", days, days_certificate, room], b"", [b"", b"yes\n"]),
        ("words of no zone", [program, "expand", "--zone=noon"], b"", [b""], 2),
        ("a report", [program, "serve", "--report"], read("preamble", "request-a"), [b"", accepted]),
        ("an object that isn't refused", [program, "explain"], read("request-a"), [b"", b"not refused: a REQUEST\n"]),
        ("an object that is refused", [program, "explain"], REFUSED, [b"", b"refused 60 at line 3: METHOD\n" + meaning_of(program, 60)], 1),
        ("an object that is refused for what it lacks", [program, "explain"], REFUSED.replace(b"PUBLISH", b"REQUEST"), [b"", b"refused 66\n" + meaning_of(program, 66)], 1),
        ("a bad word", [program, "expand", "--limit", "0"], b"", [b""], 2),
    ]


def schedules(cases, program, library):
    crate = ROOT / "crates" / "schedule_examples"
    lines = [it for it in (crate / "data" / "schedules.txt").read_text(encoding="ascii").splitlines() if not it.startswith("#")]
    wholes = (crate / "stdout").read_bytes().splitlines(keepends=True)
    for line, whole in list(zip(lines, wholes))[:3]:
        with tempfile.NamedTemporaryFile("w", encoding="ascii") as table:
            table.write(line + "\n")
            table.flush()
            tries(cases, line.split(" | ")[0], schedule(program, table.name, whole, library))


def main():
    cases = Cases()
    with tempfile.TemporaryDirectory() as folder:
        library = shim(folder, SHIM)
        if "--schedules" in sys.argv:
            schedules(cases, str(Path(sys.argv[2]).resolve()), library)
            cases.end()
        program = of_arguments()
        for name, words, stream, wholes, *status in rows(program, folder):
            tries(cases, name, row(words, stream, wholes, library, *status))
        now, hosts = read("preamble").rstrip(b"\n").split(b"\n", 1)
        messages = {f"{number:08}-{now.split()[1].decode()}": read(message) for number, message in enumerate(("request-a", "request-b-busy"))}
        tries(cases, "a box of two files", box(program, hosts, messages, [read("accepted-a"), read("declined-b")], library))
    cases.end()


if __name__ == "__main__":
    main()
