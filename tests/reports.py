"""Tries what is said of objects that came to nothing, and of devices that fail, with the program.

    python3 tests/reports.py bin/roombox

What is expected is written by hand from docs/REFERENCE.md and from what the system calls its errors. tests/guide.py has the reports of a stream, and
what is said of a preamble.
"""

import os
import subprocess
import tempfile
from pathlib import Path

from lib.cases import Cases
from lib.program import of_arguments, run
from lib.streams import PREAMBLE, R1, changed, message, request, vevent

NOBODY = 65_534
KNOWN = ", UID a, ORGANIZER mailto:ann@example.com"


def full_standard_error(cases, program):
    """A report that can't be written: the answers are, and the status is 4."""
    stream = PREAMBLE + changed({}) + changed({7: ""})
    out = run(program, "serve", given=stream)[1]
    quiet = PREAMBLE + changed({})
    for words in (["serve", "--report"], ["serve", "--report", "--adapt"]):
        for what, given in [("an object is refused", stream), ("only the counts are said", quiet)]:
            wanted = run(program, "serve", given=given)[1]
            with open("/dev/full", "wb") as full:
                ended = subprocess.run([program, *words], input=given.encode(), stdout=subprocess.PIPE, stderr=full, timeout=60, check=False)
            cases.holds(f"{' '.join(words)} with a full standard error, {what}", (ended.returncode, ended.stdout.decode()), (4, wanted))
    with open("/dev/full", "wb") as full:
        ended = subprocess.run([program, "serve"], input=stream.encode(), stdout=subprocess.PIPE, stderr=full, timeout=60, check=False)
    cases.holds("without a report nothing is said", (ended.returncode, ended.stdout.decode()), (0, out))


def as_they_come(cases, program):
    """A line is written when its object is answered, not at the end."""
    child = subprocess.Popen([program, "serve", "--report"], stdin=subprocess.PIPE, stdout=subprocess.DEVNULL, stderr=subprocess.PIPE)
    child.stdin.write((PREAMBLE + changed({7: ""}) + "\r\n").encode())
    child.stdin.flush()
    cases.holds("the line of an object comes before the next object", child.stderr.readline(), b"roombox: object 1: refused 63, REQUEST, UID a\n")
    child.stdin.close()
    cases.holds("and the counts at the end", child.stderr.read(), b"roombox: 1 object, 1 refused (63: 1)\n")
    child.wait()
    child.stderr.close()


def told(cases, program):
    """What is told of an object: its UID without the lines that follow, and of two parts of a zone STANDARD, as its lines are judged first."""
    folded = changed({5: "UID:a|DESCRIPTION:one| two", 7: ""})
    lines = "roombox: object 1: refused 63, REQUEST, UID a\nroombox: 1 object, 1 refused (63: 1)\n"
    cases.holds("a folded line behind UID", run(program, "serve", "--report", given=PREAMBLE + folded)[2], lines)
    daylight = "BEGIN:DAYLIGHT|DTSTART:19810329T020000|TZOFFSETFROM:+0100|TZOFFSETTO:+0200|RRULE:FREQ=YEARLY;UNTIL=20300331T010000Z;BYDAY=-1SU;BYMONTH=3|END:DAYLIGHT"
    standard = "BEGIN:STANDARD|DTSTART:19961027T030000|TZOFFSETFROM:+0200|TZOFFSETTO:+0100|RRULE:FREQ=YEARLY;UNTIL=20301027T010000Z;BYDAY=-1SU;BYMONTH=10|END:STANDARD"
    zoned = changed({4: f"BEGIN:VTIMEZONE|TZID:B|{daylight}|{standard}|END:VTIMEZONE|BEGIN:VEVENT", 9: "DTSTART;TZID=B:20250310T090000"})
    said = run(program, "explain", given=zoned)[1].splitlines()[1]
    cases.holds("rules of both parts are in the way", said, "STANDARD at line 12: its RRULE has UNTIL. `roombox adapt` makes an object of it that is read.")


def cancels(cases, program):
    """A CANCEL after which no room is free of an instance that it had confirmed is told; what it finds is counted by hand."""
    daily = ("DURATION:PT1H", "RRULE:FREQ=DAILY")
    twice = ("DURATION:PT1H", "RRULE:FREQ=DAILY;COUNT=2")

    def cancel(uid="a", sequence=1, slot=None, room=R1):
        return message("CANCEL", vevent(uid, sequence, "20250310T090000Z", (), room, slot=slot))

    series, single = request(lines=daily), request()
    first, second, none = "20250310T090000Z", "20250311T090000Z", "20250311T093000Z"
    moved = message("REQUEST", vevent("a", 0, "20250311T140000Z", ("DURATION:PT1H",), slot=second))
    added = request(lines=("DURATION:PT1H", "RDATE:20250312T090000Z"))
    both = message("REQUEST", [*vevent("a")[:6], "ATTENDEE:mailto:r2@example.com", *vevent("a")[6:]])
    of_both = message("CANCEL", [*vevent("a", 1)[:6], "ATTENDEE:mailto:r2@example.com", *vevent("a", 1)[6:]])
    other = request("b", room="mailto:r2@example.com")
    for what, objects, told_of in [
        ("a RECURRENCE-ID at which nothing starts", [series, cancel(slot=none)], {2: KNOWN}),
        ("one at which an instance starts", [series, cancel(slot=second)], {}),
        ("an instance that was cancelled before", [series, cancel(slot=second), cancel(sequence=2, slot=second)], {3: KNOWN}),
        ("a series without one of its instances", [series, cancel(slot=second), cancel(sequence=2)], {}),
        ("a series all of whose instances were cancelled", [request(lines=twice), cancel(slot=first), cancel(slot=second), cancel(sequence=2)], {4: KNOWN}),
        ("a series of no instance", [request(lines=("DURATION:PT1H", "RRULE:FREQ=DAILY;COUNT=1", f"EXDATE:{first}")), cancel()], {2: KNOWN}),
        ("a single", [single, cancel()], {}),
        ("a single by its RECURRENCE-ID", [single, cancel(slot=first)], {}),
        ("a single by another RECURRENCE-ID", [single, cancel(slot=second)], {2: KNOWN}),
        ("an instance that was moved", [series, moved, cancel(slot=second)], {}),
        ("a date that RDATE adds", [added, cancel(slot="20250312T090000Z")], {}),
        ("a meeting that was declined", [single, request("b"), cancel("b")], {3: KNOWN.replace("UID a", "UID b")}),
        ("a meeting that nobody knows, and its REQUEST", [cancel(), single], {1: KNOWN}),
        ("a meeting of another ORGANIZER", [single, cancel().replace("ann@", "bob@")], {2: KNOWN.replace("ann@", "bob@")}),
        ("two rooms, one of which had declined", [other, both, of_both], {}),
        ("the room that had declined alone", [other, both, cancel(room="mailto:r2@example.com")], {3: KNOWN}),
        ("a REQUEST that cancels what nobody knows", [request(lines=("DURATION:PT1H", "STATUS:CANCELLED"))], {}),
    ]:
        stream = "now 20250102T000000Z\nroom mailto:r1@example.com\nroom mailto:r2@example.com\n\n" + "".join(objects)
        lines = [line for line in run(program, "serve", "--report", given=stream)[2].splitlines() if "cancels" in line]
        cases.holds(f"a CANCEL of {what}", lines, [f"roombox: object {number}: cancels nothing, CANCEL{known}" for number, known in told_of.items()])
    stale = [request(sequence=2), cancel(sequence=1), cancel(sequence=3), cancel(sequence=3)]
    said = f"roombox: object 2: stale, CANCEL{KNOWN}\nroombox: object 4: changed nothing, CANCEL{KNOWN}\nroombox: 4 objects, 0 refused\n"
    cases.holds("each object gets one line at most", run(program, "serve", "--report", given=PREAMBLE + "".join(stale))[2], said)


def devices(cases, program, parent):
    """Which device failed, and why."""
    absent, folder = str(parent / "absent"), str(parent / "folder")
    os.mkdir(folder)
    certificate = str(parent / "certificate")
    Path(certificate).write_text("")
    for what, words, name, why in [
        ("check without a calendar", ["check", absent, certificate, R1], absent, "it isn't there"),
        ("check without a certificate", ["check", certificate, absent, R1], absent, "it isn't there"),
        ("check of a folder", ["check", folder, certificate, R1], folder, "it is a folder"),
        ("an agenda of nothing", ["agenda", absent, R1], absent, "it isn't there"),
        ("zones that aren't there", ["adapt", "--zones", absent], absent, "it isn't there"),
        ("an original that isn't there", ["adapt", "--reply-to", absent], absent, "it isn't there"),
        ("a box without a configuration", ["box", absent, folder, folder], absent, "it isn't there"),
        ("a file below a file", ["check", certificate + "/x", certificate, R1], certificate + "/x", "it isn't in a folder, or is none"),
    ]:
        cases.holds(what, run(program, *words), (4, "", f"roombox: device\nroombox: {name}: {why}\n"))
    for words in (["serve"], ["serve", "--report"], ["keep", R1], ["expand"], ["explain"], ["adapt"], ["serve", "--adapt"]):
        given = os.open(folder, os.O_RDONLY)
        ended = subprocess.run([program, *words], stdin=given, capture_output=True, timeout=60, check=False)
        os.close(given)
        cases.holds(f"{' '.join(words)} of a folder", (ended.returncode, ended.stdout, ended.stderr), (4, b"", b"roombox: device\nroombox: standard input: it is a folder\n"))
    stream = PREAMBLE + changed({})
    for words, given in ((["serve"], stream), (["keep", R1], stream), (["expand"], changed({})), (["explain"], changed({})), (["serve", "--adapt"], stream)):
        with open("/dev/full", "wb") as full:
            ended = subprocess.run([program, *words], input=given.encode(), stdout=full, stderr=subprocess.PIPE, timeout=60, check=False)
        cases.holds(f"{' '.join(words)} onto a full disk", (ended.returncode, ended.stderr), (4, b"roombox: device\nroombox: standard output: no space is left\n"))
    if os.geteuid() == 0:
        os.chmod(parent, 0o711)
        os.chmod(certificate, 0o600)
        ended = subprocess.run([program, "check", certificate, certificate, R1], capture_output=True, timeout=60, check=False, user=NOBODY)
        cases.holds("a file that may not be read", (ended.returncode, ended.stderr.decode()), (4, f"roombox: device\nroombox: {certificate}: permission is denied\n"))
    else:
        cases.lacks("a file that may not be read", "root")


def boxes(cases, program, parent):
    """`box --report`: of the files that weren't answered before; and why a folder can't be used, or a configuration be read."""
    inbox, outbox, config = parent / "inbox", parent / "outbox", parent / "config"
    for folder in (inbox, outbox):
        folder.mkdir()
    config.write_text(f"room {R1}\n")
    first, second = "00000001-20250102T000000Z.ics", "00000002-20250102T000000Z.ics"
    (inbox / first).write_bytes((changed({}) + changed({7: ""}) + changed({})).encode())

    def reported(*words):
        return run(program, "box", *words, str(config), str(inbox), str(outbox))

    lines = f"roombox: {first} object 2: refused 63, REQUEST, UID a\nroombox: {first} object 3: changed nothing, REQUEST{KNOWN}\n"
    cases.holds("a report of a file", reported("--report"), (0, "", lines))
    cases.holds("it isn't said again", reported("--report"), (0, "", ""))
    (inbox / second).write_bytes(changed({8: "ATTENDEE:mailto:r9@example.com"}).encode())
    cases.holds("a report of a new file", reported("--report"), (0, "", f"roombox: {second} object 1: reached no room, REQUEST{KNOWN}\n"))
    (outbox / first.replace(".ics", ".out")).unlink()
    cases.holds("a report of a file whose answers are gone", reported("--report"), (0, "", lines))
    third = "00000003-20250102T000000Z.ics"
    (inbox / third).write_bytes(changed({3: "METHOD:CANCEL", 5: "UID:b", 10: "SEQUENCE:1"}).encode())
    cases.holds("a report of a CANCEL that frees nothing", reported("--report"), (0, "", f"roombox: {third} object 1: cancels nothing, CANCEL{KNOWN.replace('UID a', 'UID b')}\n"))
    for name in (third, third.replace(".ics", ".out")):
        (inbox if name == third else outbox).joinpath(name).unlink()
    for name in (first, second):
        (outbox / name.replace(".ics", ".out")).unlink()
    cases.holds("without --report nothing is said", reported(), (0, "", ""))
    for name in (first, second):
        (outbox / name.replace(".ics", ".out")).unlink()
    with open("/dev/full", "wb") as full:
        ended = subprocess.run([program, "box", "--report", str(config), str(inbox), str(outbox)], stderr=full, timeout=60, check=False)
    cases.holds("a report that can't be written", (ended.returncode, sorted(os.listdir(outbox))), (4, [first.replace(".ics", ".out"), second.replace(".ics", ".out")]))
    config.write_text(f"now 20250102T000000Z\nroom {R1}\n")
    cases.holds("a configuration with a moment", reported(), (3, "", "roombox: refused 90\nroombox: line 1: a configuration has no `now`: now 20250102T000000Z\n"))
    config.write_text(f"room {R1}\nrom mailto:r2@example.com\n")
    unknown = "it doesn't begin with `now `, `room `, `zone ` or `organiser `"
    cases.holds("a configuration with a word that is none", reported(), (3, "", f"roombox: refused 90\nroombox: line 2: {unknown}: rom mailto:r2@example.com\n"))
    config.write_text(f"room {R1}\n\nroom mailto:r2@example.com\n")
    cases.holds("a line behind the empty line of a configuration", reported(), (3, "", "roombox: refused 90\nroombox: line 2: it is empty, and more stands behind it\n"))
    config.write_text(f"\r\nroom {R1}\r\n", newline="")
    cases.holds("a configuration that begins with an empty line", reported(), (3, "", "roombox: refused 90\nroombox: line 1: it is empty, and more stands behind it\n"))
    config.write_text(f"room {R1}\n\n\n")
    cases.holds("two empty lines at the end of a configuration", reported(), (3, "", "roombox: refused 90\nroombox: line 2: it is empty, and more stands behind it\n"))
    config.write_text(f"room {R1}\n\n")
    cases.holds("an empty line at the end of a configuration", reported()[0], 0)
    config.write_text(f"room {R1}\n")
    absent = parent / "absent"
    cases.holds("no inbox", run(program, "box", str(config), str(absent), str(outbox)), (4, "", f"roombox: device\nroombox: {absent}: it isn't there\n"))
    cases.holds("no outbox", run(program, "box", str(config), str(inbox), str(absent)), (4, "", f"roombox: device\nroombox: {absent}: it isn't there\n"))


def left_alone(cases, program, parent):
    """A file that ends as a message does, and is none, is told by each run with a report; a message isn't, nor is what ends otherwise."""
    inbox, outbox, config = parent / "inbox", parent / "outbox", parent / "config"
    for folder in (inbox, outbox):
        folder.mkdir()
    config.write_text(f"room {R1}\n")
    for name in ("notes.txt", "00000012.ics", "00000013-20250102T000000Z.ics.part", "0000013-20250102T000000Z.ics", "00000014-20251302T000000Z.ics", "00000015-20250102T000000Z.ICS", "a b%.iCs"):
        (inbox / name).write_bytes(b"")
    (inbox / "00000016-20250102T000000Z.ics").write_bytes(changed({7: ""}).encode())
    alone = ["0000013-20250102T000000Z.ics", "00000012.ics", "00000014-20251302T000000Z.ics", "00000015-20250102T000000Z.ICS", "a b%25.iCs"]
    lines = "".join(f"roombox: left alone: {name}\n" for name in sorted(alone))
    refused = "roombox: 00000016-20250102T000000Z.ics object 1: refused 63, REQUEST, UID a\n"
    for words in ([], ["--adapt"]):
        for out in outbox.iterdir():
            out.unlink()
        said = [run(program, "box", "--report", *words, str(config), str(inbox), str(outbox)) for _ in range(2)]
        cases.holds(f"what is left alone {words}", said, [(0, "", lines + refused), (0, "", lines)])
    cases.holds("it isn't told without a report", run(program, "box", str(config), str(inbox), str(outbox)), (0, "", ""))


def files_that_fail(cases, program, parent):
    """Behind `roombox: device` the file that failed, and why."""
    number = 0

    def box(prepare, *words, **how):
        nonlocal number
        number += 1
        folder = parent / str(number)
        folder.mkdir()
        inbox, outbox, config = folder / "inbox", folder / "outbox", folder / "config"
        for made in (inbox, outbox):
            made.mkdir()
        config.write_text(f"room {R1}\n")
        (inbox / "00000001-20250102T000000Z.ics").write_bytes(changed({}).encode())
        at, why = prepare(inbox, outbox)
        ended = subprocess.run([program, "box", *words, str(config), str(inbox), str(outbox)], capture_output=True, timeout=300, check=False, **how)
        lines = f"roombox: device\nroombox: {at}: {why}\n"
        return (ended.returncode, ended.stdout.decode(), ended.stderr.decode()), (4, "", lines)

    second = "00000002-20250102T000000Z.ics"

    def folder_as_message(inbox, outbox):
        (inbox / second).mkdir()
        return inbox / second, "it is a folder"

    def dangling_link(inbox, outbox):
        (inbox / second).symlink_to("nothing")
        return inbox / second, "it isn't there"

    def circle_of_links(inbox, outbox):
        (inbox / second).symlink_to(second)
        return inbox / second, "its links lead in a circle"

    def long_message(inbox, outbox):
        with open(inbox / second, "wb") as long:
            long.truncate(1_073_741_825)
        return inbox / second, "it is too long"

    def temporary_is_folder(inbox, outbox):
        (outbox / ".roombox-temporary").mkdir()
        return outbox / ".roombox-temporary", "it is a folder"

    def answer_without_text(inbox, outbox):
        with open(os.fsencode(outbox) + b"/\xffa.out", "wb"):
            pass
        return f"{outbox}/%FFa.out", "its name isn't UTF-8, or is too long"

    def message_without_text(inbox, outbox):
        with open(os.fsencode(inbox) + b"/\xffa.ics", "wb"):
            pass
        return f"{inbox}/%FFa.ics", "its name isn't UTF-8, or is too long"

    def unreadable(inbox, outbox):
        (inbox / second).write_bytes(b"")
        os.chmod(inbox / second, 0o600)
        os.chown(outbox, NOBODY, NOBODY)
        return inbox / second, "permission is denied"

    def unwritable(inbox, outbox):
        return outbox / ".roombox-temporary", "permission is denied"

    for prepare in (folder_as_message, dangling_link, circle_of_links, temporary_is_folder, answer_without_text, message_without_text):
        for words in ([], ["--report"]):
            cases.holds(f"a box and {prepare.__name__} {words}", *box(prepare, *words))
    cases.holds("a box and a message that is too long", *box(long_message))
    for prepare in (folder_as_message, dangling_link):
        cases.holds(f"a box behind the door and {prepare.__name__}", *box(prepare, "--adapt"))
    if os.geteuid() == 0:
        os.chmod(parent, 0o755)
        for prepare in (unreadable, unwritable):
            cases.holds(f"a box and {prepare.__name__}", *box(prepare, user=NOBODY))
    else:
        cases.lacks("a box that may not read or write", "root")


def full_disk(cases, program, parent):
    """The file that no space is left for."""
    outbox = parent / "outbox"
    outbox.mkdir()
    if subprocess.run(["mount", "-t", "tmpfs", "-o", "size=4k", "none", str(outbox)], capture_output=True, check=False).returncode != 0:
        return cases.lacks("a disk that is full", "a mount")
    try:
        (parent / "inbox").mkdir()
        (parent / "config").write_text(f"room {R1}\n")
        (outbox / "filling").write_bytes(b"x" * 4096)
        (parent / "inbox" / "00000001-20250102T000000Z.ics").write_bytes(changed({}).encode())
        words = [program, "box", str(parent / "config"), str(parent / "inbox"), str(outbox)]
        said = run(*words)
        cases.holds("a box onto a full disk", said, (4, "", f"roombox: device\nroombox: {outbox}/.roombox-temporary: no space is left\n"))
        subprocess.run(["mount", "-o", "remount,ro", str(outbox)], check=True)
        cases.holds("a box onto a disk that may not be written to", run(*words), (4, "", f"roombox: device\nroombox: {outbox}/.roombox-temporary: it may not be written to\n"))
    finally:
        subprocess.run(["umount", str(outbox)], check=False)


def main():
    program, cases = of_arguments(), Cases()
    full_standard_error(cases, program)
    as_they_come(cases, program)
    told(cases, program)
    cancels(cases, program)
    for part in (devices, boxes, left_alone, files_that_fail, full_disk):
        with tempfile.TemporaryDirectory() as folder:
            part(cases, program, Path(folder))
    cases.end()


if __name__ == "__main__":
    main()
