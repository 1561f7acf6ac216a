"""Runs the real program on real devices: a full disk, files that aren't there, pipes that wait for an answer, and the two files of `check`.

    python3 tests/real_program.py bin/roombox

What has to come out is said in docs/REFERENCE.md: status 4 and `roombox: device` where a device failed, and so on.
"""

import os
import select
import subprocess
import tempfile
import time
from pathlib import Path

from lib.cases import Cases
from lib.program import of_arguments, run, without_reason
from lib.streams import PREAMBLE, R1, changed

REQUEST = changed({})
SERIES = REQUEST.replace("METHOD:REQUEST\r\n", "").replace("DURATION", "RRULE:FREQ=DAILY;COUNT=3\r\nDURATION")
# an object that a room refuses with 40, and reads behind the door
ZONED = REQUEST.replace("UID:a", "UID:b").replace("DTSTART:20250310T090000Z", "DTSTART;TZID=Berlin:20250311T090000").replace(
    "BEGIN:VEVENT", "\r\n".join([
        "BEGIN:VTIMEZONE", "TZID:Berlin", "BEGIN:DAYLIGHT", "DTSTART:19810329T020000", "TZOFFSETFROM:+0100", "TZOFFSETTO:+0200",
        "RRULE:FREQ=YEARLY;UNTIL=20300331T010000Z;BYDAY=-1SU;BYMONTH=3", "END:DAYLIGHT", "BEGIN:STANDARD", "DTSTART:19961027T030000",
        "TZOFFSETFROM:+0200", "TZOFFSETTO:+0100", "RRULE:FREQ=YEARLY;UNTIL=20301027T010000Z;BYDAY=-1SU;BYMONTH=10", "END:STANDARD",
        "END:VTIMEZONE", "BEGIN:VEVENT"]))
# an object that is refused with 63, since it has no ORGANIZER
SPOILED = REQUEST.replace("ORGANIZER:mailto:ann@example.com\r\n", "")
# what may follow an object, so that it is seen to have ended: an empty line, or the first octet of the next object
ENDS = ["\n", "\r\n", ""]
PATIENCE = 10
DEVICE, TOO_FEW_WORDS = "roombox: device\n", 2

def ended(program, words, stdin, stdout=subprocess.PIPE):
    """The status and the standard error of a run."""
    ran = subprocess.run([program, *words], input=stdin.encode(), stdout=stdout, stderr=subprocess.PIPE, check=False)
    return ran.returncode, without_reason(ran.stderr.decode())


def full_disk(cases, program, calendar, certificate):
    """Each command that writes onto a full disk ends with 4, and says that a device failed."""
    commands = {
        "serve": (["serve"], PREAMBLE + REQUEST),
        "serve --report": (["serve", "--report"], PREAMBLE + REQUEST),
        "keep": (["keep", R1], PREAMBLE + REQUEST),
        "keep --certificate": (["keep", "--certificate", R1], PREAMBLE + REQUEST),
        "check": (["check", calendar, certificate, R1], ""),
        "expand": (["expand"], SERIES),
        "explain": (["explain"], REQUEST),
        "explain of a refused object": (["explain"], SERIES.replace("DTSTART", "DTSTARX")),
        "explain 43": (["explain", "43"], ""),
        "help": (["--help"], ""),
    }
    for name, (words, stdin) in commands.items():
        with open("/dev/full", "wb") as full:
            cases.holds(f"{name} on a full disk", ended(program, words, stdin, full), (4, DEVICE))


def files_of_check(cases, program, calendar, certificate, absent, folder):
    """The calendar comes first, then the certificate: the other way round the calendar is no object."""
    cases.holds("check", ended(program, ["check", calendar, certificate, R1], ""), (0, ""))
    cases.holds("check with its files exchanged", run(program, "check", certificate, calendar, R1)[:2], (1, "no 80\n"))
    for words in ([absent, certificate], [calendar, absent], [folder, certificate]):
        cases.holds(f"check {words}", ended(program, ["check", *words, R1], ""), (4, DEVICE))


def refusals(cases, program):
    """The number on standard error is that of the refusal."""
    cases.holds("no preamble", ended(program, ["serve"], "what\n\n"), (3, "roombox: refused 90\n"))
    cases.holds("another room kept", ended(program, ["keep", "mailto:r2@example.com"], PREAMBLE), (3, "roombox: refused 90\n"))
    hourly = SERIES.replace("DAILY", "HOURLY")
    cases.holds("an hourly series", ended(program, ["expand"], hourly), (3, "roombox: refused 30\n"))
    cases.holds("no command", ended(program, ["what"], "")[0], TOO_FEW_WORDS)


class Piped:
    """Commands behind each other, fed bit by bit through a pipe."""

    def __init__(self, program, *commands):
        self.runs, given = [], subprocess.PIPE
        for words in commands:
            self.runs.append(subprocess.Popen([program, *words], stdin=given, stdout=subprocess.PIPE, stderr=subprocess.PIPE))
            given = self.runs[-1].stdout

    def give(self, text):
        self.runs[0].stdin.write(text.encode())
        self.runs[0].stdin.flush()

    def gives(self, stream, last):
        """What comes up to these last octets, while nothing more is sent."""
        came, until = b"", time.monotonic() + PATIENCE
        while not came.endswith(last.encode()) and time.monotonic() < until:
            if select.select([stream], [], [], 0.1)[0]:
                octets = os.read(stream.fileno(), 65_536)
                if not octets:
                    break
                came += octets
        return came.decode()

    def answers(self, last):
        return self.gives(self.runs[-1].stdout, last)

    def tells(self, last):
        return self.gives(self.runs[-1].stderr, last)

    def end(self):
        self.runs[0].stdin.close()
        for ran in self.runs:
            ran.wait(PATIENCE)
            ran.stdout.close()
            ran.stderr.close()


def answers_at_a_pipe(cases, program):
    """Each command that answers a stream object by object does so before the next object is sent."""
    serving = {
        "serve": [["serve"]],
        "no word": [[]],
        "serve --report": [["serve", "--report"]],
        "serve --adapt": [["serve", "--adapt"]],
        "serve --adapt --report": [["serve", "--adapt", "--report"]],
        "adapt | serve": [["adapt"], ["serve"]],
        "adapt --report | serve --report": [["adapt", "--report"], ["serve", "--report"]],
        "adapt | adapt | serve --adapt": [["adapt"], ["adapt"], ["serve", "--adapt"]],
    }
    for name, commands in serving.items():
        for end in ENDS:
            what = f"{name}, then {end or 'B'!r}"
            piped = Piped(program, *commands)
            for octet in PREAMBLE + REQUEST + end:
                piped.give(octet)
            if not end:
                piped.give("B")
            cases.holds(f"{what}: object 1", "PARTSTAT=ACCEPTED" in piped.answers("END:VCALENDAR\r\n"), True)
            piped.give(ZONED[0 if end else 1:] + (end or "B"))
            if "adapt" in name:
                cases.holds(f"{what}: object 2", "PARTSTAT=ACCEPTED" in piped.answers("END:VCALENDAR\r\n"), True)
            else:
                cases.holds(f"{what}: object 2", piped.answers("\r\n"), "REFUSED;OBJECT=2:40\r\n")
            piped.give(SPOILED[0 if end else 1:] + (end or "B"))
            cases.holds(f"{what}: object 3", piped.answers("\r\n"), "REFUSED;OBJECT=3:63\r\n")
            if commands[-1][-1:] == ["--report"]:
                cases.holds(f"{what}: is told", piped.tells("UID a\n").splitlines()[-1:], ["roombox: object 3: refused 63, REQUEST, UID a"])
            piped.end()


def adapt_at_a_pipe(cases, program):
    """`adapt` keeps no octet back that can be handed on: the empty lines behind an object, and the first octet of the next one."""
    piped = Piped(program, ["adapt", "--report"])
    cases.holds("adapt: a preamble", (piped.give(PREAMBLE), piped.answers(PREAMBLE))[1], PREAMBLE)
    for lines in ("", "\n", "\r\n", "\n\r\n\n"):
        piped.give(lines + "B")
        cases.holds(f"adapt: {lines!r} and an octet", piped.answers(lines + "B"), lines + "B")
        piped.give(REQUEST[1:] + "\n")
        cases.holds(f"adapt: an object behind {lines!r}", piped.answers("END:VCALENDAR\r\n\n"), REQUEST[1:] + "\n")
    piped.give("\r")
    cases.holds("adapt: a CR", piped.answers("\r"), "\r")
    piped.give("\n" + ZONED)
    cases.holds("adapt: its LF, and an octet of an object that isn't seen to have ended", piped.answers("\nB"), "\nB")
    piped.give("\r\n")
    made = piped.answers("END:VCALENDAR\r\n\r\n")
    cases.holds("adapt: an object made readable", (made[:14], "UNTIL" in made), ("EGIN:VCALENDAR", False))
    cases.holds("adapt: what is told of it", piped.tells("readable\n"), "roombox: object 5: made readable\n")
    piped.end()


def main():
    cases, program = Cases(), of_arguments()
    with tempfile.TemporaryDirectory() as folder:
        calendar, certificate = str(Path(folder, "kept.ics")), str(Path(folder, "kept.cert"))
        for words, path in ((["keep", R1], calendar), (["keep", "--certificate", R1], certificate)):
            with open(path, "wb") as file:
                cases.holds("keep", ended(program, words, PREAMBLE + REQUEST, file), (0, ""))
        full_disk(cases, program, calendar, certificate)
        files_of_check(cases, program, calendar, certificate, str(Path(folder, "absent")), folder)
        refusals(cases, program)
        answers_at_a_pipe(cases, program)
        adapt_at_a_pipe(cases, program)
    cases.end()


if __name__ == "__main__":
    main()
