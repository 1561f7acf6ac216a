"""What hostile input costs: objects of the greatest size in each shape, rooms that are full, streams and files as long as they may be. Each row has a size and
a tenth of it, and the growth between the two, less what the program takes for nothing at all: of instructions, where perf or valgrind counts them, else and
for long streams of processor seconds.

    python3 bench/hostile.py bin/roombox [--large]

With --large the streams and the calendar have 1 GB and 100 MB, in place of 10 MB and 1 MB. It ends with 1 where a growth is past its bar.
"""

import functools
import itertools
import os
import re
import shutil
import subprocess
import sys
import tempfile
from datetime import datetime, timedelta
from pathlib import Path

from residues import WEEK, request, settled_room
from runs import kept
from texts import EVENT, FIRST, REQUEST, ROOM, certificate_of, crlf, preamble, stamp

# Of ten times the work, and how often a run is repeated where processor seconds are measured.
BAR, RUNS = 12, 3
ALL_ACCEPTED = rb"\A(?!(?s:.)*(?:DECLINED|REFUSED))(?s:.)*PARTSTAT=ACCEPTED"
NOW = b"now 20250102T000000Z\n"
VEVENT = REQUEST[REQUEST.index("BEGIN:VEVENT") : REQUEST.index("END:VCALENDAR")]
HEAD = REQUEST[: REQUEST.index("BEGIN:VEVENT")]
ONE_OFFSET = "BEGIN:VTIMEZONE\nTZID:Z{number:04}\nBEGIN:STANDARD\nDTSTART:19700101T000000\nTZOFFSETFROM:+0000\nTZOFFSETTO:+0000\nEND:STANDARD\nEND:VTIMEZONE\n"
SMALLEST = b"END:VCALENDAR\n"
EMPTY = b"BEGIN:VCALENDAR\r\nVERSION:2.0\r\nEND:VCALENDAR\r\n"
MOST_SERIES = 64


# ---- how a run is measured


class Run:
    """The words of a run, what goes in, and what has to come out: a status, and a form of standard output or of standard error."""

    def __init__(self, words, pieces=(), files=None, status=0, output=rb"", said=rb""):
        self.words, self.pieces, self.files = words, pieces, files or {}
        self.status, self.output, self.said = status, output, said


class Measured:
    def __init__(self, seconds, peak, instructions):
        self.seconds, self.peak, self.instructions = seconds, peak, instructions


@functools.cache
def counter():
    """The words before a command that has its instructions counted into a file, and the form of the count there; None where nothing counts."""
    perf = ["perf", "stat", "-x,", "-e", "instructions:u", "-o"], rb"(\d+),,instructions"
    valgrind = ["valgrind", "--tool=cachegrind", "--cache-sim=no", "--cachegrind-out-file=/dev/null"], rb"I +refs: +([\d,]+)"
    if shutil.which("perf"):
        found = subprocess.run([*perf[0], "/dev/stdout", "true"], capture_output=True, check=False)
        if re.search(perf[1], found.stdout):
            return perf
    return valgrind if shutil.which("valgrind") else None


def measured(program, run, is_counted):
    """A run that has to end as it should; with its instructions, or the least of a few runs."""
    with tempfile.TemporaryDirectory() as folder:
        for name, pieces in run.files.items():
            written(Path(folder, name), pieces)
        stdin = Path(folder, "stdin")
        written(stdin, run.pieces)
        words = [str(Path(program).resolve()), *run.words]
        counted = instructions(words, stdin, folder) if is_counted and counter() else None
        seconds, peak = min(timed(words, stdin, folder, run) for _ in range(1 if counted else RUNS))
        return Measured(seconds, peak, counted)


def written(path, pieces):
    with path.open("wb") as file:
        for piece in pieces:
            file.write(piece)


def timed(words, stdin, folder, run):
    """The processor seconds of a run, and its peak. Where nothing is said of its output, that goes nowhere."""
    with stdin.open("rb") as given, open(os.devnull, "r+b") if not run.output else tempfile.TemporaryFile() as output, tempfile.TemporaryFile() as said:
        child = subprocess.Popen(words, stdin=given, stdout=output, stderr=said, cwd=folder)
        _, status, usage = os.wait4(child.pid, 0)
        child.returncode = os.waitstatus_to_exitcode(status)
        output.seek(0)
        # a report has a line for each object, and what is looked for at its end
        said.seek(max(0, said.seek(0, os.SEEK_END) - (1 << 20)))
        found = child.returncode, output.read(1 << 20), said.read()
    if found[0] != run.status or not re.search(run.output, found[1]) or not re.search(run.said, found[2]):
        sys.exit(f"{words}: status {found[0]}, {found[1][:200]!r}, {found[2][:200]!r}")
    return usage.ru_utime + usage.ru_stime, usage.ru_maxrss * 1024


def instructions(words, stdin, folder):
    before, form = counter()
    file = Path(folder, "count")
    into = [str(file)] if before[0] == "perf" else [f"--log-file={file}"]
    with stdin.open("rb") as given:
        subprocess.run([*before, *into, *words], stdin=given, stdout=subprocess.DEVNULL, stderr=subprocess.DEVNULL, cwd=folder, check=False)
    return int(re.search(form, file.read_bytes()).group(1).replace(b",", b""))


# ---- one object


def served(object, output=ALL_ACCEPTED, hosts=None):
    """A stream of one object."""
    return Run(["serve"], [hosts or preamble(1), object], output=output)


def refused(number):
    return rb"^REFUSED;OBJECT=1:%d\r\n$" % number


def asked(extra="", start="20250101T090000Z"):
    """A request of an hour with more lines."""
    return crlf(REQUEST.format(number=0, room=ROOM.format(0), start=start, extra=extra))


def instances(count, zones="", number=None):
    """A meeting of so many instances beside its whole; where a number is given all in the zone of this number."""
    event = VEVENT if number is None else VEVENT.replace("DTSTART:", f"DTSTART;TZID=Z{number:04}:")
    text = HEAD + zones
    for place in range(count + 1):
        slot = f"RECURRENCE-ID:{stamp(place)}\n" if place else ""
        start = stamp(place) if number is None else stamp(place).removesuffix("Z")
        text += event.format(number=0, room=ROOM.format(0), start=start, extra=slot)
    return crlf(text + "END:VCALENDAR\n")


def beside_zones(count):
    """100 instances in the last of so many zones."""
    return instances(99, "".join(ONE_OFFSET.format(number=number) for number in range(count)), count - 1)


def dates(name, count, rule=""):
    """So many days from the second on in one list."""
    days = (datetime(2025, 1, 2, 9) + timedelta(days=number) for number in range(count))
    return asked(f"{rule}{name}:{','.join(f'{day:%Y%m%dT%H%M%SZ}' for day in days)}\n")


def round_in(values, count):
    return ",".join(str(values[place % len(values)]) for place in range(count))


def attended(count):
    """64 rooms behind other attendees."""
    others = "".join(f"ATTENDEE:m:{number:04x}\n" for number in range(count - 64))
    return asked(others + "".join(f"ATTENDEE:{ROOM.format(number)}\n" for number in range(1, 64)))


def stored(extra):
    """What an organiser stores."""
    text = REQUEST.replace("METHOD:REQUEST\n", "")
    return crlf(text.format(number=0, room=ROOM.format(0), start="20250101T090000Z", extra=extra))


ORGANISER = NOW + b"organiser mailto:ann@example.com\n\n"
# Each shape with a tenth of its size, its size, and the run. Sizes fill the 1,048,576 octets, the 65,536 lines or the list of the limits.
SHAPES = (
    ("lines of an object", 6_500, 65_000, lambda count: served(asked("X:\n" * count))),
    ("parameters of a line", 26_000, 260_000, lambda count: served(asked("X" + ";A=1" * count + ":\n"))),
    ("values of a parameter", 50_000, 500_000, lambda count: served(asked("X;A=1" + ",1" * count + ":\n"))),
    ("octets of a quoted value", 100_000, 1_000_000, lambda count: served(asked('X;A="' + "," * count + '":\n'))),
    ("octets of the name of a property", 100_000, 1_000_000, lambda count: served(asked("X" * count + ":\n"))),
    ("octets of the name of a parameter", 100_000, 1_000_000, lambda count: served(asked("X;" + "A" * count + "=1:\n"))),
    ("octets of a value", 100_000, 1_000_000, lambda count: served(asked("X:" + "x" * count + "\n"))),
    ("octets of a line folded at each", 26_000, 260_000, lambda count: served(asked("X:" + "x\n " * count + "\n"))),
    ("octets of a UID, refused", 100_000, 1_000_000, lambda count: served(asked().replace(b"UID:", b"UID:" + b"x" * count), refused(14))),
    ("escapes of a SUMMARY that is sent", 50_000, 500_000, lambda count: served(stored("SUMMARY:" + "\\;" * count + "\n"), rb"METHOD:REQUEST", ORGANISER)),
    ("attendees, the last 63 of them rooms", 6_000, 60_000, lambda count: served(attended(count), hosts=preamble(64))),
    ("attendees of a store", 5_000, 50_000, lambda count: served(stored("".join(f"ATTENDEE:m:{it:05x}\n" for it in range(count))), rb"METHOD:REQUEST", ORGANISER)),
    ("instances of a meeting", 19, 199, lambda count: served(instances(count))),
    ("zones before 100 instances in the last", 700, 7_000, lambda count: served(beside_zones(count))),
    ("components of a VEVENT", 3_200, 32_000, lambda count: served(asked("BEGIN:A\nEND:A\n" * count))),
    ("nests of a VEVENT, eight deep", 540, 5_400, lambda count: served(asked(("BEGIN:A\n" * 6 + "END:A\n" * 6) * count))),
    ("components in each other, refused", 6_500, 65_000, lambda count: served(asked("BEGIN:A\n" * count), refused(22))),
    ("RDATEs", 36, 366, lambda count: served(dates("RDATE", count))),
    ("EXDATEs of a daily series", 36, 366, lambda count: served(dates("EXDATE", count, "RRULE:FREQ=DAILY\n"))),
    ("RDATEs, refused", 6_000, 60_000, lambda count: served(dates("RDATE", count), refused(56))),
    ("months of a rule", 36, 366, lambda count: served(asked(f"RRULE:FREQ=YEARLY;BYMONTH={round_in(range(1, 13), count)}\n"))),
    ("days of the month of a rule", 36, 366, lambda count: served(asked(f"RRULE:FREQ=MONTHLY;BYMONTHDAY={round_in(range(1, 32), count)}\n"))),
    ("weekdays of a rule", 36, 366, lambda count: served(asked(f"RRULE:FREQ=WEEKLY;BYDAY={round_in(WEEK, count)}\n"))),
    ("set positions of a rule", 36, 366, lambda count: served(asked(f"RRULE:FREQ=YEARLY;BYMONTHDAY={round_in(range(1, 32), 31)};BYSETPOS={round_in(range(1, 367), count)}\n"))),
    ("entries of a rule's list, refused", 40_000, 400_000, lambda count: served(asked(f"RRULE:FREQ=YEARLY;BYMONTH={round_in([1], count)}\n"), refused(31))),
)


# ---- rooms and the checker


def yearly(count):
    """So many endless series at one hour, each on a day of its own: residues settle none of the pairs."""
    days = (datetime(2025, 1, 1, 9) + timedelta(days=5 * number) for number in range(count))
    return [preamble(1), *(request(number, None, day, "FREQ=YEARLY") for number, day in enumerate(days))]


def judged(calendar, certificate, status=0, output=rb"^yes\n$"):
    files = {"calendar": calendar, "certificate": certificate}
    return Run(["check", "calendar", "certificate", ROOM.format(0)], files=files, status=status, output=output)


def judged_room(program, count):
    requests = yearly(count)[1:]
    return judged([kept(program, requests)[1]], [kept(program, requests, "--certificate")[1]])


def full_room(count):
    """64 series that residues settle, and so many singles beside them."""
    series = settled_room()[: MOST_SERIES]
    last = request(MOST_SERIES - 1, None, datetime(2025, 1, 6, 20), "FREQ=DAILY")
    nights = (datetime(2025, 1, 6, 1) + timedelta(days=number // 3, hours=number % 3) for number in range(count))
    return Run(["serve"], [*series, last, *(request(MOST_SERIES + number, None, night) for number, night in enumerate(nights))], output=ALL_ACCEPTED)


def greatest_series(count):
    """A certificate that says there are as many series as a number can say, and has the lines of so many pairs."""
    lines = (b"PAIR 1 %d END\n" % number for number in range(1, count + 1))
    certificate = itertools.chain([b"ROOMCERT 1\nSINGLES 0\nSERIES 18446744073709551615\n"], lines)
    return judged([EMPTY], certificate, 1, rb"^no 81 %d\n$" % (count + 4))


def greatest_group(count):
    """A certificate of one group of so many series, which the calendar doesn't have."""
    numbers = (b" %d" % number for number in range(1, count + 1))
    certificate = itertools.chain([b"ROOMCERT 2\nSINGLES 0\nSERIES %d\nGROUP 20250101T000000Z 7" % count], numbers, [b"\nDONE\n"])
    return judged([EMPTY], certificate, 1, rb"^no 82\n$")


def most_groups(count):
    """A certificate of so many groups of two, each with a series of the first half and one of the second, and without the line of the first pair."""
    groups = (b"GROUP 20250101T000000Z 7 %d %d\n" % (number, count + number) for number in range(1, count + 1))
    certificate = itertools.chain([b"ROOMCERT 2\nSINGLES 0\nSERIES %d\n" % (2 * count)], groups, [b"DONE\n"])
    return judged([EMPTY], certificate, 1, rb"^no 81 %d\n$" % (count + 4))


# ---- streams and files


def objects(count):
    """A stream of the smallest objects, each refused. Their answers aren't kept."""
    piece = SMALLEST * 10_000
    return Run(["serve", "--report"], [preamble(1), *([piece] * (count // 10_000))], said=rb"(?m)^roombox: %d objects, %d refused \(20: %d\)\n\Z" % (count, count, count))


def empty_lines(count):
    """They are counted with the object behind them, which is too long with more than a megabyte of them."""
    output = ALL_ACCEPTED if count <= 1_000_000 else rb"\AREFUSED;OBJECT=1:6\r\n\Z"
    return Run(["serve"], [preamble(1), *([b"\n" * 100_000] * (count // 100_000)), asked()], output=output)


def singles(octets):
    """A calendar of so many octets of single instances."""
    one = lambda number: crlf(EVENT.format(number=f"{number:07}", room=ROOM.format(0), start=f"{FIRST + timedelta(hours=number):%Y%m%dT%H%M%SZ}"))
    head, tail = crlf("BEGIN:VCALENDAR\nVERSION:2.0\n"), crlf("END:VCALENDAR\n")
    count = (octets - len(head) - len(tail)) // len(one(0))
    return judged(itertools.chain([head], map(one, range(count)), [tail]), [certificate_of(count, 0).encode()])


def rows(program, is_large):
    """Each row: its work, the sizes, the run of a size, that of nothing, how much more work the size is, and whether instructions are counted."""
    nothing = Run(["serve"], [preamble(1)])
    empty = judged([EMPTY], [certificate_of(0, 0).encode()])
    for work, small, large, run in SHAPES:
        yield work, small, large, run, nothing, large / small, True
    pairs = (64 * 65) / (20 * 21)
    yield "yearly series at one hour, all their pairs", 20, 64, lambda count: Run(["serve"], yearly(count), output=ALL_ACCEPTED), nothing, pairs, False
    yield "their certificate checked", 20, 64, lambda count: judged_room(program, count), empty, pairs, False
    yield "singles beside 64 series", 1_000, 10_000, full_room, nothing, 10, False
    yield "pairs of a certificate of 2^64 - 1 series", 100_000, 1_000_000, greatest_series, empty, 10, False
    yield "series of one group of a certificate", 100_000, 1_000_000, greatest_group, empty, 10, False
    yield "groups of a certificate", 100_000, 1_000_000, most_groups, empty, 10, False
    large = 1 << 30 if is_large else 10_000_000
    count = large // len(SMALLEST) // 100_000 * 100_000 - (100_000 if is_large else 0)
    yield "the smallest objects", count // 10, count, objects, nothing, 10, False
    octets = large // 1_000_000 * 1_000_000 - (1_000_000 if is_large else 0)
    yield "empty lines before an object", octets // 10, octets, empty_lines, nothing, 10, False
    yield "octets of a calendar of singles", large // 10, large, singles, empty, 10, False


def hostile_sizes(program, is_large=False):
    missed, bases = 0, {}
    print(f"\n{'hostile input':<44}{'size':>14}{'seconds':>9}{'instructions':>16}{'peak MiB':>10}{'growth':>8}{'bar':>6}")
    for work, small, large, run, nothing, more, is_counted in rows(program, is_large):
        if (id(nothing), is_counted) not in bases:
            bases[id(nothing), is_counted] = measured(program, nothing, is_counted)
        found = [bases[id(nothing), is_counted], *(measured(program, run(size), is_counted) for size in (small, large))]
        is_by_count = all(it.instructions for it in found)
        base, before, after = (it.instructions if is_by_count else it.seconds for it in found)
        growth = (after - base) / max(before - base, 1 if is_by_count else 1e-3)
        bar = BAR * more / 10
        missed += growth > bar
        for size, it in ((small, found[1]), (large, found[2])):
            end = f"{growth:>8.1f}{bar:>6.0f}  {'MET' if growth <= bar else 'MISSED'}" if size == large else ""
            print(f"{work:<44}{size:>14,}{it.seconds:>9.2f}{it.instructions or 0:>16,}{it.peak / 2**20:>10.1f}{end}", flush=True)
    return missed


if __name__ == "__main__":
    sys.exit(1 if hostile_sizes(sys.argv[1], "--large" in sys.argv) else 0)
