"""Hands spoiled input to each command of roombox, and looks for a crash, a hang, and an exit status that the manual doesn't list.

    python3 tests/fuzz.py bin/roombox [--seconds N] [--command NAME] [--seed N] [--limit SECONDS] [--findings FOLDER]

What is spoiled are the examples, the inputs of the rows of the example programs, and what tests/guide.py hands to the program: octets are turned, cut and
doubled, lines change their places, values become others that a calendar may have or numbers at a limit, rooms get zones, and two objects become one. An input with an answer
of a new kind is spoiled again. The statuses are those of docs/roombox.1; 4 and 5 are findings too, since here no device fails and memory is ample. Beside
that, what `keep` prints has to pass `check`, and a second run of `box` has to find its own answers.

The commands share the time; `words` are spoiled command lines. A finding is kept as a folder of what went in, the words, and what came out. The same seed
makes the same first inputs. It prints a line for each command, and ends with 1 where something was found, or a command was never run.
"""

import argparse
import collections
import os
import random
import re
import resource
import select
import subprocess
import sys
import tempfile
import time
from pathlib import Path

import guide
from lib import program as runs
from lib.program import ROOT, of_arguments

ROOM = "mailto:r1@example.com"
NOW = b"now 20250102T000000Z\n"
# More memory than such an input needs, in octets; the longest input; how many more inputs are kept of a command for their answers.
MEMORY, LONGEST, KEPT = 4 << 30, 1_200_000, 4_000
# Spoiled command lines name files that aren't there.
WORDS_OF_ALL = "words"

# ---- what an object, a certificate and a preamble may have

NUMBERS = """0 1 -1 2 7 8 9 28 31 32 53 64 65 99 100 199 200 201 255 256 366 367 9999 10000 65535 65536 65537 1048576 1048577 2147483647 2147483648 4294967295
4294967296 9223372036854775807 9223372036854775808 18446744073709551615 18446744073709551616 00000000000000000000000000000001""".split()
TIMES = """19691231T235959Z 19700101T000000Z 19700101T000000 16010101T000000 00010101T000000Z 20250230T000000Z 20240229T000000Z 20250309T023000 20251102T013000
20161231T235960Z 20250310T240000Z 99991231T235959Z 99991231T235959 99991231 20250310 20250310T090000 20250310T090000Z/PT1H 20250310T0900Z
20250309 20250311 99991230 19691231 19700101 00010101 20250230 20250310T000000 20250309T033000 99991230T235959 20250310Z""".split()
LENGTHS = "P PT P1W P1WT1H P366D P367D P366DT1S PT31622400S PT31622401S P4294967295D PT4294967295S PT4294967296S -PT1H +P1DT2H PT1S1M P0D PT0S".split()
RULES = """FREQ=DAILY
FREQ=DAILY;COUNT=1
FREQ=DAILY;COUNT=4294967295
FREQ=DAILY;COUNT=1;UNTIL=20250101
FREQ=DAILY;UNTIL=99991231T235959Z
FREQ=DAILY;UNTIL=19700101
FREQ=DAILY;INTERVAL=420
FREQ=WEEKLY;INTERVAL=9999
FREQ=WEEKLY;BYDAY=MO,TU,WE,TH,FR,SA,SU;WKST=SU
FREQ=MONTHLY;BYMONTHDAY=31
FREQ=MONTHLY;BYMONTHDAY=-31
FREQ=MONTHLY;BYDAY=5MO,-5MO;BYSETPOS=-1
FREQ=MONTHLY;BYSETPOS=0;BYDAY=MO
FREQ=YEARLY;BYMONTH=2;BYMONTHDAY=29
FREQ=YEARLY;BYMONTH=2;BYMONTHDAY=29;INTERVAL=97
FREQ=YEARLY;BYDAY=53MO
FREQ=YEARLY;BYMONTHDAY=1;BYDAY=MO;BYSETPOS=366
FREQ=YEARLY;BYMONTH=4,10;BYMONTHDAY=1,-1;BYSETPOS=2,-2
FREQ=YEARLY;BYMONTH=13
FREQ=SECONDLY""".split("\n")
OFFSETS = "+0000 -0000 +2359 -2359 +2400 +235959 -235959 +0100 +1300 -1200 +0530 +01".split()
# of a zone line, of X-ROOM-ZONE and of --zone: those that mean a zone, and all
ZONES = """-0500 -0400 11 1SU 0200 3 2SU 0200
+0530
+0000
+0100 +0000 3 -1SU 0100 10 -1SU 0200
-0500 -0400 11 1SU 0100 3 2SU 0000
+2359
-2359
-0600 +0600 11 1SU 0200 3 2SU 0200
-0500 -0400 11 -4SA 2359 2 4MO 0000""".split("\n")
ROOM_ZONES = ZONES + """-0600 +0601 11 1SU 0200 3 2SU 0200
-0500 -0400 3 2SU 0200 3 2SU 0200
-0500 -0400 11 5SU 0200 3 2SU 0200
-0500  -0400 11 1SU 0200 3 2SU 0200""".split("\n")
ADDRESSES = [ROOM, "MAILTO:R1@EXAMPLE.COM", "mailto:ann@example.com", "mailto:r2@example.com", "mailto:", "x:y", ":", "mailto:\u00e4@example.com"]
NAMES = "DATE DATE-TIME PERIOD REQUEST CANCEL ADD REPLY REFRESH PUBLISH COUNTER CANCELLED CONFIRMED ACCEPTED DECLINED TENTATIVE 2.0 VEVENT VCALENDAR VTIMEZONE STANDARD VALARM".split()
TEXTS = ["", "\\", "\\n\\,\\;\\\\", "\u00e9\u20ac\U0001f4c5", "x" * 75, "x" * 1_025]
VALUES = [NUMBERS, TIMES, LENGTHS, RULES, OFFSETS, ROOM_ZONES, ADDRESSES, NAMES, TEXTS]
LINES = """BEGIN:VCALENDAR
END:VCALENDAR
BEGIN:VEVENT
END:VEVENT
BEGIN:VTIMEZONE
END:VTIMEZONE
BEGIN:STANDARD
END:STANDARD
BEGIN:DAYLIGHT
END:DAYLIGHT
VERSION:2.0
METHOD:ADD
METHOD:CANCEL
METHOD:REPLY
METHOD:REFRESH
SEQUENCE:1
STATUS:CANCELLED
TZID:Z
DTSTART;TZID=Z:20250309T023000
DTSTART;VALUE=DATE:20250310
DTSTART:20250309T023000
DTEND;VALUE=DATE:20250312
DTEND:20250310T100000
DURATION:P1D
RECURRENCE-ID:20250310T090000Z
RECURRENCE-ID;VALUE=DATE:20250310
RECURRENCE-ID:20250310T000000
RECURRENCE-ID;RANGE=THISANDFUTURE:20250310T090000Z
ATTENDEE;PARTSTAT=ACCEPTED:mailto:r1@example.com
ATTENDEE;SCHEDULE-AGENT=NONE:mailto:r1@example.com
RDATE:20250311T090000Z,20250312T090000Z
RDATE;VALUE=PERIOD:20250311T090000Z/PT1H
RDATE:20250311,20250312T000000,20250312T000000Z
RDATE;VALUE=DATE:20250311,99991230
EXDATE:20250310T090000Z
EXDATE;VALUE=DATE:20250310,00010101
X-ROOM-ZONE:-0500 -0400 11 1SU 0200 3 2SU 0200
X-ROOM-ZONE:+0530
X-ROOM-ZONE:noon
X-A;B="c:d":
:
ROOMCERT 1
ROOMCERT 2
GROUP 20250101T000000Z 7 1 2
GROUP 99991231T235959Z 2932897 1 2 3 64
SINGLES 1
SERIES 1
SERIES 18446744073709551615
PAIR 1 1 END
PAIR 1 1 RES 86400
PAIR 1 2 RES 604800
PAIR 1 1 SPAN 20250101T000000Z 7
PAIR 64 64 SPAN 99991231T235959Z 2932897
DONE
now 20250102T000000Z
now 99991231T235959Z
room mailto:r1@example.com
room mailto:r2@example.com
zone mailto:r1@example.com -0500 -0400 11 1SU 0200 3 2SU 0200
zone mailto:r1@example.com +0000
zone mailto:r2@example.com +0530
zone mailto:ann@example.com +0530
organiser mailto:ann@example.com""".split("\n")
OCTETS = b"\0\t\n\r\x1b !\",.:;=\\\x7f\x80\xbf\xc3\xe2\xff"
# of the command line
WORDS = ["serve", "keep", "check", "expand", "explain", "box", "adapt", "agenda", "meetings", "--free", "--ics", "--html", "--from", "--until", "--reply-to", "--single", "--adapt", "--zones", "help", "--help", "-h", "--version", "--report", "--certificate", "--limit", "--limit=1", "--zone", "--zone=", "--zone=+0530", "--", "-", "", ROOM]
WORDS += ["r1", "no/such/file", ".", *NUMBERS, *(f"--zone={words}" for words in ROOM_ZONES)]

# ---- what is spoiled


def unescaped(column):
    """The octets that a column of a table spells."""
    known = {b"r": b"\r", b"n": b"\n", b"t": b"\t", b"\\": b"\\"}
    once = lambda it: re.sub(rb"\\(x[0-9A-F]{2}|.)", lambda found: known.get(found[1]) or bytes.fromhex(found[1][1:].decode()), it)
    repeated = re.sub(rb"\{(\d+) ([^}]*)\}", lambda found: once(found[2]) * min(int(found[1]), 100_000), column)
    return once(column) if repeated == column else repeated


class Corpus:
    """Inputs by their kind: `stream` with its preamble, `object`, `calendar`, `certificate`, and `config`, a preamble without its moment."""

    def __init__(self, program):
        self.kinds = collections.defaultdict(dict)
        for path in sorted((ROOT / "examples").iterdir()):
            if path.suffix in (".ics-stream", ".ics"):
                self.add("stream" if path.suffix == ".ics-stream" else "object", path.read_bytes())
        self.rows(ROOT / "crates" / "command_examples" / "data")
        for table in sorted((ROOT / "crates").glob("*_examples/data/*.txt")):
            self.table(table)
        self.guide(program)
        self.kinds = {kind: list(texts) for kind, texts in self.kinds.items()}

    def add(self, kind, text):
        """Takes an input, and with a stream its preamble and each of its objects."""
        self.kinds[kind][text] = None
        if kind == "stream" and b"\n\n" in text.replace(b"\r", b""):
            head, objects = re.split(rb"\r?\n\r?\n", text, maxsplit=1)
            self.kinds["config"][b"".join(line + b"\n" for line in head.splitlines() if not line.startswith(b"now"))] = None
            for found in re.findall(rb".*?END:VCALENDAR\r?\n", objects, re.DOTALL):
                self.kinds["object"][found] = None

    def rows(self, folder):
        """The inputs of the rows of commands."""
        read = lambda names: b"".join((folder / name).read_bytes() for name in names.split() if (folder / name).is_file())
        for line in (folder / "commands.txt").read_text(encoding="utf-8").splitlines():
            columns = [column.strip() for column in line.split("|")]
            if line.startswith("#") or len(columns) < 4:
                continue
            if columns[1] == "check":
                self.add("calendar", read(columns[2]))
                self.add("certificate", read(columns[3]))
            else:
                self.add("stream" if columns[1] in ("serve", "calendar", "certificate") else "object", read(columns[2]))

    def table(self, path):
        """The objects and certificates that a table spells."""
        for line in path.read_bytes().splitlines():
            for column in line.split(b" | "):
                if b"BEGIN:VCALENDAR" in column.upper() and b"\\" in column:
                    text = unescaped(column.strip())
                    self.add("calendar" if path.stem == "calendars" else "object", text)
                elif b"ROOMCERT" in column:
                    self.add("certificate", unescaped(column[column.index(b"ROOMCERT") :]))

    def guide(self, program):
        """What tests/guide.py hands to the program, which it is run with."""
        def noted(words, given):
            if given:
                self.add("object" if words[:1] in (("expand",), ("explain",)) else "stream", given)

        class Ignored:
            def holds(self, *_):
                pass

        runs.watchers.append(noted)
        for part in (guide.decisions, guide.instances, guide.added, guide.refusals, guide.zones, guide.times_in_zones, guide.whole_days, guide.rooms_in_zones, guide.rooms_of_a_zone, guide.series, guide.organisers):
            part(Ignored(), program)
        runs.watchers.remove(noted)


class Spoiler:
    """Spoils inputs, by chance."""

    def __init__(self, corpus, seed):
        self.chance, self.corpus = random.Random(seed), corpus
        self.ways = [self.turned, self.cut, self.doubled, self.moved, self.dropped, self.repeated, self.put, self.replaced, self.replaced, self.numbered,
                     self.numbered, self.folded, self.joined, self.borrowed, self.nested, self.zoned]

    def taken(self, kind):
        """One of the inputs of a kind; now and then of another."""
        if self.chance.random() < 0.02:
            kind = self.chance.choice(sorted(self.corpus.kinds))
        return self.chance.choice(self.corpus.kinds[kind])

    def spoiled(self, kind, times=None):
        text = self.taken(kind)
        for _ in range(self.chance.choice((1, 1, 1, 2, 2, 3, 5, 8)) if times is None else times):
            text = self.chance.choice(self.ways)(text, kind)[:LONGEST]
        return text

    def span(self, length, most=64):
        """A short piece of that length, or a long one now and then."""
        start = self.chance.randrange(length + 1)
        return start, min(length, start + self.chance.randrange(1, most if self.chance.random() < 0.8 else length + 2))

    def line(self, text):
        """A line, as the places of its beginning and end."""
        start = text.rfind(b"\n", 0, self.chance.randrange(len(text) + 1)) + 1
        end = text.find(b"\n", start)
        return start, len(text) if end < 0 else end + 1

    def turned(self, text, kind):
        octets = bytearray(text)
        for _ in range(self.chance.choice((1, 1, 2, 4, 16)) if octets else 0):
            place = self.chance.randrange(len(octets))
            octets[place] = self.chance.choice((octets[place] ^ 1 << self.chance.randrange(8), self.chance.choice(OCTETS), self.chance.randrange(256)))
        return bytes(octets)

    def cut(self, text, kind):
        start, end = self.span(len(text))
        return text[:start] if self.chance.random() < 0.3 else text[:start] + text[end:]

    def doubled(self, text, kind):
        start, end = self.span(len(text))
        times = self.chance.choice((2, 2, 3, 10, 300))
        return text[:start] + text[start:end] * (times if (end - start) * times < LONGEST else 2) + text[end:]

    def moved(self, text, kind):
        start, end = self.line(text)
        rest = text[:start] + text[end:]
        place = self.line(rest)[0]
        return rest[:place] + text[start:end] + rest[place:]

    def dropped(self, text, kind):
        start, end = self.line(text)
        return text[:start] + text[end:]

    def repeated(self, text, kind):
        start, end = self.line(text)
        times = self.chance.choice((1, 1, 1, 2, 8, 200, 367))
        return text[:end] + text[start:end] * (times if (end - start) * times < LONGEST else 1) + text[end:]

    def put(self, text, kind):
        place = self.line(text)[0]
        return text[:place] + self.chance.choice(LINES).encode() + b"\r\n" + text[place:]

    def replaced(self, text, kind):
        """A value of a line, of a parameter or of a list is another one."""
        start, end = self.line(text)
        ends = [found.end() for found in re.finditer(rb"[:;=, ]", text[start:end])]
        begun = start + self.chance.choice(ends or [0])
        until = re.compile(rb"[:;=,\r\n]").search(text, begun)
        value = self.chance.choice(self.chance.choice(VALUES)).encode()
        return text[:begun] + value + text[until.start() if until and self.chance.random() < 0.5 else len(text[:end].rstrip(b"\r\n")) :]

    def numbered(self, text, kind):
        """A number is another one: its neighbour, or one at a limit."""
        found = [it.span() for it in re.finditer(rb"\d+", text)]
        if not found:
            return text
        start, end = self.chance.choice(found)
        near = max(0, int(text[start:end][:30]) + self.chance.choice((-1, 1, 10, -100)))
        number = str(near).zfill(min(end - start, 30)) if self.chance.random() < 0.5 else self.chance.choice(NUMBERS)
        return text[:start] + number.encode() + text[end:]

    def folded(self, text, kind):
        place = self.chance.randrange(len(text) + 1)
        return text[:place] + self.chance.choice((b"\r\n ", b"\n ", b"\r\n\t", b"\r\n", b"\n", b"\r")) + text[place:]

    def joined(self, text, kind):
        other = self.taken(kind)
        if kind == "stream":
            # its objects alone, so that the preamble stays one
            return text + other[other.find(b"\n\n") + 2 :]
        place, begun = self.line(text)[0], self.line(other)[0]
        return text[:place] + other[begun:]

    def borrowed(self, text, kind):
        other = self.taken(self.chance.choice((kind, "object")))
        start, end = self.line(other)
        place, after = self.line(text)
        return text[:place] + other[start:end] + text[place if self.chance.random() < 0.5 else after :]

    def nested(self, text, kind):
        name = self.chance.choice((b"VEVENT", b"VALARM", b"X", b"VTIMEZONE", b"VCALENDAR"))
        times = self.chance.choice((1, 1, 6, 7, 8, 300))
        start = self.line(text)[0]
        end = self.line(text)[0]
        start, end = min(start, end), max(start, end)
        return text[:start] + b"BEGIN:%s\r\n" % name * times + text[start:end] + b"END:%s\r\n" % name * times + text[end:]

    def zoned(self, text, kind):
        """A room of a preamble, or a calendar, gets a zone."""
        words = self.chance.choice(ZONES).encode()
        if kind not in ("stream", "config"):
            start = text.find(b"\n") + 1
            return text[:start] + b"X-ROOM-ZONE:%s\r\n" % words + text[start:]
        head = re.split(rb"\n\r?\n", text, maxsplit=1)[0] + b"\n"
        rooms = rooms_of(head) or [ROOM.encode()]
        start = self.chance.choice([0, *(found.end() for found in re.finditer(rb"\n", head))])
        return text[:start] + b"zone %s %s\n" % (self.chance.choice(rooms), words) + text[start:]


def rooms_of(preamble):
    return re.findall(rb"^room ([!-~]+)\r?$", preamble, re.MULTILINE)


# ---- one run


class Case:
    """The words of a run, with what standard input and the files beside it hold."""

    def __init__(self, words, stdin=b"", files=None):
        self.words, self.stdin, self.files = words, stdin, files or {}


def serve_case(spoiler):
    words = spoiler.chance.choice((["serve"], ["serve", "--report"], []))
    return Case(words, stream_of(spoiler))


def stream_of(spoiler):
    """A stream, of which a room has a zone now and then."""
    text = spoiler.spoiled("stream")
    return spoiler.zoned(text, "stream") if spoiler.chance.random() < 0.4 else text


def keep_case(spoiler):
    text = stream_of(spoiler)
    rooms = rooms_of(text.split(b"\n\n")[0])
    room = spoiler.chance.choice(rooms).decode() if rooms and spoiler.chance.random() < 0.95 else ROOM
    return Case(["keep", room], text)


def meetings_case(spoiler):
    """Of an organiser of the preamble, or of one who may not be there."""
    text = stream_of(spoiler)
    found = re.findall(rb"^organiser ([!-~]+)\r?$", text.split(b"\n\n")[0], re.MULTILINE)
    organiser = spoiler.chance.choice(found).decode() if found and spoiler.chance.random() < 0.9 else "mailto:ann@example.com"
    return Case(["meetings", organiser], text)


def check_case(spoiler):
    both = spoiler.chance.choice((1, None))
    files = {"calendar": spoiler.spoiled("calendar", both), "certificate": spoiler.spoiled("certificate", spoiler.chance.choice((0, 0, 1, 3)))}
    if spoiler.chance.random() < 0.5:
        counts = [spoiler.chance.randrange(4), spoiler.chance.choice((0, 0, 1, 2))]
        if counts[1] == 2 and spoiler.chance.random() < 0.5:
            days = spoiler.chance.choice((7, 146097, spoiler.chance.randrange(3_000_000)))
            files["certificate"] = b"ROOMCERT 2\nSINGLES %d\nSERIES 2\nGROUP 20300101T000000Z %d 1 2\nDONE\n" % (counts[0], days)
        else:
            files["certificate"] = b"ROOMCERT 1\nSINGLES %d\nSERIES %d\n" % (*counts,) + b"".join(
                b"PAIR %d %d END\n" % (i, j) for i in range(1, counts[1] + 1) for j in range(i, counts[1] + 1)) + b"DONE\n"
    return Case(["check", "calendar", "certificate", ROOM], files=files)


def expand_case(spoiler):
    limit = spoiler.chance.choice(([], ["--limit", "1"], ["--limit", "2000"]))
    zone = [f"--zone={spoiler.chance.choice(ROOM_ZONES)}"] if spoiler.chance.random() < 0.6 else []
    return Case(["expand", *limit, *zone], spoiler.spoiled("object"))


def explain_case(spoiler):
    if spoiler.chance.random() < 0.02:
        return Case(["explain", str(spoiler.chance.randrange(300))])
    return Case(["explain"], spoiler.spoiled("object"))


def box_case(spoiler):
    chance = spoiler.chance
    files = {"config": chance.choice((b"room mailto:r1@example.com\norganiser mailto:ann@example.com\n", spoiler.spoiled("config", 0), spoiler.spoiled("config")))}
    if chance.random() < 0.4:
        files["config"] = spoiler.zoned(files["config"], "config")
    for number in range(chance.randrange(4)):
        moment = chance.choice(("20250102T000000Z", "20250102T000000Z", chance.choice(TIMES).replace("/", "-")))
        name = f"{chance.choice((number, number, chance.randrange(10**9))):08}-{moment}{chance.choice(('.ics', '.ics', '.ics', '.ICS', '.out', ''))}"
        files[f"inbox/{name}"] = spoiler.spoiled(chance.choice(("object", "stream")))
        if chance.random() < 0.05:
            files[f"outbox/{name.removesuffix('.ics')}.out"] = chance.choice((b"", b"x"))
    return Case(["box", "config", "inbox", "outbox"], files=files)


def adapt_case(spoiler):
    return Case(["adapt", *spoiler.chance.choice(([], ["--report"]))], spoiler.spoiled(spoiler.chance.choice(("object", "stream"))))


def back_case(spoiler):
    """Answers on their way back: what an object is, spoiled once more, answers it."""
    original = spoiler.spoiled("object")
    answers = spoiler.chance.choice((original, spoiler.spoiled("object"), original + b"REFUSED;OBJECT=1:40\r\n" + original))
    return Case(["adapt", "--reply-to", "original", *spoiler.chance.choice(([], ["--single"]))], answers, files={"original": original})


def agenda_case(spoiler):
    """Each has an end: without one two daily series are 343 MB, which take their time."""
    words = ["--until", spoiler.chance.choice(("20250310T090000Z", "20260101T000000Z"))]
    if spoiler.chance.random() < 0.9:
        words += ["--from", spoiler.chance.choice(("20250301T000000Z", "20250310T090000Z", "20251231T000000Z", spoiler.chance.choice(TIMES)))]
    return Case(["agenda", "calendar", ROOM, *words, *spoiler.chance.choice(([], ["--free"], ["--ics"], ["--html"], ["--zone=-0500 -0400 11 1SU 0200 3 2SU 0200"]))],
                files={"calendar": spoiler.spoiled("calendar", spoiler.chance.choice((0, 1, None)))})


def words_case(spoiler):
    return Case([spoiler.chance.choice(WORDS) for _ in range(spoiler.chance.randrange(6))], spoiler.spoiled("stream", 1))


CASES = {"serve": serve_case, "keep": keep_case, "check": check_case, "expand": expand_case, "explain": explain_case, "box": box_case, "adapt": adapt_case, "back": back_case, "agenda": agenda_case,
         "meetings": meetings_case,
         WORDS_OF_ALL: words_case}


class Ended:
    """How a run ended: its status, below 0 for a signal, None where it was stopped; and what it wrote."""

    def __init__(self, status, output, said):
        self.status, self.output, self.said = status, output, said

    def kind(self, command):
        """What sets this answer apart from others: its numbers and words, but not their values."""
        shape = re.sub(rb"\d{3,}|mailto:\S+", b"#", self.output[: 400 if command in ("keep", "meetings", "expand") else 4_000])
        return command, self.status, re.sub(rb"\d{3,}|'.*'", b"#", self.said[:200]), shape


class Runner:
    """Runs the program in a folder of its own, with a limit of time for each run."""

    def __init__(self, program, folder, limit):
        self.program, self.folder, self.limit = program, Path(folder), limit
        self.streams = [os.memfd_create(name) for name in ("stdin", "stdout", "stderr")]

    def put(self, case):
        """Writes the files of a case, and takes away those of the one before it."""
        for name in ("inbox", "outbox"):
            (self.folder / name).mkdir(exist_ok=True)
            for path in (self.folder / name).iterdir():
                path.unlink()
        for name, text in case.files.items():
            (self.folder / name).write_bytes(text)

    def run(self, words, stdin=b""):
        for stream, text in zip(self.streams, (stdin, b"", b"")):
            os.ftruncate(stream, 0)
            os.pwrite(stream, text, 0)
            os.lseek(stream, 0, os.SEEK_SET)
        child = subprocess.Popen([self.program, *words], stdin=self.streams[0], stdout=self.streams[1], stderr=self.streams[2], cwd=self.folder)
        status = self.waited(child)
        output, said = (os.pread(stream, 64 << 20, 0) for stream in self.streams[1:])
        return Ended(status, output + self.answers() if words[:1] == ["box"] else output, said)

    def answers(self):
        """What a box has left in its outbox."""
        return b"".join(path.name.encode() + b"\n" + path.read_bytes() for path in sorted((self.folder / "outbox").iterdir()))

    def waited(self, child):
        handle = os.pidfd_open(child.pid)
        try:
            if select.select([handle], [], [], self.limit)[0]:
                return child.wait()
            child.kill()
            child.wait()
            return None
        finally:
            os.close(handle)


# ---- what must not happen


def listed_statuses():
    """The statuses that the manual lists for each command."""
    text = (ROOT / "docs" / "roombox.1").read_text(encoding="utf-8")
    found = {}
    for part in text.split("\n.SS roombox ")[1:]:
        part = part.split("\n.SH ")[0]
        said = part.split("Exit status: ")[1].split("\n.")[0]
        found[part.split()[0]] = {int(it) for it in re.findall(r"(?:^|;\s)(\d)\b", said)}
    found["back"] = found["adapt"]
    found[WORDS_OF_ALL] = set().union(*found.values())
    return found


def said_as_listed(ended, case):
    """Whether standard error has what the guide says of the status."""
    reason = rb"(roombox: [\x20-\x7e]+\n)?"
    forms = {2: rb"error: .*", 3: rb"roombox: (refused \d+\n" + reason + rb"|too long\n|differs [\x21-\x7e]+\n|no event names [\x21-\x7e]+\n)", 4: rb"roombox: device\n" + reason, 5: rb"roombox: memory\n"}
    lines = rb"(roombox: left alone: [\x20-\x7e]*\n)*(roombox: object \d+: [\x20-\x7e]*\n)*" if "--report" in case.words else rb""
    counts = rb"roombox: \d+ objects?, [^\n]*\n" if "--report" in case.words and case.words[:1] != ["adapt"] else rb""
    if case.words[:1] == ["agenda"]:
        counts = rb"(roombox: (1 event names [\x21-\x7e]+ and isn't|\d+ events name [\x21-\x7e]+ and aren't) accepted\n)?"
    if case.words[:1] == ["check"] and ended.output == b"no 80\n":
        counts = rb"(roombox: UID [\x20-\x7e]+\n)?"
    return re.fullmatch(lines + forms.get(ended.status, counts), ended.said, re.DOTALL)


def fault_of(command, case, ended, statuses):
    """What is wrong with how a run ended, in a word or two; None where nothing is."""
    if ended.status is None:
        return "hang"
    if ended.status < 0:
        return f"crash {-ended.status}"
    if ended.status not in statuses[command]:
        return f"status {ended.status} isn't listed"
    if ended.status in (4, 5) and command != WORDS_OF_ALL:
        return f"status {ended.status} without a cause"
    if not said_as_listed(ended, case) and command != WORDS_OF_ALL:
        return f"other words beside status {ended.status}"
    return None


def followed_up(command, case, runner, ended):
    """What has to hold of a second run: what was kept passes the checker, and a box finds its own answers. How it ended, and what is wrong."""
    if command == "keep" and ended.status == 0:
        certificate = runner.run(["keep", "--certificate", *case.words[1:]], case.stdin)
        (runner.folder / "calendar").write_bytes(ended.output)
        (runner.folder / "certificate").write_bytes(certificate.output)
        again = runner.run(["check", "calendar", "certificate", case.words[1]])
        if again.status is None:
            return again, "the checker isn't done in time"
        if (certificate.status, again.status, again.output) != (0, 0, b"yes\n"):
            return again, "what is kept doesn't pass"
    if command == "box":
        again = runner.run(case.words, case.stdin)
        if (again.status, again.output, again.said) != (ended.status, ended.output, ended.said):
            return again, "another answer the second time"
    return ended, None


class Fuzz:
    """Spoils and runs, and counts by command."""

    def __init__(self, program, seed, limit, findings, folder):
        self.corpus = Corpus(program)
        self.first = {kind: len(texts) for kind, texts in self.corpus.kinds.items()}
        self.runner, self.seed, self.findings = Runner(program, folder, limit), seed, findings
        self.statuses = listed_statuses()
        self.kinds, self.runs, self.found = set(), collections.Counter(), collections.Counter()
        self.ends = collections.defaultdict(collections.Counter)

    def commands(self, program):
        """Those of the help, each of which has to be known here."""
        text = subprocess.run([program, "--help"], capture_output=True, check=True).stdout.decode()
        listed = re.findall(r"^  (\w+)  ", text.split("Commands:")[1].split("Options:")[0], re.MULTILINE)
        unknown = set(listed) - set(CASES) - {"help"}
        if unknown:
            sys.exit(f"commands that nothing spoils: {unknown}")
        return [command for command in listed if command != "help"] + ["back", WORDS_OF_ALL]

    def spoil(self, command, seconds):
        """Spoils the input of a command for so many seconds."""
        end = time.monotonic() + seconds
        while time.monotonic() < end:
            number = self.runs[command]
            case = CASES[command](Spoiler(self.corpus, f"{self.seed} {command} {number}"))
            self.runner.put(case)
            ended = self.runner.run(case.words, case.stdin)
            fault = fault_of(command, case, ended, self.statuses)
            if fault is None:
                ended, fault = followed_up(command, case, self.runner, ended)
            self.runs[command] += 1
            self.ends[command][ended.status] += 1
            if fault:
                self.keep(command, number, case, ended, fault)
            self.learn(command, case, ended)

    def learn(self, command, case, ended):
        """Keeps an input with an answer of a new kind, to be spoiled again."""
        kind = ended.kind(command)
        if kind in self.kinds or command == WORDS_OF_ALL:
            return
        self.kinds.add(kind)
        texts = {"stream" if command in ("serve", "keep", "meetings") else "object": case.stdin, **case.files}
        for name, text in texts.items():
            name = "object" if name.startswith("inbox/") else name
            kept = self.corpus.kinds.get(name)
            if text and kept is not None and len(kept) < self.first[name] + KEPT and len(text) < 100_000:
                kept.append(text)

    def keep(self, command, number, case, ended, fault):
        """Keeps a finding as files."""
        self.found[command] += 1
        folder = self.findings / f"{command}-{self.seed}-{number}"
        for name, text in {**case.files, "stdin": case.stdin, "stdout": ended.output, "stderr": ended.said}.items():
            (folder / name).parent.mkdir(parents=True, exist_ok=True)
            (folder / name).write_bytes(text)
        (folder / "words").write_text("\n".join(case.words) + "\n")
        (folder / "fault").write_text(f"{fault}\n")
        print(f"{folder}: {fault}", flush=True)

    def report(self, commands, seconds):
        print(f"{'command':<10}{'runs':>10}{'a second':>10}{'findings':>10}  statuses")
        for command in commands:
            ends = ", ".join(f"{status}: {count:,}" for status, count in sorted(self.ends[command].items(), key=str))
            print(f"{command:<10}{self.runs[command]:>10,}{self.runs[command] / seconds:>10.0f}{self.found[command]:>10}  {ends}")
        print(f"{len(self.kinds):,} kinds of answers, seed {self.seed}")


def main():
    parser = argparse.ArgumentParser()
    parser.add_argument("program", nargs="?")
    parser.add_argument("--seconds", type=float, default=60)
    parser.add_argument("--command", default="")
    parser.add_argument("--seed", default="1")
    parser.add_argument("--limit", type=float, default=10)
    parser.add_argument("--memory", type=int, default=MEMORY)
    parser.add_argument("--findings", type=Path, default=ROOT / "out" / "fuzz")
    asked = parser.parse_args()
    program = of_arguments()
    # the programs that are run inherit the limits
    resource.setrlimit(resource.RLIMIT_CORE, (0, 0))
    if asked.memory:
        resource.setrlimit(resource.RLIMIT_AS, (asked.memory, asked.memory))
    with tempfile.TemporaryDirectory() as folder:
        fuzz = Fuzz(program, asked.seed, asked.limit, asked.findings, folder)
        commands = fuzz.commands(program)
        if asked.command:
            commands = [command for command in commands if command == asked.command] or sys.exit(f"no command {asked.command}: {', '.join(commands)}")
        share = asked.seconds / len(commands)
        rounds = max(1, int(share // 20))
        for _ in range(rounds):
            for command in commands:
                fuzz.spoil(command, share / rounds)
        fuzz.report(commands, share)
    found = sum(fuzz.found.values()) + sum(not fuzz.runs[command] for command in commands)
    print(f"{sum(fuzz.runs.values())} cases, {found} failed")
    return 1 if found else 0


if __name__ == "__main__":
    sys.exit(main())
