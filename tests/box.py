"""Runs `roombox box` over real folders: what it answers, what it leaves alone, what it refuses, and what is there after it was killed, after the disk was
full and after a file had vanished.

    python3 tests/box.py bin/roombox [FOLDER]

What is expected was written by hand from the rules in docs/GUIDE.md and docs/OPERATING.md, and never from the program's output; a run that was killed is compared with one
that wasn't. FOLDER is where the folders of the tests are made, on the disk that is to be tried; where none is given, it is the system's for temporary
files. It needs root, for other users and a mount, and strace. Most of its time is that of the disk: 20,000 answers, each synced before it gets its name and after it.
"""

import os
import pty
import random
import re
import resource
import shutil
import signal
import subprocess
import sys
import tempfile
import time
from pathlib import Path

from lib.cases import Cases
from lib.program import MEMORY, of_arguments, without_reason
from lib.streams import OWN_HEAD, crlf, folded
from lib.streams import R1 as ROOM
from lib.streams import ROOM as CONFIG

PROGRAM = of_arguments()
NOW = "20250102T000000Z"
TEMPORARY = ".roombox-temporary"
DONE, DEVICE, REFUSED = (0, "", ""), (4, "", "roombox: device\n"), (3, "", "roombox: refused 90\n")
NOBODY = 65_534
SEED = 20_250_102
MANY, KILLS = 10_000, 100


# ---- messages, answers and folders


def request(uid, start, *length, room=ROOM):
    """A REQUEST of one event."""
    event = [f"UID:{uid}", "SEQUENCE:0", "DTSTAMP:20250101T000000Z", "ORGANIZER:mailto:ann@example.com", f"ATTENDEE:{room}", f"DTSTART:{start}", *length]
    return crlf("BEGIN:VCALENDAR", "VERSION:2.0", "METHOD:REQUEST", "BEGIN:VEVENT", *event, "END:VEVENT", "END:VCALENDAR")


def reply(uid, now, word, status):
    """What a room answers to such a request."""
    event = [f"UID:{uid}", "SEQUENCE:0", f"DTSTAMP:{now}", "ORGANIZER:mailto:ann@example.com", f"ATTENDEE;PARTSTAT={word}:{ROOM}", f"REQUEST-STATUS:{status}"]
    return folded([*OWN_HEAD, "METHOD:REPLY", "BEGIN:VEVENT", *event, "END:VEVENT", "END:VCALENDAR"]).decode()


def accepted(uid, now=NOW):
    return reply(uid, now, "ACCEPTED", "2.0;Success")


def declined(uid, clash, now=NOW):
    return reply(uid, now, "DECLINED", f"4.1;Event conflict.  Date-time is busy.;{clash}")


def named(number, now=NOW, end="ics"):
    return f"{number:08}-{now}.{end}"


class Boxes:
    """A configuration, an inbox and an outbox."""

    def __init__(self, parent, config=CONFIG, program=PROGRAM):
        self.folder = Path(tempfile.mkdtemp(dir=parent))
        self.config, self.inbox, self.outbox = (self.folder / name for name in ("config", "inbox", "outbox"))
        self.config.write_text(config, newline="")
        self.inbox.mkdir()
        self.outbox.mkdir()
        self.program = program

    def put(self, name, text):
        (self.inbox / name).write_bytes(text.encode())

    def words(self, *options):
        return [self.program, "box", *options, str(self.config), str(self.inbox), str(self.outbox)]

    def run(self, *options, **how):
        """The status, the standard output and the standard error of a run."""
        ended = subprocess.run(self.words(*options), stdin=subprocess.DEVNULL, capture_output=True, timeout=300, **how)
        return ended.returncode, ended.stdout.decode(), without_reason(ended.stderr.decode())

    def begun(self):
        return subprocess.Popen(self.words(), stdin=subprocess.DEVNULL, stdout=subprocess.DEVNULL, stderr=subprocess.PIPE)

    def names(self):
        return sorted(os.listdir(self.outbox))

    def answers(self):
        """The octets under each name of the outbox."""
        return {name: (self.outbox / name).read_bytes().decode() for name in self.names()}

    def marks(self):
        """Of each file of the outbox which it is, and when it was changed."""
        return {name: (found.st_ino, found.st_mtime_ns) for name in self.names() for found in [os.stat(self.outbox / name)]}


def many(parent, count, answers_apart=10):
    """Boxes with so many requests of an hour each: one after the other, but each tenth at the time of the one before it."""
    boxes = Boxes(parent)
    for number in range(count):
        hour = number - (number % answers_apart == answers_apart - 1)
        day, hour = divmod(hour, 24)
        year, day = divmod(day, 336)
        start = f"{2025 + year}{1 + day // 28:02}{1 + day % 28:02}T{hour:02}0000Z"
        boxes.put(named(number + 1), request(f"meeting-{number}", start, "DURATION:PT1H"))
    return boxes


# ---- what is answered


def two_and_a_third(cases, parent):
    """Two requests that overlap, a run again, a third file, and an answer that was changed."""
    boxes = Boxes(parent)
    boxes.put(named(1), request("a", "20250310T090000Z", "DTEND:20250310T100000Z"))
    boxes.put(named(2), request("b", "20250310T093000Z", "DURATION:PT1H"))
    cases.holds("two files", boxes.run(), DONE)
    clash = "20250310T093000Z 20250310T090000Z mailto:ann@example.com a 20250310T093000Z mailto:ann@example.com b"
    wanted = {named(1, end="out"): accepted("a"), named(2, end="out"): declined("b", clash)}
    cases.holds("the answers to two files", boxes.answers(), wanted)
    marks = boxes.marks()
    cases.holds("two files again", boxes.run(), DONE)
    cases.holds("a second run changes nothing", (boxes.answers(), boxes.marks()), (wanted, marks))
    later = "20250102T000100Z"
    boxes.put(named(3, later), request("c", "20250310T093000Z"))
    cases.holds("a third file", boxes.run(), DONE)
    wanted[named(3, later, "out")] = accepted("c", later)
    cases.holds("its answer has the moment of its own name", boxes.answers(), wanted)
    cases.holds("only its answer is new", {name: mark for name, mark in boxes.marks().items() if name in marks}, marks)
    first = boxes.outbox / named(1, end="out")
    first.write_bytes(first.read_bytes() + b"x")
    differs = (3, "", f"roombox: differs {named(1, end='out')}\n")
    marks = boxes.marks()
    cases.holds("an answer with an octet more", boxes.run(), differs)
    first.write_bytes(first.read_bytes()[:-2])
    cases.holds("an answer with an octet less", boxes.run(), differs)
    cases.holds("an answer that differs stays", (len(first.read_bytes()), boxes.marks() != marks, boxes.names()), (len(accepted("a")) - 1, True, sorted(wanted)))


def whole_and_empty(cases, parent):
    """An inbox without files, a file without objects, one with several, and one that is refused."""
    boxes = Boxes(parent)
    cases.holds("an empty inbox", (boxes.run(), boxes.names()), (DONE, []))
    boxes.put(named(1), "")
    boxes.put(named(2), request("a", "20250310T090000Z", "DURATION:PT1H") + "BEGIN:VCALENDAR\r\nEND:VCALENDAR\r\n" + request("b", "20250310T100000Z", "DURATION:PT1H"))
    boxes.put(named(3), "BEGIN:VCALENDAR\r\nEND:VCALENDAR\r\n")
    cases.holds("files with none and with several", boxes.run(), DONE)
    wanted = {named(1, end="out"): "", named(2, end="out"): accepted("a") + "REFUSED;OBJECT=2:24\r\n" + accepted("b"), named(3, end="out"): "REFUSED;OBJECT=1:24\r\n"}
    cases.holds("objects are counted in each file", boxes.answers(), wanted)
    cases.holds("and again", (boxes.run(), boxes.answers()), (DONE, wanted))


def longest(cases, parent):
    """A file of the most octets is answered whole, one object that is too long; one of an octet more can't be read. Both are holes, and take no disk."""
    boxes = Boxes(parent)
    for number, size in ((1, 1_073_741_824), (2, 1_073_741_825)):
        boxes.put(named(number), "")
        os.truncate(boxes.inbox / named(number), size)
        wanted = (DONE, DEVICE)[number - 1]
        cases.holds(f"a file of {size} octets", (boxes.run(), boxes.answers()), (wanted, {named(1, end="out"): "REFUSED;OBJECT=1:6\r\n"}))


def order_of_names(cases, parent):
    """The first in the byte order of names is served first, whatever moment it says and whenever it was written."""
    boxes = Boxes(parent)
    early, late = "20250102T000000Z", "20250103T000000Z"
    for number, now in [(10, early), (9, late), (11, early)]:
        boxes.put(named(number, now), request(f"m{number}", "20250310T090000Z", "DURATION:PT1H"))
    cases.holds("files in another order", boxes.run(), DONE)
    words = {name: re.findall("PARTSTAT=([A-Z]*)", text) for name, text in boxes.answers().items()}
    wanted = {named(9, late, "out"): ["ACCEPTED"], named(10, early, "out"): ["DECLINED"], named(11, early, "out"): ["DECLINED"]}
    cases.holds("files in the byte order of names", words, wanted)


def books_over_all(cases, parent):
    """What is new in a later run is judged by the books of all files before it."""
    boxes = Boxes(parent)
    boxes.put(named(1), request("a", "20250310T090000Z", "DURATION:PT1H"))
    cases.holds("the first run", boxes.run(), DONE)
    boxes.put(named(2), request("b", "20250310T090000Z", "DURATION:PT1H"))
    cases.holds("the second run", boxes.run(), DONE)
    clash = "20250310T090000Z 20250310T090000Z mailto:ann@example.com a 20250310T090000Z mailto:ann@example.com b"
    cases.holds("the second answer", boxes.answers()[named(2, end="out")], declined("b", clash))


# ---- no answer beside one that differs, and a comparison alone


def counted(files, missing):
    return f"roombox: files: {files}, missing answers: {missing}\n"


def differing(*numbers):
    return "".join(f"roombox: differs {named(number, end='out')}\n" for number in numbers)


def one_yes_for_an_hour(cases, parent):
    """A file that was put before an answered one: the later answer says that the hour is given away, so nothing is published beside it."""
    boxes = Boxes(parent)
    boxes.put(named(2), request("b", "20250310T090000Z", "DURATION:PT1H"))
    cases.holds("a file alone", boxes.run(), DONE)
    boxes.put(named(1), request("a", "20250310T090000Z", "DURATION:PT1H"))
    wanted, marks = {named(2, end="out"): accepted("b")}, boxes.marks()
    cases.holds("a file before it", boxes.run(), (3, "", differing(2)))
    cases.holds("one yes for the hour", (boxes.answers(), boxes.marks()), (wanted, marks))
    cases.holds("a comparison counts it as missing", boxes.run("--compare"), (3, "", differing(2) + counted(2, 1)))
    boxes.put(named(1), request("a", "20250310T100000Z", "DURATION:PT1H"))
    cases.holds("one that changes nothing behind it", boxes.run(), DONE)
    cases.holds("is answered", (boxes.answers(), boxes.marks()[named(2, end="out")]), ({**wanted, named(1, end="out"): accepted("a")}, marks[named(2, end="out")]))


def comparisons(cases, parent):
    """A comparison writes nothing, goes on behind a file that differs, and counts what is missing."""
    boxes = Boxes(parent)
    cases.holds("nothing to compare", boxes.run("--compare"), (0, "", counted(0, 0)))
    for number in range(1, 6):
        boxes.put(named(number), request(f"m{number}", f"20250310T{8 + number:02}0000Z", "DURATION:PT1H"))
    cases.holds("nothing is answered", (boxes.run("--compare"), boxes.names()), ((0, "", counted(5, 5)), []))
    cases.holds("all is answered", boxes.run(), DONE)
    cases.holds("nothing differs", boxes.run("--compare"), (0, "", counted(5, 0)))
    for number in (2, 4):
        (boxes.outbox / named(number, end="out")).write_text("x")
    for number in (3, 5):
        (boxes.outbox / named(number, end="out")).unlink()
    (boxes.outbox / named(7, end="out")).write_text("of no file")
    found = (boxes.answers(), boxes.marks(), os.stat(boxes.outbox).st_mtime_ns, os.stat(boxes.inbox).st_mtime_ns)
    cases.holds("two differ and two are missing", boxes.run("--compare"), (3, "", differing(2, 4) + counted(5, 2)))
    cases.holds("the same behind the door", boxes.run("--compare", "--adapt"), (3, "", differing(2, 4) + counted(5, 2)))
    cases.holds("a comparison changes nothing", (boxes.answers(), boxes.marks(), os.stat(boxes.outbox).st_mtime_ns, os.stat(boxes.inbox).st_mtime_ns), found)
    config = boxes.config.read_text()
    boxes.config.write_text("room mailto:other@example.com\n")
    for number in (2, 4):
        (boxes.outbox / named(number, end="out")).unlink()
    cases.holds("another CONFIG", boxes.run("--compare"), (3, "", differing(1) + counted(5, 4)))
    boxes.config.write_text("rooms\n")
    cases.holds("a refused CONFIG", boxes.run("--compare"), REFUSED)
    boxes.config.write_text(config)
    ended = subprocess.run(boxes.words("--compare", "--report"), stdin=subprocess.DEVNULL, capture_output=True, text=True)
    cases.holds("with --report", (ended.returncode, ended.stdout, ended.stderr.startswith("error: ")), (2, "", True))
    shutil.rmtree(boxes.outbox)
    cases.holds("no outbox", boxes.run("--compare"), DEVICE)


def comparison_calls(cases, parent):
    """A comparison calls nothing that writes or syncs."""
    if not shutil.which("strace"):
        return cases.lacks("the calls of a comparison", "strace")
    boxes = Boxes(parent)
    boxes.put(named(1), request("a", "20250310T090000Z", "DURATION:PT1H"))
    boxes.put(named(2), request("b", "20250310T100000Z", "DURATION:PT1H"))
    (boxes.outbox / named(1, end="out")).write_text("x")
    log = boxes.folder / "calls"
    traced = "trace=fsync,fdatasync,sync,syncfs,link,linkat,rename,renameat,renameat2,unlink,unlinkat,mkdir,mkdirat,ftruncate,truncate,chmod,fchmod,openat,open,creat"
    ended = subprocess.run(["strace", "-qq", "-f", "-o", str(log), "-e", traced, *boxes.words("--compare")], stdin=subprocess.DEVNULL, capture_output=True)
    cases.holds("a comparison under strace", ended.returncode, 3)
    lines = log.read_text().splitlines()
    cases.holds("no call writes", [line for line in lines if "open" not in line or "O_WRONLY" in line or "O_RDWR" in line or "O_CREAT" in line], [])


# ---- what is left alone, and what is refused


def other_names(cases, parent):
    """Names of another form are left alone, whatever stands under them."""
    good = request("a", "20250310T090000Z", "DURATION:PT1H")
    forms = [
        "00000001-20250230T000000Z.ics", "00000001-20251301T000000Z.ics", "00000001-20250102T240000Z.ics", "0000001-20250102T000000Z.ics", "000000001-20250102T000000Z.ics",
        "0000000a-20250102T000000Z.ics", "00000001_20250102T000000Z.ics", "00000001-20250102T000000.ics", "00000001-20250102T000000Z.ICS", "00000001-20250102T000000z.ics",
        "00000001-20250102T000000Z.ics~", "00000001-20250102T000000Z", ".00000001-20250102T000000Z.ics", "00000001-20250102T000000Z.out", "00000001-2025-01-02T00:00:00Z.ics",
        "\u0660\u0660\u0660\u0660\u0660\u0660\u0660\u0661-20250102T000000Z.ics", "notes", TEMPORARY,
    ]
    boxes = Boxes(parent)
    for name in forms:
        boxes.put(name, good)
    (boxes.inbox / "folder").mkdir()
    cases.holds("names of another form", (boxes.run(), boxes.names()), (DONE, []))
    boxes.put(named(1), good)
    (boxes.outbox / "notes").write_text("kept")
    (boxes.outbox / named(7, end="out")).write_text("of no file")
    cases.holds("one of the form among them", (boxes.run(), boxes.answers()), (DONE, {"notes": "kept", named(1, end="out"): accepted("a"), named(7, end="out"): "of no file"}))


def of_no_use(cases, parent):
    """What can't be read or written is `roombox: device`, 4, and leaves no answer."""
    def boxes(*numbers):
        made = Boxes(parent)
        for number in numbers:
            made.put(named(number), request("a", "20250310T090000Z", "DURATION:PT1H"))
        return made

    for folder in ("inbox", "outbox"):
        made = boxes()
        (Path(getattr(made, folder)) / os.fsdecode(b"\xff.ics")).write_bytes(b"")
        cases.holds(f"a name in the {folder} that isn't UTF-8", made.run(), DEVICE)
        made = boxes()
        getattr(made, folder).rmdir()
        cases.holds(f"no {folder}", made.run(), DEVICE)
        getattr(made, folder).write_bytes(b"")
        cases.holds(f"the {folder} is a file", made.run(), DEVICE)
    made = boxes(1)
    (made.inbox / named(2)).mkdir()
    cases.holds("a folder under a message's name", (made.run(), made.names()), (DEVICE, [named(1, end="out")]))
    made = boxes(1)
    os.symlink("nowhere", made.inbox / named(2))
    cases.holds("a link to nowhere under a message's name", (made.run(), made.names()), (DEVICE, [named(1, end="out")]))
    made = boxes(1)
    os.mkfifo(made.inbox / named(2))
    cases.holds("a pipe under a message's name", (made.run(), made.names()), (DEVICE, [named(1, end="out")]))
    made = boxes(1)
    (made.outbox / named(1, end="out")).mkdir()
    cases.holds("a folder under an answer's name", made.run(), DEVICE)
    made = boxes(1)
    (made.outbox / TEMPORARY).mkdir()
    cases.holds("a folder under the temporary's name", made.run(), DEVICE)


def without_leave(cases, parent):
    """The same as another user, who may not read or write."""
    program, how = PROGRAM, {}
    if os.geteuid() == 0:
        # nobody may not look into every folder: a copy lies where he may
        program = str(shutil.copy(PROGRAM, Path(parent) / "roombox"))
        how = {"user": NOBODY, "group": NOBODY, "extra_groups": []}

    def boxes():
        made = Boxes(parent, program=program)
        made.put(named(1), request("a", "20250310T090000Z", "DURATION:PT1H"))
        made.folder.chmod(0o755)
        made.outbox.chmod(0o777)
        return made

    made = boxes()
    try:
        cases.holds("as another user", (made.run(**how), made.names()), (DONE, [named(1, end="out")]))
    except OSError as error:
        print(f"left out: another user ({error})")
        return
    made = boxes()
    (made.inbox / named(1)).chmod(0)
    cases.holds("a message that may not be read", (made.run(**how), made.names()), (DEVICE, []))
    made = boxes()
    made.outbox.chmod(0o555)
    cases.holds("an outbox that may not be written", (made.run(**how), made.names()), (DEVICE, []))
    made = boxes()
    cases.holds("an answer to compare", made.run(**how), DONE)
    made.outbox.chmod(0o555)
    made.inbox.chmod(0o555)
    cases.holds("a comparison of folders that may only be read", (made.run("--compare", **how), made.names()), ((0, "", counted(1, 0)), [named(1, end="out")]))
    made = boxes()
    made.inbox.chmod(0o333)
    cases.holds("an inbox that may not be listed", (made.run(**how), made.names()), (DEVICE, []))
    made = boxes()
    made.config.chmod(0)
    cases.holds("a configuration that may not be read", (made.run(**how), made.names()), (DEVICE, []))
    made = boxes()
    made.outbox.chmod(0o333)
    cases.holds("an outbox that may not be listed", (made.run(**how), made.names()), (DEVICE, []))


def configurations(cases, parent):
    """The words are judged first, then the configuration, then the folders."""
    def of_octets(count):
        # 63 rooms with addresses of 1,024 octets, and one that fills the rest
        rooms = [f"room mailto:{number:02}{'x' * 1_015}\n" for number in range(63)]
        return "".join(rooms) + f"room mailto:63{'x' * (count - 63 * 1_030 - 15)}\n"

    cases.holds("a configuration of 65,536 octets", (len(of_octets(65_536)), Boxes(parent, of_octets(65_536)).run()), (65_536, DONE))
    for what, text in [("empty", ""), ("with a moment", f"now {NOW}\n{CONFIG}"), ("of one room twice", CONFIG + CONFIG), ("with another line", CONFIG + "what\n"),
                       ("with two zones of a room", f"{CONFIG}zone {ROOM} -0500\nzone {ROOM} +0100\n"), ("with a zone of no room", CONFIG + "zone mailto:nobody@example.com -0500\n"), ("with words of no zone", f"{CONFIG}zone {ROOM} noon\n"),
                       ("of 65,537 octets", of_octets(65_537)), ("longer than is read", of_octets(65_536) + "\n" + "\n" * 10)]:
        made = Boxes(parent, text)
        made.put(named(1), request("a", "20250310T090000Z", "DURATION:PT1H"))
        cases.holds(f"a configuration {what}", (made.run(), made.names()), (REFUSED, []))
        shutil.rmtree(made.inbox)
        made.outbox.rmdir()
        cases.holds(f"a configuration {what}, and no folders", made.run(), REFUSED)
    made = Boxes(parent, CONFIG + "organiser mailto:ann@example.com\n\n")
    cases.holds("a configuration with an empty line at its end", made.run(), DONE)
    made = Boxes(parent)
    made.config.unlink()
    cases.holds("no configuration", made.run(), DEVICE)
    made.config.mkdir()
    cases.holds("a folder as configuration", made.run(), DEVICE)


def usage(cases, parent):
    made = Boxes(parent)
    words = made.words()[2:]
    for given in [[], words[:1], words[:2], [*words, "more"], ["--what", *words]]:
        ended = subprocess.run([PROGRAM, "box", *given], stdin=subprocess.DEVNULL, capture_output=True, text=True)
        cases.holds(f"usage: {len(given)} words", (ended.returncode, ended.stdout, ended.stderr.startswith("error: ")), (2, "", True))


# ---- the temporary, and the order of the calls


def temporaries(cases, parent):
    """A temporary of an earlier run is taken away, and never written over."""
    good = request("a", "20250310T090000Z", "DURATION:PT1H")
    boxes = Boxes(parent)
    boxes.put(named(1), good)
    cases.holds("a first answer", boxes.run(), DONE)
    # the run was killed after it had linked the answer, and before it took the temporary's name away
    os.link(boxes.outbox / named(1, end="out"), boxes.outbox / TEMPORARY)
    first = boxes.marks()[named(1, end="out")]
    boxes.put(named(2), request("b", "20250310T100000Z", "DURATION:PT1H"))
    cases.holds("a temporary that is a published file too", boxes.run(), DONE)
    cases.holds("the published file stays", (boxes.answers(), boxes.marks()[named(1, end="out")]), ({named(1, end="out"): accepted("a"), named(2, end="out"): accepted("b")}, first))
    other = boxes.folder / "other"
    other.write_text("kept")
    os.symlink(other, boxes.outbox / TEMPORARY)
    boxes.put(named(3), request("c", "20250310T110000Z", "DURATION:PT1H"))
    cases.holds("a temporary that is a link", (boxes.run(), other.read_text(), boxes.names()), (DONE, "kept", [named(number, end="out") for number in (1, 2, 3)]))
    (boxes.outbox / TEMPORARY).write_text("a beginning of")
    boxes.put(named(4), request("d", "20250310T120000Z", "DURATION:PT1H"))
    cases.holds("a temporary with a beginning of an answer", (boxes.run(), boxes.answers().get(named(4, end="out")), TEMPORARY in boxes.names()), (DONE, accepted("d"), False))


def temporary_in_a_listing(cases, parent):
    """What is listed behind a file of the temporary's name is answered too. The system lists in an order of its own, so names stand on both sides of it."""
    boxes = Boxes(parent)
    for number in range(1, 101):
        boxes.put(named(number), "")
        if number == 50:
            boxes.put(TEMPORARY, "left by another program")
    cases.holds("a temporary among the files of an inbox", (boxes.run(), boxes.names()), (DONE, [named(number, end="out") for number in range(1, 101)]))


def order_of_calls(cases, parent):
    """The folder is synced before anything else is done in it; each answer is synced before it gets its name, and the folder after that."""
    if not shutil.which("strace"):
        return cases.lacks("the order of the calls", "strace")
    boxes = Boxes(parent)
    for number in (1, 2):
        boxes.put(named(number), request(f"m{number}", f"20250310T{8 + number:02}0000Z", "DURATION:PT1H"))
    log = boxes.folder / "calls"
    traced = "trace=openat,open,fsync,fdatasync,link,linkat,rename,renameat,renameat2,unlink,unlinkat,write,pwrite64,close,ftruncate"
    ended = subprocess.run(["strace", "-qq", "-o", str(log), "-e", traced, *boxes.words()], stdin=subprocess.DEVNULL, capture_output=True)
    cases.holds("a run under strace", ended.returncode, 0)
    found, opened, is_temporary = [], {}, {}
    for line in log.read_text().splitlines():
        call = re.match(r"(\w+)\((.*)\)\s+= (-?\d+)", line)
        if not call or int(call[3]) < 0 or str(boxes.inbox) in call[2]:
            continue
        name, words, result = call[1], call[2], int(call[3])
        number = int(words.split(",")[0]) if re.match(r"\d+(,|$)", words) else None
        if name in ("openat", "open"):
            opened[result] = "temporary" if TEMPORARY in words else "folder" if re.search(r'outbox"', words) else None
            if opened[result] == "temporary":
                found.append("create" if "O_EXCL" in words else "open")
        elif number is not None:
            if opened.get(number):
                found += [f"{name} {opened[number]}"] if name != "close" else []
            if name == "close":
                opened.pop(number, None)
        else:
            found.append(name)
    answer = ["create", "write temporary", "fsync temporary", "link", "unlink", "fsync folder"]
    cases.holds("the calls on the outbox", found, ["fsync folder", *answer, *answer])


# ---- a run that ends too soon


def failing_calls(cases, parent):
    """Each call of the system on the folders fails in turn, once in each run: the run ends with 4, and leaves the answers to the first files; the next one
    answers all of them. An interrupted call is made again."""
    if not shutil.which("strace"):
        return cases.lacks("calls that fail", "strace")
    boxes = Boxes(parent)
    for number in (1, 2):
        boxes.put(named(number), request(f"m{number}", f"20250310T{8 + number:02}0000Z", "DURATION:PT1H"))
    answers = {named(number, end="out"): accepted(f"m{number}") for number in (1, 2)}
    files = [boxes.inbox / name for name in os.listdir(boxes.inbox)]
    # the folders are listed under their names with a slash
    paths = [boxes.inbox, f"{boxes.inbox}/", boxes.outbox, f"{boxes.outbox}/", *files, boxes.outbox / TEMPORARY, *(boxes.outbox / name for name in answers)]

    def emptied():
        shutil.rmtree(boxes.outbox)
        boxes.outbox.mkdir()

    def injected(call, error, number):
        """The same as a run of the boxes, with the error at the call of this number."""
        filters = [word for path in paths for word in ("-P", str(path))]
        words = ["strace", "-qq", "-o", "/dev/null", *filters, "-e", f"trace={call}", "-e", f"inject={call}:error={error}:when={number}", *boxes.words()]
        ended = subprocess.run(words, stdin=subprocess.DEVNULL, capture_output=True, text=True)
        said = [line for line in ended.stderr.splitlines(True) if not line.startswith("strace: Requested path ")]
        return ended.returncode, ended.stdout, without_reason("".join(said))

    # how often each is called for two files: both folders are listed in two calls each, and opened for it; the outbox is opened once more, to be synced.
    # Before that a temporary is unlinked that isn't there: whether that fails doesn't matter
    for call, error, first, often in [("openat", "EIO", 1, 3 + 2 * 2), ("getdents64", "EIO", 1, 2 * 2), ("statx", "EACCES", 1, 2), ("read", "EIO", 1, 2 * 2),
                                      ("unlink", "EIO", 2, 1 + 2 * 2), ("write", "ENOSPC", 1, 2), ("fsync", "EIO", 1, 1 + 2 * 2), ("link", "EIO", 1, 2)]:
        for number in range(first, often + 1):
            emptied()
            cases.holds(f"{call} {number} fails", injected(call, error, number), DEVICE)
            left = {name: text for name, text in boxes.answers().items() if name != TEMPORARY}
            cases.holds(f"what {call} {number} leaves", left, dict(list(answers.items())[:len(left)]))
            cases.holds(f"after {call} {number}", (boxes.run(), boxes.answers()), (DONE, answers))
        emptied()
        cases.holds(f"{call} is called {often} times", injected(call, error, often + 1), DONE)
    # the two listings are left out: std's own function doesn't open a folder again
    for call, numbers in [("openat", (1, 4, 5, 6, 7)), ("read", range(1, 5)), ("write", (1, 2)), ("fsync", range(1, 6))]:
        for number in numbers:
            emptied()
            cases.holds(f"{call} {number} is interrupted", (injected(call, "EINTR", number), boxes.answers()), (DONE, answers))
    emptied()
    cases.holds("each read is interrupted", injected("read", "EINTR", "1+"), DEVICE)
    cases.holds("answered after that", (boxes.run(), boxes.answers()), (DONE, answers))
    # an error of a read is no difference
    for number in range(1, 9):
        cases.holds(f"read {number} of a run that compares fails", (injected("read", "EIO", number), boxes.answers()), (DEVICE, answers))


def is_beginning(names, count):
    """These are the answers to the first files, of so many, and at most the temporary beside them."""
    return [name for name in names if name != TEMPORARY] == [named(number, end="out") for number in range(1, count + 1)][:len([name for name in names if name != TEMPORARY])]


def same_answers(boxes, others):
    """Whether two outboxes have the same names with the same octets."""
    return boxes.names() == others.names() and all((boxes.outbox / name).read_bytes() == (others.outbox / name).read_bytes() for name in boxes.names())


def unstopped(cases, parent, boxes):
    """The boxes of a run over the same files that isn't stopped; in memory where that can be, which is faster."""
    others = Boxes(parent)
    if os.access(MEMORY, os.W_OK):
        others.outbox.rmdir()
        others.outbox = Path(tempfile.mkdtemp(dir=MEMORY))
    others.inbox.rmdir()
    os.symlink(boxes.inbox, others.inbox)
    cases.holds("a run that isn't stopped", (others.run(), len(others.names())), (DONE, len(os.listdir(boxes.inbox))))
    return others


def killed(cases, parent):
    """A hundred runs are killed, each at a moment of its own: after a certain answer was published, or while those before it are read. Each goes on where
    the one before it was stopped."""
    boxes = many(parent, MANY)
    chance = random.Random(SEED)
    begun, wrong = 0, []
    for goal in sorted(chance.sample(range(1, MANY), KILLS)):
        run = boxes.begun()
        answer, until = boxes.outbox / named(goal, end="out"), time.monotonic() + 120
        while not answer.exists() and run.poll() is None and time.monotonic() < until:
            time.sleep(0.0005)
        time.sleep(chance.uniform(0, 0.005))
        run.kill()
        begun += run.wait() == -signal.SIGKILL
        run.stderr.close()
        names = boxes.names()
        if not is_beginning(names, MANY):
            wrong.append(names[-3:])
    cases.holds("runs that were killed", begun, KILLS)
    cases.holds("each leaves the answers to the first files", wrong, [])
    left = len(boxes.names())
    cases.holds("the last of them left some files", (0 < left < MANY + 1, boxes.run()), (True, DONE))
    others = unstopped(cases, parent, boxes)
    cases.holds("the same answers as of a run that isn't killed", same_answers(boxes, others), True)
    cases.holds("no temporary is left", TEMPORARY in boxes.names(), False)
    shutil.rmtree(others.outbox)


def vanished(cases, parent):
    """The last file goes away while the others are answered."""
    boxes = many(parent, MANY)
    run = boxes.begun()
    while not (boxes.outbox / named(1, end="out")).exists() and run.poll() is None:
        time.sleep(0.0005)
    (boxes.inbox / named(MANY)).unlink()
    said = without_reason(run.stderr.read().decode())
    cases.holds("a file that vanishes", (run.wait(), said), (4, "roombox: device\n"))
    cases.holds("the answers to the others are there", boxes.names(), [named(number, end="out") for number in range(1, MANY)])
    run.stderr.close()


def full_disk(cases, parent):
    """A disk that becomes full, and has room later."""
    boxes = many(parent, 1_000)
    others = unstopped(cases, parent, boxes)
    if os.geteuid() == 0 and subprocess.run(["mount", "-t", "tmpfs", "-o", "size=512k", "none", str(boxes.outbox)], capture_output=True).returncode == 0:
        try:
            cases.holds("a full disk", boxes.run(), DEVICE)
            names = boxes.names()
            cases.holds("a full disk has the answers to the first files", (is_beginning(names, 1_000), 0 < len(names) < 1_000), (True, True))
            cases.holds("a full disk again", boxes.run(), DEVICE)
            subprocess.run(["mount", "-o", "remount,size=64m", str(boxes.outbox)], check=True)
            cases.holds("a disk with room", (boxes.run(), same_answers(boxes, others), TEMPORARY in boxes.names()), (DONE, True, False))
        finally:
            subprocess.run(["umount", str(boxes.outbox)], check=True)
    else:
        cases.lacks("a full disk", "a mount")
    shutil.rmtree(others.outbox)
    # no file may be longer than a hundred octets
    boxes = Boxes(parent)
    boxes.put(named(1), "")
    boxes.put(named(2), request("a", "20250310T090000Z", "DURATION:PT1H"))

    def limited():
        signal.signal(signal.SIGXFSZ, signal.SIG_IGN)
        resource.setrlimit(resource.RLIMIT_FSIZE, (100, resource.RLIM_INFINITY))

    cases.holds("files that may not grow", (boxes.run(preexec_fn=limited), [name for name in boxes.names() if name != TEMPORARY]), (DEVICE, [named(1, end="out")]))
    cases.holds("files that may grow", (boxes.run(), boxes.answers()), (DONE, {named(1, end="out"): "", named(2, end="out"): accepted("a")}))


def on_a_terminal(cases, parent):
    """Where standard error is a terminal it is said how many files were read, after each 1,000th; else nothing is."""
    boxes = many(parent, 2_500)
    boxes.put("notes", "")
    ours, theirs = pty.openpty()
    run = subprocess.Popen(boxes.words(), stdin=subprocess.DEVNULL, stdout=subprocess.PIPE, stderr=theirs)
    os.close(theirs)
    said = b""
    while True:
        try:
            piece = os.read(ours, 4096)
        except OSError:
            # the other end is closed
            break
        if not piece:
            break
        said += piece
    os.close(ours)
    cases.holds("on a terminal", (run.wait(), run.stdout.read(), said.decode().split("\r\n")), (0, b"", ["roombox: 1000 of 2500 files", "roombox: 2000 of 2500 files", ""]))
    run.stdout.close()


def main():
    cases = Cases()
    parts = [two_and_a_third, whole_and_empty, longest, order_of_names, books_over_all, one_yes_for_an_hour, comparisons, comparison_calls, other_names, of_no_use, without_leave, configurations, usage, temporaries, temporary_in_a_listing, order_of_calls,
             failing_calls, on_a_terminal, full_disk, vanished, killed]
    with tempfile.TemporaryDirectory(dir=sys.argv[2] if len(sys.argv) > 2 else None) as parent:
        os.chmod(parent, 0o755)
        for part in parts:
            part(cases, parent)
    cases.end()


if __name__ == "__main__":
    main()
