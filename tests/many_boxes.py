"""Boxes that share their rooms over an ordered log, by examples/many-boxes: what they answer, what their rooms keep, and what is there after the boxes, the
programs that feed them and the engine were killed.

    /usr/bin/python3 tests/many_boxes.py bin/roombox [--messages 50000] [--rooms 50] [--boxes 4] [--kills 60] [--figures] [--folder FOLDER]

It needs Debian's redis-server and python3-redis. It starts an engine of its own on loopback, in a folder
of its own. What is expected comes from one box of all rooms where there are 64 at most, and from `roombox keep` of the whole log where there are
more. FOLDER is where the folders are made; if none is given, it is memory.
"""

import argparse
import collections
import concurrent.futures
import contextlib
import os
import random
import shutil
import signal
import socket
import subprocess
import sys
import tempfile
import time
from pathlib import Path

from lib.cases import Cases
from lib.program import ROOT, of_arguments

EXAMPLE = ROOT / "examples" / "many-boxes"
MANY_BOXES = str(EXAMPLE / "many_boxes.py")
sys.path.insert(0, str(EXAMPLE))

from joining import joined, parts  # noqa: E402

SEED = 20_250_310
NOW = "20250102T000000Z"
# files an entry, and entries at once, in the run with kills: small, so that there is much to kill
FILES, ENTRIES = 100, 10


def missing():
    """What isn't there of what this needs."""
    with contextlib.suppress(ImportError):
        import redis  # noqa: F401
        return None if shutil.which("redis-server") else "redis-server"
    return "python3-redis (is this /usr/bin/python3?)"


# ---- messages


def crlf(lines):
    return "".join(line + "\r\n" for line in lines).encode()


def room_address(box, number):
    return f"mailto:room-{box}-{number}@example.com"


def host_address(box, number):
    return f"mailto:host-{box}-{number}@example.com"


def stamp(hours):
    """So many hours after the beginning of 2025, by months of 28 days."""
    day, hour = divmod(hours, 24)
    month, day = divmod(day, 28)
    year, month = divmod(month, 12)
    return f"{2025 + year}{month + 1:02}{day + 1:02}T{hour:02}0000Z"


class Messages:
    """Objects as many organisers send them to rooms of all boxes: new meetings, revisions, cancellations and series; what comes to organisers of the
    boxes, and to one whom nobody hosts; and objects with a fault."""

    def __init__(self, boxes, rooms, seed=SEED):
        self.boxes, self.rooms, self.random = boxes, rooms, random.Random(seed)
        self.meetings, self.stored, self.count = [], [], 0

    def some_rooms(self):
        several = self.random.choice((1, 1, 1, 1, 2, 3))
        return sorted({room_address(self.random.choice(self.boxes), self.random.randrange(self.rooms)) for _ in range(several)})

    def event(self, uid, sequence, organiser, rooms, start, rest):
        return ["BEGIN:VEVENT", f"UID:{uid}", f"SEQUENCE:{sequence}", "DTSTAMP:20250101T000000Z", f"ORGANIZER:{organiser}",
                *(f"ATTENDEE:{room}" for room in rooms), f"DTSTART:{stamp(start)}", *rest, "END:VEVENT"]

    def object(self, method, *event):
        return crlf(["BEGIN:VCALENDAR", "VERSION:2.0", *([f"METHOD:{method}"] if method else []), *event, "END:VCALENDAR"])

    def length(self, series):
        lines = [f"DURATION:PT{self.random.randint(1, 3)}H"]
        return lines + [f"RRULE:FREQ=WEEKLY;COUNT={self.random.randint(3, 20)}"] if series else lines

    def new(self, series):
        meeting = [f"meeting-{self.count}", 0, f"mailto:organiser-{self.random.randrange(500)}@example.org", self.some_rooms(), series]
        self.meetings.append(meeting)
        return self.request(meeting)

    def request(self, meeting):
        uid, sequence, organiser, rooms, series = meeting
        return self.object("REQUEST", *self.event(uid, sequence, organiser, rooms, self.random.randrange(40_000), self.length(series)))

    def revised(self):
        meeting = self.random.choice(self.meetings)
        meeting[1] += 1
        return self.request(meeting)

    def again(self):
        """An older revision, or the same once more, at another time."""
        return self.request(self.random.choice(self.meetings))

    def cancelled(self):
        uid, sequence, organiser, rooms, _ = meeting = self.random.choice(self.meetings)
        meeting[1] += 1
        return self.object("CANCEL", *self.event(uid, sequence + 1, organiser, rooms, 0, ["STATUS:CANCELLED"]))

    def store(self):
        organiser = host_address(self.random.choice(self.boxes), self.random.randrange(2))
        rooms = self.some_rooms()
        self.stored.append((f"stored-{self.count}", organiser, rooms))
        return self.object(None, *self.event(f"stored-{self.count}", 0, organiser, rooms, self.random.randrange(40_000), self.length(False)))

    def replied(self):
        """To what an organiser of a box has stored, also with a SEQUENCE that it hasn't sent (71)."""
        if not self.stored:
            return self.store()
        uid, organiser, rooms = self.random.choice(self.stored)
        sequence = self.random.choice((0, 0, 0, 5))
        return self.object("REPLY", "BEGIN:VEVENT", f"UID:{uid}", f"SEQUENCE:{sequence}", "DTSTAMP:20250101T000000Z", f"ORGANIZER:{organiser}",
                           f"ATTENDEE;PARTSTAT=ACCEPTED:{rooms[0]}", "END:VEVENT")

    def to_nobody(self):
        return self.object("REPLY", "BEGIN:VEVENT", "UID:x", "SEQUENCE:0", "DTSTAMP:20250101T000000Z", "ORGANIZER:mailto:nobody@example.net",
                           f"ATTENDEE;PARTSTAT=ACCEPTED:{room_address('a', 0)}", "END:VEVENT")

    def faulty(self):
        event = self.event(f"faulty-{self.count}", 0, "mailto:ann@example.org", self.some_rooms(), 5, self.length(False))
        return self.object("REQUEST", *(line for line in event if not line.startswith(self.random.choice(("UID", "DTSTAMP", "DTSTART")))))

    def next(self):
        self.count += 1
        kinds = [(lambda: self.new(False), 50), (lambda: self.new(True), 6), (self.revised, 15), (self.again, 4), (self.cancelled, 15),
                 (self.store, 3), (self.replied, 3), (self.to_nobody, 2), (self.faulty, 2)]
        if not self.meetings:
            return self.new(False)
        kind, = self.random.choices([kind for kind, _ in kinds], [weight for _, weight in kinds])
        return kind()


# ---- processes


class Engine:
    """A redis-server on loopback with a folder of its own, which has each entry on the disk before anyone is told of it."""

    def __init__(self, folder):
        self.folder = folder
        folder.mkdir()
        with socket.socket() as found:
            found.bind(("127.0.0.1", 0))
            self.port = found.getsockname()[1]
        self.start()

    def start(self):
        words = ["redis-server", "--port", str(self.port), "--bind", "127.0.0.1", "--dir", str(self.folder), "--appendonly", "yes", "--appendfsync", "always", "--save", ""]
        self.process = subprocess.Popen(words, stdin=subprocess.DEVNULL, stdout=subprocess.DEVNULL, stderr=subprocess.DEVNULL)
        for _ in range(600):
            with contextlib.suppress(OSError), socket.create_connection(("127.0.0.1", self.port), timeout=1):
                return
            time.sleep(0.05)
        raise SystemExit("redis-server doesn't start")

    def kill(self):
        self.process.kill()
        self.process.wait()

    def log(self, name):
        import log
        return log.Log(log.Engine(self.port), name)

    def entries(self, name):
        """All entries of a log: number and fields."""
        return self.log(name).entries("-", "+")

    def memory(self):
        import log
        return int(log.Engine(self.port).redis.info("memory")["used_memory"])


class Program:
    """A command of the example, which is started again if it was killed."""

    def __init__(self, folder, name, *words):
        self.name, self.words, self.errors = name, [sys.executable, MANY_BOXES, *map(str, words)], folder / f"{name}.errors"
        self.start()

    def start(self):
        with open(self.errors, "ab") as errors:
            self.process = subprocess.Popen(self.words, stdin=subprocess.DEVNULL, stdout=errors, stderr=errors, start_new_session=True)

    def runs(self):
        return self.process.poll() is None

    def children(self):
        with contextlib.suppress(OSError):
            return [int(child) for child in Path(f"/proc/{self.process.pid}/task/{self.process.pid}/children").read_text().split()]
        return []

    def said(self):
        return self.errors.read_text()


class Office:
    """The boxes, a folder of objects that are to be given, and the engine."""

    def __init__(self, parent, program, boxes, rooms, organisers=True):
        self.folder, self.program, self.boxes = Path(tempfile.mkdtemp(dir=parent)), program, boxes
        self.spool = self.folder / "spool"
        self.spool.mkdir()
        self.engine = Engine(self.folder / "engine")
        for box in boxes:
            for part in ("inbox", "outbox"):
                (self.folder / box / part).mkdir(parents=True)
            (self.folder / box / "config").write_text(self.config(box, rooms))

    @staticmethod
    def config(box, rooms):
        return "".join([f"room {room_address(box, n)}\n" for n in range(rooms)] + [f"organiser {host_address(box, n)}\n" for n in range(2)])

    def put(self, messages):
        for number, octets in enumerate(messages, 1):
            (self.spool / f"{number:08}").write_bytes(octets)

    def begun(self, files, entries, until, names=("give", "join", *"abcdefgh")):
        port = ["--port", self.engine.port, "--until", until]
        programs = []
        if "give" in names:
            programs.append(Program(self.folder, "give", "give", self.spool, "--files", files, *port))
        if "join" in names:
            programs.append(Program(self.folder, "join", "join", *self.boxes, *port))
        for box in self.boxes:
            if box in names:
                programs.append(Program(self.folder, f"serve-{box}", "serve", box, self.folder / box, "--roombox", self.program, "--entries", entries, *port))
        return programs

    def inbox(self, box):
        folder = self.folder / box / "inbox"
        return {name: (folder / name).read_bytes() for name in sorted(os.listdir(folder)) if name.endswith(".ics")}

    def answers(self, log):
        """The octets that a log of answers has for each file."""
        return {fields[b"stem"].decode() + ".out": fields[b"octets"] for _, fields in self.engine.entries(log)}

    def outbox(self, box):
        folder = self.folder / box / "outbox"
        return {name: (folder / name).read_bytes() for name in sorted(os.listdir(folder)) if name.endswith(".out")}

    def end(self):
        self.engine.kill()
        shutil.rmtree(self.folder)


def wait(cases, what, programs, seconds=1800):
    """Until all have ended."""
    until = time.monotonic() + seconds
    for one in programs:
        with contextlib.suppress(subprocess.TimeoutExpired):
            one.process.wait(max(0, until - time.monotonic()))
        if one.runs():
            os.killpg(one.process.pid, signal.SIGKILL)
        cases.holds(f"{what}: how {one.name} ends", (one.process.poll(), one.said()), (0, ""))


def killed(office, programs, kills, chance):
    """Kills the programs, what they run, and the engine, and starts them again, until all have ended. Says how often each was killed."""
    counts = collections.Counter()
    until = time.monotonic() + 1800
    while any(one.runs() for one in programs) and time.monotonic() < until:
        time.sleep(chance.uniform(0.02, 0.6))
        running = [one for one in programs if one.runs()]
        if not running or sum(counts.values()) >= kills:
            continue
        victim = chance.choice([*running, office.engine])
        if victim is office.engine:
            office.engine.kill()
            counts["engine"] += 1
            time.sleep(chance.uniform(0, 0.5))
            office.engine.start()
            continue
        children = victim.children()
        kind = chance.choice(("all", "program", "box")) if children else "program"
        if kind == "all":
            os.killpg(victim.process.pid, signal.SIGKILL)
        elif kind == "program":
            victim.process.kill()
        else:
            # the program whose box was killed ends with a status of its own, and says nothing
            with contextlib.suppress(ProcessLookupError):
                os.kill(children[0], signal.SIGKILL)
        victim.process.wait()
        counts[f"{victim.name.partition('-')[0]}, {kind}" if children else victim.name.partition("-")[0]] += 1
        time.sleep(chance.uniform(0, 0.2))
        victim.start()
    return counts


# ---- what has to hold


def told_apart(octets):
    """The objects of an answer, as often as they come, and its refusals by the number of the object."""
    objects, refused = parts(octets)
    return collections.Counter(objects), refused


def as_one_box(cases, parent, program, count):
    """Four boxes of 16 rooms, and one box of 64 that is fed the same files."""
    boxes, rooms = "abcd", 16
    messages = Messages(boxes, rooms)
    given = [messages.next() for _ in range(count)]
    # an object whose end is missing is an entry alone, and takes no other with it
    given[count // 2] = given[count // 2].replace(b"END:VCALENDAR\r\n", b"")
    office = Office(parent, program, boxes, rooms)
    office.put(given)
    entries = -(-(count // 2) // 50) + 1 + -(-(count - count // 2 - 1) // 50)
    wait(cases, "as one box", office.begun(50, 5, entries))
    one = office.folder / "one"
    for part in ("inbox", "outbox"):
        (one / part).mkdir(parents=True)
    (one / "config").write_text("".join(office.config(box, rooms) for box in "dbca"))
    for name, octets in office.inbox("a").items():
        (one / "inbox" / name).write_bytes(octets)
    ended = subprocess.run([program, "box", one / "config", one / "inbox", one / "outbox"], capture_output=True)
    cases.holds("how the one box ends", (ended.returncode, ended.stderr), (0, b""))
    together = office.answers("answers")
    alone = {name: (one / "outbox" / name).read_bytes() for name in sorted(os.listdir(one / "outbox")) if name.endswith(".out")}
    cases.holds("the files of the one box", sorted(together), sorted(alone))
    refused = collections.Counter()
    for name, octets in alone.items():
        cases.holds(f"what is joined in {name}", told_apart(together[name]), told_apart(octets))
        refused.update(told_apart(octets)[1].values())
    cases.holds("refusals of each kind", all(refused[number] for number in (b"70", b"71")), True)
    fetched = office.folder / "fetched"
    fetched.mkdir()
    port = ["--port", office.engine.port, "--until", entries]
    wait(cases, "fetch", [Program(office.folder, "fetch", "fetch", fetched, *port)])
    cases.holds("what is fetched", {name: (fetched / name).read_bytes() for name in sorted(os.listdir(fetched))}, together)
    print(f"as one box: {count} messages, {entries} entries, {sum(refused.values())} refusals, {sum(sum(told_apart(octets)[0].values()) for octets in alone.values())} answers")
    office.end()


def kept(program, preamble, stream, room):
    ended = subprocess.run([program, "keep", room], input=f"now {NOW}\n{preamble}\n".encode() + stream, capture_output=True)
    return ended.returncode, ended.stdout


def after_kills(cases, parent, program, options):
    """Each room keeps what it keeps in a box that took the whole log at once, and what it keeps alone."""
    boxes = "abcdefgh"[:options.boxes]
    messages = Messages(boxes, options.rooms, SEED + 1)
    given = [messages.next() for _ in range(options.messages)]
    office = Office(parent, program, boxes, options.rooms)
    office.put(given)
    until = -(-options.messages // FILES)
    began = time.monotonic()
    programs = office.begun(FILES, ENTRIES, until)
    counts = killed(office, programs, options.kills, random.Random(SEED))
    # a program whose box was killed has said nothing, and was started again
    wait(cases, "after kills", programs)
    took = time.monotonic() - began
    print(f"killed: {dict(counts)}; {took:.0f} seconds")
    log = office.engine.entries("objects")
    cases.holds("the numbers of the log", [number for number, _ in log], list(range(1, until + 1)))
    names = [name for _, fields in log for name in fields[b"names"].split(b"\n")]
    cases.holds("each message is in the log once", names, [b"%08d" % number for number in range(1, options.messages + 1)])
    whole = b"\r\n".join(fields[b"octets"] for _, fields in log)
    cases.holds("the log has what was given", whole == b"\r\n".join(given), True)
    wanted = {f"{number:08}-{fields[b'moment'].decode()}.ics": fields[b"octets"] for number, fields in log}
    answers = []
    for box in boxes:
        inbox, outbox = office.inbox(box), office.outbox(box)
        cases.holds(f"the inbox of {box} is the log", inbox == wanted, True)
        sent = office.answers(f"answers:{box}")
        cases.holds(f"what {box} sent is its outbox", sent == outbox, True)
        fresh = office.folder / f"fresh-{box}"
        fresh.mkdir()
        subprocess.run([program, "box", office.folder / box / "config", office.folder / box / "inbox", fresh], check=True)
        cases.holds(f"the outbox of {box} is that of a run that nobody stopped", {name: (fresh / name).read_bytes() for name in os.listdir(fresh)} == outbox, True)
        answers.append(outbox)
    cases.holds("the joined answers", office.answers("answers") == {name: joined([outbox[name] for outbox in answers]) for name in answers[0]}, True)
    began = time.monotonic()
    with concurrent.futures.ThreadPoolExecutor(max(1, (os.cpu_count() or 1))) as pool:
        jobs = []
        for box in boxes:
            config = (office.folder / box / "config").read_text()
            own = b"\r\n".join(office.inbox(box).values())
            cases.holds(f"{box} has the whole log", own == whole, True)
            for number in range(options.rooms):
                room = room_address(box, number)
                jobs.append((room, pool.submit(kept, program, config, own, room), pool.submit(kept, program, f"room {room}\n", whole, room)))
        events = 0
        for room, in_box, alone in jobs:
            status, octets = in_box.result()
            cases.holds(f"what {room} keeps: status", status, 0)
            cases.holds(f"what {room} keeps alone", alone.result() == (status, octets), True)
            events += octets.count(b"BEGIN:VEVENT")
    print(f"kept: {len(jobs)} rooms, {events} events, compared in {time.monotonic() - began:.0f} seconds")
    cases.holds("the rooms keep something", events > len(jobs), True)
    office.end()


def figures(cases, parent, program, options):
    """Messages a second, from a log that is there until the last answer is joined."""
    for count in (1, 2, 4):
        boxes = "abcd"[:count]
        messages = Messages(boxes, options.rooms, SEED + 2)
        office = Office(parent, program, boxes, options.rooms)
        office.put([messages.next() for _ in range(options.messages)])
        until = -(-options.messages // 500)
        began = time.monotonic()
        wait(cases, "figures", office.begun(500, 20, until, ("give",)))
        given = time.monotonic()
        wait(cases, "figures", office.begun(500, 20, until, ("join", *boxes)))
        ended = time.monotonic()
        runs = time.monotonic()
        subprocess.run([program, "box", office.folder / "a" / "config", office.folder / "a" / "inbox", office.folder / "a" / "outbox"], check=True)
        run = time.monotonic() - runs
        print(f"{count} boxes of {options.rooms} rooms: {options.messages} messages given in {given - began:.1f} s ({options.messages / (given - began):.0f} a second), "
              f"answered in {ended - given:.1f} s ({options.messages / (ended - given):.0f} a second); a run over all {run:.1f} s; the engine has {office.engine.memory() >> 20} MiB")
        office.end()


def main():
    parser = argparse.ArgumentParser(description=__doc__, formatter_class=argparse.RawDescriptionHelpFormatter)
    parser.add_argument("program", nargs="?")
    parser.add_argument("--messages", type=int, default=50_000)
    parser.add_argument("--rooms", type=int, default=50)
    parser.add_argument("--boxes", type=int, default=4)
    parser.add_argument("--kills", type=int, default=60)
    parser.add_argument("--figures", action="store_true", help="only the figures")
    parser.add_argument("--folder", default="/dev/shm")
    options = parser.parse_args()
    cases, program, lacks = Cases(), of_arguments(), missing()
    if lacks:
        cases.lacks("boxes over a log", lacks)
        cases.end()
    with tempfile.TemporaryDirectory(dir=options.folder) as parent:
        if options.figures:
            figures(cases, parent, program, options)
        else:
            as_one_box(cases, parent, program, min(2_000, options.messages))
            after_kills(cases, parent, program, options)
    cases.end()


if __name__ == "__main__":
    main()
