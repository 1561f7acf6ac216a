"""What `roombox box` costs over an inbox of 100,000 files, each one new REQUEST to one of 20 rooms, of which nine of ten are accepted and one is declined for
a clash: in memory, where the box itself counts, and on a disk beside a loop in C that makes the same calls of the system in the same order.

    python3 bench/boxes.py bin/roombox [FOLDER]

FOLDER is on the disk; where none is given, it is the system's for temporary files. A disk that syncs slowly gets fewer files: the row says how many.
"""

import os
import re
import shutil
import subprocess
import sys
import tempfile
import time
from datetime import timedelta
from pathlib import Path

from runs import run
from texts import FIRST, REQUEST, ROOM, crlf

ROOMS, FILES = 20, 100_000
MEMORY = Path("/dev/shm")
# In seconds; the bars of the growth, of the time beside the bare loop, and of a second run on the disk beside the first.
BAR, GROWTH, BESIDE_LOOP, AGAIN = 15, 12, 1.3, 0.2
# On a disk where they would take longer than so many seconds, a tenth of the files is enough.
LONGEST = 60
TRACED = 1_000


def request(number):
    """The next hour of its room; each tenth of a room asks for the hour of the one before it."""
    place = number // ROOMS
    start = FIRST + timedelta(hours=place - (place % 10 == 9))
    return crlf(REQUEST.format(number=number, room=ROOM.format(number % ROOMS), start=f"{start:%Y%m%dT%H%M%SZ}", extra=""))


class Boxes:
    """A configuration, an inbox of so many files and an empty outbox."""

    def __init__(self, parent, count):
        self.folder = Path(tempfile.mkdtemp(dir=parent))
        self.count = count
        self.config, self.inbox, self.outbox = (self.folder / name for name in ("config", "inbox", "outbox"))
        self.config.write_text("".join(f"room {ROOM.format(number)}\n" for number in range(ROOMS)))
        self.inbox.mkdir()
        self.outbox.mkdir()
        for number in range(count):
            (self.inbox / f"{number:08}-20250102T000000Z.ics").write_bytes(request(number))
        # what was written here isn't to be synced in the time of what is measured
        os.sync()

    def words(self, program):
        return [program, "box", str(self.config), str(self.inbox), str(self.outbox)]

    def seconds(self, program):
        """Of a run, and its peak."""
        ran = run(self.words(program))
        if (ran.status, ran.output) != (0, b""):
            sys.exit(f"box: status {ran.status}, {ran.output!r}")
        return ran.seconds, ran.peak

    def looked_at(self):
        """Sees that nine of ten are accepted, and the others declined; the mean length of an answer."""
        answers = [path.read_bytes() for path in self.outbox.iterdir()]
        words = [sum(b"PARTSTAT=" + word in answer for answer in answers) for word in (b"ACCEPTED", b"DECLINED")]
        if (len(answers), words) != (self.count, [self.count - self.count // 10, self.count // 10]):
            sys.exit(f"box: {len(answers)} answers, {words[0]} accepted and {words[1]} declined")
        return sum(map(len, answers)) // self.count

    def emptied(self):
        shutil.rmtree(self.outbox)
        self.outbox.mkdir()
        os.sync()


def built(folder):
    """The bare loop, if there is a compiler."""
    if not shutil.which("gcc"):
        return None
    loop = Path(folder, "loop")
    subprocess.run(["gcc", "-O2", "-o", str(loop), str(Path(__file__).with_name("loop.c"))], check=True)
    return str(loop)


def looped(loop, boxes, length):
    """The seconds of the bare loop over the same inbox."""
    begun = time.monotonic()
    subprocess.run([loop, str(boxes.inbox), str(boxes.outbox), str(length)], check=True)
    return time.monotonic() - begun


def calls(program, boxes):
    """How often each call of the system was made for a file, by strace."""
    counts = boxes.folder / "counts"
    subprocess.run(["strace", "-c", "-f", "-o", str(counts), *boxes.words(program)], check=True, stdin=subprocess.DEVNULL)
    rows = [line.split() for line in counts.read_text().splitlines() if re.match(r" *\d+\.\d+ ", line)]
    return {row[-1]: int(row[3]) / boxes.count for row in rows if row[-1] != "total" and int(row[3]) >= boxes.count // 2}


def boxes(program, disk=None):
    missed = 0
    print(f"\n{'an inbox of REQUESTs to 20 rooms':<52}{'files':>9}{'seconds':>9}{'peak MiB':>10}{'bar':>8}")

    def row(work, files, seconds, peak, bar="", holds=True):
        nonlocal missed
        missed += not holds
        verdict = "" if bar == "" else "  MET" if holds else "  MISSED"
        print(f"{work:<52}{files:>9}{seconds:>9.2f}{peak / 2**20 if peak else 0:>10.1f}{bar:>8}{verdict}", flush=True)

    length = 0
    if os.access(MEMORY, os.W_OK):
        found = {}
        with tempfile.TemporaryDirectory(dir=MEMORY) as parent:
            for count in (FILES // 10, FILES):
                made = Boxes(parent, count)
                found[count], peak = made.seconds(program)
                length = made.looked_at()
                growth = found[count] / found[FILES // 10]
                if count == FILES:
                    row("in memory", count, found[count], peak, BAR, found[count] <= BAR)
                    row(f"in memory, growth {growth:.1f} from a tenth", count, found[count], peak, GROWTH, growth <= GROWTH)
                else:
                    row("in memory", count, found[count], peak)
                again, peak = made.seconds(program)
                row("in memory, once more", count, again, peak, f"{found[count]:.2f}", again <= found[count])
                shutil.rmtree(made.folder)
    with tempfile.TemporaryDirectory(dir=disk) as parent:
        loop = built(parent)
        few = Boxes(parent, TRACED)
        few.seconds(program)
        length = length or few.looked_at()
        few.emptied()
        begun = time.monotonic()
        few.seconds(program)
        each = (time.monotonic() - begun) / TRACED
        count = FILES if FILES * each <= LONGEST else FILES // 10
        made = Boxes(parent, count)
        first, peak = made.seconds(program)
        again = made.seconds(program)[0]
        made.looked_at()
        if loop:
            made.emptied()
            bare = looped(loop, made, length)
            row(f"on the disk, {first / bare:.2f} of the bare loop", count, first, peak, BESIDE_LOOP, first <= BESIDE_LOOP * bare)
            row("the bare loop in C", count, bare, 0)
        else:
            row("on the disk (no gcc for the bare loop)", count, first, peak)
        row(f"on the disk, once more: {again / first:.2f} of the first", count, again, peak, AGAIN, again <= AGAIN * first)
        if shutil.which("strace"):
            few.emptied()
            for work, found in (("calls for a file", calls(program, few)), ("calls for a file, once more", calls(program, few))):
                print(f"{work}: " + ", ".join(f"{name} {often:.2f}" for name, often in sorted(found.items(), key=lambda it: -it[1])))
    return missed


if __name__ == "__main__":
    sys.exit(1 if boxes(*sys.argv[1:3]) else 0)
