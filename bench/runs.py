"""How the scripts beside this file run a program and measure it. What a run answers has to be as it should, else the script ends."""

import os
import subprocess
import sys
import tempfile
import time
from collections import namedtuple

from texts import IN_NEW_YORK, ROOM, SERIES, crlf, preamble

ACCEPTED, SENT = b"PARTSTAT=ACCEPTED", b"METHOD:REQUEST"
# A fast machine lists so many instances a second of the daily series in New York.
FAST, LISTED = 4_700_000, 95_000

# Seconds on the clock, those of the processor, the peak in octets, the status, and standard output.
Ran = namedtuple("Ran", "seconds processor peak status output")


def run(words, stream=subprocess.DEVNULL, folder=None):
    """One run, in a folder."""
    with tempfile.TemporaryFile() as output:
        begun = time.monotonic()
        child = subprocess.Popen(words, stdin=stream, stdout=output, cwd=folder)
        _, status, usage = os.wait4(child.pid, 0)
        seconds = time.monotonic() - begun
        child.returncode = os.waitstatus_to_exitcode(status)
        output.seek(0)
        return Ran(seconds, usage.ru_utime + usage.ru_stime, usage.ru_maxrss * 1024, child.returncode, output.read())


def fed(words, pieces):
    """One run with these pieces on standard input, and how many octets they are."""
    with tempfile.TemporaryFile() as stream:
        size = sum(stream.write(piece) for piece in pieces)
        stream.seek(0)
        return run(words, stream), size


def with_files(words, *texts):
    """One run with the path of a file for each of these texts, each a list of pieces, behind the first two words; and how many octets the files are."""
    with tempfile.TemporaryDirectory() as folder:
        paths, size = [os.path.join(folder, str(place)) for place in range(len(texts))], 0
        for path, pieces in zip(paths, texts):
            with open(path, "wb") as file:
                size += sum(file.write(piece) for piece in pieces)
        return run([*words[:2], *paths, *words[2:]]), size


def serve(program, pieces, accepted, word=ACCEPTED):
    """Seconds, peak octets and the size of a stream, whose answers have the word so often and refuse nothing."""
    ran, size = fed([program, "serve"], pieces)
    if ran.status != 0 or ran.output.count(word) != accepted or b"REFUSED" in ran.output:
        sys.exit(f"serve: status {ran.status}, {ran.output.count(word)} times {word} in place of {accepted}")
    return ran.seconds, ran.peak, size


def kept(program, requests, *words):
    """What a room keeps after these requests, and the seconds of that."""
    ran, _ = fed([program, "keep", *words, ROOM.format(0)], [preamble(1), *requests])
    if ran.status != 0:
        sys.exit(f"keep: status {ran.status}")
    return ran.seconds, ran.output


def checked(program, calendar, certificate):
    """Seconds, peak octets and the size of the checker's yes to a calendar, in pieces, and its certificate."""
    ran, size = with_files([program, "check", ROOM.format(0)], calendar, [certificate])
    if (ran.status, ran.output) != (0, b"yes\n"):
        sys.exit(f"check: status {ran.status}, {ran.output!r}")
    return ran.seconds, ran.peak, size - len(certificate)


def expand(program, series, first, count):
    """The first instances of a series, of which the first is known."""
    ran, _ = fed([program, "expand", "--limit", str(count)], [crlf(series)])
    lines = ran.output.count(b"\n")
    if ran.status != 0 or lines != count or not ran.output.startswith(f"{first} {first} 3600\n".encode()):
        sys.exit(f"expand: status {ran.status}, {lines} lines of {count}, {ran.output[:40]}")
    return ran.seconds, ran.peak


def in_utc(program, start, rule, count):
    """The first instances of a series in UTC."""
    return expand(program, SERIES.format(start=start, rule=rule), start, count)


def in_new_york(program, count):
    """The first instances of a daily series in New York. Before the first onset the clocks show what that ends."""
    return expand(program, IN_NEW_YORK.format(start="19700101T090000", rule="FREQ=DAILY"), "19700101T140000Z", count)


def share_of_fast(program):
    """How fast this machine is, beside a fast one."""
    return LISTED / in_new_york(program, LISTED)[0] / FAST


def least(measure, runs=5):
    return min(measure() for _ in range(runs))
