"""Several boxes of folders that take the same objects from an ordered log, and answer as one box would that hosts all their rooms and organisers.

    many_boxes.py give SPOOL --port PORT                  the files of a folder go into the log, and are taken away
    many_boxes.py serve NAME FOLDER --port PORT           the box in this folder answers what is in the log
    many_boxes.py join NAME NAME .. --port PORT           what all boxes answer, as one box would
    many_boxes.py fetch FOLDER --port PORT                the joined answers, as files of a folder

Each of them goes on until it is stopped, or with --until NUMBER until the entry of this number is done. It may be stopped and killed at any moment, and run
again: what is in the log, in the inbox and in the outbox is all that it knows.
"""

import argparse
import contextlib
import os
import subprocess
import sys
import time
from pathlib import Path

sys.path.insert(0, str(Path(__file__).resolve().parent.parent / "mail"))

from files import Box, locked, octets_of, put, put_for_good, sync  # noqa: E402

from joining import joined  # noqa: E402
from log import Engine, Log  # noqa: E402

# the log of objects, and that of joined answers; a box has its own besides
OBJECTS, ANSWERS = "objects", "answers"
# an entry has so many files and octets at most, but one file at least
MOST_FILES, MOST_OCTETS = 500, 1_000_000
# so many entries are taken at once
AT_ONCE = 20
# how long to wait where there is nothing new, in seconds
PAUSE = 0.1
# how an object ends that is whole: nothing of it can run on into the next
WHOLE = (b"\nEND:VCALENDAR\n", b"\nEND:VCALENDAR\r\n")


def number_of(stem):
    """The number of a file of a box, from its name."""
    return int(stem[:8])


def last_number(stems):
    return number_of(stems[-1]) if stems else 0


# ---- give: from a folder into the log


def names_of(spool):
    """The files that wait, in the order in which they are given."""
    return sorted(name for name in os.listdir(spool) if not name.startswith(".") and "\n" not in name)


def batch(spool, names, most):
    """The files that make the next entry, with their octets: as many as fit. One that may run on into the next is an entry alone."""
    taken, size = [], 0
    for name in names[:most]:
        octets = octets_of(spool / name)
        alone = not octets.endswith(WHOLE)
        if taken and (alone or size + len(octets) > MOST_OCTETS):
            break
        taken.append((name, octets))
        size += len(octets)
        if alone:
            break
    return taken


def take_away(spool, names):
    for name in names:
        with contextlib.suppress(FileNotFoundError):
            os.unlink(spool / name)
    sync(spool)


def given(fields):
    """The names of the files that make an entry."""
    return fields[b"names"].decode().split("\n") if fields else []


def give(arguments, engine):
    """Each file is in the log once: the names of the last entry are taken away first, since a stop may have come before that."""
    spool, log = Path(arguments.folder), Log(engine, OBJECTS)
    with locked(spool):
        last, fields = log.last()
        take_away(spool, given(fields))
        while not arguments.until or last < arguments.until:
            taken = batch(spool, names_of(spool), arguments.files)
            if not taken:
                time.sleep(PAUSE)
                continue
            names = "\n".join(name for name, _ in taken)
            moment = max(fields.get(b"moment", b"").decode(), time.strftime("%Y%m%dT%H%M%SZ", time.gmtime()))
            log.add(last + 1, moment=moment, names=names, octets=b"\r\n".join(octets for _, octets in taken))
            last, fields = log.last()
            take_away(spool, given(fields))


# ---- serve: from the log into an inbox, and from an outbox into the box's own log


def take(box, log, most):
    """The entries behind the last file of the inbox become files, under its lock. Each has the number and the moment of its entry."""
    last = last_number(box.stems(box.inbox, ".ics"))
    for number, fields in log.after(last, most):
        if number != last + 1:
            raise SystemExit(f"the log has no entry {last + 1}")
        put(box.inbox / f"{number:08}-{fields[b'moment'].decode()}.ics", fields[b"octets"])
        last = number
    sync(box.inbox)
    return last


def send(box, log):
    """The answers behind the last one that was sent, in order."""
    last, _ = log.last()
    for stem in box.stems(box.outbox, ".out"):
        if number_of(stem) > last:
            log.add(number_of(stem), stem=stem, octets=box.answer(stem))
    return last_number(box.stems(box.outbox, ".out"))


def serve(arguments, engine):
    box = Box(arguments.folder)
    objects, answers = Log(engine, OBJECTS), Log(engine, f"{ANSWERS}:{arguments.name}")
    words = [arguments.roombox, "box", *arguments.option, box.config, box.inbox, box.outbox]
    done = send(box, answers)
    while not arguments.until or done < arguments.until:
        with locked(box.inbox) as lock:
            if take(box, objects, arguments.entries) > done:
                # the copy of the lock keeps others out for as long as the run goes on, also if this program is killed
                status = subprocess.run(words, stdin=subprocess.DEVNULL, pass_fds=[lock]).returncode
                if status:
                    raise SystemExit(status)
        before, done = done, send(box, answers)
        if done == before:
            time.sleep(PAUSE)


# ---- join: the answers of all boxes, as one


def join(arguments, engine):
    boxes = [Log(engine, f"{ANSWERS}:{name}") for name in arguments.names]
    whole = Log(engine, ANSWERS)
    last, _ = whole.last()
    while not arguments.until or last < arguments.until:
        several = [box.after(last, AT_ONCE) for box in boxes]
        for entries in zip(*several):
            numbers = {number for number, _ in entries}
            if numbers != {last + 1}:
                raise SystemExit(f"not each box has an answer {last + 1}")
            octets = joined([fields[b"octets"] for _, fields in entries])
            whole.add(last + 1, stem=entries[0][1][b"stem"], octets=octets)
            last += 1
        if not all(several):
            time.sleep(PAUSE)


# ---- fetch: the joined answers as files


def fetch(arguments, engine):
    folder, whole = Path(arguments.folder), Log(engine, ANSWERS)
    last = max((int(name[:8]) for name in os.listdir(folder) if name.endswith(".out")), default=0)
    while not arguments.until or last < arguments.until:
        entries = whole.after(last, AT_ONCE)
        for number, fields in entries:
            put_for_good(folder / f"{fields[b'stem'].decode()}.out", fields[b"octets"])
            last = number
        if not entries:
            time.sleep(PAUSE)


def arguments_of(words):
    parser = argparse.ArgumentParser(description=__doc__, formatter_class=argparse.RawDescriptionHelpFormatter)
    commands = parser.add_subparsers(dest="command", required=True)
    of = {name: commands.add_parser(name) for name in ("give", "serve", "join", "fetch")}
    of["give"].add_argument("folder", help="objects as files, whose names are never used again")
    of["give"].add_argument("--files", type=int, default=MOST_FILES, help="so many at most make an entry")
    of["serve"].add_argument("name", help="a name of its own for each box")
    of["serve"].add_argument("folder", help="the box: config, inbox, outbox")
    of["serve"].add_argument("--entries", type=int, default=AT_ONCE, help="so many at most are taken before a run")
    of["serve"].add_argument("--roombox", default="roombox", help="the program")
    of["serve"].add_argument("--option", action="append", default=[], help="an option of `roombox box`, as --option=--adapt")
    of["join"].add_argument("names", nargs="+", help="the names of all boxes")
    of["fetch"].add_argument("folder", help="where the answers go")
    for command in of.values():
        command.add_argument("--port", type=int, default=6379, help="where the engine listens on this machine")
        command.add_argument("--until", type=int, default=0, help="ends behind the entry of this number")
    return parser.parse_args(words)


def main():
    arguments = arguments_of(sys.argv[1:])
    commands = {"give": give, "serve": serve, "join": join, "fetch": fetch}
    commands[arguments.command](arguments, Engine(arguments.port))


if __name__ == "__main__":
    main()
