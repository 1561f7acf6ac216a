"""Brings the mails of a maildir to a box of roombox, and its answers to people by mail (RFC 6047). README.md, beside it, says how it is set up.

    python3 roombox_mail.py take BOX MAILDIR
    python3 roombox_mail.py send BOX --sender ADDRESS (--sendmail PROGRAM | --maildir MAILDIR) [--roombox PROGRAM] [--zones FILE]

`take` gives each object of each new mail a name in BOX/inbox, and moves the mail from `new` to `cur`. `send` makes mails of each new file of BOX/outbox
and hands them over. Between the two `roombox box` is run. Each does what is left of a run that was stopped first, so that no mail is lost and none is
sent twice. The status is 0, or 1 if something is left that the next run tries again; standard error says what.
"""

import argparse
import base64
import json
import os
import re
import secrets
import shutil
import subprocess
import sys
import time
from collections import Counter
from pathlib import Path

from adapting import Roombox
from answers import mail_of_faults, mails_of
from files import PART, Box, locked, octets_of, put, put_for_good, sync, write_synced
from mails import read_mail

# how many mails are taken, or answers are made mails of, before the next is begun; and the octets of mails after which no more are taken with them
AT_ONCE, OCTETS_AT_ONCE = 100, 16_777_216
STEM = re.compile(r"[0-9]{8}-[0-9]{8}T[0-9]{6}Z")
MOST_FILES = 99_999_999
# The shell goes on if this program is killed: a mail that was handed over is out of the queue.
HAND_OVER = '"$@" < "$QUEUED" && rm -- "$QUEUED"'


class Fault(Exception):
    """What ends a run, told in a line."""


# ---- taking mails


def arrival(name):
    """By this the mails of a maildir are in the order in which they came: the second and the microsecond that their names say, as far as they do."""
    second, fraction = re.match(r"(\d*)", name)[1], re.search(r"M(\d+)", name)
    return int(second or 0), int(fraction[1] if fraction else 0), name


def new_mails(maildir):
    return [maildir / "new" / name for name in sorted(os.listdir(maildir / "new"), key=arrival) if not name.startswith(".")]


def batches(paths):
    """The paths in their order, so many at once that what they hold fits in memory."""
    batch, octets = [], 0
    for path in paths:
        size = path.stat().st_size if path.exists() else 0
        if batch and (len(batch) == AT_ONCE or octets + size > OCTETS_AT_ONCE):
            yield batch
            batch, octets = [], 0
        batch.append(path)
        octets += size
    if batch:
        yield batch


def fresh_mails(box, paths, counts):
    """The mails that weren't taken in yet and bring something, each once; counts what the others are."""
    fresh = {}
    for octets in filter(None, map(octets_of, paths)):
        mail = read_mail(octets)
        if mail is None:
            counts["that can't be read"] += 1
        elif not mail.objects and not mail.faults:
            counts["without a calendar"] += 1
        elif mail.key in fresh or (box.known / mail.key).exists():
            counts["known already"] += 1
        else:
            fresh[mail.key] = mail
            counts["with objects for the box" if mail.objects else "with a calendar of no use"] += 1
    return list(fresh.values())


def take(box, maildir):
    """Takes in all new mails, and says how many of which kind they were."""
    if not (maildir / "new").is_dir():
        raise Fault(f"{maildir} is no maildir yet: the mail server makes it when the first mail comes")
    counts = Counter()
    (maildir / "cur").mkdir(exist_ok=True)
    for paths in batches(new_mails(maildir)):
        finish_taking(box, list(map(as_taken, fresh_mails(box, paths, counts))))
        for path in paths:
            set_aside(path, maildir)
    print(f"{counts.total()} mails", *(f"{count} {what}" for what, count in sorted(counts.items())), sep=", ")
    return 0


def set_aside(path, maildir):
    """The mail is in `cur` then, as one that was seen."""
    try:
        os.rename(path, maildir / "cur" / (path.name.split(":2,")[0] + ":2,S"))
    except FileNotFoundError:
        # somebody else has moved it
        pass


def as_taken(mail):
    """What the file `taking` says of a mail. No object has a name yet."""
    objects = [[None, base64.b64encode(octets).decode()] for octets in mail.objects]
    return {"key": mail.key, "sender": mail.sender, "subject": mail.subject, "message_id": mail.message_id, "faults": mail.faults, "objects": objects}


# ---- what a stop may not leave half done


def finish_taking(box, taken):
    """Does what is left to do of mails that are taken in. It is noted first, so that another run can go on with it; each step may be done already."""
    if not taken:
        return
    with locked(box.inbox):
        name_objects(box, taken)
        put_for_good(box.taking, json.dumps(taken).encode())
        for mail in taken:
            for stem, octets in mail["objects"]:
                put(box.inbox / f"{stem}.ics", base64.b64decode(octets))
        sync(box.inbox)
    for mail in taken:
        note(box, mail)
    for folder in (box.senders, box.faults, box.known):
        sync(folder)
    box.taking.unlink()
    sync(box.mail)


def name_objects(box, taken):
    """Gives each object that isn't in the inbox yet a name behind all that are there, and behind all that were answered before."""
    last = max([*box.stems(box.inbox, ".ics"), box.sent_until()])
    number, moment = int(last[:8] or 0), time.strftime("%Y%m%dT%H%M%SZ", time.gmtime())
    for mail in taken:
        for named in mail["objects"]:
            if named[0] is None or box.message(named[0]) != base64.b64decode(named[1]):
                number += 1
                named[0] = f"{number:08}-{moment}"
    if number > MOST_FILES:
        raise Fault("the inbox has no number left: begin a new one")


def note(box, mail):
    """Leaves whom each object came from, and that the mail is known. If it has no object, what is wrong is told without one."""
    stems = [stem for stem, _ in mail["objects"]]
    noted = json.dumps({name: mail[name] for name in ("sender", "subject", "message_id", "faults")} | {"stems": stems}).encode()
    for stem in stems:
        write_synced(box.senders / stem, noted)
    if not stems:
        write_synced(box.faults / mail["key"], noted)
    (box.known / mail["key"]).touch()


def queue(box, name, mails):
    """Puts the mails, each under its own name, into a folder of the queue: all of them or none."""
    part = box.queue / PART
    shutil.rmtree(part, ignore_errors=True)
    part.mkdir()
    for own, octets in mails:
        write_synced(part / own, octets)
    sync(part)
    os.rename(part, box.queue / name)
    sync(box.queue)


def queued(box):
    """The folders of the queue, those of answers in their order."""
    return sorted(folder for folder in box.queue.iterdir() if folder.name != PART)


# ---- sending mails


def queue_answers(box, sender, roombox):
    """Puts the mails of each new answer into the queue. The note of it may have been lost by a stop: then the queue shows it."""
    until = max([box.sent_until(), *(folder.name for folder in queued(box) if STEM.fullmatch(folder.name))])
    new = [stem for stem in box.stems(box.outbox, ".out") if stem > until]
    for begin in range(0, len(new), AT_ONCE):
        stems = new[begin:begin + AT_ONCE]
        mails = [(f"{stem}.{place:03}", octets) for stem in stems for place, octets in enumerate(mails_of(box, stem, sender, roombox), 1)]
        if mails:
            queue(box, stems[-1], mails)
        until = stems[-1]
        put_for_good(box.sent, until.encode())
    return len(new)


def queue_faults(box, sender):
    """The same for the mails that had no object."""
    for path in sorted(box.faults.iterdir()):
        # a stop may have come after the queue had it
        mail = mail_of_faults(box, json.loads(path.read_bytes()), sender)
        if mail and not (box.queue / path.name).exists():
            queue(box, path.name, [(path.name, mail)])
        path.unlink()
    sync(box.faults)


def hand_over(box, hand):
    """Hands over what is in the queue; what can't be handed over stays there. Gives how many mails went and how many stay."""
    went = stay = 0
    for folder in queued(box):
        for path in sorted(folder.iterdir()):
            if hand(path):
                went += 1
                sync(folder)
            else:
                stay += 1
        if not os.listdir(folder):
            folder.rmdir()
    return went, stay


def by_sendmail(program, sender, lock):
    """Hands a mail to a program such as sendmail. The lock stays until it has ended, also if this program is killed."""
    if not shutil.which(program):
        raise Fault(f"{program} isn't a program")

    def hand(path):
        words = ["sh", "-c", HAND_OVER, "sh", program, "-i", "-t", "-f", sender]
        return subprocess.run(words, env={**os.environ, "QUEUED": str(path)}, start_new_session=True, pass_fds=(lock,)).returncode == 0

    return hand


def by_maildir(maildir):
    """Moves a mail into a maildir, which is on the disk of the box: so it is in one of the two whatever stops."""
    for folder in ("tmp", "new", "cur"):
        (maildir / folder).mkdir(parents=True, exist_ok=True)

    def hand(path):
        os.rename(path, maildir / "new" / f"{int(time.time())}.{path.name}.{secrets.token_hex(8)}")
        return True

    return hand


def send(box, words, lock):
    """Makes mails of each new answer, and hands over what is in the queue."""
    hand = by_sendmail(words.sendmail, words.sender, lock) if words.sendmail else by_maildir(words.maildir)
    answers = queue_answers(box, words.sender, Roombox(words.roombox, words.zones))
    queue_faults(box, words.sender)
    went, stay = hand_over(box, hand)
    print(f"{answers} answers, {went} mails handed over, {stay} left")
    return 1 if stay else 0


# ---- the command line


def command_line():
    parser = argparse.ArgumentParser(description="Brings mails to a box of roombox, and its answers to people.")
    commands = parser.add_subparsers(dest="command", required=True)
    taking = commands.add_parser("take", help="give each object of each new mail a name in BOX/inbox")
    sending = commands.add_parser("send", help="make mails of each new file of BOX/outbox, and hand them over")
    for command in (taking, sending):
        command.add_argument("box", metavar="BOX", help="the folder with config, inbox and outbox")
    taking.add_argument("maildir", metavar="MAILDIR", type=Path)
    sending.add_argument("--sender", required=True, help="the address of the box itself, which writes to people")
    sending.add_argument("--roombox", default="roombox", metavar="PROGRAM", help="the program that explains refusals, and tells answers in the words of the mails")
    sending.add_argument("--zones", metavar="FILE", help="what `roombox box --adapt` is given so")
    way = sending.add_mutually_exclusive_group(required=True)
    way.add_argument("--sendmail", metavar="PROGRAM", help="a program that is called as sendmail is")
    way.add_argument("--maildir", metavar="MAILDIR", type=Path, help="a maildir on the disk of BOX")
    return parser.parse_args()


def main():
    words = command_line()
    try:
        box = Box(words.box)
        box.prepare()
        with locked(box.mail) as lock:
            finish_taking(box, json.loads(octets_of(box.taking) or b"[]"))
            return take(box, words.maildir) if words.command == "take" else send(box, words, lock)
    except (OSError, Fault, subprocess.CalledProcessError) as fault:
        print(f"roombox_mail: {fault}", file=sys.stderr)
        return 1


if __name__ == "__main__":
    sys.exit(main())
