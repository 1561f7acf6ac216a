"""Files that a stop at any moment leaves whole: each is written beside its place, synced and then renamed."""

import contextlib
import fcntl
import os
import re
from pathlib import Path

# the name of a file that isn't whole yet, in each folder
PART = ".part"


def sync(folder):
    """After it a stop leaves the names that the folder has."""
    opened = os.open(folder, os.O_RDONLY | os.O_DIRECTORY)
    try:
        os.fsync(opened)
    finally:
        os.close(opened)


def write_synced(path, octets):
    with open(path, "wb") as file:
        file.write(octets)
        file.flush()
        os.fsync(file.fileno())


def put(path, octets):
    """Gives the octets this name, whole or not at all. A stop may take the name away until the folder is synced."""
    part = path.with_name(PART)
    write_synced(part, octets)
    os.rename(part, path)


def put_for_good(path, octets):
    put(path, octets)
    sync(path.parent)


def octets_of(path):
    """None if no file has this name."""
    try:
        return path.read_bytes()
    except FileNotFoundError:
        return None


@contextlib.contextmanager
def locked(folder):
    """Waits until nobody else has the folder locked, and locks it. Gives the descriptor whose copies hold the lock."""
    opened = os.open(folder, os.O_RDONLY | os.O_DIRECTORY)
    try:
        fcntl.flock(opened, fcntl.LOCK_EX)
        yield opened
    finally:
        os.close(opened)


class Box:
    """The folder of a box: its `config`, its `inbox` and `outbox`, and `mail`, where this program keeps what it has done.

    `mail/known` has an empty file for each mail that was taken in, `mail/senders` a file for each object of one, `mail/faults` one for each mail without
    objects whose sender is to be told. `mail/taking` has the mails that are being taken in, `mail/queue` folders of mails that are to be handed
    over, and `mail/sent` the name of the last answer whose mails were put there."""

    def __init__(self, folder):
        self.folder = Path(folder).resolve()
        self.config, self.inbox, self.outbox = (self.folder / name for name in ("config", "inbox", "outbox"))
        mail = self.folder / "mail"
        self.mail, self.known, self.senders = mail, mail / "known", mail / "senders"
        self.faults, self.queue = mail / "faults", mail / "queue"
        self.taking, self.sent = mail / "taking", mail / "sent"

    def prepare(self):
        for folder in (self.known, self.senders, self.faults, self.queue):
            folder.mkdir(parents=True, exist_ok=True)

    def rooms(self):
        """The addresses of its rooms, in lower case."""
        return [words[1].lower() for words in map(str.split, self.config.read_text(encoding="utf-8").splitlines()) if words[:1] == ["room"]]

    def stems(self, folder, ending):
        """The names of the box's files there, without their ending, in the order in which it reads them."""
        form = re.compile(r"[0-9]{8}-[0-9]{8}T[0-9]{6}Z" + re.escape(ending))
        return sorted(name.removesuffix(ending) for name in os.listdir(folder) if form.fullmatch(name))

    def message(self, stem):
        return octets_of(self.inbox / f"{stem}.ics") or b""

    def answer(self, stem):
        return octets_of(self.outbox / f"{stem}.out") or b""

    def sent_until(self):
        """The last answer whose mails were made; before all others if none was."""
        return (octets_of(self.sent) or b"").decode().strip()
