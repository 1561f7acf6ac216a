"""Kills a box of folders again and again, moves its folders by tar to other places, and lets other users go on there, with another locale and time zone.

    python3 tests/moved_box.py bin/roombox [--moves 12] [--kills 6] [--seed 1]

The messages are those of tests/recorded_day.py, one or two a file, and some spoiled ones; they come a few at a time, as docs/OPERATING.md says: a file is written under another
name, and renamed under the lock of the inbox. The outbox at the end has to be, octet by octet, that of a box that got all of the messages at once, was never killed and never moved; and at
each stop what is in the outbox are whole answers of that one, without a gap. So has one that was moved without its outbox. It needs root, for
other users.
"""

import argparse
import fcntl
import os
import random
import shutil
import subprocess
import tempfile
import time
from pathlib import Path

import recorded_day
from lib.cases import Cases
from lib.program import MEMORY, of_arguments

TEMPORARY = ".roombox-temporary"
NAMES = ["office", "a room with spaces", "Büro №2", "-", "x" * 200, "deep/er/and/deeper"]
LOCALES = ["C", "tr_TR.UTF-8", "de_DE.ISO-8859-1", "ja_JP.eucJP", "POSIX"]
CLOCKS = ["UTC", "Asia/Kathmandu", "America/St_Johns", "Pacific/Kiritimati", ":nowhere"]
USERS = [{}, {"user": 65_534, "group": 65_534, "extra_groups": []}, {"user": 12_345, "group": 23_456, "extra_groups": []}]
CONFIG = recorded_day.PREAMBLE.split("\n", 1)[1].rstrip("\n") + "\n"


def messages(chance, seed):
    """The texts of the files, in their order: a day's, repeats, a few that are refused, and one that is empty."""
    day = recorded_day.Day(random.Random(f"day {seed}"))
    people, _ = recorded_day.conversation(random.Random(f"people {seed}"))
    texts = recorded_day.STORES + recorded_day.in_order(chance, [message.text() for message in day.messages] + people)
    texts += [recorded_day.SPOILED, "", "BEGIN:VCALENDAR\r\nVERSION:2.0\r\n"]
    rest = texts[len(recorded_day.STORES):]
    chance.shuffle(rest)
    texts[len(recorded_day.STORES):] = rest
    return [text + "\r\n" + texts[-at] if at % 13 == 0 and at else text for at, text in enumerate(texts)]


def name_of(number):
    """Numbers ascend, moments don't have to."""
    return f"{number:08}-202503{3 + number % 5:02}T{number % 24:02}0000Z.ics"


class Box:
    """A box in some place of some user."""

    def __init__(self, folder, program):
        self.folder, self.program = Path(folder), program
        self.user, self.environment = {}, dict(os.environ)

    def made(self):
        for name in ("inbox", "outbox"):
            (self.folder / name).mkdir(parents=True)
        (self.folder / "config").write_text(CONFIG, newline="")
        return self

    def put(self, number, text):
        part = self.folder / "inbox" / f".{number:08}.part"
        with open(part, "w", newline="") as file:
            file.write(text)
            file.flush()
            os.fsync(file.fileno())
        os.chown(part, self.user.get("user", -1), self.user.get("group", -1))
        lock = os.open(self.folder / "inbox", os.O_RDONLY)
        fcntl.flock(lock, fcntl.LOCK_EX)
        os.rename(part, self.folder / "inbox" / name_of(number))
        os.close(lock)

    def begun(self):
        return subprocess.Popen(self.words(), cwd=self.folder, env=self.environment, stdin=subprocess.DEVNULL, stdout=subprocess.DEVNULL, stderr=subprocess.PIPE, **self.user)

    def words(self):
        return [self.program, "box", "--adapt", "config", "inbox", "outbox"]

    def run(self):
        """Under the lock of the inbox, as docs/OPERATING.md says."""
        ended = subprocess.run(["flock", "inbox", *self.words()], cwd=self.folder, env=self.environment, stdin=subprocess.DEVNULL, capture_output=True, timeout=300, **self.user)
        return ended.returncode, ended.stdout.decode(), ended.stderr.decode()

    def killed(self, seconds):
        """Begins a run and kills it after this time; whether it was killed."""
        run = self.begun()
        time.sleep(seconds)
        run.kill()
        run.communicate()
        return run.returncode == -9

    def answers(self):
        return {name: (self.folder / "outbox" / name).read_bytes() for name in sorted(os.listdir(self.folder / "outbox")) if name != TEMPORARY}

    def moved(self, folder, user, environment, without=()):
        """By tar into another folder, which is another user's then; the old one is gone."""
        folder = Path(folder)
        folder.mkdir(parents=True)
        packed = subprocess.Popen(["tar", "-C", str(self.folder), *(f"--exclude=./{name}/*" for name in without), "-cf", "-", "."], stdout=subprocess.PIPE)
        subprocess.run(["tar", "-C", str(folder), "--no-same-owner", "-m", "-xf", "-"], stdin=packed.stdout, check=True)
        packed.stdout.close()
        if packed.wait():
            raise RuntimeError("tar")
        shutil.rmtree(self.folder)
        other = Box(folder, self.program)
        other.user, other.environment = user, environment
        if user:
            subprocess.run(["chown", "-R", f"{user['user']}:{user['group']}", str(folder)], check=True)
        return other


def places(parents, chance, moves):
    """Where the box is moved, and as whom it goes on there; other disks, names, locales, time zones and users."""
    users = USERS if os.geteuid() == 0 else USERS[:1]
    for number in range(moves):
        folder = Path(chance.choice(parents), f"place{number}", NAMES[number % len(NAMES)])
        environment = {"PATH": os.environ["PATH"], "LC_ALL": LOCALES[number % len(LOCALES)], "LANG": "xx", "TZ": CLOCKS[number % len(CLOCKS)]}
        yield folder, users[number % len(users)], environment


def pieces(cases, what, found, wanted):
    """What is in the outbox are whole answers of the box that wasn't killed, the first of them, and no other file."""
    names = sorted(wanted)[:len(found)]
    cases.holds(what, (sorted(found), [name for name in names if found.get(name) != wanted[name]]), (names, []))


def main():
    parser = argparse.ArgumentParser()
    parser.add_argument("program", nargs="?")
    for name, count in (("moves", 12), ("kills", 6), ("seed", 1)):
        parser.add_argument(f"--{name}", type=int, default=count)
    words = parser.parse_args()
    cases, chance = Cases(), random.Random(f"moves {words.seed}")
    texts = messages(chance, words.seed)
    with tempfile.TemporaryDirectory() as disk, tempfile.TemporaryDirectory(dir=MEMORY if os.access(MEMORY, os.W_OK) else None) as memory:
        for parent in (disk, memory):
            os.chmod(parent, 0o755)
        program = str(shutil.copy(of_arguments(), Path(disk, "roombox")))
        if os.geteuid():
            cases.lacks("other users", "root")
        whole = Box(Path(memory, "whole"), program).made()
        for number, text in enumerate(texts, 1):
            whole.put(number, text)
        begun = time.monotonic()
        cases.holds("a box that is never killed", whole.run(), (0, "", ""))
        lasts = time.monotonic() - begun
        wanted = whole.answers()
        cases.holds("it has an answer to each file", [name.removesuffix(".out") for name in wanted], [name_of(number).removesuffix(".ics") for number in range(1, len(texts) + 1)])
        box, given, killed, moves = Box(Path(disk, "first", "office"), program).made(), 0, 0, 0
        at_each = -(-len(texts) // (words.moves + 1))
        for place in [None, *places([disk, memory], chance, words.moves)]:
            if place:
                box = box.moved(*place)
                moves += 1
            for number in range(given + 1, min(given + at_each, len(texts)) + 1):
                box.put(number, texts[number - 1])
            given = min(given + at_each, len(texts))
            for _ in range(words.kills):
                # a run reads all files, and answers those that are new
                killed += box.killed(lasts * chance.uniform(0, 1.1) * given / len(texts))
                pieces(cases, f"after {moves} moves: what a run that was killed left", box.answers(), wanted)
            if chance.random() < 0.5:
                cases.holds(f"after {moves} moves: a run", box.run(), (0, "", ""))
                pieces(cases, f"after {moves} moves: its answers", box.answers(), wanted)
                cases.holds(f"after {moves} moves: how many", len(box.answers()), given)
        cases.holds("the last run", box.run(), (0, "", ""))
        cases.holds("the outbox at the end", box.answers() == wanted, True)
        cases.holds("no temporary is left that was published", (box.folder / "outbox" / TEMPORARY).exists(), False)
        cases.holds("a run with nothing to do", (box.run(), box.answers() == wanted), ((0, "", ""), True))
        box = box.moved(Path(disk, "anew"), {}, {"PATH": os.environ["PATH"], "TZ": "Asia/Tokyo"}, without=["outbox"])
        cases.holds("moved without its outbox", (box.answers(), box.run(), box.answers() == wanted), ({}, (0, "", ""), True))
    print(f"{len(texts)} files, {moves} moves, {killed} of {words.kills * (words.moves + 1)} runs killed before their end")
    cases.end()


if __name__ == "__main__":
    main()
