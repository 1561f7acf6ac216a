"""Sends invitations through a mail server to a box, and its answers back: Postfix, set up as examples/mail/README.md says.

    python3 tests/mail_server.py bin/roombox

Postfix runs from a folder of its own and listens to nothing: mails come by its sendmail and go into maildirs. The room is an alias of a user with an extension, as the README has it, whose file .forward+office
names the maildir of the box; the user here is nobody. It wants root and Debian's package postfix.
"""

import email
import email.policy
import os
import subprocess
import sys
import tempfile
import time
from pathlib import Path

from lib.cases import Cases
from mail import ANN, BOX, MAIL, PROGRAM, ROOM, calendar_of, mail, refused, reply, request, text_of

SENDMAIL = "/usr/sbin/sendmail"
POSTFIX = Path("/usr/lib/postfix/sbin/master")
MAIN = """compatibility_level = 3.6
queue_directory = {folder}/queue
data_directory = {folder}/data
maillog_file = {folder}/log
maillog_file_prefixes = {folder}
myhostname = office.example.com
mydestination = example.com, office.example.com
inet_interfaces = loopback-only
inet_protocols = ipv4
alias_maps = hash:{folder}/aliases
recipient_delimiter = +
forward_path = {folder}/home/.forward${{recipient_delimiter}}${{extension}}
allow_mail_to_files = alias, forward
default_transport = error:no other host
biff = no
"""
MASTER = "".join(f"{line}\n" for line in [
    "pickup unix n - n 1 1 pickup", "cleanup unix n - n - 0 cleanup", "qmgr unix n - n 300 1 qmgr", "rewrite unix - - n - - trivial-rewrite", "bounce unix - - n - 0 bounce", "defer unix - - n - 0 bounce",
    "trace unix - - n - 0 bounce", "local unix - n n - - local", "error unix - - n - - error", "retry unix - - n - - error", "postlog unix-dgram n - n - 1 postlogd",
])


class Postfix:
    def __init__(self, folder):
        self.folder = Path(folder)
        os.chmod(folder, 0o755)
        for name in ("etc", "queue", "data", "home", "box/inbox", "box/outbox"):
            (self.folder / name).mkdir(parents=True)
        self.maildirs = {name: self.folder / "mails" / name for name in ("office", "ann")}
        for maildir in self.maildirs.values():
            for name in ("tmp", "new", "cur"):
                (maildir / name).mkdir(parents=True)
        (self.folder / "etc" / "main.cf").write_text(MAIN.format(folder=folder))
        (self.folder / "etc" / "master.cf").write_text(MASTER)
        local = ROOM.partition("@")[0]
        (self.folder / "aliases").write_text(f"{local}: nobody+office\nrooms: nobody+office\nann: {self.maildirs['ann']}/\n")
        (self.folder / "home" / ".forward+office").write_text(f"{self.maildirs['office']}/\n")
        (self.folder / "box" / "config").write_text(f"room mailto:{ROOM}\n")
        self.environment = {**os.environ, "MAIL_CONFIG": f"{folder}/etc"}
        subprocess.run(["chown", "-R", "nobody:", str(self.folder / "home"), str(self.folder / "mails")], check=True)
        subprocess.run(["chown", "postfix", str(self.folder / "data")], check=True)
        subprocess.run(["postalias", "-c", f"{folder}/etc", f"hash:{folder}/aliases"], check=True)
        self.asked("start")

    def asked(self, word):
        return subprocess.run(["postfix", "-c", str(self.folder / "etc"), word], capture_output=True, text=True)

    def sends(self, text, to):
        subprocess.run([SENDMAIL, "-i", "-f", ANN, "--", to], input=text.encode(), env=self.environment, check=True)

    def arrived(self, name, count):
        """The mails of a maildir when so many have come, in the order of their arrival."""
        new = self.maildirs[name] / "new"
        for _ in range(150):
            if len(os.listdir(new)) >= count:
                break
            time.sleep(0.2)
        return sorted(new.iterdir(), key=lambda path: (path.stat().st_mtime_ns, path.name))

    def run(self):
        """Takes, answers and sends, as the README says; what each ended with."""
        box = self.folder / "box"
        lines = [[sys.executable, MAIL, "take", str(box), str(self.maildirs["office"])],
                 ["flock", str(box / "inbox"), PROGRAM, "box", "--adapt", *(str(box / name) for name in ("config", "inbox", "outbox"))],
                 [sys.executable, MAIL, "send", str(box), "--sender", BOX, "--sendmail", SENDMAIL, "--roombox", PROGRAM]]
        return [subprocess.run(words, stdin=subprocess.DEVNULL, stdout=subprocess.DEVNULL, env=self.environment).returncode for words in lines]


def to_and_fro(cases, server):
    """Invitations, a decline, and a fault go through the server, and what is sent comes to Ann."""
    named = lambda number, text: "\n".join(line for line in mail(text, number=number).split("\n") if not line.startswith("Return-Path"))
    server.sends(named(1, request("a")), ROOM)
    cases.holds("an invitation comes", len(server.arrived("office", 1)), 1)
    cases.holds("with the return path of its sender", email.message_from_bytes(server.arrived("office", 1)[0].read_bytes())["Return-Path"], f"<{ANN}>")
    cases.holds("it is answered", server.run(), [0, 0, 0])
    found = [email.message_from_bytes(path.read_bytes(), policy=email.policy.default) for path in server.arrived("ann", 1)]
    stamp = sorted(os.listdir(server.folder / "box" / "inbox"))[0][9:25]
    cases.holds("the reply comes back", [(it["From"], it["To"], it["Subject"], calendar_of(it)) for it in found],
                [(ROOM, ANN, "Accepted: Meeting 1", ("REPLY", reply("a", ANN, "ACCEPTED", "2.0;Success", stamp)))])
    cases.holds("its return path is the box", [it["Return-Path"] for it in found], [f"<{BOX}>"])
    server.sends(named(2, request("b", "20250310T093000Z")), ROOM)
    server.arrived("office", 1)
    cases.holds("a clash", server.run(), [0, 0, 0])
    found = sorted(server.arrived("ann", 2), key=lambda path: b"Accepted" in path.read_bytes())
    declined = email.message_from_bytes(found[0].read_bytes(), policy=email.policy.default)
    cases.holds("a decline comes back", (declined["Subject"], "is not booked for your meeting: two meetings would be in it" in text_of(declined)), ("Declined: Meeting 2", True))
    server.sends(named(3, refused("c")), ROOM)
    server.arrived("office", 1)
    cases.holds("a fault", server.run(), [0, 0, 0])
    texts = [path.read_bytes() for path in server.arrived("ann", 3)]
    cases.holds("a fault is told", len([text for text in texts if b"\nSubject: Not booked: Meeting 3\n" in text]), 1)
    server.sends(named(4, request("d", "20250311T090000Z", organiser="nobody-at-all@example.com")), ROOM)
    server.arrived("office", 1)
    cases.holds("an organiser who isn't there", server.run(), [0, 0, 0])
    cases.holds("the bounce comes to the box", len(server.arrived("office", 1)), 1)
    cases.holds("a bounce is no invitation", (server.run(), len(os.listdir(server.folder / "box" / "inbox"))), ([0, 0, 0], 4))
    time.sleep(1)
    cases.holds("and nobody hears of it", len(server.arrived("ann", 3)), 3)


def many(cases, server, count=100):
    """Many at once: each is answered once."""
    before = len(server.arrived("ann", 3))
    for number in range(count):
        day, hour = divmod(number, 20)
        server.sends(mail(request(f"m{number}", f"202506{1 + day:02}T{hour:02}0000Z"), number=100 + number).split("\n", 1)[1], ROOM)
    cases.holds(f"{count} invitations come", len(server.arrived("office", count)), count)
    cases.holds(f"{count} are answered", server.run(), [0, 0, 0])
    mails = [path.read_text() for path in server.arrived("ann", before + count)]
    subjects = sorted(line for text in mails for line in text.split("\n\n", 1)[0].split("\n") if line.startswith("Subject: Accepted: Meeting 1") and line != "Subject: Accepted: Meeting 1")
    cases.holds(f"{count} replies, each once", subjects, sorted(f"Subject: Accepted: Meeting {100 + number}" for number in range(count)))


def main():
    cases = Cases()
    missing = ([] if POSTFIX.exists() else ["postfix"]) + ([] if os.geteuid() == 0 else ["root"])
    if missing:
        cases.lacks("mails through a server", " and ".join(missing))
        cases.end()
    with tempfile.TemporaryDirectory() as folder:
        server = Postfix(folder)
        try:
            to_and_fro(cases, server)
            many(cases, server)
        finally:
            server.asked("stop")
    cases.end()


if __name__ == "__main__":
    main()
