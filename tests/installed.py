"""Installs the program as a user of make and as one of Debian's packages would, into empty roots; runs the first request there, and takes it away again.

    python3 tests/installed.py bin/roombox

What is expected is what the Makefile and examples/first-request.replies say. The units of examples/systemd are looked at by systemd-analyze. It
needs dpkg, man and systemd-analyze.
"""

import os
import re
import shutil
import subprocess
import tempfile
from pathlib import Path

from lib.cases import Cases
from lib.program import ROOT, of_arguments

PROGRAM = of_arguments()
FIRST = "share/doc/roombox/examples/first-request"
# what the first day needs, below the prefix
NEEDED = ["bin/roombox", "share/bash-completion/completions/roombox", f"{FIRST}.ics-stream", f"{FIRST}.replies", "share/doc/roombox/README.md",
          "share/doc/roombox/docs/GUIDE.md", "share/doc/roombox/docs/REFERENCE.md", "share/doc/roombox/docs/OPERATING.md", "share/doc/roombox/examples/mail/roombox_mail.py",
          "share/doc/roombox/examples/systemd/roombox-box@.service"]
UNITS = sorted(path.name for path in (ROOT / "examples" / "systemd").glob("*@.*"))


def run(*words, **how):
    ended = subprocess.run(words, stdin=subprocess.DEVNULL, capture_output=True, text=True, **how)
    return ended.returncode, ended.stdout, ended.stderr


def make(*words):
    return run("make", "--no-print-directory", "-C", str(ROOT), f"PROGRAM={PROGRAM}", *words)


def files_below(folder):
    """What stands below the folder but folders themselves."""
    return sorted(str(path.relative_to(folder)) for path in folder.rglob("*") if not path.is_dir() or path.is_symlink())


def wrong_links(documents):
    """The links of the installed documents to files that weren't installed with them."""
    wrong = []
    for path in documents.rglob("*.md"):
        for target in re.findall(r"\]\(([^)#:]+)(?:#[^)]*)?\)", path.read_text(encoding="utf-8")):
            if not (path.parent / target).exists():
                wrong.append(f"{path.name}: {target}")
    return sorted(wrong)


def works(cases, what, prefix):
    """What is installed below the prefix answers the first request, and is what is in the repository."""
    cases.holds(f"{what}: all is there", [name for name in NEEDED if not (prefix / name).is_file()], [])
    with open(prefix / f"{FIRST}.ics-stream", "rb") as given:
        ended = subprocess.run([prefix / "bin" / "roombox"], stdin=given, capture_output=True)
    cases.holds(f"{what}: the first request", (ended.returncode, ended.stdout), (0, (prefix / f"{FIRST}.replies").read_bytes()))
    cases.holds(f"{what}: the rights of the program", (prefix / "bin" / "roombox").stat().st_mode & 0o777, 0o755)
    cases.holds(f"{what}: the links of the documents", wrong_links(prefix / "share" / "doc" / "roombox"), [])
    completion = run("bash", "-c", 'source "$1" && complete -p roombox', "bash", str(prefix / "share/bash-completion/completions/roombox"))
    cases.holds(f"{what}: the completion", completion, (0, "complete -o default -F _roombox roombox\n", ""))
    page = next((prefix / "share" / "man" / "man1").glob("roombox.1*"))
    if shutil.which("man"):
        status, shown, _ = run("man", "-l", str(page), env={**os.environ, "MANPAGER": "cat"})
        cases.holds(f"{what}: the man page", (status, "roombox" in shown), (0, True))
    else:
        cases.lacks(f"{what}: the man page", "man")


def by_make(cases, parent):
    for prefix in ("/usr/local", "/opt/room box"):
        root = Path(tempfile.mkdtemp(dir=parent))
        where = (f"DESTDIR={root}", f"PREFIX={prefix}")
        cases.holds(f"make install in {prefix}", make("install", *where)[0], 0)
        works(cases, f"make install in {prefix}", root / prefix.strip("/"))
        other = root / prefix.strip("/") / "bin" / "other"
        other.write_text("kept")
        cases.holds(f"make uninstall in {prefix}", make("uninstall", *where)[0], 0)
        cases.holds(f"what make uninstall leaves in {prefix}", files_below(root), [str(other.relative_to(root))])
        cases.holds(f"its folder is gone from {prefix}", (root / prefix.strip("/") / "share" / "doc" / "roombox").exists(), False)
    root = Path(tempfile.mkdtemp(dir=parent))
    status, _, said = make("install", f"DESTDIR={root}", "PROGRAM=nowhere/roombox")
    cases.holds("make install without a program", (status, "'make run' proves and builds it" in said, files_below(root)), (2, True, []))


def administered(parent):
    """An empty root with nothing but what dpkg itself needs, which isn't in it."""
    root, admin = Path(tempfile.mkdtemp(dir=parent)), Path(tempfile.mkdtemp(dir=parent))
    for folder in ("info", "updates", "triggers"):
        (admin / folder).mkdir()
    (admin / "status").touch()
    words = ["dpkg", f"--instdir={root}", f"--admindir={admin}", f"--log={admin}/log", "--force-not-root", "--force-script-chrootless"]
    return root, admin, words


def by_package(cases, parent):
    if not shutil.which("dpkg-deb"):
        return cases.lacks("the package", "dpkg-deb")
    status, said, _ = make("deb")
    cases.holds("make deb", status, 0)
    package = next((ROOT / "out").glob("roombox_*.deb"))
    fields = run("dpkg-deb", "--field", str(package), "Package", "Version", "Depends")[1]
    cases.holds("the package", fields, "Package: roombox\nVersion: 0.1.0\nDepends: libc6\n")
    listed = run("dpkg-deb", "--contents", str(package))[1].splitlines()
    cases.holds("all of it is root's", [line for line in listed if " root/root " not in line], [])
    root, admin, words = administered(parent)
    # the empty root has no libc6 of its own: the program runs with that of this machine
    status, _, said = run(*words, "--force-depends", "--install", str(package))
    cases.holds("it is installed into an empty root", (status, files_below(root) != []), (0, True))
    if status:
        print(said)
        return
    works(cases, "the package", root / "usr")
    cases.holds("it is removed", run(*words, "--purge", "roombox")[0], 0)
    cases.holds("nothing is left of it", (sorted(os.listdir(root)), [line for line in (admin / "status").read_text().splitlines() if "roombox" in line]), ([], []))


def version_is_one(cases, parent):
    """The Makefile, the program and the man page say one version."""
    made = next(line.split()[-1] for line in (ROOT / "Makefile").read_text().splitlines() if line.startswith("VERSION"))
    cases.holds("the version of the program", run(PROGRAM, "--version")[1].split()[-1:], [made])


def units(cases, parent):
    if not shutil.which("systemd-analyze"):
        return cases.lacks("the units", "systemd-analyze")
    folder = Path(tempfile.mkdtemp(dir=parent))
    # what they start need not be installed here
    for name in UNITS:
        text = (ROOT / "examples" / "systemd" / name).read_text()
        (folder / name).write_text(text.replace("/usr/bin/flock", shutil.which("true")).replace("/usr/bin/python3", shutil.which("true")))
    for name in UNITS:
        cases.holds(f"{name} is verified", run("systemd-analyze", "verify", "--man=no", str(folder / name)), (0, "", ""))
    for name in ("roombox-box@.service", "roombox-mail@.service"):
        status, shown, _ = run("systemd-analyze", "security", "--offline=true", "--threshold=10", str(folder / name))
        cases.holds(f"{name} has no rights that it doesn't need", (status, shown.splitlines()[-1].split()[-2]), (0, "SAFE"))


def reports(cases, parent):
    """The units tell what came to nothing."""
    for name in ("roombox-box@.service", "roombox-mail@.service"):
        text = (ROOT / "examples" / "systemd" / name).read_text()
        runs = [line for line in text.splitlines() if line.startswith("ExecStart=") and " box " in line]
        cases.holds(f"{name} runs box once, with a report", [" --report " in line for line in runs], [True])


def main():
    cases = Cases()
    with tempfile.TemporaryDirectory() as parent:
        for part in (by_make, by_package, version_is_one, units, reports):
            part(cases, parent)
    cases.end()


if __name__ == "__main__":
    main()
