"""Writes the expected messages again when a line of them changes, and shows the difference, which a person reads.

    python3 tests/reply_lines.py 'REQUEST-STATUS:2\\.0;Success' 'REQUEST-STATUS:2.0;OK'       # another text
    python3 tests/reply_lines.py '(SEQUENCE:\\d+)' '\\1|COMMENT:by a room'                     # a line more; an empty text takes the line away
    python3 tests/reply_lines.py --method REQUEST 'SUMMARY:(.*)' 'SUMMARY;LANGUAGE=en:\\1'

The first word is a regular expression for a whole unfolded line, the second what stands in its place, with `|` between lines. What is written comes from these words
and from what stood there, never from the program: run it before the program is changed, and the tests say whether the program does it. Lines of each object with
the PRODID of the program and this METHOD (REPLY, if none is given; `-` is none) are written, folded as the program folds them, in the files of the example crates, in
their `stdout`, and in examples/. Places that show one line, or a text of Rust, are listed: they are written by hand. Files that aren't committed stop it.
"""

import argparse
import re
import subprocess
import sys

from lib.program import ROOT
from lib.streams import OWN_HEAD, crlf, folded, spelled, unfolded

PLACES = ["crates/*/data/*", "crates/*/stdout", "crates/*/stdin", "examples/*.replies", "examples/*.ics-stream"]
# what shows a message in another form
OTHERS = ["README.md", "docs", "tests", "examples", "crates/*/src", "crates/*/must-fail"]


def git(*words):
    return subprocess.run(["git", *words], cwd=ROOT, capture_output=True, text=True, check=False).stdout


def rewritten(text, line, other):
    """The octets of an object, as a text, with other lines in place of those that match."""
    lines = []
    for it in unfolded(text).split("\r\n")[:-1]:
        found = line.fullmatch(it)
        lines += [new for new in found.expand(other).split("|") if new] if found else [it]
    return folded(lines).decode()


def unspelled(text):
    return text.encode().decode("unicode_escape").encode("latin-1").decode()


def changed(text, method, line, other):
    """A file's text. Objects stand in it as they are, or spelled, with digits in the case that they have there."""
    head = crlf(*OWN_HEAD, *[f"METHOD:{method}"] * (method != "-"))
    plain = re.compile(re.escape(head) + r"(?!METHOD).*?END:VCALENDAR\r\n", re.DOTALL)
    text = plain.sub(lambda it: rewritten(it[0], line, other), text)

    def of_line(it):
        digits = "X" if re.search(r"\\x[0-9]?[A-F]", it[0]) else "x"
        return spelled(rewritten(unspelled(it[0]), line, other).encode(), digits)
    told = re.compile(re.escape(spelled(head.encode())) + r"(?!METHOD).*?END:VCALENDAR\\r\\n")
    return told.sub(of_line, text)


def main():
    parser = argparse.ArgumentParser()
    parser.add_argument("--method", default="REPLY")
    parser.add_argument("line", type=re.compile)
    parser.add_argument("other")
    words = parser.parse_args()
    if git("status", "--porcelain", "--", *PLACES):
        sys.exit("there are files that aren't committed")
    written = []
    for name in git("ls-files", "--", *PLACES).split():
        octets = (ROOT / name).read_bytes()
        try:
            text = octets.decode()
        except UnicodeDecodeError:
            continue
        new = changed(text, words.method, words.line, words.other)
        if new != text:
            (ROOT / name).write_bytes(new.encode())
            written.append(name)
    print(git("diff", "--", *PLACES))
    others = git("grep", "-l", "-E", words.line.pattern.strip("^$()").split("\\d")[0].split("(")[0] or "METHOD", "--", *OTHERS).split()
    print(f"{len(written)} files are written. To look at by hand: {', '.join(it for it in others if it not in written)}")
    return 0 if written else 1


if __name__ == "__main__":
    sys.exit(main())
