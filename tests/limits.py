"""Runs the real program on objects that are cut short, on a room that is full, and on input without an end.

    python3 tests/limits.py bin/roombox

What has to come out is said in docs/REFERENCE.md: each beginning of an object is refused, unless it is whole but for its last line break; a room takes 10,000
single instances and no more; a stream of more than 1,073,741,824 octets is too long. The other limits are rows of the example programs: 64 series,
1,048,576 octets, 201 VEVENTs, components nine deep.
"""

import re
import subprocess
from datetime import datetime, timedelta

from lib.cases import Cases
from lib.program import checked, of_arguments, read, run
from lib.streams import PREAMBLE, R1, request, unfolded

# Objects that are cut short: a series in New York, what an organiser stores, and both with whole days; each with its preamble and what is answered to the
# whole.
CUT = (
    ("a series", "preamble", "request-series-d", "accepted-series-d"),
    ("a store", "preamble-organiser", "store-s", "sent-s-0"),
    ("whole days", "preamble", "request-lists-of-days", "accepted-a"),
    ("a store of a whole day", "preamble-organiser", "store-s-whole-day", "sent-s-whole-day-0"),
)
BREAK = b"\r\n"
FIRST = datetime(2025, 1, 1)
MOST_SINGLES, MOST_DATES, MEETINGS = 10_000, 366, 28
LONGEST_STREAM = 1_073_741_824


def prefixes(cases, program):
    """Of each beginning of an object a refusal, or the answer to the whole where its last line is whole."""
    for what, preamble, name, answer in CUT:
        whole = read(name)
        for length in range(1, len(whole)):
            status, out, said = run(program, given=read(preamble) + whole[:length])
            found = (status, "whole" if out.encode() == read(answer) else re.sub(r"OBJECT=1:\d+\r\n$", "OBJECT=1:n", out), said)
            wanted = "whole" if length >= len(whole) - len(BREAK) else "REFUSED;OBJECT=1:n"
            cases.holds(f"{what}, cut to {length} octets", found, (0, wanted, ""))
        # what follows is answered where the line before it was ended
        status, out, said = run(program, given=read(preamble) + whole[: -len(b"END:VCALENDAR\r\n")] + whole)
        cases.holds(f"{what} without its last line, and then the whole, are one object", (status, out.count("REFUSED"), len(out.splitlines())), (0, 1, 1))


def filling(meeting):
    """The request of a meeting at a time of its own on many days: 28 of them have 10,000 instances."""
    start = FIRST + timedelta(minutes=30 * meeting)
    dates = MOST_DATES if meeting < MEETINGS - 1 else MOST_SINGLES - (MEETINGS - 1) * (MOST_DATES + 1) - 1
    return listed(f"m{meeting}", start, dates)


def listed(uid, start, dates):
    days = ",".join(f"{start + timedelta(days=day):%Y%m%dT%H%M%SZ}" for day in range(1, dates + 1))
    return request(uid, start=f"{start:%Y%m%dT%H%M%SZ}", lines=("DURATION:PT30M", f"RDATE:{days}"))


def answers_of(program, text):
    """The word of each answer, and the line of a limit."""
    _, out, _ = run(program, given=text)
    return re.findall(r"PARTSTAT=(\w+)|(X-ROOM-LIMIT:\w+)|(REFUSED;OBJECT=\d+:\d+)", unfolded(out))


def full_room(cases, program):
    """28 meetings of 367 instances and fewer, 10,000 in all; then one more single, and one that goes and one that comes."""
    accepted, declined = ("ACCEPTED", "", ""), [("DECLINED", "", ""), ("", "X-ROOM-LIMIT:SINGLES", "")]
    full = PREAMBLE + "".join(filling(meeting) for meeting in range(MEETINGS))
    one_more = request("z", start="20250101T150000Z", lines=("DURATION:PT1H",))
    cases.holds("10,000 singles are accepted", answers_of(program, full), [accepted] * MEETINGS)
    cases.holds("one more is declined", answers_of(program, full + one_more), [accepted] * MEETINGS + declined)
    gone = request("m0", sequence=1, method="CANCEL", start="20250101T000000Z", lines=())
    cases.holds("and accepted where a meeting is cancelled", answers_of(program, full + gone + one_more), [accepted] * (MEETINGS + 1))
    long = listed("l", FIRST, MOST_DATES + 1)
    cases.holds("367 RDATEs are refused", answers_of(program, PREAMBLE + long), [("", "", "REFUSED;OBJECT=1:56")])
    calendar, certificate = (run(program, "keep", *words, R1, given=full + one_more)[1] for words in ([], ["--certificate"]))
    cases.holds("the certificate of a full room", certificate, "ROOMCERT 1\nSINGLES 10000\nSERIES 0\nDONE\n")
    cases.holds("the checker's yes to it", checked(program, calendar, certificate, R1), (0, "yes\n", ""))


def without_end(cases, program):
    """A reader of LF without an end: nothing is answered, and it ends once it has read the most octets."""
    child = subprocess.Popen([program, "serve"], stdin=subprocess.PIPE, stdout=subprocess.PIPE, stderr=subprocess.PIPE)
    given = child.stdin.write(PREAMBLE.encode())
    piece = b"\n" * (1 << 20)
    try:
        while given < 2 * LONGEST_STREAM:
            given += child.stdin.write(piece)
    except BrokenPipeError:
        pass
    out, said = child.stdout.read(), child.stderr.read()
    cases.holds("LF without an end", (child.wait(), out, said.decode()), (3, b"", "roombox: too long\n"))
    # what a pipe and a buffer hold may have been written beyond the limit
    cases.holds("and no more is read than the limit", given <= LONGEST_STREAM + (4 << 20), True)


def main():
    program, cases = of_arguments(), Cases()
    for part in (prefixes, full_room, without_end):
        part(cases, program)
    cases.end()


if __name__ == "__main__":
    main()
