"""What a long schedule costs: 10,000 stores and 40,000 deliveries between two organisers and 20 rooms. What was sent is delivered twice, and so are the
answers; each time in an order of its own. The seconds are those of the processor.

    python3 bench/schedules.py bin/schedule_examples
"""

import random
import re
import sys
from datetime import timedelta
from pathlib import Path

from runs import with_files
from texts import FIRST, REQUEST, ROOM

ROOMS, ORGANISERS = 20, ("ann", "ben")
STORES = 10_000
# the meetings that are stored again and again, each of the rooms in turn
REVISED = 100
# the bar of the growth from a tenth
GROWTH = 12
STORE = REQUEST.replace("METHOD:REQUEST\n", "").replace("SEQUENCE:0\n", "").replace("mailto:ann", "mailto:{organiser}").replace("\n", "\\r\\n")


def store(number, meeting, hour):
    """The step of storing a meeting for its room at an hour."""
    organiser = ORGANISERS[meeting % len(ORGANISERS)]
    start = f"{FIRST + timedelta(hours=hour):%Y%m%dT%H%M%SZ}"
    return f"octets {organiser} " + STORE.format(number=meeting, room=ROOM.format(meeting % ROOMS), organiser=organiser, start=start, extra="")


def schedule(meetings):
    """The stores of these meetings, a number and an hour each, and four deliveries for each of them."""
    draw = random.Random(7)
    count = len(meetings)
    steps = [store(number, *meeting) for number, meeting in enumerate(meetings)]
    sent, newest = count, {}
    for _ in range(2):
        requests = draw.sample(range(count), count)
        # an older REQUEST behind a newer one isn't answered
        answered = []
        for number in requests:
            meeting = meetings[number][0]
            steps.append(f"deliver {number} r{meeting % ROOMS}")
            newest[meeting] = max(newest.get(meeting, 0), number)
            if newest[meeting] == number:
                answered.append((sent, meeting))
                sent += 1
        answered += draw.choices(answered, k=count - len(answered))
        steps += [f"deliver {reply} {ORGANISERS[meeting % len(ORGANISERS)]}" for reply, meeting in draw.sample(answered, count)]
    return steps, sent


def played(program, meetings):
    """Seconds and peak of a schedule, and how many meetings the rooms keep then."""
    steps, sent = schedule(meetings)
    hosts = ["rooms " + " ".join(f"r{number}" for number in range(ROOMS)), "organisers " + " ".join(ORGANISERS)]
    asked = [f"sent {sent - 1} METHOD", f"sent {sent}", *(f"kept r{number} UID" for number in range(ROOMS))]
    ran, _ = with_files([program], [(" | ".join(["a schedule", *hosts, *steps, *asked]) + "\n").encode()])
    if ran.status != 0 or not ran.output.startswith(b"a schedule: METHOD:REPLY | none | "):
        sys.exit(f"schedule: status {ran.status}, {ran.output[:80]}")
    return ran.processor, ran.peak, len(re.findall(rb"UID:", ran.output))


def once(count):
    """Meetings that are stored once; of each room's, each tenth asks for the hour of the one before it."""
    return [(number, number // ROOMS - (number // ROOMS % 10 == 9)) for number in range(count)]


def again(count):
    """Meetings that are stored again and again, each time at another hour."""
    return [(number % REVISED, number // ROOMS) for number in range(count)]


def schedules(program):
    missed = 0
    program = str(Path(program).resolve())
    print(f"\n{'a schedule, with four deliveries for each store':<52}{'stores':>9}{'seconds':>9}{'peak MiB':>10}{'growth':>8}")
    works = (
        ("meetings that are stored once", once, lambda count: count - count // 10),
        (f"{REVISED} meetings, stored again and again", again, lambda _: REVISED),
    )
    for work, made, kept in works:
        before = None
        for count in (STORES // 10, STORES):
            seconds, peak, found = min(played(program, made(count)) for _ in range(3))
            if found != kept(count):
                sys.exit(f"schedule: {found} meetings are kept, not {kept(count)}")
            growth = seconds / before if before else None
            verdict = "" if growth is None else f"{growth:>8.1f}  {'MET' if growth <= GROWTH else 'MISSED'}"
            print(f"{work:<52}{count:>9}{seconds:>9.2f}{peak / 2**20:>10.1f}{verdict}", flush=True)
            missed += growth is not None and growth > GROWTH
            before = seconds
    return missed


if __name__ == "__main__":
    sys.exit(1 if schedules(sys.argv[1]) else 0)
