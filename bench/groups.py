"""What the checker takes for 64 endless series that residues don't settle: with one line for all of them, and with a line for each pair, which
tests/certificate_by_dateutil.py writes. Each series is in at least 20 pairs that say SPAN. The bars: at least 8 times faster, and a second on a fast machine,
one that lists 4,700,000 instances a second of the daily series in New York."""

import re
import sys
from pathlib import Path

from runs import checked, kept, least, share_of_fast
from texts import NEW_YORK, ROOM, in_paris, recurring

sys.path.insert(0, str(Path(__file__).resolve().parent.parent / "tests"))
from certificate_by_dateutil import Calendar

TIMES = 8
SECONDS = 1
PAIRS = 20


def series():
    """Weekly ones in New York and monthly ones in winter, at an hour at which the weekly ones are in summer alone; a daily one in Paris and yearly ones in
    summer, at an hour at which the daily one is in winter alone."""
    weekly = [recurring(number, f"202501{6 + number:02}T100000", "FREQ=WEEKLY", zone=NEW_YORK) for number in range(7)]
    monthly = [recurring(6 + day, f"202501{day:02}T140000Z", f"FREQ=MONTHLY;BYMONTH=1,2,12;BYMONTHDAY={day}") for day in range(1, 25)]
    days = [(7, day) for day in range(1, 32)] + [(8, 1)]
    yearly = [recurring(31 + place, f"2025{month:02}{day:02}T130000Z", "FREQ=YEARLY") for place, (month, day) in enumerate(days)]
    return [*weekly, *monthly, *yearly, in_paris(63, "20250106T140000", "FREQ=DAILY")]


def by_pairs(calendar):
    """The certificate of version 1."""
    text = Calendar(calendar.decode(), ROOM.format(0)).certificate()
    numbers = [number for pair in re.findall(r"^PAIR (\d+) (\d+) SPAN", text, re.MULTILINE) for number in {*pair}]
    fewest = min(numbers.count(str(number)) for number in range(1, 65))
    if fewest < PAIRS:
        sys.exit(f"a series is in {fewest} pairs that say SPAN")
    return text.encode()


def groups(program):
    share = share_of_fast(program)
    requests = series()
    calendar, certificate = kept(program, requests)[1], kept(program, requests, "--certificate")[1]
    if not re.fullmatch(rb"ROOMCERT 2\nSINGLES 0\nSERIES 64\nGROUP \d{8}T000000Z 146097( \d+){64}\nDONE\n", certificate):
        sys.exit(f"no group of all: {certificate!r}")
    grouped = least(lambda: checked(program, [calendar], certificate)[0])
    paired = checked(program, [calendar], by_pairs(calendar))[0]
    print(f"{'64 series that spans settle, checked':<46}{'ms':>8}{'of a fast machine':>19}{'bar':>6}{'by pairs, ms':>17}{'times':>9}")
    print(f"{'as one group':<46}{grouped * 1000:>8.1f}{grouped * share * 1000:>19.1f}{SECONDS * 1000:>6}{paired * 1000:>17.0f}{paired / grouped:>9.1f}")
    if paired < TIMES * grouped:
        sys.exit(f"by pairs it takes {paired / grouped:.1f} times as long, not {TIMES}")


if __name__ == "__main__":
    groups(sys.argv[1])
