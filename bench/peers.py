"""The rules of recurrence of `make bench` by another library: dateutil for Python, and by roombox where it is given.

    python3 bench/peers.py                  # instances a second of dateutil, in processor seconds
    python3 bench/peers.py bin/roombox      # and of `roombox expand`, with what it prints

docs/SPEED.md has the figures.
"""

import itertools
import resource
import subprocess
import sys
import time
from datetime import datetime, timezone
from zoneinfo import ZoneInfo

import dateutil
from dateutil.rrule import rrulestr
from texts import IN_NEW_YORK, SERIES, crlf, rule_of_lists

COUNT = 95_000
LAST_WEEKDAY = "FREQ=MONTHLY;BYDAY=MO,TU,WE,TH,FR;BYSETPOS=-1"
# What is listed, its rule, its start by the local clocks, and its zone.
LISTED = (
    ("a daily series in UTC", "FREQ=DAILY", "19700101T090000", None),
    ("a daily series in New York", "FREQ=DAILY", "19700101T090000", "America/New_York"),
    ("the last weekday of each month", LAST_WEEKDAY, "19700130T090000", None),
    ("366 entries in each list", rule_of_lists(366), "19700101T090000", None),
)


def peer(rule, start, zone):
    """Instances a second of dateutil, each as an instant in UTC."""
    begin = datetime.strptime(start, "%Y%m%dT%H%M%S").replace(tzinfo=ZoneInfo(zone) if zone else timezone.utc)
    before = time.process_time()
    found = [it.astimezone(timezone.utc) for it in itertools.islice(rrulestr(rule, dtstart=begin), COUNT)]
    return len(found) / (time.process_time() - before)


def jumps():
    """How often a second dateutil finds the first instance from the year 9000 on of a daily series of 1970."""
    series = rrulestr("FREQ=DAILY", dtstart=datetime(1970, 1, 1, 9))
    before = time.process_time()
    assert series.after(datetime(9000, 1, 1)) == datetime(9000, 1, 1, 9)
    return 1 / (time.process_time() - before)


def expanded(program, rule, start, zone):
    """Instances a second of `expand`, in processor seconds, the start of the program among them."""
    text = IN_NEW_YORK.format(start=start, rule=rule) if zone else SERIES.format(start=start + "Z", rule=rule)
    before = resource.getrusage(resource.RUSAGE_CHILDREN)
    lines = subprocess.run([program, "expand", "--limit", str(COUNT)], input=crlf(text), capture_output=True, check=True).stdout.count(b"\n")
    after = resource.getrusage(resource.RUSAGE_CHILDREN)
    return lines / (after.ru_utime + after.ru_stime - before.ru_utime - before.ru_stime)


def main():
    print(f"dateutil {dateutil.__version__}, Python {sys.version.split()[0]}; {COUNT:,} instances each")
    for what, rule, start, zone in LISTED:
        rates = [f"dateutil {max(peer(rule, start, zone) for _ in range(3)):,.0f}"]
        if len(sys.argv) > 1:
            rates.append(f"roombox {max(expanded(sys.argv[1], rule, start, zone) for _ in range(3)):,.0f}")
        print(f"{what}: {', '.join(rates)} a second")
    print(f"the first instance from the year 9000 on, of a daily series: dateutil {jumps():.2g} a second")


if __name__ == "__main__":
    main()
