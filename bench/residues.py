"""A room of 63 endless series and 9,999 singles, all clear, and what it costs to ask for one more: a series or a single, or a new revision of one, each
accepted and each declined. Half of the series are one behind the other in New York, where residues don't settle them. Each time has a bar on a fast
machine (bench/spans.py); beside it is what a list of all instances up to 2100 costs by dateutil.

    python3 bench/residues.py bin/roombox
"""

import itertools
import os
import subprocess
import sys
import tempfile
import time
from bisect import bisect_left
from datetime import datetime, timedelta, timezone
from zoneinfo import ZoneInfo

from dateutil.rrule import rrulestr
from runs import checked, kept, least, serve, share_of_fast
from texts import NEW_YORK, PARIS, REQUEST, ROOM, crlf, preamble

RUNS = 3
SERIES, SINGLES = 63, 9_999
# Zones by their names: the VTIMEZONE that a request has.
ZONES = {
    None: "",
    "America/New_York": NEW_YORK,
    "Europe/Berlin": PARIS.replace("Europe/Paris", "Europe/Berlin"),
    "Asia/Kolkata": "BEGIN:VTIMEZONE\nTZID:Asia/Kolkata\nBEGIN:STANDARD\nDTSTART:19700101T000000\nTZOFFSETFROM:+0530\nTZOFFSETTO:+0530\nEND:STANDARD\nEND:VTIMEZONE\n",
}
WEEK = ("MO", "TU", "WE", "TH", "FR", "SA", "SU")
# The Monday of the week in which series begin.
FIRST = datetime(2025, 1, 6)


# ---- what is asked


def request(number, zone, start, rule="", length="PT1H", sequence=0, method="REQUEST"):
    """A message of a meeting from a local time of a zone on."""
    text = REQUEST.replace("METHOD:REQUEST", f"METHOD:{method}").replace("SEQUENCE:0", f"SEQUENCE:{sequence}").replace("PT1H", length)
    text = text.replace("BEGIN:VEVENT", ZONES[zone] + "BEGIN:VEVENT", 1)
    local = f"{start:%Y%m%dT%H%M%S}"
    text = text.replace("DTSTART:{start}", f"DTSTART;TZID={zone}:{local}" if zone else f"DTSTART:{local}Z")
    return crlf(text.format(number=number, room=ROOM.format(0), extra=f"RRULE:{rule}\n" if rule else ""))


def at(day, hour, minute=0):
    """That weekday, Monday being 0, of the first week."""
    return FIRST + timedelta(days=day, hours=hour, minutes=minute)


def daily(hour, minute=0):
    return at(0, hour, minute), "FREQ=DAILY"


def weekdays(hour):
    return at(0, hour), "FREQ=WEEKLY;BYDAY=MO,TU,WE,TH,FR"


def weekly(day, hour, minute=0):
    return at(day, hour, minute), "FREQ=WEEKLY"


def second_weeks(day, hour, minute=0):
    """Two series that take turns."""
    return [(at(day + 7 * turn, hour, minute), "FREQ=WEEKLY;INTERVAL=2") for turn in range(2)]


def monthly(day, hour, minute=0):
    return datetime(2025, 2, day, hour, minute), f"FREQ=MONTHLY;BYMONTHDAY={day}"


def by_weekday(count, day, hour):
    """On the first, second .. such weekday of each month, from February 2025 on."""
    month = datetime(2025, 2, 1)
    start = month + timedelta(days=(day - month.weekday()) % 7 + 7 * (count - 1), hours=hour)
    return start, f"FREQ=MONTHLY;BYDAY={count}{WEEK[day]}"


def yearly(month, day, hour, minute=0):
    return datetime(2025, month, day, hour, minute), "FREQ=YEARLY"


def in_new_york_all():
    """Those in New York, one behind the other from eight to six on each day: the last hour is daily too."""
    yield from [(*daily(8), "PT1H"), (*daily(9), "PT2H"), (*weekdays(11), "PT1H"), (*weekly(5, 11), "PT1H")]
    yield from [(*it, "PT1H") for it in second_weeks(6, 11)]
    yield from [(*weekly(day, 12), "PT1H") for day in range(5)]
    yield from [(*weekly(day, 13), "PT2H") for day in range(5)]
    yield from [(*by_weekday(count, 5, 13), "PT2H") for count in (1, 2)]
    yield from [(*weekdays(15), "PT1H"), *((*by_weekday(count, 6, 15), "PT1H") for count in (1, 2, 3, 4))]
    yield from [(*monthly(day, 16), "PT1H") for day in (1, 5, 9, 13, 17)]
    yield from [(*yearly(month, 21, 16), "PT1H") for month in (3, 5, 7, 11)]
    yield (*daily(17), "PT1H")


def elsewhere():
    """Those in Kolkata, in Berlin and in UTC."""
    kolkata, berlin = "Asia/Kolkata", "Europe/Berlin"
    yield (kolkata, *daily(9, 30), "PT1H")
    yield from [(kolkata, *weekly(day, 10, 30), "PT1H") for day in range(4)]
    yield from [(kolkata, *it, "PT1H") for day in (4, 5) for it in second_weeks(day, 10, 30)]
    yield from [(kolkata, *monthly(day, 11, 30), "PT1H") for day in range(2, 8)]
    yield from [(kolkata, *yearly(month, 20, 11, 30), "PT1H") for month in (4, 8, 12)]
    yield from [(berlin, *daily(10), "PT2H"), *((berlin, *weekly(day, 12), "PT1H") for day in range(7))]
    yield from [(None, *weekdays(7), "PT1H"), (None, *weekly(5, 7), "PT1H"), *((None, *it, "PT1H") for it in second_weeks(6, 7))]


def all_series():
    """A zone, a start, a rule and a length each."""
    found = [("America/New_York", *it) for it in in_new_york_all()] + [*elsewhere()]
    return found[:SERIES]


def all_singles():
    """The starts of an hour each, in UTC: some between the monthly and yearly series in Kolkata, the others three a day at night."""
    between = [datetime(year, month, day, 6) for year in range(2025, 2035) for month in range(1, 13) for day in range(10, 18)]
    night = (datetime(2025, 1, 6, 1) + timedelta(days=place // 3, hours=place % 3) for place in itertools.count())
    return between + [*itertools.islice(night, SINGLES - len(between))]


def whole_room():
    """The preamble and the requests that fill the room."""
    series = [request(number, *it[:3], length=it[3]) for number, it in enumerate(all_series())]
    return [preamble(1), *series, *(request(SERIES + number, None, it) for number, it in enumerate(all_singles()))]


def settled_room():
    """One whose pairs are all settled by residues: series in UTC, each at an hour and on a weekday of its own, and as many singles."""
    days = [weekly(day, hour) for hour in range(12, 20) for day in range(7)] + [daily(hour) for hour in range(4, 12)]
    series = [request(number, None, *it) for number, it in enumerate(days[:SERIES])]
    night = (datetime(2025, 1, 6, 1) + timedelta(days=place // 3, hours=place % 3) for place in range(SINGLES))
    return [preamble(1), *series, *(request(SERIES + number, None, it) for number, it in enumerate(night))]


def day_in_new_york():
    """64 daily series of 20 minutes each, one behind the other by the clocks there. None is in the hour that is left out in spring."""
    starts = [at(0, 3) + timedelta(minutes=20 * number) for number in range(64)]
    return [preamble(1), *(request(number, "America/New_York", it, "FREQ=DAILY", "PT20M") for number, it in enumerate(starts))]


# ---- a room that is asked again and again


class Asked:
    """A program that serves a room, and answers each object before the next one is sent."""

    def __init__(self, program, pieces):
        with tempfile.TemporaryFile() as stream:
            stream.writelines(pieces)
            stream.seek(0)
            self.child = subprocess.Popen([program, "serve"], stdin=subprocess.PIPE, stdout=subprocess.PIPE)
            # what is answered to the room is read beside, since a full pipe would stop it
            answers = len(pieces) - 1
            feeder = os.fork()
            if feeder == 0:
                self.child.stdin.write(stream.read() + b"\r\n")
                self.child.stdin.flush()
                os._exit(0)
            accepted = sum(self.answer() == b"ACCEPTED" for _ in range(answers))
            os.waitpid(feeder, 0)
        if accepted != answers:
            sys.exit(f"{accepted} of {answers} accepted")

    def answer(self):
        """Of the next reply: ACCEPTED or DECLINED."""
        word = None
        for line in self.child.stdout:
            if line.startswith(b"ATTENDEE;PARTSTAT="):
                word = line.split(b"=")[1].split(b":")[0]
            if line == b"END:VCALENDAR\r\n":
                return word
            if line.startswith(b"REFUSED"):
                sys.exit(f"refused: {line}")
        sys.exit("no answer")

    def send(self, text):
        self.child.stdin.write(text + b"\r\n")
        self.child.stdin.flush()

    def cancel(self, text):
        """Takes a cancellation, which has no answer: a single that comes once more is answered behind it."""
        self.send(text)
        self.seconds(request(SERIES, None, all_singles()[0]), b"ACCEPTED")

    def seconds(self, text, word):
        """Until the answer to a request has come, which has to be this one."""
        before = time.perf_counter()
        self.send(text)
        found = self.answer()
        after = time.perf_counter()
        if found != word:
            sys.exit(f"{found} in place of {word}: {text}")
        return after - before

    def end(self):
        self.child.stdin.close()
        self.child.wait()


def last_requests(asked):
    """The least seconds of one more request to the whole room, by what it asks. After each the room is as before."""
    york, accepted, declined = "America/New_York", b"ACCEPTED", b"DECLINED"
    zone, start, rule, length = all_series()[0]
    single = SERIES + 5_000
    hour = all_singles()[5_000]
    late = datetime(2040, 1, 6, 1)
    found = {}

    def taken(what, text, word):
        found[what] = min(found.get(what, 1e9), asked.seconds(text, word))

    for turn in range(RUNS):
        sequence, new = 8 * turn, 20_000 + 10 * turn
        taken("the 64th series", request(new, york, at(0, 18), "FREQ=DAILY"), accepted)
        asked.cancel(request(new, york, at(0, 18), "FREQ=DAILY", sequence=1, method="CANCEL"))
        taken("the 64th series, which clashes", request(new + 1, york, at(0, 17, 30), "FREQ=DAILY"), declined)
        taken("the 64th series, which clashes with a yearly one", request(new + 2, "Asia/Kolkata", datetime(2025, 1, 20, 11, 30), "FREQ=MONTHLY"), declined)
        taken("the 10,000th single", request(new + 3, None, late), accepted)
        asked.cancel(request(new + 3, None, late, sequence=1, method="CANCEL"))
        taken("the 10,000th single, which clashes", request(new + 4, None, datetime(2039, 7, 21, 20)), declined)
        taken("a series moved", request(0, york, at(0, 18), rule, sequence=sequence + 1), accepted)
        asked.seconds(request(0, zone, start, rule, length, sequence + 2), accepted)
        taken("a series moved onto another", request(0, york, at(0, 16, 30), rule, sequence=sequence + 3), declined)
        asked.seconds(request(0, zone, start, rule, length, sequence + 4), accepted)
        taken("a single moved", request(single, None, late, sequence=sequence + 1), accepted)
        asked.seconds(request(single, None, hour, sequence=sequence + 2), accepted)
        taken("a single moved onto a series", request(single, None, datetime(2039, 1, 7, 14, 30), sequence=sequence + 3), declined)
        asked.seconds(request(single, None, hour, sequence=sequence + 4), accepted)
    return found


# ---- the same by a list of instances


def instances(zone, start, rule, length):
    """The spans of a series up to 2100, by dateutil and zoneinfo."""
    hours = timedelta(hours=int(length[2]))
    clocks = ZoneInfo(zone) if zone else timezone.utc
    starts = (it.replace(tzinfo=clocks).astimezone(timezone.utc) for it in rrulestr(rule, dtstart=start).between(datetime(2000, 1, 1), datetime(2100, 1, 1)))
    return [(it, it + hours) for it in starts]


def by_list():
    """The seconds in which dateutil lists the 64th series and looks each instance up among those of the room, which are listed before."""
    singles = [(it.replace(tzinfo=timezone.utc), it.replace(tzinfo=timezone.utc) + timedelta(hours=1)) for it in all_singles()]
    held = sorted(singles + [it for series in all_series() for it in instances(*series)])
    before = time.perf_counter()
    for start, end in instances("America/New_York", at(0, 18), "FREQ=DAILY", "PT1H"):
        place = bisect_left(held, (start,))
        if place < len(held) and held[place][0] < end or place and start < held[place - 1][1]:
            sys.exit(f"a clash in the list: {start}")
    return time.perf_counter() - before


# ---- the table


def served(program, pieces):
    """The least seconds and the peak of a stream of requests, all accepted."""
    return least(lambda: serve(program, pieces, len(pieces) - 1), RUNS)[:2]


def judged(program, requests):
    """The least seconds of the checker's yes to what a room keeps, and the peak; and whether each entry of its certificate says RES."""
    calendar, certificate = kept(program, requests)[1], kept(program, requests, "--certificate")[1]
    seconds, peak, _ = least(lambda: checked(program, [calendar], certificate), RUNS)
    return seconds, peak, certificate.count(b" RES ") == certificate.count(b"PAIR")


def residues(program):
    share = share_of_fast(program)
    missed = 0
    print(f"{'a room of 63 endless series and 9,999 singles':<52}{'ms':>9}{'of a fast machine':>19}{'bar':>7}")

    def row(work, seconds, bar):
        nonlocal missed
        fast = seconds * share * 1000
        missed += fast > bar
        print(f"{work:<52}{seconds * 1000:>9.1f}{fast:>19.1f}{bar:>7}  {'MET' if fast <= bar else 'MISSED'}")

    pieces = whole_room()
    asked = Asked(program, pieces)
    for work, seconds in last_requests(asked).items():
        row(work, seconds, 10)
    asked.end()
    whole, peak = served(program, pieces)
    row("the whole room from nothing", whole, 1500)
    certificate = least(lambda: kept(program, pieces[1:], "--certificate")[0]) - least(lambda: kept(program, pieces[1:])[0])
    row("the certificate beyond the calendar", max(certificate, 1e-4), 50)
    seconds, most, _ = judged(program, pieces[1:])
    row("its certificate checked", seconds, 3000)
    peak = max(peak, most)
    seconds, most, all_res = judged(program, settled_room()[1:])
    row("one of a room whose pairs are all settled by residues" if all_res else "one that should say RES of each pair", seconds, 500)
    row("64 daily series, a day full in New York, from nothing", served(program, day_in_new_york())[0], 1000)
    memory = max(peak, most) / 2**20
    missed += memory > 64
    print(f"{'peak memory, MiB':<52}{memory:>9.1f}{'':>19}{64:>7}  {'MET' if memory <= 64 else 'MISSED'}")
    # at the end, since the peak of a program that is started counts this script's own memory too
    print(f"{'the 64th series by dateutil, up to 2100 alone':<52}{by_list() * 1000:>9.1f}")
    return missed


if __name__ == "__main__":
    sys.exit(1 if residues(sys.argv[1]) else 0)
