"""Makes the certificate of a calendar, and judges one, by Python alone: rules are those of dateutil, zones and residues are reckoned here.

    python3 tests/certificate_by_dateutil.py bin/roombox [--keep 20] [--judge 20] [--seed 1]
    python3 tests/certificate_by_dateutil.py --counted bin/worked_examples [--judge 20] [--seed 1]
    python3 tests/certificate_by_dateutil.py --of CALENDAR [ROOM]
    python3 tests/certificate_by_dateutil.py --residues CALENDAR M
    python3 tests/certificate_by_dateutil.py --judged CALENDAR CERTIFICATE

The first fills so many rooms with random series and singles, and compares the kept certificate with that of the kept calendar; the checker has to say yes to
it. So it does for the streams in examples/. Then it makes so many random calendars, some of which clash, and certificates by strangers, whose entries say RES of
any number, SPAN and END, and some of which have groups; the checker has to say of each what is said here. The second sees that the checker makes as many
instances as here, or fewer beside singles.

The others print: the certificate of a calendar, by which the files `certificate-NAME` of command_examples and worked_examples were made of `calendar-NAME`; the residues of its
first series; what the checker says of a certificate, and how many instances it makes at the most.
"""

import argparse
import random
import re
import sys
import tempfile
from collections import Counter
from math import gcd, lcm
from pathlib import Path

from lib import calendars
from lib.calendars import MOST
from lib.cases import Cases
from lib.program import ROOT, checked, kept, of_arguments, run
from lib.random_calendars import calendar_text, one_zone, request
from lib.streams import PREAMBLE, R1
from lib.zones import DAY, HORIZON, moment, stamp

# Residues are taken modulo at most so many days.
MOST_MODULUS = 420
WEEK = 7 * DAY


# ---- arcs around m seconds


def pieces(arcs, m):
    """What arcs cover, each a start below m and a length, as pieces between 0 and m."""
    found = []
    for start, length in arcs:
        length = min(length, m)
        found += [(start, min(start + length, m)), (0, max(start + length - m, 0))]
    return [it for it in found if it[0] < it[1]]


def covered(found):
    """How many seconds lie in one of these pieces at least."""
    seconds, reached = 0, 0
    for start, end in sorted(found):
        seconds += max(end, reached) - max(start, reached)
        reached = max(reached, end)
    return seconds


def are_apart(first, second, m):
    """Whether no arc of the first meets one of the second: both together cover as much as each for itself."""
    a, b = pieces(first, m), pieces(second, m)
    return covered(a + b) == covered(a) + covered(b)


def is_apart(arcs, m):
    """Whether no arc, all being of one length, is longer than m or meets another one: together they cover all that they are long."""
    return all(length <= m for _, length in arcs) and covered(pieces(arcs, m)) == sum(length for _, length in arcs)


class Calendar(calendars.Calendar):
    """A calendar, with its certificate, and what is to be said of one."""

    def arcs(self, i, m):
        """Those of a series: the greatest time that an instance lasts, from each of its residues on."""
        event = self.series[i].event
        return [(it, event.width()) for it in event.residues(m)]

    def settled(self, i, j, m):
        """Whether residues modulo m seconds settle a pair."""
        if m % DAY or not DAY <= m <= MOST_MODULUS * DAY:
            return False
        return is_apart(self.arcs(i, m), m) if i == j else are_apart(self.arcs(i, m), self.arcs(j, m), m)

    def entry(self, i, j):
        """The entry that is made of a pair."""
        a, b = self.series[i], self.series[j]
        m = lcm(a.event.stride(), b.event.stride()) * DAY
        if self.settled(i, j, m):
            return f"RES {m}"
        span = self.span((i, j))
        return f"SPAN {stamp(span[0])} {span[1]}" if span else "END"

    def pairs(self):
        return [(i, j) for i in range(len(self.series)) for j in range(i, len(self.series))]

    def certificate(self, entry=None, groups=None):
        """The text that is made, or the one of other entries: what `entry` says of a pair. With groups, each an instant, days and numbers from 0, it is of
        version 2."""
        together = [{*numbers} for _, _, numbers in groups or []]
        entries = [f"PAIR {i + 1} {j + 1} {(entry or self.entry)(i, j)}" for i, j in self.pairs() if not any({i, j} <= it for it in together)]
        lines = [f"GROUP {stamp(start)} {days} {' '.join(str(it + 1) for it in numbers)}" for start, days, numbers in groups or []]
        version = 1 if groups is None else 2
        return "\n".join([f"ROOMCERT {version}", f"SINGLES {len(self.singles)}", f"SERIES {len(self.series)}", *lines, *entries, "DONE", ""])

    def span(self, numbers):
        """From which midnight on, and after how many days, these series do the same, and where that is settled; None where it isn't before year 10000."""
        events = [self.series[it].event for it in numbers]
        periods = [it.period() for it in events]
        days = lcm(*periods) if None not in periods else None
        if days is None or days > MOST:
            return None
        day = -(-max(self.series[it].past() for it in numbers) // DAY)
        bound = (day + days) * DAY + max(it.width() for it in events)
        return (day * DAY, days) if bound < HORIZON else None

    def written(self):
        """The text that a room writes: one group of all series that have SPAN, where their common span is short enough, else the one that is made."""
        numbers = sorted({it for pair in self.pairs() if self.entry(*pair).startswith("SPAN") for it in pair})
        span = self.span(numbers) if len(numbers) > 1 else None
        return self.certificate(groups=[(*span, numbers)] if span else None)

    def most_beside(self):
        """How many instances are drawn for the singles at the most: each itself, and of each series those that start less than its width before it ends."""
        drawn = len(self.singles)
        for start, end in self.singles:
            for series in self.series:
                if end > start and series.event.width() > 0:
                    drawn += sum(1 for it in series.starts(min(end, HORIZON)) if it > start - series.event.width())
        return drawn

    def reaches(self, i, start, end):
        """Whether residues modulo a week leave it open that an instance of a series shares an instant with a span."""
        return not are_apart(self.arcs(i, WEEK), [(start % WEEK, end - start)], WEEK)

    def spans_below(self, i, bound):
        return ((start, self.series[i].event.end(start)) for start in self.series[i].starts(bound))

    def bound(self, numbers, start, days):
        """Up to where a span has these series compared; None where it is none of theirs."""
        events = [self.series[it].event for it in numbers]
        periods = [it.period() for it in events]
        if not 1 <= days <= MOST or None in periods or days % lcm(*periods) or start < max(self.series[it].past() for it in numbers):
            return None
        return min(start + days * DAY + max(it.width() for it in events), HORIZON)

    def fails(self, i, j, entry):
        """Whether the entry of a pair doesn't hold, and how many instances are drawn for that, start by start."""
        words, bound = entry.split(), HORIZON
        if words[0] == "RES":
            return not self.settled(i, j, int(words[1])), 0
        if words[0] == "SPAN":
            bound = self.bound((i, j), moment(words[1]), int(words[2]))
            if bound is None:
                return True, 0
        walks = [Walk(self.spans_below(it, bound)) for it in dict.fromkeys((i, j))]
        while any(walk.next for walk in walks):
            walk = min((it for it in walks if it.next), key=lambda it: it.next[0])
            others = [it for it in walks if it is not walk] or walks
            if any(it.meets(walk.next) for it in others):
                return True, sum(it.drawn for it in walks)
            walk.go()
        return False, sum(it.drawn for it in walks)

    def group_fails(self, start, days, numbers):
        """Whether a group doesn't hold, and how many instances are drawn for that at the most: all that start before the later of two that share an instant,
        and the next one of each series."""
        bound = self.bound(numbers, start, days)
        if bound is None:
            return True, 0
        spans = sorted((*span, it) for it in numbers for span in self.spans_below(it, bound))
        last = None
        for place, (begun, end, _) in enumerate(spans):
            if last is not None and begun < end and begun < last:
                return True, place + sum(1 for it in numbers if any(later[2] == it for later in spans[place:]))
            last = max(end, last) if last is not None else end
        return False, len(spans)

    def clashes_with_singles(self):
        """Whether a single clashes, and how many instances are drawn for that: first each single, then of each series those beside the singles that it reaches."""
        drawn, last = len(self.singles), None
        for start, end in sorted(self.singles):
            if end > start and start < HORIZON:
                if last is not None and start < last:
                    return True, drawn
                last = end
        for i, series in enumerate(self.series):
            width = series.event.width()
            for start, end in self.singles:
                if end <= start or start >= HORIZON or width == 0 or not self.reaches(i, start, end):
                    continue
                for it in series.starts(end):
                    if it <= start - width:
                        continue
                    drawn += 1
                    if max(it, start) < min(series.event.end(it), end, HORIZON):
                        return True, drawn
        return False, drawn

    def judged(self, text):
        """What the checker says of a certificate's text, which is one, with this calendar's counts: yes, or no with its number and pair. And how many instances
        it makes: exactly, and the most that it may where there are singles."""
        drawn = 0
        for line in text.splitlines()[3:-1]:
            words = line.split()
            if words[0] == "GROUP":
                numbers = [int(it) - 1 for it in words[3:]]
                failed, more = self.group_fails(moment(words[1]), int(words[2]), numbers)
                named = numbers[:2]
            else:
                named = [int(it) - 1 for it in words[1:3]]
                failed, more = self.fails(*named, line.split(" ", 3)[3])
            drawn += more
            if failed:
                return f"no 83 {named[0] + 1} {named[1] + 1}", drawn, drawn
        failed, more = self.clashes_with_singles()
        return "no 84 0 0" if failed else "yes", drawn + more, drawn + self.most_beside()


class Walk:
    """Through spans by their starts: the one that comes next, which is drawn, and the latest end of those behind."""

    def __init__(self, spans):
        self.spans, self.drawn, self.end, self.next = spans, 0, None, None
        self.go()

    def go(self):
        if self.next:
            self.end = max(self.next[1], self.end or self.next[1])
        self.next = next(self.spans, None)
        self.drawn += self.next is not None

    def meets(self, other):
        return self.end is not None and other[0] < other[1] and other[0] < self.end


# ---- rooms of random series


def compared(cases, program, name, stream, met):
    """The kept certificate is that of the kept calendar, and the checker says yes."""
    text, found = kept(program, stream), kept(program, stream, "--certificate")
    wanted = Calendar(text, R1).written()
    cases.holds(name, (checked(program, text, found, R1)[:2], found), ((0, "yes\n"), wanted))
    met.update(it.split(" ")[0 if it.startswith("GROUP") else 3] for it in found.splitlines() if it.startswith(("GROUP", "PAIR")))


def rooms(cases, program, count, seed, met):
    for number in range(count):
        chance = random.Random(f"rooms {seed} {number}")
        zone = one_zone(chance)
        messages = [it for place in range(3, 3 + chance.randint(1, 5)) for it in request(chance, place, zone)]
        compared(cases, program, f"rooms {seed} {number}", PREAMBLE + "".join(messages), met)


def examples(cases, program, met):
    for path in sorted((ROOT / "examples").glob("*.ics-stream")):
        text = path.read_bytes().decode()
        if f"room {R1}" in text.split("\n\n")[0]:
            compared(cases, program, f"the example {path.stem}", text, met)


# ---- certificates by strangers


def strange(chance, calendar, i, j, made_ones):
    """An entry that a stranger may write of a pair: the one that is made, with this chance, or RES or SPAN with other numbers, or END."""
    events = [calendar.series[it].event for it in (i, j)]
    stride = lcm(*(it.stride() for it in events))
    if chance.random() < made_ones:
        return calendar.entry(i, j)
    days = chance.choice([stride, stride, 2 * stride, gcd(*(it.stride() for it in events)), chance.randint(1, 420), 7 * chance.randint(1, 60), 0, 421])
    if chance.random() < 0.9:
        return f"RES {days * DAY + (chance.random() < 0.05)}"
    if all({"COUNT", "UNTIL"} & {*it.parts()} for it in events):
        return "END"
    return f"SPAN 20250107T000000Z {days}"


def strange_groups(chance, calendar):
    """Groups that a stranger may write: by the span that is common to some series, or by other numbers. None in version 1."""
    numbers = [*range(len(calendar.series))]
    if len(numbers) < 2 or chance.random() < 0.4:
        return chance.choice([None, None, []])
    chance.shuffle(numbers)
    cut = chance.randint(2, len(numbers))
    groups = [sorted(it) for it in (numbers[:cut], numbers[cut:]) if len(it) > 1]
    found = []
    for group in sorted(groups):
        start, days = calendar.span(group) or (86_400 * chance.randint(20_000, 20_500), 7 * chance.randint(1, 60))
        # an endless rule of dateutil has no day past year 9999
        days *= chance.choice([1, 1, 1, 2]) if start + 3 * days * DAY < HORIZON else 1
        found.append((start + chance.choice([0, 0, 0, DAY, -DAY]), days + chance.choice([0, 0, 0, 0, 1]), group))
    return found


def counted(worked, calendar, certificate):
    """What worked_examples says of a certificate, and how many instances were made."""
    calendar, certificate = calendar.replace("\r\n", "\\r\\n"), certificate.replace("\n", "\\n")
    with tempfile.TemporaryDirectory() as folder:
        for name in ("messages.txt", "events.txt", "calendars.txt", "organisers.txt", "residues.txt"):
            Path(folder, name).write_text(f"a case | text | {calendar} | check {R1} {certificate}\n" if name == "messages.txt" else "")
        verdict, made = re.fullmatch(r"a case: (.*), (\d+) made\n", run(worked, cwd=folder)[1]).groups()
    return verdict, int(made)


def strangers(cases, program, count, seed, met, worked=None):
    for number in range(count):
        chance = random.Random(f"strangers {seed} {number}")
        text = calendar_text(chance)
        calendar = Calendar(text, R1)
        made_ones = chance.choice([1, 0.8])
        certificate = calendar.certificate(lambda i, j: strange(chance, calendar, i, j, made_ones), strange_groups(chance, calendar))
        verdict, _, most = calendar.judged(certificate)
        met[verdict[:5]] += 1
        if worked:
            said, made = counted(worked, text, certificate)
            # only beside singles may it be fewer
            cases.holds(f"strangers {seed} {number}", (said, made <= most, calendar.singles != [] or made == most), (verdict, True, True))
        else:
            said = checked(program, text, certificate, R1)[1]
            cases.holds(f"strangers {seed} {number}", said, "no 84\n" if verdict == "no 84 0 0" else verdict + "\n")


def printed(mode, path, *rest):
    """What is asked of one calendar."""
    read = lambda name: Path(name).read_bytes().decode()
    calendar = Calendar(read(path), rest[0] if mode == "--of" and rest else R1)
    if mode == "--of":
        return calendar.written()
    if mode == "--residues":
        return f"{calendar.series[0].event.residues(int(rest[0]))}\n"
    verdict, made, most = calendar.judged(read(rest[0]))
    return f"{verdict}, {made} made, at most {most}\n"


def main():
    if sys.argv[1:2] in (["--of"], ["--residues"], ["--judged"]):
        print(printed(*sys.argv[1:]), end="")
        return
    parser = argparse.ArgumentParser()
    parser.add_argument("program", nargs="?")
    parser.add_argument("--counted")
    for name, count in (("keep", 20), ("judge", 20), ("seed", 1)):
        parser.add_argument(f"--{name}", type=int, default=count)
    words = parser.parse_args()
    cases, met, program = Cases(), Counter(), of_arguments()
    if not words.counted:
        rooms(cases, program, words.keep, words.seed, met)
        examples(cases, program, met)
    strangers(cases, program, words.judge, words.seed, met, words.counted and str(Path(words.counted).resolve()))
    cases.end(*(f"{count} {what}" for what, count in sorted(met.items())))


if __name__ == "__main__":
    main()
