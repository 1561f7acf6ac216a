"""Reads the pages that `roombox agenda --html` prints of calendars, and compares their days with those that Python computes.

    python3 tests/page.py bin/roombox [--calendars 60] [--seed 1]

When a day begins, and what clocks show, is asked of zoneinfo; the instances of random calendars are those of lib/calendars.py. The whole
page of one meeting stands here by hand, but for its style.
"""

import random
import re
from datetime import datetime, timedelta
from html.parser import HTMLParser

from agenda import EMPTY, ONE, START, ZONES, free, run, tries
from lib.calendars import Calendar, instances
from lib.random_calendars import calendar_text
from lib.streams import R1
from lib.zones import DAY, EPOCH, WORDS, clock, means, moment, stamp

NAME = "r1@example.com"
# Its clocks change at midnight: one midnight a year doesn't exist, and one occurs twice.
BERLIN, HAVANA = "Europe/Berlin", "America/Havana"
WEEKDAYS = ["Monday", "Tuesday", "Wednesday", "Thursday", "Friday", "Saturday", "Sunday"]


def meeting(start, end, organiser="mailto:ann@example.com"):
    return ONE.replace("DTSTART:20250415T070000Z", f"DTSTART:{start}").replace("DTEND:20250415T080000Z", f"DTEND:{end}").replace("mailto:ann@example.com", organiser)


# ---- what a page says


class Page(HTMLParser):
    """The texts of a page, and what is wrong with it. A block is its class, its texts, and the instants of its times."""

    PLACES = {"html": None, "head": "html", "meta": "head", "title": "head", "style": "head", "body": "html", "header": "body", "h1": "header", "p": "header", "main": "body",
              "section": "main", "h2": "section", "ol": "section", "li": "ol", "b": "li"}

    def __init__(self, text):
        super().__init__(convert_charrefs=True)
        self.open, self.faults, self.texts, self.days = [], [], {}, []
        self.feed(text)
        self.close()
        if self.open:
            self.faults.append(f"not closed: {self.open}")

    def handle_decl(self, decl):
        if decl.lower() != "doctype html":
            self.faults.append(f"<!{decl}>")

    def handle_starttag(self, tag, attributes):
        parent = self.open[-1] if self.open else None
        places = {"time": ("h2", "span"), "span": ("li",)}.get(tag) or (self.PLACES.get(tag, "nowhere"),)
        if parent not in places:
            self.faults.append(f"{tag} in {parent}")
        names = dict(attributes)
        if set(names) - {"lang", "charset", "name", "content", "datetime", "role", "class"}:
            self.faults.append(f"{tag} {names}")
        if tag != "meta":
            self.open.append(tag)
        if tag == "section":
            self.days.append(["", None, []])
        elif tag == "li":
            self.days[-1][2].append([names["class"], [], []])
        elif tag == "time" and parent == "h2":
            self.days[-1][1] = names["datetime"]
        elif tag == "time":
            self.days[-1][2][-1][2].append(names["datetime"])

    def handle_endtag(self, tag):
        if not self.open or self.open.pop() != tag:
            self.faults.append(f"</{tag}>")

    def handle_data(self, text):
        if "li" in self.open:
            self.days[-1][2][-1][1].append(text)
        elif not text.strip():
            return
        elif "h2" in self.open:
            self.days[-1][0] += text
        else:
            place = self.open[-1] if self.open else ""
            self.texts[place] = self.texts.get(place, "") + text

    def said(self):
        """The days: each its heading, and its blocks: the class, all its words, and the instants at which it starts and ends."""
        days = []
        for heading, day, blocks in self.days:
            if not heading.endswith(f" {day}"):
                self.faults.append(f"heading {heading} of {day}")
            days.append((heading, [(kind, " ".join("".join(words).split()), *map(instant_of, times)) for kind, words, times in blocks]))
        return days


def instant_of(text):
    if not re.fullmatch(r"\d{4}-\d\d-\d\dT\d\d:\d\d:\d\dZ", text):
        return text
    return moment(text.replace("-", "").replace(":", ""))


# ---- what it has to say


def midnight(day, name):
    """The instant with which a day begins: of two midnights the first, and one that doesn't exist is read with the offset before."""
    return means(datetime(day.year, day.month, day.day), name)


def shown(instant, name):
    return clock(instant, name).strftime("%H:%M")


def wanted_days(found, start, end, name):
    """The days of a page with these instances, each a start, an end and who booked it, for a span and by the clocks of a zone."""
    days = []
    day = (EPOCH + timedelta(seconds=start)).date() - timedelta(days=2)
    while midnight(day, name) < end:
        first, last = midnight(day, name), midnight(day + timedelta(days=1), name)
        if max(first, start) < min(last, end):
            inside = [it for it in found if max(it[0], first) < min(it[1], last)]
            blocks = [("taken", *it) for it in inside] + [("free", a, b, "") for a, b in free([it[:2] for it in inside], first, last)]
            lines = []
            for kind, a, b, who in sorted(blocks, key=lambda it: it[1]):
                a, b = max(a, first), min(b, last)
                lines.append((kind, f"{shown(a, name)}–{'24:00' if b == last else shown(b, name)} {kind} {who}".strip(), a, b))
            days.append((f"{WEEKDAYS[day.weekday()]} {day}", lines))
        day += timedelta(days=1)
    return days


def in_one_order(days):
    return [(heading, sorted(blocks)) for heading, blocks in days]


def faults_of(text, name, found, start, end, zone):
    """What is wrong with a page of these instances; nothing where it is as it has to be."""
    page = Page(text)
    wanted = wanted_days(found, start, end, zone or "UTC")
    said = page.said()
    words = "All times are local." if zone else "All times are UTC."
    if page.texts.get("h1") != name or page.texts.get("title") != name or page.texts.get("p") != words:
        page.faults.append(f"around it: {page.texts.get('h1')}, {page.texts.get('title')}, {page.texts.get('p')}")
    if not text.startswith("<!doctype html>\n<html lang=\"en\">\n") or "://" in text or "url(" in text or set(page.texts) != {"title", "style", "h1", "p"}:
        page.faults.append("more than a page")
    # of instances that start together the first is the one of the lesser key, which isn't reckoned here
    if in_one_order(said) != in_one_order(wanted) or any(blocks != sorted(blocks, key=lambda it: it[2]) for _, blocks in said):
        page.faults.append(f"said {said}, wanted {wanted}")
    return page.faults


# ---- cases by hand


def whole_page(style):
    """The page of the meeting of 15 April in UTC, with its style."""
    return f"""<!doctype html>
<html lang="en">
<head>
<meta charset="utf-8">
<meta name="viewport" content="width=device-width">
<title>r1@example.com</title>
<style>
{style}</style>
</head>
<body>
<header>
<h1>r1@example.com</h1>
<p>All times are UTC.</p>
</header>
<main>
<section>
<h2>Tuesday <time datetime="2025-04-15">2025-04-15</time></h2>
<ol role="list">
<li class="free"><span class="when"><time datetime="2025-04-15T00:00:00Z">00:00</time>&ndash;<time datetime="2025-04-15T07:00:00Z">07:00</time></span> <b>free</b></li>
<li class="taken"><span class="when"><time datetime="2025-04-15T07:00:00Z">07:00</time>&ndash;<time datetime="2025-04-15T08:00:00Z">08:00</time></span> <b>taken</b> <span class="who">ann@example.com</span></li>
<li class="free"><span class="when"><time datetime="2025-04-15T08:00:00Z">08:00</time>&ndash;<time datetime="2025-04-16T00:00:00Z">24:00</time></span> <b>free</b></li>
</ol>
</section>
</main>
</body>
</html>
"""


def rows():
    """A name, a calendar, the span, a zone, and by hand the headings with the words of their blocks."""
    one = "20250415T000000Z", "20250416T000000Z"
    return [
        ("a day of one meeting", ONE, *one, None, [("Tuesday 2025-04-15", ["00:00–07:00 free", "07:00–08:00 taken ann@example.com", "08:00–24:00 free"])]),
        ("a room without instances", EMPTY, *one, None, [("Tuesday 2025-04-15", ["00:00–24:00 free"])]),
        ("a span within a day shows the whole day", ONE, "20250415T120000Z", "20250415T120001Z", None,
         [("Tuesday 2025-04-15", ["00:00–07:00 free", "07:00–08:00 taken ann@example.com", "08:00–24:00 free"])]),
        ("a span that ends at midnight doesn't touch the next day, and one that ends a second later does", EMPTY, "20250415T235959Z", "20250416T000001Z", None,
         [("Tuesday 2025-04-15", ["00:00–24:00 free"]), ("Wednesday 2025-04-16", ["00:00–24:00 free"])]),
        ("a free day between", meeting("20250414T070000Z", "20250414T080000Z"), "20250414T000000Z", "20250416T000000Z", None,
         [("Monday 2025-04-14", ["00:00–07:00 free", "07:00–08:00 taken ann@example.com", "08:00–24:00 free"]), ("Tuesday 2025-04-15", ["00:00–24:00 free"])]),
        ("what goes over midnight stands in both days", meeting("20250414T223000Z", "20250415T013000Z"), "20250414T120000Z", "20250415T120000Z", None,
         [("Monday 2025-04-14", ["00:00–22:30 free", "22:30–24:00 taken ann@example.com"]), ("Tuesday 2025-04-15", ["00:00–01:30 taken ann@example.com", "01:30–24:00 free"])]),
        ("what fills a day and more", meeting("20250413T220000Z", "20250416T020000Z"), *one, None, [("Tuesday 2025-04-15", ["00:00–24:00 taken ann@example.com"])]),
        ("by the clocks of Berlin the same meeting is on Tuesday alone", meeting("20250414T223000Z", "20250415T013000Z"), "20250415T080000Z", "20250415T090000Z", BERLIN,
         [("Tuesday 2025-04-15", ["00:00–00:30 free", "00:30–03:30 taken ann@example.com", "03:30–24:00 free"])]),
        ("a day of 23 hours", meeting("20250330T003000Z", "20250330T013000Z"), "20250330T080000Z", "20250330T090000Z", BERLIN,
         [("Sunday 2025-03-30", ["00:00–01:30 free", "01:30–03:30 taken ann@example.com", "03:30–24:00 free"])]),
        ("a day of 25 hours", meeting("20251026T003000Z", "20251026T013000Z"), "20251026T080000Z", "20251026T090000Z", BERLIN,
         [("Sunday 2025-10-26", ["00:00–02:30 free", "02:30–02:30 taken ann@example.com", "02:30–24:00 free"])]),
        ("a day without its midnight begins at 01:00", meeting("20250309T050000Z", "20250309T060000Z"), "20250309T120000Z", "20250309T130000Z", HAVANA,
         [("Sunday 2025-03-09", ["01:00–02:00 taken ann@example.com", "02:00–24:00 free"])]),
        ("of two midnights the first begins the day", meeting("20251102T043000Z", "20251102T053000Z"), "20251102T120000Z", "20251102T130000Z", HAVANA,
         [("Sunday 2025-11-02", ["00:00–00:30 free", "00:30–00:30 taken ann@example.com", "00:30–24:00 free"])]),
        ("the seconds of a time stand in its instant alone", meeting("20250415T070030Z", "20250415T080059Z"), *one, None,
         [("Tuesday 2025-04-15", ["00:00–07:00 free", "07:00–08:00 taken ann@example.com", "08:00–24:00 free"])]),
        ("an address with all that is escaped", meeting("20250415T070000Z", "20250415T080000Z", "mailto:a&b<i>\"x\"&amp;@example.com"), *one, None,
         [("Tuesday 2025-04-15", ["00:00–07:00 free", "07:00–08:00 taken a&b<i>\"x\"&amp;@example.com", "08:00–24:00 free"])]),
        ("another scheme stays", meeting("20250415T070000Z", "20250415T080000Z", "sip:ann@example.com"), *one, None,
         [("Tuesday 2025-04-15", ["00:00–07:00 free", "07:00–08:00 taken sip:ann@example.com", "08:00–24:00 free"])]),
        ("the first year", EMPTY, "00020101T000000Z", "00020102T000000Z", None, [("Tuesday 0002-01-01", ["00:00–24:00 free"])]),
        ("the last one", EMPTY, "99981231T000000Z", "99990101T000000Z", None, [("Thursday 9998-12-31", ["00:00–24:00 free"])]),
    ]


def usages():
    """Words that are refused or taken, and the status."""
    day = ["--from", "20250415T000000Z", "--until", "20250416T000000Z"]
    return [
        ("no end", ONE, ["--from", "20250415T000000Z", "--html"], 2),
        ("no beginning", ONE, ["--until", "20250415T000000Z", "--html"], 2),
        ("with --free", ONE, [*day, "--html", "--free"], 2),
        ("with --ics", ONE, [*day, "--html", "--ics"], 2),
        ("an end before its start", ONE, ["--from", "20250415T000000Z", "--until", "20250415T000000Z", "--html"], 2),
        ("62 days", ONE, ["--from", "20250415T000000Z", "--until", "20250616T000000Z", "--html"], 0),
        ("62 days and a second", ONE, ["--from", "20250415T000000Z", "--until", "20250616T000001Z", "--html"], 2),
        ("the year 1", ONE, ["--from", "00011231T235959Z", "--until", "00020102T000000Z", "--html"], 2),
        ("the year 9999", ONE, ["--from", "99981231T000000Z", "--until", "99990101T000001Z", "--html"], 2),
        ("no zone", ONE, [*day, "--html", "--zone=Europe/Berlin"], 2),
        ("no stamp", ONE, ["--from", "2025-04-15", "--until", "20250416T000000Z", "--html"], 2),
        ("no calendar", "BEGIN:VCALENDAR\r\n", [*day, "--html"], 3),
    ]


def zone_words(zone):
    return [f"--zone={WORDS[zone]}"] if zone else []


def by_hand(cases, program):
    one = ["--from", "20250415T000000Z", "--until", "20250416T000000Z", "--html"]
    for name, text, start, end, zone, wanted in rows():
        status, page, _ = run(program, text, R1, "--from", start, "--until", end, "--html", *zone_words(zone))
        read = Page(page)
        said = [(heading, [words for _, words, _, _ in blocks]) for heading, blocks in read.said()]
        cases.holds(name, (status, read.faults, said), (0, [], wanted))
    for name, text, words, wanted in usages():
        status, page, _ = run(program, text, R1, *words)
        cases.holds(name, (status, bool(page)), (wanted, wanted == 0))
    status, page, _ = run(program, ONE, R1, *one)
    style = page[page.find("<style>\n") + len("<style>\n"):page.find("</style>")]
    cases.holds("the whole page", (status, page, "<" in style, "@import" in style), (0, whole_page(style), False, False))
    odd = "mailto:r&d<1>\"2\"@example.com"
    status, page, _ = run(program, EMPTY, odd, *one)
    escaped = "<h1>r&amp;d&lt;1&gt;&quot;2&quot;@example.com</h1>" in page
    cases.holds("a room's address with all that is escaped", (status, Page(page).texts.get("h1"), escaped), (0, odd.removeprefix("mailto:"), True))


# ---- random calendars


def random_cases(cases, program, count, seed):
    for number in range(count):
        chance = random.Random(f"page {seed} {number}")
        text = calendar_text(chance)
        read = Calendar(text, R1)
        for turn in range(3):
            start = START + chance.randint(-400, 1500) * DAY + chance.randint(0, 95) * 900
            end = start + chance.choice([1, 3600, DAY, 7 * DAY, 30 * DAY, 62 * DAY])
            zone = chance.choice([None, *ZONES, HAVANA])
            found = [(a, b, "ann@example.com") for a, b in instances(read, start - 3 * DAY, end + 3 * DAY)]
            status, page, _ = run(program, text, R1, "--from", stamp(start), "--until", stamp(end), "--html", *zone_words(zone))
            cases.holds(f"page {seed} {number}, {turn}", (status, faults_of(page, NAME, found, start, end, zone)), (0, []))


if __name__ == "__main__":
    tries(by_hand, random_cases)
