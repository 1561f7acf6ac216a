"""Opens a page of `roombox agenda --html` in a browser, looks that nothing in it is wider than its place, and takes the pictures of docs/pictures.

    python3 tests/pictures.py bin/roombox [FOLDER]

It needs chromium, and tries the page in light and dark at the size of a tablet, of a phone and of a large screen, of a week and of 62 days. Three
pictures are kept in the folder, docs/pictures where none is given; they are of few colours and at most 60,000 octets each.
"""

import collections
import re
import shutil
import struct
import subprocess
import sys
import tempfile
import zlib
from pathlib import Path

from agenda import EMPTY, ONE
from lib.cases import Cases
from lib.program import ROOT, of_arguments
from lib.streams import R1 as ROOM
from lib.zones import DAY, WORDS, moment, stamp

SIZES = {"tablet": (1280, 800), "phone": (390, 844), "large": (1920, 1080), "small": (320, 640)}
KEPT = [("tablet", "light"), ("phone", "light"), ("large", "dark")]
MOST_OCTETS, MOST_COLOURS = 60_000, 64
# Which days of the week, from when to when in Berlin's winter, and who.
MEETINGS = [
    (0, "0900", "0930", "ann"), (0, "1100", "1230", "bob"), (0, "1400", "1600", "carla.of.the.long.name@engineering"), (1, "1000", "1100", "ann"),
    (3, "0900", "0930", "ann"), (3, "0930", "1015", "dan"), (3, "1300", "1700", "board"), (4, "0800", "1800", "workshop"),
]
MONDAY = moment("20250310T000000Z")
# Says in the page's title how much wider the widest element is than its place.
MEASURE = """<script>
let widest = document.documentElement.scrollWidth - document.documentElement.clientWidth;
for (const it of document.querySelectorAll("section, ol, li, h1, h2, header")) widest = Math.max(widest, it.scrollWidth - it.clientWidth);
document.title = `over ${widest} of ${innerWidth}, height ${document.documentElement.scrollHeight}, ${getComputedStyle(document.body).backgroundColor}`;
</script>"""


def calendar():
    """The calendar of a week, repeated for ten weeks."""
    begin, end = ONE.index("BEGIN:VEVENT"), ONE.index("END:VCALENDAR")
    event, text = ONE[begin:end], ""
    for week in range(10):
        for number, (day, first, last, who) in enumerate(MEETINGS):
            at = stamp(MONDAY + (7 * week + day) * DAY)[:9]
            who = f"mailto:{who}.example.com" if "@" in who else f"mailto:{who}@example.com"
            hour = lambda text: f"{int(text[:2]) - 1:02}{text[2:]}00Z"
            text += (event.replace("UID:a\\,b", f"UID:m{week}-{number}").replace("mailto:ann@example.com", who)
                     .replace("DTSTART:20250415T070000Z", f"DTSTART:{at}{hour(first)}").replace("DTEND:20250415T080000Z", f"DTEND:{at}{hour(last)}"))
    return EMPTY.replace("END:VCALENDAR", text + "END:VCALENDAR")


def page_of(program, folder, days):
    """The path of a page of so many days from that Monday on, in Berlin."""
    kept = Path(folder, "kept.ics")
    kept.write_text(calendar(), newline="")
    start = MONDAY - 3600
    words = [ROOM, "--from", stamp(start), "--until", stamp(start + days * DAY), "--html", f"--zone={WORDS['Europe/Berlin']}"]
    page = Path(folder, f"page-{days}.html")
    page.write_bytes(subprocess.run([program, "agenda", kept, *words], capture_output=True, timeout=60, check=True).stdout)
    return page


def browse(path, size, scheme, *words):
    """What chromium says of a page at a size."""
    width, height = size
    command = ["chromium", "--headless", "--no-sandbox", "--disable-gpu", "--hide-scrollbars", f"--blink-settings=preferredColorScheme={0 if scheme == 'dark' else 1}",
               f"--window-size={width},{height}", *words, f"file://{path}"]
    return subprocess.run(command, capture_output=True, timeout=120, text=True).stdout


def measure(page, size, scheme):
    """By how much something is wider than its place, and the colour of the page."""
    measured = page.with_name("measured.html")
    measured.write_text(page.read_text().replace("</body>", MEASURE + "</body>"))
    # Chromium opens no window as narrow as a phone: such a page is measured in a frame.
    framed = page.with_name("framed.html")
    framed.write_text(f"""<!doctype html><style>body {{ margin: 0 }} iframe {{ border: 0; width: {size[0]}px; height: {size[1]}px; color-scheme: {scheme} }}</style>
<iframe src="measured.html" onload="document.title = this.contentDocument.title"></iframe>""")
    title = re.search(r"<title>([^<]*)</title>", browse(framed, (max(600, size[0]), size[1]), scheme, "--allow-file-access-from-files", "--virtual-time-budget=5000", "--dump-dom"))
    found = re.fullmatch(r"over (-?\d+) of (\d+), height (\d+), (rgb\(.*\))", title[1] if title else "")
    return (int(found[1]), int(found[2]), found[4]) if found else None


# ---- pictures of few colours


def pixels_of(octets):
    """The width, the height and the rows of a PNG of 8 bits a sample, each row a list of colours (PNG 9.2)."""
    width, height, depth, kind = struct.unpack(">IIBB", octets[16:26])
    step, data, at = {2: 3, 6: 4}[kind], b"", 8
    while at < len(octets):
        length, name = struct.unpack(">I4s", octets[at:at + 8])
        data += octets[at + 8:at + 8 + length] if name == b"IDAT" else b""
        at += 12 + length
    data, size, above, rows = zlib.decompress(data), width * step, bytes(width * step), []
    for y in range(height):
        rule, row = data[y * (size + 1)], bytearray(data[y * (size + 1) + 1:(y + 1) * (size + 1)])
        for x in range(size) if rule else ():
            left, up, corner = row[x - step] if x >= step else 0, above[x], above[x - step] if x >= step else 0
            near = min((left, up, corner), key=lambda it: abs(left + up - corner - it))
            row[x] = (row[x] + (0, left, up, (left + up) // 2, near)[rule]) & 255
        rows.append([bytes(row[x:x + 3]) for x in range(0, size, step)])
        above = bytes(row)
    return width, height, rows


def with_few_colours(octets):
    """The same picture in its most frequent colours, and others as the nearest of them."""
    width, height, rows = pixels_of(octets)
    counts = collections.Counter(colour for row in rows for colour in row)
    kept = [colour for colour, _ in counts.most_common(MOST_COLOURS)]
    place = {colour: min(range(len(kept)), key=lambda k: sum((a - b) ** 2 for a, b in zip(kept[k], colour))) for colour in counts}
    data = b"".join(b"\0" + bytes(place[colour] for colour in row) for row in rows)
    chunk = lambda name, body: struct.pack(">I", len(body)) + name + body + struct.pack(">I", zlib.crc32(name + body))
    return (b"\x89PNG\r\n\x1a\n" + chunk(b"IHDR", struct.pack(">IIBBBBB", width, height, 8, 3, 0, 0, 0)) + chunk(b"PLTE", b"".join(kept))
            + chunk(b"IDAT", zlib.compress(data, 9)) + chunk(b"IEND", b""))


def take_picture(page, name, scheme, target):
    with tempfile.TemporaryDirectory() as folder:
        shot = Path(folder, "shot.png")
        browse(page, SIZES[name], scheme, f"--screenshot={shot}")
        target.write_bytes(with_few_colours(shot.read_bytes()))
    return target.stat().st_size


def main():
    cases, program, target = Cases(), of_arguments(), Path((sys.argv[2:] or [ROOT / "docs" / "pictures"])[0])
    if not shutil.which("chromium"):
        cases.lacks("pages in a browser", "chromium")
        cases.end()
    with tempfile.TemporaryDirectory() as folder:
        for days in (7, 62):
            page = page_of(program, folder, days)
            for name, size in SIZES.items():
                found = {scheme: measure(page, size, scheme) for scheme in ("light", "dark")}
                for scheme, measured in found.items():
                    cases.holds(f"{days} days, {name}, {scheme}: nothing is wider than its place", bool(measured) and measured[0] <= 0 and measured[1] == size[0], True)
                cases.holds(f"{days} days, {name}: light and dark differ", len({it and it[2] for it in found.values()}), 2)
        for name, scheme in KEPT:
            octets = take_picture(page_of(program, folder, 7), name, scheme, Path(target, f"page-{name}-{scheme}.png"))
            cases.holds(f"page-{name}-{scheme}.png has few octets", octets <= MOST_OCTETS, True)
    cases.end()


if __name__ == "__main__":
    main()
