"""What endless series cost that are settled by one common period, beside the same compared up to year 10000. Each time has a bar on a fast machine,
one that lists 4,700,000 instances a second of the daily series in New York; elsewhere it is divided by this machine's share of that."""

import os
import sys
import tempfile

from runs import checked, kept, least, run, serve, share_of_fast
from texts import NEW_YORK, ROOM, certificate_of, in_paris, preamble, recurring


def decided(program, requests):
    """The seconds in which a room takes these requests, beyond those of the program's own start."""
    whole = least(lambda: serve(program, [preamble(1), *requests], len(requests))[0])
    return max(whole - least(lambda: serve(program, [preamble(1)], 0)[0]), 1e-4)


def by_both(program, requests):
    """The seconds of the checker's yes to the kept certificate, and to one whose entries say END."""
    calendar, certificate = kept(program, requests)[1], kept(program, requests, "--certificate")[1]
    if b"END" in certificate:
        sys.exit(f"no period: {certificate!r}")
    ends = certificate_of(0, len(requests)).encode()
    return least(lambda: checked(program, [calendar], certificate)[0]), checked(program, [calendar], ends)[0]


def pair_alone(worked, requests, program):
    """The seconds of one comparison of a pair, of the many that a table of cases asks for."""
    calendar = kept(program, requests)[1].decode().replace("\r\n", "\\r\\n")
    times = 10

    def asked(count):
        case = f"a pair | text | {calendar}" + f" | clashes {ROOM.format(0)}" * count + "\n"
        with tempfile.TemporaryDirectory() as folder:
            for name in ("messages.txt", "residues.txt", "events.txt", "calendars.txt", "organisers.txt"):
                with open(os.path.join(folder, name), "w", encoding="utf-8") as file:
                    file.write(case if name == "messages.txt" else "")
            ran = run([os.path.abspath(worked)], folder=folder)
        if ran.status != 0 or ran.output.count(b"clear, clear") != count:
            sys.exit(f"clashes: status {ran.status}, {ran.output!r}")
        return ran.seconds

    return (least(lambda: asked(times + 1)) - least(lambda: asked(1))) / times / 2


def weekly(count, zone=""):
    """So many weekly series of an hour each, none beside another, in UTC or in New York."""
    days = [f"202501{6 + number % 7:02}T{number // 7 + 5:02}0000Z" for number in range(count)]
    return [recurring(number, start, "FREQ=WEEKLY", zone=zone) for number, start in enumerate(days)]


def spans(program, worked):
    share = share_of_fast(program)
    print(f"{'by one common period':<46}{'ms':>8}{'of a fast machine':>19}{'bar':>6}{'up to 10000, ms':>17}{'times':>9}")

    def row(work, seconds, bar, to_the_horizon):
        fast = seconds * share * 1000
        print(f"{work:<46}{seconds * 1000:>8.1f}{fast:>19.1f}{bar:>6}{to_the_horizon * 1000:>17.0f}{to_the_horizon / seconds:>9.1f}")

    two_zones = [recurring(0, "20250106T100000Z", "FREQ=WEEKLY", zone=NEW_YORK), in_paris(1, "20250106T173000Z", "FREQ=WEEKLY")]
    daily = [recurring(number, f"20250106T{9 + number:02}0000Z", "FREQ=DAILY", zone=NEW_YORK) for number in range(2)]
    yearly = [recurring(0, "20250106T090000Z", "FREQ=YEARLY;INTERVAL=3"), recurring(1, "20250107T090000Z", "FREQ=YEARLY;INTERVAL=5")]
    for work, bar, requests in (("two weekly series in two zones decided", 20, two_zones), ("two daily series in New York decided", 120, daily), ("two yearly series of INTERVAL 3 and 5 decided", 50, yearly)):
        row(work, decided(program, requests), bar, by_both(program, requests)[1])
    row("the pair of the daily ones alone", pair_alone(worked, daily, program), 60, by_both(program, daily)[1])
    settled, to_the_horizon = by_both(program, weekly(8, NEW_YORK))
    row("8 weekly series in New York checked, 8 times", settled, "", to_the_horizon)
    series = weekly(64)
    written = least(lambda: kept(program, series, "--certificate")[0]) - least(lambda: serve(program, [preamble(1), *series], 64)[0])
    row("the certificate of 64 series written", max(written, 1e-4), 50, by_both(program, weekly(8))[1])


if __name__ == "__main__":
    spans(sys.argv[1], sys.argv[2])
