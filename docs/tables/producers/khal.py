"""The VTIMEZONEs of khal: `/usr/bin/python3 khal.py > khal.zones` (khal, python3-icalendar)."""
import datetime as dt
import sys

import pytz
from khal.khalendar.event import create_timezone

for name in sorted(pytz.all_timezones):
    zone = pytz.timezone(name)
    try:
        text = create_timezone(zone, zone.localize(dt.datetime(2025, 4, 15, 9))).to_ical()
    except AttributeError:  # UTC
        continue
    sys.stdout.buffer.write(name.encode() + b"\n" + text + b"\0")
