"""The VTIMEZONEs of vobject: `/usr/bin/python3 vobject_zones.py > vobject.zones` (python3-vobject, python3-dateutil)."""
import sys
import zoneinfo

import dateutil.tz
from vobject.icalendar import TimezoneComponent

for name in sorted(zoneinfo.available_timezones()):
    text = TimezoneComponent(dateutil.tz.gettz(name)).serialize().encode()
    sys.stdout.buffer.write(name.encode() + b"\n" + text + b"\0")
