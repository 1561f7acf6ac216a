"""The VTIMEZONEs that GNOME's evolution-data-server cuts for a meeting: `/usr/bin/python3 gnome.py < libical.zones > gnome.zones` (libecal-2.0)."""
import ctypes as c
import sys

ICAL, CAL, OBJECT = c.CDLL("libical-glib.so.3"), c.CDLL("libecal-2.0.so.2"), c.c_void_p
HEAD = b"BEGIN:VEVENT\r\nUID:a\r\nDTSTAMP:20250101T080000Z\r\n"
KINDS = {
    "single": b"DTSTART;TZID=%(id)b:20250415T090000\r\nDTEND;TZID=%(id)b:20250415T100000\r\n",
    "endless": b"DTSTART;TZID=%(id)b:20250415T090000\r\nDTEND;TZID=%(id)b:20250415T100000\r\nRRULE:FREQ=WEEKLY\r\n",
    "moved": b"RECURRENCE-ID;TZID=%(id)b:20250415T090000\r\nDTSTART;TZID=%(id)b:20250415T110000\r\nDTEND;TZID=%(id)b:20250415T120000\r\n",
}


def function(library, name, result, *arguments):
    found = getattr(library, name)
    found.restype, found.argtypes = result, arguments
    return found


builtin = function(ICAL, "i_cal_timezone_get_builtin_timezone", OBJECT, c.c_char_p)
component = function(ICAL, "i_cal_timezone_get_component", OBJECT, OBJECT)
tzid = function(ICAL, "i_cal_timezone_get_tzid", c.c_char_p, OBJECT)
read = function(ICAL, "i_cal_component_new_from_string", OBJECT, c.c_char_p)
text = function(ICAL, "i_cal_component_as_ical_string", c.c_char_p, OBJECT)
clone = function(ICAL, "i_cal_component_clone", OBJECT, OBJECT)
cut = function(CAL, "e_cal_util_clamp_vtimezone_by_component", None, OBJECT, OBJECT)

for record in sys.stdin.buffer.read().split(b"\0"):
    name = record.split(b"\n")[0]
    if not name:
        continue
    zone = builtin(name)
    for kind, times in KINDS.items():
        own = clone(component(zone))
        cut(own, read(HEAD + times % {b"id": tzid(zone)} + b"END:VEVENT\r\n"))
        sys.stdout.buffer.write(kind.encode() + b" " + name + b"\n" + text(own) + b"\0")
