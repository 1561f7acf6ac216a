"""The one place where objects are changed on their way: each object of a mail goes through `adapted` before it gets its name in the inbox, and each
answer through `adapted_back` before it is put into mails.

The inbox keeps an object as it came, so that its answers can be told in its words; `roombox box --adapt` makes it readable."""

import subprocess
import tempfile
from collections import namedtuple

# The program, and the file that its `--zones` is given, or None.
Roombox = namedtuple("Roombox", "program zones")

# The status of roombox for a file that it refuses.
REFUSED = 3


def adapted(octets):
    """The object as the inbox gets it."""
    return octets


def adapted_back(octets, message, roombox):
    """The answer to `message`, in its words: its names of zones with their VTIMEZONEs, and its RECURRENCE-ID. Each VEVENT is in an object of its own,
    since many programs read only the first one of a mail. What isn't one object has no words of its own."""
    zones = ["--zones", roombox.zones] if roombox.zones else []
    with tempfile.NamedTemporaryFile() as original:
        original.write(message)
        original.flush()
        told = [
            subprocess.run([roombox.program, "adapt", "--reply-to", original.name, "--single", *words], input=octets, capture_output=True)
            for words in (zones, [])[: 2 if zones else 1]
        ]
    if told[-1].returncode == REFUSED:
        return octets
    told[0].check_returncode()
    return told[0].stdout
