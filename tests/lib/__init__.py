"""What the scripts of tests/ share: the program and its runs, cases, streams of objects, zones, and calendars by dateutil."""
