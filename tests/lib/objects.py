"""What the lines of an object say, read without the program."""

import re


def lines_of(text):
    return [it for it in re.sub(r"\r?\n[ \t]", "", text).replace("\r\n", "\n").split("\n") if it]


def parted(line):
    """The name of a line, its parameters, and its value. No value in quotes holds a colon or a semicolon."""
    head, _, value = line.partition(":")
    name, *params = head.split(";")
    return name.upper(), {it.upper(): said.strip('"') for it, _, said in (param.partition("=") for param in params)}, value


def components(lines):
    """The VTIMEZONEs and VEVENTs: each a kind, its own lines, and the parts in it."""
    found, stack = [], []
    for line in lines:
        name, params, value = parted(line)
        if name == "BEGIN":
            stack.append((value.upper(), [], []))
        elif name == "END":
            done = stack.pop()
            if len(stack) == 1:
                found.append(done)
            elif stack:
                stack[-1][2].append(done)
        elif stack:
            stack[-1][1].append((name, params, value))
    return found


def own_lines(lines):
    """Those of the VCALENDAR that are in no component."""
    found, depth = [], 0
    for line in lines:
        name, params, value = parted(line)
        depth += {"BEGIN": 1, "END": -1}.get(name, 0)
        if depth == 1 and name not in ("BEGIN", "END"):
            found.append((name, params, value))
    return found


def first(own, name):
    return next(((params, value) for it, params, value in own if it == name), None)
