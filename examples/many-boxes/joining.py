"""The answers of several boxes to the same objects, put together to what one box would answer that hosts all their rooms and organisers."""

import re

LINE = re.compile(rb"REFUSED;OBJECT=([0-9]+):([0-9]+)")
NOT_HOSTED = b"70"


def parts(octets):
    """The calendar objects of an answer, and its lines for refused objects by the number of the object, each with the number of the refusal."""
    objects, refused, begun = [], {}, []
    for line in re.findall(rb"[^\n]*\n", octets):
        found = None if begun else LINE.match(line)
        if found:
            refused[int(found[1])] = found[2]
            continue
        begun.append(line)
        if line.rstrip() == b"END:VCALENDAR":
            objects.append(b"".join(begun))
            begun = []
    return objects, refused


def one_line(numbers):
    """Of an object that each box refuses: what the box says that hosts its organiser, while the others say 70; else what all say."""
    return next((number for number in numbers if number != NOT_HOSTED), NOT_HOSTED)


def joined(answers):
    """The objects of all boxes, box by box, and a line for each object that all of them refuse. An object that only some refuse is an organiser's, whose
    box has answered it: the lines of the others are dropped."""
    several = [parts(octets) for octets in answers]
    lines = [refused for _, refused in several]
    by_all = sorted(set(lines[0]).intersection(*lines[1:]))
    written = [b"REFUSED;OBJECT=%d:%s\r\n" % (k, one_line([refused[k] for refused in lines])) for k in by_all]
    return b"".join([octets for objects, _ in several for octets in objects] + written)
