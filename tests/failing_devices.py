"""Has each read of standard input and each write of standard output fail in turn, of one octet each: what `serve` then ends with, and what it has answered.

    python3 tests/failing_devices.py bin/roombox

The calls are made to fail by a small shim over the C library's read and write, built by gcc in a temporary folder. What has to come out is said in
docs/REFERENCE.md: status 4 and `roombox: device`. After a read that fails, the answers to the objects of which the octet behind their end was read, whole;
after a write that fails, all octets before it. The stream has a decline, a cancellation, a repeat and a revision. `keep`, `expand` and `explain` answer
nothing after a read that fails, nor does the door before an object has ended, but for its first octet, which `adapt` hands on as soon as it has come.
"""

import os
import tempfile

from lib.cases import Cases
from lib.program import ended, of_arguments, read, shim, without_reason
from lib.streams import R1

# Each object with the file of its answer, None where there is none.
STREAM = (
    ("request-a", "accepted-a"),
    ("request-b-busy", "declined-b"),
    ("cancel-a-sequence-1", None),
    ("request-b-busy", "declined-b"),
    ("request-b-busy-sequence-1", "accepted-b-1"),
)
DEVICE = (4, b"roombox: device\n")

SHIM = r"""
#define _GNU_SOURCE
#include <dlfcn.h>
#include <errno.h>
#include <stdlib.h>
#include <unistd.h>

static long asked(const char *name) {
    const char *text = getenv(name);
    return text ? atol(text) : 0;
}

ssize_t read(int file, void *octets, size_t count) {
    static ssize_t (*real)(int, void *, size_t);
    static long calls;
    if (!real) real = dlsym(RTLD_NEXT, "read");
    if (file != 0 || count == 0) return real(file, octets, count);
    if (++calls == asked("FAILING_READ")) { errno = EIO; return -1; }
    return real(file, octets, 1);
}

ssize_t write(int file, const void *octets, size_t count) {
    static ssize_t (*real)(int, const void *, size_t);
    static long calls;
    if (!real) real = dlsym(RTLD_NEXT, "write");
    if (file != 1 || count == 0) return real(file, octets, count);
    if (++calls == asked("FAILING_WRITE")) { errno = EIO; return -1; }
    return real(file, octets, 1);
}
"""


class Devices:
    """Runs the program with the shim."""

    def __init__(self, program, folder):
        self.program, self.shim = program, shim(folder, SHIM)

    def run(self, words, given, **failing):
        """The status, standard output and standard error of a run whose call of this number fails."""
        environment = dict(os.environ, LD_PRELOAD=self.shim, **{name: str(number) for name, number in failing.items()})
        status, out, said = ended(self.program, *words, given=given, env=environment)
        return status, out, without_reason(said.decode()).encode()


def served(cases, devices):
    """Each read and each write of the stream, and the reads of its end."""
    preamble = read("preamble")
    given, answers, ends = preamble, b"", []
    for name, answer in STREAM:
        given += read(name)
        answers += read(answer) if answer else b""
        # what is answered once the octet behind the object was read
        ends.append((len(given) + 1, answers))
    cases.holds("no call fails", devices.run(["serve"], given), (0, answers, b""))
    for call in range(1, len(given) + 2):
        octets = call - 1
        sent = b"".join([answer for end, answer in ends if end <= octets][-1:])
        cases.holds(f"read {call}", devices.run(["serve"], given, FAILING_READ=call), (DEVICE[0], sent, DEVICE[1]))
    cases.holds("the end of the input is read once", devices.run(["serve"], given, FAILING_READ=len(given) + 2), (0, answers, b""))
    for call in range(1, len(answers) + 1):
        cases.holds(f"write {call}", devices.run(["serve"], given, FAILING_WRITE=call), (DEVICE[0], answers[: call - 1], DEVICE[1]))


def others(cases, devices):
    """The other commands that read standard input, and the door with one object: what they write comes after all of it."""
    stream = read("preamble") + read("request-a")
    request = read("request-a")
    rows = (["keep", R1], stream), (["keep", "--certificate", R1], stream), (["expand"], request), (["explain"], request), (["adapt"], request), (["serve", "--adapt"], stream)
    for words, given in rows:
        what = " ".join(words[:2])
        status, out, said = devices.run(words, given)
        cases.holds(f"{what}, no call fails", (status, said), (0, b""))
        for call in range(1, len(given) + 2):
            begun = given[:1] if words == ["adapt"] and call > 1 else b""
            cases.holds(f"{what}, read {call}", devices.run(words, given, FAILING_READ=call), (DEVICE[0], begun, DEVICE[1]))
        for call in range(1, len(out) + 1):
            cases.holds(f"{what}, write {call}", devices.run(words, given, FAILING_WRITE=call), (DEVICE[0], out[: call - 1], DEVICE[1]))


def main():
    cases = Cases()
    with tempfile.TemporaryDirectory() as folder:
        devices = Devices(of_arguments(), folder)
        served(cases, devices)
        others(cases, devices)
    cases.end()


if __name__ == "__main__":
    main()
