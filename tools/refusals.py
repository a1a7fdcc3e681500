"""Runs tests of a program that was built, and refuses a request for memory of each run: for ./test and tools/refuse.

refusals.c is loaded into the program, and refuses the request of one number, of the whole test or of each call that the test has between marks
(tests/support/marks.rs). So a program is built once, and is the same whichever is refused. With the address sanitizer it can't be done, since that brings
a malloc of its own.

A test may end with the refusal, as `?` does. Any other end shows that a refused call answered wrongly or left something behind. A test that looks at what a
refused call left makes the call again, and ends with the refusal when all else was right.
"""
import collections
import pathlib
import re
import struct
import subprocess
import tempfile

import suite_program

SOURCE = pathlib.Path(__file__).resolve().with_name("refusals.c")
# what refusals.c has as Counts
COUNTS = struct.Struct("=5Q")
# the status of a test that ends with an error, and the last line of one that passed
FAILED, PASSED = 101, "test result: ok\n"
# The cause alone: a status has no text.
REFUSAL = re.compile(r'^[Ee]rror: (?!.*code: OutOfMemory, err: Some\("[^"]).*(OutOfMemory|AllocFailed|AllocError)', re.MULTILINE)
# how a test ended, how many requests it made, the most of them in one call or else all, and how many were refused
Run = collections.namedtuple("Run", "status said made most refused")


def build(folder):
    """Builds what is loaded into programs. Returns its path in the folder, or none and what was said."""
    toolchain, made = suite_program.kit() / "toolchain", pathlib.Path(folder, "refusals.so")
    how = ["--target=x86_64-unknown-linux-gnu", "--no-default-config", "-O1", "-fno-builtin", "-fPIC", "-shared", "-nostdlib", "-fuse-ld=lld"]
    words = [toolchain / "bin/clang", *how, "-o", made, SOURCE, toolchain / "lib/libc.so.6"]
    try:
        ran = subprocess.run(words, stdin=subprocess.DEVNULL, stdout=subprocess.PIPE, stderr=subprocess.STDOUT, text=True)
    except OSError as error:
        return None, str(error)
    return None if ran.returncode else made, ran.stdout


def run(end_of, library, command, number=0, of_calls=False):
    """Runs the command of a test by a function that takes its environment, too, and returns its status and what it said. The request of this number is refused,
    of the whole test or of each of its calls; none is at 0."""
    with tempfile.NamedTemporaryFile(prefix="refusals-") as file:
        file.write(COUNTS.pack(number, of_calls, 0, 0, 0))
        file.flush()
        loader, *words = command
        status, said = end_of([loader, "--preload", str(library), *words], {"REFUSALS": file.name})
        file.seek(0)
        return Run(status, said, *COUNTS.unpack(file.read())[2:])


def run_all(end_of, library, command, at_most):
    """Runs the command of a test, and then again with one request of each call refused, in turn, so many times at most. Returns the runs by the number of that."""
    first = run(end_of, library, command, of_calls=True)
    return {0: first, **{number: run(end_of, library, command, number, True) for number in first_and_evenly(first.most, at_most)}}


def ends_with_refusal(ran):
    """Whether a test ended with the refusal that it met."""
    return ran.status == FAILED and ran.refused > 0 and bool(REFUSAL.search(ran.said))


def fault(ran, number):
    """Returns what is wrong with a run in which the request of this number was to be refused, or an empty text."""
    if number and not ran.refused:
        return f"no request was refused\n{ran.said}"
    if ran.status == 0 and ran.said.endswith(PASSED) or ends_with_refusal(ran):
        return ""
    return f"it ended with status {ran.status}\n{ran.said}"


def evenly(first, last, at_most):
    """Returns so many of the numbers from the first to the last at most: these two, and others evenly apart."""
    if last - first < at_most:
        return [*range(first, last + 1)]
    return sorted({first + at * (last - first) // (at_most - 1) for at in range(at_most)})


def first_and_evenly(last, at_most):
    """Returns so many of the numbers from 1 to the last at most: the first ones, which most calls reach, and as many others evenly apart."""
    half = at_most // 2
    return evenly(1, min(half, last), half) + evenly(half + 1, last, at_most - half)
