"""Runs a program in which an allocation, a read or a write fails, and reports the runs."""
import collections
import os
import shutil
import subprocess
import sys
import tempfile

HERE = os.path.dirname(os.path.realpath(__file__))
ROOT = os.path.dirname(HERE)
PROGRAM = os.environ.get("PMIXGROUP", os.path.join(ROOT, "crates", "pmixgroup", "out", "pmixgroup"))
SECONDS = 60

# The counts of requests, and the most bytes that were held and in memory.
Counts = collections.namedtuple("Counts", "allocations reads writes held resident", defaults=[0] * 5)
# The end of a run. It has no status if it did not end in time; a signal's status is negative.
Ran = collections.namedtuple("Ran", "status output errors counts")


def library_in(folder):
    """Builds the library that makes things fail in this folder, and returns its path."""
    if not shutil.which("cc"):
        sys.exit("hostile/run needs a C compiler, and there is no command cc")
    library = os.path.join(folder, "fail.so")
    subprocess.run(["cc", "-shared", "-fPIC", "-O1", "-o", library, os.path.join(HERE, "fail.c"), "-ldl"], check=True)
    return library


def ended(words, data, environment):
    """Runs a program on this input, and returns how it ends."""
    try:
        done = subprocess.run(words, input=data, capture_output=True, env=environment, timeout=SECONDS)
    except subprocess.TimeoutExpired:
        return Ran(None, b"", b"", Counts())
    return Ran(done.returncode, done.stdout, done.stderr, Counts())


def run(library, words, data=b"", **failing):
    """Runs a program on this input while this fails, and returns how it ends, with its counts."""
    with tempfile.NamedTemporaryFile() as counts:
        environment = dict(os.environ, LD_PRELOAD=library, FAIL_COUNTS=counts.name)
        environment.update((name, str(value)) for name, value in failing.items())
        ran = ended(words, data, environment)
        return ran._replace(counts=Counts(*map(int, counts.read().split())))


def spread(count, most):
    """Returns at most so many of the numbers from 1 to the count, spread evenly."""
    return sorted({1 + i * count // most for i in range(most)} if most < count else range(1, count + 1))


class Report:
    """The trials, and those that deviated. A brief report has lines only for parts, and for deviations."""

    def __init__(self, is_brief):
        self.is_brief = is_brief
        self.tried = self.deviated = 0

    def add(self, what, tried, bad, more=""):
        """Adds the trials of something and those that deviated, and prints a line of it."""
        if bad or not self.is_brief:
            print(f"{what}: {tried} tried, {more}{len(bad)} deviated", *bad[:3], flush=True)
        self.tried, self.deviated = self.tried + tried, self.deviated + len(bad)

    def part(self, name, work):
        """Does a part of the work, and prints a line for the whole part."""
        tried, deviated = self.tried, self.deviated
        work()
        print(f"{name}: {self.tried - tried} tried, {self.deviated - deviated} deviated", flush=True)
