"""Makes each allocation, read and write of the program fail in turn, on each of the examples."""
import functools
import re

from failing import PROGRAM, run, spread
from rows import examples, files

NO_MEMORY = b"refused 0 NoMemory\n"
READ_FAULT = b"read fault\n"
LINE = re.compile(rb"client \S+ \d+ (found \d+ own \d+|refused \d+ \w+)|proc \S+ \d+ level \d+|  \S+ \S+|audit ok")


def follows(output, whole, last):
    """Returns whether the output is some whole first lines of another output, and then this last line."""
    first = output[: -len(last)]
    return output.endswith(last) and whole.startswith(first) and (not first or first.endswith(b"\n"))


def is_whole(output):
    """Returns whether each line of a job's output is whole."""
    return all(LINE.fullmatch(line) for line in output.splitlines()) and (not output or output.endswith(b"\n"))


def clients(output):
    """Returns the clients with a line in a job's output, in its order."""
    return re.findall(rb"^client (\S+ \d+) ", output, re.MULTILINE)


class Example:
    """An example, and the ways in which the program may end on it."""

    def __init__(self, library, example):
        self.library = library
        self.name, self.command, self.data, self.output, self.status = example

    def run(self, **failing):
        return run(self.library, [PROGRAM, self.command], self.data, **failing)

    @functools.lru_cache(maxsize=None)
    def replies_to(self, size):
        """Returns the replies to so many first bytes of a script."""
        return run(self.library, [PROGRAM, "replay"], self.data[:size]).output

    def may_end(self, _, ran):
        """Returns whether the run ended as if nothing had failed."""
        return (ran.status, ran.output) == (self.status, self.output)

    def may_lack_memory(self, number, ran):
        """Returns whether the run ended as after a failed allocation."""
        if self.may_end(number, ran) or (ran.status, ran.output) == (3, NO_MEMORY):
            return True
        if self.command == "replay":
            return ran.status == 3 and follows(ran.output, self.output, NO_MEMORY)
        if self.command != "run" or ran.status != 1:
            return False
        return is_whole(ran.output) and clients(ran.output) == clients(self.output)

    def may_lack_input(self, _, ran):
        """Returns whether the run ended as after a failed read."""
        if self.command == "replay":
            return ran.status == 1 and follows(ran.output, self.output, READ_FAULT)
        return (ran.status, ran.output) == (1, READ_FAULT)

    def may_lack_byte(self, number, ran):
        """Returns whether the run ended as after a failed read of the byte of this number: a script has the replies to its lines before."""
        if self.command != "replay":
            return self.may_lack_input(number, ran)
        before = self.replies_to(self.data.rfind(b"\n", 0, number - 1) + 1)
        return (ran.status, ran.output) == (1, before + READ_FAULT)

    def may_lack_output(self, _, ran):
        """Returns whether the run ended as after a failed write."""
        return ran.status == 1 and self.output.startswith(ran.output)

    def may_lack_written(self, number, ran):
        """Returns whether the run ended as after a failed write of the byte of this number, and of all later bytes."""
        return (ran.status, ran.output) == (1, self.output[: number - 1])


# Each failure: its name, its count, the variable that asks for it, and the check of the run's end.
KINDS = [
    ("allocations", "allocations", "FAIL_ALLOCATION", {}, Example.may_lack_memory),
    ("reads", "reads", "FAIL_READ", {}, Example.may_lack_input),
    ("interrupted reads", "reads", "FAIL_READ", {"FAIL_AS": "interrupt"}, Example.may_lack_input),
    ("reads that would wait", "reads", "FAIL_READ", {"FAIL_AS": "wait"}, Example.may_lack_input),
    ("reads of one byte", "reads", "FAIL_READ", {"FAIL_SHORT": 1}, Example.may_lack_byte),
    ("writes", "writes", "FAIL_WRITE", {}, Example.may_lack_output),
    ("interrupted writes", "writes", "FAIL_WRITE", {"FAIL_AS": "interrupt"}, Example.may_end),
    ("writes that would wait", "writes", "FAIL_WRITE", {"FAIL_AS": "wait"}, Example.may_lack_output),
    ("writes that take nothing", "writes", "FAIL_WRITE", {"FAIL_AS": "nothing"}, Example.may_lack_output),
    ("writes of one byte, and all after", "writes", "FAIL_WRITE", {"FAIL_SHORT": 1, "FAIL_ON": 1}, Example.may_lack_written),
]


def try_example(report, library, pool, most, example):
    """Tries at most so many numbers of each kind on one example."""
    short = example.run(FAIL_SHORT=1)
    counts = {True: short.counts, False: example.run().counts}
    report.add(f"{example.name}: one byte at a time", 1, [] if example.may_end(0, short) else [short[:2]])
    for kind, counted, asked, more, may_end in KINDS:
        numbers = spread(getattr(counts["FAIL_SHORT" in more], counted), most)
        runs = pool.map(lambda number: example.run(**{asked: number}, **more), numbers)
        bad = [(number, *ran[:2]) for number, ran in zip(numbers, runs) if not may_end(example, number, ran)]
        report.add(f"{example.name}: {kind}", len(numbers), bad)


def try_examples(report, library, pool, most, names):
    """Tries at most so many numbers of each kind on each example whose name has one of these words; a brief report covers only files."""
    for it in files() if report.is_brief else examples():
        if not names or any(name in it.name for name in names):
            try_example(report, library, pool, most, Example(library, it))
