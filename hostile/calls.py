"""Makes each allocation of the test programs fail in turn. A test passes, or gives up unless its file says that it calls again."""
import glob
import os
import re
import signal

from failing import ROOT, ended, run, spread

# The error texts of a failed allocation, and the end of a test with one, by status: it answers the error, or aborts with it.
NO_MEMORY = rb"(NoMemory|Refused\(NoMemory\)|AllocError|AllocFailed \{ \.\. \}|OutOfMemory|Kind\(OutOfMemory\))"
GIVES_UP = {
    101: re.compile(rb"^Error: " + NO_MEMORY + rb"\nthe test failed: .*\n\Z", re.MULTILINE),
    -signal.SIGABRT: re.compile(rb"^memory: " + NO_MEMORY + rb"\n\Z", re.MULTILINE),
}
# Tests in files of this name pass for every failed allocation.
ALWAYS_PASSES = "asked_again::"
# Tests that repeat a call after a failed allocation in it. The gate runs these.
ASK_AGAIN = [ALWAYS_PASSES, "growths::", "what_was_published_stands", "worlds::"]
# Tests with more allocations run less often.
MANY = 20_000


def programs():
    """Returns the paths of the test programs, once they are built, by the names of their crates."""
    crates = sorted(map(os.path.basename, glob.glob(os.path.join(ROOT, "crates", "*_tests"))))
    return {crate: os.path.join(ROOT, "crates", crate, "out", f"{crate}_tests") for crate in crates}


def tests_of(program):
    """Returns the names of a program's tests."""
    listed = ended([program, "--list"], b"", None).output.decode()
    return [line.removesuffix(": test") for line in listed.splitlines() if line.endswith(": test")]


def verdict(test, ran):
    """Returns whether a run of the test passed, gave up with NoMemory and nothing else, or deviated."""
    if ran.status == 0:
        return "passed"
    gives_up = ran.status in GIVES_UP and GIVES_UP[ran.status].search(ran.errors) and ALWAYS_PASSES not in test
    return "gave up" if gives_up else "deviated"


def try_test(report, library, pool, most, crate, program, test):
    """Runs a test as it is, and with each of at most so many of its allocations failing."""
    words = [program, test]
    count = run(library, words).counts.allocations
    numbers = [0, *spread(count, most if count <= MANY else max(1, most * MANY // count))]
    runs = list(pool.map(lambda number: run(library, words, FAIL_ALLOCATION=number), numbers))
    verdicts = [verdict(test, ran) for ran in runs]
    bad = [(number, ran.status, ran.errors[:200]) for number, ran, it in zip(numbers, runs, verdicts) if it == "deviated"]
    report.add(f"{crate} {test}", len(numbers), bad, f"{verdicts.count('gave up')} gave up, ")


def try_calls(report, library, pool, most, names):
    """Tries each test whose name, or whose crate's name, has one of these words."""
    for crate, program in programs().items():
        is_built = os.path.exists(program)
        if not is_built and (report.is_brief or not names or any(name in crate for name in names)):
            report.add(crate, 0, ["its tests are not built: rt ci builds them, or rt test in its folder"])
        for test in tests_of(program) if is_built else ():
            if not names or any(name in f"{crate} {test}" for name in names):
                try_test(report, library, pool, most, crate, program, test)
