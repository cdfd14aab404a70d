"""Reads the examples: inputs of the program, with their output and status, as README.md says; and the shell lines of the pages that a
newcomer reads."""
import collections
import glob
import itertools
import os
import re

HERE = os.path.dirname(os.path.realpath(__file__))
ROOT = os.path.dirname(HERE)
# The pages whose blocks are shell lines and outputs in turn, among blocks of other kinds.
PASTED = ["README.md", "docs/TUTORIAL.md"]
Example = collections.namedtuple("Example", "name command data output status")


def read(path):
    """Returns the file's content, or nothing if there is no file."""
    if not os.path.exists(path):
        return None
    with open(path, "rb") as source:
        return source.read()


def statuses():
    """Returns the statuses of the examples that are files, by command and name, from the table in README.md."""
    page = read(os.path.join(HERE, "README.md")).decode()
    rows = re.findall(r"^\| `([\w-]+)`(?: \(`(\w+)`\))? \| .* \| (\d) \|$", page, re.MULTILINE)
    return {(command or "dump", name): int(status) for name, command, status in rows}


def files():
    """Returns the examples that are files, and those that the table lists."""
    known = statuses()
    # The folder of a command has rows beside it; the folder of the library for C has none.
    found = [it for it in glob.glob(os.path.join(HERE, "*", "*")) if os.path.exists(os.path.dirname(it) + ".rows")]
    paths = {tuple(it.split(os.sep)[-2:]): it for it in found if not it.endswith(".out")}
    inputs = {(command, os.path.splitext(name)[0]): path for (command, name), path in paths.items()}
    for command, name in sorted(set(inputs) | set(known)):
        data = read(inputs.get((command, name), ""))
        output = read(os.path.join(HERE, command, name + ".out"))
        yield Example(f"{command}/{name}", command, data, output, known.get((command, name)))


def text_of(lines):
    """Returns the bytes of lines in which a backslash begins an escape."""
    return b"".join(lines).decode("unicode_escape").encode("latin-1")


def rows_of(command):
    """Returns the examples of a command's rows: one for each bar, if a row has bars."""
    source = read(os.path.join(HERE, command + ".rows"))
    for head, body in re.findall(rb"^== (.*)\n((?:(?!== ).*\n)*)", source, re.MULTILINE):
        name, _, status = head.decode().partition(": ")
        lines = body.splitlines(keepends=True)
        output = text_of(it[1:] for it in lines if it.startswith(b" "))
        inputs = [it for it in lines if not it.startswith(b" ")]
        bars = [number for number, line in enumerate(inputs) if line.startswith(b"|")]
        for bar in bars or [None]:
            data = text_of(it.removeprefix(b"|") for number, it in enumerate(inputs) if number == bar or number not in bars)
            which = "" if bar is None else " " + inputs[bar].decode().rstrip("\n")
            yield Example(f"{command}.rows {name}{which}", command, data, output, int(status or 0))


def steps_of(page):
    """Returns the shell lines of a page, each with its output, which is the next block. A line without such a block differs from any output."""
    text = read(os.path.join(ROOT, page)).decode()
    blocks = [it for it in re.findall(r"^```(\w*)\n(.*?)^```$", text, re.MULTILINE | re.DOTALL) if it[0] in ("sh", "")]
    for (kind, line), (after, output) in itertools.zip_longest(blocks[::2], blocks[1::2], fillvalue=("", "")):
        is_step = (kind, after) == ("sh", "")
        yield Example(f"{page} {line.strip()}", None, line if is_step else "", output.encode() if is_step else None, 0)


def steps():
    return [step for page in PASTED for step in steps_of(page)]


def examples():
    """Returns all examples of the commands."""
    return [*files(), *(row for command in ("dump", "merge", "replay", "run") for row in rows_of(command))]
