"""Draws streams, scripts and jobs from a fixed seed: examples with a few bytes changed, and inputs field by field."""
import json
import random
import re
import shutil

from failing import PROGRAM, ended
from rows import files

SEED = 20
REFUSED = re.compile(rb"(refused \d+ \w+(: .+)?|read fault)\n")


def drawn_proc(rng):
    """Draws a process, mostly one of a few."""
    name = rng.choice([b"j", b"j", b"k", b"pmix.host", b"", b"n" * rng.randint(1, 255)])
    return bytes([len(name)]) + name + rng.choice([0, 1, 2, 4095, 4096, 2**32 - 1]).to_bytes(4, "big")


def drawn_number(rng):
    """Draws a commit's number, a level or an instance, mostly a small one."""
    return rng.choice([0, 1, 2, 3, rng.getrandbits(4), 2**32 - 1, 2**32, rng.getrandbits(64)]).to_bytes(8, "big")


def drawn_value(rng):
    """Draws a value: a tag and a body that mostly fits it."""
    tag = rng.randrange(21)
    sizes = {1: 1, 2: 1, 4: 8, 5: 1, 6: 2, 7: 4, 8: 8, 9: 1, 10: 2, 11: 4, 12: 8, 13: 4, 14: 4, 15: 4, 17: 4}
    if tag in (3, 18):
        text = rng.randbytes(rng.randrange(20))
        return bytes([tag]) + len(text).to_bytes(4, "big") + text
    if tag == 19:
        count = rng.randrange(4)
        return bytes([tag, 11]) + count.to_bytes(4, "big") + rng.randbytes(4 * count)
    body = drawn_proc(rng) if tag == 16 else rng.randbytes(sizes.get(tag, 3))
    return bytes([tag]) + (bytes([body[0] & 1]) if tag == 1 else body)


def drawn_run(rng, rank):
    """Draws a run of ranks: the process of its first rank, and its last rank, which is mostly greater."""
    last = rng.choice([rank, rank, rank + 1, rank + 7, 4095, 4096, 0])
    return b"\x01j" + rank.to_bytes(4, "big") + last.to_bytes(4, "big")


def drawn_name(rng, version):
    """Draws the name of a fence; in version 2 with its processes as runs."""
    count = rng.randint(1, 3)
    procs = [b"\x01j" + rank.to_bytes(4, "big") if version == 1 else drawn_run(rng, rank * rng.choice([1, 2, 9])) for rank in range(count)]
    return bytes([rng.choice([0, 1, 1, 2])]) + drawn_number(rng) + count.to_bytes(4, "big") + b"".join(procs)


def drawn_piece(rng):
    """Draws the commits of a process."""
    keys = sorted({rng.choice([b"a", b"b", b"c", b"pmix.x", rng.randbytes(3)]) for _ in range(rng.randrange(4))})
    entries = [len(key).to_bytes(2, "big") + key + drawn_number(rng) + drawn_value(rng) for key in keys]
    return drawn_proc(rng) + drawn_number(rng) + drawn_number(rng) + len(entries).to_bytes(4, "big") + b"".join(entries)


def drawn_body(rng, version, kind):
    """Draws the body of a frame of that version and kind."""
    node = rng.choice([0, 1, 2, 63, 64]).to_bytes(4, "big")
    if kind == 1:
        return drawn_piece(rng)
    if kind == 2:
        proc = b"\x01j" + bytes(4) if version == 1 else drawn_run(rng, 0)
        return node + drawn_name(rng, version) + (1).to_bytes(4, "big") + proc + bytes([rng.randrange(3)]) + drawn_number(rng)
    if kind == 6:
        role = rng.choice([0, 1, 1, 2])
        return node + drawn_number(rng) + bytes([role]) + (drawn_piece(rng) if role else drawn_proc(rng) + drawn_number(rng))
    return node + (drawn_name(rng, version) if kind == 3 else drawn_proc(rng) + drawn_number(rng))


def drawn_frame(rng):
    """Draws a frame whose length is mostly the length of its body."""
    version = rng.choice([1] * 10 + [2] * 9 + [3])
    kind = rng.choice([1, 1, 1, 2, 3, 4, 5, 6])
    body = drawn_body(rng, version, kind)
    size = len(body) if rng.random() < 0.9 else rng.choice([0, len(body) + 1, 2**24, 2**32 - 1])
    return bytes([version, kind]) + size.to_bytes(4, "big") + body


def drawn_stream(rng):
    """Draws a stream of frames in hexadecimal digits."""
    frames = b"".join(drawn_frame(rng) for _ in range(rng.randrange(6)))
    return (frames if rng.random() < 0.9 else rng.randbytes(rng.randrange(80))).hex().encode()


def drawn_streams(rng):
    """Draws some streams, as `merge` takes them."""
    return b"\n--\n".join(drawn_stream(rng) for _ in range(rng.randint(1, 5)))


def drawn_line(rng):
    """Draws a line of a script."""
    who, other = (f"{rng.choice('jjjk')} {rng.choice('0123*')}" for _ in range(2))
    node, key = rng.randrange(3), rng.choice(["a", "b", "pmix.job.size", "pmix.rank", "two words"])
    value = drawn_value(rng).hex()
    scope = rng.choice(["internal", "local", "remote", "global", "global", "undef", "none"])
    return rng.choice(
        [
            f"put {who} {scope} {value} {key}",
            f"put {who} global 0901 {key}",
            f"commit {who}",
            f"enter {who} {rng.choice(['plain', 'collect'])} {rng.choice(['', who, 'j 0 j 1', 'j 0 j 1 j 2'])}".rstrip(),
            f"leave {who}",
            f"get {who} {rng.choice(['wait', 'now', 'refresh'])} {other} {key}",
            f"take {who}",
            f"deliver {rng.randrange(12)}",
            "flow",
            f"nudge {node}",
            f"end {who}",
            f"define 1 {who} s",
            "define 2 j 0 j 1 s",
            "delete s",
            f"members {node} s",
            f"dump {node}",
        ]
    )


def drawn_script(rng):
    """Draws a script of two nodes, whose lines mostly have a form."""
    lines = ["nodes n0 n1", "space j 0 1 0"] + [drawn_line(rng) for _ in range(rng.randrange(40))]
    return "\n".join(lines).encode() + rng.choice([b"", b"\n"])


def drawn_job(rng):
    """Draws a job whose homes mostly name nodes that are there."""
    nodes = [f"n{i}" for i in range(rng.choice([0, 1, 2, 2, 3, 9]))]
    count = rng.choice([0, 1, 2, 3, 5, 33])
    homes = lambda: [rng.choice([0, 0, 1, len(nodes), -1, 0.5]) if rng.random() < 0.1 else rng.randrange(len(nodes) or 1) for _ in range(count)]
    spaces = [{"name": rng.choice(["j", "k", "pmix", ""]), "homes": homes()} for _ in range(rng.randrange(3))]
    return json.dumps({"nodes": nodes, "spaces": spaces}).encode()


DRAWN = {"dump": drawn_stream, "merge": drawn_streams, "replay": drawn_script, "run": drawn_job}


def mutated(rng, data):
    """Returns the bytes with a few of them changed, removed, doubled or inserted."""
    data = bytearray(data)
    for _ in range(rng.randint(1, 4)):
        at = rng.randrange(len(data) + 1)
        choice = rng.randrange(4)
        if choice == 0 and at < len(data):
            data[at] = rng.choice(b"0123456789abcdef \n") if rng.random() < 0.7 else rng.randrange(256)
        elif choice == 1:
            del data[at : at + rng.randint(1, 8)]
        elif choice == 2:
            data[at:at] = data[at : at + rng.randint(1, 40)]
        else:
            data[at:at] = rng.randbytes(rng.randint(1, 4))
    return bytes(data)


def examples_by_command():
    """Returns for each command the examples that are files."""
    found = {command: [] for command in DRAWN}
    for it in files():
        found[it.command].append(it.data)
    return found


def drawn_inputs(count):
    """Draws so many commands with inputs: for each command a changed example, a drawn input, and a changed drawn input."""
    rng = random.Random(SEED)
    known = examples_by_command()
    for _ in range(count):
        command = rng.choice(list(DRAWN))
        data = rng.choice(known[command]) if rng.random() < 0.4 else DRAWN[command](rng)
        yield command, mutated(rng, data) if rng.random() < 0.6 else data


def may_end(command, ran):
    """Returns whether a run ended as it may: with a status of 0 to 3 and a whole last line, which names the cause if the status is not 0."""
    if ran.status not in (0, 1, 3) or ran.output[-1:] not in (b"", b"\n"):
        return False
    if ran.status == 0 or command == "run":
        return True
    last = ran.output if command in ("dump", "merge") else ran.output[ran.output.rfind(b"\n", 0, -1) + 1 :]
    return bool(REFUSED.fullmatch(last))


def try_alone(pool, inputs):
    """Returns the inputs on which the program ends in another way than it may."""
    runs = pool.map(lambda each: ended([PROGRAM, each[0]], each[1], None), inputs)
    return [(*each, *ran[:3]) for each, ran in zip(inputs, runs) if not may_end(each[0], ran)]


def try_watched(pool, inputs):
    """Returns the inputs on which valgrind finds something, or on which the program ends in another way under it."""
    words = ["valgrind", "--quiet", "--error-exitcode=99", PROGRAM]
    watched = pool.map(lambda each: ended([*words, each[0]], each[1], None), inputs)
    alone = pool.map(lambda each: ended([PROGRAM, each[0]], each[1], None), inputs)
    return [(*each, *first[:3]) for each, first, second in zip(inputs, watched, alone) if first[:2] != second[:2]]


def try_inputs(report, pool, count, sample):
    """Runs the program on so many inputs, and on so many of them under valgrind."""
    bad, tried, watched = [], 0, []
    inputs = drawn_inputs(count)
    while block := [it for _, it in zip(range(1000), inputs)]:
        bad += try_alone(pool, block)
        watched += block[:: max(1, count // sample)] if sample else []
        tried += len(block)
    report.add("changed and drawn inputs", tried, bad)
    if not shutil.which("valgrind"):
        print("valgrind is not installed: no input is tried under it", flush=True)
        return
    watched = watched[:sample]
    report.add("of them under valgrind", len(watched), try_watched(pool, watched))
