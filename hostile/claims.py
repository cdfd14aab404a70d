"""Tries frames that claim more than follows, and measures the memory that the program takes for each byte of them."""
from failing import PROGRAM, run

BODY_LIMIT = 16_777_216
ALLOWED = 8
PIECE, HEADER, FENCE_ASK, RANGE_ASK, DIRECT_ASK, REFRESH = range(1, 7)


def u16(number):
    return number.to_bytes(2, "big")


def u32(number):
    return number.to_bytes(4, "big")


def u64(number):
    return number.to_bytes(8, "big")


def proc(rank):
    """Returns a process of namespace j."""
    return b"\x01j" + u32(rank)


def entry(i, value=b"\x01\x01"):
    """Returns an entry of a piece; keys rise."""
    return u16(4) + b"%04x" % i + u64(1) + value


def local(i):
    """Returns a local participant that has entered."""
    return proc(i) + b"\x00" + u64(1)


def frame(kind, body, size=None):
    """Returns a frame, which may claim another length."""
    return bytes([1, kind]) + u32(len(body) if size is None else size) + body


START = proc(0) + u64(0) + u64(1)
VALUE = START + u32(1) + entry(0, b"")
REFRESHED = u32(1) + u64(1) + b"\x01"
NAME = u32(0) + b"\x01" + u64(1)
NAMED = NAME + u32(4096) + b"".join(map(proc, range(4096)))
# The body of one element, for each type of an array's elements.
ELEMENTS = {
    **{tag: bytes(size) for tag, size in [(1, 1), (2, 1), (4, 8), (5, 1), (6, 2), (7, 4), (8, 8), (9, 1), (10, 2), (11, 4), (12, 8)]},
    **{tag: bytes(4) for tag in (3, 13, 14, 15, 17, 18)},
    16: proc(0),
}

# A field that claims how much follows: its name, the kind of its frame, the body before it, its number of bytes, its greatest claim, and each
# of the claimed things.
CLAIMS = [
    ("piece, namespace", PIECE, b"", 1, 255, b"n"),
    ("piece, entries", PIECE, START, 4, 65536, entry),
    ("piece, key", PIECE, START + u32(1), 2, 511, b"k"),
    ("piece, string", PIECE, VALUE + b"\x03", 4, 2**32 - 1, b"s"),
    ("piece, byte object", PIECE, VALUE + b"\x12", 4, 2**32 - 1, b"b"),
    ("piece, namespace of a value", PIECE, VALUE + b"\x10", 1, 255, b"n"),
    *((f"piece, array of type {tag}", PIECE, VALUE + bytes([0x13, tag]), 4, 2**32 - 1, it) for tag, it in sorted(ELEMENTS.items())),
    ("header, participants", HEADER, NAME, 4, 4096, proc),
    ("header, namespace", HEADER, NAME + u32(1), 1, 255, b"n"),
    ("header, local participants", HEADER, NAMED, 4, 4096, local),
    ("header, namespace of a local participant", HEADER, NAMED + u32(1), 1, 255, b"n"),
    ("fence ask, participants", FENCE_ASK, NAME, 4, 4096, proc),
    ("fence ask, namespace", FENCE_ASK, NAME + u32(1), 1, 255, b"n"),
    ("range ask, namespace", RANGE_ASK, u32(1), 1, 255, b"n"),
    ("direct ask, namespace", DIRECT_ASK, u32(1), 1, 255, b"n"),
    ("refresh ask, namespace", REFRESH, u32(1) + u64(1) + b"\x00", 1, 255, b"n"),
    ("refresh reply, namespace", REFRESH, REFRESHED, 1, 255, b"n"),
    ("refresh reply, entries", REFRESH, REFRESHED + START, 4, 65536, entry),
    ("refresh reply, key", REFRESH, REFRESHED + START + u32(1), 2, 511, b"k"),
]
KINDS = {"piece": PIECE, "header": HEADER, "fence ask": FENCE_ASK, "range ask": RANGE_ASK, "direct ask": DIRECT_ASK, "refresh": REFRESH}


def dumped(library, stream):
    """Runs `dump` on the stream in digits."""
    return run(library, [PROGRAM, "dump"], stream)


def is_fault(ran):
    """Returns whether a run ended by the fault of a frame that is too short for its claim."""
    return ran.status == 1 and ran.output.startswith((b"refused 10 BadFrame: Short at ", b"refused 10 BadFrame: Cut at "))


def alone():
    """Yields for each field a frame that claims one thing, and a frame that claims the most; nothing of the claims follows."""
    for name, kind in KINDS.items():
        yield f"{name}, length", *(frame(kind, b"", size) for size in (1, BODY_LIMIT))
    for name, kind, before, width, most, _ in CLAIMS:
        yield name, *(frame(kind, before + number.to_bytes(width, "big")) for number in (1, most))


def try_alone(report, library, pool):
    """Checks that a frame holds as much when it claims one thing as when it claims the most."""
    for name, *pair in alone():
        one, most = pool.map(lambda it: dumped(library, it.hex().encode()), pair)
        bad = [] if is_fault(one) and is_fault(most) and one.counts.held == most.counts.held else [(one.counts.held, most.counts.held)]
        report.add(f"claims: {name}: {most.counts.held - one.counts.held} bytes held for the claim", 1, bad)


def came(most, element, room):
    """Returns everything that is claimed except the last thing, as far as there is room."""
    if isinstance(element, bytes):
        return element * min(most - 1, room // len(element))
    return b"".join(map(element, range(min(most - 1, room // len(element(0))))))


def full(room):
    """Yields for each field a frame that claims the most, with everything except the last thing, as far as there is room."""
    for name, kind in KINDS.items():
        yield f"{name}, length", lambda kind=kind: frame(kind, bytes(min(room - 6, BODY_LIMIT - 1)), BODY_LIMIT)
    for name, kind, before, width, most, element in CLAIMS:
        head = before + most.to_bytes(width, "big")
        left = min(room - 6, BODY_LIMIT) - len(head)
        yield name, lambda kind=kind, head=head, most=most, element=element, left=left: frame(kind, head + came(most, element, left))


def measure(library, made, size):
    """Runs as many of these frames as so many digits hold. Returns how it ended, and the bytes held and in memory for each digit."""
    stream = made().hex().encode()
    stream *= size // len(stream)
    ran, none = dumped(library, stream), dumped(library, b"")
    return ran, (ran.counts.held - none.counts.held) / len(stream), (ran.counts.resident - none.counts.resident) / len(stream)


def try_full(report, library, pool, size):
    """Measures each claim in streams of so many digits, and prints the worst."""
    made = list(full(size // 2))
    measured = list(pool.map(lambda it: measure(library, it[1], size), made))
    for (name, _), (ran, held, resident) in zip(made, measured):
        told = f"{held:.2f} bytes held and {resident:.2f} in memory for one of {size}"
        report.add(f"claims: {name}: {told}", 1, [] if is_fault(ran) and held <= ALLOWED else [ran[:2]])
    worst, name = max((held, name) for (name, _), (_, held, _) in zip(made, measured))
    print(f"claims: at most {worst:.2f} bytes held for one of {size} ({name}); {ALLOWED} are allowed", flush=True)


def try_claims(report, library, pool, sizes):
    """Tries each claim by itself, and measures it in streams of each of these sizes."""
    try_alone(report, library, pool)
    for size in sizes:
        try_full(report, library, pool, size)
