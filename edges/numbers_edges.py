# What `numbers_edges` asks: numbers measured, written and read, and booleans.
import paper
from show import answered, counted, hexed, judged, run_of, script

# The longest buffer, and what it is filled with before a call.
ROOM = 12
UNTOUCHED = 0xEE

NUMBERS = [
    0,
    1,
    -1,
    127,
    128,
    -255,
    2**31 - 1,
    -(2**31) + 1,
    2**31,
    2**63 - 1,
    -(2**63) + 1,
    -(2**63),
]

READ = [
    "",
    "00",
    "01",
    "7f",
    "80",
    "81",
    "01 00",
    "00 80",
    "80 00",
    "ff 80",
    "ff ff 00",
    "ff 7f 80",
    "ff ff ff 7f",
    "ff ff ff ff",
    "ff ff ff ff 00",
    "00 00 00 00 00",
    "01 02 03 04 05 06",
]

BOOLS = ["", "00", "80", "01", "00 80", "80 00", "00 01", "00 00 81", "00 00 00 00 00 80"]

# Lengths at the limit and over it, each with a last byte; all other bytes are zero.
LONG_BOOLS = [
    (paper.MAX_SCRIPT, 0x00),
    (paper.MAX_SCRIPT, 0x80),
    (paper.MAX_SCRIPT, 0x01),
    (paper.MAX_SCRIPT + 1, 0x00),
    (paper.MAX_SCRIPT + 1, 0x80),
]


def write_line(n, room):
    buffer = bytearray(run_of(UNTOUCHED, room))
    answer = counted(paper.write_scriptint, n, buffer)
    return f"write {n} room {room}:{answer} buffer{hexed(buffer)}\n"


# Room for one byte too few, for just enough, and for one more; for a number that is refused, none and all.
def rooms(n):
    try:
        count = paper.scriptint_len(n)
    except paper.Refused:
        return [0, ROOM]
    return [room for room in (count - 1, count, count + 1) if 0 <= room <= ROOM]


def number_lines(n):
    yield f"len {n}:{counted(paper.scriptint_len, n)}\n"
    for room in rooms(n):
        yield write_line(n, room)


def value(call, v):
    return answered(lambda n: f" {n}", call, v)


def read_line(v):
    strict = value(paper.read_scriptint, v)
    loose = value(paper.read_scriptint_non_minimal, v)
    return f"read{hexed(v)}: strict{strict} loose{loose}\n"


def bool_line(v):
    return f"bool{hexed(v)}:{judged(paper.read_scriptbool, v)}\n"


def long_bool_line(length, last):
    v = run_of(0, length - 1) + bytes([last])
    return f"bool of {length} bytes, the last {last:02x}:{judged(paper.read_scriptbool, v)}\n"


def output():
    for n in NUMBERS:
        yield from number_lines(n)
    for text in READ:
        yield read_line(script(text))
    for text in BOOLS:
        yield bool_line(script(text))
    for length, last in LONG_BOOLS:
        yield long_bool_line(length, last)
