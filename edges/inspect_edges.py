# What `inspect_edges` asks: the screen of a script of each kind, and screens in buffers that are just long enough, too short and longer.
import paper
from names import OP_IF
from show import counted, plain, refused, run_of, script

# What a buffer is filled with before a call, and how much of a long one is printed.
UNTOUCHED = ord(".")
FRONT = 64

# Room for the screens that are printed as they are.
SCREEN_ROOM = 192

HASH = bytes(range(0x10, 0x24)).hex()
LONG_HASH = bytes(range(0x20, 0x40)).hex()

# A script of each kind, in the order of the paper.
KINDS = [
    "76 a9 14" + HASH + "88 ac",
    "a9 14" + HASH + "87",
    "00 14" + HASH,
    "00 20" + LONG_HASH,
    "51 20" + LONG_HASH,
    "51 02 4e 73",
    "60 02 4e 73",
    "21 02" + LONG_HASH + "ac",
    "51 01 aa 51 ae",
    "6a 01 aa",
    "52 ae ae",
]

# Scripts with the lengths of their screens.
SHORT = [("", 45), ("52 ae ae", 93), ("01", 75)]

# The longest script that is inspected, and one byte more, with room to spare, just enough and too little.
LONGEST = run_of(OP_IF, paper.MAX_INSPECTED)
TOO_LONG = run_of(OP_IF, paper.MAX_INSPECTED + 1)


def fresh(room):
    return bytearray(run_of(UNTOUCHED, room))


def screen_text(given):
    out = fresh(SCREEN_ROOM)
    try:
        return plain(out[: paper.inspect(given, out)])
    except paper.Refused as refusal:
        return refused(refusal)


def short_line(given, room):
    out = fresh(room)
    answer = counted(paper.inspect, given, out)
    return f" room {room}:{answer} [{plain(out)}]\n"


def long_line(given, room):
    out = fresh(room)
    answer = counted(paper.inspect, given, out)
    return f" bytes {len(given)} room {room}:{answer} [{plain(out[:FRONT])}]\n"


def output():
    for text in KINDS:
        yield screen_text(script(text))
    for text, needed in SHORT:
        for room in (needed, needed - 1, needed + 3):
            yield short_line(script(text), room)
    for room in (20_000, 16_848, 16_847):
        yield long_line(LONGEST, room)
    for room in (20_000, 64):
        yield long_line(TOO_LONG, room)
    for room in (13, 12):
        yield short_line(TOO_LONG, room)
