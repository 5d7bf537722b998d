# What `text_edges` asks: the text's length, and the text in buffers that are just long enough, too short and longer.
import paper
from names import OP_CHECKMULTISIGVERIFY, OP_IF
from show import counted, hexed, plain, run_of, script

# What a buffer is filled with before a call.
UNTOUCHED = ord(".")

# Texts that are shorter than this are written with room to spare too.
SHORT = 250

EXAMPLES = ["", "00", "51 4c", "51 02 4e 73", "05 aa", "4c 00"]
OTHERS = [
    "00 00 4f 50",
    "4d 00 00 4e 00 00 00 00 51",
    "60 61 b1 b2 ba bb fe ff",
    "4e ff ff ff ff",
    "4b 4c",
]

# Each form of a push, to be cut at each point.
PUSHES = ["51 02 ab cd", "51 4c 02 0f f0", "51 4d 02 00 9a a9", "51 4e 02 00 00 00 00 ff"]

# The opcode with the longest name, one with a short name, and pushes of 75 bytes of which the last is cut.
LONG = [OP_CHECKMULTISIGVERIFY, OP_IF, 75]


def write_line(given, room):
    out = bytearray(run_of(UNTOUCHED, room))
    answer = counted(paper.write_asm, given, out)
    return f"write room {room}:{answer} [{plain(out)}]\n"


# Just enough room, one byte too little, and three bytes more.
def rooms(needed):
    yield needed
    if needed > 0:
        yield needed - 1
    if needed < SHORT:
        yield needed + 3


def script_lines(given):
    yield f"script{hexed(given)}:{counted(paper.asm_len, given)}\n"
    for room in rooms(paper.asm_len(given)):
        yield write_line(given, room)


# A script that is too long to print, and its text with too little room.
def long_lines(given):
    yield f"script of bytes {len(given)}:{counted(paper.asm_len, given)}\n"
    yield write_line(given, 5)


def output():
    for text in EXAMPLES + OTHERS:
        yield from script_lines(script(text))
    for text in PUSHES:
        whole = script(text)
        for length in range(len(whole), 0, -1):
            yield from script_lines(whole[:length])
    for code in LONG:
        yield from long_lines(run_of(code, paper.MAX_SCRIPT))
        yield from long_lines(run_of(code, paper.MAX_SCRIPT + 1))
