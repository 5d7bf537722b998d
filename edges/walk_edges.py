# What `walk_edges` asks: the walk, call by call, in both modes, and the table of start positions.
import paper
from names import OP_NOP, OP_PUSHDATA1, OP_PUSHDATA2, OP_PUSHDATA4
from show import counted, hexed, refused, run_of, script

MODES = {"plain": False, "minimal": True}
FORMS = {OP_PUSHDATA1: "pushdata1", OP_PUSHDATA2: "pushdata2", OP_PUSHDATA4: "pushdata4"}

# A script of more bytes is told by its length alone.
MAX_SHOWN = 8

# What a table is filled with before a call, and how much of it is printed.
UNTOUCHED = 9
FRONT = 3

WHOLE = ["", "4c 00", "4e 01 00 00 00 aa", "00 4f 50", "ff 02 01 02"]
ONE_BYTE = ["01", "01 00", "01 05", "01 10", "01 11", "01 81"]
CUT = ["4c", "4c 05", "51 4c", "4d 05", "4e ff ff ff ff", "4b", "51 4b aa", "4d 01", "4e 05 00 00 00 aa"]

# One push in the longest form, cut behind each of its bytes, and whole.
LONGEST = script("4e 03 00 00 00 aa bb cc")
CUT_LONGEST = [LONGEST[:size] for size in range(1, len(LONGEST) + 1)]

# The least lengths that two of the forms are for, and one body cut by a byte.
DATA2 = script("4d 00 01") + run_of(7, 256)
DATA1 = script("4c 4c") + run_of(7, 76)
LONG_FORMS = [DATA2, DATA1, DATA1[:-1]]

# The longest bodies for which two of the forms are too long, whole.
WASTEFUL = [script("4c 4b") + run_of(7, 75), script("4d ff 00") + run_of(7, 255)]

TABLES = ["51 52 ae", "51 01 05 ae", "51 52 02 ae"]
CUT_TABLES = ["51 52 4d 01", "51 4c 05", "4b", "4e ff ff ff ff"]

# At the limit and one byte over it.
LONG_OPCODES = [run_of(OP_NOP, paper.MAX_SCRIPT), run_of(OP_NOP, paper.MAX_SCRIPT + 1)]

# As many pushes of 75 bytes as the limit holds, and one byte of another, which is cut.
DIRECT = 75
WHOLE_PUSHES = paper.MAX_SCRIPT // (1 + DIRECT) * (1 + DIRECT)
LONG_PUSHES = [run_of(DIRECT, WHOLE_PUSHES), run_of(DIRECT, WHOLE_PUSHES + 1)]


def found_words(found):
    if found is None:
        return " end"
    if isinstance(found, paper.Refused):
        return refused(found)
    place, code, body, end = found
    if paper.is_push(code):
        return f" push at {place} {FORMS.get(code, 'direct')} body at {body} of {end - body}"
    return f" opcode at {place} code {code}"


# The size of what was found, 0 at the end.
def size_words(found):
    if isinstance(found, paper.Refused):
        return refused(found)
    place, _, _, end = found or (0, 0, 0, 0)
    return f" count {end - place}"


# One call: its line, and the next cursor.
def call(given, at, mode):
    found, after = paper.step(given, at, MODES[mode])
    part = paper.body_part(given, at, MODES[mode])
    return f"{mode} at {at}:{found_words(found)} next {after} part {len(part)} size{size_words(found)}\n", after


# Three calls in each mode, each given the cursor that the one before gave back.
def script_lines(given):
    shown = hexed(given) if len(given) <= MAX_SHOWN else ""
    yield f"script{shown} bytes {len(given)}\n"
    for mode in MODES:
        at = 0
        for _ in range(3):
            line, at = call(given, at, mode)
            yield line


def positions_line(given, mode, room):
    table = [UNTOUCHED] * room
    answer = counted(paper.positions, given, MODES[mode], table)
    front = "".join(f" {place}" for place in table[:FRONT]) if room >= FRONT else ""
    return f"positions {mode} bytes {len(given)} room {room}:{answer} first{front}\n"


def table_lines(given):
    for mode, room in [("plain", 3), ("plain", 2), ("plain", 5), ("minimal", 5)]:
        yield positions_line(given, mode, room)


# All places, with room for eight, and a call at the end and past it.
def long_lines(given):
    yield positions_line(given, "minimal", 8)
    for at in (len(given), len(given) + 1):
        line, _ = call(given, at, "plain")
        yield line


def output():
    for given in [script(text) for text in WHOLE + ONE_BYTE + CUT] + CUT_LONGEST + LONG_FORMS + WASTEFUL:
        yield from script_lines(given)
    for text in TABLES + CUT_TABLES:
        yield from table_lines(script(text))
    for given in LONG_OPCODES + LONG_PUSHES:
        yield from long_lines(given)
