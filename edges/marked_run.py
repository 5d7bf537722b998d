# What `marked_run` asks: document 01's marked examples W1 to W12, and the inspector's example as it is.
import paper
from names import OP_EQUAL
from paper import EMPTY
from show import answered, counted, hexed, plain, run_of, script
from walk_edges import MODES, found_words

# The scripts that are asked about with one call in each mode, and those with two.
W1 = b""
ONE_CALL = {"W2": script("01"), "W3": script("01 05"), "W4": script("01 00"), "W5": script("4c 05")}
W6 = script("51 4c")
W7 = script("4d 00 01") + run_of(7, 256)

# W8's numbers, each with a buffer that is as long as it.
WRITES = {127: 1, 128: 2, -255: 2, 2_147_483_647: 4}
W6_ROOM = 28
W9 = script("80")
COUNTS = {"W10": script("52 ae ae"), "W11": script("52 ac ae")}
INSPECTED = script("51 02 4e 73")


def walk_lines(example, given, calls):
    for mode, minimal in MODES.items():
        at = 0
        for _ in range(calls):
            found, at = paper.step(given, at, minimal)
            yield f"{example} {mode}:{found_words(found)} next {at}\n"


# W1's kind and dust are never refused.
def kind_and_dust():
    yield f"W1 kind: {paper.kind(W1)}\n"
    yield f"W1 dust: {paper.minimal_non_dust(W1)}\n"


def text_line():
    out = bytearray(W6_ROOM)
    answer = counted(paper.write_asm, W6, out)
    return f"W6 text:{answer} {plain(out)}\n"


def walks():
    yield from walk_lines("W1", W1, 1)
    yield from kind_and_dust()
    for example, given in ONE_CALL.items():
        yield from walk_lines(example, given, 1)
    yield from walk_lines("W6", W6, 2)
    yield text_line()
    yield from walk_lines("W7", W7, 2)


def writes():
    for n, room in WRITES.items():
        out = bytearray(room)
        answer = counted(paper.write_scriptint, n, out)
        yield f"W8 {n}:{answer} bytes{hexed(out)}\n"


def value(n):
    return f" {n}"


def reads_and_counts():
    yield f"W9 strict:{answered(value, paper.read_scriptint, W9)}\n"
    yield f"W9 loose:{answered(value, paper.read_scriptint_non_minimal, W9)}\n"
    for example, given in COUNTS.items():
        yield f"{example} accurate:{counted(paper.count_sigops, given)}\n"
        yield f"{example} other:{counted(paper.count_sigops_legacy, given)}\n"


# W12: verify in one byte, and again with room for one more.
def builds():
    one = bytearray(1)
    builder = paper.push_verify(paper.push_opcode(EMPTY, one, OP_EQUAL), one)
    yield f"W12 verify: done bytes{hexed(one)}\n"
    two = one + bytearray(1)
    paper.push_verify(builder, two)
    yield f"W12 again: done bytes{hexed(two)}\n"


def output():
    for part in (walks, writes, reads_and_counts, builds):
        yield from part()
    yield plain(paper.screen(INSPECTED))
