# What `counts_edges` asks: signature counts, dust amounts and witness scripts.
import paper
from names import OP_CHECKMULTISIG, OP_PUSHNUM_1, OP_PUSHNUM_16
from show import answered, counted, hexed, run_of, script

# A script of more bytes is told by its length alone.
MAX_SHOWN = 12

NUMBERS_BEFORE = ["", "52 ae ae", "52 ac ae", "52 ae 53 af", "52 01 aa ae", "02 51 52 ae"]
OPCODES_BEFORE = ["00 ae", "50 ae", "51 ae", "60 af", "61 ae", "ac ad ae af", "ab b0 ba"]
CUT = ["ac 4c", "ac 02 ac", "ac 4d 01 00 ac ac 4b", "4e ff ff ff ff ac"]

# Twenty keys, whose number no opcode states, and sixteen.
KEY = run_of(33, 1 + 33)
TWENTY = bytes([OP_PUSHNUM_1]) + 20 * KEY + bytes([1, 20, OP_CHECKMULTISIG])
SIXTEEN = bytes([OP_PUSHNUM_1]) + 16 * KEY + bytes([OP_PUSHNUM_16, OP_CHECKMULTISIG])

SHORT_DUST = ["", "6a", "6a 01 00", "51 01 4e", "51 02 4e 73", "50 02 4e 73", "51 03 4e 73"]

# Witness scripts of 22, 34 and 42 bytes, and one byte more than the longest.
WITNESS_DUST = [bytes([first, size]) + run_of(0, size) for first, size in [(0, 20), (0, 32), (0x60, 40), (0x60, 41)]]

# Where the length is stated in more bytes, at the limit and one byte over it.
LENGTHS = [252, 253, 65_535, 65_536, paper.MAX_SCRIPT, paper.MAX_SCRIPT + 1]

# Rates for every script, and the largest that two scripts take, with the next.
RATES = [0, 1, 750, 2**62 - 1, 2**62, 2**64 - 1]
LARGEST_RATES = {
    "": [29_373_796_295_715_846, 29_373_796_295_715_847],
    "51 02 4e 73": [57_646_075_230_342_348, 57_646_075_230_342_349],
    "6a": [],
}

# What a buffer is filled with before a call, and what a program holds.
UNTOUCHED = 0xEE
PROGRAM_BYTE = 7
VERSIONS = [0, 1, 16, 17]
PROGRAM_LENGTHS = [0, 1, 2, 19, 20, 21, 32, 33, 40, 41]


def script_name(given):
    return f"{hexed(given)}:" if len(given) <= MAX_SHOWN else f" bytes {len(given)}:"


def count_line(given):
    accurate = counted(paper.count_sigops, given)
    legacy = counted(paper.count_sigops_legacy, given)
    return f"sigops{script_name(given)}{accurate} legacy{legacy}\n"


def satoshi(call, *given):
    return answered(lambda n: f" satoshi {n}", call, *given)


def dust_line(given):
    return f"dust{script_name(given)}{satoshi(paper.minimal_non_dust, given)}\n"


def custom_line(given, rate):
    return f"rate {rate}{script_name(given)}{satoshi(paper.minimal_non_dust_custom, given, rate)}\n"


def witness_line(version, length, room):
    out = bytearray(run_of(UNTOUCHED, room))
    answer = counted(paper.witness_program, version, run_of(PROGRAM_BYTE, length), out)
    return f"witness version {version} program {length} room {room}:{answer} buffer{hexed(out)}\n"


def short_lines():
    for given in [script(text) for text in NUMBERS_BEFORE + OPCODES_BEFORE + CUT] + [TWENTY, SIXTEEN]:
        yield count_line(given)
    for given in [script(text) for text in SHORT_DUST] + WITNESS_DUST:
        yield dust_line(given)


def long_lines():
    for length in LENGTHS:
        given = run_of(OP_CHECKMULTISIG, length)
        yield count_line(given)
        yield dust_line(given)
        yield custom_line(given, 750)


def rate_lines():
    for text, largest in LARGEST_RATES.items():
        for rate in RATES + largest:
            yield custom_line(script(text), rate)


# One byte too few, and just enough; then no room, and room to spare.
def witness_lines():
    for version in VERSIONS:
        for length in PROGRAM_LENGTHS:
            yield witness_line(version, length, length + 1)
            yield witness_line(version, length, length + 2)
    yield witness_line(1, 2, 0)
    yield witness_line(1, 2, 7)


def output():
    for part in (short_lines, long_lines, rate_lines, witness_lines):
        yield from part()
