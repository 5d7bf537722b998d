# What `templates_edges` asks: every template's answer, the kind, and the parts that are handed back.
import paper
from names import OP_CHECKMULTISIG, OP_NOP, OP_PUSHNUM_1
from show import answered, hexed, judged, run_of, script

# A script of more bytes is told by its length alone.
MAX_SHOWN = 69

FIXED = {
    "p2pkh": paper.fits_p2pkh,
    "p2sh": paper.fits_p2sh,
    "p2wpkh": paper.fits_p2wpkh,
    "p2wsh": paper.fits_p2wsh,
    "p2tr": paper.fits_p2tr,
    "p2a": paper.fits_p2a,
    "witness": paper.fits_witness,
    "p2pk": paper.fits_p2pk,
    "opreturn": paper.fits_op_return,
}
WALKED = {"multisig": paper.fits_multisig, "pushonly": paper.fits_push_only}

# The bytes that a frame starts with and ends with. None is the length less two, FILL stands between.
FILL = 0x77
LONGEST_FRAME = 70
FRAMES = [
    ([0x76, 0xA9, 0x14], [0x88, 0xAC]),
    ([0xA9, 0x14, FILL], [FILL, 0x87]),
    ([0x00, None, FILL], [FILL, FILL]),
    ([0x51, None, FILL], [FILL, FILL]),
    ([0x60, None, FILL], [FILL, FILL]),
    ([0x51, 0x02, 0x4E], [0x4E, 0x73]),
    ([None, FILL, FILL], [FILL, 0xAC]),
    ([0x6A, FILL, FILL], [FILL, FILL]),
]

# So many keys of one byte, and the opcode that stands for their count.
KEYS = [
    (0, 0x51),
    (0, 0x4F),
    (1, 0x51),
    (1, 0x52),
    (1, 0x4F),
    (16, 0x60),
    (16, 0x5F),
    (17, 0x60),
    (17, 0x4F),
    (255, 0x4F),
    (256, 0x4F),
    (257, 0x4F),
    (257, 0x51),
]

MULTISIGS = [
    "51 01 aa 4f ae",
    "51 01 aa 6a ae",
    "51 01 aa ae ae",
    "51 01 aa 00 ae",
    "52 01 aa 51 ae",
    "51 01 aa 51 ae 51",
    "51 01 aa 51 af",
    "51 00 51 ae",
    "50 01 aa 51 ae",
    "51 01 aa 51 ae 01",
]
PUSHES = ["50", "60", "61", "4f 00 01 61"]
REDEEMS = ["", "00", "51", "01", "01 aa", "01 aa 4c 02 bb cc", "01 aa 4c 02 bb", "02 bb cc 51", "01 aa 00"]
ANCHORS = ["51 02 4e 73", "51 02 4e 74", "00 02 4e 73", "61 02 4e 73", "6a", "6a 61"]

# The script code with room to spare, with just enough, one byte short, and for a script that is no P2WPKH.
P2WPKH = script("00 14") + run_of(FILL, 20)
V1_OF_22 = script("51 14") + run_of(FILL, 20)
CODES = [(P2WPKH, 27), (P2WPKH, 25), (P2WPKH, 24), (V1_OF_22, 2)]
UNTOUCHED = 9

# At the limit and one byte over it.
AT_LIMIT = run_of(OP_NOP, paper.MAX_SCRIPT)
OVER_LIMIT = run_of(OP_NOP, paper.MAX_SCRIPT + 1)


def kind_word(given):
    return answered(lambda name: f" {name}", paper.kind, given)


def version_words(given):
    return answered(lambda v: " version nothing" if v is None else f" version {v}", paper.witness_version, given)


# A place and a length, or nothing.
def place_words(place):
    return " nothing" if place is None else f" at {place[0]} of {place[1]}"


def part_words(find, given):
    return f"{answered(place_words, find, given)} [{hexed(paper.part(find, given))} ]"


def judged_words(templates, given):
    return "".join(f" {name}{judged(paper.judge, fits, given)}" for name, fits in templates.items())


# Every answer for one script.
def script_line(given):
    shown = hexed(given) if len(given) <= MAX_SHOWN else ""
    places = f" key{part_words(paper.p2pk_key, given)} redeem{part_words(paper.redeem_script, given)}"
    first = f"script{shown} bytes {len(given)}:{kind_word(given)}{version_words(given)}{places}"
    return f"{first}{judged_words(FIXED, given)}{judged_words(WALKED, given)}\n"


# A frame's bytes at one length. Where it is short, the bytes at its end stand over those at its front.
def frame(length, front, back):
    given = bytearray(run_of(FILL, LONGEST_FRAME))
    stated = max(length - 2, 0)
    given[: len(front)] = [stated if byte is None else byte for byte in front]
    for i, byte in enumerate(back):
        if len(back) - i <= length:
            given[length - len(back) + i] = byte
    return bytes(given[:length])


# The kinds of all frames at one length: each is its kind at its own lengths alone.
def length_line(length):
    kinds = "".join(kind_word(frame(length, front, back)) for front, back in FRAMES)
    return f" bytes {length}:{kinds}\n"


def keys_line(keys, count):
    given = bytes([OP_PUSHNUM_1]) + script("01 01") * keys + bytes([count, OP_CHECKMULTISIG])
    return f" keys {keys} count {count}:{kind_word(given)}\n"


def code_line(given, room):
    out = bytearray(run_of(UNTOUCHED, room))
    said = lambda count: " nothing" if count is None else f" bytes {count}"
    answer = answered(said, paper.p2wpkh_script_code, given, out)
    return f" script code of {len(given)} room {room}:{answer}{hexed(out)}\n"


def output():
    for length in range(LONGEST_FRAME + 1):
        yield length_line(length)
    for keys, count in KEYS:
        yield keys_line(keys, count)
    for text in MULTISIGS + PUSHES + REDEEMS + ANCHORS:
        yield script_line(script(text))
    for given, room in CODES:
        yield code_line(given, room)
    yield script_line(AT_LIMIT)
    yield script_line(OVER_LIMIT)
    yield code_line(OVER_LIMIT, 2)
