# Document 01 once more, in Python, as document 02 amends it. Each function's comment opens with the paragraph that it follows; where that
# paragraph leaves the word to Bitcoin Core, the function of Core is named. An answer is returned, a refusal is raised. What document 01
# does not say is taken from docs/, and says so.
from collections import namedtuple
from functools import lru_cache
from itertools import islice

from names import (
    NAMES,
    OP_0,
    OP_CHECKMULTISIG,
    OP_CHECKMULTISIGVERIFY,
    OP_CHECKSIG,
    OP_CHECKSIGVERIFY,
    OP_DUP,
    OP_EQUAL,
    OP_EQUALVERIFY,
    OP_HASH160,
    OP_INVALIDOPCODE,
    OP_NUMEQUAL,
    OP_PUSHBYTES_1,
    OP_PUSHDATA1,
    OP_PUSHDATA2,
    OP_PUSHDATA4,
    OP_PUSHNUM_1,
    OP_PUSHNUM_16,
    OP_PUSHNUM_NEG1,
    OP_RESERVED,
    OP_RETURN,
    OP_VERIFY,
)

MAX_SCRIPT = 4_194_304
MAX_AMOUNT = 2**64 - 1

# Refusals by number. Document 02, 'Say what was cut': 3 is retired, and 14 and 15 are in its place.
TOO_LONG = 1
NON_MINIMAL = 2
NUMBER_TOO_LONG = 4
NUMBER_NOT_MINIMAL = 5
NUMBER_OUT_OF_RANGE = 6
NO_ROOM = 7
BAD_CURSOR = 8
FEE_TOO_LARGE = 9
PROGRAM_LENGTH = 10
PROGRAM_LENGTH_V0 = 11
BAD_VERSION = 12
BAD_BUILDER = 13
LENGTH_CUT = 14
BODY_CUT = 15


# Refusals by number: a number and its values, each under the word that is printed before it.
class Refused(Exception):
    def __init__(self, number, **values):
        super().__init__(number, values)
        self.number = number
        self.values = values


# Refusals by number: the walk's own have the place where the push starts. Document 02: the two cuts "keep the place and add how many bytes are missing".
class WalkRefused(Refused):
    number = None

    def __init__(self, place, **values):
        super().__init__(self.number, at=place, **values)
        self.place = place


class NonMinimal(WalkRefused):
    number = NON_MINIMAL


class LengthCut(WalkRefused):
    number = LENGTH_CUT


class BodyCut(WalkRefused):
    number = BODY_CUT


# Refusals by number: 1 on what is given, before all others.
def within_limit(given):
    if len(given) > MAX_SCRIPT:
        raise Refused(TOO_LONG)


# Refusals by number: 7 leaves the lent output as it was, and an answer leaves what stands past the written count.
def put(out, written):
    if len(out) < len(written):
        raise Refused(NO_ROOM, needs=len(written))
    out[: len(written)] = written
    return len(written)


# Opcodes ---------------------------------------------------------------------------------------------------------------------------

# How many length bytes follow, where any do, and the least length that each form is for in minimal mode.
LENGTH_BYTES = {OP_PUSHDATA1: 1, OP_PUSHDATA2: 2, OP_PUSHDATA4: 4}
LEAST_LENGTH = {OP_PUSHDATA1: 76, OP_PUSHDATA2: 0x100, OP_PUSHDATA4: 0x10000}

VERIFY_FORMS = {code: code + 1 for code in (OP_EQUAL, OP_NUMEQUAL, OP_CHECKSIG, OP_CHECKMULTISIG)}


# Opcodes: bytes 0 to 78 start a push.
def is_push(code):
    return code <= OP_PUSHDATA4


# Opcodes: "0x51..0x60 carry numbers 1 to 16"; None for the others.
def number_of(code):
    return code - OP_PUSHNUM_1 + 1 if OP_PUSHNUM_1 <= code <= OP_PUSHNUM_16 else None


# Numbers ---------------------------------------------------------------------------------------------------------------------------

MAX_NUMBER_BYTES = 4
LEAST_NUMBER = -(2**63)
SIGN = 0x80


# Numbers: the writer. The fewest bytes that hold the magnitude and one more bit for the sign; zero is empty.
def number_bytes(n):
    if n == LEAST_NUMBER:
        raise Refused(NUMBER_OUT_OF_RANGE)
    if n == 0:
        return b""
    count = abs(n).bit_length() // 8 + 1
    written = bytearray(abs(n).to_bytes(count, "little"))
    if n < 0:
        written[-1] |= SIGN
    return bytes(written)


# Numbers: "its byte count is known before any byte is written".
def scriptint_len(n):
    return len(number_bytes(n))


# Numbers: the writer, into a lent buffer.
def write_scriptint(n, out):
    return put(out, number_bytes(n))


# Numbers: "takes any 0 to 4 bytes". The top bit of the last byte is the sign.
def read_scriptint_non_minimal(v):
    if len(v) > MAX_NUMBER_BYTES:
        raise Refused(NUMBER_TOO_LONG)
    if not v:
        return 0
    magnitude = int.from_bytes(v[:-1] + bytes([v[-1] & ~SIGN]), "little")
    return -magnitude if v[-1] & SIGN else magnitude


# Numbers: the strict reader takes the writer's form alone.
def read_scriptint(v):
    n = read_scriptint_non_minimal(v)
    if number_bytes(n) != v:
        raise Refused(NUMBER_NOT_MINIMAL)
    return n


# Numbers: "false for all-zero bytes, with or without 0x80 in the last".
def read_scriptbool(v):
    within_limit(v)
    return v[:-1].strip(b"\x00") != b"" or v[-1:] not in (b"", b"\x00", b"\x80")


# The walk --------------------------------------------------------------------------------------------------------------------------

# An instruction is (place, code, body, end): where it starts, its opcode byte, where its body starts, and where it ends.


# The walk: the push that minimal mode refuses. Its body's first byte is empty where the body is cut to nothing.
def is_wasteful(code, size, first):
    if code == OP_PUSHBYTES_1:
        return first == b"\x81" or b"\x01" <= first <= b"\x10"
    return code in LEAST_LENGTH and size < LEAST_LENGTH[code]


# The walk: the instruction at a place before the script's end. The minimal tests precede the body's length. Core: GetScriptOp. What is missing is
# "counted from the first part that is short": bytes of the length where these are cut, bytes of the body where it is.
def read(script, at, minimal):
    code = script[at]
    if code > OP_PUSHDATA4:
        return at, code, at + 1, at + 1
    body = at + 1 + LENGTH_BYTES.get(code, 0)
    if body > len(script):
        raise LengthCut(at, missing=body - len(script))
    size = int.from_bytes(script[at + 1 : body], "little") if code in LENGTH_BYTES else code
    if minimal and is_wasteful(code, size, script[body : body + 1]):
        raise NonMinimal(at)
    if body + size > len(script):
        raise BodyCut(at, missing=body + size - len(script))
    return at, code, body, body + size


# The walk: all instructions, up to the end or the refusal.
def walk(script, minimal=False):
    at, end = 0, len(script)
    while at < end:
        found = read(script, at, minimal)
        yield found
        at = found[-1]


# The walk: one call. What is found (None at the end, or a refusal), and the cursor that comes back.
def step(script, at, minimal):
    try:
        within_limit(script)
        if at > len(script):
            raise Refused(BAD_CURSOR)
        if at == len(script):
            return None, at
        found = read(script, at, minimal)
        return found, found[-1]
    except WalkRefused as refused:
        return refused, len(script)
    except Refused as refused:
        return refused, at


# The walk: "a second call hands the body back; where the walk gives no push there, an empty part".
def body_part(script, at, minimal):
    found, _ = step(script, at, minimal)
    if found is None or isinstance(found, Refused):
        return b""
    _, _, body, end = found
    return script[body:end]


# The walk: "start positions go into a lent table".
def positions(script, minimal, table):
    within_limit(script)
    return put(table, [place for place, _, _, _ in walk(script, minimal)])


# Templates -------------------------------------------------------------------------------------------------------------------------

MAX_KEYS = 255
ANCHOR = bytes.fromhex("51 02 4e 73")
HASH_FRONT = bytes([OP_DUP, OP_HASH160, 20])
HASH_BACK = bytes([OP_EQUALVERIFY, OP_CHECKSIG])


# Templates: a length, and bytes at the front and at the back.
def framed(script, length, front, back):
    return len(script) == length and script.startswith(front) and script.endswith(back)


# Templates: pay to script hash. Core: IsPayToScriptHash.
def fits_p2sh(script):
    return framed(script, 23, bytes([OP_HASH160, 20]), bytes([OP_EQUAL]))


# Templates: pay to pubkey hash.
def fits_p2pkh(script):
    return framed(script, 25, HASH_FRONT, HASH_BACK)


# Templates: witness. Core: IsWitnessProgram; the version, or None where it is none.
def version_of(script):
    if not 4 <= len(script) <= 42 or not 2 <= script[1] <= 40 or script[1] != len(script) - 2:
        return None
    return 0 if script[0] == OP_0 else number_of(script[0])


# Templates: witness.
def fits_witness(script):
    return version_of(script) is not None


# Templates: P2WPKH. BIP 141.
def fits_p2wpkh(script):
    return version_of(script) == 0 and len(script) == 22


# Templates: P2WSH. BIP 141.
def fits_p2wsh(script):
    return version_of(script) == 0 and len(script) == 34


# Templates: P2TR. BIP 341.
def fits_p2tr(script):
    return version_of(script) == 1 and len(script) == 34


# Templates: P2A.
def fits_p2a(script):
    return script == ANCHOR


# Templates: P2PK.
def fits_p2pk(script):
    return any(framed(script, key + 2, bytes([key]), bytes([OP_CHECKSIG])) for key in (65, 33))


# Templates: multisig. A refusal is no end.
def fits_multisig(script):
    try:
        codes = [code for _, code, _, _ in islice(walk(script), MAX_KEYS + 4)]
    except WalkRefused:
        return False
    if len(codes) < 3:
        return False
    signatures, *keys, count, last = codes
    if len(keys) > MAX_KEYS or not all(map(is_push, keys)) or is_push(count) or last != OP_CHECKMULTISIG:
        return False
    if number_of(count) not in (None, len(keys)):
        return False
    return number_of(signatures) is not None and number_of(signatures) <= len(keys)


# Templates: OP_RETURN.
def fits_op_return(script):
    return script[:1] == bytes([OP_RETURN])


# Templates: push-only. Core: IsPushOnly.
def fits_push_only(script):
    try:
        return all(code <= OP_PUSHNUM_16 for _, code, _, _ in walk(script))
    except WalkRefused:
        return False


# Templates: a yes or a no, unless the script is too long.
def judge(fits, script):
    within_limit(script)
    return fits(script)


# Templates: the kinds in their order.
KINDS = {
    "p2pkh": fits_p2pkh,
    "p2sh": fits_p2sh,
    "p2wpkh": fits_p2wpkh,
    "p2wsh": fits_p2wsh,
    "p2tr": fits_p2tr,
    "p2a": fits_p2a,
    "witness": fits_witness,
    "p2pk": fits_p2pk,
    "multisig": fits_multisig,
    "opreturn": fits_op_return,
    "other": lambda script: True,
}


# Templates: "kind, first that fits".
def kind(script):
    within_limit(script)
    return next(name for name, fits in KINDS.items() if fits(script))


# Templates: witness; the version, or None.
def witness_version(script):
    within_limit(script)
    return version_of(script)


# Templates: "the key is shown as bytes 1 to length minus 2"; place and length, or None.
def p2pk_key(script):
    within_limit(script)
    return (1, len(script) - 2) if fits_p2pk(script) else None


# Templates: redeem script; place and length, or None.
def redeem_script(script):
    within_limit(script)
    last = None
    try:
        for _, code, body, end in walk(script):
            if not is_push(code):
                return None
            last = body, end - body
    except WalkRefused:
        return None
    return last


# Templates: "a second call gives the part itself, empty for nothing and for refusal 1".
def part(find, script):
    try:
        start, length = find(script) or (0, 0)
    except Refused:
        return b""
    return script[start : start + length]


# Templates: `p2wpkh_script_code`; None for nothing.
def p2wpkh_script_code(script, out):
    within_limit(script)
    if not fits_p2wpkh(script):
        return None
    return put(out, HASH_FRONT + script[2:] + HASH_BACK)


# Counts and dust -------------------------------------------------------------------------------------------------------------------

MAX_PUBKEYS_PER_MULTISIG = 20
DEFAULT_RATE = 3000


# Counts and dust: the opcode bytes of "the instructions before the plain walk's end or refusal", a push's too.
@lru_cache(maxsize=1)
def codes_before_refusal(script):
    codes = bytearray()
    try:
        for _, code, _, _ in walk(script):
            codes.append(code)
    except WalkRefused:
        pass
    return bytes(codes)


# Counts and dust: the signature count. What counts for multisig is "the instruction directly before". Core: GetSigOpCount.
def count(script, accurate):
    within_limit(script)
    codes = codes_before_refusal(script)
    n = codes.count(OP_CHECKSIG) + codes.count(OP_CHECKSIGVERIFY)
    for before, code in zip(bytes([OP_INVALIDOPCODE]) + codes, codes):
        if code in (OP_CHECKMULTISIG, OP_CHECKMULTISIGVERIFY):
            stated = number_of(before) if accurate else None
            n += MAX_PUBKEYS_PER_MULTISIG if stated is None else stated
    return n


# Counts and dust: the accurate count.
def count_sigops(script):
    return count(script, True)


# Counts and dust: the other count.
def count_sigops_legacy(script):
    return count(script, False)


# Counts and dust: the size that is paid for.
def dust_size(script):
    if fits_op_return(script):
        return 0
    length = len(script)
    compact = 1 if length < 253 else 3 if length <= 65_535 else 5
    return length + compact + (75 if fits_witness(script) else 156)


# Counts and dust: "rate times size, divided by 1000, rounded down".
def dust(script, rate):
    within_limit(script)
    fee = rate * dust_size(script)
    if rate > MAX_AMOUNT or fee > MAX_AMOUNT:
        raise Refused(FEE_TOO_LARGE)
    return fee // 1000


# Counts and dust: "the default rate is 3000".
def minimal_non_dust(script):
    return dust(script, DEFAULT_RATE)


# Counts and dust: "the custom call takes satoshi per 1000 weight units, times 4".
def minimal_non_dust_custom(script, rate):
    return dust(script, rate * 4)


# Text ------------------------------------------------------------------------------------------------------------------------------


# Text: names and hex with one space between. The mark of a cut body stands where its hex would, that of cut length bytes behind what was written.
@lru_cache(maxsize=1)
def asm(script):
    words = []
    mark = ""
    try:
        for _, code, body, end in walk(script):
            words.append(NAMES[code] if code != OP_0 else "OP_0")
            if body < end:
                words.append(script[body:end].hex())
    except LengthCut:
        mark = "<unexpected end>"
    except BodyCut as cut:
        words += [NAMES[script[cut.place]], "<push past end>"]
    return " ".join(words) + mark


# Text: its length.
def asm_len(script):
    within_limit(script)
    return len(asm(script))


# Text: written to a lent buffer.
def write_asm(script, out):
    within_limit(script)
    return put(out, asm(script).encode())


# Builder ---------------------------------------------------------------------------------------------------------------------------

# Builder: "length used and the opcode remembered from the last call", None after a data push.
Builder = namedtuple("Builder", "length remembered")
EMPTY = Builder(0, None)


# Refusals by number: 1 on the used length, then 13.
def check_builder(builder, buffer):
    length, remembered = builder
    if length > MAX_SCRIPT:
        raise Refused(TOO_LONG)
    if length > len(buffer):
        raise Refused(BAD_BUILDER)
    if remembered is not None and (length == 0 or buffer[length - 1] != remembered):
        raise Refused(BAD_BUILDER)


# Refusals by number: 1 on the built script, then 7, "the whole built script against the whole buffer".
def append(builder, buffer, added, remembered):
    built = builder.length + len(added)
    if built > MAX_SCRIPT:
        raise Refused(TOO_LONG)
    if built > len(buffer):
        raise Refused(NO_ROOM, needs=built)
    buffer[builder.length : built] = added
    return Builder(built, remembered)


# Builder: "bytes taken over as a start remember the plain walk's last instruction if an opcode and nothing was refused".
def builder_start(buffer, length):
    check_builder(Builder(length, None), buffer)
    last = OP_0
    try:
        for _, last, _, _ in walk(bytes(buffer[:length])):
            pass
    except WalkRefused:
        last = OP_0
    return Builder(length, None if is_push(last) else last)


# Builder: an opcode, remembered.
def push_opcode(builder, buffer, code):
    check_builder(builder, buffer)
    return append(builder, buffer, bytes([code]), code)


# Builder: the opcode byte and the length bytes of "the shortest length form".
def push_head(length):
    if length < OP_PUSHDATA1:
        return bytes([length])
    for code, width in LENGTH_BYTES.items():
        if length < 256**width:
            return bytes([code]) + length.to_bytes(width, "little")


# Builder: a data push, "never a number opcode", after which nothing is remembered.
def push_slice(builder, buffer, data):
    check_builder(builder, buffer)
    return append(builder, buffer, push_head(len(data)) + data, None)


# Builder: "an integer -1 or 1..16 is its opcode, 0 is byte 0 (remembered), others are number pushes".
def push_int(builder, buffer, n):
    check_builder(builder, buffer)
    if n == 0:
        return push_opcode(builder, buffer, OP_0)
    if n == -1:
        return push_opcode(builder, buffer, OP_PUSHNUM_NEG1)
    if 1 <= n <= 16:
        return push_opcode(builder, buffer, OP_PUSHNUM_1 + n - 1)
    return push_slice(builder, buffer, number_bytes(n))


# Builder: "verify replaces a remembered opcode that has a verify form; else it appends 0x69".
def push_verify(builder, buffer):
    check_builder(builder, buffer)
    if builder.remembered not in VERIFY_FORMS:
        return push_opcode(builder, buffer, OP_VERIFY)
    verify = VERIFY_FORMS[builder.remembered]
    buffer[builder.length - 1] = verify
    return Builder(builder.length, verify)


# docs/ENTRIES.md, `as_bytes`: "the used bytes; empty for a builder that would be refused".
def as_bytes(builder, buffer):
    try:
        check_builder(builder, buffer)
    except Refused:
        return b""
    return bytes(buffer[: builder.length])


# Witness program -------------------------------------------------------------------------------------------------------------------


# Witness program: "version byte 0 or 0x50 + version, length, program". Refusals in the order 12, 10, 11, 7.
def witness_program(version, program, out):
    if version > 16:
        raise Refused(BAD_VERSION)
    if not 2 <= len(program) <= 40:
        raise Refused(PROGRAM_LENGTH)
    if version == 0 and len(program) not in (20, 32):
        raise Refused(PROGRAM_LENGTH_V0)
    first = OP_0 if version == 0 else OP_RESERVED + version
    return put(out, bytes([first, len(program)]) + program)


# The inspector ---------------------------------------------------------------------------------------------------------------------

MAX_INSPECTED = 2800


# Marked examples: the inspector's whole output. "The accurate count comes first."
def screen(script):
    if len(script) > MAX_INSPECTED:
        return f"refused {MAX_INSPECTED}\n".encode()
    lines = [
        f"length {len(script)}",
        f"kind {kind(script)}",
        f"sigops {count_sigops(script)} {count_sigops_legacy(script)}",
        f"dust {minimal_non_dust(script)}",
        f"asm {asm(script)}",
    ]
    return "".join(line + "\n" for line in lines).encode()


# Marked examples: the inspector's output, written to a lent buffer.
def inspect(script, out):
    return put(out, screen(script))
