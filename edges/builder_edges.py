# What `builder_edges` asks: the builder's calls, in sessions. A line has the answer, the builder for the next call and the buffer's first bytes.
import paper
from names import OP_EQUAL, OP_PUSHBYTES_1, OP_PUSHNUM_1
from paper import EMPTY, Builder
from show import hexed, refused, run_of, script

# What a buffer is filled with before the first call, and how much of it is printed.
UNTOUCHED = 0xEE
FRONT = 10

CALLS = {
    "start": lambda builder, buffer, length: paper.builder_start(buffer, length),
    "opcode": paper.push_opcode,
    "push": paper.push_slice,
    "int": paper.push_int,
    "verify": paper.push_verify,
    "lock time": paper.push_int,
    "sequence": paper.push_int,
}


# A buffer of so many bytes that nobody has written.
def fresh(room):
    return bytearray(run_of(UNTOUCHED, room))


# One call: its line, and the builder for the next one. A refused call hands back the builder it got; for a start see "What a refused start hands back" in docs/DECISIONS.md.
def call(name, builder, buffer, *given):
    answer = " done"
    try:
        builder = CALLS[name](builder, buffer, *given)
    except paper.Refused as refusal:
        answer = refused(refusal)
        if name == "start":
            builder = Builder(given[0], None)
    remembered = " nothing" if builder.remembered is None else hexed([builder.remembered])
    shown = len(paper.as_bytes(builder, buffer))
    state = f" length {builder.length} remembers{remembered} shown {shown}"
    return f"{name}:{answer}{state} buffer{hexed(buffer[:FRONT])}\n", builder


# Calls one after another in one buffer.
def session(buffer, *calls, builder=EMPTY):
    for name, *given in calls:
        line, builder = call(name, builder, buffer, *given)
        yield line


# The length forms at both sides of where they change, one after another in one buffer, each from an empty builder.
def forms():
    buffer = fresh(65_541)
    for length in (0, 75, 76, 255, 256, 65_535, 65_536):
        yield from session(buffer, ("push", run_of(0xAA, length)))


def ints():
    for n in (-1, 0, 1, 16, 17, 128, -255, 2**31, -(2**63) + 1, -(2**63)):
        yield from session(fresh(10), ("int", n))


# Document 01's W12: verify in one byte; again, with no room; and with room for one more.
def marked():
    yield from session(bytearray(script("87")), ("start", 1), ("verify",), ("verify",))
    yield from session(bytearray(script("88 ee")), ("start", 1), ("verify",))


# What was remembered wins over what a walk would say: `01 87` is one push, and verify folds the 87.
def remembered():
    return session(fresh(4), ("opcode", OP_PUSHBYTES_1), ("opcode", OP_EQUAL), ("verify",), ("int", 0), ("verify",))


# After a data push nothing is remembered, so that verify appends.
def forgotten():
    return session(fresh(6), ("opcode", OP_EQUAL), ("push", script("05")), ("verify",))


# Exact room, and one byte short.
def rooms():
    yield from session(fresh(4), ("push", b"abc"))
    yield from session(fresh(3), ("push", b"abc"))
    yield from session(fresh(0), ("opcode", OP_PUSHNUM_1))


# A length over the limit, one over the buffer's, an opcode remembered with no byte used, and another last byte. -2^63 comes after these.
def bad():
    buffer = fresh(3)
    yield from session(buffer, ("opcode", OP_PUSHNUM_1), builder=Builder(paper.MAX_SCRIPT + 1, None))
    yield from session(buffer, ("int", -(2**63)), builder=Builder(4, None))
    yield from session(buffer, ("push", b""), builder=Builder(0, OP_EQUAL))
    yield from session(buffer, ("verify",), builder=Builder(1, OP_EQUAL))


# Bytes that are taken over.
def starts():
    taken = [("87", 1), ("00", 1), ("01 87", 2), ("4c", 1), ("01 87 87 ac", 3), ("", 0), ("87", 2), ("87", paper.MAX_SCRIPT + 1)]
    for text, length in taken:
        yield from session(bytearray(script(text)), ("start", length))


def times():
    return session(fresh(12), ("lock time", 500_000), ("sequence", 2**32 - 1))


def output():
    for part in (forms, ints, marked, remembered, forgotten, rooms, bad, starts, times):
        yield from part()
