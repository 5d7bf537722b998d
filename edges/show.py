# How the programs print an answer, as `crates/show` does: every word and number has a space before it.
from paper import Refused


# Two digits for each byte.
def hexed(data):
    return "".join(f" {byte:02x}" for byte in data)


# The bytes as they are.
def plain(data):
    return bytes(data).decode("ascii")


# A refusal's number and its values.
def refused(refusal):
    values = "".join(f" {word} {value}" for word, value in refusal.values.items())
    return f" refusal {refusal.number}{values}"


# What a call answers, said by `say`, or its refusal.
def answered(say, call, *given):
    try:
        return say(call(*given))
    except Refused as refusal:
        return refused(refusal)


def counted(call, *given):
    return answered(lambda count: f" count {count}", call, *given)


def judged(call, *given):
    return answered(lambda yes: " true" if yes else " false", call, *given)


# A script that is written in hex.
def script(text):
    return bytes.fromhex(text)


# So many bytes of one value.
def run_of(byte, length):
    return bytes([byte]) * length
