#!/usr/bin/env python3
"""Plays scripts of calls on the reference, each on a fresh module, and prints what the rack prints for them.

Usage: reference/play.py SCRIPT ..

For each frame, and for each sample that writes a notice: the refusal's number (0: accepted) and the reply's bytes; for a line `text` the
reply's characters without the carriage return. For a line that is no call: its number and what is wrong; the rest is still played. The
exit status is 1 if a line was wrong or a script too long, 2 for bad usage or a script that cannot be read. The format is the one of
./rack --help; the rules are crates/script/specs.
"""
import collections
import re
import sys

sys.dont_write_bytecode = True
import module

LIMIT = 262144  # bytes of a script
LONGEST = 300  # bytes of a frame
CALLS = "expected sample HHHH, sample HHHH N, toggle HHHH HHHH N, temperature T or temperature fault"
UNKNOWN = "unknown word: expected sample, toggle, temperature, spinel, modbus or text"
MISSING = "missing word: " + CALLS
TOO_MANY = "too many words: " + CALLS
BAD_HEX = "bad hex: expected four hex digits after sample, twice four after toggle, two hex digits for each byte of a frame"
BAD_NUMBER = "bad number: expected 1 to 65535 samples or toggles, a temperature of -32768 to 32767 tenths, or fault"
TOO_LONG = "frame too long: expected at most 300 bytes"

# What is printed: the number of the script's line, "frame", "notice" or "wrong", and the text, a character for each byte.
Printed = collections.namedtuple("Printed", "line kind text")


class Wrong(Exception):
    """A line that is no call, and why."""


def plain(line):
    """A line without a CR at its end and without a comment."""
    return (line[:-1] if line.endswith(b"\r") else line).split(b"#")[0]


def words(line):
    """The words of a line; spaces and tabs stand between them."""
    return re.findall(rb"[^ \t]+", plain(line))


def hexadecimal(word, digits):
    """A number of exactly so many hex digits, in capitals or not."""
    if not re.fullmatch(rb"[0-9A-Fa-f]+", word) or len(word) != digits:
        raise Wrong(BAD_HEX)
    return int(word, 16)


def decimal(word, least, most):
    """A decimal number without a sign; zeros may stand before it."""
    digits = word.lstrip(b"0") or word[:1]
    if not re.fullmatch(rb"[0-9]{1,5}", digits) or not least <= int(digits) <= most:
        raise Wrong(BAD_NUMBER)
    return int(digits)


def tenths(word):
    """A temperature, with a sign or without."""
    if word[:1] == b"-":
        return -decimal(word[1:], 0, 32768)
    return decimal(word[1:] if word[:1] == b"+" else word, 0, 32767)


def sample(rest):
    """The bits, and how many times."""
    if not rest:
        raise Wrong(MISSING)
    if len(rest) > 2:
        raise Wrong(TOO_MANY)
    bits = hexadecimal(rest[0], 4)
    return bits, decimal(rest[1], 1, 65535) if len(rest) == 2 else 1


def toggle(rest):
    """The bits of both samples, and how many times."""
    if len(rest) < 3:
        raise Wrong(MISSING)
    if len(rest) > 3:
        raise Wrong(TOO_MANY)
    return hexadecimal(rest[0], 4), hexadecimal(rest[1], 4), decimal(rest[2], 1, 65535)


def temperature(rest):
    """Whether the sample is good, and its tenths."""
    if not rest:
        raise Wrong(MISSING)
    if len(rest) > 1:
        raise Wrong(TOO_MANY)
    return (False, 0) if rest[0] == b"fault" else (True, tenths(rest[0]))


def frame(rest):
    """The bytes of a frame, judged from left to right; none is a frame of 0 bytes."""
    data = [hexadecimal(word, 2) for word in rest[:LONGEST]]
    if len(rest) > LONGEST:
        raise Wrong(TOO_LONG)
    return data


def text(line):
    """The frame of a line `text`: what stands behind the one space or tab that ends the word, spaces and tabs at the end left out; and a CR."""
    data = re.match(rb"[ \t]*text[ \t]?(.*)\Z", plain(line), re.S).group(1).rstrip(b" \t") + b"\r"
    if len(data) > LONGEST:
        raise Wrong(TOO_LONG)
    return data


def shown(number, answered):
    """The line of an answer to it: the reply as it is, but for its last byte, the CR."""
    refusal, reply = answered
    return Printed(number, "frame", str(refusal) + (" " + reply[:-1].decode("latin-1") if reply else ""))


def answer(number, kind, answered):
    """The line of an answer."""
    refusal, reply = answered
    return Printed(number, kind, " ".join([str(refusal)] + ["%02X" % byte for byte in reply]))


def samples(m, number, row):
    """Makes a sample of each of the bits in a row and yields the notices."""
    for bits in row:
        answered = m.sample(bits)
        if answered[1]:
            yield answer(number, "notice", answered)


def call(m, number, line):
    """Makes the calls of a line and yields what is printed of them."""
    first, *rest = words(line)
    if first == b"sample":
        bits, times = sample(rest)
        yield from samples(m, number, [bits] * times)
    elif first == b"toggle":
        one, other, times = toggle(rest)
        yield from samples(m, number, [one, other] * times)
    elif first == b"temperature":
        m.temperature(*temperature(rest))
    elif first == b"spinel":
        yield answer(number, "frame", m.spinel(frame(rest)))
    elif first == b"modbus":
        yield answer(number, "frame", m.modbus(frame(rest)))
    elif first == b"text":
        yield shown(number, m.spinel(text(line)))
    else:
        raise Wrong(UNKNOWN)


def play(script):
    """Yields all that is printed of a script, given as bytes."""
    if len(script) > LIMIT:
        yield Printed(0, "wrong", "script is longer than 262144 bytes; nothing was played")
        return
    m = module.Module()
    for number, line in enumerate(script.split(b"\n"), 1):
        try:
            if words(line):
                yield from call(m, number, line)
        except Wrong as wrong:
            yield Printed(number, "wrong", "line %d: %s" % (number, wrong))


def main(paths):
    """Plays each file and answers the exit status."""
    if not paths:
        print("usage: reference/play.py SCRIPT ..", file=sys.stderr)
        return 2
    status = 0
    for path in paths:
        try:
            script = open(path, "rb").read()
        except OSError as error:
            print("play.py: %s: %s" % (path, error.strerror), file=sys.stderr)
            return 2
        for printed in play(script):
            sys.stdout.buffer.write(printed.text.encode("latin-1") + b"\n")
            if printed.kind == "wrong":
                status = 1
    return status


if __name__ == "__main__":
    sys.exit(main(sys.argv[1:]))
