#!/usr/bin/env python3
"""Refusal 1 on the reference: makes the calls of the program short_buffers, and prints what it prints.

Usage: reference/short_buffers.py

The reference has no buffer, only its length: "bytes as they were" is the rest of the length, as 01 says of bytes beyond a reply.
"""
import sys

sys.dont_write_bytecode = True
import module


def spinel(code, *data):
    """A call with a Spinel request, address 31, signature 2."""
    return "spinel", module.spin(0x31, 2, code, data)


def modbus(function, start, value):
    """A call with a Modbus request, address 31."""
    return "modbus", module.mod(0x31, function, module.be(start) + module.be(value))


def told(m, call, room):
    """Makes a call with a reply buffer of so many bytes; its line."""
    kind, argument = call
    refusal, reply = getattr(m, kind)(argument, room)
    verdict = "refused by %d" % refusal if refusal else "accepted"
    data = "".join(" %02X" % byte for byte in reply)
    return "%s, %d bytes: %s, reply of %d bytes%s, %d bytes as they were" % (kind, room, verdict, len(reply), data, room - len(reply))


def tried(m, call, read):
    """A call with 0, 1 and 255 bytes, and with 256 between two reads."""
    return [told(m, call, room) for room in (0, 1, 255)] + [told(m, one, 256) for one in (read, call, read)]


def lines():
    """All lines, on one fresh module."""
    m = module.Module()
    ready = [spinel(0x62, 1), spinel(0x6A, 1, 3), spinel(0x10, 1)]
    return (
        ["62H number 1; 6AH input 1 counts both edges; 10H notice on"]
        + [told(m, call, 256) for call in ready]
        + ["sample 0001; counter 1 by 60H"]
        + tried(m, ("sample", 0x0001), spinel(0x60, 1))
        + ["20H output 1 on; outputs by 30H"]
        + tried(m, spinel(0x20, 0x81), spinel(0x30))
        + ["05 coil 1 on; coils by 01"]
        + tried(m, modbus(5, 1, 0xFF00), modbus(1, 0, 16))
    )


if __name__ == "__main__":
    print("\n".join(lines()))
