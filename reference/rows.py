"""The closed cases that the tables of crates/model/proofs hold the definitions to: lists of calls, written from documents 01 and 02.

A case is a name, what it shows, the state it starts from, and its calls. What the calls answer is worked out by module.py; typed here are
the cases A to J of the rack, cases that do not start from a fresh module, the tally's numbers, and the rows about claims. What a module
holds of one input after some samples is worked out by module.py from the states given here. tables.py writes the cases as antt; sweep plays
them on changed definitions.
"""
import copy
import itertools
import re
import sys

sys.dont_write_bytecode = True
import module as reference


# Calls: (kind, ..) ---------------------------------------------------------------

def S(code, *data, a=0x31, s=2, room=256):
    """A Spinel request: instruction and data; address, signature and the lent buffer's length where they differ."""
    return ("spinel", a, s, code, list(data), room)


def M(function, *body, a=0x31, room=256):
    """A Modbus request: function and body."""
    return ("modbus", a, function, list(body), room)


def raw(port, *frame, room=256):
    """A frame byte by byte, where framing is the point."""
    return (port + " bytes", list(frame), room)


def B(text, a="1", end="\r", room=256):
    """A frame of the text format: what stands between the address and the carriage return."""
    return raw("spinel", *("*B" + a + text + end).encode("latin-1"), room=room)


def texts(*listed, a="1"):
    """Several of them; each may be a code with what follows it, parted by a colon: "IR: 1 16" is IR1 and IR16."""
    return [B(code + each, a) for text in listed for code, _, rest in [text.partition(": ")] for each in (rest.split(" ") if rest else [""])]


def word(n):
    return [n // 256 % 256, n % 256]


def words(*ns):
    return [b for n in ns for b in word(n)]


def R(function, start, second, **at):
    """01 to 06: start, and quantity or value."""
    return M(function, *words(start, second), **at)


def W(start, *values, **at):
    """10H: the values from a register on."""
    return M(0x10, *words(start, len(values)), 2 * len(values), *words(*values), **at)


def C(start, quantity, *packed, **at):
    """0F: so many coils by their bits."""
    return M(0x0F, *words(start, quantity), len(packed), *packed, **at)


def D(*items, **at):
    """61H: deductions, each a number and an amount of four bytes."""
    return S(0x61, *[b for number, amount in items for b in (number, *amount.to_bytes(4, "big"))], **at)


def X(code, *data, a=0x31, s=2, by=1, room=256):
    """A Spinel request with a wrong SUM, so much above the right one."""
    return raw("spinel", *off(spinel_frame(a, s, code, data), -2, by), room=room)


# after these any SUM will do (E5)
UNTESTED = [S(0xE4), S(0xEE, 0)]


def P(bits, times=1, room=256):
    """Samples of the same sixteen bits."""
    return ("sample", bits, times, room)


def samples(*bits):
    return [P(b) for b in bits]


def doors(times, *bits):
    """The samples in turn, so many times over."""
    return ("doors", list(bits), times)


def set_modes(of):
    """6AH for all sixteen inputs, in two lists; a mode for each number."""
    return [S(0x6A, *[b for k in numbers for b in (k, of(k))]) for numbers in (range(1, 13), range(13, 17))]


# eight groups of inputs: of any two inputs each is once in a group and the other not
GROUPS = 0x5555, 0xAAAA, 0x3333, 0xCCCC, 0x0F0F, 0xF0F0, 0x00FF, 0xFF00


def by_groups(row, *groups):
    """Some groups, an even number of them, each from where all inputs are off and from where all are on."""
    return [c for at, group in enumerate(groups + groups[1:] + groups[:1]) for c in row(group, at % 2 * 0xFFFF)]


def staggered(group, alike):
    """Number 4: a group begins two samples before the others. Its edge; the others' third differing sample in a row; their fourth."""
    first, turned = alike ^ group, alike ^ 0xFFFF
    return [P(first, 2), P(turned, 3), S(0x31), P(turned), S(0x31)]


def staggered_singly(group, alike):
    """The same, where a notice may come with an edge."""
    first, turned = alike ^ group, alike ^ 0xFFFF
    return [P(first, 2), *samples(turned, turned, turned), S(0x31), P(turned), S(0x31)]


# input 1 and up flip, then 2 and up, and so on: input k flips k times
STAIRS = [0xFFFF, 0x0001, 0xFFFD, 0x0005, 0xFFF5, 0x0015, 0xFFD5, 0x0055, 0xFF55, 0x0155, 0xFD55, 0x0555, 0xF555, 0x1555, 0xD555, 0x5555]


def some_behind(number, alike):
    """Ten inputs, at both ends and between, begin one sample before the six others. Their edge, and that of the others one sample later."""
    first, turned = alike ^ 0xD557, alike ^ 0xFFFF
    return [S(0x62, number), P(first), P(turned, number - 1), S(0x31), P(turned), S(0x31)]


def T(tenths):
    return ("temperature", True, tenths)


def bad(tenths):
    return ("temperature", False, tenths)


FAULT = bad(0)


def group(output, flags, x, y, time=0, err=0):
    """A group of 1AH."""
    return [output, flags, *word(x % 65536), *word(y % 65536), time, err]


def spinel_frame(a, s, code, data):
    return list(reference.spin(a, s, code, data))


def modbus_frame(a, function, body):
    return list(reference.mod(a, function, body))


def frame(call):
    """The bytes of a frame call, and the room it is given."""
    kind = call[0]
    if kind == "spinel":
        return spinel_frame(*call[1:5]), call[5]
    if kind == "modbus":
        return modbus_frame(*call[1:4]), call[4]
    return call[1], call[2]


def off(bytes_, place, by=1):
    """A frame with one byte changed."""
    changed = list(bytes_)
    changed[place] = (changed[place] + by) % 256
    return changed


def answer(m, call):
    """What the reference answers; for samples taken several times, the last answer (all are alike, or it is an error)."""
    kind = call[0]
    if kind == "sample":
        given = [m.sample(call[1], call[3]) for _ in range(call[2])]
    elif kind == "doors":
        given = [m.sample(b) for _ in range(call[2]) for b in call[1]]
    elif kind == "temperature":
        given = [m.temperature(call[1], call[2])]
    else:
        bytes_, room = frame(call)
        given = [getattr(m, kind.split()[0])(bytes(bytes_), room)]
    if any(g != given[0] for g in given):
        raise ValueError("answers differ: %r" % (call,))
    return given[0][0], list(given[0][1])


def play(calls):
    m = reference.Module()
    return [answer(m, c) for c in calls]


def case(name, shows, *calls, answers=None, start="fresh_module"):
    """Calls may be lists of calls. Answers are typed for A to J, and where the case starts from another state than a fresh module."""
    flat = [c for x in calls for c in (x if isinstance(x, list) else [x])]
    return name, shows, start, flat, answers


# Rack table, typed from documents 01 and 02 --------------------------------------------------

def ack(*data):
    return 0, spinel_frame(0x31, 2, 0, data)


def nack(number, code):
    return number, spinel_frame(0x31, 2, code, [])


QUIET = (0, [])


def counts(*values):
    """60H is answered by 20H and four bytes for each counter."""
    return ack(0x20, *[b for value in values for b in value.to_bytes(4, "big")])


def modbus_ack(function, *body, a=0x31):
    return 0, modbus_frame(a, function, body)


def modbus_nack(number, function, code):
    return number, modbus_frame(0x31, function + 0x80, [code])


def shown(*values):
    """03 is answered by the number of bytes and the registers."""
    return modbus_ack(3, 2 * len(values), *words(*values))


def typed(name, shows, start, *exchanges):
    """A case from any state, each call with its answer."""
    return case(name, shows, *[c for c, _ in exchanges], answers=[a for _, a in exchanges], start=start)


def state(part, text):
    """A fresh module with one part replaced."""
    return f"(with_{part} fresh_module ({text}))"


def inputs(lines, modes, counters, number, of="fresh_module"):
    """A fresh module, or another one, with other inputs, modes and sampling number."""
    settings = f"(with_sampling (with_modes {of} ({modes})) {number})"
    return f"(with_inputs {settings} (record {{ lines = {lines}; counters = {counters} }}))"


def counting(*counters):
    """A fresh module that counts every change of a sample, with these counters, the last of them up to input 16."""
    *first, last = counters
    return inputs("replicate 16 fresh_line", "replicate 16 3", " ∷ ".join([*map(str, first), f"replicate {16 - len(first)} {last}"]), 1)


RACK = [
    case("case_a", "a preset is set", raw("spinel", 0x2A, 0x61, 0, 8, 0x31, 2, 0x26, 4, 2, 4, 9, 0x0D),
         answers=[(0, [0x2A, 0x61, 0, 5, 0x31, 2, 0, 0x3C, 0x0D])]),
    case("case_b", "with SUM 0A: 4", raw("spinel", 0x2A, 0x61, 0, 8, 0x31, 2, 0x26, 4, 2, 4, 0x0A, 0x0D), answers=[(4, [])]),
    case("case_c", "to address 01: 5", raw("spinel", 0x2A, 0x61, 0, 5, 1, 2, 0x31, 0x3B, 0x0D), answers=[(5, [])]),
    case("case_d", "mode 3, sampling number 1, samples 1 0 1: counter 3; deduct 2 leaves 1; deduct 2: 11",
         S(0x6A, 1, 3), S(0x62, 1), samples(1, 0, 1), S(0x60, 1), D((1, 2)), S(0x60, 1), D((1, 2)),
         answers=[ack(), ack(), QUIET, QUIET, QUIET, ack(0x20, 0, 0, 0, 3), ack(), ack(0x20, 0, 0, 0, 1), nack(11, 3)]),
    case("case_e", "19 samples of 1, no edge; 20, one",
         S(0x6A, 1, 3), P(1, 19), S(0x31), S(0x60, 1), P(1), S(0x31), S(0x60, 1),
         answers=[ack(), QUIET, ack(0, 0), ack(0x20, 0, 0, 0, 0), QUIET, ack(0, 1), ack(0x20, 0, 0, 0, 1)]),
    case("case_f", "4,294,967,294 edges, then one, 4,294,967,295; one more: 0", samples(1), S(0x60, 1), samples(0), S(0x60, 1),
         answers=[QUIET, ack(0x20, 0xFF, 0xFF, 0xFF, 0xFF), QUIET, ack(0x20, 0, 0, 0, 0)], start="(run fresh_module (cycles 2147483647))"),
    case("case_g", "counters 5, 5; deduct 1 and 9: 11; still 5, 5",
         S(0x6A, 1, 3, 2, 3), S(0x62, 1), samples(3, 0, 3, 0, 3), D((1, 1), (2, 9)), S(0x60, 1, 2),
         answers=[ack(), ack(), *[QUIET] * 5, nack(11, 3), ack(0x20, 0, 0, 0, 5, 0, 0, 0, 5)]),
    case("case_h", "on pulse, time 1: after 499 samples 1 is left; after 500, off",
         S(0x23, 1, 0x81), P(0, 499), S(0x33, 1), P(0), S(0x33, 1),
         answers=[ack(), QUIET, ack(0x81, 1), QUIET, ack(1, 0)]),
    case("case_i", "31.3 degrees as a float", T(313), R(4, 2, 2), answers=[QUIET, (0, modbus_frame(0x31, 4, [4, 0x41, 0xFA, 0x66, 0x66]))]),
    case("case_j", "125 registers from 100: 9; 126: 8", R(3, 100, 125), R(3, 100, 126),
         answers=[(9, modbus_frame(0x31, 0x83, [2])), (8, modbus_frame(0x31, 0x83, [3]))]),
]

# One witness for each slip and cheat that 01 names ---------------------------------------

# inputs 1 and 2 count both edges of 1 0 1
COUNT3 = [S(0x6A, 1, 3, 2, 3), S(0x62, 1)] + samples(3, 0, 3)

WITNESSES = [
    case("deducts_after_judging", "slip: deducting while still judging. Counters 3, 3, 0; 2, 1 and 1 from them: 11, still 3, 3",
         COUNT3, D((1, 2), (2, 1), (3, 1)), S(0x60, 1, 2)),
    case("counts_stable_changes", "slip: counting every change of a sample. Six changes, none of them 20 samples long: no edge",
         S(0x6A, 1, 3), samples(1, 0, 1, 0, 1, 0), S(0x31), S(0x60, 1)),
    case("broadcast_clears_nothing", "slip: a 60H to all that clears. It is refused by 6, and the counter is still 3",
         COUNT3, S(0x60, 0x80, a=0xFF), S(0x60, 1)),
    case("bad_sum_keeps_permission", "slip: a wrong checksum that ends a permission. E4H, a wrong SUM (4), and E0H is permitted",
         S(0xE4), raw("spinel", *off(spinel_frame(0x31, 2, 0xE0, [0x32, 7]), -2)), S(0xE0, 0x32, 7), S(0xF0, a=0x32)),
    case("bad_crc_keeps_permission", "the same over Modbus: register 0, a wrong CRC (4), then address 32H",
         R(6, 0, 0xFF), raw("modbus", *off(modbus_frame(0x31, 6, words(1, 0x32)), -2)), R(6, 1, 0x32), R(3, 1, 2, a=0x32)),
    case("counts_and_collects", "cheat: no edge counted, nothing collected. Counter 3; read and zeroed; 0; one more edge, 1",
         COUNT3, S(0x60, 0x81), S(0x60, 1), samples(0), S(0x60, 1)),
    case("own_values", "cheat: an invented value, a fixed ACK. Counters 3 and 1 in the order asked; ACK 03 and 02 where refused",
         S(0x6A, 1, 3, 2, 1), S(0x62, 1), samples(3, 0, 1), S(0x60, 2, 1), D((2, 2)), S(0x70)),
    case("every_item", "cheat: only the first deduction is honoured. Counters 3, 3; deduct 1 and 3; 2, 0",
         COUNT3, D((1, 1), (2, 3)), S(0x60, 1, 2)),
    case("not_always_11", "cheat: 11 whatever is asked. A deduction that fits, an output that nothing holds",
         COUNT3, D((1, 3)), S(0x20, 0x81), S(0x30)),
    case("looks_before_holding", "cheat: a thermostat that holds unlooked. 20.0 to 30.0: 12 before a reading; free at 25.0 and both ends",
         S(0x1A, *group(1, 0x81, 300, 200)), S(0x20, 0x81), T(250), S(0x20, 0x81), T(200), S(0x20, 1), T(300), S(0x20, 0x81),
         T(301), S(0x20, 1), S(0x20, 0x82), FAULT, S(0x20, 1)),
    case("sees_samples", "cheat: samples ignored. The inputs read as sampled on both ports",
         S(0x62, 1), samples(0x8005), S(0x31), R(2, 0, 16)),
]

# Frames: checks 1 to 6 -----------------------------------------------------------------

FRAMES = [
    case("short_buffers", "1: a buffer of 255 or 0 bytes, before 2, on both ports; the permission and all else stay",
         S(0x62, 1), S(0xE4), P(1, room=255), P(1, room=0), S(0x20, 0x81, room=255), raw("spinel", room=255), R(5, 0, 0xFF00, room=255),
         raw("modbus", room=0), S(0xE0, 0x31, 6), S(0x30), S(0x31), S(0x10, 1), P(1, room=255), S(0x31)),
    case("spinel_lengths", "2: under 9 bytes, or over 256, also where the shape is wrong; with 9 and with 256 the data is judged",
         raw("spinel"), raw("spinel", 0x2A, 0x61, 0, 4, 0x31, 2, 0x3D, 0x0D), raw("spinel", *[0] * 8),
         raw("spinel", 0x2A, 0x61, 0, 5, 0x31, 2, 0x30, 0x0C, 0x0D), S(0x30, *[0] * 247), S(0x30, *[0] * 248),
         raw("spinel", *[0] * 257), raw("spinel", *[0] * 9)),
    case("spinel_shape", "3: another first, second or last byte, a NUM that is one off or has a high byte; before 4",
         raw("spinel", 0x2B, 0x61, 0, 5, 0x31, 2, 0x30, 0x0B, 0x0D), raw("spinel", 0x29, 0x61, 0, 5, 0x31, 2, 0x30, 0x0D, 0x0D),
         raw("spinel", 0x2A, 0x62, 0, 5, 0x31, 2, 0x30, 0x0B, 0x0D), raw("spinel", 0x2A, 0x60, 0, 5, 0x31, 2, 0x30, 0x0D, 0x0D),
         raw("spinel", 0x2A, 0x61, 0, 5, 0x31, 2, 0x30, 0x0C, 0x0E), raw("spinel", 0x2A, 0x61, 0, 5, 0x31, 2, 0x30, 0x0C, 0x0C),
         raw("spinel", 0x2A, 0x61, 0, 6, 0x31, 2, 0x30, 0x0B, 0x0D), raw("spinel", 0x2A, 0x61, 0, 4, 0x31, 2, 0x30, 0x0D, 0x0D),
         raw("spinel", 0x2A, 0x61, 1, 5, 0x31, 2, 0x30, 0x0B, 0x0D), raw("spinel", 0x2A, 0x61, 5, 0, 0x31, 2, 0x30, 0x0C, 0x0D),
         raw("spinel", 0x2B, 0x61, 0, 5, 0x31, 2, 0x30, 0x0C, 0x0D), raw("spinel", 0x2A, 0x61, 0, 5, 0x31, 2, 0x30, 0x0C, 0x0D)),
    case("spinel_sum", "4: one more or less, the sum itself; before 5. The SUM of 26H with three presets, of a frame that sums to 255",
         raw("spinel", 0x2A, 0x61, 0, 5, 0x31, 2, 0x30, 0x0D, 0x0D), raw("spinel", 0x2A, 0x61, 0, 5, 0x31, 2, 0x30, 0x0B, 0x0D),
         raw("spinel", 0x2A, 0x61, 0, 5, 0x31, 2, 0x30, 0xF3, 0x0D), raw("spinel", 0x2A, 0x61, 0, 5, 0x32, 2, 0x30, 0x0C, 0x0D),
         raw("spinel", 0x2A, 0x61, 0, 0x0E, 0x31, 2, 0x26, 3, 2, 1, 4, 3, 0xFF, 5, 0, 9, 0xF3, 0x0D),
         raw("spinel", 0x2A, 0x61, 0, 5, 0x31, 0x0E, 0x30, 0x00, 0x0D), raw("spinel", 0x2A, 0x61, 0, 5, 0x31, 0x0F, 0x30, 0xFF, 0x0D)),
    case("spinel_address", "5: beside 31H, 00, FD; FE is answered from 31H",
         S(0x30, a=0x30), S(0x30, a=0x32), S(0x30, a=0x00), S(0x30, a=0xFD), S(0x20, 0x81, a=0x30), S(0x30, a=0xFE), S(0x99, a=0xFE),
         S(0x20, 0x81, a=0xFE), S(0x30)),
    case("spinel_broadcast", "20H, 23H, 25H to all are served without a reply, refused or not",
         S(0x26, 3, 3, 2), S(0x20, 0x81, a=0xFF), S(0x23, 2, 0x82, a=0xFF), S(0x25, 3, a=0xFF), S(0x33, 1, 2, 3),
         S(0x20, 0x91, a=0xFF), S(0x20, a=0xFF), S(0x23, 0, 0x81, a=0xFF), S(0x23, 1, a=0xFF), S(0x25, 4, a=0xFF), S(0x25, a=0xFF),
         S(0x1A, *group(1, 0x81, 300, 200)), S(0x20, 1, a=0xFF), S(0x23, 1, 1, a=0xFF), S(0x25, 1, a=0xFF), S(0x30)),
    case("spinel_broadcast_others", "6: any other instruction to all, and nothing changes",
         *[S(i, *d, a=0xFF) for i, d in ((0x10, [1]), (0x11, []), (0x1A, group(1, 0, 0, 0)), (0x1B, []), (0x26, [1, 2, 1]), (0x30, []),
           (0x31, []), (0x33, [0]), (0x36, [0]), (0x38, [0]), (0x40, [1, 1, 1]), (0x41, [0]), (0x51, [1]), (0x60, [0]), (0x61, [0]), (0x62, [1]),
           (0x63, []),
           (0x6A, [1, 3]), (0x6B, [0]), (0xE0, [0x31, 6]), (0xE3, []), (0xE4, []), (0xEE, [0]), (0xF0, []), (0xFE, []), (0x1F, []),
           (0x21, [0x81]), (0x22, [1, 0x81]), (0x24, [1, 0x81]), (0x3F, [1, 1, 1]), (0x42, [0]), (0x99, []))],
         S(0x11), S(0x36, 1), S(0x41, 1), S(0x63), S(0x6B, 1)),
    case("modbus_lengths", "2: under 4 bytes, or over 256; with 4 and with 256 the function is judged",
         raw("modbus"), raw("modbus", 0x31, 0x07, 0x55), raw("modbus", 0x31, 0x07, 0x55, 0xE2), M(3, *[0] * 252), M(3, *[0] * 253)),
    case("modbus_crc", "4: either byte off, or exchanged; before 5; the whole frame counts",
         raw("modbus", 0x31, 3, 0, 0x64, 0, 1, 0xC1, 0x25), raw("modbus", 0x31, 3, 0, 0x64, 0, 1, 0xBF, 0x25),
         raw("modbus", 0x31, 3, 0, 0x64, 0, 1, 0xC0, 0x26), raw("modbus", 0x31, 3, 0, 0x64, 0, 1, 0xC0, 0x24),
         raw("modbus", 0x31, 3, 0, 0x64, 0, 1, 0x25, 0xC0), raw("modbus", 0x32, 3, 0, 0x64, 0, 1, 0xC0, 0x25),
         raw("modbus", 0x31, 3, 0, 0x65, 0, 1, 0xC0, 0x25), raw("modbus", 0x31, 3, 0, 0x64, 0, 1, 0xC0, 0x25)),
    case("modbus_address", "5: beside 31H, FE, FF",
         R(1, 0, 16, a=0x30), R(1, 0, 16, a=0x32), R(1, 0, 16, a=0xFE), R(1, 0, 16, a=0xFF), R(5, 0, 0xFF00, a=0x32), R(1, 0, 16)),
    case("modbus_broadcast", "05 and 0F to all are served without a reply, refused or not; 6: any other function to all",
         R(5, 0, 0xFF00, a=0), C(1, 2, 2, a=0), R(5, 16, 0xFF00, a=0), R(5, 3, 1, a=0), M(5, 0, 0, 0, a=0), C(15, 2, 3, a=0), C(0, 9, 1, a=0),
         R(1, 0, 16, a=0), R(2, 0, 16, a=0), R(3, 300, 1, a=0), R(4, 0, 1, a=0), R(6, 300, 3, a=0), W(300, 3, a=0), M(7, a=0), M(0x0E, a=0),
         M(0x11, a=0), R(1, 0, 16), R(3, 300, 1),
         S(0x1A, *group(1, 0x81, 300, 200)), R(5, 0, 0, a=0), C(0, 1, 0, a=0), R(1, 0, 16)),
    case("spinel_unlisted", "7 for every instruction between the listed ones, whatever the data",
         *[S(i) for i in (0x00, 0x0F, 0x12, 0x19, 0x1C, 0x1F, 0x21, 0x22, 0x24, 0x27, 0x2F, 0x32, 0x34, 0x35, 0x37, 0x39, 0x3F, 0x42, 0x50, 0x52,
           0x5F, 0x64, 0x69, 0x6C, 0xDF, 0xE1, 0xE2, 0xE5, 0xED, 0xEF, 0xF1, 0xFD, 0xFF)], S(0x22, 1, 2), S(0x3F, 1, 1, 1), S(0x42, 1)),
    case("modbus_unlisted", "7 for every other function; the exception has bit 7, 80H and up stay",
         *[M(i) for i in (0x00, 0x07, 0x0E, 0x11, 0x16, 0x7F, 0x80, 0x83, 0xFF)], M(8, 0, 0, 0, 0)),
    case("any_sum", "SUM untested (E5): one more or less, all bits turned, 0, 255 and the right one; the reply has a right SUM; to FE too",
         UNTESTED, X(0x30), X(0x30, by=-1), *[raw("spinel", 0x2A, 0x61, 0, 5, 0x31, 2, 0x30, sum_, 0x0D) for sum_ in (0xF3, 0x00, 0xFF, 0x0C)],
         X(0x30, a=0xFE), X(0xF0, s=9, by=128)),
    case("any_sum_served", "SUM untested (E5): a deduction, a read that zeroes, a preset, and 20H, 23H, 25H to all, unanswered, refused or not",
         COUNT3, UNTESTED, X(0x61, 1, 0, 0, 0, 2), S(0x60, 1, 2), X(0x60, 0x82), S(0x60, 1, 2), X(0x26, 3, 3, 2), X(0x20, 0x81, a=0xFF),
         X(0x23, 2, 0x82, a=0xFF), S(0x33, 1, 2, 3), X(0x25, 3, a=0xFF), X(0x20, 1, 0x91, a=0xFF), S(0x33, 1, 2, 3)),
    case("any_sum_order", "SUM untested (E5): all but 4 as before and in order, with a wrong SUM: 1, 2, 3, 5, 6; then 7, 8, 10, 13, 11, 14, 12",
         UNTESTED, X(0x20, 0x81, room=255), raw("spinel", 0x2A, 0x61, 0, 4, 0x31, 2, 0x3E, 0x0D), raw("spinel", *[0] * 257),
         raw("spinel", 0x2B, 0x61, 0, 5, 0x31, 2, 0x30, 0x0C, 0x0D), raw("spinel", 0x2A, 0x62, 0, 5, 0x31, 2, 0x30, 0x0C, 0x0D),
         raw("spinel", 0x2A, 0x61, 0, 6, 0x31, 2, 0x30, 0x0C, 0x0D), raw("spinel", 0x2A, 0x61, 1, 5, 0x31, 2, 0x30, 0x0C, 0x0D),
         raw("spinel", 0x2A, 0x61, 0, 4, 0x31, 2, 0x30, 0x0C, 0x0D),
         raw("spinel", 0x2A, 0x61, 0, 5, 0x31, 2, 0x30, 0x0D, 0x0C), raw("spinel", 0x2A, 0x61, 0, 5, 0x32, 2, 0x30, 0x00, 0x0E),
         X(0x30, a=0x32), X(0x20, 0x81, a=0), X(0x60, 0x80, a=0xFF), X(0xEE, 1, a=0xFF), X(0x99, a=0xFF), X(0x99), X(0x30, 0),
         raw("spinel", 0x2A, 0x61, 0, 5, 0x31, 2, 0x20, 0x81, 0x0D), X(0xE0, 0x31, 6), X(0xEE, 1), X(0xE4, a=0xFE), X(0x61, *[1, 0, 0, 0, 0] * 2), X(0x62, 0),
         X(0x61, 1, 0, 0, 0, 1), S(0x1A, *group(1, 0x81, 300, 200)), X(0x40, 1, 1, 5), X(0x40, 1, 1, 1), X(0x20, 0x81), X(0x20, 0x81, a=0xFF),
         S(0x30), S(0xFE)),
    case("any_sum_every", "SUM untested (E5): every instruction, frames of 67 and 256 bytes; nothing on either port but EEH turns the test on",
         UNTESTED, X(0xE4), X(0xEE, 0), X(0x10, 1), X(0x11), X(0x1A, *group(1, 0, 0, 0)), X(0x1B), X(0x20, 0x81), X(0x23, 1, 0x82), X(0x26, 1, 2, 1),
         X(0x25, 1), X(0x30), X(0x31), X(0x33, 1), X(0x36, 1), X(0x38, 1), X(0x40, 1, 1, 1), X(0x41, 1), X(0x51, 1), X(0x60, 1), X(0x61, 0),
         X(0x62, 1), X(0x63), X(0x6A, 1, 3),
         X(0x6B, 1), X(0xE3), X(0xF0), X(0xFE), X(0x61, *[b for n in range(1, 13) for b in (n, 0, 0, 0, 0)]), X(0x99, *[0] * 247),
         R(1, 0, 1), R(2, 0, 1), R(3, 1, 1), R(4, 0, 1), R(5, 0, 0xFF00), R(6, 300, 3), C(0, 1, 1), W(100, 0), samples(1), T(0), bad(0), S(0xFE)),
    case("any_sum_crc", "SUM untested (E5): a CRC with either byte off is 4, to all too; a right one is accepted",
         UNTESTED, raw("modbus", 0x31, 1, 0, 0, 0, 0x10, 0x39, 0x36), raw("modbus", 0x31, 1, 0, 0, 0, 0x10, 0x38, 0x37),
         raw("modbus", *off(modbus_frame(0, 5, words(0, 0xFF00)), -1)), raw("modbus", 0x31, 1, 0, 0, 0, 0x10, 0x38, 0x36), S(0xFE)),
]

# Samples and edges ---------------------------------------------------------------------

SAMPLES = [
    case("equal_ends_run", "an equal sample ends the run: 19, one equal, 19 more: no edge; the 20th flips, and back after 20",
         S(0x6A, 1, 3), P(1, 19), P(0), P(1, 19), S(0x31), P(1), S(0x31), P(0, 19), S(0x31), P(0), S(0x31), S(0x60, 1)),
    case("longest", "number 255: 254 differing samples are none, the 255th flips",
         S(0x62, 255), P(0x8000, 254), S(0x31), P(0x8000), S(0x31)),
    case("number_one", "number 1: each change flips, a rising and a falling edge; inputs 1 and 16 at the ends of 31H and of 02",
         S(0x62, 1), samples(0x8001), S(0x31), R(2, 0, 16), samples(0x8000), S(0x31), samples(0x0001), S(0x31), R(2, 0, 16), R(2, 15, 1)),
    case("number_two", "number 2: one differing sample is none, two flip; an input's run is its own",
         S(0x62, 2), samples(1), S(0x31), samples(3), S(0x31), samples(2), S(0x31), samples(2), S(0x31), samples(2), S(0x31)),
    case("number_changed", "62H keeps the runs: the lower number flips at the next differing sample; a higher one waits on",
         P(1, 5), S(0x62, 3), S(0x31), samples(1), S(0x31), S(0x62, 2), samples(0), S(0x62, 4), samples(0, 0), S(0x31), samples(0), S(0x31)),
    case("number_reached", "the number lowered below the run: an equal sample ends the run all the same",
         P(1, 5), S(0x62, 3), samples(0, 1, 1), S(0x31), samples(1), S(0x31)),
    case("modes_select", "modes 0 to 3 of inputs 4, 1, 2, 3: a rising edge of each, a falling edge of each",
         S(0x6A, 1, 1, 2, 2, 3, 3), S(0x62, 1), samples(15), S(0x60, 1, 2, 3, 4), samples(0), S(0x60, 1, 2, 3, 4)),
    case("mode_at_that_moment", "a mode set later counts from then on and keeps the counter; mode 0 stops it",
         S(0x62, 1), samples(1), S(0x6A, 1, 3), samples(0, 1), S(0x60, 1), S(0x6A, 1, 2), S(0x60, 1), samples(0, 1), S(0x60, 1),
         S(0x6A, 1, 0), samples(0, 1), S(0x60, 1), S(0x6B, 1)),
    case("sixteenth", "input 16 has its own bit, state, mode and counter",
         S(0x6A, 16, 1, 15, 2), S(0x62, 1), samples(0x8000, 0x4000, 0x8000), S(0x60, 0), S(0x31)),
    case("refused_sample", "a sample with a buffer of 255 bytes is no sample: no run, no edge, no step of a pulse",
         S(0x62, 2), S(0x6A, 1, 3), samples(1), P(1, room=255), S(0x31), samples(1), S(0x31), S(0x60, 1),
         S(0x23, 1, 0x81), P(1, 499), P(1, room=255), S(0x33, 1), P(1), S(0x33, 1)),
    case("high_counts", "300 edges: a counter above one byte, read, deducted and shown by register",
         S(0x6A, 1, 3), S(0x62, 1), doors(150, 1, 0), S(0x60, 1), D((1, 0x012D)), D((1, 0x0101)), S(0x60, 1), R(3, 100, 1),
         doors(150, 1, 0), R(6, 200, 0x0158), R(6, 200, 0x0101), R(3, 100, 1), S(0x60, 0x81), S(0x60, 1)),
    typed("past_the_limit", "counters at 4,294,967,295: an edge of input 1 makes it 0, the next 1, of which 2 cannot be deducted; input 2 stays",
          counting(4294967295),
          (P(1), QUIET), (S(0x60, 1), ack(0x20, 0, 0, 0, 0)), (P(0), QUIET), (D((1, 2)), nack(11, 3)),
          (S(0x60, 1, 2), ack(0x20, 0, 0, 0, 1, 0xFF, 0xFF, 0xFF, 0xFF))),
    typed("past_each_byte", "E4: 65,535 and an edge is 65,536, and so at each end of a byte; an input without an edge keeps its counter",
          counting(255, 65535, 0x00FFFFFF, 4294967295, 65535, 0),
          (P(15), QUIET), (S(0x60, 1, 2, 3, 4, 5), ack(0x20, 0, 0, 1, 0, 0, 1, 0, 0, 1, 0, 0, 0, 0, 0, 0, 0, 0, 0, 0xFF, 0xFF)),
          (P(0), QUIET), (S(0x60, 0), counts(257, 65537, 0x01000001, 1, 65535, *[0] * 11)), (R(3, 100, 6), shown(257, 1, 1, 1, 65535, 0))),
    case("edge_ends_no_run", "slip (E3): an edge that restarts or lengthens a run elsewhere. Number 4: a group flips while the others' run is 2; they flip two samples later",
         set_modes(lambda k: 3), S(0x62, 4), by_groups(staggered, *GROUPS), S(0x60, 0)),
    case("own_mode", "slip (E3): a counter that goes by a mode elsewhere. No two inputs have both modes alike; two rising edges and a falling one, then the reverse",
         set_modes(lambda k: k % 4), S(0x62, 1), samples(0xFFFF, 0, 0xFFFF), S(0x60, 0x80), set_modes(lambda k: k // 4 % 4), samples(0, 0xFFFF, 0), S(0x60, 0)),
    case("goes_on_behind_edges", "slip (E3): the pass over the inputs ends at an edge, from either end. Number 2: 1 and 16 flip; between, a run begins, and one is ended",
         set_modes(lambda k: 3), S(0x62, 2), samples(0x8001, 0xFFFF), S(0x31), samples(0xFFFF), S(0x31), samples(0, 0x7FFE, 0), S(0x31), samples(0), S(0x31), S(0x60, 0)),
    case("by_own_edges", "slip (E3): a counter that moves with an edge elsewhere, or by all of a sample. Sixteen samples, one input fewer flips in each: 1 to 16 edges",
         set_modes(lambda k: 3), S(0x62, 1), doors(1, *STAIRS), S(0x60, 0)),
    typed("limit_stays_inside", "slip (E3): what passes the limit is carried elsewhere. All at 4,294,967,295: edges of all, of the odd, of the rest", counting(4294967295),
          (P(0xFFFF), QUIET), (S(0x60, 0), counts(*[0] * 16)), (P(0xAAAA), QUIET), (S(0x60, 0), counts(*[1, 0] * 8)), (P(0), QUIET), (S(0x60, 0), counts(*[1] * 16))),
    case("one_number", "slip (E3): another sampling number behind an edge. Numbers 2, 3 and 20: ten inputs flip in one sample, six in the next", set_modes(lambda k: 3),
         some_behind(2, 0), some_behind(3, 0xFFFF), some_behind(20, 0), S(0x60, 0)),
    case("refused_amid_run", "slip (E3): a refused sample that lengthens a run or ends it, of differing bits or equal ones. Number 3; 256 bytes and more are accepted",
         S(0x6A, 1, 3, 2, 3), S(0x62, 3), P(1, room=256), P(1, room=255), P(3, room=0), P(1, room=257), S(0x31), P(1, room=255), P(1, room=65536), S(0x31),
         P(0), P(1, room=255), P(3, room=254), P(0, room=511), [P(2, room=255)] * 3, S(0x31), P(0, room=255), P(0), S(0x31), P(2, 2), P(0, room=1), P(2), S(0x31), S(0x60, 1, 2)),
]

# Counters over Spinel --------------------------------------------------------------------

# counters 1 to 3 of inputs 1, 2, 16: 3, 2, 1
COUNTED = [S(0x6A, 1, 3, 2, 1, 16, 2), S(0x62, 1)] + samples(0x8003, 0, 3)

COUNTERS = [
    case("read_list", "60H: in the order asked; bit 6 is ignored; 1 to 12 parameters",
         COUNTED, S(0x60, 16, 1, 2), S(0x60, 0x41, 0x50), S(0x60, *[1, 2] * 6), S(0x60, *[1] * 13), S(0x60, *[17] * 13), S(0x60),
         S(0x60, 0x60), S(0x60, 0x51)),
    case("read_all", "60H: 0 alone, with bit 6 or not, is all sixteen",
         COUNTED, S(0x60, 0), S(0x60, 0x40), S(0x60, 0x80), S(0x60, 0), samples(0), S(0x60, 0xC0), S(0x60, 0x40)),
    case("read_and_zero", "60H: bit 7 zeroes after reading, a repeat reads 0, others stay; inputs 1 and 16",
         COUNTED, S(0x60, 0x81, 1, 0x90, 2), S(0x60, 1, 2, 16), S(0x60, 2, 0x82, 0xC2), S(0x60, 0)),
    case("read_refused", "60H: 0 among several, 17, 63: 11, and nothing is zeroed",
         COUNTED, S(0x60, 0x81, 0), S(0x60, 0, 1), S(0x60, 0x81, 17), S(0x60, 17), S(0x60, 0x91), S(0x60, 0x3F), S(0x60, 0x80, 0x80),
         S(0x60, 1, 2, 16)),
    case("deducted", "61H: amounts up to the counter, input 16, amount 0, 12 items; one more: 11; nothing changes then",
         COUNTED, D((16, 2)), D((16, 1)), D((16, 1)), D((3, 0)), D((1, 4)), D((1, 0x0100)),
         S(0x60, 1, 2, 16), D(*[(k, 0) for k in range(12, 1, -1)], (1, 3)), S(0x60, 1, 2)),
    case("each_judged", "61H: a number or an amount at fault, first, in the middle or last of the list: 11, and nothing changes",
         COUNTED, D((1, 4), (2, 1)), D((1, 1), (2, 3), (16, 1)), D((1, 1), (2, 1), (16, 2)), D((1, 0), (2, 0), (3, 0), (16, 2)),
         D((1, 0), (2, 0), (3, 0), (17, 0)), D((0, 0), (1, 1), (2, 1)), S(0x60, 1, 2, 16)),
    case("twelve_deducted", "61H: twelve items, each with an amount of its own",
         S(0x6A, *[b for k in range(1, 13) for b in (k, 3)]), S(0x62, 1), samples(0x0FFF, 0, 0x0FFF), D(*[(k, k % 4) for k in range(1, 13)]), S(0x60, 0)),
    case("named_twice", "61H (E1): a number twice is 13, whatever the amounts, the numbers and their places, and nothing changes",
         COUNTED, D((1, 1), (1, 1)), D((1, 0), (1, 0)), D((1, 2), (1, 2)), D((1, 1), (1, 9)), D((1, 9), (1, 9)),
         D((0, 0), (0, 0)), D((17, 0), (17, 0)), D((1, 1), (2, 1), (1, 1)), D((2, 1), (1, 1), (1, 1)),
         D((1, 1), (1, 1), (2, 1)), D(*[(k, 0) for k in (3, 1, 2, 1, 4)]), D(*[(1, 0)] * 3), D(*[(1, 0)] * 12),
         D((17, 0), (1, 1), (17, 0)), D(*[(k, 0) for k in range(1, 12)], (1, 0)),
         D((1, 0), *[(k, 0) for k in range(2, 12)], (11, 0)),
         D(*[(k, 0) for k in (1, 2, 3, 4, 5, 6, 7, 8, 5, 10, 11, 12)]), S(0x60, 1, 2, 16)),
    case("named_once", "61H (E1): numbers that differ, whatever their amounts: 11 or accepted; 60H, 6AH and 23H may repeat",
         COUNTED, D((17, 0), (1, 1)), D((0, 0), (1, 1)), D((0x81, 0), (1, 1)), D((0xF1, 0), (1, 1)), D((0, 0), (17, 0)),
         D((17, 0), (18, 0)), D((1, 2), (2, 1), (16, 1)), S(0x60, 1, 2, 16), D((2, 1), (1, 1)), S(0x60, 1, 1), S(0x6A, 1, 3, 1, 3),
         S(0x23, 1, 0x81, 0x01), S(0x33, 1)),
    case("twice_ends_permission", "13 (E1) ends the permission, as 11 does; to FE it is answered from the own address",
         S(0xE4), D((1, 0), (1, 0)), S(0xE0, 0x32, 7), S(0xE4), D((1, 0), (1, 0), a=0xFE), S(0xE0, 0x32, 7), S(0xF0)),
    case("deduct_lengths", "61H (E4): 1 to 12 items of five bytes; 8 for none, a part, items of three or four bytes, thirteen; before 13 and 11",
         COUNTED, S(0x61), S(0x61, 1, 0), S(0x61, 1, 0, 1), S(0x61, 1, 0, 0, 1), S(0x61, 1, 0, 1, 2, 0, 1), S(0x61, 1, 0, 0, 1, 2, 0, 0, 1),
         S(0x61, 1, 0, 1, 2, 0, 1, 16, 0, 1), S(0x61, 1, 0, 0, 0, 1, 1, 0, 0, 0, 1, 1),
         S(0x61, *[b for k in range(1, 13) for b in (k, 0, 0)]), S(0x61, *[1, 0, 0] * 13), S(0x61, *[b for k in range(1, 13) for b in (k, 0, 0, 0)]),
         S(0x61, *[b for k in range(1, 13) for b in (k, 0, 0, 0, 0)][:-1]), S(0x61, *[b for k in range(1, 13) for b in (k, 0, 0, 0, 0)], 13),
         D(*[(k, 0) for k in range(1, 14)]), D(*[(1, 0)] * 13), D(*[(17, 0x09090909)] * 13), S(0x60, 1, 2, 16),
         D((1, 1)), D((1, 1), (2, 1)), D((16, 1), (2, 1), (1, 0)), D((2, 0), (16, 0), (1, 1), (3, 0)), D(*[(k, 0) for k in range(5, 17)]), S(0x60, 1, 2, 16)),
    case("deduct_numbers", "61H: 0 and 17: 11; of a single byte only 00 clears",
         COUNTED, D((0, 0)), D((17, 0)), S(0x61, 1), S(0x61, 0x80), D((1, 1), (17, 0)), S(0x60, 1, 2, 16), S(0x61, 0),
         S(0x60, 0)),
    typed("wide_read", "60H (E4): four bytes each, high byte first, in the order asked; 12 parameters; all sixteen in 65 bytes",
          counting(0x12345678, 65536, 4294967295, 65535, 0x01000000, 0x00FF00FF, 0),
          (S(0x60, 1), ack(0x20, 0x12, 0x34, 0x56, 0x78)), (S(0x60, 5, 0x41, 2), ack(0x20, 1, 0, 0, 0, 0x12, 0x34, 0x56, 0x78, 0, 1, 0, 0)),
          (S(0x60, *[1, 3, 4, 6] * 3), counts(*[0x12345678, 0xFFFFFFFF, 0xFFFF, 0x00FF00FF] * 3)),
          (S(0x60, 0), ack(0x20, 0x12, 0x34, 0x56, 0x78, 0, 1, 0, 0, 0xFF, 0xFF, 0xFF, 0xFF, 0, 0, 0xFF, 0xFF, 1, 0, 0, 0, 0, 0xFF, 0, 0xFF, *[0] * 40))),
    typed("wide_read_and_zero", "60H (E4): bit 7 zeroes all four bytes, a repeat reads 0, the others stay; a refused list zeroes nothing",
          counting(0x12345678, 65536, 4294967295, 0x01000000, 70000),
          (S(0x60, 0x81, 17), nack(11, 3)), (S(0x60, 0x81), counts(0x12345678)), (S(0x60, 1), counts(0)),
          (S(0x60, 2, 0x82, 2, 0xC2, 3), counts(65536, 65536, 0, 0, 4294967295)),
          (S(0x60, 0x80), counts(0, 0, 4294967295, 0x01000000, *[70000] * 12)), (S(0x60, 0), counts(*[0] * 16))),
    typed("wide_deducted", "61H (E4): all of a counter, one more: 11; an amount whose low bytes alone would fit: 11",
          counting(0x12345678, 65536, 5, 4294967295, 0),
          (D((1, 0x12345679)), nack(11, 3)), (D((1, 0x12345678)), ack()), (D((1, 1)), nack(11, 3)), (D((2, 65537)), nack(11, 3)), (D((2, 1)), ack()),
          (S(0x60, 1, 2), counts(0, 65535)), (D((2, 65536)), nack(11, 3)), (D((3, 65536)), nack(11, 3)), (D((3, 65536 + 3)), nack(11, 3)),
          (D((3, 0x01000000)), nack(11, 3)), (D((3, 0x01000005)), nack(11, 3)), (D((3, 0x00050000)), nack(11, 3)), (D((3, 0x05000000)), nack(11, 3)),
          (D((3, 4294967295)), nack(11, 3)), (S(0x60, 3), counts(5)), (D((3, 5)), ack()), (D((4, 4294967295)), ack()), (S(0x60, 0), counts(0, 65535, *[0] * 14))),
    typed("each_byte_deducted", "61H (E4): the four bytes of an amount, high byte first, each at its place",
          counting(0x50505050),
          (S(0x61, 1, 1, 0, 0, 0), ack()), (S(0x61, 2, 0, 1, 0, 0), ack()), (S(0x61, 3, 0, 0, 1, 0), ack()), (S(0x61, 4, 0, 0, 0, 1), ack()),
          (S(0x61, 5, 1, 2, 3, 4, 6, 0x50, 0x50, 0x50, 0x4F), ack()),
          (S(0x60, 1, 2, 3), ack(0x20, 0x4F, 0x50, 0x50, 0x50, 0x50, 0x4F, 0x50, 0x50, 0x50, 0x50, 0x4F, 0x50)),
          (S(0x60, 4, 5, 6), ack(0x20, 0x50, 0x50, 0x50, 0x4F, 0x4F, 0x4E, 0x4D, 0x4C, 0, 0, 0, 1))),
    typed("wide_refused", "61H (E4): amounts above 65,535: 11 for one of a list, 13 for a number twice, and nothing changes; then all are taken",
          counting(100000, 100000, 5, 0),
          (D((1, 70000), (2, 100001)), nack(11, 3)), (D((2, 65536), (3, 65541)), nack(11, 3)), (D((1, 70000), (17, 0)), nack(11, 3)),
          (D((2, 70000), (1, 30000), (4, 65536)), nack(11, 3)), (D((1, 70000), (1, 1)), nack(13, 3)), (D((1, 4294967295), (1, 0)), nack(13, 3)),
          (D((17, 70000), (17, 65536)), nack(13, 3)), (D((1, 70000), (2, 70000), (1, 30000)), nack(13, 3)), (S(0x60, 1, 2, 3), counts(100000, 100000, 5)),
          (D((2, 99999), (1, 70000)), ack()), (S(0x60, 0), counts(30000, 1, 5, *[0] * 13))),
    typed("twelve_wide", "61H (E4): twelve amounts above 65,535, each from a counter of its own; the four inputs not named keep theirs",
          counting(*[65537 * k for k in range(1, 17)]),
          (D(*[(k, 65536 * k) for k in range(16, 4, -1)]), ack()), (S(0x60, 0), counts(65537, 131074, 196611, 262148, *range(5, 17)))),
    typed("wide_cleared", "61H 00 (E4) clears all four bytes of every counter, another byte alone is 11",
          counting(65536, 4294967295, 0x12345678, 70000),
          (S(0x61, 1), nack(11, 3)), (S(0x60, 1, 16), counts(65536, 70000)), (S(0x61, 0), ack()), (S(0x60, 0), counts(*[0] * 16))),
    case("modes_set", "6AH: modes 0 to 3 of 1 to 12 inputs, a repeated number takes the last; 6BH shows them",
         S(0x6A, 1, 1, 16, 3, 1, 2), S(0x6B, 1, 16), S(0x6A, *[x for k in range(1, 13) for x in (k, k % 4)]), S(0x6B, 0), S(0x6A, 5, 0), S(0x6B, 5)),
    case("modes_refused", "6AH: no data, odd, 13 pairs: 8; number 0, 17, mode 4: 11, and no mode of the list is set",
         S(0x6A), S(0x6A, 1), S(0x6A, 1, 1, 2), S(0x6A, *[1, 1] * 13), S(0x6A, *[1, 4] * 13), S(0x6A, 0, 1), S(0x6A, 17, 1), S(0x6A, 1, 4),
         S(0x6A, 1, 1, 2, 4), S(0x6A, 1, 1, 17, 0), S(0x6B, 0)),
    case("modes_read", "6BH: a list read of 1 to 12 numbers",
         S(0x6A, 16, 2), S(0x6B, *[16, 1] * 6), S(0x6B, *[1] * 13), S(0x6B), S(0x6B, 17), S(0x6B, 1, 0), S(0x6B, 0, 0), S(0x6B, 0x80)),
    case("sampling_number", "62H: 1 to 255, one byte; 63H shows it, without data",
         S(0x63), S(0x62, 1), S(0x63), S(0x62, 255), S(0x63), S(0x62, 0), S(0x62), S(0x62, 1, 1), S(0x62, 0, 0), S(0x63, 0), S(0x63)),
]

# Permission, address and speed, reset -----------------------------------------------------

# every field of the state unlike the fresh one: inputs 1 to 3 count, states 5, runs begun, outputs and a pulse, presets, links of outputs 7
# and 8, thermostats of outputs 5 and 6, a reading and a last one, a notice, SUM untested, both ports permitted
FULL = [
    S(0x6A, 1, 3, 2, 1, 3, 2), S(0x62, 2), P(5, 2), P(4, 2), P(5, 2), P(2), S(0x20, 0x81, 0x84), S(0x23, 9, 0x82), S(0x26, 3, 2, 7, 4, 3, 8),
    S(0x40, 2, 7, 1, 1, 8, 2),
    S(0x1A, *group(5, 0xC1, 300, 200, 2, 0), *group(6, 0x81, 300, 200)), T(250), S(0x10, 1, 0x00, 0x07, s=7), *UNTESTED,
]
# what can be read of it, by both ports
SHOWN = [
    S(0x31), S(0x60, 0), S(0x6B, 1, 2, 3), S(0x63), S(0x33, 1, 2, 4), S(0x36, 3, 4), S(0x41, 7, 8), S(0x1B, 5, 6), S(0x51, 1), S(0x11), S(0xFE),
    S(0xF0, a=0xFE),
]
# and what only later calls show: the runs, the signature of the notice, the links at an edge, the last valid reading, the permission
LATER = [P(2), S(0x31, a=0xFE), ("sample", 2, 1, 256), S(0x30, a=0xFE), T(301), S(0x33, 5, a=0xFE), FAULT, S(0xE0, 0x31, 6)]

PORTS = [
    case("given", "E4H without data, not to FE: then E0H is permitted, once; F0H shows address and speed; fresh there is no permission",
         S(0xE0, 0x31, 6), S(0xE4, 0), S(0xE4, 0, a=0xFE), S(0xE4, a=0xFE), S(0xE0, 0x31, 6), S(0xE4), S(0xE0, 0x32, 7), S(0xF0, a=0x32),
         S(0xE0, 0x31, 6, a=0x32), S(0xF0, 0, a=0x32), S(0xF0, a=0xFE), S(0xF0)),
    case("given_again", "E4H twice leaves one permission",
         S(0xE4), S(0xE4), S(0xE0, 0x31, 8), S(0xF0), S(0xE0, 0x31, 9), S(0xF0)),
    case("ranges", "E0H: every address below FE, speed codes to 0B; the reply has the old address",
         S(0xE4), S(0xE0, 0xFE, 6), S(0xE4), S(0xE0, 0xFF, 6), S(0xE4), S(0xE0, 0x31, 0x0C), S(0xE4), S(0xE0, 0xFD, 0x0B), S(0xF0, a=0xFD),
         S(0xE4, a=0xFD), S(0xE0, 0, 0, a=0xFD), S(0xF0, a=0), S(0xF0, a=0xFD), S(0x30, a=0xFE)),
    case("order", "E0H: 8 before 10, 10 before 11, to FE 10 with a permission; each ends the permission",
         S(0xE0, 0x31), S(0xE0, 0xFE, 6, 1), S(0xE0, 0xFE, 6), S(0xE4), S(0xE0, 0x31), S(0xE0, 0x31, 6), S(0xE4), S(0xE0, 0x31, 6, 0),
         S(0xE0, 0x31, 6), S(0xE4), S(0xE0, 0x31, 6, a=0xFE), S(0xE0, 0x31, 6), S(0xE4), S(0xE0), S(0xE0, 0x31, 6)),
    case("used_by_refusals", "the permission is used up by requests that are refused by 7, 8, 11, 12, also to all",
         S(0xE4), S(0x99), S(0xE0, 0x31, 6), S(0xE4), S(0x30, 0), S(0xE0, 0x31, 6), S(0xE4), S(0x62, 0), S(0xE0, 0x31, 6),
         S(0x1A, *group(1, 0x81, 300, 200)), S(0xE4), S(0x20, 1), S(0xE0, 0x31, 6), S(0xE4), S(0x20, 0, a=0xFF), S(0xE0, 0x31, 6)),
    case("used_by_accepted", "and by accepted ones: a read, a write, one to all, one to FE",
         S(0xE4), S(0x63), S(0xE0, 0x31, 6), S(0xE4), S(0x20, 0x81), S(0xE0, 0x31, 6), S(0xE4), S(0x20, 0x81, a=0xFF), S(0xE0, 0x31, 6),
         S(0xE4), S(0x63, a=0xFE), S(0xE0, 0x31, 6), S(0xE4), S(0xE3), S(0xE0, 0x31, 6)),
    case("kept_by_spinel", "not by refusals 2 to 6, samples and the other port",
         S(0xE4), raw("spinel"), raw("spinel", *off(spinel_frame(0x31, 2, 0x30, []), 0)), raw("spinel", *off(spinel_frame(0x31, 2, 0x30, []), -2)),
         S(0x30, a=0x32), S(0x30, a=0xFF), P(0), T(1), FAULT, R(6, 0, 0xFF), R(1, 0, 1), S(0xE0, 0x33, 6), S(0xF0, a=0x33)),
    case("kept_by_modbus", "the same for the Modbus port's permission",
         R(6, 1, 0x33), R(6, 0, 0xFF), raw("modbus"), raw("modbus", *off(modbus_frame(0x31, 1, words(0, 1)), -1)), R(1, 0, 1, a=0x32), R(1, 0, 1, a=0),
         P(0), T(1), S(0xE4), S(0x30), R(6, 1, 0x33), R(3, 1, 2, a=0x33)),
    case("used_by_modbus", "what uses it up there: 7, 8, 9, 11, 12, a read, a write, one to all",
         R(6, 0, 0xFF), M(7), R(6, 1, 0x31), R(6, 0, 0xFF), R(3, 100, 0), R(6, 1, 0x31), R(6, 0, 0xFF), R(3, 99, 1), R(6, 1, 0x31),
         R(6, 0, 0xFF), R(6, 300, 4), R(6, 1, 0x31), S(0x1A, *group(1, 0x81, 300, 200)), R(6, 0, 0xFF), R(5, 0, 0), R(6, 1, 0x31),
         R(6, 0, 0xFF), R(3, 300, 1), R(6, 1, 0x31), R(6, 0, 0xFF), R(6, 300, 1), R(6, 1, 0x31), R(6, 0, 0xFF), R(5, 1, 0, a=0), R(6, 1, 0x31),
         R(6, 0, 0xFF), R(6, 0, 0xFF), R(6, 1, 0x31), R(6, 1, 0x31), R(6, 0, 0xFF), R(6, 0, 0xFE), R(6, 1, 0x31)),
    case("other_port", "a permission of one port is none of the other",
         S(0xE4), R(6, 1, 5), S(0xE0, 0x31, 6), R(6, 0, 0xFF), S(0xE0, 0x31, 6), R(6, 1, 0x31)),
    case("reset_ends_both", "E3H and E0H end the Modbus port's permission, a write of register 1 or 2 the Spinel port's",
         R(6, 0, 0xFF), S(0xE3), R(6, 1, 0x31), R(6, 0, 0xFF), S(0xE4), S(0xE0, 0x31, 6), R(6, 1, 0x31), S(0xE4), R(6, 0, 0xFF), R(6, 2, 6), S(0xE0, 0x31, 6)),
    case("resets", "E3H without data zeroes counters, runs, outputs and pulses, and keeps every other field; what only later calls show too",
         FULL, R(6, 0, 0xFF), S(0xE4), S(0xE3), R(6, 1, 0x31), SHOWN, LATER, S(0xE3, 0), S(0xE3, a=0xFE)),
    case("reset_by_address", "E0H does the same, and sets address and speed; the notice has the new address",
         FULL, R(6, 0, 0xFF), S(0xE4), S(0xE0, 0x32, 7), R(6, 1, 0x31), [S(*c[3:4], *c[4], a=0x32) for c in SHOWN], LATER),
    case("reset_by_register", "a write of register 2 does the same, also where nothing changes",
         FULL, S(0xE4), R(6, 0, 0xFF), R(6, 2, 6), S(0xE0, 0x31, 6), SHOWN, LATER, R(3, 1, 2)),
    case("reset_keeps_readings", "a fault stays one after a reset, and the last valid reading is still compared with",
         S(0x1A, *group(1, 0xC1, 300, 200, 1)), T(300), FAULT, S(0xE3), S(0x51, 1), T(301), S(0x33, 1)),
    typed("wide_reset", "a reset zeroes all four bytes of every counter (E4)",
          counting(65536, 4294967295, 0x12345678, 70000),
          (S(0xE3), ack()), (S(0x60, 0), counts(*[0] * 16))),
    case("before", "what the three resets started from",
         FULL, SHOWN, LATER),
    case("links_kept", "every reset keeps links (E8), and they act after it: E3H, E0H, AS, SS, registers 1 and 2, singly and together",
         S(0x62, 1), S(0x40, 1, 1, 1, 16, 16, 2, 1, 2, 3), samples(1), *[c for reset, a in (
             ([S(0xE3)], 0x31), ([S(0xE4), S(0xE0, 0x32, 7)], 0x32), ([B("E", "2"), B("AS1", "2")], 0x31), ([B("E"), B("SS7")], 0x31),
             ([R(6, 0, 0xFF), R(6, 1, 0x31)], 0x31),
             ([R(6, 0, 0xFF), R(6, 2, 6)], 0x31), ([R(6, 0, 0xFF), W(1, 0x31, 7)], 0x31))
             for c in (*reset, S(0x41, 0, a=a), S(0x30, a=a), P(0x8000), S(0x30, a=a), P(1), S(0x30, a=a))]),
    case("links_kept_by_requests", "slip: a request that clears links (E8). Presets, thermostats with F = 0, clears, modes, the notice, the number; refused resets",
         S(0x62, 1), S(0x40, 2, 3, 4, 5, 16, 1), S(0x26, 3, 2, 1, 16, 0, 0), S(0x1A, *group(3, 1, 300, 200), *group(16, 0, 0, 0)), W(608, 0, 0, 0, 0),
         S(0x61, 0), W(100, *[0] * 16), S(0x6A, 2, 3, 5, 1),
         S(0x10, 1, 0, 0), S(0x10, 0), S(0x62, 2), S(0x20, 0x83), S(0x25, 3), S(0xE3, 0), S(0xE0, 0x31, 6), R(6, 2, 6), B("AS1"), S(0x38, 3, 16),
         S(0x41, 0), P(0x12), P(0x12), S(0x33, 3, 16)),
    case("sum_test", "EEH (E5): 00 ends the test of SUM, 01 begins it, also twice; FEH asks, fresh 01; to FE; 6 to all, still permitted",
         S(0xFE), S(0xE4), S(0xEE, 1), S(0xFE), S(0xE4), S(0xEE, 0), S(0xFE), S(0xE4), S(0xEE, 0), S(0xFE, a=0xFE), S(0xFE, 0), S(0xFE, 1, 1),
         S(0xE4), S(0xEE, 1, a=0xFF), S(0xFE, a=0xFF), S(0xEE, 1), S(0xFE), S(0xE4), S(0xEE, 0, a=0xFE), S(0xFE)),
    case("sum_test_refused", "EEH (E5): no data, two bytes: 8, before 10; no permission: 10, before 11; 02 up: 11; each, and 7, ends the permission",
         S(0xEE), S(0xEE, 0, 0), S(0xEE, 0), S(0xEE, 1), S(0xEE, 2), S(0xEE, 0xFF), S(0xEE, 0, a=0xFE), S(0xE4), S(0xEE), S(0xEE, 0),
         S(0xE4), S(0xEE, 0, 2), S(0xEE, 0), S(0xEE, 0, 0, 0), S(0xE4), S(0xEE, 2), S(0xEE, 0), S(0xE4), S(0xEE, 0xFF), S(0xEE, 0), S(0xE4), S(0xEE, 0x80, a=0xFE), S(0xE0, 0x31, 6),
         *[c for v in (3, 4, 0x7F, 0x81, 0xFE) for c in (S(0xE4), S(0xEE, v))],
         S(0xE4), S(0xED, 0), S(0xEE, 0), S(0xE4), S(0xEF, 0), S(0xFD), S(0xFF), S(0xEE, 0), S(0xFE),
         UNTESTED, S(0xEE), S(0xEE, 1), S(0xE4), S(0xEE, 2), S(0xEE, 1), S(0xFE)),
    case("sum_test_once", "an accepted EEH (E5) uses the permission up and resets nothing; the other port's permission does not serve, and stays",
         COUNT3, S(0x20, 0x82), R(6, 0, 0xFF), S(0xEE, 0), S(0xFE), UNTESTED, S(0xEE, 1), S(0xE4), S(0xEE, 0), S(0xE0, 0x32, 6), S(0xFE), S(0x60, 1, 2), S(0x30),
         R(6, 1, 0x33), S(0xFE)),
    case("sum_test_used_up", "FEH, and SUM untested a request with a wrong one that is refused, use the permission up (E5); E0H to FE stays 10",
         S(0xE4), S(0xFE), S(0xEE, 0), UNTESTED, S(0xE4), X(0x99), S(0xEE, 1), S(0xE4), X(0x30, 0), S(0xEE, 1), S(0xE4), X(0x62, 0), S(0xEE, 1),
         S(0xE4), S(0xE0, 0x31, 6, a=0xFE), S(0xFE)),
    case("sum_test_itself", "E4H, EEH, FEH with a wrong SUM (E5): 4 while it is tested, and test and permission stay; untested, each does its work",
         X(0xE4), S(0xEE, 0), S(0xE4), X(0xEE, 0), X(0x30), X(0xFE), X(0x30, a=0x32), S(0xEE, 0), X(0xFE), X(0xE4), X(0x63), S(0xEE, 1),
         X(0xE4), X(0xFE, a=0xFF), X(0x30, a=0x32), X(0xE0, 0x31, 7), X(0xFE), X(0xE4), X(0x20, 1, a=0xFF),
         S(0xEE, 1), X(0xE4), X(0xEE, 1), X(0xEE, 1), X(0x30), S(0xFE)),
    case("sum_test_kept", "every reset keeps the test on and keeps it off (E5): E3H, E0H, registers 1 and 2",
         S(0xE3), S(0xE4), S(0xE0, 0x32, 7), R(6, 0, 0xFF), R(6, 1, 0x33), R(6, 0, 0xFF, a=0x33), R(6, 2, 7, a=0x33), X(0x30, a=0x32), S(0xFE, a=0x32),
         S(0xE4, a=0x32), S(0xEE, 0, a=0x32), X(0xE3, a=0x32), S(0xFE, a=0x32), R(6, 0, 0xFF, a=0x33), W(1, 0x31, 6, a=0x33), X(0xFE, a=0x32),
         X(0xE4, a=0x32), X(0xE0, 0x31, 6, a=0x32), X(0xFE), R(6, 0, 0xFF), R(6, 2, 6), X(0xFE)),
]

# Outputs ----------------------------------------------------------------------------------

OUTPUTS = [
    case("set", "20H: 1 to 12 set bytes, outputs 1 and 16, the last of one output wins; 30H shows them, lowest numbers last",
         S(0x30), S(0x20, 0x81, 0x90), S(0x30), S(0x20, 1, 0x82, 2, 0x83), S(0x30), S(0x20, *range(0x81, 0x8D)), S(0x30), S(0x20, 0x10),
         S(0x30), S(0x30, 0), R(1, 0, 16)),
    case("set_refused", "20H: no data, 13: 8; 0, 17, bit 6: 11; nothing of a refused list is set",
         S(0x20), S(0x20, *[0x81] * 13), S(0x20, *[0] * 13), S(0x20, 0), S(0x20, 0x80), S(0x20, 17), S(0x20, 0x91), S(0x20, 0x41),
         S(0x20, 0xC1), S(0x20, 0x81, 0), S(0x20, 0x81, 0x91), S(0x30)),
    case("pulses", "23H: an on and an off pulse of 2 half seconds; 501 samples later 1 is left; at their end each turns",
         S(0x20, 0x82), S(0x23, 2, 0x81, 2), S(0x33, 1, 2, 3), P(0, 499), S(0x33, 1, 2), P(0, 2), S(0x33, 1, 2), P(0, 498), S(0x33, 1, 2),
         P(0), S(0x33, 1, 2), P(0), S(0x30)),
    case("pulse_times", "23H: time 1 to 255, 1 to 12 outputs; remaining time rounded up",
         S(0x23, 255, 0x90), S(0x33, 16), P(0), S(0x33, 16), P(0, 499), S(0x33, 16), P(0), S(0x33, 16), S(0x23, 1, *range(0x81, 0x8D)), S(0x30),
         S(0x33, 0)),
    case("pulse_refused", "23H: no data, time alone, 13 outputs: 8; time 0, 0, 17, bit 6: 11; no pulse begins",
         S(0x23), S(0x23, 1), S(0x23, 1, *[0x81] * 13), S(0x23, 0), S(0x23, 0, *[0] * 13), S(0x23, 0, 0x81), S(0x23, 1, 0), S(0x23, 1, 0x91),
         S(0x23, 1, 0xC1), S(0x23, 1, 0x81, 17), S(0x33, 1)),
    case("pulse_ended", "a pulse is ended by a set to the state it has, to the other, by a coil; a new one begins anew",
         S(0x23, 1, 0x81, 0x82, 0x83, 0x84), P(0, 99), S(0x20, 0x81, 2), R(5, 2, 0xFF00), S(0x23, 1, 0x84), S(0x33, 1, 2, 3, 4), P(0, 499),
         S(0x33, 1, 2, 3, 4), P(0), S(0x30)),
    case("presets", "26H: types 0, 2, 3, time 1 to 255, with type 0 any time; 1 to 12; 36H and 38H show them",
         S(0x36, 1), S(0x26, 1, 2, 1, 16, 3, 255, 2, 0, 9, 3, 0, 0), S(0x36, 1, 16, 2, 3), S(0x38, 1, 16, 2), S(0x26, 1, 3, 5, 1, 2, 6),
         S(0x36, 0), S(0x38, 0), S(0x26, *[x for k in range(1, 13) for x in (k, 2, k)]), S(0x36, 12, 13), S(0x26, 1, 0, 7), S(0x36, 1), S(0x30)),
    case("presets_refused", "26H: no data, 2, 4, 39 bytes: 8; number 0, 17, type 1, 4, time 0: 11; none of the list is set",
         S(0x26), S(0x26, 1, 2), S(0x26, 1, 2, 1, 1), S(0x26, *[1, 2, 1] * 13), S(0x26, *[0, 1, 0] * 13), S(0x26, 0, 2, 1), S(0x26, 17, 2, 1),
         S(0x26, 1, 1, 1), S(0x26, 1, 4, 1), S(0x26, 1, 2, 0), S(0x26, 1, 3, 0), S(0x26, 1, 2, 1, 2, 1, 1), S(0x36, 1, 2)),
    case("started", "25H: type 2 turns on first, type 3 off first, each for its own time, at the end opposite; 1 to 12",
         S(0x20, 0x82), S(0x26, 1, 2, 1, 2, 3, 2, 16, 2, 255), S(0x25, 2, 1, 16), S(0x33, 1, 2, 16), P(0, 500), S(0x33, 1, 2, 16),
         S(0x36, 1, 2), S(0x25, *[1, 2] * 6), S(0x33, 1, 2)),
    case("start_refused", "25H: no data, 13: 8; 0, 17, bit 7, a preset of type 0: 11; nothing of the list starts",
         S(0x26, 1, 2, 1, 2, 0, 5), S(0x25), S(0x25, *[1] * 13), S(0x25, *[0] * 13), S(0x25, 0), S(0x25, 17), S(0x25, 0x81), S(0x25, 2),
         S(0x25, 3), S(0x25, 1, 2), S(0x33, 1)),
    case("list_reads", "33H, 36H, 38H: 00 alone is all; 1 to 12 numbers in the order asked; no data, 13: 8; 17, 0 among several: 11",
         S(0x23, 3, 0x81, 0x90), S(0x26, 1, 2, 4, 16, 3, 5), *[c for i in (0x33, 0x36, 0x38) for c in
         (S(i, 16, 1), S(i, 0), S(i, *[1] * 12), S(i, *[1] * 13), S(i, *[17] * 13), S(i), S(i, 17), S(i, 1, 0), S(i, 0, 0), S(i, 0x81))]),
    case("states", "31H shows the inputs as 30H the outputs; data: 8",
         S(0x62, 1), samples(0x0102), S(0x31), S(0x31, 0), S(0x20, 0x82, 0x89), S(0x30)),
    case("held", "12: outputs that a thermostat holds, by 20H, 23H, 25H; after 11, before nothing else; presets can be set",
         S(0x26, 1, 2, 1, 2, 2, 1), S(0x1A, *group(1, 0x81, 300, 200)), S(0x20, 0x81), S(0x20, 0x82, 0x81), S(0x20, 0x81, 17), S(0x23, 1, 0x81),
         S(0x23, 1, 0x82, 1), S(0x23, 0, 0x81), S(0x25, 1), S(0x25, 2, 1), S(0x25, 1, 3), S(0x26, 1, 3, 2), S(0x36, 1), S(0x30), S(0x33, 2),
         T(250), S(0x20, 0x82, 0x81), S(0x25, 1), S(0x33, 1, 2)),
    case("shown_modes", "38H: A0H with SSK where F is 1, without the third S; the preset's type where it is 0",
         S(0x26, 1, 2, 1, 9, 3, 1), *[S(0x1A, *group(1, f, 300, 200, 1)) for f in (0x81, 0x91, 0xA1)], S(0x38, 1),
         S(0x1A, *group(2, 0x81, 1, 0), *group(3, 0x91, 1, 0), *group(4, 0xA1, 1, 0), *group(5, 0xB1, 1, 0), *group(6, 0xC1, 1, 0, 1),
           *group(7, 0xD1, 1, 0, 1), *group(8, 0xE1, 1, 0, 1), *group(9, 0x71, 1, 0), *group(10, 0xF1, 1, 0, 1)),
         S(0x38, 2, 3, 4, 5, 6, 7, 8, 9, 10, 11)),
    typed("shown_bands", "38H (E6): bit 3 is the third S where F is 1, beside SSK; where F is 0 it is the preset's type, whatever the flags are", "fresh_module",
          (S(0x26, 13, 2, 1, 14, 3, 1, 1, 3, 1, 9, 2, 1, 10, 3, 1), ack()),
          (S(0x1A, *[b for k, f in enumerate((0x81, 0x91, 0xA1, 0xB1, 0xC1, 0xD1, 0xE1, 0xF1, 0x89, 0x99, 0xA9, 0xB9), 1) for b in group(k, f, 300, 200, 1)]), ack()),
          (S(0x1A, *group(13, 0x09, 1, 0), *group(14, 0x7F, 1, 0), *group(15, 0x78, 1, 0), *group(16, 0x08, 1, 0)), ack()),
          (S(0x38, 0), ack(0xA0, 0xA1, 0xA2, 0xA3, 0xA4, 0xA5, 0xA6, 0xA7, 0xA8, 0xA9, 0xAA, 0xAB, 2, 3, 0, 0)), (S(0x38, 12, 1, 9, 9, 13), ack(0xAB, 0xA0, 0xA8, 0xA8, 2)),
          *[(S(0x38, k), ack(v)) for k, v in ((9, 0xA8), (10, 0xA9), (11, 0xAA), (12, 0xAB), (1, 0xA0), (5, 0xA4), (14, 3), (15, 0))],
          (S(0x1A, *group(9, 0x09, 300, 200, 1)), ack()), (S(0x38, 9, 10), ack(2, 0xA9)), (W(632, 0xB9, 300, 200, 0), modbus_ack(0x10, *words(632, 4))), (S(0x38, 9), ack(0xAB)),
          (S(0x1A, *[b for k, f in zip((5, 6, 7, 8, 13, 14, 15, 16), (0x89, 0x99, 0xA9, 0xB9) * 2) for b in group(k, f, 300, 200)]), ack()),
          (S(0x38, 0), ack(0xA0, 0xA1, 0xA2, 0xA3, 0xA8, 0xA9, 0xAA, 0xAB, 0xAB, 0xA9, 0xAA, 0xAB, 0xA8, 0xA9, 0xAA, 0xAB))),
]

# Notice -----------------------------------------------------------------------------------

NOTICES = [
    case("turned_on", "10H 01: all inputs without a mask; 11H shows 61H and the mask; on again: 11, mask and signature stay; 00 turns off",
         S(0x11), S(0x62, 1), S(0x10, 1, s=7), S(0x11), S(0x10, 1, 0, 1, s=9), S(0x10, 1, s=9), S(0x11), samples(1), S(0x10, 0), S(0x11),
         samples(0), S(0x10, 0), S(0x10, 1, 0x12, 0x34), S(0x11)),
    case("masked", "an edge outside the mask is silent, one inside is not, whatever the mode; all inputs are shown",
         S(0x62, 1), S(0x6A, 2, 3), S(0x10, 1, 0x80, 0x01, s=7), samples(2, 3, 3, 1, 0, 0x8000, 0x8002, 0x8003, 0x0003)),
    case("mask_zero", "mask 0000 is accepted, no edge is noticed, and it is on; a mask's low byte is for inputs 1 to 8",
         S(0x62, 1), S(0x10, 1, 0, 0), S(0x11), S(0x10, 1), samples(0xFFFF), S(0x10, 0), S(0x10, 1, 0x01, 0x00), samples(0xFFFE, 0xFEFE)),
    case("only_edges", "a sample without an edge writes nothing; with number 20 the 20th does",
         S(0x10, 1, s=0x5A), P(1, 19), samples(1), P(1, 5), S(0x63, s=9), P(0, 19), samples(0)),
    case("not_turned", "10H: no data, 2, 4 bytes: 8; 00 with a mask, another first byte: 11; 11H with data: 8",
         S(0x10), S(0x10, 1, 2), S(0x10, 1, 2, 3, 4), S(0x10, 2, 0), S(0x10, 0, 0, 1), S(0x10, 0, 0, 0), S(0x10, 2), S(0x10, 2, 0, 1), S(0x10, 0x61),
         S(0x11, 0), S(0x11), S(0x10, 1), S(0x10, 0, 0, 1), S(0x10, 2), S(0x11)),
    case("own_address", "the notice has the Spinel port's address, the new one after E0H, not that of the Modbus port",
         S(0x62, 1), S(0x10, 1, s=7), R(6, 0, 0xFF), R(6, 1, 5), samples(1), S(0xE4), S(0xE0, 0x32, 6), samples(0)),
    case("after_pulses", "in one sample the pulse ends and the notice is written; the outputs are not part of it",
         S(0x62, 1), S(0x10, 1), S(0x23, 1, 0x81), P(0, 499), samples(1), S(0x30)),
    case("any_sum_notice", "SUM untested (E5): 10H with a wrong SUM turns it on and off; the notice has a right SUM",
         S(0x62, 1), UNTESTED, X(0x10, 1, 0, 1, s=7), samples(1), X(0x11), samples(0), X(0x10, 0), samples(1)),
    case("notice_ends_no_run", "slip (E3): a run that goes by the notice or its mask. Number 4, mask 00FF: edges seen, hidden or both; the others' run is 2, seen or hidden",
         S(0x62, 4), S(0x10, 1, 0, 0xFF, s=7), by_groups(staggered_singly, 0x5555, 0xAAAA, 0xFF00, 0x00FF)),
    case("mask_hides_no_count", "slip (E3): a mask that acts on counting. Every mode seen and hidden; samples with a notice, and one without",
         set_modes(lambda k: k % 4), S(0x62, 1), S(0x10, 1, 0x0F, 0x0F, s=7), samples(0xFFFF, 0, 0xFFFF), S(0x60, 0x80), samples(0x0F0F), S(0x60, 0x80), samples(0xF0F0), S(0x60, 0)),
    case("mask_among_edges", "slip (E3): a mask laid on one edge of a sample. Input 9 alone: among edges of all, above and below others; edges of all but 9 are silent",
         S(0x62, 1), S(0x10, 1, 1, 0), samples(0xFFFF, 0x0100, 0xFFFF, 0xFE00, 0x0100, 0x0001, 0x0000)),
]

# Temperature ------------------------------------------------------------------------------

# one thermostat of output 1 from 20.0 to 30.0
def at(flags, time=0, err=0, output=1):
    return S(0x1A, *group(output, flags, 300, 200, time, err))


def listing(*groups):
    """1AH of several outputs."""
    return S(0x1A, *[b for g in groups for b in g])


# with the third S (E6): outputs 1, 2, 5, 6 are on within 20.0 to 30.0, outputs 3, 4, 7, 8 beyond; K 0, then K 1
BANDS = listing(*[group(k, f, 300, 200) for k, f in enumerate((0x89, 0x89, 0xA9, 0xA9, 0x99, 0x99, 0xB9, 0xB9), 1)])
# of each two one on, one off
EACH = S(0x20, 0x81, 2, 0x83, 4, 0x85, 6, 0x87, 8)


def reads(*readings):
    """Valid readings, each with the outputs that 30H shows then."""
    return [e for tenths, on in readings for e in ((T(tenths), QUIET), (S(0x30), ack(*word(on))))]


def commands(k):
    """The ways to set output k, each with its answer where the output is free and where it is held."""
    r, coil = 499 + k, k - 1
    return [(S(0x20, k), ack(), nack(12, 3)), (S(0x23, 1, 0x80 + k), ack(), nack(12, 3)), (S(0x25, k), ack(), nack(12, 3)),
            (R(6, r, 0xFF01), modbus_ack(6, *words(r, 0xFF01)), modbus_nack(12, 6, 4)), (W(r, 0x0001), modbus_ack(0x10, *words(r, 1)), modbus_nack(12, 0x10, 4)),
            (R(5, coil, 0xFF00), modbus_ack(5, *words(coil, 0xFF00)), modbus_nack(12, 5, 4)), (C(coil, 1, 0), modbus_ack(0x0F, *words(coil, 1)), modbus_nack(12, 0x0F, 4))]


def free(k):
    return [(c, accepted) for c, accepted, _ in commands(k)]


def stopped(k):
    return [(c, refused) for c, _, refused in commands(k)]


# SS 00 and 01 with the third S, either K
FOUR = (0x89, 0x99, 0xA9, 0xB9)


def twelve(limits, f=0xFF):
    """1AH of outputs 5 to 16: every flags of FOUR, ERR 0 to 2, TIME 0 and not; `f` 0x7F: the same with F = 0."""
    return listing(*[group(k, FOUR[k % 4] & f, *limits[k // 4 % len(limits)], (1, 0, 255, 2, 0)[k % 5], k % 3) for k in range(5, 17)])


def pulses(time, turned=0):
    """A pulse of each of these outputs, on first or off first; `turned`: the other way round."""
    return S(0x23, time, *[k + 0x80 * (0x53A6 >> k - 5 & 1 ^ turned) for k in range(5, 17)])


def over_pulses(limits, tenths, time=1, run=0, turned=0, idle=True):
    """Set with F = 0 (or not set yet), pulses started, some samples, set with F = 1, which ends none; then a valid reading."""
    return [*([twelve(limits, 0x7F)] if idle else []), pulses(time, turned), *([P(0, run)] if run else []), twelve(limits), S(0x33, 0), T(tenths), S(0x33, 0)]


def turns(*readings):
    """Valid readings, 30H after each."""
    return [c for tenths in readings for c in (T(tenths), S(0x30))]


def four(k, flags, x, y, time=0, err=0):
    """600 up: the thermostat of output k."""
    return W(596 + 4 * k, flags, x % 65536, y % 65536, time * 256 + err)


# limits of a band
ONE, MANY, WIDE = [(300, 200)], [(-100, -200), (5, -5), (250, 250)], [(32767, -32768), (3000, 2001), (-1001, -1200)]
LIMITS, IDLE_LIMITS = ((300, 200), (250, 250), (-100, -200), (-201, -201)), ((200, 300), (5, 5), (-200, -100), (300, 200))
# (flags, limits, TIME, ERR) that are 11
UNFIT = [(f, LIMITS[(i + e) % 4], (1, 255, 0)[(i + e) % 3], e) for e in (0, 1, 2)
         for i, f in enumerate((0xC9, 0xD9, 0xE9, 0xF9, 0x88, 0x9D, 0xAB, 0xBF, 0x8C, 0xAE, 0x80, 0x95, 0xA3, 0xB6, 0xC7, 0xD2, 0xE4, 0xF0))]
UNFIT += [(f, limits, t, e) for e, limits in ((1, (200, 201)), (2, (-201, -200)), (0, (-1, 0)))
          for t, f in ((0, 0x99), (1, 0xA9), (2, 0xB9), (1, 0x91), (0, 0xA1), (0, 0xB1), (1, 0xC1), (1, 0xF1))]
UNFIT += [(f, LIMITS[(i + e) % 4], 0, e) for e in (0, 1, 2) for i, f in enumerate((0xC1, 0xD1, 0xE1, 0xF1))]
UNFIT += [(i * 11 % 128 + 128 * (i % 5 == 0), IDLE_LIMITS[i % 4], (0, 1, 255)[i % 3], (3, 4, 255)[i % 3]) for i in range(24)]


THERMOSTATS = [
    case("readings", "51H: 00 or 01; the ends of -100.0 to 200.0; a fault before the first sample, beyond the ends and at a bad mark",
         S(0x51, 0), S(0x51, 1), T(-1000), S(0x51, 1), T(-1001), S(0x51, 0), T(2000), S(0x51, 1), T(2001), S(0x51, 1), T(0), S(0x51, 1), bad(250),
         S(0x51, 1), T(-1), S(0x51, 0), S(0x51, 2), S(0x51), S(0x51, 1, 1), S(0x51, 2, 2)),
    case("input_registers", "04: status, tenths, float, high word first, for a fault, the ends, 0, -0.1 and 31.3 degrees",
         R(4, 0, 4), T(-1000), R(4, 0, 4), T(2000), R(4, 0, 4), T(0), R(4, 0, 4), T(-1), R(4, 0, 4), T(313), R(4, 0, 4), bad(313), R(4, 0, 4),
         T(2001), R(4, 0, 1), T(1), R(4, 1, 3), R(4, 3, 1)),
    case("input_register_limits", "04: quantity 1 to 125, else 8; registers 0 to 3, else 9; four bytes",
         T(250), R(4, 0, 0), R(4, 0, 126), R(4, 0, 125), R(4, 0, 5), R(4, 3, 2), R(4, 4, 1), R(4, 0xFFFF, 1), R(4, 0xFFFF, 2), M(4, 0, 0, 0), M(4, 0, 0, 0, 1, 0),
         R(4, 2, 2)),
    case("groups_stored", "1AH: 1 to 12 groups, outputs 1 and 16, the last of one output wins; 1BH shows them, without data all",
         S(0x1B, 1, 16), S(0x1A, *group(1, 0x81, 300, -200, 7, 2), *group(16, 0x91, -1, -1000, 0, 1)), S(0x1B, 16, 1),
         S(0x1A, *group(2, 0x81, 5, 5), *group(2, 0xF1, 6, 6, 255, 0)), S(0x1B, 2), S(0x1B),
         S(0x1A, *[b for k in range(1, 13) for b in group(k, 0x81, k, -k)]), S(0x1B, *range(1, 13)), S(0x30)),
    case("group_lengths", "1AH: no data, 7, 9 and 104 bytes: 8; 1BH: 13 numbers: 8",
         S(0x1A), S(0x1A, *[1] * 7), S(0x1A, *group(1, 0, 0, 0), 1), S(0x1A, *group(1, 0, 0, 0) * 13), S(0x1A, *group(17, 0, 0, 0, 0, 3) * 13),
         S(0x1B, *[1] * 13), S(0x1B, *[17] * 13), S(0x1B, *[16] * 12)),
    case("group_numbers", "1AH and 1BH: 0 and 17: 11; 00 alone is no number either",
         S(0x1A, *group(0, 0, 0, 0)), S(0x1A, *group(17, 0, 0, 0)), S(0x1A, *group(0x81, 0, 0, 0)), S(0x1B, 0), S(0x1B, 17), S(0x1B, 1, 0),
         S(0x1B, 1, 17)),
    case("group_limits", "1AH with F = 1: the one sensor, TEMPy not over TEMPx as signed tenths, a TIME for SS 10 and 11, ERR to 2; else 11",
         at(0x80), at(0x82), at(0x87), at(0x84), S(0x1A, *group(1, 0x81, 200, 201)), S(0x1A, *group(1, 0x81, -201, -200)),
         S(0x1A, *group(1, 0x81, -1, 0)), at(0xC1), at(0xE1), at(0xD1), at(0x81, 0, 3), at(0x81, 0, 255), S(0x1A, *group(2, 0x81, 5, 5), *group(1, 0x80, 5, 5)),
         S(0x1B, 1, 2), S(0x1A, *group(1, 0x81, 200, 200)), S(0x1A, *group(1, 0x81, -200, -201)), S(0x1A, *group(1, 0x81, 0, -1)),
         S(0x1A, *group(1, 0x81, 32767, -32768)), at(0xC1, 1), at(0xE1, 1), at(0xA1), at(0x81, 0, 2), S(0x1B, 1)),
    case("group_idle", "1AH with F = 0: all is stored and nothing judged but ERR",
         S(0x1A, *group(1, 0x7F, -200, 300, 0, 2)), S(0x1B, 1), S(0x1A, *group(1, 0x00, 0, 0, 255, 0)), S(0x1B, 1), S(0x1A, *group(1, 0x01, 0, 0, 0, 3)),
         S(0x1A, *group(1, 0x60, -1, 1, 0, 1)), S(0x1B, 1), T(0), S(0x20, 0x81), FAULT, S(0x30), S(0x20, 1), S(0x30)),
    case("levels", "SS 00: on above TEMPx, off below TEMPy; at and between them nothing turns",
         at(0x81), T(300), S(0x30), T(301), S(0x30), T(300), S(0x30), T(200), S(0x30), T(199), S(0x30), T(200), S(0x30), T(300), S(0x30), T(301), S(0x30),
         T(-1000), S(0x30)),
    case("levels_reversed", "SS 01: off above TEMPx, on below TEMPy",
         at(0xA1), T(200), S(0x30), T(199), S(0x30), T(200), S(0x30), T(300), S(0x30), T(301), S(0x30), T(300), S(0x30), T(199), S(0x30)),
    case("levels_ignore_k", "K changes nothing for SS 00 and 01; each output goes by its own thermostat, F = 0 by none",
         S(0x1A, *group(1, 0x91, 300, 200), *group(2, 0xB1, 300, 200), *group(3, 0x01, 300, 200), *group(16, 0x81, 100, 50)), T(250), S(0x30),
         T(301), S(0x30), T(199), S(0x30), T(49), S(0x30)),
    case("levels_end_pulses", "a turn ends a pulse, also to the state it has; between the limits it goes on",
         T(250), at(0x81), at(0x81, output=2), S(0x23, 4, 0x81, 2), S(0x33, 1, 2), T(300), S(0x33, 1, 2), T(301), S(0x33, 1, 2),
         T(250), S(0x23, 4, 0x81, 2), T(199), S(0x33, 1, 2)),
    case("crossing_up", "SS 10, K 0: an on pulse of TIME seconds from at most TEMPx to above it; none at the first valid reading",
         at(0xC1, 1), T(301), S(0x33, 1), T(301), S(0x33, 1), T(300), S(0x33, 1), T(301), S(0x33, 1), P(0, 999), S(0x33, 1), P(0), S(0x33, 1), T(302),
         S(0x33, 1), T(299), T(300), S(0x33, 1), T(400), S(0x33, 1)),
    case("crossing_down", "SS 10, K 1: from at least TEMPy to below it",
         at(0xD1, 1), T(199), S(0x33, 1), T(200), S(0x33, 1), T(199), S(0x33, 1), P(0, 500), S(0x33, 1), T(198), S(0x33, 1), T(201), T(200), S(0x33, 1),
         T(301), T(0), S(0x33, 1)),
    case("crossing_off", "SS 11: an off pulse, up by K 0 and down by K 1; after it the output is on",
         at(0xE1, 1), at(0xF1, 1, output=2), T(250), S(0x20, 0x81, 0x82), T(301), S(0x33, 1, 2), P(0, 1000), S(0x33, 1, 2), T(250), S(0x33, 1, 2), T(199),
         S(0x33, 1, 2)),
    case("crossing_last", "the last valid reading counts: from before the thermostat was set, across a fault, and across two",
         T(300), at(0xC1, 1), T(301), S(0x33, 1), S(0x1A, *group(1, 0xC1, 400, 200, 3)), FAULT, T(401), S(0x33, 1), T(2001), T(402), S(0x33, 1),
         P(0, 500), S(0x33, 1), T(400), FAULT, FAULT, T(401), S(0x33, 1)),
    case("crossing_time", "TIME 255: 255 is shown while 510 half seconds are left, then what is left",
         at(0xC1, 255), T(300), T(301), S(0x33, 1), R(3, 500, 1), S(0x1A, *group(2, 0xC1, 400, 200, 128)), T(401), S(0x33, 2), P(0), S(0x33, 2),
         P(0, 498), S(0x33, 2), P(0), S(0x33, 2), P(0), S(0x33, 2)),
    case("no_crossing", "a level of SS 10 and 11 alone turns nothing, nor does a wrong direction",
         at(0xC1, 1), at(0xF1, 1, output=2), T(400), T(399), T(100), T(101), S(0x33, 1, 2), T(301), S(0x33, 1, 2)),
    case("faults", "ERR where F is 1: 0 nothing, 1 off, 2 on, at each fault sample; F = 0: nothing",
         T(250), at(0x81, 0, 0), at(0x81, 0, 1, 2), at(0x81, 0, 2, 3), S(0x1A, *group(4, 0x01, 300, 200, 0, 2)), S(0x20, 0x81, 0x82), FAULT, S(0x30),
         T(250), S(0x20, 1, 0x82, 3), T(2001), S(0x30), T(250), S(0x20, 0x82), T(-1001), S(0x30)),
    case("faults_end_pulses", "ERR 1 and 2 end a pulse, also to the state it has; ERR 0 and F = 0 leave it",
         T(250), at(0x81, 0, 1), at(0x81, 0, 2, 2), at(0x81, 0, 0, 3), S(0x23, 4, 1, 0x82, 0x83, 0x84), FAULT, S(0x33, 1, 2, 3, 4)),
    case("settings_end_none", "1AH and registers 600 up end no pulse and turn nothing",
         S(0x23, 4, 0x81, 0x82), at(0x81, 0, 2), W(604, 0x81, 300, 200, 2), S(0x33, 1, 2), T(250), S(0x33, 1, 2), S(0x30)),
    case("holding", "12 goes by the reading now: free from TEMPy to TEMPx, held beyond and at a fault; F = 0 and other outputs are free",
         at(0x81), at(0x01, output=2), S(0x20, 0x81), S(0x20, 0x82), T(200), S(0x20, 0x81), T(199), S(0x20, 0x81), T(300), S(0x20, 0x81), T(301), S(0x20, 1),
         S(0x20, 2), FAULT, S(0x20, 0x81), S(0x20, 0x82), S(0x23, 1, 0x81), R(5, 0, 0), C(0, 2, 0), R(6, 500, 1), R(6, 501, 1), T(250), R(5, 0, 0),
         C(0, 1, 1), R(6, 500, 0xFF01), S(0x30)),
    case("holding_now", "a fault holds also after a reading in the band, against every command",
         S(0x26, 1, 2, 1), at(0x81), T(250), FAULT, S(0x20, 0x81), S(0x23, 1, 0x81), S(0x25, 1), R(5, 0, 0xFF00), C(0, 1, 1), R(6, 500, 0xFF01), S(0x30),
         T(250), S(0x25, 1), S(0x33, 1)),
    case("holding_any_ss", "every SS and K holds alike",
         *[c for f in (0x91, 0xA1, 0xB1, 0xC1, 0xD1, 0xE1, 0xF1) for c in (at(f, 1), FAULT, S(0x20, 0x81), T(301), S(0x20, 0x81), T(300), S(0x20, 1), S(0x20, 0x81))]),
    typed("bands", "third S (E6): SS 00 is on from TEMPy to TEMPx, off beyond, SS 01 the reverse, whatever K is and the output was", "fresh_module",
          (BANDS, ack()), *[e for tenths, on in ((200, 0x33), (300, 0x33), (201, 0x33), (299, 0x33), (250, 0x33), (199, 0xCC), (301, 0xCC), (-1000, 0xCC), (2000, 0xCC))
                            for e in ((T(250), QUIET), (EACH, ack()), *reads((tenths, on)))]),
    typed("bands_first", "the first valid reading of all sets them (E6): beyond, above", "fresh_module",
          (BANDS, ack()), (S(0x30), ack(0, 0)), *reads((301, 0xCC), (302, 0xCC), (300, 0x33), (199, 0xCC), (200, 0x33), (2000, 0xCC), (-1000, 0xCC))),
    typed("bands_first_below", "and below", "fresh_module", (BANDS, ack()), *reads((199, 0xCC), (200, 0x33), (301, 0xCC))),
    typed("bands_first_within", "and within, at an end, also where a command turned the outputs before", "fresh_module",
          (EACH, ack()), (BANDS, ack()), (S(0x30), ack(0, 0x55)), *reads((300, 0x33))),
    typed("bands_again", "every valid reading sets them (E6), the same one too; a fault between with ERR 0 leaves them", "fresh_module",
          (BANDS, ack()), *reads((250, 0x33)), (EACH, ack()), (S(0x30), ack(0, 0x55)), *reads((250, 0x33)), (EACH, ack()), (FAULT, QUIET), (S(0x30), ack(0, 0x55)), *reads((250, 0x33)),
          (S(0xE3), ack()), (S(0x30), ack(0, 0)), *reads((250, 0x33)), (T(301), QUIET), (S(0xE3), ack()), (S(0x30), ack(0, 0)), (S(0x1B, 1, 8), ack(*group(1, 0x89, 300, 200), *group(8, 0xB9, 300, 200))),
          *reads((301, 0xCC))),
    typed("bands_equal", "TEMPx equal to TEMPy (E6): within is that reading alone", "fresh_module",
          (listing(group(1, 0x89, 250, 250), group(2, 0xA9, 250, 250), group(3, 0x89, 0, 0), group(4, 0xB9, 0, 0)), ack()),
          *reads((250, 9), (251, 10), (250, 9), (249, 10), (0, 6), (1, 10), (0, 6), (-1, 10)), (T(250), QUIET), (S(0x20, 1, 0x82), ack()), (S(0x20, 3), nack(12, 3)), *reads((250, 9))),
    typed("bands_below_zero", "signed limits (E6): -20.0 to -10.0, -0.5 to 0.5, from below every reading to above it, and wholly above", "fresh_module",
          (listing(group(1, 0x89, -100, -200), group(2, 0xA9, -100, -200), group(3, 0x89, 5, -5), group(4, 0xB9, 5, -5), group(5, 0x99, 32767, -32768), group(6, 0xA9, 32767, -32768),
                   group(7, 0x89, 3000, 2001), group(8, 0xA9, 3000, 2001)), ack()),
          *reads((-100, 0x99), (-200, 0x99), (-150, 0x99), (-99, 0x9A), (-201, 0x9A), (150, 0x9A), (5, 0x96), (-5, 0x96), (0, 0x96), (6, 0x9A), (-6, 0x9A), (2000, 0x9A), (-1000, 0x9A))),
    typed("bands_among", "several in one reading (E6): levels, pulses, bands, each by its own flags and limits; F = 0 with the third S by nothing", "fresh_module",
          (listing(group(1, 0x81, 300, 200), group(2, 0xA1, 300, 200), group(3, 0xC1, 300, 200, 1), group(4, 0xE1, 300, 200, 1), group(5, 0xD1, 300, 200, 1), group(6, 0xF1, 300, 200, 1),
                   group(7, 0x89, 300, 200, 1), group(8, 0xA9, 300, 200, 1), group(9, 0x09, 300, 200, 0, 2), group(10, 0x29, 300, 200, 0, 2), group(11, 0x91, 300, 200)), ack()),
          (listing(group(12, 0xB1, 300, 200), group(16, 0x99, 301, 301)), ack()),
          *reads((250, 0x0040), (301, 0x8485), (250, 0x0445), (199, 0x0896)),
          (S(0x33, 3, 4, 5, 6, 7, 8), ack(0x83, 2, 4, 2, 0x85, 2, 6, 2, 7, 0, 0x88, 0)), (P(0, 1000), QUIET), (S(0x30), ack(8, 0xAA)), *reads((200, 0x086A), (301, 0x84A5))),
    typed("bands_end_pulses", "a reading within ends a pulse (E6), to the state it has and to the other; SS 00 and 01 without the third S leave it", "fresh_module",
          (listing(group(1, 0x89, 300, 200), group(2, 0x99, 300, 200), group(3, 0xA9, 300, 200), group(4, 0xB9, 300, 200), group(5, 0x81, 300, 200), group(6, 0xA1, 300, 200)), ack()),
          (T(250), QUIET), (S(0x23, 2, 0x81, 2, 0x83, 4, 0x85, 6), ack()), (S(0x33, 1, 2, 3, 4, 5, 6), ack(0x81, 2, 2, 2, 0x83, 2, 4, 2, 0x85, 2, 6, 2)),
          (T(260), QUIET), (S(0x33, 1, 2, 3, 4, 5, 6), ack(0x81, 0, 0x82, 0, 3, 0, 4, 0, 0x85, 2, 6, 2)),
          (P(0, 1000), QUIET), (S(0x33, 1, 2, 3, 4, 5, 6), ack(0x81, 0, 0x82, 0, 3, 0, 4, 0, 5, 0, 0x86, 0))),
    typed("bands_end_pulses_beyond", "and so does one beyond (E6), above and below", "fresh_module",
          (BANDS, ack()), (T(200), QUIET), (S(0x23, 1, 0x81, 2, 0x83, 4), ack()), (T(199), QUIET), (S(0x33, 1, 2, 3, 4), ack(1, 0, 2, 0, 0x83, 0, 0x84, 0)),
          (P(0, 500), QUIET), (S(0x30), ack(0, 0xCC)), (T(300), QUIET), (S(0x23, 1, 0x85, 6, 0x87, 8), ack()), (T(301), QUIET),
          (S(0x33, 5, 6, 7, 8), ack(5, 0, 6, 0, 0x87, 0, 0x88, 0)), (P(0, 500), QUIET), (S(0x30), ack(0, 0xCC))),
    typed("bands_take_pulses", "set while a pulse runs (E6), it leaves that until a valid reading: by 23H, 25H, a register, a thermostat", "fresh_module",
          (S(0x26, 2, 3, 2), ack()), (at(0xC1, 1, output=4), ack()), (T(300), QUIET), (T(301), QUIET), (S(0x23, 2, 0x81), ack()), (S(0x25, 2), ack()),
          (R(6, 502, 0xFF02), modbus_ack(6, *words(502, 0xFF02))), (S(0x33, 1, 2, 3, 4), ack(0x81, 2, 2, 2, 0x83, 2, 0x84, 2)),
          (listing(*[group(k, 0xA9, 300, 200) for k in (1, 2, 4)]), ack()), (W(608, 0x89, 300, 200, 0), modbus_ack(0x10, *words(608, 4))),
          (P(0), QUIET), (S(0x33, 1, 2, 3, 4), ack(0x81, 2, 2, 2, 0x83, 2, 0x84, 2)), (FAULT, QUIET), (S(0x33, 1, 2, 3, 4), ack(0x81, 2, 2, 2, 0x83, 2, 0x84, 2)),
          (T(302), QUIET), (S(0x33, 1, 2, 3, 4), ack(0x81, 0, 0x82, 0, 3, 0, 0x84, 0)), (P(0, 1000), QUIET), (S(0x30), ack(0, 11))),
    typed("bands_faults", "ERR with the third S (E6) as ever: 0 leaves, 1 off, 2 on, at every fault, also before any reading; F = 0 by nothing", "fresh_module",
          (listing(*[group(k, f, 300, 200, 0, e) for k, f, e in ((1, 0x89, 0), (2, 0x99, 1), (3, 0x89, 2), (4, 0xA9, 0), (5, 0xB9, 1), (6, 0xA9, 2), (7, 0x09, 2))]), ack()),
          (FAULT, QUIET), (S(0x30), ack(0, 0x24)), *reads((250, 0x07)), (FAULT, QUIET), (S(0x30), ack(0, 0x25)), (bad(301), QUIET), (S(0x30), ack(0, 0x25)), *reads((301, 0x38)),
          (T(2001), QUIET), (S(0x30), ack(0, 0x2C)), *reads((300, 0x07)), (T(-1001), QUIET), (S(0x30), ack(0, 0x25)), *reads((199, 0x38))),
    typed("bands_faults_end_pulses", "ERR 1 and 2 end a pulse (E6), ERR 0 leaves it", "fresh_module",
          (listing(*[group(k, f, 300, 200, 0, e) for k, f, e in ((1, 0x89, 0), (2, 0x89, 1), (3, 0x89, 2), (4, 0xA9, 0), (5, 0xA9, 1), (6, 0xA9, 2))]), ack()),
          (T(250), QUIET), (S(0x23, 1, 0x81, 0x82, 3, 4, 5, 0x86), ack()), (FAULT, QUIET), (S(0x33, 1, 2, 3, 4, 5, 6), ack(0x81, 1, 2, 0, 0x83, 0, 4, 1, 5, 0, 0x86, 0)),
          (P(0, 500), QUIET), (S(0x30), ack(0, 0x2C))),
    typed("bands_free", "12 as ever (E6): within, ends included, commands are accepted; the next valid reading sets the outputs again", "fresh_module",
          (S(0x26, 1, 2, 1, 3, 3, 1), ack()), (BANDS, ack()),
          *[e for tenths in (250, 200, 300) for k, after in ((1, 0), (3, 4)) for e in ((T(tenths), QUIET), *free(k), (R(5, k - 1, 0xFF00), modbus_ack(5, *words(k - 1, 0xFF00))),
            (S(0x33, k), ack(0x80 + k, 0)), *reads((tenths, 0x33)), (S(0x33, k), ack(0x81 if k == 1 else 3, 0)))]),
    typed("bands_held", "a tenth beyond an end and at a fault they are refused (E6), before the first reading too; other outputs are free", "fresh_module",
          (S(0x26, 1, 2, 1, 3, 3, 1), ack()), (BANDS, ack()), (S(0x20, 0x81), nack(12, 3)), (S(0x20, 0x83), nack(12, 3)),
          *[e for reading, on in ((T(199), 0xCC), (T(301), 0xCC), (FAULT, 0xCC), (T(2001), 0xCC))
            for e in ((reading, QUIET), *stopped(1), *stopped(3), (S(0x20, 0x85), nack(12, 3)), (S(0x20, 7), nack(12, 3)), (S(0x33, 1, 3), ack(1, 0, 0x83, 0)), (S(0x30), ack(0, on)))],
          (S(0x20, 0x89, 0x81), nack(12, 3)), (C(0, 16, 0xFF, 0xFF), modbus_nack(12, 0x0F, 4)), (S(0x20, 0x81, 17), nack(11, 3)), (S(0x23, 0, 0x81), nack(11, 3)), (R(5, 0, 1), modbus_nack(11, 5, 3)),
          (S(0x20, 1, a=0xFF), (12, [])), (R(5, 0, 0xFF00, a=0), (12, [])), (S(0x30), ack(0, 0xCC)), (S(0x20, 0x89), ack()), (S(0x26, 1, 3, 2), ack()), (at(0x09), ack()), (S(0x20, 0x81), ack()),
          (S(0x30), ack(1, 0xCD))),
    typed("bands_stored", "1AH with F = 1 and the third S (E6): SS 00 and 01, either K, TIME 0 or not, TEMPx equal to TEMPy; 1BH shows them", "fresh_module",
          *[e for f in (0x89, 0x99, 0xA9, 0xB9) for g in (group(1, f, 300, 200), group(16, f, 200, 200, 255, 2), group(2, f, -201, -201, 1, 1))
            for e in ((S(0x1A, *g), ack()), (S(0x1B, g[0]), ack(*g)))], (S(0x30), ack(0, 0))),
    typed("bands_refused", "11 (E6) for SS 10 and 11, sensor 0 or 2 to 7, TEMPx below TEMPy by one, ERR 3; the list's good groups are not stored", "fresh_module",
          (at(0x91, 3, 1), ack()), *[(at(f, t), nack(11, 3)) for f in (0xC9, 0xD9, 0xE9, 0xF9) for t in (0, 1, 255)],
          *[(at(f, 1), nack(11, 3)) for f in (0x88, 0x8A, 0x8B, 0x8C, 0x8D, 0x8E, 0x8F, 0x98, 0xA8, 0xAA, 0xAB, 0xAF, 0xB8, 0xBF, 0x80, 0x82, 0x83, 0x85, 0x87,
                                            0xA0, 0xA2, 0xA7, 0xC0, 0xC3, 0xC7, 0xC8, 0xFF)],
          *[(S(0x1A, *group(1, f, *limits)), nack(11, 3)) for f in (0x89, 0xA9) for limits in ((200, 201), (-201, -200), (-1, 0), (-32768, 32767))],
          *[(at(f, 0, e), nack(11, 3)) for f in (0x89, 0xB9, 0x09) for e in (3, 255)],
          (listing(group(2, 0x89, 300, 200), group(1, 0xC9, 300, 200, 1)), nack(11, 3)), (listing(group(1, 0xC9, 300, 200, 1), group(2, 0x89, 300, 200)), nack(11, 3)),
          (listing(group(2, 0xA9, 300, 200), group(1, 0x8A, 300, 200)), nack(11, 3)), (listing(group(2, 0x81, 300, 200), group(17, 0x89, 300, 200)), nack(11, 3)),
          (S(0x1B, 1, 2), ack(*group(1, 0x91, 300, 200, 3, 1), *group(2, 0, 0, 0))), (S(0x38, 1, 2), ack(0xA1, 0))),
    typed("bands_order", "lengths come before it (E6), 8; a refusal by 11 uses the permission up; one to FE is served, one to all is not", "fresh_module",
          (S(0x1A, *group(1, 0xC9, 300, 200, 1), 0), nack(8, 3)), (S(0x1A, *group(1, 0xC9, 300, 200, 1)[:7]), nack(8, 3)), (S(0x1A, *group(1, 0xE9, 300, 200, 1) * 13), nack(8, 3)),
          (S(0xE4), ack()), (at(0xC9, 1), nack(11, 3)), (S(0xE0, 0x31, 6), nack(10, 4)), (S(0x1A, *group(1, 0x89, 300, 200), a=0xFF), (6, [])), (S(0x1B, 1), ack(*group(1, 0, 0, 0))),
          (S(0x1A, *group(1, 0xF9, 300, 200, 1), a=0xFE), nack(11, 3)), (S(0x1A, *group(1, 0x89, 300, 200), a=0xFE), ack()), (S(0x1B, 1), ack(*group(1, 0x89, 300, 200)))),
    typed("bands_idle", "F = 0 and the third S (E6): all is stored, shown by 1BH and 03; nothing turns by it, and nothing is held", "fresh_module",
          (S(0x26, 1, 2, 1), ack()), *[e for f in (0x7F, 0x0F, 0x08, 0x48, 0x68, 0x78, 0x49, 0x59, 0x69, 0x79, 0x09, 0x29) for e in ((S(0x1A, *group(1, f, -200, 300, 0, 2)), ack()),
            (S(0x1B, 1), ack(*group(1, f, -200, 300, 0, 2))), (S(0x38, 1), ack(2)))], (R(3, 600, 4), shown(0x29, 65336, 300, 2)),
          (listing(group(1, 0x49, 300, 200, 1, 2), group(2, 0x69, 300, 200, 1, 1), group(3, 0x09, 300, 200, 0, 2), group(4, 0x29, 300, 200, 0, 1)), ack()),
          (S(0x20, 0x82, 0x84), ack()), *reads((250, 10), (301, 10), (250, 10), (199, 10)), (FAULT, QUIET), (S(0x30), ack(0, 10)), (S(0x20, 0x81, 2, 0x83, 4), ack()), (S(0x23, 1, 0x82), ack()),
          (R(5, 3, 0xFF00), modbus_ack(5, *words(3, 0xFF00))), *reads((199, 15)), (S(0x33, 2), ack(0x82, 1)), (S(0x38, 1, 2), ack(2, 0)), (S(0x1B, 2), ack(*group(2, 0x69, 300, 200, 1, 1)))),
    typed("bands_set_and_left", "from level to band and back (E6): each reading goes by the flags of now; active again from a stored F = 0", "fresh_module",
          (at(0x81), ack()), *reads((301, 1)), (at(0x89), ack()), (S(0x30), ack(0, 1)), *reads((301, 0), (250, 1)), (at(0xA1), ack()), *reads((250, 1), (199, 1), (301, 0)),
          (at(0xA9), ack()), *reads((301, 1), (300, 0)), (at(0x81), ack()), *reads((300, 0), (301, 1)), (at(0x49, 1), ack()), *reads((250, 1)), (at(0xC9, 1), nack(11, 3)),
          (at(0xC1, 1), ack()), *reads((301, 1)), (S(0x33, 1), ack(0x81, 2)), (at(0x09), ack()), *reads((250, 1)), (S(0x33, 1), ack(0x81, 2)), (at(0x89), ack()), *reads((301, 0)),
          (S(0x33, 1), ack(1, 0)), *reads((250, 1)), (at(0x89), ack()), (at(0xC1, 1), ack()), (S(0x20, 1), ack()), *reads((301, 1)), (S(0x33, 1), ack(0x81, 2))),
    case("bands_run_out", "a pulse within the band ends by itself to the opposite state (E6); samples set nothing, the next valid reading does",
         twelve(ONE), T(250), pulses(1), P(0, 499), S(0x33, 0), P(0), S(0x33, 0), P(0), S(0x30), T(250), S(0x30), S(0x20, *range(5, 17)), P(0), S(0x30),
         pulses(1, 1), P(0, 500), S(0x30), FAULT, P(0), S(0x30)),
    case("bands_over_pulses", "a reading at, in and beyond the band ends pulses (E6), also one's last sample, with either K, any TIME and ERR; the first at TEMPx",
         *over_pulses(ONE, 300, 1, 499, idle=False), *over_pulses(ONE, 200, 2, 0, 1), *over_pulses(ONE, 301, 1, 499, 1), *over_pulses(ONE, 302, 2),
         *over_pulses(ONE, 199, 1, 499), *over_pulses(ONE, 198), P(0), S(0x33, 0)),
    case("bands_over_pulses_below", "the same, the first below; then from beyond to beyond, and the same reading twice",
         *over_pulses(ONE, 199, 1, 499, 1, idle=False), *over_pulses(ONE, 300, 1, 0, 1), *turns(301, 199, 301, 198, 198, 302, 302, 250, 250)),
    case("bands_over_pulses_above", "the same, the first above", *over_pulses(ONE, 301, 2, idle=False), *over_pulses(ONE, 200, 1, 499, 1)),
    case("bands_over_pulses_at", "the same, the first at TEMPy", *over_pulses(ONE, 200, 1, 1, 1, idle=False), *over_pulses(ONE, 199, 2, 0, 1)),
    *[case("bands_over_pulses_" + name, "the same with limits below zero, about zero and alike (E6)", *over_pulses(MANY, a, 1, 0, turned, idle=False),
           *over_pulses(MANY, b, 2, 0, 1), *over_pulses(MANY, c, 1, 499), *turns(*rest))
      for name, a, b, c, turned, rest in (("cold", -100, 250, -200, 0, (251, 251, 249, 0, 0, -5, 5)), ("equal", 250, -201, 5, 1, (6, -6, -6, -99, -201)),
                                          ("zero", 0, 0, 250, 0, (-100, -200, -150, -150)))],
    case("bands_over_pulses_wide", "the same with a band over, above and below all readings (E6)",
         *over_pulses(WIDE, -1000, 1, 499, idle=False), *over_pulses(WIDE, 2000, 2, 0, 1), *turns(2000, -1000, -1000, 0)),
    case("bands_over_faults", "a fault goes by ERR alone (E6): 1 and 2 end a pulse, also its last sample, with either K and SS and any TIME, 0 leaves it; F = 0 leaves all",
         *[c for limits, turned, run in ((ONE, 0, 0), (ONE, 1, 499), (MANY, 0, 499), (MANY, 1, 0)) for c in (
             twelve(limits, 0x7F), pulses(1, turned), *([P(0, run)] if run else []), FAULT, S(0x33, 0), twelve(limits), FAULT, S(0x33, 0))]),
    case("bands_idle_pulses", "F = 0 and the third S (E6): a reading within or beyond leaves a pulse and its output",
         twelve(ONE, 0x7F), pulses(1), T(250), S(0x33, 0), T(301), S(0x33, 0), T(199), S(0x33, 0), pulses(1, 1), T(300), S(0x33, 0), twelve(MANY, 0x7F), T(5), S(0x33, 0), T(-201), S(0x33, 0)),
    case("bands_held_any", "12 by reading and limits alone (E6): every command, either SS and K, any TIME and ERR, limits below zero; F = 0 is free within, beyond and at a fault",
         S(0x26, *[b for k in range(5, 17) for b in (k, 2 + k % 2, 1)]),
         *[c for n, (groups, reading) in enumerate((
             (twelve(ONE), T(200)), (twelve(ONE), T(199)), (twelve(ONE), T(301)), (twelve(ONE), T(300)), (twelve(ONE), FAULT), (twelve(MANY), T(-100)), (twelve(MANY), T(-201)), (twelve(MANY), T(5)), (twelve(MANY), FAULT),
             (twelve(ONE, 0x7F), T(250)), (twelve(ONE, 0x7F), T(199)), (twelve(MANY, 0x7F), FAULT)))
           for c in (groups, reading, *[commands(k)[(k + 2 * n) % 7][0] for k in range(5, 17)])]),
    case("actions_stored", "1AH with F = 1: every SS, K and ERR, with the third S and without, limits alike and below zero, TIME 0 where no pulse is meant",
         *[c for fs in (FOUR, (0x81, 0x91, 0xA1, 0xB1), (0xC1, 0xD1, 0xE1, 0xF1)) for n in (0, 1) for c in (
             listing(*[group(k, fs[k % 4], *LIMITS[(k + k // 4 + n) % 4], k % 3 * 127 + (fs[0] > 0xC0), (k + n) % 3) for k in range(5, 17)]), FAULT, T(250), S(0xE3), S(0x1B, *range(5, 17)))]),
    case("heat_or_link", "14 (E8): 1AH with F = 1 for an output with a link, whatever action it has; F = 0 is stored; its neighbours are free",
         S(0x40, 1, 5, 1, 2, 6, 2, 3, 9, 3, 4, 10, 4), *[S(0x1A, *group(k, 0x81, 300, 200)) for k in (5, 6, 9, 10, 4, 7, 8, 11, 1, 2, 3)],
         at(0x01, output=5), at(0x7F, output=6), S(0x1B, 4, 5, 6, 7), S(0x38, 4, 5, 9),
         *[at(f, 1, output=5) for f in (0x91, 0xA1, 0xC1, 0xD1, 0xE1, 0x89, 0xB9)], T(301), S(0x30), FAULT, at(0x81, output=10), S(0x40, 1, 5, 0),
         at(0x81, output=5), at(0x81, output=6), S(0x1B, 5, 6), S(0x41, 4, 5, 6)),
    case("heat_or_link_list", "14 (E8) in whichever place of the list, and no group of it is stored; each group for itself, F = 0 behind F = 1 too",
         S(0x40, 1, 2, 1, 1, 16, 3), listing(group(2, 0x81, 300, 200), group(3, 0x81, 300, 200)),
         listing(group(3, 0x81, 300, 200), group(16, 0x81, 300, 200), group(4, 0x81, 300, 200)),
         listing(group(3, 0x81, 300, 200), group(4, 0x81, 300, 200), group(2, 0xA9, 300, 200)),
         listing(group(2, 0x81, 300, 200), group(2, 0x01, 300, 200)),
         listing(group(2, 0x01, 300, 200), group(2, 0x81, 300, 200)), listing(group(3, 0x01, 9, 8), group(2, 0x81, 300, 200)),
         listing(*[group(k, 0x81, 300, 200) for k in range(5, 17)]),
         S(0x1B), listing(group(2, 0x01, 300, 200), group(3, 0x81, 300, 200), group(16, 0x01, 1, 2)), S(0x1B, 2, 3, 16),
         listing(group(3, 0x01, 300, 200), group(3, 0x81, 300, 200)), S(0x41, 2, 3, 16)),
    case("heat_or_link_order", "8, every 11 of the call, then 14 (E8); a group at fault before or behind, or the same group",
         S(0x40, 1, 2, 1), S(0x1A, *group(2, 0x81, 300, 200), 0), listing(group(2, 0x81, 300, 200), group(17, 0x81, 300, 200)),
         listing(group(0, 0, 0, 0), group(2, 0x81, 300, 200)),
         listing(group(2, 0x81, 300, 200), group(3, 0x80, 300, 200)), listing(group(2, 0x81, 300, 200), group(3, 0x01, 0, 0, 0, 3)),
         at(0x82, output=2), at(0xC1, output=2), at(0x81, 0, 3, 2),
         S(0x1A, *group(2, 0x81, 200, 300)), listing(group(3, 0x81, 300, 200), group(2, 0x81, 300, 200)), S(0x1A, *group(2, 0x81, 300, 200), a=0xFE),
         S(0x1A, *group(2, 0x81, 300, 200), a=0xFF), S(0x1B, 2, 3)),
    case("idle_stored", "1AH with F = 0: any SS, K, third S, sensor, limits and TIME; a reset keeps them",
         *[c for n in range(6) for c in (
             listing(*[group(k, (k * 11 + n * 37) % 128, *IDLE_LIMITS[(k + n) % 4], (0, 1, 255)[(k // 4 + n) % 3], (k + n) % 3) for k in range(5, 17)]), S(0x1B, *range(5, 17)))],
         FAULT, T(250), S(0xE3), S(0x1B), S(0x38, 0)),
    case("actions_not_stored", "1AH: each reason of 11 beside each ERR, several limits and TIMEs", *[S(0x1A, *group(1, f, *lim, t, e)) for f, lim, t, e in UNFIT], S(0x1B, 1)),
]

# Registers over Modbus ----------------------------------------------------------------------

REGISTERS = [
    case("read_groups", "03: each group from its first to its last register, and no register beside it; 9 elsewhere",
         R(6, 300, 1), R(6, 315, 3), S(0x62, 1), samples(0x8001), R(3, 100, 16), R(3, 115, 1), R(3, 300, 16), R(3, 315, 1), R(3, 1, 2), R(3, 2, 1), R(3, 1, 1),
         R(6, 500, 0xFF02), R(6, 515, 0x0003), R(3, 500, 16), R(3, 515, 1), R(3, 600, 4), R(3, 660, 4),
         *[R(3, r, 1) for r in (0, 3, 99, 116, 200, 215, 299, 316, 499, 516, 599, 664, 65535)]),
    case("read_past", "03: a range over either end of its group, a misaligned or other than four-register thermostat: 9",
         *[R(3, r, n) for r, n in ((0, 2), (1, 3), (2, 2), (99, 2), (100, 17), (115, 2), (101, 16), (299, 2), (300, 17), (315, 2), (499, 2), (500, 17),
           (515, 2), (599, 4), (600, 3), (600, 5), (600, 8), (600, 1), (601, 4), (602, 4), (603, 4), (661, 4), (664, 4), (65535, 2), (65535, 125))]),
    case("read_lengths", "03: quantity 1 to 125, four bytes, else 8",
         R(3, 100, 0), R(3, 100, 125), R(3, 100, 126), R(3, 0, 0), R(3, 100, 0x0101), M(3), M(3, 0, 100, 0), M(3, 0, 100, 0, 1, 0)),
    case("permission_register", "0: 06 alone, value 00FF, else 11; 10H and a read: 9",
         R(6, 1, 5), R(6, 0, 0xFE), R(6, 0, 0x100), R(6, 0, 0x01FF), R(6, 0, 0xFF00), R(6, 1, 5), W(0, 0xFF), W(0, 0xFF, 5), R(6, 1, 5), R(6, 0, 0xFF),
         R(6, 1, 5), R(3, 1, 1, a=5)),
    case("address_register", "1: 1 to 247, with the permission; the reply has the old address; 10 before 11, 9 before 10",
         R(6, 1, 0), R(6, 0, 0xFF), R(6, 1, 0), R(6, 0, 0xFF), R(6, 1, 248), R(6, 0, 0xFF), R(6, 1, 0x0105), R(6, 0, 0xFF), R(6, 1, 247), R(3, 1, 2, a=247),
         R(6, 0, 0xFF, a=247), W(1, 1, a=247), R(3, 1, 2, a=1), W(2, 6, 6, a=1), W(1, 0, a=1), R(6, 1, 5), S(0xF0)),
    case("speed_register", "2: 3 to 10; both registers in one write, all or nothing",
         *[c for v in (2, 11, 0x0103) for c in (R(6, 0, 0xFF), R(6, 2, v))], R(6, 0, 0xFF), R(6, 2, 3), R(3, 1, 2), R(6, 0, 0xFF), W(2, 10), R(3, 1, 2),
         R(6, 0, 0xFF), W(1, 5, 11), R(3, 1, 2), R(6, 0, 0xFF), W(1, 248, 6), R(6, 0, 0xFF), W(1, 5, 7), R(3, 1, 2, a=5), R(6, 0, 0xFF, a=5), W(1, 5, 7, 7, a=5),
         R(6, 0, 0xFF, a=5), W(2, 7, 7, a=5), R(3, 1, 2, a=5)),
    case("ports_apart", "1 to 2 are the Modbus port's: one register written keeps the other, whatever the Spinel port has",
         S(0xE4), S(0xE0, 0x32, 7), R(6, 0, 0xFF), R(6, 2, 8), R(3, 1, 2), R(6, 0, 0xFF), R(6, 1, 0x33), R(3, 1, 2, a=0x33), S(0xF0, a=0x32)),
    case("counters_written", "100 to 115: 0 clears that counter, another value is 11; 9 on both sides",
         S(0x6A, 1, 3, 2, 3, 16, 3), S(0x62, 1), samples(0x8003, 0), R(6, 100, 1), R(6, 100, 0x0100), R(6, 101, 0), S(0x60, 1, 2, 16), W(114, 0, 0), S(0x60, 1, 16),
         samples(0x8003), W(100, 0, 1), W(100, 1, 0), S(0x60, 1, 2, 16), W(100, *[0] * 16), S(0x60, 0), W(100, *[0] * 17), W(101, *[0] * 16), W(99, 0, 0), R(6, 99, 0),
         R(6, 116, 0), W(115, 0, 0)),
    case("deductions_written", "200 to 215: up to the counter, at most 12, all or nothing; 9 on both sides",
         S(0x6A, 1, 3, 2, 3, 16, 3), S(0x62, 1), samples(0x8003, 0, 0x8003), R(6, 200, 4), R(6, 200, 1), R(6, 215, 3), R(6, 215, 1), W(200, 1, 4), W(200, 1, 2),
         S(0x60, 1, 2, 16), W(200, *[0] * 12), W(200, *[0] * 13), W(204, *[0] * 12), W(205, *[0] * 12), R(6, 199, 0), R(6, 216, 0), W(199, 0, 0), W(215, 0, 0),
         R(3, 200, 1), S(0x60, 1, 2, 16)),
    typed("low_halves", "100 to 115 (E4) show the low 16 bits of each counter, singly and together; 60H shows each whole",
          counting(65536, 70000, 0x12345678, 4294967295, 65535, 0x00FF0000, *[0x01020304 * k for k in range(7, 16)], 0xABCD0123),
          (R(3, 100, 16), shown(0, 4464, 0x5678, 0xFFFF, 0xFFFF, 0, *[0x0304 * k for k in range(7, 16)], 0x0123)), (R(3, 102, 1), shown(0x5678)), (R(3, 115, 1), shown(0x0123)),
          (S(0x60, 0), counts(65536, 70000, 0x12345678, 4294967295, 65535, 0x00FF0000, *[0x01020304 * k for k in range(7, 16)], 0xABCD0123)),
          (S(0x60, *range(5, 17)), counts(65535, 0x00FF0000, *[0x01020304 * k for k in range(7, 16)], 0xABCD0123))),
    typed("cleared_in_full", "100 to 115 (E4): a zero clears all 32 bits, also where 0 is shown; any other value is 11, the low half shown too",
          counting(65536, 70000, 0x12345678, 65541, *[0] * 11, 131072),
          (R(6, 100, 0), modbus_ack(6, *words(100, 0))), (S(0x60, 1, 2), counts(0, 70000)), (R(6, 101, 4464), modbus_nack(11, 6, 3)),
          (R(6, 101, 1), modbus_nack(11, 6, 3)), (W(102, 0, 5), modbus_nack(11, 0x10, 3)), (W(102, 0x5678), modbus_nack(11, 0x10, 3)),
          (S(0x60, 1, 2, 3, 4), counts(0, 70000, 0x12345678, 65541)), (W(101, 0, 0), modbus_ack(0x10, *words(101, 2))),
          (R(6, 115, 0), modbus_ack(6, *words(115, 0))), (S(0x60, 0), counts(0, 0, 0, 65541, *[0] * 12))),
    typed("deducted_in_full", "200 to 215 (E4) by 06: judged against all 32 bits, more than the counter is 11; the high half is taken from too",
          counting(65536, 65541, 70000, 5, 0x12345678, *[0] * 10, 131072),
          (R(6, 200, 1), modbus_ack(6, *words(200, 1))), (R(6, 201, 6), modbus_ack(6, *words(201, 6))), (R(6, 202, 65535), modbus_ack(6, *words(202, 65535))),
          (R(6, 203, 6), modbus_nack(11, 6, 3)), (R(6, 204, 0x5679), modbus_ack(6, *words(204, 0x5679))), (R(6, 215, 65535), modbus_ack(6, *words(215, 65535))),
          (S(0x60, 0), counts(65535, 65535, 4465, 5, 0x1233FFFF, *[0] * 10, 65537)), (R(3, 100, 5), shown(65535, 65535, 4465, 5, 65535)),
          (R(6, 202, 4466), modbus_nack(11, 6, 3)), (R(6, 202, 4465), modbus_ack(6, *words(202, 4465))), (S(0x60, 1, 3, 4), counts(65535, 0, 5))),
    typed("several_in_full", "200 to 215 (E4) by 10H: the same, all or nothing; 12 amounts",
          counting(65536, 65541, 70000, 5, 65536),
          (W(200, 1, 6, 65535, 6), modbus_nack(11, 0x10, 3)), (S(0x60, 1, 2, 3, 4), counts(65536, 65541, 70000, 5)),
          (W(200, 1, 6, 65535, 5), modbus_ack(0x10, *words(200, 4))), (S(0x60, 1, 2, 3, 4), counts(65535, 65535, 4465, 0)),
          (W(202, 4465, 1), modbus_nack(11, 0x10, 3)), (W(204, *range(1, 13)), modbus_ack(0x10, *words(204, 12))),
          (S(0x60, 0), counts(65535, 65535, 4465, 0, *range(65535, 65523, -1)))),
    case("modes_written", "300 to 315: 0 to 3, else 11 and none of the write is set; 9 on both sides",
         R(6, 300, 3), R(6, 315, 2), W(301, 1, 2, 3), R(3, 300, 16), S(0x6B, 0), R(6, 300, 4), R(6, 300, 0x0100), W(300, 0, 4), W(300, *[1] * 16), W(300, *[2] * 17),
         R(6, 299, 0), R(6, 316, 0), W(299, 0, 0), W(315, 0, 0), R(6, 300, 0), R(3, 300, 2)),
    case("outputs_written", "500 to 515: FF or 00 and time 1 to 255, one a write; read as state and remaining time",
         R(6, 500, 0xFF01), R(6, 501, 0x00FF), W(515, 0xFF02), R(3, 500, 16), R(6, 500, 0xFF00), R(6, 500, 0x0000), R(6, 500, 0x0101),
         R(6, 500, 0xFE01), R(6, 500, 0x8001), W(500, 0xFF01, 0xFF01), R(6, 499, 1), R(6, 516, 1), W(499, 1), W(516, 1), S(0x20, 0x83), R(3, 500, 3), R(3, 515, 1)),
    case("outputs_held", "500 to 515: 12 after 11",
         S(0x1A, *group(1, 0x81, 300, 200)), R(6, 500, 0xFF01), R(6, 500, 0xFF00), R(6, 500, 0x0101), W(500, 1), R(6, 501, 0xFF01), T(300), R(6, 500, 0xFF01),
         R(3, 500, 2), T(301), R(6, 500, 1), R(3, 500, 2)),
    case("thermostat_written", "600 up: four aligned registers by 10H; flags, TEMPx, TEMPy, TIME and ERR as by 1AH",
         W(600, 0x81, 300, 65486, 0x0502), R(3, 600, 4), S(0x1B, 1), W(660, 0xF1, 65535, 65534, 0xFF01), S(0x1B, 16), R(3, 660, 4), W(604, 0x7F, 1, 2, 0x0001), S(0x1B, 2),
         S(0x38, 1, 16)),
    case("thermostat_values", "600 up: flags with a high byte, another sensor, TEMPx below TEMPy, TIME 0 for SS 10, ERR 3: 11",
         W(600, 0x0181, 300, 200, 0), W(600, 0x80, 300, 200, 0), W(600, 0x81, 200, 201, 0), W(600, 0x81, 65535, 0, 0), W(600, 0xC1, 300, 200, 0), W(600, 0x81, 300, 200, 3),
         W(600, 0x01, 300, 200, 0x0003), W(600, 0x0101, 0, 0, 0), S(0x1B, 1), W(600, 0xC1, 300, 300, 0x0100), W(600, 0x81, 0, 65535, 2), S(0x1B, 1)),
    typed("bands_written", "600 up with the third S (E6): SS 00 and 01 with either K, TIME 0 or not; the same outputs turn, and 38H shows it", "fresh_module",
          *[e for r, f, k in ((600, 0x89, 1), (604, 0x99, 2), (656, 0xA9, 15), (660, 0xB9, 16)) for e in ((W(r, f, 300, 200, 0), modbus_ack(0x10, *words(r, 4))), (R(3, r, 4), shown(f, 300, 200, 0)),
            (S(0x1B, k), ack(*group(k, f, 300, 200))))],
          (S(0x38, 1, 2, 15, 16), ack(0xA8, 0xA9, 0xAA, 0xAB)), (R(5, 0, 0xFF00), modbus_nack(12, 5, 4)),
          *[e for tenths, on in ((200, 3), (199, 0xC000), (300, 3), (301, 0xC000)) for e in ((T(tenths), QUIET), (R(1, 0, 16), modbus_ack(1, 2, on % 256, on // 256)))],
          (W(600, 0xA9, 65526, 65526, 0xFF02), modbus_ack(0x10, *words(600, 4))), (R(3, 600, 4), shown(0xA9, 65526, 65526, 0xFF02)), (T(-10), QUIET), (R(1, 0, 1), modbus_ack(1, 1, 0)),
          (FAULT, QUIET), (R(1, 0, 1), modbus_ack(1, 1, 1)), (T(-11), QUIET), (R(1, 0, 1), modbus_ack(1, 1, 1))),
    typed("bands_not_written", "600 up (E6): 11 for SS 10 and 11, another sensor, TEMPx below TEMPy, ERR 3, a high byte; 8 and 9 come before", "fresh_module",
          (W(600, 0x91, 300, 200, 0x0301), modbus_ack(0x10, *words(600, 4))),
          *[(W(600, f, 300, 200, t), modbus_nack(11, 0x10, 3)) for f in (0xC9, 0xD9, 0xE9, 0xF9) for t in (0, 0x0100, 0xFF00)],
          *[(W(600, f, 300, 200, 0x0100), modbus_nack(11, 0x10, 3)) for f in (0x88, 0x8A, 0x8B, 0x8D, 0x8F, 0xA8, 0xAA, 0xAF, 0x80, 0x82, 0x83, 0x85, 0x87, 0xC8)],
          *[(W(600, f, 300, 200, 0x0100), modbus_nack(11, 0x10, 3)) for f in (0x0189, 0x0889, 0x8089, 0x01A9, 0x0109, 0x080F, 0x0801, 0xFF7F)],
          (W(600, 0x89, 200, 201, 0), modbus_nack(11, 0x10, 3)), (W(600, 0xA9, 65535, 0, 0), modbus_nack(11, 0x10, 3)), (W(600, 0x89, 300, 200, 3), modbus_nack(11, 0x10, 3)),
          (W(600, 0x09, 300, 200, 3), modbus_nack(11, 0x10, 3)), (M(0x10, *words(600, 4), 7, *words(0xC9, 300, 200), 1), modbus_nack(8, 0x10, 3)), (W(601, 0xC9, 300, 200, 0x0100), modbus_nack(9, 0x10, 2)),
          (W(600, 0xC9, 300, 200), modbus_nack(9, 0x10, 2)), (R(6, 600, 0x89), modbus_nack(9, 6, 2)), (R(3, 600, 4), shown(0x91, 300, 200, 0x0301)), (S(0x1B, 1), ack(*group(1, 0x91, 300, 200, 3, 1)))),
    typed("bands_written_idle", "600 up with F = 0 (E6): the third S is stored beside any SS, sensor, limits and TIME, and shown; nothing turns", "fresh_module",
          *[e for f in (0x7F, 0x0F, 0x68, 0x78, 0x48, 0x08, 0x49, 0x79) for e in ((W(604, f, 65336, 300, 2), modbus_ack(0x10, *words(604, 4))), (R(3, 604, 4), shown(f, 65336, 300, 2)),
            (S(0x1B, 2), ack(*group(2, f, -200, 300, 0, 2))))],
          (S(0x38, 2), ack(0)), (T(250), QUIET), (FAULT, QUIET), (R(1, 0, 16), modbus_ack(1, 2, 0, 0)), (R(5, 1, 0xFF00), modbus_ack(5, *words(1, 0xFF00))), (T(301), QUIET),
          (R(1, 0, 16), modbus_ack(1, 2, 2, 0))),
    case("actions_written", "600 up: every SS and K with F = 1, with the third S and without; F = 0 with anything; a reset by register 1 keeps them",
         *[four(k, f, *LIMITS[k % 4], t, k % 3) for k, (f, t) in enumerate([(f, t) for _ in (0, 1) for f, t in zip((*FOUR, 0x81, 0x91, 0xA1, 0xB1), (0, 1, 255, 0, 1, 0, 0, 255))], 1)], S(0x1B),
         *[four(k, f, *LIMITS[(k + 1) % 4], 1 + k, k % 3) for k, f in enumerate((0xC1, 0xD1, 0xE1, 0xF1), 1)],
         *[four(k, k * 19 % 128, *IDLE_LIMITS[k % 4], (0, 1, 255)[k % 3], k // 2 % 3) for k in range(5, 17)], S(0x1B), R(6, 0, 255), R(6, 1, 0x31), S(0x1B),
         *[four(k, (k * 37 + 9) % 128, *IDLE_LIMITS[k // 4 % 4], (0, 1, 255)[k % 3], k % 3) for k in range(1, 17)], S(0x1B)),
    case("actions_not_written", "600 up: each reason of 11 beside each ERR, several limits and TIMEs", *[four(1, f, *lim, t, e) for f, lim, t, e in UNFIT[::2] + UNFIT[1:36:4]], S(0x1B, 1)),
    case("bands_written_quiet", "600 up with the third S (E6) turns nothing and ends no pulse: before a reading, beyond the band, at a fault, within",
         *[c for reading in ([], [T(301)], [FAULT], [T(250)]) for c in (*reading, *[four(k, FOUR[k % 4] & 0x7F, 300, 200) for k in range(5, 9)], S(0x23, 2, 0x85, 6, 7, 0x88),
           *[four(k, FOUR[k % 4], 300, 200, k % 2, 2 - k % 2) for k in range(5, 9)], S(0x33, 5, 6, 7, 8))]),
    case("heat_or_link_written", "14 (E8), exception 04: 600 up with F = 1 for an output with a link; F = 0 is stored; its neighbours are free; the same answers as by 1AH",
         S(0x40, 1, 2, 1, 2, 16, 4, 3, 7, 2), *[four(k, 0x81, 300, 200) for k in (2, 16, 7, 1, 3, 6, 8, 15)],
         *[four(k, f, 300, 200, 1) for k, f in ((2, 0xC1), (16, 0x89), (2, 0xB9), (16, 0x91))],
         four(2, 0x01, 300, 200), four(16, 0x7F, -200, 300), R(3, 600, 4), R(3, 604, 4), R(3, 660, 4), T(301), R(1, 0, 16), S(0x40, 1, 2, 0),
         four(2, 0x81, 300, 200), four(16, 0x81, 300, 200), S(0x1B, 2, 16), S(0x41, 2, 16)),
    case("heat_or_link_written_order", "8, 9 and 11 come before 14 (E8): another length, another count, misaligned, another sensor, limits, a TIME, ERR, a high byte; nothing is stored",
         S(0x40, 1, 2, 1), M(0x10, *words(604, 4), 7, *words(0x81, 300, 200), 1), W(605, 0x81, 300, 200, 0), W(604, 0x81, 300, 200), R(6, 604, 0x81),
         four(2, 0x82, 300, 200), four(2, 0x81, 200, 201),
         four(2, 0xC1, 300, 200), four(2, 0xC9, 300, 200, 1), four(2, 0x81, 300, 200, 0, 3), W(604, 0x0181, 300, 200, 0), four(2, 0x81, 300, 200),
         W(604, 0x81, 300, 200, 0, a=0), R(3, 604, 4)),
    case("thermostat_range", "600 up: 06, another count, misaligned, beside the group: 9",
         R(6, 600, 0x81), R(6, 604, 0), R(6, 663, 0), W(600, 0, 0, 0), W(600, 0, 0, 0, 0, 0), W(600, *[0] * 8), W(601, 0, 0, 0, 0), W(602, 0, 0, 0, 0), W(599, 0, 0, 0, 0),
         W(596, 0, 0, 0, 0), W(661, 0, 0, 0, 0), W(664, 0, 0, 0, 0), R(6, 599, 0), R(6, 664, 0), S(0x1B, 1, 16)),
    case("write_nowhere", "06 and 10H between the groups: 9",
         *[c for r in (3, 50, 99, 116, 150, 199, 216, 250, 299, 316, 400, 499, 516, 599, 664, 65535) for c in (R(6, r, 0), W(r, 0))]),
    case("write_lengths", "06 and 10H: four bytes; a quantity from 1 on, the byte count and so many bytes; else 8, before 9 and 10",
         M(6), M(6, 1, 44, 0), M(6, 1, 44, 0, 1, 0), M(0x10, *words(300, 1)), M(0x10, *words(300, 0), 0), M(0x10, *words(300, 1), 1, 0), M(0x10, *words(300, 1), 3, 0, 1),
         M(0x10, *words(300, 1), 1, 0, 1),
         M(0x10, *words(300, 1), 2, 0), M(0x10, *words(300, 1), 2, 0, 1, 0), M(0x10, *words(300, 2), 2, 0, 1), M(0x10, *words(300, 1), 2, 0, 1, 0, 1), M(0x10, *words(1, 0), 0),
         W(300, *[0] * 123), M(0x10, *words(300, 124), 248, *[0] * 247), M(0x10, *words(300, 0x0101), 2, 0, 1), R(3, 300, 2)),
    case("echoes", "06 is answered by the request, 10H by start and quantity",
         R(6, 300, 1), W(300, 1, 2), R(6, 200, 0), W(200, 0, 0, 0), R(6, 0, 0xFF), W(1, 0x31, 6)),
]

# Coils and inputs over Modbus -----------------------------------------------------------------

COILS = [
    case("read_coils", "01: 1 to 2,000 of the sixteen, from any coil; the lowest first, eight to a byte, spare bits 0",
         S(0x20, 0x81, 0x83, 0x89, 0x90), R(1, 0, 16), R(1, 0, 1), R(1, 1, 1), R(1, 0, 8), R(1, 0, 9), R(1, 2, 8), R(1, 8, 8), R(1, 15, 1), R(1, 7, 9), R(1, 3, 7)),
    case("read_coil_limits", "01 and 02: 9 past coil 15, 8 for quantity 0, 2,001 and another length",
         *[c for f in (1, 2) for c in (R(f, 0, 17), R(f, 15, 2), R(f, 16, 1), R(f, 0, 2000), R(f, 0, 2001), R(f, 0, 0), R(f, 16, 0), R(f, 65535, 1), R(f, 65535, 2), M(f), M(f, 0, 0, 0),
           M(f, 0, 0, 1), M(f, 0, 0, 0, 1, 0))]),
    case("read_inputs", "02: the stable states",
         S(0x62, 1), samples(0x8105), R(2, 0, 16), R(2, 0, 1), R(2, 1, 2), R(2, 8, 8), R(2, 15, 1), S(0x62, 2), samples(0), R(2, 0, 16)),
    case("coil_written", "05: FF00 or 0000, else 11; coils 0 and 15; 9 past them, before 11; another length 8; it ends a pulse",
         S(0x23, 9, 0x81), R(5, 0, 0xFF00), R(3, 500, 1), R(5, 15, 0xFF00), R(1, 0, 16), R(5, 15, 0), R(1, 0, 16), *[R(5, 1, v) for v in (0xFF01, 0x00FF, 1, 0xFE00, 0x0100, 0xFFFF)],
         R(5, 16, 0xFF00), R(5, 16, 1), R(5, 65535, 0), M(5), M(5, 0, 0, 0xFF), M(5, 0, 0, 0xFF, 0, 0), R(1, 0, 16)),
    case("coils_written", "0F: bits lowest first, a second byte, spare bits ignored; start and quantity come back; it ends pulses",
         S(0x23, 9, 0x83), C(2, 10, 0x55, 0xFF), R(1, 0, 16), R(3, 502, 1), C(0, 16, 0x01, 0x80), R(1, 0, 16), C(15, 1, 0xFE), R(1, 0, 16), C(0, 3, 0xFF), R(1, 0, 16), C(8, 8, 0x81),
         R(1, 0, 16), C(0, 8, 0), C(7, 2, 0x02), R(1, 0, 16)),
    case("coils_limits", "0F: quantity 1 to 1,968, its byte count and so many bytes, else 8; 9 past coil 15",
         C(0, 17, 0, 0, 0), C(15, 2, 3), C(16, 1, 1), C(65535, 2, 3), C(0, 1968, *[0] * 246), C(0, 1969, *[0] * 247), C(0, 0), C(0, 9, 1), C(0, 8, 1, 1), M(0x0F, *words(0, 8), 2, 1),
         M(0x0F, *words(0, 8), 0, 1),
         M(0x0F, *words(0, 8), 1), M(0x0F, *words(0, 8), 1, 1, 1), M(0x0F, *words(0, 8)), M(0x0F), C(16, 0), R(1, 0, 16)),
    case("coils_held", "05 and 0F: 12 where a thermostat holds one, after 11, and none of the write is set",
         S(0x1A, *group(3, 0x81, 300, 200)), R(5, 2, 0xFF00), R(5, 2, 1), R(5, 3, 0xFF00), C(0, 4, 0xFF), C(0, 3, 0xFF), C(2, 1, 0), C(0, 2, 1), R(1, 0, 16), T(200), C(0, 4, 0xFF),
         R(1, 0, 16), T(199), R(5, 2, 0), R(1, 0, 16)),
]

# The text format (E2) --------------------------------------------------------------------------

def replied(number, text):
    """An answer in text."""
    return number, list(("*B" + text + "\r").encode("latin-1"))


def moved(address, speed=6, of=0x31):
    """The Spinel port's address, in two binary requests."""
    return [S(0xE4, a=of), S(0xE0, address, speed, a=of)]


# a 61H of twelve items to address 53H, which has AS where a text has its code
LIKE_TEXT = D(*[(k, 0) for k in range(1, 13)], a=0x53)


def between(texts, before, after):
    """Texts, each behind one call and before another."""
    return [c for text in texts for c in (before, text, after)]


TEXTS = [
    case("text_lengths", "2: a text of under 5 or over 32 bytes, before 3 and 5; one of 5 or 32 is judged",
         raw("spinel", 0x2A, 0x42), B(""), B("E", end=""), B("E"), B("OS" + "1" * 26), B("OS" + "1" * 27), B("x" * 28, "2"), B("x" * 29, "2"),
         B("x" * 29, end=""), B("x" * 30, end=""), B("x" * 252)),
    case("text_room", "1: a buffer of 255 or 0 bytes, before 2; the permission and all else stay",
         B("E"), B("OS1H", room=255), B("AS5", room=255), B("", room=0), B("AS5"), B("OR1", "5")),
    case("text_ends", "3: another last byte than the carriage return, before 5 and 6; one before the last is a character that nothing allows",
         [B("OS1H", end=end) for end in ("", "\n", "\x0c", "\x0e", "\r\n")], B("OS1H", "2", end="."), B("IX", "%", end="\n"),
         texts("OS1H\r", "E\r", "IX\n", "\rE"), S(0x30)),
    case("text_prefix", "only 2A 42 begins a text; with another byte the frame is judged as before: 2 under 9 bytes, 3 from there on",
         [raw("spinel", *(start + "1OT001H001\r").encode("latin-1")) for start in ("*A", "*C", "*b", "*a", "+B", ")B", " *B")], raw("spinel", *b"*b1OS1H\r"),
         raw("spinel", *b"+B1OS1H\r"), S(0x30)),
    case("text_for_binary", "a binary frame with 42H in the place of 61H and a right SUM: a text to address 00; the own address 00 takes it, 7",
         raw("spinel", 0x2A, 0x42, 0, 5, 0x31, 2, 0x30, 0x2B, 0x0D), moved(0), raw("spinel", 0x2A, 0x42, 0, 5, 0, 2, 0xE3, 0xA9, 0x0D), S(0xF0, a=0)),
    case("text_no_sum", "there is no 4 with SUM tested or not (E5); 3 and 5 stay, and no text turns the test",
         UNTESTED, B("OS1H"), B("OS1H", end="\n"), B("OS1H", "2"), X(0x30)),
    case("text_address", "5: an address beside the own one, FE and FF too; $ is answered from the own address, also where refused",
         [B("OS1H", a) for a in ("0", "2", "\xfe", "\xff", "#", "&")], S(0x30), texts("OS1H", "OR1", "x", "IR", "IR17", a="$")),
    case("text_own_address", "own addresses of any byte: f and not F, the carriage return; replies have it too",
         moved(0x66), B("IX", "F"), B("IX", "f"), B("IX"), moved(0x0D, of=0x66), B("IX", "\r"), B("\r", "\r"), B("OR1", "$"),
         texts("E", "SS7", a="\r"), S(0xF0, a=0x0D)),
    case("text_own_universal", "own address 24H: $ is the universal one all the same, 10 for E and AS, also with a permission by E4H",
         moved(0x24), texts("IX", "E", a="$"), S(0xE4, a=0x24), texts("AS5", "OS1H", a="$"), B("IX"), S(0x30, a=0x24)),
    case("text_own_broadcast", "own address 25H: % is for all, 6 for all but OS, OT and OST, and no reply; $ is answered from it",
         moved(0x25), texts("IX", "OS1H", "OS0H", a="%"), B("OR1", "$"), S(0x30, a=0x25)),
    case("text_to_all", "to % OS, OT and OST are served without a reply, refused or not: 8, 11",
         texts("OS1H", "OT2H3", "OST16H255", "OST3L1", a="%"), S(0x33, 1, 2, 3, 16), texts("OS17L", "OS1", "OT1L0", "OT", "OST1L", "OST1L256", a="%"),
         S(0x33, 1, 2, 3, 16)),
    case("text_to_all_others", "6 for all else to %, no code and lower case too; ORT begins with OR; nothing changes, and the permission stays",
         B("E"), texts("IR1", "OR1", "ORT1H5", "RT1", "IS1", "IX", "E", "AS5", "SS7", "AS", "os1H", "O", " OS1H", "x", a="%"), B("AS6"), S(0x11, a=0x36),
         S(0x30, a=0x36)),
    case("text_codes", "7, ACK 2: codes in lower case, a part of one, none, and codes of the sources that are left out; before 8",
         texts("ir1", "Or1", "oS1H", "ot1H1", "rt1", "iS1", "ix", "e", "As5", "sS7", "I", "O1H", "S7", "A5", "R1", "1", " IX", "TR1", "CR15", "?")),
    case("text_inputs", "IR: an input by its stable state, H or L; zeros may stand before its number",
         S(0x62, 2), samples(0x9A35), B("IR1"), samples(0x9A35), texts("IR: 1 2 3 8 9 10 12 15 16 001 02 016"), B("IR14", "$"), samples(0), B("IR1"),
         samples(0), B("IR1")),
    case("text_inputs_refused", "IR: 0 and over 16, in one to three digits: 11; no number, four digits, another character: 8",
         texts("IR: 0 000 17 99 101 256 257 999"), [B("IR" + t) for t in ("", "0001", "H", "1H", "+1", " 1", "1 ", "/", ":", "1:")]),
    case("text_outputs", "OR: an output's state, H or L, during a pulse that of the pulse",
         S(0x20, 0x81, 0x83, 0x85, 0x86, 0x8A, 0x8C, 0x8D, 0x90), texts("OR: 1 2 8 9 10 12 15 16 016"), S(0x23, 1, 0x82, 3), texts("OR: 2 3"), P(0, 500),
         B("OR2")),
    case("text_outputs_refused", "OR: the same limits; ORT is OR with a T: 8",
         texts("OR: 0 17 256 999 0001 1H 1:", "OR", "ORT3")),
    case("text_set", "OS: the output named, on or off, and no other; 30H shows it",
         [c for text in ("1H", "16H", "010H", "1L", "016L") for c in (B("OS" + text), S(0x30))], texts("OS: 2H 3H 7H 8H 9H 12H 15H"), S(0x30),
         B("OS2L", "$"), S(0x30), S(0x31)),
    case("text_set_refused", "OS: 0 and over 16: 11; no number or state, another state, more behind it, four digits: 8, before 11; nothing is set",
         S(0x20, 0x81, 0x82), texts("OS: 0H 000L 17L 17H 257L 258L 272H 999L", "OS: 1 1h 1l 1G 1K 1LL 1LH 1L1 L 0001L 0h 17X"),
         [B("OS" + t) for t in ("", "1 L", "1L ", " 1L")], S(0x30)),
    case("text_set_ends_pulses", "OS ends a pulse, to the state it has and to the other; the pulses of others go on",
         S(0x23, 1, 0x81, 0x82, 3, 4, 0x85), texts("OS: 1H 2L 3L 4H"), S(0x33, 1, 2, 3, 4, 5), P(0, 500), S(0x33, 1, 2, 3, 4, 5)),
    case("text_pulse", "OT and OST alike: an on and an off pulse; its state meanwhile; after 500 samples for each half second the opposite",
         texts("OT1H2", "OT2L2", "OST3H1", "OST4L1"), S(0x33, 1, 2, 3, 4, 5), P(0, 499), S(0x33, 1, 2, 3, 4), P(0), S(0x33, 1, 2, 3, 4), P(0, 499),
         S(0x33, 1, 2), P(0), S(0x33, 1, 2)),
    case("text_pulse_times", "times 1 to 255, zeros before them, outputs 1 and 16; one begun anew; a set ends one",
         texts("OT: 1H255 16H1 02H020 003L003", "OST: 8H254 9L010 010L100"), S(0x33, 1, 2, 3, 8, 9, 10, 16), P(0, 300), B("OT16H1"), P(0, 499),
         S(0x33, 16, 1), P(0), S(0x33, 16), B("OST1L2", "$"), S(0x33, 1), B("OS1L"), S(0x33, 1)),
    case("text_pulse_refused",
         "OT and OST: output 0 or over 16, time 0 or over 255: 11; anything lacking or over, four digits: 8, before 11; no pulse begins",
         texts("OT: 0H1 17L1 257H1 1H0 1H000 1H256 1H257 1L999 0H0", "OT: 1H H1 1H0001 0001H1 1h1 1G1 1K1 11 1H1x 1HL1 0h0 17H", "OST: 0H1 17H1 1H0 1H256",
         "OST: 1H 1H0001 1h1 1H1H 0H"),
         texts("OT", "OT1H 1", "OT1H1 ", "OST", "OTS1H1", "OSTT1H1"), S(0x30)),
    case("text_longest", "slip: the shortest code, or the first that fits. OST is neither OS with a T nor OT; OS takes no time, OST no less",
         texts("OST1H", "OS1H", "OS1L2", "OST1L2", "OS1L", "OT1L2"), S(0x33, 1)),
    case("text_held", "12, after 8 and 11: OS, OT and OST, H or L, to $ and to %, of a held output; others and F = 0 are free",
         S(0x1A, *group(1, 0x81, 300, 200), *group(16, 0xA9, 300, 200), *group(2, 0x01, 300, 200)),
         texts("OS: 1H 1L 016H 2H", "OT: 1H1 2H9", "OST: 16L255 3H9"), B("OT1L1", "$"), texts("OS1H", "OT1H1", "OST1L1", "OS4H", a="%"),
         texts("OT: 1H0 1H", "OS: 17H 1"), S(0x33, 1, 2, 3, 4, 16), T(200), texts("OS1H", "OST16H3"), T(199), B("OS1L"), T(301), B("OT1H3"), FAULT,
         B("OS1L"), T(250), FAULT, texts("OS1L", "OT1H3", "OST16H3"), S(0x33, 1, 16)),
    case("text_temperature", "RT: a sign, + for 0 too, three digits, a point, the tenth, C: the ends, on both sides of each power of ten; zeros before the 1",
         [c for t in (0, 1, -1, 9, 10, -99, 100, 291, -305, 999, -1000, 2000) for c in (T(t), B("RT1"))], texts("RT: 01 001"), B("RT1", "$")),
    case("text_temperature_refused", "RT: 0 and 2 up: 11, also at a fault; no number, four digits, another character: 8; TR is no code: 7",
         B("RT2"), T(-5), texts("RT: 0 2 10 11 101 257 0001 1C x", "RT", "RT 1", "TR1", "ORT1")),
    case("text_fault", "RT at a fault: number 0, ACK 5, no data; the reading before is not shown; it uses the permission up",
         B("RT1"), B("RT1", "$"), *[c for fault in (FAULT, T(2001), T(-1001)) for c in (T(313), fault, B("RT1"))], B("E"), B("RT1"), B("AS5")),
    case("text_notice_on", "IS1: 11H reads 42H and mask FFFF, IX B; on again by either format: 11; IS0 and 10H 00 turn it off, the mask is 0 then",
         B("IX"), B("IS1"), B("IX"), S(0x11), B("IS1"), S(0x10, 1), S(0x10, 1, 0, 1), S(0x11), B("IS0"), B("IX"), S(0x11), B("IS0"), B("IS1", "$"),
         S(0x10, 0), B("IX"), S(0x11)),
    case("text_notice_either", "on by 10H: IX a; IS1 is 11 and leaves format, mask and signature; IS0 turns it off; IS1 then has the full mask",
         S(0x62, 1), S(0x10, 1, 0, 2, s=9), B("IX"), B("IS1"), B("IX"), S(0x11), samples(1, 3), B("IS0"), S(0x11), B("IX"), samples(0), B("IS1"), S(0x11),
         samples(1), S(0x10, 0), samples(0)),
    case("text_notice_refused", "IS: no digit, another one, a letter, two digits: 8, off or on; IX with a character: 8",
         texts("IS", "IS2", "IS/", "ISH", "IS01", "IS1 ", "IX1"), S(0x11), texts("IS1", "IS2", "IS00", "IX0"), S(0x11)),
    case("text_notices", "25 bytes: *B, address, D, H or L for inputs 1 to 16, a blank before 1, 6, 11 and 16, carriage return; one input alone, many, none",
         S(0x62, 1), B("IS1"), samples(1, 0x10, 0x20, 0x200, 0x400, 0x4000, 0x8000, 0, 0xFFFF, 0x7BDE, 0xA5C3, 0xA5C3)),
    case("text_notice_edges",
         "an edge of any input, whatever its mode, and none without one: with number 20 the 20th sample; a refused sample writes nothing",
         S(0x6A, 1, 1, 2, 2, 3, 3), B("IS1"), P(15, 19), samples(15), P(15, 25), S(0x62, 1), P(0, room=255), samples(0, 8, 12), B("IS0"), samples(1)),
    case("text_notice_after_pulses", "in one sample the counter counts, the pulse ends and the notice is written, which shows no outputs",
         S(0x6A, 2, 1), S(0x62, 1), B("IS1"), B("OT16H1"), P(0, 499), samples(2), S(0x60, 2), S(0x30)),
    case("text_notice_kept", "a reset keeps it: E3H, AS, SS, registers; it has the Spinel port's address, the new one after AS",
         S(0x62, 1), B("IS1"), S(0xE3), B("IX"), samples(1), texts("E", "AS7"), samples(0), texts("IX", "E", "SSA", a="7"), samples(2), R(6, 0, 0xFF),
         R(6, 1, 5), samples(3), S(0x11, a=0x37)),
    case("text_notice_signature", "a notice by 10H after one in text: format 97, its own mask and signature",
         S(0x62, 1), S(0x10, 1, s=9), samples(1), S(0x10, 0, s=8), B("IS1"), samples(0), S(0x10, 1, s=6), B("IS0"), S(0x10, 1, 0, 2, s=7), samples(1, 3)),
    case("text_permission", "given by E for E0H, EEH, AS or SS, given by E4H for AS or SS; for one request, also when given twice",
         texts("AS5", "SS5", "E"), S(0xE0, 0x31, 7), S(0xE0, 0x31, 8), S(0xF0), B("E"), S(0xEE, 0), S(0xEE, 1), S(0xFE), S(0xE4), texts("SS9", "SS8"),
         S(0xF0), texts("E", "AS2"), texts("AS3", "E", "E", a="2"),
         S(0xE0, 0x31, 6, a=0x32), S(0xE4), texts("E", "SS8", "SS9"), S(0xF0)),
    case("text_permission_used", "any text that passes 1 to 6 uses it up: accepted, 7, 8, 11, 12, 10 to $, to all",
         S(0x1A, *group(16, 0x81, 300, 200)), between(texts("IX", "OS1H", "x", "IX1", "IR0", "OS16H"), B("E"), B("AS5")),
         between([*texts("OS1H", "OT1H0", a="%"), *texts("IX", "E", "AS5", a="$")], S(0xE4), S(0xE0, 0x32, 7)), S(0xF0)),
    case("text_permission_binary", "a binary request uses up what E gave, accepted or refused; one refused by 4 does not",
         between([S(0x30), S(0x99), S(0x20, 0x81, a=0xFF), S(0xE4, a=0xFE)], B("E"), B("AS5")), B("E"), X(0x30), B("SS5"), S(0xF0)),
    case("text_permission_kept", "not by texts that 2, 3, 5 or 6 refuse, nor by samples, the thermometer and the other port",
         B("E"), B(""), B("x" * 30), B("IX", end="\n"), B("IX", "2"), B("E", "\xfe"), texts("IX", "AS7", a="%"), P(1), T(1), R(6, 0, 0xFF), S(0x30, a=0x32),
         B("AS3"), S(0xF0, a=0x33)),
    case("text_permission_ports", "E is none for the Modbus port, register 0 none for SS; a reset by the other port and E3H end what E gave",
         B("E"), R(6, 1, 5), B("SS5"), R(6, 0, 0xFF), B("SS6"), R(6, 0, 0xFF), B("E"), R(6, 2, 6), B("AS5"), B("E"), S(0xE3), B("AS5")),
    case("text_by_length",
         "slip: a code read without its prefix. A 1AH of eight groups has an E in its fourth byte and permits nothing; a 61H of twelve items to S has AS",
         S(0x1A, *[b for k in range(1, 9) for b in group(k, 0, 0, 0)]), S(0xE0, 0x31, 6), moved(0x53), B("OS1H", "S"), B("E", "S"), LIKE_TEXT,
         S(0xF0, a=0x53), B("OR1", "S")),
    case("text_universal", "to $ 10, ACK 4, for E, AS and SS, after 8, with the permission too, by either code; nothing changes",
         texts("E", "AS5", "E1", "AS", "SSC", a="$"), B("E"), B("AS5", "$"), S(0xE4), B("SS7", "$"), S(0xEE, 0), S(0xF0)),
    case("text_no_permission", "10 for AS and SS without it, also to what they have; E with a character behind it: 8, and no permission",
         texts("AS5", "AS1", "SS6", "E1", "EE", "AS5")),
    case("text_set_address", "AS: a digit, a capital, a small letter; the old address answers, then the new one; the speed stays",
         texts("E", "SS7", "E", "AS0"), [c for old, new in zip("0AZaz", "AZaz9") for c in (B("E", old), B("AS" + new, old), S(0xF0, a=ord(new)))],
         B("IX", "z"), B("IX", "0")),
    case("text_set_address_refused", "AS: none, two, another character: 8, before 10, and with the permission, which it ends",
         [B("AS" + t) for t in ("", "55", " 5", "/", ":", "@", "[", "`", "{", "$", "%", "\xb5")], B("E"), B("AS-"), B("AS5"), S(0xF0)),
    case("text_set_speed", "SS: 0 to 9, A, B are the speed codes 0 to 11; the address stays, and AS keeps the speed",
         [c for code in "0123456789AB" for c in (B("E"), B("SS" + code), S(0xF0))], B("E"), B("AS2"), S(0xF0, a=0x32)),
    case("text_set_speed_refused", "SS: none, two, another character, a and b: 8, before 10, and with the permission, which it ends",
         [B("SS" + t) for t in ("", "C", "a", "b", "/", ":", "@", "10", "07", "7 ", "\x07")], B("E"), B("SSC"), B("SS5"), S(0xF0)),
    case("text_resets", "AS resets as E0H does: counters, runs, outputs and pulses, both permissions; all else stays, and the notice has the new address",
         FULL, R(6, 0, 0xFF), B("E"), B("AS2"), R(6, 1, 0x31), [S(*c[3:4], *c[4], a=0x32) for c in SHOWN], LATER),
    case("text_leaves_all",
         "texts refused by every number but 12, and those that read or permit, leave all else alone; IS0, OS, OT change their own; SS resets",
         FULL, B("OS1L", room=255), B(""), B("OS1L", end=""), B("OS1L", "2"), texts("IS0", "AS5", a="%"),
         texts("os1L", "OS1", "OS01L0", "OS17L", "OT1L0", "IS1", "IS2", "RT0", "AS5", "SS7"), texts("AS5", "SS7", a="$"), B("OST1L", "%"),
         texts("IR1", "OR1", "RT1", "IX", "E"), SHOWN, texts("IS0", "OS3H", "OT4L9"), S(0x33, 1, 2, 3, 4), S(0x11), S(0x10, 1, 0, 7, s=5), R(6, 0, 0xFF),
         S(0xE4), B("SS6"), R(6, 1, 0x31), SHOWN, LATER),
    case("text_resets_same", "AS and SS to what is set already reset too; refused ones do not",
         COUNT3, texts("OT1H9", "AS1", "SS6"), S(0x60, 1), S(0x33, 1), texts("E", "AS1"), S(0x60, 1), S(0x33, 1), samples(0), texts("OS1H", "E", "SS6"),
         S(0x60, 1), S(0x30)),
    case("text_and_binary", "both formats and both ports in turn: what one sets the others show",
         S(0x62, 1), samples(5), texts("IR: 1 2"), S(0x20, 0x82), B("OR2"), B("OS1H"), S(0x30), S(0x23, 4, 0x83), B("OR3"), R(5, 4, 0xFF00), B("OR5"),
         B("OST5L255"), R(3, 504, 1)),
    case("text_links", "OS, OT and OST move a linked output (E8), OR shows what its link did, and a text notice the inputs; no text changes a link",
         S(0x62, 1), S(0x40, 1, 1, 1, 1, 2, 2), B("IS1"), P(1), texts("OR: 1 2", "OS1L", "OS2H", "OR: 1 2"), P(0),
         texts("OR: 1 2", "OST1H1", "OT2L1"), S(0x33, 1, 2), P(1), S(0x33, 1, 2), B("OS1L", "%"), B("OR1"),
         texts("IS0", "IR1", "RT1", "IX"), S(0x41, 1, 2), P(0), texts("OR: 1 2")),
    typed("text_own_fe", "an own address FE, which no run reaches: in text it is an address like any other", state("spinel", "port 0xFE 6 false"),
          (B("E", "\xfe"), replied(0, "\xfe0")), (B("AS1", "\xfe"), replied(0, "\xfe0")), (B("IX"), replied(0, "100"))),
    typed("text_own_ff", "an own address FF, the same: it is answered", state("spinel", "port 0xFF 6 false"),
          (B("IX", "\xff"), replied(0, "\xff00")), (B("IX", "%"), (6, [])), (B("OR1", "$"), replied(0, "\xff0L"))),
    typed("text_off_with_mask", "a notice that is off and has a mask, which no run reaches: IX is 0, and IS1 turns it on with all inputs",
         state("notice", "notice 0 0x0001 0x05"),
          (B("IX"), replied(0, "100")), (B("IS1"), replied(0, "10")), (S(0x11), ack(0x42, 0xFF, 0xFF))),
]

# Links (E8) ------------------------------------------------------------------------------------

def L(*links, **at):
    """40H: links, each an input, an output and an action."""
    return S(0x40, *[b for link in links for b in link], **at)


def watched(*bits):
    """Samples, 30H after each."""
    return [c for b in bits for c in (P(b), S(0x30))]


def ends(*bits):
    """The same on output 1, 33H after each."""
    return [c for b in bits for c in (P(b), S(0x33, 1))]


def switched_all(on):
    """0F: all sixteen outputs off or on."""
    return C(0, 16, *[0xFF * on] * 2)


def from_both(*bits):
    """Each sample behind its opposite, so that every input has an edge, from where all outputs are off and from where all are on."""
    return [c for b in bits for on in (0, 1) for c in (P(b ^ 0xFFFF), switched_all(on), P(b), S(0x30))]


def all_links(input_of, action_of=lambda k: 1):
    """40H for all sixteen outputs, in two lists."""
    return [L(*[(input_of(k), k, action_of(k)) for k in ks]) for ks in (range(1, 9), range(9, 17))]


SINGLY = [1 << k for k in range(16)]
# outputs 1 to 4 by each action of input 1, and 5 to 8, 9 to 12 likewise
FOURFOLD = [L(*[(1, k, (k - 1) % 4 + 1) for k in range(1, 13)])]
ACTIVE = group(1, 0x81, 300, 200)[1:]  # a thermostat with F = 1, without its output
IDLE = group(1, 0x01, 300, 200)[1:]


def heat(*outputs, of=ACTIVE, **at):
    """1AH: the same thermostat for each of these outputs."""
    return S(0x1A, *[b for k in outputs for b in (k, *of)], **at)


LINKS = [
    case("links_fresh", "41H: fresh there is none; 1 to 12 outputs in the order asked, 00 alone is all; none, 13: 8; 17, 0 among several: 11",
         S(0x41, 0), S(0x41, 1), S(0x41, 16, 1), S(0x41, *range(5, 17)), S(0x41, *[1] * 12), S(0x41, *[1] * 13), S(0x41, *[17] * 13), S(0x41),
         S(0x41, 17),
         S(0x41, 0, 0), S(0x41, 1, 0), S(0x41, 0, 1), S(0x41, 16, 17), S(0x41, 17, 1), S(0x41, 0x81), S(0x41, 0x40), S(0x41, 255),
         S(0x41, *[1] * 11, 17)),
    typed("links_read", "40H and 41H: input and action, read by the output; two zeros where there is none; a repeat of a number in the list reads the same", "fresh_module",
          (L((3, 9, 4), (9, 2, 1), (16, 1, 2), (1, 16, 3)), ack()), (S(0x41, 9), ack(3, 4)), (S(0x41, 3), ack(0, 0)),
          (S(0x41, 2, 1, 16), ack(9, 1, 16, 2, 1, 3)),
          (S(0x41, 16, 9, 16, 3), ack(1, 3, 3, 4, 1, 3, 0, 0)), (S(0x41, 0), ack(16, 2, 9, 1, *[0] * 12, 3, 4, *[0] * 12, 1, 3)),
          (S(0x41, *range(1, 13)), ack(16, 2, 9, 1, *[0] * 12, 3, 4, *[0] * 6)), (S(0x30), ack(0, 0)), (S(0x33, 9, 16), ack(9, 0, 16, 0))),
    typed("links_act", "each action at a rising edge and at a falling one, from off and from on, in mode 0; without an edge none acts", "fresh_module",
          (S(0x62, 1), ack()), (L(*[(1, k, k) for k in (1, 2, 3, 4)], *[(1, 4 + k, k) for k in (1, 2, 3, 4)], (1, 9, 0), (1, 10, 0)), ack()),
          (S(0x20, 0x85, 0x86, 0x87, 0x88, 0x8A, 0x8C), ack()), (P(0), QUIET), (S(0x30), ack(0x0A, 0xF0)),
          (P(1), QUIET), (S(0x30), ack(0x0A, 0x55)), (P(1), QUIET), (S(0x30), ack(0x0A, 0x55)),
          (switched_all(0), modbus_ack(0x0F, *words(0, 16))), (P(1), QUIET), (S(0x30), ack(0, 0)),
          (S(0x20, 0x85, 0x86, 0x87, 0x88, 0x8A, 0x8C), ack()),
          (P(1), QUIET), (S(0x30), ack(0x0A, 0xF0)), (P(0), QUIET), (S(0x30), ack(0x0A, 0xE2)), (P(0), QUIET), (S(0x30), ack(0x0A, 0xE2)),
          (switched_all(1), modbus_ack(0x0F, *words(0, 16))), (P(0), QUIET), (S(0x30), ack(0xFF, 0xFF)), (P(1), QUIET), (S(0x30), ack(0xFF, 0x55))),
    case("links_any_mode", "slip: a link that goes by the mode. Inputs 1 to 4 in modes 0 to 3, each with all four actions, from off and from on; the counters go by the modes",
         S(0x6A, 2, 1, 3, 2, 4, 3), S(0x62, 1), all_links(lambda k: (k + 3) // 4, lambda k: (k - 1) % 4 + 1), from_both(0xFFFF, 0),
         S(0x60, 1, 2, 3, 4),
         S(0x6A, 1, 2, 2, 3, 3, 0, 4, 1), from_both(0xFFFF, 0, 5, 10), S(0x60, 1, 2, 3, 4), S(0x6B, 1, 2, 3, 4)),
    case("links_set_nothing", "40H moves no output and ends no pulse, and a link acts at no level: the input is on, the output stays until an edge",
         S(0x62, 1), samples(1), S(0x23, 3, 0x82, 3), L((1, 1, 1), (1, 2, 2), (1, 3, 1), (2, 4, 2)), S(0x33, 1, 2, 3, 4), watched(1, 1),
         S(0x33, 1, 2, 3, 4),
         S(0x20, 0x81), watched(1), L((1, 1, 1)), S(0x20, 1), watched(1, 0, 0), S(0x20, 0x81), watched(0, 1), L((1, 1, 0), (1, 2, 0)), S(0x30),
         watched(0, 1), S(0x41, 1, 2, 3, 4)),
    case("links_end_pulses", "a link that acts ends an on pulse and an off pulse, also where the output has that state: nothing turns at their end",
         S(0x62, 1), FOURFOLD, S(0x23, 1, *range(0x81, 0x85), 5, 6, 7, 8), P(0), S(0x33, *range(1, 9)), P(1), S(0x33, *range(1, 9)), P(1, 500),
         S(0x33, *range(1, 9)),
         S(0x23, 1, *range(0x81, 0x85), 5, 6, 7, 8), P(1), P(0), S(0x33, *range(1, 9)), P(0, 498), S(0x33, *range(1, 9)), P(0),
         S(0x33, *range(1, 9))),
    case("links_leave_pulses", "one that does not act leaves the pulse: no edge, a run begun, a falling edge with 3 and 4, another input's edge, action 0",
         S(0x62, 2), L((1, 1, 1), (1, 2, 2), (1, 3, 3), (1, 4, 4), (2, 5, 1), (2, 6, 2), (2, 7, 3), (2, 8, 4), (1, 9, 0)),
         S(0x23, 1, *range(0x81, 0x8A)),
         P(0), P(1), P(0), P(4, 2), P(4), P(1), S(0x33, *range(1, 10)), P(5), S(0x33, *range(1, 10)), P(1, 491), S(0x33, *range(1, 10)), P(1),
         S(0x33, *range(1, 10)),
         S(0x23, 1, 3, 4, 0x85, 0x86, 0x89), P(0, 2), S(0x33, *range(1, 10)), P(0, 498), S(0x30), P(0), S(0x33, *range(1, 10))),
    case("links_at_a_pulse_end", "the sample that ends a pulse and brings the edge: the link has the last word, whichever way the pulse went",
         S(0x62, 1), FOURFOLD, S(0x23, 1, *range(0x81, 0x85), 5, 6, 7, 8), P(0, 499), S(0x33, *range(1, 9)), P(1), S(0x33, *range(1, 9)),
         S(0x23, 1, *range(0x81, 0x85), 5, 6, 7, 8), P(1, 499), P(0), S(0x33, *range(1, 9)), P(0, 2), S(0x30)),
    case("links_near_a_pulse_end", "one sample before a pulse's end, and one after it",
         S(0x62, 1), FOURFOLD, S(0x23, 1, *range(0x81, 0x85), 5, 6, 7, 8), P(0, 498), P(1), S(0x33, *range(1, 9)), P(1), S(0x33, *range(1, 9)),
         S(0x23, 1, *range(0x81, 0x85), 5, 6, 7, 8), P(1, 500), S(0x33, *range(1, 9)), P(0), S(0x33, *range(1, 9)), P(1), S(0x33, *range(1, 9))),
    case("links_pulse_again", "a pulse begun after the link acted runs its time and turns the output; the link stays",
         S(0x62, 1), L((1, 1, 1)), watched(1), S(0x23, 1, 1), S(0x33, 1), P(1, 499), S(0x33, 1), P(1), S(0x33, 1), S(0x23, 2, 0x81), P(1, 10),
         ends(0, 0, 1), S(0x41, 1)),
    case("links_debounced", "slip: a link by raw bits. Number 3: two differing samples are nothing, an equal one ends the run; the third acts. Number 20: the 20th",
         S(0x62, 3), L((1, 1, 1), (1, 2, 2), (16, 3, 3)), watched(0x8001, 0x8001, 0, 0x8001, 0x8001, 0x8001),
         watched(0x8000, 0x8000, 0x8001, 0x8000, 0x8000, 0x8000),
         S(0x62, 20), P(0x8001, 19), S(0x30), watched(0x8001), P(0x8000, 19), S(0x30), watched(0x8000)),
    case("links_number_lowered", "the number lowered below a run: the next differing sample is the edge, and the link acts then",
         L((1, 1, 1)), P(1, 10), S(0x62, 5), S(0x30), watched(1)),
    case("links_refused_sample", "a sample with a short buffer is none: no edge, no act; the pulse keeps its time",
         S(0x62, 1), L((1, 1, 1), (2, 2, 2)), S(0x23, 1, 0x81, 0x82), P(3, room=255), P(3, room=0), S(0x33, 1, 2), P(1, room=256), S(0x33, 1, 2),
         P(3, room=255), S(0x33, 1, 2),
         P(2, room=257), S(0x33, 1, 2), P(0, room=255), S(0x30)),
    case("links_of_one_input", "slip: one link for an input. Input 1 has all sixteen outputs; then two of them go to others, and the rest stay",
         S(0x62, 1), all_links(lambda k: 1), watched(1, 0), L((2, 3, 1), (16, 16, 1)), S(0x41, 0), watched(1, 0x8000, 2, 0x8003)),
    case("links_of_one_output", "an output has one link: a later one takes its place, and the input before has none with it any more",
         S(0x62, 1), L((1, 1, 1)), watched(1), L((2, 1, 1)), S(0x41, 1), watched(0, 2, 3, 1), L((2, 1, 2)), S(0x41, 1), watched(3, 1), L((1, 1, 3)),
         S(0x41, 1), watched(3, 0, 1)),
    case("links_over", "action 0 takes the link away, and with it the input that 41H shows; its output stays as it is, a pulse goes on; the others keep theirs",
         S(0x62, 1), L((1, 1, 1), (1, 2, 1), (1, 3, 2)), watched(1), S(0x23, 1, 0x82), L((5, 1, 0), (1, 2, 0)), S(0x41, 1, 2, 3), S(0x33, 1, 2, 3),
         watched(0, 1), L((1, 3, 0)),
         S(0x41, 0), watched(0, 1), L((1, 4, 0)), S(0x41, 4)),
    case("links_many_edges", "edges of several inputs in one sample, some rising and some falling: each link by its own input",
         S(0x62, 1), L((1, 1, 1), (2, 2, 1), (3, 3, 2), (4, 4, 2), (1, 5, 3), (2, 6, 3), (3, 7, 4), (4, 8, 4), (16, 9, 1), (16, 10, 4)),
         S(0x20, 0x87, 0x88, 0x8A),
         watched(0x0005, 0x000A, 0x8005, 0x8005, 0x000F, 0x0000), S(0x20, 0x85, 0x86, 0x87, 0x88, 0x89, 0x8A), watched(0x800A, 0x8005, 0x0000)),
    case("links_crosswise", "slip: input and output confused, or a neighbour's. Output k by input 17 - k; each input alone goes on, and off as the next one comes",
         S(0x62, 1), all_links(lambda k: 17 - k), S(0x41, 0), watched(*SINGLY, 0, 0xFFFF, *[0xFFFF ^ b for b in SINGLY], 0)),
    case("links_crosswise_opposite", "the same, the opposite state; two inputs of a sample each to the other's output",
         S(0x62, 1), all_links(lambda k: 17 - k, lambda k: 2), watched(0xFFFF, 0xFF00, 0x00FF, 0x0F0F, 0x3333, 0x5555, 0xAAAA, *SINGLY)),
    case("links_in_a_ring", "output k by input k + 1, output 16 by input 1, and the other way round; the four actions in turn",
         S(0x62, 1), all_links(lambda k: k % 16 + 1), watched(*SINGLY), all_links(lambda k: (k + 14) % 16 + 1, lambda k: k % 4 + 1), S(0x41, 0),
         watched(0, *SINGLY, 0xFFFF, 0)),
    case("links_straight", "output k by input k; then the four actions in turn, from off and from on, by groups of inputs",
         S(0x62, 1), all_links(lambda k: k), watched(*GROUPS), all_links(lambda k: k, lambda k: (k + 1) % 4 + 1), from_both(*GROUPS)),
    case("links_apart", "slip: states by the place of an output. Inputs in pairs: one on and one off before, both flip, the links go across",
         S(0x62, 1), samples(0xAAAA), all_links(lambda k: (k - 1 ^ 1) + 1), watched(0x5555, 0xAAAA),
         all_links(lambda k: (k - 1 ^ 8) + 1, lambda k: 2 - k % 2),
         watched(0xA55A, 0x5AA5, 0x00FF, 0xFF00, 0)),
    case("links_to_the_ends", "inputs and outputs 1 and 16, all four ways, each alone",
         S(0x62, 1), *[c for i in (1, 16) for o in (1, 16) for c in (L((i, o, 1)), S(0x41, 1, 16), *watched(0x8000, 1, 0), L((i, o, 0)))]),
    case("links_named_twice", "40H: an output twice takes the last, also where that is action 0, and where the first was; an input may stand twice",
         S(0x62, 1), L((1, 1, 1), (2, 1, 2)), S(0x41, 1), L((1, 1, 0), (3, 1, 1)), S(0x41, 1), L((2, 1, 1), (2, 1, 0)), S(0x41, 1),
         L((4, 1, 3), (1, 2, 1), (5, 1, 0), (6, 1, 4)), S(0x41, 1, 2),
         L((7, 2, 1), (7, 3, 2), (7, 2, 1)), S(0x41, 1, 2, 3), L(*[(k, 5, k % 5) for k in range(1, 13)]), S(0x41, 5),
         L(*[(k, 5, 1 + k % 4) for k in range(5, 17)]), S(0x41, 5), watched(0x8000, 0x8040)),
    case("links_lengths", "40H: 1 to 12 groups of three bytes; none, a part of one, 13 groups: 8, before 11 and 14",
         heat(1), S(0x40), *[S(0x40, *[1] * n) for n in (1, 2, 4, 5, 35, 37, 38, 39)], S(0x40, *[17] * 2), S(0x40, 17, 17, 5, 9), S(0x40, 1, 1, 1, 1),
         S(0x40, 1, 1),
         L(*[(1, k, 1) for k in range(2, 15)]), L(*[(17, 0, 9)] * 13), S(0x41, 0), L((1, 2, 1)), L((1, 3, 1), (2, 4, 1)),
         L(*[(k, k, 1) for k in range(5, 17)]), S(0x41, 0)),
    case("links_numbers", "40H: input and output 1 to 16, action 0 to 4; 11 beyond, also for an input or output beside action 0; nothing is stored",
         L((2, 2, 3)), *[L(g) for action in (0, 1, 4) for g in ((0, 1, action), (17, 1, action), (1, 0, action), (1, 17, action), (0x81, 1, action),
         (1, 0x81, action), (0, 0, action))],
         *[L(g) for g in ((1, 1, 5), (1, 1, 6), (1, 1, 8), (1, 1, 0x81), (1, 1, 255), (2, 2, 5), (255, 1, 1), (1, 255, 1), (16, 17, 0), (17, 16, 0),
         (32, 1, 1), (1, 32, 1))],
         S(0x41, 0), L((16, 16, 4)), L((1, 1, 0)), S(0x41, 0)),
    case("links_not_stored", "a group at fault first, in the middle or last: 11, and all links are as before, also those that the list would take away",
         S(0x62, 1), L((1, 1, 1), (2, 2, 2)), *[L(*[g if n == at else good for n, good in enumerate(((3, 1, 2), (1, 2, 0), (4, 3, 1)))])
                                              for at in (0, 1, 2) for g in ((0, 5, 1), (17, 5, 1), (5, 0, 1), (5, 17, 1), (5, 5, 5), (0, 5, 0),
                                              (5, 17, 0))],
         S(0x41, 0), watched(1, 3), L(*[(3, k, 1) for k in range(1, 12)], (3, 12, 5)), L((0, 1, 1), *[(3, k, 1) for k in range(1, 12)]), S(0x41, 0),
         watched(0)),
    case("links_or_heat", "14: 40H with action 1 to 4 for an output whose thermostat has F = 1; action 0 is accepted; its neighbours are free, and so is F = 0",
         heat(5), heat(7, of=IDLE), *[L((1, 5, action)) for action in (1, 2, 3, 4, 0)], S(0x41, 4, 5, 6), L((5, 4, 1), (5, 6, 2), (5, 7, 3)),
         S(0x41, 4, 5, 6, 7),
         L((1, 7, 4)), heat(5, of=IDLE), L((1, 5, 2)), S(0x41, 5, 7), S(0x1B, 5, 7)),
    case("links_or_heat_list", "14 in whichever place of a list, and for whichever output; nothing is stored, and links that would go stay",
         heat(1, 8, 16), L((1, 2, 1)), L((1, 1, 1), (2, 2, 2), (3, 3, 3)), L((2, 2, 2), (1, 8, 1), (3, 3, 3)), L((2, 2, 0), (3, 3, 3), (1, 16, 1)),
         L((1, 1, 1)), L((1, 8, 4)), L((16, 16, 3)),
         L(*[(1, k, 1) for k in range(2, 8)], *[(1, k, 1) for k in range(9, 14)], (1, 16, 1)), L((1, 1, 1), *[(1, k, 1) for k in range(2, 8)]),
         L((1, 1, 0), (1, 8, 0), (1, 16, 1)), S(0x41, 0),
         L((1, 1, 0), (1, 8, 0), (1, 16, 0), (3, 15, 1)), S(0x41, 0)),
    case("links_or_heat_each", "14: each group for itself. Action 1 and then 0 for that output, 0 and then 1: refused both ways; 0 twice is accepted",
         heat(3), L((1, 3, 1), (1, 3, 0)), L((1, 3, 0), (1, 3, 1)), L((1, 3, 0), (1, 3, 4), (1, 3, 0)), L((1, 3, 0), (2, 3, 0)), S(0x41, 3)),
    case("links_or_heat_order", "8, then every 11 of the call, then 14: a group at fault before or behind one of 14, or the same group",
         heat(3), S(0x40, 1, 3, 1, 1), L((1, 3, 1), (1, 17, 1)), L((1, 17, 1), (1, 3, 1)), L((1, 3, 1), (2, 2, 1), (0, 2, 0)), L((17, 3, 1)),
         L((1, 3, 5)), L((0, 3, 0)), L((1, 3, 0), (1, 2, 5)),
         L((1, 3, 1), (1, 1, 1)), L((1, 1, 1), (1, 3, 1)), L((1, 3, 1), (17, 1, 0)), S(0x41, 1, 2, 3)),
    case("links_or_heat_free", "14 goes by F alone, not by 12: a reading within the band, at a fault, beyond; action 0 is never 12",
         heat(1), L((1, 1, 1)), L((1, 1, 0)), *[c for reading in (T(250), T(301), FAULT, T(200)) for c in (reading, L((1, 1, 3)), L((1, 1, 0)),
         L((1, 2, 3)))],
         *[c for f in (0x91, 0xA1, 0xC1, 0xF1, 0x89, 0xB9) for c in (at(f, 1), L((2, 1, 4)), L((2, 1, 0)))], at(0x7F), L((2, 1, 4)), S(0x41, 1, 2)),
    case("links_or_heat_next", "whichever came later is refused, until the other is gone: by action 0, by F = 0 on either port",
         L((1, 1, 1)), heat(1), heat(1, of=IDLE), heat(1), four(1, 0x81, 300, 200), L((1, 1, 0)), heat(1), L((1, 1, 1)), four(1, 0x01, 300, 200),
         L((1, 1, 2)), four(1, 0x81, 300, 200), L((4, 1, 0)),
         four(1, 0x81, 300, 200), L((1, 1, 2)), heat(1, of=IDLE), L((1, 1, 2)), S(0x41, 1), S(0x1B, 1)),
    case("links_or_heat_permission", "14 ends the port's permission and no other's; accepted 40H and 41H use it up",
         heat(1), L((1, 2, 1)), S(0xE4), L((1, 1, 1)), S(0xE0, 0x32, 7), S(0xE4), heat(2), S(0xE0, 0x32, 7), R(6, 0, 0xFF), S(0xE4),
         four(2, 0x81, 300, 200), R(6, 1, 5), S(0xE0, 0x31, 8),
         S(0xF0), S(0xE4), L((1, 3, 1)), S(0xE0, 0x32, 7), S(0xE4), S(0x41, 3), S(0xE0, 0x32, 7), S(0xE4), L((1, 3, 5)), S(0xE0, 0x32, 7),
         R(6, 0, 0xFF), L((1, 1, 1)), R(6, 1, 0x31)),
    case("links_addressed", "40H and 41H to FE are served and answered from the own address; to all they are refused by 6, and the permission stays",
         L((1, 1, 1), a=0xFE), S(0x41, 1, a=0xFE), L((1, 1, 5), a=0xFE), heat(2), L((1, 2, 1), a=0xFE), S(0xE4), L((2, 1, 1), a=0xFF),
         S(0x41, 1, a=0xFF), L((1, 2, 1), a=0xFF), L((1, 2, 1), a=0x32),
         S(0xE0, 0x32, 7), S(0x41, 1, a=0x32), L((1, 1, 2), a=0x31), L((1, 1, 2), a=0x32), S(0x41, 1, a=0xFE)),
    case("links_commanded", "a linked output obeys every command, and its link acts at the next edge as before",
         S(0x62, 1), S(0x26, 1, 3, 1), L((1, 1, 1)), *[c for k, command in enumerate((S(0x20, 1), S(0x23, 1, 0x81), S(0x25, 1), R(6, 500, 0xFF01),
         W(500, 0x0002), R(5, 0, 0xFF00), C(0, 1, 0),
           B("OS1H"), B("OT1L1"), B("OST1H1", "$"), S(0x20, 1, a=0xFF), R(5, 0, 0xFF00, a=0))) for c in (P(1 - k % 2), S(0x33, 1), command,
           S(0x33, 1))], P(1), S(0x33, 1), S(0x41, 1), S(0x36, 1), S(0x38, 1)),
    case("links_beside_heat", "a link looks at no thermostat: one that holds another output, a stored one with F = 0 on its own; no reading moves or frees it",
         S(0x62, 1), S(0x1A, *group(2, 0x81, 300, 200, 0, 2), *group(1, 0x01, 300, 200, 0, 2)), L((1, 1, 1), (1, 3, 2)), watched(1), T(301), S(0x30),
         watched(0), FAULT, S(0x30), watched(1), T(100), S(0x30),
         watched(0, 1), FAULT, S(0x20, 2), S(0x20, 1), S(0x30), watched(0), S(0x41, 1, 2, 3)),
    case("links_leave_heat", "and moves no reading, no thermostat: a crossing and an ERR come as without links",
         S(0x62, 1), L((1, 2, 1), (1, 3, 1)), at(0xC1, 1, 2), T(300), watched(1), T(301), S(0x33, 1, 2, 3), watched(0), S(0x33, 1, 2), S(0x51, 1),
         FAULT, S(0x33, 1, 2, 3), watched(1)),
    case("links_noticed", "the notice of the same sample shows the inputs, which links do not change; a link needs no notice, nor its mask; text alike",
         S(0x62, 1), L((1, 1, 2), (2, 16, 1)), S(0x10, 1, 0, 2, s=7), *[c for b in (1, 3, 2, 0) for c in (P(b), S(0x30))], S(0x10, 0),
         S(0x10, 1, 0, 0), watched(3), S(0x10, 0), B("IS1"),
         *[c for b in (0, 2, 3) for c in (P(b), S(0x30))], B("OR1"), B("OR16"), B("IR1")),
    case("links_shown_everywhere", "what links did is seen by 30H, 33H, coils, registers 500 up and OR alike",
         S(0x62, 1), L((1, 2, 1), (1, 16, 2), (2, 9, 3), (2, 10, 4)), S(0x20, 0x8A), P(3), S(0x30), S(0x33, 2, 9, 10, 16), R(1, 0, 16), R(3, 501, 1),
         R(3, 515, 1), B("OR2"), B("OR16"), B("OR9"), P(0), S(0x30), R(1, 0, 16),
         R(3, 508, 2), B("OR2"), B("OR16")),
    case("links_count_nothing", "counters are the same with links and without, whatever the modes; reads, deductions and clears take no link away",
         set_modes(lambda k: k % 4), S(0x62, 1), doors(2, 0xFFFF, 0x0F0F, 0x3300), S(0x60, 0), S(0x60, 0x80),
         all_links(lambda k: 17 - k, lambda k: k % 4 + 1), samples(0x00FF), S(0x60, 0x80),
         samples(0x3300), S(0x61, 0), doors(2, 0xFFFF, 0x0F0F, 0x3300), S(0x60, 0), D((1, 1), (2, 1)), W(100, 0, 0), S(0x6A, 1, 3), S(0x62, 2),
         S(0x41, 0)),
    case("links_no_counter", "slip: 40H for 60H, 61H or 6AH. Its bytes set no mode, take nothing from a counter and clear none",
         COUNT3, L((1, 2, 3)), L((2, 1, 0), (1, 1, 2)), S(0x41, 1, 2), S(0x41, 0), S(0x60, 1, 2), S(0x6B, 1, 2)),
    case("links_after_reset", "E3H keeps links, and stable states: the input is on, the output is off until the next edge; a run begun before does not act",
         S(0x62, 2), L((1, 1, 1), (1, 2, 2), (1, 3, 3), (1, 4, 4)), P(1), watched(1), P(0), S(0xE3), S(0x41, 0), S(0x30), watched(0), watched(1, 1),
         S(0x20, 0x83, 0x84), watched(0, 0), S(0xE3), P(1), watched(1)),
    case("links_no_run", "slip: a link that restarts a run. Number 3: output 1 moves while input 2 has a run of 2; its edge comes with the next sample",
         S(0x62, 3), L((1, 1, 1), (2, 2, 1), (2, 3, 2)), watched(1, 3, 3, 3, 0, 2, 0, 0, 0, 0)),
    case("links_turn_by_turn", "one edge after another: a link follows each, 3 stays on and 4 off until someone turns it",
         S(0x62, 1), L((1, 1, 1), (1, 2, 2), (1, 3, 3), (1, 4, 4), (1, 5, 3), (1, 5, 4)), watched(1, 0, 1, 1, 0, 0, 1), S(0x20, 3, 0x84, 0x85),
         watched(0, 1, 0)),
    case("links_or_heat_everywhere", "14 at each of the sixteen outputs: by 1AH and registers 600 up beside each action; by 40H; and none without a link",
         *all_links(lambda k: 17 - k, lambda k: (k - 1) % 4 + 1), *[c for k in range(1, 17) for c in (heat(k), four(k, 0x81, 300, 200))],
         *all_links(lambda k: 1, lambda k: 0), heat(*range(1, 13)), heat(*range(13, 17)), *[L((k, k, (k + 1) % 4 + 1)) for k in range(1, 17)], S(0x41, 0)),
    case("links_longest", "number 255: a link acts at the 255th differing sample, and no earlier one",
         S(0x62, 255), L((16, 1, 1)), P(0x8000, 254), S(0x30), P(0x8000), S(0x30)),
]

# States that no run reaches, the answers typed from docs/DECISIONS.md ----------------------------

def lines_run(stable, run, number):
    """A run of input 1; every mode is 3."""
    return inputs(f"line {stable} {run} ∷ replicate 15 fresh_line", "replicate 16 3", "replicate 16 0", number)


UNREACHED = [
    typed("number_zero", "sampling number 0: a differing sample flips", lines_run("false", 0, 0),
          (P(1), QUIET), (S(0x31), ack(0, 1)), (S(0x60, 1), ack(0x20, 0, 0, 0, 1)), (S(0x63), ack(0)), (P(1), QUIET), (S(0x60, 1), ack(0x20, 0, 0, 0, 1))),
    typed("run_of_255", "a run of 255 and a differing sample: it flips; an equal one ends the run", lines_run("false", 255, 255),
          (P(1), QUIET), (S(0x31), ack(0, 1)), (S(0x60, 1), ack(0x20, 0, 0, 0, 1))),
    typed("run_ended", "a run beyond the number and an equal sample: none", lines_run("true", 30, 20),
          (P(1), QUIET), (P(0), QUIET), (S(0x31), ack(0, 1))),
    typed("mode_four", "a mode above 3 selects no edge", inputs("replicate 16 fresh_line", "replicate 16 4", "replicate 16 7", 1),
          (P(1), QUIET), (P(0), QUIET), (S(0x60, 1), ack(0x20, 0, 0, 0, 7)), (S(0x6B, 1), ack(4))),
    typed("not_a_number", "a float that is no number shows as 0", "(with_reading fresh_module fresh_module.outputs (Valid (pos 5) (of_bits binary32 0x7FC0_0000)) (Valid (pos 5) (of_bits binary32 0x7FC0_0000)))",
          (R(4, 0, 4), modbus_ack(4, 8, 0, 0, 0, 5, 0, 0, 0, 0)), (S(0x51, 0), ack(1, 0x80, 0, 5))),
    typed("preset_one", "a preset of another type starts off first, and shows as it is stored", state("presets", "preset 1 2 ∷ preset 4 1 ∷ replicate 14 fresh_preset"),
          (S(0x36, 1, 2), ack(1, 2, 4, 1)), (S(0x38, 1, 2), ack(1, 4)), (S(0x25, 1, 2), ack()), (S(0x33, 1, 2), ack(1, 2, 2, 1))),
    typed("preset_time_zero", "a preset of type 2 or 3 with time 0 is a plain set", state("presets", "preset 2 0 ∷ preset 3 0 ∷ replicate 14 fresh_preset"),
          (S(0x25, 1, 2), ack()), (S(0x33, 1, 2), ack(0x81, 0, 2, 0)), (P(0), QUIET), (S(0x30), ack(0, 1))),
    typed("link_action_five", "a link's action above 4 does nothing at an edge, ends no pulse, and shows as it is stored (E8)",
          state("links", "link 1 5 ∷ link 1 255 ∷ link 2 8 ∷ link 1 6 ∷ link 1 7 ∷ link 1 1 ∷ replicate 10 fresh_link"),
          (S(0x62, 1), ack()), (S(0x41, 1, 2, 3, 4), ack(1, 5, 1, 255, 2, 8, 1, 6)), (S(0x23, 2, 0x81, 2), ack()), (P(3), QUIET),
          (S(0x33, 1, 2, 3, 4, 5, 6), ack(0x81, 2, 2, 2, 3, 0, 4, 0, 5, 0, 0x86, 0)),
          (S(0x20, 0x83, 0x84, 0x85), ack()), (P(0), QUIET), (P(3), QUIET),
          (S(0x33, 1, 2, 3, 4, 5, 6), ack(0x81, 2, 2, 2, 0x83, 0, 0x84, 0, 0x85, 0, 0x86, 0)),
          (L((1, 1, 2), (1, 2, 0)), ack()), (S(0x41, 1, 2), ack(1, 2, 0, 0)), (P(0), QUIET), (S(0x33, 1, 2), ack(0x81, 0, 2, 2))),
    typed("link_input_beyond", "a link's input above 16 has no edge (E8)", state("links", "link 17 1 ∷ link 255 2 ∷ link 32 3 ∷ link 33 1 ∷ link 16 1 ∷ replicate 11 fresh_link"),
          (S(0x62, 1), ack()), (S(0x20, 0x82), ack()), (P(0xFFFF), QUIET), (S(0x30), ack(0, 0x12)), (P(0), QUIET), (S(0x30), ack(0, 2)),
          (P(1), QUIET), (S(0x30), ack(0, 2)), (S(0x20, 0x81, 2), ack()), (P(0), QUIET), (S(0x30), ack(0, 1)),
          (S(0x41, 1, 2), ack(17, 1, 255, 2))),
    typed("link_idle", "a link of action 0 is none, whatever its input, and shows as it is stored; one of an action above 4 is one (E8)",
          state("links", "link 5 0 ∷ link 0 1 ∷ link 3 5 ∷ link 1 9 ∷ replicate 12 fresh_link"),
          (S(0x41, 1, 2, 3, 4), ack(5, 0, 0, 1, 3, 5, 1, 9)), (S(0x62, 1), ack()), (P(1), QUIET), (S(0x30), ack(0, 2)), (P(0), QUIET), (S(0x30), ack(0, 0)),
          (heat(2), nack(14, 3)), (four(2, 0x81, 300, 200), modbus_nack(14, 0x10, 4)), (heat(3), nack(14, 3)), (four(3, 0x81, 300, 200), modbus_nack(14, 0x10, 4)),
          (heat(1), ack()), (S(0x41, 1), ack(5, 0))),
    typed("links_lacking", "a link that the list lacks is none, and stores nothing (E8)", state("links", "[]"),
          (S(0x41, 1, 16), ack(0, 0, 0, 0)), (L((1, 1, 1)), ack()), (S(0x41, 1), ack(0, 0)), (S(0x62, 1), ack()), (P(1), QUIET), (S(0x30), ack(0, 0)),
          (heat(1), ack())),
    typed("links_and_other_heat", "F = 1 alone makes a thermostat active: with sensor 0 or 3, TEMPx below TEMPy, ERR 3, TIME 0 (E8)",
          state("thermostats", "thermostat 0x80 (pos 300) (pos 200) 0 0 ∷ thermostat 0x83 (pos 300) (pos 200) 0 0 ∷ thermostat 0x81 (pos 200) (pos 300) 0 0 ∷ thermostat 0xC1 (pos 300) (pos 200) 0 3 ∷ thermostat 0x7F (pos 300) (pos 200) 9 3 ∷ replicate 11 fresh_thermostat"),
          (L((1, 1, 1)), nack(14, 3)), (L((1, 2, 2)), nack(14, 3)), (L((1, 3, 3)), nack(14, 3)), (L((1, 4, 4)), nack(14, 3)), (L((1, 5, 1)), ack())),
    typed("link_input_zero", "a link's input 0 goes as input 1 (E8)", state("links", "link 0 1 ∷ link 0 2 ∷ link 0 3 ∷ link 0 4 ∷ replicate 12 fresh_link"),
          (S(0x62, 1), ack()), (S(0x20, 0x84), ack()), (P(1), QUIET), (S(0x30), ack(0, 5)), (P(2), QUIET), (S(0x30), ack(0, 6)), (P(0x8002), QUIET),
          (S(0x30), ack(0, 6)), (P(0x8000), QUIET), (S(0x30), ack(0, 6)),
          (S(0x41, 1), ack(0, 1))),
    typed("link_and_heat", "an active thermostat and a link on one output: both act (E8); 14 for what would set either anew, until one is gone; other outputs are free",
          "(with_thermostats (with_links fresh_module (fresh_link ∷ link 1 1 ∷ replicate 14 fresh_link)) (fresh_thermostat ∷ thermostat 0x81 (pos 300) (pos 200) 0 2 ∷ replicate 14 fresh_thermostat))",
          (S(0x62, 1), ack()), (P(1), QUIET), (S(0x30), ack(0, 2)), (T(199), QUIET), (S(0x30), ack(0, 0)), (P(0), QUIET), (P(1), QUIET),
          (S(0x30), ack(0, 2)), (S(0x20, 2), nack(12, 3)), (P(0), QUIET), (S(0x30), ack(0, 0)),
          (FAULT, QUIET), (S(0x30), ack(0, 2)), (heat(2), nack(14, 3)), (four(2, 0x81, 300, 200), modbus_nack(14, 0x10, 4)),
          (L((1, 2, 1)), nack(14, 3)), (heat(1, 3), ack()), (L((1, 4, 1)), ack()),
          (S(0x41, 2, 4), ack(1, 1, 1, 1)), (L((1, 2, 0)), ack()), (heat(2), ack()), (S(0x41, 2), ack(0, 0)), (T(199), QUIET), (P(1), QUIET),
          (S(0x30), ack(0, 8)), (L((1, 2, 1)), nack(14, 3))),
    typed("time_zero", "a thermostat's pulse of TIME 0 is a plain set", state("thermostats", "thermostat 0xC1 (pos 300) (pos 200) 0 0 ∷ replicate 15 fresh_thermostat"),
          (T(300), QUIET), (T(301), QUIET), (S(0x33, 1), ack(0x81, 0))),
    typed("limits_exchanged", "TEMPx below TEMPy: above TEMPx goes first; it holds at every reading",
              state("thermostats", "thermostat 0x81 (pos 200) (pos 300) 0 0 ∷ thermostat 0xA1 (pos 200) (pos 300) 0 0 ∷ replicate 14 fresh_thermostat"),
          (T(250), QUIET), (S(0x30), ack(0, 1)), (S(0x20, 1), nack(12, 3)), (T(200), QUIET), (S(0x30), ack(0, 2)), (T(301), QUIET), (S(0x30), ack(0, 1))),
    typed("err_three", "an ERR above 2 does nothing", state("thermostats", "thermostat 0x81 (pos 300) (pos 200) 0 3 ∷ replicate 15 fresh_thermostat"),
          (T(301), QUIET), (S(0x30), ack(0, 1)), (FAULT, QUIET), (S(0x30), ack(0, 1)),
          (T(199), QUIET), (S(0x30), ack(0, 0)), (FAULT, QUIET), (S(0x30), ack(0, 0))),
    typed("sensor_two", "another sensor acts on the one reading", state("thermostats", "thermostat 0x82 (pos 300) (pos 200) 0 2 ∷ replicate 15 fresh_thermostat"),
          (T(301), QUIET), (S(0x30), ack(0, 1)), (T(199), QUIET), (S(0x30), ack(0, 0)), (S(0x20, 0x81), nack(12, 3)), (FAULT, QUIET), (S(0x30), ack(0, 1))),
    typed("sensor_seven", "nor has it a part in SS: its three bits leave out the third S (E6)", state("thermostats", "thermostat 0x97 (pos 300) (pos 200) 0 0 ∷ replicate 15 fresh_thermostat"),
          (T(301), QUIET), (S(0x30), ack(0, 1)), (T(250), QUIET), (S(0x30), ack(0, 1)), (T(199), QUIET), (S(0x30), ack(0, 0)), (S(0x38, 1), ack(0xA1))),
    typed("sensor_seven_band", "the same sensor beside the third S (E6)",
          state("thermostats", "thermostat 0x9F (pos 300) (pos 200) 0 0 ∷ thermostat 0xAA (pos 300) (pos 200) 0 2 ∷ replicate 14 fresh_thermostat"),
          (T(301), QUIET), (S(0x30), ack(0, 2)), (T(300), QUIET), (S(0x30), ack(0, 1)), (S(0x20, 1, 2), ack()), (T(199), QUIET), (S(0x30), ack(0, 2)),
          (S(0x20, 0x81), nack(12, 3)), (S(0x38, 1, 2), ack(0xA9, 0xAA)), (T(200), QUIET), (FAULT, QUIET), (S(0x30), ack(0, 3))),
    typed("band_reversed", "the third S (E6) with TEMPx below TEMPy: no reading is within, so SS 00 is off and SS 01 on; it holds at every reading",
          state("thermostats", "thermostat 0x89 (pos 200) (pos 300) 0 0 ∷ thermostat 0xA9 (pos 200) (pos 300) 0 0 ∷ replicate 14 fresh_thermostat"),
          (T(250), QUIET), (S(0x30), ack(0, 2)), (S(0x20, 0x81), nack(12, 3)), (T(200), QUIET), (S(0x30), ack(0, 2)), (T(300), QUIET), (S(0x30), ack(0, 2)), (S(0x20, 2), nack(12, 3))),
    typed("band_err_three", "the third S (E6) with an ERR above 2: a fault does nothing",
          state("thermostats", "thermostat 0x89 (pos 300) (pos 200) 0 3 ∷ thermostat 0xA9 (pos 300) (pos 200) 0 3 ∷ replicate 14 fresh_thermostat"),
          (T(250), QUIET), (S(0x30), ack(0, 1)), (FAULT, QUIET), (S(0x30), ack(0, 1)), (T(199), QUIET), (FAULT, QUIET), (S(0x30), ack(0, 2))),
    typed("band_pulses", "SS 10 and 11 with the third S (E6) go as 01, with either K and whatever TIME is; ERR, holding and 38H are as ever",
          state("thermostats", """thermostat 0xC9 (pos 300) (pos 200) 1 0 ∷ thermostat 0xD9 (pos 300) (pos 200) 0 1 ∷ thermostat 0xE9 (pos 300) (pos 200) 1 2 ∷
      thermostat 0xF9 (pos 300) (pos 200) 9 0 ∷ replicate 12 fresh_thermostat"""),
          (T(301), QUIET), (S(0x30), ack(0, 15)), (S(0x33, 1, 3), ack(0x81, 0, 0x83, 0)), (S(0x20, 1), nack(12, 3)), (T(300), QUIET), (S(0x30), ack(0, 0)), (S(0x20, 0x81, 0x82, 0x84), ack()),
          (T(200), QUIET), (S(0x30), ack(0, 0)), (T(199), QUIET), (S(0x30), ack(0, 15)), (FAULT, QUIET), (S(0x30), ack(0, 13)), (S(0x38, 1, 2, 3, 4), ack(0xAC, 0xAD, 0xAE, 0xAF))),
    typed("off_with_mask", "a notice that is off and has a mask writes nothing, and its mask is shown", state("notice", "notice 0 0xFFFF 0x05"),
          (S(0x62, 1), ack()), (P(1), QUIET), (S(0x11), ack(0, 0xFF, 0xFF)), (S(0x10, 1, 0, 1), ack()), (S(0x11), ack(0x61, 0, 1))),
    typed("modes_lacking", "a mode that the list lacks reads as 0 and selects no edge", inputs("replicate 16 fresh_line", "[]", "replicate 16 0", 1),
          (P(1), QUIET), (P(0), QUIET), (S(0x60, 1), ack(0x20, 0, 0, 0, 0)), (S(0x6B, 1), ack(0)), (S(0x6A, 1, 3), ack()), (S(0x6B, 1), ack(0))),
    typed("counters_lacking", "a counter that the list lacks reads as 0 and stores nothing", inputs("replicate 16 fresh_line", "replicate 16 3", "[]", 1),
          (P(1), QUIET), (S(0x60, 1), ack(0x20, 0, 0, 0, 0)), (D((1, 1)), nack(11, 3)), (D((1, 0)), ack()), (S(0x60, 16), ack(0x20, 0, 0, 0, 0))),
    typed("format_other", "any format but 0 is on, and shows as it is stored", state("notice", "notice 0x01 0xFFFF 0x05"),
          (S(0x11), ack(1, 0xFF, 0xFF)), (S(0x10, 1), nack(11, 3)), (B("IX"), replied(0, "10\x01")), (S(0x62, 1), ack()), (P(1), (0, spinel_frame(0x31, 5, 0x0D, [0, 1])))),
    typed("text_mask", "a text notice with a mask goes by it, and shows all inputs", state("notice", "notice 0x42 0x0002 0x05"),
          (S(0x62, 1), ack()), (P(1), QUIET), (P(3), replied(0, "1D HHLLL LLLLL LLLLL L")), (P(2), QUIET), (S(0x11), ack(0x42, 0, 2))),
    typed("own_universal", "an own address FE is the universal one: no E4H, E0H", state("spinel", "port 0xFE 6 true"),
          (S(0xE0, 0x31, 6, a=0xFE), (10, spinel_frame(0xFE, 2, 4, []))), (S(0xE4, a=0xFE), (10, spinel_frame(0xFE, 2, 4, []))), (S(0x30), (5, [])),
          (S(0xF0, a=0xFE), (0, spinel_frame(0xFE, 2, 0, [0xFE, 6])))),
    typed("own_broadcast", "an own address FF is the broadcast: only 20H, 23H, 25H, and no reply", state("spinel", "port 0xFF 6 false"),
          (S(0x30, a=0xFF), (6, [])), (S(0x20, 0x81, a=0xFF), (0, [])), (S(0x30, a=0xFE), (0, spinel_frame(0xFF, 2, 0, [0, 1])))),
    typed("own_ff", "a Modbus address FF is an own one as any other", state("modbus", "port 0xFF 6 false"),
          (R(5, 0, 0xFF00, a=0xFF), modbus_ack(5, 0, 0, 0xFF, 0, a=0xFF))),
    typed("own_zero", "a Modbus address 0 is the broadcast: only 05 and 0F, and no reply", state("modbus", "port 0 6 true"),
          (R(1, 0, 16, a=0), (6, [])), (R(6, 1, 5, a=0), (6, [])), (R(5, 0, 0xFF00, a=0), (0, [])), (S(0x30), ack(0, 1))),
]

# The tally ------------------------------------------------------------------------------------

# each row: an input's number, edges and collected; what was last cleared, and has never more stood uncollected since
def tallied(name, shows, calls, rows):
    return name, shows, calls, rows


TALLIES = [
    tallied("raw", "six changes of a sample, none of them 20 samples long: no edge", [S(0x6A, 1, 3)] + samples(1, 0, 1, 0, 1, 0), [(1, 0, 0)]),
    tallied("debounced", "19 samples, an equal one, 19 more: none; the 20th is an edge", [S(0x6A, 1, 3), P(1, 19), P(0), P(1, 19)], [(1, 0, 0)]),
    tallied("debounced_once", "20 samples: one edge; 20 back: two", [S(0x6A, 1, 3), P(1, 20), P(0, 20)], [(1, 2, 0)]),
    tallied("run_after_flip", "number 3: three samples flip, two the other way do not", [S(0x6A, 1, 3), S(0x62, 3)] + samples(1, 1, 1, 0, 0), [(1, 1, 0)]),
    tallied("selected", "modes 1, 2, 3 and 0: two rising edges and a falling one", [S(0x6A, 1, 1, 2, 2, 3, 3), S(0x62, 1)] + samples(15, 0, 15),
            [(1, 2, 0), (2, 1, 0), (3, 3, 0), (4, 0, 0)]),
    tallied("inputs", "inputs 1 and 16 by their own bits", [S(0x6A, 1, 3, 16, 3), S(0x62, 1)] + samples(0x8000, 0x8001, 0x0001, 0x0001),
            [(1, 1, 0), (16, 2, 0), (2, 0, 0), (15, 0, 0)]),
    tallied("repeated_mode", "6AH names input 1 twice: the last mode holds", [S(0x6A, 1, 3, 1, 2, 2, 1), S(0x62, 1)] + samples(3, 0), [(1, 1, 0), (2, 1, 0)]),
    tallied("refused_mode", "a refused 6AH sets no mode, a refused 62H no number", [S(0x6A, 1, 3, 2, 4), S(0x62, 0), S(0x62, 1, 1)] + samples(1, 0), [(1, 0, 0)]),
    tallied("read_and_cleared", "three edges of each; 1 read and zeroed, 3 only read; one edge more of each; all zeroed",
            [S(0x6A, 1, 3, 3, 3), S(0x62, 1)] + samples(5, 0, 5) + [S(0x60, 3, 0x81)] + samples(0) + [S(0x60, 0x80)], [(1, 4, 4), (3, 4, 4)]),
    tallied("read_one", "of the inputs only the one read and zeroed is collected", COUNT3 + [S(0x60, 0x81)], [(1, 3, 3), (2, 3, 0)]),
    tallied("read_only", "reading without bit 7 collects nothing; with bits 7 and 6 it does; a repeat adds 0",
            COUNT3 + [S(0x60, 0), S(0x60, 1, 0x41), S(0x60, 2, 0xC2, 0x82, 1)], [(1, 3, 0), (2, 3, 3)]),
    tallied("read_refused", "a refused 60H and one to all collect nothing", COUNT3 + [S(0x60, 0x81, 0), S(0x60, 0x81, 17), S(0x60, 0x80, a=0xFF)], [(1, 3, 0), (2, 3, 0)]),
    tallied("read_high", "300 edges read and zeroed: both low bytes of the value count", [S(0x6A, 1, 3), S(0x62, 1), doors(150, 1, 0), S(0x60, 0x81)], [(1, 300, 300)]),
    tallied("deducted", "three edges of each; 1 and 2, then 1 again deducted; a list refused by 13 or 11 collects nothing",
            COUNT3 + [D((1, 1), (2, 2)), D((1, 1)), D((2, 0), (2, 1)), D((2, 1), (1, 2))], [(1, 3, 2), (2, 3, 2)]),
    tallied("deducted_high", "300 edges, 257 deducted by 61H and 40 by register", [S(0x6A, 1, 3), S(0x62, 1), doors(150, 1, 0), D((1, 0x0101)), R(6, 200, 40)], [(1, 300, 297)]),
    tallied("deducted_by_registers", "registers 200 and 201, then 201 alone; 215 is input 16",
            [S(0x6A, 16, 3)] + COUNT3 + samples(0x8000) + [W(200, 1, 2), R(6, 201, 1), R(6, 215, 1)], [(1, 4, 1), (2, 4, 3), (16, 1, 1)]),
    tallied("cleared", "register 101 written with 0 clears input 2 alone", COUNT3 + [D((1, 1), (2, 1)), R(6, 101, 0)], [(1, 3, 1), (2, 0, 0)]),
    tallied("cleared_one", "register 100 alone by 10H: input 2 keeps its edges", COUNT3 + [W(100, 0)], [(1, 0, 0), (2, 3, 0)]),
    tallied("cleared_some", "registers 101 and 102 written with zeros; a refused write clears nothing", COUNT3 + [W(101, 0, 0), W(100, 0, 1), R(6, 100, 1)], [(1, 3, 0), (2, 0, 0)]),
    tallied("cleared_all", "61H 00 clears all inputs, 61H 01 does not", COUNT3 + [S(0x61, 1), D((1, 1)), S(0x61, 0)] + samples(0), [(1, 1, 0), (2, 1, 0)]),
    tallied("not_cleared", "61H 01 is refused and clears nothing", COUNT3 + [S(0x61, 1)], [(1, 3, 0), (2, 3, 0)]),
    tallied("reset", "a reset ends runs, edges and collected: a run of 1, number 2, does not go on",
            [S(0x6A, 1, 3), S(0x62, 2)] + samples(1, 1, 0) + [D((1, 1)), S(0xE3)] + samples(0), [(1, 0, 0)]),
    tallied("reset_keeps", "and keeps modes, the number and stable states", [S(0x6A, 1, 2), S(0x62, 2)] + samples(1, 1) + [S(0xE3)] + samples(0, 0, 1, 1), [(1, 1, 0)]),
    tallied("reset_by_address", "E0H with the permission is a reset, without it nothing", COUNT3 + [S(0xE0, 0x31, 6), S(0xE4), S(0xE0, 0x31, 6)] + samples(0), [(1, 1, 0), (2, 1, 0)]),
    tallied("not_reset", "E0H without the permission", COUNT3 + [S(0xE0, 0x31, 6), R(6, 1, 0x31)], [(1, 3, 0), (2, 3, 0)]),
    tallied("address_set", "registers 1 to 2, written with the permission, are a reset", COUNT3 + [R(6, 0, 0xFF), W(1, 5, 6)], [(1, 0, 0), (2, 0, 0)]),
    tallied("speed_set", "register 2 alone too", COUNT3 + [R(6, 0, 0xFF), R(6, 2, 6)] + samples(0), [(1, 1, 0), (2, 1, 0)]),
    tallied("mode_by_register", "register 301 sets input 2 to mode 3, registers 302 and 303 inputs 3 and 4", [R(6, 301, 3), W(302, 1, 2), S(0x62, 1)] + samples(15, 0),
            [(1, 0, 0), (2, 2, 0), (3, 1, 0), (4, 1, 0)]),
    tallied("modes_by_registers", "registers 302 and 303 in one write: each input by its own value", [W(302, 1, 2), S(0x62, 1)] + samples(12, 0, 12),
            [(3, 2, 0), (4, 1, 0)]),
    tallied("refused_sample", "a sample with a short buffer is none", [S(0x6A, 1, 3), S(0x62, 1), P(1, room=255)], [(1, 0, 0)]),
    tallied("other_frames", "other instructions and functions with the same bytes do nothing", COUNT3 + [S(0x20, 0x81), S(0x23, 1, 0x81), R(5, 1, 0), R(3, 101, 1), R(6, 301, 3), W(600, 0, 0, 0, 0),
            S(0x26, 1, 2, 1), C(1, 2, 3)], [(1, 3, 0), (2, 3, 0)]),
    tallied("sum_test_no_number", "EEH's byte is no sampling number: with number 3 two samples flip nothing", COUNT3 + [S(0x62, 3)] + UNTESTED + [S(0xE4), S(0xEE, 1)]
            + samples(0, 0), [(1, 3, 0), (2, 3, 0)]),
    tallied("lists_read", "6BH sets no mode and clears nothing", COUNT3 + [S(0x6B, 0), S(0x6B, 1, 2)] + samples(0, 3), [(1, 5, 0), (2, 5, 0)]),
    tallied("any_sum_counts", "SUM untested (E5): 6AH, 62H, 61H and 60H with a wrong SUM count as with a right one", UNTESTED + [X(0x6A, 1, 3, 2, 3), X(0x62, 1)]
            + samples(3, 0, 3) + [X(0x61, 1, 0, 0, 0, 2), X(0x60, 0x82), X(0x60, 0x80)], [(1, 3, 3), (2, 3, 3)]),
    tallied("any_sum_clears", "and so does 61H 00", COUNT3 + UNTESTED + [D((1, 1)), X(0x61, 0)] + samples(0), [(1, 1, 0), (2, 1, 0)]),
    tallied("any_sum_resets", "E3H with a wrong SUM is a reset: a run of 1, number 2, does not go on", COUNT3 + UNTESTED + [D((1, 1)), X(0x62, 2)] + samples(0)
            + [X(0xE3)] + samples(0, 3, 0, 0), [(1, 1, 0), (2, 1, 0)]),
    tallied("any_sum_readdressed", "and so is E0H, permitted by an E4H with a wrong SUM", COUNT3 + UNTESTED + [D((1, 1)), X(0xE4), X(0xE0, 0x31, 6)] + samples(0),
            [(1, 1, 0), (2, 1, 0)]),
    tallied("wrong_sum", "SUM tested: the same frames are refused by 4 and change nothing", COUNT3 + [D((1, 1)), X(0x6A, 1, 0, 2, 0), X(0x62, 2), X(0x61, 1, 0, 0, 0, 1),
            X(0x60, 0x82), X(0x61, 0), X(0xE3), S(0xE4), X(0xE0, 0x31, 6)] + samples(0), [(1, 4, 1), (2, 4, 0)]),
    tallied("sum_test_turned", "EEH and FEH change nothing: a run of 1, number 2, goes on", COUNT3 + [D((1, 1)), S(0x62, 2)] + samples(0) + UNTESTED
            + [S(0xFE), S(0xEE, 1), S(0xE4), S(0xEE, 1), S(0xFE)] + samples(0), [(1, 4, 1), (2, 4, 0)]),
    tallied("links_change_nothing", "40H and 41H (E8) change nothing, accepted or refused: a run of 1, number 2, goes on; edges are counted once beside links",
            COUNT3 + [D((1, 1)), S(0x62, 2)] + samples(0) + [S(0x40, 1, 1, 1, 2, 2, 2), S(0x40, 1, 3, 5), S(0x41, 0), S(0x41, 1, 2), S(0x41),
            S(0x1A, *group(1, 0x81, 300, 200)), S(0x40, 1, 1, 1, a=0xFF)]
            + samples(0) + [S(0x62, 1)] + samples(3, 0, 1), [(1, 7, 1), (2, 6, 0)]),
    tallied("links_no_counts", "a 40H whose bytes look like 61H, 60H, 6AH or 62H (E8) is none of them, and an output turned by a link is no edge",
            COUNT3 + [S(0x40, 1, 1, 2), S(0x40, 1, 2, 0), S(0x40, 2, 1, 1, 1, 2, 3), S(0x40, *[1, 1, 1] * 5), S(0x40, 1, 0, 0), S(0x40, 0),
            S(0x40, 2), S(0x41, 1), S(0x41, 0), S(0x40, 1, 0, 0, 0, 1, 1)]
            + samples(3, 0), [(1, 4, 0), (2, 4, 0), (3, 0, 0)]),
    tallied("text_changes_nothing", "accepted texts (E2) but AS and SS change nothing: a run of 1, number 2, goes on",
            COUNT3 + [D((1, 1)), S(0x62, 2)] + samples(0) + [T(291)]
            + texts("IR: 1 016", "OR: 1 16", "OS: 1H 01L 016H", "OT: 1H1 16L255", "OST: 1H1 02L020", "RT: 1 001", "IS1", "IX", "IS0", "E", "E")
            + [FAULT, B("RT1"), B("OS1H", "%"), B("OT2H1", "%"), B("IX", "$")] + samples(0), [(1, 4, 1), (2, 4, 0)]),
    tallied("text_readdressed", "an accepted AS is a reset: a run of 1, number 2, does not go on",
            COUNT3 + [D((1, 1)), S(0x62, 2)] + samples(0) + texts("E", "AS5") + samples(0, 3, 0, 0), [(1, 1, 0), (2, 1, 0)]),
    tallied("text_speed_set", "and so is an accepted SS, also permitted by E4H, and where nothing changes",
            COUNT3 + [D((1, 1)), S(0xE4), B("SS6")] + samples(0), [(1, 1, 0), (2, 1, 0)]),
    tallied("text_new_address", "after AS frames to the new address count, those to the old one are refused by 5",
            COUNT3 + texts("E", "AS5") + [D((1, 0))] + samples(0, 3, 0) + [D((1, 1)), D((1, 2), a=0x35), S(0x60, 0x81), S(0x60, 0x82, a=0x35)],
            [(1, 3, 2), (2, 3, 3)]),
    tallied("text_not_reset",
            "refused ones are none: no permission, to $, another character, none, lower case, to all, a short buffer, no carriage return, another address",
            COUNT3 + [D((1, 1))] + texts("AS1", "SS6")
            + [c for r in texts("AS1", "SS6", a="$") + texts("AS", "AS11", "SSC", "as1", "ss6", "SA1") for c in (B("E"), r)]
            + [B("E"), *texts("AS1", "SS6", a="%"), B("AS1", room=255), B("AS1", end="\n"), B("AS1", "2"), B("AS1", "\xfe"), B("IX"), B("SS6")] + samples(0),
            [(1, 4, 1), (2, 4, 0)]),
    tallied("text_by_e_0", "E permits E0H, which resets; E4H and E then permit one reset",
            COUNT3 + [D((1, 1)), B("E"), S(0xE0, 0x31, 6)] + samples(0, 3) + [S(0xE4), B("E"), B("IX"), S(0xE0, 0x31, 6), B("AS1")], [(1, 2, 0), (2, 2, 0)]),
    tallied("text_like_codes",
            "prefix before code: refused texts whose seventh byte, an instruction's place, is 60H, 61H, 62H, 6AH, E0H, E3H or E4H, and what follows as its data",
            COUNT3 + [D((1, 1))] + [B("OS1" + c) for c in ("\x60\x80", "\x61", "\x61\x00", "\x62\x05", "\x6a\x01\x00", "\xe0\x31\x06", "\xe3", "\xe4")]
            + [B("xxx" + c) for c in ("\x60\x82\x00", "\x61\x00\x00", "\x62\x05\x00", "\x6a\x01\x00\x00", "\xe3\x00", "\xe4\x00")] + [S(0xE0, 0x31,
            6)] + samples(0),
            [(1, 4, 1), (2, 4, 0)]),
    tallied("binary_like_text", "prefix before code: to address 53H, S, a 61H of twelve items has AS in its bytes 4 and 5, and is no reset; it collects",
            COUNT3 + moved(0x53) + samples(0, 3)
            + [D((1, 1), *[(k, 0) for k in range(3, 13)], (2, 2), a=0x53), S(0x60, 1, a=0x53)] + samples(0), [(1, 3, 1), (2, 3, 2)]),
]

# What claims are said with: the parts that a call may change, and the calls that reset -----------------------

# every part of the state, each shown by a number of its own
PARTS = """stable run modes counters sampling outputs presets thermostats reading last format mask signature sum_tested spinel_address spinel_speed
spinel_permission modbus_address modbus_speed modbus_permission links""".split()
ZEROED = "run counters outputs spinel_permission modbus_permission"
BY_SPINEL = {0x10: "format mask signature", 0x1A: "thermostats", 0x20: "outputs", 0x23: "outputs", 0x25: "outputs", 0x26: "presets", 0x40: "links",
             0x60: "counters", 0x61: "counters", 0x62: "sampling", 0x6A: "modes", 0xE0: ZEROED + " spinel_address spinel_speed", 0xE3: ZEROED,
             0xEE: "sum_tested"}
BY_REGISTER = {**dict.fromkeys((1, 2), ZEROED + " modbus_address modbus_speed"), **dict.fromkeys((100, 115, 200, 215), "counters"),
               **dict.fromkeys((300, 315), "modes"), **dict.fromkeys((500, 515), "outputs"), **dict.fromkeys((600, 663), "thermostats")}
BESIDE = [0, 3, 99, 116, 199, 216, 299, 316, 499, 516, 599, 664]


# texts (E2): what each code may change
BY_TEXT = [
    ("ir", "IR1", ""), ("or", "OR1", ""), ("os", "OS1H", "outputs"), ("ot", "OT1H1", "outputs"), ("ost", "OST1H1", "outputs"), ("rt", "RT1", ""),
    ("is", "IS1", "format mask"), ("ix", "IX", ""), ("e", "E", ""), ("as", "AS5", ZEROED + " spinel_address"), ("ss", "SS7", ZEROED + " spinel_speed"),
    ("ort", "ORT1", ""), ("none", "x", ""), ("lower", "as5", ""),
]


def leaving(name, call, changed):
    """What a call leaves: all parts but those that it may change."""
    return name, call, [0 if part in changed.split() else at for at, part in enumerate(PARTS, 1)]


def named(word, code):
    """A row's name with a byte in hex, parted before and after its letters: by07, by_df, by_e_0; function_0e."""
    text = "%02x" % code
    return word + text if text.isdigit() else "_".join([word, *re.findall(r"[0-9][a-f]|[a-f]+|[0-9]", text)])


def by_spinel(code):
    """A Spinel request may always use its port's permission up."""
    return leaving(named("spinel", code), S(code), BY_SPINEL.get(code, "") + " spinel_permission")


def by_modbus(name, call, changed=""):
    """So may a Modbus request."""
    return leaving(name, call, changed + " modbus_permission")


LEFT = [
    leaving("sample", P(0), "stable run counters outputs"), leaving("temperature", T(0), "reading last outputs"),
    *[by_spinel(code) for code in (0x0F, 0x10, 0x11, 0x1A, 0x1B, 0x20, 0x22, 0x23, 0x24, 0x25, 0x26, 0x30, 0x3F, 0x40, 0x41, 0x42, 0x51, 0x60, 0x61,
    0x62, 0x63, 0x6A,
                                   0x6B, 0xDF, 0xE0, 0xE1, 0xE3, 0xE4, 0xED, 0xEE, 0xEF, 0xF0, 0xFD, 0xFE, 0xFF)],
    *[leaving("text_" + name, B(text), changed + " spinel_permission") for name, text, changed in BY_TEXT],
    leaving("code_like_text", LIKE_TEXT, "counters spinel_permission"),
    *[by_modbus("register%d" % r, R(6, r, 0), BY_REGISTER.get(r, "")) for r in sorted([*BY_REGISTER, *BESIDE])],
    *[by_modbus("several%d" % r, W(r, 0), BY_REGISTER[r]) for r in (1, 100, 600)],
    by_modbus("coil", R(5, 0, 0), "outputs"), by_modbus("coils", C(0, 1, 0), "outputs"),
    *[by_modbus(named("function", fn), R(fn, 100, 1)) for fn in (3, 4)], *[by_modbus(named("function", fn), M(fn, 0, 100, 0, 1)) for fn in (7, 0x0E, 0x11)],
]

# accepted, each of these resets or does not
RESETS = [
    *[(named("by", code), S(code), code in (0xE0, 0xE3)) for code in (0x40, 0x41, 0xDF, 0xE0, 0xE1, 0xE2, 0xE3, 0xE4, 0xEE, 0xFE)],
    *[("by_register_%d" % r, R(6, r, 0), r in (1, 2)) for r in (0, 1, 2, 3)], *[("by_several_%d" % r, W(r, 0), r in (1, 2)) for r in (0, 1, 2, 3)],
    ("by_read", R(3, 1, 1), False), ("by_coil", R(5, 1, 0), False), ("by07", M(7, 0, 1, 0, 0), False), ("by_coils", C(1, 1, 0), False),
    ("by11", M(0x11, 0, 1, 0, 0), False), ("by_sample", P(0), False), ("by_temperature", T(0), False),
    *[("by_text_" + name, B(text), name in ("as", "ss")) for name, text, _ in BY_TEXT], ("by_text_is_off", B("IS0"), False),
    ("by_text_like_code", B("OS1\xe3"), False), ("by_code_like_text", LIKE_TEXT, False),
]

# One input alone (E3): its accepted bits, and what a module holds of it after some samples -----------------------------

def around(number, outputs, presets, links, thermostats, notice, readings, tested, *ports):
    """A module of the reference whose inputs are fresh."""
    m = reference.Module()
    for out, pulse, preset, link, thermostat in zip(m.out, outputs, presets, links, thermostats):
        (out.on, out.left), (out.ptype, out.ptime), out.link, out.th = pulse, preset, link, thermostat
    m.n, (m.notice, m.mask, m.sig), (m.reading, m.last), m.tested = number, notice, readings, tested
    (m.sa, m.ss, m.sp), (m.ma, m.ms, m.mp) = ports
    return m


# what the inputs stand among: outputs and their pulses, presets, links, thermostats, the notice, readings, the ports
AROUND = {
    "fresh_module": reference.Module(),
    "busy": around(1, [(1, 2), (0, 1), (1, 0)], [(2, 5), (3, 255), (0, 9)], [(0, 0), (16, 4), (1, 1)],
                   [(0x81, 300, 200, 0, 1), (0xD1, 0, -5, 9, 2), (0x29, 5, 5, 1, 0)],
                   (reference.BINARY, 0xFFFF, 7), (250, 250), False, (0x32, 7, True), (5, 3, True)),
    "hot": around(3, [(0, 500), (1, 3), (0, 0)], [(0, 0), (2, 1), (3, 3)], [(8, 2), (1, 3), (5, 1)],
                  [(0xA9, 250, 200, 0, 2), (0, 1, 2, 3, 2), (0x81, -1, -2, 0, 0)],
                  (reference.BINARY, 0x0110, 0x5A), (None, 301), True, (0x31, 6, False), (0x31, 6, True)),
}


def joined(items):
    """A list as antt, three or more equal neighbours by `replicate`."""
    text = ""
    for item, equal in reversed([(item, len(list(equal))) for item, equal in itertools.groupby(map(str, items))]):
        if equal < 3:
            text = f"{item} ∷ " * equal + (text or "[]")
        else:
            text = f"replicate {equal} " + (f"({item})" if " " in item else item) + (f" ++ {text}" if text else "")
    return text or "[]"


def standing(place, number, k, own, others, links=None):
    """A module as antt and in the reference: one of AROUND with these inputs, each in four parts: is it on, its run, its mode, its counter; and
    with other links, if they are given."""
    fours = [own if j == k else others(j) for j in range(1, 17)]
    m = copy.deepcopy(AROUND[place])
    if links:
        place = f"(with_links {place} ({joined('link %d %d' % link for link in links)}))"
        for out, link in zip(m.out, links):
            out.link = link
    m.n = number
    m.stable, m.run, m.mode, m.cnt = (list(part) for part in zip(*fours))
    lines = ["line %s %d" % ("true" if stable else "false", run) for stable, run, *_ in fours]
    return inputs(joined(lines), joined(m.mode), joined(m.cnt), number, place), m


def accepted(m, k, sampled):
    """Input k's bits of the samples, by room and bits, that a module accepts when it takes them."""
    return [bits >> k - 1 & 1 == 1 for room, bits in sampled if m.sample(bits, room)[0] == 0]


def bits_of(name, shows, k, sampled, place="fresh_module"):
    """A row: the accepted bits of input k."""
    return name, shows, k, place, sampled, accepted(copy.deepcopy(AROUND[place]), k, sampled)


def alike(name, shows, k, number, own, *sides):
    """Two rows: what two modules that agree in input k hold of it after their samples. A side is a place, its other inputs, and samples."""
    pair, brought = [], []
    for also, told, (place, others, sampled) in zip(("", "_elsewhere"), (shows, ""), sides):
        text, m = standing(place, number, k, own, others)
        brought.append(accepted(m, k, sampled))
        pair.append((name + also, told, k, text, sampled, (m.stable[k - 1] == 1, m.run[k - 1], m.mode[k - 1], m.cnt[k - 1])))
    if brought[0] != brought[1] or pair[0][-1] != pair[1][-1]:
        raise ValueError("%s is no such pair: %s %s" % (name, brought, pair))
    return pair


def fresh_one(_):
    """Another input as it is fresh."""
    return 0, 0, 0, 0


def each(*four):
    """All other inputs alike."""
    return lambda _: four


def mixed(number):
    """Other inputs that differ among themselves, some of them one sample before an edge."""
    return lambda j: (j // 2 % 2, (7 * j + number - 1) % number, j % 4, 300 * j)


def taken(*bits):
    """Samples that are accepted."""
    return [(256, b) for b in bits]


def lost(*bits, room=255):
    """Samples that are refused."""
    return [(room, b) for b in bits]


# one list for several inputs, whose neighbours have other bits in it
BROUGHT = taken(0x8002) + lost(0xFFFF) + [(257, 0x0101)] + taken(0x7F7D) + lost(0, room=0) + taken(0x8083, 0x4141, 0x0080)

BITS = [
    bits_of("no_samples", "no bits of no samples", 1, []),
    bits_of("all_refused", "none where all are refused", 1, lost(1, room=0) + lost(0xFFFF, 1)),
    bits_of("rooms", "up to 255 bytes lent: refused; 256, 257 and more: accepted", 1, [(0, 1), (255, 1), (256, 1), (257, 0), (256, 0), (65536, 1), (1, 0), (511, 1)]),
    bits_of("first_refused", "the first sample refused", 2, lost(2) + taken(0xFFFD, 2)),
    bits_of("some_refused", "one in the middle", 8, taken(0x80) + lost(0xFF7F, room=0) + taken(0xFF7F)),
    bits_of("last_refused", "the last one", 16, taken(0x8000, 0x7FFF) + lost(0x8000)),
    *[bits_of("bits_of_%d" % k, "from one list with two refused, each input's own bits" if k == 1 else "", k, BROUGHT) for k in (1, 2, 8, 16)],
    bits_of("bits_elsewhere", "the same where each edge draws a notice", 16, BROUGHT, "busy"),
]

PAIRS = [
    alike("first_among_edges", "input 1 by itself, and while all others have edges: number 1, mode 3", 1, 1, (0, 0, 3, 5),
          ("fresh_module", fresh_one, taken(1, 0, 1)), ("busy", mixed(1), lost(0, room=0) + taken(0xFFFF) + lost(0xFFFE) + taken(0) + [(257, 0xAAAB)] + lost(0))),
    alike("last_among_edges", "input 16, one sample before an edge, with all others or with none: number 3, mode 1, so a falling edge is not counted", 16, 3, (0, 2, 1, 9),
          ("busy", each(0, 2, 3, 1), lost(0x8000, 0) + taken(0xFFFF, 0x7FFF, 0x0000, 0x5555, 0x8000, 0xAAAA)),
          ("hot", each(1, 0, 2, 65535), taken(0x8000, 0x0001) + lost(0x8000, room=0) + taken(0x7FFF, 0x2AAA, 0xD555, 0xFFFF) + lost(0x0000))),
    alike("past_the_limit", "4,294,967,295 and an edge: 0, beside others at that limit and below it: stable on, number 1, mode 2", 8, 1, (1, 0, 2, 4294967295),
          ("hot", each(1, 0, 3, 4294967295), taken(0x0000, 0x0080)), ("fresh_module", mixed(1), lost(0xFFFF) + taken(0xFF7F) + lost(0x00FF) + taken(0xFFFF) + lost(0, 0))),
    alike("half_a_run", "a run of 10 goes on to 19, with refused samples between: number 20", 2, 20, (0, 10, 3, 100),
          ("busy", mixed(20), taken(*[2] * 4) + lost(0) + taken(*[0xFFFF] * 5)), ("hot", each(0, 19, 1, 0), lost(2) + taken(*[0xAAAA] * 3) + lost(0, 0) + taken(*[2] * 6) + lost(2, 2))),
    alike("none_selected", "mode 0 counts no edge, whatever the others' modes: stable on, number 1", 9, 1, (1, 0, 0, 7),
          ("fresh_module", each(1, 0, 3, 7), taken(0, 0x0100, 0x0100, 0)), ("busy", each(0, 0, 1, 0), taken(0xFEFF, 0xFFFF) + lost(0, room=254) + taken(0x0100, 0xFEFF))),
    alike("longest_run", "number 255: the second sample brings the edge, the third begins a run: mode 2", 1, 255, (1, 253, 2, 0),
          ("hot", each(0, 254, 3, 9), taken(0xFFFE, 0, 1)), ("busy", mixed(255), taken(0) + lost(1, room=0) + taken(0xFFFE, 0xFFFF))),
    alike("run_ended", "an equal sample ends the run, a refused one does not: stable on, number 3", 5, 3, (1, 2, 3, 65535),
          ("fresh_module", fresh_one, taken(0x0010, 0, 0)), ("hot", mixed(3), lost(0) + taken(0xFFFF, 0xFFEF) + lost(0x0010, 0x0010) + taken(0x0F0F))),
    alike("none_accepted", "no sample, and refused ones alone: all stays", 3, 20, (1, 7, 1, 300),
          ("busy", each(0, 19, 1, 2), []), ("hot", fresh_one, lost(0, 0xFFFB, room=0) + lost(4, 0))),
]

# the last is typed from docs/DECISIONS.md
ALONE = [*BITS, *[side for pair in PAIRS for side in pair],
         ("lacking", "an input and a mode that the lists lack read as fresh ones", 1, inputs("[]", "[]", "[]", 1), [], (False, 0, 0, 0))]
