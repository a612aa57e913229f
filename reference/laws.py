"""What is proved of every state and call, tried on the states and calls of the cases: Refusals and Permissions of Demand1, PartsKept of
Parts, the claims of Linked, Conserved of Cycles, and the step of Wraps; how every request is judged, tried on each set of the conditions 7 to 14;
SettingKept and HeatKept of Temperature, on settings with every byte of flags; and OneInputAlone of Alone, on pairs of modules.
"""
import itertools
import random

import rows
from held import Fact, Held, sampled
from translate import python

LIMIT = 4294967296  # a counter is below it
LONG = 400  # calls: demand 3 is tried on cases of at most so many
REFUSALS = range(7, 15)  # what a request may be refused by
READINGS = [("Fault",)] + [("Valid", tenths, 0) for tenths in (-1, 0, 199, 200, 250, 251, 300, 301)]


def first_of(checks):
    """The number of the first condition that holds, or 0."""
    return next((check["number"] for check in checks if check["holds"]), 0)


# Laws about one call in a state: functions of a way to call definitions by their names, the state and the call -------------------

def refusals(f, m, c):
    """Refusals: the first condition that holds refuses, and what a refusal leaves and tells."""
    out = f("Calls.step", m, c)
    number, reply = out["refusal"], out["reply"]
    first = first_of(f("Demand1.checks", m, c["room"], c["act"]))
    return (number == first <= f("Demand1.greatest") and len(reply) <= 256
            and (not 1 <= number <= 6 or out["after"] == m and reply == ())
            and (number < 7 or out["after"] == f("Demand1.permission_ended", c["act"], m))
            and (number < 7 or reply == f("Demand1.refusal_reply", number, c["act"], m))
            and (not f("Demand1.is_broadcast", c["act"]) or reply == ()))


def permissions(f, m, c):
    """Permissions: an accepted call leaves its port permitted where it gives the permission; a reset ends both."""
    out = f("Calls.step", m, c)
    after = out["after"]
    return (out["refusal"] != 0
            or f("Demand1.port_permitted", c["act"], after) == f("Demand1.gives_permission", c["act"])
            and (not f("Demand1.resets_module", c["act"]) or not after["spinel"]["permitted"] and not after["modbus"]["permitted"]))


def parts_kept(f, m, c):
    """PartsKept: what a call leaves is as it was."""
    return f("Parts.leaves", c["act"], f("Calls.step", m, c)["after"]) == f("Parts.leaves", c["act"], m)


def links_aside(f, m, c):
    """LinksAside: of a sample only outputs go by links and outputs; tried with no link, and with links of every action, 0 too."""
    def told(n):
        out = f("Calls.step", n, c)
        return out["refusal"], out["reply"], f("Parts.without_outputs", f("Parts.without_links", out["after"]))

    crosswise = tuple({"input": k, "action": k % 5} for k in range(16, 0, -1))
    return c["act"][0] != "sample" or all(told(f("State.with_outputs", f("State.with_links", m, ls), ())) == told(m) for ls in ((), crosswise))


def never_both(f, m):
    """NeverBoth: no output has a link and an active thermostat."""
    return not any(f("Linked.link_of", m, n)["action"] and f("Linked.thermostat_of", m, n)["flags"] >= 128 for n in range(1, 18))


def links_apart(f, m, c):
    """LinksApart: a call keeps it so."""
    return not never_both(f, m) or never_both(f, f("Calls.step", m, c)["after"])


def pulses_end_by_links(f, m, c):
    """PulsesEndByLinks: a link that does not act leaves its output to its pulse, one that acts leaves none."""
    if c["act"][0] != "sample":
        return True
    bits = c["act"][1]
    after = f("Calls.sampled", bits, m)["after"]
    return all(f("Linked.output_of", after, n)["left"] == 0 if f("Linked.link_acts", bits, m, n)
               else f("Linked.output_of", after, n) == f("Outputs.pulsed", f("Linked.output_of", m, n)) for n in range(0, 18))


def naming(values):
    """A way to call definitions by their names."""
    return lambda key, *arguments: values[python(key)](*arguments)


class OnCalls(Held):
    """A law about one call in a state, on the first call of every row of a case."""

    def __init__(self, world, law, case):
        super().__init__(world, "%s on %s" % (law.__name__, case.name), "law")
        self.law, self.places = law, []
        for line in case.lines:
            place = line.before, line.calls[0][0]
            if not law(naming(world.traced), *place):
                raise ValueError("%s does not hold at %s" % (self.name, line.row))
            self.places.append((*place, world.called()))
        self.calls = frozenset().union(*(called for *_, called in self.places))

    def differs(self, values, key):
        """At a place that calls the changed definition."""
        return any(key in called and not self.law(naming(values), m, c) for m, c, called in self.places)


# Laws about a list of calls ----------------------------------------------------------------

class Conserved(Fact):
    """Demand 3 of a case's calls from a fresh module, for some inputs: the edges are what was collected and the counter."""

    def __init__(self, world, case):
        super().__init__(world, "Conserved on " + case.name, "law")
        self.made = tuple(one for line in case.lines for one, count in line.calls for _ in range(count))

    def differs(self, values, key):
        """The sum always; exactly where at most 4,294,967,295 stand uncollected at the end, or never more did since the last clearing."""
        f = naming(values)
        held = f("Cycles.final_tally", self.made)
        events = f("Cycles.events", f("State.fresh_module"), self.made)
        for k in (1, 2, 16):
            account, counter = held["input"](k), f("Cycles.counter_now", self.made, k)
            more = account["edges"] - account["collected"] - counter
            stayed = f("Tally.stayed", k, True, f("Tally.fresh_tally"), events)
            if more < 0 or more % LIMIT or more and (stayed or f("Tally.uncollected", held, k) < LIMIT):
                return True
        return False


class Turn(Fact):
    """The step of Wraps: one cycle more counts two edges, modulo 4,294,967,296."""

    def __init__(self, world, count):
        super().__init__(world, "Wraps.turn at %d" % count, "law")
        self.count = count

    def differs(self, values, key):
        """By one cycle from that count."""
        f = naming(values)
        cycle = tuple(f("Exchanges.sample_of", bits) for bits in (1, 0))
        return f("Calls.run", f("Wraps.counted", self.count), cycle) != f("Wraps.counted", (self.count + 2) % LIMIT)


class OneInputAlone(Fact):
    """OneInputAlone: modules of one sampling number that agree in input k do so after samples that bring it the same accepted bits."""

    def __init__(self, world, name, k, holds, *sides):
        """A side is a module as text, and samples; `holds`: are they such modules and samples?"""
        super().__init__(world, "OneInputAlone on " + name, "law")
        self.k, self.holds = k, holds
        self.sides = [(world.state(start, world.plain), sampled(listed)) for start, listed in sides]

    def four(self, f, m):
        """What they agree in."""
        line = f("Alone.line_of", m, self.k)
        return line["stable"], line["run"], f("Alone.mode_of", m, self.k), f("Cycles.counter_of", m, self.k)

    def asked(self, f):
        """Does all hold that the claim asks for?"""
        (m, ss), (n, ts) = self.sides
        return (self.k <= min(len(part) for one in (m, n) for part in (one["inputs"]["lines"], one["inputs"]["counters"]))
                and m["settings"]["sampling"] == n["settings"]["sampling"] and self.four(f, m) == self.four(f, n)
                and f("Alone.accepted_bits", self.k, m, ss) == f("Alone.accepted_bits", self.k, n, ts))

    def differs(self, values, key):
        """They may have come to differ only where something was not as asked."""
        f = naming(values)
        one, other = (self.four(f, f("Calls.run", m, f("Alone.sample_calls", ss))) for m, ss in self.sides)
        return one != other and self.asked(f)

    def noted(self):
        """Such a pair, or none, as it was meant."""
        if self.asked(naming(self.world.plain)) != self.holds:
            raise ValueError("%s is not as it was meant" % self.name)
        return super().noted()


def among(chance, k, bits):
    """Samples that bring input k these bits, whatever they bring the others, refused ones among them."""
    listed = []
    for bit in bits:
        listed += [(chance.choice((0, 1, 128, 255)), chance.getrandbits(16)) for _ in range(chance.choice((0, 0, 0, 1, 2)))]
        listed.append((chance.choice((256, 256, 257, 65536)), chance.getrandbits(16) & ~(1 << k - 1) | bit << k - 1))
    return listed + [(255, chance.getrandbits(16)) for _ in range(chance.choice((0, 1)))]


def input_of(chance, number):
    """An input: is it on, its run (often the last before an edge), its mode and its counter."""
    return chance.getrandbits(1), max(0, number - chance.randint(1, 4)), chance.randrange(4), chance.choice((0, 255, 65535, LIMIT - 2, LIMIT - 1))


def links_of(chance):
    """A link for each output, or now and then None: the module keeps its own."""
    return [(chance.randint(1, 16), action) if action else (0, 0) for action in (chance.randrange(5) for _ in range(16))] if chance.randrange(4) else None


def pairs(count):
    """Pseudo-random modules that agree in an input, each with samples; now and then one brings it a bit more than the other, or none alike."""
    chance = random.Random(3)
    for at in range(count):
        k, number = at % 16 + 1, chance.choice((1, 1, 2, 3, 20, 255))
        own = input_of(chance, number)
        bits = [1 - own[0]] * 4 + [chance.getrandbits(1) for _ in range(chance.randrange(9))]  # four: an edge, as a run lacks no more
        others = {1: [*bits, 1], 4: [1 - bit for bit in bits] or [0]}.get(at % 6, bits)
        sides = [(rows.standing(chance.choice(list(rows.AROUND)), number, k, own, lambda _: input_of(chance, number), links_of(chance))[0],
                  among(chance, k, brought))
                 for brought in (bits, others)]
        yield "random pair %d" % (at + 1), k, others == bits, *sides


# Laws about thermostats' settings -----------------------------------------------------------

class SettingKept(Fact):
    """SettingKept: settings with some flags can be stored where they could be before or else have a new mode; those of before act and show alike."""

    def __init__(self, world, flags):
        super().__init__(world, "SettingKept at %02XH" % flags, "law")
        limits = (300, 200), (250, 250), (-1, 0), (32767, -32768)
        self.settings = [{"flags": flags, "tempx": x, "tempy": y, "time": {"0": time}, "err": err}
                         for x, y in limits for time in (0, 1, 255) for err in (0, 2, 3)]

    def differs(self, values, key):
        """For some setting, reading and output."""
        f = naming(values)
        return not all(self.kept(f, h) for h in self.settings)

    def kept(self, f, h):
        """SettingKept of one setting."""
        before = f("Temperature.fits_before", h)
        new = f("Temperature.is_new_mode", h)
        if f("Temperature.thermostat_fits", h) != (before or new) or before and new:
            return False
        if any(f("Temperature.free", r, h) != f("Temperature.free_before", r, h) for r in READINGS):
            return False
        if not before:
            return True
        if f("Temperature.active", h) and (f("Temperature.third_s", h) or f("Temperature.setting_shown", h) != f("Temperature.setting_before", h)):
            return False
        outputs = [{"on": on, "left": left} for on in (False, True) for left in (0, 7)]
        lasts = [r for r in READINGS if r[1:2] in ((), (250,), (301,))]
        return all(f("Temperature.heated", last, now, h, o) == f("Temperature.heated_before", last, now, h, o)
                   for last in lasts for now in (199, 200, 250, 300, 301) for o in outputs)


class HeatKept(Fact):
    """HeatKept: a reading does to a module with settings of before what it did."""

    def __init__(self, world, case):
        super().__init__(world, "HeatKept on " + case.name, "law")
        self.states = [line.before for line in case.lines]

    def differs(self, values, key):
        """In some state of a case whose settings could all be stored before."""
        f = naming(values)
        kept = [m for m in self.states if all(f("Temperature.fits_before", h) for h in m["settings"]["thermostats"])]
        readings = ("Fault",), ("Valid", 301, 0), ("Valid", 199, 0)
        return any(f("Temperature.taken", r, m) != f("Temperature.taken_before", r, m) for m in kept for r in readings)


# A law about a request -----------------------------------------------------------------------

class Judged(Fact):
    """judged_follows of Refused: the first of the claim's conditions refuses, the part is then as before, and there are no data; and
    judged_either of Judged: where none holds, it does what it asks for."""

    def __init__(self, world, numbers):
        super().__init__(world, "Refused.judged_follows of " + (" ".join(map(str, numbers)) or "none"), "law")
        self.request = {"holds": lambda number: number in numbers, "after": "after", "reply": (1,)}

    def differs(self, values, key):
        """By the request with these conditions and no other."""
        f = naming(values)
        first = first_of(f("Demand1.request_checks", self.request))
        part, reply = ("before", ()) if first else ("after", (1,))
        return f("Refusals.judged", "before", self.request) != {"refusal": first, "part": part, "reply": reply}


def laws(world, cases):
    """All of them: those about a call on every case, demand 3 on the cases from a fresh module, that about a request on every set."""
    for law in (refusals, permissions, parts_kept, links_aside, links_apart, pulses_end_by_links):
        yield from (OnCalls(world, law, case) for case in cases)
    short = [case for case in cases if case.start == "fresh_module" and sum(count for line in case.lines for _, count in line.calls) <= LONG]
    yield from (Conserved(world, case).noted() for case in short)
    yield from (Turn(world, count).noted() for count in (0, 254, 65534, LIMIT - 3, LIMIT - 2, LIMIT - 1))
    yield from (OneInputAlone(world, one[0], one[2], True, one[3:5], other[3:5]).noted() for one, other in rows.PAIRS)
    yield from (OneInputAlone(world, *pair).noted() for pair in pairs(96))
    yield from (SettingKept(world, flags).noted() for flags in range(256))
    heated = [case for case in cases if any(one["act"][0] == "temperature" for line in case.lines for one, _ in line.calls)]
    yield from (HeatKept(world, case).noted() for case in heated)
    sets = (numbers for count in range(len(REFUSALS) + 1) for numbers in itertools.combinations(REFUSALS, count))
    yield from (Judged(world, numbers).noted() for numbers in sets)
