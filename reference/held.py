"""What the definitions are held to, in a form that a changed definition can be tried on.

Rows: the cases, the tallies, the rows about claims and those about one input of rows.py, and the equations of the files Readings,
Puts and GroupTable of crates/model/proofs.
Programs: the scripts of rack and scenarios with their stored outputs. What is proved of every state and call is in laws.py.

Each is first tried on the definitions as they are, and notes which of them it calls: a change of another one cannot matter there.
"""
import os
import re

import play
import rows
from translate import ROOT, Definitions, Parser, Writer, parsed, python, read, tokens, variable

TABLES = {"RackTable": rows.RACK, "Witnesses": rows.WITNESSES, "FrameTable": rows.FRAMES, "SampleTable": rows.SAMPLES,
          "CounterTable": rows.COUNTERS, "PortTable": rows.PORTS, "OutputTable": rows.OUTPUTS, "NoticeTable": rows.NOTICES,
          "ThermostatTable": rows.THERMOSTATS, "RegisterTable": rows.REGISTERS, "CoilTable": rows.COILS, "TextTable": rows.TEXTS,
          "LinkTable": rows.LINKS, "UnreachedTable": rows.UNREACHED}
# a state that is too far for playing, as the law of Wraps gives it
NEARER = {"(run fresh_module (cycles 2147483647))": "counted 4294967294"}
PROGRAMS = ["rack", "scenarios"]
TEXT = b"*B"  # what a reply in text begins with, which has no checksum
LONG = 1000  # samples: no row has more, but the scripts have


class World:
    """The definitions as they are: as functions, and as functions that note what is called."""

    def __init__(self):
        self.definitions = Definitions()
        # the names in the states that cases start from
        self.definitions.scopes["rows"] = {name: key for file in ("State", "Wraps", "AloneTable") for name, key in self.definitions.scopes[file].items()}
        self.calling = set()
        self.plain, self.traced = self.definitions.functions(), self.definitions.functions(self.calling)
        for kind in ("spinel", "modbus"):
            closed(kind, [1, 2, 3, 4], self.traced)
        self.checksums = self.called()

    def called(self):
        """What was called since it was last asked for."""
        names = frozenset(self.calling)
        self.calling.clear()
        return names

    def state(self, text, values):
        """A state that a case starts from."""
        return self.definitions.evaluate(NEARER.get(text, text), "rows", values)


class Held:
    """Something that the definitions are held to: its name, its kind (row, law or program), and the definitions that it calls."""

    def __init__(self, world, name, kind):
        self.world, self.name, self.kind, self.calls = world, name, kind, frozenset()

    def differs(self, values, key):
        """Does it turn out otherwise by these functions, of which the definition `key` is changed?"""
        raise NotImplementedError


# Calls --------------------------------------------------------------------------------

def call(*act, room=256):
    """A call, with the length of the lent buffer."""
    return {"room": room, "act": act}


def is_frame(kind):
    """Is this kind of a call a frame, which always tells something?"""
    return kind.split()[0] in ("spinel", "modbus")


def closed(kind, frame, values):
    """A frame with the checksum of the definitions, as the tables have it."""
    return values[python("Frames.with_crc" if kind == "modbus" else "Frames.closed")](tuple(frame[:-2]))


def asked(row, values):
    """The calls of a row, each with how many times it is made."""
    kind = row[0]
    if kind == "sample":
        return [(call(kind, row[1], room=row[3]), row[2])]
    if kind == "doors":
        return [(call("sample", bits), 1) for _ in range(row[2]) for bits in row[1]]
    if kind == "temperature":
        return [(call(*row), 1)]
    frame, room = rows.frame(row)
    return [(call(kind.split()[0], tuple(frame) if "bytes" in kind else closed(kind, frame, values), room=room), 1)]


def told(row, answer, values):
    """What must be told of a row: of a frame, and of whatever is refused or writes something."""
    number, reply = answer
    if not (number or reply or is_frame(row[0])):
        return []
    if reply and "bytes" not in row[0] and bytes(reply[:2]) != TEXT:
        reply = closed(row[0], reply, values)
    return [(number, tuple(reply))] * (row[2] if row[0] == "sample" else 1)


def played(step, state, calls):
    """The state after some calls, and what is told of them; when a repeated sample changes nothing any more, the rest is left out."""
    answers = []
    for one, count in calls:
        while count:
            out = step(state, one)
            before, state, count = state, out["after"], count - 1
            if out["refusal"] or out["reply"] or is_frame(one["act"][0]):
                answers.append((out["refusal"], out["reply"]))
            elif count and state == before:
                break
            elif count > LONG:
                state, count = run_down(before, state, count)
    return state, answers


def run_down(before, state, count):
    """Where a sample took one off some pulses and did nothing else, many more of them at once, the end of each pulse apart; and how many
    are then to come."""
    outputs = list(zip(before["outputs"], state["outputs"]))
    pulses = [(was, now) for was, now in outputs if was != now]
    plain = all(now == {"on": was["on"], "left": was["left"] - 1} for was, now in pulses)
    many = min([count] + [now["left"] for _, now in pulses]) - LONG
    if many <= 0 or not plain or {**state, "outputs": None} != {**before, "outputs": None}:
        return state, count
    left = tuple(now if was == now else {"on": now["on"], "left": now["left"] - many} for was, now in outputs)
    return {**state, "outputs": left}, count - many


# Cases and scripts -----------------------------------------------------------------------

class Line:
    """A row of a case or a line of a script: its calls, what is told of them, the states before and after it, what it calls; is it text."""

    def __init__(self, calls, answers=None, row=None, typed=False):
        self.calls, self.answers, self.row, self.typed = calls, answers, row, typed
        self.before = self.after = self.called = None


class Sequence(Held):
    """Lines in order, from a state."""

    def __init__(self, world, name, kind, start, lines):
        super().__init__(world, name, kind)
        self.start, self.lines = start, lines
        self.first = state = world.state(start, world.traced)
        self.began = world.called()
        for line in lines:
            line.before = state
            state, answers = played(world.traced[python("Calls.step")], state, line.calls)
            if line.answers is None:
                line.answers = answers
            if answers != line.answers:
                raise ValueError("%s does not hold at %s: %s" % (name, line.row, answers))
            line.after, line.called = state, world.called()
        self.calls = self.began.union(*(line.called for line in lines))

    def differs(self, values, key):
        """Plays only lines that call the changed definition, as long as the state is the one of the definitions as they are."""
        state = self.world.state(self.start, values) if key in self.began else self.first
        same = state == self.first
        for line in self.lines:
            if same and key not in line.called:
                continue
            calls, answers = self.made(line, values, key)
            state, given = played(values[python("Calls.step")], line.before if same else state, calls)
            if given != answers:
                return True
            same = state == line.after
        return False

    def made(self, line, values, key):
        """A line's calls and answers; where a checksum is changed, the tables' frames change with it."""
        if line.row is None or key not in self.world.checksums:
            return line.calls, line.answers
        return asked(line.row[0], values), told(*line.row, values)


def cases(world):
    """The cases of rows.py."""
    for table, listed in TABLES.items():
        for name, _, start, calls, answers in listed:
            lines = [Line(asked(c, world.plain), told(c, a, world.plain), (c, a)) for c, a in zip(calls, answers or rows.play(calls))]
            yield Sequence(world, "%s.%s" % (table, name), "row", start, lines)


def script_calls(line):
    """The calls of a script's line."""
    words = play.words(line)
    if not words or words[0] not in (b"sample", b"toggle", b"temperature", b"spinel", b"modbus", b"text"):
        raise play.Wrong(play.UNKNOWN)
    kind, rest = words[0].decode(), words[1:]
    if kind == "text":
        return [(call("spinel", tuple(play.text(line))), 1)]
    if kind == "sample":
        bits, count = play.sample(rest)
        return [(call(kind, bits), count)]
    if kind == "toggle":
        one, other, count = play.toggle(rest)
        return [(call("sample", one), 1), (call("sample", other), 1)] * count
    return [(call(kind, *(play.temperature(rest) if kind == "temperature" else [tuple(play.frame(rest))])), 1)]


def script_lines(text):
    """The lines of a script that are calls."""
    for line in text.split(b"\n"):
        try:
            yield Line(script_calls(line), typed=play.words(line)[:1] == [b"text"])
        except play.Wrong:
            pass


def printed(line, number, reply):
    """An answer as a program prints it."""
    if line.typed and reply:
        return "%d %s" % (number, bytes(reply[:-1]).decode("latin-1"))
    return " ".join([str(number)] + ["%02X" % b for b in reply])


def programs(world):
    """The programs' scripts; what they tell must be their stored output, but for the lines about wrong lines."""
    for name in PROGRAMS:
        folder = os.path.join(ROOT, "crates", name)
        with open(os.path.join(folder, "stdin"), "rb") as script, open(os.path.join(folder, "stdout"), encoding="latin-1") as stored:
            whole = Sequence(world, name, "program", "fresh_module", list(script_lines(script.read())))
            wanted = [line.rstrip("\n") for line in stored if line[0].isdigit()]
        given = [printed(line, number, reply) for line in whole.lines for number, reply in line.answers]
        if given != wanted:
            raise ValueError("the stored output of %s does not hold" % name)
        yield whole


# Tallies and equations --------------------------------------------------------------------

class Fact(Held):
    """Something that is worked out whole."""

    def noted(self):
        """The same, once it was found to hold."""
        if self.differs(self.world.traced, None):
            raise ValueError("%s does not hold" % self.name)
        self.calls = self.world.called()
        return self


class Tally(Fact):
    """What the tally holds of some inputs after a list of calls."""

    def __init__(self, world, name, listed, accounts):
        super().__init__(world, "TallyTable." + name, "row")
        self.listed, self.accounts = listed, accounts

    def differs(self, values, key):
        """By the whole list of calls."""
        made = tuple(one for row in self.listed for one, count in asked(row, values) for _ in range(count))
        held = values[python("Cycles.final_tally")](made)["input"]
        return any((held(k)["edges"], held(k)["collected"]) != (edges, collected) for k, edges, collected in self.accounts)


def tallies(world):
    """The tallies of rows.py."""
    return [Tally(world, name, calls, accounts).noted() for name, _, calls, accounts in rows.TALLIES]


class Claim(Fact):
    """What a call leaves of the state, or whether it resets."""

    def __init__(self, world, name, row, wanted):
        super().__init__(world, "ClaimTable." + name, "row")
        self.row, self.wanted = row, wanted

    def differs(self, values, key):
        """By the call's frame alone."""
        one = asked(self.row, values)[0][0]
        if isinstance(self.wanted, bool):
            return values[python("Demand1.resets_module")](one["act"]) != self.wanted
        return values[python("ClaimTable.left")](one) != tuple(self.wanted)


def claims(world):
    """The rows about claims of rows.py."""
    return [Claim(world, *row).noted() for row in rows.LEFT + rows.RESETS]


def sampled(listed):
    """Samples by the bytes lent and the bits, as the definitions have them."""
    return tuple({"room": room, "bits": bits} for room, bits in listed)


class Alone(Fact):
    """What samples bring one input: its accepted bits, or what the module then holds of it."""

    def __init__(self, world, name, _, k, start, listed, wanted):
        super().__init__(world, "AloneTable." + name, "row")
        self.k, self.start, self.samples, self.wanted = k, start, sampled(listed), wanted

    def differs(self, values, key):
        """By the whole list of samples."""
        state = self.world.state(self.start, values)
        if isinstance(self.wanted, list):
            return values[python("Alone.accepted_bits")](self.k, state, self.samples) != tuple(self.wanted)
        after = values[python("Calls.run")](state, values[python("Alone.sample_calls")](self.samples))
        return values[python("AloneTable.four")](self.k, after) != values[python("AloneTable.view")](*self.wanted)


def alone(world):
    """The rows about one input of rows.py."""
    return [Alone(world, *row).noted() for row in rows.ALONE]


class Replies(Fact):
    """A case by the definition that the tables use, which makes a list of the answers."""

    def __init__(self, case):
        super().__init__(case.world, "%s as a list" % case.name, "row")
        self.case = case

    def differs(self, values, key):
        """By the answers that tell something."""
        made = tuple(one for line in self.case.lines for one, count in line.calls for _ in range(count))
        answers = values[python("Calls.replies")](self.case.first, made)
        return [(x["refusal"], x["bytes"]) for x in answers if x["refusal"] or x["bytes"]] != [
            answer for line in self.case.lines for answer in line.answers if answer != (0, ())]


class Equation(Fact):
    """Two sides that are equal, whatever stands for the variables: a text of their own does."""

    def __init__(self, world, file, name, variables, sides):
        super().__init__(world, "%s.%s" % (file, name), "row")
        writer = Writer(world.definitions, file)
        texts = [writer.written(parsed(side), frozenset(variables)) for side in sides]
        names, stand_ins = ", ".join(map(variable, variables)), ", ".join(map(repr, variables))
        self.code = compile("(lambda %s: %s == %s)(%s)" % (names, *texts, stand_ins), self.name, "eval")

    def differs(self, values, key):
        """By both sides."""
        return not eval(self.code, values)


def equations(world):
    """The equations of the records of Readings, Puts and GroupTable, and the one of Puts that stands alone."""
    for file in ("Readings", "Puts", "GroupTable"):
        outer = None
        for line in read("proofs", file):
            record = re.match(r"pub record \w+(.*) : Type 0 where", line)
            alone = re.match(r"pub \w+ : (\([^()]*\) )+→ [^→]* ≡", line)  # binders alone before it
            if record:
                outer = Parser(tokens(record[1])).bound()
            elif line[0] != " " and not alone:
                outer = None
            if re.match(r" *pub \w+ : .* ≡", line) and (alone or outer is not None):
                yield equation(world, file, line, [] if alone else outer)


def equation(world, file, line, outer):
    """The equation of a line, within the variables of its record."""
    name, claim = line.strip()[len("pub "):].split(" : ", 1)
    inner = Parser(tokens(claim))
    variables = outer + inner.bound()
    claim = claim.rsplit("→ ", 1)[-1] if len(variables) > len(outer) else claim
    return Equation(world, file, name, variables, claim.split(" ≡ ")).noted()
