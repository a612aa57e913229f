#!/usr/bin/env python3
"""Writes the tables of closed cases of crates/model/proofs: Computing, RackTable, Witnesses, FrameTable, SampleTable, CounterTable,
PortTable, OutputTable, NoticeTable, ThermostatTable, RegisterTable, CoilTable, TextTable, LinkTable, UnreachedTable, TallyTable, ClaimTable,
AloneTable.

Usage:  reference/tables.py         writes them as rt fmt lays them out
        reference/tables.py --count prints how many rows there are

The cases are in rows.py; what they answer is worked out by module.py, which is written from documents 01 and 02 alone. The prover then holds the
definitions to these answers.
"""
import os
import re
import sys
import textwrap

sys.dont_write_bytecode = True
import module as reference
import rows

ROOT = os.path.dirname(os.path.dirname(os.path.abspath(__file__)))
PROOFS = os.path.join(ROOT, "crates/model/proofs/")
SPECS = """State Times Samples Frames Refusals Wire Counters SumTest Temperature Links Outputs Text Notice Registers Spinel Modbus Call Calls Demand1 Tally
Cycles Parts Alone""".split()
LISTS = "Tests Mapi Walk Numbers Chunks Entries".split()
TEXT = [0x2A, 0x42]  # what a text begins with
SHUT = {"done", "walk", "all_pass", "some_below", "entries_of", "entry_added"}
WIDTH = 150


# Text -------------------------------------------------------------------------------

def hexed(b):
    return f"0x{b:02X}"


def plain(n):
    """A number of a register or a quantity; a value beyond 1,000 in hex."""
    return str(n) if n < 1000 else f"0x{n:04X}"


def listed(items, show, indent=6):
    """A list, a long run of equal items by `replicate`, long lines broken."""
    if not items:
        return "[]"
    if len(items) > 8 and len(set(items)) == 1:
        return f"(replicate {len(items)} {show(items[0])})"
    lines, line = [], ""
    for i in items:
        if len(line) > 90:
            lines.append(line.rstrip())
            line = ""
        line += show(i) + " ∷ "
    return "(" + ("\n" + " " * indent).join(lines + [line + "[]"]) + ")"


def hex_list(bs):
    return listed(bs, hexed)


def word_at(bs, k):
    return bs[k] * 256 + bs[k + 1]


def words_of(bs):
    return [word_at(bs, k) for k in range(0, len(bs), 2)]


def lent(text, room):
    return text if room == 256 else f"lending {room} ({text})"


def spinel_text(a, s, code, data):
    name = "asked" if (a, s) == (0x31, 2) else f"asked_at {hexed(a)}" if s == 2 else f"asked_by {hexed(s)}"
    if a != 0x31 and s != 2:
        raise ValueError("neither address nor signature is plain")
    return f"{name} {hexed(code)} {hex_list(data)}"


def modbus_text(a, fn, body):
    if a != 0x31:
        return f"sent_to {hexed(a)} {hexed(fn)} {hex_list(body)}"
    if 1 <= fn <= 6 and len(body) == 4:
        return f"requested {hexed(fn)} {plain(word_at(body, 0))} {plain(word_at(body, 2))}"
    if fn == 0x10 and len(body) > 5 and body[4] == len(body) - 5 == 2 * word_at(body, 2):
        return f"written {plain(word_at(body, 0))} {listed(words_of(body[5:]), plain)}"
    if fn == 0x0F and len(body) >= 5 and body[4] == len(body) - 5:
        return f"switched {plain(word_at(body, 0))} {plain(word_at(body, 2))} {hex_list(body[5:])}"
    return f"sent {hexed(fn)} {hex_list(body)}"


def call_text(c):
    kind = c[0]
    if kind == "sample":
        return lent(f"sample_of {plain(c[1])}", c[3])
    if kind == "temperature":
        tenths = f"(pos {c[2]})" if c[2] >= 0 else f"(negsuc {-c[2] - 1})"
        return f"temperature_of {'true' if c[1] else 'false'} {tenths}"
    if kind == "spinel":
        return lent(spinel_text(*c[1:5]), c[5])
    if kind == "modbus":
        return lent(modbus_text(*c[1:4]), c[4])
    return lent(f"{kind.split()[0]}_frame {hex_list(c[1])}", c[2])


def spinel_answer(n, bs):
    a, s, code, data = bs[4], bs[5], bs[6], bs[7:-2]
    if code == 0x0D:
        return f"announces {hexed(a)} {hexed(s)} {hex_list(data)}"
    which, more = ("", "") if (a, s) == (0x31, 2) else ("_from", " " + hexed(a)) if s == 2 else ("_to", " " + hexed(s))
    return f"refuses{which}{more} {n} {hexed(code)}" if n else f"answers{which}{more} {hex_list(data)}"


def modbus_answer(n, bs):
    a, fn, body = bs[0], bs[1], bs[2:-2]
    where, more = ("", "") if a == 0x31 else ("_from", " " + hexed(a))
    if n:
        return f"excepts{where}{more} {n} {hexed(fn)} {hexed(body[0])}"
    if a == 0x31 and fn in (3, 4) and len(body) <= 33:
        return f"shows {hexed(fn)} {listed(words_of(body[1:]), plain)}"
    if a == 0x31 and fn in (5, 6, 0x0F, 0x10):
        return f"echoes {hexed(fn)} {plain(word_at(body, 0))} {plain(word_at(body, 2))}"
    return f"gives{where}{more} {hexed(fn)} {hex_list(body)}"


def answer_text(c, n, bs):
    if not bs:
        return f"silently {n}"
    if c[0].endswith("bytes") or bs[:2] == TEXT:
        return f"reply {n} {hex_list(bs)}"
    return modbus_answer(n, bs) if c[0] == "modbus" else spinel_answer(n, bs)


def row_text(c, answer):
    """One row, with what joins it to the next."""
    if c[0] == "doors":
        return f"in_turn {c[2]} {listed(c[1], plain)} ++"
    if c[0] == "sample" and c[2] > 1:
        return f"quiet {c[2]} {plain(c[1])} ++"
    asked, told = call_text(c), answer_text(c, *answer)
    joint = " ⇒ " if len(asked.split("\n")[-1]) + len(told.split("\n")[0]) < WIDTH - 10 else "\n      ⇒ "
    return f"({asked}{joint}{told}) ∷"


def case_text(name, shows, start, calls, answers):
    lines = "".join(f"      {row_text(c, a)}\n" for c, a in zip(calls, answers or rows.play(calls)))
    head = f"  pub {name} : Plays {start} ("
    head = head if len(head) <= WIDTH else f"  pub {name} : Plays\n      {start} ("
    return f"  -- {shows}\n{head}\n{lines}      [])\n"


def tally_text(name, shows, calls, accounts):
    shown = ""
    for c in calls:
        if c[0] == "doors":
            shown += f"      samples_in_turn {c[2]} {listed(c[1], plain)} ++\n"
        elif c[0] == "sample" and c[2] > 1:
            shown += f"      replicate {c[2]} (sample_of {plain(c[1])}) ++\n"
        else:
            shown += f"      {call_text(c)} ∷\n"
    held = " ∷ ".join("account %d %d %d" % a for a in accounts)
    return f"  -- {shows}\n  pub {name} : Tallies (\n{shown}      [])\n      ({held} ∷ [])\n"


def claim_text(name, call, wanted):
    """What a call leaves of the state, or whether it resets."""
    if isinstance(wanted, bool):
        return f"  pub {name} : resets_module ({call_text(call)}).act ≡ {'true' if wanted else 'false'}\n"
    return f"  pub {name} : left ({call_text(call)}) ≡ {' ∷ '.join(map(str, wanted))} ∷ []\n"


def broken(text):
    """A text of lists and modules, its lines ended before a part of a module or behind an item."""
    lines = []
    for part in re.split(r" (?=\(with_inputs|\(record|\(sample_calls)", text):
        lines.append("")
        for piece in re.split(r"(?<=[∷+;]) (?!\[\])", part):
            if len(lines[-1]) + len(piece) > WIDTH - 10:
                lines.append("")
            lines[-1] += " " + piece if lines[-1] else piece
    return "\n      ".join(lines)


def listing(items):
    """A list as an argument."""
    text = rows.joined(items)
    return f"({text})" if items else text


def alone_text(name, shows, k, module, sampled, wanted):
    """The accepted bits of input k, or what a module holds of it after some samples."""
    samples = listing([f"sample_in {room} {plain(bits)}" for room, bits in sampled])
    if isinstance(wanted, list):
        claim, value = f"accepted_bits {k} {module} {samples}", "".join(said(bit) + " ∷ " for bit in wanted) + "[]"
    else:
        claim, value = f"four {k} (run {module} (sample_calls {samples}))", "view " + " ".join(map(said, wanted))
    text = f"  pub {name} : {claim} ≡ {value}\n"
    text = text if len(text) <= WIDTH else f"  pub {name} : {broken(claim)}\n      ≡ {value}\n"
    return (f"  -- {shows}\n" if shows else "") + text


def said(part):
    """A truth or a number."""
    return str(part).lower() if isinstance(part, bool) else str(part)


def whole(n):
    """A number with a sign."""
    return f"(pos {n})" if n >= 0 else f"(negsuc {-n - 1})"


def read_text(tenths):
    """A reading."""
    return "Fault" if tenths is None else f"Valid {whole(tenths)} (of_bits binary32 0x{reference.f32_bits(tenths):08X})"


def kept(kind, parts):
    """A list of what a module keeps for each output."""
    return rows.joined([f"{kind} " + " ".join(map(said, part)) if any(part) else "fresh_" + kind for part in parts])


def around_text(name, shows):
    """A module of the reference by its parts, the inputs fresh."""
    m = rows.AROUND[name]
    thermostats = [(hexed(f), whole(x), whole(y), *rest) if any((f, x, y, *rest)) else () for f, x, y, *rest in (out.th for out in m.out)]
    return f"""-- {shows}
abbrev {name} : Module
{name} = record {{
  inputs = fresh_module.inputs;
  outputs = {kept("output", [(out.on == 1, out.left) for out in m.out])};
  settings = record {{
    modes = fresh_module.settings.modes;
    sampling = {m.n};
    presets = {kept("preset", [(out.ptype, out.ptime) for out in m.out])};
    links = {kept("link", [out.link for out in m.out])};
    thermostats = {kept("thermostat", thermostats)};
    notice = notice {hexed(m.notice)} 0x{m.mask:04X} {hexed(m.sig)};
    sum_tested = {said(m.tested)};
  }};
  reading = {read_text(m.reading)};
  last = {read_text(m.last)};
  spinel = port {hexed(m.sa)} {m.ss} {said(m.sp)};
  modbus = port {hexed(m.ma)} {m.ms} {said(m.mp)};
}}

"""


# Files ------------------------------------------------------------------------------

PLACES = {
    "ℕ": "Prim.Native.Nat", "true": "mathlib.Core.Bool", "false": "mathlib.Core.Bool", "refl": "mathlib.Core.Path", "◌≡◌": "mathlib.Core.Path",
    "[]": "mathlib.Core.List", "◌∷◌": "mathlib.Core.List", "◌++◌": "mathlib.Core.List", "List": "mathlib.Core.List", "map": "mathlib.Core.List",
    "flat_map": "mathlib.Core.List", "replicate": "lib.ListN", "pos": "lib.IntN", "negsuc": "lib.IntN",
    **{n: "Rattle.model.specs.State" for n in """fresh_module with_inputs with_sampling with_modes with_counters with_outputs with_presets
       with_links with_thermostats with_reading with_notice with_sum_tested with_spinel with_modbus line output preset link thermostat notice port
       fresh_line fresh_output fresh_preset fresh_link fresh_thermostat""".split()},
    "Valid": "Rattle.model.specs.declared.Reading.TheVariants", "of_bits": "lib.Ieee", "binary32": "lib.Ieee",
    "Call": "Rattle.model.specs.Call", "Tally": "Rattle.model.specs.Tally", "final_tally": "Rattle.model.specs.Cycles",
    "run": "Rattle.model.specs.Calls", "computing": "Rattle.model.proofs.Computing", "unchecked": "Rattle.model.proofs.Computing",
    "eqb_same": "Rattle.model.proofs.Checksums", "passed": "Rattle.model.proofs.Checksums", "cycles": "Rattle.model.proofs.Wraps",
    "wraps": "Rattle.model.proofs.Wraps", "cond": "mathlib.Core.Bool", "get_or": "lib.ListN",
    "Module": "Rattle.model.specs.declared.Module", "reading_words": "Rattle.model.specs.Temperature",
    "resets_module": "Rattle.model.specs.Demand1", "leaves": "Rattle.model.specs.Parts", "Bool": "mathlib.Core.Bool",
    "Fault": "Rattle.model.specs.declared.Reading.TheVariants", "counter_of": "Rattle.model.specs.Cycles",
    **{n: "Rattle.model.specs.Alone" for n in "Sample sample_calls accepted_bits line_of mode_of".split()},
}
EXCHANGES = """Plays ◌⇒◌ sample_of temperature_of spinel_frame modbus_frame lending two asked asked_at asked_by sent sent_to requested written
switched reply silently answers answers_from answers_to refuses refuses_from refuses_to announces gives gives_from shows echoes excepts
excepts_from quiet in_turn samples_in_turn""".split()
PLACES.update({n: "Rattle.model.proofs.Exchanges" for n in EXCHANGES})


def use(place, names):
    """One or more `use` lines."""
    lines, line = [], []
    for n in names:
        if line and len(place) + len(", ".join(line + [n])) > WIDTH - 8:
            lines.append(line)
            line = []
        line.append(n)
    return "".join("use %s.{%s}\n" % (place, ", ".join(ns)) for ns in lines + [line])


def uses(text):
    """The `use` lines of what a text names."""
    names = {}
    for n, place in PLACES.items():
        word = n.strip("◌")
        if re.search(r"(?<![\w.])" + re.escape(word) + r"(?!\w)", re.sub(r"--.*", "", text)):
            names.setdefault(place, []).append(n)
    order = list(PLACES.values())
    return "".join(use(place, ns) for place, ns in sorted(names.items(), key=lambda x: order.index(x[0])))


# states that a law gives, because they are too far for computing
LAWS = {"(run fresh_module (cycles 2147483647))": "wraps"}
# calls whose CRC a row takes from the definition
CLOSED = re.compile(r"\b(sent|sent_to|requested|written|switched) ")


def answer(case, text):
    """The proof of a case that need not compute the CRC of the frames it closes itself."""
    if str(case[2]) in LAWS:
        return LAWS[str(case[2])]
    if "modbus_frame" in text:
        return "unfold computing in refl"
    return f"passed _ _ _ {'(simp eqb_same)' if CLOSED.search(text) else 'refl'} refl"


def table(record, top, cases, write=case_text, before=""):
    value = re.sub(r"(?<!^)([A-Z])", r"_\1", record).lower()
    texts = [write(*c) for c in cases]
    body = before + f"pub record {record} : Type 0 where\n" + "".join(texts) + f"\npub {value} : {record}\n"
    if write is case_text and sum(bool(CLOSED.search(t)) for t in texts) > 2 * sum("modbus_frame" in t for t in texts):
        body += "unfolding unchecked\n" + f"{value} = record {{\n" + "".join(f"  {c[0]} = {answer(c, t)};\n" for c, t in zip(cases, texts)) + "}\n"
    else:
        body += f"unfolding computing\n{value} = record {{\n" + "".join(f"  {c[0]} = {LAWS.get(str(c[2]), 'refl')};\n" for c in cases) + "}\n"
    with open(PROOFS + record + ".antt", "w") as f:
        f.write(f"-- {top} Written by reference/tables.py. Assumes nothing.\n{uses(body)}\n{body}")


TALLY_BEFORE = """-- an input's number, edges and collected
pub record Row : Type 0 where
  pub input : ℕ
  pub edges : ℕ
  pub collected : ℕ

abbrev account : ℕ → ℕ → ℕ → Row
account k e c = record { input = k; edges = e; collected = c }

abbrev held : Tally → ℕ → Row
held t k = account k (t.input k).edges (t.input k).collected

-- after these calls from a fresh module the tally holds these rows
abbrev Tallies : List Call → List Row → Type 0
Tallies calls rows = map (λ (r : Row). held (final_tally calls) r.input) rows ≡ rows

"""


CLAIM_BEFORE = """-- a state of which every part shows a number of its own, 1 to 21
abbrev marked : Module
marked = record {
  inputs = record { lines = line true 2 ∷ []; counters = 4 ∷ [] };
  outputs = output true 6 ∷ [];
  settings = record {
    modes = 3 ∷ [];
    sampling = 5;
    presets = preset 7 7 ∷ [];
    links = link 21 21 ∷ [];
    thermostats = thermostat 8 (pos 8) (pos 8) 8 8 ∷ [];
    notice = notice 11 12 13;
    sum_tested = true;
  };
  reading = Valid (pos 9) (of_bits binary32 9);
  last = Valid (pos 10) (of_bits binary32 10);
  spinel = port 15 16 true;
  modbus = port 18 19 true;
}

-- the parts in that order; 0 for one that is not there
abbrev parts : Module → List ℕ
parts m =
    cond (get_or m.inputs.lines 0 fresh_line).stable 1 0
    ∷ (get_or m.inputs.lines 0 fresh_line).run
    ∷ get_or m.settings.modes 0 0
    ∷ get_or m.inputs.counters 0 0
    ∷ m.settings.sampling
    ∷ (get_or m.outputs 0 fresh_output).left
    ∷ (get_or m.settings.presets 0 fresh_preset).kind
    ∷ (get_or m.settings.thermostats 0 fresh_thermostat).flags
    ∷ get_or (reading_words m.reading) 1 0
    ∷ get_or (reading_words m.last) 1 0
    ∷ m.settings.notice.format
    ∷ m.settings.notice.mask
    ∷ m.settings.notice.signature
    ∷ cond m.settings.sum_tested 14 0
    ∷ m.spinel.address
    ∷ m.spinel.speed
    ∷ cond m.spinel.permitted 17 0
    ∷ m.modbus.address
    ∷ m.modbus.speed
    ∷ cond m.modbus.permitted 20 0
    ∷ (get_or m.settings.links 0 fresh_link).action
    ∷ []

-- what a call leaves of it
abbrev left : Call → List ℕ
left c = parts (leaves c.act marked)

"""


ALONE_BEFORE = """-- a sample by the bytes lent and the bits
abbrev sample_in : ℕ → ℕ → Sample
sample_in room bits = record { room = room; bits = bits }

-- of an input: is it on, its run, its mode, its counter
abbrev view : Bool → ℕ → ℕ → ℕ → List ℕ
view s r m c = cond s 1 0 ∷ r ∷ m ∷ c ∷ []

-- as a module holds them
abbrev four : ℕ → Module → List ℕ
four k m = view (line_of m k).stable (line_of m k).run (mode_of m k) (counter_of m k)

"""


# The definitions opened for computing -----------------------------------------------------

def computing():
    opened, names = [], []
    for crate, folder, files in (("lists", "Rattle.lists.specs", LISTS), ("model", "Rattle.model.specs", SPECS)):
        for f in files:
            text = open(os.path.join(ROOT, f"crates/{crate}/specs/{f}.antt")).read()
            found = [n for n in re.findall(r"^unfoldable pub (\S+)", text, re.M) if n not in SHUT]
            if found:
                opened.append(use(f"{folder}.{f}", found))
                names += found
    names += ["flat_map", "div", "of_int", "of_bits", "to_bits", "is_nan", "samples_in_turn", "unchecked_step", "unchecked_replies"]
    checked = ["crc_bit", "crc_bits", "crc_byte", "crc_of", "replies"]
    names = [n for n in names if n not in checked]
    text = """-- The definitions opened for computing on closed calls. Written by reference/tables.py. Assumes nothing.
use mathlib.Core.List.{flat_map}
use lib.Ieee.{div, of_int, of_bits, to_bits, is_nan}
""" + "".join(opened) + """use Rattle.model.proofs.Exchanges.{samples_in_turn}
use Rattle.model.proofs.Checksums.{unchecked_step, unchecked_replies}

-- naming this on an `unfolding` line opens all that its own line names: every definition but the CRC, for rows that go by `passed`
unfoldable pub unchecked : Unit {0}
""" + "unfolding " + "\n    ".join(textwrap.wrap(" ".join(names), WIDTH - 10)) + "\n" + f"""unchecked = tt

-- and this the CRC too, for rows as they stand
unfoldable pub computing : Unit {{0}}
unfolding unchecked {" ".join(checked)}
computing = tt
"""
    with open(PROOFS + "Computing.antt", "w") as f:
        f.write(text)


TABLES = [
    ("RackTable", "01, Rack table: A to J through the whole calls; F goes by the law of `Wraps`.", rows.RACK),
    ("Witnesses", "A witness for each slip and cheat that 01 names: what the honest module answers.", rows.WITNESSES),
    ("FrameTable", "01, Frames, and refusals 1 to 7: what is heard, and what is not.", rows.FRAMES),
    ("SampleTable", "01, Samples and edges: runs, flips, modes and counters.", rows.SAMPLES),
    ("CounterTable", "01, Counters over Spinel: 60H 61H 6AH 6BH 62H 63H with their limits.", rows.COUNTERS),
    ("PortTable", "01, Counters over Spinel: permission, address and speed, and what a reset ends and keeps.", rows.PORTS),
    ("OutputTable", "01, Outputs and notice: 20H 23H 25H 26H 30H 31H 33H 36H 38H with their limits.", rows.OUTPUTS),
    ("NoticeTable", "01, Outputs and notice: 10H 11H and the notice.", rows.NOTICES),
    ("ThermostatTable", "01, Temperature: readings, 51H 1AH 1BH, thermostats, holding.", rows.THERMOSTATS),
    ("RegisterTable", "01, Registers: 03 06 10H on every group, on both sides of it.", rows.REGISTERS),
    ("CoilTable", "01, Registers: 01 02 05 0F.", rows.COILS),
    ("TextTable", "02, E2: frames in characters, their codes, limits, permission and notice.", rows.TEXTS),
    ("LinkTable", "02, E8: inputs that drive outputs: 40H 41H, what a link does at an edge, and refusal 14.", rows.LINKS),
    ("UnreachedTable", "States that no run reaches: what the definitions say of them, as docs/DECISIONS.md tells.", rows.UNREACHED),
]


def main():
    if sys.argv[1:] == ["--count"]:
        print(sum(len(c[3]) for t in TABLES for c in t[2]), "rows in", sum(len(t[2]) for t in TABLES), "cases;", len(rows.TALLIES), "tallies;",
              len(rows.LEFT + rows.RESETS), "rows about claims;", len(rows.ALONE), "about one input")
        return
    computing()
    for t in TABLES:
        table(*t)
    table("TallyTable", "01, Tally of cycles: what it holds of some inputs after closed lists of calls.", rows.TALLIES, tally_text, TALLY_BEFORE)
    claims = rows.LEFT + rows.RESETS
    table("ClaimTable", "What claims are said with: the parts that each call leaves, and the calls that reset.", claims, claim_text, CLAIM_BEFORE)
    places = around_text("busy", "a module with fresh inputs and modes, and other outputs, settings, readings and ports than a fresh one") + around_text("hot", "and one with others again")
    table("AloneTable", "E3, one input alone: its accepted bits, and what modules that agree in it hold of it after samples.", rows.ALONE, alone_text, ALONE_BEFORE + places)


if __name__ == "__main__":
    main()
