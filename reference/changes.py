"""One-place changes of a definition: every plausible slip at every place of its clauses, one at a time.

A number one up or down; < for ≤, true for false, and for or; a sum, a difference, a remainder exchanged or one side left out; a condition
turned round, exchanged or taken for granted; a refusal left out or by another number; an item, a store, a reset left out; two neighbours in
a list exchanged; a field or a definition exchanged with another of its type.
"""
from dataclasses import dataclass

from translate import BINDS, Apply, Field, Function, Let, Name, Nil, Number, Op, Record

# names of one type, and fields of one type
TWINS = ["leb ltb", "le_z lt_z", "true false", "with_spinel with_modbus", "with_counters with_modes", "spinel_wire modbus_wire text_wire",
         "spinel_to modbus_to", "spinel_broadcast modbus_broadcast", "spinel_address_wrong modbus_address_wrong",
         "spinel_broadcast_wrong modbus_broadcast_wrong", "sum_wrong crc_wrong", "signature_of instruction_of", "ack_of exception_of",
         "text_universal text_broadcast", "is_address is_speed"]
ALIKE = ["tempx tempy", "reading last", "spinel modbus", "address speed", "number value", "first count", "edges collected", "format mask",
         "shape_wrong check_wrong broadcast_wrong", "least most broadcast"]
NAMES, FIELDS = ({name: [other for other in names.split() if other != name] for names in listed for name in names.split()}
                 for listed in (TWINS, ALIKE))
FIELDS["action"] = ["input"]  # of a link; `input` of something else has no such twin
SIGNS = {"&&": "||", "||": "&&", "+": "-", "-": "+", "/": "%", "%": "/"}
# which sides of an operator may stand alone
SIDES = {"&&": "left right", "||": "left right", "+": "left right", "++": "left right", "-": "left", "/": "left", "%": "left", "*": "left",
         "∷": "right"}
# functions that may be left out: how many arguments they take, and which of them stands for the whole
PUT = "lines modes counters sampling inputs outputs settings presets links thermostats notice sum_tested spinel modbus".split()
LEFT_OUT = {"not": (1, 0), "set": (3, 0), "take": (2, 1), "drop": (2, 1), "foldl": (3, 1), "permit": (2, 1), "used_up": (2, 1),
            "reset": (1, 0), "runs_ended": (1, 0), "answering": (2, 1), "with_reading": (4, 0), **{"with_" + part: (2, 0) for part in PUT}}
REFUSALS = range(7, 15)  # what a request may be refused by


@dataclass(frozen=True)
class Change:
    """A definition's clauses with one place changed, and what was changed."""
    key: str
    text: str
    clauses: tuple


# Text ---------------------------------------------------------------------------------

def shown(x, depth=3, tight=False):
    """An expression as antt, what lies deeper than that by two dots; in parentheses where it must stand tight."""
    if isinstance(x, Number):
        return ("0x%02X" if x.hexed else "%d") % x.value
    if isinstance(x, Nil):
        return "[]"
    if isinstance(x, Name):
        return x.text
    text = ".." if depth == 0 else compound(x, depth - 1)
    return "(%s)" % text if tight and depth and not isinstance(x, (Record, Field)) else text


def compound(x, depth):
    """An expression that has parts."""
    if isinstance(x, Field):
        of = shown(x.of, depth + isinstance(x.of, Field), True)
        return "%s.%s" % ("(..)" if of == ".." else of, x.name)
    if isinstance(x, Record):
        return "record { %s }" % "; ".join("%s = %s" % (name, shown(value, depth)) for name, value in x.fields)
    if isinstance(x, Let):
        return "let %s = %s in %s" % (x.name, shown(x.value, depth), shown(x.body, depth))
    if isinstance(x, Function):
        return "λ %s. %s" % (" ".join(x.names), shown(x.body, depth))
    if isinstance(x, Op):
        deeper = depth + (isinstance(x.right, Op) and x.right.sign == x.sign and BINDS[x.sign][1])
        return "%s %s %s" % (shown(x.left, deeper, looser(x.left, x, False)), x.sign, shown(x.right, deeper, looser(x.right, x, True)))
    head = shown(x.head, depth + isinstance(x.head, Field), True)
    return " ".join([head] + [shown(y, depth, True) for y in x.arguments])


def looser(part, whole, right):
    """Must a part of an operator's expression stand in parentheses?"""
    if not isinstance(part, Op):
        return isinstance(part, (Function, Let))
    (level, _), (least, right_first) = BINDS[part.sign], BINDS[whole.sign]
    return level < least or level == least and right != right_first


# Places -------------------------------------------------------------------------------

def at_place(x):
    """What may stand in an expression's place by a slip there."""
    if isinstance(x, Number):
        yield Number(x.value + 1, x.hexed)
        if x.value:
            yield Number(x.value - 1, x.hexed)
    elif isinstance(x, Name):
        yield from map(Name, NAMES.get(x.text, []))
    elif isinstance(x, Field):
        yield from (Field(x.of, name) for name in FIELDS.get(x.name, []))
    elif isinstance(x, Op):
        if x.sign in SIGNS:
            yield Op(SIGNS[x.sign], x.left, x.right)
        yield from (getattr(x, side) for side in SIDES.get(x.sign, "").split())
        if x.sign == "∷" and isinstance(x.right, Op) and x.right.sign == "∷":
            yield Op("∷", x.right.left, Op("∷", x.left, x.right.right))
    elif isinstance(x, Apply) and isinstance(x.head, Name):
        yield from of_function(x, x.head.text, x.arguments)


def of_function(x, name, given):
    """The slips at a function with its arguments; what puts a part in place may also wait for that part."""
    def by(other, *arguments):
        return Apply(Name(other), arguments)

    if name == "cond" and len(given) == 3:
        yield from (given[1], given[2], by("cond", given[0], given[2], given[1]))
    elif name == "eqb" and len(given) == 2:
        yield from (by("leb", *given), by("leb", *given[::-1]), by("not", x))
    elif name in ("leb", "ltb", "le_z", "lt_z") and len(given) == 2:
        yield from (by("not", x), by("eqb", *given))
    elif name == "within" and len(given) == 3:
        yield from (by("leb", given[0], given[2]), by("leb", given[2], given[1]))
    elif name == "refuse" and len(given) == 3:
        yield given[2]
        yield from (by("refuse", Number(number, False), *given[1:]) for number in REFUSALS if number != given[0].value)
    elif name == "decided" and len(given) == 4:
        yield by("decided", given[0], given[2], given[1], given[3])
    elif name in LEFT_OUT and len(given) == LEFT_OUT[name][0]:
        yield given[LEFT_OUT[name][1]]
    elif name.startswith("with_") and name in LEFT_OUT and len(given) == LEFT_OUT[name][0] - 1:
        yield Function(("_",), given[0])


def parts(x):
    """The parts of an expression, each with a function that puts another in its place."""
    if isinstance(x, Field):
        yield x.of, lambda y: Field(y, x.name)
    elif isinstance(x, Record):
        for at, (name, value) in enumerate(x.fields):
            yield value, lambda y, at=at, name=name: Record(x.fields[:at] + ((name, y),) + x.fields[at + 1:])
    elif isinstance(x, Let):
        yield x.value, lambda y: Let(x.name, y, x.body)
        yield x.body, lambda y: Let(x.name, x.value, y)
    elif isinstance(x, Function):
        yield x.body, lambda y: Function(x.names, y)
    elif isinstance(x, Op):
        yield x.left, lambda y: Op(x.sign, y, x.right)
        yield x.right, lambda y: Op(x.sign, x.left, y)
    elif isinstance(x, Apply):
        yield x.head, lambda y: Apply(y, x.arguments)
        for at, value in enumerate(x.arguments):
            yield value, lambda y, at=at: Apply(x.head, x.arguments[:at] + (y,) + x.arguments[at + 1:])


def are_exchanged(x, y):
    """Is this a list with its first two items exchanged?"""
    return all(isinstance(z, Op) and z.sign == "∷" and isinstance(z.right, Op) for z in (x, y)) and (x.left, x.right.left) == (y.right.left, y.left)


def cut(*lists):
    """Lists up to their second item, what stands behind it by two dots."""
    return [Op("∷", x.left, Op("∷", x.right.left, Name("..") if isinstance(x.right.right, Op) else x.right.right)) for x in lists]


def changed(x, around=""):
    """Every expression that differs in one place, with what was changed there; a small place is told with what is around it."""
    for y in at_place(x):
        where = around + ": " if around and isinstance(x, (Number, Name, Field)) else ""
        yield y, "%s%s → %s" % (where, *(map(shown, cut(x, y)) if are_exchanged(x, y) else (shown(x), shown(y))))
    for at, (part, put) in enumerate(parts(x)):
        for y, text in changed(part, x.fields[at][0] if isinstance(x, Record) else shown(x, 2)):
            yield put(y), text


def changes(key, clauses):
    """The changes of one definition; where two read alike, the second has a number."""
    known, met = {body for _, body in clauses}, {}
    for at, (patterns, body) in enumerate(clauses):
        for other, text in changed(body):
            if (at, other) in known or other == body:
                continue
            known.add((at, other))
            met[text] = met.get(text, 0) + 1
            numbered = text if met[text] == 1 else "%s (%d)" % (text, met[text])
            yield Change(key, numbered, tuple(clauses[:at]) + ((patterns, other),) + tuple(clauses[at + 1:]))
