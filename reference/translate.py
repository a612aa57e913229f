"""The definitions of crates/lists/specs and crates/model/specs as Python functions, translated from their text.

A file's text becomes clauses, a clause an expression tree, a tree Python source. What the language's own library gives (lists, tests,
floats) is written here in Python. Values: a number is an int, a Bool a bool, a list a tuple, a record a dict, a constructor a tuple that
begins with its name, a Float its bits; a function that is passed on takes one argument at a time.

The names of a file are its own and those of its `use` lines; a definition is called by its file and name, as Frames.sum_of.
"""
import math
import os
import re
import struct
from dataclasses import dataclass

ROOT = os.path.dirname(os.path.dirname(os.path.abspath(__file__)))
FOLDERS = {"lists": "crates/lists/specs", "model": "crates/model/specs", "proofs": "crates/model/proofs"}
FILES = {
    "lists": "Tests Mapi Walk Numbers Chunks Entries Data".split(),
    "model": """State Times Samples Frames Refusals Wire Counters SumTest Temperature Links Outputs Text Notice Registers Spinel Modbus Call Calls
             Demand1 Tally Cycles Parts Alone Linked""".split(),
    "proofs": "Exchanges Wraps Readings Puts GroupTable ClaimTable AloneTable".split(),
}
# definitions by `Bounded.added`, which serve the code alone
CODE_ALONE = {"Data.pushed", "Data.extended", "Entries.entry_added"}


# Expressions --------------------------------------------------------------------------

@dataclass(frozen=True)
class Number:
    """A number, and whether it is written in hex."""
    value: int
    hexed: bool


@dataclass(frozen=True)
class Name:
    """A definition, a constructor or a variable."""
    text: str


@dataclass(frozen=True)
class Nil:
    """The empty list."""


@dataclass(frozen=True)
class Field:
    """A record's field."""
    of: object
    name: str


@dataclass(frozen=True)
class Record:
    """A record by its fields: pairs of a name and an expression."""
    fields: tuple


@dataclass(frozen=True)
class Let:
    """A variable that stands for a value."""
    name: str
    value: object
    body: object


@dataclass(frozen=True)
class Function:
    """A function without a name, after a λ."""
    names: tuple
    body: object


@dataclass(frozen=True)
class Op:
    """An operator between two expressions."""
    sign: str
    left: object
    right: object


@dataclass(frozen=True)
class Apply:
    """A function with arguments."""
    head: object
    arguments: tuple


# how tightly an operator binds, and whether it is grouped from the right
BINDS = {"⇒": (0, False), "||": (1, True), "&&": (2, True), "∷": (4, True), "++": (4, True), "+": (5, False), "-": (5, False),
         "*": (6, False), "/": (6, False), "%": (6, False), "^": (7, True)}
TOKEN = re.compile(r"""\s*(?:(?P<number>0x[0-9A-Fa-f_]+|\d[\d_]*)
                           |(?P<field>\.)(?=[A-Za-z0-9])
                           |(?P<name>(?!λ)[^\W\d][\w']*)
                           |(?P<sign>\+\+|&&|\|\||[λ∷→≡⇒≤×↔+*/%^(){};:=.\[\]-]))""", re.X)


def tokens(text):
    """The tokens of a text: pairs of a kind and the token."""
    found, at = [], 0
    text = text.rstrip()
    while at < len(text):
        match = TOKEN.match(text, at)
        if not match:
            raise SyntaxError("no token: " + text[at:at + 40])
        found.append((match.lastgroup, match.group(match.lastgroup)))
        at = match.end()
    return found


class Parser:
    """Reads expressions from tokens."""

    def __init__(self, found):
        self.found, self.at = found, 0

    def next(self):
        """The token at hand."""
        return self.found[self.at] if self.at < len(self.found) else ("end", "")

    def take(self, wanted=None):
        """The token at hand, passed by."""
        kind, text = self.next()
        if wanted is not None and text != wanted:
            raise SyntaxError("%s wanted, not %s, in: %s" % (wanted, text, " ".join(t for _, t in self.found[:self.at + 5])))
        self.at += 1
        return text

    def ended(self):
        """Is nothing left?"""
        return self.next()[0] == "end"

    def annotation(self):
        """A bound name, with its type in parentheses or without."""
        if self.next()[1] != "(":
            return self.take()
        self.take("(")
        name = self.take()
        while self.take() != ")":
            pass
        return name

    def expression(self):
        """A `let`, a lambda, or operators between applications."""
        if self.next() == ("name", "let"):
            return self.let()
        if self.next() == ("sign", "λ"):
            self.take()
            names = []
            while self.next()[1] != ".":
                names.append(self.annotation())
            self.take(".")
            return Function(tuple(names), self.expression())
        return self.operators(0)

    def let(self):
        """A `let`, its type left out."""
        self.take("let")
        name = self.take()
        while self.next()[1] != "=":
            self.take()
        self.take("=")
        value = self.expression()
        self.take("in")
        return Let(name, value, self.expression())

    def operators(self, least):
        """Operators that bind at least so tightly."""
        left = self.application()
        while self.next()[0] == "sign" and self.next()[1] in BINDS and BINDS[self.next()[1]][0] >= least:
            sign = self.take()
            level, right_first = BINDS[sign]
            left = Op(sign, left, self.operators(level if right_first else level + 1))
        return left

    def application(self):
        """A function with arguments."""
        head, arguments = self.atom(), []
        while True:
            kind, text = self.next()
            if kind == "number" or text in ("(", "[") or kind == "name" and text not in ("in", "let"):
                arguments.append(self.atom())
            else:
                return applied(head, arguments)

    def atom(self):
        """What stands by itself, with the fields that are taken of it."""
        whole = self.plain()
        while self.next()[0] == "field":
            self.take()
            whole = Field(whole, self.take())
        return whole

    def plain(self):
        """A number, a name, a record, the empty list, or an expression in parentheses."""
        kind, _ = self.next()
        text = self.take()
        if kind == "number":
            return Number(int(text.replace("_", ""), 0), text.startswith("0x"))
        if text == "record":
            return self.record()
        if kind == "name":
            return Name(text)
        if text == "(":
            inner = self.expression()
            self.take(")")
            return inner
        if text == "[":
            self.take("]")
            return Nil()
        raise SyntaxError("no expression begins with " + text)

    def record(self):
        """The fields of a record."""
        self.take("{")
        fields = []
        while self.next()[1] != "}":
            name = self.take()
            self.take("=")
            fields.append((name, self.expression()))
            if self.next()[1] == ";":
                self.take()
        self.take("}")
        return Record(tuple(fields))

    def bound(self):
        """The variables of `(x y : T) .. →` before a claim."""
        names = []
        while self.next()[1] == "(" and self.found[self.at + 1:self.at + 2] and self.quantifies():
            self.take("(")
            while self.next()[1] != ":":
                names.append(self.take())
            while self.take() != ")":
                pass
        if self.next()[1] == "→":
            self.take()
        return names

    def quantifies(self):
        """Do these parentheses bind variables?"""
        at = self.at + 1
        while at < len(self.found) and self.found[at][0] == "name":
            at += 1
        return at < len(self.found) and self.found[at][1] == ":"


def applied(head, arguments):
    """A function with its arguments; without any, itself."""
    return Apply(head, tuple(arguments)) if arguments else head


def parsed(text):
    """The expression of a whole text."""
    parser = Parser(tokens(text))
    whole = parser.expression()
    if not parser.ended():
        raise SyntaxError("left over: " + text)
    return whole


# Files --------------------------------------------------------------------------------

DEFINED = re.compile(r"(?:abbrev|unfoldable) (?:pub )?(?P<name>[a-z][\w']*) :")
USED = re.compile(r"use (?P<place>[\w.]+)\.\{(?P<names>.*)\}")


def read(kind, name):
    """The lines of a file, without comments and empty ones."""
    with open(os.path.join(ROOT, FOLDERS[kind], name + ".antt")) as file:
        lines = [line.split("--")[0].rstrip() for line in file]
    return [line for line in lines if line]


def blocks(lines):
    """The lines that begin at the margin, each joined with those that are indented under it."""
    joined = []
    for line in lines:
        if line[0] in " }" and joined:
            joined[-1] += " " + line.strip()
        else:
            joined.append(line)
    return joined


def clause(block):
    """A clause: its patterns and its body."""
    found = tokens(block)
    depth = 0
    for at, (_, text) in enumerate(found):
        depth += (text in ("(", "{")) - (text in (")", "}"))
        if text == "=" and depth == 0:
            break
    patterns, head = [], Parser(found[1:at])
    while not head.ended():
        patterns.append(head.atom())
    body = Parser(found[at + 1:])
    whole = body.expression()
    if not body.ended():
        raise SyntaxError("left over in " + block)
    return patterns, whole


def used(block):
    """The names of a `use` line, by the file of the repository that they come from."""
    match = USED.fullmatch(block)
    home = match["place"].split(".")[-1]
    if not match["place"].startswith(("Rattle.lists.", "Rattle.model.")) or ".declared." in match["place"]:
        return {}
    return {name.strip(): home + "." + name.strip() for name in match["names"].split(",")}


class Definitions:
    """All definitions: their clauses by file and name, and what each file calls them."""

    def __init__(self):
        self.clauses, self.scopes, self.kinds = {}, {}, {}
        for kind, names in FILES.items():
            for name in names:
                self.load(kind, name)

    def load(self, kind, file):
        """The definitions of one file; types and proofs are left out."""
        scope = self.scopes[file] = {}
        for block in blocks(read(kind, file)):
            if block.startswith("use "):
                scope.update(used(block))
            elif DEFINED.match(block):
                name = DEFINED.match(block)["name"]
                if file + "." + name in CODE_ALONE:
                    continue
                scope[name] = key = file + "." + name
                self.clauses[key], self.kinds[key] = [], kind
            elif block.split()[0] in scope and scope[block.split()[0]].startswith(file + ".") and block.split()[1:2] != [":"]:
                self.clauses[scope[block.split()[0]]].append(clause(block))

    def arity(self, key):
        """How many arguments a definition or something of the library takes; none for what is neither."""
        if key in self.clauses:
            return len(self.clauses[key][0][0])
        return LIBRARY[key][0] if key in LIBRARY else None

    def source(self, key, clauses=None, traced=False):
        """A definition as Python source, by its own clauses or by others; traced, it notes that it was called."""
        clauses = clauses or self.clauses[key]
        arguments = ["a%d" % at for at in range(len(clauses[0][0]))]
        lines = ["def %s(%s):" % (python(key), ", ".join(arguments))]
        if traced:
            lines.append("    called.add(%r)" % key)
        for patterns, body in clauses:
            tests, bound = [], {}
            for pattern, argument in zip(patterns, arguments):
                match(pattern, argument, tests, bound)
            writer = Writer(self, key.split(".")[0])
            lines.append("    if %s:" % (" and ".join(tests) or "True"))
            lines += ["        %s = %s" % (variable(name), value) for name, value in bound.items()]
            lines.append("        return " + writer.written(body, frozenset(bound)))
        return "\n".join(lines + ["    raise ValueError('no clause of %s')" % key])

    def evaluate(self, text, file, values):
        """The value of a closed text with the names of a file."""
        return eval(Writer(self, file).written(parsed(text), frozenset()), values)

    def functions(self, called=None):
        """The definitions as Python functions; where a set is given, they note in it what was called."""
        values = {python(name): function for name, (_, function) in LIBRARY.items()}
        values.update(subtract=subtract, divide=divide, remainder=remainder, remembering=remembering, called=called)
        exec("\n".join(self.source(key, traced=called is not None) for key in self.clauses), values)
        for key, function in FASTER.items():
            values[python(key)] = noting(called, key, function) if called is not None else function
        return values


def noting(called, key, function):
    """A function that notes its name first."""
    def noted(*arguments):
        called.add(key)
        return function(*arguments)
    return noted


# Python -------------------------------------------------------------------------------

CODES = "ReadInput ReadOutput SetOutput PulseOutput ReadTemperature SetNotice ReadNotice GivePermission SetAddress SetSpeed".split()
CONSTRUCTORS = {"Valid": 2, "Fault": 0, "sample": 1, "temperature": 2, "spinel": 1, "modbus": 1, "Some": 1, "None": 0, **dict.fromkeys(CODES, 0)}
INLINE = {"eqb": "(%s == %s)", "leb": "(%s <= %s)", "ltb": "(%s < %s)", "not": "(not %s)", "length": "len(%s)",
          "cond": "(%s if %s else %s)"}
SIGNS = {"∷": "((%s,) + %s)", "++": "(%s + %s)", "&&": "(%s and %s)", "||": "(%s or %s)", "-": "subtract(%s, %s)", "/": "divide(%s, %s)",
         "%": "remainder(%s, %s)", "^": "(%s ** %s)", "+": "(%s + %s)", "*": "(%s * %s)", "⇒": "(%s, %s)"}
# definitions that a change may bring into a file which does not use them
BESIDE = {name: file + "." + name for file, names in [
    ("State", "with_spinel with_modbus with_counters with_modes"),
    ("Frames", "spinel_to modbus_to spinel_broadcast modbus_broadcast signature_of instruction_of"),
    ("Refusals", "spinel_address_wrong modbus_address_wrong spinel_broadcast_wrong modbus_broadcast_wrong sum_wrong crc_wrong ack_of exception_of"),
    ("Spinel", "spinel_wire"), ("Modbus", "modbus_wire"), ("Text", "text_wire text_universal text_broadcast")] for name in names.split()}
CONSTANTS = {"true": "True", "false": "False", "zero": "0", "binary32": "None", "tt": "()"}
# fields that hold a function which is asked for the same again and again
REMEMBERED = {"input"}


def python(key):
    """A name that Python takes."""
    return "f_" + re.sub(r"\W", "_", key.replace("'", "_prime"))


def variable(name):
    """A variable's name in Python."""
    return "v_" + name.replace("'", "_prime")


def match(pattern, value, tests, bound):
    """What Python tests for a pattern, and what its variables are then."""
    if isinstance(pattern, Nil):
        tests.append("not " + value)
    elif isinstance(pattern, Name) and pattern.text in ("zero", "true", "false"):
        tests.append("%s == %s" % (value, CONSTANTS[pattern.text]))
    elif isinstance(pattern, Name) and pattern.text in CONSTRUCTORS:
        tests.append("%s[0] == %r" % (value, pattern.text))
    elif isinstance(pattern, Name):
        bound[pattern.text] = value
    elif isinstance(pattern, Op):
        tests.append(value)
        match(pattern.left, value + "[0]", tests, bound)
        match(pattern.right, value + "[1:]", tests, bound)
    elif pattern.head.text in CONSTRUCTORS:
        tests.append("%s[0] == %r" % (value, pattern.head.text))
        for at, inner in enumerate(pattern.arguments, 1):
            match(inner, "%s[%d]" % (value, at), tests, bound)
    else:
        test, inner = {"suc": ("%s > 0", "(%s - 1)"), "pos": ("%s >= 0", "%s"), "negsuc": ("%s < 0", "(-%s - 1)")}[pattern.head.text]
        tests.append(test % value)
        match(pattern.arguments[0], inner % value, tests, bound)


class Writer:
    """Writes expressions of one file as Python."""

    def __init__(self, definitions, file):
        self.definitions, self.scope = definitions, definitions.scopes[file]

    def written(self, x, bound):
        """An expression, where these variables are bound."""
        return getattr(self, type(x).__name__.lower())(x, bound)

    def number(self, x, bound):
        return str(x.value)

    def nil(self, x, bound):
        return "()"

    def field(self, x, bound):
        return "%s[%r]" % (self.written(x.of, bound), x.name)

    def record(self, x, bound):
        return "{%s}" % ", ".join("%r: %s" % (name, self.held(name, value, bound)) for name, value in x.fields)

    def held(self, name, x, bound):
        """What a record's field holds; a function there may remember."""
        text = self.written(x, bound)
        return "remembering(%s)" % text if name in REMEMBERED and isinstance(x, Function) else text

    def let(self, x, bound):
        return "(lambda %s: %s)(%s)" % (variable(x.name), self.written(x.body, bound | {x.name}), self.written(x.value, bound))

    def op(self, x, bound):
        return SIGNS[x.sign] % (self.written(x.left, bound), self.written(x.right, bound))

    def name(self, x, bound):
        return self.apply(Apply(x, ()), bound)

    def apply(self, x, bound):
        """A function with arguments: fewer than it takes make a function of the rest, more go to what it gives."""
        arguments = [self.written(y, bound) for y in x.arguments]
        if not isinstance(x.head, Name) or x.head.text in bound:
            head = variable(x.head.text) if isinstance(x.head, Name) else self.written(x.head, bound)
            return head + "".join("(%s)" % y for y in arguments)
        name = x.head.text
        if name in CONSTANTS:
            return CONSTANTS[name]
        if name == "cond" and len(arguments) == 3:
            return INLINE["cond"] % (arguments[1], arguments[0], arguments[2])
        return self.called(name, arguments)

    def called(self, name, arguments):
        """A constructor, a definition or something of the library."""
        key = self.scope.get(name, BESIDE.get(name, name))
        count = CONSTRUCTORS[name] if name in CONSTRUCTORS else self.definitions.arity(key)
        if count is None:
            raise SyntaxError("unknown: " + name)
        rest = ["z%d" % at for at in range(count - len(arguments))]
        given = (arguments + rest)[:count]
        if name in CONSTRUCTORS:
            text = "(%s)" % ", ".join([repr(name)] + given + [""])
        elif key == name and name in INLINE:
            text = INLINE[name] % tuple(given)
        else:
            text = "%s(%s)" % (python(key), ", ".join(given))
        text = "".join("lambda %s: " % z for z in rest) + text
        return ("(%s)" % text if rest else text) + "".join("(%s)" % y for y in arguments[count:])

    def function(self, x, bound):
        text = self.written(x.body, bound | set(x.names))
        return "(%s%s)" % ("".join("lambda %s: " % variable(name) for name in x.names), text)


# The library --------------------------------------------------------------------------

def subtract(a, b):
    """No number is below 0."""
    return a - b if a > b else 0


def divide(a, b):
    """By 0 it is 0."""
    return a // b if b else 0


def remainder(a, b):
    """By 0 all is left."""
    return a % b if b else a


def remembering(function):
    """The same function, which works each answer out once."""
    known = {}

    def asked(x):
        if x not in known:
            known[x] = function(x)
        return known[x]
    return asked


def folded(f, start, items):
    """From the left."""
    for item in items:
        start = f(start)(item)
    return start


def put(items, at, item):
    """An item in its place, if there is that place."""
    return items[:at] + (item,) + items[at + 1:] if at < len(items) else items


def real(bits):
    """The number that the bits of an f32 stand for."""
    return struct.unpack(">f", struct.pack(">I", bits))[0]


def bits_of(x):
    """The bits of the f32 nearest to x."""
    try:
        return struct.unpack(">I", struct.pack(">f", x))[0]
    except OverflowError:
        return bits_of(math.copysign(math.inf, x))


def quotient(_, a, b):
    """Two f32 divided: a double's quotient of two f32 rounds to the f32 that is nearest to the true one."""
    x, y = real(a), real(b)
    if y == 0:
        return bits_of(math.nan if x == 0 or x != x else math.copysign(math.inf, x) * math.copysign(1, y))
    return bits_of(x / y)


# what the library gives: how many arguments it takes, and the function
LIBRARY = {
    "not": (1, lambda a: not a), "length": (1, len), "eqb": (2, lambda a, b: a == b), "leb": (2, lambda a, b: a <= b),
    "ltb": (2, lambda a, b: a < b), "lt_z": (2, lambda a, b: a < b), "le_z": (2, lambda a, b: a <= b), "beq": (2, lambda a, b: a == b),
    "cond": (3, lambda t, a, b: a if t else b), "get_or": (3, lambda l, at, d: l[at] if at < len(l) else d), "set": (3, put),
    "take": (2, lambda n, l: l[:n]), "drop": (2, lambda n, l: l[n:]), "replicate": (2, lambda n, x: (x,) * n),
    "map": (2, lambda f, l: tuple(map(f, l))), "flat_map": (2, lambda f, l: tuple(y for x in l for y in f(x))), "foldl": (3, folded),
    "bit_xor": (2, lambda a, b: a ^ b), "suc": (1, lambda n: n + 1), "pos": (1, lambda n: n), "negsuc": (1, lambda n: -n - 1),
    "div": (3, quotient), "of_int": (2, lambda _, n: bits_of(n)), "of_bits": (2, lambda _, n: n), "to_bits": (2, lambda _, x: x),
    "is_nan": (1, lambda x: real(x) != real(x)),
}
# definitions whose translation is slow, for as long as they are not changed themselves
FASTER = {
    "Mapi.mapi": lambda f, l: tuple([f(at)(x) for at, x in enumerate(l)]),
    "Frames.total": sum,
}
