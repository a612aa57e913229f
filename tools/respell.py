#!/usr/bin/env python3
"""Brings this repository's own names to the library's spelling: definitions, lemmas and fields in snake case.

Usage:  tools/respell.py [FOLDER]      once, over the files of crates/ as the kit's port.py leaves them

A name in lower camel case gets underscores. A dash stays after a word that the library's lemmas begin with, as in
`length-deduct_one`, and is an underscore elsewhere. A lemma that would have a definition's name gets `_lem`. Names of the
library, of Rust items and those that Rattle makes stay as they are.
"""
import collections
import os
import re
import sys

WORD = re.compile(r"[0-9][0-9A-F]+(?![a-z])|[A-Z]?[a-z]+|[A-Z]+(?![a-z])|[0-9]+|[A-Z]|[^A-Za-z0-9]+")
CAMEL = re.compile(r"[a-z][a-z0-9]*[A-Z]")
TOKEN = re.compile(r"[^\s(){}\[\],;\".:]+")
# words of the library that lemmas are named after
LIBRARY = {
    "add", "and", "append", "cond", "div", "drop", "eqb", "false", "filter", "foldl", "get_or", "leb", "length", "ltb", "map", "max", "min", "mod", "mul",
    "not", "or", "pow", "replicate", "set", "sub", "suc", "take", "true", "zero",
}
# the cases A to J of the table in model, and lemmas whose names fell together with a definition's
NAMED = {c: "case_" + c.lower() for c in "ABCDEFGHIJ"}
LEMMAS = {"Effects.antt": {"read_one": "read_one_lem"}}


def snake(name):
    """`notBy61Byte` as `not_by_61_byte`; a hypothesis as `hE0` keeps its letter: `he0`."""
    if re.fullmatch(r"h[0-9A-F]{2}", name):
        return name.lower()
    tail = re.search(r"['₀₁₂₃₄₅₆₇₈₉]*$", name).group(0)
    parts = WORD.findall(name[: len(name) - len(tail)])
    joined = ""
    for part in parts:
        if joined and part[0].isalnum() and joined[-1].isalnum():
            joined += "_"
        joined += part.lower()
    return joined + tail


def files(root, ends):
    for folder, dirs, names in os.walk(os.path.join(root, "crates")):
        dirs[:] = sorted(d for d in dirs if d != "out")
        for name in sorted(names):
            if name.endswith(ends):
                yield os.path.join(folder, name)


def read(path):
    with open(path, encoding="utf-8") as f:
        return f.read()


def own_crates(root):
    return {line.split(":")[0].strip() for line in read(os.path.join(root, "crates.txt")).splitlines() if ":" in line and not line.startswith("#")}


def uses(text):
    """Each import of an antt file: its path and the names that it brings."""
    for m in re.finditer(r"^use (\S+?)(?:\.\{([^}]*)\})?(?: as (\S+))?$", text, re.M):
        yield m.group(1), [n.strip() for n in (m.group(2) or "").split(",") if n.strip()]


def from_library(text, own):
    """The names that a file has from elsewhere than this repository's crates."""
    found = set()
    for path, names in uses(text):
        parts = path.split(".")
        if not (parts[0] == "Rattle" and len(parts) > 1 and parts[1] in own):
            found.update(names)
    return found


DECLARED = re.compile(r"^\s*(?:abbrev |unfoldable |pub |data |record )*([^\s(){}\[\]:]+)(?: \([^)]*\))* *:", re.M)


def declared(text):
    return set(DECLARED.findall(re.sub(r"--.*", "", text)))


def is_walk(path):
    """A proof of a function, whose dashes are mostly in names that Rattle makes."""
    return os.path.basename(path) == "Proof.antt"


def names_of(root, own):
    """The new spelling of each name of lemmas and definitions, and what they were gathered from."""
    definitions, lemmas = set(), set()
    for path in files(root, ".antt"):
        text = read(path)
        if os.sep + "specs" + os.sep in path:
            definitions |= declared(text)
        elif not is_walk(path):
            lemmas |= declared(text)
    spelt = {snake(d) for d in definitions if not d[0].isupper()} | {d for d in lemmas if "-" not in d}
    known = {snake(d) for d in definitions if not d[0].isupper()} | LIBRARY | {"mapi"}
    new = {}
    for name in definitions | lemmas:
        if "-" not in name or name.startswith("-"):
            continue
        parts = [snake(p) if CAMEL.match(p) else p for p in name.split("-")]
        keeps = parts[0] in LIBRARY | {"mapi"} and all(p in known for p in parts)
        to = "-".join(parts) if keeps else "_".join(parts)
        new[name] = to + "_lem" if to in spelt else to
    return new


def turned(token, dashed, kept):
    if token in kept:
        return token
    if token in dashed:
        return dashed[token]
    if CAMEL.match(token):
        return "-".join(snake(p) for p in token.split("-"))
    return token


def turn_code(code, dashed, kept):
    return TOKEN.sub(lambda m: turned(m.group(0), dashed, kept), code)


def turn_comment(text, dashed, kept):
    """In a comment only what is surely a name: camel case, or in backticks."""
    text = re.sub(r"`([^`]*)`", lambda m: "`" + turn_code(m.group(1), dashed, kept) + "`", text)
    return re.sub(r"\b[a-z][a-z0-9]*(?:[A-Z][A-Za-z0-9]*)\b", lambda m: turned(m.group(0), dashed, kept), text)


def turn_antt(text, dashed, kept, single):
    lines = []
    for line in text.split("\n"):
        at = re.search(r"(?:^|(?<=\s))--(?:\s|$)", line)
        code, comment = (line[: at.start()], line[at.start() :]) if at else (line, "")
        code = turn_code(code, dashed, kept)
        if single:
            code = re.sub(r"^(  pub )([A-J])( :)", lambda m: m.group(1) + NAMED[m.group(2)] + m.group(3), code)
            code = re.sub(r"^(  )([A-J])( = )", lambda m: m.group(1) + NAMED[m.group(2)] + m.group(3), code)
        lines.append(code + turn_comment(comment, dashed, kept))
    return "\n".join(lines)


def turn_rt(text, dashed, kept):
    """Rust's own names are in snake case; what is in camel case is antt's, but in text."""
    lines = []
    for line in text.split("\n"):
        at = line.find("//")
        code, comment = (line[:at], line[at:]) if at >= 0 and '"' not in line[:at] else (line, "")
        parts = re.split(r'("(?:[^"\\]|\\.)*")', code)
        code = "".join(p if p.startswith('"') else turn_code(p, dashed, kept) for p in parts)
        lines.append(code + turn_comment(comment, dashed, kept))
    return "\n".join(lines)


def fallen_together(path, old, new):
    """Two names of one file that have one spelling now."""
    to = collections.defaultdict(set)
    for a, b in zip(TOKEN.findall(re.sub(r"--.*", "", old)), TOKEN.findall(re.sub(r"--.*", "", new))):
        to[b].add(a)
    for b, several in sorted(to.items()):
        if len(several) > 1:
            yield f"{path}: {', '.join(sorted(several))} are all {b}"


def main():
    root = os.path.abspath(sys.argv[1] if len(sys.argv) > 1 else os.path.join(os.path.dirname(os.path.abspath(__file__)), ".."))
    own = own_crates(root)
    dashed = names_of(root, own)
    count = 0
    for path in list(files(root, (".antt", ".rt"))):
        text = read(path)
        if path.endswith(".rt"):
            new = turn_rt(text, {}, set())
        else:
            kept = from_library(text, own)
            here = dashed
            if is_walk(path):
                brought = {n for p, names in uses(text) if p.split(".")[0] == "Rattle" and p.split(".")[1] in own for n in names}
                here = {n: to for n, to in dashed.items() if n in brought}
            here = here | LEMMAS.get(os.path.basename(path), {})
            new = turn_antt(text, here, kept, path.endswith(os.path.join("model", "proofs", "RackTable.antt")))
        if new != text:
            with open(path, "w", encoding="utf-8") as f:
                f.write(new)
            count += 1
            for line in fallen_together(os.path.relpath(path, root), text, new):
                print(line)
    print(f"{count} files respelled")


if __name__ == "__main__":
    main()
