#!/usr/bin/env python3
"""Counts the places of docs/DESIGN-PASS.md in crates/*/src: python3 tools/places.py [REPOSITORY] [--list]

1 numbers for refusals and kinds, values that stand for none, flags with a value   2 functions alike but for names, types and numbers
3 loops that count an index by hand   4 equality, copying and conversion by hand   5 clauses that repeat a fact, literals of a fresh value
6 arrays with a length beside them   7 enums that only say which step to run
"""
import re
import sys
from collections import defaultdict
from pathlib import Path

POINTS = {
    '1 a refusal as a number': [
        r'^\s*(pub )?fn \w*refusal\w*\(.*\) -> u8$', r'^\s*pub refusal: u8,', r'\bfn \w+\(.*\brefusal: u8.*\)',
        r'\bfn refused_if\(.*number: u8'],
    '1 a kind as a number': [
        r'^\s*pub (kind|reason|format|err): u8,', r'\bfn \w+\(.*\b(kind|reason): u8', r'\bfn (action_of|keyword_of)\(.*\) -> u8'],
    '1 a number that stands for none': [r'\bfn (digit_of|digits_of|decimal_of|hex_of|signed_decimal_of|positive_of|negative_of)\(.*\) -> u(8|32)$'],
    '1 own enum of the shape of Option': [r'^\s*Valid\(i16, f32\),$'],
    '3 while over an index': [r'^\s*while .*(<|-).*\{$'],
    '3 for over an index of one array': [],
    '4 conversion or comparison by hand': [r'\bfn (is_same|less|within_array|limited|at_most|index_of|wide|value)\('],
    '5 a clause on a length in several functions': [r'requires \{ (4|9) ≤ length frame'],
    '5 a fresh value written out': [r'^\s*(return |let .* = )?\[?(Thermostat|Preset|Output|Line) \{\s*$', r'thermostat: Thermostat \{', r'\w+: \[(Thermostat|Preset|Output|Line) \{'],
    '6 an array with its length beside': [r'^\s*pub len: usize,'],
    '7 an enum that says which step to run': [r'^\s*(pub )?enum (NumberBits|Rule|Layout|Shown|Kind) '],
}


def functions(text):
    """name, first line, body of each function"""
    lines = text.split('\n')
    i = 0
    while i < len(lines):
        m = re.match(r'\s*(?:pub )?(?:extern "C" )?fn (\w+)', lines[i])
        if m:
            depth = 0
            seen = False
            j = i
            body = []
            while j < len(lines):
                line = lines[j]
                if not re.match(r'\s*(ensures|requires)\b', line):
                    body.append(line)
                    depth += line.count('{') - line.count('}')
                    seen = seen or '{' in line
                if seen and depth == 0:
                    break
                j += 1
            yield m.group(1), i + 1, body
            i = j
        i += 1


KEEP = set('let mut if else while for in return match true false as fn pub struct loop break const'.split())


def shape(body):
    """the body with every name, type and number blotted out"""
    text = '\n'.join(line.strip() for line in body if not line.strip().startswith('//'))
    text = re.sub(r'^.*?\{\n', '', text, count=1, flags=re.S)
    text = re.sub(r'\b(0x[0-9A-Fa-f]+|\d[\d_]*)(u8|u16|u32|u64|usize|i16)?\b', '#', text)
    text = re.sub(r'\b[A-Za-z_]\w*(::[A-Za-z_]\w*)*\b', lambda m: m.group(0) if m.group(0) in KEEP else '@', text)
    return re.sub(r'\s+', ' ', text)


def main():
    args = [a for a in sys.argv[1:] if not a.startswith('--')]
    root = Path(args[0] if args else '.')
    files = sorted(root.glob('crates/*/src/*.rt'))
    found = defaultdict(list)
    shapes = defaultdict(list)
    for f in files:
        text = f.read_text()
        crate = f.parts[-3]
        for n, line in enumerate(text.split('\n'), 1):
            for point, patterns in POINTS.items():
                if any(re.search(p, line) for p in patterns):
                    found[point].append(f'{crate}:{n}: {line.strip()}')
        for name, n, body in functions(text):
            s = shape(body)
            if len(s) > 60:
                shapes[s].append(f'{crate}:{n}: {name}')
            inside = '\n'.join(body)
            for m in re.finditer(r'for (\w+) in 0\.\.[\w.()]+ \{\n((?:.*\n)*?)\s*\}', inside):
                i = m.group(1)
                arrays = set(re.findall(r'(\w+)\[' + i + r'\]', m.group(2)))
                if len(arrays) == 1:
                    found['3 for over an index of one array'].append(f'{crate}:{n}: {name}')
    for group in shapes.values():
        if len(group) > 1:
            found['2 functions of one shape'] += [group[0] + '  with  ' + ', '.join(group[1:])]
    for point in sorted(set(POINTS) | {'2 functions of one shape'}):
        print(f'{len(found[point]):4}  {point}')
        if '--list' in sys.argv:
            for place in found[point]:
                print('        ' + place)


main()
