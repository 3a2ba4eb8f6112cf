#!/usr/bin/env python3
"""Prints what docs/DESIGN-PASS.md counts for its point 5: each fact that three or more functions require, and each two parameters of the same
names and types that three or more functions take, with the functions. Run it at the top of a checkout.

A fact is a part of a `requires`; in it each name of a value is `_`, so that the same fact of an `i` and of a `j` counts as one.
"""
import collections
import glob
import itertools
import re

VALUES = (
    'i j c r p g h k m n x q a b d count exponent row part rest codes bytes letters numbers out at columns masks left right number '
    'highest length entries partners operator product writer w cut text bundle sheets'
).split()
VALUE = re.compile(r'\b(?:' + '|'.join(VALUES) + r')\b(?:\.(?:now|old|exponent|matrix|count))*')


def parts(clause):
    """The parts of a product, at its outermost level."""
    depth, start = 0, 0
    for i, char in enumerate(clause):
        depth += (char == '(') - (char == ')')
        if char == '×' and depth == 0:
            yield clause[start:i].strip()
            start = i + 1
    yield clause[start:].strip()


def functions():
    """Each function's name with its crate, its parameters and its `requires`."""
    for path in sorted(glob.glob('crates/*/src/*.rt')):
        crate = path.split('/')[1]
        text = open(path).read()
        for found in re.finditer(r'fn (\w+)(?:<.*?>)?\(([^)]*)\)', text):
            clauses = []
            for line in text[found.end() :].split('\n')[1:]:
                clause = re.match(r' +requires (?:\w+ )?\{ (.*) \}$', line)
                if clause:
                    clauses.append(clause.group(1))
                elif not re.match(r' +(ensures|where|//|[\w<>]+: )', line):
                    break
            parameters = [p.strip() for p in re.split(r',\s*(?![^\[<]*[\]>])', found.group(2)) if p.strip()]
            yield f'{crate}::{found.group(1)}', parameters, clauses


def main():
    facts, pairs = collections.defaultdict(set), collections.defaultdict(set)
    for name, parameters, clauses in functions():
        for clause in clauses:
            for part in parts(clause):
                if re.fullmatch(r'\(.*\)', part):
                    part = part[1:-1]
                facts[VALUE.sub('_', part)].add(name)
        for pair in itertools.combinations(sorted(parameters), 2):
            pairs[', '.join(pair)].add(name)
    for title, groups in (('facts', facts), ('parameters', pairs)):
        print(title)
        for key, names in sorted(groups.items(), key=lambda group: (-len(group[1]), group[0])):
            if len(names) >= 3:
                print(f'{len(names):4} {key}: {", ".join(sorted(names))}')


if __name__ == '__main__':
    main()
