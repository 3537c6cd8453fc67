#!/usr/bin/env python3
# Counts what docs/DESIGN-PASS.md counts in the sources: parameters that travel together, the facts that contracts
# require, enums, loops, numbers handed out through &mut, and flags. Run at the top of a checkout.
import glob
import re
import sys
from collections import Counter


def functions():
    for path in sorted(glob.glob('crates/*/src/*.rt')):
        text = open(path).read()
        for found in re.finditer(r'\bfn ([a-z_0-9]+)(?:<[^>(]*>)?\(', text):
            depth, at = 1, found.end()
            while depth:
                depth += {'(': 1, ')': -1}.get(text[at], 0)
                at += 1
            params, depth, part = [], 0, ''
            for letter in text[found.end():at - 1]:
                depth += {'(': 1, '[': 1, '<': 1, ')': -1, ']': -1, '>': -1}.get(letter, 0)
                if letter == ',' and depth == 0:
                    params.append(part)
                    part = ''
                else:
                    part += letter
            params.append(part)
            types = dict((p.split(':', 1)[0].replace('mut ', '').strip(), p.split(':', 1)[1].strip())
                         for p in params if ':' in p)
            clauses = text[at:text.index('\n{', at)] if '\n{' in text[at:] else ''
            yield path.split('/')[1], found.group(1), types, clauses


def main():
    all_functions = list(functions())
    print(f'{len(all_functions)} functions')
    pairs, facts = Counter(), Counter()
    for crate, name, types, clauses in all_functions:
        names = sorted(types)
        for i, a in enumerate(names):
            for b in names[i + 1:]:
                pairs[a, b] += 1
        required = ' '.join(re.findall(r'requires[a-z_ ]*\{(.*?)\}(?=\n|$)', clauses, re.S))
        for fact in set(re.findall(r'\b([A-Z][A-Za-z]+)\b', required)):
            facts[fact] += 1
    print('parameters that stand together in four functions or more:')
    for (a, b), n in sorted(pairs.items(), key=lambda x: (-x[1], x[0])):
        if n >= 4:
            print(f'  {n:3} {a}, {b}')
    print('facts that three functions or more require:')
    for fact, n in facts.most_common():
        if n >= 3:
            print(f'  {n:3} {fact}')
    print('numbers handed out through &mut, without the exports for C:')
    for crate, name, types, clauses in all_functions:
        out = [p for p, t in types.items() if re.fullmatch(r"&(?:'a )?mut (?:u32|usize)", t)]
        if out and not name.startswith('aura0_'):
            print(f'  {crate}::{name}: {", ".join(out)}')
    print('flags:')
    for crate, name, types, clauses in all_functions:
        out = [p for p, t in types.items() if t == 'bool']
        if out:
            print(f'  {crate}::{name}: {", ".join(out)}')


if __name__ == '__main__':
    sys.exit(main())
