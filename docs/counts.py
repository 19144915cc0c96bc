#!/usr/bin/env python3
"""Counts lines that are neither blank nor comments: code, contracts, definitions and proofs, for each crate.

    docs/counts.py
"""
import os
import re

ROOT = os.path.join(os.path.dirname(os.path.abspath(__file__)), '..')
PARTS = ('code', 'contracts', 'definitions', 'proofs', 'edits')


def files(folder, ending):
    for place, _, names in os.walk(folder):
        for name in sorted(names):
            if name.endswith(ending):
                yield os.path.join(place, name)


def lines(path, comment):
    with open(path, encoding='utf-8') as source:
        return [line for line in source if line.strip() and not line.strip().startswith(comment)]


def main():
    print(f'{"crate":12}' + ''.join(f'{part:>12}' for part in PARTS))
    total = dict.fromkeys(PARTS, 0)
    with open(os.path.join(ROOT, 'crates.txt'), encoding='utf-8') as listed:
        crates = [line.split(':')[0] for line in listed if ':' in line and not line.startswith('#')]
    for crate in crates:
        folder = os.path.join(ROOT, 'crates', crate)
        count = dict.fromkeys(PARTS, 0)
        for path in files(os.path.join(folder, 'src'), '.rt'):
            for line in lines(path, '//'):
                count['contracts' if re.match(r'\s*(ghost|requires|ensures)\b', line) else 'code'] += 1
        for part, name in (('definitions', 'specs'), ('proofs', 'proofs')):
            count[part] = sum(len(lines(path, '--')) for path in files(os.path.join(folder, name), '.antt'))
        count['edits'] = sum(1 for _ in files(os.path.join(folder, 'must-fail'), '.edit'))
        print(f'{crate:12}' + ''.join(f'{count[part]:12}' for part in PARTS))
        for part in PARTS:
            total[part] += count[part]
    print(f'{"all":12}' + ''.join(f'{total[part]:12}' for part in PARTS))


if __name__ == '__main__':
    main()
