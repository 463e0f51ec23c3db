#!/usr/bin/env python3
"""believe.py: the definitions that a reader must believe, crate by crate in the order of crates.txt, each file with its lines (comments, imports and
blank lines not counted), and the sum. A file whose first line says that a reader need not believe it is not listed; files of laws and of examples,
which are proved, are counted apart."""
import re
from pathlib import Path

ROOT = Path(__file__).resolve().parent.parent
APART = {'Laws', 'HasWords', 'OpenBits', 'Examples'}


def lines_of(path):
    text = path.read_text(encoding='utf-8')
    if re.match(r'-- (A reader need not believe|Nothing here has to be believed)', text):
        return None
    lines = [line.strip() for line in text.split('\n')]
    return sum(1 for line in lines if line and not line.startswith(('--', 'use ')))


def main():
    crates = [line.split(':')[0] for line in (ROOT / 'crates.txt').read_text().split('\n') if ':' in line and not line.startswith('#')]
    total = apart = unneeded = 0
    print('| crate | files and their lines | sum |\n|---|---|---|')
    for crate in crates:
        listed = []
        for path in sorted((ROOT / 'crates' / crate / 'specs').glob('*.antt')):
            if path.stem == 'Lib':
                continue
            lines = lines_of(path)
            if lines is None:
                unneeded += 1
            elif path.stem in APART:
                apart += lines
            else:
                listed.append((path.stem, lines))
        if listed:
            print(f"| {crate} | {', '.join(f'{name} {lines}' for name, lines in listed)} | {sum(lines for _, lines in listed)} |")
            total += sum(lines for _, lines in listed)
    print(f'| | all | {total} |\n\nLaws and examples, which are proved and not believed: {apart} lines. Files that only code and proofs need: {unneeded}.')


main()
