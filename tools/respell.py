#!/usr/bin/env python3
"""Respells this repository's own names: words in snake case where they were in camel case.

usage: tools/respell.py ROOT     (run once, at the top of a tree that port.py has turned)

- a definition, lemma, field or variable of the logic in lower camel case becomes snake case
  (phaseKind: phase_kind), in .antt and .rt files, must-fail edits and pages;
- six lemmas would then have the name of the definition that they speak of: they get the ending _lem;
- each plain record and enum derives Clone and Copy, as its values were copied before;
- each root file has the line #![tactic(auto)].
Strings of programs and names of functions and types stay.
"""
import glob
import os
import re
import sys

CAMEL = re.compile(r"(?<![A-Za-z0-9_'])[a-z][a-z0-9_]*[A-Z][A-Za-z0-9_']*")
# lemma: the files of the logic in which the name means the lemma
LEMMAS = {
    'at_front': ['crates/text', 'crates/written'],
    'by_number': ['crates/rules'],
    'is_digit': ['crates/grammar', 'crates/scanning', 'crates/lines', 'crates/text'],
    'more_numbers': ['crates/grammar', 'crates/scanning', 'crates/lines', 'crates/text'],
    'no_other': ['crates/order', 'crates/output'],
    'sum_below': ['crates/preservation', 'crates/order', 'crates/output'],
}
KEEP = set()


def snake(m):
    w = m.group(0)
    if w in KEEP:
        return w
    return re.sub(r'(?<=[a-z0-9])[A-Z]', lambda c: '_' + c.group(0).lower(), w)


def respell(text, rust):
    if not rust:
        return CAMEL.sub(snake, text)
    # a Rust file: strings stay
    out = []
    for part in re.split(r'("(?:[^"\\\n]|\\.)*")', text):
        out.append(part if part.startswith('"') else CAMEL.sub(snake, part))
    return ''.join(out)


def main(root):
    os.chdir(root)
    antt = sorted(glob.glob('crates/*/specs/**/*.antt', recursive=True) + glob.glob('crates/*/proofs/**/*.antt', recursive=True))
    rust = sorted(glob.glob('crates/*/src/**/*.rt', recursive=True))
    edits = sorted(glob.glob('crates/*/must-fail/*.edit') + glob.glob('edits/*/*.edit'))
    pages = sorted(glob.glob('docs/*.md') + ['README.md', 'CHANGELOG.md'])
    for f in antt:
        t = n = open(f).read()
        for lemma, crates in LEMMAS.items():
            if any(f.startswith(c + '/') for c in crates):
                n = re.sub(r"(?<![A-Za-z0-9_'.-])" + lemma + r"(?![A-Za-z0-9_'-])", lemma + '_lem', n)
        n = respell(n, False)
        if n != t:
            open(f, 'w').write(n)
    for f in rust:
        t = open(f).read()
        n = respell(t, True).replace('#[derive(Drop)]', '#[derive(Clone, Copy)]')
        if f.endswith('/src/lib.rt') or f.endswith('/src/main.rt'):
            n = with_tactic(n)
        if n != t:
            open(f, 'w').write(n)
    for f in edits + pages:
        t = open(f).read()
        n = respell(t, False)
        if n != t:
            open(f, 'w').write(n)


def with_tactic(text):
    if '#![tactic(auto)]' in text:
        return text
    lines = text.split('\n')
    i = 0
    while i < len(lines) and lines[i].startswith('//'):
        i += 1
    lines.insert(i, '#![tactic(auto)]')
    if i + 1 < len(lines) and lines[i + 1].strip() != '':
        lines.insert(i + 1, '')
    return '\n'.join(lines)


main(sys.argv[1])
