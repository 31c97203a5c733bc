#!/usr/bin/env python3
"""Counts the places of each point of docs/DESIGN-PASS.md in crates/*/src (of a commit, if one is given): forms.py [-l] [COMMIT]. With -l it lists them."""
import re
import subprocess
import sys

TRAVEL = {'quads', 'count', 'needs', 'outputs', 'conditions', 'group', 'places', 'order', 'groups', 'wires'}
LENGTHS = [('quads', 'count'), ('order', 'groups'), ('ranks', 'count'), ('group', 'count'), ('window', 'to'), ('text', 'n'), ('needs', 'count'),
           ('bits', 'count'), ('out', 'n')]
POINTS = [
    ('1a own Option or Result', r"\b(Step|Next|Order)::"),
    ('1b refused by a number', r"\b[rR]efused\((?:\d+|row|laid|joins|number)\b"),
    ('1c a number for a refusal or for none', r"return (?:\d{2,}|SIZES|NUMBERS|ORDER|COSTLY|ALIKE|PARTED);"
     r"|\b(?:number|row|laid|joins|size|rule|plan|at) [!=]= 0\b|\b65535 < [nm]\b|\b255 < k\b"),
    ('1d a number given for a row', r"^const [A-Z]+: u8 = (?:2[0-9]|3[0-2]);|^pub fn \w+\((?s:[^{]*?)-> u8\s+(?:requires|ensures)(?s:[^{]*?)\{[^}]*(?:row|failing)"),
    ('3 loops that are no `for`', r"^\s*(?:while|(?:'\w+: )?loop)\b"),
    ('4a equality by hand', r"\bsame_kind\("),
    ('4b a wider number by hand', r"\b(?:wide|wide8|wide16|small)\("),
    ('4c the number in a name, cast', r"\.0 as (?:usize|u32|u8)\b"),
    ('7 a step chosen by a number', r"\b(?:row|operation): u8\b"),
]


def texts(commit):
    ask = ['git', 'ls-tree', '-r', '--name-only', commit] if commit else ['git', 'ls-files']
    names = subprocess.check_output(ask, text=True).split('\n')
    for name in sorted(n for n in names if re.fullmatch(r'crates/\w+/src/.*\.rt', n)):
        text = subprocess.check_output(['git', 'show', f'{commit}:{name}'], text=True) if commit else open(name).read()
        yield name, re.sub(r'//[^\n]*', '', text)


def functions(text):
    for m in re.finditer(r'\bfn (\w+)(?:<[^>]*>)?\(((?:[^(){}]|\([^()]*\))*)\)', text):
        yield m.start(), m.group(1), re.findall(r'(\w+): ', m.group(2))


def main():
    args = [a for a in sys.argv[1:] if a != '-l']
    listed = '-l' in sys.argv
    found = {}
    for name, text in texts(args[0] if args else None):
        def note(point, at, what):
            found.setdefault(point, []).append(f'{name}:{text.count(chr(10), 0, at) + 1}: {what.strip()}')
        for point, form in POINTS:
            for m in re.finditer(form, text, re.M):
                note(point, m.start(), m.group(0).split('\n')[0])
        for at, fn, params in functions(text):
            if len(TRAVEL & set(params)) >= 2 or len(params) >= 7:
                note('5 parameters that travel together', at, fn)
            if any(a in params and n in params for a, n in LENGTHS):
                note('6 an array and how much of it is used', at, fn)
    for point in sorted(found):
        print(f'{point}: {len(found[point])}')
        if listed:
            print(*('    ' + line for line in found[point]), sep='\n')


main()
