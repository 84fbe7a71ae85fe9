#!/usr/bin/env python3
"""Counts the places of docs/DESIGN-PASS.md in src/: forms of the older language, point by point.

    python3 tools/places.py [--list]            from the repository's root; --list shows each place

A place is a line, but for points 5 (a function, or a fact) and 8 (a file). Point 2, pairs of places that share six lines, is not counted
here. Comments and imports do not count.
"""
import collections
import re
import subprocess
import sys

SOURCES = subprocess.check_output(['git', 'ls-files', 'crates/*/src/*.rt'], text=True).split()
SENTINEL = r'\b(NONE|NOWHERE|NO_NUMBER|FAILED|NO_ROW|NO_CELLS|ONE_TURN|EMPTY_ARM)\b'
KINDS = r'(READ|WRITE|COPY|NEED|MARK|BRANCH|LOOP|CALL|FIXED|R|W|RW|PLAIN|DECLARED)'
LINES = {
    '1a a flag, a number or an answer beside a value': r'^\s+(pub )?(verdict: Verdict|fits: bool|failed: bool|asked: bool|running: bool|number: u8|stops: bool),$',
    '1b a refusal handed on by hand': r'let Verdict::Accepted = ',
    '1c a number that stands for none': SENTINEL,
    '1d a kind as a number, compared or matched': r'(\bkind\b *(==|!=|<=|<) *' + KINDS + r'\b|\b' + KINDS + r' *(==|<=|<) *(x\.|o\.)?kind\b|^\s+' + KINDS + r'( \| ' + KINDS + r')* =>)',
    '1e a refusal by its number': r'Refused\([0-9]+,',
    '3a a loop with `while`': r'^\s*while ',
    '4a a conversion that has a function of its own': r'fn (wide|wider|place|step|pack|unpack)\(',
    '4b a number split into bytes or put together': r'(% 256\)|/ 256\)|\* 256$)',
    '4c larger, smaller, no less than zero by hand': r'fn (larger|shorter|earlier|last)\(',
    '4d text put together by marks': r'b"[^"]*#[^"]*"',
    '6a a page with the count of its bytes beside': r'page: &(mut )?Page, at: usize|^\s+at: usize,$',
    '6b numbers packed into one another': r'65536 \* |\* 65536|/ 65536|% 65536|const (ENDS|BACKS|TURNS): ',
    '6c parallel arrays': r'kinds: &(mut )?\[u8; NAMES\]|sides: &(mut )?\[u8; NAMES\]',
}


def code(path):
    for n, line in enumerate(open(path), 1):
        text = line.split('//')[0].rstrip('\n')
        if text.strip() and not re.match(r'\s*(ghost )?use ', text):
            yield n, text


def functions():
    form = re.compile(r'^ *(?:pub )?(?:extern "C" )?fn (\w+)[^(]*\(((?:[^()]|\([^()]*\))*)\)(.*?)^ *\{', re.M | re.S)
    for path in SOURCES:
        for m in form.finditer(open(path).read()):
            lent = [p for p in re.split(r',(?![^<(]*[>)])', m.group(2)) if p.strip()]
            asked = [c.strip().strip('()') for r in re.findall(r'requires (?:\w+ )?\{ (.*?) \}\s*$', m.group(3), re.M) for c in r.split(' × ')]
            yield path, m.group(1), len(lent), asked


def report(name, places):
    print(f'{len(places):5} {name}')
    if '--list' in sys.argv:
        for place in places:
            print('         ', place)


def main():
    for name, form in LINES.items():
        report(name, [f'{p}:{n}: {t.strip()}' for p in SOURCES for n, t in code(p) if re.search(form, t)])
    many, asked = [], collections.defaultdict(list)
    for path, name, lent, facts in functions():
        if lent >= 6:
            many.append(f'{path}: {name}: {lent} parameters')
        for fact in facts:
            asked[fact].append(f'{path}: {name}')
    report('5a a function of six parameters or more', many)
    often = {f: l for f, l in asked.items() if len(l) >= 3}
    report('5b a fact asked for by three functions or more', [f'{len(l):3} {f}' for f, l in sorted(often.items(), key=lambda x: -len(x[1]))])
    report('8a a file of answers', [p for p in subprocess.check_output(['git', 'ls-files', 'crates/*/proofs/*Answers.antt'], text=True).split()])


main()
