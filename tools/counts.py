#!/usr/bin/env python3
"""Counts, crate by crate: lines of definitions that must be believed, files that have some, functions of the code, must-fail edits.

    python3 tools/counts.py [--files]           from the repository's root; --files has the lines of each file too

A line of definitions stands in specs/ outside Inner and is no comment, no blank, no `use` and no `mod` line.
"""
import glob
import os
import re
import sys


def definitions(path):
    lines = (line.strip() for line in open(path))
    return sum(1 for l in lines if l and not l.startswith(('--', 'use ')) and not re.match(r'(pub )?mod ', l))


def functions(crate):
    return sum(len(re.findall(r'^\s*(?:pub )?(?:extern "C" )?fn ', open(path).read(), re.M)) for path in glob.glob(f'crates/{crate}/src/**/*.rt', recursive=True))


def main():
    if sys.argv[1:] not in ([], ['--files']):
        sys.exit(__doc__)
    crates = [l.split(':')[0].split()[0] for l in open('crates.txt') if ':' in l and not l.startswith('#')]
    print(f'{"crate":12} lines files functions edits')
    total, all_files, some = 0, 0, 0
    for crate in crates:
        found = {}
        for path in sorted(glob.glob(f'crates/{crate}/specs/**/*.antt', recursive=True)):
            if '/Inner' not in path and definitions(path):
                found[path] = definitions(path)
        lines = sum(found.values())
        edits = len(glob.glob(f'crates/{crate}/must-fail/*.edit'))
        print(f'{crate:12} {lines:5} {len(found):5} {functions(crate):9} {edits:5}')
        if sys.argv[1:]:
            for path, n in found.items():
                print(f'    {n:4} {os.path.relpath(path, "crates/" + crate)}')
        total, all_files, some = total + lines, all_files + len(found), some + bool(found)
    print(f'{total} lines to believe, in {all_files} files of {some} crates')


main()
