#!/usr/bin/env python3
"""Compares the machine code of two archives, function by function, places aside.

    python3 tools/compare_code.py BEFORE.a AFTER.a      as target/staticlib/libexports.a of two states; needs objdump
"""
import difflib
import re
import subprocess
import sys


def functions(archive):
    listing = subprocess.run(['objdump', '-d', '-r', '--no-show-raw-insn', archive], capture_output=True, text=True, check=True).stdout
    found, name = {}, None
    for line in listing.split('\n'):
        m = re.match(r'^[0-9a-f]+ <(.*)>:$', line)
        if m:
            name = m.group(1)
            found[name] = []
        elif name and line.strip() and not line.startswith('Disassembly'):
            line = re.sub(r'^\s*[0-9a-f]+:\s*', '', line)
            line = re.sub(r'\b[0-9a-f]+ <([^>+]*)(\+0x[0-9a-f]+)?>', r'<\1\2>', line)
            found[name].append(re.sub(r'\.L\S+|\.rodata\S*', 'R', line))
    return found


def main():
    if len(sys.argv) != 3:
        sys.exit(__doc__)
    before, after = functions(sys.argv[1]), functions(sys.argv[2])
    both = [name for name in before if name in after]
    differ = [name for name in both if before[name] != after[name]]
    print(len(both) - len(differ), 'the same,', len(differ), 'differ')
    for title, names in (('only before:', [n for n in before if n not in after]), ('only after:', [n for n in after if n not in before])):
        if names:
            print(title, ' '.join(names))
    for name in differ:
        lines = list(difflib.unified_diff(before[name], after[name], lineterm='', n=0))
        print(f'{name}: {len(before[name])} instructions before, {len(after[name])} after')
        print('\n'.join(lines[:14]))


main()
