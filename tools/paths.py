#!/usr/bin/env python3
"""For proofs of the older form; nothing here uses it now. What is known at a goal is printed by `rt check --start F --allow-holes`.

Prints, for each need of a function, the path to each fact that is known there (`c .before×2 .loop{i,inv}` ..).

    rt dev NAME --generated target/gen
    python3 tools/paths.py NAME FUNCTION [NEED]     FUNCTION is its folder of proofs, NEED a regular expression
"""
import glob
import re
import sys


def read(path):
    """The records of a generated file, with their fields, and its needs, with the record that each is given."""
    lines, records, needs = open(path).read().split('\n'), {}, []
    i = 0
    while i < len(lines):
        m = re.match(r'( *)pub record (\S+)', lines[i])
        if m:
            deep, fields = len(m.group(1)), []
            i += 1
            while i < len(lines) and (not lines[i].strip() or len(lines[i]) - len(lines[i].lstrip()) > deep):
                field = re.match(r' {%d}pub (\S+) : ?(\S*)' % (deep + 2), lines[i])
                if field:
                    fields.append(field.groups())
                i += 1
            records[m.group(2)] = fields
            continue
        m = re.match(r' *(Need-\S+) =(.*)', lines[i])
        if m:
            given = re.search(r'\(c : (\S+?)\)', m.group(2) + (lines[i + 1] if i + 1 < len(lines) else ''))
            if given:
                needs.append((m.group(1), given.group(1)))
        i += 1
    return records, needs


def show(records, need, record):
    print(need, ':', record)
    depth = 0
    while record in records:
        known = []
        for name, kind in records[record]:
            if name != 'before':
                inner = records.get(kind)
                known.append('.' + name + ('{' + ','.join(x for x, _ in inner) + '}' if inner else ''))
        print('    c' + (f' .before×{depth}' if depth else '') + '  ' + ' '.join(known))
        record = dict(records[record]).get('before')
        depth += 1


def main():
    if len(sys.argv) not in (3, 4):
        sys.exit(__doc__)
    crate, function = sys.argv[1:3]
    for path in glob.glob(f'target/gen/Rattle·{crate}·proofs/proofs/{function}/Lts*.antt'):
        records, needs = read(path)
        for need, record in needs:
            if len(sys.argv) < 4 or re.fullmatch(sys.argv[3], need[5:]):
                show(records, need, record)


main()
