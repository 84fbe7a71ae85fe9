#!/usr/bin/env python3
"""Prints the instructions of a program that were executed at least so often, with how often, in the order of the code.

    python3 tools/hot.py CALLGRIND LISTING LEAST [PER]      CALLGRIND by valgrind with --dump-instr=yes, LISTING by objdump -d; counts are divided by PER (1)

tools/once.c says how to make both.
"""
import re
import sys


def counts(path):
    """How often each instruction of the program itself was executed, by the low 16 bits of its place: it may be loaded elsewhere."""
    found, objects, place, own, inclusive, program = {}, {}, 0, False, False, None
    for line in open(path):
        m = re.match(r'^cmd: +(\S+)', line)
        if m:
            program = m.group(1).split('/')[-1]
        m = re.match(r'^(c?ob)=(\(\d+\))(?: (.*))?$', line)
        if m and m.group(3):
            objects[m.group(2)] = m.group(3).split('/')[-1]
        if m and m.group(1) == 'ob':
            own = objects.get(m.group(2)) == program
        m = re.match(r'^(0x[0-9a-f]+|\+\d+|-\d+|\*) (\S+) (\d+)$', line)
        if m:
            step = m.group(1)
            if step.startswith('0x'):
                place = int(step, 16)
            elif step != '*':
                place += int(step)
            # behind a call stands what the callee took
            if own and not inclusive:
                found[place & 0xffff] = found.get(place & 0xffff, 0) + int(m.group(3))
        inclusive = line.startswith('calls=')
    return found


def main():
    if len(sys.argv) not in (4, 5):
        sys.exit(__doc__)
    low, least, per, total = counts(sys.argv[1]), int(sys.argv[3]), int(sys.argv[4]) if len(sys.argv) == 5 else 1, 0
    for line in open(sys.argv[2]):
        m = re.match(r'\s+([0-9a-f]+):\t(.*)', line)
        n = low.get(int(m.group(1), 16) & 0xffff, 0) if m else 0
        if n and n >= least:
            print(f'{n / per:12.0f} {line.rstrip()}')
            total += n
    print(f'{total / per:.0f} in all')


main()
