#!/usr/bin/env python3
"""Compares what the benchmark has printed, of two states or of one.

    python3 tools/bench.py table NOW BEFORE             the rows of docs/BENCHMARKS.md, from one run of each
    python3 tools/bench.py compare BEFORE.. -- AFTER..  the library's times over the runs of two states, made in turn; SLOWER or faster where each run is
"""
import re
import sys


def read(path):
    found = {}
    for line in open(path):
        m = re.match(r'(.{48}) library +([\d.]+) ns +walker +([\d.]+) ns +ratio ([\d.]+)', line)
        if m:
            found[m.group(1).strip()] = (float(m.group(2)), float(m.group(3)), m.group(4))
    return found


def time(ns):
    if ns < 10_000:
        return f'{ns:.0f} ns'
    unit, x = ('µs', ns / 1e3) if ns < 1e6 else ('ms', ns / 1e6)
    return f'{x:.3f} {unit}' if x < 10 else f'{x:.2f} {unit}' if x < 100 else f'{x:.1f} {unit}'


def table(now, before):
    for name, (library, walker, ratio) in now.items():
        print(f'| {name} | {time(library)} | {time(walker)} | {ratio} | {before[name][2] if name in before else "–"} |')


def compare(before, after):
    for name in after[0]:
        old, new = [r[name][0] for r in before if name in r], [r[name][0] for r in after if name in r]
        if not old:
            print(f'{name:48} {"–":>24} {min(new):>12.0f} to {max(new):.0f}')
            continue
        word = 'SLOWER' if min(new) > max(old) else 'faster' if max(new) < min(old) else ''
        print(f'{name:48} {min(old):>12.0f} to {max(old):<12.0f} {min(new):>12.0f} to {max(new):<12.0f} {sorted(new)[len(new) // 2] / sorted(old)[len(old) // 2]:.3f} {word}')


def main():
    words = sys.argv[1:]
    if words[:1] == ['table'] and len(words) == 3:
        table(read(words[1]), read(words[2]))
    elif words[:1] == ['compare'] and '--' in words[2:-1]:
        i = words.index('--')
        compare([read(p) for p in words[1:i]], [read(p) for p in words[i + 1:]])
    else:
        sys.exit(__doc__)


main()
