#!/usr/bin/env python3
"""Makes a table of the gate from what `bash .ci/run` or `rt ci` has printed: of each crate whether it is proved, how many of its must-fail edits are refused, and how many are not.

    python3 tools/gatetable.py OUTPUT           from the repository's root; the rows stand in the order of crates.txt

Today's kit prints no seconds for a crate or an edit; those of docs/BENCHMARKS.md, 'The gate', are of an older one.
"""
import collections
import re
import sys


def main():
    if len(sys.argv) != 2:
        sys.exit(__doc__)
    printed, proofs, refused, others = open(sys.argv[1]).read(), {}, collections.Counter(), collections.Counter()
    for name, word in re.findall(r'^rt: (\w+) (proved|NOT PROVED|is kept)', printed, re.M):
        proofs[name] = {'is kept': 'kept'}.get(word, word)
    for name, word in re.findall(r'^rt: must-fail (\w+)/[\w.-]+: (refused|BAD EDIT|NOT \w+)', printed, re.M):
        (refused if word == 'refused' else others)[name] += 1
    print('| Crate | Proof | Edits refused | Others |')
    print('|---|---|---|---|')
    for name in [l.split(':')[0].split()[0] for l in open('crates.txt') if ':' in l and not l.startswith('#')]:
        print(f'| `{name}` | {proofs.get(name, "–")} | {refused[name]} | {others[name]} |')
    print(f'{sum(word in ("proved", "kept") for word in proofs.values())} crates proved, {sum(refused.values())} edits refused, {sum(others.values())} not')


main()
