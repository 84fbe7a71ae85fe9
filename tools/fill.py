#!/usr/bin/env python3
"""For proofs of the older form; nothing here uses it now.

Fills the needs of a proof file that tools/skeleton.py has written.

    python3 tools/fill.py PROOF DESCRIPTION     both are files; PROOF is written anew

A description has lines of four kinds:
    use Rattle·..                put at the head, before the imports that are there
    NEED = TERM                  the need of that name; ⟨n⟩ in a term stands for n times ` .before`
    Inv-loop = TERM              the invariant, over the names that its line in PROOF has
    μ-loop = TERM                the measure, likewise
Comments that name lines of the code go, and so do the imports for reading that a skeleton has and no proof uses.
"""
import re
import sys


def spelled(term):
    return re.sub(r'⟨(\d+)⟩', lambda m: ' .before' * int(m.group(1)), term)


def main():
    if len(sys.argv) != 3:
        sys.exit(__doc__)
    proof, description = (open(path).read() for path in sys.argv[1:])
    proof = re.sub(r'^-- src/\S+\n', '', proof, flags=re.M)
    proof = re.sub(r'^use Rattle.* as (reads|lts)\n', '', proof, flags=re.M)
    proof = re.sub(r'^use Rattle.*-reads\n', '', proof, flags=re.M)
    head = ''
    for line in description.split('\n'):
        if line.startswith('use '):
            head += line + '\n'
            continue
        name, sign, term = line.partition(' = ')
        if not sign:
            continue
        found = re.compile(r'^(' + re.escape(name.strip()) + r'( [^=\n]*)?) = .*$', re.M)
        if not found.search(proof):
            sys.exit(f'{sys.argv[1]}: no line for {name}')
        proof = found.sub(lambda m: m.group(1) + ' = ' + spelled(term.strip()), proof)
    with open(sys.argv[1], 'w') as file:
        file.write(head + proof)


main()
