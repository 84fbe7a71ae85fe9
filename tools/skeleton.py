#!/usr/bin/env python3
"""For proofs of the older form; nothing here uses it now.

Writes each proof file that a check offers and that is not there yet, with `search needs` at each need.

    python3 tools/skeleton.py NAME            from the repository's root: checks the crate NAME by `rt dev`

Write the invariants and measures, and run it again after each callee is proved.
"""
import os
import re
import subprocess
import sys


def offered(lines):
    """Each file that the check's help offers: its path and its lines."""
    i = 0
    while i < len(lines):
        m = re.match(r'help: write (\S+) with these lines', lines[i])
        i += 1
        if not m:
            continue
        body = []
        while i < len(lines) and (lines[i].startswith('    ') or not lines[i].strip()):
            body.append(lines[i][4:].rstrip())
            i += 1
        yield m.group(1), body


def filled(body):
    """The lines with `search needs` in the place of a need's hole; invariants and measures keep theirs."""
    lines = [l[:-1] + 'search needs' if l.endswith('= ?') and not re.match(r'\S*(Inv|μ)-', l) else l for l in body]
    text = '\n'.join(lines).rstrip() + '\n'
    if 'search needs' in text and 'Author.Needs' not in text:
        text = 'use borrow.Author.Needs.{needs}\n' + text
    return text


def main():
    if len(sys.argv) != 2:
        sys.exit(__doc__)
    done = subprocess.run(['rt', 'dev', sys.argv[1]], stdout=subprocess.PIPE, stderr=subprocess.STDOUT, env=dict(os.environ, RT_CUT='0'))
    lines = done.stdout.decode().split('\n')
    for path, body in offered(lines):
        if os.path.exists(path):
            print('there already:', path)
            continue
        os.makedirs(os.path.dirname(path), exist_ok=True)
        with open(path, 'w') as file:
            file.write(filled(body))
        print('wrote', path, len(body), 'lines')
    for line in lines:
        if line.startswith(('fn ', 'logic=')) or 'error' in line:
            print(line[:600])


main()
