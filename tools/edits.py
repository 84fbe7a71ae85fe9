#!/usr/bin/env python3
"""Says which must-fail edits no longer fit: what they replace must stand exactly once in its file. Nothing is proved.

    python3 tools/edits.py                      from the repository's root
"""
import glob
import sys

bad = 0
for path in sorted(glob.glob('crates/*/must-fail/*.edit')):
    crate, file, old = path.split('/must-fail')[0], None, None
    for line in open(path):
        line = line.rstrip('\n')
        if line.startswith('file: '):
            file = crate + '/' + line[6:].strip()
            text = open(file).read()
        if line.startswith('old: '):
            old = line[5:]
            times = text.count(old)
            if times != 1:
                print(f'{path}: {times} times: {old}')
                bad += 1
        # a further pair applies to what the earlier ones made
        if line.startswith('new: ') and old is not None:
            text, old = text.replace(old, line[5:]), None
print(bad, 'do not fit')
sys.exit(bad > 0)
