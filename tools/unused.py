#!/usr/bin/env python3
"""Says which names are imported by `use M.{..}` and not used in the file. Nothing is proved; in a crate that proves, `rt tidy` does it too.

    python3 tools/unused.py [--fix] FILE..      --fix takes them out
"""
import re
import sys

WORD = re.compile(r"[^\s(){}\[\],;.λ]+|[.λ]")


def used(name, words, body):
    if name in words or name == '[]' and '[]' in body:
        return True
    parts = [part for part in name.split('◌') if part]
    return '◌' in name and all(part in words for part in parts)


def main():
    fix, files = '--fix' in sys.argv, [a for a in sys.argv[1:] if not a.startswith('--')]
    if not files:
        sys.exit(__doc__)
    for path in files:
        lines, kept = open(path).read().split('\n'), []
        body = '\n'.join(l for l in lines if not re.match(r'\s*(ghost )?use ', l) and not re.match(r'\s*--', l))
        words = set(WORD.findall(body))
        for line in lines:
            m = re.match(r'(\s*(?:ghost )?use [^{]*\{)(.*)(\};?)$', line)
            if not m:
                kept.append(line)
                continue
            names = [n.strip() for n in m.group(2).split(',')]
            keep = [n for n in names if used(n.split(' as ')[-1].strip(), words, body)]
            if len(keep) < len(names):
                print(path + ':', ', '.join(n for n in names if n not in keep))
            if keep:
                kept.append(m.group(1) + ', '.join(keep) + m.group(3))
        if fix:
            with open(path, 'w') as file:
                file.write('\n'.join(kept))


main()
