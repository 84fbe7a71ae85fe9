#!/usr/bin/env python3
"""Says which words in quotation marks, in the comments of definitions, no document has. A quotation may leave words out by `..`.

    python3 tools/quotes.py DOCUMENT..          from the repository's root
"""
import glob
import re
import sys


def plain(text):
    return re.sub(r'\s+', ' ', text.replace('**', '').replace('`', '')).strip()


def comments(text):
    """Neighbouring lines of comment, joined."""
    block = []
    for line in text.split('\n') + ['']:
        m = re.match(r'\s*--\s?(.*)', line)
        if m:
            block.append(m.group(1))
        elif block:
            yield ' '.join(block)
            block = []


def main():
    if len(sys.argv) < 2:
        sys.exit(__doc__)
    documents = plain(' '.join(open(path).read() for path in sys.argv[1:]))
    for path in sorted(glob.glob('crates/*/specs/**/*.antt', recursive=True)):
        for comment in comments(open(path).read()):
            for quote in re.findall(r'"([^"]+)"', comment):
                for part in quote.split('..'):
                    if plain(part) and plain(part) not in documents:
                        print(f'{path}: {part.strip()}')


main()
