#!/usr/bin/env python3
"""For the older kit; nothing here uses it now: `rt must-fail NAME` tries the edits of one crate and prints why each is refused.

Tries edits of one crate alone, and prints why the prover refuses each: the fact that fails should be the edit's own.

    python3 tools/one_edit.py NAME [EDIT..]     from the repository's root, after `rt check` of what the crate rests on; all its edits if none is named

`has no .. that can be named from here` says that the edit has changed the code's shape: it shows nothing.
"""
import os
import platform
import re
import shutil
import subprocess
import sys
import tempfile


def steps(path):
    """The edits of a file: which file, what stands there, what is put there."""
    file = old = None
    for line in open(path).read().split('\n'):
        word, _, rest = line.partition(': ')
        if word == 'file':
            file = rest
        elif word == 'old':
            old = rest
        elif word == 'new':
            yield file, old, rest


def apply(path, crate):
    for file, old, new in steps(path):
        where = os.path.join(crate, file)
        text = open(where).read()
        if text.count(old) != 1:
            sys.exit(f'{path}: {text.count(old)} times in {file}: {old}')
        with open(where, 'w') as out:
            out.write(text.replace(old, new))


def command(name, crate):
    """The check of a crate that stands apart, over the libraries that are proved."""
    kit = os.path.dirname(os.path.dirname(os.path.realpath(shutil.which('rt'))))
    own = os.path.join(kit, 'on', platform.machine())
    main = os.path.join(crate, 'src', 'lib.rt')
    if not os.path.exists(main):
        main = os.path.join(crate, 'src', 'main.rt')
    words = [os.path.join(own, 'bin', 'rattle'), 'check', '--crate-name', name, main, '--extern', f'std={own}/rlib/std.rlib']
    listed = re.search(r'^%s:(.*)$' % re.escape(name), open('crates.txt').read(), re.M)
    for dep in listed.group(1).split():
        proved = f'target/rlib/{dep}.rlib'
        words += ['--extern', f'{dep}={proved if os.path.exists(proved) else os.path.join(own, "rlib", dep + ".rlib")}']
    words += ['-L', 'dependency=target/rlib', '-L', f'dependency={own}/rlib']
    return words + ['--antt-project', f'{kit}/logic/antt-project.json', '--logic-built', f'{own}/logic-built']


def main():
    if len(sys.argv) < 2:
        sys.exit(__doc__)
    name, folder = sys.argv[1], f'crates/{sys.argv[1]}/must-fail'
    edits = sys.argv[2:] or sorted(f[:-5] for f in os.listdir(folder) if f.endswith('.edit'))
    for edit in edits:
        with tempfile.TemporaryDirectory() as room:
            crate = os.path.join(room, name)
            shutil.copytree(f'crates/{name}', crate)
            apply(f'{folder}/{edit}.edit', crate)
            done = subprocess.run(command(name, crate), stdout=subprocess.PIPE, stderr=subprocess.STDOUT)
        print(f'== {name}/{edit}')
        lines = done.stdout.decode().split('\n')
        why = [l for l in lines if re.search('error|no proof|not proved', l)][:4] + [l for l in lines if 'logic=' in l]
        print('\n'.join(l.replace(room, '')[:600] for l in why))


main()
