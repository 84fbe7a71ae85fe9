#!/usr/bin/env python3
"""Lists what must be believed of a function's contract, or of a module of claims: the definitions that it cites, and those that they cite.

    python3 tools/reading.py NAME FUNCTION      from the repository's root: the contract of a function of the crate NAME
    python3 tools/reading.py NAME Claims        a module of its specs
    python3 tools/reading.py --write            writes the counts of docs/READING.md anew: of each entry point and of each module of claims how many lines

A line for each file of specs outside Inner, in reading order: how many lines of it are cited, and the names. A record's fields and the
variants of a type come with it. Lines are counted as by tools/counts.py.
"""
import glob
import os
import re
import subprocess
import sys

WORD = re.compile(r"[^\s(){}\[\],;.λ:=→]+")


def imports(lines, crate):
    """The names that a file takes from modules of specs: name -> (crate, module)."""
    found = {}
    for line in lines:
        m = re.match(r'\s*(?:pub |ghost )*use Rattle\.(\w+)\.specs\.([\w.]+?)(?:\.\{(.*)\}| as (\S+?))?;?$', line)
        if m:
            names = [n.strip().split(' as ')[-1].strip() for n in (m.group(3) or '').split(',') if n.strip()]
            for name in names + ([m.group(4)] if m.group(4) else []):
                found[name] = (m.group(1), m.group(2), name in names)
    return found


class Module:
    """A file of specs: its definitions, each with its lines, and where its imports come from."""

    def __init__(self, crate, name, path):
        lines = open(path).read().split('\n')
        self.crate, self.name, self.path, self.uses = crate, name, path, imports(lines, crate)
        self.parts, self.owner, current = {}, {}, None
        for line in lines:
            text = line.strip()
            if text.startswith('module '):
                current = None
            if not text or text.startswith('--') or re.match(r'(pub |ghost )*(use|mod|module|infix\w*) ', text):
                continue
            kind = re.match(r'(?:pub )?(?:record|data) (\S+)', text)
            name = re.match(r'(?:abbrev |unfoldable )(?:pub )?(\S+) :', text)
            if kind and not text.startswith('record {'):
                current = kind.group(1)
            elif name:
                current = name.group(1)
            if current is None:
                continue
            self.parts.setdefault(current, []).append(line)
            self.owner[current] = current
            fields = re.match(r'(?:pub )?([^\s:(]+(?: [^\s:(]+)*) :', text)
            if fields and not kind and self.is_record(current):
                for word in fields.group(1).split():
                    self.owner.setdefault(word, current)

    def is_record(self, name):
        return bool(self.parts.get(name)) and bool(re.match(r'\s*(?:pub |abbrev |unfoldable )*(record|data) ', self.parts[name][0]))


def modules():
    """The modules outside Inner in reading order: crates as in crates.txt, the modules of each as in its Lib."""
    found = {}
    for crate in [l.split(':')[0].split()[0] for l in open('crates.txt') if ':' in l and not l.startswith('#')]:
        lib = f'crates/{crate}/specs/Lib.antt'
        for name in re.findall(r'^pub mod (\w+)', open(lib).read(), re.M) if os.path.exists(lib) else []:
            if name != 'Inner':
                found[crate, name] = Module(crate, name, f'crates/{crate}/specs/{name}.antt')
    return found


def words(lines):
    for line in lines:
        for word in WORD.findall(re.sub(r'--.*', '', line)):
            yield word
            # an operator is imported as `◌then◌`, and used without the rings
            yield '◌' + word + '◌'


def reach(every, at, name, seen, order):
    """Adds a definition and what it cites, those first."""
    module = every.get(at)
    owner = module.owner.get(name) if module else None
    if not owner or (at, owner) in seen:
        return
    seen.add((at, owner))
    for word in words(module.parts[owner]):
        cite(every, at, module.owner, module.uses, word, seen, order)
    order.append((at, owner))


def cite(every, at, own, uses, word, seen, order):
    if word in own:
        reach(every, at, word, seen, order)
    if word in uses:
        crate, name, listed = uses[word]
        reach(every, (crate, name), word, seen, order)
        if not listed and (crate, name) in every:
            for part in every[crate, name].parts:
                reach(every, (crate, name), part, seen, order)


def contract(crate, function):
    """The lines of a function's contract, and the imports of its file."""
    for path in sorted(glob.glob(f'crates/{crate}/src/**/*.rt', recursive=True)):
        lines = open(path).read().split('\n')
        for i, line in enumerate(lines):
            if re.match(r'\s*(pub )?(extern "C" )?fn %s\b' % re.escape(function), line):
                end = next(j for j in range(i, len(lines)) if lines[j].startswith('{') or lines[j].endswith(' {'))
                clauses = (re.match(r'\s*(?:requires|ensures)(?: \w+)? \{(.*)', l) for l in lines[i:end])
                return path, [m.group(1) for m in clauses if m], imports(lines, crate)
    return None


def cited(every, crate, name):
    """What a contract or a module cites, by module."""
    seen, order = set(), []
    if (crate, name) in every:
        for part in every[crate, name].parts:
            reach(every, (crate, name), part, seen, order)
    else:
        found = contract(crate, name)
        if not found:
            print(f'no function {name} in crates/{crate}/src')
            return {}
        _, lines, uses = found
        for word in words(lines):
            cite(every, (crate, ''), {}, uses, word, seen, order)
    return {at: [part for where, part in order if where == at] for at in every if any(where == at for where, _ in order)}


def lines_of(every, at, parts):
    return sum(len(every[at].parts[part]) for part in parts)


ENTRIES = [('format', 'open'), ('format', 'body_view'), ('format', 'body_view_answer'), ('checker', 'check'), ('judge', 'judge'), ('expand', 'expand'),
           ('expand', 'expansion_length'), ('run', 'run'), ('view', 'memory_view'), ('view', 'memory_view_answer'), ('logs', 'log'), ('sheet', 'sheet'),
           ('check_bytes', 'check_sums'), ('check_bytes', 'joined_sums'), ('plancheck', 'line_of'), ('planexpand', 'expansion_of'), ('report', 'report_of')]


def table(every):
    """Each entry point and each module of claims, with the lines that it cites, and those that no row above has."""
    read, rows = set(), []
    exported = re.findall(r'^pub extern "C" fn (\w+)', open('crates/exports/src/lib.rt').read(), re.M)
    claims = [at for at in every if at[1] == 'Claims' or at == ('input', 'Longer')]
    for crate, name in ENTRIES + [('exports', name) for name in exported] + claims:
        files = cited(every, crate, name)
        if not files:
            continue
        parts = {(at, part) for at in files for part in files[at]}
        new = sum(lines_of(every, at, [part]) for at, part in parts - read)
        read |= parts
        rows.append(f'| {crate} `{name}` | {sum(lines_of(every, at, files[at]) for at in files)} | {len(files)} | {new} |')
    left = [f'{at[0]} {part}' for at in every for part in every[at].parts if (at, part) not in read]
    if left:
        print('cited by none of these:', ', '.join(left))
    return rows


def write(every):
    """The table and the sum in docs/READING.md."""
    page, head = 'docs/READING.md', '| Of | Lines | Files | New |\n|---|---|---|---|\n'
    text = open(page).read()
    counted = subprocess.run([sys.executable, 'tools/counts.py'], capture_output=True, text=True, check=True).stdout
    lines, files, crates = re.search(r'(\d+) lines to believe, in (\d+) files of (\d+) crates', counted).groups()
    text = re.sub(r'[\d,]+ lines of definitions in \d+ files of \d+ crates', f'{int(lines):,} lines of definitions in {files} files of {crates} crates', text)
    with open(page, 'w') as out:
        out.write(text[:text.index(head)] + head + '\n'.join(table(every)) + '\n')


def main():
    every = modules()
    if sys.argv[1:] == ['--write']:
        write(every)
        return
    if len(sys.argv) != 3:
        sys.exit(__doc__)
    files = cited(every, *sys.argv[1:])
    for at, parts in files.items():
        print(f'{lines_of(every, at, parts):5} {every[at].path}: {", ".join(parts)}')
    print(f'{sum(lines_of(every, at, files[at]) for at in files):5} lines in {len(files)} files')


main()
