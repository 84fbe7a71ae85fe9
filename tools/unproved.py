#!/usr/bin/env python3
"""For the older kit, whose parts it takes; nothing here uses it now.

Compiles the exported functions of a tree as a static library without proving anything, to try shapes of code for speed.

    python3 tools/unproved.py OUT.a [TREE]      TREE is a repository's root, this one if none is named

It takes seconds, and the tree may be one that would not prove. Never ship what it writes: `rt staticlib exports` is for that. It takes the module
that the kit compiles for a program which calls every exported function, gives these functions their C form, and compiles that.
"""
import os
import platform
import re
import shutil
import subprocess
import sys
import tempfile

PROGRAM = 'every_export'


def listed(root):
    """The crates of a tree, each with those that it names."""
    lines = (line.split('#')[0] for line in open(os.path.join(root, 'crates.txt')))
    return {line.split(':')[0].strip(): line.split(':')[1].split() for line in lines if ':' in line}


def without_clashes(crates, room):
    """Gives each module that has a crate's name another: the unproved way has one set of names."""
    for crate in crates:
        src = os.path.join(room, 'crates', crate, 'src')
        for file in sorted(os.listdir(src)):
            stem = file[:-3]
            if stem not in crates or not file.endswith('.rt'):
                continue
            os.rename(os.path.join(src, file), os.path.join(src, f'own_{stem}.rt'))
            for other in crates:
                folder = os.path.join(room, 'crates', other, 'src')
                for name in os.listdir(folder):
                    path = os.path.join(folder, name)
                    text = open(path).read()
                    new = re.sub(r'\b%s::%s\b' % (crate, stem), f'{crate}::own_{stem}', text)
                    if other == crate:
                        new = re.sub(r'\bmod %s;' % stem, f'mod own_{stem};', new)
                        new = re.sub(r'\bcrate::%s\b' % stem, f'crate::own_{stem}', new)
                        new = re.sub(r'(?m)^(use )%s::' % stem, rf'\1own_{stem}::', new) if name == 'lib.rt' else new
                    if new != text:
                        with open(path, 'w') as out:
                            out.write(new)


def signatures(root):
    """Each exported function with the types of its parameters."""
    text = open(os.path.join(root, 'crates/exports/src/lib.rt')).read()
    for name, params in re.findall(r'pub extern "C" fn (\w+)\(([^)]*)\)', text):
        yield name, [p.split(':', 1)[1].strip() for p in re.findall(r'\w+: [^,]*(?:\[[^\]]*\])?', params)]


def program(found):
    """A program that calls each of them once."""
    lines = []
    for name, types in found:
        words = []
        for i, kind in enumerate(types):
            m = re.match(r'&(mut )?\[(u\w+)(?:; (\w+))?\]$', kind)
            if m:
                n = {'FIGURES': '25', None: '8'}.get(m.group(3), m.group(3))
                lines.append(f'    let mut {name}_{i} = [0{m.group(2)}; {n}];')
                words.append(f'&{m.group(1) or ""}{name}_{i}')
            elif kind.startswith('&mut '):
                lines.append(f'    let mut {name}_{i} = 0{kind[5:]};')
                words.append(f'&mut {name}_{i}')
            else:
                words.append('0')
        lines.append(f'    exports::{name}({", ".join(words)});')
    return 'fn main() {\n' + '\n'.join(lines) + '\n}\n'


def in_c(found):
    """The functions in their C form, as text of the module: a slice is a pointer and a length."""
    out = ''
    for name, types in found:
        params, body, words = [], [], []
        for i, kind in enumerate(types):
            if re.match(r'&(mut )?\[u\w+\]$', kind):
                params += [f'ptr %p{i}', f'i64 %n{i}']
                body += [f'  %s{i} = alloca {{ptr, i64}}', f'  store ptr %p{i}, ptr %s{i}',
                         f'  %q{i} = getelementptr {{ptr, i64}}, ptr %s{i}, i32 0, i32 1', f'  store i64 %n{i}, ptr %q{i}']
                words.append(f'ptr %s{i}')
            else:
                params.append(('ptr' if kind.startswith('&') else 'i64') + f' %p{i}')
                words.append(params[-1])
        call = f'  %r = call i64 @"exports::{name}"({", ".join(words)})\n  ret i64 %r\n'
        out += f'\ndefine i64 @{name}({", ".join(params)}) {{\n' + '\n'.join(body + ['']) + call + '}\n'
    return out


def toolchain(own, room):
    """The kit's toolchain, with a compiler that keeps the modules it is given."""
    tools, saved = os.path.join(room, 'toolchain'), os.path.join(room, 'saved')
    os.makedirs(os.path.join(tools, 'bin'))
    os.makedirs(saved)
    for name in os.listdir(os.path.join(own, 'toolchain')):
        if name != 'bin':
            os.symlink(os.path.join(own, 'toolchain', name), os.path.join(tools, name))
    for name in os.listdir(os.path.join(own, 'toolchain/bin')):
        if name != 'clang':
            os.symlink(os.path.join(own, 'toolchain/bin', name), os.path.join(tools, 'bin', name))
    wrapper = os.path.join(tools, 'bin', 'clang')
    with open(wrapper, 'w') as out:
        out.write(f'''#!/bin/bash
case " $* " in *" -O3 "*) for a in "$@"; do case "$a" in *.bc) cp "$a" "{saved}/module.bc.$$" && mv "{saved}/module.bc.$$" "{saved}/$(date +%s%N).bc";; esac; done;; esac
exec {own}/toolchain/bin/clang "$@"
''')
    os.chmod(wrapper, 0o755)
    return tools, saved


def reached(crates, kit, name):
    """All that a crate rests on, the kit's libraries too."""
    text = open(os.path.join(kit, 'libs/libs.txt')).read()
    kits = {line.split(':')[0].strip(): line.split(':')[1].split() for line in text.split('\n') if ':' in line}
    found, todo = [], list(crates[name])
    while todo:
        dep = todo.pop(0)
        if dep not in found:
            found.append(dep)
            todo += crates.get(dep, kits.get(dep, []))
    return found


def main():
    if len(sys.argv) not in (2, 3):
        sys.exit(__doc__)
    root = os.path.abspath(sys.argv[2] if len(sys.argv) == 3 else '.')
    kit = os.path.dirname(os.path.dirname(os.path.realpath(shutil.which('rt'))))
    own = os.path.join(kit, 'on', platform.machine())
    with tempfile.TemporaryDirectory() as room:
        crates, found = listed(root), list(signatures(root))
        for crate in crates:
            for part in ('src', 'specs'):
                if os.path.isdir(os.path.join(root, 'crates', crate, part)):
                    shutil.copytree(os.path.join(root, 'crates', crate, part), os.path.join(room, 'crates', crate, part))
        without_clashes(list(crates), room)
        crates[PROGRAM] = ['exports'] + crates['exports']
        os.makedirs(os.path.join(room, 'crates', PROGRAM, 'src'))
        with open(os.path.join(room, 'crates', PROGRAM, 'src/main.rt'), 'w') as out:
            out.write(program(found))
        tools, saved = toolchain(own, room)
        words = [f'{own}/bin/rattle-cases', '--toolchain', tools, '--link', f'{kit}/lib/libos_c.a']
        words += [f'{room}/crates/{PROGRAM}/src/main.rt', '--crate-name', PROGRAM, '--lib', f'std={kit}/libs/std/src/lib.rt']
        for dep in reached(crates, kit, PROGRAM):
            words += ['--lib', f'{dep}={room}/crates/{dep}/src/lib.rt' if dep in crates else f'{dep}={kit}/libs/{dep}/src/lib.rt']
        done = subprocess.run(words, stdout=subprocess.PIPE, stderr=subprocess.STDOUT)
        kept = sorted(os.listdir(saved))
        if not kept:
            sys.exit(done.stdout.decode()[-3000:] + '\nnothing was compiled')
        clang, module = f'{own}/toolchain/bin/clang', os.path.join(saved, kept[0])
        text = os.path.join(room, 'module.ll')
        subprocess.run([clang, '-S', '-emit-llvm', '-O0', '-Xclang', '-disable-llvm-passes', '-x', 'ir', module, '-o', text], check=True, stderr=subprocess.DEVNULL)
        ir = re.sub(r'define ([a-z_ ]*)i32 @main\(', r'define internal \1i32 @main(', open(text).read()) + in_c(found)
        with open(text, 'w') as out:
            out.write(ir)
        obj = os.path.join(room, 'exports.o')
        flags = ['--target=x86_64-unknown-linux-gnu', '-march=x86-64', '-ffunction-sections', '-fdata-sections', '-mllvm', '-trap-unreachable', '-mllvm',
                 '-no-trap-after-noreturn', '--no-default-config', '-fPIC', '-O3']
        subprocess.run([clang] + flags + ['-c', '-x', 'ir', text, '-o', obj], check=True, stderr=subprocess.DEVNULL)
        target = os.path.abspath(sys.argv[1])
        os.makedirs(os.path.dirname(target), exist_ok=True)
        if os.path.exists(target):
            os.remove(target)
        subprocess.run([f'{own}/toolchain/bin/llvm-ar', 'rcs', target, obj], check=True)
    print('wrote', sys.argv[1])


main()
