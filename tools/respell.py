#!/usr/bin/env python3
"""Brings the names of our own definitions, fields and lemmas to the spelling of today's Rattle: `unmet-from` becomes `unmet_from`.

Run once at the repository's root, after the kit's own script. A name counts as ours where specs/ or a file of laws under proofs/ defines it; it is turned
wherever it stands: in specs/, proofs/, the clauses and `ghost use` lines of src/, and the edits. Names that Rattle makes (`loop-i-preserved`) and names
of the kit's libraries keep their dash. What would fall together is printed, and nothing is written then.
"""
import collections
import glob
import re
import sys

WORD = re.compile(r"[A-Za-z_\u0370-\u03ff\u2115][\w'\u2080-\u2089]*(?:-[\w'\u2080-\u2089]+)+")
DEFINES = re.compile(r"\s*(?:(?:pub|abbrev|unfoldable|data|record)\s+)*((?:[\w'-]+\s+)*[\w'-]+)\s*:(?!=)")
FOREIGN = re.compile(r"use (?:Rattle\.std|Rattle\.core|mathlib|borrow|Prim|lib)[\w.]*\.\{([^}]*)\}")
# laws of ours that would get the name of the library's function that they speak of
OTHER = {"bit-and": "bit_and_lem", "bit-or": "bit_or_lem", "bit-xor": "bit_xor_lem"}

# an operator's name and names of arguments
ALSO = ("on-both", "figures-before", "figures-after", "host-begins", "card-begins")


def texts():
    for pattern in ("crates/*/specs/**/*.antt", "crates/*/proofs/**/*.antt", "crates/*/src/**/*.rt", "crates/*/must-fail/*.edit"):
        yield from sorted(glob.glob(pattern, recursive=True))


def main():
    ours = collections.defaultdict(set)
    plain = collections.defaultdict(set)
    foreign = set()
    for path in texts():
        text = open(path).read()
        for names in FOREIGN.findall(text):
            foreign.update(name.strip().split(" as ")[0] for name in names.split(","))
        if not path.endswith(".antt") or path.endswith("/Proof.antt"):
            continue
        for line in text.split("\n"):
            found = DEFINES.match(line)
            for name in found.group(1).split() if found and not line.lstrip().startswith("--") else []:
                (ours if "-" in name else plain)[name].add(path)
    turned = {name: OTHER.get(name, name.replace("-", "_")) for name in ours if name not in foreign}
    turned.update((name, name.replace("-", "_")) for name in ALSO)
    kept = sorted(name for name in ours if name in foreign)
    if kept:
        print("also a library's, kept:", ", ".join(kept))
    bad = 0
    new = collections.defaultdict(list)
    for name, to in turned.items():
        new[to].append(name)
    for to, names in sorted(new.items()):
        if len(names) > 1 or to in foreign or any(ours[name] & plain.get(to, set()) for name in names):
            print("falls together:", to, names, "library" if to in foreign else sorted(plain.get(to, ())))
            bad += 1
        elif to in plain:
            print("the same word in another file:", to, sorted(plain[to])[:3], sorted(ours[names[0]])[:3])
    if bad:
        return 1
    files = 0
    for path in texts():
        text = open(path).read()
        after = WORD.sub(lambda m: turned.get(m.group(0), m.group(0)), text)
        if after != text:
            files += 1
            open(path, "w").write(after)
    print(f"{len(turned)} names turned, in {files} files")
    return 0


sys.exit(main())
