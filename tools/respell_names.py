#!/usr/bin/env python3
"""Respells the project's own definitions and lemmas as today's Rattle writes them, once, behind /opt/rattle/port/port.py.

    respell_names.py [FOLDER]     (default: this folder) rewrites crates/**/*.antt and *.rt below it in place

A word in camel case becomes snake case, part by part between dashes (`upToFirst-elim` becomes `up_to_first-elim`); types and modules,
which begin with a capital, stay, and so do functions of src/, fields and variants. Six lemmas that would then have their definition's
name get `_lem` first.
"""
import os, re, sys

WORD = re.compile(r"[A-Za-z_][A-Za-z0-9_'-]*")
# lemmas whose names fall together with a definition's new name, and the file of each
LEMMAS = {
    'crates/alc/specs/Theorems/Models.antt': ['is_name'],
    'crates/sets/proofs/Listing.antt': ['in_list'],
    'crates/model/proofs/Worded.antt': ['is_name'],
    'crates/writer/specs/Theorems.antt': ['number_by'],
    'crates/plan/proofs/Masks.antt': ['shares_at'],
    'crates/plan/proofs/Laid.antt': ['laid_out'],
}

def files(top):
    for folder, dirs, names in os.walk(os.path.join(top, 'crates')):
        dirs[:] = sorted(d for d in dirs if d != 'out')
        for n in sorted(names):
            if n.endswith(('.antt', '.rt')):
                yield os.path.join(folder, n)

def snake(part):
    if not re.match('[a-z]', part):
        return part
    return re.sub(r"(?<=[a-z0-9])([A-Z])(?=[a-z0-9']|$)", lambda m: '_' + m.group(1).lower(), part)

def respell(word):
    return '-'.join(snake(p) for p in word.split('-')).replace('get_d-', 'get_or-')

def main(top):
    for path in files(top):
        text = open(path, encoding='utf-8').read()
        new = text
        for name in LEMMAS.get(os.path.relpath(path, top), []):
            new = re.sub(r"(?<![\w.'-])%s(?![\w'-])" % name, name + '_lem', new)
            # who imports it
        if path.endswith('crates/plan/proofs/lay_out/Proof.antt'):
            new = re.sub(r"(?<![\w'-])laid_out(?![\w'-])", 'laid_out_lem', new)
        new = WORD.sub(lambda m: respell(m.group(0)), new)
        if new != text:
            open(path, 'w', encoding='utf-8').write(new)

main(sys.argv[1] if len(sys.argv) > 1 else '.')
