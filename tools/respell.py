#!/usr/bin/env python3
"""Brings the names of the crates' own definitions and lemmas to the spelling of today's Rattle.

usage: respell.py [--check]    at the top of the repository, once, after the kit's port.py

A name of specs/ or proofs/ in mixed case becomes snake case, part by part between dashes: takeOut-in
is take_out-in. A module in lower case that no function gives its name becomes a capital: steps is
Steps. Types and modules keep their capitals, and names of src/ their spelling. The must-fail edits
and the comments of the crates go along. Two names that would fall together, and a new name that a
parameter of src/ has, are told, and then nothing is written.
"""
import os
import re
import subprocess
import sys

TOKEN = re.compile(r"(?<![\w'₀-₉-])[A-Za-z_][\w'₀-₉]*(?:-[\w'₀-₉]+)*")
TEXT = re.compile(r'"(?:[^"\\\n]|\\.)*"|' + TOKEN.pattern)
MIXED = re.compile(r'^[a-z][a-z0-9]*[A-Z]')
# A lemma gives way to the definition whose name it would have: it gets _lem.
LEMMAS = ('columns_of', 'gap_from', 'kept_word', 'nothing_read', 'read_back', 'row_out')
# Names that stand beside one another in one file and are never taken for one another: fields, and a
# path's crate or function.
APART = ('in_use', 'record_at')
ENDINGS = ('.antt', '.rt', '.edit')


def files():
    for folder, below, names in os.walk('crates'):
        below[:] = sorted(name for name in below if name != 'out')
        for name in sorted(names):
            if name.endswith(ENDINGS):
                yield os.path.join(folder, name)


def snake(part):
    """A part of a name, between dashes, in snake case where it is in mixed case."""
    if not MIXED.match(part):
        return part
    part = re.sub(r'([a-z0-9])([A-Z])', r'\1_\2', part)
    return re.sub(r'([A-Z])([A-Z][a-z])', r'\1_\2', part).lower()


def respelled(name):
    return '-'.join(snake(part) for part in name.split('-'))


def main():
    texts = {}
    for path in files():
        with open(path, encoding='utf-8') as file:
            texts[path] = file.read()
    bare = re.compile(r'"(?:[^"\\\n]|\\.)*"|--.*|\b\w+(?:\.[\w+]+)+\.(?=[\w{])')
    antt = {path: bare.sub('', text) for path, text in texts.items() if path.endswith('.antt')}
    names = {name for text in antt.values() for name in TOKEN.findall(text)}
    turned = {name: respelled(name) for name in names if respelled(name) != name}
    for name in LEMMAS:
        turned[name] = name + '_lem'
    faults = []
    for name, new in sorted(turned.items()):
        if new in names:
            for path, text in antt.items():
                found = set(TOKEN.findall(text))
                if name in found and new in found and new not in LEMMAS + APART:
                    faults.append(f'{path}: {name} and {new}')
    by_new = {}
    for name, new in turned.items():
        by_new.setdefault(new, []).append(name)
    faults += [f'{olds} all become {new}' for new, olds in by_new.items() if len(olds) > 1]
    for path, text in texts.items():
        if path.endswith('.rt'):
            parameters = set(re.findall(r'\b(?:mut )?(\w+): ', text))
            used = set(TOKEN.findall(text))
            faults += [f'{path}: {name}: a parameter or field has its new name'
                       for name, new in turned.items() if name in used and new in parameters]
    for fault in faults:
        print(fault)
    print(f'{len(turned)} names, {len(faults)} faults')
    if faults or '--check' in sys.argv:
        return bool(faults)
    known = names | set(turned.values())
    for path, text in texts.items():
        def turn(it, text=text, path=path):
            if it[0] in LEMMAS and (not path.endswith('.antt') or text[it.start() - 1] == '.'):
                return it[0]
            new = turned.get(it[0], it[0])
            # port.py has turned some of the names, and no edit.
            return respelled(new) if path.endswith('.edit') and respelled(new) in known else new

        new = TEXT.sub(turn, text)
        new = re.sub(r'\b(specs|mod)([. ])steps\b', r'\1\2Steps', new)
        if new != text:
            with open(path, 'w', encoding='utf-8') as file:
                file.write(new)
    for path in list(texts):
        if path.endswith('/specs/steps.antt'):
            folder = path[:-len('steps.antt')]
            for old, new in (('steps.antt', 'Steps.antt'), ('steps', 'Steps')):
                if os.path.exists(folder + old):
                    subprocess.run(['git', 'mv', folder + old, folder + new], check=True)
    return 0


sys.exit(main())
