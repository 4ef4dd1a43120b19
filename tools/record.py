#!/usr/bin/env python3
"""The record of what is proved, crates.sum: written, and held against what is here.

It has a line for the kit, for the sources of each crate, and for the code of each archive. The gate
proves every crate from nothing and then compares; target/proved.sum is the same of what was proved
here, by make prove. What is neither is not proved.

usage: record.py write FOLDER OUT CRATE..  writes the record of the archives of these crates
       record.py check FOLDER CRATE..      compares, line by line: 'N passed, M failed'
       record.py sources                   the same of the kit's line and the sources alone
       record.py tell FOLDER CRATE..       one line: proved here, of the record, or not proved
       record.py library FILE FOLDER CRATE..   the same of a library that is to be installed:
                                           status 1 where it is neither
FOLDER has an archive libCRATE.a for each; its file kit has the identity of the kit that wrote it.
"""
import os
import subprocess
import sys

import codehash
import crates

RECORD, HERE = 'crates.sum', 'target/proved.sum'
KINDS = ('kit', 'source', 'code')
HEADER = '''\
# What the gate has proved: the kit, the sources of each crate (src, specs, proofs and its line in
# crates.txt), the code of each archive. Written by make sums, from the proved objects.
'''
# The member of the library that is written in C.
PLAIN = 'star.o'


class Record:
    def __init__(self, lines):
        """lines: what each line is about (kind, name) and what it says."""
        self.lines = lines

    @classmethod
    def read(cls, path):
        lines = {}
        with open(path, encoding='utf-8') as file:
            for line in file:
                words = line.split()
                if not words or words[0] == '#':
                    continue
                if words[0] == 'kit':
                    lines['kit', ''] = ' '.join(words[1:])
                elif len(words) == 3:
                    lines[words[0], words[1]] = words[2]
        return cls(lines)

    @classmethod
    def here(cls, kit, codes):
        """The kit, the sources as they stand here, and the codes given."""
        lines = {('kit', ''): kit}
        lines.update({('code', name): value for name, value in codes.items()})
        lines.update({('source', name): value for name, value in crates.source_hashes().items()})
        return cls(lines)

    def text(self):
        kit = f"kit {self.lines['kit', '']}\n"
        rest = (f'{kind} {name} {value}\n' for (kind, name), value in sorted(self.lines.items())
                if kind != 'kit')
        return HEADER + kit + ''.join(rest)

    def differences(self, record, path):
        """What differs from a record, in words. Archives that are not asked about are left out."""
        out = []
        asked = set(self.lines) | {key for key in record.lines if key[0] != 'code'}
        unproved = {key for key, value in self.lines.items() if value == codehash.UNPROVED}
        if unproved:
            out.append(f'{len(unproved)} archives are compiled without a proof')
        for key in sorted(asked - unproved, key=lambda key: (KINDS.index(key[0]), key)):
            here, there = self.lines.get(key), record.lines.get(key)
            if here == there:
                continue
            what = described(key)
            if there is None:
                out.append(f'{path} has no line for {what}')
            elif here is None:
                out.append(f'{path} has a line for {what}, which is not here')
            elif key[0] == 'kit':
                out.append(f'the kit is another ({here}; {path} has {there})')
            else:
                out.append(what + (' differ' if key[0] == 'source' else ' differs'))
        return out


def described(key):
    kind, name = key
    if kind == 'kit':
        return 'the kit'
    return f'the sources of {name}' if kind == 'source' else f'the code of lib{name}.a'


def kit_of(folder):
    with open(os.path.join(folder, 'kit'), encoding='utf-8') as file:
        return ' '.join(file.read().split())


def codes_of(folder, names):
    """The code of each archive: it has one member, named after its crate, or it counts as none."""
    out = {}
    for name in names:
        found = codehash.archive_codes(os.path.join(folder, f'lib{name}.a'))
        out[name] = found[0][1] if [member for member, _ in found] == [name + '.o'] else 'none'
    return out


def codes_in_library(path, names):
    """The code of each member but the C one; a crate without a member has none."""
    out = {}
    for member, value in codehash.archive_codes(path, but={PLAIN}):
        name = member[:-2] if member.endswith('.o') else member
        out[name] = value if name not in out else 'twice'
    for name in names:
        out.setdefault(name, 'none')
    return out


def standing(here):
    """Which record this is of: 'here', 'record' or '', and the differences from crates.sum."""
    if os.path.exists(HERE) and not here.differences(Record.read(HERE), HERE):
        return 'here', []
    if not os.path.exists(RECORD):
        return '', [f'there is no {RECORD}']
    found = here.differences(Record.read(RECORD), RECORD)
    return ('' if found else 'record'), found


def sentence(what, found, differences):
    if found == 'here':
        return f'{what} is proved here, with this kit'
    if found == 'record':
        return f'{what} has the same bytes as the one that the gate proved with this kit ' \
               f'({RECORD}); make prove proves it here'
    shown = differences[:6] + ([f'{len(differences) - 6} more'] if len(differences) > 6 else [])
    return f'{what} is not proved: ' + '; '.join(shown) + '. make prove proves what is here'


def check(here):
    """Line by line; the lines of archives that are not asked about are left out."""
    record = Record.read(RECORD)
    found = here.differences(record, RECORD)
    same = sum(record.lines.get(key) == value for key, value in here.lines.items())
    for line in found:
        print(f'record: {line}; make sums writes it anew')
    print(f'{same} passed, {len(found)} failed')
    return 1 if found else 0


def kit_here():
    done = subprocess.run(['rt', 'version'], capture_output=True, text=True, check=True)
    return ' '.join(done.stdout.split())


def library(path, folder, names):
    here = Record.here(kit_of(folder), codes_in_library(path, names))
    found, differences = standing(here)
    twice = codehash.names_twice(path)
    if twice:
        found = ''
        differences += [f'{member} has {name} too' for name, member in sorted(twice.items())]
    print(sentence(f'the core in {path}', found, differences))
    if not found:
        print('nothing is installed')
    return 0 if found else 1


def main(words):
    if words == ['sources']:
        return check(Record.here(kit_here(), {}))
    if len(words) >= 3 and words[0] == 'library':
        return library(words[1], words[2], words[3:])
    if len(words) >= 3 and words[0] == 'write':
        here = Record.here(kit_of(words[1]), codes_of(words[1], words[3:]))
        if codehash.UNPROVED in here.lines.values():
            raise codehash.CodeError(f'archives of {words[1]} are compiled without a proof')
        with open(words[2], 'w', encoding='utf-8') as file:
            file.write(here.text())
        return 0
    if len(words) >= 2 and words[0] in ('check', 'tell'):
        here = Record.here(kit_of(words[1]), codes_of(words[1], words[2:]))
        if words[0] == 'check':
            return check(here)
        print(sentence('the core', *standing(here)))
        return 0
    print(__doc__, file=sys.stderr)
    return 2


if __name__ == '__main__':
    try:
        sys.exit(main(sys.argv[1:]))
    except (OSError, codehash.CodeError) as error:
        print(f'not proved: {error}')
        sys.exit(1)
