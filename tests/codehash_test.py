#!/usr/bin/env python3
"""Tests of the form in which code is hashed: whatever could change what a call does changes the
hash, and what differs between two compilations of one source does not.

usage: codehash_test.py FOLDER   the folder of the archives. Ends in one line 'N passed, M failed'.
"""
import glob
import os
import struct
import sys

sys.path.insert(0, os.path.join(os.path.dirname(os.path.abspath(__file__)), '..', 'tools'))
import codehash  # noqa: E402

PASSED = FAILED = 0


def holds(name, true):
    global PASSED, FAILED
    if true:
        PASSED += 1
    else:
        FAILED += 1
        print(f'codehash {name} failed')


class Trial:
    """An object as it is, and its hash after some of its bytes are changed."""

    def __init__(self, name, data):
        self.name, self.data = name, data
        self.object, self.hash = codehash.Object(data), codehash.code_hash(data)

    def changed(self, offset, new):
        data = bytearray(self.data)
        data[offset:offset + len(new)] = new
        return codehash.code_hash(bytes(data))

    def differs(self, what, offset, new):
        holds(f'{self.name}: {what} is seen', self.changed(offset, new) != self.hash)

    def same(self, what, offset, new):
        holds(f'{self.name}: {what} is not looked at', self.changed(offset, new) == self.hash)

    def flip(self, offset):
        return bytes([self.data[offset] ^ 1])

    def sections(self, kind):
        return [s for s in self.object.sections if s.type == kind]


def code_bytes(trial):
    """The first, the middle and the last byte of every function."""
    for section in trial.object.sections:
        if section.flags & codehash.EXECUTABLE and section.size:
            for at in (0, section.size // 2, section.size - 1):
                offset = section.offset + at
                trial.differs(f'byte {at} of {section.name}', offset, trial.flip(offset))


def constants(trial):
    """Every byte of every constant that code refers to, in a section of its own kind."""
    used = {}
    for section in trial.object.sections:
        for _, _, symbol, _ in section.relocations:
            if 0 < symbol.section < codehash.RESERVED:
                target = trial.object.sections[symbol.section]
                if target.flags & codehash.MERGED:
                    used[target.offset + symbol.value] = symbol.size or target.entry
    for offset, size in used.items():
        for at in (0, size - 1):
            trial.differs('a constant', offset + at, trial.flip(offset + at))
    return len(used)


def relocations(trial):
    """Of the first and last relocation of each section: its place, kind, target and addend."""
    undefined = [i for i, s in enumerate(trial.object.symbols) if s.section == 0 and s.name]
    for section in trial.sections(4):
        for at in {0, section.size - 24}:
            offset = section.offset + at
            place, info, addend = struct.unpack_from('<QQq', trial.data, offset)
            what = f'{section.name} {at // 24}'
            trial.differs(f'the place of {what}', offset, struct.pack('<Q', place + 1))
            trial.differs(f'the kind of {what}', offset + 8, struct.pack('<Q', info ^ 8))
            trial.differs(f'the addend of {what}', offset + 16, struct.pack('<q', addend + 1))
            for other in undefined:
                if other != info >> 32:
                    new = struct.pack('<Q', other << 32 | info & 0xffffffff)
                    trial.differs(f'the target of {what}', offset + 8, new)
        if section.size >= 48:
            first = trial.data[section.offset:section.offset + 24]
            second = trial.data[section.offset + 24:section.offset + 48]
            trial.same(f'the order of {section.name}', section.offset, second + first)


def symbols(trial):
    """A function's name, size and binding; the name of a constant is not looked at."""
    table = trial.sections(2)[0]
    names = trial.object.sections[table.link]
    for number, symbol in enumerate(trial.object.symbols):
        offset = table.offset + 24 * number
        name = names.offset + struct.unpack_from('<I', trial.data, offset)[0]
        if symbol.kind == codehash.FUNCTION_SYMBOL:
            trial.differs(f'the name of {symbol.name}', name, trial.flip(name))
            trial.differs(f'the size of {symbol.name}', offset + 16,
                          struct.pack('<Q', symbol.size + 1))
            trial.differs(f'the binding of {symbol.name}', offset + 4,
                          bytes([symbol.kind | (symbol.bind ^ 1) << 4]))
        elif symbol.kind == 0 and symbol.bind == 0 and symbol.name:
            trial.same(f'the name of the constant {symbol.name}', name, trial.flip(name))


def other_sections(trial):
    """The note on the stack is looked at; the comment, which says who compiled, is not."""
    header = struct.unpack_from('<Q', trial.data, 40)[0]
    for number, section in enumerate(trial.object.sections):
        at = header + 64 * number
        if section.name == '.note.GNU-stack':
            trial.differs('a stack that runs', at + 8, struct.pack('<Q', 4))
        if section.flags & codehash.LOADED and section.size and section.type == 1:
            trial.differs(f'the alignment of {section.name}', at + 48,
                          struct.pack('<Q', 2 if section.align == 1 else 1))
            trial.differs(f'the flags of {section.name}', at + 8,
                          struct.pack('<Q', section.flags | 1))
        if section.name == '.comment':
            trial.same('the comment', section.offset + 1, b'other')


def broken(path, data):
    for what, short in (('no archive', data[1:]), ('half an archive', data[:len(data) // 2]),
                        ('no object', data.replace(b'\x7fELF', b'\x7fELG'))):
        with open(path, 'wb') as file:
            file.write(short)
        try:
            codehash.archive_codes(path)
            holds(what, False)
        except codehash.CodeError:
            holds(what, True)
    os.remove(path)


def main(folder):
    hashes, found = [], 0
    for path in sorted(glob.glob(os.path.join(folder, 'lib*.a'))):
        with open(path, 'rb') as file:
            data = file.read()
        for name, body in codehash.members(data):
            trial = Trial(name, body)
            hashes.append(trial.hash)
            code_bytes(trial)
            found += constants(trial)
            relocations(trial)
            symbols(trial)
            other_sections(trial)
    holds('an archive', hashes)
    holds('a constant somewhere', found > 0)
    holds('a hash for each', len(set(hashes)) == len(hashes))
    broken(os.path.join(folder, 'broken.tmp'), data)
    print(f'{PASSED} passed, {FAILED} failed')
    return 1 if FAILED else 0


if __name__ == '__main__':
    sys.exit(main(sys.argv[1]))
