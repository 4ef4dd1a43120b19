#!/usr/bin/env python3
"""The code of a static library in an order of its own, and the hash of that.

Two compilations of one source may differ in the order of the functions in the file, in the names
of local constants, and in the section .comment. What is left stands here, sorted: every function
by its name with its bytes, and what each of its relocations refers to: a function by name, a
constant by its bytes, a table of the compiler (the jumps of a match) by its content.

usage: codehash.py ARCHIVE       a line a member: its name and the hash of its code
       codehash.py --text FILE   the lines that are hashed
"""
import hashlib
import struct
import sys

# Fields of the ELF format that are used here.
SECTION_TYPES_LEFT_OUT = {0, 2, 3, 4, 9}  # null, symbols, strings, relocations (taken apart)
SECTIONS_LEFT_OUT = {'.comment', '.llvm_addrsig'}
LOADED, EXECUTABLE, MERGED, STRINGS, NO_BITS = 2, 4, 16, 32, 8
UNDEFINED, RESERVED = 0, 0xff00
UNPROVED = 'unproved'
SECTION_SYMBOL, FUNCTION_SYMBOL, FILE_SYMBOL = 3, 2, 4


class CodeError(Exception):
    """The file is no object, or has something that this form has no words for."""


def digest(data):
    return hashlib.sha256(data).hexdigest()


def name_at(table, offset):
    return table[offset:table.index(b'\0', offset)].decode()


class Section:
    def __init__(self, data, header):
        (self.name_offset, self.type, self.flags, _, self.offset, self.size, self.link, self.info,
         self.align, self.entry) = header
        end = self.offset + self.size
        self.bytes = b'' if self.type == NO_BITS else data[self.offset:end]
        self.relocations = []
        self.functions = []


class Symbol:
    def __init__(self, entry, names):
        name, info, other, self.section, self.value, self.size = entry
        self.name, self.kind, self.bind = name_at(names, name), info & 15, info >> 4
        self.visibility = other & 3


class Object:
    """An object file: its sections, with their relocations, and its symbols."""

    def __init__(self, data):
        if data[:6] != b'\x7fELF\x02\x01':
            raise CodeError('not an object file of 64 bits, least significant byte first')
        header = struct.unpack_from('<HHIQQQIHHHHHH', data, 16)
        self.kind, self.machine, self.flags = header[0], header[1], header[6]
        start, size, count, names = header[5], header[10], header[11], header[12]
        self.sections = [Section(data, struct.unpack_from('<IIQQQQIIQQ', data, start + i * size))
                         for i in range(count)]
        for section in self.sections:
            section.name = name_at(self.sections[names].bytes, section.name_offset)
        self.symbols = []
        self.read_symbols()
        self.read_relocations()

    def read_symbols(self):
        for section in self.sections:
            if section.type != 2:
                continue
            names = self.sections[section.link].bytes
            entries = struct.iter_unpack('<IBBHQQ', section.bytes)
            self.symbols = [Symbol(entry, names) for entry in entries]
        for symbol in self.symbols:
            if symbol.kind == FUNCTION_SYMBOL and UNDEFINED < symbol.section < RESERVED:
                self.sections[symbol.section].functions.append(symbol)

    def read_relocations(self):
        for section in self.sections:
            if section.type == 9:
                raise CodeError('relocations without addends')
            if section.type == 4:
                for offset, info, addend in struct.iter_unpack('<QQq', section.bytes):
                    relocation = (offset, info & 0xffffffff, self.symbols[info >> 32], addend)
                    self.sections[section.info].relocations.append(relocation)

    def place(self, symbol, addend, above=()):
        """What a symbol and an addend refer to, without the names of local constants."""
        if symbol.section == UNDEFINED:
            return f'undefined {symbol.name} {addend}'
        if symbol.section >= RESERVED:
            raise CodeError(f'the symbol {symbol.name} stands in no section')
        section = self.sections[symbol.section]
        if section.flags & EXECUTABLE:
            return f'code {self.function_of(section)} {symbol.value + addend}'
        if section.flags & MERGED:
            return f'constant {self.constant(section, symbol)} {addend}'
        return f'data {self.content(section, above)} {symbol.value + addend}'

    @staticmethod
    def function_of(section):
        """A code section is named by its functions: each with its place and size."""
        functions = sorted((f.value, f.size, f.name, f.bind, f.visibility)
                           for f in section.functions)
        if not functions:
            raise CodeError(f'the section {section.name} has code of no function')
        return ' '.join(':'.join(map(str, function)) for function in functions)

    @staticmethod
    def constant(section, symbol):
        """One entry of the section, or as many bytes as its symbol says: where entries are strings,
        it has to say that."""
        size = symbol.size or (0 if section.flags & STRINGS else section.entry)
        if symbol.kind == SECTION_SYMBOL or size == 0 or section.entry == 0 \
                or symbol.value % section.entry:
            raise CodeError(f'a constant of the section {section.name} cannot be told')
        value = section.bytes[symbol.value:symbol.value + size].hex()
        return f'{section.flags}:{section.align}:{value}'

    def content(self, section, above=()):
        """The hash of a section's bytes and of what its relocations refer to."""
        if section in above:
            raise CodeError(f'the section {section.name} refers to itself')
        return digest('\n'.join(self.body(section, above + (section,))).encode())

    def body(self, section, above=()):
        # of the section's name only the kind, as .rodata: the rest names a function or a constant
        yield f"kind {section.name.split('.')[1]} flags {section.flags} align {section.align} " \
              f'type {section.type} size {section.size} bytes {digest(section.bytes)}'
        for offset, kind, symbol, addend in sorted(section.relocations, key=lambda r: r[:2]):
            yield f'at {offset} kind {kind} {self.place(symbol, addend, above)}'

    def lines(self):
        """The lines that are hashed, sorted."""
        out = [f'kind {self.kind} machine {self.machine} flags {self.flags}']
        for section in self.sections:
            if section.type in SECTION_TYPES_LEFT_OUT and not section.flags & LOADED \
                    or section.name in SECTIONS_LEFT_OUT:
                continue
            if section.flags & EXECUTABLE:
                if section.size:
                    name = self.function_of(section)
                    out += [f'{name} {line}' for line in self.body(section)]
            elif not section.flags & MERGED:
                name = section.name if section.size == 0 else 'data'
                out.append(f'{name} {self.content(section)}')
        for symbol in self.symbols[1:]:
            if symbol.bind != 0:
                out.append(f'global {symbol.name} {symbol.kind} {symbol.bind} {symbol.visibility} '
                           f'{symbol.size} {self.place(symbol, 0)}')
        return sorted(out)


def members(data):
    """The members of an archive, each with its name and bytes; its own tables are left out."""
    if data[:8] != b'!<arch>\n':
        raise CodeError('not an archive')
    at, long_names = 8, b''
    while at + 60 <= len(data):
        name, size = data[at:at + 16].decode().rstrip(), int(data[at + 48:at + 58])
        body = data[at + 60:at + 60 + size]
        at += 60 + size + size % 2
        if name == '//':
            long_names = body
        elif name not in ('/', '/SYM64/'):
            if name[0] == '/':
                start = int(name[1:])
                name = long_names[start:long_names.index(b'\n', start)].decode()
            yield name.rstrip('/'), body


def code_hash(data):
    """The hash of an object's code."""
    return digest('\n'.join(Object(data).lines()).encode())


def code_of(data):
    """The same, or UNPROVED where the object says that its code was compiled without a proof."""
    comments = [s.bytes for s in Object(data).sections if s.name == '.comment']
    return UNPROVED if any(b'rattle unproved' in it for it in comments) else code_hash(data)


def of_members(path, told):
    """The members of an archive in their order: name, and what is told of its bytes."""
    with open(path, 'rb') as file:
        data = file.read()
    try:
        return [(name, told(name, body)) for name, body in members(data)]
    except (ValueError, IndexError, struct.error) as error:
        raise CodeError(f'{path} is not to be read: {error}') from error


def archive_codes(path, but=()):
    """The members, but for some: name, and the hash of the code, or UNPROVED."""
    found = of_members(path, lambda name, body: None if name in but else code_of(body))
    return [(name, value) for name, value in found if value]


def global_names(data):
    """The names that an object defines for others."""
    return {s.name for s in Object(data).symbols if s.bind != 0 and s.section != UNDEFINED}


def names_twice(path):
    """The names that more than one member of an archive defines, with the last of these members."""
    owner, out = {}, {}
    for member, names in of_members(path, lambda _, body: global_names(body)):
        for name in names:
            if name in owner:
                out[name] = member
            owner[name] = member
    return out


def main():
    words = sys.argv[1:]
    if len(words) == 2 and words[0] == '--text':
        with open(words[1], 'rb') as file:
            for _, body in members(file.read()):
                print('\n'.join(Object(body).lines()))
    elif len(words) == 1:
        for name, code in archive_codes(words[0]):
            print(code, name)
    else:
        sys.exit(__doc__)


if __name__ == '__main__':
    main()
