#!/usr/bin/env python3
"""Adds to a crate's files, beside each function for C, a function that calls it over empty slices.

usage: callers.py CRATE SRC    prints a line a function that was added: its call, from outside
"""
import os
import re
import sys

FUNCTION = re.compile(r'extern "C" fn (\w+)\(([^)]*)\)')
ARGUMENT = re.compile(r'\s*(?:mut )?\w+: (?:&(mut )?\[(\w+)\]|(Std\w+)|\w+)\s*')


def caller(name, arguments):
    """It stands where the types of the arguments have their names."""
    lines, passed = [], []
    for number, argument in enumerate(filter(str.strip, arguments.split(','))):
        mutable, item, stream = ARGUMENT.fullmatch(argument).groups('')
        passed.append(f'&{mutable}a{number}' if item else f'rt.{stream.lower()}()' if stream else '0')
        if item:
            lines.append(f'    let {mutable}a{number}: [{item}; 0] = [];')
    lines.append(f"    let _r = {name}({', '.join(passed)});")
    return '\n'.join([f'\npub fn call_{name}(rt: &HostRuntime) {{'] + lines + ['}\n'])


def main(crate, folder):
    for at, _, names in os.walk(folder):
        for name in names:
            path = os.path.join(at, name)
            inside = os.path.splitext(os.path.relpath(path, folder))[0].split(os.sep)
            with open(path, 'r+', encoding='utf-8') as file:
                found = FUNCTION.findall(file.read())
                file.writelines(caller(*function) for function in found)
            place = '::'.join([crate] + [word for word in inside if word not in ('lib', 'mod')])
            for function, _ in found:
                print(f'    {place}::call_{function}(&rt);')


if __name__ == '__main__':
    main(*sys.argv[1:])
