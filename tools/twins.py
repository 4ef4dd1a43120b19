#!/usr/bin/env python3
"""twins.py [FOLDER]: groups of functions of src/ whose bodies are alike once names, numbers and
types are taken out, with how many words and signs each has; then how many functions those are.
Bodies of fewer than twelve words and signs are left out."""
import pathlib
import re
import sys

KEPT = {"let", "mut", "if", "else", "return", "while", "for", "in", "match", "as", "loop"}
HEAD = re.compile(r"^( *)(?:pub(?:\(crate\))? )?(?:unsafe )?(?:extern \"C\" )?fn (\w+)")


def shape(body):
    """The body's words and signs: a name is x, a number 0."""
    for word in re.findall(r"[A-Za-z_]\w*|\d\w*|\S", body):
        if word in KEPT or not re.match(r"\w", word):
            yield word
        else:
            yield "0" if word[0].isdigit() else "x"


def functions(path):
    """The name and the body of each function of a file."""
    lines = path.read_text().split("\n")
    at = 0
    while at < len(lines):
        head = HEAD.match(lines[at])
        if head:
            indent = head.group(1)
            opens = re.compile(rf"{indent}(?:(?:pub|fn|unsafe|extern|\)).*)?{{$")
            first = next(k for k in range(at, len(lines)) if opens.match(lines[k]))
            at = next(k for k in range(first, len(lines)) if lines[k] == indent + "}")
            yield head.group(2), "\n".join(lines[first + 1 : at])
        at += 1


def main():
    root = pathlib.Path(sys.argv[1] if len(sys.argv) > 1 else ".")
    groups, count = {}, 0
    for path in sorted(root.glob("crates/*/src/**/*.rt")):
        crate = path.relative_to(root / "crates").parts[0]
        for name, body in functions(path):
            count += 1
            words = tuple(shape(body))
            if len(words) >= 12:
                groups.setdefault(words, []).append(f"{crate}::{name}")
    alike = {words: names for words, names in groups.items() if len(names) > 1}
    for words, names in alike.items():
        print(f"{len(words)}: {', '.join(names)}")
    print(f"{sum(map(len, alike.values()))} of {count} functions, in {len(alike)} groups")


main()
