#!/bin/sh
# The console and the library's C as one object, whose main is star_main. Its variables stand in a
# section of their own, star_variables, so that they can be cleared before each call of it.
# usage: tests/fuzz/console.sh OUT.o CC FLAG..   in the repository's root
set -eu
out=$1
shift
root=$PWD
work=$(mktemp -d)
trap 'rm -rf "$work"' EXIT
cd "$work"
"$@" -std=c99 -Dmain=star_main -I"$root/include" -c "$root"/console/*.c
mkdir library
cd library
"$@" -std=c99 -I"$root/include" -c "$root"/include/*.c
cd "$root"
mkdir -p "$(dirname "$out")"
ld -r -o "$out" "$work"/*.o "$work"/library/*.o
objcopy --rename-section .bss=star_variables "$out"
