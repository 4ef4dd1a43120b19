#!/bin/sh
# The doors as one WebAssembly module (32 bit), by the kit's own compiler and linker.
# usage: page/module.sh OUT.wasm OBJECTS CRATE..   in the repository's root; CRATE is a door's crate
#
# The kit's compiler hands LLVM code to clang for this machine. What was kept of that beside the
# archives, OBJECTS/CRATE.bc, is compiled once more, for WebAssembly. No proof is made here: the
# module is held to the proved library by tests/backends/run.sh.
set -eu
out=$1 from=$2
shift 2
clang=$(sh tools/kit.sh)/toolchain/bin/clang
work=$(mktemp -d)
trap 'rm -rf "$work"' EXIT
ln -s "$clang" "$work/wasm-ld"

wasm="--target=wasm32-unknown-unknown"
layout=$(echo | "$clang" $wasm -x c -S -emit-llvm -o - - | grep '^target datalayout')

# The code for this machine with the other machine's layout and name. Where two values are loaded at
# once and one of them is a pointer, the second stands eight bytes on, though a pointer has four.
pair='  \1.0 = load \2, ptr \4\n  \1.at = getelementptr i8, ptr \4, i64 8\n  \1.1 = load \3, ptr \1.at'
pair="$pair"'\n  \1.p = insertvalue { \2, \3 } poison, \2 \1.0, 0\n  \1 = insertvalue { \2, \3 } \1.p, \3 \1.1, 1'
retarget() {
    "$clang" --target="$(uname -m)-unknown-linux-gnu" -x ir "$1" -S -emit-llvm -O0 \
        -Xclang -disable-llvm-passes -o - |
        sed -E -e "s|^target datalayout.*|$layout|" \
            -e 's|^target triple.*|target triple = "wasm32-unknown-unknown"|' \
            -e 's|ptrtoaddr ptr|ptrtoint ptr|' \
            -e "s/^ *(%[^ ]+) = load \{ ([a-z0-9]+), (ptr) \}, ptr (%[^ ,]+).*/$pair/" \
            -e "s/^ *(%[^ ]+) = load \{ (ptr), ([a-z0-9]+) \}, ptr (%[^ ,]+).*/$pair/" \
            -e 's| "probe-stack"="inline-asm" "stack-probe-size"="[0-9]*" "target-cpu"="[^"]*"||'
}

objects="$work/star.o $work/multi3.o"
# The layout of the console's pictures: multiplications and additions are rounded one by one, as
# the console's are.
for part in places shapes bends coordinates; do
    "$clang" $wasm -O2 -ffreestanding -ffp-contract=off -isystem page/freestanding \
        -c "console/$part.c" -o "$work/$part.o"
    objects="$objects $work/$part.o"
done
"$clang" $wasm -O2 -ffreestanding -isystem page/freestanding -Iinclude -c include/star.c \
    -o "$work/star.o"
# With no optimisation, which would make a call of itself of it.
"$clang" $wasm -O0 -ffreestanding -c page/freestanding/multi3.c -o "$work/multi3.o"
# For size, but for the doors that read texts, which would take three to five times as long.
for crate; do
    level=-Oz
    case $crate in stp_door | digs_door | file_door) level=-O2 ;; esac
    retarget "$from/$crate.bc" >"$work/$crate.ll"
    "$clang" $wasm $level -Werror -x ir -c "$work/$crate.ll" -o "$work/$crate.o"
    objects="$objects $work/$crate.o"
done

# Every function that the header declares: one that no crate has fails the link.
exports=$(sed -nE 's/^(uint(32|64)_t |const char \*)(star_[a-z0-9_]+)\(.*/--export=\3/p' \
    include/star.h)
exports="$exports $(sed -nE 's/^(void|int) (places_(of|given|bends|read))\(.*/--export=\2/p' \
    console/places.h)"
"$work/wasm-ld" -mwasm32 --no-entry $exports --export=__heap_base --strip-all --stack-first \
    -z stack-size=2097152 --initial-memory=20971520 --max-memory=20971520 -o "$out" $objects
