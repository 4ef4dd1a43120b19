#!/bin/sh
# The doors once more, as shared libraries, from the same sources: without optimisation, and with a
# check in front of each assumption that the kit's compiler lets LLVM make.
# usage: tests/backends/compile.sh DIR OBJECTS CRATE..   in the repository's root; CRATE is a door's
# crate, and OBJECTS has the modules that clang was handed for their archives.
# Writes DIR/libstar-O0.so and DIR/libstar-checked.so.
set -eu
out=$1 from=$2
shift 2
clang="$(sh tools/kit.sh)/toolchain/bin/clang --target=$(uname -m)-unknown-linux-gnu"
work=$(mktemp -d)
trap 'rm -rf "$work"' EXIT

plain= checked=
for crate; do
    $clang -fPIC -O0 -Werror -x ir -c "$from/$crate.bc" -o "$work/$crate.o"
    plain="$plain $work/$crate.o"
    checked="$checked $work/lib$crate.a"
done
# What is compiled without a proof has the checks. Each stands before what it checks, and returns or
# traps: optimisation does not lose the first that fails.
sh tools/compile.sh "$work" "$@"

mkdir -p "$out"
${CC:-cc} -shared -o "$out/libstar-O0.so" $plain
${CC:-cc} -shared -o "$out/libstar-checked.so" -Wl,--whole-archive $checked -Wl,--no-whole-archive
