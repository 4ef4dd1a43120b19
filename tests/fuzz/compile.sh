#!/bin/sh
# The two fuzzers: the C with the checks of memory and arithmetic. The readers' has counters of the
# places that were reached in the doors that read texts too, so that these guide it.
# usage: tests/fuzz/compile.sh DIR LIBCORE.a OBJECTS   in the repository's root; needs clang and
# libFuzzer. OBJECTS has the modules of the doors.
# Writes DIR/reader and DIR/commands.
set -eu
out=$1 core=$2 from=$3
kit_clang="$(sh tools/kit.sh)/toolchain/bin/clang --target=$(uname -m)-unknown-linux-gnu"
checked="clang -O1 -g -fsanitize=address,undefined -fno-sanitize-recover=all"
work=$(mktemp -d)
trap 'rm -rf "$work"' EXIT
mkdir -p "$out" "$work/doors"

for file in $(grep -lE 'extern "C" fn star_(import|digs_text)\(' crates/*/src/*.rt); do
    crate=${file#crates/}
    crate=${crate%%/*}
    $kit_clang -x ir -O1 -fPIC -fsanitize-coverage=inline-8bit-counters,pc-table \
        -c "$from/$crate.bc" -o "$work/doors/$crate.o"
done
sources=$(find console include -maxdepth 1 -name '*.c' ! -name main.c)
$checked -std=c99 -fsanitize=fuzzer -Iinclude -Iconsole -o "$out/reader" tests/fuzz/reader.c \
    $sources "$work"/doors/*.o "$core" -lm

# What calls the commands has no counters: it would guide the fuzzer to itself.
sh tests/fuzz/console.sh "$work/console.o" $checked -fsanitize=fuzzer-no-link
for name in commands folder json_text; do
    $checked -std=c99 -Iinclude -c -o "$work/$name.o" "tests/fuzz/$name.c"
done
$checked -fsanitize=fuzzer -o "$out/commands" "$work"/*.o "$core" -lm
