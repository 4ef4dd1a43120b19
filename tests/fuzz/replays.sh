#!/bin/sh
# The same two programs over replay.c, by any compiler: with the checks of memory and arithmetic
# where it has them.
# usage: tests/fuzz/replays.sh DIR LIBCORE.a   in the repository's root
# Writes DIR/reader-replay and DIR/commands-replay.
set -eu
out=$1 core=$2 cc=${CC:-cc}
checked='-O1 -g -fsanitize=address,undefined -fno-sanitize-recover=all'
mkdir -p "$out"
echo 'int main(void) { return 0; }' >"$out/empty.c"
$cc $checked -o "$out/empty" "$out/empty.c" 2>"$out/said" || {
    echo 'the compiler has no checks'
    checked=-O1
}
sources=$(find console include -maxdepth 1 -name '*.c' ! -name main.c)
$cc $checked -std=c99 -Iinclude -Iconsole -o "$out/reader-replay" tests/fuzz/reader.c \
    tests/fuzz/replay.c $sources "$core" -lm
sh tests/fuzz/console.sh "$out/console.o" $cc $checked
$cc $checked -std=c99 -Iinclude -o "$out/commands-replay" tests/fuzz/commands.c \
    tests/fuzz/folder.c tests/fuzz/json_text.c tests/fuzz/replay.c "$out/console.o" "$core" -lm
