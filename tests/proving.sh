#!/usr/bin/env bash
# Tests of make prove and of the gate, with an rt and a compiler that prove nothing: what is asked of
# them, how far a run is, what a failure does.
# usage: proving.sh   Ends in one line 'N passed, M failed'.
. "$(dirname "$0")/copied.sh"
kit=$(sh tools/kit.sh)
crates=$(sed 's/#.*//' crates.txt | grep -c .)
export BUILT=$PWD/target/objects PROVING=$at
read -ra doors < <(sed -n 's/^DOORS := //p' Makefile)
exports=("${doors[@]}" programs_door verdict_program)

# An rt that writes what it is asked for into the file asked; a compiler that takes the archives that
# are here, and hands clang a module of no code.
mkdir -p "$work/rt" "$work/kit/bin"
for part in "$kit"/*; do [ "${part##*/}" = bin ] || ln -s "$part" "$work/kit"; done
cat >"$work/rt/rt" <<'TEXT'
#!/bin/sh
[ "$1" = version ] || echo "$*" >>"$PROVING/asked"
listed() { sed 's/#.*//' crates.txt | sed -n 's/^\([a-z0-9_][a-z0-9_]*\).*/\1/p'; }
case $* in
version) sed -n 's/^kit //p' "$PROVING/crates.sum" ;;
'all check --jobs '* | ci)
    for crate in $(listed); do printf '== %s\nfn %s::a: proved\n' "$crate" "$crate"; done
    if [ -e "$PROVING/fault" ]; then
        echo "rowset/src/lib.rt:1: error: no proof"
        echo "rt: FAILED: rowset"
        echo "$(($(listed | wc -l) + 99)) passed, 1 failed"
        exit 1
    fi
    echo "rt: must-fail slice/a.edit: refused, as it must be: note"
    echo "rt: rowset ran, and wrote what its file stdout has"
    echo "rt: ok; handles allowed: none; must-fail edits: 100 refused$(cat "$PROVING/bad" 2>&1 | grep ,)"
    echo "$(($(listed | wc -l) + 100)) passed, 0 failed"
    ;;
esac
TEXT
cat >"$work/kit/bin/rattle" <<'TEXT'
#!/bin/sh
name=$3
while [ $# != 0 ]; do
    case $1 in
    --toolchain) cd "$2" ;;
    -o) to=$2 ;;
    esac
    shift
done
echo "$name" >>"$PROVING/written"
: >../kept1.bc
cp "$BUILT/lib$name.a" "$to"
TEXT
chmod +x "$work/rt/rt" "$work/kit/bin/rattle"
export RT_JOBS=2
asked() { # COMMAND..: runs it in the copy, with this rt and this kit
    : >"$at/asked"
    : >"$at/written"
    (cd "$at" && PATH="$work/rt:$PATH" RATTLE_HOME=$work/kit "$@") >"$work/said" 2>&1
}
last() { tail -n 1 "$work/said"; }
written() { sort "$at/written" | paste -sd ' '; }
sorted() { printf '%s\n' "$@" | sort | paste -sd ' '; }

# Every crate, and then each archive of a door once. Then all is proved here, whatever the record says.
printf ' ' >>"$at/crates/slice/src/lib.rt"
touch "$at/target/objects/doors" "$at"/target/objects/*.a
asked make -s prove
holds 'prove: ends' [ $? = 0 ]
holds 'prove: how far' says "^rowset: [0-9]* of $crates crates$"
holds 'prove: all' says "$crates of $crates crates"
holds 'prove: by rt' [ "$(cat "$at/asked")" = 'all check --jobs 2' ]
holds 'prove: each archive' [ "$(written)" = "$(sorted "${doors[@]}")" ]
holds 'prove: its module' [ -e "$at/target/objects/cst_door.bc" ]
holds 'prove: no log on the screen' fails says '^fn '
holds 'prove: the log' grep -qx 'fn rowset::a: proved' "$at/target/make-prove.log"
holds 'prove: told' says 'the core is proved here, with this kit'
made install "PREFIX=$work/proved"
holds 'install: proved here' says 'is proved here, with this kit'

# Where nothing has changed nothing is asked; where a source has, all is.
asked make -s prove
holds 'prove again: nothing' [ ! -s "$at/asked" ]
holds 'prove again: no archive' [ ! -s "$at/written" ]
printf ' ' >>"$at/crates/stp_reader/src/lib.rt"
asked make -s prove
holds 'prove one: asked' [ -s "$at/asked" ]

# What is not proved is told, and is not installed.
printf ' ' >>"$at/crates/slice/src/lib.rt"
touch "$at/fault"
asked make -s prove
holds 'prove: fails' [ $? != 0 ]
holds 'prove: the error' says 'error: no proof'
holds 'prove: no archive' [ ! -s "$at/written" ]
refused 'not proved here' 'the sources of slice differ'
rm "$at/fault"

# The gate, with tests from outside that count only: a plain rt ci, the archives, the record, and all
# counts in the last line.
sed -i 's/^\t@$(MAKE).* outside-built$/\t@:/' "$at/Makefile"
mkdir "$at/tests"
echo 'echo outside >>asked; echo 100 passed, 0 failed' >"$at/tests/outside.sh"
gate() { asked bash .ci/run; }
touch "$at/target/of-an-earlier-run"
gate
holds 'gate: passes' [ $? = 0 ]
holds 'gate: from nothing' [ ! -e "$at/target/of-an-earlier-run" ]
holds 'gate: its parts' [ "$(paste -sd ' ' "$at/asked")" = 'ci outside' ]
holds 'gate: each archive' [ "$(written)" = "$(sorted "${exports[@]}")" ]
lines=$((1 + crates))
holds 'gate: counts all' \
    [ "$(last)" = "$((lines + crates + 100 + ${#exports[@]} + lines + ${#exports[@]} + 100)) passed, 0 failed" ]
holds 'gate: crates' says "^crates proved: $crates$"
holds 'gate: wrong programs' says '^wrong programs and wrong definitions refused: 1$'
holds 'gate: programs' says '^programs run: 1$'
holds 'gate: the record' says "^lines of the record that hold: $((2 * lines + ${#exports[@]}))$"

# Where a crate had a folder out, the archives are written over a copy, for which rt is asked again.
mkdir "$at/crates/slice/out"
gate
holds 'gate: over what was there' [ $? = 0 ]
holds 'gate: a copy' [ "$(paste -sd ' ' "$at/asked")" = 'ci ci outside' ]
rmdir "$at/crates/slice/out"

# A crate that is not proved fails it, and so does a wrong program that could not be tried or met a
# limit of the prover, which is no verdict.
touch "$at/fault"
gate
holds 'gate: not proved' [ $? != 0 ]
holds 'gate: nothing after that' [ "$(cat "$at/asked")" = ci ]
holds 'gate: counted' [ "$(last)" = "$((lines + crates + 99)) passed, 1 failed" ]
rm "$at/fault"
echo ', 3 bad' >"$at/bad"
gate
holds 'gate: a bad wrong program' [ $? != 0 ]
holds 'gate: nothing after a bad one' [ "$(cat "$at/asked")" = ci ]
holds 'gate: bad ones counted' [ "$(last)" = "$((lines + crates + 100)) passed, 3 failed" ]
echo ', 2 of them only by a limit' >"$at/bad"
gate
holds 'gate: wrong programs at a limit' [ "$(last)" = "$((lines + crates + 100)) passed, 2 failed" ]
rm "$at/bad"

# A record without the proved code fails it; one of other sources does so before anything is proved.
sed -i 's/^code cst_door .*/code cst_door 0/' "$at/crates.sum"
gate
holds 'gate: another code' [ $? != 0 ]
holds 'gate: told' says 'record: the code of libcst_door.a differs; make sums writes it anew'
holds 'gate: no tests over another code' fails grep -q outside "$at/asked"
restore
printf ' ' >>"$at/crates/slice/src/lib.rt"
gate
holds 'gate: a stale record' [ $? != 0 ]
holds 'gate: told of it' says 'record: the sources of slice differ; make sums writes it anew'
holds 'gate: told at once' fails grep -q . "$at/asked"
holds 'gate: the last line' [ "$(last)" = "$crates passed, 1 failed" ]
restore

count
