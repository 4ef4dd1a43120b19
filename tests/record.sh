#!/usr/bin/env bash
# Tests of the record: what make run and make install say of what is proved, and what they refuse.
# usage: record.sh   Ends in one line 'N passed, M failed'.
. "$(dirname "$0")/copied.sh"
same='the same bytes as the one that the gate proved with this kit (crates.sum)'

# As it is: of the record. Nothing is compiled, and rt is not asked.
rm -f "$at/target/objects/libprograms_door.a"
made run
holds 'run: of the record' says "$same; make prove proves it here"
holds 'run: the yard' says 'Total 12'
made install "PREFIX=$work/installed"
holds 'install: of the record' says "$same"
holds 'install: the library' [ -s "$work/installed/lib/libstar.a" ]
holds 'install: what it needs alone' [ ! -e "$at/target/objects/libprograms_door.a" ]

# make console builds the C over the archives that are there, whatever the sources are.
before=$(stat -c %y "$at/target/objects/libcst_door.a")
sleep 1
echo >>"$at/console/main.c"
touch "$at/crates/cst_door/src/lib.rt"
made console
holds 'console: the C anew' [ "$at/target/c/star" -nt "$at/console/main.c" ]
holds 'console: the same archives' [ "$(stat -c %y "$at/target/objects/libcst_door.a")" = "$before" ]
holds 'no rt' [ ! -e "$work/asked" ]

# A source changed by a blank, a dependency more, a file more.
restore
printf ' ' >>"$at/crates/slice/src/lib.rt"
refused 'a blank' 'the sources of slice differ'
definition=$(ls crates/star_meaning/specs/*.antt | head -n 1)
printf ' ' >>"$at/$definition"
refused 'a blank in a definition' 'the sources of star_meaning differ'
cp -p "$definition" "$at/$definition"
sed -i 's/^slice: /slice: refusal /' "$at/crates.txt"
refused 'a dependency more' 'the sources of slice differ'
mkdir -p "$at/crates/slice/proofs"
echo >"$at/crates/slice/proofs/More.antt"
refused 'a file more' 'the sources of slice differ'
rm "$at/crates/slice/proofs/More.antt"

# An object of another crate: as its archive, under the name of the one that is wanted, in the
# library alone; a member more; C that has the name of a door.
objects=$at/target/objects library=$at/target/c/libstar.a
cp "$objects/libmst1_door.a" "$objects/libcst_door.a"
refused 'the archive of another crate' 'the code of libcst_door.a differs'
(cd "$work" && ar x "$objects/libmst1_door.a" && mv mst1_door.o cst_door.o && cp cst_door.o more.o)
rm "$objects/libcst_door.a"
ar rc "$objects/libcst_door.a" "$work/cst_door.o"
refused 'an object of another crate' 'the code of libcst_door.a differs'
made checked
ar r "$library" "$work/cst_door.o" 2>/dev/null
refused 'an object of another crate in the library' 'the code of libcst_door.a differs'
made checked
ar r "$library" "$work/more.o" 2>/dev/null
refused 'a member more' 'crates.sum has no line for the code of libmore.a'
made checked
printf 'int star_cst(void);\nint star_cst(void) { return 1; }\n' >"$work/star.c"
"${CC:-cc}" -c -o "$work/star.o" "$work/star.c"
ar r "$library" "$work/star.o" 2>/dev/null
refused 'C in the place of a door' 'cst_door.o has star_cst too\|star.o has star_cst too'

# A record of another kit, one with a line left out, one with a line too many, none.
sed -i 's/^kit .*/kit another 1/' "$at/crates.sum"
refused 'another kit' 'the kit is another ('
for line in 'source slice' 'code cst_door' 'kit'; do
    sed -i "/^$line /d" "$at/crates.sum"
    refused "no line $line" 'crates.sum has no line for '
done
echo "source slices $(printf %064d 0)" >>"$at/crates.sum"
refused 'a line too many' 'crates.sum has a line for the sources of slices, which is not here'
rm "$at/crates.sum"
refused 'no record' 'there is no crates.sum'
holds 'still no rt' [ ! -e "$work/asked" ]

# On a fresh machine: compiled without a proof, which is told, as a blank in a source is; such
# archives have checks, so that they are not of the record, and no record is made of them.
if command -v rt >/dev/null; then
    rm -rf "$at/target"
    printf ' ' >>"$at/crates/slice/src/lib.rt"
    (cd "$at" && make -s run) >"$work/said" 2>&1
    holds 'fresh: not proved' says 'the core is not proved: 20 archives are compiled without a proof'
    holds 'fresh: a blank' says 'the sources of slice differ'
    holds 'fresh: the yard' says 'Total 12'
    holds 'fresh: the object says so' grep -q 'rattle unproved' "$objects/libcst_door.a"
    cp -p crates/slice/src/lib.rt "$at/crates/slice/src/lib.rt"
    made tell
    holds 'fresh: not of the record' says '20 archives are compiled without a proof. make prove'
    (cd "$at" && python3 -B tools/record.py write target/objects crates.sum cst_door) >"$work/said" 2>&1
    holds 'fresh: no record' says 'archives of target/objects are compiled without a proof'
    refused 'fresh' '20 archives are compiled without a proof'
fi

count
