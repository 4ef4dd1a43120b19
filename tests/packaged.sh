#!/usr/bin/env bash
# Tests of which objects the Debian packages take, and what is said of them: the steps of
# debian/rules that build and install, over objects of the record, objects that are proved here, and
# objects that are neither. tests/debian.sh builds whole packages.
# usage: packaged.sh   Ends in one line 'N passed, M failed'; where dpkg-dev is not installed it is
# told as skipped.
. "$(dirname "$0")/copied.sh"
if [ ! -e /usr/share/dpkg/default.mk ]; then
    echo "skipped: dpkg-dev is not installed"
    count
    exit
fi
cp -a debian python "$at"
doors=$(sed -n 's/^DOORS := //p' Makefile)

packaged() { # the two steps, over what the copy has; the C is built already
    rm -rf "$at/debian/tmp" "$at/target/c"
    mkdir "$at/target/c"
    cp -a target/c/{star,star.o,parts,names,man3,libcore.a,libstar.*} "$at/target/c"
    (cd "$at" && PATH="$work/no-rt:$PATH" make -s -f debian/rules override_dh_auto_build \
        override_dh_auto_install) >"$work/said" 2>&1
}
taken() { # the members of the package's library are the objects that the copy has
    local door library
    library=$(ls "$at"/debian/tmp/usr/lib/*/libstar.a) || return 1
    for door in $doors; do
        cmp <(ar p "$library" "$door.o") <(ar p "$at/target/objects/lib$door.a") || return 1
    done
}

# Of the record, and with no sign of a proof made here.
packaged
holds 'record: packaged' [ $? = 0 ]
holds 'record: told' says 'the same bytes as the one that the gate proved with this kit'
holds 'record: its objects' taken

# Proved here: other sources than the record has, and objects that are known by their comments.
printf ' ' >>"$at/crates/slice/src/lib.rt"
printf 'of a test\0' >"$work/comment"
for door in $doors; do
    objcopy --update-section ".comment=$work/comment" "$at/target/objects/lib$door.a"
done
(cd "$at" && python3 -B tools/record.py write target/objects target/proved.sum $doors)
touch "$at/target/objects/doors" "$at"/target/objects/*.a
cp -a "$at/target/objects" "$work/proved"
packaged
holds 'proved: packaged' [ $? = 0 ]
holds 'proved: told' says 'the core in .* is proved here, with this kit'
holds 'proved: its objects' taken
holds 'proved: they are these' diff -r "$work/proved" "$at/target/objects"
shared=$(ls "$at"/debian/tmp/usr/lib/*/libstar.so.*.*)
holds 'proved: in the shared library' grep -q 'of a test' "$shared"

# The same objects without the sign of a proof.
rm "$at/target/proved.sum"
packaged
holds 'neither: refused' [ $? != 0 ]
holds 'neither: told' says 'not proved: the sources of slice differ'
holds 'neither: nothing packaged' fails ls "$at"/debian/tmp/usr/lib
holds 'no rt' [ ! -e "$work/asked" ]

count
