#!/usr/bin/env bash
# Tests of the proofs of the gate, tools/proofs.sh, over a repository of one crate: what is refused
# counts as passed; an edit that changes nothing, or that cannot be made, fails; and so does a crate
# that is not proved.
# usage: edits.sh   Ends in one line 'N passed, M failed'.
set -u
cd "$(dirname "$0")/.." || exit
passed=0 failed=0 work=$(mktemp -d)
trap 'rm -rf "$work"' EXIT
unset MAKEFLAGS MAKELEVEL MFLAGS

holds() { # NAME COMMAND..
    local name=$1
    shift
    if "$@" >"$work/holds" 2>&1; then passed=$((passed + 1)); else
        echo "edits $name failed:"
        tail -n 5 "$work/said"
        failed=$((failed + 1))
    fi
}
fails() { ! "$@"; }
says() { grep -qx -- "$1" "$work/said"; }

at=$work/one
mkdir -p "$at/.git" "$at/crates/one/src" "$at/crates/one/must-fail"
cp -R tools "$at"
echo 'one:' >"$at/crates.txt"
cat >"$at/crates/one/src/lib.rt" <<'TEXT'
// One function.

#![tactic(auto)]

ghost use Rattle.std.specs.Prelude.{◌≡◌};

pub const OTHER: u32 = 9;

pub fn same(x: u32) -> u32
    ensures { result ≡ x }
{
    x
}
TEXT
edit() { # NAME FILE OLD NEW
    printf '# %s\nfile: %s\nold: %s\nnew: %s\n' "$1" "$2" "$3" "$4" >"$at/crates/one/must-fail/$1.edit"
}
tried() { (cd "$at" && bash tools/proofs.sh) >"$work/said" 2>&1; }

edit another src/lib.rt '    x' '    OTHER'
tried
holds 'refused: passes' [ $? = 0 ]
holds 'refused: the crate is told' says 'gate: 1 of 1 crates'
holds 'refused: told' says 'rt: must-fail one/another.edit: refused, as it must be.*'
holds 'refused: counted' [ "$(tail -n 1 "$work/said")" = '2 passed, 0 failed' ]
edit nowhere src/lib.rt 'two' 'three'
edit outside ../lib.rt 'x' 'y'
tried
holds 'bad: fails' [ $? != 0 ]
holds 'bad: no such text' says 'rt: must-fail one/nowhere.edit: BAD EDIT: .*'
holds 'bad: no such file' says 'rt: must-fail one/outside.edit: BAD EDIT: .*'
holds 'bad: told' says 'wrong programs that could not be tried: 2'
holds 'bad: counted' [ "$(tail -n 1 "$work/said")" = '2 passed, 2 failed' ]
edit comment src/lib.rt 'One function' 'A function'
edit named src/lib.rt '    x' '    let y = x; y'
tried
holds 'admitted: fails' [ $? != 0 ]
holds 'admitted: told' says 'rt: must-fail one/comment.edit: NOT REFUSED: .*'
holds 'admitted after a refusal: told' says 'rt: must-fail one/named.edit: NOT REFUSED: .*'
holds 'admitted: counted' [ "$(tail -n 1 "$work/said")" = '2 passed, 2 failed' ]
rm "$at"/crates/one/must-fail/{comment,named,nowhere,outside}.edit
sed -i 's/^    x$/    OTHER/' "$at/crates/one/src/lib.rt"
tried
holds 'not proved: fails' [ $? != 0 ]
holds 'not proved: told' says 'rt: one NOT PROVED'
holds 'not proved: counted' [ "$(tail -n 1 "$work/said")" = '0 passed, 1 failed' ]

echo "$passed passed, $failed failed"
[ "$failed" = 0 ]
