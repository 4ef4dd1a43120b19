# What the tests over a copy of the repository have in common, to be read by bash: the copy, with
# the archives that are built here, which have to be of the record; an rt that is asked for nothing;
# and what counts a test.
set -u
cd "$(dirname "${BASH_SOURCE[0]}")/.." || exit
passed=0 failed=0
work=$(mktemp -d) || exit
trap 'rm -rf "$work"' EXIT
unset MAKEFLAGS MAKELEVEL MFLAGS DESTDIR PREFIX
export CFLAGS=-O0

holds() { # NAME COMMAND..: counts a command that has to succeed
    local name=$1
    shift
    if "$@" >"$work/holds" 2>&1; then passed=$((passed + 1)); else
        echo "$(basename "$0") $name failed:"
        tail -n 5 "$work/holds"
        [ ! -f "$work/said" ] || tail -n 5 "$work/said"
        failed=$((failed + 1))
    fi
}
fails() { ! "$@"; }
says() { grep -q -- "$1" "$work/said"; } # PATTERN: what was run last said it

# An rt that leaves a mark where it is asked.
mkdir "$work/no-rt"
printf '#!/bin/sh\necho "$*" >>"%s/asked"\nexit 1\n' "$work" >"$work/no-rt/rt"
chmod +x "$work/no-rt/rt"

at=$work/copy
mkdir -p "$at/target"
# Of the crates what rt keeps is left out.
tar cf - --exclude 'crates/*/out' .ci Makefile ./*.mk crates crates.txt crates.sum tools include \
    console programs | tar xf - -C "$at"
restore() { # puts back what a trial has changed
    rm -rf "${at:?}/target" "${work:?}/usr"
    mkdir "$at/target"
    cp -a target/objects "$at/target"
    cp -p crates.txt crates.sum "$at"
    cp -p crates/slice/src/lib.rt "$at/crates/slice/src"
    cp -p crates/stp_reader/src/lib.rt "$at/crates/stp_reader/src"
}
restore

made() { # WORDS..: make in the copy, without rt
    (cd "$at" && PATH="$work/no-rt:$PATH" make -s "$@") >"$work/said" 2>&1
}
refused() { # NAME PATTERN: make install tells what differs, and installs nothing
    made install "PREFIX=$work/usr"
    holds "$1: refused" [ $? != 0 ]
    holds "$1: told" says "not proved: .*$2"
    holds "$1: nothing installed" [ ! -e "$work/usr" ]
    restore
}

count() { # the last line of a test
    echo "$passed passed, $failed failed"
    [ "$failed" = 0 ]
}
