#!/usr/bin/env bash
# More random calls of every door, 500 of each in a round, each round from another start; a round on
# each processor at a time.
# usage: rounds.sh BUILD BACKENDS LAST   rounds 2 to LAST. Ends in one line 'N passed, M failed'.
set -u
cd "$(dirname "$0")/../.." || exit 2
export build=$1 backends=$2 work
work=$(mktemp -d)
trap 'rm -rf "$work"' EXIT

round() { # START
    "$backends/backends" 500 "$1" "$work/calls-$1" \
        "$build/libstar.so" "$backends/libstar-O0.so" "$backends/libstar-checked.so"
    if command -v node >/dev/null; then
        node tests/backends/doors.mjs "$build/star.wasm" "$work/calls-$1"
    else echo '0 passed, 0 failed'; fi
    rm "$work/calls-$1"
}
# What a round says, unless it is as it should be; its counts go to a file.
told() { # START
    round "$1" >"$work/said-$1" 2>&1
    grep -E '^[0-9]+ passed, [0-9]+ failed$' "$work/said-$1" >"$work/count-$1"
    if [ "$(grep -c ' 0 failed$' "$work/count-$1")" = 2 ]; then echo "round $1"
    else
        cat "$work/said-$1"
        echo '0 passed, 1 failed' >>"$work/count-$1"
    fi
}
export -f round told

seq 2 "$3" | xargs -P "$(nproc)" -I START bash -c 'told START'
cat "$work"/count-* | awk '{p += $1; f += $3} END {print p + 0 " passed, " f + 0 " failed"}'
