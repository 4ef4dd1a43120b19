#!/usr/bin/env bash
# The proofs of the gate: a plain `rt ci`, which proves every crate, tries every wrong program and
# runs the programs, with how far it is. A wrong program that rt could not try (", N bad" in its line
# `rt: ok`), or that met a limit of the prover and no verdict, is passed by rt and fails here. Ends in
# one line 'N passed, M failed'.
set -u
said=$(mktemp)
trap 'rm -f "$said"' EXIT
rt ci 2>&1 | tee "$said" | python3 -B "$(dirname "$0")/progress.py" crates | sed -u '$d'
status=${PIPESTATUS[0]}
[[ $(tail -n 1 "$said") =~ ^([0-9]+)\ passed,\ ([0-9]+)\ failed ]] || { cat "$said" && exit 1; }
passed=${BASH_REMATCH[1]} failed=${BASH_REMATCH[2]}
ok=$(grep '^rt: ok' "$said")
unjudged() { # WHAT PATTERN
    [[ $ok =~ ,\ ([0-9]+)\ $2 ]] || return 1
    echo "wrong programs $1: ${BASH_REMATCH[1]}"
    failed=$((failed + BASH_REMATCH[1]))
}
if unjudged 'that could not be tried' bad || unjudged 'at a limit' 'of them only by a limit'; then
    :
elif [ "$failed" = 0 ] && { [ "$status" != 0 ] || [ -z "$ok" ]; }; then
    echo "rt ci ended with status $status and no line 'rt: ok'"
    failed=1
fi
echo "$passed passed, $failed failed"
[ "$failed" = 0 ]
