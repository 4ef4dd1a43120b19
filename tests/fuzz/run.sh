#!/usr/bin/env bash
# The corpora of the two fuzzers, replayed, and the controls.
# usage: tests/fuzz/run.sh DIR   DIR has reader-replay and commands-replay. Ends in one line
# 'N passed, M failed'.
set -u
dir=$(cd "$1" && pwd) passed=0 failed=0
cd "$(dirname "$0")/corpus" || exit 2
export TMPDIR
TMPDIR=$(mktemp -d)
trap 'rm -rf "$TMPDIR"' EXIT

# In a shell of its own, whose words on a program that ends by a signal go to the file too.
replay() ( # NAME
    exec 2>"$dir/said" >"$dir/counted"
    "$dir/$1-replay" "$PWD/$1"/*
    exit $?
)

for name in reader commands; do
    if replay "$name"; then passed=$((passed + $(ls "$name" | wc -l)))
    else
        tail -n 40 "$dir/said"
        failed=$((failed + 1))
    fi
done

# What a command left is changed before it is looked at, which has to be found.
for control in status file json table; do
    if CONTROL=$control replay commands; then
        echo "the control $control is not found"
        failed=$((failed + 1))
    else passed=$((passed + 1)); fi
done
echo "$passed passed, $failed failed"
[ "$failed" = 0 ]
