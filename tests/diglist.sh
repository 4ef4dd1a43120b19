#!/usr/bin/env bash
# The programs diglist and readstp from outside: what they print of many texts, and that an error of reading or writing is told.
# usage: diglist.sh DIGLIST READSTP   Ends in one line 'N passed, M failed'.
set -u
cd "$(dirname "$0")/.."
diglist=$1 readstp=$2 passed=0 failed=0 work=$(mktemp -d)
trap 'rm -rf "$work"' EXIT

# the last run, in a subshell that leaves its status behind, ended with 2, and standard error has a line
told() { # WHAT
    if [ -s "$work/err" ] && [ "$(cat "$work/status")" = 2 ]; then passed=$((passed + 1)); else
        echo "$1: status $(cat "$work/status"), standard error: $(cat "$work/err")"
        failed=$((failed + 1))
    fi
}

python3 -B tests/stp/digs.py "$diglist" | tee "$work/digs"
line=$(tail -n 1 "$work/digs")
if [[ $line =~ ^([0-9]+)\ passed,\ ([0-9]+)\ failed$ ]]; then
    passed=$((passed + BASH_REMATCH[1])) failed=$((failed + BASH_REMATCH[2]))
else
    echo "no count: $line"
    failed=$((failed + 1))
fi

for program in "$diglist" "$readstp"; do
    # a full disk
    "$program" <crates/diglist/stdin >/dev/full 2>"$work/err"
    echo $? >"$work/status"
    told "$program on a full disk"
    # an input that cannot be read: nothing is printed
    "$program" </ >"$work/out" 2>"$work/err"
    echo $? >"$work/status"
    told "$program on a directory"
    if [ -s "$work/out" ]; then
        echo "$program prints a list of an input that was not read"
        failed=$((failed + 1))
    else
        passed=$((passed + 1))
    fi
    # no input, and no output
    "$program" <&- >"$work/out" 2>"$work/err"
    echo $? >"$work/status"
    told "$program on a closed input"
    "$program" <crates/diglist/stdin >&- 2>"$work/err"
    echo $? >"$work/status"
    told "$program on a closed output"
    # a pipe that nobody reads
    {
        sleep 0.2
        "$program" <crates/diglist/stdin 2>"$work/err"
        echo $? >"$work/status"
    } | true
    told "$program on a closed pipe"
done

echo "$passed passed, $failed failed"
[ "$failed" = 0 ]
