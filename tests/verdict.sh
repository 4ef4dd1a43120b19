#!/usr/bin/env bash
# The program verdict from outside: what it prints of many texts, that an error of reading or
# writing is told, and that a small stack is enough.
# usage: verdict.sh VERDICT STAR   Ends in one line 'N passed, M failed'.
set -u
cd "$(dirname "$0")/.." || exit 2
verdict=$1 star=$2 passed=0 failed=0 work=$(mktemp -d)
yard=console/examples/yard.txt
trap 'rm -rf "$work"' EXIT

# the last run, in a subshell that leaves its status behind, ended so, and standard error has a line
told() { # WHAT STATUS
    if [ -s "$work/err" ] && [ "$(cat "$work/status")" = "$2" ]; then passed=$((passed + 1)); else
        echo "$1: status $(cat "$work/status"), standard error: $(cat "$work/err")"
        failed=$((failed + 1))
    fi
}

python3 -B tests/tablefile/verdict.py "$verdict" "$star" 2000 tests/console/*.txt \
    console/examples/*.txt | tee "$work/said"
line=$(tail -n 1 "$work/said")
if [[ $line =~ ^([0-9]+)\ passed,\ ([0-9]+)\ failed$ ]]; then
    passed=$((passed + BASH_REMATCH[1])) failed=$((failed + BASH_REMATCH[2]))
else
    echo "no count: $line"
    failed=$((failed + 1))
fi

# a full disk, a closed output, a pipe that nobody reads
"$verdict" <"$yard" >/dev/full 2>"$work/err"
echo $? >"$work/status"
told 'a full disk' 5
"$verdict" <"$yard" >&- 2>"$work/err"
echo $? >"$work/status"
told 'a closed output' 5
{
    sleep 0.2
    "$verdict" <"$yard" 2>"$work/err"
    echo $? >"$work/status"
} | true
told 'a closed pipe' 5
# an input that cannot be read, and none: nothing is printed
"$verdict" </ >"$work/out" 2>"$work/err"
echo $? >"$work/status"
told 'a directory' 3
"$verdict" <&- >>"$work/out" 2>"$work/err"
echo $? >"$work/status"
told 'a closed input' 3
if [ -s "$work/out" ]; then
    echo 'a verdict is printed of an input that was not read'
    failed=$((failed + 1))
else passed=$((passed + 1)); fi
# a text in pieces, and the largest table on a stack of 160 KiB
{ head -c 20 "$yard"; sleep 0.1; tail -c +21 "$yard"; } | "$verdict" >"$work/out"
if cmp -s "$work/out" <("$verdict" <"$yard"); then passed=$((passed + 1)); else
    echo 'a text in pieces is read otherwise'
    failed=$((failed + 1))
fi
for ((k = 0; k < 1024; k++)); do
    echo "$((k % 255 + 1)) $(((k + k / 255 + 1) % 255 + 1)) $((k % 9)) $((k < 254))"
done >"$work/large"
if [ "$(ulimit -s 160 && "$verdict" <"$work/large")" = "$("$verdict" <"$work/large")" ]; then
    passed=$((passed + 1))
else
    echo 'a stack of 160 KiB is too small'
    failed=$((failed + 1))
fi

echo "$passed passed, $failed failed"
[ "$failed" = 0 ]
