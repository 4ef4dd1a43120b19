#!/usr/bin/env bash
# Random calls of every door, compiled in four ways, and the controls.
# usage: run.sh BUILD BACKENDS CALLS   Ends in one line 'N passed, M failed'.
# BUILD has libstar.so and star.wasm, BACKENDS the other two and the program that makes the calls.
set -u
cd "$(dirname "$0")/../.."
build=$1 backends=$2 calls=$3 passed=0 failed=0 work=$(mktemp -d)
trap 'rm -rf "$work"' EXIT
libraries=("$build/libstar.so" "$backends/libstar-O0.so" "$backends/libstar-checked.so")

# Runs a test, shows what it says, and adds the counts of its last line.
part() { # COMMAND..
    "$@" 2>&1 | tee "$work/said" | grep -v ' passed, [0-9]* failed$'
    local line
    line=$(tail -n 1 "$work/said")
    if [[ $line =~ ^([0-9]+)\ passed,\ ([0-9]+)\ failed$ ]]; then
        passed=$((passed + BASH_REMATCH[1])) failed=$((failed + BASH_REMATCH[2]))
    else
        echo "no count: $*"
        failed=$((failed + 1))
    fi
}

wasm() { # CALLS [control]
    if command -v node >/dev/null; then
        part node tests/backends/doors.mjs "$build/star.wasm" "$@"
    else echo 'skipped: WebAssembly, for which node is not installed'; fi
}

# The first 500 calls of each door: what they came to is printed, and every refusal, every kind of
# answer, every width and the largest tables have to be there.
part env COUNTS=1 "$backends/backends" 500 1 "$work/calls" "${libraries[@]}"
wasm "$work/calls" control

# The controls: changed bytes in what a library was lent, and in its code.
part env DAMAGE=1 "$backends/backends" 100 2 - "${libraries[@]:0:2}"
part python3 -B tests/backends/damaged.py "$backends/backends" "${libraries[@]:0:2}"

# The stack that each door takes, of the library as it is.
part "$backends/stack" "$build/libstar.so" 60

# Eight threads at once; with bytes that are changed, or memory that is kept, this fails.
part "$backends/load" "$build/libstar.so" 3
for wrong in bytes memory; do
    if "$backends/load" "$build/libstar.so" 1 "$wrong" >"$work/said"; then
        echo "the load does not find the control $wrong"
        failed=$((failed + 1))
    else passed=$((passed + 1)); fi
done

# More calls, 500 of each door at a time, each time from another start.
if ((calls >= 1000)); then
    part bash tests/backends/rounds.sh "$build" "$backends" $((calls / 500))
fi
echo "$passed passed, $failed failed"
[ "$failed" = 0 ]
