#!/usr/bin/env bash
# Tests from outside, over the built console, the tests of the doors and the programs readstp and
# diglist: the parts of parts.sh, as many at a time as there are processors. What a part says is
# shown when it and those before it have ended, under its name and its seconds.
# usage: outside.sh BUILD READSTP DIGLIST [PART..]   Ends in one line 'N passed, M failed'.
# All is built before (make outside-built).
set -u
cd "$(dirname "$0")/.." || exit 2
over=("${@:1:3}") passed=0 failed=0 shown='' work=$(mktemp -d)
trap '[ -z "$shown" ] || kill "$shown" 2>/dev/null; rm -rf "$work"' EXIT

# The parts in their order, first the tests of the doors; the one that measures seconds is made
# alone, after the others.
read -ra doors < <(sed -n 's/^DOOR_TESTS := //p' Makefile)
together=("${doors[@]}" table planner import verdict memory memory_console random files python_docs
    backends record installed proving edits library packaged console objects changes asked plans
    certificates picture fuzz help codehash format)
alone=(clicks)
if [ $# -gt 3 ]; then together=("${@:4}") alone=(); fi
if [ $# = 3 ] && [ "$(printf '%s\n' "${together[@]:${#doors[@]}}" "${alone[@]}" | sort)" != \
    "$(sed -n 's/^part_\([a-z_]*\)().*/\1/p' tests/parts.sh | sort)" ]; then
    echo 'outside.sh does not list the parts of parts.sh, each once'
    failed=1
fi

# Makes parts, some at a time. The seconds of a part, by the clock and of processors, are there when
# it has ended; no shell of a test is in the background, where signals are ignored.
made='TIMEFORMAT="%R %U %S"
{ time bash tests/parts.sh "${@:3}" "$2" >"$1.said" 2>"$1.faults"; } 2>"$1.time"
mv "$1.time" "$1.seconds"'
make_parts() { # AT-A-TIME NAME..
    printf '%s\n' "${@:2}" | xargs -r -P "$1" -I PART bash -c "$made" made "$work/PART" PART "${over[@]}"
}

# The count that a part ends in; one failure where it has none.
count_of() { # NAME
    tail -n 1 "$work/$1.said" | grep -xE '[0-9]+ passed, [0-9]+ failed' || echo '0 passed, 1 failed'
}

# Shows the parts in their order, each when it has ended.
show() {
    local name real user system
    for name in "${together[@]}" "${alone[@]}"; do
        until [ -e "$work/$name.seconds" ]; do sleep 0.2; done
        read -r real user system <"$work/$name.seconds"
        printf '%s: %.0f s, %.0f s of processor time\n' "$name" "$real" \
            "$(awk "BEGIN { print $user + $system }")"
        cat "$work/$name.faults"
        grep -vxE '[0-9]+ passed, [0-9]+ failed' "$work/$name.said"
        count_of "$name"
    done
}

show &
shown=$!
make_parts "$(nproc)" "${together[@]}"
make_parts 1 "${alone[@]}"
# A part whose shell was ended has no seconds; it has no count either.
for name in "${together[@]}" "${alone[@]}"; do
    [ -e "$work/$name.seconds" ] || { echo '0 0 0' >"$work/$name.seconds"; touch "$work/$name".{said,faults}; }
done
wait "$shown"
for name in "${together[@]}" "${alone[@]}"; do
    read -r more _ fewer _ < <(count_of "$name")
    passed=$((passed + more)) failed=$((failed + fewer))
done
echo "$passed passed, $failed failed"
[ "$failed" = 0 ]
