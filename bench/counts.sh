#!/usr/bin/env bash
# The instructions of one call of each solver of the bench, by callgrind.
# usage: counts.sh BENCH   BENCH: the program, built where valgrind's headers are installed
set -eu
work=$(mktemp -d)
trap 'rm -rf "$work"' EXIT
valgrind --tool=callgrind --callgrind-out-file="$work/out" "$1" --count >"$work/titles" 2>"$work/log" || { cat "$work/titles" "$work/log"; exit 1; }
# A title stands before its solvers, of which the first is star_mst1 or star_work_mst1; each solver has a file of its own, in order.
mapfile -t titles < <(grep '^n ' "$work/titles")
table=0
for ((k = 1; ; k++)); do
    [ -f "$work/out.$k" ] || break
    name=$(sed -n 's/^desc: Trigger: Client Request: //p' "$work/out.$k")
    [ -n "$name" ] || continue
    case $name in star_mst1 | star_work_mst1) echo "${titles[table++]}" ;; esac
    printf '  %-30s %12d\n' "$name" "$(sed -n 's/^\(totals\|summary\): \([0-9]*\).*/\2/p' "$work/out.$k" | head -n 1)"
done
