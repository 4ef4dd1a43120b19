#!/usr/bin/env bash
# Tests of the Python package, as pip installs it from the wheel: with no network, no compiler, and
# the library inside.
# usage: python.sh [CASES]   Ends in one line 'N passed, M failed'; what is not here is told
# as skipped.
set -u
cd "$(dirname "$0")/.."
cases=${1:-20000} work=$(mktemp -d)
trap 'rm -rf "$work"' EXIT
unset MAKEFLAGS MAKELEVEL MFLAGS

# The first python3 that has what the tests against networkx need; else the first.
python=python3
for one in python3 /usr/bin/python3; do
    if "$one" -c 'import hypothesis, networkx' 2>/dev/null; then
        python=$one
        break
    fi
done

python=$("$python" -c 'import sys; print(sys.executable)')

if ! make -s wheel >"$work/said" 2>&1; then
    tail -n 5 "$work/said"
    echo "0 passed, 1 failed"
    exit 1
fi
wheel=(target/c/wheel/star_tables-*.whl)
if "$python" -m pip --version >/dev/null 2>&1; then
    PATH=/nowhere "$python" -m pip install -q --no-index --no-cache-dir --no-deps \
        --root-user-action=ignore --target "$work/site" "${wheel[@]}" >"$work/said" 2>&1
    installed=$?
else
    echo "skipped: pip is not installed; the wheel is unpacked"
    "$python" -m zipfile -e "${wheel[@]}" "$work/site"
    installed=$?
fi
if [ "$installed" != 0 ] || [ ! -s "$work/site/star/libstar.so" ]; then
    tail -n 5 "$work/said"
    echo "0 passed, 1 failed"
    exit 1
fi
env -u STAR_LIBRARY PYTHONPATH="$work/site" CASES="$cases" \
    HYPOTHESIS_STORAGE_DIRECTORY="$work/hypothesis" "$python" -B tests/python/run.py
