#!/usr/bin/env bash
# Builds the Debian packages in a copy of the sources, with the archives of the core that are there,
# as proved ones where make prove has proved them, and tries what is in them. It takes some minutes,
# and is no part of the gate.
# usage: debian.sh   Ends in one line 'N passed, M failed'; where dpkg-buildpackage is not installed
# it is told as skipped.
set -u
cd "$(dirname "$0")/.."
passed=0 failed=0 work=$(mktemp -d)
trap 'rm -rf "$work"' EXIT
unset MAKEFLAGS MAKELEVEL MFLAGS DESTDIR PREFIX

holds() { # NAME COMMAND..: counts a command that has to succeed
    local name=$1
    shift
    if "$@" >"$work/said" 2>&1; then passed=$((passed + 1)); else
        echo "debian $name failed:"
        tail -n 15 "$work/said"
        failed=$((failed + 1))
    fi
}
build() { (cd "$work/star" && dpkg-buildpackage -b -us -uc); }

if ! command -v dpkg-buildpackage >/dev/null; then
    echo "skipped: dpkg-buildpackage is not installed"
    echo "0 passed, 0 failed"
    exit 0
fi
mkdir -p "$work/star/target"
git ls-files -z | tar cf - --null -T - | tar xf - -C "$work/star"
cp -a target/objects "$work/star/target"
page=target/c/star.html
if [ -e "$page" ]; then mkdir "$work/star/target/c" && cp -p "$page" "$work/star/target/c"; fi
told='the same bytes as the one that the gate proved with this kit'
if [ -e target/proved.sum ]; then
    cp -p target/proved.sum "$work/star/target"
    told='is proved here, with this kit'
fi
holds build build
cp "$work/said" "$work/built"
holds "told: $told" grep -q "$told" "$work/built"
for package in libstar0 libstar-dev star-console python3-star; do
    holds "$package" [ -s "$work/$package"_*.deb ]
done
if command -v lintian >/dev/null; then
    holds lintian lintian --allow-root --fail-on error "$work"/*.changes
fi

# What is in them works together.
for package in "$work"/*.deb; do
    holds "unpack ${package##*/}" dpkg-deb -x "$package" "$work/root"
done
usr=$work/root/usr library=$(dirname "$(find "$work/root" -name libstar.so.0)")
export LD_LIBRARY_PATH=$library
holds console "$usr/bin/star" check console/examples/yard.txt
holds example "${CC:-cc}" -I"$usr/include" -o "$work/plan" console/examples/plan.c \
    -L"$library" -lstar
holds example-runs "$work/plan"
holds python env PYTHONPATH="$usr/lib/python3/dist-packages" \
    python3 -B -m star check console/examples/yard.txt
holds manual [ -s "$usr/share/man/man3/star_cst.3.gz" ]
if [ -e "$page" ]; then
    holds page cmp "$page" "$usr/share/star/star.html"
    "$usr/bin/star" page console/examples/yard.txt >"$work/page.html" 2>"$work/page.said"
    holds page-written [ -s "$work/page.html" ]
    holds page-found [ ! -s "$work/page.said" ]
else
    echo "skipped: the page in the package, since it is not built (make page)"
fi

# A core that is not of the record is not packaged.
door=$(sed -n 's/^DOORS := \([a-z0-9_]*\).*/\1/p' Makefile)
echo '// changed' >>"$work/star/crates/$door/src/lib.rt"
again() { (cd "$work/star" && dpkg-buildpackage -b -us -uc -nc) >"$work/changed" 2>&1; }
fails() { ! "$@"; }
holds changed fails again
holds changed-said grep -q "the sources of $door differ" "$work/changed"
echo "$passed passed, $failed failed"
[ "$failed" = 0 ]
