#!/usr/bin/env bash
# Tests of the installed library: the shared one and its names, compilers and languages, packages
# that find it after it was moved, plugins, threads, manual pages. Needs all to be built.
# usage: installed.sh BUILD   Ends in one line 'N passed, M failed'; what is not installed here is
# told as skipped.
set -u
cd "$(dirname "$0")/.."
build=$1 passed=0 failed=0 work=$(mktemp -d)
trap 'rm -rf "$work"' EXIT
unset MAKEFLAGS MAKELEVEL MFLAGS DESTDIR PREFIX
compiler=${CC:-cc}

holds() { # NAME COMMAND..: counts a command that has to succeed
    local name=$1
    shift
    if "$@" >"$work/said" 2>&1; then passed=$((passed + 1)); else
        echo "installed $name failed:"
        tail -n 5 "$work/said"
        failed=$((failed + 1))
    fi
}
fails() { ! "$@"; }
has() { command -v "$1" >/dev/null || { echo "skipped: $1 is not installed"; return 1; }; }

# It is installed, and moved: nothing may remember where it stood.
holds install make -s install "PREFIX=$work/first"
mv "$work/first" "$work/usr"
to=$work/usr
export LD_LIBRARY_PATH=$to/lib
version=$(sed -n 's/^#define STAR_VERSION "\(.*\)"/\1/p' include/star.h)
sed -n -f include/names.sed include/star.h | sort >"$work/names"

# The shared library: its soname, the names of the header under one symbol version and no other, no
# text that is changed when it is loaded.
shared=$to/lib/libstar.so
holds links [ "$(readlink -f "$shared")" = "$(readlink -f "$to/lib/libstar.so.$version")" ]
if has readelf; then
    readelf -dW "$shared" >"$work/dynamic"
    holds soname grep -q "soname: \[libstar.so.${version%%.*}\]" "$work/dynamic"
    holds no-text-relocations fails grep -q TEXTREL "$work/dynamic"
    holds needs-libc-alone [ "$(grep -c NEEDED "$work/dynamic")" = 1 ]
    nm -D --defined-only "$shared" | awk '$2 != "A" { print $3 }' | sort >"$work/defined"
    holds names diff <(sed 's/$/@@STAR_0/' "$work/names") "$work/defined"
fi

# Compilers and languages: the header and the short calls.
cat >"$work/short.c" <<'TEXT'
#include "star.h"
int main(void) {
    struct star_table t;
    struct star_verdict v;
    star_table_init(&t, 2);
    star_table_add(&t, 1, 2, -3);
    v = star_table_build(&t);
    return v.kind != STAR_PASSED || v.total != -3 || star_get_price(t.weight, 0) != -3;
}
TEXT
strict=(-Wall -Wextra -Wpedantic -Wconversion -Werror)
for tried in 'gcc c c99' 'gcc c c11' 'clang c c99' 'clang c c11' \
    'g++ c++ c++98' 'g++ c++ c++17' 'clang++ c++ c++98' 'clang++ c++ c++17'; do
    read -r with language standard <<<"$tried"
    has "$with" || continue
    holds "$with $standard" "$with" -x "$language" "-std=$standard" "${strict[@]}" \
        -I"$to/include" -o "$work/short" "$work/short.c" -x none -L"$to/lib" -lstar
    holds "$with $standard runs" "$work/short"
done
for file in include/*.c; do
    holds "strict $file" "$compiler" -std=c99 "${strict[@]}" -fPIC -Iinclude -c -o "$work/part.o" \
        "$file"
done

# Packages: pkg-config and CMake, with the lines of docs/C.md, find it where it was moved to, the
# shared and the static one.
if has pkg-config; then
    export PKG_CONFIG_PATH=$to/lib/pkgconfig
    holds pkg-config-version pkg-config --exact-version="$version" star
    holds pkg-config-build "$compiler" -o "$work/short" "$work/short.c" \
        $(pkg-config --cflags --libs star)
    holds pkg-config-run "$work/short"
fi
if has cmake; then
    mkdir "$work/cmake"
    cp "$work/short.c" "$work/cmake/plan.c"
    printf 'cmake_minimum_required(VERSION 3.13)\nproject(plan C)\n' >"$work/cmake/CMakeLists.txt"
    sed -n '/^```cmake$/,/^```$/{/^```/d;p}' docs/C.md >>"$work/cmake/CMakeLists.txt"
    holds cmake cmake -S "$work/cmake" -B "$work/cmake/build" -DCMAKE_PREFIX_PATH="$to"
    holds cmake-build cmake --build "$work/cmake/build"
    holds cmake-run "$work/cmake/build/plan"
    holds cmake-static env -u LD_LIBRARY_PATH "$work/cmake/build/plan_static"
    cp -r "$work/cmake" "$work/broken"
    sed -i 's/star::static/star::stat/' "$work/broken/CMakeLists.txt"
    holds cmake-broken fails cmake -S "$work/broken" -B "$work/other" -DCMAKE_PREFIX_PATH="$to"
    sed -i 's/star 0.9 REQUIRED/star 1.0 REQUIRED/' "$work/cmake/CMakeLists.txt"
    holds cmake-version fails cmake -S "$work/cmake" -B "$work/later" -DCMAKE_PREFIX_PATH="$to"
fi

# A plugin with the static library inside, and the shared one, loaded at run time.
holds plugin "$compiler" -std=c99 -shared -fPIC -I"$to/include" -o "$work/plugin.so" \
    tests/plugin.c "$to/lib/libstar.a" -Wl,-z,text
holds plugin-host "$compiler" -std=c99 -o "$work/plugin_host" tests/plugin_host.c -ldl
holds plugin-run "$work/plugin_host" "$work/plugin.so" "$shared"

# Eight threads; and the same under a race detector, which finds the race of a test that has one.
holds threads-build "$compiler" -std=c99 -O2 -I"$to/include" -o "$work/threads" \
    tests/threads_test.c -L"$to/lib" -lstar -pthread
holds threads "$work/threads" 200
race=("$compiler" -std=c99 -O1 -g -fsanitize=thread -Iinclude -pthread)
race+=(tests/threads_test.c include/*.c)
echo 'int main(void) { return 0; }' >"$work/nothing.c"
if "$compiler" -fsanitize=thread -o "$work/nothing" "$work/nothing.c" 2>"$work/said" &&
    "$work/nothing"; then
    holds threads-detector-build "${race[@]}" -o "$work/race" "$build"/lib*.a
    holds threads-detector "$work/race" 10
    holds threads-control "${race[@]}" -DRACE -o "$work/raced" "$build"/lib*.a
    holds threads-control-found fails "$work/raced" 10
else
    echo "skipped: the race detector does not run here"
fi

# Manual pages: complete, and no fault that a formatter finds; a page that lacks and one without its
# refusals, are found.
pages=$to/share/man/man3
holds manual python3 -B tests/manual.py include/star.h "$pages" "$work/names"
formatted() { for page in "$pages"/*.3; do groff -t -man -ww -z -Tascii "$page" 2>&1; done; }
if has groff; then holds manual-format [ -z "$(formatted)" ]; fi
cp -r "$pages" "$work/lacking"
rm "$work/lacking/star_cst.3"
holds manual-lacking fails python3 -B tests/manual.py include/star.h "$work/lacking" "$work/names"
sed '/SH REFUSALS/,/SH SEE/d' "$pages/star_cst.3" >"$work/lacking/star_cst.3"
holds manual-refusals fails python3 -B tests/manual.py include/star.h "$work/lacking" "$work/names"
sed 's/uint8_t \*left/uint8_t *lefts/' "$pages/star_cst.3" >"$work/lacking/star_cst.3"
holds manual-prototype fails python3 -B tests/manual.py include/star.h "$work/lacking" "$work/names"

holds uninstall make -s uninstall "PREFIX=$to"
holds uninstalled [ -z "$(find "$to" -not -type d)" ]

echo "$passed passed, $failed failed"
[ "$failed" = 0 ]
