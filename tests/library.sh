#!/usr/bin/env bash
# Tests of what C programmers get: what make installs, the pkg-config file, the manual page, the example program, the texts.
# Needs all to be built.
# usage: library.sh   Ends in one line 'N passed, M failed'.
set -u
cd "$(dirname "$0")/.."
passed=0 failed=0 work=$(mktemp -d)
trap 'rm -rf "$work"' EXIT
unset MAKEFLAGS MAKELEVEL MFLAGS DESTDIR PREFIX
compiler=${CC:-cc} plus=${CXX:-c++}

holds() { # NAME COMMAND..: counts a command that has to succeed
    local name=$1
    shift
    if "$@" >"$work/said" 2>&1; then passed=$((passed + 1)); else
        echo "library $name failed:"
        tail -n 5 "$work/said"
        failed=$((failed + 1))
    fi
}
fails() { ! "$@"; }

# make install takes what is built: no rt is asked, whatever it would say.
mkdir "$work/no-rt"
printf '#!/bin/sh\necho asked >"%s/asked"\nexit 1\n' "$work" >"$work/no-rt/rt"
chmod +x "$work/no-rt/rt"
to=$work/usr
holds install env "PATH=$work/no-rt:$PATH" make install "PREFIX=$to"
holds no-toolchain [ ! -e "$work/asked" ]
for file in include/star.h lib/libstar.a lib/pkgconfig/star.pc bin/star share/man/man1/star.1; do holds "$file" [ -s "$to/$file" ]; done
holds staged env "PATH=$work/no-rt:$PATH" make install "DESTDIR=$work/stage" PREFIX=/usr
holds staged-prefix grep -qx 'prefix=${pcfiledir}/../..' "$work/stage/usr/lib/pkgconfig/star.pc"

# One version: the header, the library, the console, the pkg-config file and the manual page.
version=$("$to/bin/star" --version | sed 's/^star //')
holds version-header grep -q "^#define STAR_VERSION \"$version\"$" "$to/include/star.h"
holds version-numbers [ "$(sed -n 's/^#define STAR_VERSION_[A-Z]* //p' "$to/include/star.h" | paste -sd.)" = "$version" ]
holds version-manual grep -q "^.TH STAR 1 .*star $version" "$to/share/man/man1/star.1"
holds version-pc grep -qx "Version: $version" "$to/lib/pkgconfig/star.pc"

# The flags: from pkg-config where it is installed. The shared library is the one that is linked.
export LD_LIBRARY_PATH=$to/lib
flags=(-I"$to/include" -L"$to/lib" -lstar)
if command -v pkg-config >/dev/null; then
    export PKG_CONFIG_PATH=$to/lib/pkgconfig
    holds pkg-config pkg-config --exact-version="$version" star
    read -ra flags < <(pkg-config --cflags --libs star)
fi

# The example programs, as C99 and as C++17.
strict=(-Wall -Wextra -Wpedantic -Werror)
cat >"$work/expected" <<'TEXT'
built: total 12
  row 1: 1-2, price 5
  row 2: 2-3, price 3
  row 4: 1-4, price 4
checked: total 12
the dearer plan: take out row 1, put in row 4, and save 1
with a fifth junction: refused 9, the marked rows are not one fewer than the junctions
with a grant for row 5: take out row 1, put in row 5, and save 25
built with it: total -13
TEXT
cat >"$work/expected-blocked" <<'TEXT'
built: 12
  row 1: 1-2, price 5
  row 2: 2-3, price 3
  row 4: 1-4, price 4
row 4 struck: 0
row 4 struck again: refused 18, the row to strike is not in use
built without it: 13
  row 1: 1-2, price 5
  row 2: 2-3, price 3
  row 3: 3-4, price 5
a row is added: 6
built with it: 7
  row 1: 1-2, price 5
  row 2: 2-3, price 3
  row 6: 2-4, price -1
  row 5 is now row 4
  row 6 is now row 5
checked after the merge: 7
TEXT
cat >"$work/expected-carried" <<'TEXT'
built: 12
row 3 is struck
the plan without row 3: passed, 12
row 5 is added
the plan after an add that packed: passed, 12
row 4 is struck
the plan after the merge: passed, 12
row 5 is added
built: 8
row 5 is struck
row 5 is added
its mark before marks are carried: 1
its mark after that: 0
TEXT
cat >"$work/expected-prices" <<'TEXT'
row 4 at 9: 12 today, 13 then
row 4 at -3: 12 today, 5 then
row 5 at 100: 12 today, 12 then
row 6 at 1: refused 7, the junction asked about is 0 or above the number of junctions, or the row asked about is not in use
with a fifth junction: refused 11, no set of rows joins every junction
row 1 stays up to 5
row 2 stays up to 5
row 3 stays up to 5
row 4 stays up to 5
row 5 stays up to 5
plan 2 stands: 12
TEXT
cat >"$work/expected-plans" <<'TEXT'
mended, in steps: 3
  dropped: out 5, in 0
  added: out 0, in 3
  exchanged: out 1, in 4
  row 2: 2-3, price 3
  row 3: 3-4, price 5
  row 4: 1-4, price 4
rows 1 and 2, then 3 to 5: 12
  row 1: 1-2, price 5
  row 2: 2-3, price 3
  row 3: 3-4, price 5
  row 4: 1-4, price 4
the city
  row 1: 1-2, price 5
  row 2: 2-3, price 3
  row 4: 1-4, price 4
3 at junction 1
the least with this number: 15
  row 1: 1-2, price 5
  row 4: 1-4, price 4
  row 5: 1-3, price 6
4 at junction 1
the least with this number: refused 19, no network has exactly this number of rows at the junction
TEXT
mv "$work/expected" "$work/expected-plan"
for example in plan blocked carried prices plans; do
    holds "c99 $example" "$compiler" -std=c99 "${strict[@]}" -o "$work/$example-c" "console/examples/$example.c" "${flags[@]}"
    holds "c++17 $example" "$plus" -std=c++17 "${strict[@]}" -o "$work/$example-cpp" -x c++ "console/examples/$example.c" -x none "${flags[@]}"
    for language in c cpp; do holds "$example-$language" diff "$work/expected-$example" <("$work/$example-$language" 2>&1); done
done

# The header by itself, in each language that it names; every kind in a switch over its enum, and the three of star_breaking in another.
cat >"$work/header.c" <<'TEXT'
#include "star.h"
static int told(enum star_kind kind) {
    switch (kind) {
    case STAR_REFUSED: return 0;
    case STAR_PASSED: return 1;
    case STAR_LIGHTER: return 2;
    }
    return 3;
}
static int breaking(unsigned kind) {
    switch (kind) {
    case STAR_REFUSED: return 0;
    case STAR_PASSED: return 1;
    case STAR_NEVER: return 2;
    default: return 3;
    }
}
int main(void) { return told(STAR_LIGHTER) != 2 || breaking(STAR_NEVER) != 2; }
TEXT
holds header-c99 "$compiler" -std=c99 -pedantic "${strict[@]}" -Wconversion -o "$work/header-c" "$work/header.c" "${flags[@]}"
holds header-c++98 "$plus" -std=c++98 -pedantic "${strict[@]}" -Wconversion -o "$work/header-cpp" -x c++ "$work/header.c" -x none "${flags[@]}"
for language in c cpp; do holds "header-$language" "$work/header-$language"; done
holds carried-c++98 "$plus" -std=c++98 -pedantic "${strict[@]}" -o "$work/carried-98" -x c++ console/examples/carried.c -x none "${flags[@]}"
holds carried-98 diff "$work/expected-carried" <("$work/carried-98" 2>&1)
holds header-names-languages grep -q 'This header is C99, and C++98' "$to/include/star.h"

# Each door over a plain table, and each that changes a working one, lists its refusals above its declaration.
awk '/^\/\*/ { text = "" }
     { text = text " " $0 }
     /^uint32_t star_/ && !/^uint32_t star_work_/ && text !~ /refusal[ *]+is[ *]*[0-9]/ { print; missing = 1 }
     /^$/ { text = "" }
     END { exit missing }' "$to/include/star.h" >"$work/unlisted"
holds refusals-listed [ ! -s "$work/unlisted" ]

# A text for every refusal that the header names, each its own, and one for any other number, 5 among them.
cat >"$work/texts.c" <<'TEXT'
#include <stdio.h>
#include <string.h>
#include "star.h"
int main(void) {
    unsigned i, k;
    for (i = 0; i <= 30; i++)
        for (k = 0; k < i; k++)
            if (strlen(star_refusal_text(i)) < 10 || strcmp(star_refusal_text(i), star_refusal_text(k)) == 0) return 1;
    if (strcmp(star_refusal_text(STAR_NO_NETWORK), "no set of rows joins every junction") != 0) return 2;
    if (strcmp(star_refusal_text(STAR_NOT_JOINED), "the marked rows do not join all junctions") != 0) return 4;
    for (i = 0; i < STAR_SHORT_TEXT; i++)
        if (strcmp(star_refusal_text(STAR_SHORT_TEXT), star_refusal_text(i)) == 0) return 5;
    if (strcmp(star_refusal_text(5), star_refusal_text(1000000)) != 0 || strcmp(star_refusal_text(31), star_refusal_text(5)) != 0) return 3;
    return strcmp(star_refusal_text(1000000), star_refusal_text((unsigned)-1)) != 0;
}
TEXT
holds texts-build "$compiler" -std=c99 "${strict[@]}" -o "$work/texts" "$work/texts.c" "${flags[@]}"
holds texts "$work/texts"

# The prices and the amount of the header, as C99 and as C++17: the four bytes, and the limits of both.
cat >"$work/prices.c" <<'TEXT'
#include "star.h"
int main(void) {
    const uint8_t answer[16] = {STAR_PASSED, 0, 0, 0, 0, 0, 0, 0, 0, 0, 0, 0, 129, 255, 255, 255}, lowest[16] = {0, 0, 0, 0, 0, 0, 0, 0, 0, 0, 0, 0, 0, 0, 0, 128};
    uint8_t weight[12] = {0};
    star_put_price(weight, 0, STAR_MIN_PRICE);
    star_put_price(weight, 1, -1);
    star_put_price(weight, 2, STAR_MAX_PRICE);
    if (weight[2] != 0 || weight[3] != 128 || weight[4] != 255 || weight[7] != 255 || weight[8] != 255 || weight[11] != 127) return 1;
    if (star_get_price(weight, 0) != STAR_MIN_PRICE || star_get_price(weight, 1) != -1 || star_get_price(weight, 2) != STAR_MAX_PRICE) return 2;
    if (star_read_answer(answer).amount != 254 * (int64_t)STAR_MIN_PRICE) return 3;
    return star_read_answer(lowest).amount != INT64_MIN || star_read_imported(lowest).place != (uint64_t)1 << 63;
}
TEXT
holds prices-c99 "$compiler" -std=c99 "${strict[@]}" -Wconversion -o "$work/prices-c" "$work/prices.c" "${flags[@]}"
holds prices-c++17 "$plus" -std=c++17 "${strict[@]}" -Wconversion -o "$work/prices-cpp" -x c++ "$work/prices.c" -x none "${flags[@]}"
for language in c cpp; do holds "prices-$language" "$work/prices-$language"; done

# The library has every function that the header declares, one of each name, and no other global name.
sed -n -f include/names.sed "$to/include/star.h" | sort >"$work/declared"
if command -v nm >/dev/null; then
    nm -g --defined-only "$to/lib/libstar.a" | awk 'NF == 3 { print $3 }' | sort >"$work/defined"
    holds declared [ -s "$work/declared" ]
    holds defined [ -z "$(comm -23 "$work/declared" "$work/defined")" ]
    holds defined-once [ -z "$(uniq -d "$work/defined")" ]
    holds no-other-names [ -z "$(comm -13 "$work/declared" "$work/defined")" ]
fi

# The manual page: every command, option and status of the help, and no fault that a formatter finds.
manual=$to/share/man/man1/star.1
for word in $("$to/bin/star" --help | sed -n 's/^  \([a-z]*\) .*/\1/p') struck '\\-\\-table' '\\-\\-all' '\\-o' '\\-h' '\\-\\-help' '\\-\\-version'; do holds "manual $word" grep -q -- "$word" "$manual"; done
for status in 0 1 2 3 4 5; do holds "manual status $status" grep -qx ".B $status" "$manual"; done
if command -v groff >/dev/null; then holds manual-format [ -z "$(groff -t -man -ww -z -Tascii "$manual" 2>&1)" ]; fi
for word in "opens with 'struck'" '-o OUTPUT' '5 the output'; do holds "help $word" grep -q -- "$word" <("$to/bin/star" --help); done

# uninstall removes what install has put there, and nothing else.
touch "$to/bin/other"
holds uninstall make uninstall "PREFIX=$to"
holds uninstalled [ "$(find "$to" -not -type d)" = "$to/bin/other" ]

echo "$passed passed, $failed failed"
[ "$failed" = 0 ]
