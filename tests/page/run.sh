#!/usr/bin/env bash
# Tests of the planner's page: its sources, its files against the console's, and the page in a
# browser, where these programs are installed. The module outside it: tests/backends/run.sh.
# usage: run.sh BUILD [clicks | -clicks]   all, the seconds of a click alone, or all but these.
# Ends in one line 'N passed, M failed'.
set -u
cd "$(dirname "$0")/../.."
build=$1 clicks=${2:-} passed=0 failed=0 work=$(mktemp -d)
trap 'rm -rf "$work"' EXIT
export NODE_PATH=${NODE_PATH:-/usr/share/nodejs}

# Runs a test, shows what it says, and adds the counts of its last line.
part() { # COMMAND..
    "$@" 2>&1 | tee "$work/said" | grep -v ' passed, [0-9]* failed$'
    local line
    line=$(tail -n 1 "$work/said")
    if [[ $line =~ ^([0-9]+)\ passed,\ ([0-9]+)\ failed$ ]]; then
        passed=$((passed + BASH_REMATCH[1])) failed=$((failed + BASH_REMATCH[2]))
    else
        echo "no count: $*"
        failed=$((failed + 1))
    fi
}

# Runs a command that has to end with 0.
clean() { # COMMAND..
    if "$@"; then passed=$((passed + 1)); else
        echo "page: $* finds something"
        failed=$((failed + 1))
    fi
}

# Installs what is not there, where that is allowed; says what cannot be had.
want() { # PROGRAM PACKAGE
    command -v "$1" >/dev/null && return 0
    echo "page: installing $2 for the tests"
    apt-get install -qq -y --no-install-recommends "$2" >"$work/apt" 2>&1
    command -v "$1" >/dev/null && return 0
    echo "skipped: what needs $1 ($2), which is not installed"
    return 1
}

# A page with a fault in it has to fail the tests in the browser.
control() { # NAME FILE EXPRESSION GROUP
    rm -rf "$work/page"
    cp -r page "$work/page"
    sed -i "$3" "$work/page/src/$2"
    if cmp -s "page/src/$2" "$work/page/src/$2" ||
        ! node "$work/page/build.mjs" "$build/star.wasm" "$work/wrong.html"; then
        echo "page: no page with the fault $1"
        failed=$((failed + 1))
    elif TABLES=town node tests/page/page.mjs chromium "$build/star" "$work/wrong.html" "$4" \
        >"$work/said" 2>&1; then
        echo "page: the fault $1 is not found"
        failed=$((failed + 1))
    else passed=$((passed + 1)); fi
}

# A page is not built of modules of which two define one name.
twice() {
    rm -rf "$work/page"
    cp -r page "$work/page"
    echo 'export const byId = 1;' >>"$work/page/src/words.js"
    ! node "$work/page/build.mjs" "$build/star.wasm" "$work/wrong.html" >"$work/said" 2>&1 &&
        grep -q 'byId is defined in' "$work/said"
}

# The console that is installed finds the program that is installed with it.
installed() {
    local to=$work/usr yard=console/examples/yard.txt
    env -u MAKEFLAGS -u DESTDIR make -s install PREFIX="$to" BUILD="$build" >"$work/said" 2>&1 &&
        cmp -s "$build/star.html" "$to/share/star/star.html" &&
        "$to/bin/star" page "$yard" 2>&1 | cmp -s - <("$build/star" page "$yard")
}

# A console whose layout is another one has to be found.
drifted() { # EXPRESSION FILE
    rm -rf "$work/console"
    cp -r console "$work/console"
    sed -i "$1" "$work/console/$2"
    ! cmp -s "console/$2" "$work/console/$2" &&
        ${CC:-cc} -std=c99 -Iinclude -o "$work/star" "$work"/console/*.c "$build/libstar.a" -lm &&
        ! node tests/page/places.mjs "$work/star" "$build/star.wasm" 5 >"$work/said" 2>&1 &&
        grep -q '^places: ' "$work/said"
}

# A page that reads or writes table files or GeoJSON wrongly has to be found.
misread() { # TEST FILE EXPRESSION
    rm -rf "$work/copy"
    mkdir -p "$work/copy/tests"
    cp -r page python "$work/copy"
    cp -r tests/page tests/tablefile "$work/copy/tests"
    sed -i "$3" "$work/copy/page/src/$2"
    ! cmp -s "page/src/$2" "$work/copy/page/src/$2" &&
        ! node "$work/copy/tests/page/$1.mjs" "$build/star.wasm" 600 >"$work/said" 2>&1 &&
        grep -q "^$1: " "$work/said"
}

want node nodejs || { echo "0 passed, 0 failed"; exit 0; }
if [ "$clicks" = clicks ]; then
    clean make -s page BUILD="$build"
    want chromium chromium && part node tests/page/page.mjs chromium "$build/star" "$build/star.html" clicks
    echo "$passed passed, $failed failed"
    [ "$failed" = 0 ]
    exit
fi
clean make -s page BUILD="$build"
clean installed
clean twice
if want tsc node-typescript; then clean tsc -p page/tsconfig.json; fi
if want eslint eslint; then
    clean eslint -f unix --ext .js,.mjs page/src page/build.mjs tests/page \
        tests/backends
fi
part node tests/page/files.mjs "$build/star" "$build/star.wasm" 1200
part node tests/page/places.mjs "$build/star" "$build/star.wasm" 30
clean drifted 's/7919/7907/' places.c
clean drifted 's/: -bend_of/: bend_of/' bends.c
clean drifted 's/times_ten(minus/times_ten(0/' coordinates.c
if want python3 python3; then
    export STAR_LIBRARY=$build/libstar.so
    [[ $build = /* ]] || STAR_LIBRARY=$PWD/$STAR_LIBRARY
    clean make -s shared BUILD="$build"
    part node tests/page/readings.mjs "$build/star.wasm" 2000 tests/console/*.txt \
        console/examples/*.txt
    clean misread readings core.js 's/1 - inUse(i)/0/'
    clean misread readings file.js 's/while (within(start - 1)) start--;//'
    clean misread readings fields.js 's/was.mark !== now.mark/false/'
    part node tests/page/formats.mjs "$build/star.wasm" 600
    clean misread formats rows.js "s/\.padEnd(point, '0')//"
    clean misread formats geojson.js 's/if (places.has(name) /if (false /'
fi
part node tests/page/exercises.mjs "$build/star.wasm" 1000
if want chromium chromium; then
    # The calls of tests/backends that are made again in the browser.
    clean make -s BUILD="$build" target/backends/backends
    part target/backends/backends 500 1 "$work/calls" "$build/libstar.so"
    paper=0
    want pdftotext poppler-utils && paper=1
    CALLS=$work/calls part node tests/page/page.mjs chromium "$build/star" "$build/star.html" \
        ${clicks:+"$clicks"}
    control "a stale verdict" main.js 's/^      verdictShow(app);$/      if (told === "open") &/' marks
    control "the sum in place of the dearest" why.js 's/p.price\[detour.dearest\]/detour.sum/' card
    control "out and in exchanged" verdict.js \
        's/bold(trench(app.plan, exchange.out)/bold(trench(app.plan, exchange.in)/' marks
    control "a label left off" picture.js 's/look: .tag., places, at/look: "tag", places: 0, at/' labels
    control "labels anywhere" labels.js 's/if (!taken.free(.*)) continue;//' labels
    control "a picture that moves" picture.js 's/^    this.plan = p;$/& if (this.at.x[0]) this.view.x += 9;/' marks
    control "an answer before it is given" list.js 's/ || app.asked);/);/' lessons
    control "a mark that is not shown" list.js 's/now.box.checked = on;/now.box.blur();/' marks
    control "a stale standing" list.js 's/now.standing.data = words;/now.box.blur();/' marks
    cut='s/#stage { height: 150mm;/& width: 90mm;/;s/#net { --scale: var(--k);/& width: 1280px;/'
    [ $paper = 0 ] || control "a picture cut on paper" ../page.css "$cut" paper
fi
echo "$passed passed, $failed failed"
[ "$failed" = 0 ]
