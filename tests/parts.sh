#!/usr/bin/env bash
# One part of the tests from outside.
# usage: parts.sh BUILD READSTP DIGLIST PART   Ends in one line 'N passed, M failed'.
# PART is a word of the Makefile's DOOR_TESTS, or the end of the name of a function part_.. below.
set -u
cd "$(dirname "$0")/.." || exit 2
build=$1 readstp=$2 diglist=$3 part=$4 work=$(mktemp -d)
trap 'rm -rf "$work"' EXIT
star=$(realpath "$build/star")
read -ra doors < <(sed -n 's/^DOOR_TESTS := //p' Makefile)

# Shows what a test says but for its last line, and adds the counts of that line.
passed=0 failed=0
add() { # COMMAND..
    local line
    "$@" | tee "$work/said" | grep -v '^[0-9]* passed, [0-9]* failed$'
    line=$(tail -n 1 "$work/said")
    if [[ $line =~ ^([0-9]+)\ passed,\ ([0-9]+)\ failed$ ]]; then
        passed=$((passed + BASH_REMATCH[1])) failed=$((failed + BASH_REMATCH[2]))
    else
        echo "no count: $*: $line"
        failed=$((failed + 1))
    fi
}

# The same tests over doors with a fault each fail, and over doors with none do not. The faults are
# those that a source names.
controls() { # PROGRAM SOURCE TABLES
    local program=$1 said=$work/control fault status
    for fault in none $(grep -o 'fault("[^"]*")' "$2" | cut -d '"' -f 2 | sort -u); do
        FAULT=$fault "$build/$program" "$3" >"$said" 2>&1
        status=$?
        if [ $status = 0 ] && [ "$fault" != none ] || ! [[ $(tail -n 1 "$said") =~ failed$ ]]; then
            echo "$program does not find the fault $fault"
            failed=$((failed + 1))
        elif [ "$fault" = none ] && ! grep -q ' 0 failed$' "$said"; then
            echo "$program fails over doors without a fault"
            failed=$((failed + 1))
        else passed=$((passed + 1)); fi
    done
}

# The test of a door, or of the short calls over a table, and how many tables it has.
declare -A tables=([door]=200000 [work]=50000 [districts]=50000 [mend]=50000 [table]=200000)
# How many a fault is looked for in: a step of the test of short calls is one of 26 calls.
declare -A controlled=([table]=8000)
door_test() { # NAME
    add "$build/$1_test" "${tables[$1]:-20000}"
    controls "$1_test_faulty" "tests/faulty_$1.c" "${controlled[$1]:-2000}"
}
part_table() { door_test table; }

# The import, on texts whose answers a plain reader gives: the door, in a thread of 1,280 KiB, and
# the program; the reader of table files and their writer, each held to one of its own, in a thread of
# 64 KiB. The dig list, on the same texts and on tables with a tree, and what happens where it cannot
# be read or written.
part_import() {
    python3 -B tests/stp/generate.py "$work/texts"
    add "$build/import_test" "$work/texts"
    add python3 -B tests/stp/run.py "$readstp"
    add bash tests/diglist.sh "$diglist" "$readstp"
    add python3 -B tests/tablefile/run.py "$build/read_tables" 20000 tests/console/*.txt console/examples/*.txt tests/tablefile/libreoffice/*.csv
    add python3 -B tests/tablefile/write_run.py "$build/write_tables" "$build/read_tables" 3000
}

# The program verdict, on table files whose verdict a plain reader and a plain check give.
part_verdict() { add bash tests/verdict.sh "$build/verdict" "$star"; }

# A sample under valgrind, where it is installed: nothing is read or written outside a lent column.
checked_memory() { # PROGRAM WORDS..
    if valgrind -q --error-exitcode=9 "$@" >"$work/checked"; then
        add cat "$work/checked"
    else
        echo "valgrind found a fault in $1"
        failed=$((failed + 1))
    fi
}
part_memory() {
    local name
    command -v valgrind >/dev/null || return
    checked_memory "$build/door_test" 150 exact
    checked_memory "$build/work_test" 1000 exact
    for name in "${doors[@]}"; do
        [ "$name" != door ] && [ "$name" != work ] || continue
        checked_memory "$build/${name}_test" 300 exact
    done
    python3 -B tests/stp/generate.py "$work/texts"
    checked_memory "$build/import_test" "$work/texts" 20
    checked_memory "$build/table_test" 2000
}
part_memory_console() {
    local words at=console/examples told=tests/console
    command -v valgrind >/dev/null || return
    for words in "draw $at/t2.txt" "build $told/build-refused11.txt" \
        "check $told/check-refused4.txt" "build $told/build-stp-edges.txt" \
        "build $told/build-stp-price-above.txt" "draw $at/grant.txt" "table $at/street.stp" \
        "explain $at/t2.txt" "explain $told/explain-rings.txt" "page --static $at/yard.txt" \
        "page --static $told/explain-ring.txt" "quote $at/yard.txt 4 9" "quote $at/struck.txt 3 9" \
        "breaking $at/struck.txt 1" "breaking $at/bridge.txt 4" \
        "which $at/office-a.txt $at/office-b.txt" "which $at/yard.txt $at/t1.txt" \
        "stretch $at/city.txt 1 255" "digs $at/struck.txt" "digs $at/street.stp" \
        "digs $told/build-stp-word.txt" "strike $at/struck.txt 1" "merge $at/struck.txt" \
        "add $at/struck.txt 2 4 7" "unstrike $at/struck.txt 3" "mark $at/yard.txt 1" \
        "price $at/yard.txt 4 9" "check $told/check-bad-lines.txt" "page --static $at/struck.txt" \
        "page $at/yard.txt" "districts $at/struck.txt 2 5" \
        "districts $at/yard.txt 1 2 3 4 5 6 7 8 9 10" "mend $at/old.txt" "mend $at/struck.txt" \
        "check --json $at/old.txt" "explain --json $at/city.txt 9" \
        "mend --steps --json -o /dev/null $at/old.txt" "outlets --json $at/struck.txt 1 9" \
        "outlets $at/struck.txt 1 9" "outlets $at/yard.txt 1 3" "draw $at/market.csv" \
        "add $at/market.csv Markt Hof 3" "check --json $at/market.csv" "digs $at/market.csv" \
        "page --static $at/market.csv" "check $told/check-refused2.txt"; do
        valgrind -q --error-exitcode=9 --leak-check=full --errors-for-leak-kinds=definite \
            "$build/star" $words >"$work/checked" 2>&1
        if [ $? != 9 ]; then passed=$((passed + 1)); else
            echo "valgrind found a fault in star $words"
            failed=$((failed + 1))
        fi
    done
}

# The console, its pictures and its pages.
part_console() {
    add bash tests/console.sh "$star"
    add python3 -B tests/names.py "$star"
}
part_help() { add python3 -B tests/help.py "$star"; }
part_objects() { add python3 -B tests/objects.py "$star"; }
part_changes() { add bash tests/changes.sh "$star"; }
part_files() { add bash tests/files.sh "$star"; }
part_asked() { add bash tests/asked.sh "$star"; }
part_plans() { add bash tests/plans.sh "$star"; }
part_certificates() { add python3 -B tests/certificates.py "$star" 1000; }
part_picture() { add python3 -B tests/picture.py "$star"; }
# Random command lines, with the compiler's checks of memory and arithmetic, where it has them.
part_random() {
    local checked=$work/star
    if ! "${CC:-cc}" -std=c99 -O1 -g -fsanitize=address,undefined -fno-sanitize-recover=all \
        -Iinclude -o "$checked" console/*.c "$build/libstar.a" -lm 2>/dev/null; then
        echo 'the compiler has no checks: random command lines are run without them'
        checked=$star
    fi
    add python3 -B tests/random_commands.py 1000 1 "$checked"
}
# The second may install a browser, which the first takes where it is there; the seconds of a click
# are measured when nothing else is made.
part_planner() {
    add python3 -B tests/page.py "$star"
    add bash tests/page/run.sh "$build" -clicks
}
part_clicks() { add bash tests/page/run.sh "$build" clicks; }

# The compiler's back ends, texts of the fuzzer, what C and Python programmers get, the documents.
part_backends() { add make -s backends BUILD="$build"; }
part_fuzz() { add make -s fuzz-replay BUILD="$build"; }
part_library() { add bash tests/library.sh; }
part_installed() { add bash tests/installed.sh "$build"; }
# Both make the wheel.
part_python_docs() {
    add bash tests/python.sh 20000
    add python3 -B tests/docs.py "$build"
}

# The sources, the record, the gate and the packages.
part_format() { add bash tests/format.sh; }
part_codehash() { add python3 -B tests/codehash_test.py target/objects; }
part_record() { add bash tests/record.sh; }
part_proving() { add bash tests/proving.sh; }
part_edits() { add bash tests/edits.sh; }
part_packaged() { add bash tests/packaged.sh; }

if [[ " ${doors[*]} " = *" $part "* ]]; then door_test "$part"; else
    declare -F "part_$part" >/dev/null || { echo "no part $part"; exit 1; }
    "part_$part"
fi
echo "$passed passed, $failed failed"
[ "$failed" = 0 ]
